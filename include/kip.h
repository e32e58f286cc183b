/* kip.h: TigerBeetle's ledger in one process and in memory, for tests, simulators and small services.
 *
 * Link with libkip.a or libkip.so, which need only the C library. Nothing here starts a thread, sleeps, or reads a file or
 * a clock: the same calls give the same replies.
 *
 * A packet that isn't committed has no results, and neither has one whose events all succeeded. So read a reply's outcome
 * before its results, or ask kip_succeeded, which is false of a reply that wasn't read. Look at each status: compilers warn of
 * a call whose status is dropped.
 *
 * Proved, of the engine behind a handle, for every sequence of calls: what it committed is a prefix of what was queued
 * ahead of kip_shut, in order; the replies read are a prefix of those due, and each is what the state machine gives that
 * packet alone at its place, however packets were joined. Once kip_flush returned KIP_OK and kip_reply KIP_NO_REPLY they
 * are all of them (after kip_open_recorded: once all is stored too), and unless the engine stopped, all that was queued ahead of
 * kip_shut is committed. A packet of kip_restore counts as queued, and its reply, which isn't given, as read. The engine stops only if
 * 2^63 packets and pulses aren't enough. A call that returns another status than KIP_OK leaves the engine as it was: after
 * KIP_NO_MEMORY it can be made again. A handle may move from one thread to another. Only tested: KIP_NO_MEMORY comes only if
 * an allocation failed; the inline functions of this header, and so KIP_BUSY and KIP_NULL_POINTER.
 *
 * Memory grows by what is stored: 148 bytes a transfer, and 36 for each id that failed with a code that later transfers
 * with that id get again (id_already_failed). Nothing limits failed ids: who may send transfers may fill memory.
 *
 * The caller must ensure, and nothing checks:
 *  - Each pointer is valid, aligned and not null, and its memory belongs to no other argument of the call, and to no call
 *    of another thread. Null is allowed only for data and results of size 0, in kip_submit, kip_reply, kip_entry and
 *    kip_restore.
 *  - Buffers are as large as their sizes say.
 *  - A handle is zeroed before its first kip_open. Only the functions below change it, and no copy of it is used.
 *  - One call at a time is made with a handle, on any thread; what one thread did is visible to the next, as by a lock.
 *    The functions of this header return KIP_BUSY to a thread that enters during another's call. The exports, which
 *    callers in other languages use, don't look.
 *  - malloc, realloc and free belong to one allocator, whose memory is aligned to 16. No call is made from a signal
 *    handler, or from the forked child of a process with threads.
 */
#ifndef KIP_H
#define KIP_H

#include <stdbool.h>
#include <stddef.h>
#include <stdint.h>
#include <string.h>

/* KIP_INIT zeroes a handle or a reply in C and C++: `kip_t kip = KIP_INIT;`. */
#ifdef __cplusplus
#define KIP_STATIC_ASSERT static_assert
#define KIP_INIT {}
#else
#define KIP_STATIC_ASSERT __extension__ _Static_assert
#define KIP_INIT {0}
#endif

/* Lets the compiler warn of a call whose result nobody looks at. */
#if (defined(__cplusplus) && __cplusplus >= 201703L) || (defined(__STDC_VERSION__) && __STDC_VERSION__ >= 202311L)
#define KIP_CHECKED [[nodiscard]]
#elif defined(__GNUC__)
#define KIP_CHECKED __attribute__((warn_unused_result))
#else
#define KIP_CHECKED
#endif

#ifdef __cplusplus
extern "C" {
#endif

/* Opaque: a handle is zeroed by KIP_INIT, then passed by its address. The library reads and writes its first 16 bytes;
 * `entered` is this header's, and 1 during a call. */
typedef struct kip_t {
    void *engine;
    bool is_open;
    uint32_t reserved;
    uint32_t entered;
} kip_t;

enum {
    KIP_VERSION = 0x000100, /* major, minor, patch: a byte each */
    KIP_BATCH_MAX = 8190,
    KIP_SUBMITTERS_MAX = 16,
};

typedef enum KIP_OPERATION {
    KIP_OPERATION_CREATE_ACCOUNTS = 129,
    KIP_OPERATION_CREATE_TRANSFERS = 130,
    KIP_OPERATION_LOOKUP_ACCOUNTS = 131,
} KIP_OPERATION;

/* Up to 99 a status is the number of a refusal of the pipeline. The first that applies is returned. kip_submit, kip_reply, kip_entry and
 * kip_restore look for KIP_NULL_POINTER ahead of all. Each call but kip_version then looks for KIP_BUSY, and then for those that it lists
 * below, in that order.
 *
 * With another status than KIP_OK the engine is as it was, and what a call would have written looks like no result. An account,
 * a transfer and counts are zeroed. A packet's number, a clock, a pending status, a reply's outcome and an entry's place are numbers that
 * none of them has: they are defined below. The exports, which callers in other languages use, write only the head of kip_reply_bytes and
 * of kip_entry_bytes, with KIP_TOO_SMALL, and what kip_entry_bytes says of KIP_NO_MEMORY. */
typedef enum KIP_STATUS {
    KIP_OK = 0,
    KIP_INVALID_OPERATION = 1,
    KIP_INVALID_DATA_SIZE = 2,
    KIP_TOO_MUCH_DATA = 3,
    KIP_FULL = 5, /* the submitter has no number left */
    KIP_NO_MEMORY = 6,
    KIP_SHUTDOWN = 7, /* kip_pulse or kip_shut after kip_shut */
    KIP_STOPPED = 8,  /* 2^63 places are used up: nothing more is committed */
    KIP_BAD_LIMIT = 9,
    KIP_BAD_SUBMITTERS = 11,
    KIP_MOMENT_TOO_LARGE = 12,
    KIP_CLOSED = 100,
    KIP_ALREADY_OPEN = 101,
    KIP_NO_REPLY = 102, /* all are read, or none is there: packets that wait have none before kip_flush, and see kip_durable */
    KIP_TOO_SMALL = 103,
    KIP_NOT_FOUND = 104,
    KIP_NULL_POINTER = 105, /* null data or results of a size above 0 */
    KIP_BUSY = 106,         /* another thread is in a call with this handle */
    KIP_NO_ENTRY = 107,     /* all that is committed was handed out */
    KIP_NOT_NEXT = 108,     /* an entry isn't at the next place, no place is left, or its number isn't its submitter's next */
    KIP_IN_USE = 109,       /* packets wait, replies are unread, entries aren't handed out, or kip_shut was called */
    KIP_NOT_RECORDED = 110, /* the handle wasn't opened by kip_open_recorded */
    KIP_NOT_HANDED_OUT = 111, /* an entry below the place is still to be handed out */
} KIP_STATUS;

typedef enum KIP_OUTCOME {
    KIP_OUTCOME_COMMITTED = 0,
    KIP_OUTCOME_SHUTDOWN = 7, /* queued after kip_shut */
    KIP_OUTCOME_STOPPED = 8,  /* there was no place left for its batch */
} KIP_OUTCOME;

/* What a call leaves when its status isn't KIP_OK. */
#define KIP_OUTCOME_UNREAD UINT32_MAX  /* of a reply: none was read */
#define KIP_NUMBER_NONE UINT64_MAX     /* of a packet that isn't queued */
#define KIP_PENDING_UNKNOWN UINT32_MAX /* of a transfer that wasn't found */
#define KIP_CLOCK_NONE UINT64_MAX
#define KIP_PLACES_NONE UINT64_MAX     /* also of an entry that wasn't handed out */

#define KIP_ENTRY_PULSE 0 /* what a pulse's entry has for an operation */

typedef enum KIP_PENDING_STATUS {
    KIP_PENDING_NONE = 0, /* the transfer isn't pending */
    KIP_PENDING_PENDING = 1,
    KIP_PENDING_POSTED = 2,
    KIP_PENDING_VOIDED = 3,
    KIP_PENDING_EXPIRED = 4,
} KIP_PENDING_STATUS;

typedef enum KIP_ACCOUNT_FLAGS {
    KIP_ACCOUNT_LINKED = 1,
    KIP_ACCOUNT_DEBITS_MUST_NOT_EXCEED_CREDITS = 2,
    KIP_ACCOUNT_CREDITS_MUST_NOT_EXCEED_DEBITS = 4,
    KIP_ACCOUNT_HISTORY = 8,
} KIP_ACCOUNT_FLAGS;

typedef enum KIP_TRANSFER_FLAGS {
    KIP_TRANSFER_LINKED = 1,
    KIP_TRANSFER_PENDING = 2,
    KIP_TRANSFER_POST_PENDING_TRANSFER = 4,
    KIP_TRANSFER_VOID_PENDING_TRANSFER = 8,
} KIP_TRANSFER_FLAGS;

/* TigerBeetle's layouts, little-endian. */
typedef struct kip_uint128 {
    uint64_t low;
    uint64_t high;
} kip_uint128;

typedef struct kip_account {
    kip_uint128 id, debits_pending, debits_posted, credits_pending, credits_posted, user_data_128;
    uint64_t user_data_64;
    uint32_t user_data_32, reserved, ledger;
    uint16_t code, flags;
    uint64_t timestamp;
} kip_account;

typedef struct kip_transfer {
    kip_uint128 id, debit_account_id, credit_account_id, amount, pending_id, user_data_128;
    uint64_t user_data_64;
    uint32_t user_data_32, timeout, ledger;
    uint16_t code, flags;
    uint64_t timestamp;
} kip_transfer;

/* Only events that failed have a result. */
typedef struct kip_failure {
    uint32_t index, result;
} kip_failure;

/* A reply belongs to the packet with its submitter and number: the next one may be another packet's. */
typedef struct kip_reply_t {
    uint64_t user_data; /* the packet's */
    uint64_t number;    /* the packet's, among its submitter's */
    uint64_t place;     /* among all committed packets and pulses; 0 if it isn't committed */
    uint64_t size;      /* the bytes of its results */
    uint32_t submitter;
    uint32_t outcome; /* a KIP_OUTCOME, or KIP_OUTCOME_UNREAD */
    uint32_t operation;
    uint32_t is_read; /* this header's, and 1 if kip_reply returned KIP_OK; the exports write 0 */
} kip_reply_t;

/* An entry of the journal: a packet or a pulse that is committed, at its place. A packet's data are its events. */
typedef struct kip_entry_t {
    uint64_t place;     /* among all committed packets and pulses */
    uint64_t moment;    /* a pulse's, in nanoseconds; 0 of a packet */
    uint64_t number;    /* the packet's, among its submitter's */
    uint64_t size;      /* the bytes of its data */
    uint32_t submitter;
    uint32_t operation; /* KIP_ENTRY_PULSE of a pulse, which has no data */
} kip_entry_t;

typedef struct kip_counts_t {
    uint64_t accounts;
    uint64_t transfers;
    uint64_t failed_ids; /* ids of transfers that failed so that later transfers with them fail as id_already_failed */
} kip_counts_t;

KIP_STATIC_ASSERT(sizeof(void *) == 8 && sizeof(size_t) == 8, "64 bits");
KIP_STATIC_ASSERT(offsetof(kip_t, is_open) == 8 && offsetof(kip_t, entered) == 16, "kip_t");
KIP_STATIC_ASSERT(sizeof(kip_account) == 128 && offsetof(kip_account, user_data_64) == 96, "kip_account");
KIP_STATIC_ASSERT(offsetof(kip_account, ledger) == 112 && offsetof(kip_account, timestamp) == 120, "kip_account");
KIP_STATIC_ASSERT(sizeof(kip_transfer) == 128 && offsetof(kip_transfer, amount) == 48, "kip_transfer");
KIP_STATIC_ASSERT(offsetof(kip_transfer, flags) == 118 && offsetof(kip_transfer, timestamp) == 120, "kip_transfer");
KIP_STATIC_ASSERT(sizeof(kip_failure) == 8 && offsetof(kip_failure, result) == 4, "kip_failure");
KIP_STATIC_ASSERT(sizeof(kip_counts_t) == 24 && offsetof(kip_counts_t, failed_ids) == 16, "kip_counts_t");
KIP_STATIC_ASSERT(sizeof(kip_reply_t) == 48 && offsetof(kip_reply_t, outcome) == 36, "kip_reply_t");
KIP_STATIC_ASSERT(offsetof(kip_reply_t, is_read) == 44, "kip_reply_t");
KIP_STATIC_ASSERT(sizeof(kip_entry_t) == 40 && offsetof(kip_entry_t, operation) == 36, "kip_entry_t");

/* Returns KIP_VERSION of the library. */
uint32_t kip_version(void);

/* Opens a closed handle. clock: nanoseconds, at most 2^63 - 1. limit: 1 to 8190 events a batch and a packet. submitters: 1
 * to 16. Statuses: KIP_ALREADY_OPEN, KIP_MOMENT_TOO_LARGE, KIP_BAD_LIMIT, KIP_BAD_SUBMITTERS, KIP_NO_MEMORY. */
KIP_CHECKED
uint32_t kip_open(kip_t *kip, uint64_t clock, uint32_t limit, uint32_t submitters);

/* Opens a closed handle as kip_open does, and hashes ids with a seed. Replies don't depend on the seed. Statuses: those of
 * kip_open.
 *
 * Use a seed whenever ids can be chosen by someone you don't trust. Take both numbers from the operating system's random
 * source, for example by getentropy, and keep them secret: nothing random is in the library. kip_open hashes with numbers
 * that everybody knows. Two packets of 8,190 transfers with ids crafted for them make each later event cost some 25,000
 * instructions. With a secret seed, ids of the known families cost what fair ids cost. */
KIP_CHECKED
uint32_t kip_open_seeded(kip_t *kip, uint64_t clock, uint32_t limit, uint32_t submitters, uint64_t seed_low,
                         uint64_t seed_high);

/* Opens a closed handle as kip_open_seeded does, for a host that keeps the journal in a store of its own, so that the ledger is there again
 * after a crash. kip_entry hands out what is committed. The host stores it, and then says so by kip_durable. Until then kip_reply
 * doesn't give the packet's reply: nobody can be told that a packet is committed which a crash could lose. After a crash the host opens
 * with the same clock, limit and submitters, and kip_restore commits each stored entry again. Statuses: those of kip_open.
 *
 * Look-ups, kip_counts and kip_clock show what is committed, stored or not. */
KIP_CHECKED
uint32_t kip_open_recorded(kip_t *kip, uint64_t clock, uint32_t limit, uint32_t submitters, uint64_t seed_low,
                           uint64_t seed_high);

/* Reserves capacity for accounts and transfers that are still to be made. Until then no commit waits for their maps to
 * grow, which moves all that is stored; failed ids and expiries grow as needed. Statuses: KIP_CLOSED, KIP_NO_MEMORY. */
KIP_CHECKED
uint32_t kip_reserve(kip_t *kip, size_t accounts, size_t transfers);

/* Frees all that is behind the handle. Statuses: KIP_CLOSED. */
KIP_CHECKED
uint32_t kip_close(kip_t *kip);

/* Queues a packet with a copy of the data, and makes capacity for all that it and the packets that wait can create. It
 * waits for neighbours of its operation, until one that doesn't join it, kip_pulse, kip_shut or kip_flush commits it. A call
 * for which memory runs out, also as it commits what waits, returns KIP_NO_MEMORY: nothing has changed, and what waits still
 * does. KIP_OK says that it is queued: only its reply says that it is committed. Data needs no alignment, and isn't read if the
 * packet is refused. Statuses: KIP_CLOSED, KIP_BAD_SUBMITTERS, KIP_STOPPED, KIP_FULL, KIP_INVALID_OPERATION,
 * KIP_INVALID_DATA_SIZE, KIP_TOO_MUCH_DATA, KIP_NO_MEMORY. kip_submit, below, also takes null data of size 0, and returns
 * KIP_NULL_POINTER for null data of another size. */
KIP_CHECKED
uint32_t kip_submit_bytes(kip_t *kip, uint32_t submitter, uint8_t operation, const void *data, size_t data_size,
                          uint64_t user_data, uint64_t *number);

/* Queues a pulse, which raises the clock to a moment of at most 2^62 nanoseconds; pending transfers whose timeout is over
 * by then expire. Statuses: KIP_CLOSED, KIP_MOMENT_TOO_LARGE, KIP_SHUTDOWN, KIP_STOPPED, KIP_NO_MEMORY. */
KIP_CHECKED
uint32_t kip_pulse(kip_t *kip, uint64_t nanoseconds);

/* Queues the Close: packets after it aren't committed. Statuses: KIP_CLOSED, KIP_SHUTDOWN, KIP_NO_MEMORY. */
KIP_CHECKED
uint32_t kip_shut(kip_t *kip);

/* Commits the packets that wait. If the engine stops meanwhile, their replies say so. Statuses: KIP_CLOSED, KIP_NO_MEMORY. */
KIP_CHECKED
uint32_t kip_flush(kip_t *kip);

/* Reads the next reply, in the order in which packets were queued. Results are kip_failure or, of a look-up,
 * kip_account. With KIP_TOO_SMALL the reply stays the next one. Its head is written, with the size that is needed, but its
 * outcome is KIP_OUTCOME_UNREAD. With any other status but KIP_OK the head is zeroed and has that outcome. Statuses:
 * KIP_CLOSED, KIP_NO_REPLY, KIP_TOO_SMALL. kip_reply, below, also takes null results of size 0, and returns KIP_NULL_POINTER
 * for null results of another size. */
KIP_CHECKED
uint32_t kip_reply_bytes(kip_t *kip, kip_reply_t *reply, void *results, size_t results_size);

/* Hands out the next entry of the journal, and writes a packet's data: first what is committed first. Packets that wait are in no entry
 * before kip_flush. With KIP_TOO_SMALL the entry stays the next one, and its head is written, with the size that is needed. Head and data
 * may have been written with KIP_NO_MEMORY. Statuses: KIP_CLOSED, KIP_NOT_RECORDED, KIP_NO_ENTRY, KIP_TOO_SMALL, KIP_NO_MEMORY.
 * kip_entry, below, also takes null data of size 0, and returns KIP_NULL_POINTER for null data of another size. With another status than
 * KIP_OK the head's place is KIP_PLACES_NONE, and with another than KIP_TOO_SMALL too the rest of it is zeroed. */
KIP_CHECKED
uint32_t kip_entry_bytes(kip_t *kip, kip_entry_t *entry, void *data, size_t data_size);

/* Notes that all entries at places below a number are stored, so that a crash can't lose them: then their replies can be read. The number
 * is at most the place of the next entry, or kip_places if all were handed out. A lower number than before changes nothing. Nothing checks
 * that the host has stored them. Statuses: KIP_CLOSED, KIP_NOT_RECORDED, KIP_NOT_HANDED_OUT. */
KIP_CHECKED
uint32_t kip_durable(kip_t *kip, uint64_t places);

/* Commits an entry again, by itself and at the next place. Its reply isn't given, its packet gets its old number, and it isn't handed out.
 * Entries are restored in the order of places, while no packet waits and no reply is unread: so a handle's own packets come after them.
 * A pulse's submitter and number aren't read, nor a packet's moment. The handle may be one of kip_open too. Statuses: KIP_CLOSED, KIP_INVALID_DATA_SIZE if the entry has another size
 * than the data, KIP_IN_USE, those of kip_submit_bytes or kip_pulse, KIP_NOT_NEXT, KIP_NO_MEMORY; KIP_NO_MEMORY may also come ahead of those
 * after KIP_INVALID_DATA_SIZE. kip_restore, below, also takes null data of size 0, and returns KIP_NULL_POINTER for null data of another
 * size. */
KIP_CHECKED
uint32_t kip_restore_bytes(kip_t *kip, const kip_entry_t *entry, const void *data, size_t data_size);

/* Returns KIP_STOPPED if the engine stopped. Statuses: KIP_CLOSED, KIP_STOPPED. */
KIP_CHECKED
uint32_t kip_stopped(kip_t *kip);

/* Writes the account with an id; packets that wait aren't in it. Statuses: KIP_CLOSED, KIP_NOT_FOUND. */
KIP_CHECKED
uint32_t kip_lookup_account(kip_t *kip, uint64_t id_low, uint64_t id_high, kip_account *account);

/* Writes the account at an index in the order of making, from 0. Statuses: KIP_CLOSED, KIP_NOT_FOUND. */
KIP_CHECKED
uint32_t kip_account_at(kip_t *kip, size_t index, kip_account *account);

/* Writes the transfer with an id and its KIP_PENDING_STATUS. A post or a void has its resolved fields. Statuses: KIP_CLOSED,
 * KIP_NOT_FOUND. */
KIP_CHECKED
uint32_t kip_lookup_transfer(kip_t *kip, uint64_t id_low, uint64_t id_high, kip_transfer *transfer,
                             uint32_t *pending_status);

/* Writes the transfer at an index in the order of making, from 0, and its KIP_PENDING_STATUS. Statuses: KIP_CLOSED,
 * KIP_NOT_FOUND. */
KIP_CHECKED
uint32_t kip_transfer_at(kip_t *kip, size_t index, kip_transfer *transfer, uint32_t *pending_status);

/* Writes how many accounts, transfers and failed ids are stored; packets that wait aren't in it. A failed id takes 36 bytes,
 * and nothing limits these ids. Statuses: KIP_CLOSED. */
KIP_CHECKED
uint32_t kip_counts(kip_t *kip, kip_counts_t *counts);

/* Writes the clock in nanoseconds. Statuses: KIP_CLOSED. */
KIP_CHECKED
uint32_t kip_clock(kip_t *kip, uint64_t *nanoseconds);

/* Writes how many packets and pulses are committed: the place of the next one. Right after kip_pulse that pulse is at the place
 * before. Statuses: KIP_CLOSED. */
KIP_CHECKED
uint32_t kip_places(kip_t *kip, uint64_t *places);

/* Returns whether a reply was read, and its packet is committed. If the packet isn't, it has no results, and nothing of it
 * happened. */
KIP_CHECKED static inline bool kip_committed(const kip_reply_t *reply) {
    return reply->is_read == 1 && reply->outcome == KIP_OUTCOME_COMMITTED;
}

/* Returns whether a reply was read, its packet is committed, and none of its events failed. */
KIP_CHECKED static inline bool kip_succeeded(const kip_reply_t *reply) {
    return kip_committed(reply) && (reply->size == 0 || reply->operation == KIP_OPERATION_LOOKUP_ACCOUNTS);
}

/* ---- The same calls, each refused with KIP_BUSY during another thread's call. In C and C++ the names above are these. They
 * take wider numbers than the exports, so that one that is too large is refused and not cut. */

KIP_CHECKED static inline bool kip_enter(kip_t *kip) { return __atomic_exchange_n(&kip->entered, 1, __ATOMIC_ACQUIRE) == 0; }

static inline uint32_t kip_leave(kip_t *kip, uint32_t status) {
    __atomic_store_n(&kip->entered, 0, __ATOMIC_RELEASE);
    return status;
}

/* Returns a number in 32 bits. One that needs more is UINT32_MAX, which is no submitter and no setting. */
static inline uint32_t kip_narrow(uint64_t number) { return number < UINT32_MAX ? number & UINT32_MAX : UINT32_MAX; }

/* Zeroes a reply, and says that none was read. */
static inline void kip_unread(kip_reply_t *reply) {
    memset(reply, 0, sizeof *reply);
    reply->outcome = KIP_OUTCOME_UNREAD;
}

KIP_CHECKED static inline uint32_t kip_guarded_open(kip_t *kip, uint64_t clock, uint64_t limit, uint64_t submitters) {
    if (!kip_enter(kip)) return KIP_BUSY;
    return kip_leave(kip, kip_open(kip, clock, kip_narrow(limit), kip_narrow(submitters)));
}

KIP_CHECKED static inline uint32_t kip_guarded_open_seeded(kip_t *kip, uint64_t clock, uint64_t limit, uint64_t submitters,
                                                           uint64_t seed_low, uint64_t seed_high) {
    if (!kip_enter(kip)) return KIP_BUSY;
    return kip_leave(kip, kip_open_seeded(kip, clock, kip_narrow(limit), kip_narrow(submitters), seed_low, seed_high));
}

KIP_CHECKED static inline uint32_t kip_guarded_open_recorded(kip_t *kip, uint64_t clock, uint64_t limit, uint64_t submitters,
                                                             uint64_t seed_low, uint64_t seed_high) {
    if (!kip_enter(kip)) return KIP_BUSY;
    return kip_leave(kip, kip_open_recorded(kip, clock, kip_narrow(limit), kip_narrow(submitters), seed_low, seed_high));
}

KIP_CHECKED static inline uint32_t kip_guarded_reserve(kip_t *kip, size_t accounts, size_t transfers) {
    if (!kip_enter(kip)) return KIP_BUSY;
    return kip_leave(kip, kip_reserve(kip, accounts, transfers));
}

KIP_CHECKED static inline uint32_t kip_guarded_close(kip_t *kip) {
    if (!kip_enter(kip)) return KIP_BUSY;
    return kip_leave(kip, kip_close(kip));
}

KIP_CHECKED static inline uint32_t kip_guarded_submit_bytes(kip_t *kip, uint64_t submitter, uint64_t operation,
                                                            const void *data, size_t data_size, uint64_t user_data,
                                                            uint64_t *number) {
    const uint8_t narrow = operation <= UINT8_MAX ? operation & UINT8_MAX : 0; /* 0 is no operation */
    *number = KIP_NUMBER_NONE;
    if (!kip_enter(kip)) return KIP_BUSY;
    return kip_leave(kip, kip_submit_bytes(kip, kip_narrow(submitter), narrow, data, data_size, user_data, number));
}

KIP_CHECKED static inline uint32_t kip_guarded_pulse(kip_t *kip, uint64_t nanoseconds) {
    if (!kip_enter(kip)) return KIP_BUSY;
    return kip_leave(kip, kip_pulse(kip, nanoseconds));
}

KIP_CHECKED static inline uint32_t kip_guarded_shut(kip_t *kip) {
    if (!kip_enter(kip)) return KIP_BUSY;
    return kip_leave(kip, kip_shut(kip));
}

KIP_CHECKED static inline uint32_t kip_guarded_flush(kip_t *kip) {
    if (!kip_enter(kip)) return KIP_BUSY;
    return kip_leave(kip, kip_flush(kip));
}

KIP_CHECKED static inline uint32_t kip_guarded_reply_bytes(kip_t *kip, kip_reply_t *reply, void *results,
                                                           size_t results_size) {
    uint32_t status;
    kip_unread(reply);
    if (!kip_enter(kip)) return KIP_BUSY;
    status = kip_reply_bytes(kip, reply, results, results_size);
    if (status == KIP_OK)
        reply->is_read = 1;
    else
        reply->outcome = KIP_OUTCOME_UNREAD;
    return kip_leave(kip, status);
}

/* Zeroes an entry, and says that none was handed out. */
static inline void kip_no_entry(kip_entry_t *entry) {
    memset(entry, 0, sizeof *entry);
    entry->place = KIP_PLACES_NONE;
}

KIP_CHECKED static inline uint32_t kip_guarded_entry_bytes(kip_t *kip, kip_entry_t *entry, void *data, size_t data_size) {
    uint32_t status;
    kip_no_entry(entry);
    if (!kip_enter(kip)) return KIP_BUSY;
    status = kip_entry_bytes(kip, entry, data, data_size);
    if (status != KIP_OK && status != KIP_TOO_SMALL) kip_no_entry(entry);
    if (status != KIP_OK) entry->place = KIP_PLACES_NONE;
    return kip_leave(kip, status);
}

KIP_CHECKED static inline uint32_t kip_guarded_durable(kip_t *kip, uint64_t places) {
    if (!kip_enter(kip)) return KIP_BUSY;
    return kip_leave(kip, kip_durable(kip, places));
}

KIP_CHECKED static inline uint32_t kip_guarded_restore_bytes(kip_t *kip, const kip_entry_t *entry, const void *data,
                                                             size_t data_size) {
    if (!kip_enter(kip)) return KIP_BUSY;
    return kip_leave(kip, kip_restore_bytes(kip, entry, data, data_size));
}

KIP_CHECKED static inline uint32_t kip_guarded_stopped(kip_t *kip) {
    if (!kip_enter(kip)) return KIP_BUSY;
    return kip_leave(kip, kip_stopped(kip));
}

KIP_CHECKED static inline uint32_t kip_guarded_lookup_account(kip_t *kip, uint64_t id_low, uint64_t id_high,
                                                              kip_account *account) {
    memset(account, 0, sizeof *account);
    if (!kip_enter(kip)) return KIP_BUSY;
    return kip_leave(kip, kip_lookup_account(kip, id_low, id_high, account));
}

KIP_CHECKED static inline uint32_t kip_guarded_account_at(kip_t *kip, size_t index, kip_account *account) {
    memset(account, 0, sizeof *account);
    if (!kip_enter(kip)) return KIP_BUSY;
    return kip_leave(kip, kip_account_at(kip, index, account));
}

KIP_CHECKED static inline uint32_t kip_guarded_lookup_transfer(kip_t *kip, uint64_t id_low, uint64_t id_high,
                                                               kip_transfer *transfer, uint32_t *pending_status) {
    memset(transfer, 0, sizeof *transfer);
    *pending_status = KIP_PENDING_UNKNOWN;
    if (!kip_enter(kip)) return KIP_BUSY;
    return kip_leave(kip, kip_lookup_transfer(kip, id_low, id_high, transfer, pending_status));
}

KIP_CHECKED static inline uint32_t kip_guarded_transfer_at(kip_t *kip, size_t index, kip_transfer *transfer,
                                                           uint32_t *pending_status) {
    memset(transfer, 0, sizeof *transfer);
    *pending_status = KIP_PENDING_UNKNOWN;
    if (!kip_enter(kip)) return KIP_BUSY;
    return kip_leave(kip, kip_transfer_at(kip, index, transfer, pending_status));
}

KIP_CHECKED static inline uint32_t kip_guarded_counts(kip_t *kip, kip_counts_t *counts) {
    memset(counts, 0, sizeof *counts);
    if (!kip_enter(kip)) return KIP_BUSY;
    return kip_leave(kip, kip_counts(kip, counts));
}

KIP_CHECKED static inline uint32_t kip_guarded_clock(kip_t *kip, uint64_t *nanoseconds) {
    *nanoseconds = KIP_CLOCK_NONE;
    if (!kip_enter(kip)) return KIP_BUSY;
    return kip_leave(kip, kip_clock(kip, nanoseconds));
}

KIP_CHECKED static inline uint32_t kip_guarded_places(kip_t *kip, uint64_t *places) {
    *places = KIP_PLACES_NONE;
    if (!kip_enter(kip)) return KIP_BUSY;
    return kip_leave(kip, kip_places(kip, places));
}

#define kip_open kip_guarded_open
#define kip_open_seeded kip_guarded_open_seeded
#define kip_open_recorded kip_guarded_open_recorded
#define kip_reserve kip_guarded_reserve
#define kip_close kip_guarded_close
#define kip_submit_bytes kip_guarded_submit_bytes
#define kip_pulse kip_guarded_pulse
#define kip_shut kip_guarded_shut
#define kip_flush kip_guarded_flush
#define kip_reply_bytes kip_guarded_reply_bytes
#define kip_entry_bytes kip_guarded_entry_bytes
#define kip_durable kip_guarded_durable
#define kip_restore_bytes kip_guarded_restore_bytes
#define kip_stopped kip_guarded_stopped
#define kip_lookup_account kip_guarded_lookup_account
#define kip_account_at kip_guarded_account_at
#define kip_lookup_transfer kip_guarded_lookup_transfer
#define kip_transfer_at kip_guarded_transfer_at
#define kip_counts kip_guarded_counts
#define kip_clock kip_guarded_clock
#define kip_places kip_guarded_places

KIP_CHECKED static inline uint32_t kip_submit(kip_t *kip, uint64_t submitter, uint64_t operation, const void *data,
                                              size_t data_size, uint64_t user_data, uint64_t *number) {
    *number = KIP_NUMBER_NONE;
    if (!data && data_size != 0) return KIP_NULL_POINTER;
    return kip_submit_bytes(kip, submitter, operation, data ? data : "", data_size, user_data, number);
}

KIP_CHECKED static inline uint32_t kip_reply(kip_t *kip, kip_reply_t *reply, void *results, size_t results_size) {
    char nothing;
    kip_unread(reply);
    if (!results && results_size != 0) return KIP_NULL_POINTER;
    return kip_reply_bytes(kip, reply, results ? results : &nothing, results_size);
}

KIP_CHECKED static inline uint32_t kip_entry(kip_t *kip, kip_entry_t *entry, void *data, size_t data_size) {
    char nothing;
    kip_no_entry(entry);
    if (!data && data_size != 0) return KIP_NULL_POINTER;
    return kip_entry_bytes(kip, entry, data ? data : &nothing, data_size);
}

KIP_CHECKED static inline uint32_t kip_restore(kip_t *kip, const kip_entry_t *entry, const void *data, size_t data_size) {
    if (!data && data_size != 0) return KIP_NULL_POINTER;
    return kip_restore_bytes(kip, entry, data ? data : "", data_size);
}

/* Returns a status's name as in KIP_STATUS, without "KIP_", in lower case; "unknown" for any other number. */
static inline const char *kip_status_name(uint32_t status) {
    switch (status) {
        case KIP_OK: return "ok";
        case KIP_INVALID_OPERATION: return "invalid_operation";
        case KIP_INVALID_DATA_SIZE: return "invalid_data_size";
        case KIP_TOO_MUCH_DATA: return "too_much_data";
        case KIP_FULL: return "full";
        case KIP_NO_MEMORY: return "no_memory";
        case KIP_SHUTDOWN: return "shutdown";
        case KIP_STOPPED: return "stopped";
        case KIP_BAD_LIMIT: return "bad_limit";
        case KIP_BAD_SUBMITTERS: return "bad_submitters";
        case KIP_MOMENT_TOO_LARGE: return "moment_too_large";
        case KIP_CLOSED: return "closed";
        case KIP_ALREADY_OPEN: return "already_open";
        case KIP_NO_REPLY: return "no_reply";
        case KIP_TOO_SMALL: return "too_small";
        case KIP_NOT_FOUND: return "not_found";
        case KIP_NULL_POINTER: return "null_pointer";
        case KIP_BUSY: return "busy";
        case KIP_NO_ENTRY: return "no_entry";
        case KIP_NOT_NEXT: return "not_next";
        case KIP_IN_USE: return "in_use";
        case KIP_NOT_RECORDED: return "not_recorded";
        case KIP_NOT_HANDED_OUT: return "not_handed_out";
        default: return "unknown";
    }
}

/* Results, by tools/gate/result-names: begin */
/* Returns the name of a result of create_accounts; "unknown" for any other number. */
static inline const char *kip_account_result_name(uint32_t result) {
    switch (result) {
        case 0: return "ok";
        case 1: return "linked_event_failed";
        case 2: return "linked_event_chain_open";
        case 3: return "timestamp_must_be_zero";
        case 4: return "reserved_field";
        case 5: return "reserved_flag";
        case 6: return "id_must_not_be_zero";
        case 7: return "id_must_not_be_int_max";
        case 8: return "flags_are_mutually_exclusive";
        case 9: return "debits_pending_must_be_zero";
        case 10: return "debits_posted_must_be_zero";
        case 11: return "credits_pending_must_be_zero";
        case 12: return "credits_posted_must_be_zero";
        case 13: return "ledger_must_not_be_zero";
        case 14: return "code_must_not_be_zero";
        case 15: return "exists_with_different_flags";
        case 16: return "exists_with_different_user_data_128";
        case 17: return "exists_with_different_user_data_64";
        case 18: return "exists_with_different_user_data_32";
        case 19: return "exists_with_different_ledger";
        case 20: return "exists_with_different_code";
        case 21: return "exists";
        case 201: return "clock_exhausted";
        default: return "unknown";
    }
}

/* Returns the name of a result of create_transfers; "unknown" for any other number. */
static inline const char *kip_transfer_result_name(uint32_t result) {
    switch (result) {
        case 0: return "ok";
        case 1: return "linked_event_failed";
        case 2: return "linked_event_chain_open";
        case 3: return "timestamp_must_be_zero";
        case 4: return "reserved_flag";
        case 5: return "id_must_not_be_zero";
        case 6: return "id_must_not_be_int_max";
        case 7: return "flags_are_mutually_exclusive";
        case 8: return "debit_account_id_must_not_be_zero";
        case 9: return "debit_account_id_must_not_be_int_max";
        case 10: return "credit_account_id_must_not_be_zero";
        case 11: return "credit_account_id_must_not_be_int_max";
        case 12: return "accounts_must_be_different";
        case 13: return "pending_id_must_be_zero";
        case 14: return "pending_id_must_not_be_zero";
        case 15: return "pending_id_must_not_be_int_max";
        case 16: return "pending_id_must_be_different";
        case 17: return "timeout_reserved_for_pending_transfer";
        case 19: return "ledger_must_not_be_zero";
        case 20: return "code_must_not_be_zero";
        case 21: return "debit_account_not_found";
        case 22: return "credit_account_not_found";
        case 23: return "accounts_must_have_the_same_ledger";
        case 24: return "transfer_must_have_the_same_ledger_as_accounts";
        case 25: return "pending_transfer_not_found";
        case 26: return "pending_transfer_not_pending";
        case 27: return "pending_transfer_has_different_debit_account_id";
        case 28: return "pending_transfer_has_different_credit_account_id";
        case 29: return "pending_transfer_has_different_ledger";
        case 30: return "pending_transfer_has_different_code";
        case 31: return "exceeds_pending_transfer_amount";
        case 32: return "pending_transfer_has_different_amount";
        case 33: return "pending_transfer_already_posted";
        case 34: return "pending_transfer_already_voided";
        case 35: return "pending_transfer_expired";
        case 36: return "exists_with_different_flags";
        case 37: return "exists_with_different_debit_account_id";
        case 38: return "exists_with_different_credit_account_id";
        case 39: return "exists_with_different_amount";
        case 40: return "exists_with_different_pending_id";
        case 41: return "exists_with_different_user_data_128";
        case 42: return "exists_with_different_user_data_64";
        case 43: return "exists_with_different_user_data_32";
        case 44: return "exists_with_different_timeout";
        case 45: return "exists_with_different_code";
        case 46: return "exists";
        case 47: return "overflows_debits_pending";
        case 48: return "overflows_credits_pending";
        case 49: return "overflows_debits_posted";
        case 50: return "overflows_credits_posted";
        case 51: return "overflows_debits";
        case 52: return "overflows_credits";
        case 53: return "overflows_timeout";
        case 54: return "exceeds_credits";
        case 55: return "exceeds_debits";
        case 67: return "exists_with_different_ledger";
        case 68: return "id_already_failed";
        case 201: return "clock_exhausted";
        default: return "unknown";
    }
}

/* Returns whether the ledger keeps the id of a transfer that failed with this result: a later transfer with the id fails as
 * id_already_failed. Each such failure in a reply takes 36 bytes for good. */
static inline bool kip_transfer_id_is_kept(uint32_t result) {
    switch (result) {
        case 21:
        case 22:
        case 25:
        case 54:
        case 55:
            return true;
        default: return false;
    }
}
/* end */

#ifdef __cplusplus
}
#endif

#endif
