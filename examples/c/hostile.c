/* Calls that are refused: each returns its status, leaves the engine as it was, and writes nothing that looks like a result. */
#undef NDEBUG
#include <assert.h>
#include <kip.h>
#include <stdio.h>
#include <string.h>

static void closed_handle(void) {
    kip_t kip = {0};
    uint64_t number = 99;
    unsigned char bytes[128] = {0}, results[8] = {7};
    kip_reply_t reply;
    kip_account account;
    assert(kip_close(&kip) == KIP_CLOSED && kip_flush(&kip) == KIP_CLOSED && kip_shut(&kip) == KIP_CLOSED);
    assert(kip_submit(&kip, 0, 129, bytes, 128, 0, &number) == KIP_CLOSED && number == KIP_NUMBER_NONE);
    assert(kip_reply(&kip, &reply, results, 8) == KIP_CLOSED && results[0] == 7);
    assert(kip_clock(&kip, &number) == KIP_CLOSED && number == KIP_CLOCK_NONE);
    number = 99;
    assert(kip_places(&kip, &number) == KIP_CLOSED && number == KIP_PLACES_NONE);
    kip_counts_t counts = {.failed_ids = 99};
    assert(kip_counts(&kip, &counts) == KIP_CLOSED && counts.failed_ids == 0);
    assert(kip_lookup_account(&kip, 1, 0, &account) == KIP_CLOSED && kip_pulse(&kip, 1) == KIP_CLOSED);
    assert(kip_stopped(&kip) == KIP_CLOSED && kip_account_at(&kip, 0, &account) == KIP_CLOSED);
    kip_transfer transfer = {.code = 7};
    uint32_t pending = 99;
    assert(kip_transfer_at(&kip, 0, &transfer, &pending) == KIP_CLOSED && transfer.code == 0 && pending == KIP_PENDING_UNKNOWN);
    assert(kip_lookup_transfer(&kip, 1, 0, &transfer, &pending) == KIP_CLOSED && pending == KIP_PENDING_UNKNOWN);
    kip_entry_t entry = {.operation = 129, .size = 128};
    assert(kip_restore(&kip, &entry, bytes, 128) == KIP_CLOSED && kip_restore(&kip, &entry, bytes, 127) == KIP_CLOSED);
    assert(kip_entry(&kip, &entry, results, 8) == KIP_CLOSED && results[0] == 7 && entry.place == KIP_PLACES_NONE && entry.size == 0);
    assert(kip_durable(&kip, 0) == KIP_CLOSED && kip_durable(&kip, UINT64_MAX) == KIP_CLOSED);
    assert(kip_reserve(&kip, 1, 1) == KIP_CLOSED && kip_reserve(&kip, SIZE_MAX, SIZE_MAX) == KIP_CLOSED && !kip.is_open);
}

static void settings(void) {
    kip_t kip = {0};
    assert(kip_open(&kip, UINT64_C(1) << 63, 0, 0) == KIP_MOMENT_TOO_LARGE);
    assert(kip_open(&kip, UINT64_MAX, 8190, 1) == KIP_MOMENT_TOO_LARGE);
    assert(kip_open(&kip, 0, 0, 0) == KIP_BAD_LIMIT && kip_open(&kip, 0, 8191, 1) == KIP_BAD_LIMIT);
    assert(kip_open(&kip, 0, UINT32_MAX, 1) == KIP_BAD_LIMIT);
    assert(kip_open(&kip, 0, 1, 0) == KIP_BAD_SUBMITTERS && kip_open(&kip, 0, 1, 17) == KIP_BAD_SUBMITTERS);
    assert(kip_open(&kip, 0, 1, UINT32_MAX) == KIP_BAD_SUBMITTERS && !kip.is_open);
    assert(kip_open(&kip, (UINT64_C(1) << 63) - 1, 8190, 16) == KIP_OK);
    assert(kip_open(&kip, 0, 1, 16) == KIP_ALREADY_OPEN);
    assert(kip_close(&kip) == KIP_OK && kip_close(&kip) == KIP_CLOSED);
    assert(kip_open(&kip, 0, 1, 1) == KIP_OK && kip_close(&kip) == KIP_OK);
}

static void seeded_settings(void) {
    kip_t kip = {0};
    assert(kip_open_seeded(&kip, UINT64_C(1) << 63, 0, 0, 3, 5) == KIP_MOMENT_TOO_LARGE);
    assert(kip_open_seeded(&kip, 0, 8191, 0, 3, 5) == KIP_BAD_LIMIT);
    assert(kip_open_seeded(&kip, 0, 1, 17, 3, 5) == KIP_BAD_SUBMITTERS && !kip.is_open);
    assert(kip_open_seeded(&kip, 7, 1, 16, UINT64_MAX, UINT64_MAX) == KIP_OK);
    assert(kip_open_seeded(&kip, 0, 1, 16, 0, 0) == KIP_ALREADY_OPEN && kip_open(&kip, 0, 1, 16) == KIP_ALREADY_OPEN);
    uint64_t clock = 0;
    assert(kip_clock(&kip, &clock) == KIP_OK && clock == 7);
    assert(kip_close(&kip) == KIP_OK && kip_reserve(&kip, 0, 0) == KIP_CLOSED);
}

static void recorded_settings(void) {
    kip_t kip = {0};
    assert(kip_open_recorded(&kip, UINT64_C(1) << 63, 0, 0, 3, 5) == KIP_MOMENT_TOO_LARGE);
    assert(kip_open_recorded(&kip, 0, 8191, 0, 3, 5) == KIP_BAD_LIMIT);
    assert(kip_open_recorded(&kip, 0, 1, 17, 3, 5) == KIP_BAD_SUBMITTERS && !kip.is_open);
    assert(kip_open_recorded(&kip, 7, 1, 16, UINT64_MAX, UINT64_MAX) == KIP_OK);
    assert(kip_open_recorded(&kip, 0, 1, 16, 0, 0) == KIP_ALREADY_OPEN && kip_open(&kip, 0, 1, 16) == KIP_ALREADY_OPEN);
    uint64_t clock = 0;
    assert(kip_clock(&kip, &clock) == KIP_OK && clock == 7 && kip_close(&kip) == KIP_OK);
}

/* Restores an entry whose data has its size. */
static uint32_t restored(kip_t *kip, kip_entry_t entry) {
    static const unsigned char bytes[256] = {1};
    return kip_restore(kip, &entry, bytes, entry.size);
}

/* Entries that aren't next, that no packet or pulse has, and whose data has another size. */
static void wrong_entries(kip_t *kip) {
    const uint64_t moment = UINT64_C(1) << 62;
    kip_t closed = {0};
    unsigned char bytes[256] = {1};
    kip_entry_t entry = {.operation = 129, .size = 128};
    assert(kip_restore(kip, &entry, NULL, 128) == KIP_NULL_POINTER && kip_restore(&closed, &entry, NULL, 128) == KIP_NULL_POINTER);
    closed.entered = 1;
    assert(kip_restore(&closed, &entry, bytes, 128) == KIP_BUSY && kip_durable(&closed, 0) == KIP_BUSY);
    assert(kip_restore(kip, &entry, bytes, 127) == KIP_INVALID_DATA_SIZE && kip_restore(kip, &entry, bytes, 256) == KIP_INVALID_DATA_SIZE);
    assert(kip_restore(kip, &entry, NULL, 0) == KIP_INVALID_DATA_SIZE);
    assert(restored(kip, (kip_entry_t){.operation = 129, .size = 128, .submitter = 2}) == KIP_BAD_SUBMITTERS);
    assert(restored(kip, (kip_entry_t){.operation = 129, .size = 128, .submitter = UINT32_MAX}) == KIP_BAD_SUBMITTERS);
    assert(restored(kip, (kip_entry_t){.operation = 77, .size = 128}) == KIP_INVALID_OPERATION);
    assert(restored(kip, (kip_entry_t){.operation = 256 + 129, .size = 128}) == KIP_INVALID_OPERATION);
    assert(restored(kip, (kip_entry_t){.operation = UINT32_MAX, .size = 128}) == KIP_INVALID_OPERATION);
    assert(restored(kip, (kip_entry_t){.operation = 129, .size = 127}) == KIP_INVALID_DATA_SIZE);
    assert(restored(kip, (kip_entry_t){.operation = 129, .size = 256}) == KIP_TOO_MUCH_DATA);
    assert(restored(kip, (kip_entry_t){.operation = 129, .size = 128, .place = 1}) == KIP_NOT_NEXT);
    assert(restored(kip, (kip_entry_t){.operation = 129, .size = 128, .number = 1}) == KIP_NOT_NEXT);
    assert(restored(kip, (kip_entry_t){.operation = 129, .size = 128, .number = UINT64_MAX, .place = UINT64_MAX}) == KIP_NOT_NEXT);
    assert(restored(kip, (kip_entry_t){.operation = KIP_ENTRY_PULSE, .moment = moment, .size = 1}) == KIP_INVALID_DATA_SIZE);
    assert(restored(kip, (kip_entry_t){.operation = KIP_ENTRY_PULSE, .moment = moment + 1, .place = 1}) == KIP_MOMENT_TOO_LARGE);
    assert(restored(kip, (kip_entry_t){.operation = KIP_ENTRY_PULSE, .moment = moment, .place = 1}) == KIP_NOT_NEXT);
}

/* A journal that the host keeps: what is handed out, and which replies are given before it is stored. */
static void entries(void) {
    unsigned char bytes[128] = {1}, data[128] = {0};
    uint64_t number = 99, places = 99;
    kip_t kip = {0};
    kip_entry_t entry;
    kip_reply_t reply;
    assert(kip_open(&kip, 0, 1, 2) == KIP_OK);
    assert(kip_entry(&kip, &entry, data, 128) == KIP_NOT_RECORDED && entry.place == KIP_PLACES_NONE);
    assert(kip_durable(&kip, 0) == KIP_NOT_RECORDED && kip_durable(&kip, 1) == KIP_NOT_RECORDED && kip_close(&kip) == KIP_OK);
    assert(kip_open_recorded(&kip, 0, 1, 2, 3, 5) == KIP_OK && kip_entry(&kip, &entry, NULL, 0) == KIP_NO_ENTRY);
    assert(kip_entry(&kip, &entry, NULL, 8) == KIP_NULL_POINTER && entry.place == KIP_PLACES_NONE);
    assert(kip_durable(&kip, 0) == KIP_OK && kip_durable(&kip, 1) == KIP_NOT_HANDED_OUT);
    assert(kip_durable(&kip, UINT64_MAX) == KIP_NOT_HANDED_OUT);
    wrong_entries(&kip);
    assert(kip_places(&kip, &places) == KIP_OK && places == 0 && kip_clock(&kip, &number) == KIP_OK && number == 0);
    /* None of these used a place or a number. What is restored isn't handed out, and has no reply. */
    assert(restored(&kip, (kip_entry_t){.operation = 129, .size = 128}) == KIP_OK);
    assert(restored(&kip, (kip_entry_t){.operation = KIP_ENTRY_PULSE, .moment = 50, .place = 1}) == KIP_OK);
    assert(kip_entry(&kip, &entry, data, 128) == KIP_NO_ENTRY && kip_reply(&kip, &reply, NULL, 0) == KIP_NO_REPLY);
    /* While a packet waits, or its reply does, nothing is restored. */
    assert(kip_submit(&kip, 0, 129, bytes, 128, 5, &number) == KIP_OK && number == 1);
    const kip_entry_t next = {.operation = KIP_ENTRY_PULSE, .moment = 60, .place = 2};
    const kip_entry_t later = {.operation = 129, .size = 128, .place = 2, .number = 2};
    assert(kip_restore(&kip, &next, NULL, 0) == KIP_IN_USE && kip_entry(&kip, &entry, data, 128) == KIP_NO_ENTRY);
    assert(restored(&kip, later) == KIP_IN_USE);
    assert(kip_durable(&kip, 3) == KIP_NOT_HANDED_OUT && kip_flush(&kip) == KIP_OK && kip_restore(&kip, &next, NULL, 0) == KIP_IN_USE);
    assert(kip_entry(&kip, &entry, data, 127) == KIP_TOO_SMALL && entry.size == 128 && data[0] == 0);
    assert(kip_entry(&kip, &entry, NULL, 0) == KIP_TOO_SMALL && entry.size == 128);
    assert(kip_entry(&kip, &entry, data, 128) == KIP_OK && entry.place == 2 && entry.number == 1 && entry.operation == 129);
    assert(entry.submitter == 0 && entry.moment == 0 && memcmp(data, bytes, 128) == 0);
    assert(kip_entry(&kip, &entry, data, 128) == KIP_NO_ENTRY && kip_restore(&kip, &next, NULL, 0) == KIP_IN_USE);
    assert(restored(&kip, later) == KIP_IN_USE);
    /* Its reply isn't given before its place is durable, which a lower number doesn't undo. */
    assert(kip_durable(&kip, 2) == KIP_OK && kip_reply(&kip, &reply, data, 128) == KIP_NO_REPLY && reply.outcome == KIP_OUTCOME_UNREAD);
    assert(kip_durable(&kip, 4) == KIP_NOT_HANDED_OUT && kip_reply(&kip, &reply, data, 128) == KIP_NO_REPLY);
    assert(kip_durable(&kip, 3) == KIP_OK && kip_durable(&kip, 0) == KIP_OK && kip_reply(&kip, &reply, data, 128) == KIP_OK);
    assert(reply.place == 2 && reply.user_data == 5 && kip_committed(&reply) && kip_reply(&kip, &reply, data, 128) == KIP_NO_REPLY);
    /* A pulse is in order. What isn't committed waits for nothing. */
    assert(kip_pulse(&kip, 70) == KIP_OK && kip_shut(&kip) == KIP_OK && kip_restore(&kip, &next, NULL, 0) == KIP_IN_USE);
    assert(kip_submit(&kip, 1, 129, bytes, 128, 6, &number) == KIP_OK && kip_reply(&kip, &reply, data, 128) == KIP_OK);
    assert(reply.user_data == 6 && reply.outcome == KIP_OUTCOME_SHUTDOWN);
    assert(kip_entry(&kip, &entry, NULL, 0) == KIP_OK && entry.operation == KIP_ENTRY_PULSE && entry.moment == 70 && entry.place == 3);
    assert(kip_entry(&kip, &entry, NULL, 0) == KIP_NO_ENTRY && kip_restore(&kip, &next, NULL, 0) == KIP_IN_USE);
    assert(kip_close(&kip) == KIP_OK);
}

/* Reservations that no memory is large enough for. */
static void reservations(kip_t *kip) {
    for (int bits = 50; bits < 64; bits++) {
        assert(kip_reserve(kip, 0, (size_t)1 << bits) == KIP_NO_MEMORY);
        assert(kip_reserve(kip, (size_t)1 << bits, 0) == KIP_NO_MEMORY);
    }
    assert(kip_reserve(kip, SIZE_MAX, SIZE_MAX) == KIP_NO_MEMORY && kip_reserve(kip, 0, 0) == KIP_OK);
}

static void packets(kip_t *kip) {
    uint64_t number = 99;
    unsigned char bytes[257] = {0};
    assert(kip_submit(kip, 16, 129, bytes, 128, 0, &number) == KIP_BAD_SUBMITTERS);
    assert(kip_submit(kip, UINT32_MAX, 0, bytes, 1, 0, &number) == KIP_BAD_SUBMITTERS);
    assert(kip_submit(kip, 0, 0, bytes, 128, 0, &number) == KIP_INVALID_OPERATION);
    assert(kip_submit(kip, 0, 255, bytes, 128, 0, &number) == KIP_INVALID_OPERATION);
    assert(kip_submit(kip, 0, 129, bytes, 127, 0, &number) == KIP_INVALID_DATA_SIZE);
    assert(kip_submit(kip, 0, 131, bytes, 15, 0, &number) == KIP_INVALID_DATA_SIZE);
    assert(kip_submit(kip, 0, 130, bytes, 256, 0, &number) == KIP_TOO_MUCH_DATA);
    assert(kip_submit(kip, 0, 129, NULL, 128, 0, &number) == KIP_NULL_POINTER && number == KIP_NUMBER_NONE);
    /* Null is looked for ahead of all else, then another thread's call. */
    kip_t closed = {0};
    assert(kip_submit(&closed, 0, 129, NULL, 128, 0, &number) == KIP_NULL_POINTER);
    closed.entered = 1;
    assert(kip_submit(&closed, 0, 129, NULL, 128, 0, &number) == KIP_NULL_POINTER);
    assert(kip_submit(&closed, 0, 129, bytes, 128, 0, &number) == KIP_BUSY && kip_close(&closed) == KIP_BUSY);
    assert(kip_pulse(kip, (UINT64_C(1) << 62) + 1) == KIP_MOMENT_TOO_LARGE);
    /* No number was used. A packet without data is a packet, and data needs no alignment. */
    assert(kip_submit(kip, 0, 130, NULL, 0, 0, &number) == KIP_OK && number == 0);
    assert(kip_submit(kip, 0, 129, bytes + 1, 128, 5, &number) == KIP_OK && number == 1);
    assert(kip_submit(kip, 15, 129, bytes, 128, 6, &number) == KIP_OK && number == 0);
}

/* What a size alone refuses is refused before the data is read: here it is in no memory at all, and one byte of each page
 * would be read in seconds if it were there. */
static void sizes_of_no_memory(kip_t *kip) {
    uint64_t number = 99;
    const void *nowhere = (const void *)16;
    const size_t gigabyte = (size_t)1 << 30;
    assert(kip_submit(kip, 0, 129, nowhere, gigabyte, 0, &number) == KIP_TOO_MUCH_DATA);
    assert(kip_submit(kip, 0, 131, nowhere, 2 * gigabyte, 0, &number) == KIP_TOO_MUCH_DATA);
    assert(kip_submit(kip, 0, 130, nowhere, gigabyte + 1, 0, &number) == KIP_INVALID_DATA_SIZE);
    assert(kip_submit(kip, 0, 0, nowhere, SIZE_MAX / 2, 0, &number) == KIP_INVALID_OPERATION);
    assert(kip_submit(kip, 16, 129, nowhere, gigabyte, 0, &number) == KIP_BAD_SUBMITTERS && number == KIP_NUMBER_NONE);
}

static void replies(kip_t *kip) {
    unsigned char results[8];
    kip_reply_t reply;
    kip_account account;
    kip_t closed = {0};
    assert(kip_reply(kip, &reply, NULL, 8) == KIP_NULL_POINTER && kip_reply(&closed, &reply, NULL, 8) == KIP_NULL_POINTER);
    assert(kip_reply(kip, &reply, NULL, 0) == KIP_OK && reply.size == 0 && reply.number == 0);
    assert(kip_flush(kip) == KIP_OK);
    memset(results, 0xAA, sizeof results);
    assert(kip_reply(kip, &reply, results, 7) == KIP_TOO_SMALL && reply.size == 8 && results[0] == 0xAA);
    assert(kip_reply(kip, &reply, NULL, 0) == KIP_TOO_SMALL && reply.user_data == 5);
    assert(kip_reply(kip, &reply, results, 8) == KIP_OK && reply.user_data == 5 && reply.submitter == 0);
    assert(results[0] == 0 && strcmp(kip_account_result_name(results[4]), "id_must_not_be_zero") == 0);
    assert(kip_committed(&reply) && !kip_succeeded(&reply));
    assert(kip_reply(kip, &reply, results, 8) == KIP_OK && reply.user_data == 6 && reply.submitter == 15);
    assert(kip_reply(kip, &reply, results, 8) == KIP_NO_REPLY);
    assert(kip_lookup_account(kip, 0, 0, &account) == KIP_NOT_FOUND);
    assert(kip_lookup_account(kip, UINT64_MAX, UINT64_MAX, &account) == KIP_NOT_FOUND);
}

static void after_the_close(kip_t *kip) {
    uint64_t number;
    unsigned char bytes[128] = {0};
    kip_reply_t reply;
    assert(kip_shut(kip) == KIP_OK && kip_shut(kip) == KIP_SHUTDOWN && kip_pulse(kip, 5) == KIP_SHUTDOWN);
    assert(kip_submit(kip, 0, 129, bytes, 128, 7, &number) == KIP_OK && number == 2);
    assert(kip_reply(kip, &reply, NULL, 0) == KIP_OK && reply.outcome == KIP_OUTCOME_SHUTDOWN && reply.size == 0);
    assert(!kip_committed(&reply) && !kip_succeeded(&reply) && kip_stopped(kip) == KIP_OK);
    assert(kip_reply(kip, &reply, NULL, 0) == KIP_NO_REPLY);
}

int main(void) {
    kip_t kip = {0};
    assert(kip_version() == KIP_VERSION);
    assert(strcmp(kip_status_name(KIP_NO_ENTRY), "no_entry") == 0 && strcmp(kip_status_name(KIP_NOT_HANDED_OUT), "not_handed_out") == 0);
    assert(strcmp(kip_status_name(KIP_SHUTDOWN), "shutdown") == 0 && strcmp(kip_status_name(4), "unknown") == 0);
    assert(strcmp(kip_transfer_result_name(22), "credit_account_not_found") == 0);
    assert(strcmp(kip_transfer_result_name(18), "unknown") == 0 && strcmp(kip_account_result_name(201), "clock_exhausted") == 0);
    closed_handle();
    settings();
    seeded_settings();
    recorded_settings();
    entries();
    assert(kip_open(&kip, 0, 1, 16) == KIP_OK);
    reservations(&kip);
    sizes_of_no_memory(&kip);
    packets(&kip);
    replies(&kip);
    after_the_close(&kip);
    assert(kip_close(&kip) == KIP_OK);
    puts("each refused as declared");
    return 0;
}
