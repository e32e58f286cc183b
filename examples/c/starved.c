/* Lets the Nth allocation fail, for each N. The call that made it returns KIP_NO_MEMORY, and nothing has changed. It is made
 * again, and then all goes on as without a failure: each packet's number, each reply and each look-up is the same. So are the entries
 * of a journal, and what another engine restores of them. The engine never stops, and closing it frees all.
 * Link with -Wl,--wrap=malloc,--wrap=realloc,--wrap=free. */
#undef NDEBUG
#include <assert.h>
#include <kip.h>
#include <stdio.h>
#include <stdlib.h>
#include <string.h>

void *__real_malloc(size_t size);
void *__real_realloc(void *at, size_t size);
void __real_free(void *at);

static long countdown = -1, live;

static int fails(void) { return countdown > 0 && --countdown == 0; }

void *__wrap_malloc(size_t size) {
    void *at = fails() ? NULL : __real_malloc(size);
    live += at != NULL;
    return at;
}

void *__wrap_realloc(void *at, size_t size) {
    if (fails()) return NULL;
    void *to = __real_realloc(at, size);
    live += at == NULL && to != NULL;
    return to;
}

void __wrap_free(void *at) {
    live -= at != NULL;
    __real_free(at);
}

enum { OPEN, RESERVE, SUBMIT, SEAL, PULSE, FLUSH, SHUT, ENTRY, RESTORE, CALLS };
static const char *const call_names[CALLS] = {"open",  "reserve", "submit", "submit that seals", "pulse",
                                              "flush", "shut",    "entry",  "restore"};
static long refused[CALLS];

/* What a run said, and where it is in that. */
static unsigned char told[1 << 20], first_told[1 << 20];
static size_t length, first_length;

static void tell(const void *at, size_t size) {
    assert(length + size <= sizeof told);
    memcpy(told + length, at, size);
    length += size;
}

/* Tells all that can be looked up. */
static void tell_state(kip_t *kip) {
    kip_account account;
    kip_transfer transfer;
    kip_counts_t counts;
    uint64_t clock;
    uint32_t pending;
    assert(kip_counts(kip, &counts) == KIP_OK && kip_clock(kip, &clock) == KIP_OK && kip_stopped(kip) == KIP_OK);
    tell(&counts, sizeof counts);
    tell(&clock, sizeof clock);
    for (size_t i = 0; kip_account_at(kip, i, &account) == KIP_OK; i++) tell(&account, sizeof account);
    for (size_t i = 0; kip_transfer_at(kip, i, &transfer, &pending) == KIP_OK; i++) {
        tell(&transfer, sizeof transfer);
        tell(&pending, sizeof pending);
    }
}

/* Whether a call must be made again, since its allocation failed. Then nothing can be seen of it. */
static int is_again(kip_t *kip, int call, uint32_t status) {
    if (status == KIP_OK) return 0;
    assert(status == KIP_NO_MEMORY && countdown == 0 && kip_stopped(kip) == KIP_OK);
    refused[call]++;
    size_t before = length;
    tell_state(kip);
    size_t once = length;
    tell_state(kip);
    assert(memcmp(told + before, told + once, once - before) == 0);
    length = before;
    return 1;
}

static void submitted(kip_t *kip, int call, uint32_t submitter, uint8_t operation, const void *data, size_t size) {
    uint64_t number = 77;
    while (is_again(kip, call, kip_submit(kip, submitter, operation, data, size, length, &number))) assert(number == KIP_NUMBER_NONE);
    tell(&number, sizeof number);
}

/* Hands out all entries of a journal, restores each in another engine, and says that they are stored. */
static void hand_out(kip_t *kip, kip_t *copy) {
    static char data[1000 * 128];
    kip_entry_t entry;
    uint64_t places;
    uint32_t status;
    while ((status = kip_entry(kip, &entry, data, sizeof data)) != KIP_NO_ENTRY) {
        if (is_again(kip, ENTRY, status)) continue;
        tell(&entry, sizeof entry);
        while (is_again(copy, RESTORE, kip_restore(copy, &entry, data, entry.size))) continue;
    }
    assert(kip_places(kip, &places) == KIP_OK && kip_durable(kip, places) == KIP_OK);
}

static void read_all(kip_t *kip) {
    kip_reply_t reply;
    static char results[20 * 128 + 1000 * sizeof(kip_failure)];
    uint32_t status;
    while ((status = kip_reply(kip, &reply, results, sizeof results)) == KIP_OK) {
        assert(reply.outcome == KIP_OUTCOME_COMMITTED);
        tell(&reply, sizeof reply);
        tell(results, reply.size);
    }
    assert(status == KIP_NO_REPLY);
}

static kip_account accounts[20];
static kip_transfer transfers[1000];
static uint64_t made;

/* Of four transfers one is pending, and one fails so that its id is refused later; of eight some are a chain that fails. */
static void make_transfers(size_t count) {
    for (size_t i = 0; i < count; i++) {
        made++;
        transfers[i] = (kip_transfer){.id = {made, 0}, .debit_account_id = {1, 0}, .credit_account_id = {i % 4 == 2 ? 99 : 2, 0},
                                      .amount = {i, 0}, .timeout = i % 4 == 1 ? (uint32_t)made : 0, .ledger = 1, .code = 1,
                                      .flags = i % 4 == 1   ? KIP_TRANSFER_PENDING
                                               : i % 8 == 5 ? KIP_TRANSFER_LINKED
                                                            : 0};
    }
}

/* What commits the transfers that are held, more each time, so that what is stored of them has to grow. */
static void held_then(kip_t *kip, kip_t *copy, int call, size_t count) {
    kip_uint128 ids[2] = {{1, 0}, {2, 0}};
    make_transfers(count);
    submitted(kip, SUBMIT, 0, KIP_OPERATION_CREATE_TRANSFERS, transfers, count * sizeof *transfers);
    submitted(kip, SUBMIT, 1, KIP_OPERATION_CREATE_TRANSFERS, transfers, sizeof *transfers);
    if (call == SEAL) submitted(kip, SEAL, 1, KIP_OPERATION_LOOKUP_ACCOUNTS, ids, sizeof ids);
    if (call == PULSE) while (is_again(kip, PULSE, kip_pulse(kip, count * 1000000000))) continue;
    if (call == FLUSH) while (is_again(kip, FLUSH, kip_flush(kip))) continue;
    if (call == SHUT) while (is_again(kip, SHUT, kip_shut(kip))) continue;
    if (copy->is_open) hand_out(kip, copy);
    read_all(kip);
}

static void opened(kip_t *kip, int is_recorded) {
    long before = live;
    uint32_t status;
    while ((status = is_recorded ? kip_open_recorded(kip, 0, 8190, 2, 3, 5) : kip_open_seeded(kip, 0, 8190, 2, 3, 5)) != KIP_OK) {
        assert(status == KIP_NO_MEMORY && countdown == 0 && live == before && !kip->is_open);
        refused[OPEN]++;
    }
}

/* Runs an engine, with a journal that is restored in another one or without. Returns whether an allocation failed. */
static int run(long nth, int is_recorded) {
    kip_t kip = {0}, copy = {0};
    long before = live;
    length = made = 0;
    countdown = nth;
    opened(&kip, is_recorded);
    if (is_recorded) opened(&copy, 0);
    submitted(&kip, SUBMIT, 0, KIP_OPERATION_CREATE_ACCOUNTS, accounts, sizeof accounts);
    static const int calls[] = {SEAL, PULSE, FLUSH, PULSE, SEAL, FLUSH, SEAL, PULSE, SHUT};
    for (size_t i = 0; i < sizeof calls / sizeof *calls; i++) {
        held_then(&kip, &copy, calls[i], (size_t)3 << i);
        while (is_again(&kip, RESERVE, kip_reserve(&kip, 40 * i, 40 * i))) continue;
    }
    size_t state = length;
    tell_state(&kip);
    size_t size = length - state;
    if (is_recorded) {
        tell_state(&copy);
        assert(length == state + 2 * size && memcmp(told + state, told + state + size, size) == 0 && kip_close(&copy) == KIP_OK);
    }
    int failed = countdown == 0;
    countdown = -1;
    assert(kip_close(&kip) == KIP_OK && live == before);
    return failed;
}

/* Lets each allocation of a run fail in turn, and returns how many there are. */
static long starve(int is_recorded) {
    long nth = 1;
    assert(!run(-1, is_recorded));
    first_length = length;
    memcpy(first_told, told, length);
    for (; run(nth, is_recorded); nth++) assert(length == first_length && memcmp(told, first_told, length) == 0);
    return nth - 1;
}

int main(void) {
    for (uint64_t i = 0; i < 20; i++) accounts[i] = (kip_account){.id = {i + 1, 0}, .ledger = 1, .code = 1};
    long count = starve(0) + starve(1);
    for (int call = 0; call < CALLS; call++) {
        assert(refused[call] > 0);
        printf("%s: %ld allocations failed\n", call_names[call], refused[call]);
    }
    printf("each of %ld allocations failed once: nothing lost\n", count);
    return 0;
}
