/* Memory runs out for a while: as the maps of accounts and transfers have to grow kip_submit refuses with KIP_NO_MEMORY, and as a
 * batch is committed so does each call that would commit it. Nothing has changed, and the ledger goes on when memory is there. Link with
 * -Wl,--wrap=malloc,--wrap=realloc. */
#undef NDEBUG
#include <assert.h>
#include <kip.h>
#include <stdio.h>
#include <stdlib.h>
#include <string.h>

void *__real_malloc(size_t size);
void *__real_realloc(void *at, size_t size);

/* Allocations of this size and more fail: those of a packet of one event are smaller. */
static size_t most = SIZE_MAX;

void *__wrap_malloc(size_t size) { return size < most ? __real_malloc(size) : NULL; }

void *__wrap_realloc(void *at, size_t size) { return size < most ? __real_realloc(at, size) : NULL; }

static kip_transfer between(uint64_t id, uint64_t credited) {
    return (kip_transfer){.id = {id, 0}, .debit_account_id = {1, 0}, .credit_account_id = {credited, 0}, .amount = {1, 0},
                          .ledger = 1, .code = 1};
}

static kip_transfer one(uint64_t id) { return between(id, 2); }

static uint32_t queued(kip_t *kip, uint8_t operation, const void *data, size_t size) {
    uint64_t number;
    return kip_submit(kip, 0, operation, data, size, 0, &number);
}

static void committed(kip_t *kip, uint64_t packets) {
    kip_reply_t reply;
    assert(kip_flush(kip) == KIP_OK);
    while (packets-- > 0) assert(kip_reply(kip, &reply, NULL, 0) == KIP_OK && kip_succeeded(&reply));
    assert(kip_reply(kip, &reply, NULL, 0) == KIP_NO_REPLY);
}

static uint64_t posted(kip_t *kip) {
    kip_account account;
    assert(kip_lookup_account(kip, 1, 0, &account) == KIP_OK);
    return account.debits_posted.low;
}

static void opened(kip_t *kip, uint32_t submitters) {
    kip_account accounts[2] = {{.id = {1, 0}, .ledger = 1, .code = 1}, {.id = {2, 0}, .ledger = 1, .code = 1}};
    assert(kip_open(kip, 0, 8190, submitters) == KIP_OK);
    assert(queued(kip, KIP_OPERATION_CREATE_ACCOUNTS, accounts, sizeof accounts) == KIP_OK);
    committed(kip, 1);
}

/* The map of transfers can't grow. */
static void packets_refused(void) {
    kip_t kip = {0};
    uint64_t made = 0, refused = 0;
    opened(&kip, 1);
    for (int round = 0; round < 6; round++) {
        /* One transfer a packet, a few packets held at a time, until a map has to grow and can't. */
        uint64_t held = 0;
        uint32_t status;
        kip_transfer next = one(made + 1);
        most = 16384 << round;
        while ((status = queued(&kip, KIP_OPERATION_CREATE_TRANSFERS, &next, sizeof next)) == KIP_OK) {
            next = one(++made + 1);
            if (++held == 5) {
                committed(&kip, held);
                held = 0;
            }
        }
        assert(status == KIP_NO_MEMORY && kip_stopped(&kip) == KIP_OK);
        refused++;
        /* What was queued is committed though memory is still short, and look-ups work. */
        committed(&kip, held);
        assert(posted(&kip) == made);
        assert(queued(&kip, KIP_OPERATION_CREATE_TRANSFERS, &next, sizeof next) == KIP_NO_MEMORY);
        most = SIZE_MAX;
        assert(queued(&kip, KIP_OPERATION_CREATE_TRANSFERS, &next, sizeof next) == KIP_OK);
        committed(&kip, 1);
        assert(posted(&kip) == ++made);
    }
    assert(kip_stopped(&kip) == KIP_OK && kip_close(&kip) == KIP_OK);
    printf("%llu transfers, %llu growths refused, nothing lost\n", (unsigned long long)made, (unsigned long long)refused);
}

enum { SUBMITTERS = 16, EVENTS = 8190, CREDIT_ACCOUNT_NOT_FOUND = 22 };

/* Each call that would commit what is held is refused, and nothing has changed: there is no reply, no more is stored, and the clock
 * stands. */
static void commits_refused(kip_t *kip, uint64_t failed_ids) {
    kip_transfer last = one(1000000);
    kip_account account = {.id = {3, 0}, .ledger = 1, .code = 1};
    kip_reply_t reply;
    kip_counts_t counts;
    uint64_t clock;
    most = 16384;
    for (int time = 0; time < 3; time++) {
        assert(kip_flush(kip) == KIP_NO_MEMORY);
        assert(kip_pulse(kip, 5) == KIP_NO_MEMORY);
        assert(kip_shut(kip) == KIP_NO_MEMORY);
        /* Both seal what is held: an account joins no transfers, and there are as many events as the limit. */
        assert(queued(kip, KIP_OPERATION_CREATE_ACCOUNTS, &account, sizeof account) == KIP_NO_MEMORY);
        assert(queued(kip, KIP_OPERATION_CREATE_TRANSFERS, &last, sizeof last) == KIP_NO_MEMORY);
        assert(kip_stopped(kip) == KIP_OK && kip_reply(kip, &reply, NULL, 0) == KIP_NO_REPLY);
        assert(kip_counts(kip, &counts) == KIP_OK && counts.accounts == 2 && counts.failed_ids == failed_ids);
        assert(kip_clock(kip, &clock) == KIP_OK && clock < 100000);
    }
    most = SIZE_MAX;
}

/* Reads the replies to packets of the submitters in turn, from number `first` to `end`, of this many transfers each, which all failed.
 * The packet of number 0 has the place `place`. */
static void read_failures(kip_t *kip, uint64_t first, uint64_t end, uint64_t events, uint64_t place) {
    static kip_failure failures[EVENTS];
    kip_reply_t reply;
    for (uint64_t i = first; i < end; i++) {
        assert(kip_reply(kip, &reply, failures, sizeof failures) == KIP_OK && kip_committed(&reply));
        assert(reply.submitter == i % SUBMITTERS && reply.user_data == i && reply.place == place + i);
        assert(reply.size == events * sizeof *failures);
        for (uint64_t event = 0; event < events; event++)
            assert(failures[event].index == event && failures[event].result == CREDIT_ACCOUNT_NOT_FOUND);
    }
}

/* The map of ids that failed can't grow as a batch of 8,190 events is committed, of one packet and of 8,190. */
static void batches_refused(void) {
    kip_t kip = {0};
    static kip_transfer transfers[EVENTS];
    kip_counts_t counts;
    uint64_t number, id = 0;
    opened(&kip, SUBMITTERS);
    for (int i = 0; i < EVENTS; i++) transfers[i] = between(++id, 99);
    assert(kip_submit(&kip, 0, KIP_OPERATION_CREATE_TRANSFERS, transfers, sizeof transfers, 0, &number) == KIP_OK);
    commits_refused(&kip, 0);
    assert(kip_flush(&kip) == KIP_OK);
    read_failures(&kip, 0, 1, EVENTS, 1);
    for (uint64_t i = 0; i < 2 * EVENTS; i++) {
        kip_transfer next = between(++id, 99);
        /* No further transfer can be queued until the full batch is committed. */
        if (i == EVENTS) commits_refused(&kip, EVENTS);
        assert(kip_submit(&kip, i % SUBMITTERS, KIP_OPERATION_CREATE_TRANSFERS, &next, sizeof next, i, &number) == KIP_OK);
        assert(number == i / SUBMITTERS + (i % SUBMITTERS == 0 ? 2 : 0));
        if (i == EVENTS) read_failures(&kip, 0, EVENTS, 1, 2);
    }
    commits_refused(&kip, 2 * EVENTS);
    assert(kip_pulse(&kip, 7) == KIP_OK && kip_shut(&kip) == KIP_OK);
    read_failures(&kip, EVENTS, 2 * EVENTS, 1, 2);
    assert(kip_counts(&kip, &counts) == KIP_OK && counts.failed_ids == 3 * EVENTS && counts.transfers == 0);
    assert(kip_stopped(&kip) == KIP_OK && kip_close(&kip) == KIP_OK);
    printf("3 batches of %d events were refused, and committed when memory was there\n", EVENTS);
}

int main(void) {
    packets_refused();
    batches_refused();
    return 0;
}
