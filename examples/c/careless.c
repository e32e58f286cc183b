/* A caller who looks at no status. Whatever isn't committed, wasn't read or wasn't found must not look like success: not in a reply that is
 * zeroed, nor in one that has the packet before. */
#undef NDEBUG
#include <assert.h>
#include <kip.h>
#include <stdio.h>
#include <string.h>

/* Drops a status, without the compiler's warning. */
static void dropped(uint32_t status) { (void)status; }

static const kip_account made[2] = {{.id = {1, 0}, .ledger = 1, .code = 1}, {.id = {2, 0}, .ledger = 1, .code = 1}};

static void queued(kip_t *kip, unsigned operation, const void *data, size_t size) {
    uint64_t number;
    assert(kip_submit(kip, 0, operation, data, size, 70, &number) == KIP_OK);
}

/* Returns whether a reply is none, and has nothing of another. */
static int is_unread(const kip_reply_t *reply) {
    kip_reply_t none = KIP_INIT;
    none.outcome = KIP_OUTCOME_UNREAD;
    return memcmp(reply, &none, sizeof none) == 0 && !kip_committed(reply) && !kip_succeeded(reply);
}

/* Reads without a flush, on a closed handle, during another thread's call, with null results, and not at all. */
static void replies_that_are_not_read(kip_t *kip) {
    kip_t closed = KIP_INIT;
    kip_reply_t reply = KIP_INIT;
    char results[8];
    assert(!kip_committed(&reply) && !kip_succeeded(&reply));
    queued(kip, KIP_OPERATION_CREATE_ACCOUNTS, made, sizeof made);
    dropped(kip_reply(kip, &reply, results, sizeof results));
    assert(is_unread(&reply));
    for (int way = 0; way < 5; way++) {
        if (way == 0) assert(kip_flush(kip) == KIP_OK && kip_reply(kip, &reply, NULL, 0) == KIP_OK);
        assert(kip_succeeded(&reply) && reply.user_data == 70);
        kip_reply_t before = reply;
        kip->entered = way == 2;
        if (way == 1) dropped(kip_reply(&closed, &reply, results, sizeof results));
        else if (way == 3) dropped(kip_reply(kip, &reply, NULL, 8));
        else if (way == 4) dropped(kip_reply_bytes(kip, &reply, results, sizeof results));
        else dropped(kip_reply(kip, &reply, results, sizeof results));
        kip->entered = 0;
        assert(is_unread(&reply));
        reply = before;
    }
}

/* A look-up's results and a failure that don't fit. */
static void results_that_do_not_fit(kip_t *kip) {
    const kip_uint128 ids[2] = {{2, 0}, {9, 0}};
    kip_account found[2];
    kip_failure failures[2];
    kip_reply_t reply = KIP_INIT;
    queued(kip, KIP_OPERATION_LOOKUP_ACCOUNTS, ids, sizeof ids);
    queued(kip, KIP_OPERATION_CREATE_ACCOUNTS, made, sizeof made);
    assert(kip_flush(kip) == KIP_OK);
    dropped(kip_reply(kip, &reply, found, 127));
    assert(!kip_committed(&reply) && !kip_succeeded(&reply) && reply.outcome == KIP_OUTCOME_UNREAD);
    assert(reply.size == sizeof *found && reply.operation == KIP_OPERATION_LOOKUP_ACCOUNTS);
    assert(kip_reply(kip, &reply, found, sizeof found) == KIP_OK && kip_succeeded(&reply) && found[0].id.low == 2);
    dropped(kip_reply(kip, &reply, NULL, 0));
    assert(!kip_committed(&reply) && !kip_succeeded(&reply) && reply.size == sizeof failures);
    assert(kip_reply(kip, &reply, failures, sizeof failures) == KIP_OK && kip_committed(&reply) && !kip_succeeded(&reply));
}

/* What can be looked up is zeroed or a number that none has, whatever the status. */
static void nothing_is_found(kip_t *kip) {
    const kip_account no_account = KIP_INIT;
    const kip_transfer no_transfer = KIP_INIT;
    kip_account account = made[0];
    kip_transfer transfer = {.id = {1, 0}, .amount = {30, 0}};
    uint32_t pending = KIP_PENDING_POSTED;
    dropped(kip_lookup_account(kip, 9, 0, &account));
    assert(memcmp(&account, &no_account, sizeof account) == 0);
    account = made[0];
    dropped(kip_account_at(kip, 2, &account));
    assert(memcmp(&account, &no_account, sizeof account) == 0);
    dropped(kip_lookup_transfer(kip, 1, 0, &transfer, &pending));
    assert(memcmp(&transfer, &no_transfer, sizeof transfer) == 0 && pending == KIP_PENDING_UNKNOWN);
    transfer.id.low = 1;
    pending = KIP_PENDING_POSTED;
    dropped(kip_transfer_at(kip, 0, &transfer, &pending));
    assert(memcmp(&transfer, &no_transfer, sizeof transfer) == 0 && pending == KIP_PENDING_UNKNOWN);
}

static void nothing_is_counted_or_queued(kip_t *kip) {
    uint64_t number = 0, clock = 7, places = 7;
    kip_counts_t counts = {1, 2, 3};
    dropped(kip_counts(kip, &counts));
    dropped(kip_clock(kip, &clock));
    dropped(kip_places(kip, &places));
    assert(counts.accounts == 0 && counts.transfers == 0 && counts.failed_ids == 0);
    assert(clock == KIP_CLOCK_NONE && places == KIP_PLACES_NONE);
    dropped(kip_submit(kip, 0, KIP_OPERATION_CREATE_ACCOUNTS, made, sizeof made, 0, &number));
    assert(number == KIP_NUMBER_NONE);
    number = 0;
    dropped(kip_submit_bytes(kip, 0, KIP_OPERATION_CREATE_ACCOUNTS, made, sizeof made, 0, &number));
    assert(number == KIP_NUMBER_NONE);
    number = 0;
    dropped(kip_submit(kip, 0, KIP_OPERATION_CREATE_ACCOUNTS, NULL, sizeof made, 0, &number));
    assert(number == KIP_NUMBER_NONE);
}

/* Returns whether an entry is none, and has nothing of another. */
static int is_no_entry(const kip_entry_t *entry) {
    kip_entry_t none = KIP_INIT;
    none.place = KIP_PLACES_NONE;
    return memcmp(entry, &none, sizeof none) == 0;
}

/* No entry: of a handle without a journal, of a closed one, during another thread's call, with null data, and as none is left. */
static void entries_that_are_not_handed_out(kip_t *plain) {
    kip_t kip = KIP_INIT, closed = KIP_INIT;
    kip_entry_t entry;
    char data[sizeof made];
    assert(kip_open_recorded(&kip, 0, 8190, 1, 3, 5) == KIP_OK);
    for (int way = 0; way < 6; way++) {
        queued(&kip, KIP_OPERATION_CREATE_ACCOUNTS, made, sizeof made);
        assert(kip_flush(&kip) == KIP_OK && kip_entry(&kip, &entry, data, sizeof data) == KIP_OK);
        assert(entry.number == (uint64_t)way && memcmp(data, made, sizeof made) == 0);
        kip.entered = way == 2;
        if (way == 0) dropped(kip_entry(plain, &entry, data, sizeof data));
        else if (way == 1) dropped(kip_entry(&closed, &entry, data, sizeof data));
        else if (way == 3) dropped(kip_entry(&kip, &entry, NULL, 8));
        else if (way == 4) dropped(kip_entry_bytes(&kip, &entry, data, sizeof data));
        else dropped(kip_entry(&kip, &entry, data, sizeof data));
        kip.entered = 0;
        assert(is_no_entry(&entry));
    }
    assert(kip_close(&kip) == KIP_OK);
}

/* Replies that are read ahead of the store, entries whose data doesn't fit, and a journal that is restored wrongly. */
static void entries_that_are_not_stored(void) {
    kip_t kip = KIP_INIT;
    kip_entry_t entry, wrong = {.place = 2, .number = 1, .size = sizeof made, .operation = KIP_OPERATION_CREATE_ACCOUNTS};
    kip_reply_t reply;
    char data[sizeof made] = {7};
    uint64_t places;
    assert(kip_open_recorded(&kip, 0, 8190, 1, 3, 5) == KIP_OK);
    queued(&kip, KIP_OPERATION_CREATE_ACCOUNTS, made, sizeof made);
    assert(kip_flush(&kip) == KIP_OK);
    dropped(kip_entry(&kip, &entry, data, sizeof data - 1));
    assert(entry.size == sizeof made && data[0] == 7);
    dropped(kip_durable(&kip, 2));
    assert(kip_entry(&kip, &entry, data, sizeof data) == KIP_OK);
    dropped(kip_reply(&kip, &reply, NULL, 0));
    assert(is_unread(&reply));
    assert(kip_durable(&kip, 1) == KIP_OK && kip_reply(&kip, &reply, NULL, 0) == KIP_OK && kip_succeeded(&reply));
    dropped(kip_restore(&kip, &wrong, made, sizeof made));
    dropped(kip_restore(&kip, &wrong, NULL, sizeof made));
    assert(kip_places(&kip, &places) == KIP_OK && places == 1);
    assert(kip_close(&kip) == KIP_OK);
}

/* Numbers that need more bits than the library takes: cut, each would be one that it accepts. */
static void numbers_that_are_too_large(kip_t *kip) {
    const uint64_t more = (uint64_t)1 << 32;
    kip_t closed = KIP_INIT;
    uint64_t number = 0;
    assert(kip_submit(kip, 0, 256 + 129, made, sizeof made, 0, &number) == KIP_INVALID_OPERATION);
    assert(kip_submit(kip, 0, more + 129, made, sizeof made, 0, &number) == KIP_INVALID_OPERATION);
    assert(kip_submit_bytes(kip, 0, 256 + 130, made, 0, 0, &number) == KIP_INVALID_OPERATION);
    assert(kip_submit(kip, more, 129, made, sizeof made, 0, &number) == KIP_BAD_SUBMITTERS);
    assert(kip_submit(kip, more, 256 + 129, made, sizeof made, 0, &number) == KIP_BAD_SUBMITTERS);
    assert(kip_submit(&closed, more, 256 + 129, made, sizeof made, 0, &number) == KIP_CLOSED && number == KIP_NUMBER_NONE);
    assert(kip_open(&closed, 0, more + 1, 1) == KIP_BAD_LIMIT && kip_open(&closed, 0, 1, more + 1) == KIP_BAD_SUBMITTERS);
    assert(kip_open_seeded(&closed, 0, more + 1, 1, 3, 5) == KIP_BAD_LIMIT);
    assert(kip_open_seeded(&closed, 0, 1, more + 1, 3, 5) == KIP_BAD_SUBMITTERS && !closed.is_open);
    assert(kip_open_recorded(&closed, 0, more + 1, 1, 3, 5) == KIP_BAD_LIMIT);
    assert(kip_open_recorded(&closed, 0, 1, more + 1, 3, 5) == KIP_BAD_SUBMITTERS && !closed.is_open);
}

int main(void) {
    kip_t kip = KIP_INIT, closed = KIP_INIT;
    assert(kip_open(&kip, 0, 8190, 1) == KIP_OK);
    replies_that_are_not_read(&kip);
    results_that_do_not_fit(&kip);
    nothing_is_found(&kip);
    nothing_is_found(&closed);
    nothing_is_counted_or_queued(&closed);
    kip.entered = 1; /* as during another thread's call */
    nothing_is_found(&kip);
    nothing_is_counted_or_queued(&kip);
    kip.entered = 0;
    entries_that_are_not_handed_out(&kip);
    entries_that_are_not_stored();
    numbers_that_are_too_large(&kip);
    assert(kip_close(&kip) == KIP_OK);
    puts("nothing that was refused looks like success");
    return 0;
}
