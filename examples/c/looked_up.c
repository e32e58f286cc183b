/* Accounts by their order and transfers by their id, with the status of those that are pending. */
#undef NDEBUG
#include <assert.h>
#include <kip.h>
#include <stdio.h>

static void committed(kip_t *kip, uint8_t operation, const void *data, size_t size) {
    uint64_t number;
    kip_reply_t reply;
    assert(kip_submit(kip, 0, operation, data, size, 0, &number) == KIP_OK && kip_flush(kip) == KIP_OK);
    assert(kip_reply(kip, &reply, NULL, 0) == KIP_OK && kip_succeeded(&reply) && reply.number == number);
}

static kip_transfer hold(uint64_t id, uint32_t timeout) {
    return (kip_transfer){.id = {id, 0}, .debit_account_id = {7, 0}, .credit_account_id = {5, 1}, .amount = {10, 0},
                          .timeout = timeout, .ledger = 1, .code = 1, .flags = KIP_TRANSFER_PENDING};
}

static kip_transfer resolving(uint64_t id, uint64_t pending_id, uint16_t flags) {
    return (kip_transfer){.id = {id, 0}, .pending_id = {pending_id, 0}, .flags = flags,
                          .amount = {flags == KIP_TRANSFER_POST_PENDING_TRANSFER ? 4 : 0, 0}};
}

static void has_status(kip_t *kip, uint64_t id, uint32_t status) {
    kip_transfer found;
    uint32_t pending = 99;
    assert(kip_lookup_transfer(kip, id, 0, &found, &pending) == KIP_OK);
    assert(found.id.low == id && found.id.high == 0 && pending == status);
    assert(found.debit_account_id.low == 7 && found.credit_account_id.high == 1 && found.code == 1);
}

static void has_at(kip_t *kip, size_t index, uint64_t id, uint32_t status) {
    kip_transfer found;
    uint32_t pending = 99;
    assert(kip_transfer_at(kip, index, &found, &pending) == KIP_OK && found.id.low == id && pending == status);
}

/* Of three transfers that fail, the ledger keeps the ids of those whose results say so, and refuses these ids later. */
static void keeps_ids(kip_t *kip) {
    kip_transfer failing[3] = {hold(21, 0), hold(22, 0), hold(23, 0)};
    kip_failure failures[3];
    kip_reply_t reply;
    uint64_t number;
    failing[0].debit_account_id.low = 9;
    failing[1].credit_account_id.low = 9;
    failing[2].code = 0;
    kip_counts_t before, counts;
    assert(kip_counts(kip, &before) == KIP_OK && before.accounts == 2 && before.transfers == 6 && before.failed_ids == 0);
    for (int round = 0; round < 2; round++) {
        assert(kip_submit(kip, 0, KIP_OPERATION_CREATE_TRANSFERS, failing, sizeof failing, 0, &number) == KIP_OK);
        assert(kip_flush(kip) == KIP_OK && kip_reply(kip, &reply, failures, sizeof failures) == KIP_OK);
        assert(reply.size == sizeof failures && failures[2].result == 20 && !kip_transfer_id_is_kept(20));
        for (int index = 0; index < 2; index++) {
            assert(failures[index].result == (round == 0 ? 21u + (unsigned)index : 68u));
            assert(kip_transfer_id_is_kept(failures[index].result) == (round == 0));
        }
        assert(kip_counts(kip, &counts) == KIP_OK && counts.transfers == 6 && counts.failed_ids == 2);
    }
}

int main(void) {
    kip_t kip = {0};
    kip_account accounts[2] = {{.id = {7, 0}, .ledger = 1, .code = 1}, {.id = {5, 1}, .ledger = 1, .code = 1}}, account;
    kip_transfer transfer = {.code = 3};
    uint32_t pending = 99;
    assert(kip_open(&kip, 0, 8190, 1) == KIP_OK && kip_account_at(&kip, 0, &account) == KIP_NOT_FOUND);
    committed(&kip, KIP_OPERATION_CREATE_ACCOUNTS, accounts, sizeof accounts);
    kip_transfer held[] = {hold(1, 0), hold(2, 0), hold(3, 5), hold(4, 0)};
    committed(&kip, KIP_OPERATION_CREATE_TRANSFERS, held, sizeof held);
    kip_transfer resolved[] = {resolving(11, 1, KIP_TRANSFER_POST_PENDING_TRANSFER),
                               resolving(12, 2, KIP_TRANSFER_VOID_PENDING_TRANSFER)};
    committed(&kip, KIP_OPERATION_CREATE_TRANSFERS, resolved, sizeof resolved);
    assert(kip_pulse(&kip, UINT64_C(9000000000)) == KIP_OK && kip_flush(&kip) == KIP_OK);

    assert(kip_account_at(&kip, 0, &account) == KIP_OK && account.id.low == 7 && account.debits_posted.low == 4);
    assert(kip_account_at(&kip, 1, &account) == KIP_OK && account.id.low == 5 && account.id.high == 1);
    assert(account.credits_posted.low == 4 && account.credits_pending.low == 10);
    assert(kip_account_at(&kip, 2, &account) == KIP_NOT_FOUND && kip_account_at(&kip, SIZE_MAX, &account) == KIP_NOT_FOUND);
    has_status(&kip, 1, KIP_PENDING_POSTED);
    has_status(&kip, 2, KIP_PENDING_VOIDED);
    has_status(&kip, 3, KIP_PENDING_EXPIRED);
    has_status(&kip, 4, KIP_PENDING_PENDING);
    has_status(&kip, 11, KIP_PENDING_NONE);
    has_at(&kip, 0, 1, KIP_PENDING_POSTED);
    has_at(&kip, 2, 3, KIP_PENDING_EXPIRED);
    has_at(&kip, 5, 12, KIP_PENDING_NONE);
    assert(kip_transfer_at(&kip, 6, &transfer, &pending) == KIP_NOT_FOUND && transfer.code == 0 && pending == KIP_PENDING_UNKNOWN);
    assert(kip_transfer_at(&kip, SIZE_MAX, &transfer, &pending) == KIP_NOT_FOUND);
    assert(kip_lookup_transfer(&kip, 5, 0, &transfer, &pending) == KIP_NOT_FOUND);
    assert(kip_lookup_transfer(&kip, 1, 1, &transfer, &pending) == KIP_NOT_FOUND && transfer.code == 0);
    keeps_ids(&kip);
    assert(kip_close(&kip) == KIP_OK);
    puts("accounts by order, transfers with their status, ids that are kept");
    return 0;
}
