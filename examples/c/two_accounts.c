/* Two accounts, one transfer that succeeds and one that fails, and a packet after the Close. Prints their replies and a balance. */
#include <kip.h>
#include <stdio.h>
#include <stdlib.h>

static void must(uint32_t status) {
    if (status != KIP_OK) {
        fprintf(stderr, "%s\n", kip_status_name(status));
        exit(1);
    }
}

static void print_reply(const kip_reply_t *reply, const kip_failure *failures) {
    printf("packet %u %llu, user word %llu: ", reply->submitter, (unsigned long long)reply->number,
           (unsigned long long)reply->user_data);
    /* The outcome first: a packet that isn't committed has no results. */
    if (!kip_committed(reply)) {
        printf("not committed (%s)\n", reply->outcome == KIP_OUTCOME_SHUTDOWN ? "shutdown" : "stopped");
        return;
    }
    printf("place %llu, %s", (unsigned long long)reply->place, kip_succeeded(reply) ? "all succeeded" : "failed:");
    for (size_t i = 0; i < reply->size / sizeof *failures; i++) {
        printf(" %u %s", failures[i].index, kip_transfer_result_name(failures[i].result));
    }
    printf("\n");
}

int main(void) {
    kip_t kip = KIP_INIT;
    must(kip_open(&kip, 0, 8190, 2));

    kip_account accounts[2] = {
        {.id = {1, 0}, .ledger = 1, .code = 1},
        {.id = {2, 0}, .ledger = 1, .code = 1},
    };
    kip_transfer transfers[2] = {
        {.id = {1, 0}, .debit_account_id = {1, 0}, .credit_account_id = {2, 0}, .amount = {30, 0}, .ledger = 1, .code = 1},
        {.id = {2, 0}, .debit_account_id = {1, 0}, .credit_account_id = {9, 0}, .amount = {30, 0}, .ledger = 1, .code = 1},
    };
    uint64_t number;
    must(kip_submit(&kip, 0, KIP_OPERATION_CREATE_ACCOUNTS, accounts, sizeof accounts, 70, &number));
    must(kip_submit(&kip, 1, KIP_OPERATION_CREATE_TRANSFERS, transfers, sizeof transfers, 71, &number));
    must(kip_shut(&kip));
    must(kip_submit(&kip, 1, KIP_OPERATION_CREATE_TRANSFERS, transfers, sizeof transfers, 72, &number));
    must(kip_flush(&kip));

    kip_reply_t reply;
    kip_failure failures[2];
    uint32_t status;
    while ((status = kip_reply(&kip, &reply, failures, sizeof failures)) == KIP_OK) {
        print_reply(&reply, failures);
    }
    if (status != KIP_NO_REPLY) must(status); /* all replies were read */

    kip_account found;
    must(kip_lookup_account(&kip, 1, 0, &found));
    printf("account 1: debits posted %llu\n", (unsigned long long)found.debits_posted.low);
    must(kip_close(&kip));
    return 0;
}
