/* Two threads with one handle, without a lock: each call is made or refused with KIP_BUSY, and nothing is lost. Then a
 * handle that moves from thread to thread. */
#undef NDEBUG
#include <assert.h>
#include <kip.h>
#include <pthread.h>
#include <stdatomic.h>
#include <stdio.h>

enum { ROUNDS = 50000, THREADS = 4 };

static kip_t shared;
static atomic_ulong queued, busy, answered;

static kip_transfer transfer(uint64_t id) {
    return (kip_transfer){.id = {id, 0}, .debit_account_id = {1, 0}, .credit_account_id = {2, 0}, .amount = {1, 0},
                          .ledger = 1, .code = 1};
}

static void made(kip_t *kip) {
    kip_account accounts[2] = {{.id = {1, 0}, .ledger = 1, .code = 1}, {.id = {2, 0}, .ledger = 1, .code = 1}};
    kip_reply_t reply;
    uint64_t number;
    assert(kip_open(kip, 0, 8190, THREADS) == KIP_OK);
    assert(kip_submit(kip, 0, KIP_OPERATION_CREATE_ACCOUNTS, accounts, sizeof accounts, 0, &number) == KIP_OK);
    assert(kip_flush(kip) == KIP_OK && kip_reply(kip, &reply, NULL, 0) == KIP_OK && kip_succeeded(&reply));
}

static void *racing(void *at) {
    uint64_t submitter = *(uint64_t *)at, number;
    kip_reply_t reply;
    for (uint64_t i = 0; i < ROUNDS; i++) {
        kip_transfer one = transfer(1 + submitter * ROUNDS + i);
        uint32_t status = kip_submit(&shared, (uint32_t)submitter, KIP_OPERATION_CREATE_TRANSFERS, &one, sizeof one, 0, &number);
        assert(status == KIP_OK || status == KIP_BUSY);
        atomic_fetch_add(status == KIP_OK ? &queued : &busy, 1);
        status = kip_flush(&shared);
        assert(status == KIP_OK || status == KIP_BUSY);
        status = kip_reply(&shared, &reply, NULL, 0);
        assert(status == KIP_OK || status == KIP_BUSY || status == KIP_NO_REPLY);
        if (status == KIP_OK) {
            assert(kip_succeeded(&reply));
            atomic_fetch_add(&answered, 1);
        }
    }
    return NULL;
}

/* One thread after the other, each ended before the next begins. */
static void *moving(void *at) {
    kip_t *kip = at;
    kip_reply_t reply;
    uint64_t number;
    kip_account found;
    assert(kip_lookup_account(kip, 1, 0, &found) == KIP_OK);
    kip_transfer one = transfer(1 + found.debits_posted.low);
    assert(kip_submit(kip, 0, KIP_OPERATION_CREATE_TRANSFERS, &one, sizeof one, 0, &number) == KIP_OK);
    assert(kip_flush(kip) == KIP_OK && kip_reply(kip, &reply, NULL, 0) == KIP_OK && kip_succeeded(&reply));
    return NULL;
}

int main(void) {
    pthread_t threads[THREADS];
    uint64_t submitters[THREADS];
    kip_t kip = {0};
    kip_reply_t reply;
    kip_account found;
    made(&shared);
    for (uint64_t i = 0; i < THREADS; i++) {
        submitters[i] = i;
        assert(pthread_create(&threads[i], NULL, racing, &submitters[i]) == 0);
    }
    for (int i = 0; i < THREADS; i++) assert(pthread_join(threads[i], NULL) == 0);
    assert(kip_flush(&shared) == KIP_OK);
    while (kip_reply(&shared, &reply, NULL, 0) == KIP_OK) answered += kip_succeeded(&reply);
    assert(queued + busy == (uint64_t)THREADS * ROUNDS && answered == queued);
    assert(kip_lookup_account(&shared, 1, 0, &found) == KIP_OK && found.debits_posted.low == queued);
    assert(kip_close(&shared) == KIP_OK);

    made(&kip);
    for (int i = 0; i < 100; i++) {
        assert(pthread_create(&threads[0], NULL, moving, &kip) == 0 && pthread_join(threads[0], NULL) == 0);
    }
    assert(kip_lookup_account(&kip, 2, 0, &found) == KIP_OK && found.credits_posted.low == 100);
    assert(kip_close(&kip) == KIP_OK);
    puts("each call was made or refused as busy");
    return 0;
}
