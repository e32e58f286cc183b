/* A ledger with a random seed and reserved capacity, for ids that others choose, next to a plain one. Both give the same
 * replies to ids that are crafted against kip_open; the seeded one needs a small part of the processor time. */
#undef NDEBUG
#include <assert.h>
#include <kip.h>
#include <stdio.h>
#include <string.h>
#include <sys/random.h>
#include <time.h>

enum { MADE = 2000 };

/* Without a seed all ids with this lower half, or with this upper half, have one hash. */
static const uint64_t lower = UINT64_C(0x243f6a8885a308e3), upper = UINT64_C(0x9e3779b97f4a7c15);

static kip_account accounts[MADE];
static kip_transfer transfers[2][MADE];

static void made(void) {
    for (uint64_t i = 0; i < MADE; i++) {
        accounts[i] = (kip_account){.id = {i, upper}, .ledger = 1, .code = 1};
        transfers[0][i] = (kip_transfer){.id = {i, upper}, .debit_account_id = {i, upper},
                                         .credit_account_id = {2 * i, upper}, .amount = {5, 0}, .ledger = 1, .code = 1};
        transfers[1][i] = transfers[0][i];
        transfers[1][i].id = (kip_uint128){lower, i};
    }
}

static void queued(kip_t *kip, uint8_t operation, const void *data, size_t size) {
    uint64_t number;
    assert(kip_submit(kip, 0, operation, data, size, 7, &number) == KIP_OK);
}

/* Commits the accounts, the transfers, and the first transfers again. Returns the processor time. */
static clock_t committed(kip_t *kip) {
    clock_t begun = clock();
    queued(kip, KIP_OPERATION_CREATE_ACCOUNTS, accounts, sizeof accounts);
    queued(kip, KIP_OPERATION_CREATE_TRANSFERS, transfers[0], sizeof transfers[0]);
    queued(kip, KIP_OPERATION_CREATE_TRANSFERS, transfers[1], sizeof transfers[1]);
    queued(kip, KIP_OPERATION_CREATE_TRANSFERS, transfers[0], sizeof transfers[0]);
    assert(kip_flush(kip) == KIP_OK);
    return clock() - begun;
}

/* Reads a reply of each ledger, which must be the same, and returns how many events failed. */
static uint64_t same_reply(kip_t *one, kip_t *other) {
    kip_reply_t first, second;
    kip_failure failures[2][MADE];
    assert(kip_reply(one, &first, failures[0], sizeof failures[0]) == KIP_OK);
    assert(kip_reply(other, &second, failures[1], sizeof failures[1]) == KIP_OK);
    assert(memcmp(&first, &second, sizeof first) == 0 && first.outcome == KIP_OUTCOME_COMMITTED);
    assert(memcmp(failures[0], failures[1], first.size) == 0);
    return first.size / sizeof(kip_failure);
}

int main(void) {
    kip_t plain = {0}, seeded = {0};
    kip_account found[2];
    uint64_t seed[2];
    assert(getentropy(seed, sizeof seed) == 0);
    assert(kip_open(&plain, 0, 8190, 1) == KIP_OK);
    assert(kip_open_seeded(&seeded, 0, 8190, 1, seed[0], seed[1]) == KIP_OK);
    assert(kip_reserve(&seeded, MADE, 2 * MADE) == KIP_OK);
    assert(kip_reserve(&seeded, 0, (size_t)1 << 60) == KIP_NO_MEMORY);

    made();
    clock_t plain_time = committed(&plain), seeded_time = committed(&seeded);
    assert(4 * seeded_time < plain_time);
    /* A transfer from an account to itself fails, and half of them name accounts that aren't there. */
    assert(same_reply(&plain, &seeded) == 0);
    assert(same_reply(&plain, &seeded) == MADE / 2 + 1 && same_reply(&plain, &seeded) == MADE / 2 + 1);
    assert(same_reply(&plain, &seeded) == MADE);
    assert(kip_lookup_account(&plain, 2, upper, &found[0]) == KIP_OK);
    assert(kip_lookup_account(&seeded, 2, upper, &found[1]) == KIP_OK);
    assert(memcmp(&found[0], &found[1], sizeof found[0]) == 0 && found[0].credits_posted.low == 10);
    assert(kip_close(&plain) == KIP_OK && kip_close(&seeded) == KIP_OK);
    puts("the same replies with a seed and without");
    return 0;
}
