/* A ledger that survives the process by a log of its calls: each call is written to a file ahead of it, the file is synced before replies are
 * read, and at the start the calls are made again. What is queued decides the state, the places and the replies, however packets join.
 *
 *   logged FILE CALLS
 *
 * Makes the calls of the little bank of journaled.c, and prints the same lines. The file is synced once for four calls. It is a log of this
 * program alone: to keep what is committed, in a table that others read, see journaled.c. What isn't whole at the file's end is cut off, and
 * kept in FILE.cut1, or with the next free number. */
#define _DEFAULT_SOURCE /* flock, fdatasync, realpath */
#include <errno.h>
#include <fcntl.h>
#include <kip.h>
#include <libgen.h>
#include <stdio.h>
#include <stdlib.h>
#include <sys/file.h>
#include <sys/stat.h>
#include <unistd.h>

enum { PULSE = 0, GROUP = 4, DATA_MAX = 2 * 128 };

/* How the file begins. */
static const char header[] = "kip's calls, 1\n";

/* A call, and its data. */
typedef struct {
    uint64_t sum; /* of the rest */
    uint64_t moment;
    uint32_t operation, size;
    unsigned char data[DATA_MAX];
} call_t;

static kip_t kip;
static const char *path;
static int file;

static void must(int holds, const char *what) {
    if (holds) return;
    fprintf(stderr, "logged: %s\n", what);
    exit(2);
}

/* Returns the FNV-1a sum of a call, by which one that was written in part is known. */
static uint64_t sum_of(const call_t *call) {
    uint64_t sum = 0xcbf29ce484222325;
    const unsigned char *bytes = (const unsigned char *)&call->moment;
    for (size_t i = 0; i < sizeof *call - sizeof call->sum; i++) sum = (sum ^ bytes[i]) * 0x100000001b3;
    return sum;
}

/* Makes call `place` of the bank, which is its reply's user data. */
static void make(const call_t *call, uint64_t place) {
    uint64_t number = 0;
    uint32_t status = call->operation == PULSE ? kip_pulse(&kip, call->moment)
                                               : kip_submit(&kip, 0, call->operation, call->data, call->size, place, &number);
    must(status == KIP_OK, kip_status_name(status)); /* (a call that is refused would have to be taken out of the file) */
}

/* Commits what waits, and reads all replies. Ends the run if an event failed, unless it `exists`: that was committed before. */
static void read_replies(void) {
    kip_failure failures[DATA_MAX / 128]; /* (no call looks up) */
    kip_reply_t reply;
    uint32_t status;
    must(kip_flush(&kip) == KIP_OK, "flush");
    while ((status = kip_reply(&kip, &reply, failures, sizeof failures)) == KIP_OK) {
        must(kip_committed(&reply), "a packet isn't committed");
        for (uint64_t i = 0; i < reply.size / sizeof *failures; i++) {
            int is_account = reply.operation == KIP_OPERATION_CREATE_ACCOUNTS;
            const char *name = is_account ? kip_account_result_name(failures[i].result) : kip_transfer_result_name(failures[i].result);
            if (strcmp(name, "exists") == 0) continue;
            fprintf(stderr, "logged: call %llu: %s\n", (unsigned long long)reply.user_data, name);
            exit(2);
        }
    }
    must(status == KIP_NO_REPLY, kip_status_name(status));
}

/* Ends the run if what was printed can't be read by anybody. */
static void must_be_printed(void) { must(fflush(stdout) == 0 && !ferror(stdout), "standard output can't be written"); }

/* Ends the run if the file isn't where it was, or isn't as long as this process made it: what is written to it isn't there at the next start. */
static void must_be_there(void) {
    struct stat open, named;
    must(fstat(file, &open) == 0 && stat(path, &named) == 0 && open.st_dev == named.st_dev && open.st_ino == named.st_ino &&
             open.st_size == lseek(file, 0, SEEK_CUR),
         "the file isn't where it was, or another program changed it");
}

/* Has the disk keep the name of a file too, which may be linked to from another folder. */
static void sync_name(const char *linked) {
    char *name = realpath(linked, NULL);
    int folder = name ? open(dirname(name), O_RDONLY) : -1;
    must(folder >= 0 && fsync(folder) == 0 && close(folder) == 0, "the file's folder can't be synced");
    free(name);
}

/* Opens the file for this process only, and gives a new one its header: one whose header a crash left in part is new. */
static void open_file(void) {
    char found[sizeof header] = {0};
    file = open(path, O_RDWR | O_CREAT, 0600);
    if (file < 0 || flock(file, LOCK_EX | LOCK_NB) != 0) {
        fprintf(stderr, "logged: %s: %s\n", path, errno == EWOULDBLOCK ? "another process has it open" : strerror(errno));
        exit(2);
    }
    ssize_t size = pread(file, found, sizeof found, 0);
    int is_new = size >= 0 && lseek(file, 0, SEEK_END) == size;
    for (ssize_t i = 0; i < size; i++) is_new &= found[i] == header[i] || found[i] == 0;
    must(is_new || memcmp(found, header, sizeof header) == 0, "the file is another program's: give another file");
    if (is_new) must(pwrite(file, header, sizeof header, 0) == sizeof header, "the file can't be written");
    sync_name(path);
}

/* Cuts the file at its last whole call, and keeps what follows in another. */
static void cut_off(off_t end, size_t size) {
    static char bytes[GROUP * sizeof(call_t)];
    char name[4096];
    int kept = -1;
    for (int number = 1; kept < 0 && (number == 1 || errno == EEXIST); number++) {
        must(snprintf(name, sizeof name, "%s.cut%d", path, number) < (int)sizeof name, "the file's name is too long");
        kept = open(name, O_WRONLY | O_CREAT | O_EXCL, 0600);
    }
    must(pread(file, bytes, size, end) == (ssize_t)size, "the file can't be read");
    int is_kept = kept >= 0 && write(kept, bytes, size) == (ssize_t)size && fsync(kept) == 0 && close(kept) == 0;
    if (kept >= 0 && !is_kept) unlink(name);
    must(is_kept, "the file's end, which isn't whole, can't be kept in another file");
    sync_name(name);
    fprintf(stderr, "logged: the last %zu bytes aren't whole calls: they are cut off, and kept in %s\n", size, name);
    must(ftruncate(file, end) == 0, "the file can't be cut");
}

/* Makes the file's calls again, up to one that isn't whole. A crash leaves at most the last four so, which weren't acknowledged. Damage to
 * these looks the same, so what is cut off is kept. If more follow, the file is damaged. Returns how many calls were made. */
static uint64_t recover(void) {
    call_t call;
    uint64_t calls = 0;
    off_t size = lseek(file, 0, SEEK_END), end = lseek(file, sizeof header, SEEK_SET);
    must(size >= end && end > 0, "the file can't be read");
    for (; read(file, &call, sizeof call) == sizeof call && call.sum == sum_of(&call); end += sizeof call) {
        make(&call, calls);
        if (calls++ % 1000 == 999) read_replies();
    }
    read_replies();
    must(size - end <= (off_t)(GROUP * sizeof call), "the file is damaged: put a copy back");
    if (size > end) cut_off(end, size - end);
    must(fsync(file) == 0 && lseek(file, end, SEEK_SET) == end, "the file can't be synced");
    return calls;
}

/* Returns call `number` of the bank. */
static call_t call_of(uint64_t number) {
    call_t call = {0};
    const kip_account accounts[] = {{.id = {1, 0}, .ledger = 1, .code = 1}, {.id = {2, 0}, .ledger = 1, .code = 1}};
    const kip_transfer transfer = {.id = {number, 0}, .debit_account_id = {1, 0}, .credit_account_id = {2, 0}, .amount = {number, 0},
                                   .ledger = 1, .code = 1};
    if (number % 10 == 0) call.moment = number * 1000000000;
    if (number == 0 || number % 10 != 0) {
        call.operation = number == 0 ? KIP_OPERATION_CREATE_ACCOUNTS : KIP_OPERATION_CREATE_TRANSFERS;
        call.size = number == 0 ? sizeof accounts : sizeof transfer;
        memcpy(call.data, number == 0 ? (const void *)accounts : (const void *)&transfer, call.size);
    }
    call.sum = sum_of(&call);
    return call;
}

int main(int count, char **words) {
    char *rest = NULL;
    uint64_t calls = count == 3 ? strtoull(words[2], &rest, 10) : 0, place = 0, clock = 0;
    must(rest && *rest == 0 && words[2][0] >= '0' && words[2][0] <= '9', "usage: logged FILE CALLS");
    setvbuf(stdout, NULL, _IOLBF, 0); /* each line at once, also into a pipe */
    path = words[1];
    open_file();
    must(kip_open(&kip, 0, KIP_BATCH_MAX, 1) == KIP_OK, "kip_open");
    place = recover();
    printf("recovered %llu\n", (unsigned long long)place);
    must_be_printed();
    while (place < calls) {
        uint64_t end = place + GROUP < calls ? place + GROUP : calls;
        must_be_there();
        for (uint64_t number = place; number < end; number++) {
            call_t call = call_of(number);
            must(write(file, &call, sizeof call) == sizeof call, "the file can't be written");
            make(&call, number);
        }
        must(fdatasync(file) == 0, "the disk failed: what of these calls is in the file is known at the next start");
        must_be_there();
        read_replies();
        for (; place < end; place++) printf("committed %llu\n", (unsigned long long)place);
        must_be_printed();
    }

    kip_account account = {0};
    must(kip_lookup_account(&kip, 1, 0, &account) == KIP_OK || place == 0, "account 1");
    must(kip_clock(&kip, &clock) == KIP_OK && kip_close(&kip) == KIP_OK, "kip_close");
    printf("debits %llu, clock %llu\n", (unsigned long long)account.debits_posted.low, (unsigned long long)clock);
    must_be_printed();
    return 0;
}
