/* A ledger that survives the process: what is committed is stored in SQLite before its reply is printed, and committed again at the start.
 * The file has the table of docs/DURABLE.md, so `tbpipe replay FILE` reads it, and so does kip.durable of Python.
 *
 *   journaled FILE CALLS
 *
 * Makes the calls of a little bank up to number CALLS: two accounts, then transfers, and now and then a pulse. Each takes one place of the
 * ledger, and is printed as `committed PLACE`. The file is synced once for four calls. */
#include <kip.h>
#include <sqlite3.h>
#include <stdio.h>
#include <stdlib.h>
#include <sys/random.h>
#include <sys/stat.h>

enum { SETTINGS_PLACE = -1, FORMAT_VERSION = 1, GROUP = 4 };

#define TABLE \
    "CREATE TABLE entry (place INTEGER PRIMARY KEY, operation INTEGER NOT NULL, moment INTEGER NOT NULL, stubs BLOB NOT NULL, body " \
    "BLOB NOT NULL) STRICT"

/* Of a packet its number in its run, its submitter, and its count of events. */
typedef struct {
    uint64_t number;
    uint32_t submitter, events;
} stub_t;
KIP_STATIC_ASSERT(sizeof(stub_t) == 16, "a stub has 16 bytes");

static kip_t kip;
static const char *path;
static sqlite3 *file;
static sqlite3_stmt *insert;
static struct stat opened[2]; /* the file and its log. The first write makes the log: its inode is 0 before. */
static uint64_t first_numbers[KIP_SUBMITTERS_MAX]; /* of each submitter's packets in this run: as many are in the file */
static uint64_t following[KIP_SUBMITTERS_MAX];     /* of each submitter the number in a row that would be the next of its run */

/* Ends the run if something doesn't hold: with what SQLite says of the file if it failed, or else with a sentence. */
static void must(int holds, const char *what) {
    if (holds) return;
    int code = file ? sqlite3_errcode(file) : SQLITE_OK;
    if (code == SQLITE_OK || code == SQLITE_ROW || code == SQLITE_DONE) fprintf(stderr, "journaled: %s\n", what);
    else fprintf(stderr, "journaled: %s: %s\n", path, code == SQLITE_BUSY ? "another process has it open" : sqlite3_errmsg(file));
    exit(2);
}

/* Ends the run if what was printed can't be read by anybody. */
static void must_be_printed(void) { must(fflush(stdout) == 0 && !ferror(stdout), "standard output can't be written"); }

static void sql(const char *text) { must(sqlite3_exec(file, text, NULL, NULL, NULL) == SQLITE_OK, text); }

/* Puts a row, with a stub or none. */
static void put(sqlite3_int64 place, int operation, sqlite3_int64 moment, const stub_t *stub, const void *body, int size) {
    sqlite3_bind_int64(insert, 1, place);
    sqlite3_bind_int(insert, 2, operation);
    sqlite3_bind_int64(insert, 3, moment);
    sqlite3_bind_blob(insert, 4, stub ? (const void *)stub : "", stub ? sizeof *stub : 0, SQLITE_STATIC);
    sqlite3_bind_blob(insert, 5, body, size, SQLITE_STATIC);
    must(sqlite3_step(insert) == SQLITE_DONE && sqlite3_reset(insert) == SQLITE_OK, "insert");
}

/* Refuses a file whose log isn't beside it: one with another name, by which its log may be named, and a log without its file, which SQLite
 * would delete. A database in memory has no name, and would be lost. */
static void look_at_log(void) {
    const char *name = sqlite3_db_filename(file, "main");
    struct stat found, log;
    must(name && *name, "the file needs a name");
    must(stat(name, &found) == 0 && found.st_nlink == 1, "the file has another name, by which its log may be named: remove that hard link");
    must(found.st_size > 0 || stat(sqlite3_filename_wal(name), &log) != 0 || log.st_size == 0,
         "there is no file, or an empty one, but its log has pages: put the file back, or move the log away");
}

/* Refuses a file that isn't SQLite's, unless it was being made, and pages with sums of tb_durable, which would be lost here. */
static void look_at_head(void) {
    const char *name = sqlite3_db_filename(file, "main");
    unsigned char head[21] = {0};
    struct stat journal;
    FILE *read = fopen(name, "rb"); /* (ahead of a lock, since it would be lost as this is closed) */
    size_t count = read ? fread(head, 1, sizeof head, read) : 0;
    if (read) fclose(read);
    if (count == 0 || memcmp(head, "SQLite format 3", 16) == 0)
        must(head[20] == 0, "the pages of the file have sums, which this SQLite doesn't write: continue it by tbpipe");
    else must(stat(sqlite3_filename_journal(name), &journal) == 0, "the file is no SQLite database: give another file");
}

/* Returns whether the file has a ledger's table and nothing else. */
static int is_ledger(void) {
    sqlite3_stmt *tables;
    int same = sqlite3_prepare_v2(file, "select count(*) = 1 and max(sql) = '" TABLE "' from sqlite_master", -1, &tables, NULL) == SQLITE_OK &&
               sqlite3_step(tables) == SQLITE_ROW && sqlite3_column_int(tables, 0);
    return sqlite3_finalize(tables) == SQLITE_OK && same;
}

/* Looks which files are at the names of the file and its log; one that is there must be the one that was there before. SQLite doesn't look,
 * and what it writes to a file that was moved or deleted isn't there at the next start. */
static void must_be_there(void) {
    const char *name = sqlite3_db_filename(file, "main"), *names[] = {name, sqlite3_filename_wal(name)};
    for (int i = 0; i < 2; i++) {
        struct stat found = {0}, *was = &opened[i];
        int is_there = stat(names[i], &found) == 0;
        must(was->st_ino == 0 || (is_there && found.st_dev == was->st_dev && found.st_ino == was->st_ino),
             "the file or its log isn't where it was: put both back, and start again");
        *was = found;
    }
}

/* Opens the file for this process only, and makes the table of a new one. `begin exclusive` fails if another process has it. */
static void open_file(void) {
    const stub_t settings = {0, 1, KIP_BATCH_MAX};
    must(sqlite3_open(path, &file) == SQLITE_OK, "out of memory");
    look_at_log();
    look_at_head();
    sql("pragma locking_mode=exclusive; pragma synchronous=full; begin exclusive");
    int is_new = sqlite3_exec(file, "select 1 from entry", NULL, NULL, NULL) != SQLITE_OK;
    if (is_new) sql(TABLE);
    must(is_ledger(), "the file has the tables of another program");
    must(sqlite3_prepare_v2(file, "insert into entry values (?, ?, ?, ?, ?)", -1, &insert, NULL) == SQLITE_OK, "insert");
    if (is_new) put(SETTINGS_PLACE, FORMAT_VERSION, 0, &settings, "", 0);
    sql("commit");
    must_be_there();
}

static int event_size(uint32_t operation) { return operation == KIP_OPERATION_LOOKUP_ACCOUNTS ? 16 : 128; }

/* Returns whether a packet can share a batch, also as its last: look-ups never do, nor does an open chain. */
static int may_share(uint32_t operation, const char *data, uint64_t size) {
    kip_transfer last = {0}; /* (an account has its flags at the same bytes, and its first is `linked` too) */
    if (size > 0 && operation != KIP_OPERATION_LOOKUP_ACCOUNTS) memcpy(&last, data + size - sizeof last, sizeof last);
    return operation != KIP_OPERATION_LOOKUP_ACCOUNTS && !(last.flags & KIP_TRANSFER_LINKED);
}

/* Commits a row again: a pulse, or the packets of a batch. */
static void restore(sqlite3_stmt *row) {
    sqlite3_int64 operation = sqlite3_column_int64(row, 1), moment = sqlite3_column_int64(row, 2);
    kip_entry_t entry = {.place = sqlite3_column_int64(row, 0), .operation = operation & UINT8_MAX, .moment = moment};
    const stub_t *stubs = sqlite3_column_blob(row, 3);
    const char *body = sqlite3_column_blob(row, 4); /* (null if it is empty) */
    uint64_t count = sqlite3_column_bytes(row, 3) / sizeof *stubs, size = sqlite3_column_bytes(row, 4), at = 0;
    must(operation == entry.operation && moment >= 0 && sqlite3_column_bytes(row, 3) % sizeof *stubs == 0, "a row is no entry of a journal");
    if (entry.operation == KIP_ENTRY_PULSE) {
        must(kip_restore(&kip, &entry, NULL, 0) == KIP_OK, "a row's pulse isn't next, or is refused");
        return;
    }
    for (uint64_t i = 0; i < count; i++, entry.place++) {
        entry.size = (uint64_t)stubs[i].events * event_size(entry.operation);
        must(entry.size <= size - at && stubs[i].submitter < KIP_SUBMITTERS_MAX, "a row's stub doesn't fit");
        entry.submitter = stubs[i].submitter;
        entry.number = first_numbers[entry.submitter]++;
        must(stubs[i].number == 0 || stubs[i].number == following[entry.submitter], "a row's packet isn't its submitter's next");
        must(count == 1 || (size <= sizeof(kip_transfer) * KIP_BATCH_MAX && may_share(entry.operation, body + at, entry.size)),
             "a row's packets can't share a batch");
        following[entry.submitter] = stubs[i].number + 1;
        must(kip_restore(&kip, &entry, entry.size ? body + at : NULL, entry.size) == KIP_OK, "a row's packet isn't next, or is refused");
        at += entry.size;
    }
    must(count > 0 && at == size, "a row has no packets, or bytes of none");
}

/* Commits what is in the file. The replies were given when it was committed first. */
static void recover(void) {
    sqlite3_stmt *rows;
    must(sqlite3_prepare_v2(file, "select * from entry order by place", -1, &rows, NULL) == SQLITE_OK, "select");
    must(sqlite3_step(rows) == SQLITE_ROW && sqlite3_column_int64(rows, 0) == SETTINGS_PLACE && sqlite3_column_int64(rows, 1) == FORMAT_VERSION &&
             sqlite3_column_bytes(rows, 3) == sizeof(stub_t),
         "the first row has no settings");
    const stub_t *settings = sqlite3_column_blob(rows, 3); /* (its events are the limit) */
    uint64_t seed[2];
    must(settings != NULL, "out of memory");
    must(getentropy(seed, sizeof seed) == 0, "getentropy");
    must(kip_open_recorded(&kip, sqlite3_column_int64(rows, 2), settings->events, settings->submitter, seed[0], seed[1]) == KIP_OK,
         "the first row has wrong settings");
    while (sqlite3_step(rows) == SQLITE_ROW) restore(rows);
    must(sqlite3_finalize(rows) == SQLITE_OK, "select");
    sql("pragma journal_mode=wal"); /* (a file that is refused stays as it was) */
}

/* Makes call `number` of the bank. */
static void go_on(uint64_t call) {
    uint64_t number = 0; /* (the reply has the call as its user data) */
    if (call == 0) {
        const kip_account accounts[] = {{.id = {1, 0}, .ledger = 1, .code = 1}, {.id = {2, 0}, .ledger = 1, .code = 1}};
        must(kip_submit(&kip, 0, KIP_OPERATION_CREATE_ACCOUNTS, accounts, sizeof accounts, call, &number) == KIP_OK, "submit");
    } else if (call % 10 != 0) {
        const kip_transfer transfer = {.id = {call, 0}, .debit_account_id = {1, 0}, .credit_account_id = {2, 0}, .amount = {call, 0},
                                       .ledger = 1, .code = 1};
        must(kip_submit(&kip, 0, KIP_OPERATION_CREATE_TRANSFERS, &transfer, sizeof transfer, call, &number) == KIP_OK, "submit");
    } else {
        must(kip_pulse(&kip, call * 1000000000) == KIP_OK, "pulse");
    }
}

/* Ends the run if a call isn't committed, or if an event of it failed. One that `exists` was committed before, so it isn't made twice. */
static void must_be_made(const kip_reply_t *reply, const char *results) {
    must(kip_committed(reply), "a packet isn't committed");
    for (uint64_t at = 0; at < reply->size; at += sizeof(kip_failure)) {
        kip_failure failure;
        memcpy(&failure, results + at, sizeof failure);
        int is_account = reply->operation == KIP_OPERATION_CREATE_ACCOUNTS;
        const char *name = is_account ? kip_account_result_name(failure.result) : kip_transfer_result_name(failure.result);
        if (strcmp(name, "exists") == 0) continue;
        fprintf(stderr, "journaled: call %llu: %s\n", (unsigned long long)reply->user_data, name);
        exit(2);
    }
}

/* Stores what is committed, and then reads its replies: the library doesn't give them before. */
static void store(void) {
    static char data[KIP_BATCH_MAX * 128]; /* (no packet has more) */
    kip_entry_t entry;
    kip_reply_t reply;
    uint64_t places = 0;
    uint32_t status;
    must(kip_flush(&kip) == KIP_OK && kip_places(&kip, &places) == KIP_OK, "flush");
    must_be_there();
    sql("begin");
    while ((status = kip_entry(&kip, &entry, data, sizeof data)) == KIP_OK) {
        stub_t stub = {entry.number - first_numbers[entry.submitter], entry.submitter, entry.size / event_size(entry.operation)};
        put(entry.place, entry.operation, entry.moment, entry.operation == KIP_ENTRY_PULSE ? NULL : &stub, data, entry.size);
    }
    must(status == KIP_NO_ENTRY, kip_status_name(status));
    sql("commit"); /* what is committed is on the disk, so it may be printed */
    must_be_there();
    must(kip_durable(&kip, places) == KIP_OK, "durable");
    while ((status = kip_reply(&kip, &reply, data, sizeof data)) == KIP_OK) must_be_made(&reply, data);
    must(status == KIP_NO_REPLY, kip_status_name(status));
}

int main(int count, char **words) {
    char *rest = NULL;
    uint64_t calls = count == 3 ? strtoull(words[2], &rest, 10) : 0, place = 0;
    must(rest && *rest == 0 && words[2][0] >= '0' && words[2][0] <= '9', "usage: journaled FILE CALLS");
    setvbuf(stdout, NULL, _IOLBF, 0); /* each line at once, also into a pipe */
    path = words[1];
    open_file();
    recover();
    must(kip_places(&kip, &place) == KIP_OK, "kip_places");
    printf("recovered %llu\n", (unsigned long long)place);
    must_be_printed();
    while (place < calls) {
        uint64_t end = place + GROUP < calls ? place + GROUP : calls;
        for (uint64_t call = place; call < end; call++) go_on(call);
        store();
        for (; place < end; place++) printf("committed %llu\n", (unsigned long long)place);
        must_be_printed();
    }

    kip_account account = {0};
    uint64_t clock = 0;
    must(kip_lookup_account(&kip, 1, 0, &account) == KIP_OK || calls == 0, "account 1");
    must(kip_clock(&kip, &clock) == KIP_OK && kip_close(&kip) == KIP_OK, "kip_close");
    printf("debits %llu, clock %llu\n", (unsigned long long)account.debits_posted.low, (unsigned long long)clock);
    must_be_printed();
    must_be_there(); /* (as SQLite closes the file, it copies the log into it, and deletes the log) */
    sqlite3_finalize(insert);
    sqlite3_close(file);
    return 0;
}
