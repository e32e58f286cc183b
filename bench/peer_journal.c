/* What a team would write first: threads that each make a packet, take a lock, store it in SQLite and commit. And the limit: a file that
 * gets each batch by one write and one fdatasync.
 *
 *   peer_journal sqlite PATH SUBMITTERS PACKETS EVENTS [each]    PACKETS of each submitter
 *   peer_journal file PATH 1 BATCHES EVENTS
 *
 * No state machine runs. Prints how many packets were stored, and with `each` a line before that for each packet, once it is stored. */
#include <fcntl.h>
#include <pthread.h>
#include <sqlite3.h>
#include <stdio.h>
#include <stdlib.h>
#include <string.h>
#include <unistd.h>

enum { EVENT_SIZE = 128, STUB_SIZE = 16, SUBMITTERS_MAX = 16 };

static sqlite3 *database;
static sqlite3_stmt *begin, *insert, *commit;
static pthread_mutex_t lock = PTHREAD_MUTEX_INITIALIZER;
static long packets, events, place;
static int prints;

static void must(int holds, const char *what) {
    if (!holds) {
        fprintf(stderr, "%s: %s\n", what, database ? sqlite3_errmsg(database) : "failed");
        exit(2);
    }
}

static void step(sqlite3_stmt *statement) {
    must(sqlite3_step(statement) == SQLITE_DONE, "step");
    must(sqlite3_reset(statement) == SQLITE_OK, "reset");
}

static void store(const unsigned char *body) {
    static const unsigned char stub[STUB_SIZE];
    step(begin);
    sqlite3_bind_int64(insert, 1, place++);
    sqlite3_bind_int(insert, 2, 130);
    sqlite3_bind_int64(insert, 3, 0);
    sqlite3_bind_blob(insert, 4, stub, sizeof stub, SQLITE_STATIC);
    sqlite3_bind_blob(insert, 5, body, (int)(events * EVENT_SIZE), SQLITE_STATIC);
    step(insert);
    step(commit);
}

static void *submitter(void *unused) {
    unsigned char *body = malloc(events * EVENT_SIZE);
    must(body != NULL, "malloc");
    for (long packet = 0; packet < packets; packet++) {
        memset(body, (int)packet, events * EVENT_SIZE);
        pthread_mutex_lock(&lock);
        store(body);
        if (prints) {
            puts("ack");
            fflush(stdout);
        }
        pthread_mutex_unlock(&lock);
    }
    free(body);
    return unused;
}

static void run_sqlite(const char *path, long submitters) {
    pthread_t threads[SUBMITTERS_MAX];
    must(sqlite3_open(path, &database) == SQLITE_OK, "open");
    must(sqlite3_exec(database,
                      "pragma journal_mode=wal; pragma synchronous=full; pragma wal_autocheckpoint=100000;"
                      "create table entry (place integer primary key, operation integer not null, moment integer not null,"
                      " stubs blob not null, body blob not null) strict",
                      NULL, NULL, NULL) == SQLITE_OK, "create");
    must(sqlite3_prepare_v2(database, "begin immediate", -1, &begin, NULL) == SQLITE_OK, "prepare");
    must(sqlite3_prepare_v2(database, "insert into entry values (?, ?, ?, ?, ?)", -1, &insert, NULL) == SQLITE_OK, "prepare");
    must(sqlite3_prepare_v2(database, "commit", -1, &commit, NULL) == SQLITE_OK, "prepare");
    for (long at = 0; at < submitters; at++)
        must(pthread_create(&threads[at], NULL, submitter, NULL) == 0, "thread");
    for (long at = 0; at < submitters; at++)
        must(pthread_join(threads[at], NULL) == 0, "join");
    sqlite3_finalize(begin);
    sqlite3_finalize(insert);
    sqlite3_finalize(commit);
    must(sqlite3_close(database) == SQLITE_OK, "close");
}

static void run_file(const char *path) {
    size_t size = events * EVENT_SIZE;
    unsigned char *body = malloc(size);
    int file = open(path, O_WRONLY | O_CREAT | O_TRUNC, 0600);
    must(body != NULL && file >= 0, "open");
    for (long packet = 0; packet < packets; packet++) {
        memset(body, (int)packet, size);
        must(write(file, body, size) == (ssize_t)size, "write");
        must(fdatasync(file) == 0, "fdatasync");
        place++;
    }
    must(close(file) == 0, "close");
    free(body);
}

int main(int count, char **words) {
    prints = count == 7 && strcmp(words[6], "each") == 0;
    must(count == 6 || prints, "usage: peer_journal sqlite|file PATH SUBMITTERS PACKETS EVENTS [each]");
    long submitters = atol(words[3]);
    packets = atol(words[4]);
    events = atol(words[5]);
    must(submitters >= 1 && submitters <= SUBMITTERS_MAX && packets >= 1 && events >= 1, "numbers");
    if (strcmp(words[1], "sqlite") == 0)
        run_sqlite(words[2], submitters);
    else
        run_file(words[2]);
    printf("%ld\n", place);
    return 0;
}
