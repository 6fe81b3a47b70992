/* The peer of `wagons feed`: the rows and the history of the peer of bench/run in one database in memory, to which each file
 * has a thread and a connection of its own. It doesn't plan: plan lines are skipped. At the end it prints for each file how
 * many lines were accepted, repeated and refused.
 *
 * peer ROSTER FILE..
 */
#include <pthread.h>
#include <sched.h>
#include <stdarg.h>
#include <stdio.h>

/* Its replies are counted and not printed. */
static int count_reply(const char *form, ...);
#define printf count_reply
#define main peer_of_run
#include "../run/peer.c"
#undef main
#undef printf

static const char DATABASE[] = "file:/fleet?vfs=memdb";

struct file { const char *path; pthread_t thread; long long accepted, repeated, refused; };

static _Thread_local struct file *file_here;

static int count_reply(const char *form, ...) {
    if (strstr(form, "accepted")) file_here->accepted++;
    else if (strstr(form, "repeated")) file_here->repeated++;
    else file_here->refused++;
    return 0;
}

/* Another connection writes: let its thread go on. */
static int wait_for_others(void *unused, int turns) {
    (void)unused, (void)turns;
    sched_yield();
    return 1;
}

static void connect(void) {
    if (sqlite3_open_v2(DATABASE, &db, SQLITE_OPEN_READWRITE | SQLITE_OPEN_CREATE | SQLITE_OPEN_URI | SQLITE_OPEN_NOMUTEX, 0)) fail("no database");
    sqlite3_busy_handler(db, wait_for_others, 0);
}

static void prepare(void) {
    for (int k = 0; k < STATEMENTS; k++)
        if (sqlite3_prepare_v2(db, TEXTS[k], -1, &made[k], 0)) fail(TEXTS[k]);
}

static void *feed(void *of) {
    file_here = of;
    FILE *input = fopen(file_here->path, "r");
    char *line = 0;
    size_t room = 0;
    ssize_t length;
    connect();
    prepare();
    if (!input) fail(file_here->path);
    for (long long n = 1; (length = getline(&line, &room, input)) > 0; n++) {
        if (line[length - 1] == '\n') line[length - 1] = 0;
        struct text kind = member(line, "type");
        if (is(kind, "order")) order(n, line);
        else if (!is(kind, "plan")) message(n, kind, line);
    }
    fclose(input);
    free(line);
    return 0;
}

int main(int words, char **word) {
    static struct file files[16];
    int count = words - 2;
    if (count < 1 || count > 16) fail("peer ROSTER FILE.., 1 to 16 files");
    connect();
    if (sqlite3_exec(db, SCHEMA, 0, 0, 0)) fail("no tables");
    read_roster(word[1]);
    for (int k = 0; k < count; k++) {
        files[k].path = word[k + 2];
        if (pthread_create(&files[k].thread, 0, feed, &files[k])) fail("no thread");
    }
    for (int k = 0; k < count; k++) {
        pthread_join(files[k].thread, 0);
        printf("file %d accepted %lld repeated %lld refused %lld\n", k + 1, files[k].accepted, files[k].repeated, files[k].refused);
    }
    return 0;
}
