/* The peer of `wagons run`: keeps the same wagon rows and the same history in SQLite, in memory.
 *
 * It reads the same lines and gives the same replies to messages, orders and commits: prepared statements, one
 * transaction an event, message ids under a unique index, the same table of statuses. It does less than the office: it
 * doesn't plan (a plan line gets no reply), it promises a commit's pairs without judging prices, and of the fields of
 * a line it checks only those that it uses. Its reader of JSON knows flat objects without escapes, as in the script.
 *
 * peer ROSTER < lines.jsonl
 */
#include <sqlite3.h>
#include <stdio.h>
#include <stdlib.h>
#include <string.h>

enum status { EMPTY, LOADING, READY, JOURNEY_LOADED, JOURNEY_EMPTY, YARD_LOADED, YARD_EMPTY, ARRIVED_LOADED, ARRIVED_EMPTY, UNLOADING };

static const char *const STATUS_WORDS[] = {"empty", "loading", "ready", "journey_loaded", "journey_empty",
    "yard_loaded", "yard_empty", "arrived_loaded", "arrived_empty", "unloading"};

enum statement { BEGIN, COMMIT, ROLLBACK, FIND_MESSAGE, ADD_MESSAGE, ADD_ORDER_ENTRY, ADD_COMMIT_ENTRY, FIND_WAGON,
    SET_WAGON, PROMISE_WAGON, FIND_ORDER, ADD_ORDER, PROMISE_ORDER, FILL_ORDER, UNPROMISE_ORDER, STATEMENTS };

static const char *const TEXTS[STATEMENTS] = {
    [BEGIN] = "BEGIN IMMEDIATE",
    [COMMIT] = "COMMIT",
    [ROLLBACK] = "ROLLBACK",
    [FIND_MESSAGE] = "SELECT n, kind, wagon, place, moment, hold FROM entry WHERE company = ? AND number = ?",
    [ADD_MESSAGE] = "INSERT INTO entry (n, kind, company, number, wagon, place, moment, hold) VALUES (?, ?, ?, ?, ?, ?, ?, ?)",
    [ADD_ORDER_ENTRY] = "INSERT INTO entry (n, kind, body) VALUES (?, 'order', ?)",
    [ADD_COMMIT_ENTRY] = "INSERT INTO entry (n, kind, body) VALUES (?, 'commit', ?)",
    [FIND_WAGON] = "SELECT status, place, last, held, promise FROM wagon WHERE number = ?",
    [SET_WAGON] = "UPDATE wagon SET status = ?, place = ?, last = ?, held = ?, promise = ?, ready = ? WHERE number = ?",
    [PROMISE_WAGON] = "UPDATE wagon SET promise = ? WHERE number = ? AND status = 0 AND held = 0 AND promise IS NULL",
    [FIND_ORDER] = "SELECT place FROM orders WHERE id = ?",
    [ADD_ORDER] = "INSERT INTO orders (id, place, body, wagons, promised, filled) VALUES (?, ?, ?, ?, 0, 0)",
    [PROMISE_ORDER] = "UPDATE orders SET promised = promised + 1 WHERE id = ? AND promised + filled < wagons",
    [FILL_ORDER] = "UPDATE orders SET promised = promised - 1, filled = filled + 1 WHERE id = ?",
    [UNPROMISE_ORDER] = "UPDATE orders SET promised = promised - 1 WHERE id = ?",
};

static const char SCHEMA[] =
    "CREATE TABLE wagon (number INTEGER PRIMARY KEY, class TEXT, load INTEGER, status INTEGER, place TEXT,"
    " ready INTEGER, last INTEGER, held INTEGER, promise TEXT);"
    "CREATE TABLE orders (id TEXT PRIMARY KEY, place TEXT, body TEXT, wagons INTEGER, promised INTEGER, filled INTEGER) WITHOUT ROWID;"
    "CREATE TABLE entry (n INTEGER PRIMARY KEY, kind TEXT, company TEXT, number INTEGER, wagon INTEGER, place TEXT,"
    " moment INTEGER, hold INTEGER, body TEXT);"
    "CREATE UNIQUE INDEX message_id ON entry (company, number) WHERE company IS NOT NULL;";

/* The connection of this thread (bench/feed has several), and its statements. */
static _Thread_local sqlite3 *db;
static _Thread_local sqlite3_stmt *made[STATEMENTS];

/* How many entries there are; it is read and changed within a transaction alone. */
static long long entries = 0;

/* A piece of the line. */
struct text { const char *start; int length; };

static void fail(const char *why) {
    fprintf(stderr, "peer: %s: %s\n", why, db ? sqlite3_errmsg(db) : "");
    exit(2);
}

/* Runs a statement that answers no row. */
static void run(enum statement which) {
    if (sqlite3_step(made[which]) != SQLITE_DONE) fail(TEXTS[which]);
    sqlite3_reset(made[which]);
}

static void bind_text(enum statement which, int place, struct text t) {
    sqlite3_bind_text(made[which], place, t.start, t.length, SQLITE_STATIC);
}

static int is(struct text t, const char *word) {
    return t.length == (int)strlen(word) && memcmp(t.start, word, t.length) == 0;
}

static int same(struct text t, sqlite3_stmt *row, int column) {
    const char *other = (const char *)sqlite3_column_text(row, column);
    return other && t.length == sqlite3_column_bytes(row, column) && memcmp(t.start, other, t.length) == 0;
}

/* The value of a member of a flat object: a text without its quotes, a list with its brackets, else the bare word. */
static struct text member(const char *line, const char *name) {
    size_t length = strlen(name);
    for (const char *at = line; (at = strchr(at, '"')); at = strchr(at + 1, '"') + 1) {
        if (strncmp(at + 1, name, length) || at[length + 1] != '"' || at[length + 2] != ':') continue;
        const char *start = at + length + 3;
        if (*start == '"') return (struct text){start + 1, (int)(strchr(start + 1, '"') - start - 1)};
        const char *end = start;
        for (int depth = 0; *end && (depth || !strchr(",}", *end)); end++) depth += (*end == '[') - (*end == ']');
        return (struct text){start, (int)(end - start)};
    }
    return (struct text){0, 0};
}

static long long number(struct text t) {
    long long n = 0;
    for (int i = 0; i < t.length; i++) n = n * 10 + (t.start[i] - '0');
    return n;
}

/* Whether a wagon's number has twelve digits and the right check digit. */
static int is_wagon(struct text t) {
    if (t.length != 12) return 0;
    int sum = 0;
    for (int i = 0; i < 12; i++) {
        int digit = t.start[i] - '0';
        if (digit < 0 || digit > 9) return 0;
        int product = i % 2 ? digit : 2 * digit;
        sum += i < 11 ? product / 10 + product % 10 : digit;
    }
    return sum % 10 == 0;
}

/* The seconds of a moment as YYYY-MM-DDThh:mm:ssZ. */
static long long seconds(struct text t) {
    if (t.length != 20) fail("a moment of another form");
    const char *s = t.start;
    long long year = number((struct text){s, 4}), month = number((struct text){s + 5, 2}), day = number((struct text){s + 8, 2});
    year -= month <= 2;
    long long era = year / 400, of_era = year % 400;
    long long of_year = (153 * (month + (month > 2 ? -3 : 9)) + 2) / 5 + day - 1;
    long long days = era * 146097 + of_era * 365 + of_era / 4 - of_era / 100 + of_year - 719468;
    return days * 86400 + number((struct text){s + 11, 2}) * 3600 + number((struct text){s + 14, 2}) * 60 + number((struct text){s + 17, 2});
}

/* The status after a message, or -1; *here says whether the message must be at the wagon's place. */
static int next_status(struct text kind, int status, int *here) {
    *here = 1;
    if (is(kind, "release")) return status == LOADING ? READY : status == UNLOADING ? EMPTY : -1;
    if (is(kind, "departure")) return status == READY ? JOURNEY_LOADED : status == EMPTY ? JOURNEY_EMPTY : -1;
    if (is(kind, "yard_departure")) return status == YARD_LOADED ? JOURNEY_LOADED : status == YARD_EMPTY ? JOURNEY_EMPTY : -1;
    *here = 0;
    if (is(kind, "yard_arrival")) return status == JOURNEY_LOADED ? YARD_LOADED : status == JOURNEY_EMPTY ? YARD_EMPTY : -1;
    if (is(kind, "arrival")) return status == JOURNEY_LOADED ? ARRIVED_LOADED : status == JOURNEY_EMPTY ? ARRIVED_EMPTY : -1;
    if (is(kind, "delivery")) return status == ARRIVED_LOADED ? UNLOADING : status == ARRIVED_EMPTY ? EMPTY : -1;
    return -1;
}

static void refuse(long long n, int code) {
    run(ROLLBACK);
    printf("%lld refused %d\n", n, code);
}

static void accept(long long n) {
    long long entry = ++entries;
    run(COMMIT);
    printf("%lld accepted %lld\n", n, entry);
}

/* A wagon's row after a message, and what it does to the order that the wagon is promised to. */
static int apply(struct text kind, struct text place, long long moment, int hold, long long wagon) {
    sqlite3_stmt *row = made[FIND_WAGON];
    sqlite3_bind_int64(row, 1, wagon);
    if (sqlite3_step(row) != SQLITE_ROW) { sqlite3_reset(row); return 73; }
    int status = sqlite3_column_int(row, 0), held = sqlite3_column_int(row, 3), here = 0, next = status, code = 0;
    char promise[17] = "", at[8] = "";
    struct text where = place;
    if (sqlite3_column_text(row, 4)) snprintf(promise, sizeof promise, "%s", sqlite3_column_text(row, 4));
    if (moment < sqlite3_column_int64(row, 2)) code = 31;
    if (!code && is(kind, "exception")) {
        snprintf(at, sizeof at, "%s", sqlite3_column_text(row, 1));
        where = (struct text){at, (int)strlen(at)};
        held = hold;
    } else if (!code) {
        next = next_status(kind, status, &here);
        code = next < 0 ? 32 : here && !same(place, row, 1) ? 33 : 0;
    }
    sqlite3_reset(row);
    if (code) return code;
    int ends = promise[0] && (is(kind, "exception") ? hold : is(kind, "delivery"));
    if (ends) {
        enum statement change = UNPROMISE_ORDER;
        if (status == ARRIVED_EMPTY && is(kind, "delivery")) {
            sqlite3_bind_text(made[FIND_ORDER], 1, promise, -1, SQLITE_STATIC);
            if (sqlite3_step(made[FIND_ORDER]) != SQLITE_ROW) fail("a promise to no order");
            if (same(place, made[FIND_ORDER], 0)) { change = FILL_ORDER; next = LOADING; }
            sqlite3_reset(made[FIND_ORDER]);
        }
        sqlite3_bind_text(made[change], 1, promise, -1, SQLITE_STATIC);
        run(change);
    }
    sqlite3_bind_int(made[SET_WAGON], 1, next);
    bind_text(SET_WAGON, 2, where);
    sqlite3_bind_int64(made[SET_WAGON], 3, moment);
    sqlite3_bind_int(made[SET_WAGON], 4, held);
    if (promise[0] && !ends) sqlite3_bind_text(made[SET_WAGON], 5, promise, -1, SQLITE_STATIC);
    else sqlite3_bind_null(made[SET_WAGON], 5);
    sqlite3_bind_int64(made[SET_WAGON], 6, moment);
    sqlite3_bind_int64(made[SET_WAGON], 7, wagon);
    run(SET_WAGON);
    return 0;
}

static void message(long long n, struct text kind, const char *line) {
    struct text company = member(line, "company"), wagon_text = member(line, "wagon"), place = member(line, "place");
    long long id = number(member(line, "number")), moment = seconds(member(line, "moment")), wagon = number(wagon_text);
    int hold = is(kind, "exception") ? is(member(line, "hold"), "true") : 0;
    if (company.length != 4 || place.length != 7 || !is_wagon(wagon_text)) fail("a field of another form");
    run(BEGIN);
    sqlite3_stmt *found = made[FIND_MESSAGE];
    bind_text(FIND_MESSAGE, 1, company);
    sqlite3_bind_int64(found, 2, id);
    if (sqlite3_step(found) == SQLITE_ROW) {
        int equal = same(kind, found, 1) && sqlite3_column_int64(found, 2) == wagon && same(place, found, 3)
            && sqlite3_column_int64(found, 4) == moment && sqlite3_column_int(found, 5) == hold;
        long long entry = sqlite3_column_int64(found, 0);
        sqlite3_reset(found);
        if (!equal) { refuse(n, 71); return; }
        run(COMMIT);
        printf("%lld repeated %lld\n", n, entry);
        return;
    }
    sqlite3_reset(found);
    int code = apply(kind, place, moment, hold, wagon);
    if (code) { refuse(n, code); return; }
    sqlite3_stmt *add = made[ADD_MESSAGE];
    sqlite3_bind_int64(add, 1, entries + 1);
    bind_text(ADD_MESSAGE, 2, kind);
    bind_text(ADD_MESSAGE, 3, company);
    sqlite3_bind_int64(add, 4, id);
    sqlite3_bind_int64(add, 5, wagon);
    bind_text(ADD_MESSAGE, 6, place);
    sqlite3_bind_int64(add, 7, moment);
    sqlite3_bind_int(add, 8, hold);
    run(ADD_MESSAGE);
    accept(n);
}

static void add_entry(enum statement which, const char *line) {
    sqlite3_bind_int64(made[which], 1, entries + 1);
    sqlite3_bind_text(made[which], 2, line, -1, SQLITE_STATIC);
    run(which);
}

static void order(long long n, const char *line) {
    struct text wagons = member(line, "wagons");
    run(BEGIN);
    bind_text(ADD_ORDER, 1, member(line, "order"));
    bind_text(ADD_ORDER, 2, member(line, "place"));
    sqlite3_bind_text(made[ADD_ORDER], 3, line, -1, SQLITE_STATIC);
    sqlite3_bind_int64(made[ADD_ORDER], 4, wagons.start ? number(wagons) : 1);
    if (sqlite3_step(made[ADD_ORDER]) != SQLITE_DONE) { sqlite3_reset(made[ADD_ORDER]); refuse(n, 74); return; }
    sqlite3_reset(made[ADD_ORDER]);
    add_entry(ADD_ORDER_ENTRY, line);
    accept(n);
}

/* Promises the pairs of a commit; a wagon that isn't free or an order that lacks none refuses it. */
static void commit(long long n, const char *line) {
    const char *at = member(line, "pairs").start + 1;
    run(BEGIN);
    while (*at == '[') {
        struct text wagon = {at + 2, 12}, id = {at + 17, (int)(strchr(at + 17, '"') - at - 17)};
        bind_text(PROMISE_WAGON, 1, id);
        sqlite3_bind_int64(made[PROMISE_WAGON], 2, number(wagon));
        run(PROMISE_WAGON);
        if (sqlite3_changes(db) != 1) { refuse(n, 82); return; }
        bind_text(PROMISE_ORDER, 1, id);
        run(PROMISE_ORDER);
        if (sqlite3_changes(db) != 1) { refuse(n, 83); return; }
        at = strchr(at, ']') + 1;
        at += *at == ',';
    }
    add_entry(ADD_COMMIT_ENTRY, line);
    accept(n);
}

static void read_roster(const char *path) {
    FILE *file = fopen(path, "r");
    char row[256], class[13], word[20], place[8], moment[21];
    long long wagon, load;
    sqlite3_stmt *add;
    if (!file || !fgets(row, sizeof row, file)) fail("the roster can't be read");
    sqlite3_prepare_v2(db, "INSERT INTO wagon VALUES (?, ?, ?, ?, ?, ?, ?, 0, NULL)", -1, &add, 0);
    while (fgets(row, sizeof row, file)) {
        if (sscanf(row, "%lld,%12[^,],%lld,%19[^,],%7[^,],%20s", &wagon, class, &load, word, place, moment) != 6) fail("a row of the roster");
        int status = 0;
        while (strcmp(word, STATUS_WORDS[status])) status++;
        sqlite3_bind_int64(add, 1, wagon);
        sqlite3_bind_text(add, 2, class, -1, SQLITE_STATIC);
        sqlite3_bind_int64(add, 3, load);
        sqlite3_bind_int(add, 4, status);
        sqlite3_bind_text(add, 5, place, -1, SQLITE_STATIC);
        sqlite3_bind_int64(add, 6, seconds((struct text){moment, 20}));
        sqlite3_bind_int64(add, 7, seconds((struct text){moment, 20}));
        if (sqlite3_step(add) != SQLITE_DONE) fail("a row of the roster");
        sqlite3_reset(add);
    }
    sqlite3_finalize(add);
    fclose(file);
}

int main(int words, char **word) {
    if (words != 2) fail("peer ROSTER < lines");
    if (sqlite3_open(":memory:", &db) || sqlite3_exec(db, SCHEMA, 0, 0, 0)) fail("no database");
    for (int k = 0; k < STATEMENTS; k++)
        if (sqlite3_prepare_v2(db, TEXTS[k], -1, &made[k], 0)) fail(TEXTS[k]);
    read_roster(word[1]);
    char *line = 0;
    size_t room = 0;
    ssize_t length;
    for (long long n = 1; (length = getline(&line, &room, stdin)) > 0; n++) {
        if (line[length - 1] == '\n') line[length - 1] = 0;
        struct text kind = member(line, "type");
        if (is(kind, "order")) order(n, line);
        else if (is(kind, "commit")) commit(n, line);
        else if (!is(kind, "plan")) message(n, kind, line);
        // As `wagons run` does, each reply is written at once.
        fflush(stdout);
    }
    return 0;
}
