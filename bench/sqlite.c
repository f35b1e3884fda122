/* The SQLite peer of a select: `sqlite make DB` makes tables of the rows that `plain rows` prints, `sqlite select DB APID TABLE..` prints
   what `plain select` prints. Each table has the key as its primary key and no other index; a row is what the archive has of it, so the
   APID is read out of the packet. */
#include <sqlite3.h>
#include <stdio.h>
#include <stdlib.h>
#include <string.h>

static sqlite3 *db;

static void check(int ok) {
    if (!ok) {
        fprintf(stderr, "%s\n", sqlite3_errmsg(db));
        exit(1);
    }
}

static void run(const char *text) { check(sqlite3_exec(db, text, 0, 0, 0) == SQLITE_OK); }

static sqlite3_stmt *prepared(const char *text) {
    sqlite3_stmt *statement;
    check(sqlite3_prepare_v2(db, text, -1, &statement, 0) == SQLITE_OK);
    return statement;
}

static sqlite3_stmt *insert_into(const char *table) {
    char text[512];
    snprintf(text, sizeof text,
             "CREATE TABLE IF NOT EXISTS %s(time INTEGER, seq INTEGER, received INTEGER, link INTEGER, name TEXT, packet BLOB, "
             "PRIMARY KEY(time, seq)) WITHOUT ROWID", table);
    run(text);
    snprintf(text, sizeof text, "INSERT INTO %s VALUES(?, ?, ?, ?, ?, unhexed(?))", table);
    return prepared(text);
}

static int digit(char c) { return c <= '9' ? c - '0' : c - 'a' + 10; }

static void unhexed(sqlite3_context *context, int count, sqlite3_value **values) {
    const char *hex = (const char *)sqlite3_value_text(values[0]);
    int length = sqlite3_value_bytes(values[0]) / 2;
    char *octets = malloc(length + 1);
    for (int i = 0; i < length; i++) octets[i] = digit(hex[2 * i]) * 16 + digit(hex[2 * i + 1]);
    sqlite3_result_blob(context, octets, length, free);
}

static void apid(sqlite3_context *context, int count, sqlite3_value **values) {
    const unsigned char *packet = sqlite3_value_blob(values[0]);
    sqlite3_result_int(context, packet[0] % 8 * 256 + packet[1]);
}

static void function(const char *name, void (*call)(sqlite3_context *, int, sqlite3_value **)) {
    check(sqlite3_create_function(db, name, 1, SQLITE_UTF8 | SQLITE_DETERMINISTIC, 0, call, 0, 0) == SQLITE_OK);
}

static void make(void) {
    sqlite3_stmt *insert = 0;
    char last[300] = "", *line = 0;
    size_t room = 0;
    run("BEGIN");
    while (getline(&line, &room, stdin) > 0) {
        char *table = strtok(line, " \n");
        if (strcmp(table, last) != 0) {
            sqlite3_finalize(insert);
            insert = insert_into(table);
            snprintf(last, sizeof last, "%s", table);
        }
        for (int i = 1; i <= 6; i++) sqlite3_bind_text(insert, i, strtok(0, " \n"), -1, SQLITE_TRANSIENT);
        check(sqlite3_step(insert) == SQLITE_DONE);
        sqlite3_reset(insert);
    }
    run("COMMIT");
}

/* Year, month and day of a day since 1970; the year begins in March, so that the leap day is its last. */
static void put_date(long long day) {
    long long days = day + 719468, era = days / 146097, rest = days % 146097;
    long long year = (rest - rest / 1460 + rest / 36524 - rest / 146096) / 365;
    long long of_year = rest - (365 * year + year / 4 - year / 100), month = (5 * of_year + 2) / 153;
    long long civil = month < 10 ? month + 3 : month - 9;
    printf("%04lld-%02lld-%02lld", 400 * era + year + (civil <= 2), civil, of_year - (153 * month + 2) / 5 + 1);
}

static void put_row(sqlite3_stmt *row) {
    long long time = sqlite3_column_int64(row, 0), second = time / 1000 % 86400;
    put_date(time / 86400000);
    printf("T%02lld:%02lld:%02lld.%03lld %lld %d %s %d\n", second / 3600, second / 60 % 60, second % 60, time % 1000,
           (long long)sqlite3_column_int64(row, 1), sqlite3_column_int(row, 2), (const char *)sqlite3_column_text(row, 3),
           sqlite3_column_int(row, 4));
}

/* The rows of the tables, one behind the other; those of one key stand in the order of the tables. */
static void selection(char *text, size_t room, const char *apid, int tables, char **names) {
    size_t at = 0;
    for (int i = 0; i < tables; i++) {
        at += snprintf(text + at, room - at, "%sSELECT time, seq, link, name, length(packet) FROM %s", i ? " UNION ALL " : "", names[i]);
        if (strcmp(apid, "all") != 0) at += snprintf(text + at, room - at, " WHERE apid(packet) = %d", atoi(apid));
    }
    snprintf(text + at, room - at, " ORDER BY time, seq");
}

int main(int count, char **words) {
    check(sqlite3_open(words[2], &db) == SQLITE_OK);
    function("unhexed", unhexed);
    function("apid", apid);
    if (strcmp(words[1], "make") == 0) {
        make();
        return 0;
    }
    char text[4096];
    selection(text, sizeof text, words[3], count - 4, words + 4);
    sqlite3_stmt *rows = prepared(text);
    unsigned long long selected = 0;
    int step;
    while ((step = sqlite3_step(rows)) == SQLITE_ROW) {
        put_row(rows);
        selected++;
    }
    check(step == SQLITE_DONE);
    printf("select %llu\n", selected);
    return fflush(stdout) != 0;
}
