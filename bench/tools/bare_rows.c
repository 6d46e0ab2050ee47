/* Puts the rows of a desk's file into another one with the same tables, made anew, by SQLite alone:
       bare_rows FROM TO RECORDS MESSAGES
   Each message brought so many RECORDS, and the rows of the first MESSAGES messages are put, those of one
   message in a transaction. With 0 messages the rows are read and the tables made, and nothing is put. */

#include <sqlite3.h>
#include <stdio.h>
#include <stdlib.h>
#include <string.h>

enum { SERIES, RECORD, ARTICLE, OFFER, PRICE, MINIMUM, APPLIED, TABLES };

static const char *const names[TABLES] = {
    "series", "record", "article", "offer", "price", "price_minimum", "applied"};

/* The rows of a table in the order of their insertion, and how many of them are inserted again. */
struct rows {
    sqlite3_value **values;
    int columns, count, next;
    sqlite3_stmt *put;
};

static sqlite3 *from, *to;
static struct rows tables[TABLES];

static void check(sqlite3 *file, int status) {
    if (status == SQLITE_OK || status == SQLITE_ROW || status == SQLITE_DONE) return;
    fprintf(stderr, "bare_rows: %s\n", sqlite3_errmsg(file));
    exit(1);
}

static void run(const char *sql) { check(to, sqlite3_exec(to, sql, NULL, NULL, NULL)); }

static sqlite3_stmt *prepare(sqlite3 *file, const char *sql) {
    sqlite3_stmt *statement;
    check(file, sqlite3_prepare_v2(file, sql, -1, &statement, NULL));
    return statement;
}

/* Makes the new file as a desk makes its own: a log, synced at each commit, 2,000 pages in memory. */
static void open_files(const char *old, const char *new) {
    remove(new);
    check(from, sqlite3_open_v2(old, &from, SQLITE_OPEN_READWRITE, NULL));
    check(to, sqlite3_open(new, &to));
    run("PRAGMA journal_mode = WAL; PRAGMA synchronous = FULL; PRAGMA cache_size = 2000;"
        "PRAGMA foreign_keys = ON");
}

static void make_tables(void) {
    sqlite3_stmt *texts =
        prepare(from, "SELECT sql FROM sqlite_schema WHERE sql IS NOT NULL ORDER BY rowid");
    while (sqlite3_step(texts) == SQLITE_ROW) run((const char *)sqlite3_column_text(texts, 0));
    sqlite3_finalize(texts);
}

static void read_rows(int table) {
    struct rows *rows = &tables[table];
    char sql[100];
    snprintf(sql, sizeof sql, "SELECT * FROM %s ORDER BY rowid", names[table]);
    sqlite3_stmt *found = prepare(from, sql);
    rows->columns = sqlite3_column_count(found);
    int status, room = 0;
    while ((status = sqlite3_step(found)) == SQLITE_ROW) {
        if (rows->count == room) {
            room = room ? 2 * room : 1024;
            rows->values = realloc(rows->values, sizeof *rows->values * rows->columns * room);
        }
        for (int at = 0; at < rows->columns; at++)
            rows->values[rows->count * rows->columns + at] =
                sqlite3_value_dup(sqlite3_column_value(found, at));
        rows->count++;
    }
    check(from, status);
    sqlite3_finalize(found);
}

static void prepare_put(int table) {
    char sql[200];
    int used = snprintf(sql, sizeof sql, "INSERT INTO %s VALUES (?1", names[table]);
    for (int at = 2; at <= tables[table].columns; at++)
        used += snprintf(sql + used, sizeof sql - used, ", ?%d", at);
    snprintf(sql + used, sizeof sql - used, ")");
    tables[table].put = prepare(to, sql);
}

static void put_next(int table) {
    struct rows *rows = &tables[table];
    if (rows->next == rows->count) {
        fprintf(stderr, "bare_rows: too few rows in %s\n", names[table]);
        exit(1);
    }
    sqlite3_value **row = rows->values + (long)rows->next++ * rows->columns;
    for (int at = 0; at < rows->columns; at++) check(to, sqlite3_bind_value(rows->put, at + 1, row[at]));
    check(to, sqlite3_step(rows->put));
    check(to, sqlite3_reset(rows->put));
}

/* The reference of the next row, which is the second column of these tables. */
static const char *reference(int table) {
    struct rows *rows = &tables[table];
    if (rows->next == rows->count) return "";
    return (const char *)sqlite3_value_text(rows->values[(long)rows->next * rows->columns + 1]);
}

static void put_record(void) {
    const char *record = reference(RECORD);
    put_next(RECORD);
    for (int table = ARTICLE; table <= MINIMUM; table++)
        while (strcmp(reference(table), record) == 0) put_next(table);
}

int main(int count, char **words) {
    if (count != 5) return 2;
    open_files(words[1], words[2]);
    make_tables();
    for (int table = SERIES; table < TABLES; table++) {
        read_rows(table);
        prepare_put(table);
    }
    put_next(SERIES);
    int records = atoi(words[3]);
    for (int left = atoi(words[4]); left > 0; left--) {
        run("BEGIN");
        for (int record = 0; record < records; record++) put_record();
        put_next(APPLIED);
        run("COMMIT");
    }
    for (int table = SERIES; table < TABLES; table++) sqlite3_finalize(tables[table].put);
    check(from, sqlite3_close(from));
    check(to, sqlite3_close(to));
    return 0;
}
