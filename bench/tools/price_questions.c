/* Answers price questions about a desk's file as a batch over it does, by SQLite alone over its rows in memory:
       price_questions FILE < QUESTIONS
   Each question is a line of AskPrice without a quantity. No price of the file has a minimum, and no article
   two records. Each statement reads by an index alone. */

#define _DEFAULT_SOURCE
#include <sqlite3.h>
#include <stdio.h>
#include <stdlib.h>
#include <time.h>

static const char *const words_of[] = {
    "SELECT series, reference FROM article WHERE id_value = ?1 AND id_type IN ('03', '15')",
    "SELECT place, availability, (world OR instr(included, ?3)) AND NOT instr(excluded, ?3)"
    " FROM offer WHERE series = ?1 AND reference = ?2 ORDER BY place",
    "SELECT from_day, amount FROM price WHERE series = ?1 AND reference = ?2 AND place = ?3"
    " AND price_type = ?4 AND currency = ?5 AND (from_day IS NULL OR from_day <= ?6)"
    " AND (until_day IS NULL OR until_day >= ?6)"
    " AND (world OR instr(included, ?7)) AND NOT instr(excluded, ?7)",
};
enum { RECORDS, OFFERS, PRICES, STATEMENTS };

struct question {
    char isbn[14], day[9], country[3], currency[4], type[3];
};

static sqlite3 *rows;
static sqlite3_stmt *statements[STATEMENTS];
static char lines[1 << 20];
static int used;

static void check(sqlite3 *file, int status) {
    if (status == SQLITE_OK || status == SQLITE_ROW || status == SQLITE_DONE) return;
    fprintf(stderr, "price_questions: %s\n", sqlite3_errmsg(file));
    exit(1);
}

/* The file's rows, copied into memory. */
static void read_file(const char *name) {
    sqlite3 *file;
    check(file, sqlite3_open_v2(name, &file, SQLITE_OPEN_READWRITE, NULL));
    check(rows, sqlite3_open(":memory:", &rows));
    sqlite3_backup *copy = sqlite3_backup_init(rows, "main", file, "main");
    check(rows, sqlite3_backup_step(copy, -1));
    check(rows, sqlite3_backup_finish(copy));
    check(file, sqlite3_close(file));
}

static void bind(int statement, int at, const char *field) {
    check(rows, sqlite3_bind_text(statements[statement], at, field, -1, SQLITE_STATIC));
}

static int step(int statement) {
    int status = sqlite3_step(statements[statement]);
    check(rows, status);
    if (status == SQLITE_DONE) check(rows, sqlite3_reset(statements[statement]));
    return status == SQLITE_ROW;
}

static const char *text(int statement, int at) {
    return (const char *)sqlite3_column_text(statements[statement], at);
}

/* The number of a day, with 0 for 1 January 1970, of its date as YYYYMMDD. */
static int day_number(const char *date) {
    int digits = atoi(date);
    struct tm day = {.tm_year = digits / 10000 - 1900, .tm_mon = digits / 100 % 100 - 1, .tm_mday = digits % 100};
    return timegm(&day) / 86400;
}

/* The current amount of the offer at a place of the record, or -1: of the price that began latest, and of these
   the least. */
static long long amount_of(int place, const struct question *asked) {
    long long amount = -1;
    int latest = -1;
    bind(PRICES, 1, text(RECORDS, 0));
    bind(PRICES, 2, text(RECORDS, 1));
    check(rows, sqlite3_bind_int(statements[PRICES], 3, place));
    bind(PRICES, 4, asked->type);
    bind(PRICES, 5, asked->currency);
    check(rows, sqlite3_bind_int(statements[PRICES], 6, day_number(asked->day)));
    bind(PRICES, 7, asked->country);
    while (step(PRICES)) {
        int from = sqlite3_column_int(statements[PRICES], 0);
        long long found = sqlite3_column_int64(statements[PRICES], 1);
        if (from > latest || (from == latest && found < amount)) amount = found;
        if (from > latest) latest = from;
    }
    return amount;
}

static int write_offers(const struct question *asked) {
    int count = 0;
    bind(OFFERS, 1, text(RECORDS, 0));
    bind(OFFERS, 2, text(RECORDS, 1));
    bind(OFFERS, 3, asked->country);
    for (; step(OFFERS); count++) {
        int place = sqlite3_column_int(statements[OFFERS], 0);
        long long amount = sqlite3_column_int(statements[OFFERS], 2) ? amount_of(place, asked) : -1;
        used += snprintf(lines + used, sizeof lines - used, "offer,%s,%s,%d,%s,", text(RECORDS, 0),
                         text(RECORDS, 1), place, text(OFFERS, 1));
        if (amount >= 0)
            used += snprintf(lines + used, sizeof lines - used, "%lld.%03lld", amount / 1000, amount % 1000);
        used += snprintf(lines + used, sizeof lines - used, "\n");
    }
    return count;
}

int main(int count, char **words) {
    if (count != 2) return 2;
    read_file(words[1]);
    for (int at = 0; at < STATEMENTS; at++)
        check(rows, sqlite3_prepare_v2(rows, words_of[at], -1, &statements[at], NULL));
    char line[200];
    struct question asked;
    while (fgets(line, sizeof line, stdin)) {
        if (sscanf(line, "AskPrice,%13[^,],%8[^,],%2[^,],%3[^,],%2[^\n]", asked.isbn, asked.day, asked.country,
                   asked.currency, asked.type) != 5)
            return 1;
        int offers = 0;
        used = 0;
        for (bind(RECORDS, 1, asked.isbn); step(RECORDS);) offers += write_offers(&asked);
        printf("price,%s,%d\n%.*s", asked.isbn, offers, used, lines);
    }
    for (int at = 0; at < STATEMENTS; at++) sqlite3_finalize(statements[at]);
    check(rows, sqlite3_close(rows));
    return 0;
}
