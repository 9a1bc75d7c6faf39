/* Accounts and transfers: see bank.h. */
#include "bank.h"
#include <stdio.h>
#include <string.h>

#define SQL_BYTES 512

static int run(sqlite3 *bank, const char *sql) {
    return sqlite3_exec(bank, sql, NULL, NULL, NULL);
}

sqlite3 *bank_open(const char *vfs_name, const char *path, const char *pragmas) {
    sqlite3 *bank;
    int code = sqlite3_open_v2(path, &bank, SQLITE_OPEN_READWRITE | SQLITE_OPEN_CREATE, vfs_name);
    if (code == SQLITE_OK)
        code = run(bank, pragmas);
    if (code == SQLITE_OK)
        code = run(bank, "PRAGMA temp_store=memory; PRAGMA max_page_count=255");
    if (code == SQLITE_OK)
        return bank;
    sqlite3_close(bank);
    return NULL;
}

int bank_fill(sqlite3 *bank) {
    char sql[SQL_BYTES];
    snprintf(sql, sizeof sql,
             "BEGIN;"
             "CREATE TABLE account(id INTEGER PRIMARY KEY, balance INTEGER);"
             "CREATE TABLE transfer(id INTEGER PRIMARY KEY, source INTEGER, target INTEGER, amount INTEGER);"
             "WITH RECURSIVE ids(id) AS (SELECT 0 UNION ALL SELECT id + 1 FROM ids WHERE id + 1 < %d)"
             " INSERT INTO account SELECT id, %d FROM ids;"
             "COMMIT",
             BANK_ACCOUNTS, BANK_START);
    return run(bank, sql);
}

/* A number below `limit`, the same for the same seed. */
static unsigned chance(unsigned long seed, unsigned limit) {
    return (unsigned)((seed * 6364136223846793005UL + 1442695040888963407UL) >> 33) % limit;
}

struct bank_terms bank_terms(long number) {
    unsigned long seed = (unsigned long)number * 3;
    return (struct bank_terms){
        .source = chance(seed, BANK_ACCOUNTS),
        .target = chance(seed + 1, BANK_ACCOUNTS),
        .amount = chance(seed + 2, 50),
    };
}

int bank_transfer(sqlite3 *bank, long number) {
    struct bank_terms terms = bank_terms(number);
    char sql[SQL_BYTES];
    snprintf(sql, sizeof sql,
             "BEGIN IMMEDIATE;"
             "UPDATE account SET balance = balance - %u WHERE id = %u;"
             "UPDATE account SET balance = balance + %u WHERE id = %u;"
             "INSERT INTO transfer VALUES(%ld, %u, %u, %u);"
             "COMMIT",
             terms.amount, terms.source, terms.amount, terms.target, number, terms.source, terms.target,
             terms.amount);
    int code = run(bank, sql);
    if (code != SQLITE_OK)
        run(bank, "ROLLBACK");
    return code;
}

long bank_transfers(sqlite3 *bank, long first, long count) {
    long made = 0;
    while (made < count && bank_transfer(bank, first + made) == SQLITE_OK)
        made++;
    return made;
}

static long number_of(sqlite3 *bank, const char *sql) {
    sqlite3_stmt *statement;
    long number = -1;
    if (sqlite3_prepare_v2(bank, sql, -1, &statement, NULL) == SQLITE_OK && sqlite3_step(statement) == SQLITE_ROW)
        number = (long)sqlite3_column_int64(statement, 0);
    sqlite3_finalize(statement);
    return number;
}

static int is_whole(sqlite3 *bank) {
    sqlite3_stmt *statement;
    int is_ok = 0;
    if (sqlite3_prepare_v2(bank, "PRAGMA integrity_check", -1, &statement, NULL) == SQLITE_OK && sqlite3_step(statement) == SQLITE_ROW)
        is_ok = strcmp((const char *)sqlite3_column_text(statement, 0), "ok") == 0;
    sqlite3_finalize(statement);
    return is_ok;
}

static long unbalanced(sqlite3 *bank) {
    char sql[SQL_BYTES];
    snprintf(sql, sizeof sql,
             "SELECT count(*) FROM account WHERE balance IS NOT %d"
             " + (SELECT coalesce(sum(amount), 0) FROM transfer WHERE target = account.id)"
             " - (SELECT coalesce(sum(amount), 0) FROM transfer WHERE source = account.id)",
             BANK_START);
    return number_of(bank, sql);
}

struct bank_state bank_look(sqlite3 *bank) {
    return (struct bank_state){
        .is_whole = is_whole(bank),
        .sum = number_of(bank, "SELECT sum(balance) FROM account"),
        .unbalanced = unbalanced(bank),
        .transfers = number_of(bank, "SELECT count(*) FROM transfer"),
        .has_no_gap = number_of(bank, "SELECT coalesce(max(id) + 1, 0) = count(*) FROM transfer") == 1,
    };
}

int bank_is_sound(const struct bank_state *state) {
    return state->is_whole && state->sum == BANK_ACCOUNTS * BANK_START && state->unbalanced == 0 && state->has_no_gap;
}
