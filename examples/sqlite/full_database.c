/* full_database: a database gets as large as a file may be, 255 pages of 4,096 bytes and their journal. Then all of its pages are changed
 * in one transaction, and VACUUM rewrites it.
 *
 * Prints what was seen, and ends with status 1 where one of them fails, or the database isn't whole. */
#include "bank.h"
#include "vfs.h"
#include <stdio.h>

#define MOST_PAGES 255

static int run(sqlite3 *database, const char *sql) {
    return sqlite3_exec(database, sql, NULL, NULL, NULL);
}

static long number_of(sqlite3 *database, const char *sql) {
    sqlite3_stmt *statement;
    long number = -1;
    if (sqlite3_prepare_v2(database, sql, -1, &statement, NULL) == SQLITE_OK && sqlite3_step(statement) == SQLITE_ROW)
        number = (long)sqlite3_column_int64(statement, 0);
    sqlite3_finalize(statement);
    return number;
}

/* Adds rows until SQLite says that the database is full: how many, or -1 where it says anything else. */
static long fill(sqlite3 *database) {
    long rows = 0;
    int code = run(database, "CREATE TABLE page(id INTEGER PRIMARY KEY, bytes BLOB)");
    while (code == SQLITE_OK) {
        code = run(database, "INSERT INTO page(bytes) VALUES(randomblob(3000))");
        rows += code == SQLITE_OK;
    }
    return code == SQLITE_FULL ? rows : -1;
}

static int see(const char *what, int code) {
    printf("%s: %s\n", what, code == SQLITE_OK ? "done" : sqlite3_errstr(code));
    return code == SQLITE_OK;
}

static int is_right(sqlite3 *database) {
    long rows = fill(database), pages = number_of(database, "PRAGMA page_count");
    printf("%ld rows, and then the database is full: %ld pages\n", rows, pages);
    int is_changed = see("all pages changed in one transaction", run(database, "UPDATE page SET bytes = randomblob(3000)"));
    int is_rewritten = see("VACUUM", run(database, "VACUUM"));
    int is_whole = bank_look(database).is_whole;
    printf("integrity_check: %s\n", is_whole ? "ok" : "not ok");
    return pages == MOST_PAGES && rows > 0 && is_changed && is_rewritten && is_whole;
}

int main(void) {
    static struct vfs_cluster cluster;
    static struct vfs_client client;
    if (vfs_cluster_begin(&cluster, 2, 4096, 4096) < 0 || vfs_client_open(&client, &cluster, 1, "cluster", 0) < 0)
        return 1;
    sqlite3 *database = bank_open("cluster", "/full.db", "PRAGMA journal_mode=DELETE; PRAGMA synchronous=EXTRA");
    int status = database && is_right(database) ? 0 : 1;
    sqlite3_close(database);
    vfs_client_forget(&client);
    vfs_cluster_end(&cluster);
    return status;
}
