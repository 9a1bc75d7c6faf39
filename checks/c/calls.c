/* calls: each function of the header once where it does what it says, and wrong use, which gives codes. Prints each step that comes to
 * something else, and last `N passed, M failed`. */
#include <assise.h>
#include <inttypes.h>
#include <stdio.h>
#include <stdlib.h>

static struct assise_desk desk;
static int passed, failed;

static void see(const char *step, int64_t result, int64_t wanted) {
    if (result == wanted) {
        passed++;
        return;
    }
    failed++;
    printf("%s: %" PRId64 " (%s), and not %" PRId64 " (%s)\n", step, result, assise_text(result), wanted, assise_text(wanted));
}

#define SEE(wanted, call) see(#call, (call), (wanted))

static void makes_and_opens(void) {
    assise_begin(&desk);
    SEE(ASSISE_NO_CLUSTER, assise_open(&desk, 1, ASSISE_LEAST));
    SEE(ASSISE_BAD_REQUEST, assise_make(&desk, 0, 64, 16));
    SEE(ASSISE_BAD_REQUEST, assise_make(&desk, ASSISE_MOST_NODES + 1, 64, 16));
    SEE(ASSISE_BAD_REQUEST, assise_make(&desk, 2, ASSISE_LEAST_LOG - 1, 16));
    SEE(ASSISE_BAD_REQUEST, assise_make(&desk, 2, ASSISE_MOST_LOG + 1, 16));
    SEE(ASSISE_BAD_REQUEST, assise_make(&desk, 2, 64, ASSISE_MOST_HOT + 1));
    SEE(0, assise_make(&desk, 2, 64, 16));
    SEE(1, assise_open(&desk, 1, ASSISE_LEAST));
    SEE(2, assise_open(&desk, 2, ASSISE_WHOLE));
    SEE(3, assise_open(&desk, 1, ASSISE_EIGHTS));
    SEE(ASSISE_BAD_NODE, assise_open(&desk, 3, ASSISE_LEAST));
    SEE(ASSISE_BAD_REQUEST, assise_open(&desk, 1, ASSISE_EIGHTS + 1));
    SEE(ASSISE_BAD_REQUEST, assise_open_as(&desk, 1, ASSISE_LEAST, ASSISE_OPTIMISTIC + 1));
}

/* An optimistic client's fsync makes nothing safe, and its dsync all. */
static void tells_what_is_safe(void) {
    SEE(4, assise_open_as(&desk, 2, ASSISE_LEAST, ASSISE_OPTIMISTIC));
    SEE(ASSISE_ALIVE, assise_standing(&desk, 4));
    SEE(2, assise_home(&desk, 4));
    SEE(0, assise_create(&desk, 4, "/hasty"));
    SEE(0, assise_fsync(&desk, 4));
    SEE(2, assise_answered(&desk, 4));
    SEE(0, assise_replicated(&desk, 4));
    SEE(0, assise_dsync(&desk, 4));
    SEE(3, assise_replicated(&desk, 4));
    SEE(5, assise_write(&desk, 4, "/hasty", "hello", 5, 0));
    SEE(0, assise_unlink(&desk, 4, "/hasty"));
    SEE(5, assise_payload(&desk));
    SEE(9, assise_entries(&desk));
    SEE(0, assise_crash(&desk, 4));
    SEE(ASSISE_CRASHED, assise_standing(&desk, 4));
    SEE(ASSISE_BAD_CLIENT, assise_standing(&desk, 5));
    SEE(ASSISE_BAD_CLIENT, assise_home(&desk, 0));
    SEE(ASSISE_BAD_CLIENT, assise_answered(&desk, 5));
    SEE(ASSISE_BAD_CLIENT, assise_replicated(&desk, 5));
}

static void sets_nodes(void) {
    SEE(0, assise_set_hot(&desk, 1, 1));
    SEE(0, assise_set_hot(&desk, 2, ASSISE_MOST_HOT));
    SEE(ASSISE_BAD_REQUEST, assise_set_hot(&desk, 1, 0));
    SEE(ASSISE_BAD_REQUEST, assise_set_hot(&desk, 1, ASSISE_MOST_HOT + 1));
    SEE(ASSISE_BAD_NODE, assise_set_hot(&desk, 3, 1));
    SEE(ASSISE_FULL, assise_phase(&desk, 1));
    SEE(ASSISE_BAD_NODE, assise_phase(&desk, 3));
    SEE(ASSISE_BAD_NODE, assise_set_link(&desk, 3, ASSISE_LOSE, 0));
    SEE(ASSISE_BAD_REQUEST, assise_set_link(&desk, 1, ASSISE_FAULT + 1, 0));
    for (uint32_t kind = ASSISE_PERFECT; kind <= ASSISE_FAULT; kind++) SEE(0, assise_set_link(&desk, 1, kind, 100));
    SEE(0, assise_set_link(&desk, 1, ASSISE_PERFECT, 0));
}

/* What a raised node sends waits until the other is raised, too. */
static void raises_nodes(void) {
    SEE(0, assise_create(&desk, 1, "/waits"));
    SEE(0, assise_raise(&desk, 1));
    SEE(ASSISE_BUSY, assise_fsync(&desk, 1));
    SEE(0, assise_raise(&desk, 2));
    SEE(0, assise_fsync(&desk, 1));
    SEE(0, assise_unlink(&desk, 1, "/waits"));
    SEE(ASSISE_WRONG_PHASE, assise_raise(&desk, 1));
    SEE(ASSISE_BAD_NODE, assise_raise(&desk, 3));
}

static void makes_files(void) {
    char text[8] = "";
    SEE(0, assise_mkdir(&desk, 1, "/d"));
    SEE(0, assise_create(&desk, 1, "/d/f"));
    SEE(ASSISE_EXISTS, assise_create(&desk, 2, "/d/f"));
    SEE(5, assise_write(&desk, 1, "/d/f", "hello", 5, 0));
    SEE(5, assise_read(&desk, 2, "/d/f", text, sizeof text, 0));
    SEE(0, memcmp(text, "hello", 5));
    SEE(5, assise_stat(&desk, 1, "/d/f"));
    SEE(ASSISE_FILE, (int64_t)desk.stands);
    SEE(0, assise_truncate(&desk, 1, "/d/f", 2));
    SEE(2, assise_stat(&desk, 2, "/d/f"));
    SEE(2, assise_list(&desk, 2, "/d", 0));
    uint64_t place = (uint64_t)assise_entries(&desk) - 1;
    SEE(2, assise_listed(&desk, place, 0));
    SEE(0, assise_listed(&desk, place, 1));
    SEE(ASSISE_BAD_REQUEST, assise_listed(&desk, place + 1, 0));
    SEE(0, memcmp(desk.bytes, "f", 2));
    SEE(0, assise_rename(&desk, 2, "/d/f", "/g"));
    SEE(ASSISE_NO_ENT, assise_stat(&desk, 1, "/d/f"));
    SEE(0, assise_unlink(&desk, 1, "/g"));
    SEE(0, assise_rmdir(&desk, 1, "/d"));
    SEE(0, assise_stat(&desk, 1, "/"));
    SEE(ASSISE_DIR, (int64_t)desk.stands);
    SEE(0, assise_fsync(&desk, 1));
}

/* A write of several requests, the second of which the file is too big for. */
static void writes_in_parts(void) {
    static uint8_t data[2 * ASSISE_BYTES];
    uint64_t behind = ASSISE_MOST_FILE_BYTES - ASSISE_BYTES;
    SEE(0, assise_create(&desk, 1, "/big"));
    SEE((int64_t)sizeof data, assise_write(&desk, 1, "/big", data, sizeof data, 0));
    SEE((int64_t)sizeof data, assise_stat(&desk, 1, "/big"));
    SEE(ASSISE_BYTES - 4, assise_write(&desk, 1, "/big", data, sizeof data, behind));
    SEE(ASSISE_TOO_BIG, desk.result);
    SEE(ASSISE_MOST_FILE_BYTES - 4, assise_stat(&desk, 1, "/big"));
    SEE(ASSISE_TOO_BIG, assise_write(&desk, 1, "/big", data, 1, ASSISE_MOST_FILE_BYTES));
}

static void fails_and_comes_back(void) {
    SEE(0, assise_fsync(&desk, 1));
    SEE(0, assise_create(&desk, 1, "/lost"));
    SEE(1, assise_fail(&desk, 1));
    struct assise_loss loss = assise_loss(&desk, 0);
    SEE(1, loss.client);
    SEE(1, loss.call > 0);
    SEE(ASSISE_NODE_DOWN, assise_stat(&desk, 1, "/"));
    SEE(ASSISE_WRONG_PHASE, assise_fail(&desk, 1));
    SEE(ASSISE_DOWN, assise_phase(&desk, 1));
    SEE(ASSISE_CUT_OFF, assise_standing(&desk, 1));
    SEE(ASSISE_LAST_NODE, assise_fail(&desk, 2));
    SEE(ASSISE_NO_ENT, assise_stat(&desk, 2, "/lost"));
    SEE(ASSISE_NODE_DOWN, assise_redo(&desk, loss, 1));
    SEE((int64_t)loss.call, (int64_t)assise_loss(&desk, 0).call);
    SEE(0, assise_redo(&desk, loss, 2));
    SEE(0, assise_stat(&desk, 2, "/lost"));
    SEE(ASSISE_EXISTS, assise_redo(&desk, loss, 2));
    SEE((int64_t)loss.call, (int64_t)assise_loss(&desk, 0).call);
    loss.call++;
    SEE(0, assise_redo(&desk, loss, 2));
    SEE(0, assise_back(&desk, 1));
    SEE(0, assise_crash(&desk, 2));
    SEE(ASSISE_CLIENT_GONE, assise_stat(&desk, 2, "/"));
    SEE(1, assise_legal(&desk));
    SEE(1, assise_entries(&desk) > 0);
    SEE(1, assise_round(&desk) >= 0);
}

/* The history's text, in pages: its first line has the count of the entries. */
static void prints_the_history(void) {
    SEE(0, assise_page(&desk, 0));
    int64_t length = assise_print_history(&desk), first = assise_page(&desk, 0), count, seen = 0;
    SEE(1, first > 0 && !memcmp(desk.bytes, "history ", strlen("history ")));
    SEE(strtoll((const char *)desk.bytes + strlen("history "), NULL, 10), assise_entries(&desk));
    while ((count = assise_page(&desk, (uint64_t)seen)) > 0) seen += count;
    SEE(length, seen);
    SEE(0, assise_page(&desk, UINT64_MAX));
    SEE(ASSISE_BAD_NODE, assise_print_tree(&desk, 3));
    SEE(1, assise_print_tree(&desk, 2) > 0);
    SEE(1, assise_page(&desk, 0) > 0 && !memcmp(desk.bytes, "tree ", strlen("tree ")));
}

static void wrong_paths(void) {
    static char path[2 * ASSISE_BYTES];
    SEE(ASSISE_BAD_CLIENT, assise_create(&desk, 33, "/x"));
    SEE(5, assise_open(&desk, 2, ASSISE_LEAST));
    SEE(ASSISE_NOT_ABSOLUTE, assise_create(&desk, 5, "x"));
    SEE(ASSISE_EMPTY_NAME, assise_create(&desk, 5, "//x"));
    SEE(ASSISE_BAD_NAME, assise_create(&desk, 5, "/.."));
    memset(path, 'x', sizeof path - 1);
    path[0] = '/';
    SEE(ASSISE_BAD_REQUEST, assise_create(&desk, 5, path));
    SEE(ASSISE_BAD_REQUEST, assise_write(&desk, 5, path, "", 0, 0));
    path[ASSISE_MOST_NAME_BYTES + 2] = 0;
    SEE(ASSISE_NAME_TOO_LONG, assise_create(&desk, 5, path));
    for (int k = 0; k < 2 * (ASSISE_MOST_NAMES + 1); k++) path[k] = k % 2 ? 'n' : '/';
    path[2 * (ASSISE_MOST_NAMES + 1)] = 0;
    SEE(ASSISE_TOO_DEEP, assise_create(&desk, 5, path));
    SEE(ASSISE_INVALID, assise_rename(&desk, 5, "/", "/x"));
    SEE(ASSISE_BAD_REQUEST, assise_manage(&desk, 99, 0, 0, 0, 0, 0));
}

/* The clients of before are over, and number 1 is the new one's. */
static void renews(void) {
    SEE(ASSISE_BAD_REQUEST, assise_renew(&desk, 0, 64, 16, ASSISE_LEAST));
    SEE(ASSISE_BAD_REQUEST, assise_renew(&desk, 2, 64, 16, ASSISE_EIGHTS + 1));
    SEE(0, assise_mkdir(&desk, 5, "/kept"));
    SEE(0, assise_renew(&desk, 3, 8, 4, ASSISE_WHOLE));
    SEE(ASSISE_BAD_CLIENT, assise_stat(&desk, 5, "/kept"));
    SEE(0, assise_stat(&desk, 1, "/kept"));
    SEE(ASSISE_MOST_FILE_BYTES - 4, assise_stat(&desk, 1, "/big"));
    SEE(1, assise_home(&desk, 1));
    SEE(ASSISE_FULL, assise_phase(&desk, 3));
    SEE(2, assise_open(&desk, 3, ASSISE_LEAST));
    SEE(0, assise_stat(&desk, 2, "/kept"));
    SEE(1, assise_legal(&desk));
}

static void tells_faults(void) {
    SEE(ENOENT, assise_errno(ASSISE_NO_ENT));
    SEE(ENOSPC, assise_errno(ASSISE_DIR_FULL));
    SEE(ENAMETOOLONG, assise_errno(ASSISE_TOO_DEEP));
    SEE(EINVAL, assise_errno(-999));
    SEE(0, assise_errno(3));
    for (int64_t fault = -303; fault < 0; fault++)
        if (strcmp(assise_text(fault), "an unknown fault") != 0 && (strlen(assise_text(fault)) == 0 || assise_errno(fault) == 0))
            SEE(0, fault);
    SEE(0, strncmp(assise_version(), ASSISE_VERSION " (", strlen(ASSISE_VERSION) + 2));
}

int main(void) {
    makes_and_opens();
    tells_what_is_safe();
    sets_nodes();
    raises_nodes();
    makes_files();
    writes_in_parts();
    fails_and_comes_back();
    prints_the_history();
    wrong_paths();
    renews();
    tells_faults();
    SEE(0, assise_free(&desk));
    printf("%d passed, %d failed\n", passed, failed);
    return failed ? 1 : 0;
}
