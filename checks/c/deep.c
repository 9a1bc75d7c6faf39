/* deep: directories one in the other, as deep as renames make them, and what goes over all of them. Prints each step that comes to
 * something else, and last `N passed, M failed`. */
#include <assise.h>
#include <inttypes.h>
#include <stdio.h>
#include <sys/resource.h>

#define LEVELS 200000
#define BELOW_A_PATH 31
#define MOST_MEMORY (1ul << 30) /* bytes */

static struct assise_desk desk;
static int passed, failed;

static void see(const char *step, int64_t result, int64_t wanted) {
    if (result == wanted) {
        passed++;
        return;
    }
    failed++;
    printf("%s: %" PRId64 ", and not %" PRId64 "\n", step, result, wanted);
}

/* Makes directories below `/n`, as deep as a path goes, moves what there was so far below the last of them, and the whole to `/m`: how
 * many calls were refused. */
static int go_deeper(uint32_t client) {
    char path[4 * ASSISE_MOST_NAMES] = "/n";
    int refused = assise_mkdir(&desk, client, path) != 0;
    for (int level = 2; level <= BELOW_A_PATH; level++) {
        strcat(path, "/x");
        refused += assise_mkdir(&desk, client, path) != 0;
    }
    strcat(path, "/m");
    refused += assise_rename(&desk, client, "/m", path) != 0;
    return refused + (assise_rename(&desk, client, "/n", "/m") != 0);
}

/* The text of a tree has each path whole, and no memory for it is to be had. */
static void look(uint32_t client) {
    see("what stands at the top", assise_stat(&desk, client, "/m"), 1);
    see("legal", assise_legal(&desk), 1);
    see("the history, as text", assise_print_history(&desk) > 0, 1);
    see("the tree, as text", assise_print_tree(&desk, 1), ASSISE_OUT_OF_MEMORY);
    see("renew", assise_renew(&desk, 2, 64, 64, ASSISE_LEAST), ASSISE_TOO_DEEP);
    see("a call behind it", assise_create(&desk, client, "/f"), 0);
}

int main(void) {
    struct rlimit limit = {MOST_MEMORY, MOST_MEMORY};
    see("a limit", setrlimit(RLIMIT_AS, &limit), 0);
    assise_begin(&desk);
    see("make", assise_make(&desk, 2, 4096, 64), 0);
    int64_t client = assise_open(&desk, 1, ASSISE_LEAST);
    see("the first directory", assise_mkdir(&desk, (uint32_t)client, "/m"), 0);
    int refused = 0;
    for (long levels = 1; levels < LEVELS; levels += BELOW_A_PATH) refused += go_deeper((uint32_t)client);
    see("refused calls", refused, 0);
    look((uint32_t)client);
    assise_free(&desk);
    printf("%d passed, %d failed\n", passed, failed);
    return failed > 0;
}
