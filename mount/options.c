#include "options.h"
#include "renewal.h"
#include <getopt.h>
#include <stdio.h>
#include <stdlib.h>
#include <string.h>

const char help_text[] =
    "usage: assise_mount MOUNTPOINT [OPTION ..]\n"
    "Mounts a new cluster, which lives in this process and ends with it. MOUNTPOINT has a client "
    "on node 1.\n\n"
    "  --nodes N              nodes of the cluster, 1 to 16: 2\n"
    "  --log L                records in a client's log, 8 to 4096: 4096\n"
    "  --hot H                inodes that a node keeps hot, 1 to 4096: 1024\n"
    "  --at NODE=MOUNTPOINT   one more mount, with a client on that node; up to 15 times\n"
    "  --mode redo|stop       what comes behind a failure: redo makes lost changes again, stop "
    "answers EIO\n"
    "  --keep BYTES           the cluster is renewed where its history has more, and three times "
    "what the files take: 67108864\n"
    "  -o OPTION[,OPTION ..]  FUSE's own options, as allow_other\n"
    "  -f                     stays in the foreground\n"
    "  -h, --help, -V, --version\n";

enum { NODES = 256, LOG, HOT, AT, MODE, KEEP };

static const struct option known[] = {
    {"nodes", required_argument, NULL, NODES},
    {"log", required_argument, NULL, LOG},
    {"hot", required_argument, NULL, HOT},
    {"at", required_argument, NULL, AT},
    {"mode", required_argument, NULL, MODE},
    {"keep", required_argument, NULL, KEEP},
    {"help", no_argument, NULL, 'h'},
    {"version", no_argument, NULL, 'V'},
    {NULL, 0, NULL, 0},
};

static bool wrong(const char *what, const char *word) {
    fprintf(stderr, "assise_mount: %s: %s\n", what, word);
    return false;
}

static bool read_number(const char *word, uint64_t least, uint64_t most, uint64_t *number) {
    char *end;
    *number = strtoull(word, &end, 10);
    if (*word < '0' || *word > '9' || *end || *number < least || *number > most)
        return wrong("a number is wrong or out of range", word);
    return true;
}

/* One more mount. Whether its folder is there is seen here: behind this the process may stand
 * elsewhere. */
static bool add_mount(struct cluster *cluster, uint32_t node, const char *folder) {
    if (cluster->mount_count == MOST_MOUNTS)
        return wrong("there are too many mounts", folder);
    char *whole = realpath(folder, NULL);
    if (!whole)
        return wrong("the folder isn't there", folder);
    struct mount *mount = &cluster->mounts[cluster->mount_count++];
    *mount = (struct mount){.cluster = cluster, .folder = whole, .node = node};
    return true;
}

/* NODE=MOUNTPOINT. */
static bool read_place(struct cluster *cluster, char *word) {
    char *folder = strchr(word, '=');
    uint64_t node;
    if (!folder)
        return wrong("--at wants NODE=MOUNTPOINT", word);
    *folder++ = 0;
    return read_number(word, 1, ASSISE_MOST_NODES, &node) &&
           add_mount(cluster, (uint32_t)node, folder);
}

static bool read_option(struct cluster *cluster, struct options *options, int option, char *word) {
    uint64_t number = 0;
    bool is_right = true;
    switch (option) {
    case NODES:
        is_right = read_number(word, 1, ASSISE_MOST_NODES, &number);
        cluster->nodes = (uint32_t)number;
        break;
    case LOG: is_right = read_number(word, ASSISE_LEAST_LOG, ASSISE_MOST_LOG, &cluster->log); break;
    case HOT: is_right = read_number(word, 1, ASSISE_MOST_HOT, &cluster->hot); break;
    case KEEP: is_right = read_number(word, 0, UINT64_MAX, &cluster->renewals.keep); break;
    case AT: is_right = read_place(cluster, word); break;
    case MODE:
        cluster->mode = strcmp(word, "stop") == 0 ? MODE_STOP : MODE_REDO;
        is_right = cluster->mode == MODE_STOP || strcmp(word, "redo") == 0 ||
                   wrong("no such mode", word);
        break;
    case 'o': options->fuse = word; break;
    case 'f': options->stays = true; break;
    case 'h': options->is_help = true; break;
    case 'V': options->is_version = true; break;
    default: is_right = false;
    }
    return is_right;
}

/* Each mount's node is there. */
static bool are_nodes_there(const struct cluster *cluster) {
    for (unsigned place = 0; place < cluster->mount_count; place++)
        if (cluster->mounts[place].node > cluster->nodes)
            return wrong("there is no such node for", cluster->mounts[place].folder);
    return true;
}

/* The mount that is named without a node is the first. */
static void put_first(struct cluster *cluster) {
    struct mount last = cluster->mounts[cluster->mount_count - 1];
    memmove(cluster->mounts + 1, cluster->mounts, (cluster->mount_count - 1) * sizeof last);
    cluster->mounts[0] = last;
}

bool options_read(int count, char **words, struct cluster *cluster, struct options *options) {
    int option;
    cluster->nodes = 2;
    cluster->log = ASSISE_MOST_LOG;
    cluster->hot = 1024;
    cluster->renewals.keep = USUAL_KEEP;
    while ((option = getopt_long(count, words, "o:fhV", known, NULL)) != -1)
        if (!read_option(cluster, options, option, optarg))
            return false;
    if (options->is_help || options->is_version)
        return true;
    if (count - optind != 1)
        return wrong("one MOUNTPOINT is wanted", "try --help");
    if (!add_mount(cluster, 1, words[optind]))
        return false;
    put_first(cluster);
    return are_nodes_there(cluster);
}
