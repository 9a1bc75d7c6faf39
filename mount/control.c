#include "control.h"
#include "failover.h"
#include "notes.h"
#include "renewal.h"
#include <errno.h>
#include <inttypes.h>
#include <stdio.h>
#include <stdlib.h>
#include <string.h>
#include <unistd.h>

#define FOLDER "/.assise"
#define MOST_WORDS 128

const char *const control_names[] = {"control", "history", "losses", "status", NULL};

bool is_control(const char *path) {
    size_t bytes = strlen(FOLDER);
    return path && strncmp(path, FOLDER, bytes) == 0 && (path[bytes] == 0 || path[bytes] == '/');
}

int control_stat(const char *path, struct stat *found) {
    const char *name = path + strlen(FOLDER);
    found->st_uid = getuid();
    found->st_gid = getgid();
    found->st_nlink = 1;
    found->st_mode = S_IFDIR | 0500;
    if (!*name)
        return 0;
    for (const char *const *known = control_names; *known; known++) {
        if (strcmp(name + 1, *known) == 0) {
            found->st_mode = S_IFREG | (strcmp(*known, "control") == 0 ? 0200 : 0400);
            return 0;
        }
    }
    return -ENOENT;
}

/* ---- what is read */

static struct text *texts;

void text_free(struct text *text) {
    struct text **place = &texts;
    while (*place && *place != text)
        place = &(*place)->next;
    if (!*place)
        return;
    *place = text->next;
    free(text->data);
    free(text);
}

void texts_end(void) {
    while (texts)
        text_free(texts);
}

static void print_nodes(struct cluster *cluster, FILE *out) {
    static const char *const phases[] = {"unknown", "full", "down", "returning"};
    for (uint32_t node = 1; node <= cluster->nodes; node++) {
        int64_t phase = assise_phase(&cluster->desk, node);
        fprintf(out, "node %" PRIu32 " %s\n", node, phases[phase > 0 && phase < 4 ? phase : 0]);
    }
}

static void print_mounts(const struct cluster *cluster, FILE *out) {
    for (unsigned place = 0; place < cluster->mount_count; place++) {
        const struct mount *mount = &cluster->mounts[place];
        fprintf(out, "mount %s node %" PRIu32 " client %" PRIu32 "%s%s\n", mount->folder,
                mount->node, mount->client, mount->is_stopped ? " stopped" : "",
                mount->has_lost ? " losing" : "");
    }
}

static void print_status(struct mount *mount, FILE *out) {
    struct cluster *cluster = mount->cluster;
    const struct renewals *renewals = &cluster->renewals;
    print_nodes(cluster, out);
    print_mounts(cluster, out);
    fprintf(out, "mode %s\n", cluster->mode == MODE_REDO ? "redo" : "stop");
    fprintf(out, "changes %" PRIu64 "\nsyncs %" PRIu64 "\n", cluster->changes, cluster->syncs);
    fprintf(out, "failures %" PRIu64 "\nlost_calls %" PRIu64 "\n", cluster->failures,
            cluster->lost_calls);
    fprintf(out, "unmade %" PRIu64 "\n", cluster->unmade);
    if (cluster->failing_after)
        fprintf(out, "failing %" PRIu32 " after %" PRIu64 "\n", cluster->failing_node,
                cluster->failing_after);
    fprintf(out, "entries %" PRId64 "\nkept_bytes %" PRIu64 "\n", assise_entries(&cluster->desk),
            kept_bytes(cluster));
    fprintf(out, "renewals %" PRIu64 "\nlongest_renewal_us %" PRIu64 "\n", renewals->count,
            renewals->longest / 1000);
    fprintf(out, "clients %" PRIu32 " of %d\n", cluster->clients, ASSISE_MOST_CLIENTS);
}

static void print_history(struct mount *mount, FILE *out) {
    struct assise_desk *desk = &mount->cluster->desk;
    int64_t all = assise_print_history(desk), bytes = all;
    for (int64_t from = 0; from < all && bytes > 0; from += bytes) {
        bytes = assise_page(desk, (uint64_t)from);
        if (bytes > 0)
            fwrite(desk->bytes, 1, (size_t)bytes, out);
    }
    fprintf(out, "%s\n", bytes < 0 ? assise_text(bytes) : "");
}

static void print(struct mount *mount, const char *name, FILE *out) {
    const struct notes *notes = &mount->cluster->notes;
    if (strcmp(name, "status") == 0)
        print_status(mount, out);
    else if (strcmp(name, "history") == 0)
        print_history(mount, out);
    else if (strcmp(name, "losses") == 0)
        fwrite(notes->text, 1, notes->bytes, out);
}

int control_text(struct mount *mount, const char *path, struct text **text) {
    struct text *made = calloc(1, sizeof *made);
    FILE *out = made ? open_memstream(&made->data, &made->bytes) : NULL;
    if (!out) {
        free(made);
        return -ENOMEM;
    }
    print(mount, path + strlen(FOLDER) + 1, out);
    bool is_whole = !ferror(out);
    is_whole = fclose(out) == 0 && is_whole;
    made->next = texts;
    texts = made;
    if (!is_whole) {
        text_free(made);
        return -ENOMEM;
    }
    *text = made;
    return 0;
}

/* ---- what is written */

/* A command, and whether the words are it: a fault, or 0. Who isn't meant leaves `*is_known`. */
static int64_t fail_or_back(struct mount *mount, const char *words, bool *is_known) {
    struct cluster *cluster = mount->cluster;
    uint32_t node;
    uint64_t after;
    int end = -1;
    *is_known = true;
    if (sscanf(words, "fail %" SCNu32 " after %" SCNu64 " %n", &node, &after, &end) == 2 &&
        end >= 0 && !words[end]) {
        if (node < 1 || node > cluster->nodes || after < 1)
            return ASSISE_BAD_NODE;
        cluster->failing_node = node;
        cluster->failing_after = after;
        return 0;
    }
    if (sscanf(words, "fail %" SCNu32 " %n", &node, &end) == 1 && end >= 0 && !words[end])
        return fail_node(cluster, node);
    if (sscanf(words, "back %" SCNu32 " %n", &node, &end) == 1 && end >= 0 && !words[end]) {
        int64_t result = assise_back(&cluster->desk, node);
        note(&cluster->notes, "node %" PRIu32 " %s%s\n", node,
             result < 0 ? "doesn't come back: " : "comes back", result < 0 ? assise_text(result) : "");
        return result;
    }
    *is_known = false;
    return 0;
}

/* `link N KIND`, or `link N cut BYTES`. */
static int64_t set_link(struct cluster *cluster, const char *words, bool *is_known) {
    static const char *const kinds[] = {"perfect", "lose", "repeat", "delay", "cut", "fault"};
    char kind[16];
    uint32_t node;
    uint64_t most = 0;
    int end = -1;
    if (sscanf(words, "link %" SCNu32 " %15s %n", &node, kind, &end) != 2 || end < 0)
        return 0;
    int more = end;
    if (words[end] &&
        (sscanf(words + end, "%" SCNu64 " %n", &most, &more) != 1 || words[end + more]))
        return 0;
    for (uint32_t at = 0; at < sizeof kinds / sizeof *kinds; at++) {
        if (strcmp(kind, kinds[at]) != 0)
            continue;
        *is_known = true;
        return assise_set_link(&cluster->desk, node, at, most);
    }
    return 0;
}

int control_do(struct mount *mount, const char *data, size_t bytes) {
    char words[MOST_WORDS];
    bool is_known = false;
    if (bytes >= sizeof words)
        return -EINVAL;
    memcpy(words, data, bytes);
    words[bytes] = 0;
    words[strcspn(words, "\n")] = 0;
    int64_t result = fail_or_back(mount, words, &is_known);
    if (!is_known)
        result = set_link(mount->cluster, words, &is_known);
    if (is_known)
        return -assise_errno(result);
    if (strcmp(words, "go on") == 0)
        return -assise_errno(go_on(mount));
    if (strcmp(words, "renew") == 0)
        return -assise_errno(renew(mount->cluster));
    if (strcmp(words, "legal") == 0)
        return -assise_errno(assise_legal(&mount->cluster->desk));
    return -EINVAL;
}
