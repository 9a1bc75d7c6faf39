/* Names: directories, and what is renamed and removed. */
#include "attributes.h"
#include "control.h"
#include "locks.h"
#include "operations.h"
#include <errno.h>
#include <stdio.h>

static int make_directory(struct mount *mount, const char *path, mode_t mode) {
    const struct fuse_context *context = fuse_get_context();
    struct attributes *attributes = attributes_new(path, mode, context->uid, context->gid);
    if (!attributes)
        return -ENOMEM;
    int64_t result = cluster_change(mount, ASSISE_MKDIR, path, NULL, 0, 0);
    if (result < 0) {
        attributes_free(attributes);
        return answered(result);
    }
    attributes->is_directory = true;
    attributes_put(attributes);
    touch_above(path);
    return 0;
}

int name_directory(const char *path, mode_t mode) {
    struct mount *mount = take_turn();
    return end_turn(mount, is_control(path) ? -EPERM : make_directory(mount, path, mode));
}

int name_open(const char *path, struct fuse_file_info *file) {
    struct mount *mount = take_turn();
    (void)path;
    file->fh = mount->generation;
    return end_turn(mount, 0);
}

/* Fills in a page of names that the desk has: how many, or -ENOMEM. */
static int64_t fill_page(const struct assise_desk *desk, int64_t bytes, void *buffer,
                         fuse_fill_dir_t fill) {
    const char *name = (const char *)desk->bytes, *end = name + bytes;
    int64_t count = 0;
    for (; name < end; name += strlen(name) + 1, count++)
        if (fill(buffer, name, NULL, 0, 0))
            return -ENOMEM;
    return count;
}

/* The first page is a call, which keeps all names in the history; the others are pages of it. */
static int list_in_turn(struct mount *mount, const char *path, void *buffer, fuse_fill_dir_t fill) {
    struct assise_desk *desk = &mount->cluster->desk;
    int64_t bytes = cluster_call(mount, ASSISE_LIST, path, 0, 0);
    if (bytes < 0)
        return answered(bytes);
    uint64_t names = desk->stands, first = 0;
    while (bytes > 0) {
        int64_t count = fill_page(desk, bytes, buffer, fill);
        if (count < 0)
            return (int)count;
        first += (uint64_t)count;
        if (first >= names)
            return 0;
        bytes = assise_listed(desk, (uint64_t)assise_entries(desk) - 1, first);
    }
    return answered(bytes);
}

int name_list(const char *path, void *buffer, fuse_fill_dir_t fill, off_t offset,
              struct fuse_file_info *file, enum fuse_readdir_flags flags) {
    (void)offset, (void)flags;
    if (fill(buffer, ".", NULL, 0, 0) || fill(buffer, "..", NULL, 0, 0))
        return -ENOMEM;
    if (is_control(path)) {
        for (const char *const *name = control_names; *name; name++)
            if (fill(buffer, *name, NULL, 0, 0))
                return -ENOMEM;
        return 0;
    }
    struct mount *mount = take_turn();
    return end_turn(mount, is_of_now(mount, file) ? list_in_turn(mount, path, buffer, fill) : -EIO);
}

static int drop(const char *path, uint32_t call) {
    struct mount *mount = take_turn();
    if (is_control(path))
        return end_turn(mount, -EPERM);
    int64_t result = cluster_change(mount, call, path, NULL, 0, 0);
    if (result >= 0) {
        attributes_drop(path);
        touch_above(path);
    }
    return end_turn(mount, answered(result));
}

int name_unlink(const char *path) {
    return drop(path, ASSISE_UNLINK);
}

int name_remove_directory(const char *path) {
    return drop(path, ASSISE_RMDIR);
}

/* Attributes and locks are ready to move before the name does, since they may be refused for
 * memory. */
static int move(struct mount *mount, const char *from, const char *to) {
    int64_t found = cluster_call(mount, ASSISE_STAT, from, 0, 0);
    bool is_directory = found >= 0 && mount->cluster->desk.stands == ASSISE_DIR;
    if (found < 0)
        return answered(found);
    if (!attributes_plan(from, to, is_directory))
        return -ENOMEM;
    if (!locks_plan(from, to)) {
        attributes_stay(from, is_directory);
        return -ENOMEM;
    }
    int64_t result = cluster_change(mount, ASSISE_RENAME, from, to, strlen(to), 0);
    if (result < 0) {
        attributes_stay(from, is_directory);
        locks_stay();
        return answered(result);
    }
    attributes_move(from, to, is_directory);
    locks_move(to);
    touch_above(from);
    touch_above(to);
    return 0;
}

int name_rename(const char *from, const char *to, unsigned flags) {
    if (is_control(from) || is_control(to))
        return -EPERM;
    if (flags & ~(unsigned)RENAME_NOREPLACE)
        return -EINVAL;
    struct mount *mount = take_turn();
    if (flags && cluster_call(mount, ASSISE_STAT, to, 0, 0) >= 0)
        return end_turn(mount, -EEXIST);
    return end_turn(mount, move(mount, from, to));
}

int name_link(const char *from, const char *to) {
    (void)from, (void)to;
    return -EPERM;
}
