/* Files: what is made, read, written and synced. */
#include "attributes.h"
#include "control.h"
#include "operations.h"
#include <errno.h>

/* Changes the size of a file. */
static int resize(struct mount *mount, const char *path, off_t size) {
    if (size > ASSISE_MOST_FILE_BYTES)
        return -EFBIG;
    int64_t result = cluster_change(mount, ASSISE_TRUNCATE, path, NULL, 0, (uint64_t)size);
    if (result >= 0)
        touch(path);
    return answered(result);
}

static int open_in_turn(struct mount *mount, const char *path, struct fuse_file_info *file) {
    file->fh = mount->generation;
    if (mount->is_stopped)
        return -EIO;
    return (file->flags & O_TRUNC) ? resize(mount, path, 0) : 0;
}

static int open_control(struct mount *mount, const char *path, struct fuse_file_info *file) {
    struct text *text = NULL;
    int result = control_text(mount, path, &text);
    file->fh = (uint64_t)(uintptr_t)text;
    file->direct_io = 1;
    return result;
}

int file_open(const char *path, struct fuse_file_info *file) {
    struct mount *mount = take_turn();
    return end_turn(mount, is_control(path) ? open_control(mount, path, file)
                                            : open_in_turn(mount, path, file));
}

/* The attributes come first, since they may be refused for memory. */
static int create_in_turn(struct mount *mount, const char *path, mode_t mode,
                          struct fuse_file_info *file) {
    const struct fuse_context *context = fuse_get_context();
    file->fh = mount->generation;
    struct attributes *attributes = attributes_new(path, mode, context->uid, context->gid);
    if (!attributes)
        return -ENOMEM;
    int64_t result = cluster_change(mount, ASSISE_CREATE, path, NULL, 0, 0);
    if (result < 0) {
        attributes_free(attributes);
        bool is_meant = result == ASSISE_EXISTS && !(file->flags & O_EXCL);
        return is_meant ? open_in_turn(mount, path, file) : answered(result);
    }
    attributes_put(attributes);
    touch_above(path);
    return 0;
}

int file_create(const char *path, mode_t mode, struct fuse_file_info *file) {
    struct mount *mount = take_turn();
    return end_turn(mount, is_control(path) ? -EPERM : create_in_turn(mount, path, mode, file));
}

int file_make(const char *path, mode_t mode, dev_t device) {
    struct fuse_file_info file = {.flags = O_EXCL};
    (void)device;
    return S_ISREG(mode) ? file_create(path, mode, &file) : -EPERM;
}

static int read_in_turn(struct mount *mount, const char *path, char *data, size_t bytes,
                        off_t offset) {
    int64_t count = cluster_read(mount, path, data, bytes, (uint64_t)offset);
    return count < 0 ? answered(count) : (int)count;
}

static int read_text(const struct text *text, char *data, size_t bytes, off_t offset) {
    size_t from = (size_t)offset < text->bytes ? (size_t)offset : text->bytes;
    size_t some = text->bytes - from < bytes ? text->bytes - from : bytes;
    memcpy(data, text->data + from, some);
    return (int)some;
}

int file_read(const char *path, char *data, size_t bytes, off_t offset,
              struct fuse_file_info *file) {
    if (is_control(path))
        return read_text((const struct text *)(uintptr_t)file->fh, data, bytes, offset);
    struct mount *mount = take_turn();
    return end_turn(mount,
                    is_of_now(mount, file) ? read_in_turn(mount, path, data, bytes, offset) : -EIO);
}

/* Another mount may have written since the kernel looked for the end. */
static int64_t offset_of(struct mount *mount, const char *path, off_t offset,
                         const struct fuse_file_info *file) {
    bool is_at_end = file->flags & O_APPEND && mount->cluster->mount_count > 1;
    return is_at_end ? cluster_call(mount, ASSISE_STAT, path, 0, 0) : offset;
}

/* Writes as much as a file may have, each part of it whole or not at all. */
static int write_in_turn(struct mount *mount, const char *path, const char *data, size_t bytes,
                         int64_t offset) {
    if (offset < 0)
        return answered(offset);
    size_t room = offset < ASSISE_MOST_FILE_BYTES ? (size_t)(ASSISE_MOST_FILE_BYTES - offset) : 0;
    if (!room && bytes)
        return -EFBIG;
    bytes = bytes < room ? bytes : room;
    size_t most = ASSISE_BYTES - strlen(path), done = 0;
    while (done < bytes) {
        size_t some = bytes - done < most ? bytes - done : most;
        int64_t result = cluster_change(mount, ASSISE_WRITE, path, data + done, some,
                                        (uint64_t)offset + done);
        if (result < 0 && !done)
            return answered(result);
        if (result < 0)
            break;
        done += some;
    }
    touch(path);
    return (int)done;
}

int file_write(const char *path, const char *data, size_t bytes, off_t offset,
               struct fuse_file_info *file) {
    struct mount *mount = take_turn();
    if (is_control(path)) {
        int result = control_do(mount, data, bytes);
        return end_turn(mount, result < 0 ? result : (int)bytes);
    }
    if (!is_of_now(mount, file))
        return end_turn(mount, -EIO);
    return end_turn(mount,
                    write_in_turn(mount, path, data, bytes, offset_of(mount, path, offset, file)));
}

int file_truncate(const char *path, off_t size, struct fuse_file_info *file) {
    if (is_control(path))
        return 0;
    struct mount *mount = take_turn();
    return end_turn(mount, is_of_now(mount, file) ? resize(mount, path, size) : -EIO);
}

int file_sync(const char *path, int data_only, struct fuse_file_info *file) {
    (void)data_only;
    if (is_control(path))
        return 0;
    struct mount *mount = take_turn();
    return end_turn(mount, is_of_now(mount, file) ? answered(cluster_sync(mount)) : -EIO);
}

int file_release(const char *path, struct fuse_file_info *file) {
    struct mount *mount = take_turn();
    if (is_control(path))
        text_free((struct text *)(uintptr_t)file->fh);
    else
        lock_release(mount, path, file);
    return end_turn(mount, 0);
}
