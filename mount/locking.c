/* Locks that programs set. */
#include "control.h"
#include "locks.h"
#include "operations.h"
#include <errno.h>
#include <sys/file.h>

static struct locker locker_of(const struct mount *mount, const struct fuse_file_info *file,
                               bool is_whole) {
    return (struct locker){mount, file->lock_owner, is_whole};
}

int lock_range(const char *path, struct fuse_file_info *file, int command, struct flock *wanted) {
    struct mount *mount = take_turn();
    struct locker locker = locker_of(mount, file, false);
    int result = 0;
    if (is_control(path))
        result = -EPERM;
    else if (mount->is_stopped)
        result = wanted->l_type == F_UNLCK ? 0 : -EIO;
    else if (command == F_GETLK)
        locks_get(path, locker, wanted);
    else
        result = locks_set(&mount->cluster->turn, path, locker, wanted, command == F_SETLKW);
    return end_turn(mount, result);
}

int lock_whole(const char *path, struct fuse_file_info *file, int operation) {
    short type = (operation & LOCK_UN) ? F_UNLCK : (operation & LOCK_EX) ? F_WRLCK : F_RDLCK;
    const struct flock wanted = {.l_type = type, .l_whence = SEEK_SET};
    if (is_control(path))
        return -EPERM;
    struct mount *mount = take_turn();
    bool waits = !(operation & LOCK_NB);
    if (mount->is_stopped)
        return end_turn(mount, type == F_UNLCK ? 0 : -EIO);
    return end_turn(mount, locks_set(&mount->cluster->turn, path, locker_of(mount, file, true),
                                     &wanted, waits));
}

void lock_release(struct mount *mount, const char *path, const struct fuse_file_info *file) {
    const struct flock wanted = {.l_type = F_UNLCK, .l_whence = SEEK_SET};
    if (file->flock_release)
        locks_set(&mount->cluster->turn, path, locker_of(mount, file, true), &wanted, false);
}
