/* What stands at a path: its size from the library, its mode, owner and times from the mounts' own
 * table; and the limits. */
#include "attributes.h"
#include "control.h"
#include "operations.h"
#include <errno.h>
#include <sys/stat.h>
#include <sys/statvfs.h>
#include <unistd.h>

#define BLOCK_BYTES 4096

/* What has no attributes of its own is as old as the mounts. */
static struct timespec began;

static void fill_in(const struct attributes *attributes, bool is_directory, struct stat *found) {
    if (!began.tv_sec)
        began = time_now();
    mode_t mode = attributes ? attributes->mode : is_directory ? 0755 : 0644;
    found->st_mode = (is_directory ? S_IFDIR : S_IFREG) | mode;
    found->st_uid = attributes ? attributes->owner : getuid();
    found->st_gid = attributes ? attributes->group : getgid();
    found->st_atim = attributes ? attributes->accessed : began;
    found->st_mtim = attributes ? attributes->modified : began;
    found->st_ctim = attributes ? attributes->changed : began;
}

/* Directories can be found and opened also where the mount is stopped. The way to `.assise` leads
 * over the root; and SQLite takes a directory that it can't open for one that it needn't sync, so
 * that it would see no error. */
static bool is_known(const struct mount *mount, const char *path) {
    const struct attributes *attributes = attributes_at(path);
    return path[1] == 0 || (mount->is_stopped && attributes && attributes->is_directory);
}

static int stat_in_turn(struct mount *mount, const char *path, struct stat *found) {
    memset(found, 0, sizeof *found);
    if (is_control(path))
        return control_stat(path, found);
    bool is_directory = is_known(mount, path);
    int64_t size = is_directory ? 0 : cluster_call(mount, ASSISE_STAT, path, 0, 0);
    if (size < 0)
        return answered(size);
    is_directory = is_directory || mount->cluster->desk.stands == ASSISE_DIR;
    fill_in(attributes_at(path), is_directory, found);
    found->st_nlink = 1;
    found->st_size = is_directory ? BLOCK_BYTES : size;
    found->st_blksize = BLOCK_BYTES;
    found->st_blocks = (found->st_size + 511) / 512;
    return 0;
}

/* The kernel looks at an open file before it reads what it keeps of it: so it reads nothing that a
 * stop took. */
int inode_stat(const char *path, struct stat *found, struct fuse_file_info *file) {
    struct mount *mount = take_turn();
    bool is_over = !is_control(path) && !is_of_now(mount, file);
    return end_turn(mount, is_over ? -EIO : stat_in_turn(mount, path, found));
}

/* The attributes of a path to be changed, made where it has none yet; NULL, and why. */
static struct attributes *changing(struct mount *mount, const char *path, int *why) {
    struct stat found;
    *why = is_control(path) ? -EPERM : stat_in_turn(mount, path, &found);
    if (*why < 0)
        return NULL;
    struct attributes *attributes = attributes_at(path);
    if (!attributes) {
        attributes = attributes_new(path, found.st_mode, found.st_uid, found.st_gid);
        *why = attributes ? 0 : -ENOMEM;
        if (!attributes)
            return NULL;
        attributes->is_directory = S_ISDIR(found.st_mode);
        attributes->accessed = found.st_atim;
        attributes->modified = found.st_mtim;
        attributes_put(attributes);
    }
    attributes->changed = time_now();
    return attributes;
}

int inode_mode(const char *path, mode_t mode, struct fuse_file_info *file) {
    int why;
    struct mount *mount = take_turn();
    struct attributes *attributes = changing(mount, path, &why);
    (void)file;
    if (attributes)
        attributes->mode = mode & 07777;
    return end_turn(mount, why);
}

int inode_owner(const char *path, uid_t owner, gid_t group, struct fuse_file_info *file) {
    int why;
    struct mount *mount = take_turn();
    struct attributes *attributes = changing(mount, path, &why);
    (void)file;
    if (attributes && owner != (uid_t)-1)
        attributes->owner = owner;
    if (attributes && group != (gid_t)-1)
        attributes->group = group;
    return end_turn(mount, why);
}

static void set_time(struct timespec *time, struct timespec wanted) {
    if (wanted.tv_nsec != UTIME_OMIT)
        *time = wanted.tv_nsec == UTIME_NOW ? time_now() : wanted;
}

int inode_times(const char *path, const struct timespec times[2], struct fuse_file_info *file) {
    int why;
    struct mount *mount = take_turn();
    struct attributes *attributes = changing(mount, path, &why);
    (void)file;
    if (attributes) {
        set_time(&attributes->accessed, times[0]);
        set_time(&attributes->modified, times[1]);
    }
    return end_turn(mount, why);
}

/* There is as much room as the machine has memory for each node. */
int inode_limits(const char *path, struct statvfs *found) {
    struct mount *mount = take_turn();
    uint64_t page = (uint64_t)sysconf(_SC_PAGESIZE), nodes = mount->cluster->nodes;
    (void)path;
    memset(found, 0, sizeof *found);
    found->f_bsize = found->f_frsize = BLOCK_BYTES;
    found->f_blocks = (uint64_t)sysconf(_SC_PHYS_PAGES) * page / BLOCK_BYTES / nodes;
    found->f_bfree = found->f_bavail = (uint64_t)sysconf(_SC_AVPHYS_PAGES) * page / BLOCK_BYTES /
                                       nodes;
    found->f_files = found->f_ffree = found->f_favail = ASSISE_MOST_INODES;
    found->f_namemax = ASSISE_MOST_NAME_BYTES;
    return end_turn(mount, 0);
}
