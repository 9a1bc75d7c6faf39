/* What FUSE calls. The mount is the context's `private_data`. */
#ifndef MOUNT_OPERATIONS_H
#define MOUNT_OPERATIONS_H
#include "cluster.h"
#include <fuse3/fuse.h>

/* The caller's mount, with its cluster's turn. */
struct mount *take_turn(void);

/* The turn ends; what an operation is to answer. */
int end_turn(struct mount *mount, int result);

/* A result as FUSE wants it: 0, or an errno below 0. */
int answered(int64_t result);

/* Whether what was opened so may still be used: it wasn't, where the mount was stopped since. */
bool is_of_now(const struct mount *mount, const struct fuse_file_info *file);

/* files.c */
int file_create(const char *path, mode_t mode, struct fuse_file_info *file);
int file_make(const char *path, mode_t mode, dev_t device);
int file_open(const char *path, struct fuse_file_info *file);
int file_read(const char *path, char *data, size_t bytes, off_t offset,
              struct fuse_file_info *file);
int file_write(const char *path, const char *data, size_t bytes, off_t offset,
               struct fuse_file_info *file);
int file_truncate(const char *path, off_t size, struct fuse_file_info *file);
int file_sync(const char *path, int data_only, struct fuse_file_info *file);
int file_release(const char *path, struct fuse_file_info *file);

/* names.c */
int name_directory(const char *path, mode_t mode);
int name_open(const char *path, struct fuse_file_info *file);
int name_list(const char *path, void *buffer, fuse_fill_dir_t fill, off_t offset,
              struct fuse_file_info *file, enum fuse_readdir_flags flags);
int name_unlink(const char *path);
int name_remove_directory(const char *path);
int name_rename(const char *from, const char *to, unsigned flags);
int name_link(const char *from, const char *to);

/* inodes.c */
int inode_stat(const char *path, struct stat *found, struct fuse_file_info *file);
int inode_mode(const char *path, mode_t mode, struct fuse_file_info *file);
int inode_owner(const char *path, uid_t owner, gid_t group, struct fuse_file_info *file);
int inode_times(const char *path, const struct timespec times[2], struct fuse_file_info *file);
int inode_limits(const char *path, struct statvfs *found);

/* locking.c */
int lock_range(const char *path, struct fuse_file_info *file, int command, struct flock *wanted);
int lock_whole(const char *path, struct fuse_file_info *file, int operation);
void lock_release(struct mount *mount, const char *path, const struct fuse_file_info *file);

#endif
