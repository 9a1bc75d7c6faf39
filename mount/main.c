/* assise_mount: a new cluster, mounted. The process ends with its first mount, and the cluster with
 * the process. */
#include "attributes.h"
#include "control.h"
#include "locks.h"
#include "operations.h"
#include "options.h"
#include <errno.h>
#include <fuse3/fuse_lowlevel.h>
#include <malloc.h>
#include <signal.h>
#include <stdio.h>
#include <stdlib.h>

/* Threads of a mount; each that waits for a lock takes one. */
#define MOST_THREADS 100

#define FUSE_OPTIONS "default_permissions,fsname=assise,subtype=assise"

static struct cluster cluster = {.turn = PTHREAD_MUTEX_INITIALIZER};

/* With several mounts nothing is kept by the kernel that another could change, and locks are the
 * cluster's; a mount alone leaves both to the kernel. What a stop took may stand in no cache. */
static void *begin(struct fuse_conn_info *connection, struct fuse_config *config) {
    bool is_alone = cluster.mount_count == 1;
    double seconds = is_alone && cluster.mode == MODE_REDO ? 1.0 : 0.0;
    if (is_alone)
        connection->want &= ~(unsigned)(FUSE_CAP_POSIX_LOCKS | FUSE_CAP_FLOCK_LOCKS);
    config->entry_timeout = config->attr_timeout = config->negative_timeout = seconds;
    config->kernel_cache = seconds > 0;
    if (config->kernel_cache) /* else what it keeps of a file is read again behind each write */
        connection->want &= ~(unsigned)FUSE_CAP_AUTO_INVAL_DATA;
    return fuse_get_context()->private_data;
}

static const struct fuse_operations operations = {
    .init = begin,
    .getattr = inode_stat,
    .chmod = inode_mode,
    .chown = inode_owner,
    .utimens = inode_times,
    .statfs = inode_limits,
    .create = file_create,
    .mknod = file_make,
    .open = file_open,
    .read = file_read,
    .write = file_write,
    .truncate = file_truncate,
    .fsync = file_sync,
    .fsyncdir = file_sync,
    .release = file_release,
    .mkdir = name_directory,
    .opendir = name_open,
    .readdir = name_list,
    .unlink = name_unlink,
    .rmdir = name_remove_directory,
    .rename = name_rename,
    .link = name_link,
    .symlink = name_link,
    .lock = lock_range,
    .flock = lock_whole,
};

/* Mounts a folder: whether it went. libfuse says why it didn't. */
static bool mount_folder(struct mount *mount, const struct options *options) {
    char *words[] = {"assise_mount", "-o", FUSE_OPTIONS, "-o", options->fuse};
    struct fuse_args all = FUSE_ARGS_INIT(options->fuse ? 5 : 3, words);
    mount->fuse = fuse_new(&all, &operations, sizeof operations, mount);
    fuse_opt_free_args(&all); /* what libfuse made of them */
    if (!mount->fuse)
        return false;
    if (fuse_mount(mount->fuse, mount->folder) == 0)
        return true;
    fuse_destroy(mount->fuse);
    mount->fuse = NULL;
    return false;
}

/* Serves a mount until it is unmounted. A mount alone needs one thread: no call of it waits for
 * another. */
static void *serve(void *data) {
    struct mount *mount = data;
    bool is_alone = cluster.mount_count == 1;
    struct fuse_loop_config *config = is_alone ? NULL : fuse_loop_cfg_create();
    if (config) {
        fuse_loop_cfg_set_max_threads(config, MOST_THREADS);
        fuse_loop_mt(mount->fuse, config);
        fuse_loop_cfg_destroy(config);
    } else if (is_alone) {
        fuse_loop(mount->fuse);
    }
    pthread_mutex_lock(&cluster.turn);
    locks_drop(mount);
    pthread_mutex_unlock(&cluster.turn);
    return NULL;
}

static void unmount_all(void) {
    for (unsigned place = 0; place < cluster.mount_count; place++)
        if (cluster.mounts[place].fuse)
            fuse_unmount(cluster.mounts[place].fuse);
}

static void let_go(void) {
    for (unsigned place = 0; place < cluster.mount_count; place++) {
        if (cluster.mounts[place].fuse)
            fuse_destroy(cluster.mounts[place].fuse);
        free((char *)cluster.mounts[place].folder);
    }
    attributes_end();
    texts_end();
}

/* Ends a mount's thread, which may be about to wait again when a signal wakes it. */
static void end_thread(pthread_t thread, const struct mount *mount) {
    struct timespec until;
    fuse_session_exit(fuse_get_session(mount->fuse));
    do {
        pthread_kill(thread, SIGTERM);
        clock_gettime(CLOCK_REALTIME, &until);
        until.tv_sec += 1;
    } while (pthread_timedjoin_np(thread, NULL, &until) == ETIMEDOUT);
}

/* Signals that end the process wait from the first mount on, until they are seen to, or come through
 * again. */
static void hold_signals(bool are_held) {
    sigset_t ending;
    sigemptyset(&ending);
    sigaddset(&ending, SIGTERM);
    sigaddset(&ending, SIGINT);
    sigaddset(&ending, SIGHUP);
    pthread_sigmask(are_held ? SIG_BLOCK : SIG_UNBLOCK, &ending, NULL);
}

/* Serves all mounts, until the first is unmounted or a signal comes: a status. */
static int serve_all(const struct options *options) {
    pthread_t threads[MOST_MOUNTS];
    bool runs[MOST_MOUNTS] = {false};
    struct fuse_session *session = fuse_get_session(cluster.mounts[0].fuse);
    if (fuse_daemonize(options->stays) != 0 || fuse_set_signal_handlers(session) != 0)
        return 1;
    hold_signals(false);
    for (unsigned place = 1; place < cluster.mount_count; place++)
        runs[place] = pthread_create(&threads[place], NULL, serve, &cluster.mounts[place]) == 0;
    serve(&cluster.mounts[0]);
    for (unsigned place = 1; place < cluster.mount_count; place++)
        if (runs[place])
            end_thread(threads[place], &cluster.mounts[place]);
    fuse_remove_signal_handlers(session);
    return 0;
}

static int mount_all(const struct options *options) {
    int64_t begun = cluster_begin(&cluster);
    if (begun < 0) {
        fprintf(stderr, "assise_mount: %s\n", assise_text(begun));
        return 1;
    }
    bool is_mounted = true;
    hold_signals(true);
    for (unsigned place = 0; place < cluster.mount_count && is_mounted; place++)
        is_mounted = mount_folder(&cluster.mounts[place], options);
    int status = is_mounted ? serve_all(options) : 1;
    unmount_all();
    cluster_end(&cluster);
    return status;
}

int main(int count, char **words) {
    struct options options = {NULL, false, false, false};
    mallopt(M_ARENA_MAX, 1); /* a cluster that any thread renews takes what the old one had */
    bool is_right = options_read(count, words, &cluster, &options);
    int status = is_right ? 0 : 1;
    if (is_right && options.is_help)
        fputs(help_text, stdout);
    else if (is_right && options.is_version)
        printf("assise_mount over %s\n", assise_version());
    else if (is_right)
        status = mount_all(&options);
    let_go();
    return status;
}
