/* VFSes of SQLite over one cluster: see vfs.h. What isn't about files (time, chance, sleep) is as in SQLite's own VFS. */
#include "vfs.h"

#define MOST_PATH_BYTES 1000
#define SECTOR_BYTES 512

/* An open file: SQLite keeps its path as long as it is open. */
struct vfs_file {
    sqlite3_file base; /* the first member: SQLite hands out pointers to it */
    struct vfs_client *client;
    const char *path;
    struct vfs_lock *lock;
    int level; /* SQLITE_LOCK_NONE .. SQLITE_LOCK_EXCLUSIVE */
    int is_deleted_on_close;
};

/* The lock on a file, for all connections that have it open. */
struct vfs_lock {
    struct vfs_lock *next;
    int opens;               /* how many have the file open */
    int readers;             /* how many have SHARED or more */
    struct vfs_file *writer; /* who has RESERVED or more */
    int is_pending;          /* the writer has PENDING or more, and no new reader comes in */
    char path[];
};

/* ---- turns and results */

static struct assise_desk *take_turn(struct vfs_client *client) {
    pthread_mutex_lock(&client->cluster->turn);
    return &client->cluster->desk;
}

static void end_turn(struct vfs_client *client) {
    pthread_mutex_unlock(&client->cluster->turn);
}

static void tell_of(struct vfs_client *client, enum vfs_change change) {
    if (client->cluster->before_change)
        client->cluster->before_change(client->cluster->watcher, change);
}

/* SQLite's code for a result: that of the method that failed, unless it is for want of memory, or the file would be too big. */
static int code_of(struct vfs_client *client, int64_t result, int failed) {
    if (result >= 0)
        return SQLITE_OK;
    client->last_error = (int)result;
    if (result == ASSISE_OUT_OF_MEMORY)
        return SQLITE_IOERR_NOMEM;
    return result == ASSISE_TOO_BIG ? SQLITE_FULL : failed;
}

/* ---- locks; who calls has the turn */

/* The lock on a file that is opened once more, or NULL for want of memory. */
static struct vfs_lock *share_lock(struct vfs_cluster *cluster, const char *path) {
    struct vfs_lock *lock = cluster->locks;
    while (lock && strcmp(lock->path, path) != 0)
        lock = lock->next;
    if (!lock) {
        size_t path_bytes = strlen(path) + 1;
        lock = sqlite3_malloc64(sizeof *lock + path_bytes);
        if (!lock)
            return NULL;
        memset(lock, 0, sizeof *lock);
        memcpy(lock->path, path, path_bytes);
        lock->next = cluster->locks;
        cluster->locks = lock;
    }
    lock->opens++;
    return lock;
}

static void drop_lock(struct vfs_cluster *cluster, struct vfs_lock *lock) {
    if (--lock->opens > 0)
        return;
    struct vfs_lock **place = &cluster->locks;
    while (*place != lock)
        place = &(*place)->next;
    *place = lock->next;
    sqlite3_free(lock);
}

static int lock_to_read(struct vfs_file *file) {
    struct vfs_lock *lock = file->lock;
    if (lock->is_pending)
        return SQLITE_BUSY;
    lock->readers++;
    file->level = SQLITE_LOCK_SHARED;
    return SQLITE_OK;
}

static int lock_to_write_later(struct vfs_file *file) {
    struct vfs_lock *lock = file->lock;
    if (lock->writer && lock->writer != file)
        return SQLITE_BUSY;
    lock->writer = file;
    file->level = SQLITE_LOCK_RESERVED;
    return SQLITE_OK;
}

/* Where readers are left, PENDING is kept, so that no new one comes in. */
static int lock_to_write(struct vfs_file *file) {
    struct vfs_lock *lock = file->lock;
    if (lock->writer && lock->writer != file)
        return SQLITE_BUSY;
    lock->writer = file;
    lock->is_pending = 1;
    file->level = SQLITE_LOCK_PENDING;
    if (lock->readers > 1)
        return SQLITE_BUSY;
    file->level = SQLITE_LOCK_EXCLUSIVE;
    return SQLITE_OK;
}

static int raise_lock(struct vfs_file *file, int level) {
    if (file->level >= level)
        return SQLITE_OK;
    if (level == SQLITE_LOCK_SHARED)
        return lock_to_read(file);
    return level == SQLITE_LOCK_RESERVED ? lock_to_write_later(file) : lock_to_write(file);
}

/* A lock falls to SHARED or to none. */
static void lower_lock(struct vfs_file *file, int level) {
    struct vfs_lock *lock = file->lock;
    if (file->level <= level)
        return;
    if (file->level > SQLITE_LOCK_SHARED) {
        lock->writer = NULL;
        lock->is_pending = 0;
    }
    if (level == SQLITE_LOCK_NONE)
        lock->readers--;
    file->level = level;
}

/* ---- an open file */

static int file_close(sqlite3_file *base) {
    struct vfs_file *file = (struct vfs_file *)base;
    struct vfs_client *client = file->client;
    struct assise_desk *desk = take_turn(client);
    int64_t result = 0;
    lower_lock(file, SQLITE_LOCK_NONE);
    drop_lock(client->cluster, file->lock);
    if (file->is_deleted_on_close) {
        tell_of(client, VFS_UNLINK);
        result = assise_unlink(desk, client->number, file->path);
    }
    end_turn(client);
    return code_of(client, result, SQLITE_IOERR_CLOSE);
}

/* What is read past a file's end is filled with zeros, and said to be short. */
static int file_read(sqlite3_file *base, void *out, int count, sqlite3_int64 offset) {
    struct vfs_file *file = (struct vfs_file *)base;
    struct vfs_client *client = file->client;
    struct assise_desk *desk = take_turn(client);
    int64_t got = assise_read(desk, client->number, file->path, out, (uint64_t)count, (uint64_t)offset);
    end_turn(client);
    if (got < 0)
        return code_of(client, got, SQLITE_IOERR_READ);
    if (got == count)
        return SQLITE_OK;
    memset((char *)out + got, 0, (size_t)(count - got));
    return SQLITE_IOERR_SHORT_READ;
}

static int file_write(sqlite3_file *base, const void *data, int count, sqlite3_int64 offset) {
    struct vfs_file *file = (struct vfs_file *)base;
    struct vfs_client *client = file->client;
    struct assise_desk *desk = take_turn(client);
    tell_of(client, VFS_WRITE);
    int64_t result = assise_write(desk, client->number, file->path, data, (uint64_t)count, (uint64_t)offset);
    if (result >= 0 && result < count)
        result = desk->result;
    end_turn(client);
    return code_of(client, result, SQLITE_IOERR_WRITE);
}

static int file_truncate(sqlite3_file *base, sqlite3_int64 size) {
    struct vfs_file *file = (struct vfs_file *)base;
    struct vfs_client *client = file->client;
    struct assise_desk *desk = take_turn(client);
    tell_of(client, VFS_TRUNCATE);
    int64_t result = assise_truncate(desk, client->number, file->path, (uint64_t)size);
    end_turn(client);
    return code_of(client, result, SQLITE_IOERR_TRUNCATE);
}

/* An fsync is the client's: it has no file. */
static int file_sync(sqlite3_file *base, int flags) {
    struct vfs_client *client = ((struct vfs_file *)base)->client;
    struct assise_desk *desk = take_turn(client);
    (void)flags;
    tell_of(client, VFS_FSYNC);
    int64_t result = assise_fsync(desk, client->number);
    end_turn(client);
    return code_of(client, result, SQLITE_IOERR_FSYNC);
}

static int file_size(sqlite3_file *base, sqlite3_int64 *size) {
    struct vfs_file *file = (struct vfs_file *)base;
    struct vfs_client *client = file->client;
    struct assise_desk *desk = take_turn(client);
    int64_t found = assise_stat(desk, client->number, file->path);
    end_turn(client);
    *size = found < 0 ? 0 : found;
    return code_of(client, found, SQLITE_IOERR_FSTAT);
}

static int file_lock(sqlite3_file *base, int level) {
    struct vfs_file *file = (struct vfs_file *)base;
    take_turn(file->client);
    int code = raise_lock(file, level);
    end_turn(file->client);
    return code;
}

static int file_unlock(sqlite3_file *base, int level) {
    struct vfs_file *file = (struct vfs_file *)base;
    take_turn(file->client);
    lower_lock(file, level);
    end_turn(file->client);
    return SQLITE_OK;
}

static int file_check_reserved(sqlite3_file *base, int *is_reserved) {
    struct vfs_file *file = (struct vfs_file *)base;
    take_turn(file->client);
    *is_reserved = file->lock->writer != NULL;
    end_turn(file->client);
    return SQLITE_OK;
}

static int file_control(sqlite3_file *base, int operation, void *argument) {
    (void)base;
    (void)operation;
    (void)argument;
    return SQLITE_NOTFOUND;
}

static int file_sector_size(sqlite3_file *base) {
    (void)base;
    return SECTOR_BYTES;
}

static int file_characteristics(sqlite3_file *base) {
    if (((struct vfs_file *)base)->client->options & VFS_IN_ORDER)
        return SQLITE_IOCAP_SEQUENTIAL | SQLITE_IOCAP_SAFE_APPEND | SQLITE_IOCAP_POWERSAFE_OVERWRITE;
    return 0;
}

/* Version 1: no shared memory, so a write-ahead log needs `PRAGMA locking_mode=EXCLUSIVE`. */
static const sqlite3_io_methods file_methods = {
    .iVersion = 1,
    .xClose = file_close,
    .xRead = file_read,
    .xWrite = file_write,
    .xTruncate = file_truncate,
    .xSync = file_sync,
    .xFileSize = file_size,
    .xLock = file_lock,
    .xUnlock = file_unlock,
    .xCheckReservedLock = file_check_reserved,
    .xFileControl = file_control,
    .xSectorSize = file_sector_size,
    .xDeviceCharacteristics = file_characteristics,
};

/* ---- a client's tree */

/* Finds the file at a path, or creates it where SQLite asks for that. */
static int64_t find_or_create(struct vfs_client *client, struct assise_desk *desk, const char *path, int flags) {
    int64_t found = assise_stat(desk, client->number, path);
    if (found == ASSISE_NO_ENT && flags & SQLITE_OPEN_CREATE) {
        tell_of(client, VFS_CREATE);
        return assise_create(desk, client->number, path);
    }
    if (found >= 0 && desk->stands == ASSISE_DIR)
        return ASSISE_IS_DIR;
    if (found >= 0 && flags & SQLITE_OPEN_EXCLUSIVE)
        return ASSISE_EXISTS;
    return found;
}

static int client_open_file(sqlite3_vfs *base, const char *path, sqlite3_file *place, int flags, int *flags_out) {
    struct vfs_client *client = (struct vfs_client *)base;
    struct vfs_file *file = (struct vfs_file *)place;
    memset(file, 0, sizeof *file);
    if (!path)
        return SQLITE_CANTOPEN;
    struct assise_desk *desk = take_turn(client);
    int64_t result = find_or_create(client, desk, path, flags);
    if (result >= 0)
        file->lock = share_lock(client->cluster, path);
    end_turn(client);
    if (result >= 0 && !file->lock)
        return SQLITE_NOMEM;
    if (result < 0)
        return code_of(client, result, SQLITE_CANTOPEN);
    file->client = client;
    file->path = path;
    file->is_deleted_on_close = (flags & SQLITE_OPEN_DELETEONCLOSE) != 0;
    file->base.pMethods = &file_methods;
    if (flags_out)
        *flags_out = flags;
    return SQLITE_OK;
}

/* A transaction is committed once its journal is removed, and safe once that is synced. */
static int client_delete(sqlite3_vfs *base, const char *path, int is_synced) {
    struct vfs_client *client = (struct vfs_client *)base;
    struct assise_desk *desk = take_turn(client);
    tell_of(client, VFS_UNLINK);
    int64_t removed = assise_unlink(desk, client->number, path), synced = 0;
    if (removed >= 0 && (is_synced || client->options & VFS_FSYNC_AT_UNLINK)) {
        tell_of(client, VFS_FSYNC);
        synced = assise_fsync(desk, client->number);
    }
    end_turn(client);
    if (removed == ASSISE_NO_ENT)
        return SQLITE_IOERR_DELETE_NOENT;
    if (removed < 0)
        return code_of(client, removed, SQLITE_IOERR_DELETE);
    return code_of(client, synced, SQLITE_IOERR_DIR_FSYNC);
}

static int client_access(sqlite3_vfs *base, const char *path, int flags, int *is_there) {
    struct vfs_client *client = (struct vfs_client *)base;
    struct assise_desk *desk = take_turn(client);
    int64_t found = assise_stat(desk, client->number, path);
    end_turn(client);
    (void)flags;
    *is_there = found >= 0;
    if (found == ASSISE_NO_ENT || found == ASSISE_NOT_DIR)
        return SQLITE_OK;
    return code_of(client, found, SQLITE_IOERR_ACCESS);
}

/* There is no working directory: each path begins at the root. */
static int client_full_path(sqlite3_vfs *base, const char *path, int room, char *out) {
    (void)base;
    if (strlen(path) + 2 > (size_t)room)
        return SQLITE_CANTOPEN;
    sqlite3_snprintf(room, out, "%s%s", path[0] == '/' ? "" : "/", path);
    return SQLITE_OK;
}

static int client_last_error(sqlite3_vfs *base, int room, char *out) {
    (void)room;
    (void)out;
    return ((struct vfs_client *)base)->last_error;
}

/* ---- clusters and clients */

int64_t vfs_cluster_begin(struct vfs_cluster *cluster, uint32_t nodes, uint64_t log, uint64_t hot) {
    assise_begin(&cluster->desk);
    int64_t result = assise_make(&cluster->desk, nodes, log, hot);
    if (result < 0)
        return result;
    pthread_mutex_init(&cluster->turn, NULL);
    cluster->locks = NULL;
    cluster->before_change = NULL;
    cluster->watcher = NULL;
    return result;
}

void vfs_cluster_end(struct vfs_cluster *cluster) {
    assise_free(&cluster->desk);
    pthread_mutex_destroy(&cluster->turn);
}

int64_t vfs_client_open(struct vfs_client *client, struct vfs_cluster *cluster, uint32_t node, const char *name, unsigned options) {
    *client = (struct vfs_client){.base = *sqlite3_vfs_find(NULL), .cluster = cluster, .options = options};
    client->base.szOsFile = sizeof(struct vfs_file);
    client->base.mxPathname = MOST_PATH_BYTES;
    client->base.zName = name;
    client->base.xOpen = client_open_file;
    client->base.xDelete = client_delete;
    client->base.xAccess = client_access;
    client->base.xFullPathname = client_full_path;
    client->base.xGetLastError = client_last_error;
    int64_t number = assise_open(take_turn(client), node, ASSISE_LEAST);
    end_turn(client);
    if (number < 0)
        return number;
    client->number = (uint32_t)number;
    return sqlite3_vfs_register(&client->base, 0) == SQLITE_OK ? number : ASSISE_OUT_OF_MEMORY;
}

int64_t vfs_client_renew(struct vfs_client *client, uint32_t nodes, uint64_t log, uint64_t hot) {
    struct assise_desk *desk = take_turn(client);
    int64_t result = ASSISE_NODE_DOWN;
    if (assise_standing(desk, client->number) == ASSISE_ALIVE)
        result = assise_renew(desk, nodes, log, hot, ASSISE_LEAST);
    if (result >= 0)
        client->number = 1;
    end_turn(client);
    return result;
}

void vfs_client_forget(struct vfs_client *client) {
    sqlite3_vfs_unregister(&client->base);
}
