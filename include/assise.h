/* The file system as a library for C: C99, or C++.
 *
 * A cluster of one to sixteen nodes lives behind a desk, a struct in the caller's memory. Each function here writes a request into the desk,
 * has it served, and gives the desk's result: a number from 0 on, or one of `enum assise_fault`, below 0. The library has two functions
 * of its own, assise_begin and assise_serve; all others are written over them here.
 *
 *     #include <assise.h>
 *     #include <inttypes.h>
 *     #include <stdio.h>
 *     #include <stdlib.h>
 *
 *     static struct assise_desk desk;
 *
 *     static int64_t seen(const char *what, int64_t result) {
 *         if (result >= 0) return result;
 *         fprintf(stderr, "%s: %s\n", what, assise_text(result));
 *         exit(1);
 *     }
 *
 *     int main(void) {
 *         assise_begin(&desk);
 *         seen("make", assise_make(&desk, 2, 64, 64));
 *         uint32_t writer = (uint32_t)seen("open", assise_open(&desk, 1, ASSISE_LEAST));
 *         seen("create", assise_create(&desk, writer, "/letter"));
 *         seen("write", assise_write(&desk, writer, "/letter", "synced", 6, 0));
 *         seen("fsync", assise_fsync(&desk, writer));
 *         seen("write", assise_write(&desk, writer, "/letter", ", and lost", 10, 6));
 *
 *         int64_t losers = seen("fail", assise_fail(&desk, 1));
 *         for (uint32_t place = 0; place < losers; place++) {
 *             struct assise_loss loss = assise_loss(&desk, place);
 *             printf("client %" PRIu32 " loses its calls from %" PRIu64 " on\n", loss.client, loss.call);
 *         }
 *
 *         uint32_t reader = (uint32_t)seen("open", assise_open(&desk, 2, ASSISE_LEAST));
 *         char text[64];
 *         int64_t bytes = seen("read", assise_read(&desk, reader, "/letter", text, sizeof text, 0));
 *         printf("%.*s\n", (int)bytes, text);
 *         assise_free(&desk);
 *         return 0;
 *     }
 *
 * What the caller owes, and nothing checks: assise_begin comes first; one call at a time on a desk, and none from a signal handler or
 * from the forked child of a process with threads; a desk stays where it is, or is moved by memcpy, and then only the copy counts; its
 * last field, `cluster`, is never written; assise_free before the desk goes, else its memory is lost. The program is linked with
 * libassise.a, which `./build` makes, and which takes its memory by malloc, realloc and free.
 */
#ifndef ASSISE_H
#define ASSISE_H

#include <errno.h>
#include <stddef.h>
#include <stdint.h>
#include <string.h>

#ifdef __cplusplus
extern "C" {
#endif

/* The version of this header. What assise_version() says is the library's. */
#define ASSISE_VERSION "0.1.0"

/* How many bytes a request or an answer may have. */
#define ASSISE_BYTES 12288

/* Limits. */
#define ASSISE_MOST_NODES 16           /* of a cluster */
#define ASSISE_MOST_CLIENTS 32         /* opened on a cluster, until it is renewed */
#define ASSISE_LEAST_LOG 8             /* records in a client's log, at least */
#define ASSISE_MOST_LOG 4096           /* and at most */
#define ASSISE_MOST_HOT 4096           /* inodes that a node keeps hot */
#define ASSISE_MOST_NAME_BYTES 255     /* of a name */
#define ASSISE_MOST_NAMES 32           /* of a path */
#define ASSISE_MOST_FILE_BYTES 1048576 /* of a file */
#define ASSISE_MOST_ENTRIES 4096       /* of a directory */
#define ASSISE_MOST_INODES 1048576     /* files and directories that one client makes */

struct assise_request {
    uint32_t call;        /* what is asked for: ASSISE_MAKE .. */
    uint32_t client;      /* from 1 */
    uint32_t node;        /* from 1 */
    uint32_t path_bytes;  /* how many bytes of the desk are the path's */
    uint32_t other_bytes; /* and how many behind these are the other path's, or are to be written */
    uint32_t kind;        /* the revoker of a client that is opened, also by a renewal; or the kind of a link */
    uint64_t first;
    uint64_t second;
};

struct assise_desk {
    struct assise_request request;
    int64_t result;  /* a number from 0 on, or a fault's */
    uint64_t stands; /* of a stat 1 for a file, 2 for a directory; of a listing how many entries the directory has */
    uint8_t bytes[ASSISE_BYTES];
    void *cluster[4]; /* the library's own */
};

/* Version and commit of the library, and whether it is proved. */
extern const char assise_version_text[];

static inline const char *assise_version(void) {
    return assise_version_text;
}

/* Writes an empty desk, whatever stands there. */
void assise_begin(struct assise_desk *desk);

/* Serves the desk's request, and leaves its answer there. */
void assise_serve(struct assise_desk *desk);

enum assise_call {
    ASSISE_MAKE = 1,
    ASSISE_FREE = 2,
    ASSISE_OPEN = 3,
    ASSISE_CRASH = 4,
    ASSISE_FAIL = 5,
    ASSISE_BACK = 6,
    ASSISE_LEGAL = 7,
    ASSISE_ROUND = 8,
    ASSISE_ENTRIES = 9,
    ASSISE_PAYLOAD = 10,
    ASSISE_PHASE = 11,
    ASSISE_STANDING = 12,
    ASSISE_HOME = 13,
    ASSISE_ANSWERED = 14,
    ASSISE_REPLICATED = 15,
    ASSISE_CREATE = 16,
    ASSISE_MKDIR = 17,
    ASSISE_READ = 18,
    ASSISE_WRITE = 19,
    ASSISE_TRUNCATE = 20,
    ASSISE_RENAME = 21,
    ASSISE_UNLINK = 22,
    ASSISE_RMDIR = 23,
    ASSISE_LIST = 24,
    ASSISE_STAT = 25,
    ASSISE_FSYNC = 26,
    ASSISE_DSYNC = 27,
    ASSISE_PRINT_HISTORY = 28,
    ASSISE_PRINT_TREE = 29,
    ASSISE_PAGE = 30,
    ASSISE_LISTED = 31,
    ASSISE_SET_HOT = 32,
    ASSISE_RAISE = 33,
    ASSISE_SET_LINK = 34,
    ASSISE_REDO = 35,
    ASSISE_RENEW = 36
};

/* How much of its log a client hands on before a lease goes to another: what touches the inode, all of it, or the first and on to the
 * next record whose number 8 divides. */
enum assise_kind { ASSISE_LEAST = 0, ASSISE_WHOLE = 1, ASSISE_EIGHTS = 2 };

/* What a client's fsync waits for: that all its calls are replicated, or for nothing. Its dsync waits for that in either case. */
enum assise_durability { ASSISE_PESSIMISTIC = 0, ASSISE_OPTIMISTIC = 1 };

/* What becomes of each frame that a node sends: it comes; it is lost; every second one is replaced by the one before; it comes one carry
 * later; a prefix of it comes; a fault comes in its place. */
enum assise_link {
    ASSISE_PERFECT = 0,
    ASSISE_LOSE = 1,
    ASSISE_REPEAT = 2,
    ASSISE_DELAY = 3,
    ASSISE_CUT = 4,
    ASSISE_FAULT = 5
};

/* How a node stands: it has all that is replicated; it failed; it comes back. */
enum assise_phase { ASSISE_FULL = 1, ASSISE_DOWN = 2, ASSISE_RETURNING = 3 };

/* How a client stands: it may call; it crashed; its node has failed since it was opened. */
enum assise_standing { ASSISE_ALIVE = 1, ASSISE_CRASHED = 2, ASSISE_CUT_OFF = 3 };

/* Results below 0. */
enum assise_fault {
    /* The tree doesn't do it; it is an answer, and stands in the history. */
    ASSISE_NO_ENT = -1,    /* a name on the way isn't there */
    ASSISE_EXISTS = -2,    /* something is there already */
    ASSISE_NOT_DIR = -3,   /* a file where a directory is wanted */
    ASSISE_IS_DIR = -4,    /* a directory where a file is wanted */
    ASSISE_NOT_EMPTY = -5, /* the directory has entries */
    ASSISE_INVALID = -6,   /* the root, or a directory into itself */
    ASSISE_TOO_BIG = -7,   /* a file over 1,048,576 bytes */
    ASSISE_DIR_FULL = -8,  /* the directory has 4,096 entries */
    /* It is refused; it stands in no history, and changes no file. */
    ASSISE_OUT_OF_MEMORY = -101,
    ASSISE_BUSY = -102,          /* it waits, and nothing goes on: call again, or bring a node back */
    ASSISE_NODE_DOWN = -103,     /* the client's node failed, or the node isn't full: open another client */
    ASSISE_CLIENT_GONE = -104,   /* the client crashed */
    ASSISE_INODES_SPENT = -105,  /* the client made 1,048,576 inodes */
    ASSISE_TOO_LARGE = -106,     /* a write over 65,536 bytes */
    ASSISE_LAST_NODE = -107,     /* the only full node can't fail */
    ASSISE_BAD_NODE = -108,      /* no such node */
    ASSISE_BAD_CLIENT = -109,    /* no such client, or all 32 were opened */
    ASSISE_WRONG_PHASE = -110,   /* the node is down, or isn't */
    ASSISE_STALE_MESSAGE = -111, /* never: a message of an earlier epoch */
    ASSISE_LOG_FULL = -112,      /* the client's log is full, and nothing goes on */
    /* The bytes spell no path. */
    ASSISE_NOT_ABSOLUTE = -201,  /* it begins with no slash */
    ASSISE_EMPTY_NAME = -202,    /* a name without bytes */
    ASSISE_BAD_NAME = -203,      /* a name that is none, or no UTF-8 */
    ASSISE_NAME_TOO_LONG = -204, /* a name over 255 bytes */
    ASSISE_TOO_DEEP = -205,      /* more than 32 names; a renewal of what lies so deep */
    /* The desk can't serve it. */
    ASSISE_NO_CLUSTER = -301,
    ASSISE_BAD_REQUEST = -302, /* a number out of range, or more bytes than a desk has */
    ASSISE_NO_ROOM = -303      /* the answer has more bytes than a desk */
};

/* What stands at a path, by a stat. */
enum assise_stands { ASSISE_FILE = 1, ASSISE_DIR = 2 };

/* What a failure took of a client: its calls from a number on, counted from 0. */
struct assise_loss {
    uint32_t client;
    uint64_t call;
};

/* A fault in words; for a number from 0 on, that there is none. */
static inline const char *assise_text(int64_t fault) {
    switch (fault) {
    case ASSISE_NO_ENT: return "a name on the way isn't there";
    case ASSISE_EXISTS: return "something is there already";
    case ASSISE_NOT_DIR: return "a file stands where a directory is wanted";
    case ASSISE_IS_DIR: return "a directory stands where a file is wanted";
    case ASSISE_NOT_EMPTY: return "the directory has entries";
    case ASSISE_INVALID: return "not for the root, nor for a directory into itself";
    case ASSISE_TOO_BIG: return "the file would be too big";
    case ASSISE_DIR_FULL: return "the directory is full";
    case ASSISE_OUT_OF_MEMORY: return "out of memory";
    case ASSISE_BUSY: return "each try of the call waited";
    case ASSISE_NODE_DOWN: return "the node has failed";
    case ASSISE_CLIENT_GONE: return "the client has crashed";
    case ASSISE_INODES_SPENT: return "the client can make no more files";
    case ASSISE_TOO_LARGE: return "the write is too long";
    case ASSISE_LAST_NODE: return "the only full node can't fail";
    case ASSISE_BAD_NODE: return "there is no such node";
    case ASSISE_BAD_CLIENT: return "there is no such client, or all were opened";
    case ASSISE_WRONG_PHASE: return "the node is in another phase";
    case ASSISE_STALE_MESSAGE: return "the message is stale";
    case ASSISE_LOG_FULL: return "the client's log is full";
    case ASSISE_NOT_ABSOLUTE: return "the path doesn't begin with a slash";
    case ASSISE_EMPTY_NAME: return "a name in the path is empty";
    case ASSISE_BAD_NAME: return "a name in the path can't be one";
    case ASSISE_NAME_TOO_LONG: return "a name in the path is too long";
    case ASSISE_TOO_DEEP: return "the path has too many names";
    case ASSISE_NO_CLUSTER: return "there is no cluster";
    case ASSISE_BAD_REQUEST: return "the request is out of range";
    case ASSISE_NO_ROOM: return "the answer has no room";
    default: return fault < 0 ? "an unknown fault" : "no fault";
    }
}

/* The number of <errno.h> that is nearest to a fault, and 0 for a number from 0 on. */
static inline int assise_errno(int64_t fault) {
    switch (fault) {
    case ASSISE_NO_ENT: return ENOENT;
    case ASSISE_EXISTS: return EEXIST;
    case ASSISE_NOT_DIR: return ENOTDIR;
    case ASSISE_IS_DIR: return EISDIR;
    case ASSISE_NOT_EMPTY: return ENOTEMPTY;
    case ASSISE_TOO_BIG: return EFBIG;
    case ASSISE_DIR_FULL: case ASSISE_INODES_SPENT: return ENOSPC;
    case ASSISE_OUT_OF_MEMORY: return ENOMEM;
    case ASSISE_BUSY: case ASSISE_LOG_FULL: return EAGAIN;
    case ASSISE_NODE_DOWN: case ASSISE_CLIENT_GONE: case ASSISE_STALE_MESSAGE: return EIO;
    case ASSISE_LAST_NODE: return EBUSY;
    case ASSISE_BAD_NODE: case ASSISE_NO_CLUSTER: return ENXIO;
    case ASSISE_BAD_CLIENT: return EBADF;
    case ASSISE_BAD_NAME: return EILSEQ;
    case ASSISE_NAME_TOO_LONG: case ASSISE_TOO_DEEP: return ENAMETOOLONG;
    default: return fault < 0 ? EINVAL : 0;
    }
}

/* A request of any call. */
static inline int64_t assise_ask(struct assise_desk *desk, struct assise_request request, const char *path, const void *other,
                                 size_t other_bytes) {
    size_t path_bytes = path ? strlen(path) : 0;
    if (path_bytes > ASSISE_BYTES || other_bytes > ASSISE_BYTES - path_bytes) return ASSISE_BAD_REQUEST;
    if (path_bytes) memcpy(desk->bytes, path, path_bytes);
    if (other_bytes) memcpy(desk->bytes + path_bytes, other, other_bytes);
    request.path_bytes = (uint32_t)path_bytes;
    request.other_bytes = (uint32_t)other_bytes;
    desk->request = request;
    assise_serve(desk);
    return desk->result;
}

/* A request that no client makes. */
static inline int64_t assise_manage(struct assise_desk *desk, uint32_t call, uint32_t client, uint32_t node, uint32_t kind,
                                    uint64_t first, uint64_t second) {
    struct assise_request request = {call, client, node, 0, 0, kind, first, second};
    return assise_ask(desk, request, 0, 0, 0);
}

/* A client's call at a path. */
static inline int64_t assise_at(struct assise_desk *desk, uint32_t call, uint32_t client, const char *path, const void *other,
                                size_t other_bytes, uint64_t first, uint64_t second) {
    struct assise_request request = {call, client, 0, 0, 0, 0, first, second};
    return assise_ask(desk, request, path, other, other_bytes);
}

/* ---- The cluster. */

/* Makes a cluster in place of the desk's: 1 to 16 nodes, logs of 8 to 4,096 records, 1 to 4,096 inodes that a node keeps hot. */
static inline int64_t assise_make(struct assise_desk *desk, uint32_t nodes, uint64_t log, uint64_t hot) {
    return assise_manage(desk, ASSISE_MAKE, 0, nodes, 0, log, hot);
}

/* Lets the cluster go. */
static inline int64_t assise_free(struct assise_desk *desk) { return assise_manage(desk, ASSISE_FREE, 0, 0, 0, 0, 0); }

/* A new cluster with the same files and directories comes in place of the desk's, of this many nodes, log records and hot inodes, as for
 * assise_make. Its one client is open: number 1, on node 1, pessimistic, with a revoker of this kind. The history begins anew and the old
 * one's memory is free again, and 31 more clients may be opened.
 *
 * All clients of before are over, with their numbers: who goes on with one speaks as the new client that has it. No call is lost, whether
 * it was synced or not. Links stay; no node is raised. It takes the memory of the new cluster, and twice that of the files, beside the old
 * one's.
 *
 * What is refused leaves the old cluster: each of its clients that may call was asked for a dsync, unless all calls were replicated. It is
 * ASSISE_BUSY where that can't be, as where not all nodes are raised; ASSISE_TOO_DEEP, or ASSISE_INODES_SPENT where one client can't make
 * as many files and directories. */
static inline int64_t assise_renew(struct assise_desk *desk, uint32_t nodes, uint64_t log, uint64_t hot, uint32_t kind) {
    return assise_manage(desk, ASSISE_RENEW, 0, nodes, kind, log, hot);
}

/* Opens a client on a node, whose fsyncs have this durability: its number. There are 32 in all, and the number of one that is gone
 * doesn't come back. */
static inline int64_t assise_open_as(struct assise_desk *desk, uint32_t node, uint32_t kind, uint64_t durability) {
    return assise_manage(desk, ASSISE_OPEN, 0, node, kind, 0, durability);
}

/* The same, and its fsyncs are pessimistic. */
static inline int64_t assise_open(struct assise_desk *desk, uint32_t node, uint32_t kind) {
    return assise_open_as(desk, node, kind, ASSISE_PESSIMISTIC);
}

/* A client crashes. What it did stays in its node's log, and is replicated as before: a failure of the node may take what isn't yet. */
static inline int64_t assise_crash(struct assise_desk *desk, uint32_t client) {
    return assise_manage(desk, ASSISE_CRASH, client, 0, 0, 0, 0);
}

/* The bytes of a loss: its client's number, and the number of the call, each with the lowest byte first. */
#define ASSISE_LOSS_BYTES 12

/* A node fails, and its clients are over: how many of them lost calls. assise_loss has each of these, until the desk's next request. */
static inline int64_t assise_fail(struct assise_desk *desk, uint32_t node) {
    int64_t bytes = assise_manage(desk, ASSISE_FAIL, 0, node, 0, 0, 0);
    return bytes < 0 ? bytes : bytes / ASSISE_LOSS_BYTES;
}

/* The loss at a place, counted from 0: it lies behind the client's last answered dsync, and fsync unless the client is optimistic. A
 * call that found its log full asked for a dsync, which counts as one of the client's calls if it was answered. */
static inline struct assise_loss assise_loss(const struct assise_desk *desk, uint32_t place) {
    const uint8_t *bytes = desk->bytes + (size_t)(place % (ASSISE_MOST_CLIENTS + 1)) * ASSISE_LOSS_BYTES;
    struct assise_loss loss = {0, 0};
    for (int k = 0; k < 4; k++) loss.client |= (uint32_t)bytes[k] << (8 * k);
    for (int k = 0; k < 8; k++) loss.call |= (uint64_t)bytes[4 + k] << (8 * k);
    return loss;
}

/* A client makes again what a loss took: of the changes of files from that call on those that are lost, in their order. 0 where all are
 * made. Else why one isn't, and assise_loss(desk, 0) is that one: go on from its call, or from the next. */
static inline int64_t assise_redo(struct assise_desk *desk, struct assise_loss loss, uint32_t client) {
    return assise_manage(desk, ASSISE_REDO, client, 0, loss.client, loss.call, 0);
}

/* A node that failed comes back. Where that is refused midway, for memory, let it fail and come back again. */
static inline int64_t assise_back(struct assise_desk *desk, uint32_t node) {
    return assise_manage(desk, ASSISE_BACK, 0, node, 0, 0, 0);
}

/* How many inodes a full node keeps hot, 1 to 4,096, is set. */
static inline int64_t assise_set_hot(struct assise_desk *desk, uint32_t node, uint64_t hot) {
    return assise_manage(desk, ASSISE_SET_HOT, 0, node, 0, hot, 0);
}

/* A full node reads version 2 of frames, too, and sends it from here on. What it sends to a node that isn't raised waits until that is,
 * and calls that wait for it are ASSISE_BUSY behind all their tries: so raise all nodes. */
static inline int64_t assise_raise(struct assise_desk *desk, uint32_t node) {
    return assise_manage(desk, ASSISE_RAISE, 0, node, 0, 0, 0);
}

/* What a node sends goes over a new link of a kind, one of `enum assise_link`; one that cuts lets `most` bytes of a frame through. */
static inline int64_t assise_set_link(struct assise_desk *desk, uint32_t node, uint32_t kind, uint64_t most) {
    return assise_manage(desk, ASSISE_SET_LINK, 0, node, kind, most, 0);
}

/* 1, since the history is legal; it is checked anew, which takes long where it is. */
static inline int64_t assise_legal(struct assise_desk *desk) { return assise_manage(desk, ASSISE_LEGAL, 0, 0, 0, 0, 0); }

/* One round of all nodes: 1 where there was anything to do, else 0. */
static inline int64_t assise_round(struct assise_desk *desk) { return assise_manage(desk, ASSISE_ROUND, 0, 0, 0, 0, 0); }

/* ---- What is asked of the cluster, which changes nothing. */

/* How many entries the history has. It is kept in memory, each call with its bytes, until the cluster is renewed. */
static inline int64_t assise_entries(struct assise_desk *desk) { return assise_manage(desk, ASSISE_ENTRIES, 0, 0, 0, 0, 0); }

/* How many bytes the history's calls wrote, read and listed. */
static inline int64_t assise_payload(struct assise_desk *desk) { return assise_manage(desk, ASSISE_PAYLOAD, 0, 0, 0, 0, 0); }

/* Prints the history, a line an entry, as a script's command does. The desk keeps the text in place of its last: how many bytes it has. */
static inline int64_t assise_print_history(struct assise_desk *desk) {
    return assise_manage(desk, ASSISE_PRINT_HISTORY, 0, 0, 0, 0, 0);
}

/* Prints the tree that a full node alone gives, which is that of all replicated calls, and keeps it in the same way. */
static inline int64_t assise_print_tree(struct assise_desk *desk, uint32_t node) {
    return assise_manage(desk, ASSISE_PRINT_TREE, 0, node, 0, 0, 0);
}

/* The desk's text from a place on, as much of it as the desk's bytes take: how many these are, and 0 at its end. */
static inline int64_t assise_page(struct assise_desk *desk, uint64_t from) { return assise_manage(desk, ASSISE_PAGE, 0, 0, 0, from, 0); }

/* A page of what a call listed, from name `from` on, as assise_list has it, but without a call: it costs what it gives, and what was made
 * or removed since shifts nothing. The call's place in the history is counted from 0; behind a listing it is assise_entries() - 1. */
static inline int64_t assise_listed(struct assise_desk *desk, uint64_t place, uint64_t from) {
    return assise_manage(desk, ASSISE_LISTED, 0, 0, 0, from, place);
}

/* How a node stands, one of `enum assise_phase`. */
static inline int64_t assise_phase(struct assise_desk *desk, uint32_t node) {
    return assise_manage(desk, ASSISE_PHASE, 0, node, 0, 0, 0);
}

/* How a client stands, one of `enum assise_standing`. */
static inline int64_t assise_standing(struct assise_desk *desk, uint32_t client) {
    return assise_manage(desk, ASSISE_STANDING, client, 0, 0, 0, 0);
}

/* The node that a client was opened on. */
static inline int64_t assise_home(struct assise_desk *desk, uint32_t client) {
    return assise_manage(desk, ASSISE_HOME, client, 0, 0, 0, 0);
}

/* How many of a client's calls were answered, those that a failure took too. */
static inline int64_t assise_answered(struct assise_desk *desk, uint32_t client) {
    return assise_manage(desk, ASSISE_ANSWERED, client, 0, 0, 0, 0);
}

/* Of a client whose node is up: how many of its calls, from the first on, no failure can take any more. It never falls. */
static inline int64_t assise_replicated(struct assise_desk *desk, uint32_t client) {
    return assise_manage(desk, ASSISE_REPLICATED, client, 0, 0, 0, 0);
}

/* ---- What a client calls. A path is text that ends with a zero byte. */

/* Makes a file. */
static inline int64_t assise_create(struct assise_desk *desk, uint32_t client, const char *path) {
    return assise_at(desk, ASSISE_CREATE, client, path, 0, 0, 0, 0);
}

/* Makes a directory. */
static inline int64_t assise_mkdir(struct assise_desk *desk, uint32_t client, const char *path) {
    return assise_at(desk, ASSISE_MKDIR, client, path, 0, 0, 0, 0);
}

/* Reads up to `count` bytes from an offset on: how many there were. More than a desk has are several calls. */
static inline int64_t assise_read(struct assise_desk *desk, uint32_t client, const char *path, void *data, uint64_t count,
                                  uint64_t offset) {
    uint64_t done = 0;
    int64_t got;
    do {
        uint64_t want = count - done < ASSISE_BYTES ? count - done : ASSISE_BYTES;
        got = assise_at(desk, ASSISE_READ, client, path, 0, 0, offset + done, want);
        if (got < 0) return got;
        if (got) memcpy((uint8_t *)data + done, desk->bytes, (size_t)got);
        done += (uint64_t)got;
    } while (got == ASSISE_BYTES && done < count);
    return (int64_t)done;
}

/* Writes `count` bytes at an offset: how many were written. More than a desk has beside the path are several calls, each of which is made
 * as a whole or not at all. So fewer than `count` were written where a fault came behind the first; then it stands in `result`. */
static inline int64_t assise_write(struct assise_desk *desk, uint32_t client, const char *path, const void *data, uint64_t count,
                                   uint64_t offset) {
    size_t path_bytes = strlen(path);
    uint64_t done = 0, most;
    if (path_bytes >= ASSISE_BYTES) return ASSISE_BAD_REQUEST;
    most = ASSISE_BYTES - path_bytes;
    do {
        uint64_t some = count - done < most ? count - done : most;
        int64_t result = assise_at(desk, ASSISE_WRITE, client, path, (const uint8_t *)data + done, (size_t)some, offset + done, 0);
        if (result < 0) return done ? (int64_t)done : result;
        done += some;
    } while (done < count);
    return (int64_t)done;
}

/* Gives a file another size: the bytes behind it go, or zero bytes come. */
static inline int64_t assise_truncate(struct assise_desk *desk, uint32_t client, const char *path, uint64_t size) {
    return assise_at(desk, ASSISE_TRUNCATE, client, path, 0, 0, size, 0);
}

/* Moves what stands at a path to another. */
static inline int64_t assise_rename(struct assise_desk *desk, uint32_t client, const char *path, const char *other) {
    return assise_at(desk, ASSISE_RENAME, client, path, other, strlen(other), 0, 0);
}

/* Removes a file. */
static inline int64_t assise_unlink(struct assise_desk *desk, uint32_t client, const char *path) {
    return assise_at(desk, ASSISE_UNLINK, client, path, 0, 0, 0, 0);
}

/* Removes a directory without entries. */
static inline int64_t assise_rmdir(struct assise_desk *desk, uint32_t client, const char *path) {
    return assise_at(desk, ASSISE_RMDIR, client, path, 0, 0, 0, 0);
}

/* A page of a directory's names, from number `first` on: how many bytes are in `bytes` then, each name with a zero byte behind it. As
 * long as names are left at least one comes. `stands` is how many entries the directory has. */
static inline int64_t assise_list(struct assise_desk *desk, uint32_t client, const char *path, uint64_t first) {
    return assise_at(desk, ASSISE_LIST, client, path, 0, 0, first, 0);
}

/* The size of a file (`stands` is 1), or how many entries a directory has (`stands` is 2). */
static inline int64_t assise_stat(struct assise_desk *desk, uint32_t client, const char *path) {
    return assise_at(desk, ASSISE_STAT, client, path, 0, 0, 0, 0);
}

/* All calls of the client so far are on all full nodes, unless it was opened to be optimistic. */
static inline int64_t assise_fsync(struct assise_desk *desk, uint32_t client) {
    return assise_at(desk, ASSISE_FSYNC, client, 0, 0, 0, 0, 0);
}

/* All calls of the client so far are on all full nodes. */
static inline int64_t assise_dsync(struct assise_desk *desk, uint32_t client) {
    return assise_at(desk, ASSISE_DSYNC, client, 0, 0, 0, 0, 0);
}

#ifdef __cplusplus
}
#endif

#endif
