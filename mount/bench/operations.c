/* operations FOLDER COUNT: how many operations a second one caller makes in a folder; a line each,
 * `RATE NAME`. */
#include <dirent.h>
#include <fcntl.h>
#include <stdbool.h>
#include <stdio.h>
#include <stdlib.h>
#include <string.h>
#include <sys/stat.h>
#include <time.h>
#include <unistd.h>

#define FOLDERS 16
#define SOME 4096
#define MUCH 65536
#define PATH 4096

static const char *folder;
static char data[MUCH];
static int large; /* a file of a megabyte that is open */

static double now(void) {
    struct timespec time;
    clock_gettime(CLOCK_MONOTONIC, &time);
    return (double)time.tv_sec + (double)time.tv_nsec / 1e9;
}

static const char *path_of(const char *name, int number) {
    static char paths[2][PATH];
    static int turn;
    turn = !turn;
    snprintf(paths[turn], PATH, "%s/%d/%s%d", folder, number % FOLDERS, name, number);
    return paths[turn];
}

static bool make(int number) {
    int file = open(path_of("f", number), O_CREAT | O_WRONLY | O_EXCL, 0644);
    return file >= 0 && close(file) == 0;
}

static bool look_for_none(int number) {
    struct stat found;
    return stat(path_of("none", number), &found) < 0;
}

static bool open_and_write(int number) {
    int file = open(path_of("f", number), O_WRONLY);
    return file >= 0 && write(file, data, SOME) == SOME && close(file) == 0;
}

static bool write_some(int number) {
    return pwrite(large, data, SOME, number * 37 % 240 * SOME) == SOME;
}

static bool write_much(int number) {
    return pwrite(large, data, MUCH, number * 7 % 15 * MUCH) == MUCH;
}

static bool write_and_sync(int number) {
    return write_some(number) && fsync(large) == 0;
}

static bool read_some(int number) {
    return pread(large, data, SOME, number * 37 % 240 * SOME) == SOME;
}

static bool move(int number) {
    const char *from = path_of("f", number);
    return rename(from, path_of("g", number)) == 0;
}

static bool list(int number) {
    char path[PATH];
    snprintf(path, sizeof path, "%s/%d", folder, number % FOLDERS);
    DIR *names = opendir(path);
    while (names && readdir(names)) {
    }
    return names && closedir(names) == 0;
}

static bool sync_folder(int number) {
    char path[PATH];
    snprintf(path, sizeof path, "%s/%d", folder, number % FOLDERS);
    int names = open(path, O_RDONLY);
    return names >= 0 && fsync(names) == 0 && close(names) == 0;
}

static bool deliver(int number) {
    const char *from = path_of("tmp", number);
    int file = open(from, O_CREAT | O_WRONLY | O_EXCL, 0644);
    bool is_written = file >= 0 && write(file, data, SOME) == SOME && fsync(file) == 0 &&
                      close(file) == 0;
    return is_written && rename(from, path_of("new", number)) == 0 && sync_folder(number);
}

static bool drop(int number) {
    return unlink(path_of("g", number)) == 0;
}

/* What is done, each once for so many of the count. */
static const struct {
    const char *name;
    bool (*operation)(int number);
    int of;
} operations[] = {
    {"create", make, 1},
    {"stat of a name that isn't there", look_for_none, 1},
    {"open, write 4 KiB, close", open_and_write, 1},
    {"write 4 KiB", write_some, 1},
    {"write 64 KiB", write_much, 4},
    {"write 4 KiB, fsync", write_and_sync, 1},
    {"read 4 KiB", read_some, 1},
    {"rename", move, 1},
    {"list", list, 20},
    {"letter: write, fsync, rename, fsync of the folder", deliver, 1},
    {"unlink", drop, 1},
};

static bool prepare(void) {
    char path[PATH];
    for (int number = 0; number < FOLDERS; number++) {
        snprintf(path, sizeof path, "%s/%d", folder, number);
        if (mkdir(path, 0755) < 0)
            return false;
    }
    large = open(path_of("large", 0), O_CREAT | O_RDWR, 0644);
    return large >= 0 && ftruncate(large, 1048576) == 0;
}

int main(int count, char **words) {
    int times = count == 3 ? atoi(words[2]) : 0;
    folder = words[1];
    if (times < 1 || !prepare())
        return 1;
    memset(data, 'x', sizeof data);
    for (size_t row = 0; row < sizeof operations / sizeof *operations; row++) {
        int most = times / operations[row].of;
        double began = now();
        for (int number = 0; number < most; number++)
            if (!operations[row].operation(number))
                return perror(operations[row].name), 1;
        printf("%.0f %s\n", most / (now() - began), operations[row].name);
    }
    return 0;
}
