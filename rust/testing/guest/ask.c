/* Runs in the guest: asks for one thing many times, and tells how long it took; or makes calls of
 * many kinds (calls.c).
 *   ask stat N PATH             attributes, past the guest's cache
 *   ask missing N PATH          names that aren't there
 *   ask open N PATH             opens and closes
 *   ask list N PATH             reads a directory
 *   ask look N PATH             reads a directory, with each name's attributes, as `ls -l`
 *   ask create N PATH           makes files PATH0, PATH1, ..
 *   ask read N PATH [direct]    the whole file, N bytes a call
 *   ask write N PATH [direct]   64 MiB, N bytes a call, and fsync
 *   ask small N PATH THREADS    4 KiB at places by chance, past the guest's cache, N times in all
 * ask jobs N PATH THREADS 64 KiB in order, past the guest's cache, N times in all, each thread in a
 * stretch of its own
 *   ask run COMMAND ..          a command
 *   ask calls DIR */
#define _GNU_SOURCE
#include "calls.h"
#include <dirent.h>
#include <fcntl.h>
#include <pthread.h>
#include <stdio.h>
#include <stdlib.h>
#include <string.h>
#include <sys/mman.h>
#include <sys/stat.h>
#include <sys/wait.h>
#include <time.h>
#include <unistd.h>

enum { WRITTEN = 1 << 26, SMALL = 4096, MIDDLE = 65536, MOST_THREADS = 64 };

static double now(void) {
    struct timespec t;
    clock_gettime(CLOCK_MONOTONIC, &t);
    return (double)t.tv_sec * 1e3 + (double)t.tv_nsec / 1e6;
}

/* Reads or writes a file: how many bytes, or -1. */
static long stream(const char *path, size_t each, bool is_write, bool is_direct) {
    int fd = open(path,
                  (is_write ? O_WRONLY | O_CREAT | O_TRUNC : O_RDONLY) | (is_direct ? O_DIRECT : 0),
                  0644);
    char *bytes =
        mmap(NULL, each, PROT_READ | PROT_WRITE, MAP_PRIVATE | MAP_ANONYMOUS | MAP_POPULATE, -1, 0);
    long total = 0;
    ssize_t moved = fd < 0 || bytes == MAP_FAILED ? -1 : 1;
    while (moved > 0) {
        moved = is_write ? write(fd, bytes, each) : read(fd, bytes, each);
        total += moved;
        if (is_write && total >= WRITTEN) break;
    }
    if (moved >= 0 && is_write && fsync(fd)) moved = -1;
    close(fd);
    return moved < 0 ? -1 : total;
}

static bool list(const char *path, bool with_attributes) {
    struct stat st;
    DIR *dir = opendir(path);
    if (!dir) return false;
    for (struct dirent *entry; (entry = readdir(dir));)
        if (with_attributes && fstatat(dirfd(dir), entry->d_name, &st, AT_SYMLINK_NOFOLLOW))
            return false;
    return closedir(dir) == 0;
}

/* A thread's part of some direct reads. */
struct part {
    pthread_t thread;
    const char *path;
    size_t each;
    long count, first;
    bool by_chance, failed;
};

static void *read_part(void *argument) {
    struct part *part = argument;
    int fd = open(part->path, O_RDONLY | O_DIRECT);
    void *bytes = aligned_alloc(SMALL, part->each);
    struct stat st;
    unsigned seed = (unsigned)part->first;
    part->failed = fd < 0 || !bytes || fstat(fd, &st) || st.st_size < (off_t)part->each;
    long places = part->failed ? 1 : (long)(st.st_size / (off_t)part->each);
    for (long k = 0; k < part->count && !part->failed; k++) {
        long place = (part->by_chance ? rand_r(&seed) : part->first + k) % places;
        part->failed =
            pread(fd, bytes, part->each, place * (off_t)part->each) != (ssize_t)part->each;
    }
    free(bytes);
    close(fd);
    return NULL;
}

static bool read_parts(const char *path, long count, long threads, size_t each, bool by_chance) {
    static struct part parts[MOST_THREADS];
    bool failed = threads < 1 || threads > MOST_THREADS;
    for (long k = 0; k < threads && !failed; k++) {
        long part = count / threads;
        parts[k] = (struct part){
            .path = path, .each = each, .count = part, .first = k * part, .by_chance = by_chance};
        failed = pthread_create(&parts[k].thread, NULL, read_part, &parts[k]) != 0;
    }
    for (long k = 0; k < threads && !failed; k++) pthread_join(parts[k].thread, NULL);
    for (long k = 0; k < threads && !failed; k++) failed = parts[k].failed;
    return !failed;
}

static bool run(char **command) {
    int status = 0;
    pid_t pid = fork();
    if (pid == 0) {
        execvp(command[0], command);
        _exit(127);
    }
    return waitpid(pid, &status, 0) == pid && status == 0;
}

/* Whether it went as it should. */
static bool once(const char *what, const char *path, long k) {
    struct statx st;
    char name[300];
    if (!strcmp(what, "stat"))
        return statx(AT_FDCWD, path, AT_STATX_FORCE_SYNC, STATX_BASIC_STATS, &st) == 0;
    if (!strcmp(what, "list") || !strcmp(what, "look")) return list(path, !strcmp(what, "look"));
    if (!strcmp(what, "create")) {
        snprintf(name, sizeof name, "%s%ld", path, k);
        int made = open(name, O_WRONLY | O_CREAT | O_EXCL, 0644);
        return made >= 0 && close(made) == 0;
    }
    if (!strcmp(what, "missing")) {
        snprintf(name, sizeof name, "%s.%ld", path, k);
        return statx(AT_FDCWD, name, 0, STATX_BASIC_STATS, &st) != 0;
    }
    int fd = open(path, O_RDONLY);
    return fd >= 0 && close(fd) == 0;
}

int main(int argc, char **argv) {
    if (argc == 3 && !strcmp(argv[1], "calls")) return make_calls(argv[2]);
    if (argc >= 3 && !strcmp(argv[1], "run")) {
        double from = now();
        bool is_good = run(argv + 2);
        printf("TIME %.1f ms: %s%s\n", now() - from, argv[2], is_good ? "" : " FAILED");
        return !is_good;
    }
    if (argc < 4) return 2;
    long count = atol(argv[2]), failed = 0;
    bool is_write = !strcmp(argv[1], "write"), is_direct = argc > 4;
    double began = now();
    if (is_write || !strcmp(argv[1], "read")) {
        long total = stream(argv[3], (size_t)count, is_write, is_direct);
        printf("TIME %.1f ms: %s%s %ld bytes, %ld each\n", now() - began, argv[1],
               is_direct ? " direct" : "", total, count);
        return total < 0;
    }
    bool is_small = !strcmp(argv[1], "small");
    if (argc == 5 && (is_small || !strcmp(argv[1], "jobs"))) {
        bool is_good =
            read_parts(argv[3], count, atol(argv[4]), is_small ? SMALL : MIDDLE, is_small);
        printf("TIME %.1f ms: %s reads %ld times by %s%s\n", now() - began, argv[1], count, argv[4],
               is_good ? "" : " FAILED");
        return !is_good;
    }
    for (long k = 0; k < count; k++) failed += !once(argv[1], argv[3], k);
    printf("TIME %.1f ms: %s %ld times, %ld failed\n", now() - began, argv[1], count, failed);
    return failed != 0;
}
