/* Runs in the guest: flags DIR OVER changes files that it has open, until OVER is there, and says
 * whether one has other bytes than it was to have: one that was made with O_APPEND, mapped, and has
 * O_APPEND no more; and one that was made with O_DIRECT, at odd places (if the server takes that at
 * first). So it says whether open files survive a migration. */
#define _GNU_SOURCE
#include <errno.h>
#include <fcntl.h>
#include <stdbool.h>
#include <stdio.h>
#include <string.h>
#include <sys/mman.h>
#include <sys/stat.h>
#include <unistd.h>

enum { LEN = 4096 };

static int make(const char *dir, const char *name, int flags) {
    char path[300];
    snprintf(path, sizeof path, "%s/%s", dir, name);
    unlink(path);
    return open(path, O_RDWR | O_CREAT | flags, 0600);
}

/* Whether the file is as long as its map, and has what is there. */
static bool is_whole(int fd, const char *map) {
    char bytes[LEN];
    struct stat stat;
    return !fstat(fd, &stat) && stat.st_size == LEN && pread(fd, bytes, LEN, 0) == LEN &&
           !memcmp(bytes, map, LEN);
}

int main(int argc, char **argv) {
    unsigned rounds = 0, bad = 0;
    char zeros[LEN] = {0};
    if (argc != 3) return 1;
    int appended = make(argv[1], "appended", O_APPEND), direct = make(argv[1], "direct", O_DIRECT);
    if (appended < 0 || direct < 0 || write(appended, zeros, LEN) != LEN) return 1;
    char *map = mmap(NULL, LEN, PROT_READ | PROT_WRITE, MAP_SHARED, appended, 0);
    if (map == MAP_FAILED || fcntl(appended, F_SETFL, 0)) return 1;
    bool is_odd = pwrite(direct, "odd", 3, 1) == 3;
    for (; access(argv[2], F_OK); rounds++, usleep(200000)) {
        map[rounds % LEN] = (char)rounds;
        if (msync(map, LEN, MS_SYNC) || pwrite(appended, "x", 1, LEN - 1) != 1) bad++;
        if (!is_whole(appended, map))
            bad++, printf("CORRUPT appended, round %u\n", rounds), fflush(stdout);
        if (is_odd && pwrite(direct, "odd", 3, 1) != 3)
            bad++, printf("CORRUPT direct: %s\n", strerror(errno)), fflush(stdout);
    }
    printf("FLAGS %s\n", bad ? "bad" : "good");
    return 0;
}
