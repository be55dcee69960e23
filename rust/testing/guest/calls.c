#define _GNU_SOURCE
#include "calls.h"
#include <dirent.h>
#include <errno.h>
#include <fcntl.h>
#include <stdint.h>
#include <stdio.h>
#include <stdlib.h>
#include <string.h>
#include <sys/stat.h>
#include <sys/statvfs.h>
#include <sys/sysmacros.h>
#include <sys/wait.h>
#include <sys/xattr.h>
#include <unistd.h>

#define TELL(call) tell(#call, (long)(call))

static void tell(const char *what, long result) {
    printf("%s: %ld%s%s\n", what, result, result < 0 ? " " : "",
           result < 0 ? strerrorname_np(errno) : "");
}

static void tell_stat(const char *path) {
    struct stat st;
    if (lstat(path, &st))
        printf("%s: %s\n", path, strerrorname_np(errno));
    else
        printf("%s: mode %o links %u uid %u gid %u size %ld\n", path, st.st_mode,
               (unsigned)st.st_nlink, st.st_uid, st.st_gid,
               S_ISDIR(st.st_mode) ? 0 : (long)st.st_size);
}

static void tell_text(const char *path) {
    char text[100] = "";
    int fd = open(path, O_RDONLY);
    TELL(read(fd, text, sizeof text - 1));
    printf("%s: %s\n", path, text);
    close(fd);
}

static void files(void) {
    int fd = open("a", O_RDWR | O_CREAT | O_EXCL, 0640), other;
    TELL(open("a", O_RDWR | O_CREAT | O_EXCL, 0640));
    TELL(write(fd, "hello, world", 12));
    TELL(pwrite(fd, "end", 3, 100000));
    tell_stat("a");
    TELL(fsync(fd));
    TELL(fdatasync(fd));
    TELL(ftruncate(fd, 12));
    TELL(fallocate(fd, 0, 0, 8192));
    TELL(fallocate(fd, FALLOC_FL_KEEP_SIZE, 0, 16384));
    tell_stat("a");
    TELL(fallocate(fd, FALLOC_FL_PUNCH_HOLE | FALLOC_FL_KEEP_SIZE, 4096, 4096));
    TELL(lseek(fd, 0, SEEK_END));
    other = open("a", O_WRONLY | O_APPEND);
    TELL(ftruncate(fd, 12));
    TELL(write(other, "!", 1));
    close(other);
    tell_text("a");
    TELL(unlink("a"));
    TELL(pread(fd, (char[20]){0}, 20, 0));
    TELL(fchmod(fd, 0600));
    close(fd);
    TELL(open("a", O_RDONLY));
    TELL(close(open("b", O_WRONLY | O_CREAT | O_TRUNC, 0666)));
    TELL(open("b", O_RDONLY | O_DIRECTORY));
    TELL(open(".", O_WRONLY));
}

static void names(void) {
    char text[20] = "";
    TELL(mkdir("d", 0750));
    TELL(mkdir("d", 0750));
    TELL(mkdir("d/e", 0777));
    TELL(rmdir("d"));
    TELL(rename("b", "d/e/moved"));
    TELL(symlink("e/moved", "d/link"));
    TELL(readlink("d/link", text, sizeof text));
    TELL(symlink("../../../../etc/passwd", "out"));
    tell_stat("out");
    TELL(link("d/e/moved", "hard"));
    tell_stat("hard");
    TELL(link("out", "out2"));
    tell_stat("out2");
    TELL(mknod("pipe", S_IFIFO | 0600, 0));
    tell_stat("pipe");
    TELL(link("nothing", "x"));
    TELL(renameat2(AT_FDCWD, "hard", AT_FDCWD, "pipe", RENAME_NOREPLACE));
    TELL(renameat2(AT_FDCWD, "hard", AT_FDCWD, "pipe", RENAME_EXCHANGE));
    tell_stat("pipe");
    TELL(rename("d", "d/e/inside"));
    TELL(unlink("d"));
    TELL(rmdir("pipe"));
    char name[300];
    memset(name, 'n', sizeof name);
    name[255] = 0;
    TELL(close(open(name, O_WRONLY | O_CREAT, 0600)));
    TELL(unlink(name));
    name[255] = 'n', name[256] = 0;
    TELL(open(name, O_WRONLY | O_CREAT, 0600));
}

static void attributes(void) {
    struct timespec times[2] = {{1000000000, 5}, {981173106, 123456789}};
    struct stat st;
    struct statvfs fs;
    TELL(chmod("pipe", 0604));
    TELL(chown("pipe", 12, 34));
    tell_stat("pipe");
    TELL(lchown("out", 5, 6));
    tell_stat("out");
    TELL(utimensat(AT_FDCWD, "pipe", times, 0));
    TELL(stat("pipe", &st));
    printf("times %ld.%ld %ld.%ld\n", st.st_atim.tv_sec, st.st_atim.tv_nsec, st.st_mtim.tv_sec,
           st.st_mtim.tv_nsec);
    TELL(truncate("pipe", 5000));
    TELL(truncate("d", 5000));
    TELL(access("pipe", X_OK));
    TELL(access("d", R_OK | W_OK | X_OK));
    TELL(statvfs(".", &fs));
    printf("name length %lu, blocks %d\n", fs.f_namemax, fs.f_blocks > 0);
    TELL(chmod("pipe", 06755));
    tell_stat("pipe");
}

static void extended(void) {
    char value[300];
    memset(value, 'v', sizeof value);
    TELL(setxattr("pipe", "user.a", value, 300, XATTR_CREATE));
    TELL(setxattr("pipe", "user.a", value, 300, XATTR_CREATE));
    TELL(setxattr("pipe", "user.b", "x", 1, 0));
    TELL(getxattr("pipe", "user.a", NULL, 0));
    TELL(getxattr("pipe", "user.a", value, 299));
    TELL(getxattr("pipe", "user.a", value, 300));
    TELL(listxattr("pipe", NULL, 0));
    TELL(listxattr("pipe", value, 300));
    TELL(removexattr("pipe", "user.a"));
    TELL(removexattr("pipe", "user.a"));
    TELL(getxattr("pipe", "user.a", value, 300));
    TELL(setxattr("pipe", "user.empty", "", 0, 0));
    TELL(getxattr("pipe", "user.empty", value, 300));
}

/* What a user of no rights makes is that user's, and what they write to loses the bits that run it
 * as its owner. */
static void another_user(void) {
    TELL(mkdir("free", 0777));
    TELL(chmod("free", 02777));
    TELL(chown("free", 0, 77));
    TELL(chmod("free", 02777));
    TELL(close(open("free/suid", O_WRONLY | O_CREAT, 0600)));
    TELL(chown("free/suid", 1000, 1000));
    TELL(chmod("free/suid", 06777));
    fflush(stdout);
    pid_t child = fork();
    if (child == 0) {
        if (setgid(1000) || setuid(1000)) _exit(1);
        TELL(close(open("free/a", O_WRONLY | O_CREAT, 0666)));
        TELL(mkdir("free/b", 0777));
        TELL(symlink("target", "free/c"));
        TELL(mknod("free/d", S_IFIFO | 0644, 0));
        TELL(open("d/new", O_WRONLY | O_CREAT, 0666));
        TELL(chown("free/a", 0, 0));
        TELL(unlink("pipe"));
        int fd = open("free/suid", O_WRONLY);
        TELL(write(fd, "x", 1));
        close(fd);
        TELL(mknod("free/disk", S_IFBLK | 0600, makedev(8, 0)));
        fflush(stdout);
        _exit(0);
    }
    waitpid(child, NULL, 0);
    static const char *const made[] = {"free/a", "free/b", "free/c", "free/d", "free/suid"};
    for (size_t k = 0; k < sizeof made / sizeof made[0]; k++) tell_stat(made[k]);
    TELL(chmod("free/suid", 06777));
    TELL(truncate("free/suid", 0));
    tell_stat("free/suid");
}

static int by_name(const void *a, const void *b) {
    return strcmp(*(char *const *)a, *(char *const *)b);
}

/* The names of a directory, in their order, as one number. */
static void tell_names(const char *path) {
    char *all[1000];
    size_t count = 0;
    uint64_t mixed = 14695981039346656037u;
    DIR *dir = opendir(path);
    for (struct dirent *d; dir && count < 1000 && (d = readdir(dir));)
        all[count++] = strdup(d->d_name);
    if (dir) closedir(dir);
    qsort(all, count, sizeof all[0], by_name);
    for (size_t k = 0; k < count; k++) {
        for (const char *p = all[k]; *p; p++) mixed = (mixed ^ (uint8_t)*p) * 1099511628211u;
        free(all[k]);
    }
    printf("%s: %zu names, %016llx\n", path, count, (unsigned long long)mixed);
}

static void lists(void) {
    char name[40];
    int made = 0;
    TELL(mkdir("many", 0700));
    for (int k = 0; k < 500; k++) {
        snprintf(name, sizeof name, "many/%d-%.*s", k * k, k % 20, "abcdefghijklmnopqrst");
        made += close(open(name, O_WRONLY | O_CREAT, 0600)) == 0;
    }
    TELL(made);
    tell_names("many");
    for (int k = 0; k < 500; k += 2) {
        snprintf(name, sizeof name, "many/%d-%.*s", k * k, k % 20, "abcdefghijklmnopqrst");
        made -= unlink(name) == 0;
    }
    TELL(made);
    tell_names("many");
    tell_names(".");
}

int make_calls(const char *dir) {
    umask(022);
    if (mkdir(dir, 0755) || chdir(dir)) {
        perror(dir);
        return 1;
    }
    files();
    names();
    attributes();
    extended();
    another_user();
    lists();
    return 0;
}
