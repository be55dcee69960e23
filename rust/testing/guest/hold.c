/* Runs in the guest: hold N PREFIX makes files PREFIX0, PREFIX1, .. and holds them open until it is
 * killed. It tells how many it has, and why there is no next one. */
#include <errno.h>
#include <fcntl.h>
#include <stdio.h>
#include <stdlib.h>
#include <string.h>
#include <unistd.h>

int main(int argc, char **argv) {
    char name[300];
    long count = argc == 3 ? atol(argv[1]) : 0, held = 0;
    for (; held < count; held++) {
        snprintf(name, sizeof name, "%s%ld", argv[2], held);
        if (open(name, O_RDWR | O_CREAT, 0644) < 0) break;
    }
    printf("TAKEN %ld, then %s\n", held, held < count ? strerror(errno) : "no more were wanted");
    fflush(stdout);
    pause();
    return 0;
}
