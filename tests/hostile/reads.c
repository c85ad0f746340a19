/* Gives the program $OCTETS octets, `1` each, one at each call of read on its input, and then the end. With
   $COUNT_FILE set, writes how often the input was read. */
#define _GNU_SOURCE
#include <fcntl.h>
#include <stdio.h>
#include <stdlib.h>
#include <sys/syscall.h>
#include <unistd.h>

static long calls, octets = -1;

ssize_t read(int file, void *to, size_t room) {
    if (file != 0) return syscall(SYS_read, file, to, room);
    if (octets < 0) {
        const char *text = getenv("OCTETS");
        octets = text ? atol(text) : 0;
    }
    if (calls++ >= octets || room == 0) return 0;
    *(char *)to = '1';
    return 1;
}

__attribute__((destructor)) static void tell(void) {
    const char *path = getenv("COUNT_FILE");
    char text[32];
    int n = snprintf(text, sizeof text, "%ld\n", calls);
    int file = path ? open(path, O_WRONLY | O_CREAT | O_TRUNC, 0600) : -1;
    if (file >= 0) {
        if (write(file, text, n)) {
        }
        close(file);
    }
}
