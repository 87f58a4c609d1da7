// For LD_PRELOAD: read and write as a program may meet them on standard input and standard output. The words in the environment variable
// SHIM say how:
//   short          a call moves one byte
//   interrupted=N  before each call that goes through, N calls move nothing and answer -1 with EINTR
//   fail-read=K    the K-th read answers -1 with EIO
//   fail-write=K   the K-th write answers -1 with ENOSPC
//   empty-write=K  the K-th write answers 0
// An interrupted call isn't counted for K, and a call with no bytes to move is left alone. After a call that didn't fail errno is EINTR,
// which means nothing there. On exit the file that SHIM_LOG names gets two numbers: the calls that went through, and the interrupted ones.
#define _GNU_SOURCE
#include <errno.h>
#include <stdio.h>
#include <stdlib.h>
#include <string.h>
#include <sys/syscall.h>
#include <unistd.h>

static int is_short;
static unsigned long in_a_row, failing_read, failing_write, empty_write; // what SHIM says
static unsigned long calls, interrupted, reads, writes;                  // so far

__attribute__((constructor)) static void take_words(void) {
    const char *said = getenv("SHIM");
    char *words = strdup(said ? said : "");
    if (!words)
        abort();
    for (char *word = strtok(words, " "); word; word = strtok(NULL, " ")) {
        if (!strcmp(word, "short"))
            is_short = 1;
        else if (sscanf(word, "interrupted=%lu", &in_a_row) != 1 && sscanf(word, "fail-read=%lu", &failing_read) != 1 &&
                 sscanf(word, "fail-write=%lu", &failing_write) != 1 && sscanf(word, "empty-write=%lu", &empty_write) != 1)
            abort();
    }
    free(words);
}

__attribute__((destructor)) static void leave_numbers(void) {
    const char *name = getenv("SHIM_LOG");
    FILE *log = name ? fopen(name, "w") : NULL;
    if (!log)
        return;
    fprintf(log, "%lu %lu\n", calls - interrupted, interrupted);
    fclose(log);
}

static int is_interrupted(void) {
    if (calls++ % (in_a_row + 1) == in_a_row)
        return 0;
    interrupted++;
    return 1;
}

static ssize_t failed(int error) {
    errno = error;
    return -1;
}

static ssize_t answered(ssize_t answer) {
    if (answer >= 0)
        errno = EINTR;
    return answer;
}

ssize_t read(int fd, void *buffer, size_t count) {
    if (fd != STDIN_FILENO || count == 0)
        return syscall(SYS_read, fd, buffer, count);
    if (is_interrupted())
        return failed(EINTR);
    if (++reads == failing_read)
        return failed(EIO);
    return answered(syscall(SYS_read, fd, buffer, is_short ? 1 : count));
}

ssize_t write(int fd, const void *buffer, size_t count) {
    if (fd != STDOUT_FILENO || count == 0)
        return syscall(SYS_write, fd, buffer, count);
    if (is_interrupted())
        return failed(EINTR);
    if (++writes == failing_write)
        return failed(ENOSPC);
    if (writes == empty_write)
        return answered(0);
    return answered(syscall(SYS_write, fd, buffer, is_short ? 1 : count));
}
