/* Runs the program on one file again and again, each time with one byte of it changed. Loaded before the
   C library; CHANGED names the file. For each change that standard input gives, a place of four bytes and
   a value of one, the program is forked before it has begun, so that none has to be loaded anew. Standard
   output has for each run its status, the lengths of what it printed on its own standard output and on
   standard error, four bytes each, and then both. Numbers are the processor's. */
#define _GNU_SOURCE
#include <errno.h>
#include <fcntl.h>
#include <stdint.h>
#include <stdio.h>
#include <stdlib.h>
#include <sys/mman.h>
#include <sys/wait.h>
#include <unistd.h>

enum { MOST_PRINTED = 1 << 16 };

static void stop(const char *why)
{
    perror(why);
    _exit(111);
}

/* Reads so many bytes; false where there are none. */
static int reads(int from, void *bytes, size_t length)
{
    for (size_t done = 0; done < length;) {
        ssize_t more = read(from, (char *)bytes + done, length - done);
        if (more < 0)
            stop("read");
        if (more == 0 && done == 0)
            return 0;
        if (more == 0) {
            errno = EPIPE;
            stop("a change");
        }
        done += more;
    }
    return 1;
}

static void writes(const void *bytes, size_t length)
{
    for (size_t done = 0; done < length;) {
        ssize_t more = write(1, (const char *)bytes + done, length - done);
        if (more < 0)
            stop("write");
        done += more;
    }
}

/* Takes what was printed into a file in memory. */
static uint32_t printed(int from, char *bytes)
{
    ssize_t length = pread(from, bytes, MOST_PRINTED, 0);
    if (length < 0 || ftruncate(from, 0) || lseek(from, 0, SEEK_SET))
        stop("what was printed");
    return length;
}

static void becomes(int wanted, int own)
{
    if (dup2(own, wanted) < 0)
        stop("dup2");
}

/* In a run it returns, and the program begins. */
__attribute__((constructor)) static void begin(void)
{
    static char text[MOST_PRINTED], complaint[MOST_PRINTED];
    struct { uint32_t place; uint8_t value; } __attribute__((packed)) change;
    const char *name = getenv("CHANGED");
    if (!name)
        return;
    int file = open(name, O_RDWR | O_CLOEXEC);
    int out = memfd_create("out", MFD_CLOEXEC), err = memfd_create("err", MFD_CLOEXEC);
    if (file < 0 || out < 0 || err < 0)
        stop(name);
    while (reads(0, &change, sizeof change)) {
        uint8_t kept;
        if (pread(file, &kept, 1, change.place) != 1 || pwrite(file, &change.value, 1, change.place) != 1)
            stop("change");
        pid_t run = fork();
        if (run < 0)
            stop("fork");
        if (run == 0) {
            close(0);
            becomes(1, out);
            becomes(2, err);
            return;
        }
        int status;
        if (waitpid(run, &status, 0) != run || pwrite(file, &kept, 1, change.place) != 1)
            stop("wait");
        uint32_t told[3] = {WIFEXITED(status) ? WEXITSTATUS(status) : 256 + WTERMSIG(status),
                            printed(out, text), printed(err, complaint)};
        writes(told, sizeof told);
        writes(text, told[1]);
        writes(complaint, told[2]);
    }
    _exit(0);
}
