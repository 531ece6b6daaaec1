/* Files, whole: read into memory of our own, never mapped, since the proved calls rely on bytes that stay as they were checked; written beside the name and then
 * renamed, so that a name holds the old bytes or the new ones and nothing between. */
#define _GNU_SOURCE
#include "tool.h"
#include <errno.h>
#include <fcntl.h>
#include <signal.h>
#include <stdarg.h>
#include <stdlib.h>
#include <string.h>
#include <sys/stat.h>
#include <unistd.h>

/* the file that is being written, to be removed where the command cannot go on */
static char *volatile unfinished;

static void interrupted(int by) {
    if (unfinished) unlink(unfinished);
    signal(by, SIG_DFL);
    raise(by);
}

/* from here on an interrupted command leaves no unfinished file, and a limit on the size of files is a write that fails */
static void expect_signals(void) {
    static const int ends[] = {SIGHUP, SIGINT, SIGTERM};
    for (size_t i = 0; i < sizeof ends / sizeof *ends; i++)
        if (signal(ends[i], interrupted) == SIG_IGN) signal(ends[i], SIG_IGN);
    signal(SIGXFSZ, SIG_IGN);
}

_Noreturn void cannot(const char *format, ...) {
    va_list rest;
    work_ends();
    va_start(rest, format);
    fputs("drobisten: ", stderr);
    vfprintf(stderr, format, rest);
    fputc('\n', stderr);
    va_end(rest);
    if (unfinished) unlink(unfinished);
    exit(CANNOT);
}

/* so many things, all 0; at least one byte, so that no pointer lent is NULL */
void *memory(size_t count, size_t size) {
    void *room = calloc(count ? count : 1, size);
    if (!room) cannot("there is no memory for %zu bytes", count * size);
    return room;
}

/* the bytes of a file, or of standard input where the path is - */
buffer read_file(const char *path) {
    buffer b = {NULL, 0};
    size_t room = 0;
    static bool taken;
    bool standard = strcmp(path, "-") == 0;
    if (standard && taken) cannot("standard input can be one file only: two are -");
    taken |= standard;
    int file = standard ? STDIN_FILENO : open(path, O_RDONLY);
    if (file < 0) cannot("%s cannot be opened: %s", path, strerror(errno));
    for (;;) {
        if (b.size == room) {
            room = room ? 2 * room : 1 << 16;
            b.bytes = realloc(b.bytes, room);
            if (!b.bytes) cannot("there is no memory for %s", path);
        }
        ssize_t got = read(file, b.bytes + b.size, room - b.size);
        if (got < 0 && errno == EINTR) continue;
        if (got < 0) cannot("%s cannot be read: %s", path, strerror(errno));
        if (got == 0) break;
        b.size += (size_t)got;
    }
    if (!standard && close(file) != 0) cannot("%s cannot be read: %s", path, strerror(errno));
    return b;
}

static void write_all(int file, const char *path, const uint8_t *bytes, size_t size) {
    while (size > 0) {
        ssize_t put = write(file, bytes, size);
        if (put < 0 && errno == EINTR) continue;
        if (put < 0) cannot("%s cannot be written: %s", path, strerror(errno));
        bytes += put;
        size -= (size_t)put;
    }
}

/* A file of these bytes under this name, whole or not at all. A link is followed, so that what it names is written and the link stays; what is no plain file (a pipe, a
 * device) is written straight. */
void write_file(const char *path, const void *bytes, size_t size) {
    struct stat old;
    bool stands = stat(path, &old) == 0;
    if (strcmp(path, "-") == 0) cannot("-o takes the name of a file; standard output is /dev/stdout");
    if (stands && S_ISDIR(old.st_mode)) cannot("%s is a folder", path);
    if (stands && !S_ISREG(old.st_mode)) {
        int file = open(path, O_WRONLY);
        if (file < 0) cannot("%s cannot be opened: %s", path, strerror(errno));
        write_all(file, path, bytes, size);
        if (close(file) != 0) cannot("%s cannot be written: %s", path, strerror(errno));
        return;
    }
    char *name = stands ? realpath(path, NULL) : strdup(path);
    if (!name) cannot("%s cannot be made: %s", path, strerror(errno));
    mode_t mask = umask(0);
    umask(mask);
    size_t length = strlen(name);
    char *beside = memory(length + 8, 1);
    memcpy(beside, name, length);
    memcpy(beside + length, ".XXXXXX", 8);
    expect_signals();
    int file = mkstemp(beside);
    if (file < 0) cannot("%s cannot be made: %s", path, strerror(errno));
    unfinished = beside;
    if (fchmod(file, stands ? old.st_mode & 0777 : 0666 & ~mask) != 0) cannot("%s cannot be made: %s", path, strerror(errno));
    write_all(file, path, bytes, size);
    if (fsync(file) != 0 || close(file) != 0) cannot("%s cannot be written: %s", path, strerror(errno));
    if (rename(beside, name) != 0) cannot("%s cannot be written: %s", path, strerror(errno));
    unfinished = NULL;
    free(beside);
    free(name);
}
