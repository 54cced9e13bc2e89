/* STATE, the file in which examples/host.c keeps its mark: how it is read, checked and put in place, for the programs
   that work on it. Each defines PROGRAM, its name in messages, and includes this file before any other.

   STATE has a head of 42 bytes (write_head) and then the mark. A first STATE is a head alone, of 0 bytes of OUT and
   stop 0. A program that changes STATE has OUT locked (lock_out), and puts a whole new STATE in place (write_state). */
#define _POSIX_C_SOURCE 200809L
#define _FILE_OFFSET_BITS 64
#include "ringlist.h"

#include <errno.h>
#include <fcntl.h>
#include <inttypes.h>
#include <libgen.h>
#include <limits.h>
#include <stdio.h>
#include <stdlib.h>
#include <string.h>
#include <sys/stat.h>
#include <unistd.h>

#define MARK 9815    /* no mark is longer */
#define HEAD 42      /* the first line of STATE, see write_head */
#define WRONG "not what the host wrote for this sheet"

static uint8_t sheet[65530]; /* a longer file reads as 65,530 bytes, no multiple of 9: refusal 1 */
static size_t sheet_len;
static uint64_t sheet_sum;

struct state {
    char whole[HEAD + MARK + 2]; /* the file as it was read, and zeros behind it; a longer file is cut */
    ssize_t len;                 /* its bytes; -1: there is no such file */
    uint64_t bytes;              /* bytes of OUT */
    uint32_t stop;
    const uint8_t *mark;
    size_t mark_len;
};

static void fail(const char *name, const char *reason) {
    fprintf(stderr, PROGRAM ": %s: %s\n", name, reason);
    exit(1);
}

static void refuse(uint32_t rule) {
    fprintf(stderr, PROGRAM ": refused %" PRIu32 "\n", rule);
    exit(1);
}

/* Reads at most `room` bytes of a file; returns their number, or -1 where there is no such file. */
static ssize_t read_file(const char *name, void *bytes, size_t room) {
    size_t len = 0;
    ssize_t got = 1;
    int file = open(name, O_RDONLY);
    if (file < 0 && errno == ENOENT) return -1;
    if (file < 0) fail(name, strerror(errno));
    while (len < room && got != 0) {
        got = read(file, (char *)bytes + len, room - len);
        if (got < 0 && errno != EINTR) fail(name, strerror(errno));
        if (got > 0) len += (size_t)got;
    }
    close(file);
    return (ssize_t)len;
}

static void sync_file(int file, const char *name) {
    while (fsync(file) != 0)
        if (errno != EINTR) fail(name, strerror(errno));
}

/* Writes all bytes, and waits until they are on the disk. */
static void write_durably(int file, const char *name, const void *bytes, size_t len) {
    for (size_t done = 0; done < len;) {
        ssize_t put = write(file, (const char *)bytes + done, len - done);
        if (put < 0 && errno != EINTR) fail(name, strerror(errno));
        if (put > 0) done += (size_t)put;
    }
    sync_file(file, name);
}

/* Waits until the folder of a file has the file under its name. */
static void sync_folder(const char *name) {
    char folder[PATH_MAX];
    if (snprintf(folder, sizeof folder, "%s", name) >= PATH_MAX) fail(name, strerror(ENAMETOOLONG));
    int file = open(dirname(folder), O_RDONLY);
    if (file < 0) fail(name, strerror(errno));
    sync_file(file, name);
    close(file);
}

/* FNV-1a, 64 bits. */
static uint64_t checksum(const uint8_t *bytes, size_t len) {
    uint64_t sum = UINT64_C(14695981039346656037);
    for (size_t i = 0; i < len; i++) sum = (sum ^ bytes[i]) * UINT64_C(1099511628211);
    return sum;
}

static void read_sheet(const char *name) {
    ssize_t len = read_file(name, sheet, sizeof sheet);
    if (len < 0) fail(name, strerror(ENOENT));
    sheet_len = (size_t)len;
    sheet_sum = checksum(sheet, sheet_len);
}

/* The head of STATE: bytes of OUT in 20 columns, the last stop in 4 (0: no slice yet), the sheet's checksum in 17. */
static void write_head(char head[64], uint64_t bytes, uint32_t stop) {
    snprintf(head, 64, "%20" PRIu64 "%4" PRIu32 " %016" PRIx64 "\n", bytes, stop, sheet_sum);
}

/* Puts a new STATE in place of the old one: a temporary file, fsync, rename, fsync of the folder. */
static void write_state(const char *name, const char *head, const uint8_t *mark, size_t mark_len) {
    char new_name[PATH_MAX], whole[HEAD + MARK];
    memcpy(whole, head, HEAD);
    memcpy(whole + HEAD, mark, mark_len);
    if (snprintf(new_name, sizeof new_name, "%s.new", name) >= PATH_MAX) fail(name, strerror(ENAMETOOLONG));
    int file = open(new_name, O_WRONLY | O_CREAT | O_TRUNC, 0666);
    if (file < 0) fail(new_name, strerror(errno));
    write_durably(file, new_name, whole, HEAD + mark_len);
    close(file);
    if (rename(new_name, name) != 0) fail(name, strerror(errno));
    sync_folder(name);
}

/* What STATE says, where there is one. Its head must be, byte for byte, the one that the host writes for this sheet. */
static void read_state(const char *name, struct state *state) {
    char head[64], *rest;
    memset(state, 0, sizeof *state);
    state->mark = (const uint8_t *)state->whole + HEAD;
    state->len = read_file(name, state->whole, sizeof state->whole - 1);
    if (state->len < 0) return;
    state->bytes = strtoull(state->whole, &rest, 10);
    state->stop = (uint32_t)strtoul(rest, NULL, 10);
    write_head(head, state->bytes, state->stop);
    if (state->len < HEAD || state->len > HEAD + MARK || memcmp(state->whole, head, HEAD) != 0) fail(name, WRONG);
    state->mark_len = (size_t)state->len - HEAD;
    if (state->stop == 0 ? state->mark_len > 0 || state->bytes > 0
                         : state->mark_len == 0 || state->stop < 101 || state->stop > 104) fail(name, WRONG);
}

/* The stop in the head must be that of the mark: `answer` is what ringlist_resume with no budget says of the mark. */
static void check_stop(const char *name, const struct state *state, uint32_t answer) {
    if ((state->stop == 101 || state->stop == 102) && answer != state->stop) fail(name, WRONG);
}

/* Opens OUT and locks it until this process ends (or closes OUT, by whichever descriptor). STATE must still be as read,
   and OUT have the bytes that it counts. `flags` is O_CREAT where OUT may be made, or 0. */
static int lock_out(const char *out, int flags, const char *name, const struct state *state) {
    char again[sizeof state->whole] = {0};
    struct flock lock = {.l_type = F_WRLCK, .l_whence = SEEK_SET};
    struct stat about;
    int file = open(out, O_WRONLY | O_APPEND | flags, 0666);
    if (file < 0) fail(out, strerror(errno));
    if (fcntl(file, F_SETLK, &lock) != 0)
        fail(out, errno == EACCES || errno == EAGAIN ? "another program is at work on it" : strerror(errno));
    if (read_file(name, again, sizeof again - 1) != state->len || memcmp(again, state->whole, sizeof again) != 0)
        fail(name, "another program has just changed it");
    if (fstat(file, &about) != 0) fail(out, strerror(errno));
    if (state->len < 0 && about.st_size > 0) fail(out, "OUT is not empty and there is no STATE");
    if ((uint64_t)about.st_size < state->bytes) fail(out, "OUT is shorter than STATE says");
    return file;
}
