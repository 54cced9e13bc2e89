/* The program that is included behind this file ends itself at one of its steps as kill -9 would: the variable STEP has
   the number of the step, from 1 up. With the variable STOP it stops itself there instead, and SIGCONT lets it go on. A
   step is the moment before a call that opens, writes, syncs, cuts or renames a file, and the midst of a write, when
   half of its bytes are written. */
#define _POSIX_C_SOURCE 200809L
#define _FILE_OFFSET_BITS 64
#include <fcntl.h>
#include <signal.h>
#include <stdio.h>
#include <stdlib.h>
#include <unistd.h>

static int is_last_step(void) {
    static long steps;
    const char *last = getenv("STEP");
    return last != NULL && ++steps == atol(last);
}

static void end_or_stop(void) {
    raise(getenv("STOP") != NULL ? SIGSTOP : SIGKILL);
}

static void step(void) {
    if (is_last_step()) end_or_stop();
}

/* A write of half of the bytes is an answer that the program must be ready for. */
static ssize_t write_in_steps(int file, const void *bytes, size_t len) {
    step();
    if (!is_last_step()) return write(file, bytes, len);
    ssize_t put = write(file, bytes, len / 2);
    if (put < 0) abort();
    end_or_stop();
    return put;
}

#define open(...) (step(), open(__VA_ARGS__))
#define write(file, bytes, len) write_in_steps(file, bytes, len)
#define fsync(file) (step(), fsync(file))
#define ftruncate(file, len) (step(), ftruncate(file, len))
#define rename(from, to) (step(), rename(from, to))
