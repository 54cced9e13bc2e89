/* Hand-worked cases for the host entry, include/ringlist.h. */
#define _POSIX_C_SOURCE 200809L
#include "ringlist.h"

#include <inttypes.h>
#include <pthread.h>
#include <stdio.h>
#include <stdlib.h>
#include <string.h>

#define PATTERN 0xA5
#define MARGIN 64
#define MARK 9815
#define STACK (256 * 1024)

static unsigned checks;
static unsigned failures;

static void check(int holds, int line, const char *what) {
    checks++;
    if (!holds) {
        failures++;
        printf("host_test.c:%d: failed: %s\n", line, what);
    }
}

static void check_number(uint64_t got, uint64_t expected, int line, const char *what) {
    check(got == expected, line, what);
    if (got != expected) {
        printf("    got %" PRIu64 ", expected %" PRIu64 "\n", got, expected);
    }
}

#define CHECK(holds) check((holds), __LINE__, #holds)
#define EQUAL(got, expected) check_number((got), (expected), __LINE__, #got)

static int all_are(const uint8_t *bytes, size_t len, uint8_t value) {
    for (size_t i = 0; i < len; i++) {
        if (bytes[i] != value) {
            return 0;
        }
    }
    return 1;
}

static uint8_t *some(size_t len) {
    uint8_t *bytes = malloc(len + 1);
    if (bytes == NULL) {
        abort();
    }
    return bytes;
}

/* Inputs are handed over in memory of exactly their length, so that valgrind
   sees a read past the end. */
static uint8_t *exact(const void *bytes, size_t len) {
    uint8_t *copy = malloc(len);
    if (copy == NULL && len != 0) {
        abort();
    }
    if (len != 0) {
        memcpy(copy, bytes, len);
    }
    return copy;
}

/* A call and what it wrote: both outputs with margins around them. */
typedef struct {
    uint32_t answer;
    uint8_t *rings, *next;
    size_t rings_len, next_len;
} called;

static called call(const void *sheet, size_t sheet_len, const void *mark, size_t mark_len,
                   uint64_t budget, size_t rings_len, size_t next_len) {
    called made = {0, some(rings_len + 2 * MARGIN), some(next_len + 2 * MARGIN), rings_len,
                   next_len};
    uint8_t *given_sheet = exact(sheet, sheet_len), *given_mark = exact(mark, mark_len);
    memset(made.rings, PATTERN, rings_len + 2 * MARGIN);
    memset(made.next, PATTERN, next_len + 2 * MARGIN);
    made.answer = ringlist_resume(given_sheet, sheet_len, given_mark, mark_len, budget,
                                  made.rings + MARGIN, rings_len, made.next + MARGIN, next_len);
    check(sheet_len == 0 || memcmp(given_sheet, sheet, sheet_len) == 0, __LINE__, "sheet kept");
    check(mark_len == 0 || memcmp(given_mark, mark, mark_len) == 0, __LINE__, "mark kept");
    free(given_sheet);
    free(given_mark);
    return made;
}

/* The buffer begins with `expected`, and nothing else was written. */
static int begins(const uint8_t *buffer, size_t len, const void *expected, size_t expected_len) {
    return expected_len <= len && all_are(buffer, MARGIN, PATTERN) &&
           (expected_len == 0 || memcmp(buffer + MARGIN, expected, expected_len) == 0) &&
           all_are(buffer + MARGIN + expected_len, len - expected_len + MARGIN, PATTERN);
}

/* Checks a call and all that it wrote. */
static void wrote(called made, uint32_t answer, const void *rings, size_t rings_len,
                  const void *mark, size_t mark_len, int line) {
    check_number(made.answer, answer, line, "answer");
    check(begins(made.rings, made.rings_len, rings, rings_len), line, "rings");
    check(begins(made.next, made.next_len, mark, mark_len), line, "next mark");
    free(made.rings);
    free(made.next);
}

/* The sheet of the document: 4 atoms, 5 bonds. */
static const char document[] =
    "   4   5\n"
    "   1   2\n"
    "   2   3\n"
    "   3   4\n"
    "   1   4\n"
    "   1   3\n";

#define SHEET document, sizeof document - 1

/* The document's mark of 144 bytes: kind 0, s and t 0, 4 atoms, 5 bonds, 2 atoms
   in p, next atom 3; 5 trials, 2 extensions, 0 listed; p = 1 2; and the five
   bonds, lower atom first, in dictionary order. */
#define LINE_1 "   0   0   0   4   5   2   3\n"
#define LINE_2 "                   5                   2                   0\n"
#define LINE_3 "   1   2\n"
#define BONDS "   1   2\n   1   3\n   1   4\n   2   3\n   3   4\n"
static const char full_mark[] = LINE_1 LINE_2 LINE_3 BONDS;

/* The search on that sheet, trial by trial. The rings are 1 2 3 and 1 3 4.
     1: -    1  open     p = 1
     2: 1    1  no
     3: 1    2  open     p = 1 2
     4: 1 2  1  no
     5: 1 2  2  no
     6: 1 2  3  listed
     7: 1 2  4  no       2 is dropped, the next atom is 3
     8: 1    3  open     p = 1 3
     9: 1 3  1  no
    10: 1 3  2  no       2 is below the second atom
    11: 1 3  3  no
    12: 1 3  4  listed   3 is dropped, the next atom is 4
    13: 1    4  no       1 is dropped, the next atom is 2
    14: -    2  no       15: -  3  no      16: -  4  no, done
   The state after each number of trials: p, next atom, extensions, listed. */
static const struct {
    const char *p;
    int length, next, extensions, listed;
} after[17] = {
    {"", 0, 1, 0, 0},         {"   1", 1, 1, 1, 0},     {"   1", 1, 2, 1, 0},
    {"   1   2", 2, 1, 2, 0}, {"   1   2", 2, 2, 2, 0}, {"   1   2", 2, 3, 2, 0},
    {"   1   2", 2, 4, 2, 1}, {"   1", 1, 3, 2, 1},     {"   1   3", 2, 1, 3, 1},
    {"   1   3", 2, 2, 3, 1}, {"   1   3", 2, 3, 3, 1}, {"   1   3", 2, 4, 3, 1},
    {"   1", 1, 4, 3, 2},     {"", 0, 2, 3, 2},         {"", 0, 3, 3, 2},
    {"", 0, 4, 3, 2},         {"", 0, 5, 3, 2},
};
static const char records[] = "\3\1\2\3\3\1\3\4";

/* The mark after a number of trials; returns its bytes. */
static size_t mark_after(int trials, char mark[160]) {
    return (size_t)sprintf(mark, "   0   0   0   4   5%4d%4d\n%20d%20d%20d\n%s\n" BONDS,
                           after[trials].length, after[trials].next, trials,
                           after[trials].extensions, after[trials].listed, after[trials].p);
}

static void document_by_budget(void) {
    char mark[160], start[160];
    /* From any number of trials to any later one. */
    for (int from = 0; from <= 16; from++) {
        size_t start_len = mark_after(from, start);
        EQUAL(ringlist_mark_length((const uint8_t *)start, start_len), start_len);
        EQUAL(ringlist_listed((const uint8_t *)start, start_len), (uint64_t)after[from].listed);
        for (int to = from; to <= 17; to++) {
            int last = to < 16 ? to : 16;
            size_t mark_len = mark_after(last, mark);
            const char *listed = records + 4 * after[from].listed;
            size_t used = 4 * (size_t)(after[last].listed - after[from].listed);
            uint32_t answer = to < 16 ? 103 : 101;
            uint64_t budget = (uint64_t)(to - from);
            wrote(call(SHEET, start, start_len, budget, 8, MARK), answer, listed, used, mark,
                  mark_len, __LINE__);
            if (from == 0) {
                wrote(call(SHEET, NULL, 0, budget, 8, MARK), answer, listed, used, mark, mark_len,
                      __LINE__);
            }
        }
    }
    /* Done stays done, whatever the budget and the output. */
    size_t mark_len = mark_after(16, mark);
    wrote(call(SHEET, mark, mark_len, 0, 0, MARK), 101, "", 0, mark, mark_len, __LINE__);
    wrote(call(SHEET, mark, mark_len, UINT64_MAX, 99, MARK + 1), 101, "", 0, mark, mark_len, __LINE__);
}

static void document_by_output(void) {
    char mark[160];
    const size_t full_len = sizeof full_mark - 1;
    /* Three bytes: budget 5 ends spent, budget 6 ends full after 5 trials, with
       p = 1 2, next atom 3 and a mark of 144 bytes. */
    EQUAL(full_len, 144);
    EQUAL(mark_after(5, mark), 144);
    CHECK(memcmp(mark, full_mark, 144) == 0);
    CHECK(memcmp(full_mark,
                 "   0   0   0   4   5   2   3\n"
                 "                   5                   2                   0\n"
                 "   1   2\n"
                 "   1   2\n"
                 "   1   3\n"
                 "   1   4\n"
                 "   2   3\n"
                 "   3   4\n",
                 144) == 0);
    wrote(call(SHEET, NULL, 0, 5, 3, MARK), 103, "", 0, full_mark, full_len, __LINE__);
    wrote(call(SHEET, NULL, 0, 6, 3, MARK), 104, "", 0, full_mark, full_len, __LINE__);
    wrote(call(SHEET, NULL, 0, UINT64_MAX, 0, MARK), 104, "", 0, full_mark, full_len, __LINE__);
    /* Again from there: still full, then listed. The ring is not skipped. */
    wrote(call(SHEET, full_mark, full_len, 9, 3, MARK), 104, "", 0, full_mark, full_len, __LINE__);
    size_t mark_len = mark_after(6, mark);
    wrote(call(SHEET, full_mark, full_len, 1, 4, MARK), 103, "\3\1\2\3", 4, mark, mark_len,
          __LINE__);
    /* Seven bytes hold one record: full after 11 trials. */
    mark_len = mark_after(11, mark);
    wrote(call(SHEET, NULL, 0, 16, 7, MARK), 104, "\3\1\2\3", 4, mark, mark_len, __LINE__);
    /* Budget 0 ends spent, and budget 16 with 8 bytes ends done. */
    mark_len = mark_after(0, mark);
    wrote(call(SHEET, NULL, 0, 0, 3, MARK), 103, "", 0, mark, mark_len, __LINE__);
    mark_len = mark_after(16, mark);
    wrote(call(SHEET, NULL, 0, 16, 8, MARK), 101, records, 8, mark, mark_len, __LINE__);
    wrote(call(SHEET, NULL, 0, 16, 30, 2 * MARK), 101, records, 8, mark, mark_len, __LINE__);
}

/* The document's sheet filled by zeros, and by both: the same answers, rings and
   marks, and blanks in the marks. */
static void document_by_filling(void) {
    static const char sheets[2][55] = {
        "00040005\n00010002\n00020003\n00030004\n00010004\n00010003\n",
        "0004   5\n   10002\n0002   3\n   30004\n00010004\n   1   3\n",
    };
    char mark[160], start[160];
    for (int i = 0; i < 2; i++) {
        for (int trials = 0; trials <= 16; trials++) {
            size_t mark_len = mark_after(trials, mark);
            size_t used = 4 * (size_t)after[trials].listed;
            wrote(call(sheets[i], 54, NULL, 0, (uint64_t)trials, 8, MARK), trials < 16 ? 103 : 101,
                  records, used, mark, mark_len, __LINE__);
        }
        /* From a mark that a call on the sheet filled by blanks wrote. */
        size_t start_len = mark_after(5, start), mark_len = mark_after(16, mark);
        wrote(call(sheets[i], 54, start, start_len, 16, 8, MARK), 101, records, 8, mark, mark_len,
              __LINE__);
    }
}

/* A call refused, with neither output written. */
#define REFUSED(sheet, mark, room, rule)                                                          \
    wrote(call(sheet, sizeof(sheet) - 1, mark, sizeof(mark) - 1, 16, 20, room), rule, "", 0, "", 0, \
          __LINE__)

static void refusals(void) {
    /* The sheet, in the order of the rules; each also breaks the next ones. */
    REFUSED("", "", MARK, 1);
    REFUSED("   0   0", "", MARK, 1);
    REFUSED("   4   1\nx  1   2\n ", "", MARK, 1);
    REFUSED(" 1291025\n   x   2\n", "", MARK, 2);
    REFUSED("   4   1\n   1   2\r", "", MARK, 2);
    REFUSED("  04   1\n   1   2\n", "", MARK, 2);
    REFUSED("0 04   1\n   1   2\n", "", MARK, 2);
    REFUSED("00040001\n0001 002\n", "", MARK, 2);
    REFUSED("01291025\n00000000\n", "", MARK, 3);
    REFUSED("00040003\n00010002\n0003   4\n   20001\n", "", MARK, 8);
    REFUSED(" 1291025\n   0   0\n", "", MARK, 3);
    REFUSED(" 1281025\n   0   0\n", "", MARK, 4);
    REFUSED("   4   2\n   0   0\n", "", MARK, 5);
    REFUSED("   4   0\n   1   2\n", "", MARK, 5);
    REFUSED("   4   3\n   1   1\n   1   1\n   1   5\n", "", MARK, 6);
    REFUSED("   4   2\n   1   2\n   0   2\n", "", MARK, 6);
    REFUSED("   4   3\n   1   2\n   2   1\n   3   3\n", "", MARK, 7);
    REFUSED("   4   3\n   1   2\n   3   4\n   2   1\n", "", MARK, 8);

    /* The mark. */
    REFUSED(document, "x", MARK, 14);
    REFUSED(document, LINE_1 LINE_2 "   1   2" BONDS, MARK, 14);
    REFUSED(document, LINE_1 LINE_2 LINE_3 "\n" BONDS, MARK, 14);
    REFUSED(document, LINE_1 LINE_2 "   1  02\n" BONDS, MARK, 14);
    /* Fields filled by zeros, of 4 columns and of 20. */
    REFUSED(document, LINE_1 LINE_2 "   10002\n" BONDS, MARK, 14);
    REFUSED(document, "0000   0   0   4   5   2   3\n" LINE_2 LINE_3 BONDS, MARK, 14);
    REFUSED(document, "   0   0   00004   5   2   3\n" LINE_2 LINE_3 BONDS, MARK, 14);
    REFUSED(document, "   0   0   0   4   50002   3\n" LINE_2 LINE_3 BONDS, MARK, 14);
    REFUSED(document, LINE_1 "00000000000000000005                   2                   0\n" LINE_3 BONDS,
            MARK, 14);
    REFUSED(document, LINE_1 "                   5                   200000000000000000000\n" LINE_3 BONDS,
            MARK, 14);
    REFUSED(document, "   2   0   0   9   5   2   0\n" LINE_2 "   1\n" BONDS, MARK, 14);
    REFUSED(document, "   2   0   0   5   5   2   0\n" LINE_2 LINE_3 BONDS, MARK, 15);
    REFUSED(document, "   0   0   0   4   4   2   3\n" LINE_2 LINE_3 BONDS, MARK, 14);
    /* The mark of 99 bytes of before, which has no bond lines. */
    REFUSED(document, LINE_1 LINE_2 LINE_3, MARK, 14);
    REFUSED(document, LINE_1 LINE_2 LINE_3, 0, 14);
    /* Bond lines: one too few, one too many, zeros, a line end, out of order,
       repeated, the higher atom first, one atom twice, and that with a strange atom. */
    REFUSED(document, LINE_1 LINE_2 LINE_3 "   1   2\n   1   3\n   1   4\n   2   3\n", MARK, 14);
    REFUSED(document, LINE_1 LINE_2 LINE_3 BONDS "   3   5\n", MARK, 14);
    REFUSED(document, LINE_1 LINE_2 LINE_3 "   1   2\n   1   3\n   1   4\n   2   3\n0003   4\n", MARK, 14);
    REFUSED(document, LINE_1 LINE_2 LINE_3 "   1   2\n   1   3\n   1   4\n   2   3\n   30004\n", MARK, 14);
    REFUSED(document, LINE_1 LINE_2 LINE_3 "   1   2\n   1   3\n   1   4\n   2   3\n   3   4\r", MARK, 14);
    REFUSED(document, LINE_1 LINE_2 LINE_3 "   1   3\n   1   2\n   1   4\n   2   3\n   3   4\n", MARK, 14);
    REFUSED(document, LINE_1 LINE_2 LINE_3 "   1   2\n   1   2\n   1   4\n   2   3\n   3   4\n", MARK, 14);
    REFUSED(document, LINE_1 LINE_2 LINE_3 "   1   2\n   1   3\n   1   4\n   3   2\n   3   4\n", MARK, 14);
    REFUSED(document, LINE_1 LINE_2 LINE_3 "   1   2\n   1   3\n   1   4\n   2   3\n   4   4\n", MARK, 14);
    REFUSED(document, LINE_1 LINE_2 LINE_3 "   1   2\n   0   3\n   1   4\n   2   3\n   3   4\n", MARK, 14);
    REFUSED(document, LINE_1 LINE_2 LINE_3 "   1   2\n   1   3\n   1   4\n   2   3\n9999   0\n", MARK, 14);
    /* Other bonds: those of another molecule, fewer, more, and strange atoms. */
    REFUSED(document, LINE_1 LINE_2 LINE_3 "   1   2\n   1   4\n   2   3\n   2   4\n   3   4\n", MARK, 15);
    REFUSED(document, "   0   0   0   4   4   2   3\n" LINE_2 LINE_3 "   1   2\n   1   3\n   1   4\n   2   3\n",
            MARK, 15);
    REFUSED(document, "   0   0   0   4   0   2   3\n" LINE_2 LINE_3, MARK, 15);
    REFUSED(document, "   0   0   0   4   6   2   3\n" LINE_2 LINE_3 BONDS "   3   5\n", MARK, 15);
    REFUSED(document, LINE_1 LINE_2 LINE_3 "   0   2\n   1   3\n   1   4\n   2   3\n   3   4\n", MARK, 15);
    REFUSED(document, LINE_1 LINE_2 LINE_3 "   1   2\n   1   3\n   1   4\n   2   3\n99989999\n", 0, 15);
    REFUSED(document, "   3   0   0   4   5   2   0\n" LINE_2 LINE_3 BONDS, MARK, 16);
    REFUSED(document, "   2   0   0   4   5   2   0\n" LINE_2 LINE_3 BONDS, MARK, 16);
    REFUSED(document, "   2   2   0   4   5   2   0\n" LINE_2 LINE_3 BONDS, MARK, 16);
    REFUSED(document, "   2 129   0   4   5   2   3\n" LINE_2 LINE_3 BONDS, MARK, 16);
    REFUSED(document, "   2   3   1   4   5   2   3\n" LINE_2 LINE_3 BONDS, MARK, 16);
    REFUSED(document, "   2   3   0   4   5   2   3\n" LINE_2 "   1   4\n" BONDS, MARK, 17);
    REFUSED(document, "   2   3   0   4   5   2   3\n" LINE_2 LINE_3 BONDS, MARK - 1, 13);
    REFUSED(document, "   3   3   0   4   5   2   3\n" LINE_2 LINE_3 BONDS, MARK, 16);
    REFUSED(document, "   3   1   1   4   5   2   3\n" LINE_2 LINE_3 BONDS, MARK, 16);
    REFUSED(document, "   3   1   5   4   5   2   3\n" LINE_2 LINE_3 BONDS, MARK, 16);
    REFUSED(document, "   4   1   3   4   5   2   3\n" LINE_2 LINE_3 BONDS, MARK, 16);
    REFUSED(document, "   3   1   3   4   5   2   3\n" LINE_2 LINE_3 BONDS, MARK, 17);
    REFUSED(document, "   3   2   4   4   5   2   3\n" LINE_2 "   2   1\n" BONDS, MARK - 1, 13);
    REFUSED(document, "   0   1   0   4   5   2   3\n" LINE_2 LINE_3 BONDS, MARK, 16);
    REFUSED(document, "   1   1   1   4   5   1   1\n" LINE_2 "   1\n" BONDS, MARK, 16);
    REFUSED(document, "   1   1   5   4   5   1   1\n" LINE_2 "   1\n" BONDS, MARK, 16);
    REFUSED(document, "   0   0   0   4   5   2   3\n" LINE_2 "   1   4\n" BONDS, MARK, 17);
    REFUSED(document, "   0   0   0   4   5   2   3\n" LINE_2 "   2   3\n" BONDS, MARK, 17);
    REFUSED(document, "   0   0   0   4   5   2   0\n" LINE_2 LINE_3 BONDS, MARK, 17);
    REFUSED(document, "   0   0   0   4   5   2   5\n" LINE_2 LINE_3 BONDS, MARK, 17);

    /* The room for the next mark, though this one would be of 136 bytes. */
    REFUSED(document, "", 0, 13);
    REFUSED(document, "", MARK - 1, 13);
    REFUSED(document, "", 599, 13);
    REFUSED(document, LINE_1 LINE_2 LINE_3 BONDS, 144, 13);
    REFUSED(document, LINE_1 LINE_2 LINE_3 BONDS, 599, 13);

    /* All of them: the sheet comes first, then the mark, then the room. */
    REFUSED("   4   2\n   1   2\n   2   1\n", "x", 0, 8);
    REFUSED("", "x", 0, 1);
    REFUSED("   4   2\n   1   2\n   2   1\n", LINE_1 LINE_2 LINE_3 BONDS, 0, 8);
    REFUSED("   4   2\n   1   2\n   2   1\n", "", MARK - 1, 8);
    REFUSED(document, "x", 0, 14);
    REFUSED(document, "   0   0   0   4   5   2   5\n" LINE_2 LINE_3 BONDS, MARK - 1, 17);
}

/* A stretch of length 0 is not touched, whatever its pointer. */
static void zero_lengths(void) {
    uint8_t *nowhere[2] = {NULL, (uint8_t *)1};
    static uint8_t next[MARK];
    for (int i = 0; i < 2; i++) {
        uint8_t *any = nowhere[i];
        EQUAL(ringlist_resume(any, 0, any, 0, 5, any, 0, any, 0), 1);
        EQUAL(ringlist_resume((const uint8_t *)SHEET, any, 0, 5, any, 0, any, 0), 13);
        EQUAL(ringlist_resume((const uint8_t *)SHEET, any, 0, 5, any, 0, next, MARK), 103);
        CHECK(memcmp(next, full_mark, 144) == 0);
        EQUAL(ringlist_start(any, 0, 0, 0, 0, any, 0), 1);
        EQUAL(ringlist_start((const uint8_t *)SHEET, 0, 0, 0, any, 0), 13);
        uint64_t number = 7;
        EQUAL(ringlist_count_shortest(any, 0, 1, 2, &number), 1);
        EQUAL(number, 7);
        size_t length = 7;
        EQUAL(ringlist_carry_over(any, 0, any, 0, any, 0, &length), 1);
        EQUAL(ringlist_carry_over((const uint8_t *)SHEET, any, 0, any, 0, &length), 14);
        EQUAL(ringlist_carry_over((const uint8_t *)SHEET, next, 99, any, 0, &length), 13);
        EQUAL(ringlist_carry_back(any, 0, any, 0, any, 0, &length), 1);
        EQUAL(ringlist_carry_back((const uint8_t *)SHEET, any, 0, any, 0, &length), 14);
        EQUAL(ringlist_carry_back((const uint8_t *)SHEET, next, 144, any, 0, &length), 13);
        EQUAL(length, 7);
        EQUAL(ringlist_mark_length(any, 0), 0);
        EQUAL(ringlist_listed(any, 0), 0);
    }
    /* No atoms: done at once, after no trial. */
    EQUAL(ringlist_resume((const uint8_t *)"   0   0\n", 9, NULL, 0, 0, NULL, 0, next, MARK), 101);
    EQUAL(ringlist_mark_length(next, MARK), 91);
    CHECK(memcmp(next, "   0   0   0   0   0   0   1\n", 29) == 0);
}

/* The sheet and the mark may overlap: here the third line of the mark ends with
   the first line of the sheet, and the bond lines of the mark are the sheet's.
   Bonds 1-2, 2-7, 7-6, 6-3, 3-1 make the ring 1 2 7 6 3, and 4-5 is the sixth
   bond; p = 1 2 7 6 and the next atom is 3. */
static void overlap(void) {
    static const char both[] =
        "   0   0   0   7   6   4   3\n"
        "                   0                   0                   0\n"
        "   1   2   7   6\n"
        "   1   2\n   1   3\n   2   7\n   3   6\n   4   5\n   6   7\n";
    const uint8_t *bytes = (const uint8_t *)both;
    uint8_t rings[6];
    static uint8_t next[MARK];
    EQUAL(ringlist_resume(bytes + 98, 63, bytes, 161, 1, rings, 6, next, MARK), 103);
    CHECK(memcmp(rings, "\5\1\2\7\6\3", 6) == 0);
    EQUAL(ringlist_listed(next, MARK), 1);
    /* One stretch as both: no mark is a sheet. */
    EQUAL(ringlist_resume(bytes, 161, bytes, 161, 1, rings, 6, next, MARK), 1);
    bytes = (const uint8_t *)full_mark;
    EQUAL(ringlist_resume(bytes, 144, bytes, 144, 1, rings, 6, next, MARK), 2);
    EQUAL(ringlist_resume((const uint8_t *)SHEET, (const uint8_t *)SHEET, 1, rings, 6, next, MARK),
          14);
}

/* Two molecules of as many atoms and bonds. The ring 1 2 3 4 with the bond 1-3 is
   the document's; with 2-4 in its place the rings are 1 2 4 and 2 3 4. The place
   p = 1 2 with next atom 3 is open in both, after the same five trials.
     6, 7: 1 2 with 3  no, with 4  listed; 2 is dropped     8, 9: 1 with 3, 4  no
    10: -  2  open    11, 12: 2 with 1, 2  no    13: 2  3  open
    14 to 16: 2 3 with 1, 2, 3  no    17: 2 3  4  listed; 3 is dropped
    18: 2  4  no      19, 20: -  3, 4  no, done */
static void isomers(void) {
#define OTHER_BONDS "   1   2\n   1   4\n   2   3\n   2   4\n   3   4\n"
    static const char other[] = "   4   5\n   1   2\n   2   3\n   3   4\n   1   4\n   2   4\n";
    static const char others[] = LINE_1 LINE_2 LINE_3 OTHER_BONDS;
    static const char end[] =
        "   0   0   0   4   5   0   5\n"
        "                  20                   4                   2\n\n" OTHER_BONDS;
    /* Refused by 15, with neither output written, whatever the room. */
    REFUSED(document, others, MARK, 15);
    REFUSED(document, others, 0, 15);
    REFUSED(other, full_mark, MARK, 15);
    REFUSED(other, full_mark, MARK - 1, 15);
    /* On their own sheets. */
    wrote(call(other, sizeof other - 1, others, 144, 15, 8, MARK), 101, "\3\1\2\4\3\2\3\4", 8, end,
          136, __LINE__);
    wrote(call(other, sizeof other - 1, NULL, 0, 20, 8, MARK), 101, "\3\1\2\4\3\2\3\4", 8, end,
          136, __LINE__);
    wrote(call(SHEET, full_mark, 144, 0, 0, MARK), 103, "", 0, full_mark, 144, __LINE__);
}

/* Bond lines of the first `count` pairs of n atoms, in dictionary order; returns
   their bytes. */
static size_t pair_lines(int n, int count, char *lines) {
    size_t len = 0;
    for (int a = 1, b = 2; count > 0; count--) {
        len += (size_t)sprintf(lines + len, "%4d%4d\n", a, b);
        if (++b > n) {
            b = ++a + 1;
        }
    }
    return len;
}

/* Marks that name 0, 1, 1,024 and more bonds and have as many lines: 15 on the
   document's sheet, and 14 with a line more or fewer. On a sheet of 1,024 bonds
   the mark of as many is right, and no other. */
static void many_bonds(void) {
    static const int numbers[7] = {0, 1, 1023, 1024, 1025, 2000, 9999};
    static char mark[91 + 9 * 10000 + 1], sheet[9 * 1025 + 1];
    size_t sheet_len = 9 + pair_lines(128, 1024, sheet + 9);
    char first[10];
    sprintf(first, "%4d%4d\n", 128, 1024);
    memcpy(sheet, first, 9);
    EQUAL(sheet_len, 9225);
    for (int i = 0; i < 7; i++) {
        int m = numbers[i];
        for (int n = 4; n <= 128; n += 124) {
            const char *on = n == 4 ? document : sheet;
            size_t on_len = n == 4 ? sizeof document - 1 : sheet_len;
            sprintf(mark, "   0   0   0%4d%4d   0   1\n%20d%20d%20d\n\n", n, m, 0, 0, 0);
            /* 128 atoms have 8,128 pairs; 200 have more than enough. */
            size_t len = 91 + pair_lines(m <= 1024 ? 128 : 200, m + 1, mark + 91);
            wrote(call(on, on_len, mark, len, 0, 0, MARK), 14, "", 0, "", 0, __LINE__);
            len -= 9;
            EQUAL(ringlist_mark_length((const uint8_t *)mark, sizeof mark), len);
            if (n == 128 && m == 1024) {
                EQUAL(len, 9307);
                wrote(call(on, on_len, mark, len, 0, 0, MARK), 103, "", 0, mark, len, __LINE__);
                wrote(call(on, on_len, NULL, 0, 0, 0, MARK), 103, "", 0, mark, len, __LINE__);
                wrote(call(on, on_len, mark, len, 0, 0, MARK - 1), 13, "", 0, "", 0, __LINE__);
            } else {
                wrote(call(on, on_len, mark, len, 0, 0, MARK), 15, "", 0, "", 0, __LINE__);
            }
            if (m > 0) {
                wrote(call(on, on_len, mark, len - 9, 0, 0, MARK), 14, "", 0, "", 0, __LINE__);
                wrote(call(on, on_len, mark, 91, 0, 0, MARK), 14, "", 0, "", 0, __LINE__);
            }
        }
    }
}

/* A mark of kind 1: the paths from 2 to 4 are 2 1 4 and 2 3 4. */
static void paths(void) {
    static const char start[] =
        "   1   2   4   4   5   0   1\n"
        "                   0                   0                   0\n\n" BONDS;
    static const char end[] =
        "   1   2   4   4   5   0   5\n"
        "                  16                   3                   2\n\n" BONDS;
    wrote(call(SHEET, start, 136, 99, 8, MARK), 101, "\3\2\1\4\3\2\3\4", 8, end, 136, __LINE__);
}

/* A mark of kind 3 on six atoms. The bonds 1-2, 2-3, 3-4 make a path from 1 to 4
   without a chord, 1-5, 5-4 and 1-6, 6-4 two shorter ones: 1 5 4 and 1 6 4 with
   the beginnings 1, 1 5 and 1 6; 6 * (3 + 1) = 24 trials. */
static const char six_atoms[] =
    "   6   7\n   1   2\n   2   3\n   3   4\n   1   5\n   4   5\n   1   6\n   4   6\n";

/* Its bonds as a mark has them. */
#define SIX_BONDS "   1   2\n   1   5\n   1   6\n   2   3\n   3   4\n   4   5\n   4   6\n"

static void shortest(void) {
    static const char start[] =
        "   3   1   4   6   7   0   1\n"
        "                   0                   0                   0\n\n" SIX_BONDS;
    static const char halfway[] =
        "   3   1   4   6   7   2   5\n"
        "                  10                   2                   1\n   1   5\n" SIX_BONDS;
    static const char end[] =
        "   3   1   4   6   7   0   7\n"
        "                  24                   3                   2\n\n" SIX_BONDS;
    const size_t len = sizeof six_atoms - 1;
    wrote(call(six_atoms, len, start, 154, 99, 8, MARK), 101, "\3\1\5\4\3\1\6\4", 8, end, 154,
          __LINE__);
    wrote(call(six_atoms, len, start, 154, 10, 8, MARK), 103, "\3\1\5\4", 4, halfway, 162, __LINE__);
    wrote(call(six_atoms, len, halfway, 162, 14, 4, MARK), 101, "\3\1\6\4", 4, end, 154, __LINE__);
}

/* A start, its answer and all that it wrote, in a mark output of `next_len`
   bytes. */
static void started(const void *sheet, size_t sheet_len, uint64_t kind, uint64_t s, uint64_t t,
                    size_t next_len, uint32_t answer, const char *mark, int line) {
    uint8_t *given = exact(sheet, sheet_len), *next = some(next_len + 2 * MARGIN);
    memset(next, PATTERN, next_len + 2 * MARGIN);
    check_number(ringlist_start(given, sheet_len, kind, s, t, next + MARGIN, next_len), answer,
                 line, "answer of start");
    check(sheet_len == 0 || memcmp(given, sheet, sheet_len) == 0, line, "sheet kept");
    check(begins(next, next_len, mark, strlen(mark)), line, "mark of start");
    free(given);
    free(next);
}

#define NO_COUNTS "                   0                   0                   0\n\n"
#define STARTED(kind, s, t, line_1)                                                  \
    do {                                                                             \
        started(SHEET, kind, s, t, MARK, 0, line_1 "\n" NO_COUNTS BONDS, __LINE__);  \
        started(SHEET, kind, s, t, MARK + 9, 0, line_1 "\n" NO_COUNTS BONDS, __LINE__); \
        started(SHEET, kind, s, t, MARK - 1, 13, "", __LINE__);                      \
        started(SHEET, kind, s, t, 599, 13, "", __LINE__);                           \
        started(SHEET, kind, s, t, 136, 13, "", __LINE__);                           \
        started(SHEET, kind, s, t, 0, 13, "", __LINE__);                             \
        started("   4   2\n   1   2\n   2   1\n", 27, kind, s, t, MARK, 8, "", __LINE__); \
    } while (0)
/* A start refused by a rule of its kind, which comes after the sheet's and before
   the room for the mark. */
#define NOT_STARTED(kind, s, t, rule)                                              \
    do {                                                                           \
        started(SHEET, kind, s, t, MARK, rule, "", __LINE__);                      \
        started(SHEET, kind, s, t, 0, rule, "", __LINE__);                         \
        started("   4   2\n   1   2\n   2   1\n", 27, kind, s, t, 0, 8, "", __LINE__); \
        started("", 0, kind, s, t, MARK, 1, "", __LINE__);                         \
    } while (0)

/* The fresh mark of each kind, byte for byte, and every refusal. */
static void starts(void) {
    const uint64_t high = UINT64_C(1) << 32;
    STARTED(0, 0, 0, "   0   0   0   4   5   0   1");
    STARTED(1, 2, 4, "   1   2   4   4   5   0   1");
    STARTED(1, 4, 1, "   1   4   1   4   5   0   1");
    STARTED(2, 3, 0, "   2   3   0   4   5   0   1");
    STARTED(2, 12, 0, "   2  12   0   4   5   0   1");
    STARTED(2, 128, 0, "   2 128   0   4   5   0   1");
    STARTED(3, 2, 4, "   3   2   4   4   5   0   1");
    STARTED(3, 4, 1, "   3   4   1   4   5   0   1");
    /* Zeros may fill the sheet, and blanks fill the mark. */
    started("00040001\n00020001\n", 18, 2, 6, 0, MARK, 0,
            "   2   6   0   4   1   0   1\n" NO_COUNTS "   1   2\n", __LINE__);
    started("   0   0\n", 9, 2, 6, 0, MARK, 0, "   2   6   0   0   0   0   1\n" NO_COUNTS, __LINE__);
    /* Each rule of the sheet. */
    started("   4   1\n", 8, 0, 0, 0, MARK, 1, "", __LINE__);
    started("  04   0\n", 9, 0, 0, 0, MARK, 2, "", __LINE__);
    started(" 1291025\n", 9, 0, 0, 0, MARK, 3, "", __LINE__);
    started(" 1281025\n", 9, 0, 0, 0, MARK, 4, "", __LINE__);
    started("   4   1\n", 9, 0, 0, 0, MARK, 5, "", __LINE__);
    started("   4   1\n   0   0\n", 18, 0, 0, 0, MARK, 6, "", __LINE__);
    started("   4   1\n   3   3\n", 18, 0, 0, 0, MARK, 7, "", __LINE__);
    /* 16: no such kind, or s or t where the kind has none. */
    NOT_STARTED(4, 0, 0, 16);
    NOT_STARTED(4, 2, 4, 16);
    NOT_STARTED(256, 0, 0, 16);
    NOT_STARTED(259, 2, 4, 16);
    NOT_STARTED(high, 0, 0, 16);
    NOT_STARTED(high + 1, 2, 4, 16);
    NOT_STARTED(high + 2, 3, 0, 16);
    NOT_STARTED(high + 3, 2, 4, 16);
    NOT_STARTED(UINT64_MAX, 0, 0, 16);
    NOT_STARTED(0, 1, 0, 16);
    NOT_STARTED(0, 0, 1, 16);
    NOT_STARTED(0, high, 0, 16);
    NOT_STARTED(0, 0, high, 16);
    NOT_STARTED(2, 3, 1, 16);
    NOT_STARTED(2, 2, 1, 16);
    NOT_STARTED(2, 3, high, 16);
    /* 10 and 11: the ends of paths. */
    NOT_STARTED(1, 0, 0, 10);
    NOT_STARTED(1, 0, 4, 10);
    NOT_STARTED(1, 2, 0, 10);
    NOT_STARTED(1, 5, 5, 10);
    NOT_STARTED(1, 2, 5, 10);
    NOT_STARTED(1, high + 2, 4, 10);
    NOT_STARTED(1, 2, UINT64_MAX, 10);
    NOT_STARTED(1, 3, 3, 11);
    /* The same of shortest paths. */
    NOT_STARTED(3, 0, 0, 10);
    NOT_STARTED(3, 3, 0, 10);
    NOT_STARTED(3, 0, 4, 10);
    NOT_STARTED(3, 5, 5, 10);
    NOT_STARTED(3, 2, 5, 10);
    NOT_STARTED(3, high + 2, 4, 10);
    NOT_STARTED(3, 2, UINT64_MAX, 10);
    NOT_STARTED(3, 3, 3, 11);
    /* 21: the size. */
    NOT_STARTED(2, 0, 0, 21);
    NOT_STARTED(2, 1, 0, 21);
    NOT_STARTED(2, 2, 0, 21);
    NOT_STARTED(2, 129, 0, 21);
    NOT_STARTED(2, 259, 0, 21);
    NOT_STARTED(2, high + 3, 0, 21);
    NOT_STARTED(2, UINT64_MAX, 0, 21);
}

/* A host that starts a search of a kind and lists to its end, a few trials and
   one record a call; the bytes past each output are watched. Returns the bytes of
   the joined records, which are put into `all`, and checks the last counts. */
static size_t list_all(const char *sheet, uint64_t kind, uint64_t s, uint64_t t, uint8_t *all,
                       const char *counts) {
    static uint8_t mark[2][MARK + 1];
    uint8_t rings[10];
    /* A fresh mark has no atoms in its beginning, and all lines of the sheet but one. */
    size_t least = 91 + strlen(sheet) - 9, mark_len = least, used = 0;
    uint32_t stop;
    int now = 0;
    memset(mark, PATTERN, sizeof mark);
    EQUAL(ringlist_start((const uint8_t *)sheet, strlen(sheet), kind, s, t, mark[0], MARK), 0);
    EQUAL(ringlist_mark_length(mark[0], MARK), least);
    EQUAL(ringlist_listed(mark[0], MARK), 0);
    CHECK(all_are(mark[0] + least, MARK + 1 - least, PATTERN));
    do {
        uint8_t *from = mark[now], *to = mark[!now];
        memset(rings, PATTERN, sizeof rings);
        memset(to, PATTERN, MARK + 1);
        stop = ringlist_resume((const uint8_t *)sheet, strlen(sheet), from, mark_len, 7, rings, 9, to,
                               MARK);
        if (stop < 101) {
            EQUAL(stop, 101);
            return 0;
        }
        size_t len = 0;
        for (uint64_t left = ringlist_listed(to, MARK) - ringlist_listed(from, mark_len); left > 0;
             left--) {
            len += 1 + (size_t)rings[len];
        }
        CHECK(len <= 9 && all_are(rings + len, 10 - len, PATTERN));
        memcpy(all + used, rings, len);
        used += len;
        mark_len = ringlist_mark_length(to, MARK);
        CHECK(mark_len >= least && all_are(to + mark_len, MARK + 1 - mark_len, PATTERN));
        now = !now;
    } while (stop > 102);
    EQUAL(stop, 101);
    CHECK(memcmp(mark[now] + 29, counts, 60) == 0);
    return used;
}

/* The bonds 1-2, 2-3, 3-1 and 1-4, 4-6, 6-5, 5-1: the rings 1 2 3 and 1 4 6 5.
   Open beginnings: 1, 1 2, 1 4, 1 4 6; with k = 3 only 1 and 1 2. Six trials for
   each of them and for the empty one. The paths from 2 to 6 are 2 1 4 6 and
   2 1 5 6, with the beginnings 2, 2 1, 2 1 4, 2 1 5. */
static void listings_of_each_kind(void) {
    static const char sheet[] =
        "   6   7\n   1   2\n   2   3\n   1   3\n   1   4\n   4   6\n   5   6\n   1   5\n";
    static const char rings[] = "\3\1\2\3\4\1\4\6\5";
    static const char counts[] = "                  30                   4                   2";
    static const char fewer[] = "                  18                   2                   1";
    static const uint64_t sizes[4] = {4, 5, 6, 128};
    uint8_t all[64];
    EQUAL(list_all(sheet, 0, 0, 0, all, counts), 9);
    CHECK(memcmp(all, rings, 9) == 0);
    EQUAL(list_all(sheet, 1, 2, 6, all, counts), 10);
    CHECK(memcmp(all, "\4\2\1\4\6\4\2\1\5\6", 10) == 0);
    /* Both are shortest paths. */
    EQUAL(list_all(sheet, 3, 2, 6, all, counts), 10);
    CHECK(memcmp(all, "\4\2\1\4\6\4\2\1\5\6", 10) == 0);
    /* Of the paths from 1 to 4 on the other sheet two are. */
    EQUAL(list_all(six_atoms, 1, 1, 4, all,
                   "                  36                   5                   3"), 13);
    CHECK(memcmp(all, "\4\1\2\3\4\3\1\5\4\3\1\6\4", 13) == 0);
    EQUAL(list_all(six_atoms, 3, 1, 4, all,
                   "                  24                   3                   2"), 8);
    CHECK(memcmp(all, "\3\1\5\4\3\1\6\4", 8) == 0);
    EQUAL(list_all(sheet, 2, 3, 0, all, fewer), 4);
    CHECK(memcmp(all, rings, 4) == 0);
    for (int i = 0; i < 4; i++) {
        EQUAL(list_all(sheet, 2, sizes[i], 0, all, counts), 9);
        CHECK(memcmp(all, rings, 9) == 0);
    }
    /* The document's sheet with k = 3: both rings. */
    EQUAL(list_all(document, 2, 3, 0, all,
                   "                  16                   3                   2"), 8);
    CHECK(memcmp(all, records, 8) == 0);
}

/* What a number holds before a call that may write it. */
#define NO_COUNT UINT64_C(0xA5A5A5A5A5A5A5A5)

/* A count of shortest paths, its answer and the number, which is written with the
   answer 0 alone; the numbers beside it are kept. */
static void counted(const void *sheet, size_t sheet_len, uint64_t s, uint64_t t, uint32_t answer,
                    uint64_t number, int line) {
    uint64_t around[3] = {NO_COUNT, NO_COUNT, NO_COUNT};
    uint8_t *given = exact(sheet, sheet_len);
    check_number(ringlist_count_shortest(given, sheet_len, s, t, &around[1]), answer, line,
                 "answer of count");
    check_number(around[1], number, line, "count");
    check(around[0] == NO_COUNT && around[2] == NO_COUNT, line, "numbers beside the count");
    check(sheet_len == 0 || memcmp(given, sheet, sheet_len) == 0, line, "sheet kept");
    free(given);
}

#define COUNTED(s, t, number) counted(SHEET, s, t, 0, number, __LINE__)
/* A count refused by a rule of its ends, which comes after the sheet's. */
#define NOT_COUNTED(s, t, rule)                                                          \
    do {                                                                                 \
        counted(SHEET, s, t, rule, NO_COUNT, __LINE__);                                  \
        counted("   4   2\n   1   2\n   2   1\n", 27, s, t, 8, NO_COUNT, __LINE__);     \
        counted("", 0, s, t, 1, NO_COUNT, __LINE__);                                     \
    } while (0)

/* The sheet of atom 1, then `count` layers of three atoms, each bonded to all of
   the next, then a last atom: 3 to the power of `count` shortest paths. Returns
   its bytes. */
static size_t three_wide(int count, char sheet[9 * 376 + 1]) {
    int n = 3 * count + 2;
    int len = sprintf(sheet, "%4d%4d\n", n, 9 * (count - 1) + 6);
    for (int a = 1; a < n; a++) {
        int layer = (a + 1) / 3;
        for (int b = 3 * layer + 2; b <= 3 * layer + 4 && b <= n; b++) {
            len += sprintf(sheet + len, "%4d%4d\n", a, b);
        }
    }
    return (size_t)len;
}

static void counts_of_shortest(void) {
    static char layers[9 * 376 + 1];
    const uint64_t high = UINT64_C(1) << 32;
    /* 2 1 4 and 2 3 4; 1 3. */
    COUNTED(2, 4, 2);
    COUNTED(4, 2, 2);
    COUNTED(1, 3, 1);
    COUNTED(4, 1, 1);
    counted(six_atoms, sizeof six_atoms - 1, 1, 4, 0, 2, __LINE__);
    /* Not joined. */
    counted("   4   1\n   1   2\n", 18, 1, 4, 0, 0, __LINE__);
    counted("0004   1\n   10002\n", 18, 4, 3, 0, 0, __LINE__);
    NOT_COUNTED(0, 0, 10);
    NOT_COUNTED(0, 4, 10);
    NOT_COUNTED(2, 0, 10);
    NOT_COUNTED(5, 5, 10);
    NOT_COUNTED(2, 5, 10);
    NOT_COUNTED(258, 4, 10);
    NOT_COUNTED(2, high + 4, 10);
    NOT_COUNTED(UINT64_MAX, UINT64_MAX, 10);
    NOT_COUNTED(3, 3, 11);
    /* Each rule of the sheet, before those of the ends. */
    counted("   4   1\n", 8, 0, 0, 1, NO_COUNT, __LINE__);
    counted("  04   0\n", 9, 0, 0, 2, NO_COUNT, __LINE__);
    counted(" 1291025\n", 9, 0, 0, 3, NO_COUNT, __LINE__);
    counted(" 1281025\n", 9, 0, 0, 4, NO_COUNT, __LINE__);
    counted("   4   1\n", 9, 0, 0, 5, NO_COUNT, __LINE__);
    counted("   4   1\n   0   0\n", 18, 1, 1, 6, NO_COUNT, __LINE__);
    counted("   4   1\n   3   3\n", 18, 1, 1, 7, NO_COUNT, __LINE__);
    counted("   0   0\n", 9, 1, 2, 10, NO_COUNT, __LINE__);
    /* 3 to the 39th is answered, 3 to the 40th and the 42nd are above the limit;
       10 and 11 come first. */
    size_t len = three_wide(39, layers);
    EQUAL(len, 9 * 349);
    counted(layers, len, 1, 119, 0, UINT64_C(4052555153018976267), __LINE__);
    counted(layers, len, 119, 1, 0, UINT64_C(4052555153018976267), __LINE__);
    len = three_wide(40, layers);
    counted(layers, len, 1, 122, 26, NO_COUNT, __LINE__);
    len = three_wide(42, layers);
    EQUAL(len, 9 * 376);
    counted(layers, len, 1, 128, 26, NO_COUNT, __LINE__);
    counted(layers, len, 128, 1, 26, NO_COUNT, __LINE__);
    counted(layers, len, 0, 128, 10, NO_COUNT, __LINE__);
    counted(layers, len, 1, 129, 10, NO_COUNT, __LINE__);
    counted(layers, len, 128, 128, 11, NO_COUNT, __LINE__);
    counted(layers, len - 9, 1, 128, 5, NO_COUNT, __LINE__);
    counted(layers, len - 1, 1, 1, 1, NO_COUNT, __LINE__);
}

/* One of the two functions that carry a mark to its other form. */
typedef uint32_t carrier(const uint8_t *, size_t, const uint8_t *, size_t, uint8_t *, size_t,
                         size_t *);

/* A mark carried into an output of `room` bytes: its answer, all that it wrote,
   and the length, which only the answer 0 sets. */
static void carried(carrier *carry, const void *sheet, size_t sheet_len, const void *mark,
                    size_t mark_len, size_t room, uint32_t answer, const char *other, int line) {
    const size_t before = 7;
    size_t length = before;
    uint8_t *given_sheet = exact(sheet, sheet_len), *given_mark = exact(mark, mark_len);
    uint8_t *out = some(room + 2 * MARGIN);
    memset(out, PATTERN, room + 2 * MARGIN);
    check_number(carry(given_sheet, sheet_len, given_mark, mark_len, out + MARGIN, room, &length),
                 answer, line, "answer of carrying");
    check(sheet_len == 0 || memcmp(given_sheet, sheet, sheet_len) == 0, line, "sheet kept");
    check(mark_len == 0 || memcmp(given_mark, mark, mark_len) == 0, line, "mark kept");
    check(begins(out, room, other, strlen(other)), line, "carried mark");
    check_number(length, answer == 0 ? strlen(other) : before, line, "length");
    free(given_sheet);
    free(given_mark);
    free(out);
}

/* The carbons of cubane. The search for its rings, trial by trial:
     1: -      1  open     p = 1          2: 1    1  no
     3: 1      2  open     p = 1 2        4, 5: 1 2 with 1, 2  no
     6: 1 2    3  open     p = 1 2 3      7, 8, 9: 1 2 3 with 1, 2, 3  no
    10: 1 2 3  4  listed
   So after nine trials and three extensions p = 1 2 3 and the next atom is 4: an
   old mark of 91 + 4 * 3 bytes, and a new one of 9 * 12 more. */
static const char cubane[] =
    "   8  12\n"
    "   7   8\n   6   7\n   5   8\n   5   6\n   4   8\n   3   7\n"
    "   3   4\n   2   6\n   2   3\n   5   1\n   4   1\n   2   1\n";
static const char cubane_old[] =
    "   0   0   0   8  12   3   4\n"
    "                   9                   3                   0\n"
    "   1   2   3\n";
static const char cubane_new[] =
    "   0   0   0   8  12   3   4\n"
    "                   9                   3                   0\n"
    "   1   2   3\n"
    "   1   2\n   1   4\n   1   5\n   2   3\n   2   6\n   3   4\n"
    "   3   7\n   4   8\n   5   6\n   5   8\n   6   7\n   7   8\n";

#define CUBANE cubane, sizeof cubane - 1

/* Cubane's mark there and back, in outputs of just its length, of one byte fewer
   and of more; the mark carried over goes on. */
static void carrying_of_cubane(void) {
    static const size_t rooms[6] = {0, 102, 103, 210, 211, MARK};
    EQUAL(sizeof cubane_old - 1, 103);
    EQUAL(sizeof cubane_new - 1, 211);
    for (int i = 0; i < 6; i++) {
        int over = rooms[i] >= 211, back = rooms[i] >= 103;
        carried(ringlist_carry_over, CUBANE, cubane_old, 103, rooms[i], over ? 0 : 13,
                over ? cubane_new : "", __LINE__);
        carried(ringlist_carry_back, CUBANE, cubane_new, 211, rooms[i], back ? 0 : 13,
                back ? cubane_old : "", __LINE__);
    }
    wrote(call(CUBANE, NULL, 0, 9, 5, MARK), 103, "", 0, cubane_new, 211, __LINE__);
    static uint8_t over[MARK], next[MARK];
    uint8_t rings[5];
    size_t length = 0;
    EQUAL(ringlist_carry_over((const uint8_t *)CUBANE, (const uint8_t *)cubane_old, 103, over, MARK,
                              &length),
          0);
    EQUAL(ringlist_resume((const uint8_t *)CUBANE, over, length, 1, rings, 5, next, MARK), 103);
    CHECK(memcmp(rings, "\4\1\2\3\4", 5) == 0);
    EQUAL(ringlist_listed(next, MARK), 1);
}

/* A mark of each form that the function of that form refuses, or carries where
   `rule` is 0 and the room is enough: it is `lines` without the bond lines or with
   them. */
#define CARRIED(sheet, lines, bonds, room, rule)                                                   \
    do {                                                                                           \
        carried(ringlist_carry_over, sheet, sizeof(sheet) - 1, lines, sizeof(lines) - 1, room, rule, \
                rule == 0 ? lines bonds : "", __LINE__);                                           \
        carried(ringlist_carry_back, sheet, sizeof(sheet) - 1, lines bonds,                        \
                sizeof(lines bonds) - 1, room, rule, rule == 0 ? lines : "", __LINE__);            \
    } while (0)

/* On the document's sheet: the search of 16 trials at each of them, and each kind. */
static void carrying(void) {
    char mark[160], old[160];
    for (int trials = 0; trials <= 16; trials++) {
        size_t len = mark_after(trials, mark) - 45;
        memcpy(old, mark, len);
        old[len] = 0;
        carried(ringlist_carry_over, SHEET, old, len, len + 45, 0, mark, __LINE__);
        carried(ringlist_carry_back, SHEET, mark, len + 45, len, 0, old, __LINE__);
    }
    CARRIED(document, LINE_1 LINE_2 LINE_3, BONDS, MARK, 0);
    CARRIED(document, "   1   2   4   4   5   1   4\n" LINE_2 "   2\n", BONDS, 200, 0);
    CARRIED(document, "   2   3   0   4   5   2   4\n" LINE_2 LINE_3, BONDS, 200, 0);
    CARRIED(document, "   3   2   4   4   5   2   4\n" LINE_2 "   2   1\n", BONDS, 200, 0);
    CARRIED("   3   0\n", "   0   0   0   3   0   0   1\n" NO_COUNTS, "", 91, 0);
    CARRIED("00040005\n00010002\n00020003\n00030004\n00010004\n00010003\n", LINE_1 LINE_2 LINE_3,
            BONDS, 144, 0);
}

/* Every rule, and each before the next; and marks that are no marks of the form, or of an isomer. */
static void refused_carrying(void) {
    CARRIED("   4   5", LINE_1 LINE_2, BONDS, 0, 1);
    CARRIED("   4   2\n   1   2\n   2   1\n", LINE_1 LINE_2, BONDS, 0, 8);
    CARRIED(document, "   4   0   0   5   5   2   0\n" LINE_2 "   1\n", BONDS, 0, 14);
    CARRIED(document, "   4   0   0   5   5   2   0\n" LINE_2 "   10002\n", BONDS, 0, 14);
    CARRIED(document, "   4   0   0   5   5   2   0\n" LINE_2 LINE_3, BONDS, 0, 15);
    CARRIED(document, "   4   0   0   4   5   2   0\n" LINE_2 LINE_3, BONDS, 0, 16);
    CARRIED(document, "   2   2   0   4   5   2   0\n" LINE_2 LINE_3, BONDS, 0, 16);
    CARRIED(document, LINE_1 LINE_2 "   1   4\n", BONDS, 0, 17);
    CARRIED(document, "   0   0   0   4   5   2   5\n" LINE_2 LINE_3, BONDS, 0, 17);
    CARRIED(document, LINE_1 LINE_2 LINE_3, BONDS, 98, 13);
    /* Another number of bonds: an old mark names no bonds besides it. */
    carried(ringlist_carry_over, SHEET, "   0   0   0   4   4   2   3\n" LINE_2 LINE_3, 99, 0, 15, "",
            __LINE__);
    /* Each form is no mark of the other. */
    carried(ringlist_carry_over, SHEET, full_mark, 144, MARK, 14, "", __LINE__);
    carried(ringlist_carry_back, SHEET, full_mark, 99, MARK, 14, "", __LINE__);
    /* No bytes are no mark. */
    carried(ringlist_carry_over, SHEET, "", 0, MARK, 14, "", __LINE__);
    carried(ringlist_carry_back, SHEET, "", 0, MARK, 14, "", __LINE__);
    /* A mark of an isomer, open in both: an old one gets the bonds of the sheet. */
    static const char other[] = "   4   5\n   1   2\n   2   3\n   3   4\n   1   4\n   2   4\n";
    carried(ringlist_carry_over, other, sizeof other - 1, full_mark, 99, 144, 0,
            LINE_1 LINE_2 LINE_3 OTHER_BONDS, __LINE__);
    carried(ringlist_carry_back, other, sizeof other - 1, full_mark, 144, 144, 15, "", __LINE__);
}

/* A molfile read with a sheet output of `room` bytes: its answer, all that it
   wrote, and the length, which only the answer 0 sets; the numbers beside the
   length are kept. */
static void molfile_read(const void *molfile, size_t molfile_len, size_t room, uint32_t answer,
                         const char *sheet, int line) {
    const size_t before = 7;
    size_t around[3] = {before, before, before};
    uint8_t *given = exact(molfile, molfile_len), *out = some(room + 2 * MARGIN);
    memset(out, PATTERN, room + 2 * MARGIN);
    check_number(ringlist_molfile(given, molfile_len, out + MARGIN, room, &around[1]), answer, line,
                 "answer of reading");
    check(molfile_len == 0 || memcmp(given, molfile, molfile_len) == 0, line, "molfile kept");
    check(begins(out, room, sheet, strlen(sheet)), line, "sheet");
    check_number(around[1], answer == 0 ? strlen(sheet) : before, line, "length");
    check(around[0] == before && around[2] == before, line, "numbers beside the length");
    free(given);
    free(out);
}

/* A sheet output that always will do. */
#define SHEET_ROOM 9000

/* An accepted molfile: its sheet, in an output of just its length and in longer
   ones; shorter ones are refused by 13. */
static void molfile_accepted(const void *molfile, size_t molfile_len, const char *sheet, int line) {
    const size_t len = strlen(sheet);
    molfile_read(molfile, molfile_len, len, 0, sheet, line);
    molfile_read(molfile, molfile_len, len + 1, 0, sheet, line);
    molfile_read(molfile, molfile_len, SHEET_ROOM, 0, sheet, line);
    molfile_read(molfile, molfile_len, len - 1, 13, "", line);
    molfile_read(molfile, molfile_len, len - 9, 13, "", line);
    molfile_read(molfile, molfile_len, 0, 13, "", line);
}

/* A molfile refused by a rule of its own, which comes before the room. */
static void molfile_refused(const void *molfile, size_t molfile_len, uint32_t rule, int line) {
    molfile_read(molfile, molfile_len, SHEET_ROOM, rule, "", line);
    molfile_read(molfile, molfile_len, 0, rule, "", line);
}

#define ACCEPTED(molfile, sheet) molfile_accepted(molfile, sizeof(molfile) - 1, sheet, __LINE__)
#define NOT_READ(molfile, rule) molfile_refused(molfile, sizeof(molfile) - 1, rule, __LINE__)

/* The lines of a molfile as editors write them, of 40, 70, 13 and 7 bytes. */
#define HEADER "rings\n  by hand\n\n"
#define COUNTS(numbers) numbers "  0  0  0  0  0  0  0  0999 V2000\n"
#define ATOM(symbol) "    0.0000   -1.2500    0.0000 " symbol " 0  0  0  0  0  0  0  0  0  0  0  0\n"
#define BOND(atoms) atoms "  1  0\n"
#define END "M  END\n"

/* The document's molecule with two more elements. Its sheet has the bonds in
   dictionary order. */
static const char molfile[] =
    HEADER COUNTS("  4  5") ATOM("C  ") ATOM("N  ") ATOM("C  ") ATOM("O  ")
    BOND("  1  2") BOND("  2  3") BOND("  3  4") BOND("  1  4") BOND("  1  3") END;
static const char molfile_sheet[] = "   4   5\n" BONDS;

/* Where its lines begin; atoms and bonds from 0 on. */
#define COUNTS_AT (sizeof HEADER - 1)
#define ATOM_AT(i) (COUNTS_AT + 40 + 70 * (i))
#define BOND_AT(i) (ATOM_AT(4) + 13 * (i))

/* Cyclopropane: carbons 2, 5 and 9, hydrogens the others. */
static const char cyclopropane[] =
    HEADER COUNTS("  9  9") ATOM("H  ") ATOM("C  ") ATOM("H  ") ATOM("H  ") ATOM("C  ") ATOM("H  ")
    ATOM("H  ") ATOM("H  ") ATOM("C  ") BOND("  9  8") BOND("  2  9") BOND("  7  9") BOND("  6  5")
    BOND("  5  2") BOND("  4  5") BOND("  2  3") BOND("  1  2") BOND("  9  5") END;

static void molfiles_by_hand(void) {
    EQUAL(sizeof molfile - 1, BOND_AT(5) + 7);
    ACCEPTED(molfile, molfile_sheet);
    /* The bonds in any order, with either atom first, and zeros before the numbers. */
    ACCEPTED(HEADER COUNTS("004 05") ATOM("C  ") ATOM("N  ") ATOM("C  ") ATOM("O  ") BOND(" 04003")
             BOND("003  1") BOND("  4001") BOND("  3 02") BOND("002001") END, molfile_sheet);
    ACCEPTED(cyclopropane,
             "   9   9\n   1   2\n   2   3\n   2   5\n   2   9\n   4   5\n   5   6\n   5   9\n"
             "   7   9\n   8   9\n");
    /* Elements of one molecule: 1 is P, 2 S, 3 N, 4 F, 5 H, 6 O, 7 C. */
    ACCEPTED(HEADER COUNTS("  7  4") ATOM("P  ") ATOM("S  ") ATOM("N  ") ATOM("F  ") ATOM("H  ")
             ATOM("O  ") ATOM("C  ") BOND("  7  4") BOND("  1  2") BOND("  6  5") BOND("  3  1") END,
             "   7   4\n   1   2\n   1   3\n   4   7\n   5   6\n");
    /* No bonds, and no atoms. */
    ACCEPTED(HEADER COUNTS("  2  0") ATOM("O  ") ATOM("H  ") END, "   2   0\n");
    ACCEPTED(HEADER COUNTS("  0  0") END, "   0   0\n");
    ACCEPTED(HEADER COUNTS("000000") END, "   0   0\n");
}

/* The sheet of a molfile is listed by the other functions. */
static void molfiles_listed(void) {
    static uint8_t sheet[SHEET_ROOM];
    uint8_t all[16];
    char mark[160];
    size_t length = 0, mark_len = mark_after(16, mark);
    EQUAL(ringlist_molfile((const uint8_t *)molfile, sizeof molfile - 1, sheet, SHEET_ROOM, &length),
          0);
    EQUAL(length, 54);
    wrote(call(sheet, length, NULL, 0, 16, 8, MARK), 101, records, 8, mark, mark_len, __LINE__);
    wrote(call(sheet, length, full_mark, 144, 11, 8, MARK), 101, records, 8, mark, mark_len,
          __LINE__);
    EQUAL(ringlist_molfile((const uint8_t *)cyclopropane, sizeof cyclopropane - 1, sheet, SHEET_ROOM,
                           &length), 0);
    EQUAL(length, 90);
    /* The ring is 2 5 9, with the beginnings 2 and 2 5: 9 * (2 + 1) trials. */
    sheet[length] = 0;
    EQUAL(list_all((const char *)sheet, 0, 0, 0, all,
                   "                  27                   2                   1"), 4);
    CHECK(memcmp(all, "\3\2\5\11", 4) == 0);
}

/* A stretch of length 0 is not touched, whatever its pointer. */
static void molfile_zero_lengths(void) {
    uint8_t *nowhere[2] = {NULL, (uint8_t *)1}, sheet[54];
    size_t length = 7;
    for (int i = 0; i < 2; i++) {
        uint8_t *any = nowhere[i];
        EQUAL(ringlist_molfile(any, 0, any, 0, &length), 18);
        EQUAL(ringlist_molfile(any, 0, sheet, 54, &length), 18);
        EQUAL(ringlist_molfile((const uint8_t *)molfile, sizeof molfile - 1, any, 0, &length), 13);
    }
    EQUAL(length, 7);
}

/* The molfile with a carriage return before the line feeds of its lines from
   `first` to `last`; returns its bytes. */
static size_t with_returns(int first, int last, char text[600]) {
    size_t len = 0;
    int line = 0;
    for (const char *byte = molfile; *byte != 0; byte++) {
        if (*byte == '\n' && ++line >= first && line <= last) {
            text[len++] = '\r';
        }
        text[len++] = *byte;
    }
    return len;
}

/* The ends of lines. */
static void molfile_line_ends(void) {
    char text[600];
    const size_t len = sizeof molfile - 1;
    EQUAL(with_returns(1, 14, text), len + 14);
    for (int first = 1; first <= 14; first++) {
        molfile_accepted(text, with_returns(first, 14, text), molfile_sheet, __LINE__);
        molfile_accepted(text, with_returns(first, first, text), molfile_sheet, __LINE__);
        molfile_accepted(text, with_returns(1, first, text), molfile_sheet, __LINE__);
    }
    /* Each beginning lacks a line feed. */
    for (size_t shorter = 0; shorter < len; shorter++) {
        molfile_refused(molfile, shorter, 18, __LINE__);
    }
    size_t longer = with_returns(1, 14, text);
    for (size_t shorter = 0; shorter < longer; shorter++) {
        molfile_refused(text, shorter, 18, __LINE__);
    }
    /* A carriage return alone ends no line. */
    for (size_t i = 0; i < len; i++) {
        text[i] = molfile[i] == '\n' ? '\r' : molfile[i];
    }
    molfile_refused(text, len, 18, __LINE__);
    /* A line feed too many is one more line. */
    NOT_READ("\n" HEADER COUNTS("  0  0") END, 18);
    NOT_READ(HEADER "\n" COUNTS("  0  0") END, 18);
    NOT_READ(HEADER COUNTS("  1  0") "\n" ATOM("C  ") END, 18);
    NOT_READ(HEADER COUNTS("  2  1") ATOM("C  ") ATOM("C  ") "\n" BOND("  1  2") END, 18);
    ACCEPTED(HEADER COUNTS("  0  0") "\n" END, "   0   0\n");
}

/* Lines with nothing past the last column named for them, and 31 columns of any
   bytes before a symbol. */
#define LEAST_COUNTS(numbers) numbers "xxxxxxxxxxxxxxxxxxxxxxxxxxxxV2000"
#define LEAST_ATOM(symbol) "\000\001\r\t\377\200  M  END V2000 0123456789" symbol
#define LEAST(counts, atom, bond) "\n\n\n" counts "\n" atom "\n" LEAST_ATOM("C  ") "\n" bond "\n" END

/* The lengths of lines. */
static void molfile_line_lengths(void) {
    static const char sheet[] = "   2   1\n   1   2\n";
    EQUAL(sizeof LEAST_COUNTS("  2  1") - 1, 39);
    EQUAL(sizeof LEAST_ATOM("C  ") - 1, 34);
    ACCEPTED(LEAST(LEAST_COUNTS("  2  1"), LEAST_ATOM("C  "), "  2  1"), sheet);
    ACCEPTED(LEAST(LEAST_COUNTS("  2  1") "\r", LEAST_ATOM("C  ") "\r", "  2  1\r"), sheet);
    /* Longer by any bytes; of two carriage returns one belongs to the line. */
    ACCEPTED(LEAST(LEAST_COUNTS("  2  1") "0", LEAST_ATOM("C  ") "l", "  2  17"), sheet);
    ACCEPTED(LEAST(LEAST_COUNTS("  2  1") "\000\r\r", LEAST_ATOM("C  ") "\377\r\r", "  2  1\r\r"),
             sheet);
    /* Shorter by a column, which neither carriage returns nor the next line give. */
    NOT_READ(LEAST("  2  1xxxxxxxxxxxxxxxxxxxxxxxxxxxxV200", LEAST_ATOM("C  "), "  2  1"), 18);
    NOT_READ(LEAST("  2  1xxxxxxxxxxxxxxxxxxxxxxxxxxxxV200\r\r", LEAST_ATOM("C  "), "  2  1"), 18);
    NOT_READ(LEAST(LEAST_COUNTS("  2  1"), LEAST_ATOM("C "), "  2  1"), 18);
    NOT_READ(LEAST(LEAST_COUNTS("  2  1"), LEAST_ATOM("C "), "  2  1\r"), 18);
    NOT_READ(LEAST(LEAST_COUNTS("  2  1"), LEAST_ATOM("C ") "\r", "  2  1"), 18);
    NOT_READ(LEAST(LEAST_COUNTS("  2  1"), LEAST_ATOM("C"), "  2  1"), 18);
    NOT_READ(LEAST(LEAST_COUNTS("  2  1"), "", "  2  1"), 18);
    NOT_READ(LEAST(LEAST_COUNTS("  2  1"), LEAST_ATOM("C  "), "  2 1"), 18);
    NOT_READ(LEAST(LEAST_COUNTS("  2  1"), LEAST_ATOM("C  "), "  2  \r"), 18);
    NOT_READ(LEAST(LEAST_COUNTS("  2  1"), LEAST_ATOM("C  "), ""), 18);
    /* Shorter, with no byte behind it. */
    NOT_READ(HEADER "  0  0\n", 18);
    NOT_READ(HEADER COUNTS("  1  0") "C\n", 18);
    NOT_READ(HEADER COUNTS("  0  1") "1\n", 18);
    NOT_READ(HEADER COUNTS("  0  0") "M\n", 18);
    /* The first of two carriage returns is in the last column of the symbol. */
    NOT_READ(LEAST(LEAST_COUNTS("  2  1"), LEAST_ATOM("C ") "\r\r", "  2  1"), 19);
}

#define ETHANE COUNTS("  2  1") ATOM("C  ") ATOM("C  ") BOND("  1  2")

/* What is skipped: the header, what stands before M  END, and what follows it. */
static void molfile_skipped_lines(void) {
    static const char sheet[] = "   2   1\n   1   2\n";
    ACCEPTED(END END END ETHANE END, sheet);
    ACCEPTED("M  END\r\n\000\377\r\r\n" COUNTS("  9  9") ETHANE END, sheet);
    ACCEPTED("\n\n\n" ETHANE END, sheet);
    NOT_READ("\n\n" ETHANE END, 18);
    NOT_READ("\n\n\n\n" ETHANE END, 18);
    /* Property lines, bond lines too many, and lines that are nearly M  END. */
    ACCEPTED(HEADER ETHANE "M  CHG  1   2   1\nM  ISO  1   1  13\n" END, sheet);
    ACCEPTED(HEADER ETHANE BOND("  1  2") BOND("  9  9") BOND("xxxxxx") ATOM("Xx ") END, sheet);
    ACCEPTED(HEADER ETHANE "M  END \n M  END\nM  EN\nM END\nm  end\nM  END\r\r\n\000\n" END, sheet);
    ACCEPTED(HEADER ETHANE "M  END\000\nM  EN\nD\nM\t END\nM  ENDM  END\nM  EMD\r\n" "M  END\r\n",
             sheet);
    NOT_READ(HEADER ETHANE, 18);
    NOT_READ(HEADER ETHANE "M  END", 18);
    NOT_READ(HEADER ETHANE "M  END\r", 18);
    NOT_READ(HEADER ETHANE "M  END\r\r\n", 18);
    NOT_READ(HEADER ETHANE "M  END \n", 18);
    NOT_READ(HEADER ETHANE " M  END\n", 18);
    NOT_READ(HEADER ETHANE "M  EN\nD\n", 18);
    NOT_READ(HEADER ETHANE "M  ENDM  END\n", 18);
    NOT_READ(HEADER ETHANE "M END\nm  end\nM  EMD\n\n\n", 18);
    /* M  END in the place of another line. */
    NOT_READ(HEADER END ETHANE END, 18);
    NOT_READ(HEADER COUNTS("  1  0") END END, 18);
    NOT_READ(HEADER COUNTS("  1  1") ATOM("C  ") END END, 18);
    /* What follows is not read: no line feed, another molfile, what would be refused. */
    ACCEPTED(HEADER ETHANE END "M  EN", sheet);
    ACCEPTED(HEADER ETHANE END "> <name>\nethane\n\n$$$$\n" HEADER COUNTS("999999") ATOM("Xx ") END,
             sheet);
    ACCEPTED(HEADER ETHANE END "\000\377\r", sheet);
}

/* The molfile with other bytes from `at` on: the sheet, or a rule where there is none. */
static void replaced(size_t at, const char *bytes, size_t len, const char *sheet, uint32_t rule,
                     int line) {
    char text[sizeof molfile];
    memcpy(text, molfile, sizeof molfile);
    memcpy(text + at, bytes, len);
    if (sheet != NULL) {
        molfile_accepted(text, sizeof molfile - 1, sheet, line);
    } else {
        molfile_refused(text, sizeof molfile - 1, rule, line);
    }
}

#define REPLACED(at, bytes, sheet) replaced(at, bytes, sizeof(bytes) - 1, sheet, 0, __LINE__)
#define SPOILED(at, bytes, rule) replaced(at, bytes, sizeof(bytes) - 1, NULL, rule, __LINE__)

/* Numbers: blanks, then one or more digits, to the right of their columns. */
static void molfile_numbers(void) {
    static const char bad[24][4] = {
        "   ", "4  ", " 4 ", "04 ", "4 4", "0 4", "00 ", "-04", " -4", "  -", "+ 4", " +4",
        "x04", "  x", "0x4", "4.0", "1e0", "\t\t4", "  \n", " \r4", " 4\r", "  /", "  :", "  \xb4",
    };
    const size_t places[6] = {COUNTS_AT,      COUNTS_AT + 3, BOND_AT(0),
                              BOND_AT(0) + 3, BOND_AT(4),    BOND_AT(4) + 3};
    for (int i = 0; i < 6; i++) {
        for (int k = 0; k < 24; k++) {
            replaced(places[i], bad[k], 3, NULL, 18, __LINE__);
        }
        replaced(places[i], "\000\0004", 3, NULL, 18, __LINE__);
    }
    REPLACED(COUNTS_AT, "004005", molfile_sheet);
    REPLACED(COUNTS_AT, " 04 05", molfile_sheet);
    REPLACED(BOND_AT(2), "003004", molfile_sheet);
    REPLACED(BOND_AT(2), " 03 04", molfile_sheet);
    REPLACED(BOND_AT(2), " 04003", molfile_sheet);
    /* Fewer bonds than bond lines: the others are skipped. */
    REPLACED(COUNTS_AT + 3, "000", "   4   0\n");
    REPLACED(COUNTS_AT + 3, " 00", "   4   0\n");
    REPLACED(COUNTS_AT + 3, "  2", "   4   2\n   1   2\n   2   3\n");
    /* A bond line more than there are, an atom line more or fewer. */
    SPOILED(COUNTS_AT + 3, "  6", 18);
    SPOILED(COUNTS_AT + 3, "999", 18);
    SPOILED(COUNTS_AT, "  5", 18);
    SPOILED(COUNTS_AT, "  3", 18);
    SPOILED(COUNTS_AT, "000", 18);
    SPOILED(COUNTS_AT, "999", 18);
}

/* V2000 in its columns and nowhere else. */
static void molfile_version(void) {
    SPOILED(COUNTS_AT + 34, "V3000", 18);
    SPOILED(COUNTS_AT + 34, "v2000", 18);
    SPOILED(COUNTS_AT + 34, "V2001", 18);
    SPOILED(COUNTS_AT + 34, "     ", 18);
    SPOILED(COUNTS_AT + 34, "W2000", 18);
    SPOILED(COUNTS_AT + 33, "V2000 ", 18);
    SPOILED(COUNTS_AT + 34, " V2000\n", 18);
    NOT_READ(HEADER "  0  0  0  0  0  0  0  0  0  0999  V2000\n" END, 18);
    NOT_READ(HEADER "  0  0  0  0  0  0  0  0  0  0999V2000 \n" END, 18);
    NOT_READ(HEADER "  0  0  0  0  0  0  0  0  0  0999V2000\n" END, 18);
    ACCEPTED(HEADER "  0  0  0  0  0  0  0  0  0  0999 V2000V3000\n" END, "   0   0\n");
}

/* A symbol that is in the table, to the left of its columns. */
static void molfile_symbols(void) {
    static const char bad[24][4] = {
        "   ", " C ", "  C", "c  ", "h  ", "CC ", "C C", "CO ", "Cl ", "CL ", "C0 ", "C\r ",
        "C\t ", "C \t", "C \xa0", "B  ", "D  ", "Si ", "Na ", "R# ", "*  ", "C_ ", "\xc3  ", "Br ",
    };
    for (size_t i = 0; i < 4; i++) {
        for (int k = 0; k < 24; k++) {
            replaced(ATOM_AT(i) + 31, bad[k], 3, NULL, 19, __LINE__);
        }
        SPOILED(ATOM_AT(i) + 31, "C\000\000", 19);
        SPOILED(ATOM_AT(i) + 31, "C\n ", 18);
    }
    REPLACED(ATOM_AT(0) + 31, "S  ", molfile_sheet);
    REPLACED(ATOM_AT(1) + 31, "C  ", molfile_sheet);
    REPLACED(ATOM_AT(2) + 31, "O  ", molfile_sheet);
    REPLACED(ATOM_AT(3) + 31, "P  ", molfile_sheet);
    /* Columns 31 and 35 are not the symbol's. */
    REPLACED(ATOM_AT(0) + 30, "CC  l", molfile_sheet);
}

/* Bonds, and each rule before the next, over the whole input. */
static void molfile_bonds(void) {
    SPOILED(BOND_AT(0), "  0", 6);
    SPOILED(BOND_AT(4) + 3, "000", 6);
    SPOILED(BOND_AT(4), "  5", 6);
    SPOILED(BOND_AT(0) + 3, "  5", 6);
    SPOILED(BOND_AT(2), "999", 6);
    SPOILED(BOND_AT(2), "259", 6);
    SPOILED(BOND_AT(2), "  0  0", 6);
    SPOILED(BOND_AT(2), "  5  5", 6);
    SPOILED(BOND_AT(0), "  1  1", 7);
    SPOILED(BOND_AT(4), "  4  4", 7);
    SPOILED(BOND_AT(0), "  1  3", 8);
    SPOILED(BOND_AT(0), "  3  1", 8);
    SPOILED(BOND_AT(4), "  2  3", 8);
    SPOILED(BOND_AT(4), "  3  2", 8);
    /* The hydrogen 1 has three neighbours. */
    SPOILED(ATOM_AT(0) + 31, "H  ", 20);
    SPOILED(ATOM_AT(3) + 31, "F  ", 20);
    NOT_READ(HEADER COUNTS("  3  3") ATOM("H  ") ATOM("C  ") ATOM("C  ") BOND("  1  2") BOND("  3  1")
             BOND("  2  1") END, 8);
    /* A hydrogen that has one neighbour in two bonds breaks rule 8 alone. */
    NOT_READ(HEADER COUNTS("  2  2") ATOM("H  ") ATOM("C  ") BOND("  1  2") BOND("  1  2") END, 8);
}

/* A molfile and a sheet that are written at length. */
static struct {
    char molfile[90000], sheet[SHEET_ROOM + 1];
    size_t molfile_len, sheet_len;
} drawn;

static void draw_counts(int n, int m) {
    drawn.molfile_len = (size_t)sprintf(drawn.molfile, HEADER COUNTS("%3d%3d"), n, m);
    drawn.sheet_len = (size_t)sprintf(drawn.sheet, "%4d%4d\n", n, m);
}

static void draw_atoms(int count, const char *symbol) {
    for (; count > 0; count--) {
        drawn.molfile_len += (size_t)sprintf(drawn.molfile + drawn.molfile_len, ATOM("%-3s"), symbol);
    }
}

static void draw_bond(int a, int b) {
    drawn.molfile_len += (size_t)sprintf(drawn.molfile + drawn.molfile_len, BOND("%3d%3d"), a, b);
}

static void draw_sheet_line(int a, int b) {
    drawn.sheet_len += (size_t)sprintf(drawn.sheet + drawn.sheet_len, "%4d%4d\n", a, b);
}

static void draw_end(void) {
    drawn.molfile_len += (size_t)sprintf(drawn.molfile + drawn.molfile_len, END);
}

#define DRAWN drawn.molfile, drawn.molfile_len

/* Each element in the midst of 0 to 7 sulfurs: so many neighbours and no more. */
static void molfile_neighbours(void) {
    static const struct {
        const char *symbol;
        int most;
    } elements[7] = {{"H", 1}, {"C", 4}, {"N", 4}, {"O", 3}, {"F", 1}, {"P", 6}, {"S", 6}};
    for (int i = 0; i < 7; i++) {
        for (int count = 0; count <= 7; count++) {
            draw_counts(count + 1, count);
            draw_atoms(1, elements[i].symbol);
            draw_atoms(count, "S");
            for (int other = count + 1; other > 1; other--) {
                draw_bond(other % 2 ? 1 : other, other % 2 ? other : 1);
                draw_sheet_line(1, count + 3 - other);
            }
            draw_end();
            if (count <= elements[i].most) {
                molfile_accepted(DRAWN, drawn.sheet, __LINE__);
            } else {
                molfile_refused(DRAWN, 20, __LINE__);
            }
        }
    }
}

/* A molfile that breaks the rules 18, 3, 19, 6, 7, 8 and 20, of which the first
   `kept` are mended. The bonds that break a rule stand behind those that break a
   later one. */
static void draw_wrong(int kept) {
    int n = kept < 2 ? 129 : 128;
    draw_counts(n, 5);
    draw_atoms(1, kept < 7 ? "H" : "C");
    draw_atoms(n - 2, "C");
    draw_atoms(1, kept < 3 ? "Cl" : "F");
    draw_bond(1, 2);
    draw_bond(1, 3);
    draw_bond(kept < 6 ? 2 : 5, kept < 6 ? 1 : 6);
    draw_bond(kept < 5 ? 4 : 6, kept < 5 ? 4 : 7);
    draw_bond(kept < 4 ? 0 : 127, kept < 4 ? 5 : 128);
    if (kept > 0) {
        draw_end();
    }
}

/* The order of the rules, 13 last. */
static void molfile_rules(void) {
    static const uint32_t rules[7] = {18, 3, 19, 6, 7, 8, 20};
    for (int kept = 0; kept < 7; kept++) {
        draw_wrong(kept);
        molfile_refused(DRAWN, rules[kept], __LINE__);
    }
    draw_wrong(7);
    molfile_accepted(DRAWN, " 128   5\n   1   2\n   1   3\n   5   6\n   6   7\n 127 128\n", __LINE__);
}

/* 999 atoms are read before they are too many. */
static void many_molfile_atoms(void) {
    draw_counts(999, 0);
    draw_atoms(998, "Xx");
    molfile_refused(DRAWN, 18, __LINE__);
    draw_end();
    molfile_refused(DRAWN, 18, __LINE__);
    drawn.molfile_len -= sizeof END - 1;
    draw_atoms(1, "C");
    molfile_refused(DRAWN, 18, __LINE__);
    draw_end();
    molfile_refused(DRAWN, 3, __LINE__);
}

/* 128 sulfurs around a circle, each bonded to the three next on either side: 384
   bonds, as many as a molfile can have. */
static void draw_circle(int m) {
    draw_counts(128, m);
    draw_atoms(128, "S");
    for (int i = 0; i < 384; i++) {
        draw_bond(i % 128 + 1, (i % 128 + i / 128 + 1) % 128 + 1);
    }
    for (int a = 1; a <= 128; a++) {
        for (int b = a + 1; b <= 128; b++) {
            if (b - a <= 3 || b - a >= 125) {
                draw_sheet_line(a, b);
            }
        }
    }
}

/* 384 bonds, one more, and 999, all of different pairs. */
static void many_molfile_bonds(void) {
    draw_circle(384);
    draw_end();
    EQUAL(drawn.sheet_len, 3465);
    molfile_accepted(DRAWN, drawn.sheet, __LINE__);
    draw_circle(385);
    draw_bond(1, 5);
    draw_end();
    molfile_refused(DRAWN, 20, __LINE__);
    draw_circle(999);
    for (int i = 0; i < 615; i++) {
        draw_bond(i % 100 + 1, i % 100 + i / 100 + 5);
    }
    molfile_refused(DRAWN, 18, __LINE__);
    draw_end();
    molfile_refused(DRAWN, 20, __LINE__);
}

static void molfiles(void) {
    molfiles_by_hand();
    molfiles_listed();
    molfile_zero_lengths();
    molfile_line_ends();
    molfile_line_lengths();
    molfile_skipped_lines();
    molfile_numbers();
    molfile_version();
    molfile_symbols();
    molfile_bonds();
    molfile_neighbours();
    molfile_rules();
    many_molfile_atoms();
    many_molfile_bonds();
}

/* Counts are taken as they are; at the limit a run stops before its first
   trial, but done comes before the limit, and the limit before spent. */
static void limit(void) {
    static const char at[] =
        "   0   0   0   4   5   0   1\n"
        "                   0                   0 9999999999999999999\n\n" BONDS;
    static const char done[] =
        "   0   0   0   4   5   0   5\n"
        "                   0                   0 9999999999999999999\n\n" BONDS;
    static const char before[] =
        "   0   0   0   4   5   2   3\n"
        "                   5                   2 9999999999999999998\n   1   2\n" BONDS;
    static const char after_it[] =
        "   0   0   0   4   5   2   4\n"
        "                   6                   2 9999999999999999999\n   1   2\n" BONDS;
    static const char above[] =
        "   0   0   0   4   5   0   1\n"
        "                   0                   010000000000000000000\n\n" BONDS;
    wrote(call(SHEET, at, 136, 0, 8, MARK), 102, "", 0, at, 136, __LINE__);
    wrote(call(SHEET, done, 136, 0, 8, MARK), 101, "", 0, done, 136, __LINE__);
    wrote(call(SHEET, before, 144, 9, 8, MARK), 102, "\3\1\2\3", 4, after_it, 144, __LINE__);
    REFUSED(document, above, MARK, 14);
    EQUAL(ringlist_listed((const uint8_t *)at, 91), UINT64_C(9999999999999999999));
    EQUAL(ringlist_listed((const uint8_t *)above, 91), 0);
}

/* The two readers of a mark. */
static void mark_readers(void) {
    static uint8_t mark[130100];
    memset(mark, PATTERN, sizeof mark);
    memcpy(mark, full_mark, 144);
    EQUAL(ringlist_mark_length(mark, 700), 144);
    EQUAL(ringlist_mark_length(mark, 144), 144);
    EQUAL(ringlist_mark_length(mark, 143), 0);
    EQUAL(ringlist_mark_length(mark, 99), 0);
    EQUAL(ringlist_mark_length(mark, 90), 0);
    EQUAL(ringlist_listed(mark, 700), 0);
    memcpy(mark + 69, "                  42", 20);
    EQUAL(ringlist_listed(mark, 91), 42);
    EQUAL(ringlist_listed(mark, 90), 0);
    memcpy(mark + 69, "                 042", 20);
    EQUAL(ringlist_listed(mark, 700), 0);
    memcpy(mark + 69, "00000000000000000042", 20);
    EQUAL(ringlist_listed(mark, 700), 0);
    EQUAL(ringlist_mark_length(mark, 700), 144);
    memcpy(mark + 69, "09999999999999999999", 20);
    EQUAL(ringlist_listed(mark, 700), 0);
    memcpy(mark + 69, " 9999999999999999999", 20);
    EQUAL(ringlist_listed(mark, 700), UINT64_C(9999999999999999999));
    /* Bonds and length: 91 + 4 * length + 9 * bonds. */
    memcpy(mark + 16, "1024 127", 8);
    EQUAL(ringlist_mark_length(mark, 20000), 9815);
    EQUAL(ringlist_mark_length(mark, 9815), 9815);
    EQUAL(ringlist_mark_length(mark, 9814), 0);
    memcpy(mark + 16, "99999999", 8);
    EQUAL(ringlist_mark_length(mark, 130100), 130078);
    EQUAL(ringlist_mark_length(mark, 130078), 130078);
    EQUAL(ringlist_mark_length(mark, 130077), 0);
    memcpy(mark + 16, "   0 127", 8);
    EQUAL(ringlist_mark_length(mark, 599), 599);
    EQUAL(ringlist_mark_length(mark, 598), 0);
    memcpy(mark + 20, "   x", 4);
    EQUAL(ringlist_mark_length(mark, 700), 0);
    memcpy(mark + 20, "   0", 4);
    EQUAL(ringlist_mark_length(mark, 91), 91);
    memcpy(mark + 20, "0000", 4);
    EQUAL(ringlist_mark_length(mark, 700), 0);
    memcpy(mark + 20, "0002", 4);
    EQUAL(ringlist_mark_length(mark, 700), 0);
    EQUAL(ringlist_listed(mark, 700), UINT64_C(9999999999999999999));
    memcpy(mark + 20, " 002", 4);
    EQUAL(ringlist_mark_length(mark, 700), 0);
    /* The field of the bonds in the same way. */
    memcpy(mark + 20, "   2", 4);
    EQUAL(ringlist_mark_length(mark, 99), 99);
    memcpy(mark + 16, "   5", 4);
    EQUAL(ringlist_mark_length(mark, 144), 144);
    memcpy(mark + 16, "0005", 4);
    EQUAL(ringlist_mark_length(mark, 700), 0);
    memcpy(mark + 16, "0000", 4);
    EQUAL(ringlist_mark_length(mark, 700), 0);
    memcpy(mark + 16, " 005", 4);
    EQUAL(ringlist_mark_length(mark, 700), 0);
    memcpy(mark + 16, "    ", 4);
    EQUAL(ringlist_mark_length(mark, 700), 0);
    memcpy(mark + 16, "5   ", 4);
    EQUAL(ringlist_mark_length(mark, 700), 0);
    EQUAL(ringlist_listed(mark, 700), UINT64_C(9999999999999999999));
}

static void *call_in_thread(void *calls) {
    /* Not on the stack that is measured. */
    static uint8_t rings[8], next[MARK], fresh[MARK];
    uint64_t number = 0;
    size_t length = 0;
    return calls != NULL &&
                   ringlist_resume((const uint8_t *)SHEET, (const uint8_t *)full_mark, 144, 11,
                                   rings, 8, next, MARK) == 101 &&
                   ringlist_start((const uint8_t *)SHEET, 2, 12, 0, fresh, MARK) == 0 &&
                   ringlist_resume((const uint8_t *)SHEET, fresh, 136, 16, rings, 8, next, MARK) == 101 &&
                   ringlist_start((const uint8_t *)SHEET, 3, 2, 4, fresh, MARK) == 0 &&
                   ringlist_resume((const uint8_t *)SHEET, fresh, 136, 16, rings, 8, next, MARK) == 101 &&
                   ringlist_count_shortest((const uint8_t *)SHEET, 2, 4, &number) == 0 && number == 2 &&
                   ringlist_carry_over((const uint8_t *)SHEET, (const uint8_t *)full_mark, 99, next, MARK,
                                       &length) == 0 && length == 144 &&
                   ringlist_carry_back((const uint8_t *)SHEET, next, 144, fresh, MARK, &length) == 0 &&
                   length == 99 &&
                   ringlist_molfile((const uint8_t *)molfile, sizeof molfile - 1, next, MARK, &length) == 0 &&
                   length == 54
               ? calls
               : NULL;
}

/* Bytes that a thread uses of a stack of its own. */
static size_t stack_used(void *calls) {
    uint8_t *stack = aligned_alloc(4096, STACK);
    pthread_attr_t attributes;
    pthread_t thread;
    void *result;
    size_t kept = 0;
    if (stack == NULL) {
        abort();
    }
    memset(stack, PATTERN, STACK);
    if (pthread_attr_init(&attributes) != 0 ||
        pthread_attr_setstack(&attributes, stack, STACK) != 0 ||
        pthread_create(&thread, &attributes, call_in_thread, calls) != 0 ||
        pthread_join(thread, &result) != 0) {
        abort();
    }
    CHECK(result == calls);
    while (kept < STACK && stack[kept] == PATTERN) {
        kept++;
    }
    pthread_attr_destroy(&attributes);
    free(stack);
    return STACK - kept;
}

/* Calls use less than the 32 kilobytes of stack that the header says. */
static void stack(void) {
    int yes = 1;
    size_t without = stack_used(NULL);
    size_t with = stack_used(&yes);
    printf("host_test.c: %zu bytes of stack\n", with - without);
    CHECK(with - without < 32 * 1024);
}

/* With a word after its name it does not measure the stack, which valgrind would
   take for reads of dead memory. */
int main(int words, char **word) {
    (void)word;
    document_by_budget();
    document_by_output();
    document_by_filling();
    refusals();
    zero_lengths();
    overlap();
    isomers();
    many_bonds();
    paths();
    shortest();
    starts();
    listings_of_each_kind();
    counts_of_shortest();
    carrying_of_cubane();
    carrying();
    refused_carrying();
    molfiles();
    limit();
    mark_readers();
    if (words == 1) {
        stack();
    }
    printf("host_test.c: %u checks, %u failed\n", checks, failures);
    return failures != 0;
}
