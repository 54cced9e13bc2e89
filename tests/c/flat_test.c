/* Hand-worked cases for the library behind include/flat.h. */
#include "flat.h"

#include <inttypes.h>
#include <stdio.h>
#include <stdlib.h>
#include <string.h>

#define ROWS 2048
#define RECORD (4 + ROWS)
#define NUMBERS 10
#define PLACES 128
#define PATTERN 0xA5

static unsigned checks;
static unsigned failures;

static void check(int holds, int line, const char *what) {
    checks++;
    if (!holds) {
        failures++;
        printf("flat_test.c:%d: failed: %s\n", line, what);
    }
}

static void check_number(uint64_t got, uint64_t expected, int line, const char *what) {
    check(got == expected, line, what);
    if (got != expected) {
        printf("    got %" PRIu64 ", expected %" PRIu64 "\n", got, expected);
    }
}

#define CHECK(holds) check((holds), __LINE__, #holds)
#define EQUAL(got, expected) check_number((got), (expected), __LINE__, #got)

static int all_are(const uint8_t *bytes, size_t len, uint8_t value) {
    for (size_t i = 0; i < len; i++) {
        if (bytes[i] != value) {
            return 0;
        }
    }
    return 1;
}

/* Inputs are handed over in memory of exactly their length, so that valgrind
   sees a read past the end. */
static uint8_t *exact(const void *bytes, size_t len) {
    uint8_t *copy = malloc(len);
    if (copy == NULL && len != 0) {
        abort();
    }
    if (len != 0) {
        memcpy(copy, bytes, len);
    }
    return copy;
}

/* The document's sheet: 4 atoms, 5 bonds. */
static const char document[] =
    "   4   5\n"
    "   1   2\n"
    "   2   3\n"
    "   3   4\n"
    "   1   4\n"
    "   1   3\n";

/* Its rows. Atom b is bit b - 1 of the first byte of a row, as all atoms are
   at most 8; row a begins at byte 16 * (a - 1).
     atom 1 is bonded to 2, 3, 4: bits 1, 2, 3: 2 + 4 + 8 = 0x0E
     atom 2 is bonded to 1, 3:    bits 0, 2:    1 + 4     = 0x05
     atom 3 is bonded to 1, 2, 4: bits 0, 1, 3: 1 + 2 + 8 = 0x0B
     atom 4 is bonded to 1, 3:    bits 0, 2:    1 + 4     = 0x05
   The one bits number 3 + 2 + 3 + 2 = 10 = 2 * 5. */
static void document_rows(uint8_t rows[ROWS]) {
    memset(rows, 0, ROWS);
    rows[0] = 0x0E;
    rows[16] = 0x05;
    rows[32] = 0x0B;
    rows[48] = 0x05;
}

/* Reads a sheet into a record filled with a pattern. */
static uint32_t read_sheet(const char *sheet, size_t len, uint8_t record[RECORD]) {
    uint8_t *given = exact(sheet, len);
    uint8_t *output = malloc(RECORD);
    if (output == NULL) {
        abort();
    }
    memset(output, PATTERN, RECORD);
    uint32_t answer = flat_read_sheet(given, len, output, RECORD);
    memcpy(record, output, RECORD);
    free(output);
    free(given);
    return answer;
}

/* Reads a sheet written as a string into `record`. */
#define READ_SHEET(sheet) read_sheet((sheet), sizeof(sheet) - 1, record)

/* A sheet, its answer, and the record left alone. */
static void refused(const char *sheet, size_t len, uint32_t rule, int line) {
    uint8_t record[RECORD];
    check_number(read_sheet(sheet, len, record), rule, line, "answer of the reader");
    check(all_are(record, RECORD, PATTERN), line, "record unchanged");
}

#define REFUSED(sheet, rule) refused((sheet), sizeof(sheet) - 1, (rule), __LINE__)

static void sheets(void) {
    uint8_t record[RECORD];
    uint8_t expected[RECORD];

    /* 4 atoms and 5 bonds, low byte first, then the rows. */
    expected[0] = 4;
    expected[1] = 0;
    expected[2] = 5;
    expected[3] = 0;
    document_rows(expected + 4);
    EQUAL(read_sheet(document, sizeof document - 1, record), 0);
    CHECK(memcmp(record, expected, RECORD) == 0);

    /* The same sheet filled by zeros, and by both from field to field. */
    EQUAL(READ_SHEET("00040005\n00010002\n00020003\n00030004\n00010004\n00010003\n"), 0);
    CHECK(memcmp(record, expected, RECORD) == 0);
    EQUAL(READ_SHEET("0004   5\n   10002\n0002   3\n   30004\n00010004\n   1   3\n"), 0);
    CHECK(memcmp(record, expected, RECORD) == 0);
    EQUAL(READ_SHEET("   40005\n0001   2\n   20003\n0003   4\n   1   4\n00010003\n"), 0);
    CHECK(memcmp(record, expected, RECORD) == 0);

    /* No atoms: all bytes 0. */
    EQUAL(READ_SHEET("   0   0\n"), 0);
    CHECK(all_are(record, RECORD, 0));
    EQUAL(READ_SHEET("00000000\n"), 0);
    CHECK(all_are(record, RECORD, 0));
    EQUAL(READ_SHEET("   00000\n"), 0);
    CHECK(all_are(record, RECORD, 0));

    /* 128 atoms, the bonds 128-1 and 9-128.
         atom 1 is bonded to 128: bit 127 of row 1: byte 15, bit 7: 0x80
         atom 9 is bonded to 128: row 9 begins at 16 * 8 = 128; byte 143: 0x80
         atom 128 is bonded to 1 and 9: row 128 begins at 16 * 127 = 2032;
         byte 2032, bit 0: 0x01; byte 2033, bit 0: 0x01 */
    memset(expected, 0, RECORD);
    expected[0] = 128;
    expected[2] = 2;
    expected[4 + 15] = 0x80;
    expected[4 + 143] = 0x80;
    expected[4 + 2032] = 0x01;
    expected[4 + 2033] = 0x01;
    EQUAL(READ_SHEET(" 128   2\n 128   1\n   9 128\n"), 0);
    CHECK(memcmp(record, expected, RECORD) == 0);
    EQUAL(READ_SHEET("01280002\n01280001\n00090128\n"), 0);
    CHECK(memcmp(record, expected, RECORD) == 0);
    EQUAL(READ_SHEET("0128   2\n 1280001\n00090128\n"), 0);
    CHECK(memcmp(record, expected, RECORD) == 0);

    /* 1,024 bonds are 0x0400: byte 2 is 0, byte 3 is 4. They join each of
       atoms 1 to 16 to each of atoms 17 to 80, so that rows 1 to 16 have bytes
       2 to 9 full, and rows 17 to 80 have bytes 0 and 1 full. */
    static char full[9 * 1025 + 1];
    int at = sprintf(full, "%4d%4d\n", 80, 1024);
    for (int a = 1; a <= 16; a++) {
        for (int b = 17; b <= 80; b++) {
            at += sprintf(full + at, "%4d%4d\n", a, b);
        }
    }
    CHECK(at == 9 * 1025);
    memset(expected, 0, RECORD);
    expected[0] = 80;
    expected[3] = 4;
    for (int a = 1; a <= 80; a++) {
        uint8_t *row = expected + 4 + 16 * (a - 1);
        if (a <= 16) {
            memset(row + 2, 0xFF, 8);
        } else {
            memset(row, 0xFF, 2);
        }
    }
    EQUAL(read_sheet(full, 9 * 1025, record), 0);
    CHECK(memcmp(record, expected, RECORD) == 0);
    /* The same with the last line left out, and with its two fields equal. */
    refused(full, 9 * 1024, 5, __LINE__);
    memcpy(full + 9 * 1024, "  80  80\n", 9);
    refused(full, 9 * 1025, 7, __LINE__);
    memcpy(full + 9 * 1024, "  17   1\n", 9);
    refused(full, 9 * 1025, 8, __LINE__);

    /* 1: shorter than 9 bytes, or not a multiple of 9. */
    REFUSED("", 1);
    REFUSED("   0   0", 1);
    REFUSED("   0   0\n\n", 1);
    REFUSED("   0   0\r\n", 1);
    /* 2: a field or a line end has the wrong bytes; blanks or zeros may fill a field, and not both. */
    REFUSED("   0    \n", 2);
    REFUSED("  04   0\n", 2);
    REFUSED(" 012   0\n", 2);
    REFUSED("0 12   0\n", 2);
    REFUSED("00 4   0\n", 2);
    REFUSED("012    0\n", 2);
    REFUSED("0004  00\n", 2);
    REFUSED("00040001\n00010 02\n", 2);
    REFUSED("00040001\n 0010002\n", 2);
    REFUSED("4      0\n", 2);
    REFUSED(" 4     0\n", 2);
    REFUSED(" 1 2   0\n", 2);
    REFUSED("  -1   0\n", 2);
    REFUSED("\t  4   0\n", 2);
    REFUSED("   4\0\0\0" "0\n", 2);
    REFUSED("   4   0\r", 2);
    REFUSED("   4   1\n   1   2 ", 2);
    REFUSED("   /   0\n", 2);
    REFUSED("   :   0\n", 2);
    /* 3: n is above 128. */
    REFUSED(" 129   0\n", 3);
    REFUSED("9999   0\n", 3);
    /* 4: m is above 1,024. */
    REFUSED(" 1281025\n", 4);
    REFUSED("   09999\n", 4);
    /* 5: not 9 * (m + 1) bytes. */
    REFUSED("   4   1\n", 5);
    REFUSED("   4   0\n   1   2\n", 5);
    REFUSED("   41024\n   1   2\n", 5);
    /* 6: atom 0, or an atom above n. */
    REFUSED("   4   1\n   0   2\n", 6);
    REFUSED("   4   1\n   2   0\n", 6);
    REFUSED("   4   1\n   5   2\n", 6);
    REFUSED("   4   1\n   2   5\n", 6);
    REFUSED("   0   1\n   1   2\n", 6);
    /* 7: an atom bonded to itself. */
    REFUSED("   4   1\n   3   3\n", 7);
    /* 8: the same bond twice, in either order. */
    REFUSED("   4   2\n   1   2\n   1   2\n", 8);
    REFUSED("   4   2\n   1   2\n   2   1\n", 8);
    /* The same rules on sheets that zeros fill, in whole or in part. */
    REFUSED("00040000\n0", 1);
    REFUSED("00040000\r", 2);
    REFUSED("01290000\n", 3);
    REFUSED("01281025\n", 4);
    REFUSED("00040001\n", 5);
    REFUSED("00040001\n00000002\n", 6);
    REFUSED("00040001\n00020005\n", 6);
    REFUSED("00040001\n0003   3\n", 7);
    REFUSED("00040002\n00010002\n0002   1\n", 8);

    /* The order of the rules: each over the whole sheet before the next. */
    REFUSED("  04   0\n\n", 1);
    REFUSED(" 1299999\n   1   x\n", 2);
    REFUSED(" 1291025\n", 3);
    REFUSED("   41025\n   1   1\n", 4);
    REFUSED("   4   1\n   0   0\n   1   1\n", 5);
    REFUSED("   4   3\n   1   2\n   1   1\n   0   2\n", 6);
    REFUSED("   4   1\n   0   0\n", 6);
    REFUSED("   4   3\n   1   2\n   2   1\n   3   3\n", 7);
    REFUSED("   4   2\n   3   3\n   3   3\n", 7);

    /* A record of a wrong length is left alone. */
    uint8_t longer[RECORD + 1];
    uint8_t *sheet = exact(document, sizeof document - 1);
    memset(longer, PATTERN, sizeof longer);
    EQUAL(flat_read_sheet(sheet, sizeof document - 1, longer, RECORD + 1), 10000);
    EQUAL(flat_read_sheet(sheet, sizeof document - 1, longer, RECORD - 1), 10000);
    EQUAL(flat_read_sheet(sheet, sizeof document - 1, longer, 0), 10000);
    EQUAL(flat_read_sheet(sheet, 0, longer, ROWS), 10000);
    CHECK(all_are(longer, sizeof longer, PATTERN));
    free(sheet);
}

static void records(void) {
    uint8_t rows[ROWS];
    document_rows(rows);
    EQUAL(flat_check_record(4, 5, rows, ROWS), 0);
    /* Atoms without bonds may follow. */
    EQUAL(flat_check_record(5, 5, rows, ROWS), 0);
    EQUAL(flat_check_record(128, 5, rows, ROWS), 0);
    /* n out of range, or below an atom that has bonds. */
    EQUAL(flat_check_record(129, 5, rows, ROWS), 9);
    EQUAL(flat_check_record(UINT64_MAX, 5, rows, ROWS), 9);
    EQUAL(flat_check_record((UINT64_C(1) << 32) + 4, 5, rows, ROWS), 9);
    EQUAL(flat_check_record(3, 5, rows, ROWS), 9);
    EQUAL(flat_check_record(0, 5, rows, ROWS), 9);
    /* m is not half the one bits, if only in its high bits. */
    EQUAL(flat_check_record(4, 4, rows, ROWS), 9);
    EQUAL(flat_check_record(4, 6, rows, ROWS), 9);
    EQUAL(flat_check_record(4, (UINT64_C(1) << 63) + 5, rows, ROWS), 9);
    EQUAL(flat_check_record(4, UINT64_MAX, rows, ROWS), 9);
    /* The bond 2-4 on one side only, then on both. */
    rows[16] |= 0x08;
    EQUAL(flat_check_record(4, 5, rows, ROWS), 9);
    EQUAL(flat_check_record(4, 6, rows, ROWS), 9);
    rows[48] |= 0x02;
    EQUAL(flat_check_record(4, 5, rows, ROWS), 9);
    EQUAL(flat_check_record(4, 6, rows, ROWS), 0);
    /* The bit of 2 in row 1 moved to the bit of 4 in row 2: 10 one bits. */
    document_rows(rows);
    rows[0] = 0x0C;
    rows[16] |= 0x08;
    EQUAL(flat_check_record(4, 5, rows, ROWS), 9);
    /* A bit in row 5, beyond n. */
    document_rows(rows);
    rows[64] = 0x01;
    EQUAL(flat_check_record(4, 5, rows, ROWS), 9);
    /* Atoms 1 and 2 bonded to themselves: 10 + 2 one bits. */
    document_rows(rows);
    rows[0] |= 0x01;
    rows[16] |= 0x02;
    EQUAL(flat_check_record(4, 6, rows, ROWS), 9);
    /* The bond 1-128: row 1, bit 127; row 128, bit 0. */
    document_rows(rows);
    rows[15] = 0x80;
    rows[2032] = 0x01;
    EQUAL(flat_check_record(128, 6, rows, ROWS), 0);
    EQUAL(flat_check_record(127, 6, rows, ROWS), 9);
    /* Rows 1 to 45 all bonded: 45 * 44 / 2 = 990 bonds. Atom 46 bonded to 34
       of them makes 1,024, to 35 of them 1,025. */
    memset(rows, 0, ROWS);
    for (int a = 1; a <= 45; a++) {
        for (int b = 1; b <= 45; b++) {
            if (a != b) {
                rows[16 * (a - 1) + (b - 1) / 8] |= (uint8_t)(1 << (b - 1) % 8);
            }
        }
    }
    EQUAL(flat_check_record(45, 990, rows, ROWS), 0);
    for (int a = 1; a <= 35; a++) {
        rows[16 * (a - 1) + 45 / 8] |= 1 << 45 % 8;
        rows[16 * 45 + (a - 1) / 8] |= (uint8_t)(1 << (a - 1) % 8);
        if (a == 34) {
            EQUAL(flat_check_record(46, 1024, rows, ROWS), 0);
        }
    }
    EQUAL(flat_check_record(46, 1025, rows, ROWS), 9);
    /* No bonds. */
    memset(rows, 0, ROWS);
    EQUAL(flat_check_record(0, 0, rows, ROWS), 0);
    EQUAL(flat_check_record(128, 0, rows, ROWS), 0);
    EQUAL(flat_check_record(128, 1, rows, ROWS), 9);
    EQUAL(flat_check_record(128, UINT64_C(1) << 63, rows, ROWS), 9);
    /* Rows of a wrong length. */
    EQUAL(flat_check_record(0, 0, rows, ROWS - 1), 10000);
    EQUAL(flat_check_record(129, 0, rows, 0), 10000);
    uint8_t longer[ROWS + 1] = {0};
    EQUAL(flat_check_record(0, 0, longer, ROWS + 1), 10000);
}

static uint8_t rows[ROWS];

static uint32_t ring(const char *list, size_t len) {
    uint8_t *given = exact(list, len);
    uint32_t answer = flat_judge_ring(4, 5, rows, ROWS, given, len);
    free(given);
    return answer;
}

static uint32_t path(uint64_t s, uint64_t t, const char *list, size_t len) {
    uint8_t *given = exact(list, len);
    uint32_t answer = flat_judge_path(4, 5, rows, ROWS, s, t, given, len);
    free(given);
    return answer;
}

/* A list is written as a string of its atoms in octal. */
#define RING(list) ring((list), sizeof(list) - 1)
#define PATH(s, t, list) path((s), (t), (list), sizeof(list) - 1)

static void judge(void) {
    document_rows(rows);
    EQUAL(RING("\1\2\3"), 1);
    EQUAL(RING("\1\3\4"), 1);
    /* The chord 1-3. */
    EQUAL(RING("\1\2\3\4"), 0);
    /* The second atom is above the last. */
    EQUAL(RING("\1\4\3"), 0);
    EQUAL(RING("\1\3\2"), 0);
    /* The first atom is not the lowest. */
    EQUAL(RING("\3\1\2"), 0);
    EQUAL(RING("\2\1\3"), 0);
    /* 2-4 is no bond. */
    EQUAL(RING("\1\2\4"), 0);
    EQUAL(RING("\2\3\4"), 0);
    /* Too few atoms, an atom twice, atom 0, atoms above n. */
    EQUAL(RING(""), 0);
    EQUAL(RING("\1"), 0);
    EQUAL(RING("\1\2"), 0);
    EQUAL(RING("\1\2\1"), 0);
    EQUAL(RING("\1\2\1\4"), 0);
    EQUAL(RING("\1\2\3\3"), 0);
    EQUAL(RING("\0\1\2"), 0);
    EQUAL(RING("\1\2\0"), 0);
    EQUAL(RING("\1\2\5"), 0);
    EQUAL(RING("\1\2\203"), 0);
    EQUAL(RING("\1\2\377"), 0);

    EQUAL(PATH(2, 4, "\2\1\4"), 1);
    EQUAL(PATH(2, 4, "\2\3\4"), 1);
    EQUAL(PATH(4, 2, "\4\3\2"), 1);
    EQUAL(PATH(1, 3, "\1\3"), 1);
    EQUAL(PATH(3, 1, "\3\1"), 1);
    /* 2 and 3 are bonded, and so are 1 and 4. */
    EQUAL(PATH(2, 4, "\2\1\3\4"), 0);
    EQUAL(PATH(1, 3, "\1\2\3"), 0);
    /* Other ends. */
    EQUAL(PATH(2, 4, "\4\1\2"), 0);
    EQUAL(PATH(2, 4, "\2\1"), 0);
    EQUAL(PATH(2, 4, "\1\4"), 0);
    EQUAL(PATH(2, 4, "\2\4"), 0);
    EQUAL(PATH(2, 4, "\2"), 0);
    EQUAL(PATH(2, 4, ""), 0);
    EQUAL(PATH(2, 4, "\2\0\4"), 0);
    EQUAL(PATH(2, 4, "\2\5\4"), 0);
    EQUAL(PATH(2, 4, "\2\1\2\1\4"), 0);
    /* 10 before 11, and both before the list. */
    EQUAL(PATH(0, 4, "\2\1\4"), 10);
    EQUAL(PATH(2, 0, "\2\1\4"), 10);
    EQUAL(PATH(5, 4, "\2\1\4"), 10);
    EQUAL(PATH(2, 5, "\2\1\4"), 10);
    EQUAL(PATH(258, 4, "\2\1\4"), 10);
    EQUAL(PATH(2, UINT64_MAX, "\2\1\4"), 10);
    EQUAL(PATH(0, 0, ""), 10);
    EQUAL(PATH(5, 5, "\5"), 10);
    EQUAL(PATH(2, 2, "\2"), 11);

    /* 9 before all that: the bond 1-2 has lost one of its bits. */
    rows[0] = 0x0C;
    EQUAL(RING("\1\3\4"), 9);
    EQUAL(RING(""), 9);
    EQUAL(PATH(2, 4, "\2\3\4"), 9);
    EQUAL(PATH(0, 4, "\2\3\4"), 9);
    EQUAL(PATH(2, 2, "\2"), 9);
    /* And a wrong length before 9. */
    EQUAL(flat_judge_ring(4, 5, rows, ROWS - 1, rows, 0), 10000);
    EQUAL(flat_judge_path(4, 5, rows, ROWS - 1, 0, 0, rows, 0), 10000);
}

/* A field, its value, and whether zeros fill it. */
static void field_is(const char *field, size_t len, uint64_t value, uint32_t zeros, int line) {
    uint8_t *given = exact(field, len);
    check_number(flat_read_field(given, len), value, line, "value of the field");
    check_number(flat_zero_filled(given, len), zeros, line, "zeros fill the field");
    free(given);
}

#define ZEROS(field, value) field_is((field), sizeof(field) - 1, (value), 1, __LINE__)
#define NO_ZEROS(field, value) field_is((field), sizeof(field) - 1, (value), 0, __LINE__)
#define NO_NUMBER(field) NO_ZEROS(field, UINT64_MAX)

/* Writes a value into a field with a byte on either side. */
static int writes(uint64_t value, const char *expected) {
    uint8_t bytes[32];
    size_t len = strlen(expected);
    memset(bytes, PATTERN, sizeof bytes);
    flat_write_field(bytes + 1, len, value);
    return bytes[0] == PATTERN && memcmp(bytes + 1, expected, len) == 0 &&
           all_are(bytes + 1 + len, sizeof bytes - 1 - len, PATTERN);
}

static void fields(void) {
    NO_ZEROS("   0", 0);
    NO_ZEROS("   7", 7);
    NO_ZEROS("  10", 10);
    NO_ZEROS("  12", 12);
    NO_ZEROS(" 128", 128);
    NO_ZEROS("                   0", 0);
    NO_ZEROS(" 9999999999999999999", UINT64_C(9999999999999999999));
    /* Filled by zeros: a digit 0 in the first column. */
    ZEROS("0012", 12);
    ZEROS("0000", 0);
    ZEROS("0007", 7);
    ZEROS("0128", 128);
    ZEROS("0999", 999);
    ZEROS("0", 0);
    ZEROS("00", 0);
    ZEROS("00000000000000000000", 0);
    ZEROS("00000000000000000012", 12);
    ZEROS("09999999999999999999", UINT64_C(9999999999999999999));
    ZEROS("0000000000000000000000000000000000000000000000000000000000000007", 7);
    /* Filled by neither. */
    NO_ZEROS("1234", 1234);
    NO_ZEROS("1000", 1000);
    NO_ZEROS("9999", 9999);
    NO_ZEROS("5", 5);
    NO_ZEROS("9999999999999999999", UINT64_C(9999999999999999999));
    /* One above the limit, and 2 to the 64th plus one. */
    NO_NUMBER("10000000000000000000");
    NO_NUMBER(" 10000000000000000000");
    NO_NUMBER("010000000000000000000");
    NO_NUMBER("18446744073709551617");
    NO_NUMBER("00018446744073709551617");
    /* Two fillings. */
    NO_NUMBER(" 012");
    NO_NUMBER("0 12");
    NO_NUMBER("00 1");
    NO_NUMBER("  00");
    NO_NUMBER(" 000");
    NO_NUMBER("0   ");
    NO_NUMBER(" 0000000000000000012");
    NO_NUMBER("0                 12");
    /* No fields. */
    NO_NUMBER("");
    NO_NUMBER(" ");
    NO_NUMBER("    ");
    NO_NUMBER("12  ");
    NO_NUMBER("012 ");
    NO_NUMBER("1 2 ");
    NO_NUMBER(" 1 2");
    NO_NUMBER("\t\t\t1");
    NO_NUMBER("\0\0\0001");
    NO_NUMBER("   /");
    NO_NUMBER("   :");
    NO_NUMBER("000/");
    NO_NUMBER("000:");
    NO_NUMBER("00\n1");
    NO_NUMBER("0x12");
    NO_NUMBER("  +1");

    CHECK(writes(0, "   0"));
    CHECK(writes(7, "   7"));
    CHECK(writes(10, "  10"));
    CHECK(writes(9999, "9999"));
    CHECK(writes(0, "0"));
    CHECK(writes(7, ""));
    CHECK(writes(UINT64_C(9999999999999999999), " 9999999999999999999"));
    CHECK(writes(UINT64_MAX, "18446744073709551615"));
    /* More digits than columns. */
    CHECK(writes(12345, "2345"));
    CHECK(writes(10020, "0020"));
    CHECK(writes(10000, "0000"));
}

/* A search with its used and made, and the prefix. */
typedef struct {
    uint64_t numbers[NUMBERS];
    uint8_t prefix[PLACES];
} search;

/* Kind, s, t, length, next atom, trials, extensions, listed, used, made. */
static int is(const search *given, const uint64_t numbers[NUMBERS], const char *prefix) {
    uint8_t places[PLACES] = {0};
    memcpy(places, prefix, strlen(prefix));
    return memcmp(given->numbers, numbers, sizeof given->numbers) == 0 &&
           memcmp(given->prefix, places, PLACES) == 0;
}

#define IS(given, prefix, ...) \
    CHECK(is((given), (const uint64_t[NUMBERS]){__VA_ARGS__}, (prefix)))

static int same(const search *one, const search *other) {
    return memcmp(one, other, sizeof *one) == 0;
}

static uint32_t start_rings(search *given) {
    return flat_start_rings(4, 5, rows, ROWS, given->numbers, NUMBERS, given->prefix, PLACES);
}

static uint32_t start_paths(search *given, uint64_t s, uint64_t t) {
    return flat_start_paths(4, 5, rows, ROWS, s, t, given->numbers, NUMBERS, given->prefix,
                            PLACES);
}

static uint32_t start_rings_up_to(search *given, uint64_t size) {
    return flat_start_rings_up_to(4, 5, rows, ROWS, size, given->numbers, NUMBERS, given->prefix,
                                  PLACES);
}

static uint32_t start_shortest(search *given, uint64_t s, uint64_t t) {
    return flat_start_shortest(4, 5, rows, ROWS, s, t, given->numbers, NUMBERS, given->prefix,
                               PLACES);
}

/* Runs with an output of exactly `len` bytes, copied into `out` of 16. */
static uint32_t run(search *given, uint64_t budget, uint8_t out[16], size_t len) {
    memset(out, PATTERN, 16);
    uint8_t *exactly = exact(out, len);
    uint32_t answer = flat_run(4, 5, rows, ROWS, given->numbers, NUMBERS, given->prefix, PLACES,
                               budget, exactly, len);
    if (len != 0) {
        memcpy(out, exactly, len);
    }
    free(exactly);
    return answer;
}

/* Saves into a mark of `len` bytes at the start of 700. */
static uint32_t save(const search *given, uint8_t mark[700], size_t len) {
    memset(mark, PATTERN, 700);
    return flat_save(4, 5, rows, ROWS, given->numbers, NUMBERS, given->prefix, PLACES, mark, len);
}

static uint32_t restore(search *given, const char *mark, size_t len) {
    uint8_t *exactly = exact(mark, len);
    uint32_t answer = flat_restore(4, 5, rows, ROWS, exactly, len, given->numbers, NUMBERS,
                                   given->prefix, PLACES);
    free(exactly);
    return answer;
}

/* The document's mark: kind 0, s and t 0, 4 atoms, 5 bonds, 2 atoms in p, next
   atom 3; 5 trials, 2 extensions, 0 listed; p = 1 2; and the five bonds, lower
   atom first, in dictionary order. Line ends included, 29 + 61 + 9 + 5 * 9 = 144
   bytes. */
#define LINE_1 "   0   0   0   4   5   2   3\n"
#define LINE_2 "                   5                   2                   0\n"
#define LINE_3 "   1   2\n"
#define BONDS "   1   2\n   1   3\n   1   4\n   2   3\n   3   4\n"
static const char full_mark[] = LINE_1 LINE_2 LINE_3 BONDS;

/* A mark refused, and the search left alone. */
static void mark_refused(const char *mark, size_t len, uint32_t rule, int line) {
    search given, before;
    memset(&given, PATTERN, sizeof given);
    before = given;
    check_number(restore(&given, mark, len), rule, line, "answer of restore");
    check(same(&given, &before), line, "search unchanged");
}

#define MARK_REFUSED(mark, rule) mark_refused((mark), sizeof(mark) - 1, (rule), __LINE__)

/* A search refused under rule 12 by a run and by a save, with nothing
   written. */
static void search_refused(search given, int line) {
    search before = given;
    uint8_t out[16];
    uint8_t mark[700];
    check_number(run(&given, 9, out, 16), 12, line, "answer of run");
    check(same(&given, &before), line, "search unchanged");
    check(all_are(out, 16, PATTERN), line, "output unchanged");
    check_number(save(&given, mark, 0), 12, line, "answer of save");
    check_number(save(&given, mark, 700), 12, line, "answer of save");
    check(all_are(mark, 700, PATTERN), line, "mark unchanged");
}

#define SEARCH_REFUSED(change)           \
    do {                                 \
        search wrong = full;             \
        wrong.change;                    \
        search_refused(wrong, __LINE__); \
    } while (0)

/* Two atoms dropped after one trial. The bonds 1-2, 2-4, 4-3, 3-1 make the ring
   1 2 4 3; rows 1 and 4 have bits 1 and 2, rows 2 and 3 bits 0 and 3.
     1: -    1  open   2: 1    1  no   3: 1    2  open   4 to 6: 1 2 with 1, 2, 3
     no   7: 1 2  4  open   8, 9: 1 2 4 with 1, 2  no   10: 1 2 4  3  listed
    11: 1 2 4  4  no; 4 is dropped, c is 5, 2 is dropped, c is 3
    12, 13: 1 with 3, 4  no, p becomes empty   14 to 16: 2, 3, 4  no, done */
static void four_ring(void) {
    static const uint8_t bits[4] = {0x06, 0x09, 0x09, 0x06};
    search now;
    uint8_t out[5];
    memset(rows, 0, ROWS);
    for (int a = 0; a < 4; a++) {
        rows[16 * a] = bits[a];
    }
    EQUAL(flat_start_rings(4, 4, rows, ROWS, now.numbers, NUMBERS, now.prefix, PLACES), 0);
    EQUAL(flat_run(4, 4, rows, ROWS, now.numbers, NUMBERS, now.prefix, PLACES, 10, out, 5), 103);
    IS(&now, "\1\2\4", 0, 0, 0, 3, 4, 10, 3, 1, 5, 10);
    CHECK(memcmp(out, "\4\1\2\4\3", 5) == 0);
    EQUAL(flat_run(4, 4, rows, ROWS, now.numbers, NUMBERS, now.prefix, PLACES, 1, out, 0), 103);
    IS(&now, "\1", 0, 0, 0, 1, 3, 11, 3, 1, 0, 1);
    EQUAL(flat_run(4, 4, rows, ROWS, now.numbers, NUMBERS, now.prefix, PLACES, 6, out, 0), 101);
    IS(&now, "", 0, 0, 0, 0, 5, 16, 3, 1, 0, 5);
}

/* Rings up to a size. The bonds 1-2, 2-3, 3-1 make a ring of three, and 1-4, 4-6,
   6-5, 5-1 one of four: rings 1 2 3 and 1 4 6 5. With k = 3 the second is no
   member, and 1 4 does not open.
     1: -    1  open     2: 1    1  no     3: 1    2  open
     4: 1 2  1  no       5: 1 2  2  no     6: 1 2  3  listed
     7 to 9: 1 2 with 4, 5, 6  no, p becomes 1 and c 3
    10 to 13: 1 with 3, 4, 5, 6  no, p becomes empty and c 2
    14 to 18: - with 2 to 6  no, done: 6 * (2 + 1) = 18 trials
   With k = 4 trial 11 opens 1 4, 1 4 with 6 opens, and 1 4 6 with 5 is listed:
   4 extensions, 30 trials, as without a size. */
static void two_rings_up_to(void) {
    /* 1: 2, 3, 4, 5. 2: 1, 3. 3: 1, 2. 4: 1, 6. 5: 1, 6. 6: 4, 5. */
    static const uint8_t bits[6] = {0x1E, 0x05, 0x03, 0x21, 0x21, 0x18};
    static const char both[] = "\3\1\2\3\4\1\4\6\5";
    static const struct {
        uint64_t size, trials, extensions, listed, used;
    } cases[4] = {{3, 18, 2, 1, 4}, {4, 30, 4, 2, 9}, {6, 30, 4, 2, 9}, {128, 30, 4, 2, 9}};
    search now;
    uint8_t out[16];
    memset(rows, 0, ROWS);
    for (int a = 0; a < 6; a++) {
        rows[16 * a] = bits[a];
    }
    for (int i = 0; i < 4; i++) {
        uint64_t size = cases[i].size;
        memset(out, PATTERN, 16);
        memset(&now, PATTERN, sizeof now);
        EQUAL(flat_start_rings_up_to(6, 7, rows, ROWS, size, now.numbers, NUMBERS, now.prefix,
                                     PLACES), 0);
        IS(&now, "", 2, size, 0, 0, 1, 0, 0, 0, 0, 0);
        EQUAL(flat_run(6, 7, rows, ROWS, now.numbers, NUMBERS, now.prefix, PLACES, 99, out, 16),
              101);
        IS(&now, "", 2, size, 0, 0, 7, cases[i].trials, cases[i].extensions, cases[i].listed,
           cases[i].used, cases[i].trials);
        CHECK(memcmp(out, both, cases[i].used) == 0);
        CHECK(all_are(out + cases[i].used, 16 - cases[i].used, PATTERN));
    }
    /* The beginning 1 4 is open with k = 4, and not with k = 3. */
    static const char mark[] =
        "   2   4   0   6   7   2   6\n"
        "                   0                   0                   0\n"
        "   1   4\n"
        "   1   2\n   1   3\n   1   4\n   1   5\n   2   3\n   4   6\n   5   6\n";
    EQUAL(flat_restore(6, 7, rows, ROWS, (const uint8_t *)mark, 162, now.numbers, NUMBERS,
                       now.prefix, PLACES), 0);
    IS(&now, "\1\4", 2, 4, 0, 2, 6, 0, 0, 0, 0, 0);
    uint8_t saved[163];
    memset(saved, PATTERN, 163);
    EQUAL(flat_save(6, 7, rows, ROWS, now.numbers, NUMBERS, now.prefix, PLACES, saved, 163), 162);
    CHECK(memcmp(saved, mark, 162) == 0 && saved[162] == PATTERN);
    now.numbers[1] = 3;
    search before = now;
    EQUAL(flat_run(6, 7, rows, ROWS, now.numbers, NUMBERS, now.prefix, PLACES, 9, out, 16), 12);
    EQUAL(flat_save(6, 7, rows, ROWS, now.numbers, NUMBERS, now.prefix, PLACES, saved, 163), 12);
    CHECK(same(&now, &before));
}

/* 1 2 goes on to a short ring and to a long one; with k = 4 only the short one
   counts, and 1 2 5 is not open. The bonds 1-2, 2-3, 3-4, 4-1 and 2-5, 5-6, 6-4
   make the rings 1 2 3 4, 1 2 5 6 4 and 2 3 4 6 5. With k = 4 the open
   beginnings are 1, 1 2 and 1 2 3: 6 * (3 + 1) = 24 trials. With k = 5 they are also 1 2 5, 1 2 5 6, 2, 2 3, 2 3 4
   and 2 3 4 6, 9 in all: 60 trials. */
static void three_rings_up_to(void) {
    /* 1: 2, 4. 2: 1, 3, 5. 3: 2, 4. 4: 1, 3, 6. 5: 2, 6. 6: 4, 5. */
    static const uint8_t bits[6] = {0x0A, 0x15, 0x0A, 0x25, 0x22, 0x18};
    static const char all[] = "\4\1\2\3\4\5\1\2\5\6\4\5\2\3\4\6\5";
    search now;
    uint8_t out[17];
    memset(rows, 0, ROWS);
    for (int a = 0; a < 6; a++) {
        rows[16 * a] = bits[a];
    }
    for (uint64_t size = 3; size <= 6; size++) {
        uint64_t listed = size == 3 ? 0 : size == 4 ? 1 : 3;
        uint64_t extensions = size == 3 ? 0 : size == 4 ? 3 : 9;
        uint64_t used = size == 3 ? 0 : size == 4 ? 5 : 17;
        uint64_t trials = 6 * (extensions + 1);
        memset(out, PATTERN, 17);
        EQUAL(flat_start_rings_up_to(6, 7, rows, ROWS, size, now.numbers, NUMBERS, now.prefix,
                                     PLACES), 0);
        EQUAL(flat_run(6, 7, rows, ROWS, now.numbers, NUMBERS, now.prefix, PLACES, 99, out, 17),
              101);
        IS(&now, "", 2, size, 0, 0, 7, trials, extensions, listed, used, trials);
        CHECK(memcmp(out, all, used) == 0 && all_are(out + used, 17 - used, PATTERN));
    }
    /* The mark of the molecule above, which has as many atoms and bonds, from a
       place that is open in both: 15, and nothing written. Then its own. */
    static const char isomer[] =
        "   0   0   0   6   7   1   2\n"
        "                   0                   0                   0\n"
        "   1\n"
        "   1   2\n   1   3\n   1   4\n   1   5\n   2   3\n   4   6\n   5   6\n";
    static const char own[] =
        "   0   0   0   6   7   1   2\n"
        "                   0                   0                   0\n"
        "   1\n"
        "   1   2\n   1   4\n   2   3\n   2   5\n   3   4\n   4   6\n   5   6\n";
    search before = now;
    EQUAL(flat_restore(6, 7, rows, ROWS, (const uint8_t *)isomer, 158, now.numbers, NUMBERS,
                       now.prefix, PLACES), 15);
    CHECK(same(&now, &before));
    EQUAL(flat_restore(6, 7, rows, ROWS, (const uint8_t *)own, 158, now.numbers, NUMBERS,
                       now.prefix, PLACES), 0);
    IS(&now, "\1", 0, 0, 0, 1, 2, 0, 0, 0, 0, 0);
}

/* The same functions on the document's sheet: what they refuse. */
static void refused_up_to(void) {
    static const uint64_t sizes[9] = {0, 1, 2, 129, 130, 256, 259, (UINT64_C(1) << 32) + 3,
                                      UINT64_MAX};
    search now, before, full;
    uint8_t out[16];
    document_rows(rows);
    /* k from 3 to 128, whatever n is. */
    for (uint64_t size = 3; size <= 128; size++) {
        memset(&now, PATTERN, sizeof now);
        EQUAL(start_rings_up_to(&now, size), 0);
        IS(&now, "", 2, size, 0, 0, 1, 0, 0, 0, 0, 0);
    }
    memset(&before, PATTERN, sizeof before);
    now = before;
    for (int i = 0; i < 9; i++) {
        EQUAL(start_rings_up_to(&now, sizes[i]), 21);
    }
    CHECK(same(&now, &before));
    /* 12: of a search at 1 2 with k = 4, in s or t or another kind. */
    EQUAL(start_rings_up_to(&full, 4), 0);
    EQUAL(run(&full, 5, out, 16), 103);
    IS(&full, "\1\2", 2, 4, 0, 2, 3, 5, 2, 0, 0, 5);
    for (int i = 0; i < 9; i++) {
        SEARCH_REFUSED(numbers[1] = sizes[i]);
    }
    SEARCH_REFUSED(numbers[2] = 1);
    SEARCH_REFUSED(numbers[2] = UINT64_C(1) << 32);
    SEARCH_REFUSED(numbers[0] = 0);
    SEARCH_REFUSED(numbers[0] = 1);
    SEARCH_REFUSED(numbers[0] = 3);
    SEARCH_REFUSED(numbers[0] = (UINT64_C(1) << 32) + 2);
    SEARCH_REFUSED(prefix[1] = 4);
    SEARCH_REFUSED(numbers[4] = 5);
    now = full;
    now.numbers[1] = 128;
    EQUAL(run(&now, 11, out, 8), 101);
    IS(&now, "", 2, 128, 0, 0, 5, 16, 3, 2, 8, 11);
    /* 16 in marks, before 17. */
    MARK_REFUSED("   2   2   0   4   5   2   0\n" LINE_2 LINE_3 BONDS, 16);
    MARK_REFUSED("   2 129   0   4   5   2   3\n" LINE_2 LINE_3 BONDS, 16);
    MARK_REFUSED("   2 259   0   4   5   2   3\n" LINE_2 LINE_3 BONDS, 16);
    MARK_REFUSED("   2   3   1   4   5   2   3\n" LINE_2 LINE_3 BONDS, 16);
    MARK_REFUSED("   3   3   0   4   5   2   3\n" LINE_2 LINE_3 BONDS, 16);
    MARK_REFUSED("   2   3   0   4   5   2   0\n" LINE_2 LINE_3 BONDS, 17);
    MARK_REFUSED("   2   3   0   4   5   2   3\n" LINE_2 "   1   4\n" BONDS, 17);
    MARK_REFUSED("   2   2   0   5   5   2   3\n" LINE_2 LINE_3 BONDS, 15);
    MARK_REFUSED("0002   3   0   4   5   2   3\n" LINE_2 LINE_3 BONDS, 14);
    /* 9 before 21: the bond 1-2 has lost one of its bits. And 10000 before both. */
    rows[0] = 0x0C;
    now = before;
    EQUAL(start_rings_up_to(&now, 3), 9);
    EQUAL(start_rings_up_to(&now, 2), 9);
    EQUAL(flat_start_rings_up_to(4, 5, rows, ROWS - 1, 2, now.numbers, NUMBERS, now.prefix, PLACES),
          10000);
    EQUAL(flat_start_rings_up_to(4, 5, rows, ROWS, 2, now.numbers, 9, now.prefix, PLACES), 10000);
    EQUAL(flat_start_rings_up_to(4, 5, rows, ROWS, 2, now.numbers, 11, now.prefix, PLACES), 10000);
    EQUAL(flat_start_rings_up_to(4, 5, rows, ROWS, 2, now.numbers, NUMBERS, now.prefix, 127), 10000);
    CHECK(same(&now, &before));
}

/* Shortest paths. The bonds 1-2, 2-3, 3-4 make a path from 1 to 4 of four atoms,
   and 1-5, 5-4 and 1-6, 6-4 two of three: 1 5 4 and 1 6 4. The first has no chord
   but is longer, so that 1 2 does not open.
     1: -    1  open     2 to 5: 1 with 1, 2, 3, 4  no     6: 1    5  open
     7 to 9: 1 5 with 1, 2, 3  no     10: 1 5  4  listed   11, 12: 1 5 with 5, 6
     no, p becomes 1 and c 6          13: 1    6  open
    14 to 16: 1 6 with 1, 2, 3  no    17: 1 6  4  listed   18, 19: 1 6 with 5, 6
     no, p becomes 1, then empty, and c 2
    20 to 24: - with 2 to 6  no, done: 6 * (3 + 1) = 24 trials
   A search of kind 1 also opens 1 2 and 1 2 3: 36 trials, three paths. */
static void shortest(void) {
    /* 1: 2, 5, 6. 2: 1, 3. 3: 2, 4. 4: 3, 5, 6. 5: 1, 4. 6: 1, 4. */
    static const uint8_t bits[6] = {0x32, 0x05, 0x0A, 0x34, 0x09, 0x09};
    search now;
    uint8_t out[16];
    memset(rows, 0, ROWS);
    for (int a = 0; a < 6; a++) {
        rows[16 * a] = bits[a];
    }
    memset(out, PATTERN, 16);
    memset(&now, PATTERN, sizeof now);
    EQUAL(flat_start_shortest(6, 7, rows, ROWS, 1, 4, now.numbers, NUMBERS, now.prefix, PLACES), 0);
    IS(&now, "", 3, 1, 4, 0, 1, 0, 0, 0, 0, 0);
    EQUAL(flat_run(6, 7, rows, ROWS, now.numbers, NUMBERS, now.prefix, PLACES, 10, out, 16), 103);
    IS(&now, "\1\5", 3, 1, 4, 2, 5, 10, 2, 1, 4, 10);
    CHECK(memcmp(out, "\3\1\5\4", 4) == 0 && all_are(out + 4, 12, PATTERN));
    /* Three bytes are too few for the other; full after trials 11 to 16. */
    EQUAL(flat_run(6, 7, rows, ROWS, now.numbers, NUMBERS, now.prefix, PLACES, 99, out, 3), 104);
    IS(&now, "\1\6", 3, 1, 4, 2, 4, 16, 3, 1, 0, 6);
    EQUAL(flat_run(6, 7, rows, ROWS, now.numbers, NUMBERS, now.prefix, PLACES, 99, out, 4), 101);
    IS(&now, "", 3, 1, 4, 0, 7, 24, 3, 2, 4, 8);
    CHECK(memcmp(out, "\3\1\6\4", 4) == 0 && all_are(out + 4, 12, PATTERN));
    /* The same ends as kind 1. */
    EQUAL(flat_start_paths(6, 7, rows, ROWS, 1, 4, now.numbers, NUMBERS, now.prefix, PLACES), 0);
    EQUAL(flat_run(6, 7, rows, ROWS, now.numbers, NUMBERS, now.prefix, PLACES, 99, out, 16), 101);
    IS(&now, "", 1, 1, 4, 0, 7, 36, 5, 3, 13, 36);
    CHECK(memcmp(out, "\4\1\2\3\4\3\1\5\4\3\1\6\4", 13) == 0);
    /* The beginning 1 5 is open, and 1 2 for kind 1 alone. */
    static const char mark[] =
        "   3   1   4   6   7   2   6\n"
        "                   0                   0                   0\n"
        "   1   5\n"
        "   1   2\n   1   5\n   1   6\n   2   3\n   3   4\n   4   5\n   4   6\n";
    uint8_t changed[162];
    memcpy(changed, mark, 162);
    EQUAL(flat_restore(6, 7, rows, ROWS, changed, 162, now.numbers, NUMBERS, now.prefix, PLACES), 0);
    IS(&now, "\1\5", 3, 1, 4, 2, 6, 0, 0, 0, 0, 0);
    uint8_t saved[163];
    memset(saved, PATTERN, 163);
    EQUAL(flat_save(6, 7, rows, ROWS, now.numbers, NUMBERS, now.prefix, PLACES, saved, 163), 162);
    CHECK(memcmp(saved, mark, 162) == 0 && saved[162] == PATTERN);
    search before = now;
    changed[97] = '2';
    EQUAL(flat_restore(6, 7, rows, ROWS, changed, 162, now.numbers, NUMBERS, now.prefix, PLACES),
          17);
    CHECK(same(&now, &before));
    changed[3] = '1';
    EQUAL(flat_restore(6, 7, rows, ROWS, changed, 162, now.numbers, NUMBERS, now.prefix, PLACES), 0);
    now.numbers[0] = 3;
    before = now;
    EQUAL(flat_run(6, 7, rows, ROWS, now.numbers, NUMBERS, now.prefix, PLACES, 9, out, 16), 12);
    EQUAL(flat_save(6, 7, rows, ROWS, now.numbers, NUMBERS, now.prefix, PLACES, saved, 163), 12);
    CHECK(same(&now, &before));
}

/* The same functions on the document's sheet: what they refuse. */
static void refused_shortest(void) {
    static const uint64_t ends[6] = {0, 5, 128, 258, (UINT64_C(1) << 32) + 2, UINT64_MAX};
    search now, before, full;
    uint8_t out[16];
    document_rows(rows);
    memset(&before, PATTERN, sizeof before);
    now = before;
    for (int i = 0; i < 6; i++) {
        EQUAL(start_shortest(&now, ends[i], 4), 10);
        EQUAL(start_shortest(&now, 2, ends[i]), 10);
        EQUAL(start_shortest(&now, ends[i], ends[i]), 10);
    }
    EQUAL(start_shortest(&now, 3, 3), 11);
    CHECK(same(&now, &before));
    /* 12: of a search at 2 1, whose next atom is 4. The trials: 2 opens, 2 1
       opens, 2 1 with 1, 2, 3. */
    EQUAL(start_shortest(&full, 2, 4), 0);
    EQUAL(run(&full, 6, out, 16), 103);
    IS(&full, "\2\1", 3, 2, 4, 2, 4, 6, 2, 0, 0, 6);
    for (int i = 0; i < 6; i++) {
        SEARCH_REFUSED(numbers[1] = ends[i]);
        SEARCH_REFUSED(numbers[2] = ends[i]);
    }
    SEARCH_REFUSED(numbers[1] = 4);
    SEARCH_REFUSED(numbers[2] = 2);
    SEARCH_REFUSED(numbers[0] = 0);
    SEARCH_REFUSED(numbers[0] = 2);
    SEARCH_REFUSED(numbers[0] = 4);
    SEARCH_REFUSED(numbers[0] = (UINT64_C(1) << 32) + 3);
    SEARCH_REFUSED(prefix[1] = 4);
    SEARCH_REFUSED(numbers[4] = 5);
    now = full;
    EQUAL(run(&now, 99, out, 8), 101);
    IS(&now, "", 3, 2, 4, 0, 5, 16, 3, 2, 8, 10);
    CHECK(memcmp(out, "\3\2\1\4\3\2\3\4", 8) == 0);
    /* 16 in marks, before 17; and 17: no shortest path from 1 to 3 begins 1 2. */
    MARK_REFUSED("   3   0   0   4   5   2   0\n" LINE_2 LINE_3 BONDS, 16);
    MARK_REFUSED("   3   1   0   4   5   2   3\n" LINE_2 LINE_3 BONDS, 16);
    MARK_REFUSED("   3   1   5   4   5   2   3\n" LINE_2 LINE_3 BONDS, 16);
    MARK_REFUSED("   3   1   1   4   5   2   3\n" LINE_2 LINE_3 BONDS, 16);
    MARK_REFUSED("   4   1   3   4   5   2   3\n" LINE_2 LINE_3 BONDS, 16);
    MARK_REFUSED("   3   1   3   4   5   2   3\n" LINE_2 LINE_3 BONDS, 17);
    MARK_REFUSED("   3   1   3   5   5   2   3\n" LINE_2 LINE_3 BONDS, 15);
    MARK_REFUSED("0003   1   3   4   5   2   3\n" LINE_2 LINE_3 BONDS, 14);
    /* 9 before 10 and 11: the bond 1-2 has lost one of its bits. And 10000 before
       them all. */
    rows[0] = 0x0C;
    now = before;
    EQUAL(start_shortest(&now, 2, 4), 9);
    EQUAL(start_shortest(&now, 0, 4), 9);
    EQUAL(start_shortest(&now, 3, 3), 9);
    EQUAL(flat_start_shortest(4, 5, rows, ROWS - 1, 0, 0, now.numbers, NUMBERS, now.prefix, PLACES),
          10000);
    EQUAL(flat_start_shortest(4, 5, rows, ROWS, 0, 0, now.numbers, 9, now.prefix, PLACES), 10000);
    EQUAL(flat_start_shortest(4, 5, rows, ROWS, 0, 0, now.numbers, NUMBERS, now.prefix, 129), 10000);
    CHECK(same(&now, &before));
}

/* What a number holds before a call that may write it. */
#define NO_COUNT UINT64_C(0xA5A5A5A5A5A5A5A5)

/* A count, its answer and the number, which is written with the answer 0 alone;
   the numbers beside it are kept. */
static void counted(uint64_t atoms, uint64_t bonds, size_t rows_len, uint64_t s, uint64_t t,
                    uint32_t answer, uint64_t number, int line) {
    uint64_t around[3] = {NO_COUNT, NO_COUNT, NO_COUNT};
    uint8_t *given = exact(rows, rows_len);
    check_number(flat_count_shortest(atoms, bonds, given, rows_len, s, t, &around[1]), answer, line,
                 "answer of count");
    check_number(around[1], number, line, "count");
    check(around[0] == NO_COUNT && around[2] == NO_COUNT, line, "numbers beside the count");
    check(memcmp(given, rows, rows_len) == 0, line, "rows kept");
    free(given);
}

#define COUNTED(n, m, s, t, number) counted((n), (m), ROWS, (s), (t), 0, (number), __LINE__)
#define NOT_COUNTED(n, m, s, t, rule) counted((n), (m), ROWS, (s), (t), (rule), NO_COUNT, __LINE__)

/* Joins two atoms in the rows. */
static void join(int a, int b) {
    rows[16 * (a - 1) + (b - 1) / 8] |= (uint8_t)(1 << (b - 1) % 8);
    rows[16 * (b - 1) + (a - 1) / 8] |= (uint8_t)(1 << (a - 1) % 8);
}

/* Atom 1, then `count` layers of three atoms, each bonded to all of the next.
   Layer k has the atoms 3 * k - 1 to 3 * k + 1. Returns the number of bonds. */
static uint64_t three_wide(int count) {
    memset(rows, 0, ROWS);
    for (int b = 2; b <= 4; b++) {
        join(1, b);
    }
    for (int k = 1; k < count; k++) {
        for (int a = 3 * k - 1; a <= 3 * k + 1; a++) {
            for (int b = 3 * k + 2; b <= 3 * k + 4; b++) {
                join(a, b);
            }
        }
    }
    return 3 + 9 * (uint64_t)(count - 1);
}

/* The same with a last atom that is bonded to all of the last layer; 3 to the
   power of `count` shortest paths go from the first atom to it. */
static uint64_t three_wide_to_t(int count) {
    uint64_t bonds = three_wide(count);
    for (int a = 3 * count - 1; a <= 3 * count + 1; a++) {
        join(a, 3 * count + 2);
    }
    return bonds + 3;
}

/* The number of shortest paths. */
static void counts(void) {
    /* The document's sheet: 2 1 4 and 2 3 4; 1 3; and an atom apart. */
    document_rows(rows);
    COUNTED(4, 5, 2, 4, 2);
    COUNTED(4, 5, 4, 2, 2);
    COUNTED(4, 5, 1, 3, 1);
    COUNTED(5, 5, 1, 5, 0);
    COUNTED(128, 5, 128, 127, 0);
    /* 10, then 11. */
    NOT_COUNTED(4, 5, 0, 0, 10);
    NOT_COUNTED(4, 5, 0, 4, 10);
    NOT_COUNTED(4, 5, 2, 0, 10);
    NOT_COUNTED(4, 5, 2, 5, 10);
    NOT_COUNTED(4, 5, 5, 5, 10);
    NOT_COUNTED(4, 5, 258, 4, 10);
    NOT_COUNTED(4, 5, 2, (UINT64_C(1) << 32) + 4, 10);
    NOT_COUNTED(4, 5, UINT64_MAX, UINT64_MAX, 10);
    NOT_COUNTED(4, 5, 2, 2, 11);
    /* 9 before both, and 10000 before it. */
    NOT_COUNTED(4, 6, 2, 4, 9);
    NOT_COUNTED(4, 6, 0, 0, 9);
    NOT_COUNTED(129, 5, 2, 2, 9);
    counted(4, 5, ROWS - 1, 2, 4, 10000, NO_COUNT, __LINE__);
    counted(4, 6, 0, 0, 0, 10000, NO_COUNT, __LINE__);
    /* Layers of three: 3 to the 39th is below the limit, 3 to the 40th and the
       42nd are above. 42 layers have 128 atoms and 375 bonds. */
    EQUAL(three_wide_to_t(39), 348);
    COUNTED(119, 348, 1, 119, UINT64_C(4052555153018976267));
    COUNTED(119, 348, 119, 1, UINT64_C(4052555153018976267));
    EQUAL(three_wide_to_t(40), 357);
    NOT_COUNTED(122, 357, 1, 122, 26);
    EQUAL(three_wide_to_t(42), 375);
    NOT_COUNTED(128, 375, 1, 128, 26);
    NOT_COUNTED(128, 375, 128, 1, 26);
    NOT_COUNTED(128, 374, 1, 128, 9);
    NOT_COUNTED(128, 375, 0, 128, 10);
    NOT_COUNTED(128, 375, 1, 129, 10);
    NOT_COUNTED(128, 375, 128, 128, 11);
    /* 41 layers of three, and t on one atom of layer 38 by three others: 3 to the
       37th paths. It is farther from s than layer 41, whose atoms have 3 to the
       40th, above the limit, and lie on no path to t. */
    EQUAL(three_wide(41), 363);
    join(114, 125);
    join(125, 126);
    join(126, 127);
    join(127, 128);
    COUNTED(128, 367, 1, 128, UINT64_C(450283905890997363));
    COUNTED(128, 367, 128, 1, UINT64_C(450283905890997363));
    NOT_COUNTED(128, 367, 1, 124, 26);
}

/* A mark of the document's place with other bond lines. */
#define BONDS_REFUSED(bonds, rule) MARK_REFUSED(LINE_1 LINE_2 LINE_3 bonds, rule)

/* Bond lines on the document's record, whose bonds are 1-2, 1-3, 1-4, 2-3, 3-4.
   14: the layout, the lower atom first and the order, over the whole mark; 15: any
   other bonds. */
static void bond_lines(void) {
    /* As many lines as the first line says: m alone one more, one fewer, others. */
    MARK_REFUSED("   0   0   0   4   6   2   3\n" LINE_2 LINE_3 BONDS, 14);
    MARK_REFUSED("   0   0   0   4   4   2   3\n" LINE_2 LINE_3 BONDS, 14);
    MARK_REFUSED("   0   0   0   4   0   2   3\n" LINE_2 LINE_3 BONDS, 14);
    MARK_REFUSED("   0   0   0   41025   2   3\n" LINE_2 LINE_3 BONDS, 14);
    MARK_REFUSED("   0   0   0   49999   2   3\n" LINE_2 LINE_3 BONDS, 14);
    BONDS_REFUSED("   1   2\n   1   3\n   1   4\n   2   3\n", 14);
    BONDS_REFUSED(BONDS "   3   5\n", 14);
    /* Both changed: another number of bonds. */
    MARK_REFUSED("   0   0   0   4   6   2   3\n" LINE_2 LINE_3 BONDS "   3   5\n", 15);
    MARK_REFUSED("   0   0   0   4   0   2   3\n" LINE_2 LINE_3, 15);
    MARK_REFUSED("   0   0   0   4   1   2   3\n" LINE_2 LINE_3 "   1   2\n", 15);
    /* Out of order, as on the sheet, repeated, reversed, one atom twice. */
    BONDS_REFUSED("   1   3\n   1   2\n   1   4\n   2   3\n   3   4\n", 14);
    BONDS_REFUSED("   1   2\n   2   3\n   3   4\n   1   4\n   1   3\n", 14);
    BONDS_REFUSED("   1   2\n   1   2\n   1   4\n   2   3\n   3   4\n", 14);
    BONDS_REFUSED("   1   2\n   1   3\n   1   4\n   2   3\n   2   3\n", 14);
    BONDS_REFUSED("   2   1\n   1   3\n   1   4\n   2   3\n   3   4\n", 14);
    BONDS_REFUSED("   1   2\n   1   3\n   1   4\n   2   3\n   4   3\n", 14);
    BONDS_REFUSED("   1   2\n   1   3\n   1   4\n   2   2\n   3   4\n", 14);
    /* Filled by zeros, other bytes, other line ends. */
    BONDS_REFUSED("00010002\n   1   3\n   1   4\n   2   3\n   3   4\n", 14);
    BONDS_REFUSED("   1   2\n   1   3\n   1   4\n   2   3\n   30004\n", 14);
    BONDS_REFUSED("   1  02\n   1   3\n   1   4\n   2   3\n   3   4\n", 14);
    BONDS_REFUSED("   1   2\n   1   3\n   1   x\n   2   3\n   3   4\n", 14);
    BONDS_REFUSED("   1   2\n   1   3\n   1   4\r   2   3\n   3   4\n", 14);
    BONDS_REFUSED("   1   2\n   1   3\n   1   4\n   2   3\n   3   4 ", 14);
    /* Another bond, and atoms that the molecule does not have. */
    BONDS_REFUSED("   1   2\n   1   3\n   1   4\n   2   4\n   3   4\n", 15);
    BONDS_REFUSED("   0   2\n   1   3\n   1   4\n   2   3\n   3   4\n", 15);
    BONDS_REFUSED("   1   2\n   1   3\n   1   4\n   2   3\n   3   5\n", 15);
    BONDS_REFUSED("   1   2\n   1   3\n   1   4\n   2   3\n 259 260\n", 15);
    BONDS_REFUSED("   1   2\n   1   3\n   1   4\n   2   3\n99989999\n", 15);
    /* A strange atom and a wrong order: 14. */
    BONDS_REFUSED("   1   2\n   0   3\n   1   4\n   2   3\n   3   4\n", 14);
    BONDS_REFUSED("   1   2\n   1   3\n   1   4\n   2   3\n   5   0\n", 14);
    BONDS_REFUSED("99989999\n   1   3\n   1   4\n   2   3\n   3   4\n", 14);
    BONDS_REFUSED("   0   2\n   1   3\n   1   4\n   3   4\n   2   3\n", 14);
    /* 15 comes before 16 and 17. */
    MARK_REFUSED("   4   0   0   4   5   2   0\n" LINE_2 LINE_3
                 "   1   2\n   1   3\n   1   4\n   2   4\n   3   4\n", 15);
}

/* Molecules of no bonds and of one, and a chain of ten atoms with seven in p. */
static void other_bonds(void) {
    static const char none[] =
        "   0   0   0   4   0   0   1\n"
        "                   0                   0                   0\n\n";
    static const char one[] =
        "   1   3   2   4   1   1   2\n"
        "                   0                   0                   0\n   3\n   2   3\n";
    search now;
    uint8_t saved[300];
    memset(rows, 0, ROWS);
    EQUAL(flat_restore(4, 0, rows, ROWS, (const uint8_t *)none, 91, now.numbers, NUMBERS,
                       now.prefix, PLACES), 0);
    EQUAL(flat_save(4, 0, rows, ROWS, now.numbers, NUMBERS, now.prefix, PLACES, saved, 91), 91);
    CHECK(memcmp(saved, none, 91) == 0);
    EQUAL(flat_restore(4, 0, rows, ROWS, (const uint8_t *)one, 104, now.numbers, NUMBERS,
                       now.prefix, PLACES), 15);
    rows[16] = 0x04;
    rows[32] = 0x02;
    EQUAL(flat_restore(4, 1, rows, ROWS, (const uint8_t *)one, 104, now.numbers, NUMBERS,
                       now.prefix, PLACES), 0);
    EQUAL(flat_save(4, 1, rows, ROWS, now.numbers, NUMBERS, now.prefix, PLACES, saved, 103), 13);
    EQUAL(flat_save(4, 1, rows, ROWS, now.numbers, NUMBERS, now.prefix, PLACES, saved, 104), 104);
    CHECK(memcmp(saved, one, 104) == 0);
    EQUAL(flat_restore(4, 1, rows, ROWS, (const uint8_t *)none, 91, now.numbers, NUMBERS,
                       now.prefix, PLACES), 15);
    /* A chain of ten atoms. */
    memset(rows, 0, ROWS);
    for (int a = 1; a < 10; a++) {
        join(a, a + 1);
    }
    EQUAL(flat_start_paths(10, 9, rows, ROWS, 1, 10, now.numbers, NUMBERS, now.prefix, PLACES), 0);
    for (int length = 0; length < 7; length++) {
        now.prefix[length] = (uint8_t)(length + 1);
    }
    now.numbers[3] = 7;
    memset(saved, PATTERN, sizeof saved);
    EQUAL(flat_save(10, 9, rows, ROWS, now.numbers, NUMBERS, now.prefix, PLACES, saved, 199), 13);
    CHECK(all_are(saved, sizeof saved, PATTERN));
    EQUAL(flat_save(10, 9, rows, ROWS, now.numbers, NUMBERS, now.prefix, PLACES, saved, 300), 200);
    CHECK(memcmp(saved + 191, "   9  10\n", 9) == 0 && all_are(saved + 200, 100, PATTERN));
}

/* The document's sheet has the rings 1 2 3 and 1 3 4. The trials of a fresh
   ring search, with p and the atom tried, 4 for each p (n * (extensions + 1)
   = 4 * 4 = 16):
     1: -    1  open     2: 1    1  no     3: 1    2  open
     4: 1 2  1  no       5: 1 2  2  no     6: 1 2  3  listed
     7: 1 2  4  no, p becomes 1 and c 3
     8: 1    3  open     9: 1 3  1  no    10: 1 3  2  no
    11: 1 3  3  no      12: 1 3  4  listed; p becomes 1 and c 4
    13: 1    4  no, p becomes empty and c 2
    14: -    2  no      15: -    3  no    16: -    4  no, c is 5: done */
static void searches(void) {
    search fresh, now, full;
    uint8_t out[16];
    uint8_t mark[700];
    document_rows(rows);

    memset(&fresh, PATTERN, sizeof fresh);
    EQUAL(start_rings(&fresh), 0);
    IS(&fresh, "", 0, 0, 0, 0, 1, 0, 0, 0, 0, 0);

    /* Budget 0 ends spent. */
    now = fresh;
    EQUAL(run(&now, 0, out, 3), 103);
    CHECK(same(&now, &fresh));
    CHECK(all_are(out, 16, PATTERN));
    /* 3 bytes: budget 5 ends spent, before it is seen that the record of 4
       bytes does not fit; budget 6 ends full after the same 5 trials. */
    now = fresh;
    EQUAL(run(&now, 5, out, 3), 103);
    IS(&now, "\1\2", 0, 0, 0, 2, 3, 5, 2, 0, 0, 5);
    CHECK(all_are(out, 16, PATTERN));
    full = fresh;
    EQUAL(run(&full, 6, out, 3), 104);
    IS(&full, "\1\2", 0, 0, 0, 2, 3, 5, 2, 0, 0, 5);
    CHECK(all_are(out, 16, PATTERN));
    /* Again: full at once, no trial made. */
    now = full;
    EQUAL(run(&now, 6, out, 3), 104);
    IS(&now, "\1\2", 0, 0, 0, 2, 3, 5, 2, 0, 0, 0);
    /* 4 bytes: one record, then full before the other, after trials 6 to 11. */
    now = full;
    EQUAL(run(&now, 100, out, 4), 104);
    IS(&now, "\1\3", 0, 0, 0, 2, 4, 11, 3, 1, 4, 6);
    CHECK(memcmp(out, "\3\1\2\3", 4) == 0 && all_are(out + 4, 12, PATTERN));
    EQUAL(run(&now, 100, out, 5), 101);
    IS(&now, "", 0, 0, 0, 0, 5, 16, 3, 2, 4, 5);
    CHECK(memcmp(out, "\3\1\3\4", 4) == 0 && all_are(out + 4, 12, PATTERN));
    /* 8 bytes and budget 16: done. 15: spent, though only one trial is left. */
    now = fresh;
    EQUAL(run(&now, 16, out, 8), 101);
    IS(&now, "", 0, 0, 0, 0, 5, 16, 3, 2, 8, 16);
    CHECK(memcmp(out, "\3\1\2\3\3\1\3\4", 8) == 0 && all_are(out + 8, 8, PATTERN));
    now = fresh;
    EQUAL(run(&now, 15, out, 8), 103);
    IS(&now, "", 0, 0, 0, 0, 4, 15, 3, 2, 8, 15);
    EQUAL(run(&now, 0, out, 8), 103);
    EQUAL(run(&now, 1, out, 0), 101);
    /* Done is tried before spent. */
    EQUAL(run(&now, 0, out, 0), 101);
    IS(&now, "", 0, 0, 0, 0, 5, 16, 3, 2, 0, 0);

    /* The mark of the full run: exactly 144 bytes, and 143 are too few. */
    CHECK(sizeof full_mark - 1 == 144);
    EQUAL(save(&full, mark, 144), 144);
    CHECK(memcmp(mark, full_mark, 144) == 0 && all_are(mark + 144, 556, PATTERN));
    EQUAL(save(&full, mark, 700), 144);
    CHECK(memcmp(mark,
                 "   0   0   0   4   5   2   3\n"
                 "                   5                   2                   0\n"
                 "   1   2\n"
                 "   1   2\n"
                 "   1   3\n"
                 "   1   4\n"
                 "   2   3\n"
                 "   3   4\n",
                 144) == 0 && all_are(mark + 144, 556, PATTERN));
    EQUAL(save(&full, mark, 143), 13);
    EQUAL(save(&full, mark, 99), 13);
    EQUAL(save(&full, mark, 0), 13);
    CHECK(all_are(mark, 700, PATTERN));
    /* Restored, it runs on as before. */
    memset(&now, PATTERN, sizeof now);
    EQUAL(restore(&now, full_mark, 144), 0);
    IS(&now, "\1\2", 0, 0, 0, 2, 3, 5, 2, 0, 0, 0);
    EQUAL(run(&now, 11, out, 8), 101);
    IS(&now, "", 0, 0, 0, 0, 5, 16, 3, 2, 8, 11);
    CHECK(memcmp(out, "\3\1\2\3\3\1\3\4", 8) == 0);
    /* The mark of a done search: no atoms in line 3. */
    EQUAL(save(&now, mark, 135), 13);
    EQUAL(save(&now, mark, 136), 136);
    CHECK(memcmp(mark,
                 "   0   0   0   4   5   0   5\n"
                 "                  16                   3                   2\n"
                 "\n" BONDS,
                 136) == 0);

    /* Paths 2 to 4: 2 1 4 and 2 3 4, 16 trials; 1 to 3: 1 3 only, 8 trials. */
    EQUAL(start_paths(&now, 2, 4), 0);
    IS(&now, "", 1, 2, 4, 0, 1, 0, 0, 0, 0, 0);
    EQUAL(run(&now, UINT64_MAX, out, 16), 101);
    IS(&now, "", 1, 2, 4, 0, 5, 16, 3, 2, 8, 16);
    CHECK(memcmp(out, "\3\2\1\4\3\2\3\4", 8) == 0 && all_are(out + 8, 8, PATTERN));
    EQUAL(start_paths(&now, 1, 3), 0);
    EQUAL(run(&now, UINT64_MAX, out, 16), 101);
    IS(&now, "", 1, 1, 3, 0, 5, 8, 1, 1, 3, 8);
    CHECK(memcmp(out, "\2\1\3", 3) == 0 && all_are(out + 3, 13, PATTERN));

    /* Trials at the limit: limit before spent and before full, with no trial
       made; one below: one trial more. */
    now = full;
    now.numbers[5] = UINT64_C(9999999999999999999);
    EQUAL(run(&now, 0, out, 0), 102);
    IS(&now, "\1\2", 0, 0, 0, 2, 3, UINT64_C(9999999999999999999), 2, 0, 0, 0);
    now = full;
    now.numbers[5] = UINT64_C(9999999999999999998);
    EQUAL(run(&now, 1, out, 4), 102);
    IS(&now, "\1\2", 0, 0, 0, 2, 4, UINT64_C(9999999999999999999), 2, 1, 4, 1);

    /* 10 before 11; nothing written. */
    now = full;
    EQUAL(start_paths(&now, 0, 4), 10);
    EQUAL(start_paths(&now, 2, 5), 10);
    EQUAL(start_paths(&now, 5, 5), 10);
    EQUAL(start_paths(&now, 3, 3), 11);
    CHECK(same(&now, &full));

    /* 12: kind, s, t, length, place past the length, next atom, counts, p. */
    SEARCH_REFUSED(numbers[0] = 2);
    SEARCH_REFUSED(numbers[0] = 3);
    SEARCH_REFUSED(numbers[0] = 1);
    SEARCH_REFUSED(numbers[1] = 1);
    SEARCH_REFUSED(numbers[2] = 1);
    SEARCH_REFUSED(numbers[3] = 1);
    SEARCH_REFUSED(numbers[3] = 3);
    SEARCH_REFUSED(numbers[3] = 128);
    SEARCH_REFUSED(numbers[3] = UINT64_MAX);
    SEARCH_REFUSED(numbers[4] = 0);
    SEARCH_REFUSED(numbers[4] = 5);
    SEARCH_REFUSED(numbers[4] = 259);
    SEARCH_REFUSED(numbers[5] = UINT64_C(10000000000000000000));
    SEARCH_REFUSED(numbers[6] = UINT64_C(10000000000000000000));
    SEARCH_REFUSED(numbers[7] = UINT64_MAX);
    SEARCH_REFUSED(prefix[127] = 1);
    SEARCH_REFUSED(prefix[2] = 3);
    SEARCH_REFUSED(prefix[1] = 4);
    SEARCH_REFUSED(prefix[0] = 0);

    /* 14: the layout. */
    MARK_REFUSED("", 14);
    mark_refused(full_mark, 143, 14, __LINE__);
    mark_refused(full_mark, 135, 14, __LINE__);
    /* The mark without its bond lines: the one of before. */
    mark_refused(full_mark, 99, 14, __LINE__);
    MARK_REFUSED(LINE_1 LINE_2 LINE_3 "\n" BONDS, 14);
    MARK_REFUSED(LINE_1 LINE_2 LINE_3 BONDS "\n", 14);
    MARK_REFUSED(LINE_1 LINE_2 "   1  02\n" BONDS, 14);
    MARK_REFUSED(LINE_1 LINE_2 "   1   2 " BONDS, 14);
    MARK_REFUSED("   0   0   0   4   5   3   3\n" LINE_2 LINE_3 BONDS, 14);
    MARK_REFUSED("   0   0   0   4   5   1   3\n" LINE_2 LINE_3 BONDS, 14);
    MARK_REFUSED("   0   0   0   4   5 128   3\n" LINE_2 LINE_3 BONDS, 14);
    MARK_REFUSED(LINE_1 "                   5                   210000000000000000000\n" LINE_3 BONDS, 14);
    /* Each field of the mark filled by zeros, then all. */
    MARK_REFUSED("0000   0   0   4   5   2   3\n" LINE_2 LINE_3 BONDS, 14);
    MARK_REFUSED("   00000   0   4   5   2   3\n" LINE_2 LINE_3 BONDS, 14);
    MARK_REFUSED("   0   00000   4   5   2   3\n" LINE_2 LINE_3 BONDS, 14);
    MARK_REFUSED("   0   0   00004   5   2   3\n" LINE_2 LINE_3 BONDS, 14);
    MARK_REFUSED("   0   0   0   40005   2   3\n" LINE_2 LINE_3 BONDS, 14);
    MARK_REFUSED("   0   0   0   4   50002   3\n" LINE_2 LINE_3 BONDS, 14);
    MARK_REFUSED("   0   0   0   4   5   20003\n" LINE_2 LINE_3 BONDS, 14);
    MARK_REFUSED(LINE_1 "00000000000000000005                   2                   0\n" LINE_3 BONDS, 14);
    MARK_REFUSED(LINE_1 "                   500000000000000000002                   0\n" LINE_3 BONDS, 14);
    MARK_REFUSED(LINE_1 "                   5                   200000000000000000000\n" LINE_3 BONDS, 14);
    MARK_REFUSED(LINE_1 LINE_2 "0001   2\n" BONDS, 14);
    MARK_REFUSED(LINE_1 LINE_2 "   10002\n" BONDS, 14);
    MARK_REFUSED("0000000000000004000500020003\n"
                 "000000000000000000050000000000000000000200000000000000000000\n"
                 "00010002\n"
                 "00010002\n00010003\n00010004\n00020003\n00030004\n", 14);
    /* 15: n or the bonds. 16: kind, s, t. 17: p or c. */
    MARK_REFUSED("   0   0   0   5   5   2   3\n" LINE_2 LINE_3 BONDS, 15);
    MARK_REFUSED("   0   0   0   4   4   2   3\n" LINE_2 LINE_3
                 "   1   2\n   1   3\n   1   4\n   2   3\n", 15);
    MARK_REFUSED("   2   0   0   4   5   2   3\n" LINE_2 LINE_3 BONDS, 16);
    MARK_REFUSED("   3   0   0   4   5   2   3\n" LINE_2 LINE_3 BONDS, 16);
    MARK_REFUSED("   0   1   3   4   5   2   3\n" LINE_2 LINE_3 BONDS, 16);
    MARK_REFUSED("   1   1   5   4   5   2   3\n" LINE_2 LINE_3 BONDS, 16);
    MARK_REFUSED("   1   1   1   4   5   2   3\n" LINE_2 LINE_3 BONDS, 16);
    MARK_REFUSED("   0   0   0   4   5   2   0\n" LINE_2 LINE_3 BONDS, 17);
    MARK_REFUSED("   0   0   0   4   5   2   5\n" LINE_2 LINE_3 BONDS, 17);
    MARK_REFUSED(LINE_1 LINE_2 "   1   4\n" BONDS, 17);
    MARK_REFUSED(LINE_1 LINE_2 "   1 258\n" BONDS, 17);
    MARK_REFUSED("   1   2   4   4   5   2   3\n" LINE_2 LINE_3 BONDS, 17);
    bond_lines();
    /* Each before the next. */
    MARK_REFUSED("   2   0   0   5   5   2   0\n" LINE_2 "   1  02\n" BONDS, 14);
    MARK_REFUSED("   2   0   0   5   5   2   0\n" LINE_2 LINE_3 BONDS, 15);
    MARK_REFUSED("   2   0   0   4   5   2   0\n" LINE_2 LINE_3 BONDS, 16);

    /* 9 before all that: the bond 1-2 has lost one of its bits. */
    rows[0] = 0x0C;
    now = full;
    now.numbers[0] = 3;
    search before = now;
    EQUAL(start_rings(&now), 9);
    EQUAL(start_paths(&now, 0, 0), 9);
    EQUAL(run(&now, 9, out, 16), 9);
    CHECK(all_are(out, 16, PATTERN));
    EQUAL(save(&now, mark, 0), 9);
    CHECK(all_are(mark, 700, PATTERN));
    EQUAL(restore(&now, "", 0), 9);
    CHECK(same(&now, &before));
    /* And wrong lengths before 9. */
    EQUAL(flat_start_rings(4, 5, rows, ROWS - 1, now.numbers, NUMBERS, now.prefix, PLACES), 10000);
    EQUAL(flat_start_paths(4, 5, rows, ROWS, 1, 2, now.numbers, 9, now.prefix, PLACES), 10000);
    EQUAL(flat_run(4, 5, rows, ROWS, now.numbers, NUMBERS, now.prefix, 127, 1, out, 16), 10000);
    EQUAL(flat_save(4, 5, rows, ROWS, now.numbers, 0, now.prefix, PLACES, mark, 700), 10000);
    EQUAL(flat_restore(4, 5, rows, ROWS, mark, 144, now.numbers, NUMBERS, now.prefix, 0), 10000);
    CHECK(same(&now, &before));
}

int main(void) {
    sheets();
    records();
    judge();
    fields();
    searches();
    four_ring();
    two_rings_up_to();
    three_rings_up_to();
    refused_up_to();
    shortest();
    refused_shortest();
    counts();
    other_bonds();
    printf("C test: %u checks, %u failed\n", checks, failures);
    return failures == 0 ? 0 : 1;
}
