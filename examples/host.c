/* A host that lists the rings of a bond sheet in slices and may be killed at any moment.

       host SHEET STATE OUT BUDGET

   Each slice makes at most BUDGET trials. The rings go to OUT, in the lines that `ringlist` prints, and at the end
   its line of counts. Started again with the same words, it goes on where the last finished slice left it.

   How OUT and STATE are kept in step. STATE holds the mark, the number of bytes of OUT that belong to it, the last stop
   and a checksum of the sheet. A slice first appends its lines to OUT and waits until they are on the disk; only then a
   new STATE is put in place of the old one, by a rename, which happens wholly or not at all. So STATE never counts a
   byte that OUT does not have, and whatever OUT has beyond the count is the work of a slice that did not finish: a
   start cuts it off, and the slice is made again from the old mark. No ring is lost, none comes twice. A first STATE,
   of 0 bytes and no mark, is there before OUT gets its first byte. The temporary file STATE.new is never read.

   Nothing is written before all is checked: a STATE that is not whole, was made with another sheet or has a mark of the
   former layout (without bond lines; examples/carry.c carries it over), an OUT with bytes in it and no STATE, an OUT
   that another program has locked, and any refusal are errors that leave both files alone. examples/state.h has the layout
   of STATE. */
#define PROGRAM "host"
#include "state.h"

#define RINGS 65536  /* bytes of records in a slice */
#define FORMER "a state of the former layout: its mark has no bond lines; `carry over` carries it over"

static uint8_t rings[RINGS];
static char text[4 * RINGS + 64]; /* a record of k + 1 bytes becomes a line of 4 * k + 1 */

/* The lines of the records in `rings`; returns their bytes. */
static size_t ring_lines(uint64_t records) {
    size_t len = 0;
    for (const uint8_t *ring = rings; records > 0; records--, ring += 1 + ring[0]) {
        for (int i = 1; i <= ring[0]; i++) len += (size_t)sprintf(text + len, "%4d", ring[i]);
        text[len++] = '\n';
    }
    return len;
}

/* The line of listed, extensions and trials. A mark has the three counts the other way round, from byte 29 on. */
static size_t count_line(char *line, const uint8_t *mark) {
    for (int i = 0; i < 3; i++) memcpy(line + 20 * i, mark + 69 - 20 * i, 20);
    line[60] = '\n';
    return 61;
}

/* A call with no budget and no room tells whether sheet and mark are accepted. A mark that is refused by 14 and can be
   carried over is one of the former layout. */
static void check_mark(const char *name, const struct state *state) {
    uint8_t other[MARK];
    size_t len;
    uint32_t answer = ringlist_resume(sheet, sheet_len, state->mark, state->mark_len, 0, NULL, 0, other, MARK);
    if (answer == 14 && ringlist_carry_over(sheet, sheet_len, state->mark, state->mark_len, other, MARK, &len) == 0)
        fail(name, FORMER);
    if (answer < 101) refuse(answer);
    check_stop(name, state, answer);
}

/* Slice after slice, to the end of the listing. Returns the number of rings. */
static uint64_t list(const char *name, struct state *state, const char *out, int file, uint64_t budget) {
    static uint8_t mark[2][MARK];
    char head[64];
    int now = 0;
    memcpy(mark[now], state->mark, state->mark_len);
    while (state->stop != 101 && state->stop != 102) {
        const uint8_t *from = mark[now];
        uint8_t *to = mark[!now];
        state->stop = ringlist_resume(sheet, sheet_len, from, state->mark_len, budget, rings, RINGS, to, MARK);
        if (state->stop < 101) refuse(state->stop);
        size_t len = ring_lines(ringlist_listed(to, MARK) - ringlist_listed(from, state->mark_len));
        if (state->stop < 103) len += count_line(text + len, to);
        state->mark_len = ringlist_mark_length(to, MARK);
        now = !now;
        write_durably(file, out, text, len);
        state->bytes += len;
        write_head(head, state->bytes, state->stop);
        write_state(name, head, to, state->mark_len);
    }
    return ringlist_listed(mark[now], state->mark_len);
}

int main(int words, char **word) {
    static struct state state;
    errno = 0;
    int plain = words == 5 && word[4][strspn(word[4], "0123456789")] == 0 && strcmp(word[2], word[3]) != 0;
    uint64_t budget = plain ? strtoull(word[4], NULL, 10) : 0;
    if (budget == 0 || errno != 0) {
        fprintf(stderr, "usage: host SHEET STATE OUT BUDGET (a number from 1 up; STATE and OUT are two files)\n");
        return 1;
    }
    const char *name = word[2], *out = word[3];
    read_sheet(word[1]);
    read_state(name, &state);
    check_mark(name, &state);
    int file = lock_out(out, state.bytes == 0 ? O_CREAT : 0, name, &state);

    /* From here on files are written: a first STATE, and OUT is cut to the bytes that belong to the mark. */
    char head[64];
    write_head(head, 0, 0);
    if (state.len < 0) write_state(name, head, state.mark, 0);
    if (ftruncate(file, (off_t)state.bytes) != 0) fail(out, strerror(errno));
    sync_folder(out);

    uint64_t listed = list(name, &state, out, file, budget);
    printf("host: %s: %" PRIu64 " rings\n", state.stop == 101 ? "done" : "limit", listed);
    return fflush(stdout) != 0;
}
