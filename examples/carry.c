/* Carries the STATE of examples/host.c from the former layout of marks, without bond lines, over to the present one, or
   back.

       carry over SHEET STATE OUT
       carry back SHEET STATE OUT

   The mark in STATE becomes the mark of the same search in the other layout; the head of STATE stays as it is, byte for
   byte. A STATE that is in the wanted layout already is left alone; so is one without a mark, and one of a molecule
   without bonds, whose marks are the same in both layouts. The program may be killed at any moment: a new STATE is put
   in place by a rename, as the host does it, so STATE is the old one or the new one, and a second run does the rest.

   OUT is locked as the host locks it, so that no host is at work meanwhile; it is not changed, and not created. Nothing
   is written before all is checked: a STATE that is missing, is not whole or was made with another sheet, an OUT that
   is missing, shorter than STATE says or locked, and any refusal are errors that leave STATE alone. A first STATE, which
   has no mark, is the only one without an OUT. */
#define PROGRAM "carry"
#include "state.h"

static uint32_t carry(int over, const struct state *state, uint8_t to[MARK], size_t *len) {
    return (over ? ringlist_carry_over : ringlist_carry_back)(sheet, sheet_len, state->mark, state->mark_len,
                                                              to, MARK, len);
}

/* Writes the mark of STATE in the other layout; returns its bytes, or 0 where it is in the wanted layout already (then
   what is in `to` is of no use). */
static size_t carried(int over, const char *name, const struct state *state, uint8_t to[MARK]) {
    uint8_t next[MARK];
    size_t len = 0;
    uint32_t refusal = carry(over, state, to, &len);
    /* What can be carried the other way is in the wanted layout. */
    if (refusal != 0 && carry(!over, state, to, &len) != 0) refuse(refusal);

    /* One of the two marks is of the present layout: the host must find with it the stop that the head says. */
    int former = over == (refusal == 0);
    check_stop(name, state, ringlist_resume(sheet, sheet_len, former ? to : state->mark, former ? len : state->mark_len,
                                            0, NULL, 0, next, MARK));
    return refusal == 0 && len != state->mark_len ? len : 0;
}

int main(int words, char **word) {
    static struct state state;
    uint8_t mark[MARK];
    int over = words == 5 && strcmp(word[1], "over") == 0, back = words == 5 && strcmp(word[1], "back") == 0;
    if ((!over && !back) || strcmp(word[3], word[4]) == 0) {
        fprintf(stderr, "usage: carry over|back SHEET STATE OUT (STATE and OUT are two files)\n");
        return 1;
    }
    const char *name = word[3], *out = word[4];
    read_sheet(word[2]);
    read_state(name, &state);
    if (state.len < 0) fail(name, strerror(ENOENT));
    size_t len = state.mark_len == 0 ? 0 : carried(over, name, &state, mark);

    /* With a first STATE, OUT may not be there yet. */
    if (state.mark_len > 0 || access(out, F_OK) == 0) lock_out(out, 0, name, &state);
    if (len > 0) {
        write_state(name, state.whole, mark, len);
        printf("carry: STATE is carried %s: %zu bytes of mark are now %zu\n", word[1], state.mark_len, len);
    } else {
        sync_folder(name); /* a run before this one may have been killed just before it did so */
        printf("carry: STATE needs no change\n");
    }
    return fflush(stdout) != 0;
}
