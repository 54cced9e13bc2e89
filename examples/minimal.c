/* Lists the rings of the bond sheet on standard input, in slices. */
#include "ringlist.h"
#include <stdio.h>

int main(void) {
    static uint8_t sheet[65530], rings[4096], mark[2][9815];
    size_t sheet_len = fread(sheet, 1, sizeof sheet, stdin), mark_len = 0;
    uint32_t stop;
    int now = 0;
    do {
        uint8_t *from = mark[now], *to = mark[!now];
        stop = ringlist_resume(sheet, sheet_len, from, mark_len, 100000, rings, sizeof rings, to, 9815);
        if (stop < 101) return fprintf(stderr, "refused %u\n", (unsigned)stop), 1;
        uint64_t records = ringlist_listed(to, 9815) - ringlist_listed(from, mark_len);
        for (const uint8_t *ring = rings; records-- > 0; ring += 1 + ring[0])
            for (int i = 1; i <= ring[0]; i++) printf(i < ring[0] ? "%4d" : "%4d\n", ring[i]);
        mark_len = ringlist_mark_length(to, 9815);
        now = !now;
    } while (stop > 102);
    return fflush(stdout) != 0 || ferror(stdout) || ferror(stdin);
}
