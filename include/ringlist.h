/* include/ringlist.h: lists the chordless rings of a molecule, those up to a
   chosen size, or the chordless or the shortest paths between two of its atoms,
   in slices; and counts the shortest paths.

   Link with libhost.a. ringlist_start starts a search of any kind: it writes
   its first mark. Each call of ringlist_resume reads a bond sheet, takes up
   the search where a mark left it, makes at most `budget` trials, and writes
   the rings that it found and the mark to go on from. A search for all rings
   may also start without a mark. ringlist_count_shortest works out the number
   of shortest paths without listing them. ringlist_molfile makes a bond sheet
   of a molfile, so that all of this serves molfiles too. ringlist_carry_over
   makes a mark of one from before request F-5, and ringlist_carry_back one for
   the library from before it. examples/minimal.c is a whole host in twenty
   lines; examples/host.c keeps its mark in a file and goes on after being
   killed.

   For hosts written before marks had bond lines (request F-5). To change: give
   ringlist_resume and ringlist_start a mark output of at least 9,815 bytes (599
   were enough; fewer than 9,815 are now refused, 13), and make files and
   buffers that keep marks as large: a mark has 9 bytes more for each bond. Old
   marks: of a molecule with bonds, an old mark is refused (14), and
   ringlist_mark_length of just its bytes is 0. ringlist_carry_over gives the
   mark of the same search, once, and the listing goes on from it; a host that
   goes back to the former library takes its marks with it by
   ringlist_carry_back. examples/carry.c does both with the state of
   examples/host.c. The marks of a molecule without bonds have not changed.
   ringlist_listed reads old and new marks alike. A mark of another molecule,
   also of an isomer, is now always refused (15), so a host need not check that
   itself; of an old mark it has to. The other functions, their parameters and
   the records are as they were. */
#ifndef RINGLIST_H
#define RINGLIST_H

#include <stddef.h>
#include <stdint.h>

#ifdef __cplusplus
extern "C" {
#endif

/* One call of a listing.

   sheet      the bond sheet, sheet_len bytes: a line of atoms n and bonds m,
              then m lines of two atoms; two fields of 4 columns and a line
              feed each, 9 bytes. A field is a number in decimal digits,
              right-justified; blanks or zeros, and not both, fill the columns
              before it: "  12" and "0012" are both 12, " 012" is no number.
              Each field of a sheet may have its own filling.
   mark       the mark that the call before wrote, or ringlist_start, mark_len
              bytes exactly; mark_len 0 starts a fresh search for all rings, as
              the mark of ringlist_start with kind 0 does. A mark has its
              molecule's bonds, and belongs to the sheets with the same n and
              the same bonds, in whatever order these and their two atoms stand
              there; that is checked (15), and that its place is open (17).
   budget     the most trials that this call makes. It may be 0.
   rings      the ring output, rings_len bytes.
   next_mark  the mark output, next_mark_len bytes, at least 9,815: no mark is
              longer.

   Taken on trust, and nothing else: the four stretches are real memory of the
   lengths given, readable and, the two outputs, writable for as long as the
   call lasts; neither output overlaps any other of the four; and until the call
   returns nobody else writes to any of the four, be it another thread, a signal
   handler, a device, or a process that shares the memory. A call may read a
   byte of the sheet or the mark more than once, so a change in between can
   pass the checks with one value and be used with another; nothing that is
   said here holds then. So a sheet or a mark that may change is copied first,
   and the copy handed over. The sheet and the mark may overlap each other. Of a
   stretch of length 0 nothing is read or written, and its pointer may be any,
   also null. All else is checked: any bytes, lengths and budget are answered as
   said here.

   Rings. Each ring is a record: its number of atoms in one byte, 3 to 128, then
   its atoms in order, one byte each, 1 to n. Records stand one after the other
   from the start of the output. The bytes past them keep their values.
   Their number is

       ringlist_listed(next_mark, next_mark_len) - ringlist_listed(mark, mark_len)

   Next mark. It stands at the start of the output, 91 + 4 * (atoms in the
   present beginning) + 9 * m bytes, that is ringlist_mark_length(next_mark,
   next_mark_len); the bytes past it keep their values. It is text of three
   lines, and then of m bond lines. Line 1: kind (0 rings, 1 paths, 2 rings of
   at most s atoms, 3 shortest paths), s and t (0 and 0 for kind 0, the two
   ends for kinds 1 and 3, the largest size and 0 for kind 2), n, m, the number
   of atoms in the present beginning, at most 127, and the next atom, 4 columns
   each. Line 2: trials, extensions and rings listed so far, 20 columns each.
   Line 3: the atoms of the beginning, 4 columns each. A bond line: the two
   atoms of a bond, 4 columns each, the lower first; each bond of the molecule
   has one, in dictionary order, by the first atom and then by the second. Each
   line ends with a line feed. Blanks fill the fields of a mark, whatever fills
   those of the sheet; a mark with a field that zeros fill, also "0000" for 0,
   is refused (14).

   Returned when the call was accepted:
     101  done: all rings that follow the mark have been listed; from a fresh
          search, all rings.
     102  limit: a count stands at 9,999,999,999,999,999,999.
     103  spent: the budget is used up.
     104  full: the next ring needs more bytes than are left.
   After 103 and 104 call again with the next mark. A call with a budget of at
   least 2 * n * n and an output of at least n + 1 bytes (129 always will do)
   lists at least one ring, or ends done or at the limit. A call
   that is handed the mark written with 101 or 102, and is not refused, returns
   the same number again, with no rings and the same mark.

   Returned when it was refused, by the first rule that is broken in the order
   1 to 8, 14 to 17, 13. A refused call writes to neither output.
       1  the sheet is shorter than 9 bytes or not a multiple of 9
       2  a sheet field or line end has the wrong bytes; blanks or zeros may
          fill a field, and not both
       3  n is above 128
       4  m is above 1,024
       5  the sheet is not 9 * (m + 1) bytes
       6  a bond names atom 0 or an atom above n
       7  a bond joins an atom to itself
       8  two bonds join the same two atoms, in either order
      14  the mark's bytes do not follow the layout, in which zeros fill no
          field: so also when it has not as many bond lines as its m says, or a
          bond line has not its lower atom first, is out of order or comes
          twice, whatever atoms it names
      15  the mark's n or bonds differ from the sheet's
      16  the mark's kind is not 0, 1, 2 or 3, or its s and t are not 0 and 0
          for kind 0, or not two different atoms for kinds 1 and 3, or not a
          size from 3 to 128 and 0 for kind 2
      17  the mark's beginning is not open, or its next atom is 0 or above n
          (n + 1 is allowed with no beginning: the mark of a search that is
          done)
      13  the mark output is shorter than 9,815 bytes
   No other number comes back.

   A mark of kind 1 lists the chordless paths from s to t in the same way, as
   records of 2 atoms or more, one of kind 2 the rings of at most s atoms, and
   one of kind 3 the shortest paths from s to t, each bond of length 1; what is
   said above of rings holds of these. Each shortest path is a chordless one.
   ringlist_start writes the first mark of such a search.

   The functions have no state of their own: they may be called at once from
   several threads, where no output of one call overlaps a stretch of another.
   They take no memory from the heap and use less than 32 kilobytes of stack.
   This paragraph is not proved: no Rattle function has a heap, or variables
   that outlive a call; the stack is measured on starts, resumes, a count,
   carried marks and molfiles (tests/c/host_test.c). That the prototypes in this
   header are those of the code is tested (tests/prototypes.py). The proofs of
   these functions assume nothing of the C library; only those of the programs
   ringlist and molrings do, of their read and write. */
uint32_t ringlist_resume(const uint8_t *sheet, size_t sheet_len,
                         const uint8_t *mark, size_t mark_len,
                         uint64_t budget,
                         uint8_t *rings, size_t rings_len,
                         uint8_t *next_mark, size_t next_mark_len);

/* Starts a search of any kind on a sheet: writes its first mark, from which
   ringlist_resume lists. It lists nothing itself.

   sheet      the bond sheet, as for ringlist_resume.
   kind, s, t what to list. 0: all rings, with s = 0 and t = 0. 1: the paths
              from atom s to atom t, which differ. 2: the rings of at most s
              atoms, s from 3 to 128, with t = 0. 3: the shortest paths from
              atom s to atom t, which differ.
   next_mark  the mark output, next_mark_len bytes, at least 9,815 as for
              ringlist_resume.

   The sheet and the mark output are taken on trust as there: real memory of the
   lengths given, which do not overlap, and to which nobody else writes during
   the call. All else is checked.

   Returned when the search is started: 0. The mark stands at the start of the
   output, 91 + 9 * m bytes, that is ringlist_mark_length(next_mark,
   next_mark_len); the bytes past them keep their values. Its line 1 has kind,
   s, t, n, m, 0 and 1, its line 2 three counts 0, its line 3 is empty, and the
   bond lines follow. ringlist_resume takes it on the same sheet, and with it no
   member of the list is lost and none comes twice, as from any mark.

   Returned when it was refused, by the first rule that is broken in the order
   1 to 8, 16, then 10 and 11 or 21, then 13. A refused call writes nothing.
       1 to 8  as for ringlist_resume
      16  kind is not 0, 1, 2 or 3, or s or t is not 0 for kind 0, or t is not
          0 for kind 2
      10  for kinds 1 and 3, s or t is 0 or above n
      11  for kinds 1 and 3, s equals t
      21  for kind 2, s is below 3 or above 128
      13  the mark output is shorter than 9,815 bytes
   No other number comes back. Rule 16 of ringlist_resume allows whatever it
   starts; and whatever that rule allows it starts, on a sheet that is accepted
   and with an output of 9,815 bytes. */
uint32_t ringlist_start(const uint8_t *sheet, size_t sheet_len,
                        uint64_t kind, uint64_t s, uint64_t t,
                        uint8_t *next_mark, size_t next_mark_len);

/* The number of shortest paths from atom s to atom t, each bond of length 1: as
   many as a search of kind 3 with these ends lists. It works by sums along the
   distances from s, in time that does not grow with the number.

   sheet      the bond sheet, as for ringlist_resume.
   s, t       the two ends.
   count      where the number is put.

   Taken on trust, and nothing else: the sheet is real memory of the length
   given, and count the place of a real number, aligned as one, that may be read
   and written for as long as the call lasts; the two do not overlap, and nobody
   else writes to either during the call. All else is checked.

   Returned when the number is in *count: 0. It is 0 where t is not joined to s.

   Returned when it was refused, by the first rule that is broken in the order
   1 to 8, 10, 11, 26. *count is then unchanged.
       1 to 8  as for ringlist_resume
      10  s or t is 0 or above n
      11  s equals t
      26  the number is above 9,999,999,999,999,999,999
   No other number comes back. */
uint32_t ringlist_count_shortest(const uint8_t *sheet, size_t sheet_len,
                                 uint64_t s, uint64_t t, uint64_t *count);

/* Carries an old mark over: writes the new mark of the same search.

   sheet      the bond sheet, as for ringlist_resume: that of the molecule which
              the old mark was written for.
   old_mark   an old mark, old_mark_len bytes exactly: the three lines of a mark
              (see ringlist_resume) and no bond line, as all marks were before
              request F-5. It has 91 + 4 * (atoms in the beginning, the number
              in columns 21 to 24 of its first line) bytes;
              ringlist_mark_length does not give them. No bytes are no mark
              (14): a host that has no mark yet has nothing to carry.
   mark       the mark output, mark_len bytes. The new mark has 9 * m bytes more
              than the old one; 9,815 bytes always will do.
   length     where the number of its bytes is put.

   Taken on trust, and nothing else: the three stretches are real memory of the
   lengths given, and length the place of a real number, aligned as one, that
   may be read and written for as long as the call lasts; neither the mark
   output nor *length overlaps any other of the four, and nobody else writes to
   any of the four during the call. The sheet and the old mark may overlap each
   other. Of a stretch of length 0 nothing is read or written, and its pointer
   may be any, also null. All else is checked.

   Returned when the mark is written: 0. It stands at the start of the output,
   *length bytes; the bytes past it keep their values. Its three lines are those
   of the old mark, with the same place and counts, and its bond lines are those
   of the sheet. It restores the search that the old mark restores: what
   ringlist_resume lists from it is what would have been listed from the old
   one, and no member of the list is lost and none comes twice.

   Returned when it was refused, by the first rule that is broken in the order
   1 to 8, 14 to 17, 13. A refused call writes nothing, and leaves *length.
       1 to 8  as for ringlist_resume
      14  the old mark's bytes do not follow the layout of three lines, in which
          zeros fill no field: so also when bytes follow the third line
      15  the old mark's n or m differs from the sheet's. It has no bonds to
          compare: the sheet of an isomer keeps this rule, and if the place of
          the mark is open there too (17) the mark is carried over to the
          isomer. So a host that keeps old marks must know whose they are
      16, 17  as for ringlist_resume
      13  the mark output is shorter than the mark to be written
   No other number comes back. */
uint32_t ringlist_carry_over(const uint8_t *sheet, size_t sheet_len,
                             const uint8_t *old_mark, size_t old_mark_len,
                             uint8_t *mark, size_t mark_len, size_t *length);

/* Carries a mark back: writes the old mark of the same search, for the library
   as it was before request F-5. Parameters, trust and answers are as for
   ringlist_carry_over, with these differences.

   mark       a new mark, as ringlist_resume and ringlist_start write it,
              mark_len bytes exactly; no bytes are no mark here too.
   old_mark   the output for the old mark, old_mark_len bytes. The old mark is
              the three lines of the mark, 9 * m bytes fewer; 599 bytes always
              will do.

   Rules 14 and 15 are those of ringlist_resume: the bond lines follow the
   layout, and are the bonds of the sheet. Marks of kinds 2 and 3 are carried
   back too, and read again by ringlist_carry_over; a library that does not know
   a kind refuses it (16).

   With one sheet, over and then back gives the old mark byte for byte, and back
   and then over the mark, for every mark that the first call accepts, where the
   second output is long enough. */
uint32_t ringlist_carry_back(const uint8_t *sheet, size_t sheet_len,
                             const uint8_t *mark, size_t mark_len,
                             uint8_t *old_mark, size_t old_mark_len,
                             size_t *length);

/* Makes the bond sheet of a molfile: of a V2000 connection table, as drawing
   programs save it.

   molfile    the file, molfile_len bytes. A line ends with a line feed, with or
              without a carriage return (byte 13) before it, which is not part
              of its text. Three header lines are skipped, whatever they hold.
              The fourth has the atoms n in columns 1 to 3, the bonds m in 4 to
              6 and V2000 in 35 to 39. Then come n atom lines, with the
              element's symbol in columns 32 to 34, left-justified; m bond
              lines, with the bond's two atoms in columns 1 to 3 and 4 to 6;
              and any lines up to the first that is exactly "M  END". What
              follows that line is not read. A number is blanks, then one or
              more digits, right-justified; leading zeros are allowed: "  1",
              " 01" and "001" are 1. What stands in other columns is not looked
              at, and a line may be longer than the last column named here.
   sheet      the sheet output, sheet_len bytes; 9,000 always will do.
   length     where the number of the sheet's bytes is put.

   The elements and the most neighbours that an atom of each may have: H 1, C 4,
   N 4, O 3, F 1, P 6, S 6.

   Taken on trust, and nothing else: both stretches are real memory of the
   lengths given, and length the place of a real number, aligned as one, that
   may be read and written for as long as the call lasts; none of the three
   overlaps another, and nobody else writes to any of them during the call. Of a
   stretch of length 0 nothing is read or written, and its pointer may be any,
   also null. All else is checked: any bytes are answered as said here.

   Returned when the sheet is written: 0. It stands at the start of the output,
   *length bytes, that is 9 * (m + 1); the bytes past it keep their values.
   Blanks fill its fields. Its first line has n and m, and a line for each bond
   follows, the lower atom first, in dictionary order. It is the sheet of just
   the file's atoms and bonds: handed to the other functions here, it is read as
   the same molecule.

   Returned when it was refused, by the first rule that is broken in the order
   18, 3, 4, 19, 6, 7, 8, 20, 13, each tried over the whole file before the
   next. A refused call writes nothing, and leaves *length.
      18  a line (M  END too) or its line feed is missing, a line does not reach
          the last column named for it, V2000 is not in its columns, or a number
          is bad; so for each of the n atom lines and m bond lines that the
          fourth line names, up to 999 each
       3  n is above 128
      19  a symbol is not one of the elements: " C " and "c  " are none
       6  a bond names atom 0 or an atom above n
       7  a bond joins an atom to itself
       8  two bonds join the same two atoms, in either order
      20  an atom has more neighbours than its element allows
      13  the sheet output is shorter than the sheet
   No other number comes back: m has three columns, so it is never above 1,024
   (4). */
uint32_t ringlist_molfile(const uint8_t *molfile, size_t molfile_len,
                          uint8_t *sheet, size_t sheet_len, size_t *length);

/* The bytes of the mark at the start of a buffer: 91 + 4 * the number in
   columns 21 to 24 of its first line, its atoms in the beginning, + 9 * that in
   columns 17 to 20, its bonds. 0 where the buffer has fewer bytes than that, or
   fewer than 91, or one of the two fields holds no number; a field that zeros
   fill, as "0002", is none in a mark. The rest of the mark is not looked at. */
size_t ringlist_mark_length(const uint8_t *mark, size_t mark_len);

/* The listed count of a mark, in columns 41 to 60 of its second line. 0 where
   the buffer has fewer than 91 bytes (so for mark_len 0), or those columns hold no
   number up to 9,999,999,999,999,999,999; a field that zeros fill is none in a
   mark. */
uint64_t ringlist_listed(const uint8_t *mark, size_t mark_len);

#ifdef __cplusplus
}
#endif

#endif
