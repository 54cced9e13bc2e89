/* include/flat.h: test-only boundary. */
#ifndef FLAT_H
#define FLAT_H

#include <stddef.h>
#include <stdint.h>

#ifdef __cplusplus
extern "C" {
#endif

/* Reads a bond sheet, each of its fields filled by blanks or by zeros. `record`
   is 2,052 bytes: atoms and bonds as 2 bytes each, low byte first, then 2,048
   bytes of rows. Returns 0 (accepted, record written) or the refusal 1 to 8
   (record unchanged); 10000 when record_len is not 2,052 (nothing written). */
uint32_t flat_read_sheet(const uint8_t *sheet, size_t sheet_len,
                         uint8_t *record, size_t record_len);

/* Reads a molfile, with the answers and the record of flat_read_sheet; refused
   by 18, 3, 4, 19, 6, 7, 8 or 20. */
uint32_t flat_read_molfile(const uint8_t *molfile, size_t molfile_len,
                           uint8_t *record, size_t record_len);

/* Checks a molecule record given as its parts. 0: it follows the rules;
   9: it breaks one; 10000: rows_len is not 2,048. */
uint32_t flat_check_record(uint64_t atoms, uint64_t bonds,
                           const uint8_t *rows, size_t rows_len);

/* Judge an atom list, one byte an atom. 1 yes, 0 no, 9 (10, 11 for a path)
   refused, 10000 rows_len is not 2,048. */
uint32_t flat_judge_ring(uint64_t atoms, uint64_t bonds,
                         const uint8_t *rows, size_t rows_len,
                         const uint8_t *list, size_t list_len);
uint32_t flat_judge_path(uint64_t atoms, uint64_t bonds,
                         const uint8_t *rows, size_t rows_len,
                         uint64_t s, uint64_t t,
                         const uint8_t *list, size_t list_len);

/* Reads a number field of any width: its value (at most
   9,999,999,999,999,999,999), or UINT64_MAX when the bytes are no number field
   or the value is above that limit. A number field is digits only, at least
   one, or blanks and then digits of which the first is not 0 unless it is the
   only one. So the number stands to the right, and blanks or zeros, but not
   both, fill the columns in front of it. */
uint64_t flat_read_field(const uint8_t *field, size_t field_len);

/* Whether zeros fill a number field: 1 exactly when flat_read_field gives a
   value and the first column is a digit 0, 0 otherwise. In 4 columns zeros fill
   "0012" and "0000", but not "  12", "   0" and "1234". */
uint32_t flat_zero_filled(const uint8_t *field, size_t field_len);

/* Writes value right-justified into the whole field, blanks in front; a value
   with more digits than columns keeps its lowest digits (then with zeros where
   those digits are zero). */
void flat_write_field(uint8_t *field, size_t field_len, uint64_t value);

/* Searches. `rows` are the 2,048 bytes of a molecule record's rows. `numbers`
   are 10 numbers: kind, s, t, length of p, next atom c, trials, extensions,
   listed, used, made; `prefix` are 128 bytes: the atoms of p, then zeros. A
   search is all of these but used and made, which are only results. Each
   function below returns 10000 when rows_len is not 2,048, numbers_len not 10
   or prefix_len not 128; that, and every refusal, writes nothing. */

/* 0: the fresh search is written (used and made 0); 9 (then 10, 11 for paths
   and for shortest paths, 21 for the rings of at most `size` atoms): refused. */
uint32_t flat_start_rings(uint64_t atoms, uint64_t bonds,
                          const uint8_t *rows, size_t rows_len,
                          uint64_t *numbers, size_t numbers_len,
                          uint8_t *prefix, size_t prefix_len);
uint32_t flat_start_paths(uint64_t atoms, uint64_t bonds,
                          const uint8_t *rows, size_t rows_len,
                          uint64_t s, uint64_t t,
                          uint64_t *numbers, size_t numbers_len,
                          uint8_t *prefix, size_t prefix_len);
uint32_t flat_start_rings_up_to(uint64_t atoms, uint64_t bonds,
                                const uint8_t *rows, size_t rows_len,
                                uint64_t size,
                                uint64_t *numbers, size_t numbers_len,
                                uint8_t *prefix, size_t prefix_len);

uint32_t flat_start_shortest(uint64_t atoms, uint64_t bonds,
                             const uint8_t *rows, size_t rows_len,
                             uint64_t s, uint64_t t,
                             uint64_t *numbers, size_t numbers_len,
                             uint8_t *prefix, size_t prefix_len);

/* The number of shortest paths from s to t, each bond of length 1, 0 where t is
   not joined to s. 0: the number is in *count; 9, 10, 11, or 26 when the number
   is above 9,999,999,999,999,999,999: refused; 10000: rows_len is not 2,048.
   *count is written only when 0 is returned. */
uint32_t flat_count_shortest(uint64_t atoms, uint64_t bonds,
                             const uint8_t *rows, size_t rows_len,
                             uint64_t s, uint64_t t,
                             uint64_t *count);

/* Runs the search: 101 done, 102 limit, 103 spent, 104 full, with the search,
   used and made written back and the records in out; 9 or 12: refused. */
uint32_t flat_run(uint64_t atoms, uint64_t bonds,
                  const uint8_t *rows, size_t rows_len,
                  uint64_t *numbers, size_t numbers_len,
                  uint8_t *prefix, size_t prefix_len,
                  uint64_t budget, uint8_t *out, size_t out_len);

/* Writes the mark of the search, three lines and a line for each bond: the
   number of its bytes (91 + 4 * length + 9 * bonds), or 9, 12, 13: refused. No
   mark has 10,000 bytes. */
uint32_t flat_save(uint64_t atoms, uint64_t bonds,
                   const uint8_t *rows, size_t rows_len,
                   const uint64_t *numbers, size_t numbers_len,
                   const uint8_t *prefix, size_t prefix_len,
                   uint8_t *mark, size_t mark_len);

/* 0: the mark's search is written (used and made 0); 9, 14, 15, 16, 17:
   refused. A field that zeros fill falls under 14: marks have blanks only; and so
   do bond lines that are not as many as the mark names, or not each with its lower
   atom first and later in dictionary order than the one above it. A mark that
   keeps this and has another n or other bonds than the record falls under 15. */
uint32_t flat_restore(uint64_t atoms, uint64_t bonds,
                      const uint8_t *rows, size_t rows_len,
                      const uint8_t *mark, size_t mark_len,
                      uint64_t *numbers, size_t numbers_len,
                      uint8_t *prefix, size_t prefix_len);

#ifdef __cplusplus
}
#endif

#endif
