/* Bankplover: order verdicts for user-defined primitives. Every call takes whatever it is handed, ends, and either
   answers 0 or the number of a refusal (docs/CALLS.md has all numbers); `*answer` then has the refusal's place.
   A refused call changes no byte of the areas it was lent. */
#ifndef BANKPLOVER_H
#define BANKPLOVER_H

#include <stdbool.h>
#include <stddef.h>
#include <stdint.h>

/* bytes of a table's area; numbers of a witness, of an opened book, of a fetched entry; cells of the square */
#define BANKPLOVER_AREA 1317
#define BANKPLOVER_WITNESS 8
#define BANKPLOVER_OPENED 3
#define BANKPLOVER_ENTRY 13
#define BANKPLOVER_SQUARE 81

/* what bankplover_read answers where only blanks and comments remain */
#define BANKPLOVER_END 255

/* A level, by its small letter, matches a value; a symbol, by the two bytes of a column, matches a change. */
bool bankplover_level_matches(uint8_t level, uint8_t value);
bool bankplover_change_matches(uint8_t first, uint8_t second, uint8_t from, uint8_t to);

/* Reads one primitive from `start` on: `*answer` is the place after `endprimitive`. */
uint8_t bankplover_read(const uint8_t *text, size_t text_length, size_t start, uint8_t *area, size_t area_length,
                        size_t *answer);

/* A lent table is well formed: reading some text could have given it. */
bool bankplover_well_formed(const uint8_t *area, size_t area_length);

/* Evaluates an order (numbers 1 to n) for two vectors and an old output (bytes 0, 1, x): `*answer` is the output's byte. */
uint8_t bankplover_evaluate(const uint8_t *area, size_t area_length, const uint8_t *prev, size_t prev_length,
                            const uint8_t *cur, size_t cur_length, uint8_t old, const uint8_t *order,
                            size_t order_length, size_t *answer);

/* Judges a table: `*answer` is 'I' or 'D'. For D `witness` has the two inputs i < j, the previous vector as a number in
   base 3 (input 1 weighs most, values 0, 1, x are 0, 1, 2), the current values of i and of j, the old output, the output
   of the order i, j, others rising and that of j, i, others rising (values as bytes). For I it has zeros. */
uint8_t bankplover_judge(const uint8_t *area, size_t area_length, size_t witness[BANKPLOVER_WITNESS], size_t *answer);

/* The pairwise answers: cell 9 (i - 1) + (j - 1) is 1 for yes and 0 for no. */
uint8_t bankplover_square(const uint8_t *area, size_t area_length, uint8_t square[BANKPLOVER_SQUARE], size_t *answer);

/* Opens a book of which `stated` bytes count: `opened` has the number of entries, the good length and the torn bytes. */
uint8_t bankplover_open(const uint8_t *book, size_t book_length, size_t stated, size_t opened[BANKPLOVER_OPENED],
                        size_t *answer);

/* Appends a verdict ('I', or 'D' with its witness): `*answer` is the new stated length. */
uint8_t bankplover_append(uint8_t *book, size_t book_length, size_t stated, const uint8_t *name, size_t name_length,
                          size_t inputs, size_t rows, uint8_t finding, const size_t witness[BANKPLOVER_WITNESS],
                          size_t *answer);

/* Fetches entry k, counted from 1: `entry` has the place and the length of its name in the book, inputs, rows, 'I' or
   'D', and the witness. */
uint8_t bankplover_fetch(const uint8_t *book, size_t book_length, size_t stated, size_t k,
                         size_t entry[BANKPLOVER_ENTRY], size_t *answer);

#endif
