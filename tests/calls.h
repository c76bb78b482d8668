/* Every public call on words in place, for tests and the bench; no part of what the engine offers to a C host (include/bernstein.h).
   crates/test_calls exports these functions.

   A list is a pointer to its words with their number after it, and so is a result. Each function returns 0 when its call completes, and
   else the refusal's number, and then leaves every slice as it came. `answer` is a slice for the values that the call hands back; where it
   has not exactly as many numbers as there are values, it is left as it came. Pointers of length 0 may be anything but null. Results must
   not overlap anything. */
#ifndef CALLS_H
#define CALLS_H

#include <stddef.h>
#include <stdint.h>

/* answer: the sum, difference, product or inverse. */
uint8_t test_field_sum(uint16_t a, uint16_t b, size_t *answer, size_t answer_len);
uint8_t test_field_difference(uint16_t a, uint16_t b, size_t *answer, size_t answer_len);
uint8_t test_field_product(uint16_t a, uint16_t b, size_t *answer, size_t answer_len);
uint8_t test_inverse(uint16_t a, size_t *answer, size_t answer_len);

uint8_t test_product(const uint16_t *f, size_t f_len, const uint16_t *g, size_t g_len, uint16_t *out, size_t out_len);
uint8_t test_raise(const uint16_t *f, size_t f_len, size_t to, uint16_t *out, size_t out_len);
uint8_t test_sum(const uint16_t *f, size_t f_len, const uint16_t *g, size_t g_len, uint16_t *out, size_t out_len);
uint8_t test_difference(const uint16_t *f, size_t f_len, const uint16_t *g, size_t g_len, uint16_t *out, size_t out_len);

/* answer: the extent. A zero list has none: the call completes with no values. */
uint8_t test_find_extent(const uint16_t *f, size_t f_len, size_t *answer, size_t answer_len);

/* The same call. answer: how many words its search read. */
uint8_t test_searched(const uint16_t *f, size_t f_len, size_t *answer, size_t answer_len);

uint8_t test_trim(const uint16_t *f, size_t f_len, uint16_t *out, size_t out_len);
uint8_t test_derivative(const uint16_t *f, size_t f_len, uint16_t *out, size_t out_len);

/* answer: the value at x. */
uint8_t test_evaluate(const uint16_t *f, size_t f_len, uint16_t x, size_t *answer, size_t answer_len);
uint8_t test_divide(const uint16_t *g, size_t g_len, const uint16_t *f, size_t f_len, uint16_t *q, size_t q_len, uint16_t *r, size_t r_len);

/* Division in the usual sense, g = q f + r in powers of t; q and r have as many words as g. */
uint8_t test_divide_ordinary(const uint16_t *g, size_t g_len, const uint16_t *f, size_t f_len, uint16_t *q, size_t q_len, uint16_t *r,
                             size_t r_len);

/* Returns the degree in t of a list, 0 for a zero list and for one of more than 1,024 words; it refuses nothing. */
size_t test_degree_in_t(const uint16_t *list, size_t list_len);

/* answer, here and below: w, c and rounds. */
uint8_t test_gcd(const uint16_t *f, size_t f_len, const uint16_t *g, size_t g_len, uint16_t *h, size_t h_len, size_t *answer,
                 size_t answer_len);
uint8_t test_cofactors(const uint16_t *f, size_t f_len, const uint16_t *g, size_t g_len, uint16_t *h, size_t h_len, uint16_t *a, size_t a_len,
                       uint16_t *b, size_t b_len, size_t *answer, size_t answer_len);

uint8_t test_check(const uint8_t *album, size_t album_len, size_t i);

/* Returns the number of bytes of list i, 0 when refused, and copies them to out where it has exactly that length. */
size_t test_body(const uint8_t *album, size_t album_len, size_t i, uint8_t *out, size_t out_len);

/* The contents: 16 records. */
typedef struct {
  uint16_t offset, degree;
} test_entry;
uint8_t test_contents(const uint8_t *album, size_t album_len, test_entry *out, size_t out_len);

/* answer: the naive degree of list i. */
uint8_t test_read_list(const uint8_t *album, size_t album_len, size_t i, uint16_t *out, size_t out_len, size_t *answer, size_t answer_len);
uint8_t test_gcd_of_album(const uint8_t *album, size_t album_len, uint16_t *h, size_t h_len, size_t *answer, size_t answer_len);

/* The value of a line of algebra over an album; out has 1,024 words. answer: the naive degree. */
uint8_t test_line_value(const uint8_t *album, size_t album_len, const uint8_t *line, size_t line_len, uint16_t *out, size_t out_len,
                        size_t *answer, size_t answer_len);

/* Writes the album of lists that stand one after the other in words, degrees being their naive degrees, to the front of out, which has at
   least 32,833 bytes; those after the album are left as they came. answer: the number of bytes of the album. */
uint8_t test_write_album(const uint16_t *words, size_t words_len, const uint16_t *degrees, size_t degrees_len, uint8_t *out, size_t out_len,
                         size_t *answer, size_t answer_len);

#endif
