/* Product, division and GCD of polynomials in Bernstein form over the field of 65,521 elements.

   Lists. A list of n + 1 words c_0 to c_n, c_0 first, means the sum of c_k C(n,k) t^k (1-t)^(n-k); n is its naive degree. It has 1 to
   1,024 words, each below 65,521, and is handed over as bytes, two to a word, low byte first.

   Lengths. Each pointer is followed by its length in bytes. The length of a result is exactly the one that stands over its call.

   Answers. Each call returns BERNSTEIN_DONE, or the lowest of the other numbers below that applies; it then leaves every result as it came.

   Pointers. None is ever null, not even with the length 0 (the remainder by a divisor of one word): pass the address of any byte there. A
   pointer needs no alignment. The two lists may be the same memory; a result overlaps neither a list nor another result.

   The calls allocate nothing, keep no state between them and may run in several threads at once, each with results of its own. On the
   stack they take up to 58 KB, so that a thread of 64 KB is enough (measured with rattle-kit-5b).

   To link:  (cd crates/bernstein && rt lib)
             cc -Iinclude program.c crates/bernstein/out/libbernstein.a */
#ifndef BERNSTEIN_H
#define BERNSTEIN_H

#include <stddef.h>
#include <stdint.h>

#ifdef __cplusplus
extern "C" {
#endif

#define BERNSTEIN_P 65521          /* every word of a list is below it */
#define BERNSTEIN_MAX_WORDS 1024   /* of a list */
#define BERNSTEIN_MAX_DEGREE 1023  /* naive degree of a list */
#define BERNSTEIN_H_LEN 2048       /* bytes of h */
#define BERNSTEIN_ANSWER_LEN 6     /* bytes of a GCD's answer */

enum {
  BERNSTEIN_DONE = 0,
  BERNSTEIN_LENGTH = 4,     /* a list has 0 words, more than 1,024, or an odd number of bytes */
  BERNSTEIN_LOOSE_WORD = 5, /* a word of a list is 65,521 or more */
  BERNSTEIN_OVER = 6,       /* the product's naive degree would pass 1,023 */
  BERNSTEIN_BACKWARDS = 7,  /* the dividend is shorter than the divisor */
  BERNSTEIN_VANISHES = 8,   /* the divisor's last word is 0 */
  BERNSTEIN_ALL_ZERO = 9,   /* every word of both lists of a GCD is 0 */
  BERNSTEIN_MISFIT = 10     /* a result has not exactly its length */
};

/* out: the product of f and g. Refusals: 4, 5, 6, 10.
     out_len = f_len + g_len - 2 */
uint8_t bernstein_product(const uint8_t *f, size_t f_len, const uint8_t *g, size_t g_len, uint8_t *out, size_t out_len);

/* g divided by f, of naive degrees e and d: g = q f + (1-t)^(e-d+1) r. Refusals: 4, 5, 7, 8, 10.
     q_len = g_len - f_len + 2
     r_len = f_len - 2 */
uint8_t bernstein_division(const uint8_t *g, size_t g_len, const uint8_t *f, size_t f_len, uint8_t *q, size_t q_len, uint8_t *r, size_t r_len);

/* The GCD of f and g is (1-t)^c h. answer: three words, w, c and the number of rounds. h: its words 0 to w, of which the last is 1, then
   zeros. Refusals: 4, 5, 9, 10.
     h_len = BERNSTEIN_H_LEN
     answer_len = BERNSTEIN_ANSWER_LEN */
uint8_t bernstein_gcd(const uint8_t *f, size_t f_len, const uint8_t *g, size_t g_len, uint8_t *h, size_t h_len, uint8_t *answer, size_t answer_len);

#ifdef __cplusplus
}
#endif

#endif
