/* The engine's product, divisions, GCD, evaluation and cofactors against FLINT doing the same work from the same bytes. Build and run:
   bench/run */
#include "../include/bernstein.h"
#include "../tests/calls.h"
#include <flint/flint.h>
#include <flint/nmod_poly.h>
#include <flint/ulong_extras.h>
#include <stdio.h>
#include <stdlib.h>
#include <string.h>
#include <time.h>

enum { P = 65521, MAX_WORDS = 1024, MAX_BYTES = 2 * MAX_WORDS, PAIRS = 32, BATCHES = 101, BATCH_NS = 2000000 };

/* A list as bytes for a C host's calls and as words for those of tests/calls.h: x86-64 keeps a word low byte first. */
typedef struct {
  size_t words;
  union {
    uint8_t bytes[MAX_BYTES];
    uint16_t whole[MAX_WORDS];
  };
} list;

/* For a division f is the divisor and g the dividend; for an evaluation g is the point, one word. */
typedef struct {
  list f, g;
} pair;

/* Product: the product. Either division: q and r. GCD: h and the answer, of which FLINT's side gives w and c. Evaluation: the value.
   Cofactors: h, a and b. */
typedef union {
  struct {
    uint8_t first[MAX_BYTES], second[MAX_BYTES], third[MAX_BYTES];
  };
  struct {
    uint16_t first_whole[MAX_WORDS], second_whole[MAX_WORDS], third_whole[MAX_WORDS];
  };
} result;

static void fail(const char *what, const char *task) {
  fprintf(stderr, "bench: %s: %s\n", task, what);
  exit(1);
}

static unsigned word(const uint8_t *bytes, size_t k) { return bytes[2 * k] | (unsigned)bytes[2 * k + 1] << 8; }

static void put(uint8_t *bytes, size_t k, unsigned w) {
  bytes[2 * k] = w & 255;
  bytes[2 * k + 1] = w >> 8;
}

/* ---- The engine's side: the exported calls. ---- */

static void completed(uint8_t number) {
  if (number != 0) fail("the engine refused a call", "engine");
}

static void engine_product(const pair *in, result *out) {
  const list *f = &in->f, *g = &in->g;
  completed(bernstein_product(f->bytes, 2 * f->words, g->bytes, 2 * g->words, out->first, 2 * (f->words + g->words - 1)));
}

static void engine_division(const pair *in, result *out) {
  const list *f = &in->f, *g = &in->g;
  completed(bernstein_division(g->bytes, 2 * g->words, f->bytes, 2 * f->words, out->first, 2 * (g->words - f->words + 1), out->second,
                               2 * (f->words - 1)));
}

static void engine_ordinary_division(const pair *in, result *out) {
  const list *f = &in->f, *g = &in->g;
  completed(test_divide_ordinary(g->whole, g->words, f->whole, f->words, out->first_whole, g->words, out->second_whole, g->words));
}

static void engine_gcd(const pair *in, result *out) {
  const list *f = &in->f, *g = &in->g;
  completed(bernstein_gcd(f->bytes, 2 * f->words, g->bytes, 2 * g->words, out->first, MAX_BYTES, out->second, 6));
}

static void engine_evaluation(const pair *in, result *out) {
  const list *f = &in->f, *g = &in->g;
  size_t value;
  completed(test_evaluate(f->whole, f->words, g->whole[0], &value, 1));
  out->first_whole[0] = value;
}

/* With d and e above 0, m is d + e - 1, so a has e words and b has d. */
static void engine_cofactors(const pair *in, result *out) {
  const list *f = &in->f, *g = &in->g;
  size_t answer[3];
  completed(test_cofactors(f->whole, f->words, g->whole, g->words, out->first_whole, MAX_WORDS, out->second_whole, g->words - 1,
                           out->third_whole, f->words - 1, answer, 3));
}

/* ---- FLINT's side: scale, compute in the monomial basis of u, scale back; ordinary division in that of t. ---- */

/* A constant of the field with the quotient that FLINT's n_mulmod_shoup wants, its quickest product by a known constant. */
typedef struct {
  mp_limb_t value, quotient;
} factor;

/* C(n,k) modulo P and its inverse, in row n, filled before anything is timed. */
static factor binomials[MAX_WORDS][MAX_WORDS], inverses[MAX_WORDS][MAX_WORDS];

/* k! and its inverse; n!/(n-j)! and its inverse, in row n. */
static factor factorials[MAX_WORDS], inverse_factorials[MAX_WORDS];
static factor falling[MAX_WORDS][MAX_WORDS], inverse_falling[MAX_WORDS][MAX_WORDS];

/* The first terms of exp(u) and of exp(-u), as many as a list has words, each term u^i / i!. */
static nmod_poly_t growing, alternating;

/* Kept from call to call, so that FLINT allocates its operands once. */
static nmod_poly_t scaled_f, scaled_g, powers_f, powers_g, weighed, first, second, third;

static factor factor_of(mp_limb_t value) { return (factor){value, n_mulmod_precomp_shoup(value, P)}; }

static mp_limb_t times(const factor *c, mp_limb_t x) { return n_mulmod_shoup(c->value, x, c->quotient, P); }

static void prepare_powers(void) {
  mp_limb_t product = 1;
  nmod_poly_init2(growing, P, MAX_WORDS);
  nmod_poly_init2(alternating, P, MAX_WORDS);
  nmod_poly_init2(powers_f, P, MAX_WORDS);
  nmod_poly_init2(powers_g, P, MAX_WORDS);
  nmod_poly_init2(weighed, P, MAX_WORDS);
  for (size_t k = 0; k < MAX_WORDS; k++) {
    if (k > 0) product = n_mulmod2(product, k, P);
    mp_limb_t inverse = n_invmod(product, P);
    factorials[k] = factor_of(product);
    inverse_factorials[k] = factor_of(inverse);
    nmod_poly_set_coeff_ui(growing, k, inverse);
    nmod_poly_set_coeff_ui(alternating, k, k % 2 == 0 ? inverse : P - inverse);
    for (size_t j = 0; j <= k; j++) {
      falling[k][j] = factor_of(n_mulmod2(product, inverse_factorials[k - j].value, P));
      inverse_falling[k][j] = factor_of(n_mulmod2(inverse, factorials[k - j].value, P));
    }
  }
}

static void prepare_flint(void) {
  for (size_t n = 0; n < MAX_WORDS; n++)
    for (size_t k = 0; k <= n; k++) {
      mp_limb_t c = k == 0 || k == n ? 1 : n_addmod(binomials[n - 1][k - 1].value, binomials[n - 1][k].value, P);
      binomials[n][k] = factor_of(c);
      inverses[n][k] = factor_of(n_invmod(c, P));
    }
  nmod_poly_init2(scaled_f, P, MAX_WORDS);
  nmod_poly_init2(scaled_g, P, MAX_WORDS);
  nmod_poly_init2(first, P, MAX_WORDS);
  nmod_poly_init2(second, P, MAX_WORDS);
  nmod_poly_init2(third, P, MAX_WORDS);
  prepare_powers();
}

/* The scaled form of a list. */
static void scale(const list *from, nmod_poly_t to) {
  const factor *row = binomials[from->words - 1];
  for (size_t k = 0; k < from->words; k++) to->coeffs[k] = times(&row[k], word(from->bytes, k));
  _nmod_poly_set_length(to, from->words);
  _nmod_poly_normalise(to);
}

/* The list of so many words with a given scaled form. */
static void unscale(const nmod_poly_t from, size_t words, uint8_t *bytes) {
  const factor *row = inverses[words - 1];
  size_t length = from->length;
  for (size_t k = 0; k < length; k++) put(bytes, k, times(&row[k], from->coeffs[k]));
  memset(bytes + 2 * length, 0, 2 * (words - length));
}

static void flint_product(const pair *in, result *out) {
  scale(&in->f, scaled_f);
  scale(&in->g, scaled_g);
  nmod_poly_mul(first, scaled_f, scaled_g);
  unscale(first, in->f.words + in->g.words - 1, out->first);
}

static void flint_division(const pair *in, result *out) {
  scale(&in->f, scaled_f);
  scale(&in->g, scaled_g);
  nmod_poly_divrem(first, second, scaled_g, scaled_f);
  unscale(first, in->g.words - in->f.words + 1, out->first);
  unscale(second, in->f.words - 1, out->second);
}

/* The polynomial in t of a list: its coefficient j is n!/(n-j)! times the sum over k of c_k/k! (-1)^(j-k)/(j-k)!, a product of series.
   With FLINT's own nmod_poly_taylor_shift, on scaled forms read backwards, the row takes it about twice as long. */
static void to_powers(const list *from, nmod_poly_t to) {
  const factor *row = falling[from->words - 1];
  for (size_t k = 0; k < from->words; k++) weighed->coeffs[k] = times(&inverse_factorials[k], word(from->bytes, k));
  _nmod_poly_set_length(weighed, from->words);
  _nmod_poly_normalise(weighed);
  nmod_poly_mullow(to, weighed, alternating, from->words);
  for (slong j = 0; j < to->length; j++) to->coeffs[j] = times(&row[j], to->coeffs[j]);
}

/* The list of so many words that means a polynomial in t: c_k is k! times the sum over j of P_j (n-j)!/n! 1/(k-j)!. */
static void from_powers(const nmod_poly_t from, size_t words, uint8_t *bytes) {
  const factor *row = inverse_falling[words - 1];
  for (slong j = 0; j < from->length; j++) weighed->coeffs[j] = times(&row[j], from->coeffs[j]);
  _nmod_poly_set_length(weighed, from->length);
  nmod_poly_mullow(third, weighed, growing, words);
  size_t length = third->length;
  for (size_t k = 0; k < length; k++) put(bytes, k, times(&factorials[k], third->coeffs[k]));
  memset(bytes + 2 * length, 0, 2 * (words - length));
}

static void flint_ordinary_division(const pair *in, result *out) {
  to_powers(&in->f, powers_f);
  to_powers(&in->g, powers_g);
  nmod_poly_divrem(first, second, powers_g, powers_f);
  from_powers(first, in->g.words, out->first);
  from_powers(second, in->g.words, out->second);
}

/* h in its 1,024 words. FLINT's GCD is monic, and C(w,w) is 1, so h ends in 1 as it has to. */
static void unscale_gcd(const nmod_poly_t from, uint8_t *bytes) {
  size_t words = from->length;
  unscale(from, words, bytes);
  memset(bytes + 2 * words, 0, MAX_BYTES - 2 * words);
}

static void flint_gcd(const pair *in, result *out) {
  scale(&in->f, scaled_f);
  scale(&in->g, scaled_g);
  nmod_poly_gcd(first, scaled_f, scaled_g);
  size_t power_f = in->f.words - scaled_f->length, power_g = in->g.words - scaled_g->length;
  unscale_gcd(first, out->first);
  put(out->second, 0, first->length - 1);
  put(out->second, 1, power_f < power_g ? power_f : power_g);
}

/* P(x) = (1-x)^n S(x/(1-x)) for x other than 1. */
static void flint_evaluation(const pair *in, result *out) {
  scale(&in->f, scaled_f);
  nmod_t mod = scaled_f->mod;
  mp_limb_t x = word(in->g.bytes, 0), y = nmod_sub(1, x, mod);
  mp_limb_t value = nmod_poly_evaluate_nmod(scaled_f, nmod_div(x, y, mod));
  put(out->first, 0, nmod_mul(value, nmod_pow_ui(y, in->f.words - 1, mod), mod));
}

static void flint_cofactors(const pair *in, result *out) {
  scale(&in->f, scaled_f);
  scale(&in->g, scaled_g);
  nmod_poly_xgcd(first, second, third, scaled_f, scaled_g);
  unscale_gcd(first, out->first);
  unscale(second, in->g.words - 1, out->second);
  unscale(third, in->f.words - 1, out->third);
}

/* ---- Inputs, the same in each start of the program. ---- */

/* splitmix64 */
static uint64_t next_random(void) {
  static uint64_t state = 65521;
  uint64_t z = state += 0x9E3779B97F4A7C15;
  z = (z ^ z >> 30) * 0xBF58476D1CE4E5B9;
  z = (z ^ z >> 27) * 0x94D049BB133111EB;
  return z ^ z >> 31;
}

/* A random list of naive degree n whose last word is not 0, so that its extent is n as well. */
static void draw_list(list *l, size_t n) {
  l->words = n + 1;
  for (size_t k = 0; k < n; k++) put(l->bytes, k, next_random() % P);
  put(l->bytes, n, 1 + next_random() % (P - 1));
}

/* Two random lists of naive degrees f and g. They are nearly always coprime; compare() makes sure of it where a row says so. */
static void draw_two(pair *in, size_t f, size_t g) {
  draw_list(&in->f, f);
  draw_list(&in->g, g);
}

/* The divisor's degree in t is nearly always its naive degree; this makes sure of it. */
static void draw_ordinary_division(pair *in, size_t f, size_t g) {
  draw_two(in, f, g);
  to_powers(&in->f, first);
  if (nmod_poly_degree(first) != (slong)f) fail("the divisor has another degree in t than the row says", "ordinary division");
}

/* to becomes the product of shared and a random list, of naive degree n. */
static void draw_multiple(const list *shared, list *to, size_t n) {
  pair in = {.f = *shared};
  result out;
  draw_list(&in.g, n + 1 - shared->words);
  flint_product(&in, &out);
  to->words = n + 1;
  memcpy(to->bytes, out.first, 2 * to->words);
}

/* Two lists of naive degrees f and g with a factor of degree 100, or of degree 400 where f is above 511. */
static void draw_shared(pair *in, size_t f, size_t g) {
  list shared;
  draw_list(&shared, f < 512 ? 100 : 400);
  draw_multiple(&shared, &in->f, f);
  draw_multiple(&shared, &in->g, g);
}

/* A list of naive degree f, and a point, of naive degree 0, other than 1. */
static void draw_evaluation(pair *in, size_t f, size_t g) {
  do draw_two(in, f, g);
  while (in->g.whole[0] == 1);
}

/* ---- The rows of the table. ---- */

typedef void call(const pair *in, result *out);

/* The naive degrees of f and g, the numbers of words of the results that are compared, and what w has to be where the row is a GCD or
   cofactors. */
typedef struct {
  const char *name;
  void (*draw)(pair *in, size_t f, size_t g);
  size_t f, g;
  call *engine, *flint;
  size_t first_words, second_words, third_words;
  int w;
} task;

static const task tasks[] = {
    {"product, 0 by 0", draw_two, 0, 0, engine_product, flint_product, 1, 0, 0, -1},
    {"product, 7 by 7", draw_two, 7, 7, engine_product, flint_product, 15, 0, 0, -1},
    {"division, 7 by 3", draw_two, 3, 7, engine_division, flint_division, 5, 3, 0, -1},
    {"GCD, 3 and 3, coprime", draw_two, 3, 3, engine_gcd, flint_gcd, MAX_WORDS, 2, 0, 0},
    {"product, 127 by 128", draw_two, 127, 128, engine_product, flint_product, 256, 0, 0, -1},
    {"division, 255 by 128", draw_two, 128, 255, engine_division, flint_division, 128, 128, 0, -1},
    {"ordinary division, 255 by 128", draw_ordinary_division, 128, 255, engine_ordinary_division, flint_ordinary_division, 256, 256, 0, -1},
    {"GCD, 255 and 255, coprime", draw_two, 255, 255, engine_gcd, flint_gcd, MAX_WORDS, 2, 0, 0},
    {"GCD, 255 and 255, factor of 100", draw_shared, 255, 255, engine_gcd, flint_gcd, MAX_WORDS, 2, 0, 100},
    {"cofactors, 255 and 255, coprime", draw_two, 255, 255, engine_cofactors, flint_cofactors, MAX_WORDS, 255, 255, 0},
    {"evaluation, 255", draw_evaluation, 255, 0, engine_evaluation, flint_evaluation, 1, 0, 0, -1},
    {"product, 511 by 512", draw_two, 511, 512, engine_product, flint_product, 1024, 0, 0, -1},
    {"division, 1,023 by 512", draw_two, 512, 1023, engine_division, flint_division, 512, 512, 0, -1},
    {"ordinary division, 1,023 by 512", draw_ordinary_division, 512, 1023, engine_ordinary_division, flint_ordinary_division, 1024, 1024, 0, -1},
    {"GCD, 1,023 and 1,023, coprime", draw_two, 1023, 1023, engine_gcd, flint_gcd, MAX_WORDS, 2, 0, 0},
    {"GCD, 1,023 and 1,023, factor of 400", draw_shared, 1023, 1023, engine_gcd, flint_gcd, MAX_WORDS, 2, 0, 400},
    {"cofactors, 1,023 and 1,023", draw_two, 1023, 1023, engine_cofactors, flint_cofactors, MAX_WORDS, 1023, 1023, 0},
    {"evaluation, 1,023", draw_evaluation, 1023, 0, engine_evaluation, flint_evaluation, 1, 0, 0, -1},
};

/* w, as h has it: the place of its last word that is not 0. */
static int degree(const result *r) {
  int k = MAX_WORDS - 1;
  while (k >= 0 && word(r->first, k) == 0) k--;
  return k;
}

/* Stops the program where the two sides differ in a word. The results start out different, so a word that is not written is seen. */
static void compare(const task *t, const pair *in) {
  result a, b;
  memset(&a, 0x55, sizeof a);
  memset(&b, 0xAA, sizeof b);
  t->engine(in, &a);
  t->flint(in, &b);
  if (memcmp(a.first, b.first, 2 * t->first_words) != 0) fail("the results differ", t->name);
  if (memcmp(a.second, b.second, 2 * t->second_words) != 0) fail("the results differ", t->name);
  if (memcmp(a.third, b.third, 2 * t->third_words) != 0) fail("the results differ", t->name);
  if (t->w >= 0 && degree(&a) != t->w) fail("the GCD has another degree than the row says", t->name);
}

/* ---- Timing. ---- */

static double now_ns(void) {
  struct timespec t;
  clock_gettime(CLOCK_MONOTONIC, &t);
  return 1e9 * t.tv_sec + t.tv_nsec;
}

/* Nanoseconds per call. A batch is the pairs in turn, again and again, until it is long enough for the clock. */
static double batch(call *f, const pair *in) {
  static result out;
  double start = now_ns(), passed;
  size_t calls = 0;
  do {
    for (size_t i = 0; i < PAIRS; i++) f(&in[i], &out);
    calls += PAIRS;
    passed = now_ns() - start;
  } while (passed < BATCH_NS);
  return passed / calls;
}

static int ascending(const void *a, const void *b) {
  double x = *(const double *)a, y = *(const double *)b;
  return (x > y) - (x < y);
}

static double median(double *times) {
  qsort(times, BATCHES, sizeof *times, ascending);
  return times[BATCHES / 2];
}

/* The two sides take turns, so that what else the machine does falls on both alike. */
static void measure(const task *t) {
  static pair in[PAIRS];
  double engine[BATCHES], flint[BATCHES];
  for (size_t i = 0; i < PAIRS; i++) {
    t->draw(&in[i], t->f, t->g);
    compare(t, &in[i]);
  }
  for (size_t i = 0; i < BATCHES; i++) {
    engine[i] = batch(t->engine, in);
    flint[i] = batch(t->flint, in);
  }
  double e = median(engine) / 1000, f = median(flint) / 1000;
  printf("%-36s %10.3f us %10.3f us %8.2f\n", t->name, e, f, e / f);
  fflush(stdout);
}

int main(void) {
#ifdef __clang__
  const char *compiler = "";
#else
  const char *compiler = "gcc ";
#endif
  printf("FLINT %s, GMP %s, compiler %s%s\n", flint_version, gmp_version, compiler, __VERSION__);
  printf("%-36s %13s %13s %8s\n", "naive degrees", "engine", "FLINT", "ratio");
  prepare_flint();
  for (size_t i = 0; i < sizeof tasks / sizeof *tasks; i++) measure(&tasks[i]);
  return 0;
}
