/* The GCD of two lists and a division, by way of the engine's static library. Build and run: examples/run */
#include "../include/bernstein.h"
#include <stdio.h>

/* words to bytes, low byte first */
static void put(const uint16_t *words, size_t n, uint8_t *bytes) {
  for (size_t k = 0; k < n; k++) {
    bytes[2 * k] = words[k] & 255;
    bytes[2 * k + 1] = words[k] >> 8;
  }
}

static unsigned word(const uint8_t *bytes, size_t k) { return bytes[2 * k] + 256u * bytes[2 * k + 1]; }

static void print(const char *name, const uint8_t *bytes, size_t words) {
  printf("%s", name);
  for (size_t k = 0; k < words; k++) printf(" %u", word(bytes, k));
  printf("\n");
}

static int refused(uint8_t number) {
  printf("refused %u\n", number);
  return 1;
}

static int gcd(void) {
  /* [1, 2] times [3, 5, 1], and [1, 2] times [4, 0, 7] */
  const uint16_t f_words[] = {3, 43686, 7, 2}, g_words[] = {4, 21843, 43683, 14};
  uint8_t f[8], g[8], h[BERNSTEIN_H_LEN], answer[BERNSTEIN_ANSWER_LEN];
  put(f_words, 4, f);
  put(g_words, 4, g);
  uint8_t number = bernstein_gcd(f, sizeof f, g, sizeof g, h, sizeof h, answer, sizeof answer);
  if (number != BERNSTEIN_DONE) return refused(number);
  print("w c rounds", answer, 3);
  print("h", h, word(answer, 0) + 1);
  return 0;
}

static int division(void) {
  /* [3, 4] by [2]: the remainder has no words, and its pointer is still not null */
  const uint16_t g_words[] = {3, 4}, f_words[] = {2};
  uint8_t g[4], f[2], q[sizeof g - sizeof f + 2], none[1];
  put(g_words, 2, g);
  put(f_words, 1, f);
  uint8_t number = bernstein_division(g, sizeof g, f, sizeof f, q, sizeof q, none, 0);
  if (number != BERNSTEIN_DONE) return refused(number);
  print("q", q, sizeof q / 2);
  return 0;
}

int main(void) { return gcd() || division(); }
