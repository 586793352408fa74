/* The stencil in C, in one thread: the same grid, steps and summary as `partstencil stencil --make`.
 *
 *   peer SEED ROWS COLS STEPS DIV [REACH]
 *
 * The weights are those of the program where REACH is 1, and all ones where it is 2; the edge is 0. With
 * -DNO_DIVISION the quotient comes from a product with the divisor's reciprocal, without a division instruction.
 * The grid lies in memory with a border as wide as the weights reach, and each row is summed weight by weight,
 * which a compiler can make into vectors.
 */
#include <stdint.h>
#include <stdio.h>
#include <stdlib.h>
#include <string.h>

#define LIMIT 1000000000000LL

static const int64_t three[9] = {1, 2, 1, 2, 4, 2, 1, 2, 1};

typedef struct {
  int64_t value;
  uint64_t reciprocal;
  int shift;
} divisor;

static divisor divisor_of(int64_t value) {
  divisor d = {value, 0, 63 - __builtin_clzll((uint64_t)value)};
  d.reciprocal = (uint64_t)((((unsigned __int128)1 << (64 + d.shift)) - 1) / (uint64_t)value);
  return d;
}

static inline int64_t quotient(int64_t sum, const divisor *d) {
#ifdef NO_DIVISION
  uint64_t size = sum < 0 ? -(uint64_t)sum : (uint64_t)sum;
  uint64_t q = (uint64_t)(((unsigned __int128)(size + 1) * d->reciprocal) >> 64) >> d->shift;
  if (q > LIMIT) q = LIMIT;
  return sum < 0 ? -(int64_t)q : (int64_t)q;
#else
  int64_t q = sum / d->value;
  return q > LIMIT ? LIMIT : q < -LIMIT ? -LIMIT : q;
#endif
}

/* One row of three or five rows of weights. */
static void next_row3(const int64_t *restrict window, int width, const int64_t *restrict w, int cols,
                      const divisor *d, int64_t *restrict out) {
  const int64_t *a = window, *b = window + width, *c = window + 2 * width;
  int64_t w0 = w[0], w1 = w[1], w2 = w[2], w3 = w[3], w4 = w[4], w5 = w[5], w6 = w[6], w7 = w[7], w8 = w[8];
  divisor own = *d;
  for (int x = 0; x < cols; x++) {
    int64_t sum = w0 * a[x] + w1 * a[x + 1] + w2 * a[x + 2] + w3 * b[x] + w4 * b[x + 1] + w5 * b[x + 2] +
                  w6 * c[x] + w7 * c[x + 1] + w8 * c[x + 2];
    out[x] = quotient(sum, &own);
  }
}

static void next_row5(const int64_t *restrict window, int width, const int64_t *restrict w, int cols,
                      const divisor *d, int64_t *restrict out) {
  divisor own = *d;
  for (int x = 0; x < cols; x++) {
    int64_t sum = 0;
    for (int a = 0; a < 5; a++)
      for (int b = 0; b < 5; b++) sum += w[a * 5 + b] * window[a * width + x + b];
    out[x] = quotient(sum, &own);
  }
}

int main(int count, char **words) {
  if (count < 6) return 2;
  uint32_t state = (uint32_t)atoi(words[1]);
  int rows = atoi(words[2]), cols = atoi(words[3]), steps = atoi(words[4]);
  divisor d = divisor_of(atoll(words[5]));
  int reach = count > 6 ? atoi(words[6]) : 1;
  int width = cols + 2 * reach;
  size_t size = (size_t)(rows + 2 * reach) * width;
  int64_t *last = calloc(size, 8), *next = calloc(size, 8), weights[25];
  if (!last || !next) return 6;
  for (int k = 0; k < 25; k++) weights[k] = reach == 1 && k < 9 ? three[k] : 1;
  for (int y = 0; y < rows; y++)
    for (int x = 0; x < cols; x++) {
      state = (1103515245u * state + 12345u) & 2147483647u;
      last[(size_t)(y + reach) * width + reach + x] = (int64_t)(state / 65536 % 19) - 9;
    }
  for (int t = 0; t < steps; t++) {
    for (int y = 0; y < rows; y++) {
      const int64_t *window = last + (size_t)y * width;
      int64_t *out = next + (size_t)(y + reach) * width + reach;
      if (reach == 1) next_row3(window, width, weights, cols, &d, out);
      else next_row5(window, width, weights, cols, &d, out);
    }
    int64_t *swap = last;
    last = next;
    next = swap;
  }
  __int128 sum = 0, check = 0;
  int64_t least = INT64_MAX, most = INT64_MIN;
  for (int y = 0; y < rows; y++)
    for (int x = 0; x < cols; x++) {
      int64_t v = last[(size_t)(y + reach) * width + reach + x];
      sum += v;
      check += (__int128)(((int64_t)y * cols + x) % 1000 + 1) * v;
      if (v < least) least = v;
      if (v > most) most = v;
    }
  printf("grid %d %d steps %d\nsum %lld\nmin %lld\nmax %lld\ncheck %lld\n", rows, cols, steps, (long long)sum,
         (long long)least, (long long)most, (long long)check);
  return 0;
}
