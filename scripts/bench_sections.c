/* What scripts/bench sets beside the program: an equaliser over a wave of 16 bits and two channels, in plain C.
 *
 *   bench_sections IN OUT [SHIFT B0 B1 B2 A1 A2]..
 *
 * Each frame of IN, after 44 bytes of a header, is brought to 32 bits a sample, goes through up to four sections one after another,
 * and is written to OUT with 16 bits. A section is the recursion of docs/SCRIPTS.md, with sums of 64 bits. Of the forms that were
 * tried none is faster: each section goes over a whole block, with both channels in one loop, and all that it keeps in locals. */
#include <stdint.h>
#include <stdio.h>
#include <stdlib.h>

enum { HEADER = 44, BLOCK = 1024, SECTIONS = 4 };

/* The last two inputs and outputs of a channel. */
typedef struct { int64_t x1, x2, y1, y2; } Past;
typedef struct { int shift; int64_t b0, b1, b2, a1, a2; Past left, right; } Section;

static inline int64_t limited(int64_t sum) {
  return sum == (int32_t)sum ? sum : sum < 0 ? INT32_MIN : INT32_MAX;
}

static void run(Section *s, int32_t *samples, size_t frames) {
  const int64_t b0 = s->b0, b1 = s->b1, b2 = s->b2, a1 = s->a1, a2 = s->a2, half = INT64_C(1) << (s->shift - 1);
  const int shift = s->shift;
  Past l = s->left, r = s->right;
  for (size_t k = 0; k < frames; k++) {
    int64_t x = samples[2 * k], v = samples[2 * k + 1];
    int64_t y = limited((b0 * x + b1 * l.x1 + b2 * l.x2 - a1 * l.y1 - a2 * l.y2 + half) >> shift);
    int64_t w = limited((b0 * v + b1 * r.x1 + b2 * r.x2 - a1 * r.y1 - a2 * r.y2 + half) >> shift);
    l = (Past){x, l.x1, y, l.y1};
    r = (Past){v, r.x1, w, r.y1};
    samples[2 * k] = (int32_t)y;
    samples[2 * k + 1] = (int32_t)w;
  }
  s->left = l;
  s->right = r;
}

static Section section_of(char **words) {
  int64_t n[6];
  for (int k = 0; k < 6; k++) n[k] = atoll(words[k]);
  return (Section){.shift = (int)n[0], .b0 = n[1], .b1 = n[2], .b2 = n[3], .a1 = n[4], .a2 = n[5]};
}

int main(int count, char **words) {
  Section sections[SECTIONS];
  int used = (count - 3) / 6;
  if (count < 3 || used > SECTIONS) return 2;
  for (int k = 0; k < used; k++) sections[k] = section_of(words + 3 + 6 * k);
  static int16_t packed[2 * BLOCK];
  static int32_t samples[2 * BLOCK];
  FILE *in = fopen(words[1], "rb"), *out = fopen(words[2], "wb");
  if (!in || !out || fread(packed, 1, HEADER, in) != HEADER) return 3;
  for (size_t frames; (frames = fread(packed, 4, BLOCK, in)) > 0;) {
    for (size_t k = 0; k < 2 * frames; k++) samples[k] = packed[k] * 65536;
    for (int k = 0; k < used; k++) run(&sections[k], samples, frames);
    for (size_t k = 0; k < 2 * frames; k++) packed[k] = (int16_t)(samples[k] >> 16);
    if (fwrite(packed, 4, frames, out) != frames) return 7;
  }
  return fclose(out) ? 7 : 0;
}
