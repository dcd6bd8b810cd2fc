/* Deframing throughput of the library hdlc_bits beside a plain C reader of the same rules, in one run.
 *
 * Four lines of frames with zero insertion are read: bodies of 260 random octets ("random"), of zeros alone ("zeros"),
 * of ones alone, so that every sixth bit was inserted ("ones"), and of one octet, as frames without information have
 * ("short"); each in pieces of 7, 512 and 32,768 bits. For each the best of some rounds is printed in MiB of the line a
 * second of processor time, and the ratio of the library to plain C. Both must find the same number of frames, or the
 * run fails.
 */
#include <stdint.h>
#include <stdio.h>
#include <stdlib.h>
#include <string.h>
#include <time.h>

/* Of the library: the number of frames in a line that is read in pieces of so many bits. */
extern uint64_t bench_c_bit_frames(const uint8_t *line, size_t length, uint32_t piece);

#define MOST_BITS 8256
#define CAPACITY 8320
#define ROUNDS 9

/* ---- the plain C reader: one bit after another */

static uint16_t table[256];

static void make_table(void) {
  for (unsigned place = 0; place < 256; place++) {
    uint16_t shifted = (uint16_t)place;
    for (int bit = 0; bit < 8; bit++)
      shifted = (uint16_t)(shifted & 1 ? shifted >> 1 ^ 0x8408 : shifted >> 1);
    table[place] = shifted;
  }
}

enum found { NOTHING, FRAME, BAD_FCS, TOO_SHORT, RAGGED, TOO_LONG, ABORTED };

struct reader {
  int begun;
  unsigned ones;   /* since the newest zero */
  unsigned length; /* bits, those of a flag that may be coming too */
  unsigned mark;   /* bits before the newest zero: the content, if a flag follows */
  unsigned octet;  /* the newest eight bits */
  uint8_t octets[CAPACITY / 8];
};

static inline void append(struct reader *r, unsigned bit) {
  if (r->length == CAPACITY)
    return;
  r->octet = r->octet >> 1 | bit << 7;
  if (++r->length % 8 == 0)
    r->octets[r->length / 8 - 1] = (uint8_t)r->octet;
}

static enum found judge(const struct reader *r) {
  unsigned length = r->mark;
  if (!r->begun || length == 0)
    return NOTHING;
  if (r->ones > 6)
    return ABORTED;
  if (length > MOST_BITS)
    return TOO_LONG;
  if (length % 8 != 0)
    return RAGGED;
  if (length < 32)
    return TOO_SHORT;
  uint16_t check = 0xffff;
  for (unsigned i = 0; i < length / 8; i++)
    check = (uint16_t)(check >> 8 ^ table[(check ^ r->octets[i]) & 0xff]);
  return check == 0xf0b8 ? FRAME : BAD_FCS;
}

static uint64_t feed(struct reader *r, const uint8_t *line, uint64_t first, uint64_t end, enum found *found) {
  for (uint64_t at = first; at < end; at++) {
    unsigned bit = line[at / 8] >> at % 8 & 1;
    if (bit) {
      if (r->ones < 7 && ++r->ones < 6)
        append(r, 1);
      continue;
    }
    if (r->ones > 5) {
      *found = judge(r);
      r->begun = r->ones == 6;
      r->length = 0;
      r->mark = 0;
      r->ones = 0;
      if (*found != NOTHING)
        return at + 1 - first;
      continue;
    }
    r->mark = r->length;
    if (r->ones < 5)
      append(r, 0);
    r->ones = 0;
  }
  *found = NOTHING;
  return end - first;
}

static uint64_t plain_count(const uint8_t *line, size_t length, uint32_t piece) {
  static struct reader r;
  memset(&r, 0, sizeof r);
  uint64_t bits = (uint64_t)length * 8, count = 0, at = 0;
  while (at < bits) {
    uint64_t end = at - at % piece + piece;
    if (end > bits)
      end = bits;
    enum found found;
    at += feed(&r, line, at, end, &found);
    count += found == FRAME;
  }
  return count;
}

/* ---- the lines */

static uint32_t number = 1;

static uint8_t random_octet(void) {
  number = number * 1664525u + 1013904223u;
  return (uint8_t)(number >> 24);
}

struct writer {
  uint8_t *out;
  uint64_t bits;
  unsigned ones;
};

static void put_bit(struct writer *w, unsigned bit) {
  uint8_t *octet = w->out + w->bits / 8;
  *octet = (uint8_t)(w->bits % 8 == 0 ? bit : *octet | bit << w->bits % 8);
  w->bits++;
}

static void put_flag(struct writer *w) {
  for (int i = 0; i < 8; i++)
    put_bit(w, 0x7e >> i & 1);
  w->ones = 0;
}

static void put_octet(struct writer *w, uint8_t octet) {
  for (int i = 0; i < 8; i++) {
    unsigned bit = octet >> i & 1;
    put_bit(w, bit);
    w->ones = bit ? w->ones + 1 : 0;
    if (w->ones == 5) {
      put_bit(w, 0);
      w->ones = 0;
    }
  }
}

enum kind { RANDOM, ZEROS, ONES, SHORT, KINDS };

static const char *const names[] = {"random", "zeros", "ones", "short"};

/* frames with bodies of 260 octets, or of one, until the line is full */
static size_t make_line(uint8_t *out, size_t room, enum kind kind) {
  const int length = kind == SHORT ? 2 : 261;
  struct writer w = {out, 0, 0};
  while (w.bits / 8 + 400 <= room) {
    uint16_t check = 0xffff;
    put_flag(&w);
    for (int i = 0; i < length; i++) {
      uint8_t octet = kind == ZEROS ? 0 : kind == ONES ? 0xff : random_octet();
      check = (uint16_t)(check >> 8 ^ table[(check ^ octet) & 0xff]);
      put_octet(&w, octet);
    }
    check ^= 0xffff;
    put_octet(&w, (uint8_t)(check & 0xff));
    put_octet(&w, (uint8_t)(check >> 8));
    put_flag(&w);
  }
  return (size_t)(w.bits / 8);
}

/* ---- the measure */

static double seconds(void) {
  struct timespec now;
  clock_gettime(CLOCK_PROCESS_CPUTIME_ID, &now);
  return (double)now.tv_sec + (double)now.tv_nsec * 1e-9;
}

typedef uint64_t counter(const uint8_t *, size_t, uint32_t);

static double rate(counter *run, const uint8_t *line, size_t length, uint32_t piece, uint64_t *frames) {
  double begin = seconds();
  *frames = run(line, length, piece);
  return (double)length / (1 << 20) / (seconds() - begin);
}

int main(void) {
  const size_t room = (size_t)4 << 20;
  static const uint32_t pieces[] = {7, 512, 32768};
  uint8_t *line = malloc(room);
  if (line == NULL)
    return 1;
  make_table();
  printf("%-8s %6s %8s %12s %12s %6s\n", "line", "piece", "frames", "plain MiB/s", "this MiB/s", "ratio");
  for (int kind = 0; kind < KINDS; kind++) {
    size_t length = make_line(line, room, (enum kind)kind);
    for (int k = 0; k < 3; k++) {
      double plain = 0, ours = 0;
      uint64_t expected = 0, frames = 0;
      /* by turns, so that both meet the same machine */
      for (int round = 0; round < ROUNDS; round++) {
        double one = rate(plain_count, line, length, pieces[k], &expected);
        double other = rate(bench_c_bit_frames, line, length, pieces[k], &frames);
        if (one > plain)
          plain = one;
        if (other > ours)
          ours = other;
        if (frames != expected || frames == 0) {
          fprintf(stderr, "frames differ: %llu and %llu\n", (unsigned long long)expected, (unsigned long long)frames);
          return 1;
        }
      }
      printf("%-8s %6u %8llu %12.1f %12.1f %6.2f\n", names[kind], pieces[k], (unsigned long long)frames, plain, ours, ours / plain);
    }
  }
  free(line);
  return 0;
}
