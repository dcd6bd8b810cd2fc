/* Deframing throughput of the library hdlc_frames beside a plain C deframer, in one run.
 *
 * Six streams of frames are read: bodies of 260 octets none of which is escaped ("clean"), the same of random
 * octets ("random"), the same with an octet in eight escaped, drawn at random ("eighth"), and with every second one
 * ("escaped"); frames of 4 octets of content, as those without information are ("short"), and of 8 ("eight"); each in
 * pieces of 1, 64 and 4,096 octets. For each the best of some rounds is printed in MiB of stream a second of
 * processor time, and the ratio of the library to plain C, by the best and at the median of the rounds. Both must
 * find the same number of frames, or the run fails.
 */
#include <stdint.h>
#include <stdio.h>
#include <stdlib.h>
#include <string.h>
#include <time.h>

/* Of the library: the number of frames in a stream that is read in pieces. */
extern uint64_t bench_c_frames(const uint8_t *stream, size_t length, uint32_t piece);

#include "plain_deframer.h"

#define ROUNDS 9

/* ---- the plain C deframer over a stream in pieces */

static uint64_t plain_count(const uint8_t *stream, size_t length, uint32_t piece) {
  static struct deframer d;
  memset(&d, 0, sizeof d);
  uint64_t count = 0;
  size_t at = 0;
  while (at < length) {
    size_t end = at - at % piece + piece;
    if (end > length)
      end = length;
    enum found found;
    at += feed(&d, stream + at, end - at, &found);
    count += found == FRAME;
  }
  return count;
}

/* ---- the streams */

static uint32_t number = 1;

static uint8_t random_octet(void) {
  number = number * 1664525u + 1013904223u;
  return (uint8_t)(number >> 24);
}

static size_t put_octet(uint8_t *out, size_t at, uint8_t octet) {
  if (octet == FLAG || octet == ESCAPE) {
    out[at++] = ESCAPE;
    octet ^= 0x20;
  }
  out[at++] = octet;
  return at;
}

enum kind { CLEAN, RANDOM, EIGHTH, ESCAPED, SHORT, EIGHT, KINDS };

static const char *const names[] = {"clean", "random", "eighth", "escaped", "short", "eight"};

/* how many octets of content stand before the check sequence */
static const int lengths[] = {261, 261, 261, 261, 2, 6};

/* whether an octet is to be escaped */
static int is_escaped(enum kind kind, int place) {
  if (kind == EIGHTH)
    return random_octet() < 32;
  return kind == ESCAPED && place % 2 == 1;
}

/* frames with bodies of 260 octets, as a full data block of the line has, or short ones, until the stream is full */
static size_t make_stream(uint8_t *out, size_t room, enum kind kind) {
  const int length = lengths[kind];
  size_t at = 0;
  out[at++] = FLAG;
  while (at + 2 * 263 + 1 <= room) {
    uint16_t check = 0xffff;
    for (int i = 0; i < length; i++) {
      uint8_t octet = random_octet();
      if (kind != RANDOM && (octet == FLAG || octet == ESCAPE))
        octet = 0;
      if (is_escaped(kind, i))
        octet = octet & 1 ? FLAG : ESCAPE;
      check = (uint16_t)(check >> 8 ^ table[(check ^ octet) & 0xff]);
      at = put_octet(out, at, octet);
    }
    check ^= 0xffff;
    at = put_octet(out, at, (uint8_t)(check & 0xff));
    at = put_octet(out, at, (uint8_t)(check >> 8));
    out[at++] = FLAG;
  }
  return at;
}

/* ---- the measure */

static double seconds(void) {
  struct timespec now;
  clock_gettime(CLOCK_PROCESS_CPUTIME_ID, &now);
  return (double)now.tv_sec + (double)now.tv_nsec * 1e-9;
}

typedef uint64_t counter(const uint8_t *, size_t, uint32_t);

static int by_size(const void *one, const void *other) {
  double difference = *(const double *)one - *(const double *)other;
  return difference > 0 ? 1 : difference < 0 ? -1 : 0;
}

static double rate(counter *run, const uint8_t *stream, size_t length, uint32_t piece, uint64_t *frames) {
  double begin = seconds();
  *frames = run(stream, length, piece);
  return (double)length / (1 << 20) / (seconds() - begin);
}

int main(void) {
  const size_t room = (size_t)8 << 20;
  static const uint32_t pieces[] = {1, 64, 4096};
  uint8_t *stream = malloc(room);
  if (stream == NULL)
    return 1;
  make_table();
  printf("%-8s %6s %8s %12s %12s %6s %7s\n", "stream", "piece", "frames", "plain MiB/s", "this MiB/s", "ratio", "median");
  for (int kind = 0; kind < KINDS; kind++) {
    size_t length = make_stream(stream, room, (enum kind)kind);
    for (int k = 0; k < 3; k++) {
      double plain = 0, ours = 0, ratios[ROUNDS];
      uint64_t expected = 0, frames = 0;
      /* by turns, so that both meet the same machine */
      for (int round = 0; round < ROUNDS; round++) {
        double one = rate(plain_count, stream, length, pieces[k], &expected);
        double other = rate(bench_c_frames, stream, length, pieces[k], &frames);
        ratios[round] = other / one;
        if (one > plain)
          plain = one;
        if (other > ours)
          ours = other;
        if (frames != expected || frames == 0) {
          fprintf(stderr, "frames differ: %llu and %llu\n", (unsigned long long)expected, (unsigned long long)frames);
          return 1;
        }
      }
      qsort(ratios, ROUNDS, sizeof ratios[0], by_size);
      printf("%-8s %6u %8llu %12.0f %12.0f %6.2f %7.2f\n", names[kind], pieces[k], (unsigned long long)frames, plain, ours, ours / plain,
             ratios[ROUNDS / 2]);
      fflush(stdout);
    }
  }
  free(stream);
  return 0;
}
