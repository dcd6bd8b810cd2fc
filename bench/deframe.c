/* The plain C deframer's bare speed on a file's octets: MiB a second of processor time, the best of some rounds, each over the file as
 * often as makes 64 MiB; and how many frames it finds in the file. For bench/station.sh. */
#include <stdint.h>
#include <stddef.h>
#include <stdio.h>
#include <stdlib.h>
#include <string.h>
#include <time.h>

#include "plain_deframer.h"

#define ROUNDS 5
#define MOST 67108864u

static uint64_t count(const uint8_t *stream, size_t length) {
  static struct deframer d;
  memset(&d, 0, sizeof d);
  uint64_t frames = 0;
  size_t at = 0;
  while (at < length) {
    enum found found;
    at += feed(&d, stream + at, length - at, &found);
    frames += found == FRAME;
  }
  return frames;
}

int main(int argc, char **argv) {
  static uint8_t octets[MOST];
  FILE *file = argc == 2 ? fopen(argv[1], "rb") : NULL;
  if (file == NULL)
    return 1;
  size_t length = fread(octets, 1, sizeof octets, file);
  fclose(file);
  if (length == 0)
    return 1;
  make_table();
  double best = 0;
  uint64_t frames = 0;
  size_t times = MOST / length;
  for (int round = 0; round < ROUNDS; round++) {
    clock_t begun = clock();
    for (size_t time = 0; time < times; time++)
      frames = count(octets, length);
    double seconds = (double)(clock() - begun) / CLOCKS_PER_SEC;
    double speed = (double)length * (double)times / 1048576 / seconds;
    if (speed > best)
      best = speed;
  }
  printf("%llu frames in %zu octets, plain C deframer %.1f MiB/s\n", (unsigned long long)frames, length, best);
  return 0;
}
