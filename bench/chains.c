// One, two and four MACs at once: for chains.sh, which writes tables.h of the tables of crates/des_block.
//
// The rounds, the permutations and the key schedule have the form of that crate's. Texts are of one length here, as one after the other of a bulk run are;
// of texts of two lengths the longer would end alone.
#include <stdint.h>
#include <stdio.h>
#include <stdlib.h>
#include <string.h>
#include <time.h>

#include "tables.h"

enum { TEXTS = 1000, ROUNDS = 9, MOST = 4 };

struct key {
    uint64_t words[16];
};

struct triple {
    struct key keys[3];
};

// ---- DES

static inline uint64_t swapped(uint64_t x, int apart, uint64_t mask) {
    uint64_t differing = (x ^ (x >> apart)) & mask;
    return x ^ differing ^ (differing << apart);
}

static inline uint64_t before_rounds(uint64_t x) {
    x = swapped(x, 36, 0x0f0f0f0f);
    x = swapped(x, 48, 0x0000ffff);
    x = swapped(x, 30, 0xcccccccc);
    x = swapped(x, 24, 0xff00ff00);
    return swapped(x, 33, 0x55555555);
}

static inline uint64_t behind_rounds(uint64_t x) {
    x = swapped(x, 33, 0x55555555);
    x = swapped(x, 24, 0xff00ff00);
    x = swapped(x, 30, 0xcccccccc);
    x = swapped(x, 48, 0x0000ffff);
    return swapped(x, 36, 0x0f0f0f0f);
}

static struct key schedule(uint64_t key) {
    static const int shifts[16] = {1, 1, 2, 2, 2, 2, 2, 2, 1, 2, 2, 2, 2, 2, 2, 1};
    uint64_t rows = before_rounds(key);
    uint64_t c = ((rows >> 24 & 0xff) << 20) | ((rows >> 56) << 12) | ((rows >> 16 & 0xff) << 4) | (rows >> 52 & 15);
    uint64_t d = ((rows & 0xff) << 20) | ((rows >> 40 & 0xff) << 12) | ((rows >> 8 & 0xff) << 4) | (rows >> 48 & 15);
    c |= c << 28;
    d |= d << 28;
    struct key made;
    for (int i = 0, shifted = 0; i < 16; i++) {
        shifted += shifts[i];
        uint64_t word = 0;
        for (int j = 0; j < 4; j++)
            word ^= c_choices[j][c >> (28 - shifted) >> (21 - 7 * j) & 127] ^ d_choices[j][d >> (28 - shifted) >> (21 - 7 * j) & 127];
        made.words[i] = word;
    }
    return made;
}

static inline uint32_t rotated(uint32_t x, int by) {
    return x << by | x >> (32 - by);
}

static inline uint32_t cipher_function(uint32_t right, uint64_t key) {
    uint32_t odd = rotated(right, 29) ^ (uint32_t)(key >> 32);
    uint32_t even = rotated(right, 1) ^ (uint32_t)key;
    return (spread_boxes[0][odd >> 24] | spread_boxes[1][even >> 24]) ^ (spread_boxes[2][odd >> 16 & 255] | spread_boxes[3][even >> 16 & 255])
        ^ (spread_boxes[4][odd >> 8 & 255] | spread_boxes[5][even >> 8 & 255]) ^ (spread_boxes[6][odd & 255] | spread_boxes[7][even & 255]);
}

// The rounds of so many blocks under one key, a round of each before the next of any: `count` is known where this is inlined.
static inline __attribute__((always_inline)) void rounds(const struct key *key, int backward, uint64_t *halves, int count) {
    uint32_t left[MOST], right[MOST];
    for (int n = 0; n < count; n++) {
        left[n] = (uint32_t)(halves[n] >> 32);
        right[n] = (uint32_t)halves[n];
    }
    for (int i = 0; i < 16; i++) {
        uint64_t word = key->words[backward ? 15 - i : i];
        for (int n = 0; n < count; n++) {
            uint32_t next = left[n] ^ cipher_function(right[n], word);
            left[n] = right[n];
            right[n] = next;
        }
    }
    for (int n = 0; n < count; n++)
        halves[n] = (uint64_t)right[n] << 32 | left[n];
}

// ---- the MAC

static inline uint64_t block_at(const uint8_t *text, size_t at, size_t size) {
    uint8_t octets[8] = {0};
    memcpy(octets, text + at, size - at < 8 ? size - at : 8);
    uint64_t number = 0;
    for (int i = 0; i < 8; i++)
        number = number << 8 | octets[i];
    return number;
}

// The MACs of so many texts of one length, which stand one behind the other.
static inline __attribute__((always_inline)) void macs(const struct triple *keys, const uint8_t *texts, size_t size, int count, uint64_t *out) {
    uint64_t halves[MOST] = {0};
    size_t last = (size - 1) / 8 * 8;
    for (size_t at = 0; at < last; at += 8) {
        for (int n = 0; n < count; n++)
            halves[n] ^= before_rounds(block_at(texts + size * (size_t)n, at, size));
        rounds(&keys->keys[0], 0, halves, count);
    }
    for (int n = 0; n < count; n++)
        halves[n] ^= before_rounds(block_at(texts + size * (size_t)n, last, size));
    rounds(&keys->keys[0], 0, halves, count);
    rounds(&keys->keys[1], 1, halves, count);
    rounds(&keys->keys[2], 0, halves, count);
    for (int n = 0; n < count; n++)
        out[n] = behind_rounds(halves[n]);
}

static __attribute__((noinline)) void one(const struct triple *keys, const uint8_t *texts, size_t size, uint64_t *out) {
    macs(keys, texts, size, 1, out);
}

static __attribute__((noinline)) void two(const struct triple *keys, const uint8_t *texts, size_t size, uint64_t *out) {
    macs(keys, texts, size, 2, out);
}

static __attribute__((noinline)) void four(const struct triple *keys, const uint8_t *texts, size_t size, uint64_t *out) {
    macs(keys, texts, size, 4, out);
}

// ---- the measure

typedef void chain(const struct triple *, const uint8_t *, size_t, uint64_t *);

static const struct {
    int count;
    chain *run;
} kinds[] = {{1, one}, {2, two}, {4, four}};

static double seconds(void) {
    struct timespec now;
    clock_gettime(CLOCK_PROCESS_CPUTIME_ID, &now);
    return (double)now.tv_sec + (double)now.tv_nsec * 1e-9;
}

// The exclusive or of the MACs of all texts, so many at a time.
static uint64_t all_macs(int kind, const struct triple *keys, const uint8_t *texts, size_t size) {
    uint64_t all = 0, out[MOST];
    for (int n = 0; n < TEXTS; n += kinds[kind].count) {
        kinds[kind].run(keys, texts + size * (size_t)n, size, out);
        for (int k = 0; k < kinds[kind].count; k++)
            all ^= out[k];
    }
    return all;
}

static void check_block(void) {
    // the worked example of J. Orlin Grabbe's text on DES, which many tables of known answers have
    struct key key = schedule(0x133457799bbcdff1);
    uint64_t halves = before_rounds(0x0123456789abcdef);
    rounds(&key, 0, &halves, 1);
    if (behind_rounds(halves) != 0x85e813540f0ab405) {
        fprintf(stderr, "chains: this is no DES\n");
        exit(1);
    }
}

static void measure(const struct triple *keys, size_t size) {
    uint8_t *texts = malloc(TEXTS * size);
    if (texts == NULL)
        exit(1);
    uint32_t number = 1;
    for (size_t i = 0; i < TEXTS * size; i++) {
        number = number * 1664525u + 1013904223u;
        texts[i] = (uint8_t)(number >> 24);
    }
    uint64_t expected = all_macs(0, keys, texts, size);
    int times = (int)(20000000 / (TEXTS * size)) + 1;
    double best[3] = {0};
    for (int round = 0; round < ROUNDS; round++)
        for (int kind = 0; kind < 3; kind++) {
            double begin = seconds();
            for (int time = 0; time < times; time++)
                if (all_macs(kind, keys, texts, size) != expected) {
                    fprintf(stderr, "chains: MACs differ\n");
                    exit(1);
                }
            double rate = (double)times * TEXTS / (seconds() - begin);
            if (rate > best[kind])
                best[kind] = rate;
        }
    for (int kind = 0; kind < 3; kind++)
        printf("%5zu octets, %d at once: %9.0f MACs/s, %.2f times one chain\n", size, kinds[kind].count, best[kind], best[kind] / best[0]);
    free(texts);
}

int main(void) {
    check_block();
    struct triple keys = {{schedule(0x0123456789abcdef), schedule(0x23456789abcdef01), schedule(0x456789abcdef0123)}};
    measure(&keys, 120);
    measure(&keys, 1006);
    return 0;
}
