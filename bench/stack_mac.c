// Seconds of processor time that cbc_mac takes for COUNT texts of SIZE octets under one key, the best of nine rounds: stack_mac SIZE COUNT
#include <stdint.h>
#include <stdio.h>
#include <stdlib.h>
#include <time.h>

uint64_t bench_c_macs(uint64_t first, uint64_t second, uint64_t third, const uint8_t *texts, size_t length, size_t size);

static double now(void) {
    struct timespec t;
    clock_gettime(CLOCK_PROCESS_CPUTIME_ID, &t);
    return (double)t.tv_sec + (double)t.tv_nsec / 1e9;
}

int main(int words, char **word) {
    if (words != 3)
        return 2;
    size_t size = strtoul(word[1], NULL, 10), count = strtoul(word[2], NULL, 10);
    // a thousand texts, gone through as often as COUNT wants, so that they stay near
    enum { TEXTS = 1000 };
    uint8_t *texts = calloc(TEXTS, size);
    if (texts == NULL || size == 0)
        return 1;
    volatile uint64_t kept = 0;
    double best = 0;
    for (int round = 0; round < 9; round++) {
        double begun = now();
        for (size_t done = 0; done < count; done += TEXTS)
            kept ^= bench_c_macs(0x0123456789abcdef, 0x23456789abcdef01, 0x456789abcdef0123, texts, TEXTS * size, size);
        double taken = now() - begun;
        if (round == 0 || taken < best)
            best = taken;
    }
    printf("%.6f\n", best);
    free(texts);
    return 0;
}
