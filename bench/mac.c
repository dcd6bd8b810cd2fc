// Measures the throughput of the MAC of cbc_mac beside OpenSSL's DES-CBC and Botan's X9.19-MAC, in MiB/s.
//
// All three run in turn in one process, several rounds long, and the best round of each counts. OpenSSL's
// DES-CBC chains the same blocks under one key and leaves out the two steps behind the last block.
// X9.19-MAC is the MAC of cbc_mac where the third key is the first.

#include <botan/ffi.h>
#include <openssl/evp.h>
#include <openssl/provider.h>
#include <stdint.h>
#include <stdio.h>
#include <stdlib.h>
#include <string.h>
#include <time.h>

uint64_t bench_c_mac(uint64_t first, uint64_t second, uint64_t third, const uint8_t *text, size_t length);
uint64_t bench_c_macs(uint64_t first, uint64_t second, uint64_t third, const uint8_t *texts, size_t length, size_t size);

enum { TEXTS = 1 << 20, PASSES = 4, ROUNDS = 9 };

static const uint64_t FIRST = 0x0123456789abcdef, SECOND = 0x23456789abcdef01;
static uint8_t key_octets[16];
static uint8_t texts[TEXTS];
static volatile uint64_t kept;

static EVP_CIPHER_CTX *cipher;
static botan_mac_t botan;

static void stop(const char *why) {
    fprintf(stderr, "mac: %s\n", why);
    exit(1);
}

static uint64_t number(const uint8_t *octets) {
    uint64_t n = 0;
    for (int i = 0; i < 8; i++)
        n = n << 8 | octets[i];
    return n;
}

static void write_octets(uint64_t n, uint8_t *octets) {
    for (int i = 0; i < 8; i++)
        octets[i] = (uint8_t)(n >> (56 - 8 * i));
}

// The last block of DES-CBC over a text.
static uint64_t openssl_text(const uint8_t *text, size_t size, int with_key) {
    static const uint8_t zero[8];
    static uint8_t out[1024 + 16];
    int written = 0;
    if (!EVP_EncryptInit_ex(cipher, NULL, NULL, with_key ? key_octets : NULL, zero) || !EVP_EncryptUpdate(cipher, out, &written, text, (int)size))
        stop("OpenSSL refuses a text");
    return number(out + written - 8);
}

static uint64_t botan_text(const uint8_t *text, size_t size, int with_key) {
    uint8_t out[8];
    if (with_key && botan_mac_set_key(botan, key_octets, 16))
        stop("Botan refuses a key");
    if (botan_mac_update(botan, text, size) || botan_mac_final(botan, out))
        stop("Botan refuses a text");
    return number(out);
}

static uint64_t ours_each(size_t size) {
    uint64_t all = 0;
    for (size_t at = 0; at + size <= TEXTS; at += size)
        all ^= bench_c_mac(FIRST, SECOND, FIRST, texts + at, size);
    return all;
}

static uint64_t ours_once(size_t size) { return bench_c_macs(FIRST, SECOND, FIRST, texts, TEXTS, size); }

static uint64_t openssl_all(size_t size, int with_key) {
    uint64_t all = 0;
    for (size_t at = 0; at + size <= TEXTS; at += size)
        all ^= openssl_text(texts + at, size, with_key);
    return all;
}

static uint64_t openssl_each(size_t size) { return openssl_all(size, 1); }
static uint64_t openssl_once(size_t size) { return openssl_all(size, 0); }

static uint64_t botan_all(size_t size, int with_key) {
    uint64_t all = 0;
    for (size_t at = 0; at + size <= TEXTS; at += size)
        all ^= botan_text(texts + at, size, with_key);
    return all;
}

static uint64_t botan_each(size_t size) { return botan_all(size, 1); }
static uint64_t botan_once(size_t size) { return botan_all(size, 0); }

// Processor time, so that other work on the machine counts less.
static double seconds(void) {
    struct timespec now;
    clock_gettime(CLOCK_PROCESS_CPUTIME_ID, &now);
    return (double)now.tv_sec + (double)now.tv_nsec * 1e-9;
}

static double throughput(uint64_t (*all)(size_t), size_t size) {
    double start = seconds();
    for (int i = 0; i < PASSES; i++)
        kept ^= all(size);
    return (double)PASSES * TEXTS / (seconds() - start) / (1 << 20);
}

static void measure(const char *schedules, size_t size, uint64_t (*ours)(size_t), uint64_t (*openssl)(size_t), uint64_t (*other)(size_t)) {
    double best[3] = {0, 0, 0};
    uint64_t (*bodies[3])(size_t) = {ours, openssl, other};
    for (int round = 0; round < ROUNDS; round++)
        for (int i = 0; i < 3; i++) {
            double found = throughput(bodies[i], size);
            if (found > best[i])
                best[i] = found;
        }
    printf("%6zu  %-10s %9.1f %9.1f %9.1f %11.2f %11.2f\n", size, schedules, best[0], best[1], best[2], best[0] / best[1], best[0] / best[2]);
    fflush(stdout);
}

int main(void) {
    write_octets(FIRST, key_octets);
    write_octets(SECOND, key_octets + 8);
    for (size_t i = 0; i < TEXTS; i++)
        texts[i] = (uint8_t)(7 * i + 3 + (i >> 8));
    if (!OSSL_PROVIDER_load(NULL, "legacy") || !OSSL_PROVIDER_load(NULL, "default"))
        stop("OpenSSL has no legacy provider");
    cipher = EVP_CIPHER_CTX_new();
    if (!cipher || !EVP_EncryptInit_ex(cipher, EVP_des_cbc(), NULL, key_octets, key_octets) || !EVP_CIPHER_CTX_set_padding(cipher, 0))
        stop("OpenSSL has no DES-CBC");
    if (botan_mac_init(&botan, "X9.19-MAC", 0) || botan_mac_set_key(botan, key_octets, 16))
        stop("Botan has no X9.19-MAC");

    const size_t sizes[3] = {64, 256, 1024};
    for (int i = 0; i < 3; i++) {
        if (bench_c_mac(FIRST, SECOND, FIRST, texts, sizes[i]) != botan_text(texts, sizes[i], 0))
            stop("cbc_mac and X9.19-MAC differ");
        if (bench_c_mac(FIRST, SECOND, SECOND, texts, sizes[i]) != openssl_text(texts, sizes[i], 0))
            stop("cbc_mac and DES-CBC differ");
        if (ours_once(sizes[i]) != ours_each(sizes[i]))
            stop("prepared keys give another MAC");
    }

    printf("MiB/s of processor time, the best of %d rounds\n", ROUNDS);
    printf("octets  schedules   cbc_mac   OpenSSL     Botan   / OpenSSL     / Botan\n");
    for (int i = 0; i < 3; i++) {
        measure("once", sizes[i], ours_once, openssl_once, botan_once);
        measure("each call", sizes[i], ours_each, openssl_each, botan_each);
    }
    EVP_CIPHER_CTX_free(cipher);
    botan_mac_destroy(botan);
    return 0;
}
