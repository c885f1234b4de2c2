// Times the proved functions beside OpenSSL's libcrypto and libsodium, in turns in one run, and prints the best of the turns.
// Each answer is compared with libsodium's before anything is timed.
#include <openssl/evp.h>
#include <openssl/hmac.h>
#include <openssl/sha.h>
#include <sodium.h>
#include <stdbool.h>
#include <stdint.h>
#include <stdio.h>
#include <stdlib.h>
#include <string.h>
#include <time.h>

bool hmac_c_sha256(const uint8_t *message, size_t len, uint8_t *out, size_t out_len);
bool hmac_c_mac(const uint8_t *key, size_t key_len, const uint8_t *message, size_t len, uint8_t *out, size_t out_len);

bool hmac_c_mac_four(const uint8_t *keys, size_t keys_len, const uint8_t *a, size_t a_len, const uint8_t *b, size_t b_len,
                     const uint8_t *c, size_t c_len, const uint8_t *d, size_t d_len, uint8_t *out, size_t out_len);

enum { TURNS = 9, MACS = 60000, LONG = 1 << 20, REPEATS = 12 };

static uint8_t text[LONG];
static uint8_t keys[4 * 32];
static uint8_t sink;

static double seconds(void) {
    struct timespec t;
    clock_gettime(CLOCK_MONOTONIC, &t);
    return (double)t.tv_sec + 1e-9 * (double)t.tv_nsec;
}

// Another key for each call.
static void freshen(uint32_t i) { memcpy(keys, &i, sizeof i); }

typedef void (*mac_fn)(size_t len, uint8_t out[32]);
typedef void (*hash_fn)(uint8_t out[32]);

static void mac_ours(size_t len, uint8_t out[32]) { hmac_c_mac(keys, 32, text, len, out, 32); }
static void mac_sodium(size_t len, uint8_t out[32]) { crypto_auth_hmacsha256(out, text, len, keys); }
static void mac_openssl(size_t len, uint8_t out[32]) {
    unsigned n;
    HMAC(EVP_sha256(), keys, 32, text, len, out, &n);
}
static void hash_ours(uint8_t out[32]) { hmac_c_sha256(text, LONG, out, 32); }
static void hash_sodium(uint8_t out[32]) { crypto_hash_sha256(out, text, LONG); }
static void hash_openssl(uint8_t out[32]) { SHA256(text, LONG, out); }

static double macs_per_second(mac_fn f, size_t len) {
    uint8_t out[32];
    double start = seconds();
    for (uint32_t i = 0; i < MACS; i++) {
        freshen(i);
        f(len, out);
        sink ^= out[0];
    }
    return MACS / (seconds() - start);
}

static void four_ours(size_t len, uint8_t out[128]) {
    hmac_c_mac_four(keys, 128, text, len, text + 64, len, text + 128, len, text + 192, len, out, 128);
}

// Four at a time, each of the four under another key.
static double fours_per_second(size_t len) {
    uint8_t out[128];
    double start = seconds();
    for (uint32_t i = 0; i < MACS / 4; i++) {
        freshen(i);
        four_ours(len, out);
        sink ^= out[0] ^ out[32] ^ out[64] ^ out[96];
    }
    return MACS / (seconds() - start);
}

static double megabytes_per_second(hash_fn f) {
    uint8_t out[32];
    double start = seconds();
    for (int i = 0; i < REPEATS; i++) {
        text[0]++;
        f(out);
        sink ^= out[0];
    }
    return 1e-6 * LONG * REPEATS / (seconds() - start);
}

static void keep_best(double *best, double now) {
    if (now > *best) *best = now;
}

static void row(const char *what, double ours, double sodium, double openssl) {
    printf("%-22s %12.0f %12.0f %12.0f   %5.2f of libsodium, %5.2f of OpenSSL\n", what, ours, sodium, openssl, ours / sodium, ours / openssl);
}

static void bench_macs(size_t len) {
    double ours = 0, sodium = 0, openssl = 0;
    for (int i = 0; i < TURNS; i++) {
        keep_best(&ours, macs_per_second(mac_ours, len));
        keep_best(&sodium, macs_per_second(mac_sodium, len));
        keep_best(&openssl, macs_per_second(mac_openssl, len));
    }
    char what[32];
    snprintf(what, sizeof what, "HMAC/s, %zu bytes", len);
    row(what, ours, sodium, openssl);
}

static void bench_four(size_t len) {
    double one = 0, four = 0;
    for (int i = 0; i < TURNS; i++) {
        keep_best(&one, macs_per_second(mac_ours, len));
        keep_best(&four, fours_per_second(len));
    }
    printf("HMAC/s, %zu bytes, four at once: %12.0f, %5.2f of one at a time\n", len, four, four / one);
}

static void bench_long(void) {
    double ours = 0, sodium = 0, openssl = 0;
    for (int i = 0; i < TURNS; i++) {
        keep_best(&ours, megabytes_per_second(hash_ours));
        keep_best(&sodium, megabytes_per_second(hash_sodium));
        keep_best(&openssl, megabytes_per_second(hash_openssl));
    }
    row("MB/s, one megabyte", ours, sodium, openssl);
}

static void expect(bool same, const char *what, size_t len) {
    if (!same) {
        printf("%s differs at %zu bytes\n", what, len);
        exit(1);
    }
}

static void compare_four(void) {
    uint8_t ours[128], theirs[32];
    for (size_t len = 0; len < 60; len++) {
        freshen((uint32_t)len);
        size_t lens[4] = {len, (len + 17) % 60, (len + 31) % 56, 55 - len % 56};
        hmac_c_mac_four(keys, 128, text, lens[0], text + 1, lens[1], text + 2, lens[2], text + 3, lens[3], ours, 128);
        for (size_t i = 0; i < 4; i++) {
            crypto_auth_hmacsha256(theirs, text + i, lens[i], keys + 32 * i);
            expect(memcmp(ours + 32 * i, theirs, 32) == 0, "four at once", lens[i]);
        }
    }
}

static void compare(void) {
    uint8_t ours[32], theirs[32];
    for (size_t len = 0; len < 2000; len++) {
        freshen((uint32_t)len);
        mac_ours(len, ours);
        mac_sodium(len, theirs);
        expect(memcmp(ours, theirs, 32) == 0, "HMAC", len);
        hmac_c_sha256(text, len, ours, 32);
        crypto_hash_sha256(theirs, text, len);
        expect(memcmp(ours, theirs, 32) == 0, "SHA-256", len);
    }
}

int main(void) {
    if (sodium_init() < 0) return 1;
    for (size_t i = 0; i < LONG; i++) text[i] = (uint8_t)(i * 131 + (i >> 8) * 17 + 7);
    for (size_t i = 0; i < sizeof keys; i++) keys[i] = (uint8_t)(i * 29 + 3);
    compare();
    compare_four();
    printf("%-22s %12s %12s %12s\n", "", "ours", "libsodium", "OpenSSL");
    bench_macs(5);
    bench_macs(33);
    bench_long();
    bench_four(5);
    bench_four(33);
    /* so that no measured call can be left out */
    fprintf(stderr, "checksum %02x\n", (unsigned)(sink & 0xff));
    return 0;
}
