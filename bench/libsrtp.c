/* Seals and opens packets through libsrtp, in one thread, and prints nanoseconds a packet.
   Each line: the library's name as given, suite, octets of the plain packet, what is done, nanoseconds.
   Packets, keys and rounds are those of the program sg_bench. */
#include <stdint.h>
#include <stdio.h>
#include <stdlib.h>
#include <string.h>
#include <time.h>
#include <srtp2/srtp.h>

/* A round has batches of packets that stay in the processor's caches. */
#define COUNT 128
#define BATCHES 16
#define PACKETS (COUNT * BATCHES)
#define ROUNDS 9
#define ROOM 4352

/* libsrtp reads words of four octets. */
static uint8_t octets[COUNT][ROOM] __attribute__((aligned(16)));
static int lengths[COUNT];

struct suite {
    const char *name;
    void (*policy)(srtp_crypto_policy_t *);
};

static const struct suite suites[] = {
    {"AES_CM_128_HMAC_SHA1_80", srtp_crypto_policy_set_rtp_default},
    {"AES_CM_128_HMAC_SHA1_32", srtp_crypto_policy_set_aes_cm_128_hmac_sha1_32},
    {"AES_192_CM_HMAC_SHA1_80", srtp_crypto_policy_set_aes_cm_192_hmac_sha1_80},
    {"AES_192_CM_HMAC_SHA1_32", srtp_crypto_policy_set_aes_cm_192_hmac_sha1_32},
    {"AES_256_CM_HMAC_SHA1_80", srtp_crypto_policy_set_aes_cm_256_hmac_sha1_80},
    {"AES_256_CM_HMAC_SHA1_32", srtp_crypto_policy_set_aes_cm_256_hmac_sha1_32},
};

/* The processor time of this thread: what other programs take does not count. */
static uint64_t now(void) {
    struct timespec t;
    clock_gettime(CLOCK_THREAD_CPUTIME_ID, &t);
    return (uint64_t)t.tv_sec * 1000000000u + (uint64_t)t.tv_nsec;
}

static int compare(const void *a, const void *b) {
    uint64_t x = *(const uint64_t *)a, y = *(const uint64_t *)b;
    return (x > y) - (x < y);
}

static uint64_t median(uint64_t *values) {
    qsort(values, ROUNDS, sizeof values[0], compare);
    return values[ROUNDS / 2];
}

static srtp_t session(const struct suite *suite, srtp_ssrc_type_t way, uint8_t *key) {
    srtp_policy_t policy;
    srtp_t made;
    memset(&policy, 0, sizeof policy);
    suite->policy(&policy.rtp);
    suite->policy(&policy.rtcp);
    policy.ssrc.type = way;
    policy.key = key;
    policy.window_size = 1024;
    return srtp_create(&made, &policy) == srtp_err_status_ok ? made : NULL;
}

/* The packets of the numbers from `first` on: a head, whose time stamp goes on by 160 a packet, and octets that
   count up from the number. */
static void fill(int first, int size) {
    for (int place = 0; place < COUNT; place++) {
        int n = first + place;
        uint8_t *o = octets[place];
        uint32_t stamp = (uint32_t)n * 160;
        for (int i = 12; i < size; i++) o[i] = (uint8_t)(i + n);
        uint8_t head[12] = {0x80, 0, (uint8_t)(n >> 8), (uint8_t)n,
                            (uint8_t)(stamp >> 24), (uint8_t)(stamp >> 16), (uint8_t)(stamp >> 8), (uint8_t)stamp,
                            0xca, 0xfe, 0xba, 0xbe};
        memcpy(o, head, sizeof head);
        lengths[place] = size;
    }
}

static void check(srtp_err_status_t status) {
    if (status == srtp_err_status_ok) return;
    fprintf(stderr, "libsrtp: status %d\n", (int)status);
    exit(1);
}

/* The opened packets are those that were sealed, by their lengths and last octets. */
static void check_opened(int first, int size) {
    for (int n = 0; n < COUNT; n++)
        if (lengths[n] != size || octets[n][size - 1] != (uint8_t)(size - 1 + first + n)) {
            fprintf(stderr, "libsrtp: packet %d is changed\n", first + n);
            exit(1);
        }
}

/* Whether the library has the suite. */
static int measure(const char *name, const struct suite *suite, int size) {
    uint64_t sealing[ROUNDS], opening[ROUNDS];
    for (int round = 0; round < ROUNDS; round++) {
        uint8_t key[46];
        for (int i = 0; i < 46; i++) key[i] = (uint8_t)(i + round);
        srtp_t out = session(suite, ssrc_any_outbound, key), in = session(suite, ssrc_any_inbound, key);
        if (!out || !in) return 0;
        uint64_t seal = 0, open = 0;
        for (int batch = 0; batch < BATCHES; batch++) {
            int first = batch * COUNT;
            fill(first, size);
            uint64_t start = now();
            for (int n = 0; n < COUNT; n++) check(srtp_protect(out, octets[n], &lengths[n]));
            uint64_t sealed = now();
            for (int n = 0; n < COUNT; n++) check(srtp_unprotect(in, octets[n], &lengths[n]));
            uint64_t opened = now();
            check_opened(first, size);
            seal += sealed - start;
            open += opened - sealed;
        }
        sealing[round] = seal / PACKETS;
        opening[round] = open / PACKETS;
        check(srtp_dealloc(out));
        check(srtp_dealloc(in));
    }
    printf("%s %s %d seal %llu\n", name, suite->name, size, (unsigned long long)median(sealing));
    printf("%s %s %d open %llu\n", name, suite->name, size, (unsigned long long)median(opening));
    return 1;
}

int main(int argc, char **argv) {
    const char *name = argc > 1 ? argv[1] : "libsrtp";
    check(srtp_init());
    for (size_t s = 0; s < sizeof suites / sizeof suites[0]; s++)
        for (int k = 0; k < 2; k++)
            if (!measure(name, &suites[s], k ? 1400 : 172)) {
                fprintf(stderr, "%s: no %s here\n", name, suites[s].name);
                break;
            }
    check(srtp_shutdown());
    return 0;
}
