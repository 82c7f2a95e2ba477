/* Seals and opens packets through libre, in one thread, and prints nanoseconds a packet.
   Lines, packets, keys, batches, rounds and clock are those of libsrtp.c. libre has no suites with keys of 192 bits. */
#include <stdint.h>
#include <stdio.h>
#include <stdlib.h>
#include <string.h>
#include <time.h>
#include <re/re.h>

/* A round has batches of packets that stay in the processor's caches. */
#define COUNT 128
#define BATCHES 16
#define PACKETS (COUNT * BATCHES)
#define ROUNDS 9
#define ROOM 4352

static struct mbuf *packets[COUNT];

struct suite {
    const char *name;
    enum srtp_suite suite;
    size_t key;
};

static const struct suite suites[] = {
    {"AES_CM_128_HMAC_SHA1_80", SRTP_AES_CM_128_HMAC_SHA1_80, 30},
    {"AES_CM_128_HMAC_SHA1_32", SRTP_AES_CM_128_HMAC_SHA1_32, 30},
    {"AES_256_CM_HMAC_SHA1_80", SRTP_AES_256_CM_HMAC_SHA1_80, 46},
    {"AES_256_CM_HMAC_SHA1_32", SRTP_AES_256_CM_HMAC_SHA1_32, 46},
};

/* The processor time of this thread: what other programs take does not count. */
static uint64_t now(void) {
    struct timespec t;
    clock_gettime(CLOCK_THREAD_CPUTIME_ID, &t);
    return (uint64_t)t.tv_sec * 1000000000u + (uint64_t)t.tv_nsec;
}

static int compare(const void *a, const void *b) {
    uint64_t x = *(const uint64_t *)a, y = *(const uint64_t *)b;
    return (x > y) - (x < y);
}

static uint64_t median(uint64_t *values) {
    qsort(values, ROUNDS, sizeof values[0], compare);
    return values[ROUNDS / 2];
}

static void check(int error) {
    if (error == 0) return;
    fprintf(stderr, "libre: error %d\n", error);
    exit(1);
}

/* The packets of the numbers from `first` on: a head, whose time stamp goes on by 160 a packet, and octets that
   count up from the number. */
static void fill(int first, int size) {
    for (int place = 0; place < COUNT; place++) {
        int n = first + place;
        uint8_t *o = packets[place]->buf;
        uint32_t stamp = (uint32_t)n * 160;
        for (int i = 12; i < size; i++) o[i] = (uint8_t)(i + n);
        uint8_t head[12] = {0x80, 0, (uint8_t)(n >> 8), (uint8_t)n,
                            (uint8_t)(stamp >> 24), (uint8_t)(stamp >> 16), (uint8_t)(stamp >> 8), (uint8_t)stamp,
                            0xca, 0xfe, 0xba, 0xbe};
        memcpy(o, head, sizeof head);
        packets[place]->pos = 0;
        packets[place]->end = (size_t)size;
    }
}

/* The opened packets are those that were sealed, by their lengths and last octets. */
static void check_opened(int first, int size) {
    for (int n = 0; n < COUNT; n++)
        if (packets[n]->end != (size_t)size || packets[n]->buf[size - 1] != (uint8_t)(size - 1 + first + n)) {
            fprintf(stderr, "libre: packet %d is changed\n", first + n);
            exit(1);
        }
}

static void measure(const char *name, const struct suite *suite, int size) {
    uint64_t sealing[ROUNDS], opening[ROUNDS];
    for (int round = 0; round < ROUNDS; round++) {
        uint8_t key[46];
        for (int i = 0; i < 46; i++) key[i] = (uint8_t)(i + round);
        struct srtp *out = NULL, *in = NULL;
        check(srtp_alloc(&out, suite->suite, key, suite->key, 0));
        check(srtp_alloc(&in, suite->suite, key, suite->key, 0));
        uint64_t seal = 0, open = 0;
        for (int batch = 0; batch < BATCHES; batch++) {
            int first = batch * COUNT;
            fill(first, size);
            uint64_t start = now();
            for (int n = 0; n < COUNT; n++) {
                check(srtp_encrypt(out, packets[n]));
                packets[n]->pos = 0;
            }
            uint64_t sealed = now();
            for (int n = 0; n < COUNT; n++) {
                check(srtp_decrypt(in, packets[n]));
                packets[n]->pos = 0;
            }
            uint64_t opened = now();
            check_opened(first, size);
            seal += sealed - start;
            open += opened - sealed;
        }
        sealing[round] = seal / PACKETS;
        opening[round] = open / PACKETS;
        mem_deref(out);
        mem_deref(in);
    }
    printf("%s %s %d seal %llu\n", name, suite->name, size, (unsigned long long)median(sealing));
    printf("%s %s %d open %llu\n", name, suite->name, size, (unsigned long long)median(opening));
}

int main(int argc, char **argv) {
    const char *name = argc > 1 ? argv[1] : "libre";
    check(libre_init());
    for (int n = 0; n < COUNT; n++) {
        packets[n] = mbuf_alloc(ROOM);
        if (!packets[n]) return 1;
    }
    for (size_t s = 0; s < sizeof suites / sizeof suites[0]; s++)
        for (int k = 0; k < 2; k++) measure(name, &suites[s], k ? 1400 : 172);
    for (int n = 0; n < COUNT; n++) mem_deref(packets[n]);
    libre_close();
    return 0;
}
