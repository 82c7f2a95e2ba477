/* Sends packets through a gateway at steady rates, and counts what comes out of it.

     load PID SECURE PLAIN RATE:SECONDS.. < calls

   PID is the gateway's process, SECURE and PLAIN are the ports of 127.0.0.1 at which the telephones of all calls
   stand. A line of the standard input is one call: the gateway's secure port and its plain port, and two keys of
   AES_CM_128_HMAC_SHA1_80 in hexadecimal digits, the telephone's, which the gateway opens with, and the gateway's
   own, which it seals with; `-` for a way that isn't used. Where both are, every other packet goes each way.

   The calls take turns, a packet each. All of a step are sealed by libsrtp before its first one is sent, and what
   comes out is compared octet for octet with the packet that was sealed, or with what libsrtp made of the plain one.
   For each step one line: the rate that was asked for, packets sent, microseconds that sending took, microseconds
   until the last packet came out, packets that came out as they must, others, the same again, packets that the
   system threw away in front of the gateway's sockets and in front of this program's, nanoseconds of the processor
   that the gateway took, and the nanoseconds from before a packet's sending until it had come out that half of the
   packets and 99 in 100 of them stayed below. */
#define _GNU_SOURCE
#include <arpa/inet.h>
#include <dirent.h>
#include <errno.h>
#include <pthread.h>
#include <stdint.h>
#include <stdio.h>
#include <stdlib.h>
#include <string.h>
#include <sys/prctl.h>
#include <sys/socket.h>
#include <time.h>
#include <srtp2/srtp.h>

#define STREAMS_MOST 512
/* 20 milliseconds of G.711 behind a head of 12 octets. */
#define SIZE 172
#define SEALED_SIZE (SIZE + 10)
#define STAMP_STEP 160
/* So many packets are sent or taken by one call of the system at most. */
#define BATCH 32
#define FIRST_SSRC 0x5eed0000u

enum way { OPENED, SEALED };

/* One way of a call. */
struct stream {
    srtp_t session;
    uint16_t port;      /* the gateway's, to which it is sent */
    enum way way;
    uint64_t next;      /* the index of the first packet of the next step */
};

/* A packet in both forms. libsrtp reads words of four octets. */
struct packet {
    uint8_t plain[SIZE] __attribute__((aligned(4)));
    uint8_t sealed[SEALED_SIZE + 2] __attribute__((aligned(4)));
    uint8_t arrived;
    uint64_t moment;    /* in which it is sent; once it has arrived, the nanoseconds that it took */
};

static struct stream streams[STREAMS_MOST];
static uint32_t stream_count;
/* The telephones' sockets: what is opened leaves the first and comes to the second. */
static int sockets[2];
static uint16_t ports[2];

/* The packets of the step under way, and what has come of them. The lock is held while they are made. */
static pthread_mutex_t lock = PTHREAD_MUTEX_INITIALIZER;
static struct packet *packets;
static uint64_t count, good, other, again, last_came;

static void fail(const char *what) {
    fprintf(stderr, "load: %s: %s\n", what, strerror(errno));
    exit(1);
}

static uint64_t now(void) {
    struct timespec t;
    clock_gettime(CLOCK_MONOTONIC, &t);
    return (uint64_t)t.tv_sec * 1000000000u + (uint64_t)t.tv_nsec;
}

static void rest(uint64_t nanoseconds) {
    struct timespec t = {(time_t)(nanoseconds / 1000000000u), (long)(nanoseconds % 1000000000u)};
    nanosleep(&t, NULL);
}

static struct sockaddr_in home(uint16_t port) {
    struct sockaddr_in address = {.sin_family = AF_INET, .sin_port = htons(port)};
    address.sin_addr.s_addr = htonl(INADDR_LOOPBACK);
    return address;
}

/* ---- what the system tells of processes and sockets */

/* Nanoseconds of the processor that all threads of the process have taken. */
static uint64_t processor(int pid) {
    char path[300];
    uint64_t all = 0;
    snprintf(path, sizeof path, "/proc/%d/task", pid);
    DIR *tasks = opendir(path);
    if (!tasks) fail("the gateway isn't there");
    for (struct dirent *task; (task = readdir(tasks));) {
        unsigned long long taken;
        if (task->d_name[0] == '.') continue;
        snprintf(path, sizeof path, "/proc/%d/task/%.20s/schedstat", pid, task->d_name);
        FILE *file = fopen(path, "r");
        if (!file) continue;
        if (fscanf(file, "%llu", &taken) == 1) all += taken;
        fclose(file);
    }
    closedir(tasks);
    return all;
}

/* What the system threw away in front of this program's two sockets, and of those of the streams' ports. */
static void thrown(uint64_t *own, uint64_t *gateways) {
    static uint8_t is_port[65536];
    char line[400];
    for (uint32_t s = 0; s < stream_count; s++) is_port[streams[s].port] = 1;
    *own = *gateways = 0;
    FILE *file = fopen("/proc/net/udp", "r");
    if (!file) fail("/proc/net/udp");
    while (fgets(line, sizeof line, file)) {
        unsigned port;
        char *last = strrchr(line, ':'), *drops;
        if (!last || sscanf(line, " %*d: %*x:%x", &port) != 1) continue;
        line[strcspn(line, "\n")] = 0;
        for (size_t end = strlen(line); end && line[end - 1] == ' ';) line[--end] = 0;
        drops = strrchr(line, ' ');
        if (!drops || port > 65535) continue;
        uint64_t *sum = port == ports[0] || port == ports[1] ? own : is_port[port] ? gateways : NULL;
        if (sum) *sum += strtoull(drops, NULL, 10);
    }
    fclose(file);
}

/* ---- packets */

static void octets_of(uint8_t *octets, size_t size, const char *digits) {
    for (size_t i = 0; i < size; i++)
        if (sscanf(digits + 2 * i, "%2hhx", &octets[i]) != 1) {
            fprintf(stderr, "load: a key has other than %zu octets\n", size);
            exit(1);
        }
}

static void add_stream(enum way way, uint16_t port, const char *digits) {
    uint8_t key[30];
    srtp_policy_t policy;
    struct stream *stream = &streams[stream_count++];
    octets_of(key, sizeof key, digits);
    memset(&policy, 0, sizeof policy);
    srtp_crypto_policy_set_rtp_default(&policy.rtp);
    srtp_crypto_policy_set_rtcp_default(&policy.rtcp);
    policy.ssrc.type = ssrc_any_outbound;
    policy.key = key;
    policy.window_size = 1024;
    *stream = (struct stream){.way = way, .port = port};
    if (srtp_create(&stream->session, &policy) != srtp_err_status_ok) {
        fprintf(stderr, "load: libsrtp makes no session\n");
        exit(1);
    }
}

static void read_calls(void) {
    unsigned secure, plain;
    char opening[64], sealing[64];
    while (scanf("%u %u %63s %63s", &secure, &plain, opening, sealing) == 4) {
        if (stream_count + 2 > STREAMS_MOST) {
            fprintf(stderr, "load: more than %d streams\n", STREAMS_MOST);
            exit(1);
        }
        if (strcmp(opening, "-")) add_stream(OPENED, (uint16_t)secure, opening);
        if (strcmp(sealing, "-")) add_stream(SEALED, (uint16_t)plain, sealing);
    }
    if (!stream_count) {
        fprintf(stderr, "load: no call\n");
        exit(1);
    }
}

/* The plain packet of an index of a stream, whose time stamp tells the index, and its sealing. */
static void make(struct packet *packet, uint32_t s, uint64_t index) {
    uint32_t stamp = htonl((uint32_t)index * STAMP_STEP), ssrc = htonl(FIRST_SSRC + s);
    uint16_t seq = htons((uint16_t)index);
    int length = SIZE;
    packet->plain[0] = 0x80;
    packet->plain[1] = 0;
    memcpy(packet->plain + 2, &seq, 2);
    memcpy(packet->plain + 4, &stamp, 4);
    memcpy(packet->plain + 8, &ssrc, 4);
    for (uint32_t i = 12; i < SIZE; i++) packet->plain[i] = (uint8_t)(i + index + s);
    memcpy(packet->sealed, packet->plain, SIZE);
    if (srtp_protect(streams[s].session, packet->sealed, &length) != srtp_err_status_ok || length != SEALED_SIZE) {
        fprintf(stderr, "load: libsrtp seals no packet of index %llu\n", (unsigned long long)index);
        exit(1);
    }
    packet->arrived = 0;
}

/* Makes the packets of a step; the streams take turns. */
static void make_all(uint64_t wanted) {
    uint64_t each = (wanted + stream_count - 1) / stream_count;
    pthread_mutex_lock(&lock);
    free(packets);
    count = each * stream_count;
    good = other = again = 0;
    packets = malloc(count * sizeof *packets);
    if (!packets) fail("packets");
    for (uint64_t n = 0; n < count; n++) {
        uint32_t s = (uint32_t)(n % stream_count);
        make(&packets[n], s, streams[s].next + n / stream_count);
    }
    pthread_mutex_unlock(&lock);
}

/* ---- sending */

static void send_all(int socket, struct mmsghdr *messages, unsigned left) {
    while (left) {
        int sent = sendmmsg(socket, messages, left, 0);
        if (sent < 0 && errno != EINTR && errno != ECONNREFUSED && errno != ENOBUFS) fail("sendmmsg");
        if (sent > 0) messages += sent, left -= (unsigned)sent;
    }
}

/* Sends the packets from one place up to another. */
static void send_part(uint64_t from, uint64_t to) {
    struct mmsghdr messages[2][BATCH];
    struct iovec parts[2][BATCH];
    struct sockaddr_in targets[2][BATCH];
    unsigned waiting[2] = {0, 0};
    uint64_t moment = now();
    for (uint64_t n = from; n < to; n++) {
        packets[n].moment = moment;
        const struct stream *stream = &streams[n % stream_count];
        int is_sealed = stream->way == OPENED;
        unsigned m = waiting[stream->way]++;
        targets[stream->way][m] = home(stream->port);
        parts[stream->way][m] = (struct iovec){is_sealed ? packets[n].sealed : packets[n].plain, is_sealed ? SEALED_SIZE : SIZE};
        messages[stream->way][m].msg_hdr = (struct msghdr){
            .msg_name = &targets[stream->way][m], .msg_namelen = sizeof targets[0][0], .msg_iov = &parts[stream->way][m], .msg_iovlen = 1};
    }
    for (int way = 0; way < 2; way++) send_all(sockets[way], messages[way], waiting[way]);
}

/* Sends all packets at a rate that begins at a moment. */
static void send_step(uint64_t began, uint64_t rate) {
    uint64_t sent = 0;
    while (sent < count) {
        uint64_t due = (now() - began) * rate / 1000000000u + 1;
        if (due > count) due = count;
        if (due > sent + BATCH) due = sent + BATCH;
        if (due > sent) send_part(sent, due), sent = due;
        else rest(20000);
    }
}

/* ---- taking */

/* Counts what came at a moment to the telephones' socket of that way. */
static void take(const uint8_t *octets, size_t size, enum way way, uint64_t moment) {
    uint32_t stamp, ssrc;
    if (size < 12) { other++; return; }
    memcpy(&stamp, octets + 4, 4);
    memcpy(&ssrc, octets + 8, 4);
    uint32_t s = ntohl(ssrc) - FIRST_SSRC;
    uint64_t index = ntohl(stamp) / STAMP_STEP;
    if (s >= stream_count || streams[s].way != way || index < streams[s].next) { other++; return; }
    uint64_t n = (index - streams[s].next) * stream_count + s;
    if (n >= count) { other++; return; }
    const uint8_t *wanted = way == OPENED ? packets[n].plain : packets[n].sealed;
    if (size != (way == OPENED ? SIZE : SEALED_SIZE) || memcmp(octets, wanted, size)) { other++; return; }
    if (packets[n].arrived) { again++; return; }
    good++;
    packets[n].arrived = 1;
    packets[n].moment = moment - packets[n].moment;
}

/* Takes what the gateway put out, as long as the program runs. */
static void *take_all(void *word) {
    static uint8_t octets[2][BATCH][2048];
    enum way way = (enum way)(intptr_t)word;
    struct mmsghdr messages[BATCH];
    struct iovec parts[BATCH];
    for (;;) {
        memset(messages, 0, sizeof messages);
        for (int m = 0; m < BATCH; m++) {
            parts[m] = (struct iovec){octets[way][m], sizeof octets[way][m]};
            messages[m].msg_hdr = (struct msghdr){.msg_iov = &parts[m], .msg_iovlen = 1};
        }
        int got = recvmmsg(sockets[way == OPENED], messages, BATCH, MSG_WAITFORONE, NULL);
        if (got < 0 && errno != EINTR && errno != ECONNREFUSED) fail("recvmmsg");
        uint64_t moment = now();
        pthread_mutex_lock(&lock);
        for (int m = 0; m < got; m++) take(octets[way][m], messages[m].msg_len, way, moment);
        last_came = moment;
        pthread_mutex_unlock(&lock);
    }
    return NULL;
}

static uint64_t come(void) {
    pthread_mutex_lock(&lock);
    uint64_t all = good + other + again;
    pthread_mutex_unlock(&lock);
    return all;
}

/* Waits until all has come, or nothing does for half a second. */
static void wait_for_the_last(void) {
    for (uint64_t before = come(), quiet = 0; before < count && quiet < 500; quiet++) {
        rest(1000000);
        uint64_t all = come();
        if (all > before) quiet = 0;
        before = all;
    }
}

static int in_order(const void *one, const void *other) {
    uint64_t a = *(const uint64_t *)one, b = *(const uint64_t *)other;
    return (a > b) - (a < b);
}

/* The nanoseconds that half of the packets that came stayed below, and 99 in 100 of them; the lock is held. */
static void delays(uint64_t *half, uint64_t *most) {
    uint64_t *taken = malloc((count + 1) * sizeof *taken), came = 0;
    if (!taken) fail("delays");
    for (uint64_t n = 0; n < count; n++)
        if (packets[n].arrived) taken[came++] = packets[n].moment;
    qsort(taken, came, sizeof *taken, in_order);
    *half = came ? taken[came / 2] : 0;
    *most = came ? taken[came * 99 / 100] : 0;
    free(taken);
}

/* ---- all of it */

static void listen_at(int place, uint16_t port) {
    struct sockaddr_in address = home(port);
    int room = 8 << 20;
    ports[place] = port;
    sockets[place] = socket(AF_INET, SOCK_DGRAM, 0);
    setsockopt(sockets[place], SOL_SOCKET, SO_RCVBUF, &room, sizeof room);
    if (sockets[place] < 0 || bind(sockets[place], (struct sockaddr *)&address, sizeof address)) fail("a telephone's port");
}

static void run_step(int pid, uint64_t rate, double seconds) {
    uint64_t own, gateways, own_after, gateways_after, half, most;
    make_all((uint64_t)((double)rate * seconds));
    thrown(&own, &gateways);
    uint64_t before = processor(pid), began = now();
    send_step(began, rate);
    uint64_t sent = now();
    wait_for_the_last();
    uint64_t after = processor(pid);
    thrown(&own_after, &gateways_after);
    pthread_mutex_lock(&lock);
    delays(&half, &most);
    uint64_t told[] = {rate, count, (sent - began) / 1000, last_came > began ? (last_came - began) / 1000 : 0, good, other, again,
                       gateways_after - gateways, own_after - own, after - before, half, most};
    for (size_t place = 0; place < sizeof told / sizeof told[0]; place++)
        printf(place ? " %llu" : "%llu", (unsigned long long)told[place]);
    putchar('\n');
    fflush(stdout);
    for (uint32_t s = 0; s < stream_count; s++) streams[s].next += count / stream_count;
    count = 0;
    pthread_mutex_unlock(&lock);
}

int main(int argc, char **argv) {
    if (argc < 5) {
        fprintf(stderr, "load: PID SECURE PLAIN RATE:SECONDS.. < calls\n");
        return 1;
    }
    prctl(PR_SET_TIMERSLACK, 1);
    if (srtp_init() != srtp_err_status_ok) fail("libsrtp");
    read_calls();
    for (int place = 0; place < 2; place++) {
        pthread_t thread;
        listen_at(place, (uint16_t)atoi(argv[2 + place]));
        if (place && pthread_create(&thread, NULL, take_all, (void *)(intptr_t)OPENED)) fail("a thread");
        if (place && pthread_create(&thread, NULL, take_all, (void *)(intptr_t)SEALED)) fail("a thread");
    }
    for (int step = 4; step < argc; step++) {
        unsigned long long rate;
        double seconds;
        if (sscanf(argv[step], "%llu:%lf", &rate, &seconds) != 2 || (double)rate * seconds < 1) {
            fprintf(stderr, "load: %s isn't RATE:SECONDS\n", argv[step]);
            return 1;
        }
        run_step(atoi(argv[1]), rate, seconds);
    }
    return 0;
}
