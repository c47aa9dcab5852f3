// Plain copies beside which bench/run measures messages and handoffs. moves messages N BYTES copies N pieces of BYTES in all to
// memory of their own and back. moves handoffs N FILE copies the state of N connections with the bytes of FILE unread: its
// numbers and bytes to those of an Offer, and from there to a state with a receive buffer of its own.
#include <stdint.h>
#include <stdio.h>
#include <stdlib.h>
#include <string.h>

enum { WINDOW = 16384, HEADER = 10, NUMBERS = 33 };

// What an endpoint goes on from.
struct state {
    uint32_t irs, iss, got, una, wl1, wl2, served;
    uint16_t wnd, mss;
    uint8_t fin;
    size_t unread;
    unsigned char *buffer;
};

static unsigned char *put(unsigned char *to, uint32_t number, int bytes) {
    while (bytes-- > 0) *to++ = number >> 8 * bytes;
    return to;
}

static const unsigned char *get(const unsigned char *from, uint32_t *number, int bytes) {
    for (*number = 0; bytes > 0; bytes--) *number = *number << 8 | *from++;
    return from;
}

// The state as bytes, in memory of their own.
static unsigned char *write_state(const struct state *s, long c, size_t *len) {
    *len = HEADER + NUMBERS + 2 + s->unread;
    unsigned char *offer = malloc(*len), *at = offer;
    at = put(put(put(at, 0x0101, 2), c, 2), 2, 2);
    at = put(at, *len - HEADER, 4);
    at = put(put(put(put(at, s->irs, 4), s->iss, 4), s->got, 4), s->fin, 1);
    at = put(put(put(put(at, s->una, 4), s->wnd, 2), s->wl1, 4), s->wl2, 4);
    at = put(put(put(at, s->mss, 2), s->served, 4), s->unread, 2);
    memcpy(at, s->buffer, s->unread);
    return offer;
}

static struct state read_state(const unsigned char *offer) {
    struct state s;
    uint32_t fin, wnd, mss, unread;
    const unsigned char *at = offer + HEADER;
    at = get(get(get(get(at, &s.irs, 4), &s.iss, 4), &s.got, 4), &fin, 1);
    at = get(get(get(get(at, &s.una, 4), &wnd, 2), &s.wl1, 4), &s.wl2, 4);
    at = get(get(get(at, &mss, 2), &s.served, 4), &unread, 2);
    s.fin = fin, s.wnd = wnd, s.mss = mss, s.unread = unread;
    s.buffer = calloc(WINDOW, 1);
    memcpy(s.buffer, at, s.unread);
    return s;
}

static void handoffs(long times, const char *file) {
    static unsigned char buffer[WINDOW];
    FILE *in = fopen(file, "r");
    struct state s = {1000, 5000, 0, 1, 1001, 5001, 0, 65535, 1460, 0, 0, buffer};
    uint64_t sum = 0;
    if (in == NULL) exit(1);
    s.got = s.unread = fread(buffer, 1, sizeof buffer, in);
    for (long i = 0; i < times; i++) {
        size_t len;
        unsigned char *offer = write_state(&s, 1 + i % WINDOW, &len);
        struct state other = read_state(offer);
        sum += len + other.irs + other.buffer[i % WINDOW];
        free(other.buffer);
        free(offer);
    }
    printf("%ld handoffs, sum %llu\n", times, (unsigned long long)sum);
}

static void messages(long times, long bytes) {
    static unsigned char from[1 << 20], to[1 << 20];
    size_t len = times > 0 ? bytes / times : 0;
    uint64_t sum = 0;
    if (len > sizeof from) exit(1);
    for (long i = 0; i < times; i++) {
        unsigned char *piece = malloc(len + 1);
        from[i % sizeof from] ^= 1;
        memcpy(piece, from, len);
        memcpy(to, piece, len);
        sum += to[i % sizeof to];
        free(piece);
    }
    printf("%ld messages, sum %llu\n", times, (unsigned long long)sum);
}

int main(int argc, char **argv) {
    if (argc < 4) return 1;
    if (strcmp(argv[1], "messages") == 0) messages(atol(argv[2]), atol(argv[3]));
    else if (strcmp(argv[1], "handoffs") == 0) handoffs(atol(argv[2]), argv[3]);
    else return 1;
    return 0;
}
