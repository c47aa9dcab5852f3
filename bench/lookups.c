// The look-ups of `lard_bench lookups N` in plain C, beside which bench/run measures the cache: lookups N. A path that is
// there goes to the front, any other is put in front, and paths drop from the end while there are too many. Each path, of
// those that are looked up and of those that are kept, has its bytes in a buffer of its own, as a `Vec<u8>` of Rust has;
// with -DINLINE those that are kept stand in the entry, one wait for memory less for each look-up.
#include <stdint.h>
#include <stdio.h>
#include <stdlib.h>
#include <string.h>

enum { PATHS = 100000, MOST = 65536, BUCKETS = 1 << 17, SIZE = 1024 };

#ifdef INLINE
#define ROOM(len) (len)
#else
#define ROOM(len) 0
#endif

// a `Vec<u8>`: its bytes, how many there are, and how many there is room for
struct vec {
    unsigned char *bytes;
    size_t len, room;
};

struct entry {
    struct entry *chained, *before, *behind;
#ifdef INLINE
    size_t len;
    uint32_t size;
    unsigned char path[];
#else
    struct vec path;
    uint32_t size;
#endif
};

#ifdef INLINE
#define BYTES(entry) ((entry)->path)
#define LEN(entry) ((entry)->len)
#else
#define BYTES(entry) ((entry)->path.bytes)
#define LEN(entry) ((entry)->path.len)
#endif

static struct entry *buckets[BUCKETS], ends;
static uint64_t count, bytes, limit = (uint64_t)MOST * SIZE;

static uint64_t hash_of(const unsigned char *path, size_t len) {
    uint64_t hash = 14695981039346656037u;
    for (size_t i = 0; i < len; i++) hash = (hash ^ path[i]) * 1099511628211u;
    return hash ^ hash >> 32;
}

static struct entry **place_of(const unsigned char *path, size_t len) {
    struct entry **at = &buckets[hash_of(path, len) % BUCKETS];
    while (*at && (LEN(*at) != len || memcmp(BYTES(*at), path, len))) at = &(*at)->chained;
    return at;
}

static void unlink_entry(struct entry *e) { e->before->behind = e->behind; e->behind->before = e->before; }

static void put_first(struct entry *e) {
    e->before = &ends;
    e->behind = ends.behind;
    ends.behind->before = e;
    ends.behind = e;
}

static int hit(const unsigned char *path, size_t len) {
    struct entry *e = *place_of(path, len);
    if (!e) return 0;
    unlink_entry(e);
    put_first(e);
    return 1;
}

static int put(const unsigned char *path, size_t len, uint32_t size) {
    if (size > limit) return 1;
    struct entry **at = place_of(path, len);
    if (*at) {
        unlink_entry(*at);
        bytes -= (*at)->size;
    } else {
        *at = malloc(sizeof **at + ROOM(len));
        if (!*at) return 0;
#ifdef INLINE
        (*at)->len = len;
#else
        (*at)->path = (struct vec){malloc(len), len, len};
        if (!(*at)->path.bytes) return 0;
#endif
        (*at)->chained = NULL;
        memcpy(BYTES(*at), path, len);
        count++;
    }
    (*at)->size = size;
    bytes += size;
    put_first(*at);
    while (count > MOST || bytes > limit) {
        struct entry *last = ends.before, **from = place_of(BYTES(last), LEN(last));
        *from = last->chained;
        unlink_entry(last);
        count--;
        bytes -= last->size;
#ifndef INLINE
        free(last->path.bytes);
#endif
        free(last);
    }
    return 1;
}

// at their end both programs give back all that they keep, as the drop of a cache and of its paths does
static void drop_all(struct vec *paths) {
    for (struct entry *e = ends.behind; e != &ends;) {
        struct entry *behind = e->behind;
#ifndef INLINE
        free(e->path.bytes);
#endif
        free(e);
        e = behind;
    }
    for (int i = 0; i < PATHS; i++) free(paths[i].bytes);
}

int main(int argc, char **argv) {
    long times = argc > 1 ? atol(argv[1]) : 1, hits = 0;
    static struct vec paths[PATHS];
    uint64_t seed = 1;
    ends.before = ends.behind = &ends;
    for (uint32_t i = 0; i < PATHS; i++) {
        paths[i] = (struct vec){malloc(11), 11, 11};
        if (!paths[i].bytes) return 1;
        memcpy(paths[i].bytes, "/files/", 7);
        for (int k = 0; k < 4; k++) paths[i].bytes[7 + k] = (unsigned char)(i >> (24 - 8 * k));
    }
    for (long i = 0; i < times; i++) {
        seed = (seed * 1103515245 + 12345) % (1u << 31);
        const struct vec *path = &paths[seed % PATHS];
        if (hit(path->bytes, path->len)) hits++;
        else if (!put(path->bytes, path->len, SIZE)) return 1;
    }
    drop_all(paths);
    printf("%ld look-ups, %ld hits\n", times, hits);
    return 0;
}
