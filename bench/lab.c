// `lardsim lab POLICY` in plain C, over plain arrays: a trace on standard input, which is taken to be a good one, and its report on
// standard output. Paths are looked up in a table by their hash; a node's recency list is one of indexes, and its cache a row of flags.
#include <stdint.h>
#include <stdio.h>
#include <stdlib.h>
#include <string.h>

enum { NODES = 65, FILES = 65536, SLOTS = 1 << 18, REQUESTS = 16384 };

static struct { const char *path; int length; uint32_t size; int server; uint64_t set, changed; } files[FILES];
static int slots[SLOTS]; // a file's index and 1
static int count, made, full, opened, room;
static uint64_t now;
static uint32_t nodes = 2, low = 25, high = 65, age = 20000, cache = 1 << 20;
static uint32_t load[NODES], peak[NODES], asked[NODES], hits[NODES];
static uint8_t home[REQUESTS + 1];
static int *next[NODES], *prev[NODES], first[NODES], last[NODES]; // the recency lists: the first was asked for last
static uint8_t *kept[NODES];
static uint64_t used[NODES];

static uint32_t hash_of(const char *path, int length) {
    uint32_t h = 0;
    for (int at = 0; at < length; at++) h = 31 * h + (uint8_t)path[at];
    return h;
}

// the place of a path in the table, or of the free slot where it would be
static int slot_of(const char *path, int length) {
    uint32_t at = hash_of(path, length) * 2654435769u >> 14;
    for (; slots[at]; at = (at + 1) % SLOTS) {
        int file = slots[at] - 1;
        if (files[file].length == length && !memcmp(files[file].path, path, length)) break;
    }
    return at;
}

static int least(uint64_t members) {
    int best = 0;
    for (int n = 1; n <= (int)nodes; n++)
        if (members >> (n - 1) & 1 && (!best || load[n] < load[best])) best = n;
    return best;
}

static uint64_t all(void) { return nodes == 64 ? ~0ull : (1ull << nodes) - 1; }

static int overloaded(int n) {
    if (load[n] >= 2 * high) return 1;
    if (load[n] <= high) return 0;
    for (int m = 1; m <= (int)nodes; m++)
        if (load[m] < low) return 1;
    return 0;
}

static int by_set(int file) {
    uint64_t before = files[file].set, after;
    int chosen = before ? least(before) : least(all()), removed = 0;
    if (before && overloaded(chosen)) chosen = least(all());
    after = before | 1ull << (chosen - 1);
    if (before && after & (after - 1) && now - files[file].changed > age)
        for (int n = 1; n <= (int)nodes; n++)
            if (before >> (n - 1) & 1 && (!removed || load[n] >= load[removed])) removed = n;
    if (removed) after &= ~(1ull << (removed - 1));
    if (after != before) files[file].set = after, files[file].changed = now;
    return chosen;
}

static int by_server(int file) {
    int server = files[file].server;
    if (!server || overloaded(server)) files[file].server = server = least(all());
    return server;
}

static int choose(const char *policy, int file) {
    if (!strcmp(policy, "rr")) return 1 + (made - 1) % nodes;
    if (!strcmp(policy, "hash")) return 1 + hash_of(files[file].path, files[file].length) % nodes;
    return !strcmp(policy, "lard") ? by_server(file) : by_set(file);
}

static void take_out(int n, int file) {
    int before = prev[n][file], after = next[n][file];
    if (before >= 0) next[n][before] = after; else first[n] = after;
    if (after >= 0) prev[n][after] = before; else last[n] = before;
}

static void to_front(int n, int file) {
    prev[n][file] = -1, next[n][file] = first[n];
    if (first[n] >= 0) prev[n][first[n]] = file; else last[n] = file;
    first[n] = file;
}

static int ask(int n, int file) {
    if (kept[n][file]) {
        take_out(n, file), to_front(n, file);
        return 1;
    }
    if (files[file].size > cache) return 0;
    for (to_front(n, file), kept[n][file] = 1, used[n] += files[file].size; used[n] > cache;) {
        int gone = last[n];
        take_out(n, gone), kept[n][gone] = 0, used[n] -= files[gone].size;
    }
    return 0;
}

static void request(const char *policy, int file) {
    made++;
    if (opened == room) {
        full++;
        printf("%d %.*s full\n", made, files[file].length, files[file].path);
        return;
    }
    int n = choose(policy, file);
    home[made] = n, opened++, asked[n]++;
    if (++load[n] > peak[n]) peak[n] = load[n];
    int hit = ask(n, file);
    hits[n] += hit;
    printf("%d %.*s n%d %s\n", made, files[file].length, files[file].path, n, hit ? "hit" : "miss");
}

static void begin(const char *policy) {
    room = (nodes - 1) * high + low - 1;
    for (uint32_t n = 1; n <= nodes; n++) {
        next[n] = malloc((count + 1) * sizeof(int)), prev[n] = malloc((count + 1) * sizeof(int)), kept[n] = calloc(count + 1, 1);
        first[n] = last[n] = -1;
    }
    printf("lab %s nodes %u low %u high %u age %u cache %u\n", policy, nodes, low, high, age, cache);
}

static void take(const char *policy, char *line, int length) {
    char *word = memchr(line, ' ', length), *end = line + length;
    if (!word) {
        if (!strncmp(line, "go", 2)) begin(policy);
        return;
    }
    word++;
    if (!strncmp(line, "req ", 4)) request(policy, slots[slot_of(word, end - word)] - 1);
    else if (!strncmp(line, "done ", 5)) { int i = atoi(word); load[home[i]]--, home[i] = 0, opened--; }
    else if (!strncmp(line, "clock ", 6)) now += strtoul(word, 0, 10);
    else if (!strncmp(line, "file ", 5)) {
        char *size = memchr(word, ' ', end - word);
        files[count].path = word, files[count].length = size - word, files[count].size = atoi(size + 1);
        slots[slot_of(word, size - word)] = ++count;
    }
    else if (!strncmp(line, "nodes ", 6)) nodes = atoi(word);
    else if (!strncmp(line, "low ", 4)) low = atoi(word);
    else if (!strncmp(line, "high ", 5)) high = atoi(word);
    else if (!strncmp(line, "age ", 4)) age = strtoul(word, 0, 10);
    else if (!strncmp(line, "cache ", 6)) cache = strtoul(word, 0, 10);
}

int main(int argc, char **argv) {
    static char text[1 << 26];
    size_t length = fread(text, 1, sizeof text - 1, stdin);
    if (argc != 2) return 1;
    for (char *line = text, *end; (end = memchr(line, '\n', text + length - line)); line = end + 1) take(argv[1], line, end - line);
    uint32_t all_hits = 0;
    for (uint32_t n = 1; n <= nodes; n++) all_hits += hits[n];
    printf("requests %d hits %u full %d\n", made, all_hits, full);
    for (uint32_t n = 1; n <= nodes; n++) printf("n%u requests %u hits %u peak %u\n", n, asked[n], hits[n], peak[n]);
    return 0;
}
