// The calls of `lard_bench loads N` in plain C: 64 nodes, 16,384 connections with eight shares each, then connection 1 is
// released and connected again N times, and the least loaded node is looked up.
#include <stdint.h>
#include <stdio.h>
#include <stdlib.h>
#include <string.h>

enum { NODES = 64, CONNECTIONS = 16384, SHARES = 8, WHOLE = 840 };

struct share {
    uint8_t node;
    uint16_t units;
};

struct slot {
    uint8_t home;
    uint8_t count;
    struct share shares[SHARES];
};

static uint32_t load[NODES];
static uint8_t order[NODES];
static uint8_t place[NODES];
static struct slot *slots;
static uint32_t admitted;

static int before(int a, int b) { return load[a] < load[b] || (load[a] == load[b] && a < b); }

static void exchange(int at) {
    uint8_t first = order[at], second = order[at + 1];
    order[at] = second;
    order[at + 1] = first;
    place[second] = at;
    place[first] = at + 1;
}

static void raise(int node, uint32_t units) {
    load[node] += units;
    for (int at = place[node]; at + 1 < NODES && before(order[at + 1], node); at++)
        exchange(at);
}

static void lower(int node, uint32_t units) {
    load[node] -= units;
    for (int at = place[node]; at > 0 && before(node, order[at - 1]); at--)
        exchange(at - 1);
}

static void connect(int c, int n) {
    slots[c].home = n + 1;
    slots[c].count = 0;
    raise(n, WHOLE);
    admitted++;
}

static void share(int c, int n, int size) {
    struct slot *slot = &slots[c];
    if (slot->home == n + 1)
        return;
    slot->shares[slot->count++] = (struct share){n, WHOLE / size};
    raise(n, WHOLE / size);
}

static void release(int c) {
    struct slot *slot = &slots[c];
    while (slot->count > 0) {
        slot->count--;
        lower(slot->shares[slot->count].node, slot->shares[slot->count].units);
    }
    int home = slot->home - 1;
    slot->home = 0;
    lower(home, WHOLE);
    admitted--;
}

int main(int argc, char **argv) {
    uint32_t times = argc > 1 ? strtoul(argv[1], 0, 10) : 1000000, second = 0;
    slots = calloc(CONNECTIONS, sizeof *slots);
    if (!slots)
        return 1;
    for (int n = 0; n < NODES; n++)
        order[n] = place[n] = n;
    for (int c = 0; c < CONNECTIONS; c++) {
        connect(c, c % NODES);
        for (int i = 0; i < SHARES; i++)
            share(c, (c + 1) % NODES, SHARES);
    }
    for (uint32_t i = 0; i < times; i++) {
        release(0);
        connect(0, 0);
        if (order[0] == 1)
            second++;
    }
    printf("%u times released and connected, %u times node 2 least\n", times, second);
    return 0;
}
