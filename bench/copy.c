// Copies so many bytes in pieces of 1,460, and sums each copy as the checksum of TCP does: copy N. bench/run measures
// it beside the segments of a pair of endpoints.
#include <stdint.h>
#include <stdio.h>
#include <stdlib.h>
#include <string.h>

int main(int argc, char **argv) {
    static unsigned char from[1460], to[1460];
    long bytes = argc > 1 ? atol(argv[1]) : 0;
    uint64_t sum = 0;
    memset(from, 'x', sizeof from);
    for (long done = 0; done < bytes; done += sizeof from) {
        from[done % sizeof from] ^= 1;
        memcpy(to, from, sizeof from);
        for (size_t at = 0; at < sizeof to; at += 2) sum += (uint64_t)to[at] << 8 | to[at + 1];
    }
    printf("%ld bytes, sum %llu\n", bytes, (unsigned long long)(sum % 65535));
    return 0;
}
