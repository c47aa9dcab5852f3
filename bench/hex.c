// Prints so many bytes as hexadecimal, two digits each from a table, as a report has its packets: hex BYTES. bench/run measures a
// run beside it.
#include <stdio.h>
#include <stdlib.h>

enum { PIECE = 1 << 16 };

int main(int argc, char **argv) {
    static const char digits[] = "0123456789abcdef";
    static char table[256][2], text[2 * PIECE];
    long left = argc > 1 ? atol(argv[1]) : 0;
    unsigned char byte = 0;
    for (int b = 0; b < 256; b++) {
        table[b][0] = digits[b >> 4];
        table[b][1] = digits[b & 15];
    }
    while (left > 0) {
        long piece = left < PIECE ? left : PIECE;
        for (long i = 0; i < piece; i++) {
            byte = (unsigned char)(byte * 5 + 1);
            text[2 * i] = table[byte][0];
            text[2 * i + 1] = table[byte][1];
        }
        if (fwrite(text, 2, (size_t)piece, stdout) != (size_t)piece) return 1;
        left -= piece;
    }
    return 0;
}
