// Parses one head so many times with http_parser, the C parser of nodejs, beside which bench/run measures the
// judgement of heads: heads N, with the head on standard input.
#include <http_parser.h>
#include <stdio.h>
#include <stdlib.h>
#include <string.h>

static int fields, done;

static int on_field(http_parser *p, const char *at, size_t n) { (void)p; (void)at; (void)n; fields++; return 0; }
static int on_done(http_parser *p) { (void)p; done++; return 0; }

int main(int argc, char **argv) {
    static char head[65536];
    long times = argc > 1 ? atol(argv[1]) : 1;
    size_t len = fread(head, 1, sizeof head, stdin);
    http_parser_settings settings;
    memset(&settings, 0, sizeof settings);
    settings.on_header_field = on_field;
    settings.on_headers_complete = on_done;
    for (long i = 0; i < times; i++) {
        http_parser parser;
        http_parser_init(&parser, HTTP_REQUEST);
        if (http_parser_execute(&parser, &settings, head, len) != len) return 1;
    }
    printf("%ld heads, %d parsed, %d fields\n", times, done, fields);
    return 0;
}
