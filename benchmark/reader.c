// Bytes a second of the reader beside libexpat's bare parse of the same messages: a line for each file, whose name begins with the package's number.
// Both run in this one program in turns, and each figure is the best of several, in processor time.
#include <expat.h>
#include <stdint.h>
#include <stdio.h>
#include <stdlib.h>
#include <string.h>
#include <time.h>

// the library `measured`: a slice is a pointer and a length; a place of 0 is a refusal
size_t measured_head(const uint8_t *s, size_t n);
size_t measured_step(const uint8_t *s, size_t n, size_t at, uint8_t from, uint8_t count, uint32_t id);
size_t measured_end(const uint8_t *s, size_t n, size_t at, size_t k, uint32_t id);
uint32_t measured_message(const uint8_t *s, size_t n, size_t i);

// the two lists of a package: which kinds each holds, and the line of the page that ends it
struct list { uint8_t from, count; size_t end; };
static const struct list lists[7][2] = {
    {{0, 0, 22}, {0, 0, 23}},
    {{0, 0, 22}, {0, 0, 23}},
    {{0, 0, 22}, {0, 0, 23}},
    {{7, 2, 18}, {12, 3, 20}},
    {{9, 1, 19}, {15, 3, 20}},
    {{9, 3, 21}, {0, 0, 23}},
    {{0, 0, 22}, {0, 0, 23}},
};

static uint8_t message[65536];
static size_t length;
static int package;
static XML_Parser parser;
static uint64_t used;

static void fail(const char *what) { fprintf(stderr, "reader: %s\n", what); exit(1); }

// element by element
static int steps(void)
{
    size_t at = measured_head(message, length);
    uint32_t id = 3;
    for (int k = 0; k < 2 && at; k++) {
        const struct list *l = &lists[package][k];
        size_t end;
        while (at && !(end = measured_end(message, length, at, l->end, id)))
            at = measured_step(message, length, at, l->from, l->count, id++);
        if (at) at = end;
        id++;
    }
    used += at;
    return at == length;
}

// the whole content
static int content(void) { used += measured_message(message, length, used & 31); return 1; }

// with no handlers; the parser is made once and reset
static int expat(void) { return XML_ParserReset(parser, NULL) && XML_Parse(parser, (const char *)message, (int)length, 1) == XML_STATUS_OK; }

static double now(void) { struct timespec t; clock_gettime(CLOCK_PROCESS_CPUTIME_ID, &t); return t.tv_sec + t.tv_nsec * 1e-9; }

// bytes a second over at least a fifth of a second
static double rate(int (*f)(void))
{
    double from = now(), to;
    long times = 0;
    do {
        for (int i = 0; i < 32; i++)
            if (!f()) fail("a message is refused");
        times += 32;
        to = now();
    } while (to - from < 0.2);
    return times * (double)length / (to - from);
}

static void row(const char *name, double bytes, const double r[3])
{
    printf("%-12s %6.0f %14.0f %14.0f %14.0f %7.1fx %7.1fx\n", name, bytes, r[0], r[1], r[2], r[0] / r[2], r[1] / r[2]);
    fflush(stdout);
}

int main(int argc, char **argv)
{
    int (*const way[3])(void) = {steps, content, expat};
    parser = XML_ParserCreate(NULL);
    printf("%-12s %6s %14s %14s %14s %8s %8s\n", "message", "bytes", "steps B/s", "content B/s", "expat B/s", "steps", "content");
    double all = 0, spent[3] = {0, 0, 0};
    for (int a = 1; a < argc; a++) {
        const char *slash = strrchr(argv[a], '/'), *name = slash ? slash + 1 : argv[a];
        package = name[0] - '0';
        if (package < 1 || package > 6) fail("usage: reader FILE .., each named for its package");
        FILE *f = fopen(argv[a], "rb");
        if (!f) fail(argv[a]);
        length = fread(message, 1, sizeof message, f);
        fclose(f);
        double best[3] = {0, 0, 0};
        for (int turn = 0; turn < 7; turn++)
            for (int w = 0; w < 3; w++) {
                double r = rate(way[w]);
                if (r > best[w]) best[w] = r;
            }
        row(name, length, best);
        all += length;
        for (int w = 0; w < 3; w++) spent[w] += length / best[w];
    }
    double rates[3] = {all / spent[0], all / spent[1], all / spent[2]};
    row("together", all, rates);
    return used == 1;
}
