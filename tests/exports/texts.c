/* Times admission and the circuit's reader on long hostile texts and on networks that are given: tools/bench_texts. */
#include <stdio.h>
#include <stdlib.h>
#include <string.h>
#include <time.h>

#include "wonkpecan.h"

struct reply { size_t number, line; };

static struct reply admit(const unsigned char *text, size_t length) {
    fbs_admission r = fbs_admit(text, length);
    return (struct reply){r.number, r.line};
}

/* A circuit is read whole before a run looks at its bits: with none of them it is read and no more. */
static struct reply read_circuit(const unsigned char *text, size_t length) {
    fbs_reply r = fbs_run_circuit(text, length, NULL, 0, NULL, 0);
    return (struct reply){r.number, r.line};
}

typedef struct reply (*entry)(const unsigned char *, size_t);

static double now(void) {
    struct timespec t;
    clock_gettime(CLOCK_PROCESS_CPUTIME_ID, &t);
    return t.tv_sec * 1e6 + t.tv_nsec / 1e3;
}

/* The least of many calls, in microseconds. */
static double least(entry call, const unsigned char *text, size_t length, int calls, struct reply *reply) {
    double best = 1e12;
    for (int k = 0; k < calls; k++) {
        double from = now();
        *reply = call(text, length);
        double took = now() - from;
        if (took < best) best = took;
    }
    return best;
}

static void say(const char *name, size_t length, struct reply r, double took) {
    printf("%-36s %9zu bytes  (%zu %zu)  %10.1f us  %7.1f MB/s\n", name, length, r.number, r.line, took, length / took);
}

/* head, then as many copies of piece as fit, then tail */
static void timed(const char *name, entry call, const char *head, const char *piece, const char *tail) {
    size_t h = strlen(head), p = strlen(piece), t = strlen(tail);
    for (size_t mb = 1; mb <= 8; mb *= 2) {
        size_t n = ((mb << 20) - h - t) / p;
        unsigned char *s = malloc(h + n * p + t);
        struct reply r;
        memcpy(s, head, h);
        for (size_t i = 0; i < n; i++) memcpy(s + h + i * p, piece, p);
        memcpy(s + h + n * p, tail, t);
        double took = least(call, s, h + n * p + t, 5, &r);
        say(name, h + n * p + t, r, took);
        free(s);
    }
}

/* Each text of a file in the service form, `call` on all of them. */
static void all_of(const char *name, entry call, const char *path, const char *skip) {
    FILE *f = fopen(path, "rb");
    if (!f) { perror(path); exit(1); }
    fseek(f, 0, SEEK_END);
    size_t size = ftell(f), jobs = 0, bytes = 0;
    unsigned char *s = malloc(size + 1);
    rewind(f);
    if (fread(s, 1, size, f) != size) { perror(path); exit(1); }
    s[size] = 0;
    fclose(f);
    double sum = 0;
    struct reply r = {0, 0};
    for (unsigned char *at = s, *end; (end = (unsigned char *)strstr((char *)at, "(end)\n")); at = end + 6) {
        if (strncmp((char *)at, skip, strlen(skip)) == 0) continue;
        sum += least(call, at, end - at, 200, &r);
        bytes += end - at;
        jobs++;
    }
    printf("%-36s %9zu bytes in %zu texts  %10.2f us each  %7.1f MB/s\n", name, bytes, jobs, sum / jobs, bytes / sum);
    free(s);
}

int main(int count, char **words) {
    const char *fbs = "(fbs 4 8 10 none span one)\n(in a)\n", *net = "(net 4 8 none)\n(in a)\n";
    if (count != 3) { fprintf(stderr, "texts CIRCUITS ANSWERS\n"); return 2; }
    all_of("circuits as stored", read_circuit, words[1], "(end)");
    all_of("networks as mapped", admit, words[2], "(no ");
    timed("circuit, one line: wires", read_circuit, "(fbs 4 8 10 none span one)\n(in a)\n(gate g 01", " (n 0)", ")\n");
    timed("circuit, one line: digits of an ID", read_circuit, "(fbs 4 8 10 none span one)\n(gate g 01 (n 1", "7", "))\n");
    timed("circuit, one line: bits", read_circuit, "(fbs 4 8 10 none span one)\n(in a)\n(gate g ", "01", " (n 0))\n");
    timed("circuit, one line: brackets", read_circuit, "", "(", "");
    timed("circuit, many lines", read_circuit, fbs, "(gate g 01 (n 0))\n", "");
    timed("circuit, many empty lines", read_circuit, fbs, "\n", "");
    timed("network, one line: terms", admit, "(net 4 8 none)\n(in a)\n(lin 0", " (1 0)", ")\n");
    timed("network, one line: digits of an ID", admit, "(net 4 8 none)\n(in a)\n(lin 0 (1 0) (1 1", "7", "))\n");
    timed("network, one line: two long IDs", admit, "(net 4 8 none)\n(in a)\n(lin 0 (1 1", "7", ") (1 2))\n");
    timed("network, one line: bits", admit, "(net 4 8 none)\n(in a)\n(boot 0 ", "01", ")\n");
    timed("network, one line: brackets", admit, "", "(", "");
    timed("network, many lines", admit, net, "(lin 0 (1 0))\n", "");
    timed("network, many empty lines", admit, net, "\n", "");
    return 0;
}
