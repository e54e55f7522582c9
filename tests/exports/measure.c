/* Time and stack of fbs_map and fbs_retune on the circuits of standard input, and of fbs_admit and fbs_convert on what it wrote; then of these two on a
 * network of 672 nodes whose tables stand as far apart as they can (tools/check_exports --measure). Of five calls the quickest counts;
 * the stack is what a thread wrote of one that was filled with a pattern before. */
#define _POSIX_C_SOURCE 200809L
#include <pthread.h>
#include <stdio.h>
#include <stdlib.h>
#include <time.h>

#include "job.h"

enum { STACK = 1 << 20, PATTERN = 0xCD, MOST = 100000 };
static uint8_t out[FBS_ANSWER_BYTES], second[3 * FBS_ANSWER_BYTES], plain[3 * FBS_ANSWER_BYTES];
static size_t length, written, converted;

static void *map(void *unused) {
    fbs_reply r = fbs_map(text, length, out, sizeof out);
    written = r.count;
    return unused;
}

static void *admit(void *unused) {
    fbs_admission a = fbs_admit(out, written);
    if (a.number != FBS_OK) abort();
    return unused;
}

static void *convert(void *unused) {
    fbs_reply r = fbs_convert(out, written, second, sizeof second);
    if (r.number != FBS_OK) abort();
    converted = r.count;
    return unused;
}

static void *convert_back(void *unused) {
    fbs_reply r = fbs_convert(second, converted, plain, sizeof plain);
    if (r.number != FBS_OK) abort();
    return unused;
}

static uint8_t state[FBS_STATE_BYTES];
static size_t chosen;

/* The line of the last gate of the text, 0 where there is none. */
static size_t last_gate(void) {
    size_t line = 1, found = 0;
    for (size_t i = 0; i < length; i++) {
        if (i + 5 < length && (i == 0 || text[i - 1] == '\n') && memcmp(text + i, "(gate", 5) == 0) found = line;
        if (text[i] == '\n') line++;
    }
    return found;
}

/* From the state that the call before kept, the first time afresh. */
static void *retune(void *unused) {
    fbs_retune(text, length, chosen, state, sizeof state, out, FBS_ANSWER_BYTES);
    return unused;
}

static void *retune_afresh(void *unused) {
    memset(state, 0, sizeof state);
    return retune(unused);
}

static void *nothing(void *unused) {
    return unused;
}

static double microseconds(void *(*call)(void *)) {
    double best = 1e18;
    for (int i = 0; i < 5; i++) {
        struct timespec from, to;
        clock_gettime(CLOCK_MONOTONIC, &from);
        call(NULL);
        clock_gettime(CLOCK_MONOTONIC, &to);
        double took = (double)(to.tv_sec - from.tv_sec) * 1e6 + (double)(to.tv_nsec - from.tv_nsec) / 1e3;
        if (took < best) best = took;
    }
    return best;
}

static size_t stack_bytes(void *(*call)(void *)) {
    static uint8_t *stack;
    pthread_attr_t attributes;
    pthread_t thread;
    if (stack == NULL && posix_memalign((void **)&stack, 4096, STACK) != 0) abort();
    memset(stack, PATTERN, STACK);
    pthread_attr_init(&attributes);
    if (pthread_attr_setstack(&attributes, stack, STACK) != 0 || pthread_create(&thread, &attributes, call, NULL) != 0) abort();
    pthread_join(thread, NULL);
    size_t free_bytes = 0;
    while (free_bytes < STACK && stack[free_bytes] == PATTERN) free_bytes++;
    return STACK - free_bytes;
}

static int compare(const void *a, const void *b) {
    double x = *(const double *)a, y = *(const double *)b;
    return (x > y) - (x < y);
}

typedef struct {
    double times[MOST];
    size_t count, stack;
} Measured;

static void add(Measured *m, void *(*call)(void *)) {
    if (m->count == MOST) return;
    m->times[m->count++] = microseconds(call);
    size_t used = stack_bytes(call);
    if (m->stack < used) m->stack = used;
}

static void show(const char *name, Measured *m) {
    if (m->count == 0) return;
    qsort(m->times, m->count, sizeof(double), compare);
    printf("%s: %zu texts, median %.1f us, most %.1f us, stack at most %zu bytes\n", name, m->count, m->times[m->count / 2], m->times[m->count - 1], m->stack);
}

/* 32 inputs and 640 tables, on each input in turn. */
static void largest(void) {
    size_t at = (size_t)sprintf((char *)out, "(net 4 8 none)\n");
    for (int i = 0; i < 32; i++) at += (size_t)sprintf((char *)out + at, "(in i%d)\n", i);
    for (int i = 0; i < 640; i++) at += (size_t)sprintf((char *)out + at, "(boot %d 10)\n", i % 32);
    written = at + (size_t)sprintf((char *)out + at, "(out o (n 671))\n");
}

int main(void) {
    static Measured mapping, admission, to_second, to_plain, keeping, continued;
    while (next_job(&length)) {
        chosen = last_gate();
        if (chosen != 0) {
            add(&keeping, retune_afresh);
            add(&continued, retune);
        }
        add(&mapping, map);
        if (written == 0) continue;
        add(&admission, admit);
        add(&to_second, convert);
        add(&to_plain, convert_back);
    }
    show("fbs_map", &mapping);
    show("fbs_retune afresh", &keeping);
    show("fbs_retune from its state", &continued);
    show("fbs_admit", &admission);
    show("fbs_convert to edition 2", &to_second);
    show("fbs_convert back", &to_plain);
    largest();
    printf("672 nodes: fbs_admit %.1f us, fbs_convert to edition 2 %.1f us, ", microseconds(admit), microseconds(convert));
    printf("back %.1f us\n", microseconds(convert_back));
    printf("a thread that calls nothing: stack %zu bytes\n", stack_bytes(nothing));
    return 0;
}
