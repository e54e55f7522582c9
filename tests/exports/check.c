/* The library, called from C (tools/check_exports). What is expected is reckoned by hand from document 01, its tables of refusals
 * and its worked cases, and from document 02. */
#include <pthread.h>
#include <stdio.h>
#include <string.h>

#include "wonkpecan.h"

static int checks, failures;

static void expect(const char *what, int good) {
    checks++;
    if (!good) {
        failures++;
        printf("FAILED: %s\n", what);
    }
}

static void is(const char *what, fbs_reply r, size_t number, size_t line, size_t count) {
    int good = r.number == number && r.line == line && r.count == count;
    if (!good) printf("(%zu %zu %zu), not (%zu %zu %zu):\n", r.number, r.line, r.count, number, line, count);
    expect(what, good);
}

/* ---- A buffer of 0xA5 with the same before and behind the part that is lent. */

enum { EDGE = 64, PATTERN = 0xA5 };
static uint8_t room[EDGE + FBS_ANSWER_BYTES + EDGE];

static uint8_t *fresh(void) {
    memset(room, PATTERN, sizeof room);
    return room + EDGE;
}

/* whether all but the first n lent bytes is as it was */
static int kept(size_t n) {
    for (size_t i = 0; i < sizeof room; i++)
        if ((i < EDGE || EDGE + n <= i) && room[i] != PATTERN) return 0;
    return 1;
}

static const uint8_t *bytes(const char *text) {
    return (const uint8_t *)text;
}

/* ---- The mapper. */

#define SPAN "(fbs 4 8 10 none span one)\n"
#define AND "(in a)\n(in b)\n(gate g 0001 (n 0) (n 1))\n(out y (n 2))\n"
#define XOR "(in a)\n(in b)\n(gate g 0110 (n 0) (n 1))\n(out y (n 2))\n"
#define NOT "(in a)\n(gate g 10 (n 0))\n(out y (n 1))\n"

static const char *and_network = "(net 4 8 none)\n(in a)\n(in b)\n(lin 0 (1 0) (1 1))\n(boot 2 001)\n(out y (n 3))\n";

static const struct {
    const char *what, *text, *network;
    size_t number, line;
} mapped[] = {
    {"AND", SPAN AND, "(net 4 8 none)\n(in a)\n(in b)\n(lin 0 (1 0) (1 1))\n(boot 2 001)\n(out y (n 3))\n", 0, 0},
    {"XOR, P 2, M 3", "(fbs 2 3 10 none span one)\n" XOR, "(net 2 3 none)\n(in a)\n(in b)\n(lin 1 (1 0) (-1 1))\n(boot 2 101)\n(out y (n 3))\n", 0, 0},
    {"NOT", SPAN NOT, "(net 4 8 none)\n(in a)\n(lin 1 (-1 0))\n(out y (n 1))\n", 0, 0},
    {"limit 0, an output on an input", "(fbs 4 8 10 0 span one)\n(in a)\n(out y (n 0))\n", "(net 4 8 0)\n(in a)\n(out y (n 0))\n", 0, 0},
    {"an input that nothing needs", SPAN "(in a)\n(in b)\n(out y (n 1))\n", "(net 4 8 none)\n(in b)\n(out y (n 0))\n", 0, 0},
    {"a constant", SPAN "(out y (k 1))\n", "(net 4 8 none)\n(out y (k 1))\n", 0, 0},
    {"a weight, and the heavier side first", SPAN "(in a)\n(in b 2)\n(gate g 0001 (n 0) (n 1))\n(out y (n 2))\n",
     "(net 4 8 none)\n(in a)\n(in b 2)\n(lin 0 (1 1) (1 0))\n(boot 2 001)\n(out y (n 3))\n", 0, 0},
    {"1", SPAN "(in a)\n(gate g 02 (n 0))\n", NULL, 1, 3},
    {"1, weight 1 is not written", SPAN "(in a 1)\n", NULL, 1, 2},
    {"1, a weight over 64", SPAN "(in a 65)\n", NULL, 1, 2},
    {"1, a text cut in its last line", SPAN "(in a)", NULL, 1, 2},
    {"2", "(fbs 4 9 8 none span one)\n", NULL, 2, 1},
    {"4, the empty text", "", NULL, 4, 1},
    {"4, no fbs line", "(in a)\n", NULL, 4, 1},
    {"5", SPAN "(in a)\n(in a)\n", NULL, 5, 3},
    {"5, with another weight", SPAN "(in a 2)\n(in a 3)\n", NULL, 5, 3},
    {"6", SPAN "(gate g 10 (n 0))\n", NULL, 6, 2},
    {"7", SPAN "(in a)\n(in b)\n(gate g 10 (n 0) (n 1))\n", NULL, 7, 4},
    {"8, limit 0, a NOT", "(fbs 4 8 10 0 span one)\n" NOT, NULL, 8, 3},
    {"8, limit 8, a NOT of weight 9", "(fbs 4 8 10 8 span one)\n(in a 9)\n(gate g 10 (n 0))\n", NULL, 8, 3},
    {"8, Basic's last check", "(fbs 2 4 10 0 basic one)\n(in a)\n(out y (n 0))\n", NULL, 8, 0},
    {"9, P = M = 2, AND", "(fbs 2 2 10 none span one)\n" AND, NULL, 9, 4},
    {"9, Naive, P 2, M 4, AND", "(fbs 2 4 10 none naive one)\n" AND, NULL, 9, 4},
    {"9, Basic, P = M = 4, AND", "(fbs 4 4 10 none basic one)\n" AND, NULL, 9, 4},
};

/* SPAN, then n lines of a kind */
static size_t repeated(char *text, const char *form, int n) {
    size_t at = (size_t)sprintf(text, "%s", SPAN);
    for (int i = 0; i < n; i++) at += (size_t)sprintf(text + at, form, i);
    return at;
}

static void check_mapper(void) {
    for (size_t i = 0; i < sizeof mapped / sizeof *mapped; i++) {
        const char *text = mapped[i].text, *network = mapped[i].network;
        size_t count = network ? strlen(network) : 0;
        uint8_t *out = fresh();
        is(mapped[i].what, fbs_map(bytes(text), strlen(text), out, FBS_ANSWER_BYTES), mapped[i].number, mapped[i].line, count);
        expect(mapped[i].what, kept(count) && (!network || memcmp(out, network, count) == 0));
        out = fresh();
        size_t number = network ? 11 : mapped[i].number;
        is(mapped[i].what, fbs_map(bytes(text), strlen(text), out, 0), number, mapped[i].line, 0);
        expect(mapped[i].what, kept(0));
    }
    static char text[8192];
    uint8_t *out = fresh();
    is("3, the 33rd in", fbs_map(bytes(text), repeated(text, "(in a%d)\n", 33), out, FBS_ANSWER_BYTES), 3, 34, 0);
    is("3, the 97th gate", fbs_map(bytes(text), repeated(text, "(gate g%d 01 (k 0))\n", 97), out, FBS_ANSWER_BYTES), 3, 98, 0);
    is("3, the 33rd out", fbs_map(bytes(text), repeated(text, "(out y%d (k 0))\n", 33), out, FBS_ANSWER_BYTES), 3, 34, 0);
    expect("3 keeps the buffer", kept(0));
    is("32 in are taken", fbs_map(bytes(text), repeated(text, "(in a%d)\n", 32), out, FBS_ANSWER_BYTES), 0, 0, strlen("(net 4 8 none)\n"));
}

static void check_answer_buffer(void) {
    const char *text = SPAN AND;
    size_t n = strlen(and_network);
    for (size_t k = 0; k < n; k++) {
        uint8_t *out = fresh();
        fbs_reply r = fbs_map(bytes(text), strlen(text), out, k);
        if (k == 0 || k == 1 || k == n - 1) is("11 below the network's length", r, 11, 0, 0);
        if (k == 0 || k == 1 || k == n - 1) expect("11 keeps the buffer", kept(0));
    }
    for (size_t k = n; k <= n + 1; k++) {
        uint8_t *out = fresh();
        is("a buffer as long as the network, or longer", fbs_map(bytes(text), strlen(text), out, k), 0, 0, n);
        expect("the network, later bytes kept", kept(n) && memcmp(out, and_network, n) == 0);
    }
    is("11, no buffer", fbs_map(bytes(text), strlen(text), NULL, 0), 11, 0, 0);
    is("4, no text and no buffer", fbs_map(NULL, 0, NULL, 0), 4, 1, 0);
    uint8_t *out = fresh();
    is("4, no text", fbs_map(NULL, 0, out, FBS_ANSWER_BYTES), 4, 1, 0);
    expect("4 keeps the buffer", kept(0));
}

/* ---- One gate retuned. */

/* As many bytes as are never too short. */
enum { STATE = 1 << 20 };
static uint8_t state[STATE], before[STATE];

#define TWO(f, g, h) f "(in a)\n(in b)\n(gate g " g " (n 0) (n 1))\n(gate h " h " (n 2) (n 1))\n(out y (n 3))\n"

static const struct {
    const char *what, *text;
    size_t line, length, room, number, at, begun;
    int changed;
} retuned[] = {
    {"a buffer of zeros: all gates, and the state is kept", TWO(SPAN, "0001", "0110"), 5, STATE, FBS_ANSWER_BYTES, 0, 0, 2, 1},
    {"its BITS edited", TWO(SPAN, "0001", "0111"), 5, STATE, FBS_ANSWER_BYTES, 0, 0, 1, 0},
    {"again, the state as long as need be", TWO(SPAN, "0001", "1001"), 5, FBS_STATE_BYTES, FBS_ANSWER_BYTES, 0, 0, 1, 0},
    {"a byte shorter: afresh", TWO(SPAN, "0001", "1001"), 5, FBS_STATE_BYTES - 1, FBS_ANSWER_BYTES, 0, 0, 2, 0},
    {"no buffer", TWO(SPAN, "0001", "1001"), 5, 0, FBS_ANSWER_BYTES, 0, 0, 2, 0},
    {"no line", TWO(SPAN, "0001", "1001"), 0, STATE, FBS_ANSWER_BYTES, 0, 0, 2, 0},
    {"an input's line", TWO(SPAN, "0001", "1001"), 3, STATE, FBS_ANSWER_BYTES, 0, 0, 2, 0},
    {"an output's line", TWO(SPAN, "0001", "1001"), 6, STATE, FBS_ANSWER_BYTES, 0, 0, 2, 0},
    {"the largest line", TWO(SPAN, "0001", "1001"), SIZE_MAX, STATE, FBS_ANSWER_BYTES, 0, 0, 2, 0},
    {"11", TWO(SPAN, "0001", "0110"), 5, STATE, 9, 11, 0, 1, 0},
    {"4, the empty text", "", 5, STATE, FBS_ANSWER_BYTES, 4, 1, 0, 0},
    {"the gate before it edited: afresh", TWO(SPAN, "0111", "0110"), 5, STATE, FBS_ANSWER_BYTES, 0, 0, 2, 1},
    {"other settings", TWO("(fbs 4 8 10 none span many)\n", "0111", "0110"), 5, STATE, FBS_ANSWER_BYTES, 0, 0, 2, 1},
    {"another gate", TWO("(fbs 4 8 10 none span many)\n", "0111", "0110"), 4, STATE, FBS_ANSWER_BYTES, 0, 0, 2, 1},
    {"that gate edited", TWO("(fbs 4 8 10 none span many)\n", "1110", "0110"), 4, STATE, FBS_ANSWER_BYTES, 0, 0, 2, 0},
    {"9 before the chosen gate", TWO("(fbs 2 2 10 none span one)\n", "0001", "0110"), 5, STATE, FBS_ANSWER_BYTES, 9, 4, 1, 0},
    {"9 at the chosen gate, and the state is kept", TWO("(fbs 2 2 10 none span one)\n", "0001", "0110"), 4, STATE, FBS_ANSWER_BYTES, 9, 4, 1, 1},
    {"that gate constant", TWO("(fbs 2 2 10 none span one)\n", "1111", "0110"), 4, STATE, FBS_ANSWER_BYTES, 0, 0, 2, 0},
};

static void is_retuned(const char *what, fbs_retuned r, size_t number, size_t line, size_t count, size_t begun) {
    int good = r.number == number && r.line == line && r.count == count && r.begun == begun;
    if (!good) printf("(%zu %zu %zu %zu), not (%zu %zu %zu %zu):\n", r.number, r.line, r.count, r.begun, number, line, count, begun);
    expect(what, good);
}

static void check_retunes(void) {
    static uint8_t network[FBS_ANSWER_BYTES];
    memset(state, 0, sizeof state);
    for (size_t i = 0; i < sizeof retuned / sizeof *retuned; i++) {
        const char *text = retuned[i].text;
        size_t count = fbs_map(bytes(text), strlen(text), network, sizeof network).count;
        if (retuned[i].number) count = 0;
        memcpy(before, state, sizeof state);
        uint8_t *out = fresh();
        fbs_retuned r = fbs_retune(bytes(text), strlen(text), retuned[i].line, retuned[i].length ? state : NULL, retuned[i].length, out, retuned[i].room);
        is_retuned(retuned[i].what, r, retuned[i].number, retuned[i].at, count, retuned[i].begun);
        expect("fbs_map's answer", kept(count) && memcmp(out, network, count) == 0);
        expect("whether the state changes", (memcmp(state, before, sizeof state) != 0) == retuned[i].changed);
        expect("bytes behind a state are kept", memcmp(state + FBS_STATE_BYTES, before + FBS_STATE_BYTES, STATE - FBS_STATE_BYTES) == 0);
    }
    is_retuned("no text, no buffers", fbs_retune(NULL, 0, 4, NULL, 0, NULL, 0), 4, 1, 0, 0);
    is_retuned("11, no answer buffer", fbs_retune(bytes(retuned[0].text), strlen(retuned[0].text), 5, NULL, 0, NULL, 0), 11, 0, 0, 2);
}

/* Somebody altered a byte of a state: what is written is admitted, and a refusal keeps the buffer. */
static void check_altered(void) {
    const char *text = retuned[0].text, *edited = retuned[1].text;
    int good = 1;
    memset(state, 0, sizeof state);
    fbs_retune(bytes(text), strlen(text), 5, state, FBS_STATE_BYTES, fresh(), FBS_ANSWER_BYTES);
    memcpy(before, state, FBS_STATE_BYTES);
    for (size_t at = 0; at < FBS_STATE_BYTES; at += at < 2600 || (26200 < at && at < 26800) ? 1 : 13) {
        memcpy(state, before, FBS_STATE_BYTES);
        state[at] ^= (uint8_t)(at % 3 + 1);
        uint8_t *out = fresh();
        fbs_retuned r = fbs_retune(bytes(edited), strlen(edited), 5, state, FBS_STATE_BYTES, out, FBS_ANSWER_BYTES);
        good = good && kept(r.number ? 0 : r.count) && (r.number || fbs_admit(out, r.count).number == 0);
    }
    expect("each byte of a state altered in turn", good);
    memset(state, 7, FBS_STATE_BYTES);
    fbs_retuned r = fbs_retune(bytes(edited), strlen(edited), 5, state, FBS_STATE_BYTES, fresh(), FBS_ANSWER_BYTES);
    expect("a buffer that was never a state", r.number == 0 && fbs_admit(room + EDGE, r.count).number == 0);
}

/* ---- Admission. */

#define NET "(net 4 8 none)\n(in a)\n"
#define SUM "(in b)\n(lin 0 (1 0) (1 1))\n"

/* 3 inputs, 1 sum of values 0..3, 10 boots on 6 nodes, tables of up to 4 bits, norm 1 + 4, 7 outputs, depth 2: no two alike */
static const char *various =
    "(net 4 8 none)\n(in a)\n(in b)\n(in c)\n(lin 0 (1 0) (2 1))\n(boot 3 0001)\n(boot 3 0110)\n(boot 3 0111)\n(boot 3 1000)\n"
    "(boot 2 01)\n(boot 2 10)\n(boot 4 01)\n(boot 5 01)\n(boot 6 01)\n(boot 7 01)\n"
    "(out t (n 4))\n(out u (n 5))\n(out v (n 6))\n(out w (n 7))\n(out x (n 8))\n(out y (n 9))\n(out z (k 1))\n";

static const struct {
    const char *what, *text;
    fbs_admission reply;
} judged[] = {
    {"document 01's network", "(net 4 8 none)\n(in a)\n(in b)\n(lin 0 (1 0) (1 1))\n(boot 2 001)\n(out y (n 3))\n", {0, 0, 2, 1, 1, 1, 3, 2, 1, 1, 1, 0, 0}},
    {"the net line alone", "(net 4 8 none)\n", {0, 0, 0, 0, 0, 0, 0, 0, 0, 0, 0, 0, 0}},
    {"an input counts 1 in the norm", "(net 4 8 none)\n(in a)\n(out y (n 0))\n", {0, 0, 1, 0, 0, 0, 0, 1, 1, 0, 0, 0, 0}},
    {"and its weight where it has one", "(net 4 8 none)\n(in a 64)\n(out y (n 0))\n", {0, 0, 1, 0, 0, 0, 0, 64, 1, 0, 0, 0, 0}},
    {"a sum's norm by weights, at its limit", "(net 4 8 3)\n(in a 2)\n(in b)\n(lin 0 (1 0) (1 1))\n", {0, 0, 2, 1, 0, 0, 0, 3, 0, 0, 0, 0, 0}},
    {"21", NET "(lin 0 (0 0))\n", {21, 3, 0, 0, 0, 0, 0, 0, 0, 0, 0, 0, 0}},
    {"21, the empty text", "", {21, 1, 0, 0, 0, 0, 0, 0, 0, 0, 0, 0, 0}},
    {"21, a name repeated", NET "(in a)\n", {21, 3, 0, 0, 0, 0, 0, 0, 0, 0, 0, 0, 0}},
    {"21, weight 1 is not written", NET "(in b 1)\n", {21, 3, 0, 0, 0, 0, 0, 0, 0, 0, 0, 0, 0}},
    {"22", NET "(boot 9 01)\n", {22, 3, 0, 0, 0, 0, 0, 0, 0, 0, 0, 0, 0}},
    {"22, a sum on a sum", NET "(lin 0 (1 0))\n(lin 0 (1 1))\n", {22, 4, 0, 0, 0, 0, 0, 0, 0, 0, 0, 0, 0}},
    {"23", NET "(boot 0 001)\n", {23, 3, 0, 0, 0, 0, 0, 0, 0, 0, 0, 0, 0}},
    {"24", "(net 2 4 none)\n(in a)\n(in b)\n(lin 0 (1 0) (2 1))\n(boot 2 0001)\n", {24, 5, 0, 0, 0, 0, 0, 0, 0, 0, 0, 0, 0}},
    {"25", "(net 4 8 1)\n(in a)\n(in b)\n(lin 0 (1 0) (1 1))\n", {25, 4, 0, 0, 0, 0, 0, 0, 0, 0, 0, 0, 0}},
    {"25, by weights", "(net 4 8 2)\n(in a 2)\n(in b)\n(lin 0 (1 0) (1 1))\n", {25, 4, 0, 0, 0, 0, 0, 0, 0, 0, 0, 0, 0}},
    {"26", NET SUM "(out y (n 2))\n", {26, 5, 0, 0, 0, 0, 0, 0, 0, 0, 0, 0, 0}},
    {"a boot on a boot, which no output needs", NET "(boot 0 10)\n(boot 1 10)\n(out y (n 1))\n", {0, 0, 1, 0, 2, 2, 2, 1, 1, 2, 2, 0, 0}},
    {"a sum is as deep as its deepest source", NET "(in b)\n(boot 0 10)\n(boot 2 10)\n(lin 0 (1 1) (1 3) (1 2))\n(boot 4 0111)\n", {0, 0, 2, 1, 3, 3, 4, 3, 0, 3, 3, 0, 0}},
    {"tables of P + 1 bits of each centre, and one of P bits",
     "(net 2 4 none)\n(in a)\n(in b)\n(lin 0 (1 0) (1 1))\n(boot 2 010)\n(boot 0 11)\n(boot 2 001)\n(boot 2 100)\n(boot 2 011)\n(boot 2 101)\n(boot 2 111)\n"
     "(boot 2 101)\n(boot 2 111)\n",
     {0, 0, 2, 1, 9, 2, 3, 2, 0, 1, 2, 3, 4}},
};

static void check_admission(void) {
    for (size_t i = 0; i < sizeof judged / sizeof *judged; i++) {
        fbs_admission r = fbs_admit(bytes(judged[i].text), strlen(judged[i].text));
        expect(judged[i].what, memcmp(&r, &judged[i].reply, sizeof r) == 0);
    }
    fbs_admission r = fbs_admit(bytes(various), strlen(various));
    expect("admitted", r.number == 0 && r.line == 0);
    expect("3 inputs", r.inputs == 3);
    expect("1 sum", r.sums == 1);
    expect("10 boots", r.boots == 10);
    expect("6 different sources", r.sources == 6);
    expect("the longest table has 4 bits", r.longest == 4);
    expect("the largest norm is 5", r.norm == 5);
    expect("7 outputs", r.outputs == 7);
    expect("2 boots one behind the other", r.depth == 2);
    expect("all tables have at most P bits", r.centre0 == 10 && r.centre1 == 0 && r.centre2 == 0);
    r = fbs_admit(NULL, 0);
    expect("no text is the empty text", r.number == 21 && r.line == 1 && r.inputs == 0 && r.outputs == 0 && r.depth == 0 && r.centre0 == 0);
}

/* ---- Edition 2 of the network's text. */

#define NET2 "(net2 4 8 none)\n(in a)\n"

static const char *apart = "(net 2 4 none)\n(in a)\n(in b)\n(lin 0 (1 0) (1 1))\n(boot 2 010)\n(boot 0 10)\n(boot 2 001)\n(out y (n 5))\n";
static const char *edition2 = "(net2 2 4 none)\n(in a)\n(in b)\n(lin 0 (1 0) (1 1))\n(many 2 (010 0) (001 1))\n(many 0 (10 0))\n(out y (n 4))\n";
static const char *together = "(net 2 4 none)\n(in a)\n(in b)\n(lin 0 (1 0) (1 1))\n(boot 2 010)\n(boot 2 001)\n(boot 0 10)\n(out y (n 4))\n";

static const struct {
    const char *what, *text;
    size_t number, line;
} turned_away[] = {
    {"21, boot in edition 2", NET2 "(boot 0 10)\n", 21, 3},
    {"21, many in the plain text", NET "(many 0 (10 0))\n", 21, 3},
    {"21, no table", NET2 "(many 0)\n", 21, 3},
    {"22, a table on itself", NET2 "(many 1 (10 0))\n", 22, 3},
    {"23 of the second table", NET2 "(many 0 (10 1) (100 0))\n", 23, 3},
    {"38", NET2 "(many 0 (10 1))\n", 38, 3},
    {"39", NET2 "(many 0 (10 0))\n(many 0 (10 0))\n", 39, 4},
    {"21, the empty text", "", 21, 1},
};

static void converts(const char *what, const char *text, const char *other) {
    uint8_t *out = fresh();
    is(what, fbs_convert(bytes(text), strlen(text), out, FBS_ANSWER_BYTES), 0, 0, strlen(other));
    expect(what, memcmp(out, other, strlen(other)) == 0);
    expect("later bytes are kept", kept(strlen(other)));
    out = fresh();
    is("11, one byte short", fbs_convert(bytes(text), strlen(text), out, strlen(other) - 1), 11, 0, 0);
    expect("11 keeps the buffer", kept(0));
    is("a buffer of the text's length", fbs_convert(bytes(text), strlen(text), out, strlen(other)), 0, 0, strlen(other));
}

static void check_editions(void) {
    converts("to edition 2", apart, edition2);
    converts("and back", edition2, together);
    converts("a second time", together, edition2);
    fbs_admission plain = fbs_admit(bytes(apart), strlen(apart)), second = fbs_admit(bytes(edition2), strlen(edition2));
    static const fbs_admission stats = {0, 0, 2, 1, 3, 2, 3, 2, 1, 1, 2, 1, 0};
    expect("the statistics of the plain text", memcmp(&plain, &stats, sizeof plain) == 0);
    expect("those of edition 2", memcmp(&second, &stats, sizeof second) == 0);
    for (size_t i = 0; i < sizeof turned_away / sizeof *turned_away; i++) {
        uint8_t *out = fresh();
        const char *text = turned_away[i].text;
        fbs_admission r = fbs_admit(bytes(text), strlen(text));
        expect(turned_away[i].what, r.number == turned_away[i].number && r.line == turned_away[i].line && r.boots == 0);
        is(turned_away[i].what, fbs_convert(bytes(text), strlen(text), out, FBS_ANSWER_BYTES), turned_away[i].number, turned_away[i].line, 0);
        expect("a refusal keeps the buffer", kept(0));
    }
    uint8_t bits[2] = {1, 1};
    int64_t value = 9;
    is("21, a run of edition 2", fbs_run_network(bytes(edition2), strlen(edition2), bits, 2, &value, 1), 21, 1, 0);
    fbs_sum sum = fbs_sum_reading(bytes(edition2), strlen(edition2), 2, 1);
    expect("21, a sum of edition 2", sum.number == 21 && sum.line == 1 && sum.count == 0 && value == 9);
    is("21, no text", fbs_convert(NULL, 0, NULL, 0), 21, 1, 0);
}

/* ---- The builder. */

static const struct {
    const char *what;
    size_t p, m, values_length, truths_length;
    int32_t values[4];
    uint8_t truths[4];
    const char *table;
    size_t number, centre;
} built[] = {
    {"010", 2, 4, 3, 3, {0, 1, 2}, {0, 1, 0}, "010", 0, 0},
    {"1001", 2, 4, 2, 2, {0, 3}, {1, 1}, "1001", 0, 1},
    {"001110", 3, 6, 3, 3, {0, 3, 5}, {0, 1, 0}, "001110", 0, 1},
    {"111111, though the sum 1 remains too", 3, 6, 2, 2, {0, 5}, {1, 1}, "111111", 0, 2},
    {"P bits", 3, 6, 3, 3, {0, 1, 2}, {1, 1, 1}, "111", 0, 0},
    {"P + 1 bits", 3, 6, 4, 4, {0, 1, 2, 3}, {1, 0, 0, 1}, "1001", 0, 2},
    {"values below 0", 2, 4, 3, 3, {-1, 0, 1}, {0, 1, 0}, "010", 0, 0},
    {"2, P is 1", 1, 2, 1, 1, {0}, {0}, NULL, 2, 0},
    {"2, P is 17", 17, 17, 1, 1, {0}, {0}, NULL, 2, 0},
    {"2, M below P", 4, 3, 1, 1, {0}, {0}, NULL, 2, 0},
    {"2, M over 2P", 4, 9, 1, 1, {0}, {0}, NULL, 2, 0},
    {"2, the largest P", SIZE_MAX, SIZE_MAX, 1, 1, {0}, {0}, NULL, 2, 0},
    {"2 before 30", 1, 1, 0, 0, {0}, {0}, NULL, 2, 0},
    {"30, no rows", 2, 4, 0, 0, {0}, {0}, NULL, 30, 0},
    {"30, lengths differ", 2, 4, 2, 1, {0, 1}, {0, 1}, NULL, 30, 0},
    {"31", 2, 3, 2, 2, {0, 3}, {0, 0}, NULL, 31, 0},
    {"31, the widest span", 16, 32, 2, 2, {INT32_MIN, INT32_MAX}, {0, 0}, NULL, 31, 0},
    {"31 before 32", 2, 3, 2, 2, {0, 3}, {2, 2}, NULL, 31, 0},
    {"32, one value with two truths", 2, 4, 2, 2, {0, 0}, {0, 1}, NULL, 32, 0},
    {"32, a truth that is no bit", 2, 4, 1, 1, {0}, {2}, NULL, 32, 0},
    {"33", 2, 4, 4, 4, {0, 1, 2, 3}, {0, 0, 0, 1}, NULL, 33, 0},
};

static void is_built(const char *what, fbs_table r, size_t number, size_t count, size_t centre) {
    int good = r.number == number && r.line == 0 && r.count == count && r.centre == centre;
    if (!good) printf("(%zu %zu %zu %zu), not (%zu 0 %zu %zu):\n", r.number, r.line, r.count, r.centre, number, count, centre);
    expect(what, good);
}

static int is_table(const uint8_t *out, const char *table) {
    for (size_t i = 0; table[i]; i++)
        if (out[i] != table[i] - '0') return 0;
    return 1;
}

static void check_builder(void) {
    for (size_t i = 0; i < sizeof built / sizeof *built; i++) {
        const char *table = built[i].table;
        size_t n = table ? strlen(table) : 0;
        for (size_t lent = 0; lent <= FBS_TABLE_BITS; lent++) {
            int told = lent == 0 || lent + 1 == n || lent == n || lent == n + 1 || lent == FBS_TABLE_BITS;
            size_t number = table && lent < n ? 34 : built[i].number;
            size_t count = number == 0 ? n : 0;
            uint8_t *out = fresh();
            fbs_table r = fbs_build_table(built[i].p, built[i].m, built[i].values, built[i].values_length, built[i].truths, built[i].truths_length, out, lent);
            if (told) is_built(built[i].what, r, number, count, number == 0 ? built[i].centre : 0);
            if (told) expect(built[i].what, kept(count) && (number != 0 || is_table(out, table)));
        }
    }
    int32_t value = 0;
    uint8_t truth = 1;
    is_built("30, no lists", fbs_build_table(2, 4, NULL, 0, NULL, 0, NULL, 0), 30, 0, 0);
    is_built("30, no truths", fbs_build_table(2, 4, &value, 1, NULL, 0, NULL, 0), 30, 0, 0);
    is_built("34, no buffer", fbs_build_table(2, 4, &value, 1, &truth, 1, NULL, 0), 34, 0, 0);
}

/* ---- The runs. */

static void check_circuit_run(void) {
    const char *text = SPAN "(in a)\n(in b)\n(gate g 0100 (n 0) (n 1))\n(gate h 10 (n 0))\n(out y (n 2))\n(out z (n 3))\n(out k (k 1))\n";
    for (int v = 0; v < 4; v++) {
        uint8_t bits[2] = {(uint8_t)(v >> 1), (uint8_t)(v & 1)};
        uint8_t *values = fresh();
        is("a run of a circuit", fbs_run_circuit(bytes(text), strlen(text), bits, 2, values, 3), 0, 0, 3);
        expect("its values", kept(3) && values[0] == (v == 1) && values[1] == (v < 2) && values[2] == 1);
    }
    uint8_t bits[3] = {1, 1, 2};
    for (size_t lent = 0; lent <= 4; lent++) {
        uint8_t *values = fresh();
        is("places for the values", fbs_run_circuit(bytes(text), strlen(text), bits, 2, values, lent), lent < 3 ? 101 : 0, 0, lent < 3 ? 0 : 3);
        expect("and the rest is kept", kept(lent < 3 ? 0 : 3));
    }
    uint8_t *values = fresh();
    is("100, a bit too few", fbs_run_circuit(bytes(text), strlen(text), bits, 1, values, 3), 100, 0, 0);
    is("100, a bit too many", fbs_run_circuit(bytes(text), strlen(text), bits, 3, values, 3), 100, 0, 0);
    is("100, 2 is no bit", fbs_run_circuit(bytes(text), strlen(text), bits + 1, 2, values, 3), 100, 0, 0);
    is("100, no bits; before 101", fbs_run_circuit(bytes(text), strlen(text), NULL, 0, NULL, 0), 100, 0, 0);
    is("101, no places", fbs_run_circuit(bytes(text), strlen(text), bits, 2, NULL, 0), 101, 0, 0);
    is("4, no text; before 100", fbs_run_circuit(NULL, 0, bits, 3, values, 3), 4, 1, 0);
    for (size_t i = 0; i < sizeof mapped / sizeof *mapped; i++)
        if (0 < mapped[i].number && mapped[i].number < 8)
            is(mapped[i].what, fbs_run_circuit(bytes(mapped[i].text), strlen(mapped[i].text), bits, 2, values, 3), mapped[i].number, mapped[i].line, 0);
    expect("refused, the values are kept", kept(0));
    const char *limited = "(fbs 4 8 10 0 span one)\n" NOT;
    is("what only mapping refuses runs", fbs_run_circuit(bytes(limited), strlen(limited), bits, 1, values, 1), 0, 0, 1);
    expect("NOT of 1", values[0] == 0 && kept(1));
}

enum { WANTED = 7, MARK = -77 };

static int numbers_kept(const int64_t *values, size_t from, size_t length) {
    for (size_t i = from; i < length; i++)
        if (values[i] != MARK) return 0;
    return 1;
}

static void check_network_run(void) {
    static const char *tables[6] = {"0001", "0110", "0111", "1000", "01", "10"};
    int64_t values[WANTED + 2];
    for (int v = 0; v < 8; v++) {
        uint8_t bits[3] = {(uint8_t)(v & 1), (uint8_t)(v >> 1 & 1), (uint8_t)(v >> 2)};
        for (int i = 0; i < WANTED + 2; i++) values[i] = MARK;
        is("a run of a network", fbs_run_network(bytes(various), strlen(various), bits, 3, values, WANTED + 1), 0, 0, WANTED);
        int good = values[6] == 1 && numbers_kept(values, WANTED, WANTED + 2);
        for (int i = 0; i < 6; i++) good = good && values[i] == tables[i][i < 4 ? v & 3 : v >> 2] - '0';
        expect("its values", good);
    }
    uint8_t bits[4] = {1, 1, 0, 2};
    for (size_t lent = 0; lent <= WANTED + 1; lent++) {
        for (int i = 0; i < WANTED + 2; i++) values[i] = MARK;
        fbs_reply r = fbs_run_network(bytes(various), strlen(various), bits, 3, values, lent);
        if (lent == 0 || lent + 1 >= WANTED) is("places for the values", r, lent < WANTED ? 101 : 0, 0, lent < WANTED ? 0 : WANTED);
        if (lent == 0 || lent + 1 >= WANTED) expect("and the rest is kept", numbers_kept(values, lent < WANTED ? 0 : WANTED, WANTED + 2));
    }
    for (int i = 0; i < WANTED + 2; i++) values[i] = MARK;
    is("100, a bit too few", fbs_run_network(bytes(various), strlen(various), bits, 2, values, WANTED), 100, 0, 0);
    is("100, a bit too many", fbs_run_network(bytes(various), strlen(various), bits, 4, values, WANTED), 100, 0, 0);
    is("100, 2 is no bit", fbs_run_network(bytes(various), strlen(various), bits + 1, 3, values, WANTED), 100, 0, 0);
    is("100, no bits; before 101", fbs_run_network(bytes(various), strlen(various), NULL, 0, NULL, 0), 100, 0, 0);
    is("101, no places", fbs_run_network(bytes(various), strlen(various), bits, 3, NULL, 0), 101, 0, 0);
    is("21, no text; before 100", fbs_run_network(NULL, 0, bits, 4, values, WANTED), 21, 1, 0);
    const char *later = NET "(boot 9 01)\n";
    is("22", fbs_run_network(bytes(later), strlen(later), bits, 1, values, WANTED), 22, 3, 0);
    const char *narrow = NET SUM "(boot 2 01)\n(out y (n 3))\n";
    is("102, value 2 in a table of 2", fbs_run_network(bytes(narrow), strlen(narrow), bits, 2, values, 1), 102, 0, 0);
    expect("no run keeps the values", numbers_kept(values, 0, WANTED + 2));
    is("value 1 in it", fbs_run_network(bytes(narrow), strlen(narrow), bits + 1, 2, values, 1), 0, 0, 1);
    expect("its bit", values[0] == 1 && numbers_kept(values, 1, WANTED + 2));
    const char *below = NET "(lin -3 (2 0))\n(out y (n 1))\n";
    is("a sum below 0", fbs_run_network(bytes(below), strlen(below), bits, 1, values, 1), 0, 0, 1);
    expect("2 - 3", values[0] == -1);
}

/* ---- The reading of a sum: 1 + 2c - b + 2a, the terms not in the nodes' order. */

static const char *summed = "(net 4 8 none)\n(in a)\n(in b)\n(in c)\n(lin 1 (2 2) (-1 1) (2 0))\n(boot 0 01)\n(lin 0 (2 0))\n";

static const struct {
    const char *what;
    size_t node;
    int32_t value;
    size_t number, count;
    uint8_t bits[FBS_TERMS];
} wanted[] = {
    {"the least sum", 3, 0, 0, 3, {0, 1, 0}},
    {"the greatest sum", 3, 5, 0, 3, {1, 0, 1}},
    {"CONST alone", 3, 1, 0, 3, {0, 0, 0}},
    {"the first of two", 3, 3, 0, 3, {0, 0, 1}},
    {"below the least", 3, -1, 103, 0, {0}},
    {"above the greatest", 3, 6, 103, 0, {0}},
    {"in a gap", 5, 1, 103, 0, {0}},
    {"past the gap", 5, 2, 0, 1, {1}},
    {"the least number", 3, INT32_MIN, 103, 0, {0}},
    {"the greatest number", 3, INT32_MAX, 103, 0, {0}},
    {"35, an input", 0, 0, 35, 0, {0}},
    {"35, a boot", 4, 0, 35, 0, {0}},
    {"35, no node", 6, 0, 35, 0, {0}},
    {"35, the greatest node", SIZE_MAX, 0, 35, 0, {0}},
};

static void check_sums(void) {
    for (size_t i = 0; i < sizeof wanted / sizeof *wanted; i++) {
        fbs_sum r = fbs_sum_reading(bytes(summed), strlen(summed), wanted[i].node, wanted[i].value);
        int good = r.number == wanted[i].number && r.line == 0 && r.count == wanted[i].count;
        expect(wanted[i].what, good && memcmp(r.bits, wanted[i].bits, FBS_TERMS) == 0);
    }
    for (size_t i = 0; i < sizeof judged / sizeof *judged; i++) {
        fbs_sum r = fbs_sum_reading(bytes(judged[i].text), strlen(judged[i].text), 0, 0);
        size_t number = judged[i].reply.number ? judged[i].reply.number : 35;
        expect("admission first, then 35", r.number == number && r.line == judged[i].reply.line && r.count == 0);
    }
    fbs_sum r = fbs_sum_reading(NULL, 0, 0, 0);
    expect("no text is the empty text", r.number == 21 && r.line == 1 && r.count == 0);
}

/* ---- Counts over all assignments. */

static const char *and_gate = "(net 4 8 none)\n(in a)\n(in b)\n(lin 0 (1 0) (1 1))\n(boot 2 001)\n(out o (n 3))\n(out one (k 1))\n";

static void check_counts(void) {
    uint32_t ones[FBS_OUTPUTS], values[FBS_VALUES];
    for (size_t i = 0; i < FBS_OUTPUTS; i++) ones[i] = 7;
    for (size_t i = 0; i < FBS_VALUES; i++) values[i] = 7;
    fbs_reply r = fbs_ones(bytes(and_gate), strlen(and_gate), ones);
    expect("two outputs", r.number == 0 && r.line == 0 && r.count == 2);
    expect("1 at one of four, and at all", ones[0] == 1 && ones[1] == 4);
    expect("later places are kept", ones[2] == 7 && ones[FBS_OUTPUTS - 1] == 7);
    fbs_values v = fbs_value_counts(bytes(and_gate), strlen(and_gate), 2, values);
    expect("three values from 0 on", v.number == 0 && v.line == 0 && v.count == 3 && v.least == 0);
    expect("1, 2 and 1 of four", values[0] == 1 && values[1] == 2 && values[2] == 1 && values[3] == 7);
    v = fbs_value_counts(bytes(summed), strlen(summed), 3, values);
    expect("a sum of three terms", v.number == 0 && v.count == 6 && v.least == 0 && values[2] == 2 && values[5] == 1);
    const char *below = "(net 4 8 none)\n(in a)\n(lin 0 (-2 0))\n";
    v = fbs_value_counts(bytes(below), strlen(below), 1, values);
    expect("from -2 on, a gap between", v.number == 0 && v.count == 3 && v.least == -2 && values[0] == 1 && values[1] == 0 && values[2] == 1);
    v = fbs_value_counts(bytes(and_gate), strlen(and_gate), 3, values);
    expect("35, a boot", v.number == 35 && v.line == 0 && v.count == 0 && v.least == 0);
    char many[1024] = "(net 4 8 none)\n";
    for (int i = 0; i < 21; i++) sprintf(many + strlen(many), "(in i%d)\n", i);
    strcat(many, "(out o (n 20))\n");
    ones[0] = 7;
    r = fbs_ones(bytes(many), strlen(many), ones);
    expect("40, 21 inputs", r.number == 40 && r.line == 0 && r.count == 0 && ones[0] == 7);
    v = fbs_value_counts(bytes(many), strlen(many), 0, values);
    expect("40 before 35", v.number == 40 && v.line == 0);
    r = fbs_ones(NULL, 0, ones);
    expect("no text is the empty text", r.number == 21 && r.line == 1 && r.count == 0);
}

/* ---- Runs with workers. */

static void check_trials(void) {
    const char *chain = "(net 4 8 none)\n(in a)\n(boot 0 01)\n(boot 0 10)\n(boot 1 01)\n";
    uint32_t starts[FBS_BOOTS];
    for (size_t i = 0; i < FBS_BOOTS; i++) starts[i] = 7;
    fbs_run r = fbs_trial(bytes(chain), strlen(chain), 2, 10, starts);
    expect("three boots, two rounds", r.number == 0 && r.line == 0 && r.count == 3 && r.ticks == 20);
    expect("the third waits for the first", starts[0] == 0 && starts[1] == 0 && starts[2] == 10 && starts[3] == 7);
    r = fbs_trial(bytes(chain), strlen(chain), 1, 1, starts);
    expect("one worker, by their numbers", r.ticks == 3 && starts[0] == 0 && starts[1] == 1 && starts[2] == 2);
    r = fbs_trial(bytes(chain), strlen(chain), 0, 1, starts);
    expect("41, no worker", r.number == 41 && r.line == 0 && r.count == 0 && r.ticks == 0 && starts[1] == 1);
    r = fbs_trial(bytes(chain), strlen(chain), 1, 1001, starts);
    expect("41, 1,001 ticks", r.number == 41);
    r = fbs_trial(NULL, 0, 0, 0, starts);
    expect("no text is the empty text", r.number == 21 && r.line == 1 && r.count == 0);
}

/* ---- Slots: the steps of P = 2, 4 and 16 are 2^30, 2^29 and 2^27. */

enum { HALF2 = 536870912, HALF4 = 268435456, HALF16 = 67108864 };

static const struct {
    const char *what;
    size_t p;
    int32_t value, error;
    size_t number, slot;
} phases[] = {
    {"no error", 4, 5, 0, 0, 5},
    {"odd, minus half", 4, 5, -HALF4, 0, 4},
    {"odd, above minus half", 4, 5, -HALF4 + 1, 0, 5},
    {"odd, below plus half", 4, 5, HALF4 - 1, 0, 5},
    {"odd, plus half", 4, 5, HALF4, 0, 6},
    {"even, below minus half", 4, 6, -HALF4 - 1, 0, 5},
    {"even, minus half", 4, 6, -HALF4, 0, 6},
    {"even, plus half", 4, 6, HALF4, 0, 6},
    {"even, above plus half", 4, 6, HALF4 + 1, 0, 7},
    {"slot 0, minus half", 2, 0, -HALF2, 0, 0},
    {"slot 0, below minus half", 2, 0, -HALF2 - 1, 0, 3},
    {"slot 0, plus half", 2, 0, HALF2, 0, 0},
    {"the last slot, minus half", 2, 3, -HALF2, 0, 2},
    {"the last slot, plus half", 2, 3, HALF2, 0, 0},
    {"the last slot of 32", 16, 31, HALF16 - 1, 0, 31},
    {"the last slot of 32, plus half", 16, 31, HALF16, 0, 0},
    {"the least error", 8, 3, INT32_MIN, 0, 11},
    {"the greatest error", 8, 3, INT32_MAX, 0, 11},
    {"36, P = 0", 0, 0, 0, 36, 0},
    {"36, P = 32", 32, 0, 0, 36, 0},
    {"36 before 37", 3, -1, 0, 36, 0},
    {"36, the greatest P", SIZE_MAX, 0, 0, 36, 0},
    {"37, below 0", 4, -1, 0, 37, 0},
    {"37, above 2P - 1", 4, 8, 0, 37, 0},
    {"37, the least value", 16, INT32_MIN, 0, 37, 0},
    {"37, the greatest value", 16, INT32_MAX, 0, 37, 0},
};

static void check_slots(void) {
    for (size_t i = 0; i < sizeof phases / sizeof *phases; i++) {
        fbs_slot r = fbs_find_slot(phases[i].p, phases[i].value, phases[i].error);
        expect(phases[i].what, r.number == phases[i].number && r.line == 0 && r.slot == phases[i].slot);
    }
}

/* What is mapped is admitted and runs as its circuit does. */
static void check_together(void) {
    for (size_t i = 0; i < 3; i++) {
        const char *text = mapped[i].text;
        size_t inputs = i < 2 ? 2 : 1;
        uint8_t *network = fresh();
        fbs_reply r = fbs_map(bytes(text), strlen(text), network, FBS_ANSWER_BYTES);
        expect("mapped is admitted", fbs_admit(network, r.count).number == 0);
        for (int v = 0; v < 1 << inputs; v++) {
            uint8_t bits[2] = {(uint8_t)(v & 1), (uint8_t)(v >> 1)}, bit = 9;
            int64_t value = 9;
            fbs_reply c = fbs_run_circuit(bytes(text), strlen(text), bits, inputs, &bit, 1);
            fbs_reply n = fbs_run_network(network, r.count, bits, inputs, &value, 1);
            expect("mapped agrees", c.number == 0 && n.number == 0 && (int64_t)bit == value);
        }
    }
}

/* ---- Two threads at once, on the least stack that the header names. */

typedef struct {
    int turns, wrong;
    uint8_t state[FBS_STATE_BYTES];
} Job;

static void *job(void *given) {
    Job *j = (Job *)given;
    static const int32_t values[3] = {0, 3, 5};
    static const uint8_t truths[3] = {0, 1, 0}, bits[3] = {1, 1, 0};
    for (int k = 0; k < j->turns; k++) {
        for (size_t i = 0; i < sizeof mapped / sizeof *mapped; i++) {
            uint8_t out[256];
            fbs_reply r = fbs_map(bytes(mapped[i].text), strlen(mapped[i].text), out, sizeof out);
            j->wrong += r.number != mapped[i].number || r.line != mapped[i].line;
            j->wrong += mapped[i].network && (r.count != strlen(mapped[i].network) || memcmp(out, mapped[i].network, r.count) != 0);
        }
        for (size_t i = 0; i < sizeof judged / sizeof *judged; i++) {
            fbs_admission r = fbs_admit(bytes(judged[i].text), strlen(judged[i].text));
            j->wrong += memcmp(&r, &judged[i].reply, sizeof r) != 0;
        }
        uint8_t table[6], bit[1], other[256];
        int64_t seen[WANTED];
        fbs_table t = fbs_build_table(3, 6, values, 3, truths, 3, table, 6);
        j->wrong += t.number != 0 || t.count != 6 || t.centre != 1 || !is_table(table, "001110");
        fbs_reply r = fbs_run_network(bytes(various), strlen(various), bits, 3, seen, WANTED);
        j->wrong += r.number != 0 || seen[0] != 1 || seen[1] != 0 || seen[5] != 1;
        r = fbs_run_circuit(bytes(mapped[0].text), strlen(mapped[0].text), bits, 2, bit, 1);
        j->wrong += r.number != 0 || bit[0] != 1;
        r = fbs_convert(bytes(apart), strlen(apart), other, sizeof other);
        j->wrong += r.number != 0 || r.count != strlen(edition2) || memcmp(other, edition2, r.count) != 0;
        fbs_sum sum = fbs_sum_reading(bytes(summed), strlen(summed), 3, 3);
        j->wrong += sum.number != 0 || sum.count != 3 || sum.bits[2] != 1;
        fbs_slot slot = fbs_find_slot(4, 5, -HALF4);
        j->wrong += slot.number != 0 || slot.slot != 4;
        fbs_retuned again = fbs_retune(bytes(retuned[k & 1].text), strlen(retuned[k & 1].text), 5, j->state, FBS_STATE_BYTES, other, sizeof other);
        j->wrong += again.number != 0 || again.begun != (k == 0 ? 2 : 1);
    }
    return NULL;
}

static void check_threads(void) {
    pthread_t threads[2];
    pthread_attr_t small;
    static Job jobs[2];
    jobs[0].turns = jobs[1].turns = 200;
    pthread_attr_init(&small);
    expect("a small stack", pthread_attr_setstacksize(&small, FBS_STACK_BYTES) == 0);
    for (int i = 0; i < 2; i++) expect("a thread", pthread_create(&threads[i], &small, job, &jobs[i]) == 0);
    for (int i = 0; i < 2; i++) pthread_join(threads[i], NULL);
    expect("the first thread's answers", jobs[0].wrong == 0);
    expect("the second thread's answers", jobs[1].wrong == 0);
}

int main(void) {
    check_mapper();
    check_answer_buffer();
    check_retunes();
    check_altered();
    check_admission();
    check_editions();
    check_builder();
    check_circuit_run();
    check_network_run();
    check_sums();
    check_counts();
    check_trials();
    check_slots();
    check_together();
    check_threads();
    expect("words for every number", strcmp(fbs_phrase(25), "a sum's norm is over the limit") == 0 && strcmp(fbs_phrase(12), fbs_phrase(99)) == 0);
    if (failures) printf("%d of %d checks failed\n", failures, checks);
    else printf("%d checks passed\n", checks);
    return failures != 0;
}
