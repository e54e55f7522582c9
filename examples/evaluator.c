/* An evaluator's gate: each network named on the command line is admitted or turned away with words, and an admitted one is run
 * on plain bits, where a real evaluator would run it on ciphertexts. From the top of the repository:
 *
 *     (cd crates/exports && rt lib)
 *     cc -Iinclude -o target/evaluator examples/evaluator.c crates/exports/out/libexports.a
 *     target/evaluator examples/and.net examples/tight.net examples/adder.net
 *
 * It prints examples/evaluator.out:
 *
 *     examples/and.net: admitted
 *       inputs 2, sums 1, boots 1 on 1 nodes, longest table 3, largest norm 2, outputs 1, depth 1, centres 1 0 0
 *       00 -> 0
 *       01 -> 0
 *       10 -> 0
 *       11 -> 1
 *     examples/tight.net: turned away with 25 at line 4: a sum's norm is over the limit
 *     examples/adder.net: admitted
 *       inputs 3, sums 1, boots 2 on 1 nodes, longest table 4, largest norm 3, outputs 2, depth 1, centres 2 0 0
 *       000 -> 00
 *       001 -> 01
 *       ..
 */
#include <stdio.h>

#include "wonkpecan.h"

/* A network with room for the longest that the mapper writes. */
typedef struct {
    uint8_t bytes[FBS_ANSWER_BYTES];
    size_t length;
} Text;

static int read_text(const char *name, Text *text) {
    FILE *file = fopen(name, "rb");
    if (file == NULL) return 0;
    text->length = fread(text->bytes, 1, sizeof text->bytes, file);
    int whole = fgetc(file) == EOF && !ferror(file);
    fclose(file);
    return whole;
}

/* One run: the assignment's bits, the first input the highest, and what the outputs are. */
static int run(const Text *text, size_t inputs, unsigned assignment) {
    uint8_t bits[FBS_INPUTS];
    int64_t values[FBS_OUTPUTS];
    for (size_t i = 0; i < inputs; i++) bits[i] = assignment >> (inputs - 1 - i) & 1;
    fbs_reply reply = fbs_run_network(text->bytes, text->length, bits, inputs, values, FBS_OUTPUTS);
    if (reply.number != FBS_OK) return 0;
    printf("  ");
    for (size_t i = 0; i < inputs; i++) printf("%d", bits[i]);
    printf(" -> ");
    for (size_t i = 0; i < reply.count; i++) printf("%d", (int)values[i]);
    printf("\n");
    return 1;
}

/* Whether the network was admitted and ran. Nothing of a text that is not admitted may reach the ciphertexts. */
static int evaluate(const char *name, const Text *text) {
    fbs_admission a = fbs_admit(text->bytes, text->length);
    if (a.number != FBS_OK) {
        printf("%s: turned away with %zu at line %zu: %s\n", name, a.number, a.line, fbs_phrase(a.number));
        return 0;
    }
    printf("%s: admitted\n", name);
    printf("  inputs %zu, sums %zu, boots %zu on %zu nodes, longest table %zu, largest norm %zu, outputs %zu, depth %zu, "
           "centres %zu %zu %zu\n",
           a.inputs, a.sums, a.boots, a.sources, a.longest, a.norm, a.outputs, a.depth, a.centre0, a.centre1, a.centre2);
    unsigned assignments = a.inputs < 4 ? 1u << a.inputs : 16;
    for (unsigned k = 0; k < assignments; k++)
        if (!run(text, a.inputs, k)) return 0;
    return 1;
}

int main(int count, char **names) {
    static Text text;
    for (int i = 1; i < count; i++) {
        if (read_text(names[i], &text)) evaluate(names[i], &text);
        else printf("%s: cannot be read, or is over %d bytes\n", names[i], FBS_ANSWER_BYTES);
    }
    return 0;
}
