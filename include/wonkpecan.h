/* Wonkpecan for C and C++: the mapper, one gate retuned, the admission check, the table builder, the two runs, the reading of a sum, the
 * counts of grades, a run with workers and the slot of a phase.
 *
 *     (cd crates/exports && rt lib)                                proves it and writes crates/exports/out/libexports.a
 *     cc -Iinclude evaluator.c crates/exports/out/libexports.a     x86-64 Linux; asks the C library for memcpy and memset
 *
 * The texts are document 01's: bytes, of any content and length, no closing 0. docs/EVALUATOR.md explains the numbers.
 *
 * Promised, and proved for every input: each call returns, and the reply and every place of the buffer are the definition's
 * (crates/rules/specs; of fbs_retune, unless somebody altered the bytes of a state). A refusal keeps the whole buffer; an answer keeps what
 * is behind it. Only the reply and the buffer are written, and fbs_retune's `state`. There is no other state between calls, so any number of
 * threads may call at once, each with a `state` of its own.
 * Not promised: anything about noise or about the ciphertext library that runs an admitted network; time; stack (a call takes
 * less than FBS_STACK_BYTES, which is measured and not proved); the compiler behind the proof.
 *
 * The caller sees to it that a pointer leads to as many places as the length beside it says, for the whole call, that nothing
 * else writes there meanwhile, and that `out`, `state` or `values` shares no place with another argument. With length 0 a pointer may
 * be NULL: nothing is read or written through it, an empty text is refused by its number and an empty buffer is a short one. */
#ifndef WONKPECAN_H
#define WONKPECAN_H

#include <stddef.h>
#include <stdint.h>

#ifdef __cplusplus
extern "C" {
#endif

/* Lengths that always suffice, and the stack that a call stays below. */
enum {
    FBS_ANSWER_BYTES = 65536, /* fbs_map's `out`: 11 never comes */
    FBS_TABLE_BITS = 32,      /* fbs_build_table's `out`: 34 never comes */
    FBS_INPUTS = 32,          /* bits of a run: no text has more inputs */
    FBS_OUTPUTS = 32,         /* `values` of a run: 101 never comes */
    FBS_TERMS = 11,           /* places for the bits of a sum: no `lin` has more terms */
    FBS_BOOTS = 671,          /* places for the ticks of a run with workers: no network has more boots */
    FBS_STATE_BYTES = 34704,  /* fbs_retune's `state`: what it keeps; in fewer bytes it keeps nothing */
    FBS_VALUES = 342,         /* places for the counts of a sum's values: no `lin` has more from its least to its greatest */
    FBS_STACK_BYTES = 262144
};

/* What a reply's `number` says, with document 01's example; fbs_phrase has the words. */
enum fbs_number {
    FBS_OK = 0,
    /* a circuit's text: fbs_map, fbs_retune, fbs_run_circuit (2 from fbs_build_table too) */
    FBS_NO_FORM = 1,          /* (gate g 02 (n 0)) */
    FBS_BAD_SETTINGS = 2,     /* (fbs 4 9 8 none span one) */
    FBS_TOO_MANY = 3,         /* a 33rd `in` */
    FBS_OUT_OF_ORDER = 4,     /* empty text, line 1 */
    FBS_NAME_REPEATED = 5,    /* (in a) twice */
    FBS_NO_EARLIER_NODE = 6,  /* (gate g 10 (n 0)) as line 2 */
    FBS_WIRES_OR_BITS = 7,    /* (gate g 10 (n 0) (n 1)) */
    /* mapping it: fbs_map, fbs_retune; 11 from fbs_convert too */
    FBS_NORM_LIMIT = 8,       /* limit 0, a NOT */
    FBS_NO_COMPOSITION = 9,   /* P = M = 2, AND */
    FBS_SHORT_ANSWER = 11,    /* buffer of 0 bytes */
    /* a network's text: fbs_admit, fbs_convert, fbs_sum_reading, fbs_ones, fbs_value_counts, fbs_trial; fbs_run_network has 21 and 22 alone */
    FBS_NET_TEXT = 21,        /* (lin 0 (0 0)); empty text, line 1 */
    FBS_NET_NODE = 22,        /* (boot 9 01) as line 3 */
    FBS_NET_BOUNDS = 23,      /* (boot 0 001) on an input */
    FBS_NET_TABLE = 24,       /* P = 2, table 0001 */
    FBS_NET_NORM = 25,        /* limit 1, (lin 0 (1 0) (1 1)) */
    FBS_NET_OUTPUT = 26,      /* an output of (lin 0 (1 0) (1 1)) */
    /* rows for a table: fbs_build_table */
    FBS_BAD_ROWS = 30,        /* no rows */
    FBS_SPAN_OVER_M = 31,     /* M = 3, values 0 and 3 */
    FBS_BAD_TRUTHS = 32,      /* value 0 with 0 and 1 */
    FBS_NO_COMPLETION = 33,   /* P = 2, values 0..3, truths 0001 */
    FBS_SHORT_TABLE = 34,     /* buffer of 0 bytes */
    /* a chosen node: fbs_sum_reading, fbs_value_counts */
    FBS_NO_SUM = 35,          /* node 0, an input */
    /* a value on the 32-bit circle: fbs_find_slot */
    FBS_BAD_PERIOD = 36,      /* P = 32 */
    FBS_BAD_VALUE = 37,       /* P = 4, value 8 */
    /* edition 2 of the network's text: fbs_admit, fbs_convert */
    FBS_OTHER_CENTRE = 38,    /* (many 0 (10 1)) on an input */
    FBS_MANY_AGAIN = 39,      /* (many 0 (10 0)) twice */
    /* counts over all assignments: fbs_ones, fbs_value_counts */
    FBS_MANY_INPUTS = 40,     /* 21 inputs */
    /* a run with workers: fbs_trial */
    FBS_BAD_TRIAL = 41,       /* 33 workers */
    /* a run of either kind; document 01 has no number for these */
    FBS_NOT_BITS = 100,       /* two inputs, one bit; a bit that is 2 */
    FBS_SHORT_VALUES = 101,   /* one output, buffer of 0 values */
    FBS_BROKEN_OFF = 102,     /* fbs_run_network: (boot 2 01) where node 2 is 2. Never of an admitted network */
    /* a wanted sum; document 02 has no number for it */
    FBS_NONE_GIVES = 103      /* (lin 0 (2 0)), value 1 */
};

/* Accepted: number 0, line 0, and how many places of the buffer were written. Refused: number, line from 1, count 0.
 * Line 0: the refusal belongs to no line (11, 30 to 37, 40, 41, 100 to 103, the builder's 2, and 8 from Basic's last check). */
typedef struct fbs_reply {
    size_t number;
    size_t line;
    size_t count;
} fbs_reply;

/* Accepted: number 0, line 0, and how many bytes were written. Refused: number, line from 1 or 0, count 0. Either way how many gates' mapping
 * the call began, one that was refused among them. */
typedef struct fbs_retuned {
    size_t number;
    size_t line;
    size_t count;
    size_t begun;
} fbs_retuned;

/* Built: number 0, how many bits were written, and the table's centre, the constant c that an evaluator adds after the rotation: 0 for a
 * table of at most P bits, else the sum, 0 to 2, that every pair of bits P apart has. Refused: the number, count 0 and centre 0. The line is 0. */
typedef struct fbs_table {
    size_t number;
    size_t line;
    size_t count;
    size_t centre;
} fbs_table;

/* Admitted: number 0, line 0 and the statistics. Refused: number, line, and 0 in each place of the statistics. */
typedef struct fbs_admission {
    size_t number;
    size_t line;
    size_t inputs;
    size_t sums;
    size_t boots;
    size_t sources; /* different nodes that boots stand on: the rotations of an evaluator that rotates a sum once for all its tables */
    size_t longest; /* bits of the longest table */
    size_t norm;    /* the largest squared norm of a node, by the weights of the inputs; an input counts its weight */
    size_t outputs;
    size_t depth;   /* the largest of a node: how many boots lie one behind another; nodes that no output needs count too */
    size_t centre0; /* tables of centre 0: of at most P bits, or whose pairs (i, i + P) have the sum 0 */
    size_t centre1; /* of centre 1 */
    size_t centre2; /* of centre 2; the three add up to boots */
} fbs_admission;

/* Found: number 0, line 0, how many terms the `lin` has, and a bit for each in their order. Else: number, line and count 0. Each place
 * of `bits` that is none of theirs is 0. */
typedef struct fbs_sum {
    size_t number;
    size_t line;
    size_t count;
    uint8_t bits[FBS_TERMS];
} fbs_sum;

/* Counted: number 0, line 0, how many values there are from the least sum to the greatest, and the least. Else: number, line, count 0
 * and least 0. */
typedef struct fbs_values {
    size_t number;
    size_t line;
    size_t count;
    int32_t least;
} fbs_values;

/* Simulated: number 0, line 0, how many boots there are and the length of the run in ticks, 0 if there are none. Else: number, line, and 0
 * for both. */
typedef struct fbs_run {
    size_t number;
    size_t line;
    size_t count;
    size_t ticks;
} fbs_run;

/* Found: number 0 and the slot, 0 to 2P - 1. Else: the number, and slot 0. The line is 0. */
typedef struct fbs_slot {
    size_t number;
    size_t line;
    size_t slot;
} fbs_slot;

/* A circuit's text mapped to a network's, written over the front of `out`. fbs_admit answers 0 to the bytes written, and on
 * all bits the network's outputs are the circuit's. Inputs that nothing needs are gone, so take bits by name. */
fbs_reply fbs_map(const uint8_t *text, size_t text_length, uint8_t *out, size_t out_length);

/* A circuit's text mapped as by fbs_map, for who edits one gate and maps again: `line` is the line of the chosen gate, from 1. What the
 * gates before it gave is kept in the first FBS_STATE_BYTES bytes of `state`, later bytes stay. Where that stands there already, for the same
 * settings, inputs with their weights, BITS and wires of the gates before, and outputs, none of those gates is mapped again, and no byte of
 * `state` changes. The answer is fbs_map's to the whole text. Begin with zeros, and let nobody else write there. The bytes stay where the text
 * is refused by 1 to 7, or by 8 or 9 at an earlier gate, where the line is no gate's, or the buffer is too short: then all is mapped. If somebody
 * altered bytes of a state, the answer may be another circuit's; still the call returns, and what it writes is admitted. */
fbs_retuned fbs_retune(const uint8_t *text, size_t text_length, size_t line, uint8_t *state, size_t state_length, uint8_t *out,
                       size_t out_length);

/* A network's text of either edition judged: 0 only if on all bits no sum leaves its table, a rotation gives every table, every output is 0 or 1
 * and no sum's norm is over NORM. */
fbs_admission fbs_admit(const uint8_t *text, size_t text_length);

/* A network's text in the other edition, written over the front of `out`: a text that begins (net2 is edition 2, every other is plain.
 * To edition 2 the tables of a node stand together where the first stood and nodes are numbered anew; back, each is a `boot` in its
 * place. On all bits the outputs stay, fbs_admit's answer too. It refuses what fbs_admit refuses, then 11. Every other function on
 * networks refuses edition 2 with 21 at line 1. */
fbs_reply fbs_convert(const uint8_t *text, size_t text_length, uint8_t *out, size_t out_length);

/* A bootstrap table for rows, a value and a truth each, the two lists of one length. Each bit is written as a byte 0 or 1, the
 * least value's first. The reply names the table's centre. */
fbs_table fbs_build_table(size_t p, size_t m, const int32_t *values, size_t values_length, const uint8_t *truths,
                          size_t truths_length, uint8_t *out, size_t out_length);

/* A text run on plain bits, a byte 0 or 1 for each input in the text's order; one value an output, in the text's order. A
 * circuit's values are bits. A network's are whole numbers, and bits if it is admitted. The runs do not ask for admission. */
fbs_reply fbs_run_circuit(const uint8_t *text, size_t text_length, const uint8_t *bits, size_t bits_length, uint8_t *values,
                          size_t values_length);
fbs_reply fbs_run_network(const uint8_t *text, size_t text_length, const uint8_t *bits, size_t bits_length, int64_t *values,
                          size_t values_length);

/* A network's text, a `lin` node of it (its number, from 0 over `in`, `lin` and `boot` lines) and a wanted value: the first bits for the
 * nodes that it adds with which its sum, CONST counted in, is the value; the first term's bit counts highest. 21 to 26 as fbs_admit,
 * then 35; 103 only if no bits give the value. The least and the greatest sum are always found. */
fbs_sum fbs_sum_reading(const uint8_t *text, size_t text_length, size_t node, int32_t value);

/* A network's text of at most 20 inputs: for each output in turn, at how many assignments of the network's own inputs it is 1, in the first
 * of FBS_OUTPUTS places; the later ones are kept, and all where it is refused. Doubled once for each input of a circuit that mapping dropped,
 * the numbers are those over the circuit's inputs. 21 to 26 as fbs_admit, then 40. */
fbs_reply fbs_ones(const uint8_t *text, size_t text_length, uint32_t *counts);

/* A network's text and a `lin` node of it: how many assignments of its terms give each value from its least sum to its greatest, in turn, in
 * the first of FBS_VALUES places; the later ones are kept, and all where it is refused. The numbers add up to 2 to the number of terms. 21 to
 * 26 as fbs_admit, then 40, then 35. */
fbs_values fbs_value_counts(const uint8_t *text, size_t text_length, size_t node, uint32_t *counts);

/* A network's text run with `workers` workers, 1 to 32, each bootstrap lasting `ticks` ticks, 1 to 1,000: at each tick free workers take the
 * ready boots of lowest number; a boot is ready when all boots that its node is or needs are finished. The start tick of each boot, in the
 * order of their numbers, in the first of FBS_BOOTS places; the later ones are kept, and all where it is refused. 21 to 26 as fbs_admit,
 * then 41. More workers may take longer. */
fbs_run fbs_trial(const uint8_t *text, size_t text_length, size_t workers, size_t ticks, uint32_t *starts);

/* Trial mode: where a value with an error is found on a circle of 2^32. For P of 2, 4, 8 or 16 the step is 2^31 / P, value v stands at
 * v steps, the error is added, phases wrap at 2^32, and the nearest slot of 2P is answered, exactly between two the even one (between
 * 2P - 1 and 0 it is 0). It is v exactly for errors from minus half a step to plus half, inclusive for an even v, strictly inside for an
 * odd one. 36 for another P, then 37 for a value below 0 or above 2P - 1. */
fbs_slot fbs_find_slot(size_t p, int32_t value, int32_t error);

/* The number in words. */
static inline const char *fbs_phrase(size_t number) {
    switch (number) {
    case FBS_OK: return "accepted";
    case FBS_NO_FORM: return "the line is not one of the forms";
    case FBS_BAD_SETTINGS: return "P, M or T is outside its limits";
    case FBS_TOO_MANY: return "too many lines of a kind";
    case FBS_OUT_OF_ORDER: return "a form is missing or out of order";
    case FBS_NAME_REPEATED: return "an input's name is repeated";
    case FBS_NO_EARLIER_NODE: return "a wire goes to no earlier node";
    case FBS_WIRES_OR_BITS: return "a gate has not 1 or 2 wires, or not 2 or 4 bits to match";
    case FBS_NORM_LIMIT: return "a unary gate or Basic's network is over the norm limit";
    case FBS_NO_COMPOSITION: return "a gate has no composition, even with both sides bootstrapped";
    case FBS_SHORT_ANSWER: return "the answer buffer is too short for the network";
    case FBS_NET_TEXT: return "the network text breaks a form, order, count, setting or unique name";
    case FBS_NET_NODE: return "a line names no earlier node, or a sum stands on a sum";
    case FBS_NET_BOUNDS: return "the values that a table meets are not its places, or it is longer than M";
    case FBS_NET_TABLE: return "no rotation gives the table";
    case FBS_NET_NORM: return "a sum's norm is over the limit";
    case FBS_NET_OUTPUT: return "an output is a sum that can be other than 0 and 1";
    case FBS_BAD_ROWS: return "values and truths differ in length, or there are none";
    case FBS_SPAN_OVER_M: return "the values span more than M places";
    case FBS_BAD_TRUTHS: return "a truth is not a bit, or one value has two truths";
    case FBS_NO_COMPLETION: return "no table that a rotation gives has these truths";
    case FBS_SHORT_TABLE: return "the answer buffer is too short for the table";
    case FBS_NO_SUM: return "the chosen node is not a sum";
    case FBS_BAD_PERIOD: return "P is not 2, 4, 8 or 16";
    case FBS_BAD_VALUE: return "the value is below 0 or above 2P - 1";
    case FBS_OTHER_CENTRE: return "a table's centre is another";
    case FBS_MANY_AGAIN: return "the node has a many line already";
    case FBS_MANY_INPUTS: return "the network has more than 20 inputs";
    case FBS_BAD_TRIAL: return "workers or ticks are outside their limits";
    case FBS_NOT_BITS: return "not one bit for each input";
    case FBS_SHORT_VALUES: return "fewer places than outputs";
    case FBS_BROKEN_OFF: return "a bootstrap broke off";
    case FBS_NONE_GIVES: return "no bits give the value";
    }
    return "not a number of this library";
}

#ifdef __cplusplus
}
#endif

#endif
