/* How much stack the check, a run and a fair run use: each is called on a stack of its own, filled with a pattern, and the lowest byte
 * that it wrote counts. It ends with 1 when a run takes more stack because it compares long bodies (order 3 of document 02), or
 * doesn't come to compare them.
 * Built and run in the repository's root after `tests/make capi`, in less than a second:
 *     tests/x86 build target/stack tests/stack.c && tests/x86 run target/stack */
#include "flagcopper.h"
#include <stdio.h>
#include <stdlib.h>

enum { PATTERN = 0xA5, STACK = 1 << 20, NODES = 2048 };

static _Alignas(16) unsigned char stack[STACK];
static uint8_t script[10 + 8 * NODES];
static size_t script_bytes;
static unsigned nodes;
static uint64_t workspace[FLAGCOPPER_SIZE];
static flagcopper_checked checked;
static flagcopper_told told;
static int comparing_shows; /* a run took more stack because it compares, or it doesn't compare */

static void put(size_t at, unsigned word) {
    script[at] = (uint8_t)(word & 255);
    script[at + 1] = (uint8_t)(word >> 8);
}

/* Tags of document 01. */
enum {
    INTEGER = 2,
    DIFFERENCE = 3,
    NULL_VALUE = 4,
    REFERENCE = 5,
    SELECTION = 6,
    PROC = 7,
    EQUAL = 18,
    VAR = 32,
    CALL = 33,
    ASSIGN = 35,
    SKIP = 37,
    SEQUENCE = 38,
    WHILE = 39,
    IF = 40,
    PARALLEL = 41
};

/* Every script has these two names. */
enum { Y = 0, Z = 1, NAMES = 2 };

/* Adds a node, children first, and answers its number. */
static unsigned node(unsigned tag, unsigned a, unsigned b, unsigned c) {
    const unsigned words[4] = {tag, a, b, c};
    for (size_t i = 0; i < 4; i++) {
        put(10 + 8 * nodes + 2 * i, words[i]);
    }
    return nodes++;
}

static void begin(void) { nodes = 0; }

/* The contents of a script without fields; the last node is the root. */
static void end(void) {
    const unsigned contents[5] = {10, 0, 10, nodes, NAMES};
    for (size_t i = 0; i < 5; i++) {
        put(2 * i, contents[i]);
    }
    script_bytes = 10 + 8 * nodes;
}

/* `skip` inside so many declarations: the deepest command of its nodes. */
static unsigned declarations(unsigned depth) {
    unsigned inner = node(SKIP, 0, 0, 0);
    while (depth-- > 0) {
        inner = node(VAR, Y, inner, 0);
    }
    return inner;
}

/* Pairs of one tag, one in the left or in the right part of the next, with the same leaf at every end. */
static unsigned nested(unsigned tag, unsigned leaf, int left, unsigned depth) {
    unsigned inner = node(leaf, 0, 0, 0);
    while (depth-- > 0) {
        unsigned other = node(leaf, 0, 0, 0);
        inner = left ? node(tag, inner, other, 0) : node(tag, other, inner, 0);
    }
    return inner;
}

/* A command of so many nodes, at least one. */
typedef unsigned command(unsigned size);

/* Sequences, each the left part of the next; a declaration makes up for an even size. */
static unsigned left_in_left(unsigned size) {
    unsigned all = nested(SEQUENCE, SKIP, 1, (size - 1) / 2);
    return size % 2 == 0 ? node(VAR, Y, all, 0) : all;
}

static unsigned right_in_right(unsigned size) {
    unsigned all = nested(SEQUENCE, SKIP, 0, (size - 1) / 2);
    return size % 2 == 0 ? node(VAR, Y, all, 0) : all;
}

/* Sequences of two halves. */
static unsigned balanced(unsigned size) {
    if (size < 3) {
        return declarations(size - 1);
    }
    unsigned half = (size - 1) / 2;
    unsigned left = balanced(half), right = balanced(size - 1 - half);
    return node(SEQUENCE, left, right, 0);
}

static unsigned one_in_another(unsigned size) { return declarations(size - 1); }

static void check(void) { checked = flagcopper_check(script, script_bytes, FLAGCOPPER_SIZE); }

static const uint8_t choices[2] = {0, 0};

static void run(void) { told = flagcopper_run(script, script_bytes, choices, 2, workspace, FLAGCOPPER_SIZE); }

static void fair(void) {
    static uint8_t picks[sizeof choices];
    told = flagcopper_fair(script, script_bytes, picks, sizeof picks, workspace, FLAGCOPPER_SIZE).told;
}

/* The run without choices: it checks and takes no step. */
static void start(void) { told = flagcopper_run(script, script_bytes, choices, 0, workspace, FLAGCOPPER_SIZE); }

static void nothing(void) {}

/* Calls it with the stack pointer at the other stack's end; rbx, which every function keeps, has this one's meanwhile. */
static void on_own_stack(void (*call)(void)) {
    __asm__ volatile("movq %%rsp, %%rbx\n\tmovq %0, %%rsp\n\tcall *%1\n\tmovq %%rbx, %%rsp"
                     :
                     : "r"(stack + STACK), "r"(call)
                     : "rax", "rbx", "rcx", "rdx", "rsi", "rdi", "r8", "r9", "r10", "r11", "xmm0", "xmm1", "xmm2", "xmm3",
                       "xmm4", "xmm5", "xmm6", "xmm7", "xmm8", "xmm9", "xmm10", "xmm11", "xmm12", "xmm13", "xmm14",
                       "xmm15", "memory", "cc");
}

static size_t used_by(void (*call)(void)) {
    call(); /* at the first call of all, functions of other libraries are looked up, which takes stack of its own */
    for (size_t at = 0; at < STACK; at++) {
        stack[at] = PATTERN;
    }
    on_own_stack(call);
    size_t lowest = 0;
    while (lowest < STACK && stack[lowest] == PATTERN) {
        lowest++;
    }
    return STACK - lowest;
}

static void report_check(void) {
    size_t used = used_by(check);
    printf("the check of %u nodes: %zu bytes, verdict %u number %u\n", nodes, used, (unsigned)checked.verdict,
           (unsigned)checked.number);
}

static void report_run(const char *what) {
    size_t fairly = used_by(fair), used = used_by(run);
    printf("the run of %s, %u nodes: %zu bytes, by fair turns %zu, refusal %u end %u number %u steps %zu\n", what, nodes, used,
           fairly, (unsigned)told.refusal, (unsigned)told.end, (unsigned)told.number, told.steps);
}

/* A name's cell is assigned an expression of pairs. */
static void run_of_expression(const char *what, unsigned tag, unsigned leaf, int left) {
    begin();
    unsigned value = nested(tag, leaf, left, (NODES - 3) / 2);
    node(VAR, Y, node(ASSIGN, Y, value, 0), 0);
    end();
    report_run(what);
}

/* A run that compares, beside its check alone and the run that only checks: what a step takes must fit in what the check had. */
static void report_comparison(const char *shape, const char *what, unsigned of) {
    size_t check_used = used_by(check), start_used = used_by(start), used = used_by(run);
    printf("the run of %s of %u nodes, %s, %u nodes: %zu bytes, the check %zu, without a step %zu; end %u steps %zu%s\n",
           what, of, shape, nodes, used, check_used, start_used, (unsigned)told.end, told.steps,
           used > start_used ? ": MORE THAN ITS CHECK" : "");
    comparing_shows |= used > start_used || told.refusal != 0 || told.steps != 2;
}

/* Two procedures with the same body are compared, in the first step: if proc y: BODY == proc y: BODY skip else skip */
static void run_of_comparison(const char *shape, command *body, unsigned size) {
    begin();
    unsigned one = node(PROC, Y, body(size), 0);
    unsigned two = node(PROC, Y, body(size), 0);
    unsigned test = node(EQUAL, one, two, 0);
    unsigned yes = node(SKIP, 0, 0, 0), no = node(SKIP, 0, 0, 0);
    node(IF, test, yes, no);
    end();
    report_comparison(shape, "two equal bodies", size);
}

/* A procedure is compared with itself, in the second step: (proc y: while y == y skip)(proc z: BODY) */
static void run_of_itself(const char *shape, command *body, unsigned size) {
    begin();
    unsigned left = node(REFERENCE, Y, 0, 0), right = node(REFERENCE, Y, 0, 0);
    unsigned test = node(EQUAL, left, right, 0);
    unsigned loop = node(WHILE, test, node(SKIP, 0, 0, 0), 0);
    unsigned called = node(PROC, Y, loop, 0);
    unsigned given = node(PROC, Z, body(size), 0);
    node(CALL, called, given, 0);
    end();
    report_comparison(shape, "a body and itself", size);
}

static void runs_of_comparisons(const char *shape, command *body) {
    run_of_comparison(shape, body, 120); /* a script of under 256 nodes */
    run_of_comparison(shape, body, 1000);
    run_of_comparison(shape, body, (NODES - 6) / 2); /* the most that fit beside the other six nodes */
    run_of_itself(shape, body, NODES - 8);
}

static void run_of_sequences(unsigned depth) {
    begin();
    nested(SEQUENCE, SKIP, 1, depth);
    end();
    report_run("sequences, left in left");
}

/* Opening loops down sequences, but below a parallel it recurs: as many of them as fit beside another command. */
static void run_of_parallel(void) {
    begin();
    unsigned deep = nested(SEQUENCE, SKIP, 1, 252);
    node(PARALLEL, deep, node(SKIP, 0, 0, 0), 0);
    end();
    report_run("sequences in a parallel");
}

int main(void) {
    printf("a function that does nothing: %zu bytes\n", used_by(nothing));
    begin();
    script_bytes = 0;
    report_check();
    for (unsigned depth = 0; depth < NODES; depth += NODES - 1) {
        begin();
        declarations(depth);
        end();
        report_check();
    }
    run_of_expression("differences, left in left", DIFFERENCE, INTEGER, 1);
    run_of_expression("differences, right in right", DIFFERENCE, INTEGER, 0);
    run_of_expression("selections, left in left", SELECTION, NULL_VALUE, 1);
    run_of_expression("selections, right in right", SELECTION, NULL_VALUE, 0);
    runs_of_comparisons("declarations", one_in_another);
    runs_of_comparisons("sequences, left in left", left_in_left);
    runs_of_comparisons("sequences, right in right", right_in_right);
    runs_of_comparisons("sequences of halves", balanced);
    run_of_sequences(254); /* as many as fit */
    run_of_sequences((NODES - 1) / 2);
    run_of_parallel();
    return comparing_shows ? EXIT_FAILURE : EXIT_SUCCESS;
}
