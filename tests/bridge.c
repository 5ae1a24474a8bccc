/* The library's functions for callers that aren't x86-64 programs: reads calls from standard input and answers each on standard
 * output, until the input ends. The other side is src/library/bridged.rs.
 *
 * A call is a struct of words and then two things that are given and two that are lent, each of as many bytes as the struct says:
 * script, choices, workspace and rows, or script, nothing, workspace and picks, or text, list, words and output, or image, list, nothing
 * and output. The answer is seven words, then the two that were lent, whole, so that what the library must not touch is seen too. */
#include "flagcopper.h"
#include <stdio.h>
#include <stdlib.h>

enum { SIZE = 1, CHECK = 2, RUN = 3, TRACE = 4, READ_WORDS = 5, READ = 6, WRITE = 7, FAIR = 8 };

enum { WORDS = 7 };

/* Memory with so many bytes of the input: not null, not even for none. */
static void *lent(size_t bytes) {
    void *memory = malloc(bytes + 1);
    if (memory == NULL || fread(memory, 1, bytes, stdin) != bytes) {
        exit(EXIT_FAILURE);
    }
    return memory;
}

static void give(const void *memory, size_t bytes) {
    if (fwrite(memory, 1, bytes, stdout) != bytes) {
        exit(EXIT_FAILURE);
    }
}

static void give_told(flagcopper_told told, size_t picked) {
    const uint64_t answer[WORDS] = {told.refusal, told.place, told.end, told.number, told.node, told.steps, picked};
    give(answer, sizeof answer);
}

int main(void) {
    struct {
        uint64_t function, number, first_given, second_given, first_lent, second_lent;
    } call;
    while (fread(&call, sizeof call, 1, stdin) == 1) {
        uint8_t *script = lent(call.first_given), *choices = lent(call.second_given);
        void *workspace = lent(call.first_lent), *rows = lent(call.second_lent);
        size_t words = call.first_lent / sizeof(uint64_t);
        if (call.function == SIZE) {
            const uint64_t answer[WORDS] = {flagcopper_size()};
            give(answer, sizeof answer);
        } else if (call.function == CHECK) {
            flagcopper_checked checked = flagcopper_check(script, call.first_given, call.number);
            const uint64_t answer[WORDS] = {checked.verdict, checked.number, checked.place};
            give(answer, sizeof answer);
        } else if (call.function == RUN) {
            give_told(flagcopper_run(script, call.first_given, choices, call.second_given, workspace, words), 0);
        } else if (call.function == TRACE) {
            give_told(flagcopper_trace(script, call.first_given, choices, call.second_given, workspace, words, rows,
                                       call.second_lent / sizeof(uint32_t)),
                      0);
        } else if (call.function == FAIR) {
            flagcopper_turned turned =
                flagcopper_fair(script, call.first_given, rows, call.second_lent, workspace, words);
            give_told(turned.told, turned.picked);
        } else if (call.function == READ_WORDS) {
            const uint64_t answer[WORDS] = {flagcopper_read_words(call.number)};
            give(answer, sizeof answer);
        } else if (call.function == READ) {
            flagcopper_reading reading = flagcopper_read(script, call.first_given, choices, call.second_given, workspace,
                                                         call.first_lent / sizeof(uint32_t), rows, call.second_lent);
            const uint64_t answer[WORDS] = {reading.verdict, reading.number, reading.line, reading.length};
            give(answer, sizeof answer);
        } else if (call.function == WRITE) {
            flagcopper_text text =
                flagcopper_write(script, call.first_given, choices, call.second_given, rows, call.second_lent);
            const uint64_t answer[WORDS] = {text.verdict, text.number, text.length};
            give(answer, sizeof answer);
        } else {
            return EXIT_FAILURE;
        }
        give(workspace, call.first_lent);
        give(rows, call.second_lent);
        if (fflush(stdout) != 0) {
            return EXIT_FAILURE;
        }
        free(script);
        free(choices);
        free(workspace);
        free(rows);
    }
    return EXIT_SUCCESS;
}
