/* Checks and runs document 01's listing script, `var x; x = 1`, and reads its cell back. Built in the repository's root after
 * `tests/make capi`:  cc -Wall -Iinclude examples/first.c target/staticlib/libcapi.a -o target/first && target/first
 * The same by a script:  tests/x86 build target/first examples/first.c && tests/x86 run target/first */
#include "flagcopper.h"
#include <stdio.h>

static const uint8_t script[34] = {
    10, 0, 0, 0, 10, 0, 3, 0, 1, 0, /* contents: no fields, 3 nodes, 1 name */
    2,  0, 1, 0, 0,  0, 0, 0,       /* node 0: integer 1 */
    35, 0, 0, 0, 0,  0, 0, 0,       /* node 1: assign name 0, node 0 */
    32, 0, 0, 0, 1,  0, 0, 0,       /* node 2: var name 0, node 1 */
};

static uint64_t workspace[FLAGCOPPER_SIZE];

int main(void) {
    flagcopper_checked checked = flagcopper_check(script, sizeof script, FLAGCOPPER_SIZE);
    if (checked.verdict != FLAGCOPPER_ACCEPTED) {
        printf("refused %u at %u\n", (unsigned)checked.number, (unsigned)checked.place);
        return 1;
    }
    /* A run checks too: without the check before it, told.refusal and told.place say the same. */
    const uint8_t choices[2] = {0, 0};
    flagcopper_told told =
        flagcopper_run(script, sizeof script, choices, sizeof choices, workspace, FLAGCOPPER_SIZE);
    printf("end %u steps %zu\n", (unsigned)told.end, told.steps);
    uint64_t cell = flagcopper_cell(workspace, 0);
    if (flagcopper_frames(workspace) < 1 || flagcopper_kind(cell) != FLAGCOPPER_INT) {
        return 1;
    }
    printf("cell 0 name %u int %lld\n", (unsigned)flagcopper_name(workspace, 0), (long long)flagcopper_int(cell));
    return 0;
}
