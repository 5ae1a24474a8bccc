/* Runs `{var x; x = 1 || var y; y = 2}` with turns taken fairly, and shows the choices that the run picked and how it ended; the
 * base run on these choices ends the same. Built in the repository's root after `tests/make capi`:
 *     cc -Wall -Iinclude examples/turns.c target/staticlib/libcapi.a -o target/turns && target/turns
 * The same by a script:  tests/x86 build target/turns examples/turns.c && tests/x86 run target/turns */
#include "flagcopper.h"
#include <stdio.h>

static const uint8_t script[66] = {
    10, 0, 0, 0, 10, 0, 7, 0, 2, 0, /* contents: no fields, 7 nodes, 2 names */
    2,  0, 1, 0, 0,  0, 0, 0,       /* node 0: integer 1 */
    35, 0, 0, 0, 0,  0, 0, 0,       /* node 1: assign name 0, node 0 */
    32, 0, 0, 0, 1,  0, 0, 0,       /* node 2: var name 0, node 1 */
    2,  0, 2, 0, 0,  0, 0, 0,       /* node 3: integer 2 */
    35, 0, 1, 0, 3,  0, 0, 0,       /* node 4: assign name 1, node 3 */
    32, 0, 1, 0, 4,  0, 0, 0,       /* node 5: var name 1, node 4 */
    41, 0, 2, 0, 5,  0, 0, 0,       /* node 6: nodes 2 and 5 side by side */
};

static uint64_t workspace[FLAGCOPPER_SIZE];

int main(void) {
    uint8_t picks[4096];
    flagcopper_turned turned =
        flagcopper_fair(script, sizeof script, picks, sizeof picks, workspace, FLAGCOPPER_SIZE);
    if (turned.told.refusal != 0) {
        printf("refused %u at %u\n", (unsigned)turned.told.refusal, (unsigned)turned.told.place);
        return 1;
    }
    printf("picks");
    for (size_t i = 0; i < turned.picked; i++) {
        printf(" %u", (unsigned)picks[i]);
    }
    printf("\nend %u steps %zu\n", (unsigned)turned.told.end, turned.told.steps);
    flagcopper_told again = flagcopper_run(script, sizeof script, picks, turned.picked, workspace, FLAGCOPPER_SIZE);
    printf("again: end %u steps %zu\n", (unsigned)again.end, again.steps);
    return 0;
}
