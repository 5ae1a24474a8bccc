/* Reads a written script, runs its image, and says how the run ends. Built in the repository's root after `tests/make capi`:
 *     cc -Wall -Iinclude examples/written.c target/staticlib/libcapi.a -o target/written && target/written
 * The same by a script:  tests/x86 build target/written examples/written.c && tests/x86 run target/written */
#include "flagcopper.h"
#include <stdio.h>
#include <stdlib.h>
#include <string.h>

static const char text[] = "var Feature; {malloc(Feature);\n"
                           "    Feature.class = 4110 - -10}\n";
static const char list[] = "class,3\n";

static uint8_t image[FLAGCOPPER_IMAGE];
static uint64_t workspace[FLAGCOPPER_SIZE];

int main(void) {
    size_t bytes = strlen(text), count = flagcopper_read_words(bytes);
    uint32_t *words = calloc(count, sizeof *words);
    if (words == NULL) {
        return 1;
    }
    flagcopper_reading reading = flagcopper_read((const uint8_t *)text, bytes, (const uint8_t *)list, strlen(list), words,
                                                 count, image, sizeof image);
    free(words);
    if (reading.verdict != FLAGCOPPER_ACCEPTED) {
        printf("refused %u at line %zu\n", (unsigned)reading.number, reading.line);
        return 1;
    }
    printf("image %zu bytes\n", reading.length);
    /* Nothing but the scoping of names is left to the check: told.refusal is 0 or 9. */
    const uint8_t choices[4] = {0, 0, 0, 0};
    flagcopper_told told =
        flagcopper_run(image, reading.length, choices, sizeof choices, workspace, FLAGCOPPER_SIZE);
    printf("end %u steps %zu\n", (unsigned)told.end, told.steps);
    uint64_t value = flagcopper_value(workspace, 0, 1);
    if (flagcopper_objects(workspace) < 1 || flagcopper_kind(value) != FLAGCOPPER_INT) {
        return 1;
    }
    printf("object 0 field 1 int %lld\n", (long long)flagcopper_int(value));
    return 0;
}
