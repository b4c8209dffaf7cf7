/*
 * Joins three scripts into one file, with nothing between them, and cuts the file again: a line for each script with its place and length,
 * and one for what follows the last.
 */
#include <stdio.h>
#include <string.h>

#include "echo.h"

int main(void)
{
    static const char file[] =
        "(set-logic QF_BV)\n(check-sat)\n"
        "(set-logic QF_BV)\n(declare-const |(check-sat)| (_ BitVec 8))\n(check-sat)\n"
        "(set-logic QF_BV)\n(check-sat)\n"
        "(set-logic";
    const uint8_t *bytes = (const uint8_t *)file;
    const size_t length = strlen(file);

    size_t at = 0;
    for (;;) {
        const struct script_answer answer = next_script(bytes + at, length - at);
        if (answer.found == 0) {
            break;
        }
        printf("script at %zu: %llu bytes\n", at, (unsigned long long)answer.length);
        at += (size_t)answer.length;
    }
    printf("no script at %zu: %zu bytes\n", at, length - at);
    return 0;
}
