/*
 * A release of three rules in one file, of which the third has `idx` at 17 bits and the first at 16: check_release tells the third, and the
 * two lines are found by their name, for the message.
 */
#include <stdio.h>
#include <string.h>

#include "echo.h"

/* The line of a script that declares a name, given with its bars; its length, or 0 where none does. */
static size_t declaration(const char *script, size_t script_len, const char *name, size_t name_len, const char **line)
{
    for (size_t at = 0; at < script_len;) {
        const char *end = (const char *)memchr(script + at, '\n', script_len - at);
        const size_t len = end == NULL ? script_len - at : (size_t)(end - (script + at));
        const char *bar = (const char *)memchr(script + at, '|', len);
        if (len > 9 && memcmp(script + at, "(declare-", 9) == 0 && bar != NULL && (size_t)(script + at + len - bar) > name_len
            && memcmp(bar, name, name_len) == 0) {
            *line = script + at;
            return len;
        }
        at += len + 1;
    }
    return 0;
}

/* The declarations of script `told` held beside those of the scripts before it. */
static void tell(const char *const *scripts, size_t told)
{
    const char *script = scripts[told];
    const size_t script_len = strlen(script);
    for (size_t at = 0; at < script_len;) {
        const size_t len = strcspn(script + at, "\n");
        const char *bar = (const char *)memchr(script + at, '|', len);
        if (strncmp(script + at, "(declare-", 9) == 0 && bar != NULL) {
            const size_t name_len = strcspn(bar + 1, "|") + 2;
            for (size_t k = 0; k < told; k++) {
                const char *line = NULL;
                const size_t line_len = declaration(scripts[k], strlen(scripts[k]), bar, name_len, &line);
                if (line_len > 0 && (line_len != len || memcmp(line, script + at, len) != 0)) {
                    printf("script %zu: %.*s\n", k, (int)line_len, line);
                    printf("script %zu: %.*s\n", told, (int)len, script + at);
                    return;
                }
            }
        }
        at += len + 1;
    }
}

int main(void)
{
    static const char *const scripts[3] = {
        "(set-logic QF_BV)\n(declare-const |idx| (_ BitVec 16))\n(assert (bvult |idx| #b0000000000000001))\n(check-sat)\n",
        "(set-logic QF_BV)\n(declare-const |base| (_ BitVec 32))\n(check-sat)\n",
        "(set-logic QF_BV)\n(declare-const |base| (_ BitVec 32))\n(declare-const |idx| (_ BitVec 17))\n(check-sat)\n",
    };
    char file[1024] = "";
    for (size_t count = 1; count <= 3; count++) {
        strcat(file, scripts[count - 1]);
        const struct release_answer answer = check_release((const uint8_t *)file, strlen(file));
        printf("scripts %zu: number %llu script %llu\n", count, (unsigned long long)answer.number, (unsigned long long)answer.script);
        if (answer.number == ECHO_TWO_MEANINGS) {
            tell(scripts, (size_t)answer.script);
        }
    }
    return 0;
}
