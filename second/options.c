/* Options before a command. */
#include "options.h"

#include <stdio.h>
#include <stdlib.h>
#include <string.h>

bool options_number(const char *text, uint64_t *number)
{
    char *end;
    if (*text < '0' || *text > '9')
        return false;
    *number = strtoull(text, &end, 10);
    return *end == '\0';
}

int options_read(int count, char **words, const char *program, uint64_t *seed, bool (*take_fault)(const char *name))
{
    int at = 1;
    for (; at + 1 < count && strncmp(words[at], "--", 2) == 0; at += 2) {
        bool fault = strcmp(words[at], "--fault") == 0 && take_fault(words[at + 1]);
        bool number = strcmp(words[at], "--seed") == 0 && options_number(words[at + 1], seed);
        if (!fault && !number) {
            fprintf(stderr, "%s: cannot use %s %s\n", program, words[at], words[at + 1]);
            return 0;
        }
    }
    return at;
}
