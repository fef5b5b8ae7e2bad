/* What stands before a command, the same for each program that compares. */
#ifndef OPTIONS_H
#define OPTIONS_H

#include <stdbool.h>
#include <stdint.h>

/* A whole number in decimal; false for any other text. */
bool options_number(const char *text, uint64_t *number);

/*
 * Takes --seed N, and --fault NAME where the program knows the name; returns the place of the first other word,
 * or 0 where an option can't be used, which it says.
 */
int options_read(int count, char **words, const char *program, uint64_t *seed, bool (*take_fault)(const char *name));

#endif
