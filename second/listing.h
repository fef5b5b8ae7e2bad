/* Traces and texts in words. */
#ifndef LISTING_H
#define LISTING_H

#include "attempt.h"

/* A record's kind, and what a read finds where it isn't a record. */
const char *listing_kind(unsigned kind);
const char *listing_reading(enum reading reading);

/* Lists a trace's records from one number to another, and what stops them; one number is marked. */
void list_records(const struct trace *t, uint32_t from, uint32_t to, uint32_t marked);

/* What was handed over and what each program tells. */
void list_call(const struct attempt *a, const struct replayed *both);

/* The first place where the two programs differ, and where one isn't like the text that is due. */
void list_difference(const struct attempt *a, const struct replayed *both);
void list_unlike(const struct attempt *a, const char *due, const char *who, const struct result *result);

/* A program's whole text. */
void list_text(const char *who, const struct result *result);

#endif
