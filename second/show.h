/* States, events and answers in words. */
#ifndef SHOW_H
#define SHOW_H

#include "trial.h"

const char *show_kind(unsigned kind);
const char *show_answer(unsigned number);
const char *show_highest_answer(unsigned number);
const char *show_reason(unsigned reason);
const char *show_check(unsigned check);

void show_trial(const struct trial *t);

/* The answers of both sides, the question's in its own words. */
void show_answers(const struct pair *pair);

/* Every byte of the page that isn't zero, in rows of sixteen. */
void show_page(const struct trial *t);

/* What a side changes, and where the two sides differ. */
void show_changes(const char *who, const struct trial *before, const struct trial *after);
void show_differences(const struct pair *pair);

#endif
