/* Sessions recorded by the header's functions. */
#ifndef RECORDED_H
#define RECORDED_H

#include <stdint.h>

/*
 * Records random sessions beside the library's steps: the bytes have to be those of the format, and the replay
 * has to print what was answered. Returns the number of sessions that fail.
 */
unsigned recorded_run(uint64_t seed);

#endif
