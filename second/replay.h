/* Replay of a recorded session by the second program, from E5 of document 02. */
#ifndef REPLAY_H
#define REPLAY_H

#include <stddef.h>
#include <stdint.h>

/* Same contract as gg_replay. */
uint32_t second_replay(const uint8_t *trace, size_t trace_len, uint32_t limit, uint8_t *out, size_t out_len,
                       uint64_t *written);

#endif
