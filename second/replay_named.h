/* Traces written by hand, with the texts that document 02 gives them. */
#ifndef REPLAY_NAMED_H
#define REPLAY_NAMED_H

/* Replays every trace on both programs, one line each; returns the number that fail. */
unsigned replay_named_run(void);

/* Hands null traces and null buffers to both programs; returns the number of calls that answer otherwise. */
unsigned replay_null_run(void);

#endif
