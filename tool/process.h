/* A command of the shell, run over the bytes of a file. */
#ifndef TOOL_PROCESS_H
#define TOOL_PROCESS_H

#include "common.h"

/* What a command did: what it wrote, at most one byte too much; how it ended, by itself with a status as of waitpid, or stopped; how much of its input it did
   not read; and how long it took. */
typedef struct {
    contents output;
    enum { ENDED, HUNG, WROTE_TOO_MUCH } end;
    int status;
    size_t unread;
    uint64_t milliseconds;
} outcome;

/* Runs a command with a file on its standard input. It is stopped, with all that it started, after `limit` milliseconds, or when it writes more than `most`
   bytes. The output is the caller's. */
outcome run_process(const char *command, contents input, size_t most, uint64_t limit);

#endif
