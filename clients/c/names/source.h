/* A whole file in memory, and the end of a program: with a message, or with all that it printed. */
#ifndef NAMES_SOURCE_H
#define NAMES_SOURCE_H

#include <stddef.h>

struct source {
    char *text; /* to be freed */
    size_t len;
};

/* All that a file has; of standard input if there is no name. If it can't be read, ends the program with a message that names it. */
struct source read_source(const char *name);

/* Prints a message, and ends the program with status 1. */
_Noreturn void fail(const char *what);

/* Ends what is printed, behind which nothing may be. If not all of it could be written, ends the program with a message. */
void end_output(void);

#endif
