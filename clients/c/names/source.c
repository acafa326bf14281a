#include "source.h"

#include <errno.h>
#include <stdio.h>
#include <stdlib.h>
#include <string.h>

_Noreturn void fail(const char *what) {
    fprintf(stderr, "names: %s\n", what);
    exit(1);
}

/* Ends the program with what the system said last of a file. */
static _Noreturn void fail_of(const char *name) {
    fprintf(stderr, "names: %s: %s\n", name != NULL ? name : "standard input", strerror(errno));
    exit(1);
}

void end_output(void) {
    const int was_wrong = ferror(stdout);
    if (fclose(stdout) != 0 || was_wrong) {
        fail("the output can't be written");
    }
}

struct source read_source(const char *name) {
    FILE *file = name != NULL ? fopen(name, "rb") : stdin;
    if (file == NULL) {
        fail_of(name);
    }
    struct source read = {NULL, 0};
    size_t room = 0;
    do {
        if (read.len == room) {
            room = room == 0 ? 1 << 16 : 2 * room;
            char *larger = realloc(read.text, room);
            if (larger == NULL) {
                fail("there is no memory");
            }
            read.text = larger;
        }
        read.len += fread(read.text + read.len, 1, room - read.len, file);
    } while (!feof(file) && !ferror(file));
    if (ferror(file)) {
        fail_of(name);
    }
    if (file != stdin) {
        fclose(file);
    }
    return read;
}
