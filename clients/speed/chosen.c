/* Time of interning the lines of a file, in nanoseconds of processor time for each. usage: chosen FILE */
#include <string.h>

#include "bench.h"
#include "string_cache.h"

enum { MOST_LINES = 1000000, LINE = 256 };

static char lines[MOST_LINES][LINE];

static size_t lines_of(const char *file) {
    size_t count = 0;
    FILE *in = fopen(file, "r");
    if (in == NULL) {
        exit(1);
    }
    while (count < MOST_LINES && fgets(lines[count], LINE, in) != NULL) {
        lines[count][strcspn(lines[count], "\n")] = 0;
        count++;
    }
    fclose(in);
    return count;
}

int main(int arguments, char **given) {
    const size_t count = lines_of(arguments > 1 ? given[1] : "");
    sc_table table = SC_CLOSED_TABLE;
    uint64_t word;
    const double begin = now();
    if (sc_open(&table) != SC_OK) {
        return 1;
    }
    for (size_t at = 0; at < count; at++) {
        if (sc_intern(&table, lines[at], strlen(lines[at]), &word) != SC_OK) {
            return 1;
        }
    }
    tell("C", given[1], now() - begin, count);
    return sc_entries(&table) != count;
}
