/* Interns a text twice, and once more in other words. */
#include <stdio.h>

#include "string_cache.h"

int main(void) {
    sc_table table = SC_CLOSED_TABLE;
    uint64_t first, second, other;
    if (sc_open(&table) || sc_intern(&table, "interned", 8, &first) || sc_intern(&table, "interned", 8, &second) ||
        sc_intern(&table, "another text", 12, &other))
        return 1;
    printf("%s, %s\n", first == second ? "one word" : "two words", first == other ? "one text" : "two texts");
    sc_close(&table);
    return 0;
}
