/* The same by g_intern_string of glib, which gives nothing back. usage: plain_glib [TEXTS] */
#include <glib.h>

#include "bench.h"

int main(int arguments, char **given) {
    const texts texts = texts_of(arguments, given);
    const char **words = calloc(texts.count, sizeof *words);
    if (words == NULL) {
        return 1;
    }
    for (size_t at = 0; at < texts.count; at++) {
        words[at] = ""; /* so that its memory counts before */
    }
    size_t wrong = 0;
    const double memory = peak(), begin = now();
    for (size_t at = 0; at < texts.count; at++) {
        words[at] = g_intern_string(texts.list[at]);
    }
    const double made = now();
    const double most = peak();
    for (size_t at = 0; at < texts.count; at++) {
        wrong += g_intern_string(texts.list[at]) != words[at];
    }
    const double found = now();
    tell("glib", "new", made - begin, texts.count);
    tell("glib", "there", found - made, texts.count);
    tell("glib", "memory", most - memory, texts.count);
    return wrong != 0;
}
