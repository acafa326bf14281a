/* The same by g_intern_string of glib, which gives nothing back. usage: threads_glib TEXTS THREADS ROUNDS */
#include <glib.h>

#include "threads.h"

static void keep(const char *text, size_t len) {
    (void)len; /* the text ends with a zero byte */
    if (g_intern_string(text) == NULL) {
        exit(1);
    }
}

int main(int arguments, char **words) {
    return measure_threads("glib", arguments, words, keep, keep);
}
