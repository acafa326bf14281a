/* Two threads that call with one table and no lock: what ThreadSanitizer has to report, so that its silence about other programs says something.
 * The calls are with an inline word, which changes no table. */
#include <pthread.h>

#include "string_cache.h"

static void *work(void *table) {
    for (int at = 0; at < 1000; at++) {
        (void)sc_give(table, 1);
    }
    return NULL;
}

int main(void) {
    pthread_t first, second;
    sc_table table = SC_CLOSED_TABLE;
    if (pthread_create(&first, NULL, work, &table) != 0 || pthread_create(&second, NULL, work, &table) != 0) {
        return 1;
    }
    (void)pthread_join(first, NULL);
    (void)pthread_join(second, NULL);
    return 0;
}
