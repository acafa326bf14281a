/* What count_names prints, by a plain hash table of texts: no word, no interner. The two are compared.
 *
 * usage: plain_names [FILE] */
#include <stdint.h>
#include <stdio.h>
#include <stdlib.h>
#include <string.h>

#include "lexer.h"
#include "source.h"

struct entry {
    const char *text; /* in the source */
    size_t len;
    unsigned long first_line;
    unsigned long times;
    struct entry *next_of_bucket;
    struct entry *next; /* in the order in which they came */
};

enum { BUCKETS = 1 << 16 };

static struct entry *buckets[BUCKETS];
static struct entry *first;
static struct entry **last = &first;

/* FNV-1a. */
static size_t bucket_of(const char *text, size_t len) {
    uint64_t hash = UINT64_C(0xcbf29ce484222325);
    for (size_t at = 0; at < len; at++) {
        hash = (hash ^ (unsigned char)text[at]) * UINT64_C(0x100000001b3);
    }
    return (size_t)(hash % BUCKETS);
}

static void see(const struct token *name) {
    struct entry **bucket = &buckets[bucket_of(name->text, name->len)];
    struct entry *found = *bucket;
    while (found != NULL && (found->len != name->len || memcmp(found->text, name->text, name->len) != 0)) {
        found = found->next_of_bucket;
    }
    if (found != NULL) {
        found->times++;
        return;
    }
    struct entry *added = malloc(sizeof *added);
    if (added == NULL) {
        fail("there is no memory");
    }
    *added = (struct entry){name->text, name->len, name->line, 1, *bucket, NULL};
    *bucket = added;
    *last = added;
    last = &added->next;
}

int main(int count, char **arguments) {
    const struct source source = read_source(count > 1 ? arguments[1] : NULL);
    struct lexer lexer = lexer_of(source.text, source.len);
    for (struct token token = next_token(&lexer); token.kind != TOKEN_END; token = next_token(&lexer)) {
        if (token.kind == TOKEN_NAME) {
            see(&token);
        }
    }
    while (first != NULL) {
        struct entry *entry = first;
        printf("%.*s %lu %lu\n", (int)entry->len, entry->text, entry->first_line, entry->times);
        first = entry->next;
        free(entry);
    }
    free(source.text);
    return 0;
}
