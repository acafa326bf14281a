/* Prints each name of a program in C with the line where it comes first and how often it comes, in the order of their first lines.
 *
 * usage: count_names [FILE]
 *
 * At the top of the repository, after `tools/c_library.sh lib`, bash builds it by
 * cc -I lib clients/c/names/{count_names,lexer,source,word_map}.c lib/libstring_cache.a -o count_names */
#include <inttypes.h>
#include <stdio.h>
#include <stdlib.h>

#include "lexer.h"
#include "source.h"
#include "string_cache.h"
#include "word_map.h"

struct usage {
    uint64_t word;
    unsigned long first_line;
    unsigned long times;
};

/* The names that came so far. */
struct names {
    sc_table table;
    word_map places; /* of the words, in the list */
    struct usage *list;
    size_t count;
    size_t room;
};

static void add(struct names *names, uint64_t word, unsigned long line) {
    if (names->count == names->room) {
        names->room = names->room == 0 ? 64 : 2 * names->room;
        struct usage *larger = realloc(names->list, names->room * sizeof *larger);
        if (larger == NULL) {
            fail("there is no memory");
        }
        names->list = larger;
    }
    if (!word_map_add(&names->places, word, names->count)) {
        fail("there is no memory");
    }
    names->list[names->count++] = (struct usage){word, line, 1};
}

static void see(struct names *names, const struct token *name) {
    uint64_t word;
    const sc_status number = sc_intern(&names->table, name->text, name->len, &word);
    if (number != SC_OK) {
        fail(sc_strerror(number));
    }
    const size_t *place = word_map_find(&names->places, word);
    if (place != NULL) {
        names->list[*place].times++;
    } else {
        add(names, word, name->line);
    }
}

/* Prints a name, by the room that grows to the longest one. */
static void print(struct names *names, const struct usage *usage) {
    static char *text;
    static size_t room;
    size_t len;
    sc_status number = sc_text(&names->table, usage->word, text, room, &len);
    if (number == SC_TOO_SMALL) {
        free(text);
        room = 2 * len;
        text = malloc(room);
        if (text == NULL) {
            fail("there is no memory");
        }
        number = sc_text(&names->table, usage->word, text, room, &len);
    }
    if (number != SC_OK) {
        fail(sc_strerror(number));
    }
    fwrite(text, 1, len, stdout); /* a name may be longer than an int tells */
    printf(" %lu %lu\n", usage->first_line, usage->times);
}

int main(int count, char **arguments) {
    const struct source source = read_source(count > 1 ? arguments[1] : NULL);
    struct names names = {SC_CLOSED_TABLE, {NULL, 0, 0}, NULL, 0, 0};
    const sc_status opened = sc_open(&names.table);
    if (opened != SC_OK) {
        fail(sc_strerror(opened));
    }
    struct lexer lexer = lexer_of(source.text, source.len);
    for (struct token token = next_token(&lexer); token.kind != TOKEN_END; token = next_token(&lexer)) {
        if (token.kind == TOKEN_NAME) {
            see(&names, &token);
        }
    }
    for (size_t at = 0; at < names.count; at++) {
        print(&names, &names.list[at]);
    }
    sc_close(&names.table);
    word_map_free(&names.places);
    free(names.list);
    free(source.text);
    end_output();
    return 0;
}
