/* The names of a program in C, block by block: each with the line where it comes first, and how often it comes.
 *
 * A name belongs to the block that is open where it comes first. Where a block ends, a line tells its lines, and one each of its names, in the
 * order in which they came. Then they are given back: the table holds what is in sight, and nothing else.
 *
 * usage: scopes [FILE]
 *
 * At the top of the repository, after `tools/c_library.sh lib`, bash builds it by
 * cc -I lib clients/c/names/{scopes,lexer,source,word_map}.c lib/libstring_cache.a -o scopes */
#include <inttypes.h>
#include <stdio.h>
#include <stdlib.h>

#include "lexer.h"
#include "source.h"
#include "string_cache.h"
#include "word_map.h"

/* A name in sight. Its word has one holder. */
struct name {
    uint64_t word;
    unsigned long first_line;
    unsigned long times;
};

/* An open block. */
struct block {
    unsigned long line;
    size_t first_name; /* the names from there on came in it, or in a block inside */
};

/* The names of inner blocks stand behind those of outer ones, and go first. */
struct scopes {
    sc_table table;
    word_map places; /* of the words, among the names */
    struct name *names;
    size_t name_count;
    size_t name_room;
    struct block *blocks;
    size_t block_count;
    size_t block_room;
};

/* Room for one item more in a list, which may move. */
static void *with_room(void *list, size_t count, size_t *room, size_t size) {
    if (count < *room) {
        return list;
    }
    *room = *room == 0 ? 64 : 2 * *room;
    void *larger = realloc(list, *room * size);
    if (larger == NULL) {
        fail("there is no memory");
    }
    return larger;
}

static void expect_ok(sc_status number) {
    if (number != SC_OK) {
        fail(sc_strerror(number));
    }
}

static void open_block(struct scopes *scopes, unsigned long line) {
    scopes->blocks = with_room(scopes->blocks, scopes->block_count, &scopes->block_room, sizeof *scopes->blocks);
    scopes->blocks[scopes->block_count++] = (struct block){line, scopes->name_count};
}

static void add_name(struct scopes *scopes, const struct token *token) {
    uint64_t word;
    expect_ok(sc_intern(&scopes->table, token->text, token->len, &word));
    scopes->names = with_room(scopes->names, scopes->name_count, &scopes->name_room, sizeof *scopes->names);
    if (!word_map_add(&scopes->places, word, scopes->name_count)) {
        fail("there is no memory");
    }
    scopes->names[scopes->name_count++] = (struct name){word, token->line, 1};
}

/* A name comes: once more in the block that has it, or first in the innermost one. */
static void see(struct scopes *scopes, const struct token *token) {
    uint64_t word;
    const sc_status number = sc_get(&scopes->table, token->text, token->len, &word);
    const size_t *place = number == SC_OK ? word_map_find(&scopes->places, word) : NULL;
    if (place != NULL) {
        scopes->names[*place].times++;
    } else {
        add_name(scopes, token);
    }
}

static void print_name(struct scopes *scopes, const struct name *name) {
    size_t len = 0;
    if (sc_text(&scopes->table, name->word, NULL, 0, &len) != SC_TOO_SMALL) {
        fail("a name has no text");
    }
    char *text = malloc(len);
    if (text == NULL) {
        fail("there is no memory");
    }
    expect_ok(sc_text(&scopes->table, name->word, text, len, &len));
    fputs("  ", stdout);
    fwrite(text, 1, len, stdout); /* a name may be longer than an int tells */
    printf(" %lu %lu\n", name->first_line, name->times);
    free(text);
}

/* Tells of the names of the innermost block, and gives them up. */
static void close_block(struct scopes *scopes, unsigned long line) {
    const struct block block = scopes->blocks[--scopes->block_count];
    if (block.first_name != scopes->name_count) {
        printf("lines %lu to %lu\n", block.line, line);
    }
    for (size_t at = block.first_name; at < scopes->name_count; at++) {
        print_name(scopes, &scopes->names[at]);
        word_map_remove(&scopes->places, scopes->names[at].word);
        expect_ok(sc_give(&scopes->table, scopes->names[at].word));
    }
    scopes->name_count = block.first_name;
}

/* An end that no block has is overlooked. */
static void take(struct scopes *scopes, const struct token *token) {
    if (token->kind == TOKEN_OPEN) {
        open_block(scopes, token->line);
    } else if (token->kind == TOKEN_CLOSE && scopes->block_count > 1) {
        close_block(scopes, token->line);
    } else if (token->kind == TOKEN_NAME && !is_keyword(token)) {
        see(scopes, token);
    }
}

int main(int count, char **arguments) {
    const struct source source = read_source(count > 1 ? arguments[1] : NULL);
    struct scopes scopes = {SC_CLOSED_TABLE, {NULL, 0, 0}, NULL, 0, 0, NULL, 0, 0};
    expect_ok(sc_open(&scopes.table));
    open_block(&scopes, 1);
    struct lexer lexer = lexer_of(source.text, source.len);
    struct token token = next_token(&lexer);
    for (; token.kind != TOKEN_END; token = next_token(&lexer)) {
        take(&scopes, &token);
    }
    while (scopes.block_count != 0) {
        close_block(&scopes, token.line);
    }
    if (sc_entries(&scopes.table) != 0) {
        fail("a name was not given back");
    }
    sc_close(&scopes.table);
    word_map_free(&scopes.places);
    free(scopes.names);
    free(scopes.blocks);
    free(source.text);
    end_output();
    return 0;
}
