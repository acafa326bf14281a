/* The tokens of a program in C, as far as names and blocks need them. */
#ifndef NAMES_LEXER_H
#define NAMES_LEXER_H

#include <stdbool.h>
#include <stddef.h>

typedef enum token_kind {
    TOKEN_END,   /* the text has ended */
    TOKEN_NAME,  /* a name, or a word of the language */
    TOKEN_OPEN,  /* { */
    TOKEN_CLOSE, /* } */
    TOKEN_OTHER  /* a number, a text in quotes, or any other sign */
} token_kind;

struct token {
    token_kind kind;
    const char *text;
    size_t len;
    unsigned long line; /* where it begins, from 1 on */
};

/* Where the lexer stands in a text, which needs no zero byte behind it. */
struct lexer {
    const char *at;
    const char *end;
    unsigned long line;
};

struct lexer lexer_of(const char *text, size_t len);

/* The next token. White space and comments are passed over. */
struct token next_token(struct lexer *lexer);

/* Whether a name is a word of the language. */
bool is_keyword(const struct token *name);

#endif
