#include "lexer.h"

#include <string.h>

struct lexer lexer_of(const char *text, size_t len) {
    struct lexer begin = {text, text + len, 1};
    return begin;
}

static bool is_digit(char letter) {
    return letter >= '0' && letter <= '9';
}

static bool begins_name(char letter) {
    return (letter >= 'a' && letter <= 'z') || (letter >= 'A' && letter <= 'Z') || letter == '_';
}

static bool is_in_name(char letter) {
    return begins_name(letter) || is_digit(letter);
}

static bool begins(const struct lexer *lexer, const char *signs) {
    return lexer->end - lexer->at >= 2 && lexer->at[0] == signs[0] && lexer->at[1] == signs[1];
}

static void step(struct lexer *lexer) {
    lexer->line += *lexer->at++ == '\n';
}

/* Passes over what is up to the end of the line. */
static void pass_line(struct lexer *lexer) {
    while (lexer->at != lexer->end && *lexer->at != '\n') {
        lexer->at++;
    }
}

/* Passes over a comment that began with these two signs. */
static void pass_comment(struct lexer *lexer) {
    lexer->at += 2;
    while (lexer->at != lexer->end && !begins(lexer, "*/")) {
        step(lexer);
    }
    lexer->at += lexer->at != lexer->end ? 2 : 0;
}

static void pass_space(struct lexer *lexer) {
    while (lexer->at != lexer->end) {
        if (begins(lexer, "//")) {
            pass_line(lexer);
        } else if (begins(lexer, "/*")) {
            pass_comment(lexer);
        } else if (strchr(" \t\r\n\v\f", *lexer->at) != NULL && *lexer->at != '\0') {
            step(lexer);
        } else {
            return;
        }
    }
}

/* Passes over what stands in quotes, or up to the end of the line where they aren't closed. */
static void pass_quoted(struct lexer *lexer) {
    const char quote = *lexer->at++;
    while (lexer->at != lexer->end && *lexer->at != quote && *lexer->at != '\n') {
        if (*lexer->at == '\\' && lexer->end - lexer->at >= 2) {
            step(lexer);
        }
        step(lexer);
    }
    lexer->at += lexer->at != lexer->end && *lexer->at == quote;
}

static void pass_name(struct lexer *lexer) {
    while (lexer->at != lexer->end && is_in_name(*lexer->at)) {
        lexer->at++;
    }
}

static token_kind pass_token(struct lexer *lexer) {
    const char first = *lexer->at;
    if (begins_name(first)) {
        pass_name(lexer);
        return TOKEN_NAME;
    }
    if (is_digit(first)) {
        pass_name(lexer);
    } else if (first == '"' || first == '\'') {
        pass_quoted(lexer);
    } else {
        lexer->at++;
    }
    return first == '{' ? TOKEN_OPEN : first == '}' ? TOKEN_CLOSE : TOKEN_OTHER;
}

struct token next_token(struct lexer *lexer) {
    pass_space(lexer);
    struct token found = {TOKEN_END, lexer->at, 0, lexer->line};
    if (lexer->at != lexer->end) {
        found.kind = pass_token(lexer);
        found.len = (size_t)(lexer->at - found.text);
    }
    return found;
}

bool is_keyword(const struct token *name) {
    static const char *const keywords[] = {
        "auto",   "break",  "case",   "char",   "const",   "continue", "default",  "do",       "double",   "else",   "enum",  "extern",
        "float",  "for",    "goto",   "if",     "inline",  "int",      "long",     "register", "restrict", "return", "short", "signed",
        "sizeof", "static", "struct", "switch", "typedef", "union",    "unsigned", "void",     "volatile", "while",
    };
    for (size_t at = 0; at < sizeof keywords / sizeof keywords[0]; at++) {
        if (strlen(keywords[at]) == name->len && memcmp(keywords[at], name->text, name->len) == 0) {
            return true;
        }
    }
    return false;
}
