/* The names of small texts in C, with their lines, as one reads them. */
#include "lexer.h"

#include <string.h>

#include "check.h"

/* Writes the tokens of a text one after another: names with their lines, braces as they are, and a dot for any other. */
static void spell(const char *text, char *out) {
    struct lexer lexer = lexer_of(text, strlen(text));
    for (struct token token = next_token(&lexer); token.kind != TOKEN_END; token = next_token(&lexer)) {
        switch (token.kind) {
        case TOKEN_NAME:
            out += sprintf(out, "%.*s%lu ", (int)token.len, token.text, token.line);
            break;
        case TOKEN_OPEN:
            out += sprintf(out, "{ ");
            break;
        case TOKEN_CLOSE:
            out += sprintf(out, "} ");
            break;
        default:
            out += sprintf(out, ". ");
        }
    }
    *out = '\0';
}

static const struct {
    const char *text;
    const char *wanted;
} rows[] = {
    {"", ""},
    {"int main(void) { return x1; }", "int1 main1 . void1 . { return1 x11 . } "},
    {"a\nb\n\nc", "a1 b2 c4 "},
    {"a // b {\nc", "a1 c2 "},
    {"a /* b {\n c\n*/ d", "a1 d3 "},
    {"a /*/ b */ c", "a1 c1 "},
    {"a /* b", "a1 "},
    {"a / b", "a1 . b1 "},
    {"a/", "a1 . "},
    {"\"b { \\\" c\" d", ". d1 "},
    {"\"b\\\\\" c", ". c1 "},
    {"'\\'' a '{' b", ". a1 . b1 "},
    {"\"b\\\n c\" d", ". d2 "},
    {"don't\nb \"c", "don1 . b2 . "},
    {"\"a\\", ". "},
    {"0x1f 1e5 12ul a", ". . . a1 "},
    {"_a1 __b A9_", "_a11 __b1 A9_1 "},
    {"a->b.c\t\v\f\r\nd", "a1 . . b1 . c1 d2 "},
};

static void names_have_their_lines(void) {
    char found[200];
    for (size_t at = 0; at < sizeof rows / sizeof rows[0]; at++) {
        spell(rows[at].text, found);
        if (strcmp(found, rows[at].wanted) != 0) {
            printf("'%s' is read as '%s'\n", rows[at].text, found);
        }
        CHECK(strcmp(found, rows[at].wanted) == 0);
    }
}

static void words_of_the_language_are_known(void) {
    struct lexer lexer = lexer_of("auto while whiles whil Auto int", 31);
    static const bool wanted[] = {true, true, false, false, false, true};
    for (size_t at = 0; at < sizeof wanted / sizeof wanted[0]; at++) {
        const struct token name = next_token(&lexer);
        CHECK(name.kind == TOKEN_NAME && is_keyword(&name) == wanted[at]);
    }
    CHECK(next_token(&lexer).kind == TOKEN_END);
}

static const test tests[] = {
    {"names_have_their_lines", names_have_their_lines},
    {"words_of_the_language_are_known", words_of_the_language_are_known},
};

int main(void) {
    return RUN_TESTS(tests);
}
