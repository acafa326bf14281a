// Prints words that lie in one bucket of a set without a name that has 2^BITS buckets and no static texts: bucket_words WORDS BITS
// The hash is SipHash-1-3 (Aumasson and Bernstein, 2012) with 128 bits under the key 0, and the bucket is what its lowest bits say.
#include <stdint.h>
#include <stdio.h>
#include <stdlib.h>
#include <string.h>

typedef struct { uint64_t v0, v1, v2, v3; } state;

static uint64_t rotated(uint64_t word, int bits) { return word << bits | word >> (64 - bits); }

static void turn(state *s) {
    s->v0 += s->v1, s->v1 = rotated(s->v1, 13) ^ s->v0, s->v0 = rotated(s->v0, 32);
    s->v2 += s->v3, s->v3 = rotated(s->v3, 16) ^ s->v2;
    s->v0 += s->v3, s->v3 = rotated(s->v3, 21) ^ s->v0;
    s->v2 += s->v1, s->v1 = rotated(s->v1, 17) ^ s->v2, s->v2 = rotated(s->v2, 32);
}

static void absorb(state *s, uint64_t word) {
    s->v3 ^= word;
    turn(s);
    s->v0 ^= word;
}

// The first half of the hash of a text of 8 to 15 bytes.
static uint64_t hash(const char *text, size_t length) {
    state s = {0x736f6d6570736575, 0x646f72616e646f6d ^ 0xee, 0x6c7967656e657261, 0x7465646279746573};
    uint64_t first, last = 0;
    memcpy(&first, text, 8);
    memcpy(&last, text + 8, length - 8);
    absorb(&s, first);
    absorb(&s, last | (uint64_t)length << 56);
    s.v2 ^= 0xee;
    turn(&s), turn(&s), turn(&s);
    return s.v0 ^ s.v1 ^ s.v2 ^ s.v3;
}

int main(int count, char **words) {
    if (count != 3) return fputs("usage: bucket_words WORDS BITS\n", stderr), 2;
    long wanted = atol(words[1]);
    uint64_t low = ((uint64_t)1 << atoi(words[2])) - 1;
    char text[16];
    for (unsigned long n = 0; wanted > 0 && n < 9999999999; n++) {
        size_t length = (size_t)sprintf(text, "word%08lu", n);
        if (length < 16 && (hash(text, length) & low) == 0) puts(text), wanted--;
    }
}
