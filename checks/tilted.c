// Names of channels that a table holds in one place: SipHash-1-3 of their octets, by keys that are all noughts, its upper half
// laid over its lower.
//
//   tilted COUNT MASK     prints so many names whose hashes have noughts in all bits of the mask (hexadecimal)
//   tilted COUNT 0        prints names that weren't chosen
#include <stdint.h>
#include <stdio.h>
#include <stdlib.h>

// Octets of a name, its `#` with them: with how many there are they fill a word of eight octets.
#define LENGTH 7

struct state { uint64_t v0, v1, v2, v3; };

static uint64_t turned(uint64_t word, int by) { return word << by | word >> (64 - by); }

static void round_of(struct state *s) {
    s->v0 += s->v1; s->v1 = turned(s->v1, 13); s->v1 ^= s->v0; s->v0 = turned(s->v0, 32);
    s->v2 += s->v3; s->v3 = turned(s->v3, 16); s->v3 ^= s->v2;
    s->v0 += s->v3; s->v3 = turned(s->v3, 21); s->v3 ^= s->v0;
    s->v2 += s->v1; s->v1 = turned(s->v1, 17); s->v1 ^= s->v2; s->v2 = turned(s->v2, 32);
}

static void take(struct state *s, uint64_t word) {
    s->v3 ^= word;
    round_of(s);
    s->v0 ^= word;
}

static uint64_t hash_of(struct state begun, const char *name) {
    uint64_t word = (uint64_t)LENGTH << 56;
    for (int at = 0; at < LENGTH; at++) word |= (uint64_t)(unsigned char)name[at] << 8 * at;
    take(&begun, word);
    begun.v2 ^= 0xff;
    for (int round = 0; round < 3; round++) round_of(&begun);
    uint64_t hash = begun.v0 ^ begun.v1 ^ begun.v2 ^ begun.v3;
    return hash ^ hash >> 32;
}

int main(int words, char **word) {
    static const char letters[] = "abcdefghijklmnopqrstuvwxyz0123456789";
    if (words != 3) return 2;
    long wanted = atol(word[1]);
    uint64_t mask = strtoull(word[2], NULL, 16);
    struct state begun = { 0x736f6d6570736575, 0x646f72616e646f6d, 0x6c7967656e657261, 0x7465646279746573 };
    char name[LENGTH + 1] = "#";
    for (uint64_t number = 0; wanted > 0; number++) {
        uint64_t left = number;
        for (int at = LENGTH - 1; at > 0; at--, left /= 36) name[at] = letters[left % 36];
        if (left) return 1;
        if ((hash_of(begun, name) & mask) == 0) {
            puts(name);
            wanted--;
        }
    }
    return 0;
}
