/* libfec's Viterbi decoder, once along each block, over lines of values: a line is a block, a value for each coded bit.
   Answers a line for each: nanoseconds of a pass, and the bits of the decoder's input in order.
   A pass goes on past the end by the bits of a state, over the first values again: the library traces back from there. */
#include <fec.h>

#include <stdio.h>
#include <stdlib.h>
#include <string.h>
#include <time.h>

/* the passes of which the quickest counts */
enum { PASSES = 20 };

struct pass {
    int constraint;
    int bits;               /* of the block */
    unsigned char *symbols; /* two for each bit, and those of the state past the end */
    unsigned char *shown;   /* eight bits a byte */
    void *decoder;
};

/* The generators with the oldest bit highest, as libfec takes them. The decoder is made first: before that the library
   does not know which of its versions will run, and sets the generators of another. */
static void *decoder_for(int constraint, int bits) {
    int seven[2] = {0x6d, 0x4f};
    int nine[2] = {0x11d, 0x1af};
    void *decoder;
    if (constraint == 7) {
        decoder = create_viterbi27(bits);
        set_viterbi27_polynomial(seven);
    } else {
        decoder = create_viterbi29(bits);
        set_viterbi29_polynomial(nine);
    }
    return decoder;
}

static void decode(const struct pass *p) {
    int steps = p->bits + p->constraint - 1;
    if (p->constraint == 7) {
        init_viterbi27(p->decoder, 0);
        update_viterbi27_blk(p->decoder, p->symbols, steps);
        chainback_viterbi27(p->decoder, p->shown, p->bits, 0);
    } else {
        init_viterbi29(p->decoder, 0);
        update_viterbi29_blk(p->decoder, p->symbols, steps);
        chainback_viterbi29(p->decoder, p->shown, p->bits, 0);
    }
}

static long long now(void) {
    struct timespec t;
    clock_gettime(CLOCK_MONOTONIC, &t);
    return t.tv_sec * 1000000000LL + t.tv_nsec;
}

static long long quickest(const struct pass *p) {
    long long least = -1;
    for (int i = 0; i < PASSES; i++) {
        long long start = now();
        decode(p);
        long long taken = now() - start;
        if (least < 0 || taken < least) {
            least = taken;
        }
    }
    return least;
}

/* Reads a line's values as symbols: 0 is a sure 0, 255 a sure 1. Answers how many, 0 at the end. */
static int read_symbols(unsigned char *symbols, int room) {
    int count = 0;
    int value;
    char after;
    while (count < room && scanf("%d%c", &value, &after) == 2) {
        symbols[count++] = (unsigned char)(128 - value);
        int c = getchar();
        if (c == '\n' || c == EOF) {
            break;
        }
        ungetc(c, stdin);
    }
    return count;
}

static void show(const struct pass *p) {
    for (int i = 0; i < p->bits; i++) {
        putchar('0' + (p->shown[i / 8] >> (7 - i % 8) & 1));
    }
    putchar('\n');
}

int main(int count, char **words) {
    if (count != 3) {
        fprintf(stderr, "usage: libfec CONSTRAINT BITS <BLOCKS\n");
        return 1;
    }
    struct pass p = {.constraint = atoi(words[1]), .bits = atoi(words[2])};
    int state = p.constraint - 1;
    p.symbols = malloc(2 * (p.bits + state));
    p.shown = malloc(p.bits / 8 + 1);
    p.decoder = decoder_for(p.constraint, p.bits);
    while (read_symbols(p.symbols, 2 * p.bits) == 2 * p.bits) {
        memcpy(p.symbols + 2 * p.bits, p.symbols, 2 * state);
        printf("%lld ", quickest(&p));
        show(&p);
    }
    return 0;
}
