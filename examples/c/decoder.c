/* The unit test of a decoder: a plain Viterbi decoder of rate 1/2 beside the proved one. It goes forwards, so its answer need not be
 * the first of those as near; but it has to be as near as the reference's, whatever was received.
 *
 *     cc decoder.c $(pkg-config --cflags --libs mizgaure) */
#include <mizgaure.h>
#include <stdio.h>
#include <stdlib.h>

enum { STEPS = 206, FAR = 1 << 20 };

static bool parity(unsigned taps) { return __builtin_parity(taps); }

/* The decoder under test. A state is the last six input bits, the latest one highest (clause 18.3.5.6). */
static void decode(const uint8_t *received, bool *input) {
    static bool oldest[STEPS][64];
    unsigned cost[64], before[64];
    for (unsigned s = 0; s < 64; s++) cost[s] = s ? FAR : 0;
    for (int t = 0; t < STEPS; t++) {
        for (unsigned s = 0; s < 64; s++) before[s] = cost[s];
        for (unsigned s = 0; s < 64; s++) {
            cost[s] = 2 * FAR;
            for (unsigned last = 0; last < 2; last++) {
                unsigned window = 2 * s + last; /* the seven bits that the generators tap */
                unsigned a = parity(window & 0133), b = parity(window & 0171);
                unsigned c = before[window & 63] + (received[2 * t] < 2 && received[2 * t] != a) + (received[2 * t + 1] < 2 && received[2 * t + 1] != b);
                if (c < cost[s]) cost[s] = c, oldest[t][s] = last;
            }
        }
    }
    for (unsigned s = 0, t = STEPS; t-- > 0; s = (2 * s + oldest[t][s]) & 63) input[t] = s >> 5;
}

int main(void) {
    int other = 0, wrong = 0;
    for (int trial = 0; trial < 200; trial++) {
        bool sent[STEPS] = {0}, coded[2 * STEPS], own[STEPS], best[STEPS];
        uint8_t received[2 * STEPS];
        uint32_t least, differs = 0;
        for (int t = 0; t < STEPS - 6; t++) sent[t] = rand() & 1;
        if (mizgaure_encode(0, sent, STEPS, coded, 2 * STEPS)) return 2;
        for (int k = 0; k < 2 * STEPS; k++) received[k] = rand() % 100 < 8 ? 255 : coded[k] ^ (rand() % 100 < 6); /* 255 is erased */
        decode(received, own);
        if (mizgaure_decode(0, received, 2 * STEPS, best, STEPS, &least) || mizgaure_encode(0, own, STEPS, coded, 2 * STEPS)) return 2;
        for (int k = 0; k < 2 * STEPS; k++) differs += received[k] < 2 && received[k] != coded[k];
        wrong += differs != least;
        for (int t = 0; t < STEPS; t++)
            if (own[t] != best[t]) { other++; break; }
    }
    printf("200 codewords: %d of another answer as near, %d worse than the reference\n", other - wrong, wrong);
    return wrong != 0;
}
