/* Four threads call at the same time, each with its own outputs, and find what one thread found. */
#include "mizgaure.h"

#include <pthread.h>
#include <stdio.h>
#include <stdlib.h>
#include <string.h>

enum { CARRIERS = 108, SAMPLES = 4 * CARRIERS, STEPS = 606, OCTETS = 10, POINTS = 2 * 56, CAPTURE = 11 + 2 * 56 + 8 * POINTS };

static mizgaure_channel channels[CARRIERS];
static mizgaure_received received[SAMPLES];
static uint32_t state = 1;

static int drawn(int below) {
    state = state * 1664525u + 1013904223u;
    return (int)((state >> 8) % (unsigned)below);
}

/* What the calls answer. */
struct answers {
    mizgaure_hit hits[SAMPLES];
    uint8_t labels[4 * SAMPLES];
    mizgaure_distance sums[SAMPLES / CARRIERS];
    int32_t weights[4 * CARRIERS];
    bool coded[2 * STEPS], found[STEPS], softly[STEPS];
    mizgaure_point points[POINTS];
    uint8_t octets[OCTETS], text[8192], file[16384];
    uint16_t places[648];
    uint32_t distance, differences;
    uint64_t cost, size, length;
};

/* Calls all; answers how many have a fault. */
static int fill(struct answers *a) {
    bool input[STEPS] = {0};
    uint8_t hard[2 * STEPS], heard[104], capture[CAPTURE] = {'H', 'T', 'C', 'P', 1, 0, 1, 0, 0, 0, 1};
    int32_t soft[2 * STEPS];
    mizgaure_refusal refusal;
    int faults = 0;
    for (int k = 0; k < STEPS - 6; k++) input[k] = k * k % 7 < 3;
    for (int k = 0; k < 56; k++) capture[12 + 2 * k] = 10;
    memset(a, 0, sizeof *a);
    faults += mizgaure_detect_symbols(1, 31, channels, CARRIERS, received, SAMPLES, a->hits, SAMPLES, a->labels, 4 * SAMPLES, a->sums,
                                      SAMPLES / CARRIERS) != 0;
    faults += mizgaure_weigh_symbols(1, 9, channels, CARRIERS, received, CARRIERS, a->weights, 4 * CARRIERS) != 0;
    faults += mizgaure_encode(0, input, STEPS, a->coded, 2 * STEPS) != 0;
    for (int k = 0; k < 2 * STEPS; k++) hard[k] = k % 40 ? a->coded[k] : 2, soft[k] = k % 37 ? 20 * a->coded[k] - 10 : 3;
    faults += mizgaure_decode(0, hard, 2 * STEPS, a->found, STEPS, &a->distance) != 0;
    faults += mizgaure_soft_decode(0, soft, 2 * STEPS, a->softly, STEPS, &a->cost) != 0;
    faults += mizgaure_places(1, 31, 4, a->places, 648) != 0;
    faults += mizgaure_transmit(0, 1, 93, hard, OCTETS, a->points, POINTS) != 0;
    mizgaure_point data[104];
    for (int c = 0, at = 0; c < POINTS; c++)
        if (c % 56 != 7 && c % 56 != 21 && c % 56 != 34 && c % 56 != 48) data[at++] = a->points[c];
    faults += mizgaure_labels(2, data, 104, heard, 104) != 0;
    heard[0] ^= 1;
    faults += mizgaure_decode_frame(0, 1, 0, 0, heard, 104, a->octets, OCTETS, &a->differences) != 0;
    faults += mizgaure_detect(capture, CAPTURE, a->text, sizeof a->text, &a->size, &refusal) != 0;
    faults += mizgaure_certify(capture, CAPTURE, a->file, sizeof a->file, &a->length, &refusal) != 0;
    return faults;
}

static struct answers wanted;

static void *work(void *wrong) {
    struct answers *found = malloc(sizeof *found);
    for (int turn = 0; found && turn < 20; turn++)
        if (fill(found) || memcmp(found, &wanted, sizeof wanted)) ++*(int *)wrong;
    if (!found) ++*(int *)wrong;
    free(found);
    return NULL;
}

int main(void) {
    for (int c = 0; c < CARRIERS; c++) {
        for (int k = 0; k < 4; k++) channels[c].diagonal[k] = (uint16_t)(800 + drawn(400));
        for (int k = 0; k < 6; k++) channels[c].above[k] = (mizgaure_tap){(int16_t)(drawn(601) - 300), (int16_t)(drawn(601) - 300)};
    }
    for (int c = 0; c < SAMPLES; c++)
        for (int k = 0; k < 4; k++) received[c].samples[k] = (mizgaure_sample){drawn(12001) - 6000, drawn(12001) - 6000};
    if (fill(&wanted)) return puts("a call has a fault"), 2;
    pthread_t threads[4];
    int wrong[4] = {0}, all = 0;
    for (int k = 0; k < 4; k++)
        if (pthread_create(threads + k, NULL, work, wrong + k)) return 2;
    for (int k = 0; k < 4; k++) pthread_join(threads[k], NULL), all += wrong[k];
    if (all) printf("%d wrong answers\n", all);
    return all > 0;
}
