/* Each call once on what the standard or arithmetic says, and each fault, with what it leaves. */
#include "mizgaure.h"

#include <stdio.h>
#include <stdlib.h>
#include <string.h>

static int passed, failed;

#define EXPECT(fact)                                                 \
    do {                                                             \
        if (fact) {                                                  \
            passed++;                                                \
        } else {                                                     \
            failed++;                                                \
            printf("%s:%d: not so: %s\n", __FILE__, __LINE__, #fact); \
        }                                                            \
    } while (0)

/* Whether the octets are all `mark`, as they were before a call that did nothing. */
static bool kept(const void *octets, size_t n, int mark) {
    for (size_t k = 0; k < n; k++)
        if (((const unsigned char *)octets)[k] != mark) return false;
    return true;
}

/* The sequence of the seed of all ones (clause 18.3.5.5). */
static const char *const SEQUENCE = "0000111011110010110010010000001000100110001011101011011000001100"
                                    "110101001110011110110100001010101111101001010001101110001111111";

static void scrambler(void) {
    bool bits[127] = {0};
    uint8_t seed = 99;
    EXPECT(mizgaure_scramble(127, bits, 127) == MIZGAURE_DONE);
    for (int k = 0; k < 127; k++) EXPECT(bits[k] == (SEQUENCE[k] == '1'));
    EXPECT(mizgaure_recover(bits, 7, &seed) == MIZGAURE_DONE && seed == 127);
    EXPECT(mizgaure_scramble(127, bits, 127) == MIZGAURE_DONE && kept(bits, 127, 0));
    EXPECT(mizgaure_scramble(0, bits, 127) == MIZGAURE_NO_SEED && mizgaure_scramble(128, bits, 127) == MIZGAURE_NO_SEED);
    EXPECT(kept(bits, 127, 0));
    seed = 99;
    EXPECT(mizgaure_recover(bits, 7, &seed) == MIZGAURE_NO_SEED && mizgaure_recover(bits, 6, &seed) == MIZGAURE_BAD_LENGTH);
    EXPECT(mizgaure_recover(bits, 8, &seed) == MIZGAURE_BAD_LENGTH && seed == 99);
}

static void code(void) {
    /* The answer to a single 1 has the generators 133 and 171 (clause 18.3.5.6). */
    const bool one[7] = {1};
    const bool answer[14] = {1, 1, 0, 1, 1, 1, 1, 1, 0, 0, 1, 0, 1, 1};
    bool coded[14];
    EXPECT(mizgaure_encode(0, one, 7, coded, 14) == MIZGAURE_DONE && !memcmp(coded, answer, 14));
    /* At rate 3/4 A1 B1 A2 B3 stand of three steps (clause 18.3.5.6). */
    const bool three[4] = {1, 1, 0, 1};
    memset(coded, 1, 14);
    EXPECT(mizgaure_encode(2, one, 3, coded, 4) == MIZGAURE_DONE && !memcmp(coded, three, 4) && coded[4]);
    memset(coded, 1, 14);
    EXPECT(mizgaure_encode(4, one, 7, coded, 14) == MIZGAURE_NO_PATTERN && mizgaure_encode(0, one, 7, coded, 13) == MIZGAURE_BAD_LENGTH);
    EXPECT(mizgaure_encode(0, one, 6, coded, 14) == MIZGAURE_BAD_LENGTH && kept(coded, 14, 1));

    enum { STEPS = 606 };
    bool input[STEPS] = {0}, sent[2 * STEPS], found[STEPS];
    uint8_t received[2 * STEPS];
    int32_t weights[2 * STEPS];
    uint32_t distance = 77;
    uint64_t cost = 77;
    for (int k = 0; k < STEPS - 6; k++) input[k] = k * k % 7 < 3;
    EXPECT(mizgaure_encode(0, input, STEPS, sent, 2 * STEPS) == MIZGAURE_DONE);
    for (int k = 0; k < 2 * STEPS; k++) received[k] = sent[k], weights[k] = sent[k] ? 10 : -10;
    received[100] ^= 1, received[500] ^= 1, received[300] = 255, received[301] = 2;
    weights[100] = -weights[100], weights[700] = 0;
    EXPECT(mizgaure_decode(0, received, 2 * STEPS, found, STEPS, &distance) == MIZGAURE_DONE);
    EXPECT(distance == 2 && !memcmp(found, input, STEPS));
    EXPECT(mizgaure_soft_decode(0, weights, 2 * STEPS, found, STEPS, &cost) == MIZGAURE_DONE);
    EXPECT(cost == 10 && !memcmp(found, input, STEPS));
    /* An erasure counts for nothing, so the codeword of zeros is at no distance from nothing but erasures and zeros. */
    uint8_t zeros[12] = {0, 255, 0, 255, 0, 0, 9, 0, 0, 0, 0, 0};
    EXPECT(mizgaure_decode(0, zeros, 12, found, 6, &distance) == MIZGAURE_DONE && distance == 0 && kept(found, 6, 0));

    memset(found, 1, STEPS), distance = 77, cost = 77;
    EXPECT(mizgaure_decode(4, received, 2 * STEPS, found, STEPS, &distance) == MIZGAURE_NO_PATTERN);
    EXPECT(mizgaure_decode(0, received, 2 * STEPS - 1, found, STEPS, &distance) == MIZGAURE_BAD_LENGTH);
    EXPECT(mizgaure_decode(0, received, 10, found, 5, &distance) == MIZGAURE_BAD_LENGTH);
    static uint8_t long_received[2 * 524303];
    static bool long_found[524303];
    EXPECT(mizgaure_decode(0, long_received, sizeof long_received, long_found, sizeof long_found, &distance) == MIZGAURE_BAD_LENGTH);
    static int32_t long_weights[2 * 524303];
    EXPECT(mizgaure_soft_decode(0, long_weights, 2 * 524303, long_found, 524303, &cost) == MIZGAURE_BAD_LENGTH);
    EXPECT(mizgaure_soft_decode(0, weights, 10, found, 5, &cost) == MIZGAURE_BAD_LENGTH);
    EXPECT(mizgaure_soft_decode(4, weights, 2 * STEPS, found, STEPS, &cost) == MIZGAURE_NO_PATTERN);
    EXPECT(mizgaure_soft_decode(0, weights, 2 * STEPS - 1, found, STEPS, &cost) == MIZGAURE_BAD_LENGTH);
    EXPECT(kept(found, STEPS, 1) && distance == 77 && cost == 77);
}

static void interleaver(void) {
    /* BPSK at 20 MHz: bit k stands at N_ROW * (k mod 13) + floor(k / 13), with 4 rows (clause 20.3.11.8.3). */
    uint16_t places[52], origins[52];
    EXPECT(mizgaure_places(0, 0, 1, places, 52) == MIZGAURE_DONE && mizgaure_origins(0, 0, 1, origins, 52) == MIZGAURE_DONE);
    for (int k = 0; k < 52; k++) EXPECT(places[k] == 4 * (k % 13) + k / 13 && origins[places[k]] == k);
    memset(places, 0x55, sizeof places);
    EXPECT(mizgaure_places(2, 0, 1, places, 52) == MIZGAURE_NO_RATE && mizgaure_places(0, 32, 1, places, 52) == MIZGAURE_NO_RATE);
    EXPECT(mizgaure_places(0, 0, 0, places, 52) == MIZGAURE_NO_STREAM && mizgaure_places(0, 0, 2, places, 52) == MIZGAURE_NO_STREAM);
    EXPECT(mizgaure_places(0, 0, 1, places, 51) == MIZGAURE_BAD_LENGTH && mizgaure_origins(0, 1, 1, places, 52) == MIZGAURE_BAD_LENGTH);
    EXPECT(mizgaure_origins(0, 0, 2, places, 52) == MIZGAURE_NO_STREAM && mizgaure_origins(9, 0, 1, places, 52) == MIZGAURE_NO_RATE);
    EXPECT(kept(places, sizeof places, 0x55));
}

static void mapping(void) {
    /* 64-QAM: 100 names 7 and 000 names -7 (table 18-11). */
    const uint8_t labels[3] = {32, 0, 63};
    const mizgaure_point wanted[3] = {{7, -7}, {-7, -7}, {3, 3}};
    mizgaure_point points[3];
    uint8_t back[3];
    EXPECT(mizgaure_points(6, labels, 3, points, 3) == MIZGAURE_DONE && !memcmp(points, wanted, sizeof wanted));
    EXPECT(mizgaure_labels(6, points, 3, back, 3) == MIZGAURE_DONE && !memcmp(back, labels, 3));
    memset(points, 0x55, sizeof points), memset(back, 0x55, sizeof back);
    EXPECT(mizgaure_points(3, labels, 3, points, 3) == MIZGAURE_NO_MODULATION && mizgaure_points(6, labels, 3, points, 2) == MIZGAURE_BAD_LENGTH);
    EXPECT(mizgaure_points(4, labels, 3, points, 3) == MIZGAURE_NO_LABEL && kept(points, sizeof points, 0x55));
    EXPECT(mizgaure_labels(0, wanted, 3, back, 3) == MIZGAURE_NO_MODULATION && mizgaure_labels(6, wanted, 3, back, 2) == MIZGAURE_BAD_LENGTH);
    EXPECT(mizgaure_labels(4, wanted, 3, back, 3) == MIZGAURE_NO_POINT && kept(back, sizeof back, 0x55));

    /* Symbol 0 at 20 MHz on one stream: the polarity p3 is 1, and the pilot k where (0 + k + 1) mod 4 is 0 has the other sign. */
    int8_t pilots[6];
    memset(pilots, 0x55, sizeof pilots);
    EXPECT(mizgaure_pilots(2, 0, 0, 1, pilots, 4) == MIZGAURE_NO_RATE && mizgaure_pilots(0, 0, 0, 2, pilots, 4) == MIZGAURE_NO_STREAM);
    EXPECT(mizgaure_pilots(0, 0, 0, 1, pilots, 6) == MIZGAURE_BAD_LENGTH && mizgaure_pilots(1, 0, 0, 1, pilots, 4) == MIZGAURE_BAD_LENGTH);
    EXPECT(kept(pilots, sizeof pilots, 0x55));
    EXPECT(mizgaure_pilots(0, 0, 0, 1, pilots, 4) == MIZGAURE_DONE);
    EXPECT(pilots[0] == 1 && pilots[1] == 1 && pilots[2] == 1 && pilots[3] == -1);
}

/* Clause 18.3.5.7 at 6 Mbit/s: bit k stands at 3 * (k mod 16) + floor(k / 16). Clause 18.3.5.9: p1 to p3 of the polarity are 1, 1
 * and 1, and p4 is -1; the highest pilot has the other sign. */
static void legacy(void) {
    uint16_t places[48], origins[48];
    int8_t pilots[4];
    EXPECT(mizgaure_legacy_places(0, places, 48) == MIZGAURE_DONE && mizgaure_legacy_origins(0, origins, 48) == MIZGAURE_DONE);
    for (int k = 0; k < 48; k++) EXPECT(places[k] == 3 * (k % 16) + k / 16 && origins[places[k]] == k);
    EXPECT(mizgaure_legacy_pilots(0, pilots, 4) == MIZGAURE_DONE && pilots[0] == 1 && pilots[1] == 1 && pilots[2] == 1 && pilots[3] == -1);
    EXPECT(mizgaure_legacy_pilots(3, pilots, 4) == MIZGAURE_DONE && pilots[0] == -1 && pilots[3] == 1);
    const uint8_t octet = 0xa5;
    mizgaure_point points[104];
    EXPECT(mizgaure_legacy_transmit(0, 127, &octet, 1, points, 104) == MIZGAURE_DONE && points[0].i == -1 && points[0].q == 0);
    /* In BPSK a label is 1 where I is. The pilots are -21, -7, 7 and 21 of -26 to 26 without 0. */
    uint8_t labels[96], back = 77;
    uint32_t differences = 77;
    for (int k = 0, at = 0; k < 104; k++)
        if (k % 52 != 5 && k % 52 != 19 && k % 52 != 32 && k % 52 != 46) labels[at++] = points[k].i == 1;
    EXPECT(mizgaure_legacy_decode_frame(0, labels, 96, &back, 1, &differences) == MIZGAURE_DONE && back == 0xa5 && differences == 0);
    labels[7] ^= 1;
    EXPECT(mizgaure_legacy_decode_frame(0, labels, 96, &back, 1, &differences) == MIZGAURE_DONE && back == 0xa5 && differences == 1);
    back = 77, differences = 77;
    EXPECT(mizgaure_legacy_decode_frame(8, labels, 96, &back, 1, &differences) == MIZGAURE_NO_RATE);
    EXPECT(mizgaure_legacy_decode_frame(0, labels, 95, &back, 1, &differences) == MIZGAURE_BAD_LENGTH);
    EXPECT(mizgaure_legacy_decode_frame(0, labels, 0, &back, 0, &differences) == MIZGAURE_BAD_LENGTH);
    /* 4096 octets would take 1367 symbols. */
    static uint8_t many_labels[1367 * 48], many_octets[4096];
    static mizgaure_point many_points[1367 * 52];
    EXPECT(mizgaure_legacy_decode_frame(0, many_labels, sizeof many_labels, many_octets, 4096, &differences) == MIZGAURE_BAD_LENGTH);
    EXPECT(mizgaure_legacy_transmit(0, 127, many_octets, 4096, many_points, 1367 * 52) == MIZGAURE_BAD_LENGTH);
    EXPECT(mizgaure_legacy_transmit(0, 127, many_octets, 0, many_points, 52) == MIZGAURE_BAD_LENGTH);
    EXPECT(kept(many_octets, sizeof many_octets, 0) && kept(many_points, sizeof many_points, 0));
    memset(labels, 0, 96);
    EXPECT(mizgaure_legacy_decode_frame(0, labels, 96, &back, 1, &differences) == MIZGAURE_NO_SEED && back == 77 && differences == 77);
    memset(places, 0x55, sizeof places), memset(points, 0x55, sizeof points), memset(pilots, 0x55, sizeof pilots);
    EXPECT(mizgaure_legacy_places(8, places, 48) == MIZGAURE_NO_RATE && mizgaure_legacy_places(0, places, 47) == MIZGAURE_BAD_LENGTH);
    EXPECT(mizgaure_legacy_origins(8, places, 48) == MIZGAURE_NO_RATE && mizgaure_legacy_origins(2, places, 48) == MIZGAURE_BAD_LENGTH);
    EXPECT(mizgaure_legacy_transmit(8, 127, &octet, 1, points, 104) == MIZGAURE_NO_RATE);
    EXPECT(mizgaure_legacy_transmit(0, 128, &octet, 1, points, 104) == MIZGAURE_NO_SEED);
    EXPECT(mizgaure_legacy_transmit(0, 127, &octet, 1, points, 52) == MIZGAURE_BAD_LENGTH && mizgaure_legacy_pilots(0, pilots, 3) == MIZGAURE_BAD_LENGTH);
    EXPECT(kept(places, sizeof places, 0x55) && kept(points, sizeof points, 0x55) && kept(pilots, sizeof pilots, 0x55));
}

static void parser(void) {
    /* Two streams of 64-QAM: s = 3 bits go to a stream at a time (clause 20.3.11.8.2). */
    enum { N = 624 };
    bool first[N], bits[N], back[N];
    for (int k = 0; k < N; k++) first[k] = k * k % 11 < 4;
    EXPECT(mizgaure_lay(0, 13, first, N, first, 0, bits, N) == MIZGAURE_DONE);
    for (int k = 0; k < N; k++) EXPECT(bits[k / 3 % 2 * 312 + k / 6 * 3 + k % 3] == first[k]);
    EXPECT(mizgaure_gather(0, 13, bits, N, back, N, back, 0) == MIZGAURE_DONE && !memcmp(back, first, N));
    /* Four streams at 40 MHz with two encoders: these take turns, each with 3 bits for each stream. */
    enum { ALL = 2592, HALF = ALL / 2, STREAM = ALL / 4 };
    static bool halves[2][HALF], laid[ALL], again[2][HALF];
    for (int k = 0; k < ALL; k++) halves[k / HALF][k % HALF] = k * k % 11 < 4;
    EXPECT(mizgaure_lay(1, 31, halves[0], HALF, halves[1], HALF, laid, ALL) == MIZGAURE_DONE);
    bool in_turn = true;
    for (int k = 0; k < ALL; k++) in_turn = in_turn && laid[k / 3 % 4 * STREAM + k / 12 * 3 + k % 3] == halves[k / 12 % 2][k / 24 * 12 + k % 12];
    EXPECT(in_turn);
    EXPECT(mizgaure_gather(1, 31, laid, ALL, again[0], HALF, again[1], HALF) == MIZGAURE_DONE && !memcmp(again, halves, ALL));
    memset(again, 1, ALL);
    EXPECT(mizgaure_gather(1, 31, laid, ALL, again[0], HALF, again[1], HALF - 1) == MIZGAURE_BAD_LENGTH && kept(again, ALL, 1));
    EXPECT(mizgaure_lay(1, 31, halves[0], HALF, halves[1], 0, again[0], ALL) == MIZGAURE_BAD_LENGTH && kept(again, ALL, 1));
    memset(back, 1, N);
    EXPECT(mizgaure_lay(2, 13, first, N, first, 0, back, N) == MIZGAURE_NO_RATE && mizgaure_lay(0, 13, first, N, first, 1, back, N) == MIZGAURE_BAD_LENGTH);
    EXPECT(mizgaure_gather(0, 13, bits, N - 1, back, N, back, 0) == MIZGAURE_BAD_LENGTH);
    EXPECT(mizgaure_gather(0, 99, bits, N, back, N, back, 0) == MIZGAURE_NO_RATE);
    EXPECT(kept(back, N, 1));
}

/* Two encoders get a bit each in turn, and one gets all (clause 20.3.11.5). */
static void encoders(void) {
    const bool bits[6] = {0, 1, 1, 0, 1, 0};
    bool first[6], second[6], back[6];
    EXPECT(mizgaure_split(1, 31, bits, 6, first, 3, second, 3) == MIZGAURE_DONE);
    for (int k = 0; k < 3; k++) EXPECT(first[k] == bits[2 * k] && second[k] == bits[2 * k + 1]);
    EXPECT(mizgaure_join(1, 31, first, 3, second, 3, back, 6) == MIZGAURE_DONE && !memcmp(back, bits, 6));
    EXPECT(mizgaure_split(0, 31, bits, 5, first, 5, second, 0) == MIZGAURE_DONE && !memcmp(first, bits, 5));
    memset(back, 1, 6);
    EXPECT(mizgaure_join(0, 31, first, 5, second, 0, back, 5) == MIZGAURE_DONE && !memcmp(back, bits, 5) && back[5]);
    memset(first, 1, 6), memset(second, 1, 6), memset(back, 1, 6);
    EXPECT(mizgaure_split(2, 31, bits, 6, first, 3, second, 3) == MIZGAURE_NO_RATE && mizgaure_split(1, 32, bits, 6, first, 3, second, 3) == MIZGAURE_NO_RATE);
    EXPECT(mizgaure_split(1, 31, bits, 5, first, 2, second, 2) == MIZGAURE_BAD_LENGTH);
    EXPECT(mizgaure_split(1, 31, bits, 6, first, 3, second, 2) == MIZGAURE_BAD_LENGTH);
    EXPECT(mizgaure_split(0, 31, bits, 6, first, 3, second, 3) == MIZGAURE_BAD_LENGTH);
    EXPECT(mizgaure_split(0, 31, bits, 6, first, 6, second, 1) == MIZGAURE_BAD_LENGTH);
    EXPECT(mizgaure_join(2, 31, bits, 3, bits, 3, back, 6) == MIZGAURE_NO_RATE && mizgaure_join(1, 31, bits, 3, bits, 2, back, 6) == MIZGAURE_BAD_LENGTH);
    EXPECT(mizgaure_join(1, 31, bits, 3, bits, 3, back, 5) == MIZGAURE_BAD_LENGTH);
    EXPECT(mizgaure_join(1, 31, bits, SIZE_MAX / 2, bits, SIZE_MAX / 2, back, 6) == MIZGAURE_BAD_LENGTH);
    EXPECT(kept(first, 6, 1) && kept(second, 6, 1) && kept(back, 6, 1));
}

/* The job that docs/CERTIFICATES.md takes by hand: BPSK through 10, and 3 - 4i was received. */
static void certificates(void) {
    mizgaure_channel channel = {{10}, {{0, 0}}};
    mizgaure_received received = {{{3, -4}}};
    mizgaure_hit hit;
    mizgaure_flaw flaw = {77, 77, 77};
    bool marks[5] = {1, 1, 1, 1, 1};
    uint64_t size = 77;
    EXPECT(mizgaure_certify_job(0, 0, &channel, &received, &hit, marks, 5, &size) == MIZGAURE_DONE && size == 3);
    EXPECT(marks[0] && !marks[1] && marks[2] && marks[3] && marks[4]);
    EXPECT(hit.points[0].i == 1 && hit.points[0].q == 0 && kept(hit.points + 1, 6, 0) && hit.low == 65 && hit.high == 0);
    EXPECT(mizgaure_check_job(0, 0, &channel, &received, &hit, marks, 3, &flaw) == MIZGAURE_DONE);
    EXPECT(mizgaure_check_job(2, 0, &channel, &received, &hit, marks, 3, &flaw) == MIZGAURE_NO_RATE);
    EXPECT(flaw.kind == 77 && flaw.low == 77 && flaw.high == 77);
    static const struct { int8_t i; uint64_t distance; bool marks[4]; size_t n; uint32_t kind; uint64_t at; } wrong[] = {
        {-1, 185, {1, 1, 1}, 3, 4, 2}, {1, 64, {1, 0, 1}, 3, 2, 65},      {1, 65, {0}, 1, 3, 0},
        {1, 65, {1, 0}, 2, 5, 2},      {1, 65, {1, 0, 1, 1}, 4, 6, 3}, {0, 65, {1, 0, 1}, 3, 1, 1},
    };
    for (size_t k = 0; k < sizeof wrong / sizeof *wrong; k++) {
        mizgaure_hit claimed = {{{wrong[k].i, 0}}, wrong[k].distance, 0};
        EXPECT(mizgaure_check_job(0, 0, &channel, &received, &claimed, wrong[k].marks, wrong[k].n, &flaw) == MIZGAURE_NOT_CERTIFIED);
        EXPECT(flaw.kind == wrong[k].kind && flaw.low == wrong[k].at && flaw.high == 0);
    }
    memset(&hit, 0x55, sizeof hit), memset(marks, 1, 5), size = 77;
    EXPECT(mizgaure_certify_job(0, 0, &channel, &received, &hit, marks, 2, &size) == MIZGAURE_NO_ROOM && size == 3);
    size = 77;
    EXPECT(mizgaure_certify_job(0, 32, &channel, &received, &hit, marks, 5, &size) == MIZGAURE_NO_RATE && size == 77);
    EXPECT(kept(&hit, sizeof hit, 0x55) && kept(marks, 5, 1));
}

static void detector(void) {
    mizgaure_channel channel = {{10, 10, 0, 0}, {{1, 2}}};
    mizgaure_received received = {{{7, -11}, {-10, 10}}};
    mizgaure_hit hit, hits[4];
    /* y1 = 10 (1 - i) + (1 + 2i)(-1 + i) and y2 = 10 (-1 + i), exactly. */
    EXPECT(mizgaure_nearest(0, 9, &channel, &received, &hit) == MIZGAURE_DONE);
    EXPECT(hit.points[0].i == 1 && hit.points[0].q == -1 && hit.points[1].i == -1 && hit.points[1].q == 1);
    EXPECT(kept(hit.points + 2, 4, 0) && hit.low == 0 && hit.high == 0);
    received.samples[1].re += 3;
    EXPECT(mizgaure_nearest(0, 9, &channel, &received, &hit) == MIZGAURE_DONE && hit.low == 9 && hit.high == 0);
    /* Without a channel all vectors are as far: eight squares of 2^31 are 2^65, and the lowest levels are first. */
    mizgaure_channel none = {{0}, {{0, 0}}};
    mizgaure_received far = {{{INT32_MIN, INT32_MIN}, {INT32_MIN, INT32_MIN}, {INT32_MIN, INT32_MIN}, {INT32_MIN, INT32_MIN}}};
    EXPECT(mizgaure_nearest(1, 31, &none, &far, &hit) == MIZGAURE_DONE && hit.low == 0 && hit.high == 2);
    EXPECT(kept(hit.points, 8, (unsigned char)-7));

    /* Two streams without a channel are 2^64 off, and three such hits with the 9 above 3 * 2^64 + 9. */
    mizgaure_channel channels[2] = {channel, none};
    mizgaure_received samples[4] = {received, far, far, far};
    uint8_t labels[8];
    mizgaure_distance sums[2];
    samples[2] = received, samples[2].samples[0].re++;
    EXPECT(mizgaure_detect_symbols(0, 9, channels, 2, samples, 4, hits, 4, labels, 8, sums, 2) == MIZGAURE_DONE);
    EXPECT(hits[0].low == 9 && hits[1].high == 1 && hits[1].low == 0 && hits[2].low == 10 && hits[3].high == 1);
    EXPECT(sums[0].low == 9 && sums[0].high == 1 && sums[1].low == 10 && sums[1].high == 1);
    /* In QPSK the first bit is 1 where I is, and the second where Q is (table 18-9). */
    const uint8_t wanted[8] = {2, 1, 0, 0, 2, 1, 0, 0};
    EXPECT(!memcmp(labels, wanted, 8));
    EXPECT(mizgaure_detect_symbols(0, 9, &none, 1, samples, 4, MIZGAURE_EMPTY, 0, MIZGAURE_EMPTY, 0, sums, 1) == MIZGAURE_BAD_LENGTH);
    /* Received exactly: of a bit that is 1 the least distance with 0 is that to the next point, at least 400 off. */
    int32_t weights[8] = {0};
    mizgaure_received exact = {{{7, -11}, {-10, 10}}};
    EXPECT(mizgaure_weigh_symbols(0, 9, &channel, 1, &exact, 1, weights, 4) == MIZGAURE_DONE);
    EXPECT(weights[0] == 400 && weights[1] == -400 && weights[2] < 0 && weights[3] > 0 && weights[4] == 0);
    memset(weights, 0x55, sizeof weights);
    EXPECT(mizgaure_weigh_symbols(0, 32, &channel, 1, &exact, 1, weights, 4) == MIZGAURE_NO_RATE);
    EXPECT(mizgaure_weigh_symbols(2, 9, &channel, 1, &exact, 1, weights, 4) == MIZGAURE_NO_RATE);
    EXPECT(mizgaure_weigh_symbols(0, 9, &channel, 1, &exact, 1, weights, 5) == MIZGAURE_BAD_LENGTH);
    EXPECT(mizgaure_weigh_symbols(0, 9, channels, 2, &exact, 1, weights, 4) == MIZGAURE_BAD_LENGTH);
    EXPECT(mizgaure_weigh_symbols(0, 9, &channel, 0, &exact, 1, weights, 4) == MIZGAURE_BAD_LENGTH && kept(weights, sizeof weights, 0x55));
    memset(hits, 0x55, sizeof hits);
    EXPECT(mizgaure_nearest(2, 0, &channel, &received, hits) == MIZGAURE_NO_RATE && mizgaure_nearest(0, 32, &channel, &received, hits) == MIZGAURE_NO_RATE);
    EXPECT(kept(hits, sizeof hits, 0x55));
}

/* A number of 0 to below - 1. */
static int drawn(int below) {
    static uint32_t state = 1;
    state = state * 1664525u + 1013904223u;
    return (int)((state >> 8) % (unsigned)below);
}

/* Each constellation with each number of streams: what detect_symbols writes is what nearest and labels say one by one, and distances
 * added up, whichever of its outputs are left out. 21 samples are two eights and some more. */
static void symbols(void) {
    enum { CARRIERS = 7, SYMBOLS = 3, N = CARRIERS * SYMBOLS };
    static const uint8_t of_bits[4] = {0, 1, 3, 5}, bits[4] = {1, 2, 4, 6}; /* the lowest MCS index with labels of so many bits */
    mizgaure_channel channels[CARRIERS];
    mizgaure_received received[N];
    mizgaure_hit hits[N], wanted_hits[N];
    uint8_t labels[4 * N], wanted_labels[4 * N];
    mizgaure_distance sums[SYMBOLS], wanted_sums[SYMBOLS];
    for (int kind = 0; kind < 16; kind++) {
        uint8_t mcs = (uint8_t)(kind / 4 * 8 + of_bits[kind % 4]);
        size_t streams = mcs / 8 + 1;
        mizgaure_point points[4 * N];
        for (int c = 0; c < CARRIERS; c++) {
            for (int k = 0; k < 4; k++) channels[c].diagonal[k] = (uint16_t)(64 + drawn(192));
            for (int k = 0; k < 6; k++) channels[c].above[k] = (mizgaure_tap){(int16_t)(drawn(129) - 64), (int16_t)(drawn(129) - 64)};
            /* Where all vectors are as far each is looked at; of four streams of 64-QAM these are too many for 27 walks. */
            if (c == 5 && kind < 15) memset(channels + c, 0, sizeof *channels);
            if (c == 5 && kind == 15) channels[c].diagonal[3] = 0;
        }
        memset(wanted_sums, 0, sizeof wanted_sums);
        for (int n = 0; n < N; n++) {
            for (int k = 0; k < 4; k++) received[n].samples[k] = (mizgaure_sample){drawn(3001) - 1500, drawn(3001) - 1500};
            if (n % 7 == 3) received[n].samples[0].re = INT32_MIN, received[n].samples[streams - 1].im = INT32_MAX;
            EXPECT(mizgaure_nearest(mcs % 2, mcs, channels + n % CARRIERS, received + n, wanted_hits + n) == MIZGAURE_DONE);
            memcpy(points + n * streams, wanted_hits[n].points, streams * sizeof *points);
            mizgaure_distance *sum = wanted_sums + n / CARRIERS;
            sum->low += wanted_hits[n].low;
            sum->high += wanted_hits[n].high + (sum->low < wanted_hits[n].low);
        }
        EXPECT(mizgaure_labels(bits[kind % 4], points, N * streams, wanted_labels, N * streams) == MIZGAURE_DONE);
        for (int which = 0; which < 8; which++) {
            bool with_hits = which & 1, with_labels = which & 2, with_sums = which & 4;
            memset(hits, 0x55, sizeof hits), memset(labels, 0x55, sizeof labels), memset(sums, 0x55, sizeof sums);
            EXPECT(mizgaure_detect_symbols(mcs % 2, mcs, channels, CARRIERS, received, N, with_hits ? hits : MIZGAURE_EMPTY, with_hits ? N : 0,
                                           with_labels ? labels : MIZGAURE_EMPTY, with_labels ? N * streams : 0,
                                           with_sums ? sums : MIZGAURE_EMPTY, with_sums ? SYMBOLS : 0) == MIZGAURE_DONE);
            EXPECT(with_hits ? !memcmp(hits, wanted_hits, sizeof hits) : kept(hits, sizeof hits, 0x55));
            EXPECT(with_labels ? !memcmp(labels, wanted_labels, N * streams) : kept(labels, N * streams, 0x55));
            EXPECT(kept(labels + N * streams, sizeof labels - N * streams, 0x55));
            EXPECT(with_sums ? !memcmp(sums, wanted_sums, sizeof sums) : kept(sums, sizeof sums, 0x55));
        }
    }

    /* No sample is a symbol of no channel, and no samples are none. */
    memset(hits, 0x55, sizeof hits), memset(labels, 0x55, sizeof labels), memset(sums, 0x55, sizeof sums);
    EXPECT(mizgaure_detect_symbols(0, 9, channels, 2, received, 0, hits, 0, labels, 0, sums, 0) == MIZGAURE_DONE);
    EXPECT(mizgaure_detect_symbols(0, 9, channels, 0, received, 0, hits, 0, labels, 0, sums, 0) == MIZGAURE_BAD_LENGTH);
    /* Six samples over two channels at two streams: 6 hits, 12 labels and 3 sums, and no other numbers but 0. */
    static const struct { uint8_t bandwidth, mcs; size_t channels, received, hits, labels, sums; uint32_t fault; } wrong[] = {
        {2, 9, 2, 6, 6, 12, 3, MIZGAURE_NO_RATE},     {0, 32, 2, 6, 6, 12, 3, MIZGAURE_NO_RATE},    {255, 255, 0, 5, 1, 1, 1, MIZGAURE_NO_RATE},
        {0, 9, 0, 6, 6, 12, 3, MIZGAURE_BAD_LENGTH},  {0, 9, 2, 5, 5, 10, 2, MIZGAURE_BAD_LENGTH},  {0, 9, 4, 6, 6, 12, 1, MIZGAURE_BAD_LENGTH},
        {0, 9, 2, 6, 5, 12, 3, MIZGAURE_BAD_LENGTH},  {0, 9, 2, 6, 7, 12, 3, MIZGAURE_BAD_LENGTH},  {0, 9, 2, 6, 6, 11, 3, MIZGAURE_BAD_LENGTH},
        {0, 9, 2, 6, 6, 6, 3, MIZGAURE_BAD_LENGTH},   {0, 9, 2, 6, 6, 13, 3, MIZGAURE_BAD_LENGTH},  {0, 9, 2, 6, 6, 12, 2, MIZGAURE_BAD_LENGTH},
        {0, 9, 2, 6, 6, 12, 6, MIZGAURE_BAD_LENGTH},  {0, 9, 2, 6, 0, 24, 0, MIZGAURE_BAD_LENGTH},  {0, 9, 2, 6, 0, 0, 1, MIZGAURE_BAD_LENGTH},
        {0, 1, 2, 6, 6, 12, 3, MIZGAURE_BAD_LENGTH},  {0, 17, 2, 6, 6, 12, 3, MIZGAURE_BAD_LENGTH}, {0, 9, 2, 0, 1, 0, 0, MIZGAURE_BAD_LENGTH},
        {0, 9, 2, 0, 0, 1, 0, MIZGAURE_BAD_LENGTH},   {0, 9, 2, 0, 0, 0, 1, MIZGAURE_BAD_LENGTH},
    };
    for (size_t k = 0; k < sizeof wrong / sizeof *wrong; k++)
        EXPECT(mizgaure_detect_symbols(wrong[k].bandwidth, wrong[k].mcs, channels, wrong[k].channels, received, wrong[k].received, hits,
                                       wrong[k].hits, labels, wrong[k].labels, sums, wrong[k].sums) == wrong[k].fault);
    EXPECT(kept(hits, sizeof hits, 0x55) && kept(labels, sizeof labels, 0x55) && kept(sums, sizeof sums, 0x55));
}

/* A frame of two symbols at MCS 1, 20 MHz: sent, its labels read from its points, and decoded. */
static void frames(void) {
    enum { OCTETS = 10, SYMBOLS = 2, CARRIERS = 56, DATA = 52 };
    static const int pilots[4] = {7, 21, 34, 48}; /* -21, -7, 7 and 21 of -28 to 28 without 0 */
    uint8_t octets[OCTETS], back[OCTETS], labels[SYMBOLS * DATA];
    mizgaure_point points[SYMBOLS * CARRIERS], data[SYMBOLS * DATA];
    uint32_t differences = 77;
    for (int k = 0; k < OCTETS; k++) octets[k] = (uint8_t)(17 * k + 3);
    EXPECT(mizgaure_transmit(0, 1, 93, octets, OCTETS, points, SYMBOLS * CARRIERS) == MIZGAURE_DONE);
    for (int k = 0, at = 0, pilot = 0; k < SYMBOLS * CARRIERS; k++) {
        if (k % CARRIERS == pilots[pilot % 4])
            pilot++;
        else
            data[at++] = points[k];
    }
    EXPECT(mizgaure_labels(2, data, SYMBOLS * DATA, labels, SYMBOLS * DATA) == MIZGAURE_DONE);
    EXPECT(mizgaure_decode_frame(0, 1, 0, 0, labels, SYMBOLS * DATA, back, OCTETS, &differences) == MIZGAURE_DONE);
    EXPECT(differences == 0 && !memcmp(octets, back, OCTETS));
    labels[0] ^= 1;
    EXPECT(mizgaure_decode_frame(0, 1, 0, 0, labels, SYMBOLS * DATA, back, OCTETS, &differences) == MIZGAURE_DONE);
    EXPECT(differences == 1 && !memcmp(octets, back, OCTETS));
    /* Where its subcarrier is erased, the wrong label counts for nothing. */
    EXPECT(mizgaure_decode_frame(0, 1, 1, 0, labels, SYMBOLS * DATA, back, OCTETS, &differences) == MIZGAURE_DONE);
    EXPECT(differences == 0 && !memcmp(octets, back, OCTETS));

    int32_t weights[2 * SYMBOLS * DATA];
    mizgaure_cost cost = {77, 77};
    for (int k = 0; k < SYMBOLS * DATA; k++) {
        weights[2 * k] = labels[k] & 2 ? 5 : -5;
        weights[2 * k + 1] = labels[k] & 1 ? 5 : -5;
    }
    EXPECT(mizgaure_soft_frame(0, 1, 0, 0, weights, 2 * SYMBOLS * DATA, back, OCTETS, &cost) == MIZGAURE_DONE);
    EXPECT(cost.low == 5 && cost.high == 0 && !memcmp(octets, back, OCTETS));

    memset(back, 0x55, OCTETS), differences = 77, cost.low = cost.high = 77;
    uint8_t zeros[SYMBOLS * DATA] = {0};
    EXPECT(mizgaure_decode_frame(0, 1, 0, 0, zeros, SYMBOLS * DATA, back, OCTETS, &differences) == MIZGAURE_NO_SEED);
    EXPECT(mizgaure_decode_frame(2, 1, 0, 0, labels, SYMBOLS * DATA, back, OCTETS, &differences) == MIZGAURE_NO_RATE);
    EXPECT(mizgaure_decode_frame(0, 1, 0, 0, labels, SYMBOLS * DATA - 1, back, OCTETS, &differences) == MIZGAURE_BAD_LENGTH);
    EXPECT(mizgaure_decode_frame(0, 1, 0, 0, labels, SYMBOLS * DATA, back, 0, &differences) == MIZGAURE_BAD_LENGTH);
    EXPECT(mizgaure_soft_frame(0, 32, 0, 0, weights, 2 * SYMBOLS * DATA, back, OCTETS, &cost) == MIZGAURE_NO_RATE);
    EXPECT(mizgaure_soft_frame(0, 1, 0, 0, weights, SYMBOLS * DATA, back, OCTETS, &cost) == MIZGAURE_BAD_LENGTH);
    memset(weights, 0, sizeof weights);
    EXPECT(mizgaure_soft_frame(0, 1, 0, 0, weights, 2 * SYMBOLS * DATA, back, OCTETS, &cost) == MIZGAURE_NO_SEED);
    EXPECT(kept(back, OCTETS, 0x55) && differences == 77 && cost.low == 77 && cost.high == 77);
    memset(points, 0x55, sizeof points);
    EXPECT(mizgaure_transmit(2, 1, 93, octets, OCTETS, points, SYMBOLS * CARRIERS) == MIZGAURE_NO_RATE);
    EXPECT(mizgaure_transmit(0, 1, 0, octets, OCTETS, points, SYMBOLS * CARRIERS) == MIZGAURE_NO_SEED);
    EXPECT(mizgaure_transmit(0, 1, 93, octets, 0, points, SYMBOLS * CARRIERS) == MIZGAURE_BAD_LENGTH);
    EXPECT(mizgaure_transmit(0, 1, 93, octets, OCTETS, points, CARRIERS) == MIZGAURE_BAD_LENGTH && kept(points, sizeof points, 0x55));
    /* 65,536 octets are too many for a frame. */
    static uint8_t many_octets[65536];
    EXPECT(mizgaure_transmit(0, 1, 93, many_octets, 65536, points, CARRIERS) == MIZGAURE_BAD_LENGTH && kept(points, sizeof points, 0x55));
    EXPECT(mizgaure_decode_frame(0, 1, 0, 0, labels, SYMBOLS * DATA, many_octets, 65536, &differences) == MIZGAURE_BAD_LENGTH && kept(many_octets, 65536, 0));
    EXPECT(mizgaure_soft_frame(0, 1, 0, 0, weights, 0, back, 0, &cost) == MIZGAURE_BAD_LENGTH && differences == 77 && cost.low == 77);
}

typedef uint32_t texts(const uint8_t *, size_t, uint8_t *, size_t, uint64_t *, mizgaure_refusal *);

/* A capture of one frame whose samples are 0, two symbols of 56 subcarriers with the diagonal 10 (docs/FORMATS.md). */
static size_t zero_capture(uint8_t *into) {
    static const uint8_t head[11] = {'H', 'T', 'C', 'P', 1, 0, 1, 0, 0, 0, 1};
    memcpy(into, head, sizeof head);
    size_t n = sizeof head;
    for (int k = 0; k < 56; k++) into[n++] = 0, into[n++] = 10;
    memset(into + n, 0, 2 * 56 * 8);
    return n + 2 * 56 * 8;
}

static void whole_inputs(void) {
    static uint8_t capture[2048], text[8192];
    size_t n = zero_capture(capture);
    const char *wanted = "frame 0 data 10400 pilot 800 code 0 seed zero\nend 1 frames\n";
    uint64_t size = 77;
    mizgaure_refusal refusal = {77, 77};
    memset(text, 0x55, sizeof text);
    EXPECT(mizgaure_rx(capture, n, text, sizeof text, &size, &refusal) == MIZGAURE_DONE);
    EXPECT(size == strlen(wanted) && !memcmp(text, wanted, size) && kept(text + size, sizeof text - size, 0x55));
    EXPECT(refusal.offset == 77 && refusal.kind == 77);
    /* With the size that suffices no call answers NO_ROOM; that of a capture of version 2 is said by its number of frames too. */
    EXPECT(mizgaure_detect_size(capture, n) == 6 * n && mizgaure_rx_size(capture, n) == 32 + n / 2 && mizgaure_soft_size(capture, n) == 32 + n / 2);
    EXPECT(mizgaure_rx(capture, n, text, mizgaure_rx_size(capture, n), &size, &refusal) == MIZGAURE_DONE);
    EXPECT(mizgaure_soft(capture, n, text, mizgaure_soft_size(capture, n), &size, &refusal) == MIZGAURE_DONE);
    EXPECT(mizgaure_detect(capture, n, text, mizgaure_detect_size(capture, n), &size, &refusal) == MIZGAURE_DONE);
    memcpy(text, capture, 7), text[4] = 2;
    EXPECT(mizgaure_rx_size(text, n) == 32 + 17 * n && mizgaure_rx_size(text, sizeof text) == 32 + 131177);
    EXPECT(mizgaure_soft_size(text, 7) == 32 + 17 * 7 && mizgaure_rx_size(text, 4) == 34 && mizgaure_rx_size(text, 0) == 32);
    size = 77, memset(text, 0x55, sizeof text);
    EXPECT(mizgaure_rx(capture, n, text, strlen(wanted) - 1, &size, &refusal) == MIZGAURE_NO_ROOM && size == strlen(wanted));
    size = 77;
    capture[7] = 2; /* the bandwidth, kind 3 */
    EXPECT(mizgaure_rx(capture, n, text, sizeof text, &size, &refusal) == MIZGAURE_REFUSED && refusal.kind == 3 && refusal.offset == 7);
    capture[7] = 0;
    static texts *const calls[] = {mizgaure_lrx, mizgaure_detect, mizgaure_rx, mizgaure_soft, mizgaure_certify, mizgaure_check,
                                   mizgaure_many, mizgaure_tx, mizgaure_upgrade};
    for (size_t k = 0; k < sizeof calls / sizeof *calls; k++) {
        /* An input that ends early, kind 6, is refused where it ends; the first call's files begin with L, so their magic is bad. */
        refusal.offset = refusal.kind = 77;
        EXPECT(calls[k](capture, 2, text, sizeof text, &size, &refusal) == MIZGAURE_REFUSED);
        EXPECT(refusal.offset == (k == 0 ? 0 : 2) && refusal.kind == (k == 0 ? 1 : 6));
    }
    EXPECT(mizgaure_legacy_pass(1, 0, capture, n, text, sizeof text, &size, &refusal) == MIZGAURE_REFUSED && refusal.kind == 1 && refusal.offset == 0);
    EXPECT(mizgaure_pass(1, 0, capture, n, text, sizeof text, &size, &refusal) == MIZGAURE_REFUSED && refusal.kind == 1 && refusal.offset == 2);
    EXPECT(size == 77 && kept(text, sizeof text, 0x55));
    EXPECT(mizgaure_detect(capture, n, text, sizeof text, &size, &refusal) == MIZGAURE_DONE);
    EXPECT(size > 112 * 10 && !memcmp(text, "job 0 0 0 100 -1 0\n", 19));
    EXPECT(mizgaure_soft(capture, n, text, sizeof text, &size, &refusal) == MIZGAURE_DONE && !memcmp(text, "soft 0 cost 0 seed zero\n", 24));
    /* The certificates of its 104 data jobs hold. */
    static uint8_t file[65536];
    const char *end = "end 104 jobs yes 104\n";
    uint64_t length = 0;
    EXPECT(mizgaure_certify(capture, n, file, sizeof file, &length, &refusal) == MIZGAURE_DONE && !memcmp(file, "HTCT", 4));
    EXPECT(mizgaure_check(file, length, text, sizeof text, &size, &refusal) == MIZGAURE_DONE && !memcmp(text + size - strlen(end), end, strlen(end)));
    /* No frames are passed to no frames. */
    static const uint8_t symbols[7] = {'H', 'T', 'S', 'Y', 1}, passed_on[7] = {'H', 'T', 'C', 'P', 1};
    EXPECT(mizgaure_pass(1, 0, symbols, 7, text, sizeof text, &size, &refusal) == MIZGAURE_DONE && size == 7 && !memcmp(text, passed_on, 7));
    static const uint8_t legacy_frames[7] = {'L', 'G', 'T', 'X', 1}, legacy_passed[7] = {'L', 'G', 'C', 'P', 1};
    EXPECT(mizgaure_legacy_pass(1, 0, legacy_frames, 7, text, sizeof text, &size, &refusal) == MIZGAURE_DONE && size == 7 && !memcmp(text, legacy_passed, 7));
    /* The octet a5 is sent in two symbols of 56 points, the first of which is (-1, 0) (docs/FORMATS.md). */
    static const uint8_t frame[13] = {'H', 'T', 'T', 'X', 1, 0, 1, 0, 0, 0, 1, 127, 0xa5};
    static const uint8_t sent[13] = {'H', 'T', 'S', 'Y', 1, 0, 1, 0, 0, 0, 1, 255, 0};
    EXPECT(mizgaure_tx(frame, 13, text, sizeof text, &size, &refusal) == MIZGAURE_DONE && size == 11 + 224 && !memcmp(text, sent, 13));
    /* In version 2 each subcarrier has a flag (docs/FORMATS.md). */
    static const uint8_t flagged[14] = {'H', 'T', 'C', 'P', 2, 0, 1, 0, 0, 0, 1, 0, 0, 10};
    EXPECT(mizgaure_upgrade(capture, n, text, sizeof text, &size, &refusal) == MIZGAURE_DONE && size == 1075 && !memcmp(text, flagged, 14));
    EXPECT(mizgaure_upgrade(capture, n, text, 1074, &size, &refusal) == MIZGAURE_NO_ROOM && size == 1075);
    static const uint8_t bundle[12] = {'H', 'T', 'M', 'B', 1, 1, 0, 0, 0, 2, 'H', 'X'};
    const char *many = "capture 0\nrefused BadMagic at 1\n";
    EXPECT(mizgaure_many(bundle, 12, text, sizeof text, &size, &refusal) == MIZGAURE_DONE && size == strlen(many) && !memcmp(text, many, size));
    /* The octet a5 in a frame of clause 18, through the channel without noise and back (docs/LEGACY.md). */
    static const uint8_t legacy_frame[12] = {'L', 'G', 'T', 'X', 1, 0, 1, 0, 0, 1, 127, 0xa5};
    static uint8_t legacy_capture[1024];
    const char *heard = "frame 0 data 0 pilot 0 code 0 octets a5\nend 1 frames\n";
    uint64_t legacy_n = 0;
    EXPECT(mizgaure_legacy_pass(1, 0, legacy_frame, 12, legacy_capture, sizeof legacy_capture, &legacy_n, &refusal) == MIZGAURE_DONE && legacy_n == 946);
    EXPECT(mizgaure_lrx_size(legacy_capture, legacy_n) == 32 + 473);
    EXPECT(mizgaure_lrx(legacy_capture, legacy_n, text, mizgaure_lrx_size(legacy_capture, legacy_n), &size, &refusal) == MIZGAURE_DONE);
    EXPECT(size == strlen(heard) && !memcmp(text, heard, size));
    EXPECT(mizgaure_check_size(file, length) == 16 + 2 * length && mizgaure_check(file, length, text, 16 + 2 * length, &size, &refusal) == MIZGAURE_DONE);
    static uint8_t two[16 + 2048];
    const uint8_t head[10] = {'H', 'T', 'M', 'B', 1, 1, 0, 0, (uint8_t)(n / 256), (uint8_t)n};
    memcpy(two, head, sizeof head), memcpy(two + sizeof head, capture, n);
    EXPECT(mizgaure_many_size(two, 10 + n) == 17 * (10 + n));
    EXPECT(mizgaure_many(two, 10 + n, text, sizeof text, &size, &refusal) == MIZGAURE_DONE && size == strlen("capture 0\n") + strlen(wanted));
    /* Each output in an array that is an octet too short: its size is said, and nothing is written. */
    const struct { texts *call; const uint8_t *input; size_t n; } outputs[] = {
        {mizgaure_detect, capture, n}, {mizgaure_rx, capture, n}, {mizgaure_soft, capture, n}, {mizgaure_lrx, legacy_capture, legacy_n},
        {mizgaure_certify, capture, n}, {mizgaure_check, file, length}, {mizgaure_many, two, 10 + n}, {mizgaure_tx, frame, 13}, {mizgaure_upgrade, capture, n},
    };
    static uint8_t room[65536];
    for (size_t k = 0; k < sizeof outputs / sizeof *outputs; k++) {
        uint64_t whole = 0;
        EXPECT(outputs[k].call(outputs[k].input, outputs[k].n, room, sizeof room, &whole, &refusal) == MIZGAURE_DONE && whole > 0);
        memset(room, 0x55, sizeof room), size = 77, refusal.offset = refusal.kind = 77;
        EXPECT(outputs[k].call(outputs[k].input, outputs[k].n, room, whole - 1, &size, &refusal) == MIZGAURE_NO_ROOM && size == whole);
        EXPECT(kept(room, sizeof room, 0x55) && refusal.offset == 77 && refusal.kind == 77);
    }
    EXPECT(mizgaure_pass(1, 0, symbols, 7, room, 6, &size, &refusal) == MIZGAURE_NO_ROOM && size == 7);
    EXPECT(mizgaure_legacy_pass(1, 0, legacy_frame, 12, room, 945, &size, &refusal) == MIZGAURE_NO_ROOM && size == 946 && kept(room, sizeof room, 0x55));
}

int main(void) {
    EXPECT(mizgaure_version() == MIZGAURE_VERSION);
    EXPECT(!strcmp(mizgaure_fault_name(MIZGAURE_NOT_CERTIFIED), "NOT_CERTIFIED") && !strcmp(mizgaure_fault_name(13), "?"));
    scrambler();
    code();
    interleaver();
    mapping();
    legacy();
    parser();
    encoders();
    detector();
    symbols();
    certificates();
    frames();
    whole_inputs();
    printf("%d facts hold, %d don't\n", passed, failed);
    return failed > 0;
}
