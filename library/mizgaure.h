/* mizgaure.h: the layers of the reference receiver of IEEE Std 802.11-2012 as calls, each a proved function.
 *
 * Clauses named below are those of the standard. docs/LIBRARY.md says what of a call is proved.
 *
 * Answers. A call answers MIZGAURE_DONE (0), or the fault for which it did nothing: each array and each number that it would
 * write is then as it was, but for the size at MIZGAURE_NO_ROOM, the refusal at MIZGAURE_REFUSED and the flaw at
 * MIZGAURE_NOT_CERTIFIED. Where several faults are there the answer is the one that its comment names first.
 *
 * Threads. A call keeps nothing once it has answered, and starts no thread, locks nothing and waits for nothing. So any number of
 * threads may call at a time, each with its own outputs.
 *
 * What the caller must keep, since nothing checks it:
 *   - an array has as many elements as the length behind it says, is aligned for its type, and is not null even where it is empty:
 *     MIZGAURE_EMPTY is an array of no elements;
 *   - what a call writes overlaps no other argument of the call;
 *   - a bool is 0 or 1;
 *   - malloc, realloc and free are those of one allocator, whose blocks are aligned to 16 octets;
 *   - no call is made from a signal handler, or from the forked child of a process with threads.
 *
 * Numbers. A bandwidth is 0 (20 MHz) or 1 (40 MHz), and an MCS index 0 to 31 (clause 20.6): together the rate. A puncturing pattern
 * is 0 to 3 for the coding rates 1/2, 2/3, 3/4 and 5/6 (clause 20.3.11.6). Spatial streams count from 1, all else from 0. Points
 * are on the grid of odd numbers: K_MOD (clause 20.3.11.9) is left to the channel.
 *
 * Sizes (clauses 20.6 and 20.3.11). Of a symbol's N_ST subcarriers, numbered from 0 upwards in frequency, N_SP are pilots:
 *   20 MHz: N_ST 56, N_SD 52, N_SP 4, the pilots 7 21 34 48;    40 MHz: N_ST 114, N_SD 108, N_SP 6, the pilots 5 33 47 66 80 108.
 * N_SS is mcs / 8 + 1, rounded down. For mcs % 8 from 0 to 7
 *   N_BPSCS is 1 2 2 4 4 6 6 6, and the coding rate 1/2 1/2 3/4 1/2 3/4 2/3 3/4 5/6.
 * N_CBPSS = N_SD * N_BPSCS, N_CBPS = N_SS * N_CBPSS, and N_DBPS = N_CBPS * coding rate. N_ES is 2 at 40 MHz for the MCS 21 to 23 and
 * 28 to 31, otherwise 1. A PSDU of n octets takes N_SYM = (16 + 8 * n + 6 * N_ES) / N_DBPS symbols, rounded up. */
#ifndef MIZGAURE_H
#define MIZGAURE_H

#include <stdbool.h>
#include <stddef.h>
#include <stdint.h>

#ifdef __cplusplus
extern "C" {
#endif

/* The version of these calls, which mizgaure_version() answers too. Until it is 1000 a call may change from version to version. */
#define MIZGAURE_VERSION 5

/* An array of no elements, of any type: what is passed, with the length 0, for an output that isn't wanted. In C++ a cast gives it its
 * type, and the spans of mizgaure.hpp need none. */
#define MIZGAURE_EMPTY ((void *)16)

enum mizgaure_fault {
    MIZGAURE_DONE = 0,
    MIZGAURE_NO_MEMORY = 1,     /* memory ran out */
    MIZGAURE_NO_RATE = 2,       /* the bandwidth and the MCS index name no rate */
    MIZGAURE_NO_PATTERN = 3,    /* the puncturing pattern is above 3 */
    MIZGAURE_NO_SEED = 4,       /* the seed is outside 1 to 127, or the bits are those of no seed */
    MIZGAURE_BAD_LENGTH = 5,    /* an array has another length than the call asks for */
    MIZGAURE_NO_STREAM = 6,     /* the rate has no such spatial stream */
    MIZGAURE_NO_ROOM = 7,       /* the output is longer than its array; its size is said */
    MIZGAURE_REFUSED = 8,       /* the input is no file of its format; its first fault is said */
    MIZGAURE_NO_MODULATION = 9, /* no constellation has labels of so many bits: there are 1, 2, 4 and 6 */
    MIZGAURE_NO_LABEL = 10,     /* a label has more bits than those of the constellation */
    MIZGAURE_NO_POINT = 11,     /* a point is off the constellation */
    MIZGAURE_NOT_CERTIFIED = 12 /* the certificate doesn't hold; what is wrong with it is said */
};

/* The answer's name, as "NO_RATE"; "DONE" for 0, and "?" for any other number. */
static inline const char *mizgaure_fault_name(uint32_t fault) {
    static const char *const names[] = {"DONE", "NO_MEMORY", "NO_RATE", "NO_PATTERN", "NO_SEED", "BAD_LENGTH", "NO_STREAM",
                                        "NO_ROOM", "REFUSED", "NO_MODULATION", "NO_LABEL", "NO_POINT", "NOT_CERTIFIED"};
    return fault < sizeof names / sizeof *names ? names[fault] : "?";
}

/* The version of the library that is linked: it has the calls of this header if it is MIZGAURE_VERSION. */
uint32_t mizgaure_version(void);

/* -- Detection ------------------------------------------------------------------------------------------------------------ */

/* An entry above the diagonal, a received sample and a point of a constellation. */
typedef struct { int16_t re, im; } mizgaure_tap;
typedef struct { int32_t re, im; } mizgaure_sample;
typedef struct { int8_t i, q; } mizgaure_point;

/* The triangular channel R of a subcarrier, 32 octets: the diagonal r11 r22 .. and the entries above it, row by row. With N_SS
 * streams the first N_SS of the diagonal count, and the first N_SS * (N_SS - 1) / 2 entries: r12; then r12 r13 r23; then
 * r12 r13 r14 r23 r24 r34. */
typedef struct { uint16_t diagonal[4]; mizgaure_tap above[6]; } mizgaure_channel;

/* What was received on the rows of R, 32 octets. The first N_SS count. */
typedef struct { mizgaure_sample samples[4]; } mizgaure_received;

/* What was found, 24 octets: the point x of each stream, zeros behind them, and the squared distance |y - R x|^2, which is
 * low + 2^64 * high and below 2^66. Nothing is scaled: without noise y is R x, at distance 0. */
typedef struct { mizgaure_point points[4]; uint64_t low, high; } mizgaure_hit;

/* Clause 20.3.11.9 backwards: the vector of a data subcarrier that is nearest to what was received. Of several as near it is the
 * first one: on the lowest stream where they differ, the one with the lower I, and at equal I the one with the lower Q. NO_RATE. */
uint32_t mizgaure_nearest(uint8_t bandwidth, uint8_t mcs, const mizgaure_channel *channel, const mizgaure_received *received,
                          mizgaure_hit *found);

/* A sum of squared distances, 16 octets: low + 2^64 * high. */
typedef struct { uint64_t low, high; } mizgaure_distance;

/* The nearest vectors, as above, of any number of symbols of `channels_n` data subcarriers, as many as are given. Received samples
 * stand symbol by symbol, and sample k meets channel k % channels_n. Each of the three outputs is whole, or left out as an empty
 * array:
 *   hits     received_n of them: what was found, sample by sample;
 *   labels   received_n * N_SS octets in the order symbol, subcarrier, stream (that of mizgaure_decode_frame): the labels of the points
 *            that were found, of N_BPSCS bits each, those that mizgaure_labels answers for them (clause 20.3.11.9);
 *   sums     received_n / channels_n of them: for each symbol the sum of the squared distances of its hits.
 * NO_RATE; BAD_LENGTH unless channels_n > 0, received_n is a multiple of channels_n, and each of hits_n, labels_n and sums_n is 0 or the
 * number that is said above. */
uint32_t mizgaure_detect_symbols(uint8_t bandwidth, uint8_t mcs, const mizgaure_channel *channels, size_t channels_n,
                                 const mizgaure_received *received, size_t received_n, mizgaure_hit *hits, size_t hits_n,
                                 uint8_t *labels, size_t labels_n, mizgaure_distance *sums, size_t sums_n);

/* Clause 20.3.11.9 backwards: the weights of the label bits of such symbols, in the order symbol, subcarrier, stream, bit (the order
 * of mizgaure_soft_frame): the least squared distance where the bit is 0 less the least one where it is 1, cut to -65535 to 65535; so
 * positive where a 1 is likelier. NO_RATE; BAD_LENGTH unless channels_n > 0, received_n is a multiple of channels_n, and n is
 * received_n * N_SS * N_BPSCS. */
uint32_t mizgaure_weigh_symbols(uint8_t bandwidth, uint8_t mcs, const mizgaure_channel *channels, size_t channels_n,
                                const mizgaure_received *received, size_t received_n, int32_t *weights, size_t n);

/* Clause 20.3.11.9 backwards: the certificate of a data subcarrier (docs/CERTIFICATES.md): its hit, and the marks of a walk that
 * shows that no vector is nearer, true where a level is open. They stand at the front of `marks`, and *size is how many there are, at
 * MIZGAURE_NO_ROOM too. NO_RATE; NO_MEMORY; NO_ROOM where there are more than marks_n. */
uint32_t mizgaure_certify_job(uint8_t bandwidth, uint8_t mcs, const mizgaure_channel *channel, const mizgaure_received *received,
                              mizgaure_hit *found, bool *marks, size_t marks_n, uint64_t *size);

/* What is wrong with a certificate, 24 octets: the number of its kind, and the number that goes with it, low + 2^64 * high. The kinds:
 * 1 OffGrid, the stream; 2 WrongDistance, the distance that the points have; 3 Early, 4 Better, 5 Short and 6 Long, the mark. */
typedef struct { uint64_t low, high; uint32_t kind; } mizgaure_flaw;

/* Clause 20.3.11.9 backwards: checks a certificate without a search, whoever made it: the hit is the first nearest vector with its
 * distance if this is DONE. The first N_SS points of the hit count. NO_RATE; NO_MEMORY; NOT_CERTIFIED, and the first flaw is said. */
uint32_t mizgaure_check_job(uint8_t bandwidth, uint8_t mcs, const mizgaure_channel *channel, const mizgaure_received *received,
                            const mizgaure_hit *hit, const bool *marks, size_t marks_n, mizgaure_flaw *flaw);

/* -- The coding chain ----------------------------------------------------------------------------------------------------- */

/* Clause 18.3.5.5: adds the scrambling sequence of a seed (1 to 127) to the bits, which descrambles too. Bit i of the seed is the
 * delay element x^(i+1). NO_SEED. */
uint32_t mizgaure_scramble(uint8_t seed, bool *bits, size_t n);

/* Clause 18.3.5.5: the seed whose sequence begins with these 7 bits. BAD_LENGTH unless n == 7; NO_SEED where all are 0. */
uint32_t mizgaure_recover(const bool *bits, size_t n, uint8_t *seed);

/* Clause 20.3.11.5: shares the scrambled bits out among the encoders: bit N_ES * i + j is bit i of encoder j. NO_RATE; BAD_LENGTH
 * unless N_ES * first_n is n, and second_n is first_n with two encoders and 0 with one; NO_MEMORY. */
uint32_t mizgaure_split(uint8_t bandwidth, uint8_t mcs, const bool *bits, size_t n, bool *first, size_t first_n, bool *second,
                        size_t second_n);

/* The inverse: puts the bits of the encoders together again. Faults as above. */
uint32_t mizgaure_join(uint8_t bandwidth, uint8_t mcs, const bool *first, size_t first_n, const bool *second, size_t second_n,
                       bool *bits, size_t n);

/* Clauses 18.3.5.6 and 20.3.11.6: the convolutional code, punctured, a step for each bit of the input. The tail is part of the input.
 * Of n steps n + ceil(n / p) bits are kept, where p is 1, 2, 3 or 5 for the patterns 0 to 3. NO_PATTERN; BAD_LENGTH unless coded_n is
 * that number; NO_MEMORY. */
uint32_t mizgaure_encode(uint8_t pattern, const bool *input, size_t n, bool *coded, size_t coded_n);

/* Clauses 18.3.5.6 and 20.3.11.6 backwards, by hard decisions: of the inputs of `steps` bits whose last six are 0, the first of
 * those whose codeword differs from `received` at the fewest places, and at how many. Of two inputs the first has the 0 at the first
 * bit where they differ. A received place is 0, 1, or any other octet where it is erased, which counts for nothing. NO_PATTERN;
 * BAD_LENGTH unless 6 <= steps <= 524302 and n is the number of bits that are kept of so many steps; NO_MEMORY. */
uint32_t mizgaure_decode(uint8_t pattern, const uint8_t *received, size_t n, bool *input, size_t steps, uint32_t *distance);

/* The same by weights: positive where a 1 is likelier, negative where a 0 is, 0 where nothing is known. What is least is the cost:
 * the sum of the sizes of the weights that speak against the codeword. Faults as above. */
uint32_t mizgaure_soft_decode(uint8_t pattern, const int32_t *weights, size_t n, bool *input, size_t steps, uint64_t *cost);

/* Clause 20.3.11.8.2: lays the coded bits of a symbol on the spatial streams: the N_CBPSS bits of stream 1, then those of stream 2,
 * and so on. NO_RATE; BAD_LENGTH unless n is N_CBPS, first_n is N_CBPS / N_ES, and second_n is the same with two encoders and 0 with
 * one; NO_MEMORY. */
uint32_t mizgaure_lay(uint8_t bandwidth, uint8_t mcs, const bool *first, size_t first_n, const bool *second, size_t second_n,
                      bool *bits, size_t n);

/* The inverse: gathers each encoder's bits of a symbol from the streams. Faults as above. */
uint32_t mizgaure_gather(uint8_t bandwidth, uint8_t mcs, const bool *bits, size_t n, bool *first, size_t first_n, bool *second,
                         size_t second_n);

/* Clause 20.3.11.8.3: the place behind the interleaver of each of the N_CBPSS bits of a symbol of a stream: bit k goes to places[k].
 * The places from c * N_BPSCS on are the label of data subcarrier c. NO_RATE; NO_STREAM; BAD_LENGTH unless n == N_CBPSS. */
uint32_t mizgaure_places(uint8_t bandwidth, uint8_t mcs, uint8_t stream, uint16_t *places, size_t n);

/* The inverse: at place r stands bit origins[r]. Faults as above. */
uint32_t mizgaure_origins(uint8_t bandwidth, uint8_t mcs, uint8_t stream, uint16_t *origins, size_t n);

/* Clause 20.3.11.9: the points of labels of 1, 2, 4 or 6 bits, whose first bit is the most significant one. NO_MODULATION;
 * BAD_LENGTH unless points_n == n; NO_LABEL. */
uint32_t mizgaure_points(uint8_t bits, const uint8_t *labels, size_t n, mizgaure_point *points, size_t points_n);

/* The inverse: the labels of points. NO_MODULATION; BAD_LENGTH unless labels_n == n; NO_POINT. */
uint32_t mizgaure_labels(uint8_t bits, const mizgaure_point *points, size_t n, uint8_t *labels, size_t labels_n);

/* Clause 20.3.11.10: the values, 1 or -1, of the N_SP pilots of a symbol of the data field on a stream, upwards in frequency. The
 * pattern over pilots and streams is the project's own; docs/CHAIN.md says where it is the standard's too. NO_RATE; NO_STREAM;
 * BAD_LENGTH unless n == N_SP. */
uint32_t mizgaure_pilots(uint8_t bandwidth, uint8_t mcs, uint32_t symbol, uint8_t stream, int8_t *values, size_t n);

/* -- Frames --------------------------------------------------------------------------------------------------------------- */

/* Clause 20.3.11: the points that are sent for a PSDU of 1 to 65535 octets, N_SYM * N_ST * N_SS of them, in the order symbol,
 * subcarrier (pilots too), stream. A pilot's value v is the point (v, 0). NO_RATE; NO_SEED; BAD_LENGTH unless n is 1 to 65535 and
 * points_n is that number; NO_MEMORY. */
uint32_t mizgaure_transmit(uint8_t bandwidth, uint8_t mcs, uint8_t seed, const uint8_t *octets, size_t n, mizgaure_point *points,
                           size_t points_n);

/* Clauses 20.3.11.2 to 20.3.11.6 backwards: the labels of a frame to the octets of its PSDU by hard decisions, and at how many
 * places that aren't erased the coded bits of the answer differ. The labels are N_SYM * N_SD * N_SS octets in the order symbol,
 * data subcarrier, stream; bits of an octet above the label's count for nothing. Bit c of erased_low + 2^64 * erased_high is set
 * where subcarrier c (pilots count) is erased. The PSDU has octets_n octets. NO_RATE; BAD_LENGTH unless octets_n is 1 to 65535 and n is
 * that number of labels; NO_MEMORY; NO_SEED where the bits of SERVICE give no seed. */
uint32_t mizgaure_decode_frame(uint8_t bandwidth, uint8_t mcs, uint64_t erased_low, uint64_t erased_high, const uint8_t *labels,
                               size_t n, uint8_t *octets, size_t octets_n, uint32_t *differences);

/* low + 2^64 * high */
typedef struct { uint64_t low, high; } mizgaure_cost;

/* The same by weights, N_SYM * N_CBPS of them in the order symbol, data subcarrier, stream, bit, and what the coded bits of the
 * answer cost. Faults as above. */
uint32_t mizgaure_soft_frame(uint8_t bandwidth, uint8_t mcs, uint64_t erased_low, uint64_t erased_high, const int32_t *weights,
                             size_t n, uint8_t *octets, size_t octets_n, mizgaure_cost *cost);

/* -- Frames of clause 18 -------------------------------------------------------------------------------------------------- */

/* Rates are 0 to 7, for 6, 9, 12, 18, 24, 36, 48 and 54 Mbit/s. N_DBPS is 24 36 48 72 96 144 192 216, N_BPSC 1 1 2 2 4 4 6 6, and
 * N_CBPS = 48 * N_BPSC. A PSDU of n octets takes N_SYM = (22 + 8 * n) / N_DBPS symbols, rounded up. */

/* Clause 18.3.5: the points that are sent for a PSDU of 1 to 4095 octets, N_SYM * 52 of them, in the order symbol, subcarrier. NO_RATE;
 * NO_SEED; BAD_LENGTH unless n is 1 to 4095 and points_n is that number; NO_MEMORY. */
uint32_t mizgaure_legacy_transmit(uint8_t rate, uint8_t seed, const uint8_t *octets, size_t n, mizgaure_point *points,
                                  size_t points_n);

/* Clauses 18.3.5.2 to 18.3.5.8 backwards: the labels of a frame, N_SYM * 48 octets in the order symbol, data subcarrier, to the octets
 * of its PSDU by hard decisions, and at how many places the coded bits of the answer differ. Bits of a label above its own count for
 * nothing. The PSDU has octets_n octets. NO_RATE; BAD_LENGTH unless octets_n is 1 to 4095 and n is that number of labels; NO_MEMORY;
 * NO_SEED where the bits of SERVICE give no seed. */
uint32_t mizgaure_legacy_decode_frame(uint8_t rate, const uint8_t *labels, size_t n, uint8_t *octets, size_t octets_n,
                                      uint32_t *differences);

/* Clause 18.3.5.7: the place behind the interleaver of each of the N_CBPS bits of a symbol, and the inverse. NO_RATE; BAD_LENGTH
 * unless n is N_CBPS. */
uint32_t mizgaure_legacy_places(uint8_t rate, uint16_t *places, size_t n);
uint32_t mizgaure_legacy_origins(uint8_t rate, uint16_t *origins, size_t n);

/* Clause 18.3.5.9: the values, 1 or -1, of the 4 pilots of a symbol. Symbols count from 0, behind SIGNAL. BAD_LENGTH unless n is 4. */
uint32_t mizgaure_legacy_pilots(uint32_t symbol, int8_t *values, size_t n);

/* -- Whole inputs --------------------------------------------------------------------------------------------------------- */

/* Where an input is refused, 16 octets: the offset of the field at fault, or the input's length where it ends early, and the number
 * of the fault's kind: 1 BadMagic, 2 BadVersion, 3 BadBandwidth, 4 BadMcs, 5 BadLength, 6 Truncated, 7 Trailing, 8 BadSeed,
 * 9 BadPoint, 10 BadPilot, 11 BadErased, 12 BadModulation, 13 BadStreams, 14 BadMark, 15 BadCount (docs/FORMATS.md). */
typedef struct { uint64_t offset; uint32_t kind; } mizgaure_refusal;

/* The text of the program's commands detect, rx and soft for a capture (HTCP), of lrx for a capture of clause 18 frames (LGCP), and of
 * many for a bundle of captures (HTMB). It stands at the front of `text`, without a 0 behind it, and *size is its length, at
 * MIZGAURE_NO_ROOM too. NO_MEMORY; REFUSED; NO_ROOM where it is longer than text_n. In memory the input is copied once, and the text
 * stands once more. */
uint32_t mizgaure_detect(const uint8_t *capture, size_t n, uint8_t *text, size_t text_n, uint64_t *size, mizgaure_refusal *refusal);
uint32_t mizgaure_rx(const uint8_t *capture, size_t n, uint8_t *text, size_t text_n, uint64_t *size, mizgaure_refusal *refusal);
uint32_t mizgaure_soft(const uint8_t *capture, size_t n, uint8_t *text, size_t text_n, uint64_t *size, mizgaure_refusal *refusal);
uint32_t mizgaure_lrx(const uint8_t *capture, size_t n, uint8_t *text, size_t text_n, uint64_t *size, mizgaure_refusal *refusal);
uint32_t mizgaure_many(const uint8_t *bundle, size_t n, uint8_t *text, size_t text_n, uint64_t *size, mizgaure_refusal *refusal);

/* A size of `text` with which these calls never answer NO_ROOM for a capture of less than 2^59 octets, so that none is made twice.
 * detect: 6 * n. rx and soft: 32 + n / 2, rounded down, but at a capture of version 2 it is 32 and the less of 17 * n and 131177 for
 * each frame. lrx: 32 + n / 2. many: 17 * n, which suffices where each capture of the bundle is whole. Only the version and the
 * number of frames of a capture are read, so any octets may be given. UINT64_MAX where the size has more than 64 bits, and of rx and
 * soft from 2^59 octets on. */
uint64_t mizgaure_detect_size(const uint8_t *capture, size_t n);
uint64_t mizgaure_rx_size(const uint8_t *capture, size_t n);
uint64_t mizgaure_soft_size(const uint8_t *capture, size_t n);
uint64_t mizgaure_lrx_size(const uint8_t *capture, size_t n);
uint64_t mizgaure_many_size(const uint8_t *bundle, size_t n);

/* The file of certificates (HTCT) of the command certify for a capture, and the text of the command check for such a file. As
 * above. With a text of mizgaure_check_size octets, 16 + 2 * n, check never answers NO_ROOM. */
uint32_t mizgaure_certify(const uint8_t *capture, size_t n, uint8_t *file, size_t file_n, uint64_t *size, mizgaure_refusal *refusal);
uint32_t mizgaure_check(const uint8_t *file, size_t n, uint8_t *text, size_t text_n, uint64_t *size, mizgaure_refusal *refusal);
uint64_t mizgaure_check_size(const uint8_t *file, size_t n);

/* The file of symbols (HTSY) of the command tx for a file of frames (HTTX), and the capture of version 2 of the command upgrade for a
 * capture (HTCP) of either version. As above. */
uint32_t mizgaure_tx(const uint8_t *frames, size_t n, uint8_t *symbols, size_t symbols_n, uint64_t *size, mizgaure_refusal *refusal);
uint32_t mizgaure_upgrade(const uint8_t *capture, size_t n, uint8_t *newer, size_t newer_n, uint64_t *size, mizgaure_refusal *refusal);

/* The capture (HTCP) of the command channel for a file of symbols (HTSY), and that (LGCP) of lchannel for a file of clause 18 frames
 * (LGTX), with its seed, and with noise from -noise to noise in each part of a sample (docs/SIMULATOR.md). As above. */
uint32_t mizgaure_pass(uint64_t seed, uint16_t noise, const uint8_t *symbols, size_t n, uint8_t *capture, size_t capture_n,
                       uint64_t *size, mizgaure_refusal *refusal);
uint32_t mizgaure_legacy_pass(uint64_t seed, uint16_t noise, const uint8_t *frames, size_t n, uint8_t *capture, size_t capture_n,
                              uint64_t *size, mizgaure_refusal *refusal);

#ifdef __cplusplus
}
#endif

#endif
