/* Calls that take memory, where it runs out: behind the first n pieces that a call takes there is no more, for n from 0 on until it answers
 * DONE. Before that each answer is NO_MEMORY, and leaves every output as it was. The other calls take no memory at all.
 *
 * Linked with -Wl,--wrap=malloc -Wl,--wrap=realloc, so that the library takes its memory here. */
#include "mizgaure.h"

#include <stdio.h>
#include <stdlib.h>
#include <string.h>

static int passed, failed;

#define EXPECT(fact)                                                 \
    do {                                                             \
        if (fact) {                                                  \
            passed++;                                                \
        } else {                                                     \
            failed++;                                                \
            printf("%s:%d: not so: %s\n", __FILE__, __LINE__, #fact); \
        }                                                            \
    } while (0)

void *__real_malloc(size_t n);
void *__real_realloc(void *from, size_t n);

enum { PLENTY = 1 << 30 };
static long left = PLENTY; /* how many pieces of memory there still are */

void *__wrap_malloc(size_t n) { return left-- > 0 ? __real_malloc(n) : NULL; }
void *__wrap_realloc(void *from, size_t n) { return left-- > 0 ? __real_realloc(from, n) : NULL; }

/* Whether the octets are all 0x55, as they were before a call that did nothing. */
static bool kept(const void *octets, size_t n) {
    for (size_t k = 0; k < n; k++)
        if (((const unsigned char *)octets)[k] != 0x55) return false;
    return true;
}

#define MARK(output) memset(&(output), 0x55, sizeof(output))
#define KEPT(output) kept(&(output), sizeof(output))

/* Makes the call with 0, 1, 2 .. pieces of memory until it answers DONE. */
#define RUNS_OUT(call, as_before)                                                  \
    do {                                                                           \
        uint32_t fault_ = MIZGAURE_NO_MEMORY;                                      \
        long pieces_ = 0;                                                          \
        for (; fault_ == MIZGAURE_NO_MEMORY && pieces_ < 100000; pieces_++) {      \
            left = pieces_, fault_ = (call), left = PLENTY;                        \
            if (fault_ == MIZGAURE_NO_MEMORY && !(as_before)) break;               \
        }                                                                          \
        EXPECT(fault_ == MIZGAURE_DONE);                                           \
        EXPECT(pieces_ > 1);                                                       \
    } while (0)

/* Makes the call without any memory. */
#define TAKES_NONE(call)               \
    do {                               \
        left = 0;                      \
        bool done_ = (call);           \
        left = PLENTY;                 \
        EXPECT(done_);                 \
    } while (0)

static void chain(void) {
    enum { N = 624, STEPS = 60 };
    bool bits[N] = {0}, laid[N], back[N], none[1];
    MARK(laid), MARK(back);
    RUNS_OUT(mizgaure_lay(0, 13, bits, N, bits, 0, laid, N), KEPT(laid));
    RUNS_OUT(mizgaure_gather(0, 13, laid, N, back, N, none, 0), KEPT(back));
    bool first[3], second[3], joined[6];
    MARK(first), MARK(second), MARK(joined);
    RUNS_OUT(mizgaure_split(1, 31, bits, 6, first, 3, second, 3), KEPT(first) && KEPT(second));
    RUNS_OUT(mizgaure_join(1, 31, first, 3, second, 3, joined, 6), KEPT(joined));
    bool coded[2 * STEPS], found[STEPS];
    MARK(coded), MARK(found);
    RUNS_OUT(mizgaure_encode(0, bits, STEPS, coded, 2 * STEPS), KEPT(coded));
    uint8_t received[2 * STEPS] = {0};
    int32_t weights[2 * STEPS] = {0};
    uint32_t distance;
    uint64_t cost;
    MARK(distance), MARK(cost);
    RUNS_OUT(mizgaure_decode(0, received, 2 * STEPS, found, STEPS, &distance), KEPT(found) && KEPT(distance));
    MARK(found);
    RUNS_OUT(mizgaure_soft_decode(0, weights, 2 * STEPS, found, STEPS, &cost), KEPT(found) && KEPT(cost));
}

static void frames(void) {
    enum { OCTETS = 10, POINTS = 2 * 56, LABELS = 2 * 52 };
    const uint8_t octets[OCTETS] = {1, 2, 3};
    mizgaure_point points[POINTS], data[LABELS];
    MARK(points);
    RUNS_OUT(mizgaure_transmit(0, 1, 93, octets, OCTETS, points, POINTS), KEPT(points));
    for (int k = 0, at = 0; k < POINTS; k++)
        if (k % 56 != 7 && k % 56 != 21 && k % 56 != 34 && k % 56 != 48) data[at++] = points[k];
    uint8_t labels[LABELS], back[OCTETS];
    TAKES_NONE(mizgaure_labels(2, data, LABELS, labels, LABELS) == MIZGAURE_DONE);
    uint32_t differences;
    MARK(back), MARK(differences);
    RUNS_OUT(mizgaure_decode_frame(0, 1, 0, 0, labels, LABELS, back, OCTETS, &differences), KEPT(back) && KEPT(differences));
    EXPECT(!memcmp(back, octets, OCTETS));
    int32_t weights[2 * LABELS];
    for (int k = 0; k < 2 * LABELS; k++) weights[k] = labels[k / 2] & (k % 2 ? 1 : 2) ? 5 : -5;
    mizgaure_cost cost;
    MARK(back), MARK(cost);
    RUNS_OUT(mizgaure_soft_frame(0, 1, 0, 0, weights, 2 * LABELS, back, OCTETS, &cost), KEPT(back) && KEPT(cost));
    EXPECT(!memcmp(back, octets, OCTETS));

    mizgaure_point legacy[104];
    MARK(legacy);
    RUNS_OUT(mizgaure_legacy_transmit(0, 127, octets, 1, legacy, 104), KEPT(legacy));
    uint8_t legacy_labels[96], legacy_back;
    for (int k = 0, at = 0; k < 104; k++)
        if (k % 52 != 5 && k % 52 != 19 && k % 52 != 32 && k % 52 != 46) legacy_labels[at++] = legacy[k].i == 1;
    MARK(legacy_back), MARK(differences);
    RUNS_OUT(mizgaure_legacy_decode_frame(0, legacy_labels, 96, &legacy_back, 1, &differences), KEPT(legacy_back) && KEPT(differences));
    EXPECT(legacy_back == 1);
}

static void certificates(void) {
    const mizgaure_channel channel = {{10}, {{0, 0}}};
    const mizgaure_received received = {{{3, -4}}};
    mizgaure_hit hit;
    mizgaure_flaw flaw;
    bool marks[3];
    uint64_t size;
    MARK(hit), MARK(flaw), MARK(marks), MARK(size);
    RUNS_OUT(mizgaure_certify_job(0, 0, &channel, &received, &hit, marks, 3, &size), KEPT(hit) && KEPT(marks) && KEPT(size));
    RUNS_OUT(mizgaure_check_job(0, 0, &channel, &received, &hit, marks, 3, &flaw), KEPT(flaw));
}

/* Makes a call that writes a text or a file with ever more memory, and says how long what it wrote is. */
#define WRITES(call, ...)                                                                                  \
    do {                                                                                                   \
        memset(into, 0x55, ROOM), MARK(size), MARK(refusal);                                               \
        RUNS_OUT(call(__VA_ARGS__, into, ROOM, &size, &refusal), kept(into, ROOM) && KEPT(size) && KEPT(refusal)); \
    } while (0)

static void whole_inputs(void) {
    enum { ROOM = 65536 };
    static uint8_t into[ROOM], capture[ROOM], bundle[ROOM], legacy[ROOM], file[ROOM], symbols[ROOM];
    static const uint8_t frame[13] = {'H', 'T', 'T', 'X', 1, 0, 1, 0, 0, 0, 1, 127, 0xa5};
    static const uint8_t legacy_frame[12] = {'L', 'G', 'T', 'X', 1, 0, 1, 0, 0, 1, 127, 0xa5};
    uint64_t size;
    mizgaure_refusal refusal;
    WRITES(mizgaure_tx, frame, sizeof frame);
    size_t symbols_n = size, n, legacy_n, file_n;
    memcpy(symbols, into, symbols_n);
    WRITES(mizgaure_pass, 1, 0, symbols, symbols_n);
    n = size, memcpy(capture, into, n);
    WRITES(mizgaure_legacy_pass, 1, 0, legacy_frame, sizeof legacy_frame);
    legacy_n = size, memcpy(legacy, into, legacy_n);
    WRITES(mizgaure_detect, capture, n);
    WRITES(mizgaure_rx, capture, n);
    WRITES(mizgaure_soft, capture, n);
    WRITES(mizgaure_lrx, legacy, legacy_n);
    WRITES(mizgaure_upgrade, capture, n);
    WRITES(mizgaure_certify, capture, n);
    file_n = size, memcpy(file, into, file_n);
    WRITES(mizgaure_check, file, file_n);
    const uint8_t head[10] = {'H', 'T', 'M', 'B', 1, 1, 0, 0, (uint8_t)(n / 256), (uint8_t)n};
    memcpy(bundle, head, sizeof head), memcpy(bundle + sizeof head, capture, n);
    WRITES(mizgaure_many, bundle, sizeof head + n);
}

static void without_memory(void) {
    const mizgaure_channel channel = {{10}, {{0, 0}}};
    const mizgaure_received received = {{{3, -4}}};
    mizgaure_hit hit;
    mizgaure_distance sum;
    int32_t weight;
    bool bits[127] = {0};
    uint8_t seed, label = 1;
    uint16_t places[52];
    int8_t pilots[4];
    mizgaure_point point;
    TAKES_NONE(mizgaure_version() == MIZGAURE_VERSION);
    TAKES_NONE(mizgaure_nearest(0, 0, &channel, &received, &hit) == MIZGAURE_DONE);
    TAKES_NONE(mizgaure_detect_symbols(0, 0, &channel, 1, &received, 1, &hit, 1, &label, 1, &sum, 1) == MIZGAURE_DONE);
    TAKES_NONE(mizgaure_weigh_symbols(0, 0, &channel, 1, &received, 1, &weight, 1) == MIZGAURE_DONE);
    TAKES_NONE(mizgaure_scramble(127, bits, 127) == MIZGAURE_DONE);
    TAKES_NONE(mizgaure_recover(bits, 7, &seed) == MIZGAURE_DONE && seed == 127);
    TAKES_NONE(mizgaure_places(0, 0, 1, places, 52) == MIZGAURE_DONE && mizgaure_origins(0, 0, 1, places, 52) == MIZGAURE_DONE);
    TAKES_NONE(mizgaure_points(1, &label, 1, &point, 1) == MIZGAURE_DONE);
    TAKES_NONE(mizgaure_pilots(0, 0, 0, 1, pilots, 4) == MIZGAURE_DONE && mizgaure_legacy_pilots(0, pilots, 4) == MIZGAURE_DONE);
    TAKES_NONE(mizgaure_legacy_places(0, places, 48) == MIZGAURE_DONE && mizgaure_legacy_origins(0, places, 48) == MIZGAURE_DONE);
    TAKES_NONE(mizgaure_detect_size(&label, 1) == 6 && mizgaure_rx_size(&label, 1) == 32 && mizgaure_soft_size(&label, 1) == 32);
    TAKES_NONE(mizgaure_lrx_size(&label, 1) == 32 && mizgaure_check_size(&label, 1) == 18 && mizgaure_many_size(&label, 1) == 17);
}

int main(void) {
    chain();
    frames();
    certificates();
    whole_inputs();
    without_memory();
    printf("%d facts hold, %d don't\n", passed, failed);
    return failed > 0;
}
