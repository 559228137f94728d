/* The library's side of `bench/library`, in C.
 *
 *   library detect STREAMS MODULATION NOISE DIAGONALS COUNT    the jobs of `ht_bench nearest` with these words, COUNT * 29 times all
 *                                                              256 of them, 29 times in a call, as 29 symbols of 256 subcarriers;
 *                                                              prints the same checksum
 *   library silent STREAMS MODULATION NOISE DIAGONALS COUNT    the same without the checksum, which is 0
 *   library labels STREAMS MODULATION NOISE COUNT    the jobs of a line `octets` with these words, COUNT * 64 times all 256 of them, 64
 *                                                    symbols of 112, 112 and 32 subcarriers in a call; only labels and sums are wanted,
 *                                                    and the same checksum is printed
 *   library jobs FILE STREAMS MODULATION NOISE DIAGONALS       writes the jobs' channels and received samples
 *   library CALL < INPUT           what the call writes: CALL is detect_text, rx_text, soft_text, lrx_text or check_text, whose array has the
 *                                  octets that the call with _size says, so that no call is made twice
 *   library times CALL < INPUT     the least processor seconds of five calls one after the other, with the same arrays */
#include <mizgaure.h>
#include <stdio.h>
#include <stdlib.h>
#include <string.h>
#include <time.h>

enum { JOBS = 256, ROUNDS = 29, SAMPLES = JOBS * ROUNDS, CARRIERS = 112, SYMBOLS = 64 };

static mizgaure_channel channels[JOBS];
static mizgaure_received received[SAMPLES], symbols[SYMBOLS * JOBS]; /* symbols: those of the first subcarriers, of the next ones .. */
static mizgaure_hit hits[SAMPLES];
static uint8_t labels[4 * SYMBOLS * JOBS];
static mizgaure_distance sums[SYMBOLS * ((JOBS + CARRIERS - 1) / CARRIERS)];
static uint64_t state = 1;

static uint64_t draw(void) {
    state = state * 6364136223846793005u + 1442695040888963407u;
    return state >> 33;
}

/* y += scale * x, of complex numbers */
static void add(mizgaure_sample *y, int re, int im, const int *x) {
    y->re += re * x[0] - im * x[1];
    y->im += re * x[1] + im * x[0];
}

/* The jobs of ht_bench, number by number. */
static void make(int streams, int i_levels, int q_levels, int noise, bool large) {
    for (int job = 0; job < JOBS; job++) {
        int x[4][2] = {0}, above[6][2], place = 0;
        mizgaure_channel *channel = channels + job;
        mizgaure_received *y = received + job;
        for (int k = 0; k < 4; k++) {
            int i = 2 * (int)(draw() % (unsigned)i_levels) - i_levels + 1, q = 2 * (int)(draw() % (unsigned)q_levels) - q_levels + 1;
            if (k < streams) x[k][0] = i, x[k][1] = q;
        }
        for (int k = 0; k < 4; k++) channel->diagonal[k] = (uint16_t)(large ? 64 + draw() % 192 : 1 + draw() % 8);
        for (int k = 0; k < 6; k++)
            for (int part = 0; part < 2; part++) above[k][part] = (int)(draw() % 129) - 64;
        for (int row = 0, k = 0; row < 4; row++) {
            add(y->samples + row, channel->diagonal[row], 0, x[row]);
            for (int column = row + 1; column < 4; column++, k++) {
                add(y->samples + row, above[k][0], above[k][1], x[column]);
                if (column < streams) channel->above[place++] = (mizgaure_tap){(int16_t)above[k][0], (int16_t)above[k][1]};
            }
        }
        for (int k = 0; k < 4; k++) {
            y->samples[k].re += (int)(draw() % (2 * (unsigned)noise + 1)) - noise;
            y->samples[k].im += (int)(draw() % (2 * (unsigned)noise + 1)) - noise;
        }
    }
    for (int round = 1; round < ROUNDS; round++) memcpy(received + round * JOBS, received, JOBS * sizeof *received);
    for (int from = 0; from < JOBS; from += CARRIERS) {
        int carriers = from + CARRIERS < JOBS ? CARRIERS : JOBS - from;
        for (int k = 0; k < SYMBOLS; k++) memcpy(symbols + SYMBOLS * from + k * carriers, received + from, carriers * sizeof *received);
    }
}

static uint64_t folded(uint64_t sum, uint64_t number) { return (sum ^ number) * 0x100000001b3u; }

static uint64_t with_hits(uint64_t sum, int streams) {
    for (int k = 0; k < SAMPLES; k++) {
        sum = folded(sum, hits[k].low);
        for (int stream = 0; stream < streams; stream++)
            sum = folded(folded(sum, (uint8_t)hits[k].points[stream].i), (uint8_t)hits[k].points[stream].q);
    }
    return sum;
}

/* Labels and sums of all jobs SYMBOLS times; the checksum with those of the last time once no more come. */
static bool labelled(int streams, uint8_t mcs, bool last, uint64_t *sum) {
    for (int from = 0, call = 0; from < JOBS; from += CARRIERS, call++) {
        int carriers = from + CARRIERS < JOBS ? CARRIERS : JOBS - from, n = SYMBOLS * carriers;
        if (mizgaure_detect_symbols(0, mcs, channels + from, carriers, symbols + SYMBOLS * from, n, MIZGAURE_EMPTY, 0,
                                    labels + 4 * SYMBOLS * from, n * streams, sums + SYMBOLS * call, SYMBOLS)) return false;
        for (int k = 0; k < SYMBOLS - last; k++) *sum += sums[SYMBOLS * call + k].low;
    }
    for (int from = 0, call = 0; last && from < JOBS; from += CARRIERS, call++) {
        int carriers = from + CARRIERS < JOBS ? CARRIERS : JOBS - from;
        const uint8_t *of = labels + 4 * SYMBOLS * from + (SYMBOLS - 1) * carriers * streams;
        *sum += sums[SYMBOLS * call + SYMBOLS - 1].low;
        for (int k = 0; k < carriers; k++, of += streams) {
            uint64_t together = 0;
            for (int stream = streams; stream-- > 0;) together = together << 8 | of[stream];
            *sum = folded(*sum, together);
        }
    }
    return true;
}

static bool jobs_of(char **words, int *streams, uint8_t *mcs) {
    static const struct { const char *name; int i, q; uint8_t mcs; } kinds[] = {{"bpsk", 2, 1, 0}, {"qpsk", 2, 2, 1}, {"qam16", 4, 4, 3}, {"qam64", 8, 8, 5}};
    for (int k = 0; k < 4; k++)
        if (!strcmp(kinds[k].name, words[1])) {
            *streams = atoi(words[0]);
            *mcs = (uint8_t)(8 * (*streams - 1) + kinds[k].mcs);
            make(*streams, kinds[k].i, kinds[k].q, atoi(words[2]), !strcmp(words[3], "large"));
            return true;
        }
    return false;
}

typedef uint32_t text(const uint8_t *, size_t, uint8_t *, size_t, uint64_t *, mizgaure_refusal *);
typedef uint64_t text_size(const uint8_t *, size_t);

static double now(void) { return (double)clock() / CLOCKS_PER_SEC; }

static int write_text(text *call, text_size *suffices, bool timed) {
    size_t n = 0, room = 1 << 16, got;
    uint8_t *input = malloc(room), *output;
    while (input && (got = fread(input + n, 1, room - n, stdin)) > 0)
        if ((n += got) == room) input = realloc(input, room *= 2);
    uint64_t enough = input ? suffices(input, n) : 0, size;
    mizgaure_refusal refusal;
    output = input ? malloc(enough) : NULL;
    double least = 1e9;
    for (int turn = 0; turn < (timed ? 5 : 1); turn++) {
        double start = now(), taken;
        if (!output || call(input, n, output, enough, &size, &refusal)) return 1;
        taken = now() - start;
        least = taken < least ? taken : least;
    }
    return timed ? printf("%.6f\n", least) < 0 : fwrite(output, 1, size, stdout) != size;
}

int main(int argc, char **words) {
    static const struct { const char *name; text *call; text_size *size; } texts[] = {
        {"detect_text", mizgaure_detect, mizgaure_detect_size}, {"rx_text", mizgaure_rx, mizgaure_rx_size},
        {"soft_text", mizgaure_soft, mizgaure_soft_size}, {"lrx_text", mizgaure_lrx, mizgaure_lrx_size},
        {"check_text", mizgaure_check, mizgaure_check_size}};
    int streams;
    uint8_t mcs;
    bool timed = argc == 3 && !strcmp(words[1], "times");
    for (size_t k = 0; (argc == 2 || timed) && k < sizeof texts / sizeof *texts; k++)
        if (!strcmp(words[argc - 1], texts[k].name)) return write_text(texts[k].call, texts[k].size, timed);
    uint64_t sum = 0;
    if (argc == 6 && !strcmp(words[1], "labels")) {
        char *of[4] = {words[2], words[3], words[4], "large"};
        if (!jobs_of(of, &streams, &mcs)) return 2;
        for (int left = atoi(words[5]); left-- > 0;)
            if (!labelled(streams, mcs, left == 0, &sum)) return 1;
        return printf("%llu\n", (unsigned long long)sum) < 0;
    }
    if (argc != 7) return 2;
    if (!strcmp(words[1], "jobs")) {
        FILE *file = jobs_of(words + 3, &streams, &mcs) ? fopen(words[2], "wb") : NULL;
        return !file || fwrite(channels, sizeof channels, 1, file) != 1 || fwrite(received, sizeof received, 1, file) != 1 || fclose(file);
    }
    if (!jobs_of(words + 2, &streams, &mcs)) return 2;
    for (int turn = 0; turn < atoi(words[6]); turn++) {
        if (mizgaure_detect_symbols(0, mcs, channels, JOBS, received, SAMPLES, hits, SAMPLES, MIZGAURE_EMPTY, 0, MIZGAURE_EMPTY, 0)) return 1;
        if (!strcmp(words[1], "detect")) sum = with_hits(sum, streams);
    }
    printf("%llu\n", (unsigned long long)sum);
    return 0;
}
