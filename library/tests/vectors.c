/* detect_symbols on captures of vectors/, whose texts no library wrote: its points and distances are those of the jobs' lines, and its
 * sums and labels are those of the frame's line, which has the sum over the frame's data subcarriers and the octets.
 *
 * usage: vectors FILE.htcp..     reads FILE.detect and FILE.rx too; captures are of version 1 (docs/FORMATS.md) */
#include "mizgaure.h"

#include <stdio.h>
#include <stdlib.h>
#include <string.h>

typedef unsigned __int128 number;

static FILE *capture;
static int wrong;

/* A number of so many octets, the highest one first. */
static int64_t read_number(int octets) {
    uint64_t value = 0;
    for (int k = 0; k < octets; k++) value = value << 8 | (uint8_t)getc(capture);
    return (int64_t)(value << (64 - 8 * octets)) >> (64 - 8 * octets); /* as in two's complement */
}

static number decimal(const char *digits) {
    number value = 0;
    for (; *digits; digits++) value = 10 * value + (unsigned)(*digits - '0');
    return value;
}

static FILE *beside(const char *name, const char *ending) {
    char path[4096];
    snprintf(path, sizeof path, "%.*s%s", (int)strlen(name) - 4, name, ending);
    return fopen(path, "r");
}

static bool is_pilot(int bandwidth, int carrier) {
    static const int pilots[2][6] = {{7, 21, 34, 48, -1, -1}, {5, 33, 47, 66, 80, 108}};
    for (int k = 0; k < 6; k++)
        if (pilots[bandwidth][k] == carrier) return true;
    return false;
}

/* The next frame of a capture beside its lines; the sizes are those of the header. */
static void frame(FILE *jobs, FILE *lines) {
    static const int bits_of[8] = {1, 2, 2, 4, 4, 6, 6, 6}, of_twelve[8] = {6, 6, 9, 6, 9, 8, 9, 10}; /* N_BPSCS, and the coding rate */
    uint8_t bandwidth = (uint8_t)read_number(1), mcs = (uint8_t)read_number(1);
    size_t octets_n = (size_t)read_number(2) & 65535, streams = mcs / 8 + 1, carriers = bandwidth ? 114 : 56, data = bandwidth ? 108 : 52;
    int bits = bits_of[mcs % 8];
    size_t encoders = bandwidth && ((21 <= mcs && mcs <= 23) || 28 <= mcs) ? 2 : 1, per_symbol = data * streams * bits * of_twelve[mcs % 8] / 12;
    size_t symbols = (16 + 8 * octets_n + 6 * encoders + per_symbol - 1) / per_symbol, n = symbols * data;

    mizgaure_channel *channels = calloc(data, sizeof *channels);
    mizgaure_received *received = calloc(n, sizeof *received);
    mizgaure_hit *hits = malloc(n * sizeof *hits);
    uint8_t *labels = malloc(n * streams), *octets = malloc(octets_n);
    mizgaure_distance *sums = malloc(symbols * sizeof *sums);
    mizgaure_point *points = malloc(n * streams * sizeof *points);
    if (!channels || !received || !hits || !labels || !octets || !sums || !points) exit(2);
    for (size_t c = 0, at = 0; c < carriers; c++) {
        mizgaure_channel channel = {0};
        for (size_t row = 0, entry = 0; row < streams; row++) {
            channel.diagonal[row] = (uint16_t)read_number(2);
            for (size_t right = row + 1; right < streams; right++, entry++)
                channel.above[entry].re = (int16_t)read_number(2), channel.above[entry].im = (int16_t)read_number(2);
        }
        if (!is_pilot(bandwidth, (int)c)) channels[at++] = channel;
    }
    for (size_t k = 0, at = 0; k < symbols * carriers; k++) {
        mizgaure_received y = {0};
        for (size_t row = 0; row < streams; row++)
            y.samples[row].re = (int32_t)read_number(4), y.samples[row].im = (int32_t)read_number(4);
        if (!is_pilot(bandwidth, (int)(k % carriers))) received[at++] = y;
    }
    if (mizgaure_detect_symbols(bandwidth, mcs, channels, data, received, n, hits, n, labels, n * streams, sums, symbols)) wrong++;

    char word[64];
    for (size_t k = 0, at = 0; k < symbols * carriers; k++) {
        bool read = fscanf(jobs, " job %*u %*u %*u %63s", word) == 1, as_due = true;
        bool pilot = is_pilot(bandwidth, (int)(k % carriers));
        for (size_t stream = 0; stream < streams; stream++) {
            int i = 0, q = 0;
            read = read && fscanf(jobs, "%d %d", &i, &q) == 2;
            as_due = as_due && (pilot || (hits[at].points[stream].i == i && hits[at].points[stream].q == q));
        }
        if (!pilot) as_due = as_due && hits[at].low + ((number)hits[at].high << 64) == decimal(word), at++;
        wrong += !read || !as_due;
    }
    for (size_t k = 0; k < n; k++)
        if (mizgaure_points((uint8_t)bits, labels + k * streams, streams, points, streams) || memcmp(points, hits[k].points, streams * sizeof *points)) wrong++;

    number sum = 0;
    unsigned code = 0;
    uint32_t differences = 0;
    for (size_t k = 0; k < symbols; k++) sum += sums[k].low + ((number)sums[k].high << 64);
    wrong += fscanf(lines, " frame %*u data %63s pilot %*s code %u", word, &code) != 2 || sum != decimal(word);
    uint32_t answer = mizgaure_decode_frame(bandwidth, mcs, 0, 0, labels, n * streams, octets, octets_n, &differences);
    bool has_octets = fscanf(lines, "%63s", word) == 1 && !strcmp(word, "octets");
    wrong += answer != (has_octets ? MIZGAURE_DONE : MIZGAURE_NO_SEED) || (has_octets && differences != code);
    for (size_t k = 0; has_octets && k < octets_n; k++) {
        unsigned octet = 256;
        wrong += fscanf(lines, k ? "%2x" : " %2x", &octet) != 1 || octet != octets[k];
    }
    if (!has_octets) wrong += fscanf(lines, "%63s", word) != 1; /* "seed zero" */
    free(channels), free(received), free(hits), free(labels), free(octets), free(sums), free(points);
}

int main(int count, char **names) {
    int frames = 0;
    for (int k = 1; k < count; k++) {
        int before = wrong;
        FILE *jobs = beside(names[k], "detect"), *lines = beside(names[k], "rx");
        capture = fopen(names[k], "rb");
        if (!capture || !jobs || !lines || read_number(4) != 0x48544350 || read_number(1) != 1) return printf("%s: no capture of version 1 with its texts\n", names[k]), 2;
        for (int left = (int)read_number(2); left > 0; left--, frames++) frame(jobs, lines);
        if (wrong > before) printf("%s: %d wrong\n", names[k], wrong - before);
        fclose(capture), fclose(jobs), fclose(lines);
    }
    printf("%d frames, %d wrong\n", frames, wrong);
    return wrong > 0 || frames == 0;
}
