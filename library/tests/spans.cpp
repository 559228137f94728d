// The C++ header: each function once, on what the standard or arithmetic says, and each fault but NO_MEMORY as an exception.
#include "mizgaure.hpp"

#include <algorithm>
#include <array>
#include <cstdio>
#include <cstring>
#include <numeric>

using namespace mizgaure;

static int passed, failed;

#define EXPECT(...)                                                                                                    \
    do {                                                                                                               \
        if (__VA_ARGS__) passed++;                                                                                     \
        else failed++, std::printf("%s:%d: not so: %s\n", __FILE__, __LINE__, #__VA_ARGS__);                           \
    } while (0)

// The fault that a call throws, by the name that it has there; DONE where it throws none.
template <class Call> static mizgaure_fault thrown(Call call) {
    try {
        call();
    } catch (const fault &caught) {
        EXPECT(!std::strcmp(caught.what(), mizgaure_fault_name(caught.code)));
        return caught.code;
    }
    return MIZGAURE_DONE;
}

// Bits that don't repeat soon.
template <std::size_t n> static std::array<bool, n> pattern() {
    std::array<bool, n> bits;
    for (std::size_t k = 0; k < n; k++) bits[k] = k * k % 11 < 4;
    return bits;
}

static void chain() {
    std::array<bool, 127> bits{};
    scramble(127, bits);
    EXPECT(!bits[0] && !bits[3] && bits[4] && bits[126]); // 00001110 .. 1 (clause 18.3.5.5)
    EXPECT(recover(bits_in(bits).first(7)) == 127);
    EXPECT(thrown([&] { scramble(0, bits); }) == MIZGAURE_NO_SEED && thrown([&] { recover(bits); }) == MIZGAURE_BAD_LENGTH);

    auto all = pattern<2592>();
    std::array<bool, 1296> first, second, one, two;
    std::array<bool, 2592> back, laid;
    rate wide{1, 31}, narrow{0, 31};
    split(wide, all, first, second);
    EXPECT(first[5] == all[10] && second[5] == all[11]); // a bit each in turn (clause 20.3.11.5)
    join(wide, first, second, back);
    EXPECT(back == all);
    std::array<bool, 5> few;
    split(narrow, bits_in(all).first(5), few, {});
    EXPECT(std::equal(few.begin(), few.end(), all.begin()) && thrown([&] { split(narrow, all, first, second); }) == MIZGAURE_BAD_LENGTH);
    lay(wide, first, second, laid);
    bool in_turn = true; // 3 bits a stream at a time, the encoders in turn (clause 20.3.11.8.2)
    for (int k = 0; k < 2592; k++) in_turn = in_turn && laid[k / 3 % 4 * 648 + k / 12 * 3 + k % 3] == (k / 12 % 2 ? second : first)[k / 24 * 12 + k % 12];
    gather(wide, laid, one, two);
    EXPECT(in_turn && one == first && two == second && thrown([&] { gather({1, 32}, laid, one, two); }) == MIZGAURE_NO_RATE);

    bool input[606] = {}, coded[728], found[606];
    for (int k = 0; k < 600; k++) input[k] = k * k % 7 < 3;
    encode(3, input, coded);
    std::vector<std::uint8_t> heard(coded, coded + 728);
    std::vector<std::int32_t> weights;
    for (bool bit : coded) weights.push_back(bit ? 10 : -10);
    heard[100] ^= 1, heard[300] = 255, weights[100] *= -1;
    EXPECT(decode(3, heard, found) == 1 && !std::memcmp(input, found, 606));
    std::fill(found, found + 606, false);
    EXPECT(soft_decode(3, weights, found) == 10 && !std::memcmp(input, found, 606));
    EXPECT(thrown([&] { encode(4, input, coded); }) == MIZGAURE_NO_PATTERN && thrown([&] { decode(3, {}, found); }) == MIZGAURE_BAD_LENGTH);
}

static void mapping() {
    std::array<std::uint16_t, 52> to, from;
    places({0, 0}, 1, to), origins({0, 0}, 1, from);
    for (int k = 0; k < 52; k++) EXPECT(to[k] == 4 * (k % 13) + k / 13 && from[to[k]] == k); // clause 20.3.11.8.3
    EXPECT(thrown([&] { places({0, 0}, 2, to); }) == MIZGAURE_NO_STREAM);
    const std::array<std::uint8_t, 3> names{32, 0, 63};
    std::array<mizgaure_point, 3> found;
    std::array<std::uint8_t, 3> back;
    points(6, names, found), labels(6, found, back);
    EXPECT(found[0].i == 7 && found[0].q == -7 && found[2].i == 3 && back == names); // table 18-11
    EXPECT(thrown([&] { points(3, names, found); }) == MIZGAURE_NO_MODULATION && thrown([&] { points(4, names, found); }) == MIZGAURE_NO_LABEL);
    EXPECT(thrown([&] { labels(4, found, back); }) == MIZGAURE_NO_POINT);
    std::array<std::int8_t, 4> signs;
    const std::array<std::int8_t, 4> wanted{1, 1, 1, -1};
    pilots({0, 0}, 0, 1, signs);
    EXPECT(signs == wanted);
}

static void detection() {
    EXPECT(version() == MIZGAURE_VERSION);
    mizgaure_channel channel{{10}, {}};
    mizgaure_received received{{{7, 0}}};
    auto hit = nearest({0, 0}, channel, received); // 7 is nearest to 10, at the squared distance 9
    EXPECT(hit.points[0].i == 1 && hit.points[0].q == 0 && hit.low == 9 && thrown([&] { nearest({2, 0}, channel, received); }) == MIZGAURE_NO_RATE);
    auto shown = certify_job({0, 0}, channel, received);
    check_job({0, 0}, channel, received, shown);
    shown.hit.low = 8;
    try {
        check_job({0, 0}, channel, received, shown);
        EXPECT(!"8 is not the distance");
    } catch (const not_certified &caught) {
        EXPECT(caught.flaw.kind == 2 && caught.flaw.low == 9);
    }
    shown.marks.clear();
    EXPECT(thrown([&] { check_job({0, 0}, channel, received, shown); }) == MIZGAURE_NOT_CERTIFIED);

    std::array<mizgaure_received, 6> samples{received, received, received, received, received, {{{-12, 0}}}};
    std::array<mizgaure_channel, 2> channels{channel, channel};
    std::array<mizgaure_hit, 6> hits{};
    std::array<std::uint8_t, 6> heard{}, wanted{1, 1, 1, 1, 1, 0};
    std::array<mizgaure_distance, 3> sums{};
    detect_symbols({0, 0}, channels, samples, hits, heard, sums);
    EXPECT(hits[5].points[0].i == -1 && hits[5].low == 4 && heard == wanted && sums[0].low == 18 && sums[2].low == 13);
    heard = {}, sums = {};
    detect_symbols({0, 0}, channels, samples, {}, heard), detect_symbols({0, 0}, channels, samples, {}, {}, sums);
    EXPECT(heard == wanted && sums[2].low == 13 && thrown([&] { detect_symbols({0, 0}, {}, samples, hits); }) == MIZGAURE_BAD_LENGTH);
    std::array<std::int32_t, 6> weights{};
    weigh_symbols({0, 0}, channels, samples, weights); // 17^2 - 3^2, and 2^2 - 22^2
    EXPECT(weights[0] == 280 && weights[5] == -480 && thrown([&] { weigh_symbols({0, 0}, channels, samples, {}); }) == MIZGAURE_BAD_LENGTH);
}

static void frames() {
    std::array<std::uint8_t, 10> octets, back{};
    std::iota(octets.begin(), octets.end(), 3);
    std::vector<mizgaure_point> sent(112), data;
    transmit({0, 1}, 93, octets, sent);
    for (int k = 0; k < 112; k++)
        if (k % 56 != 7 && k % 56 != 21 && k % 56 != 34 && k % 56 != 48) data.push_back(sent[k]);
    std::vector<std::uint8_t> heard(104);
    std::vector<std::int32_t> weights;
    labels(2, data, heard);
    heard[0] ^= 1;
    EXPECT(decode_frame({0, 1}, heard, back) == 1 && back == octets && decode_frame({0, 1}, heard, back, 1) == 0);
    for (auto label : heard) weights.insert(weights.end(), {label & 2 ? 5 : -5, label & 1 ? 5 : -5});
    back = {};
    EXPECT(soft_frame({0, 1}, weights, back).low == 5 && back == octets && soft_frame({0, 1}, weights, back, 1).low == 0);
    EXPECT(thrown([&] { transmit({0, 1}, 0, octets, sent); }) == MIZGAURE_NO_SEED && thrown([&] { decode_frame({0, 1}, {}, back); }) == MIZGAURE_BAD_LENGTH);

    std::array<std::uint16_t, 48> to, from;
    legacy_places(0, to), legacy_origins(0, from);
    for (int k = 0; k < 48; k++) EXPECT(to[k] == 3 * (k % 16) + k / 16 && from[to[k]] == k); // clause 18.3.5.7
    std::array<std::int8_t, 4> signs;
    const std::array<std::int8_t, 4> wanted{1, 1, 1, -1};
    legacy_pilots(0, signs);
    EXPECT(signs == wanted && thrown([&] { legacy_places(8, to); }) == MIZGAURE_NO_RATE);
    const std::array<std::uint8_t, 1> octet{0xa5};
    std::array<std::uint8_t, 1> found{};
    std::vector<mizgaure_point> points(104);
    std::vector<std::uint8_t> bits;
    legacy_transmit(0, 127, octet, points);
    for (int k = 0; k < 104; k++)
        if (k % 52 != 5 && k % 52 != 19 && k % 52 != 32 && k % 52 != 46) bits.push_back(points[k].i == 1);
    EXPECT(legacy_decode_frame(0, bits, found) == 0 && found == octet);
}

static void whole_inputs() {
    // The octet a5 there and back, at 20 MHz and MCS 0, and in clause 18.
    const file sent{'H', 'T', 'T', 'X', 1, 0, 1, 0, 0, 0, 1, 127, 0xa5}, legacy_sent{'L', 'G', 'T', 'X', 1, 0, 1, 0, 0, 1, 127, 0xa5};
    auto symbols = tx(sent), capture = pass(42, 0, symbols), legacy = legacy_pass(42, 0, legacy_sent), newer = upgrade(capture);
    const text heard = "frame 0 data 0 pilot 0 code 0 octets a5\nend 1 frames\n";
    EXPECT(symbols.size() == 235 && rx(capture) == heard && rx(newer) == heard && lrx(legacy) == heard);
    EXPECT(newer.size() == capture.size() + 56 && newer[4] == 2 && soft(capture).starts_with("soft 0 cost 0 octets a5\n"));
    EXPECT(detect(capture).starts_with("job 0 0 0 0 ") && detect(capture).ends_with("end 1 frames\n"));
    auto certificates = certify(capture);
    EXPECT(check(certificates).ends_with("end 104 jobs yes 104\n"));
    file bundle{'H', 'T', 'M', 'B', 1, 1, 0, 0, std::uint8_t(capture.size() / 256), std::uint8_t(capture.size())};
    bundle.insert(bundle.end(), capture.begin(), capture.end());
    EXPECT(many(bundle) == "capture 0\n" + heard);

    const struct { std::size_t (*into)(octets_in, octets_out); std::uint64_t (*size)(octets_in); text (*whole)(octets_in); octets_in input; } calls[] = {
        {detect_into, detect_size, detect, capture}, {rx_into, rx_size, rx, capture}, {soft_into, soft_size, soft, capture},
        {lrx_into, lrx_size, lrx, legacy}, {many_into, many_size, many, bundle}, {check_into, check_size, check, certificates},
    };
    for (auto call : calls) {
        text due = call.whole(call.input);
        file room(call.size(call.input), 0x55);
        std::size_t length = call.into(call.input, room);
        EXPECT(length == due.size() && std::equal(due.begin(), due.end(), room.begin()) && (length == room.size() || room[length] == 0x55));
        try {
            call.into(call.input, octets_out(room).first(due.size() - 1));
            EXPECT(!"the text fits into fewer octets");
        } catch (const no_room &caught) {
            EXPECT(caught.size == due.size());
        }
    }
    EXPECT(thrown([&] { rx_into(capture, {}); }) == MIZGAURE_NO_ROOM && rx_size({}) == 32);
    const file early{'H', 'T'};
    try {
        rx(early);
        EXPECT(!"two octets are no capture");
    } catch (const refused &caught) {
        EXPECT(caught.where.kind == 6 && caught.where.offset == 2); // it ends early
    }
    EXPECT(thrown([] { tx({}); }) == MIZGAURE_REFUSED);
}

int main() {
    chain();
    mapping();
    detection();
    frames();
    whole_inputs();
    std::printf("%d facts hold, %d don't\n", passed, failed);
    return failed > 0;
}
