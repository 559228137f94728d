// mizgaure.hpp: the calls of mizgaure.h over spans, with exceptions for faults (C++20). mizgaure.h has their units, shapes and faults, and
// what it asks of the caller holds here too, but for what spans say: lengths, and that no array is null. Bits are arrays of bool, such
// as std::array<bool, 8>; std::vector<bool> is none. What a call writes overlaps no other argument.
#ifndef MIZGAURE_HPP
#define MIZGAURE_HPP

#include "mizgaure.h"

#include <cstddef>
#include <cstdint>
#include <memory>
#include <new>
#include <span>
#include <stdexcept>
#include <string>
#include <vector>

namespace mizgaure {

// A call did nothing; `code` says why.
struct fault : std::runtime_error {
    mizgaure_fault code;
    explicit fault(std::uint32_t answer) : runtime_error(mizgaure_fault_name(answer)), code(mizgaure_fault(answer)) {}
};

// A certificate doesn't hold: what is wrong with it.
struct not_certified : fault {
    mizgaure_flaw flaw;
    explicit not_certified(mizgaure_flaw what) : fault(MIZGAURE_NOT_CERTIFIED), flaw(what) {}
};

// The input is no file of its format: the kind of its first fault, and where it is.
struct refused : fault {
    mizgaure_refusal where;
    explicit refused(mizgaure_refusal at) : fault(MIZGAURE_REFUSED), where(at) {}
};

// The output is longer than its span: so many octets suffice.
struct no_room : fault {
    std::uint64_t size;
    explicit no_room(std::uint64_t whole) : fault(MIZGAURE_NO_ROOM), size(whole) {}
};

// Clause 20.6. With other numbers the calls throw NO_RATE.
struct rate {
    std::uint8_t bandwidth; // 0: 20 MHz, 1: 40 MHz
    std::uint8_t mcs;       // 0 to 31
};

using octets_in = std::span<const std::uint8_t>;
using octets_out = std::span<std::uint8_t>;
using bits_in = std::span<const bool>;
using bits_out = std::span<bool>;

namespace detail {

inline void done(std::uint32_t answer) {
    if (answer != MIZGAURE_DONE) throw fault(answer);
}

// Where an array is; that of an empty span may be null.
template <class T> T *at(std::span<T> array) { return array.empty() ? static_cast<T *>(MIZGAURE_EMPTY) : array.data(); }

// Puts the output of a call at the front of a span; its length.
template <auto call, class... Before> std::size_t into(octets_in input, octets_out output, Before... before) {
    std::uint64_t size;
    mizgaure_refusal refusal;
    auto answer = call(before..., at(input), input.size(), at(output), output.size(), &size, &refusal);
    if (answer == MIZGAURE_NO_ROOM) throw no_room(size);
    if (answer == MIZGAURE_REFUSED) throw refused(refusal);
    return done(answer), size;
}

// The whole output of a call, in `size` octets, or, where there isn't so much memory or no size is known, in some, and then in those it needs.
template <class Output, auto call, class... Before> Output whole(octets_in input, std::uint64_t size, Before... before) {
    for (std::uint64_t some = 4096 + 8 * std::uint64_t(input.size());; size = some) {
        std::unique_ptr<std::uint8_t[]> room(size ? new (std::nothrow) std::uint8_t[size] : nullptr);
        if (!room) room.reset(new std::uint8_t[size = some]);
        try {
            return Output(room.get(), room.get() + into<call>(input, octets_out(room.get(), size), before...));
        } catch (const no_room &short_by) {
            some = short_by.size;
        }
    }
}

} // namespace detail

// The version of the library that is linked: it has these calls if it is MIZGAURE_VERSION.
inline std::uint32_t version() { return mizgaure_version(); }

// -- Detection

inline mizgaure_hit nearest(rate r, const mizgaure_channel &channel, const mizgaure_received &received) {
    mizgaure_hit found;
    return detail::done(mizgaure_nearest(r.bandwidth, r.mcs, &channel, &received, &found)), found;
}

// Outputs that aren't wanted are left out, as in detect_symbols(r, channels, received, {}, labels).
inline void detect_symbols(rate r, std::span<const mizgaure_channel> channels, std::span<const mizgaure_received> received,
                           std::span<mizgaure_hit> hits, octets_out labels = {}, std::span<mizgaure_distance> sums = {}) {
    detail::done(mizgaure_detect_symbols(r.bandwidth, r.mcs, detail::at(channels), channels.size(), detail::at(received), received.size(),
                                         detail::at(hits), hits.size(), detail::at(labels), labels.size(), detail::at(sums), sums.size()));
}

inline void weigh_symbols(rate r, std::span<const mizgaure_channel> channels, std::span<const mizgaure_received> received,
                          std::span<std::int32_t> weights) {
    detail::done(mizgaure_weigh_symbols(r.bandwidth, r.mcs, detail::at(channels), channels.size(), detail::at(received), received.size(),
                                        detail::at(weights), weights.size()));
}

// A hit, and the marks that show that it is the nearest, each 1 where a level is open.
struct certificate {
    mizgaure_hit hit;
    std::vector<std::uint8_t> marks;
};

inline certificate certify_job(rate r, const mizgaure_channel &channel, const mizgaure_received &received) {
    certificate made{{}, std::vector<std::uint8_t>(256)};
    for (std::uint64_t size = 0;;) {
        auto answer = mizgaure_certify_job(r.bandwidth, r.mcs, &channel, &received, &made.hit,
                                           reinterpret_cast<bool *>(made.marks.data()), made.marks.size(), &size);
        if (answer != MIZGAURE_NO_ROOM) detail::done(answer);
        made.marks.resize(size);
        if (answer == MIZGAURE_DONE) return made;
    }
}

// Throws not_certified where the certificate doesn't hold.
inline void check_job(rate r, const mizgaure_channel &channel, const mizgaure_received &received, const certificate &shown) {
    octets_in marks = shown.marks;
    mizgaure_flaw flaw;
    auto answer = mizgaure_check_job(r.bandwidth, r.mcs, &channel, &received, &shown.hit,
                                     reinterpret_cast<const bool *>(detail::at(marks)), marks.size(), &flaw);
    if (answer == MIZGAURE_NOT_CERTIFIED) throw not_certified(flaw);
    detail::done(answer);
}

// -- The coding chain

inline void scramble(std::uint8_t seed, bits_out bits) { detail::done(mizgaure_scramble(seed, detail::at(bits), bits.size())); }

inline std::uint8_t recover(bits_in bits) {
    std::uint8_t seed;
    return detail::done(mizgaure_recover(detail::at(bits), bits.size(), &seed)), seed;
}

// With one encoder `second` is empty, as in split(r, bits, first, {}); so it is in join, lay and gather.
inline void split(rate r, bits_in bits, bits_out first, bits_out second) {
    detail::done(mizgaure_split(r.bandwidth, r.mcs, detail::at(bits), bits.size(), detail::at(first), first.size(), detail::at(second),
                                second.size()));
}

inline void join(rate r, bits_in first, bits_in second, bits_out bits) {
    detail::done(mizgaure_join(r.bandwidth, r.mcs, detail::at(first), first.size(), detail::at(second), second.size(), detail::at(bits),
                               bits.size()));
}

inline void encode(std::uint8_t pattern, bits_in input, bits_out coded) {
    detail::done(mizgaure_encode(pattern, detail::at(input), input.size(), detail::at(coded), coded.size()));
}

// Into `input`, whose size is the number of steps; answers at how many places it differs.
inline std::uint32_t decode(std::uint8_t pattern, octets_in received, bits_out input) {
    std::uint32_t distance;
    return detail::done(mizgaure_decode(pattern, detail::at(received), received.size(), detail::at(input), input.size(), &distance)), distance;
}

// As decode; answers what the codeword costs.
inline std::uint64_t soft_decode(std::uint8_t pattern, std::span<const std::int32_t> weights, bits_out input) {
    std::uint64_t cost;
    return detail::done(mizgaure_soft_decode(pattern, detail::at(weights), weights.size(), detail::at(input), input.size(), &cost)), cost;
}

inline void lay(rate r, bits_in first, bits_in second, bits_out bits) {
    detail::done(mizgaure_lay(r.bandwidth, r.mcs, detail::at(first), first.size(), detail::at(second), second.size(), detail::at(bits),
                              bits.size()));
}

inline void gather(rate r, bits_in bits, bits_out first, bits_out second) {
    detail::done(mizgaure_gather(r.bandwidth, r.mcs, detail::at(bits), bits.size(), detail::at(first), first.size(), detail::at(second),
                                 second.size()));
}

inline void places(rate r, std::uint8_t stream, std::span<std::uint16_t> into) {
    detail::done(mizgaure_places(r.bandwidth, r.mcs, stream, detail::at(into), into.size()));
}

inline void origins(rate r, std::uint8_t stream, std::span<std::uint16_t> into) {
    detail::done(mizgaure_origins(r.bandwidth, r.mcs, stream, detail::at(into), into.size()));
}

// Labels of `bits` bits: 1, 2, 4 or 6.
inline void points(std::uint8_t bits, octets_in labels, std::span<mizgaure_point> into) {
    detail::done(mizgaure_points(bits, detail::at(labels), labels.size(), detail::at(into), into.size()));
}

inline void labels(std::uint8_t bits, std::span<const mizgaure_point> points, octets_out into) {
    detail::done(mizgaure_labels(bits, detail::at(points), points.size(), detail::at(into), into.size()));
}

inline void pilots(rate r, std::uint32_t symbol, std::uint8_t stream, std::span<std::int8_t> values) {
    detail::done(mizgaure_pilots(r.bandwidth, r.mcs, symbol, stream, detail::at(values), values.size()));
}

// -- Frames

inline void transmit(rate r, std::uint8_t seed, octets_in octets, std::span<mizgaure_point> points) {
    detail::done(mizgaure_transmit(r.bandwidth, r.mcs, seed, detail::at(octets), octets.size(), detail::at(points), points.size()));
}

// Into `octets`, whose size is that of the PSDU; answers at how many places the coded bits differ.
inline std::uint32_t decode_frame(rate r, octets_in labels, octets_out octets, std::uint64_t erased_low = 0, std::uint64_t erased_high = 0) {
    std::uint32_t differences;
    detail::done(mizgaure_decode_frame(r.bandwidth, r.mcs, erased_low, erased_high, detail::at(labels), labels.size(), detail::at(octets),
                                       octets.size(), &differences));
    return differences;
}

// As decode_frame; answers what the coded bits cost.
inline mizgaure_cost soft_frame(rate r, std::span<const std::int32_t> weights, octets_out octets, std::uint64_t erased_low = 0,
                                std::uint64_t erased_high = 0) {
    mizgaure_cost cost;
    detail::done(mizgaure_soft_frame(r.bandwidth, r.mcs, erased_low, erased_high, detail::at(weights), weights.size(), detail::at(octets),
                                     octets.size(), &cost));
    return cost;
}

// -- Frames of clause 18, whose rates are 0 to 7

inline void legacy_transmit(std::uint8_t r, std::uint8_t seed, octets_in octets, std::span<mizgaure_point> points) {
    detail::done(mizgaure_legacy_transmit(r, seed, detail::at(octets), octets.size(), detail::at(points), points.size()));
}

inline std::uint32_t legacy_decode_frame(std::uint8_t r, octets_in labels, octets_out octets) {
    std::uint32_t differences;
    detail::done(mizgaure_legacy_decode_frame(r, detail::at(labels), labels.size(), detail::at(octets), octets.size(), &differences));
    return differences;
}

inline void legacy_places(std::uint8_t r, std::span<std::uint16_t> into) {
    detail::done(mizgaure_legacy_places(r, detail::at(into), into.size()));
}

inline void legacy_origins(std::uint8_t r, std::span<std::uint16_t> into) {
    detail::done(mizgaure_legacy_origins(r, detail::at(into), into.size()));
}

inline void legacy_pilots(std::uint32_t symbol, std::span<std::int8_t> values) {
    detail::done(mizgaure_legacy_pilots(symbol, detail::at(values), values.size()));
}

// -- Whole inputs. A call throws `refused` where its input is no file of its format. Those with _into put the text at the front of a span
// and answer its length, and throw `no_room` where it is longer; those with _size say how long a span suffices, that of `many` where each capture
// of the bundle is whole.

using text = std::string;
using file = std::vector<std::uint8_t>;

inline std::uint64_t detect_size(octets_in capture) { return mizgaure_detect_size(detail::at(capture), capture.size()); }
inline std::uint64_t rx_size(octets_in capture) { return mizgaure_rx_size(detail::at(capture), capture.size()); }
inline std::uint64_t soft_size(octets_in capture) { return mizgaure_soft_size(detail::at(capture), capture.size()); }
inline std::uint64_t lrx_size(octets_in capture) { return mizgaure_lrx_size(detail::at(capture), capture.size()); }
inline std::uint64_t many_size(octets_in bundle) { return mizgaure_many_size(detail::at(bundle), bundle.size()); }
inline std::uint64_t check_size(octets_in certificates) { return mizgaure_check_size(detail::at(certificates), certificates.size()); }

inline text detect(octets_in capture) { return detail::whole<text, mizgaure_detect>(capture, detect_size(capture)); }
inline text rx(octets_in capture) { return detail::whole<text, mizgaure_rx>(capture, rx_size(capture)); }
inline text soft(octets_in capture) { return detail::whole<text, mizgaure_soft>(capture, soft_size(capture)); }
inline text lrx(octets_in capture) { return detail::whole<text, mizgaure_lrx>(capture, lrx_size(capture)); }
inline text many(octets_in bundle) { return detail::whole<text, mizgaure_many>(bundle, many_size(bundle)); }
inline text check(octets_in certificates) { return detail::whole<text, mizgaure_check>(certificates, check_size(certificates)); }

inline std::size_t detect_into(octets_in capture, octets_out into) { return detail::into<mizgaure_detect>(capture, into); }
inline std::size_t rx_into(octets_in capture, octets_out into) { return detail::into<mizgaure_rx>(capture, into); }
inline std::size_t soft_into(octets_in capture, octets_out into) { return detail::into<mizgaure_soft>(capture, into); }
inline std::size_t lrx_into(octets_in capture, octets_out into) { return detail::into<mizgaure_lrx>(capture, into); }
inline std::size_t many_into(octets_in bundle, octets_out into) { return detail::into<mizgaure_many>(bundle, into); }
inline std::size_t check_into(octets_in certificates, octets_out into) { return detail::into<mizgaure_check>(certificates, into); }

inline file certify(octets_in capture) { return detail::whole<file, mizgaure_certify>(capture, 0); }
inline file tx(octets_in frames) { return detail::whole<file, mizgaure_tx>(frames, 0); }
inline file upgrade(octets_in capture) { return detail::whole<file, mizgaure_upgrade>(capture, 0); }

inline file pass(std::uint64_t seed, std::uint16_t noise, octets_in symbols) {
    return detail::whole<file, mizgaure_pass>(symbols, 0, seed, noise);
}

inline file legacy_pass(std::uint64_t seed, std::uint16_t noise, octets_in frames) {
    return detail::whole<file, mizgaure_legacy_pass>(frames, 0, seed, noise);
}

} // namespace mizgaure

#endif
