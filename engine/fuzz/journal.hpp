// journal.hpp: what the bytes of a journal say by themselves, without a floor: how many records fit, whose each is, and
// which records would block an undo. The fuzz target holds the calls to it.
#ifndef WINGPOLLEN_FUZZ_JOURNAL_HPP
#define WINGPOLLEN_FUZZ_JOURNAL_HPP

#include "lent.hpp"

namespace fuzz {

// The bytes of a record: tag, stated length (two bytes), bench, place, old and new, each of these three in four bytes.
constexpr std::size_t bench_at = 3, place_at = 4, new_at = 12;
constexpr std::uint8_t stated_length = 13;

// The first f records of a journal that has so many.
struct Journal {
    const Owned& bytes;
    std::uint32_t f;

    static std::size_t fit(std::size_t length) { return std::min<std::size_t>(length / WP_RECORD, WP_RECORDS); }
    std::size_t half() const { return fit(bytes.size()) / WP_BENCHES; }

    const std::uint8_t* record(std::uint32_t i) const { return bytes.data() + std::size_t{WP_RECORD} * i; }
    bool is_of(std::uint32_t i, std::uint32_t bench) const { return record(i)[bench_at] == bench; }

    std::uint32_t holds(std::uint32_t bench) const {
        std::uint32_t count = 0;
        for (std::uint32_t i = 0; i < f; ++i) count += is_of(i, bench);
        return count;
    }

    // No more room for the bench: it holds its half, or more, or all records that fit are kept.
    bool full(std::uint32_t bench) const { return holds(bench) >= half() || f == fit(bytes.size()); }

    // The bench's latest record; f where it holds none.
    std::uint32_t latest(std::uint32_t bench) const {
        std::uint32_t i = f;
        while (i != 0 && !is_of(i - 1, bench)) --i;
        return i == 0 ? f : i - 1;
    }

    bool same_field(std::uint32_t i, std::uint32_t j) const {
        const std::uint8_t* place = record(i) + place_at;
        return record(i)[0] == record(j)[0] && std::equal(place, place + 4, record(j) + place_at);
    }

    // The other bench has a later record of the same tag and place as the bench's latest.
    bool blocked(std::uint32_t bench) const {
        const std::uint32_t own = latest(bench);
        for (std::uint32_t j = own + 1; j < f; ++j) {
            if (is_of(j, WP_BENCHES - 1 - bench) && same_field(own, j)) return true;
        }
        return false;
    }

    // The records in their order, but for the latest so many of the bench.
    Owned without(std::uint32_t bench, std::uint32_t count) const {
        const std::uint32_t kept = holds(bench) - count;
        Owned rest;
        for (std::uint32_t i = 0, own = 0; i < f; ++i) {
            const bool taken = is_of(i, bench) && own++ >= kept;
            if (!taken) rest.insert(rest.end(), record(i), record(i) + WP_RECORD);
        }
        return rest;
    }
};

}  // namespace fuzz

#endif
