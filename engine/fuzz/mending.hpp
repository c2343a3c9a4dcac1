// mending.hpp: what holds of a mended floor under the fuzz target, by its bytes, by those of the floor that was mended,
// and by what the reader and a second mending say of it.
#ifndef WINGPOLLEN_FUZZ_MENDING_HPP
#define WINGPOLLEN_FUZZ_MENDING_HPP

#include "forms.hpp"

#include <map>
#include <set>

namespace fuzz {

// A floor that was mended, the form that was written, and the list.
struct Mending : Written {
    const Owned& list;

    // The transition of an edge that leads to no room.
    static constexpr std::uint32_t nowhere = 0xFFFFFFFF;

    // The list's records: those of corners have 15 bytes and stand first, those of half-edges have 7.
    static constexpr std::size_t corner_size = 15, loss_size = 7;
    std::size_t corners() const {
        std::size_t count = 0;
        while (corner_size * (count + 1) <= list.size() && list[corner_size * count] == 1) ++count;
        return count;
    }
    std::size_t losses() const { return (list.size() - corner_size * corners()) / loss_size; }

    void judged() const {
        const wp_floor read = accepts(form);
        require(read.number == 0, "a mended floor is refused");
        require(read.faces == word(before, 80) && read.walkable == word(before, 112), "faces come or go by mending");
        require(std::equal(form.begin(), form.begin() + 72, before.begin()), "the header's floats do not stay");
        require(word(form, 108) == word(before, 108), "the root does not stay");
        stays(76, 3 * word(before, 72)), stays(88, read.faces), stays(92, 3 * read.faces), stays(96, read.faces);
        stays(104, 11 * word(before, 100));
        in_fixed_form();
        mended_again();
        listed();
        lowest();
        linked();
        looped();
    }

    void mended_again() const {
        Owned memory(WP_WORK, 0x5C), again(form.size()), nothing;
        const wp_mended twice = wp_mend(form.data(), form.size(), memory.data(), memory.size(), again.data(),
                                        again.size(), wingpollen::inside::to_write(nothing), 0);
        require(twice.number == 0 && twice.listed == 0, "a mended floor is not mended for good");
        require(twice.length == form.size() && again == form, "mending again writes another floor");
    }

    // The list has the corners that changed, by place, then half-edges in order.
    void listed() const {
        std::size_t at = 0;
        for (std::uint32_t place = 0; place < 3 * word(before, 80); ++place) {
            const std::uint32_t was = entry(before, 84, place), is = entry(form, 84, place);
            if (was == is) continue;
            require(is < was && same_place(was, is), "a corner moves, or to no lower vertex");
            require(record(at, 1, {place, was, is}), "a changed corner is not listed, or otherwise");
            at += corner_size;
        }
        std::uint32_t lowest = 0;
        for (; at != list.size(); at += loss_size) {
            require(at + loss_size <= list.size(), "a list with something else in it");
            const std::uint32_t half_edge = word(list, at + 3);
            require(record(at, 2, {half_edge}), "a half-edge's tag or length, or a corner that did not change");
            require(half_edge >= lowest && half_edge < 3 * word(before, 112),
                    "half-edges out of order, or not walkable");
            lowest = half_edge + 1;
        }
    }

    // Whether the record at this byte has this tag and these numbers.
    bool record(std::size_t at, std::uint8_t tag, std::initializer_list<std::uint32_t> said) const {
        Owned wanted{tag, static_cast<std::uint8_t>(4 * said.size()), 0};
        for (const std::uint32_t number : said) {
            for (int i = 0; i < 4; ++i) wanted.push_back(static_cast<std::uint8_t>(number >> 8 * i));
        }
        return at + wanted.size() <= list.size() && std::equal(wanted.begin(), wanted.end(), list.data() + at);
    }

    // No vertex that a corner has become has a lower one at its place.
    void lowest() const {
        std::set<std::uint32_t> used;
        for (std::uint32_t place = 0; place < 3 * word(before, 80); ++place) used.insert(entry(form, 84, place));
        for (const std::uint32_t vertex : used) {
            for (std::uint32_t lower = 0; lower < vertex; ++lower) {
                require(!same_place(lower, vertex), "a corner has a lower vertex at its place");
            }
        }
    }

    // An edge leads where the one valid entry of its half-edge led, else nowhere; and a half-edge is listed exactly if
    // it had a valid entry that led somewhere and has none now.
    void linked() const {
        std::map<std::uint32_t, std::vector<std::uint32_t>> valid;
        for (std::size_t i = 0; i < word(before, 120); ++i) {
            const std::uint32_t half_edge = entry(before, 124, 2 * i), room_or_none = entry(before, 124, 2 * i + 1);
            const bool is_valid = half_edge < 3 * word(before, 112) && room_or_none + 1 <= WP_ROOMS;
            if (is_valid) valid[half_edge].push_back(room_or_none);
        }
        std::set<std::uint32_t> lost;
        for (const auto& [half_edge, rooms] : valid) {
            if (std::count(rooms.begin(), rooms.end(), nowhere) != std::ptrdiff_t(rooms.size())) lost.insert(half_edge);
        }
        for (std::size_t i = 0; i < word(form, 120); ++i) {
            const std::uint32_t half_edge = entry(form, 124, 2 * i), leads = entry(form, 124, 2 * i + 1);
            const auto found = valid.find(half_edge);
            const bool one = found != valid.end() && found->second.size() == 1;
            require(leads == (one ? found->second[0] : nowhere), "an edge leads elsewhere than its one valid entry");
            if (leads != nowhere) lost.erase(half_edge);
        }
        require(losses() == lost.size(), "lost links and the list");
        std::size_t at = corner_size * corners();
        for (const std::uint32_t half_edge : lost) {
            require(word(list, at + 3) == half_edge, "a lost link is not listed");
            at += loss_size;
        }
    }

    // A loop comes back to its start vertex at its end and nowhere before.
    void looped() const {
        std::uint32_t i = 0;
        for (std::uint32_t j = 0; j < word(form, 128); ++j) {
            const std::uint32_t start = vertex_of(entry(form, 124, 2 * std::size_t{i}), 0), end = entry(form, 132, j);
            for (; i < end; ++i) {
                const bool back = vertex_of(entry(form, 124, 2 * std::size_t{i}), 1) == start;
                require(back == (i + 1 == end), "a loop goes on past its start");
            }
        }
    }

    // The vertex where a half-edge starts (0) or ends (1).
    std::uint32_t vertex_of(std::uint32_t half_edge, std::uint32_t end) const {
        return entry(form, 84, half_edge - half_edge % 3 + (half_edge + end) % 3);
    }

    bool same_place(std::uint32_t one, std::uint32_t other) const {
        for (std::size_t i = 0; i < 3; ++i) {
            if (coordinate(3 * std::size_t{one} + i) != coordinate(3 * std::size_t{other} + i)) return false;
        }
        return true;
    }
};

}  // namespace fuzz

#endif
