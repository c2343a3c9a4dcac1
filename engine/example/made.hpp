// made.hpp: floors that no file has, each made of another one: as a school sends it, with split seams, and as the
// modelling club sends it, without a tree.
#ifndef WINGPOLLEN_EXAMPLE_MADE_HPP
#define WINGPOLLEN_EXAMPLE_MADE_HPP

#include "../wingpollen.hpp"

#include <cstdlib>
#include <iostream>

namespace example {

// Why the script cannot go on. Not an answer of the library: a mistake in the script or a missing file.
[[noreturn]] inline void give_up(const std::string& why) {
    std::cout << std::flush;
    std::cerr << "morning: " << why << '\n';
    std::exit(2);
}

using Owned = std::vector<std::uint8_t>;
inline Owned owned(wingpollen::Bytes bytes) { return {bytes.data, bytes.data + bytes.length}; }

// A floor's numbers, of four bytes each.
inline std::uint32_t word_at(const Owned& bytes, std::size_t at) {
    if (at + 4 > bytes.size()) give_up("no floor to make another of");
    std::uint32_t word = 0;
    for (std::size_t i = 0; i < 4; ++i) word |= static_cast<std::uint32_t>(bytes[at + i]) << 8 * i;
    return word;
}
inline void put_word(Owned& bytes, std::size_t at, std::uint32_t word) {
    for (std::size_t i = 0; i < 4; ++i) bytes[at + i] = static_cast<std::uint8_t>(word >> 8 * i);
}

// A floor that is put together from another one, table after table behind the header.
struct Made {
    const Owned& old;
    Owned bytes{old.begin(), old.begin() + 136};

    // The table of this offset field begins here.
    void begin(std::size_t field) { put_word(bytes, field, static_cast<std::uint32_t>(bytes.size())); }
    void add(std::uint32_t word) {
        bytes.resize(bytes.size() + 4);
        put_word(bytes, bytes.size() - 4, word);
    }
    // Word i of the old table of this offset field, and the whole table, of so many words.
    std::uint32_t word(std::size_t field, std::uint32_t i) const { return word_at(old, word_at(old, field) + 4 * i); }
    void copy(std::size_t field, std::uint32_t words) {
        begin(field);
        for (std::uint32_t i = 0; i < words; ++i) add(word(field, i));
    }
};

// A floor as a school sends it: the same faces at the same places under the same tree, but each with corners of its
// own. Its lists are right as it stands: every walkable face is a loop by itself.
inline Owned school_floor(const Owned& old) {
    if (old.size() < 136) give_up("no floor to make another of");
    const std::uint32_t faces = word_at(old, 80), nodes = word_at(old, 100), walkable = word_at(old, 112);
    Made made{old};
    made.begin(76);
    for (std::uint32_t corner = 0; corner < 3 * faces; ++corner) {
        for (std::uint32_t i = 0; i < 3; ++i) made.add(made.word(76, 3 * made.word(84, corner) + i));
    }
    made.begin(84);
    for (std::uint32_t corner = 0; corner < 3 * faces; ++corner) made.add(corner);
    made.copy(88, faces), made.copy(92, 3 * faces), made.copy(96, faces), made.copy(104, 11 * nodes);
    made.begin(116);
    for (std::uint32_t side = 0; side < 3 * walkable; ++side) made.add(UINT32_MAX);
    made.begin(124);
    for (std::uint32_t side = 0; side < 3 * walkable; ++side) made.add(side), made.add(side / 3);
    made.begin(132);
    for (std::uint32_t face = 0; face < walkable; ++face) made.add(3 * face + 3);
    put_word(made.bytes, 72, 3 * faces), put_word(made.bytes, 120, 3 * walkable), put_word(made.bytes, 128, walkable);
    return std::move(made.bytes);
}

// A floor as the modelling club sends it: all of the other one but its nodes.
inline Owned club_floor(const Owned& old) {
    if (old.size() < 136) give_up("no floor to make another of");
    const std::uint32_t faces = word_at(old, 80);
    Made made{old};
    made.copy(76, 3 * word_at(old, 72));
    made.copy(84, 3 * faces), made.copy(88, faces), made.copy(92, 3 * faces), made.copy(96, faces), made.copy(104, 0);
    made.copy(116, 3 * word_at(old, 112)), made.copy(124, 2 * word_at(old, 120)), made.copy(132, word_at(old, 128));
    put_word(made.bytes, 100, 0);
    return std::move(made.bytes);
}

}  // namespace example

#endif
