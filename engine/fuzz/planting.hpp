// planting.hpp: what holds under the fuzz target when a floor is to get its tree: the refusal, by the reader's word on
// the same floor with another tree, and every word of the tree, by the ranges of faces that M-113 cuts in half.
#ifndef WINGPOLLEN_FUZZ_PLANTING_HPP
#define WINGPOLLEN_FUZZ_PLANTING_HPP

#include "forms.hpp"

#include <limits>

namespace fuzz {

// A floor without nodes, and the form with its tree.
struct Planting : Written {
    static constexpr std::uint32_t none = 0xFFFFFFFF;
    static constexpr std::size_t node_words = 11;

    // What is to be answered where there is work memory enough: number and place.
    static wp_answer wanted(const Owned& before, std::size_t out_length) {
        const wp_floor read = accepts(before);
        if (read.number >= 1 && read.number <= 10) return {read.number, read.place};
        if (word(before, 100) != 0) return {49, 100};
        const wp_floor hung = accepts(with_any_tree(before));
        require(hung.number == 0 || hung.number >= 15, "the other tree is wrong");
        if (hung.number != 0) return {hung.number, hung.place};
        return {out_length < length_with_tree(before) ? 40u : 0u, 0};
    }

    static std::uint32_t nodes_for(std::uint32_t faces) { return faces == 0 ? 0 : 2 * faces - 1; }

    // The floor's own fixed form, and 44 bytes for each node.
    static std::size_t length_with_tree(const Owned& before) {
        std::size_t length = 136 + 4 * node_words * nodes_for(word(before, 80));
        for (const Table& table : tables) length += 4 * table.words * word(before, table.count);
        return length;
    }

    // The floor with a tree at its end that shares nothing with the one to be made but the number of its nodes: node i
    // is over nodes 2i + 1 and 2i + 2, the leaves come last, and every box has all there is.
    static Owned with_any_tree(const Owned& before) {
        Owned hung = before;
        const std::uint32_t faces = word(before, 80), nodes = nodes_for(faces);
        put(hung, 100, nodes), put(hung, 104, static_cast<std::uint32_t>(hung.size())), put(hung, 108, 0);
        const float most = std::numeric_limits<float>::max();
        std::uint32_t box[2];
        std::memcpy(box, &most, 4);
        box[1] = box[0] | 0x80000000;
        for (std::uint32_t i = 0; i < nodes; ++i) {
            for (int end = 0; end < 6; ++end) add(hung, box[end < 3]);
            const bool inner = i + 1 < faces;
            add(hung, inner ? none : i + 1 - faces), add(hung, 0), add(hung, inner);
            add(hung, inner ? 2 * i + 1 : none), add(hung, inner ? 2 * i + 2 : none);
        }
        return hung;
    }
    static void put(Owned& bytes, std::size_t at, std::uint32_t word) {
        for (std::size_t i = 0; i < 4; ++i) bytes[at + i] = static_cast<std::uint8_t>(word >> 8 * i);
    }
    static void add(Owned& bytes, std::uint32_t word) {
        bytes.resize(bytes.size() + 4);
        put(bytes, bytes.size() - 4, word);
    }

    void judged() const {
        const wp_floor read = accepts(form);
        require(read.number == 0, "a floor with its tree is refused");
        require(read.faces == word(before, 80) && read.walkable == word(before, 112) &&
                    read.edges == word(before, 120) && read.perimeters == word(before, 128),
                "counts come or go by a tree");
        require(std::equal(form.begin(), form.begin() + 72, before.begin()), "the header's floats do not stay");
        require(form.size() == length_with_tree(before), "not the length of the floor and its nodes");
        require(word(form, 100) == nodes_for(read.faces) && word(form, 108) == 0, "another node count or root");
        in_fixed_form();
        for (const Table& table : tables) {
            const std::uint32_t count = word(before, table.count);
            require(table.count == 100 || word(form, table.count) == count, "a count does not stay");
            stays(table.field, table.words * count);
        }
        if (read.faces != 0) ranged(0, 0, read.faces, 0);
        planted_again(read.faces != 0);
    }

    // A floor has nodes now, or it has no faces and stays as it is.
    void planted_again(bool has_tree) const {
        Owned memory(WP_WORK, 0x5C), again(form.size(), 0x5C);
        const Owned untouched = again;
        const wp_form twice =
            wp_tree(form.data(), form.size(), memory.data(), memory.size(), again.data(), again.size());
        require(twice.number == (has_tree ? 49 : 0) && twice.place == (has_tree ? 100 : 0), "a tree upon a tree");
        require(twice.length == (has_tree ? 0 : form.size()), "another length, or one on refusal");
        require(again == (has_tree ? untouched : form), "asked again, it writes another floor");
    }

    // Word i of a node: six of its box, then face, unknown number, plane, left, right.
    std::uint32_t node(std::uint32_t number, std::size_t i) const { return entry(form, 104, node_words * number + i); }

    // The node of so many faces from the first on, so many steps down, and all nodes below it. A subtree over n faces
    // has 2n - 1 nodes.
    void ranged(std::uint32_t number, std::uint32_t from, std::uint32_t count, int steps) const {
        require(steps <= 12, "a node more than 12 steps down");
        const std::uint32_t plane = boxed(number, from, count), half = count / 2;
        require(node(number, 7) == 4, "the unknown number is not 4");
        if (count == 1) {
            require(node(number, 6) == from && node(number, 8) == 0, "a leaf has another face or plane");
            return require(node(number, 9) == none && node(number, 10) == none, "a leaf has children");
        }
        require(node(number, 6) == none && node(number, 8) == plane, "an inner node has a face or another plane");
        require(node(number, 9) == number + 1 && node(number, 10) == number + 2 * half, "other children");
        ranged(number + 1, from, half, steps + 1);
        ranged(number + 2 * half, from + half, count - half, steps + 1);
    }

    // A box is tight if its ends are the least and the greatest coordinates below it; no end is a negative zero. The
    // answer is the axis of the longest side, from 1: sides are floats, and of two infinite ones neither is longer.
    std::uint32_t boxed(std::uint32_t number, std::uint32_t from, std::uint32_t count) const {
        float longest = -1;
        std::uint32_t plane = 0;
        for (std::uint32_t axis = 0; axis < 3; ++axis) {
            float least = std::numeric_limits<float>::infinity(), greatest = -least;
            for (std::uint32_t corner = 3 * from; corner < 3 * (from + count); ++corner) {
                const float at = coordinate(3 * std::size_t{entry(before, 84, corner)} + axis);
                least = std::min(least, at), greatest = std::max(greatest, at);
            }
            const std::uint32_t low = node(number, axis), high = node(number, axis + 3);
            require(low != 0x80000000 && high != 0x80000000, "a box has a negative zero");
            require(real(low) == least && real(high) == greatest, "a box is not tight");
            const float side = greatest - least;
            if (side > longest) longest = side, plane = axis + 1;
        }
        return plane;
    }

    // How many inner nodes have this plane.
    std::size_t planes(std::uint32_t plane) const {
        std::size_t count = 0;
        for (std::uint32_t number = 0; number < word(form, 100); ++number) count += node(number, 8) == plane;
        return count;
    }
};

}  // namespace fuzz

#endif
