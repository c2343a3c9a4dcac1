// forms.hpp: a floor and the form that a call over it has written, by their bytes: words, tables, and what is the same
// in both. What holds of a mended floor (mending.hpp) and of one with its tree (planting.hpp) is said in these.
#ifndef WINGPOLLEN_FUZZ_FORMS_HPP
#define WINGPOLLEN_FUZZ_FORMS_HPP

#include "lent.hpp"

namespace fuzz {

// A table by its offset's field, its count's field, and how many words an entry has; all of them in the form's order.
struct Table {
    std::size_t field, count, words;
};
constexpr Table tables[] = {{76, 72, 3},    {84, 80, 3},   {88, 80, 1},   {92, 80, 3}, {96, 80, 1},
                            {104, 100, 11}, {116, 112, 3}, {124, 120, 2}, {132, 128, 1}};

// The floor as it was handed in, and what was written. The floors here have broken none of the rules 1 to 6.
struct Written {
    const Owned &before, &form;

    static std::uint32_t word(const Owned& bytes, std::size_t at) { return Input(bytes.data() + at, 4).number(4); }

    // Word i of the table of an offset field.
    static std::uint32_t entry(const Owned& floor, std::size_t field, std::size_t i) {
        return word(floor, word(floor, field) + 4 * i);
    }

    static float real(std::uint32_t bits) {
        float value;
        std::memcpy(&value, &bits, sizeof value);
        return value;
    }
    // Coordinate i of the vertices, three for each.
    float coordinate(std::size_t i) const { return real(entry(before, 76, i)); }

    // The table of an offset field has the same words.
    void stays(std::size_t field, std::size_t words) const {
        for (std::size_t i = 0; i < words; ++i) {
            require(entry(before, field, i) == entry(form, field, i), "a table does not stay");
        }
    }

    // The tables stand in their order without a gap, also the empty ones, and nothing stands behind them.
    void in_fixed_form() const {
        std::size_t at = 136;
        for (const Table& table : tables) {
            require(word(form, table.field) == at, "a table does not stand where the one before it ends");
            at += 4 * table.words * word(form, table.count);
        }
        require(at == form.size(), "the form is longer or shorter than its tables");
    }
};

}  // namespace fuzz

#endif
