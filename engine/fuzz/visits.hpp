// visits.hpp: two visits at one floor under the fuzz target, from an accepted floor and an empty journal to the opening
// floor, as wingpollen.hpp has them.
#ifndef WINGPOLLEN_FUZZ_VISITS_HPP
#define WINGPOLLEN_FUZZ_VISITS_HPP

#include "lent.hpp"

namespace fuzz {

// Hears how the visits and the floor ended.
class Heard : public wingpollen::Witness {
public:
    void left(std::uint32_t, const wp_session& answer) noexcept override {
        require(answer.number == 0 || answer.number == 43, "a visitor leaves and is refused");
        ++visits;
    }
    void ended(const wp_session& answer, wingpollen::Bytes bytes, wingpollen::Bytes) noexcept override {
        require(answer.number == 0 && answer.f == 0, "edits are left at the end of a floor");
        floor.assign(bytes.data, bytes.data + bytes.length);
    }

    std::size_t visits = 0;
    Owned floor;
};

// One move of a visitor. Its numbers are small ones, so that visitors meet; some are past what is allowed.
inline wp_session moved(wingpollen::Visit& visit, std::uint32_t kind, std::uint32_t place, std::uint32_t value) {
    const auto whole = static_cast<std::int32_t>(value);
    switch (kind % 6) {
        case 0: return visit.paint(place % 4, value % 24);
        case 1: return visit.link(place % 4, whole % 67 - 2);
        case 2: return visit.nudge(place % 13, 8 * (whole - 128));
        case 3: return visit.put_back();
        default: return visit.undo();
    }
}

// Plays moves of three bytes each (whose and which, place, value) over an accepted floor, in a journal for so many
// edits.
inline void visited(const Owned& opening, const Owned& moves, std::size_t records) {
    const wp_floor opened = accepts(opening);
    if (opened.number != 0) return;
    Heard heard;
    {
        wingpollen::SharedFloor floor(opening, heard, records);
        wingpollen::Visit zero = floor.sit(0, heard), one = floor.sit(1, heard);
        std::uint32_t held[WP_BENCHES] = {};
        Input input(moves.data(), moves.size());
        for (std::size_t left = moves.size() / 3; left != 0; --left) {
            const std::uint32_t before = floor.records(), kind = input.number(1), bench = kind % WP_BENCHES;
            const std::uint32_t place = input.number(1), value = input.number(1);
            const wp_session answer = moved(bench == 0 ? zero : one, kind / WP_BENCHES, place, value);
            const std::uint32_t n = answer.number;
            require(n == 0 || (n >= 21 && n <= 26) || n == 43, "a visitor is refused for what none has asked");
            require(n != 25 || held[bench] == records / WP_BENCHES, "a bench below its half has no room");
            held[bench] += answer.f - before;
            require(same(opened, floor.read()), "a visited floor reads otherwise");
        }
    }
    require(heard.visits == 2 && heard.floor == opening, "the visits do not end at the opening floor");
}

}  // namespace fuzz

#endif
