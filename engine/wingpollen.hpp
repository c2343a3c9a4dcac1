// wingpollen.hpp: the library for C++17 programs: the refusals with words for volunteers, texts, floors, mended floors
// and floors given their trees as values, SharedFloor, one floor and one journal for two benches, and Visit, one visitor
// at one of them; both put back at last.
//
// The engine's one duty (wingpollen.h) is kept here by ownership: whatever a call may write is memory that belongs to
// the SharedFloor, or is made for that one call, and none of it can be reached from outside except to be read between
// calls. That two benches take turns is left to the program: one thread at a time calls a SharedFloor or its Visits.
// Nothing here throws but what memory itself may throw when it runs out, and nothing needs memory to put back.
#ifndef WINGPOLLEN_HPP
#define WINGPOLLEN_HPP

#include "wingpollen.h"

#include <cassert>
#include <cstddef>
#include <cstdint>
#include <string>
#include <string_view>
#include <type_traits>
#include <utility>
#include <vector>

namespace wingpollen {

// The answers cross from one compiler to another by value, so their layout is held to what the library was built with.
#define WINGPOLLEN_LAYOUT(type, size, align)                                                                   \
    static_assert(sizeof(type) == (size) && alignof(type) == (align), #type " has another size or alignment"); \
    static_assert(std::is_standard_layout_v<type> && std::is_trivially_copyable_v<type>, #type " is not plain")
#define WINGPOLLEN_FIELD(type, field, at, kind)                                                 \
    static_assert(offsetof(type, field) == (at) && std::is_same_v<decltype(type::field), kind>, \
                  #type "." #field " stands elsewhere or is another number")

WINGPOLLEN_LAYOUT(wp_answer, 8, 4);
WINGPOLLEN_FIELD(wp_answer, number, 0, std::uint32_t);
WINGPOLLEN_FIELD(wp_answer, place, 4, std::uint32_t);
WINGPOLLEN_LAYOUT(wp_floor, 24, 4);
WINGPOLLEN_FIELD(wp_floor, number, 0, std::uint32_t);
WINGPOLLEN_FIELD(wp_floor, place, 4, std::uint32_t);
WINGPOLLEN_FIELD(wp_floor, faces, 8, std::uint32_t);
WINGPOLLEN_FIELD(wp_floor, walkable, 12, std::uint32_t);
WINGPOLLEN_FIELD(wp_floor, edges, 16, std::uint32_t);
WINGPOLLEN_FIELD(wp_floor, perimeters, 20, std::uint32_t);
WINGPOLLEN_LAYOUT(wp_form, 12, 4);
WINGPOLLEN_FIELD(wp_form, number, 0, std::uint32_t);
WINGPOLLEN_FIELD(wp_form, place, 4, std::uint32_t);
WINGPOLLEN_FIELD(wp_form, length, 8, std::uint32_t);
WINGPOLLEN_LAYOUT(wp_mended, 16, 4);
WINGPOLLEN_FIELD(wp_mended, number, 0, std::uint32_t);
WINGPOLLEN_FIELD(wp_mended, place, 4, std::uint32_t);
WINGPOLLEN_FIELD(wp_mended, length, 8, std::uint32_t);
WINGPOLLEN_FIELD(wp_mended, listed, 12, std::uint32_t);
WINGPOLLEN_LAYOUT(wp_point, 20, 4);
WINGPOLLEN_FIELD(wp_point, number, 0, std::uint32_t);
WINGPOLLEN_FIELD(wp_point, place, 4, std::uint32_t);
WINGPOLLEN_FIELD(wp_point, found, 8, std::uint32_t);
WINGPOLLEN_FIELD(wp_point, face, 12, std::uint32_t);
WINGPOLLEN_FIELD(wp_point, visited, 16, std::uint32_t);
WINGPOLLEN_LAYOUT(wp_session, 12, 4);
WINGPOLLEN_FIELD(wp_session, number, 0, std::uint32_t);
WINGPOLLEN_FIELD(wp_session, place, 4, std::uint32_t);
WINGPOLLEN_FIELD(wp_session, f, 8, std::uint32_t);
WINGPOLLEN_LAYOUT(wp_row, 24, 8);
WINGPOLLEN_FIELD(wp_row, number, 0, std::uint32_t);
WINGPOLLEN_FIELD(wp_row, place, 4, std::uint32_t);
WINGPOLLEN_FIELD(wp_row, row, 8, std::uint64_t);
WINGPOLLEN_FIELD(wp_row, seen, 16, std::uint32_t);
WINGPOLLEN_LAYOUT(wp_caption_at, 16, 4);
WINGPOLLEN_FIELD(wp_caption_at, number, 0, std::uint32_t);
WINGPOLLEN_FIELD(wp_caption_at, house, 4, std::uint32_t);
WINGPOLLEN_FIELD(wp_caption_at, start, 8, std::uint32_t);
WINGPOLLEN_FIELD(wp_caption_at, length, 12, std::uint32_t);

#undef WINGPOLLEN_LAYOUT
#undef WINGPOLLEN_FIELD

// The refusals, by their numbers in documents 01 and 02. Every number an answer has is accepted or one of these.
enum class Refusal : std::uint32_t {
    accepted = 0,
    length = 1,
    first_bytes = 2,
    world_coords = 3,
    count = 4,
    table_outside = 5,
    tables_share = 6,
    not_finite = 7,
    corner = 8,
    material = 9,
    walkable_first = 10,
    node_count = 11,
    node_kind = 12,
    one_tree = 13,
    box = 14,
    runs_twice = 15,
    adjacency = 16,
    edge_entry = 17,
    transition = 18,
    perimeter = 19,
    work_memory = 20,
    no_such_place = 21,
    paint = 22,
    link = 23,
    nudge = 24,
    journal_full = 25,
    no_step = 26,
    record = 27,
    session = 28,
    point_beyond = 29,
    vertex_off_grid = 30,
    text_length = 31,
    text_byte = 32,
    text_line = 33,
    name = 34,
    text_number = 35,
    text_count = 36,
    name_twice = 37,
    text_ends = 38,
    unknown_room = 39,
    output_short = 40,
    no_caption = 41,
    link_nowhere = 42,
    blocked = 43,
    bench = 45,
    has_tree = 49,
};

// A short sentence for the volunteer at the bench.
constexpr std::string_view words(Refusal refusal) noexcept {
    switch (refusal) {
        case Refusal::accepted: return "All is well.";
        case Refusal::length: return "The file is too short or too long to be a floor.";
        case Refusal::first_bytes: return "The file does not begin as a floor does.";
        case Refusal::world_coords: return "The file is a door's or a thing's mesh, not an area floor.";
        case Refusal::count: return "The file claims more entries than the bench handles.";
        case Refusal::table_outside: return "A table does not lie inside the file.";
        case Refusal::tables_share: return "Two tables lie on top of each other.";
        case Refusal::not_finite: return "A coordinate is not an ordinary number.";
        case Refusal::corner: return "A face has a corner that is missing or used twice.";
        case Refusal::material: return "A face has a material that the house does not know.";
        case Refusal::walkable_first: return "Walkable faces do not stand before the others.";
        case Refusal::node_count: return "The search tree has the wrong number of nodes, or its root is none of them.";
        case Refusal::node_kind: return "A node of the search tree is neither a leaf nor a fork.";
        case Refusal::one_tree: return "The search tree is not one tree over all faces.";
        case Refusal::box: return "A box of the search tree is too small for what it holds.";
        case Refusal::runs_twice: return "Two faces run along the same side in the same direction.";
        case Refusal::adjacency: return "A face names the wrong neighbour.";
        case Refusal::edge_entry: return "The list of border edges is wrong.";
        case Refusal::transition: return "An edge leads to a room number that cannot be.";
        case Refusal::perimeter: return "The border edges do not close into loops.";
        case Refusal::work_memory: return "The bench lent too little work memory.";
        case Refusal::no_such_place: return "There is no such place here.";
        case Refusal::paint: return "That paint is none the house knows, or would change where visitors can walk.";
        case Refusal::link: return "A link leads to a room from 0 to 63, or nowhere (-1).";
        case Refusal::nudge: return "That nudge is too large, or begins or ends off the grid.";
        case Refusal::journal_full: return "The journal has no more room for this bench.";
        case Refusal::no_step: return "There is nothing more to undo at this bench.";
        case Refusal::record: return "The journal and the floor disagree at this step.";
        case Refusal::session: return "The journal is too short for the edits it should have.";
        case Refusal::point_beyond: return "That point lies beyond the grid.";
        case Refusal::vertex_off_grid: return "A corner of the floor is not on the grid.";
        case Refusal::text_length: return "The text is too long.";
        case Refusal::text_byte: return "The text has a character that is not allowed.";
        case Refusal::text_line: return "A line is not what should stand there.";
        case Refusal::name: return "A name has 1 to 16 letters, digits or underscores.";
        case Refusal::text_number: return "A number is not written as it should be.";
        case Refusal::text_count: return "A count is not written as it should be, or is too large.";
        case Refusal::name_twice: return "That name is already taken.";
        case Refusal::text_ends: return "The text ends too early.";
        case Refusal::unknown_room: return "No room of the layout has that name.";
        case Refusal::output_short: return "There is too little space for what would be written, or its text would be too long.";
        case Refusal::no_caption: return "Neither text has a name for that room.";
        case Refusal::link_nowhere: return "An edge leads to a room that the layout does not have.";
        case Refusal::blocked: return "The other visitor has changed the same place since, and has to undo that first.";
        case Refusal::bench: return "There is no such bench: one is 0, the other is 1.";
        case Refusal::has_tree: return "The floor has a search tree already.";
    }
    return "The library answered a number that is no refusal.";
}

// What the place beside a refusal counts, or nothing where the place says nothing. What only undo and put-back are
// refused by, and a bench that is none, have the records kept. 28 has the place that an edit was asked for, and the
// records else: it is simply "place". Lines count from 1; line 0 is the name that was typed for a room. A name that is
// taken is, by its line, that of a room or of a door. A text that ends early has the number of its lines, which may be 0.
constexpr std::string_view place_words(Refusal refusal) noexcept {
    switch (refusal) {
        case Refusal::world_coords:
        case Refusal::count:
        case Refusal::table_outside:
        case Refusal::tables_share:
        case Refusal::not_finite:
        case Refusal::node_count:
        case Refusal::has_tree: return "byte";
        case Refusal::corner:
        case Refusal::material:
        case Refusal::walkable_first: return "face";
        case Refusal::node_kind:
        case Refusal::box: return "node";
        case Refusal::runs_twice:
        case Refusal::adjacency: return "half-edge";
        case Refusal::edge_entry:
        case Refusal::transition:
        case Refusal::link_nowhere: return "edge entry";
        case Refusal::perimeter: return "perimeter";
        case Refusal::no_such_place:
        case Refusal::paint:
        case Refusal::link:
        case Refusal::nudge:
        case Refusal::journal_full:
        case Refusal::session: return "place";
        case Refusal::no_step:
        case Refusal::record:
        case Refusal::blocked:
        case Refusal::bench: return "records";
        case Refusal::vertex_off_grid: return "vertex";
        case Refusal::text_byte: return "byte";
        case Refusal::text_line:
        case Refusal::name:
        case Refusal::text_number:
        case Refusal::text_count:
        case Refusal::name_twice:
        case Refusal::unknown_room: return "line";
        case Refusal::text_ends: return "lines";
        default: return {};
    }
}

// The refusal of any answer.
template <class Answered>
constexpr Refusal refusal(const Answered& answer) noexcept {
    return static_cast<Refusal>(answer.number);
}

// Bytes to read: a pointer and a length. They belong to someone else.
struct Bytes {
    const std::uint8_t* data = nullptr;
    std::size_t length = 0;

    constexpr Bytes() noexcept = default;
    constexpr Bytes(const std::uint8_t* start, std::size_t count) noexcept : data(start), length(count) {}
    Bytes(const std::vector<std::uint8_t>& bytes) noexcept : data(bytes.data()), length(bytes.size()) {}
    // A text's bytes are its characters, whether or not char has a sign.
    Bytes(std::string_view text) noexcept
        : data(reinterpret_cast<const std::uint8_t*>(text.data())), length(text.size()) {}
};

namespace inside {

// An empty vector or view may have no address, and a call wants one that is not null.
inline std::uint8_t nowhere[1];
inline const std::uint8_t* to_read(Bytes bytes) noexcept { return bytes.data != nullptr ? bytes.data : nowhere; }
template <class Owned>
std::uint8_t* to_write(Owned& owned) noexcept {
    return owned.empty() ? nowhere : reinterpret_cast<std::uint8_t*>(owned.data());
}

}  // namespace inside

// A floor in its fixed form, empty on refusal.
struct FloorForm {
    wp_form answer;
    std::vector<std::uint8_t> bytes;
};

// A corner that mending has changed: that of this number of this face, and the vertices that it was and is now.
struct ChangedCorner {
    std::uint32_t face, corner, old_vertex, new_vertex;
};

// A side of a face that led to a room and no longer does: it is no border now, or had more than one entry.
struct LostLink {
    std::uint32_t face, side;
};

// A mended floor in its fixed form, and what its list tells; all empty on refusal.
struct MendedFloor {
    wp_mended answer;
    std::vector<std::uint8_t> bytes;
    std::vector<ChangedCorner> corners;
    std::vector<LostLink> lost;
};

// A text in its fixed form, empty on refusal.
struct TextForm {
    wp_form answer;
    std::string text;
};

// A room's name, a part of the text that it was found in, and where that is.
struct Caption {
    wp_caption_at answer;
    std::string_view name;
};

namespace inside {

// Memory for one text's form, made for one call, so that it shares no byte with anything handed in.
template <class Call>
TextForm text_form(Call call) {
    TextForm form{{}, std::string(WP_TEXT, '\0')};
    form.answer = call(to_write(form.text), form.text.size());
    form.text.resize(form.answer.length);
    return form;
}

}  // namespace inside

namespace inside {

// Number i of a record of the list, behind its tag and length.
inline std::uint32_t listed_number(const std::uint8_t* record, std::size_t i) noexcept {
    const std::uint8_t* at = record + 3 + 4 * i;
    return at[0] | std::uint32_t{at[1]} << 8 | std::uint32_t{at[2]} << 16 | std::uint32_t{at[3]} << 24;
}

}  // namespace inside

// Mends the split seams of a floor, before anyone sits down at it. The floor's bytes stay what they are.
inline MendedFloor mend(Bytes floor) {
    MendedFloor mended{{}, std::vector<std::uint8_t>(WP_MENDED), {}, {}};
    std::vector<std::uint8_t> work(WP_WORK), list(WP_LIST);
    mended.answer = wp_mend(inside::to_read(floor), floor.length, work.data(), work.size(), mended.bytes.data(),
                            mended.bytes.size(), list.data(), list.size());
    mended.bytes.resize(mended.answer.length);
    const std::uint8_t *at = list.data(), *end = at + mended.answer.listed;
    for (; at != end; at += 3 + at[1]) {
        const std::uint32_t place = inside::listed_number(at, 0);
        if (at[0] == 1) {
            mended.corners.push_back(
                {place / 3, place % 3, inside::listed_number(at, 1), inside::listed_number(at, 2)});
        } else {
            mended.lost.push_back({place / 3, place % 3});
        }
    }
    return mended;
}

// Gives a floor without nodes its tree, before anyone sits down at it. The floor's bytes stay what they are. What is
// enough for a mended floor is enough for this one too.
inline FloorForm plant(Bytes floor) {
    FloorForm planted{{}, std::vector<std::uint8_t>(WP_MENDED)};
    std::vector<std::uint8_t> work(WP_WORK);
    planted.answer = wp_tree(inside::to_read(floor), floor.length, work.data(), work.size(), planted.bytes.data(),
                             planted.bytes.size());
    planted.bytes.resize(planted.answer.length);
    return planted;
}

// Rooms, tracks, obstacles and door hooks, as wingpollen.h has them.
inline TextForm layout_rewrite(std::string_view layout) {
    return inside::text_form([&](std::uint8_t* out, std::size_t length) {
        return wp_layout_rewrite(inside::to_read(layout), layout.size(), out, length);
    });
}

// The room has the name in its hooks too; doors keep theirs.
inline TextForm layout_rename(std::string_view layout, std::uint32_t room, std::string_view name) {
    return inside::text_form([&](std::uint8_t* out, std::size_t length) {
        return wp_layout_rename(inside::to_read(layout), layout.size(), room, inside::to_read(name),
                                name.size(), out, length);
    });
}

inline TextForm sight_rewrite(std::string_view layout, std::string_view vis) {
    return inside::text_form([&](std::uint8_t* out, std::size_t length) {
        return wp_sight_rewrite(inside::to_read(layout), layout.size(), inside::to_read(vis), vis.size(),
                                out, length);
    });
}

// Reads back with the layout that layout_rename gives for the same room and name.
inline TextForm sight_rename(std::string_view layout, std::string_view vis, std::uint32_t room, std::string_view name) {
    return inside::text_form([&](std::uint8_t* out, std::size_t length) {
        return wp_sight_rename(inside::to_read(layout), layout.size(), inside::to_read(vis), vis.size(), room,
                               inside::to_read(name), name.size(), out, length);
    });
}

inline wp_row sight_row(std::string_view layout, std::string_view vis, std::uint32_t room) noexcept {
    return wp_sight_row(inside::to_read(layout), layout.size(), inside::to_read(vis), vis.size(), room);
}

// The name lives as long as the text that it is a part of.
inline Caption caption(std::string_view visitor, std::string_view house, std::uint32_t room) noexcept {
    const wp_caption_at at =
        wp_caption(inside::to_read(visitor), visitor.size(), inside::to_read(house), house.size(), room);
    const std::string_view text = at.house != 0 ? house : visitor;
    return {at, text.substr(at.start, at.length)};
}

// A shared floor that was broken off: everything a SharedFloor needs to go on with it, or to put it back, later. A
// record says whose it is, so nothing of the visits needs keeping: whoever sits down at a bench again has that bench's
// edits.
struct Saved {
    std::vector<std::uint8_t> floor;
    std::vector<std::uint8_t> journal;
    std::uint32_t f = 0;
};

// Who is told how things ended. The last put-back may happen in a destructor, where no answer can be returned; it must
// be heard all the same, since a floor that is not put back is what the next visitor would walk in.
class Witness {
public:
    // A visitor has left a bench. Number 0: none of the bench's edits is left. Else the put-back was refused or
    // stopped, with 43 where the other visitor's later edits stand on what is left. That stays the bench's: the next
    // visitor who sits down there can undo it when nothing blocks it, and the end of the SharedFloor puts it back.
    virtual void left(std::uint32_t bench, const wp_session& answer) noexcept = 0;

    // A SharedFloor has ended. f 0: no edit is left, and a floor that these calls alone have touched is the opening
    // floor. Else the put-back was refused or stopped, or (number 0) a damaged journal has records of no bench: floor,
    // journal and f are those to go on from (Saved), and nothing is lost if they are kept. The bytes are gone when this
    // returns.
    virtual void ended(const wp_session& answer, Bytes floor, Bytes journal) noexcept = 0;

protected:
    ~Witness() = default;
};

class Visit;

// One floor and one journal for two benches. It owns the floor's bytes, the journal, the work memory and f, puts back
// what is left when it ends, and then tells its witness. Every call passes on to the library; nothing is tested here.
// Its visits point at it, so it is neither copied nor moved, and has to outlive them.
class SharedFloor {
public:
    // Opens a floor; opened() says what the reader said of it. The journal has room for so many edits, half for each
    // bench.
    SharedFloor(Bytes floor, Witness& witness, std::size_t records = WP_RECORDS)
        : SharedFloor(Saved{copied(floor), std::vector<std::uint8_t>(WP_RECORD * records), 0}, witness) {}

    // Goes on with a floor that was broken off. Its visitors sit down anew.
    SharedFloor(Saved saved, Witness& witness)
        : witness_(&witness), saved_(std::move(saved)), work_(WP_WORK), opened_(read()) {}

    SharedFloor(const SharedFloor&) = delete;
    SharedFloor& operator=(const SharedFloor&) = delete;

    ~SharedFloor() {
        assert(visits_ == 0 && "a visit outlived its floor");
        if (witness_ != nullptr) {
            const wp_session answer = put_back();
            witness_->ended(answer, saved_.floor, saved_.journal);
        }
    }

    // A visitor sits down at a bench: Visit visit = floor.sit(0, witness). A bench is for one visitor at a time; two
    // would undo each other's edits. A floor that ends with the line has no visits, hence the &.
    [[nodiscard]] Visit sit(std::uint32_t bench, Witness& witness) & noexcept;

    const wp_floor& opened() const noexcept { return opened_; }
    bool accepted() const noexcept { return opened_.number == 0; }

    // The floor's bytes as they stand, to be read before the next call, and the edits kept of both benches.
    Bytes floor() const noexcept { return saved_.floor; }
    std::uint32_t records() const noexcept { return saved_.f; }

    // Puts back what is left, bench 0 and bench 1 in turn until neither takes a record out: what blocked one (43) may
    // be gone once the other has put back. The answer is the last refusal of that last round, or 0; also tried at the
    // end. It returns, whatever the bytes are, since every round but the last lowers f. On a floor that was accepted,
    // and touched by these calls alone, the answer is 0 and f is 0: the last record of all has no later one to block
    // it, and 27 does not happen there, so while any record is left the bench of the last one takes it out.
    wp_session put_back() noexcept {
        for (;;) {
            const std::uint32_t before = saved_.f;
            wp_session last{0, 0, before};
            for (std::uint32_t bench = 0; bench < WP_BENCHES; ++bench) {
                const wp_session answer = edited(wp_put_back, bench);
                if (answer.number != 0) last = answer;
            }
            if (saved_.f >= before) return last;
        }
    }

    wp_floor read() noexcept {
        return wp_read(inside::to_read(floor()), floor().length, inside::to_write(work_), work_.size());
    }

    wp_point query(std::int32_t x, std::int32_t y) noexcept {
        return wp_query(inside::to_read(floor()), floor().length, inside::to_write(work_), work_.size(), x, y);
    }

    wp_answer link_check(std::string_view layout) noexcept {
        return wp_link_check(inside::to_read(floor()), floor().length, inside::to_write(work_), work_.size(),
                             inside::to_read(layout), layout.size());
    }

    // No form is longer than its floor, since a floor's tables share no byte.
    FloorForm rewrite() {
        FloorForm form{{}, std::vector<std::uint8_t>(saved_.floor.size())};
        form.answer = wp_rewrite(inside::to_read(floor()), floor().length, inside::to_write(work_), work_.size(),
                                 inside::to_write(form.bytes), form.bytes.size());
        form.bytes.resize(form.answer.length);
        return form;
    }

    // Breaks everything off: floor, journal and f are handed over as they are, nothing is put back and no witness hears
    // anything, neither now nor when this floor and its visits end. What is left here is an empty floor, which every
    // call refuses, those of the visits too.
    Saved suspend() noexcept {
        witness_ = nullptr;
        return std::exchange(saved_, Saved{});
    }

private:
    friend class Visit;

    static std::vector<std::uint8_t> copied(Bytes bytes) {
        return bytes.length == 0 ? std::vector<std::uint8_t>{}
                                 : std::vector<std::uint8_t>(bytes.data, bytes.data + bytes.length);
    }

    // Both benches hand in the one f, and the next call of either hands in what this one answered.
    template <class Call, class... Words>
    wp_session edited(Call call, std::uint32_t bench, Words... words) noexcept {
        const wp_session answer =
            call(inside::to_write(saved_.floor), saved_.floor.size(), inside::to_write(saved_.journal),
                 saved_.journal.size(), saved_.f, bench, words...);
        saved_.f = answer.f;
        return answer;
    }

    // Nobody, once all was broken off.
    Witness* witness_;
    Saved saved_;
    std::vector<std::uint8_t> work_;
    wp_floor opened_;
    // Counted to notice a visit that outlives its floor.
    std::size_t visits_ = 0;
};

// One visitor at a bench of a SharedFloor, from sitting down to leaving: when a Visit ends, it puts its bench back and
// tells its own witness. A bench that is neither 0 nor 1 is the library's to refuse (45). Only sit makes a Visit, and
// it stays where it was made: a floor declared before its visits outlives them, as the language has it.
class Visit {
public:
    Visit(const Visit&) = delete;
    Visit& operator=(const Visit&) = delete;

    // After a suspend the edits are in the Saved, and an empty floor's refusal would be a false alarm.
    ~Visit() {
        if (floor_.witness_ != nullptr) witness_.left(bench_, put_back());
        --floor_.visits_;
    }

    wp_session paint(std::uint32_t face, std::uint32_t material) noexcept {
        return floor_.edited(wp_paint, bench_, face, material);
    }
    wp_session link(std::uint32_t entry, std::int32_t room) noexcept {
        return floor_.edited(wp_link, bench_, entry, room);
    }
    wp_session nudge(std::uint32_t place, std::int32_t step) noexcept {
        return floor_.edited(wp_nudge, bench_, place, step);
    }
    wp_session undo() noexcept { return floor_.edited(wp_undo, bench_); }

    // Also tried at the end of the visit. One that stops keeps what it undid and may be tried again.
    wp_session put_back() noexcept { return floor_.edited(wp_put_back, bench_); }

private:
    friend class SharedFloor;
    Visit(SharedFloor& floor, std::uint32_t bench, Witness& witness) noexcept
        : floor_(floor), witness_(witness), bench_(bench) {
        ++floor_.visits_;
    }

    SharedFloor& floor_;
    Witness& witness_;
    std::uint32_t bench_;
};

inline Visit SharedFloor::sit(std::uint32_t bench, Witness& witness) & noexcept { return Visit(*this, bench, witness); }

}  // namespace wingpollen

#endif
