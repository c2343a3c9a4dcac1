// calls.cpp: the fuzz target over the exported calls. An input is a head of 28 bytes that chooses the call, how its
// slices lie and what its numbers are, and then the slices' bytes (seeds.py writes such inputs). After each call the
// answer and all lent memory are held to what documents 01 and 02 say without a second implementation at hand: refusals
// change nothing, work memory comes back cleared, forms read back, a room renamed back leaves the layout as it was, a
// typed name changes no line and no screen but its own (M-110), a mended floor is accepted and stays as it is, a floor
// without nodes gets the one tree that M-113 has for it, edits are undone to the byte, an undo closes up the journal
// and a put-back is undo after undo, and the order of two edits counts no more than M-107 lets it.
#include "mending.hpp"
#include "planting.hpp"
#include "screens.hpp"
#include "sessions.hpp"

using namespace fuzz;
using namespace wingpollen;

// Read by libFuzzer after each input; a plain section for everyone else.
__attribute__((section("__libfuzzer_extra_counters"))) std::uint8_t fuzz::coverage[calls * numbers * places];

namespace {

struct Game : Sessions {
    static Game& only() {
        static Game game;
        return game;
    }

    void deal(Input input) {
        now = input.number(1) % calls;
        const std::uint32_t lie = input.number(1);
        // WP_WORK does not fit into two bytes; what four bytes say is brought down to what a slot has room for.
        const std::size_t work_length = input.number(4) % (room - guard);
        const std::uint32_t out_length = input.number(2);
        const std::uint32_t second_length = input.number(2), third_length = input.number(2);
        f = input.number(4), bench = input.number(4), a = input.number(4), b = input.number(4);
        third.lay(input.take(third_length % 64), (lie & 1) != 0);
        second.lay(input.take(second_length), (lie & 2) != 0);
        Owned rest = input.rest();
        // The longest text, or one byte more, without an input that long.
        if ((lie & 32) != 0) rest.resize(WP_TEXT + (lie >> 6 & 1), ' ');
        first.lay(rest, (lie & 4) != 0);
        work.lay(Owned(work_length, static_cast<std::uint8_t>(lie)), (lie & 8) != 0);
        out.lay(Owned(out_length, static_cast<std::uint8_t>(~lie)), (lie & 16) != 0);
    }

    void play() {
        switch (now) {
            case 0: return read();
            case 1: return rewrite();
            case 2: return query();
            case 3: return edit(wp_paint, a, b);
            case 4: return edit(wp_link, a, static_cast<std::int32_t>(b));
            case 5: return edit(wp_nudge, a, static_cast<std::int32_t>(b));
            case 6: return undo();
            case 7: return put_back();
            case 8: return layout_written();
            case 9: return layout_renamed();
            case 10: return sight_written();
            case 11: return sight_renamed();
            case 12: return sight_row();
            case 13: return link_check();
            case 14: return caption_of();
            case 15: return mend_seams();
            default: return plant_tree();
        }
    }

    void cleared(std::uint32_t number) const {
        require((number == 20) == (work.length < WP_WORK), "20 without its reason, or a reason without 20");
        if (number == 20) return work.kept();
        Owned wanted = work.before;
        std::fill_n(wanted.begin(), WP_WORK, std::uint8_t{0});
        require(work.after() == wanted, "work memory is not cleared, or written past its use");
    }

    void read() {
        const wp_floor answer = wp_read(first.data, first.length, work.data, work.length);
        judge(answer, answer.place, 1, 20);
        cleared(answer.number);
        end({&first, &second, &third, &out});
        const std::uint32_t any = answer.faces | answer.walkable | answer.edges | answer.perimeters;
        require(answer.number == 0 || any == 0, "counts on refusal");
        require(answer.walkable <= answer.faces && answer.perimeters <= answer.edges, "counts that cannot be");
        require(answer.number == 20 || same(answer, accepts(first.before)), "the same floor is answered otherwise");
        grade(0, answer.faces), grade(1, answer.edges), grade(2, answer.perimeters);
    }

    void rewrite() {
        const wp_form answer = wp_rewrite(first.data, first.length, work.data, work.length, out.data, out.length);
        judge(answer, answer.place, 40, 40);
        cleared(answer.number);
        end({&first, &second, &third});
        written(answer);
        if (answer.number != 0) return;
        Owned form = out.after(), again(answer.length);
        form.resize(answer.length);
        require(same(accepts(first.before), accepts(form)), "the form reads otherwise");
        Owned memory(WP_WORK);
        const wp_form twice =
            wp_rewrite(form.data(), form.size(), memory.data(), memory.size(), again.data(), again.size());
        require(twice.number == 0 && again == form, "the form of the form is another");
    }

    // A form, then the old rest; nothing at all on refusal.
    template <class Answered>
    void written(const Answered& answer) const {
        begun(out, answer.length, answer.number);
    }
    static void begun(const Slot& lent, std::uint32_t length, std::uint32_t number) {
        if (number != 0) {
            require(length == 0, "a length on refusal");
            return lent.kept();
        }
        require(length <= lent.length, "more is said to be written than was lent");
        require(std::equal(lent.data + length, lent.data + lent.length, lent.before.begin() + length),
                "bytes past what was to be written were written");
    }

    // The second slice is the list. What is asked of a mended floor needs no other call's answer but the reader's.
    void mend_seams() {
        const wp_mended answer =
            wp_mend(first.data, first.length, work.data, work.length, out.data, out.length, second.data, second.length);
        judge(answer, answer.place, 40, 40);
        require(answer.number < 16 || answer.number > 19, "a list's refusal of a floor that is to be mended");
        cleared(answer.number);
        end({&first, &third});
        const wp_floor before = accepts(first.before);
        const bool of_reader = before.number >= 1 && before.number <= 15 && answer.number != 20;
        require(!of_reader || (answer.number == before.number && answer.place == before.place),
                "the reader's refusal is another");
        const bool own = answer.number == 0 || answer.number == 8 || answer.number == 15 || answer.number >= 20;
        require(of_reader || own, "a refusal that the reader does not give");
        written(answer);
        begun(second, answer.listed, answer.number);
        if (answer.number != 0) return;
        Owned form = out.after(), list = second.after();
        form.resize(answer.length);
        list.resize(answer.listed);
        const Mending mending{{first.before, form}, list};
        mending.judged();
        grade(0, mending.corners()), grade(1, mending.losses()), grade(2, accepts(form).perimeters);
    }

    void plant_tree() {
        const wp_form answer = wp_tree(first.data, first.length, work.data, work.length, out.data, out.length);
        judge(answer, answer.place, 40, 49);
        require(answer.number < 11 || answer.number > 14, "a tree's refusal of a floor that is to get one");
        cleared(answer.number);
        end({&first, &second, &third});
        written(answer);
        if (answer.number == 20) return;
        const wp_answer wanted = Planting::wanted(first.before, out.length);
        require(answer.number == wanted.number && answer.place == wanted.place, "another refusal, or at another place");
        if (answer.number != 0) return;
        Owned form = out.after();
        form.resize(answer.length);
        const Planting planting{{first.before, form}};
        planting.judged();
        grade(0, accepts(form).faces);
        for (std::uint32_t plane : {1u, 2u, 3u}) grade(plane, planting.planes(plane));
    }

    void query() {
        const auto x = static_cast<std::int32_t>(a), y = static_cast<std::int32_t>(b);
        const wp_point answer = wp_query(first.data, first.length, work.data, work.length, x, y);
        judge(answer, answer.place, 29, 30);
        cleared(answer.number);
        end({&first, &second, &third, &out});
        const wp_floor floor = accepts(first.before);
        require(answer.number == 0 || (answer.found | answer.face | answer.visited) == 0, "a face on refusal");
        require(answer.found <= 1 && (answer.found == 1 || answer.face == 0), "no face, but which");
        require(answer.found == 0 || (answer.face < floor.faces && answer.visited > 0), "a face that is not there");
        require(answer.visited <= 2 * floor.faces, "more nodes than there are");
        require(answer.number != 0 || (answer.visited == 0) == (floor.faces == 0), "the root is always visited");
        grade(0, answer.visited), grade(1, answer.found), grade(2, answer.face);
    }

    // What holds of every form of a text.
    void formed(const wp_form& answer, std::uint32_t lowest) const {
        judge(answer, answer.place, lowest, 40);
        require(answer.number == 0 || answer.number >= lowest, "a floor's refusal of a text");
        end({&first, &second, &third, &work});
        written(answer);
        grade(0, answer.length);
    }

    static std::string_view view(const Slot& slot) { return {reinterpret_cast<const char*>(slot.data), slot.length}; }
    std::string_view form(const wp_form& answer) const { return view(out).substr(0, answer.length); }

    // How many words the entries and hooks of a layout have: those of lines with more than a keyword and a count.
    static std::size_t entry_words(std::string_view text) {
        const auto parts = [](char byte) { return byte == ' ' || byte == '\t' || byte == '\r' || byte == '\n'; };
        std::size_t all = 0, of_line = 0;
        for (std::size_t i = 0; i < text.size(); ++i) {
            if (!parts(text[i]) && (i == 0 || parts(text[i - 1]))) ++of_line;
            if (text[i] != '\n' && i + 1 < text.size()) continue;
            if (of_line > 2) all += of_line;
            of_line = 0;
        }
        return all;
    }

    // What holds of a layout's form: it is its own form, and no entry, hook or number of either is lost or added.
    void layout_formed(const wp_form& answer) const {
        require(layout_rewrite(form(answer)).text == form(answer), "not a fixed form");
        require(entry_words(form(answer)) == entry_words(view(first)), "a word of an entry or hook is lost or added");
    }

    void layout_written() const {
        const wp_form answer = wp_layout_rewrite(first.data, first.length, out.data, out.length);
        formed(answer, 31);
        if (answer.number == 0) layout_formed(answer);
    }

    void layout_renamed() const {
        const wp_form answer =
            wp_layout_rename(first.data, first.length, a, third.data, third.length, out.data, out.length);
        formed(answer, 21);
        require(answer.number != 0 || !breaks_line(view(third)), "a name with a line break is written");
        if (answer.number != 0) return;
        layout_formed(answer);
        require(caption(form(answer), {}, a).name.size() == third.length, "the room does not have the name");
        // Renamed back, the room and its hooks are what they were; a door or another room would not come back.
        const TextForm before = layout_rewrite(view(first));
        const TextForm back = layout_rename(form(answer), a, caption(before.text, {}, a).name);
        require(back.answer.number == 0 && back.text == before.text, "renamed back, it is another layout");
        only_name_differs(before.text, form(answer), caption(before.text, {}, a).name, view(third));
        for (const std::uint32_t other : {a - 1, a + 1}) {
            require(caption(before.text, {}, other).name == caption(form(answer), {}, other).name,
                    "another room's caption differs");
        }
    }

    void sight_written() const {
        const wp_form answer =
            wp_sight_rewrite(second.data, second.length, first.data, first.length, out.data, out.length);
        formed(answer, 31);
        if (answer.number != 0) return;
        require(sight_rewrite(view(second), form(answer)).text == form(answer), "not a fixed form");
    }

    // A renamed sight belongs to the layout with the same room renamed.
    void sight_renamed() const {
        const wp_form answer = wp_sight_rename(second.data, second.length, first.data, first.length, a, third.data,
                                               third.length, out.data, out.length);
        formed(answer, 21);
        if (answer.number != 0) return;
        const TextForm layout = layout_rename(view(second), a, view(third));
        require(layout.answer.number == 0, "a sight is renamed where its layout is not");
        require(sight_rewrite(layout.text, form(answer)).text == form(answer), "does not read with its layout");
        // Without the name the form may be too long where with it it is not.
        const TextForm before = sight_rewrite(view(second), view(first));
        if (before.answer.number == 0) {
            only_name_differs(before.text, form(answer), caption(view(second), {}, a).name, view(third));
        }
        for (const std::uint32_t room : {a - 1, a, a + 1}) {
            const wp_row one = wingpollen::sight_row(view(second), view(first), room);
            const wp_row other = wingpollen::sight_row(layout.text, form(answer), room);
            require(one.row == other.row && one.seen == other.seen, "a row differs by a name");
        }
    }

    void sight_row() {
        const wp_row answer = wp_sight_row(second.data, second.length, first.data, first.length, a);
        judge(answer, answer.place, 31, 39);
        require(answer.number == 0 || answer.number >= 31, "a floor's refusal of a text");
        end({&first, &second, &third, &work, &out});
        std::uint32_t marks = 0;
        for (std::uint64_t row = answer.row; row != 0; row &= row - 1) ++marks;
        require(answer.seen == marks, "seen is not the count of the marks");
        require(marks == 0 || (answer.number == 0 && a < WP_ROOMS), "marks on refusal, or for no room");
        grade(0, answer.seen);
    }

    void link_check() {
        const wp_answer answer =
            wp_link_check(first.data, first.length, work.data, work.length, second.data, second.length);
        judge(answer, answer.place, 31, 42);
        require(answer.number <= 39 || answer.number == 42, "a number that no layout has");
        cleared(answer.number);
        end({&first, &second, &third, &out});
        const wp_floor floor = accepts(first.before);
        require(answer.number == 20 || floor.number == 0 || floor.number == answer.number, "not the reader's refusal");
        require(answer.number != 42 || answer.place < floor.edges, "an entry that is not there");
        grade(0, floor.edges);
    }

    void caption_of() {
        const wp_caption_at answer = wp_caption(first.data, first.length, second.data, second.length, a);
        judge(answer, 0, 41, 41);
        require(answer.number == 0 || answer.number == 41, "a caption's refusal is 41");
        end({&first, &second, &third, &work, &out});
        require(answer.house <= 1, "house is 0 or 1");
        if (answer.number == 41) {
            return require(answer.house == 1 && answer.start == 0 && answer.length == 0, "not the empty start");
        }
        const std::size_t length = answer.house == 1 ? second.length : first.length;
        require(answer.length >= 1 && answer.length <= 16, "a name too long");
        require(answer.start <= length && answer.length <= length - answer.start, "a name outside its text");
        const std::string_view text = view(answer.house == 1 ? second : first);
        require(is_clean(text.substr(answer.start, answer.length)), "a caption with other bytes than a name's");
        grade(answer.house, answer.start);
    }
};

}  // namespace

extern "C" int LLVMFuzzerTestOneInput(const std::uint8_t* data, std::size_t size) {
    Game& game = Game::only();
    game.deal(Input(data, size));
    game.play();
    return 0;
}
