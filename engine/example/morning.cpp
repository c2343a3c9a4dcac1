// morning.cpp: plays a morning at the two benches from a script and says in words what each call answered.
//
//     morning SCRIPT FLOORS
//
// FLOORS is the folder of the floors; texts stand beside the script. A script has one command on each line, words
// parted by blanks; a line that starts with # is a remark, and blank lines are skipped. Commands:
//
//     visitor NUMBER        a visitor comes
//     open FLOOR [RECORDS]  a floor is opened for both benches, with a journal for so many edits (4096)
//     sit                   a visitor sits down at a bench
//     paint FACE MATERIAL   link ENTRY ROOM   nudge PLACE STEP   undo   putback
//     leave                 the visitor gets up and goes: the bench is put back
//     close                 all have left, and the floor is closed: what is still to be put back is put back
//     query X Y             which face holds the point, in sixty-fourths
//     rewrite               the floor in fixed form, whether that has the same counts and is its own fixed form
//     school FLOOR NAME     a floor as a school sends it, named NAME: every face of FLOOR has corners of its own and no
//                           neighbour, and its sides lead to the room of its number
//     mend FLOOR NAME       a floor's split seams are mended; what comes of it is named NAME, and its list is read out
//     club FLOOR NAME       a floor as the modelling club sends it, named NAME: all of FLOOR but its nodes
//     plant FLOOR NAME      a floor without nodes gets its tree; what comes of it is named NAME
//     house FILE            the house's layout, for captions and the link check
//     plan FILE             the visitor's layout        sight FILE   what its rooms see
//     show                  both of them in fixed form
//     rename ROOM NAME      a room of the visitor's layout, of its door hooks and of its sight is named anew
//     caption ROOM   row ROOM   linkcheck
//     powercut PART BYTE VALUE  all is broken off, a byte of the saved floor or journal turns into VALUE, and all
//                               goes on from what was saved: who sat at a bench sits there again
//     repair PART BYTE VALUE    after a close that left edits: the byte is set right and the rest is put back
//
// What is done from sit to leave is done at a bench: `bench 1 undo` is bench 1's, and `undo` alone is bench 0's.
// The floors are kept for the whole morning: the next visitor finds what the last one left. The morning fails (1) if
// any floor is not what it was at the start, byte for byte; a script that cannot be played ends it at once (2).
#include "made.hpp"

#include <cstdlib>
#include <fstream>
#include <functional>
#include <iostream>
#include <iterator>
#include <map>
#include <memory>
#include <optional>
#include <sstream>

using namespace example;
using namespace wingpollen;

namespace {

using Words = std::vector<std::string>;

std::string contents(const std::string& path) {
    std::ifstream file(path, std::ios::binary);
    if (!file) give_up("cannot read " + path);
    return {std::istreambuf_iterator<char>(file), {}};
}

// A number of the script. The calls take 32 bits, of either sign, and check the rest themselves.
std::int64_t number(const std::string& word) {
    char* end = nullptr;
    const long long value = std::strtoll(word.c_str(), &end, 10);
    if (word.empty() || *end != '\0' || value < INT32_MIN || value > UINT32_MAX) give_up("no number: " + word);
    return value;
}
std::uint32_t natural(const std::string& word) { return static_cast<std::uint32_t>(number(word)); }
std::int32_t whole(const std::string& word) { return static_cast<std::int32_t>(number(word)); }

std::string counted(std::uint64_t count, const std::string& one) {
    return std::to_string(count) + ' ' + one + (count == 1 ? "" : "s");
}

// A refusal as the volunteer sees it: number, sentence, place.
template <class Answered>
std::string refused(const Answered& answer) {
    std::ostringstream said;
    said << "refused " << answer.number << ": " << words(refusal(answer));
    if constexpr (!std::is_same_v<Answered, wp_caption_at>) {
        const std::string_view place = place_words(refusal(answer));
        const bool typed_name = place == "line" && answer.place == 0;
        if (!place.empty() && !typed_name) said << " (" << place << ' ' << answer.place << ')';
    }
    return said.str();
}

class Morning : public Witness {
public:
    Morning(std::string texts, std::string floors) : texts_(std::move(texts)), floors_(std::move(floors)) {}

    // Plays one line of the script.
    void play(const std::string& line) {
        std::istringstream split(line);
        Words said{std::istream_iterator<std::string>(split), {}};
        if (said.empty() || said[0][0] == '#') return;
        const bool names_bench = said[0] == "bench" && said.size() > 2;
        bench_ = names_bench ? natural(said[1]) : 0;
        if (names_bench) said.erase(said.begin(), said.begin() + 2);
        const auto found = commands().find(said[0]);
        if (found == commands().end()) give_up("unknown command: " + line);
        const auto& [least, most, needs, command] = found->second;
        if (said.size() - 1 < least || said.size() - 1 > most) give_up("wrong number of words: " + line);
        if (names_bench && needs < Needs::free_bench) give_up("not done at a bench: " + line);
        if (needs != Needs::nothing && !floor_) give_up("no floor is open: " + line);
        if (needs == Needs::free_bench && visits_.count(bench_) != 0) give_up("someone sits there: " + line);
        if (needs == Needs::visit && visits_.count(bench_) == 0) give_up("nobody sits there: " + line);
        std::cout << (said[0] == "visitor" ? "\n" : "") << line << ": ";
        command(*this, said);
        std::cout << '\n';
    }

    // The morning's end; true if every floor is what it was.
    bool good_end() {
        if (floor_) give_up("a floor is still open: " + at_);
        std::uint64_t same = 0;
        for (const auto& [name, now] : gallery_) same += now == first(name);
        std::cout << "\nThe morning is over: " << counted(gallery_.size(), "floor") << " opened, " << same
                  << " as at the start, byte for byte.\n";
        return same == gallery_.size();
    }

    // A visitor has left. What the other one's edits still stand on is put back when the floor is closed.
    void left(std::uint32_t, const wp_session& answer) noexcept override { say(answer, "put back"); }

    // The floor is closed. One that is not put back is kept with its journal, for the repair.
    void ended(const wp_session& answer, Bytes floor, Bytes journal) noexcept override {
        say(answer, answer.f == 0 ? "put back" : "left over, edits of no bench");
        gallery_[at_] = owned(floor);
        if (answer.f != 0) stopped_ = Saved{owned(floor), owned(journal), answer.f};
        const bool same = gallery_[at_] == opening_;
        std::cout << (same ? "; byte for byte the opening floor" : "; NOT YET THE OPENING FLOOR");
    }

private:
    // What there must be: an open floor; besides, a bench where nobody sits, or someone who sits at the bench.
    enum class Needs { nothing, floor, free_bench, visit };

    struct Command {
        std::size_t least, most;
        Needs needs;
        std::function<void(Morning&, const Words&)> command;
    };

    // Least and most words behind the command, what it needs, and what it does.
    static const std::map<std::string, Command>& commands() {
        using M = Morning;
        using N = Needs;
        using W = Words;
        static const std::map<std::string, Command> all = {
            {"visitor", {1, 1, N::nothing, [](M& m, const W&) { m.visitor(); }}},
            {"open", {1, 2, N::nothing, [](M& m, const W& w) { m.open(w[1], w.size() > 2 ? natural(w[2]) : WP_RECORDS); }}},
            {"sit", {0, 0, N::free_bench, [](M& m, const W&) { m.sit(); }}},
            {"paint", {2, 2, N::visit, [](M& m, const W& w) { say(m.visit().paint(natural(w[1]), natural(w[2]))); }}},
            {"link", {2, 2, N::visit, [](M& m, const W& w) { say(m.visit().link(natural(w[1]), whole(w[2]))); }}},
            {"nudge", {2, 2, N::visit, [](M& m, const W& w) { say(m.visit().nudge(natural(w[1]), whole(w[2]))); }}},
            {"undo", {0, 0, N::visit, [](M& m, const W&) { say(m.visit().undo()); }}},
            {"putback", {0, 0, N::visit, [](M& m, const W&) { say(m.visit().put_back()); }}},
            {"leave", {0, 0, N::visit, [](M& m, const W&) { m.visits_.erase(m.bench_); }}},
            {"close", {0, 0, N::floor, [](M& m, const W&) { m.close(); }}},
            {"query", {2, 2, N::floor, [](M& m, const W& w) { m.query(whole(w[1]), whole(w[2])); }}},
            {"rewrite", {0, 0, N::floor, [](M& m, const W&) { m.rewrite(); }}},
            {"school", {2, 2, N::nothing, [](M& m, const W& w) { m.school(w[1], w[2]); }}},
            {"mend", {2, 2, N::nothing, [](M& m, const W& w) { m.mended(w[1], w[2]); }}},
            {"club", {2, 2, N::nothing, [](M& m, const W& w) { m.club(w[1], w[2]); }}},
            {"plant", {2, 2, N::nothing, [](M& m, const W& w) { m.planted(w[1], w[2]); }}},
            {"house", {1, 1, N::nothing, [](M& m, const W& w) { m.take(m.house_, w[1]); }}},
            {"plan", {1, 1, N::nothing, [](M& m, const W& w) { m.take(m.plan_, w[1]); }}},
            {"sight", {1, 1, N::nothing, [](M& m, const W& w) { m.take(m.sight_, w[1]); }}},
            {"show", {0, 0, N::nothing, [](M& m, const W&) { m.show(); }}},
            {"rename", {2, 2, N::nothing, [](M& m, const W& w) { m.rename(natural(w[1]), w[2]); }}},
            {"caption", {1, 1, N::nothing, [](M& m, const W& w) { m.caption_of(natural(w[1])); }}},
            {"row", {1, 1, N::nothing, [](M& m, const W& w) { m.row(natural(w[1])); }}},
            {"linkcheck", {0, 0, N::floor, [](M& m, const W&) { m.link_check(); }}},
            {"powercut", {3, 3, N::floor, [](M& m, const W& w) { m.power_cut(w); }}},
            {"repair", {3, 3, N::nothing, [](M& m, const W& w) { m.repair(w); }}},
        };
        return all;
    }

    void visitor() {
        plan_.clear();
        sight_.clear();
        std::cout << "welcome";
    }

    void open(const std::string& name, std::uint32_t records) {
        if (floor_ || stopped_) give_up("the last floor is not put back yet: " + at_);
        at_ = name;
        if (gallery_.count(name) == 0) gallery_[name] = first(name);
        opening_ = gallery_[name];
        floor_ = std::make_unique<SharedFloor>(opening_, *this, records);
        say_opened();
    }

    Visit& visit() const { return *visits_.at(bench_); }

    void sit() {
        take_seat(bench_);
        std::cout << "sits down, " << counted(floor_->records(), "edit") << " kept";
    }

    // A Visit is neither copied nor moved: it is made where it stays.
    void take_seat(std::uint32_t bench) { visits_[bench].reset(new Visit(floor_->sit(bench, *this))); }

    void close() {
        if (!visits_.empty()) give_up("someone still sits at a bench");
        floor_.reset();
    }

    // A floor as the morning began with it, or as it was made.
    Owned first(const std::string& name) const {
        const auto made = made_.find(name);
        return made != made_.end() ? made->second : owned(std::string_view(contents(floors_ + '/' + name)));
    }

    void school(const std::string& from, const std::string& name) {
        made_[name] = school_floor(first(from));
        std::cout << counted(made_[name].size(), "byte");
    }

    // At the desk, before the floor is opened for anyone.
    void mended(const std::string& from, const std::string& name) {
        const Owned old = first(from);
        const MendedFloor floor = mend(old);
        if (floor.answer.number != 0) {
            std::cout << refused(floor.answer);
            return;
        }
        std::cout << counted(floor.bytes.size(), "byte") << ", " << counted(floor.corners.size(), "corner")
                  << " changed, " << counted(floor.lost.size(), "link") << " lost";
        if (floor.bytes == old) std::cout << ", the same floor byte for byte";
        for (const ChangedCorner& corner : floor.corners) {
            std::cout << "\n    face " << corner.face << ", corner " << corner.corner << ": vertex "
                      << corner.old_vertex << " is now " << corner.new_vertex;
        }
        for (const LostLink& link : floor.lost) {
            std::cout << "\n    face " << link.face << ", side " << link.side << ": leads to no room now";
        }
        made_[name] = floor.bytes;
    }

    void club(const std::string& from, const std::string& name) {
        made_[name] = club_floor(first(from));
        std::cout << counted(made_[name].size(), "byte");
    }

    // At the desk too.
    void planted(const std::string& from, const std::string& name) {
        const Owned old = first(from);
        const FloorForm floor = plant(old);
        if (floor.answer.number != 0) {
            std::cout << refused(floor.answer);
            return;
        }
        std::cout << counted(floor.bytes.size(), "byte") << ", " << counted(word_at(floor.bytes, 100), "node");
        if (floor.bytes == old) std::cout << ", the same floor byte for byte";
        made_[name] = floor.bytes;
    }

    void say_opened() const {
        const wp_floor& floor = floor_->opened();
        if (floor.number != 0) {
            std::cout << refused(floor);
        } else {
            std::cout << "accepted, " << counted(floor.faces, "face") << ", " << floor.walkable << " walkable, "
                      << counted(floor.edges, "edge") << ", " << counted(floor.perimeters, "perimeter");
        }
    }

    static void say(const wp_session& answer, const std::string& done = "done") {
        std::cout << (answer.number == 0 ? done : refused(answer)) << "; " << counted(answer.f, "edit") << " kept";
    }

    void query(std::int32_t x, std::int32_t y) {
        const wp_point point = floor_->query(x, y);
        if (point.number != 0) {
            std::cout << refused(point);
        } else {
            std::cout << (point.found != 0 ? "face " + std::to_string(point.face) : "no face") << ", "
                      << counted(point.visited, "node") << " visited";
        }
    }

    // The form is opened as a floor of its own, with nobody to tell: nothing is edited there.
    void rewrite() {
        const FloorForm form = floor_->rewrite();
        if (form.answer.number != 0) {
            std::cout << refused(form.answer);
            return;
        }
        SharedFloor again(form.bytes, *this);
        const wp_floor now = floor_->read(), then = again.opened();
        const bool same_counts = then.number == 0 && now.faces == then.faces && now.walkable == then.walkable &&
                                 now.edges == then.edges && now.perimeters == then.perimeters;
        std::cout << counted(form.bytes.size(), "byte") << (same_counts ? ", the same counts" : ", OTHER COUNTS")
                  << (again.rewrite().bytes == form.bytes ? ", its own fixed form" : ", NOT ITS OWN FIXED FORM");
        again.suspend();
    }

    void take(std::string& text, const std::string& name) const {
        text = contents(texts_ + '/' + name);
        std::cout << counted(text.size(), "byte");
    }

    void show() const {
        show(layout_rewrite(plan_));
        std::cout << '\n';
        show(sight_rewrite(plan_, sight_));
    }

    static void show(const TextForm& form) {
        if (form.answer.number != 0) {
            std::cout << refused(form.answer);
            return;
        }
        std::cout << counted(form.text.size(), "byte");
        std::istringstream lines(form.text);
        for (std::string line; std::getline(lines, line);) std::cout << "\n    " << line;
    }

    // Both texts change or neither does, so that they still belong together.
    void rename(std::uint32_t room, const std::string& name) {
        TextForm plan = layout_rename(plan_, room, name), sight = sight_rename(plan_, sight_, room, name);
        if (plan.answer.number != 0 || sight.answer.number != 0) {
            std::cout << refused(plan.answer.number != 0 ? plan.answer : sight.answer);
            return;
        }
        plan_ = std::move(plan.text);
        sight_ = std::move(sight.text);
        std::cout << "done";
    }

    void caption_of(std::uint32_t room) const {
        const Caption found = caption(plan_, house_, room);
        if (found.answer.number != 0) {
            std::cout << refused(found.answer);
        } else {
            std::cout << found.name << (found.answer.house != 0 ? ", by the house" : ", as the visitor typed it");
        }
    }

    void row(std::uint32_t room) const {
        const wp_row row = sight_row(plan_, sight_, room);
        if (row.number != 0) {
            std::cout << refused(row);
            return;
        }
        std::cout << "sees " << counted(row.seen, "room");
        for (std::uint32_t j = 0; j < WP_ROOMS; ++j) {
            if ((row.row >> j & 1) != 0) std::cout << ' ' << j;
        }
    }

    void link_check() {
        const wp_answer answer = floor_->link_check(house_);
        std::cout << (answer.number == 0 ? "every link leads to a room" : refused(answer));
    }

    static void set_byte(Saved& saved, const Words& said) {
        if (said[1] != "floor" && said[1] != "journal") give_up("no such part: " + said[1]);
        Owned& part = said[1] == "floor" ? saved.floor : saved.journal;
        if (natural(said[2]) >= part.size() || natural(said[3]) > 255) give_up("no such byte: " + said[2]);
        part[natural(said[2])] = static_cast<std::uint8_t>(natural(said[3]));
    }

    // The visits of the floor that was broken off end without a word, and before that floor does.
    void power_cut(const Words& said) {
        Saved saved = floor_->suspend();
        set_byte(saved, said);
        std::vector<std::uint32_t> benches;
        for (const auto& visit : visits_) benches.push_back(visit.first);
        visits_.clear();
        floor_ = std::make_unique<SharedFloor>(std::move(saved), *this);
        for (const std::uint32_t bench : benches) take_seat(bench);
        say_opened();
        std::cout << "; " << counted(floor_->records(), "edit") << " kept";
    }

    void repair(const Words& said) {
        if (!stopped_) give_up("nothing is to be repaired");
        Saved saved = *std::exchange(stopped_, std::nullopt);
        set_byte(saved, said);
        SharedFloor again(std::move(saved), *this);
    }

    std::string texts_, floors_;
    std::string house_, plan_, sight_;
    // Floors that no file has, as they were made. The floors as they are now; the one that is open, and what it was
    // when it was opened.
    std::map<std::string, Owned> made_;
    std::map<std::string, Owned> gallery_;
    std::string at_;
    Owned opening_;
    std::optional<Saved> stopped_;
    // The bench of the line that is played.
    std::uint32_t bench_ = 0;
    // Last, so that they end first, the visits before the floor: their end is told to all the others.
    std::unique_ptr<SharedFloor> floor_;
    std::map<std::uint32_t, std::unique_ptr<Visit>> visits_;
};

}  // namespace

int main(int count, char** given) {
    if (count != 3) give_up("morning SCRIPT FLOORS");
    const std::string script = given[1];
    const std::size_t folder = script.rfind('/');
    Morning morning(folder == std::string::npos ? "." : script.substr(0, folder), given[2]);
    std::istringstream lines(contents(script));
    for (std::string line; std::getline(lines, line);) morning.play(line);
    return morning.good_end() ? 0 : 1;
}
