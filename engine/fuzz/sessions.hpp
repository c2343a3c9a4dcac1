// sessions.hpp: the calls with a journal under the fuzz target. What each must have left of floor, journal and f
// follows from what was lent, from the journal's bytes, and from what further calls make of it.
#ifndef WINGPOLLEN_FUZZ_SESSIONS_HPP
#define WINGPOLLEN_FUZZ_SESSIONS_HPP

#include "journal.hpp"
#include "visits.hpp"

namespace fuzz {

constexpr std::int32_t largest_step = 640;

struct Sessions : Lent {
    // An edit, its tag as in a record.
    struct Edit {
        std::uint32_t tag, bench, place, value;
    };

    // What some calls leave of the floor and the journal lent, and the number that the last of them answered.
    struct Left {
        Owned floor, journal;
        std::uint32_t number, f;
    };

    template <class Call, class... Numbers>
    static Left after(Left from, Call call, Numbers... said) {
        const wp_session answer =
            call(wingpollen::inside::to_write(from.floor), from.floor.size(),
                 wingpollen::inside::to_write(from.journal), from.journal.size(), from.f, said...);
        return {std::move(from.floor), std::move(from.journal), answer.number, answer.f};
    }

    static Left after(Left from, const Edit& edit) {
        const auto value = static_cast<std::int32_t>(edit.value);
        if (edit.tag == 1) return after(std::move(from), wp_paint, edit.bench, edit.place, edit.value);
        return after(std::move(from), edit.tag == 2 ? wp_link : wp_nudge, edit.bench, edit.place, value);
    }

    Left lent() const { return {first.before, second.before, 0, f}; }

    // M-107: an accepted edit and a second one, which the third slice says, in both orders from the same start.
    void either_order(const Edit& one) const {
        Input input(third.before.data(), third.before.size());
        Edit other{input.number(1) % 3 + 1, 0, input.number(4), input.number(4)};
        other.bench = input.number(1) % WP_BENCHES;
        const Left by_one = after(lent(), one), by_other = after(lent(), other);
        const Left both = after(by_one, other), turned = after(by_other, one);
        if (one.tag != other.tag || one.place != other.place) {
            if (by_other.number != 0 || !room_for_both(other.bench)) return;
            require(both.number == 0 && turned.number == 0, "an edit of another field stands in the way");
            return require(both.floor == turned.floor, "the order of edits of different fields counts");
        }
        if (both.number != 0) return;
        if (one.tag != 3) {
            return require(by_other.number == 0 && both.floor == by_other.floor, "the later edit does not count alone");
        }
        other.value += one.value;  // two permitted steps, so the sum is no other number
        const Left sum = after(lent(), other);
        const bool permitted = std::abs(static_cast<std::int32_t>(other.value)) <= largest_step;
        require(sum.number == (permitted ? 0 : 24), "a nudge by the sum is judged otherwise");
        require(!permitted || both.floor == sum.floor, "two nudges are not one by the sum");
    }

    // Of the bench's edit and one by another bench, or by the same.
    bool room_for_both(std::uint32_t other) const {
        const Journal journal{second.before, f};
        const bool own = other != bench || journal.holds(bench) + std::size_t{2} <= journal.half();
        return own && f + std::size_t{2} <= Journal::fit(second.length);
    }

    // What comes first in every call with a journal: 1 to 6 as the reader has them, then 28 exactly if f exceeds what
    // fits, at the place said, then 45 exactly for a bench that is none. True if the answer is past all that.
    bool begins(const wp_session& answer, std::uint32_t place) const {
        judge(answer, answer.place, 21, 45);
        end({&third, &work, &out});
        const wp_floor opened = accepts(first.before);
        const auto refuses = [&answer](std::uint32_t number, std::uint32_t at, const char* what) {
            require(answer.number == number && answer.place == at, what);
            return false;
        };
        const bool sound = opened.number == 0 || opened.number > 6;
        if (!sound) return refuses(opened.number, opened.place, "1 to 6 and the reader");
        if (f > Journal::fit(second.length)) return refuses(28, place, "28 and f");
        if (bench >= WP_BENCHES) return refuses(45, f, "45 and the bench");
        require(answer.number == 0 || answer.number > 20, "a reader's refusal of a journal");
        require(answer.number != 28 && answer.number != 45, "28 or 45 without its reason");
        return true;
    }

    // A refusal that leaves all unchanged.
    void refused(const wp_session& answer) const {
        require(answer.f == f, "f changed on refusal");
        first.kept();
        second.kept();
    }

    template <class Call, class Value>
    void edit(Call call, std::uint32_t place, Value value) {
        const wp_session answer = call(first.data, first.length, second.data, second.length, f, bench, place, value);
        if (!begins(answer, place)) return refused(answer);
        const bool full = Journal{second.before, f}.full(bench);
        if (answer.number != 0) {
            require(answer.number >= 21 && answer.number <= 25, "a number that no edit answers");
            require(answer.place == place, "not the place asked for");
            require(answer.number != 25 || full, "no room for a bench that has some");
            return refused(answer);
        }
        require(!full, "an edit for which there is no room");
        require(answer.f == f + 1, "f is not one more");
        const Edit edit{static_cast<std::uint32_t>(now - 2), bench, place, static_cast<std::uint32_t>(value)};
        recorded(edit);
        one_field_written();
        either_order(edit);
        undone_at_once();
    }

    // An accepted edit has written its record behind the others, and nothing else of the journal.
    void recorded(const Edit& edit) const {
        const Owned journal = second.after();
        const std::size_t at = std::size_t{WP_RECORD} * f;
        Owned wanted = second.before;
        std::copy_n(journal.data() + at, WP_RECORD, wanted.data() + at);
        require(journal == wanted, "more than a record was written");
        Owned head{static_cast<std::uint8_t>(edit.tag), stated_length, 0, static_cast<std::uint8_t>(edit.bench)};
        for (int i = 0; i < 4; ++i) head.push_back(static_cast<std::uint8_t>(edit.place >> 8 * i));
        require(std::equal(head.begin(), head.end(), &journal[at]), "a record's tag, length, bench or place");
        const std::uint8_t* written = &journal[at + new_at];
        const bool minus_zero = written[3] == 0x80 && std::count(written, written + 3, 0) == 3;
        require(edit.tag != 3 || !minus_zero, "a nudge to minus zero");
    }

    void one_field_written() const {
        std::size_t from = 0, to = first.length;
        while (from < to && first.data[from] == first.before[from]) ++from;
        while (from < to && first.data[to - 1] == first.before[to - 1]) --to;
        require(to - from <= 4, "more than four bytes of the floor were written");
    }

    // What an edit promises of later calls, it promises of floors that the reader accepts.
    void undone_at_once() const {
        const wp_floor opened = accepts(first.before);
        if (opened.number != 0) return;
        grade(0, opened.faces), grade(1, f);
        require(same(opened, accepts(first.after())), "an edited floor reads otherwise");
        const Left undone = after({first.after(), second.after(), 0, f + 1}, wp_undo, bench);
        require(undone.number == 0 && undone.f == f, "an edit cannot be undone");
        require(undone.floor == first.before, "an edit is undone to somewhere else");
        require(undone.journal == second.after(), "the last record is taken out and others move");
    }

    void undo() const {
        const wp_session answer = wp_undo(first.data, first.length, second.data, second.length, f, bench);
        if (!begins(answer, f)) return refused(answer);
        const Journal journal{second.before, f};
        require((answer.number == 26) == (journal.holds(bench) == 0), "26 and what the bench holds");
        require((answer.number == 43) == journal.blocked(bench), "43 and what the other bench did since");
        if (answer.number != 0) {
            require(answer.number == 26 || answer.number == 27 || answer.number == 43, "a number that no undo answers");
            require(answer.place == f, "not f as place");
            return refused(answer);
        }
        require(answer.f == f - 1, "f is not one less");
        one_field_written();
        Owned wanted = journal.without(bench, 1);
        const auto past = second.before.begin() + static_cast<std::ptrdiff_t>(wanted.size());
        wanted.insert(wanted.end(), past, second.before.end());
        require(second.after() == wanted, "the journal does not close up, or its end does not stay");
        made_again(journal.record(journal.latest(bench)));
    }

    // The record that was undone is one that a call writes. A paint or link that is made again, where nothing refuses
    // it, leads back.
    void made_again(const std::uint8_t* record) const {
        const std::uint32_t tag = record[0];
        require(tag >= 1 && tag <= 3 && record[1] == stated_length && record[2] == 0, "a record that no call writes");
        if (tag == 3) return;
        const Edit edit{tag, bench, Input(record + place_at, 4).number(4), Input(record + new_at, 4).number(4)};
        const Left again = after({first.after(), second.after(), 0, f - 1}, edit);
        require(again.number != 0 || again.floor == first.before, "what was undone and made again is something else");
    }

    void put_back() const {
        const wp_session answer = wp_put_back(first.data, first.length, second.data, second.length, f, bench);
        if (!begins(answer, f)) return refused(answer);
        const Owned journal = second.after();
        const Journal before{second.before, f}, left{journal, answer.f};
        require(answer.f <= f && f - answer.f <= before.holds(bench), "more is taken out than the bench held");
        Owned records = journal;
        records.resize(std::size_t{WP_RECORD} * answer.f);
        require(records == before.without(bench, f - answer.f), "what is left is not the rest of the list");
        require((answer.number == 0) == (left.holds(bench) == 0), "0 and what the bench still holds");
        require((answer.number == 43) == left.blocked(bench), "43 and what the other bench did since");
        require(answer.number == 0 || answer.number == 27 || answer.number == 43, "a number that no put-back answers");
        require(answer.place == (answer.number == 0 ? 0 : answer.f), "not f as place");
        undo_after_undo(answer);
        grade(0, f - answer.f);
        visited(first.before, third.before, Journal::fit(second.length));
    }

    // A put-back is undo again and again, until the bench holds nothing more (26) or something stops it.
    void undo_after_undo(const wp_session& answer) const {
        Left left = lent();
        for (std::uint32_t times = 0; times <= f && left.number == 0; ++times) {
            left = after(std::move(left), wp_undo, bench);
        }
        const std::uint32_t number = left.number == 26 ? 0 : left.number;
        require(answer.number == number && answer.f == left.f, "undo after undo stops elsewhere");
        require(first.after() == left.floor && second.after() == left.journal, "undo after undo leads elsewhere");
    }
};

}  // namespace fuzz

#endif
