// lent.hpp: the memory that the fuzz target lends to a call, the bytes that an input has for it, and what holds of
// memory and answer after every call.
//
// The archive is not compiled for fuzzing. So each slice lies against a page that can be neither read nor written, with
// guard bytes on its other side; and which numbers were answered at which places is told to the fuzzer as coverage.
#ifndef WINGPOLLEN_FUZZ_LENT_HPP
#define WINGPOLLEN_FUZZ_LENT_HPP

#include "../wingpollen.hpp"

#include <sys/mman.h>

#include <algorithm>
#include <cstdio>
#include <cstdlib>
#include <cstring>
#include <initializer_list>

namespace fuzz {

using Owned = std::vector<std::uint8_t>;

constexpr std::size_t page = 4096, room = 32 * page, guard = 64;
constexpr std::uint8_t guard_byte = 0xA5;

constexpr std::size_t calls = 17, numbers = 50, places = 32;
extern std::uint8_t coverage[calls * numbers * places];

// The call that is played.
inline std::size_t now = 0;

inline void require(bool holds, const char* what) {
    if (holds) return;
    std::fprintf(stderr, "call %zu: %s\n", now, what);
    std::abort();
}

// Memory for one slice, between two pages that nobody may touch.
class Slot {
public:
    Slot() {
        void* all = mmap(nullptr, room + 2 * page, PROT_NONE, MAP_PRIVATE | MAP_ANONYMOUS, -1, 0);
        if (all == MAP_FAILED) std::abort();
        first_ = static_cast<std::uint8_t*>(all) + page;
        if (mprotect(first_, room, PROT_READ | PROT_WRITE) != 0) std::abort();
    }

    // Lays bytes against the page behind them, or the one before.
    void lay(const Owned& bytes, bool at_end) {
        length = bytes.size();
        data = at_end ? first_ + room - length : first_;
        guard_ = at_end ? data - guard : data + length;
        std::memset(guard_, guard_byte, guard);
        if (length != 0) std::memcpy(data, bytes.data(), length);
        before = bytes;
    }

    void guarded() const {
        require(std::count(guard_, guard_ + guard, guard_byte) == guard, "a guard was written");
    }
    Owned after() const { return {data, data + length}; }
    void kept() const { require(after() == before, "memory that should be untouched was written"); }

    std::uint8_t* data = nullptr;
    std::size_t length = 0;
    Owned before;

private:
    std::uint8_t* first_;
    std::uint8_t* guard_ = nullptr;
};

// The input's bytes one after another; zeros when they run out.
class Input {
public:
    Input(const std::uint8_t* data, std::size_t size) : at_(data), left_(size) {}
    std::uint32_t number(int bytes) {
        std::uint32_t value = 0;
        for (int i = 0; i < bytes; ++i) value |= static_cast<std::uint32_t>(next()) << 8 * i;
        return value;
    }
    Owned take(std::size_t length) {
        Owned bytes(length);
        for (std::uint8_t& byte : bytes) byte = next();
        return bytes;
    }
    Owned rest() { return take(std::min(left_, room - guard)); }

private:
    std::uint8_t next() {
        if (left_ == 0) return 0;
        --left_;
        return *at_++;
    }
    const std::uint8_t* at_;
    std::size_t left_;
};

inline wp_floor accepts(const Owned& floor) {
    Owned memory(WP_WORK, 0x5C);
    return wp_read(wingpollen::inside::to_read(floor), floor.size(), memory.data(), memory.size());
}

inline bool same(const wp_floor& one, const wp_floor& other) { return std::memcmp(&one, &other, sizeof one) == 0; }

// The slices and the numbers that a call is handed.
struct Lent {
    Slot first, second, third, work, out;
    std::uint32_t f, bench, a, b;

    // What holds after every call: guards, and slices that were lent to be read only.
    void end(std::initializer_list<const Slot*> kept) const {
        for (const Slot* slot : {&first, &second, &third, &work, &out}) slot->guarded();
        for (const Slot* slot : kept) slot->kept();
    }

    // The number and place of an answer, told as coverage. Some refusals have one place only.
    template <class Answered>
    static void judge(const Answered& answer, std::uint32_t place, std::uint32_t lowest, std::uint32_t highest) {
        const std::uint32_t n = answer.number;
        require(n <= 20 || (n >= lowest && n <= highest), "a number that this call does not answer");
        for (std::uint32_t plain : {0u, 1u, 2u, 13u, 20u, 29u, 31u, 40u, 41u}) {
            require(n != plain || place == 0, "a place where there is none");
        }
        coverage[(now * numbers + n) * places + std::min<std::size_t>(place, places - 1)] = 1;
    }

    // More of what an accepted answer says, as coverage: how large its counts are.
    static void grade(std::uint32_t which, std::uint64_t count) {
        std::size_t size = 0;
        while (count != 0) ++size, count >>= 1;
        coverage[now * numbers * places + 8 * which + std::min<std::size_t>(size, 7)] = 1;
    }
};

}  // namespace fuzz

#endif
