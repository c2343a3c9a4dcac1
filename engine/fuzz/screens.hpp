// screens.hpp: what M-110 says of a typed name under the fuzz target, by the words of the texts that were written: it makes
// no line, changes none but those that hold it, and what is shown of other rooms stays.
#ifndef WINGPOLLEN_FUZZ_SCREENS_HPP
#define WINGPOLLEN_FUZZ_SCREENS_HPP

#include "lent.hpp"

#include <cctype>
#include <string>
#include <vector>

namespace fuzz {

// The parts of a text between bytes that part it; empty ones are left out unless they are lines.
inline std::vector<std::string_view> parts(std::string_view text, char by, bool are_lines) {
    std::vector<std::string_view> all;
    while (!text.empty()) {
        const std::size_t end = std::min(text.find(by), text.size());
        if (end > 0 || are_lines) all.push_back(text.substr(0, end));
        text.remove_prefix(std::min(end + 1, text.size()));
    }
    return all;
}

inline std::string lower_case(std::string_view name) {
    std::string lowered(name);
    for (char& byte : lowered) byte = static_cast<char>(std::tolower(static_cast<unsigned char>(byte)));
    return lowered;
}

// Whether one line holds a name, as a whole word, where the other holds another, and their other words are the same.
inline bool differs_by_name(std::string_view one, std::string_view other, std::string_view old, std::string_view name) {
    const auto words = parts(one, ' ', false), others = parts(other, ' ', false);
    if (words.size() != others.size()) return false;
    std::size_t names = 0;
    for (std::size_t i = 0; i < words.size(); ++i) {
        if (words[i] == others[i]) continue;
        if (words[i] != old || others[i] != name) return false;
        ++names;
    }
    return names == 1;
}

// A form and the form with a typed name have as many lines, and differ in none but those that hold the name.
inline void only_name_differs(std::string_view before, std::string_view after, std::string_view old,
                              std::string_view name) {
    const std::string was = lower_case(old), is = lower_case(name);
    const auto lines = parts(before, '\n', true), others = parts(after, '\n', true);
    require(lines.size() == others.size(), "a typed name makes a line, or takes one");
    for (std::size_t i = 0; i < lines.size(); ++i) {
        require(lines[i] == others[i] || differs_by_name(lines[i], others[i], was, is),
                "a line without the name differs");
    }
}

// What may be shown of a room: letters, digits and underscores.
inline bool is_clean(std::string_view name) {
    return std::all_of(name.begin(), name.end(),
                       [](unsigned char byte) { return std::isalnum(byte) != 0 || byte == '_'; });
}

inline bool breaks_line(std::string_view name) { return name.find_first_of("\r\n") != std::string_view::npos; }

}  // namespace fuzz

#endif
