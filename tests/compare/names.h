// names.h: letters, the order of names, names, prefixes and lists for load.
//
// The order has one home, the string `letters`: a letter's number is its place there, and all that is ordered goes
// by NameOrder.
#ifndef COMPARE_NAMES_H
#define COMPARE_NAMES_H

#include <algorithm>
#include <array>
#include <cstddef>
#include <cstdint>
#include <optional>
#include <set>
#include <string>
#include <string_view>
#include <utility>
#include <vector>

namespace {

constexpr size_t longest_name = 24;
constexpr size_t longest_list = 65535;

// Wish 3: "Letter numbers become: underscore 0, digits 1 to 10, capitals 11 to 36."
constexpr std::string_view letters = "_0123456789ABCDEFGHIJKLMNOPQRSTUVWXYZ";
constexpr uint8_t no_letter = letters.size();

constexpr std::array<uint8_t, 256> numbers_of_bytes() {
    std::array<uint8_t, 256> numbers{};
    for (uint8_t& number : numbers) number = no_letter;
    for (uint8_t x = 0; x < letters.size(); ++x) numbers[static_cast<unsigned char>(letters[x])] = x;
    return numbers;
}

constexpr std::array<uint8_t, 256> byte_numbers = numbers_of_bytes();

// The number of a letter; no_letter for any other byte.
uint8_t letter_number(char byte) {
    return byte_numbers[static_cast<unsigned char>(byte)];
}

// "Names are ordered letter by letter by letter number; a proper prefix stands before the longer name."
struct NameOrder {
    bool operator()(const std::string& name, const std::string& other) const {
        return std::lexicographical_compare(name.begin(), name.end(), other.begin(), other.end(),
                                            [](char a, char b) { return letter_number(a) < letter_number(b); });
    }
};

using Names = std::set<std::string, NameOrder>;

// "the prefix given to next may be empty and has at most 24 letters"
bool is_prefix(std::string_view word) {
    return word.size() <= longest_name && word.find_first_not_of(letters) == std::string_view::npos;
}

// "A name has 1 to 24 letters."
bool is_name(std::string_view word) {
    return !word.empty() && is_prefix(word);
}

// "A list for load is bytes: each name followed by 0x0A, names strictly rising, at most 65,535 bytes."
std::optional<Names> names_of_list(const std::string& list) {
    if (list.size() > longest_list) return std::nullopt;
    Names names;
    for (size_t from = 0, end; from < list.size(); from = end + 1) {
        end = list.find('\n', from);
        if (end == std::string::npos) return std::nullopt;
        const std::string name = list.substr(from, end - from);
        if (!is_name(name) || (!names.empty() && !NameOrder()(*names.rbegin(), name))) return std::nullopt;
        names.insert(names.end(), name);
    }
    return names;
}

std::string list_of_names(const Names& names) {
    std::string list;
    for (const std::string& name : names) list += name + '\n';
    return list;
}

// The letters that a word may have in each place, and all words that have them; or only the first so many, if the
// letters of every place rise.
using Places = std::vector<std::string_view>;

Names words_by(const Places& places, size_t most = SIZE_MAX) {
    Names words = {""};
    for (const std::string_view place : places) {
        Names longer;
        for (const std::string& word : words) {
            for (const char letter : place) {
                if (longer.size() < most) longer.insert(longer.end(), word + letter);
            }
        }
        words = std::move(longer);
    }
    return words;
}

}  // namespace

#endif
