// sets.h: sixteen plain sets of names, and the fewest states that an automaton for them has.
#ifndef COMPARE_SETS_H
#define COMPARE_SETS_H

#include "names.h"

#include <algorithm>
#include <array>
#include <bitset>
#include <cstddef>
#include <cstdint>
#include <iterator>
#include <numeric>
#include <string>
#include <unordered_map>
#include <utility>
#include <vector>

namespace {

constexpr uint32_t missions = 16;

// "1 both together, 2 common names, 3 names of a that b has not"
Names combined(uint32_t operation, const Names& a, const Names& b) {
    Names result;
    const auto into = std::inserter(result, result.end());
    const NameOrder order;
    if (operation == 1) std::set_union(a.begin(), a.end(), b.begin(), b.end(), into, order);
    if (operation == 2) std::set_intersection(a.begin(), a.end(), b.begin(), b.end(), into, order);
    if (operation == 3) std::set_difference(a.begin(), a.end(), b.begin(), b.end(), into, order);
    return result;
}

// "the length of the longest prefix of the given name that some name on the list begins with, and 0 for an empty list"
size_t longest_prefix(const Names& names, const std::string& name) {
    std::ptrdiff_t longest = 0;
    for (const std::string& listed : names) {
        const auto differ = std::mismatch(name.begin(), name.end(), listed.begin(), listed.end()).first;
        longest = std::max(longest, differ - name.begin());
    }
    return static_cast<size_t>(longest);
}

// "next answers the sum of 2 to the power x over the letters x that may follow."
uint64_t letters_after(const Names& names, const std::string& prefix) {
    uint64_t sum = 0;
    for (auto at = names.lower_bound(prefix); at != names.end(); ++at) {
        if (at->compare(0, prefix.size(), prefix) != 0) break;
        if (at->size() > prefix.size()) sum |= uint64_t{1} << letter_number((*at)[prefix.size()]);
    }
    return sum;
}

// "The number of letters that may follow is also answered."
uint32_t number_of_letters(uint64_t sum) {
    return static_cast<uint32_t>(std::bitset<64>(sum).count());
}

// What may follow some first letters of a list's names is a residual of the list. A residual is told by whether
// the empty word is in it and by its own residuals by each letter, so equal ones get equal ids. An automaton
// needs one state for each different residual that has a word, and no more.
class Residuals {
public:
    using Id = char32_t;  // 0 has no words
    using Starts = std::array<Id, missions>;

    Id of(const Names& names) { return names.empty() ? 0 : of(names.begin(), names.end(), 0); }

    // The different residuals of sixteen lists.
    std::vector<Id> all(const Starts& starts) const {
        std::vector<Id> found;
        std::vector<bool> met(told.size());
        const auto meet = [&](Id id) {
            if (id != 0 && !met[id]) found.push_back(id);
            met[id] = true;
        };
        for (const Id start : starts) meet(start);
        for (size_t i = 0; i < found.size(); ++i) {
            each_letter(found[i], [&](size_t, Id id) { meet(id); });
        }
        return found;
    }

    bool has_empty_word(Id id) const { return told[id][0] == 1; }

    template <typename Visit>
    void each_letter(Id id, Visit visit) const {
        for (size_t i = 1; i < told[id].size(); i += 2) visit(told[id][i], told[id][i + 1]);
    }

private:
    using Place = Names::const_iterator;

    // The names from `from` up to `to` agree in their first `depth` letters: their residual by those.
    Id of(Place from, Place to, size_t depth) {
        std::u32string parts(1, from->size() == depth ? 1 : 0);
        if (from->size() == depth) ++from;
        while (from != to) {
            const char letter = (*from)[depth];
            const Place first = from;
            while (from != to && (*from)[depth] == letter) ++from;
            parts += static_cast<char32_t>(letter_number(letter));
            parts += of(first, from, depth + 1);
        }
        const auto [place, is_new] = ids.try_emplace(parts, static_cast<Id>(told.size()));
        if (is_new) told.push_back(parts);
        return place->second;
    }

    std::unordered_map<std::u32string, Id> ids;
    std::vector<std::u32string> told{U""};
};

// Sixteen lists, and the states that they need.
class Lists {
public:
    const Names& operator[](uint32_t mission) const { return lists[mission]; }

    void put(uint32_t mission, Names names) {
        starts[mission] = residuals.of(names);
        lists[mission] = std::move(names);
    }

    size_t needed() const { return residuals.all(starts).size(); }

    size_t needed_with(uint32_t mission, const Names& names) {
        Residuals::Starts changed = starts;
        changed[mission] = residuals.of(names);
        return residuals.all(changed).size();
    }

    size_t number_of_names() const {
        return std::accumulate(lists.begin(), lists.end(), size_t{0},
                               [](size_t sum, const Names& names) { return sum + names.size(); });
    }

private:
    std::array<Names, missions> lists;
    Residuals residuals;
    Residuals::Starts starts{};
};

}  // namespace

#endif
