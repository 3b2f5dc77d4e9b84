// random.h: drawings, and names and lists by them.
#ifndef COMPARE_RANDOM_H
#define COMPARE_RANDOM_H

#include "names.h"
#include "sets.h"

#include <cstddef>
#include <cstdint>
#include <iterator>
#include <string>
#include <utility>

namespace {

// Splitmix64: the distributions of the standard libraries differ, this gives the same calls everywhere. For the
// same reason no two drawings stand where the order between them is free.
class Random {
public:
    explicit Random(uint64_t seed) : state(seed) {}

    uint64_t next() {
        state += 0x9E3779B97F4A7C15;
        uint64_t mixed = state;
        mixed = (mixed ^ (mixed >> 30)) * 0xBF58476D1CE4E5B9;
        mixed = (mixed ^ (mixed >> 27)) * 0x94D049BB133111EB;
        return mixed ^ (mixed >> 31);
    }

    size_t below(size_t bound) { return next() % bound; }
    size_t between(size_t least, size_t most) { return least + below(most - least + 1); }
    bool chance(size_t percent) { return below(100) < percent; }

    // Mostly one of the first three, so that the lists meet in combine.
    uint32_t mission() { return static_cast<uint32_t>(below(chance(80) ? 3 : missions)); }

    template <typename Several>
    auto one_of(const Several& several) {
        return *std::next(several.begin(), static_cast<std::ptrdiff_t>(below(several.size())));
    }

    template <typename Several>
    void shuffle(Several& several) {
        for (size_t left = several.size(); left > 1; --left) std::swap(several[left - 1], several[below(left)]);
    }

    std::string some_letters(size_t number) {
        std::string some(letters);
        shuffle(some);
        return some.substr(0, number);
    }

    std::string word(const std::string& of_letters, size_t length) {
        std::string made;
        while (made.size() < length) made += one_of(of_letters);
        return made;
    }

    // The word with one letter more, less or another.
    std::string altered(std::string word, const std::string& of_letters) {
        const size_t at = below(word.size() + 1);
        const size_t fewer = below(2);
        const size_t more = below(2);
        return word.replace(at, fewer, more, one_of(of_letters));
    }

    // A list that needs so many states, or nearly so many: names are added as long as they fit.
    Names list_needing(size_t states, const std::string& of_letters, size_t longest) {
        Lists lists;
        for (size_t tries = 0; tries < 500 && lists.needed() < states; ++tries) {
            Names names = lists[0];
            std::string name = word(of_letters, between(1, longest));
            if (!names.empty() && chance(30)) name = altered(one_of(names), of_letters);
            if (!is_name(name) || !names.insert(name).second) continue;
            if (lists.needed_with(0, names) <= states) lists.put(0, names);
        }
        return lists[0];
    }

private:
    uint64_t state;
};

}  // namespace

#endif
