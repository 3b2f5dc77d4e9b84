// table.h: the table read by 01's seven rules, and the walk, which works on any numbers.
#ifndef COMPARE_TABLE_H
#define COMPARE_TABLE_H

#include "names.h"
#include "sets.h"

#include <algorithm>
#include <array>
#include <cstddef>
#include <cstdint>
#include <set>
#include <string>
#include <string_view>
#include <utility>
#include <vector>

namespace {

using Numbers = std::vector<uint16_t>;

// How many names a list has, and how many bytes it is as load takes it.
struct Size {
    size_t names = 0;
    size_t bytes = 0;
};

using Sizes = std::array<Size, missions>;

constexpr size_t row_length = 40;
constexpr size_t first_target = 2;
constexpr size_t last_number = 39;
constexpr size_t rows_beside_room = 26;  // the head and "the 25 rows above the room"
constexpr size_t largest_room = 1000;

// "The slice is k rows of forty numbers, k from 27 to 1,026."
bool is_slice(size_t length) {
    const size_t k = length / row_length;
    return length % row_length == 0 && rows_beside_room < k && k <= rows_beside_room + largest_room;
}

// "The room is k minus 26, so 1 to 1,000."
size_t room_of(size_t length) {
    return length / row_length - rows_beside_room;
}

class Table {
public:
    Table(const uint16_t* first, size_t length) : numbers(first), k(length / row_length) {}

    uint16_t number(size_t row, size_t i) const { return numbers[row * row_length + i]; }
    uint16_t start(uint32_t mission) const { return number(0, mission); }
    uint16_t mark(size_t row) const { return number(row, 0); }
    uint16_t height(size_t row) const { return number(row, 1); }
    uint16_t target(size_t row, size_t letter) const { return number(row, first_target + letter); }

    // "A start or target of 0 or over k-1 is no row."
    bool is_row(size_t number) const { return number != 0 && number <= k - 1; }
    bool in_use(size_t row) const { return is_row(row) && (mark(row) == 1 || mark(row) == 2); }

    std::vector<size_t> rows_in_use() const {
        std::vector<size_t> rows;
        for (size_t row = 1; row < k; ++row) {
            if (in_use(row)) rows.push_back(row);
        }
        return rows;
    }

    // "A book is sound when all of this holds": the first rule that does not hold, or 0.
    int broken_rule() const {
        const std::vector<size_t> used = rows_in_use();
        const auto every = [&](auto holds) { return std::all_of(used.begin(), used.end(), holds); };
        if (!head_holds()) return 1;
        if (!marks_hold()) return 2;
        if (!every([&](size_t row) { return targets_hold(row) && height_holds(row); })) return 3;
        if (!every([&](size_t row) { return mark(row) == 2 || letters_at(row) != 0; })) return 4;
        if (!every([&, led_to = starts_and_targets(used)](size_t row) { return led_to[row]; })) return 5;
        if (!all_differ(used)) return 6;
        if (used.size() > k - rows_beside_room) return 7;
        return 0;
    }

    // The size of each list in a sound book; `most` and one for all names and all bytes that are more.
    Sizes sizes_of_lists(size_t most) const {
        std::vector<size_t> rows = rows_in_use();
        std::sort(rows.begin(), rows.end(), [&](size_t row, size_t other) { return height(row) < height(other); });
        std::vector<Size> words(k);  // that are accepted from each row; row 0 stands for no row
        for (const size_t row : rows) {
            Size& size = words[row];
            if (mark(row) == 2) size = {1, 1};
            for (size_t x = 0; x < letters.size(); ++x) {
                const Size& behind = words[target(row, x)];  // each of its words gets a letter more
                size.names = std::min(size.names + behind.names, most + 1);
                size.bytes = std::min(size.bytes + behind.bytes + behind.names, most + 1);
            }
        }
        Sizes sizes;
        for (uint32_t mission = 0; mission < missions; ++mission) sizes[mission] = words[start(mission)];
        return sizes;
    }

    // The first names of the mission's list in a sound book, at most so many: all may be more than memory holds.
    Names list(uint32_t mission, size_t most) const {
        Names names;
        std::string word;
        if (start(mission) != 0) collect(start(mission), word, names, most);
        return names;
    }

    // "ask and next work on any numbers": the row where the walk ends, or 0.
    size_t walk(uint32_t mission, std::string_view word) const {
        size_t at = start(mission);
        for (const char letter : word) at = is_row(at) ? target(at, letter_number(letter)) : 0;
        return is_row(at) ? at : 0;
    }

    // "ask says 1 exactly when the walk ends on a row with mark 2."
    bool accepts(uint32_t mission, std::string_view word) const {
        const size_t row = walk(mission, word);
        return row != 0 && mark(row) == 2;
    }

    // "the number of letters in 01's walk whose target is a row"
    size_t followed(uint32_t mission, std::string_view word) const {
        size_t walked = 0;
        while (walked < word.size() && walk(mission, word.substr(0, walked + 1)) != 0) ++walked;
        return walked;
    }

    // "next reports each letter whose target is a row."
    uint64_t letters_at(size_t row) const {
        uint64_t sum = 0;
        for (size_t x = 0; x < letters.size(); ++x) {
            if (is_row(target(row, x))) sum |= uint64_t{1} << x;
        }
        return sum;
    }

    bool is_zero(size_t row, size_t from) const {
        const uint16_t* const first = numbers + row * row_length;
        return std::all_of(first + from, first + row_length, [](uint16_t number) { return number == 0; });
    }

private:
    // "1. Each start is 0 or a row with mark 1; the rest of the head is 0."
    bool head_holds() const {
        const auto holds = [&](size_t start) { return start == 0 || (is_row(start) && mark(start) == 1); };
        return std::all_of(numbers, numbers + missions, holds) && is_zero(0, missions);
    }

    // "2. Each mark is 0, 1 or 2, and a free row is forty zeros."
    bool marks_hold() const {
        for (size_t row = 1; row < k; ++row) {
            if (!in_use(row) && !is_zero(row, 0)) return false;
        }
        return true;
    }

    // "3. In a row in use every target is 0 or a row in use; ... number 39 is 0."
    bool targets_hold(size_t row) const {
        for (size_t x = 0; x < letters.size(); ++x) {
            if (target(row, x) != 0 && !in_use(target(row, x))) return false;
        }
        return number(row, last_number) == 0;
    }

    // "the height is 0 if there is no target, else one more than the greatest height among its targets, and at
    // most 24"
    bool height_holds(size_t row) const {
        size_t wanted = 0;
        for (size_t x = 0; x < letters.size(); ++x) {
            if (target(row, x) != 0) wanted = std::max<size_t>(wanted, height(target(row, x)) + size_t{1});
        }
        return height(row) == wanted && wanted <= longest_name;
    }

    // For "5. Each row in use is a start or the target of a row in use."
    std::vector<bool> starts_and_targets(const std::vector<size_t>& used) const {
        std::vector<bool> led_to(k);
        for (uint32_t mission = 0; mission < missions; ++mission) led_to[start(mission)] = true;
        for (const size_t row : used) {
            for (size_t x = 0; x < letters.size(); ++x) led_to[target(row, x)] = true;
        }
        return led_to;
    }

    // "6. No two rows in use agree in mark and all 37 targets."
    bool all_differ(const std::vector<size_t>& used) const {
        std::set<std::pair<uint16_t, Numbers>> met;
        return std::all_of(used.begin(), used.end(), [&](size_t row) {
            const uint16_t* const targets = numbers + row * row_length + first_target;
            return met.emplace(mark(row), Numbers(targets, targets + letters.size())).second;
        });
    }

    void collect(size_t row, std::string& word, Names& names, size_t most) const {
        if (mark(row) == 2) names.insert(names.end(), word);
        for (size_t x = 0; x < letters.size() && names.size() < most; ++x) {
            if (target(row, x) == 0) continue;
            word.push_back(letters[x]);
            collect(target(row, x), word, names, most);
            word.pop_back();
        }
    }

    const uint16_t* numbers;
    size_t k;
};

}  // namespace

#endif
