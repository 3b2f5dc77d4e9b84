// damage.h: random changes to the numbers of a table.
#ifndef COMPARE_DAMAGE_H
#define COMPARE_DAMAGE_H

#include "names.h"
#include "random.h"
#include "sets.h"
#include "table.h"

#include <algorithm>
#include <cstddef>
#include <cstdint>
#include <numeric>
#include <string>
#include <vector>

namespace {

// Changes to a table by numbers. Most break a rule; some make another sound book.
class Damage {
public:
    Damage(Numbers& its_numbers, Random& its_random)
        : numbers(its_numbers), random(its_random), k(numbers.size() / row_length) {
        const Table table(numbers.data(), numbers.size());
        for (size_t row = 1; row < k; ++row) (table.in_use(row) ? used : unused).push_back(row);
    }

    void any() {
        if (used.empty() || unused.empty()) return put_any_book();
        const size_t row = random.one_of(used);
        const size_t other = random.one_of(used);
        const size_t unused_row = random.one_of(unused);
        const size_t any_row = random.below(k);
        const size_t any_place = random.below(row_length);
        const size_t target = random.between(first_target, last_number - 1);
        const size_t mission = random.mission();
        const size_t value = telling_value();
        switch (random.below(25)) {
            case 0: return set(any_row, any_place, value);
            case 1: return set(row, any_place, value);
            case 2:
            case 3: return set(0, mission, value);
            case 4: return set(0, mission, row);
            case 5: return set(row, target, value);
            case 6: return set(row, target, other);
            case 7: return set(row, target, row);
            case 8: return set(row, 0, value % 4);
            case 9: return set(row, 0, 3u - at(row, 0));
            case 10: return set(row, 1, at(row, 1) + 1u);
            case 11: return set(row, 1, at(row, 1) - 1u);
            case 12: return set(any_row, last_number, 1);
            case 13: return set(0, std::max<size_t>(any_place, missions), row);
            case 14: return copy_row(row, other);
            case 15: return copy_row(unused_row, row);
            case 16: return copy_row(row, unused_row);
            case 17: copy_row(row, unused_row); return set(0, mission, unused_row);          // breaks rule 6
            case 18: copy_row(row, unused_row); return set(unused_row, 0, 3u - at(row, 0));  // breaks rule 5
            case 19: return renumber();
            case 20: any(); return any();
            case 21: return put_any_numbers();
            case 22: put_any_numbers(); return set(0, mission, value);
            default: return put_any_book();
        }
    }

    // The residuals of the lists become rows: any rows, since "any state row may be in use".
    void put_book(const std::vector<Names>& lists) {
        Residuals residuals;
        Residuals::Starts starts{};
        for (size_t mission = 0; mission < lists.size(); ++mission) starts[mission] = residuals.of(lists[mission]);
        std::vector<Residuals::Id> ids = residuals.all(starts);
        std::sort(ids.begin(), ids.end());  // those below a residual got their ids before it
        const std::vector<size_t> rows = mixed_rows();
        std::vector<size_t> row_of(ids.empty() ? 1 : ids.back() + 1);
        std::fill(numbers.begin(), numbers.end(), uint16_t{0});
        for (size_t i = 0; i < ids.size(); ++i) {
            const size_t row = row_of[ids[i]] = rows[i + 1];
            set(row, 0, residuals.has_empty_word(ids[i]) ? 2 : 1);
            residuals.each_letter(ids[i], [&](size_t x, Residuals::Id below) {
                set(row, first_target + x, row_of[below]);
                set(row, 1, std::max<size_t>(at(row, 1), at(row_of[below], 1) + size_t{1}));
            });
        }
        for (size_t mission = 0; mission < missions; ++mission) set(0, mission, row_of[starts[mission]]);
    }

private:
    uint16_t& at(size_t row, size_t i) { return numbers[row * row_length + i]; }
    void set(size_t row, size_t i, size_t value) { at(row, i) = static_cast<uint16_t>(value); }

    size_t telling_value() {
        const size_t any = random.below(65536);
        return random.one_of(std::vector<size_t>{0, 1, 2, 3, longest_name, k - 1, k, k, k + 1, 65535, any});
    }

    void copy_row(size_t from, size_t to) {
        for (size_t i = 0; i < row_length; ++i) set(to, i, at(from, i));
    }

    // Numbers such as a book has, but anywhere: ask and next find their way through them.
    void put_any_numbers() {
        if (k > 90) return;  // nobody reads a script with more changes
        const size_t zeros = random.below(100);
        for (uint16_t& number : numbers) {
            const size_t value = random.chance(15) ? telling_value() : random.below(k);
            number = static_cast<uint16_t>(random.chance(zeros) ? 0 : value);
        }
        for (size_t row = 1; row < k; ++row) set(row, 0, random.below(4));
    }

    // The state rows in any order, behind the head.
    std::vector<size_t> mixed_rows() {
        std::vector<size_t> rows(k - 1);
        std::iota(rows.begin(), rows.end(), size_t{1});
        random.shuffle(rows);
        rows.insert(rows.begin(), 0);
        return rows;
    }

    // "which state rows hold which states is free": a sound book with the same lists.
    void renumber() {
        const std::vector<size_t> moved = mixed_rows();
        const Numbers old = numbers;
        for (size_t row = 0; row < k; ++row) {
            for (size_t i = 0; i < row_length; ++i) {
                const size_t number = old[row * row_length + i];
                const bool leads = row == 0 ? i < missions : first_target <= i && i < last_number;
                set(moved[row], i, leads && number < k ? moved[number] : number);
            }
        }
    }

    // A list for the whole room or for one state more (rule 7), or a word of 25 letters (the height in rule 3).
    void put_any_book() {
        const std::string few = random.some_letters(random.between(1, 4));
        const size_t states = std::min<size_t>(k - rows_beside_room, 100) + random.below(2);
        if (random.chance(20)) put_book({{random.word(few, longest_name + 1)}});
        else put_book({random.list_needing(states, few, 5)});
    }

    Numbers& numbers;
    Random& random;
    size_t k;
    std::vector<size_t> used;
    std::vector<size_t> unused;
};

}  // namespace

#endif
