// trial.h: a table that is lent to the library call by call, and what is known of it.
#ifndef COMPARE_TRIAL_H
#define COMPARE_TRIAL_H

#include "boundary.h"
#include "calls.h"
#include "names.h"
#include "table.h"
#include "writing.h"

#include <algorithm>
#include <cstddef>
#include <cstdint>
#include <cstdlib>
#include <string>
#include <tuple>
#include <utility>

namespace {

// What is done to a right library, to see that it is found. It happens where three names are counted.
enum class Fault { none, lie, crash };

class Trial {
public:
    explicit Trial(size_t length, Fault its_fault = Fault::none)
        : fault(its_fault), known{length}, lent(lent_table(length)) {}

    const Known& knowledge() const { return known; }
    Numbers numbers() const { return Numbers(lent.data(), lent.data() + lent.size()); }

    // No call can be made: a change lay outside the table, or the sets cannot hold its lists.
    bool is_over() const { return outside || (too_many && !known.sizes); }

    // What a script itself does to the table.
    void change(const Call& call) {
        if (call.kind == Kind::length) change_length(call.length);
        for (const Change& change : call.changes) {
            if (change.index < lent.size()) lent.data()[change.index] = change.value;
            else outside = true;
        }
        read_table();
        table_is_told = false;
    }

    // False, if the sets can hold the lists.
    bool go_on_without_sets() {
        if (!too_many) return false;
        known.sizes.emplace();
        read_table();
        return true;
    }

    Answer expected(const Call& call) { return expected_answer(call, known, table()); }

    // The call as a script has it. Behind a change the whole table stands before it, since "which state rows hold which
    // states is free": to another library's table the change would be another one.
    std::string lines_of(const Call& call, const Answer& expected) {
        const std::string lines = table_is_told ? "" : lines_of_table(numbers());
        table_is_told = true;
        return lines + shown(call, expected);
    }

    // Makes a call. Tells the difference; nothing, when all is as it must be.
    std::string make(const Call& call, const Answer& expected) {
        const Numbers before = numbers();
        const bool three_names = call.kind == Kind::count && expected.number == 0 && expected.value == 3;
        if (three_names && fault == Fault::crash) std::abort();
        made = made_by_library(call, lent);
        if (three_names && fault == Fault::lie) ++made.answer.value;
        if (expected.number == 0 && !known.sizes) carry_out(call, known);
        const std::string found = difference(call, expected, before);
        if (known.sizes) read_table();
        return found;
    }

    // What a script does or calls. Tells the difference.
    std::string step(const Call& call) {
        if (is_call(call.kind)) return make(call, expected(call));
        change(call);
        return "";
    }

    const Answer& last_answer() const { return made.answer; }

private:
    Table table() const { return {lent.data(), lent.size()}; }

    void change_length(size_t length) {
        Lent<uint16_t> other = lent_table(length);
        std::copy_n(lent.data(), std::min(length, lent.size()), other.data());
        lent = std::move(other);
        known.length = length;
    }

    // A table that was changed may be a sound book; then its lists are those that stand in it.
    void read_table() {
        too_many = false;
        if (!is_slice(lent.size())) return;
        known.sound = table().broken_rule() == 0;
        if (!known.sound) return;
        const Sizes sizes = table().sizes_of_lists(most_held);
        too_many = std::any_of(sizes.begin(), sizes.end(), [](const Size& size) { return size.names > most_held; });
        if (known.sizes) known.sizes = sizes;
        if (known.sizes || too_many) return;
        for (uint32_t mission = 0; mission < missions; ++mission) {
            known.lists.put(mission, table().list(mission, most_held));
        }
    }

    std::string difference(const Call& call, const Answer& expected, const Numbers& before) const {
        const Answer& answer = made.answer;
        const auto told = [](const Answer& a) { return std::tie(a.number, a.value, a.followed, a.letters); };
        const std::string by = known.sizes ? ", by the table and what is stored " : ", by the sets ";
        if (told(answer) != told(expected)) return by + brief(shown(expected, call.kind));
        // "On a sound book these are the plain set answers": the walk finds them, too.
        if (works_on_any_numbers(call.kind) && answer.number == 0) {
            const Answer walked = walked_answer(call, table());
            if (told(answer) != told(walked)) return ", by the walk " + shown(walked, call.kind);
        }
        if (answer.buffer != expected.buffer) return other_byte(answer.buffer, expected.buffer);
        if (!made.stayed_inside) return ", but the call wrote where it must not";
        if (call.kind == Kind::empty && answer.number == 0) return other_than(Numbers(before.size()));
        return table_stays(call.kind) ? other_than(before) : read_back();
    }

    // The buffers have one length.
    static std::string other_byte(const std::string& is, const std::string& should) {
        const auto [wrong, right] = std::mismatch(is.begin(), is.end(), should.begin());
        return ", but then byte " + std::to_string(wrong - is.begin()) + " of the buffer is " +
               shown(std::string(1, *wrong)) + " and not " + shown(std::string(1, *right));
    }

    // "A refusal ... changes no number of the table". So does a change that is none: 01 says it of add and remove,
    // the library promises it of clear, the loads and combine, too.
    bool table_stays(Kind kind) const {
        return made.answer.number != 0 || !changes_a_list(kind) || made.answer.value == 0;
    }

    std::string other_than(const Numbers& wanted) const {
        const auto [should, is] = std::mismatch(wanted.begin(), wanted.end(), lent.data());
        if (should == wanted.end()) return "";
        return ", but then number " + std::to_string(should - wanted.begin()) + " is " + std::to_string(*is) +
               " and not " + std::to_string(*should);
    }

    // After a change the whole table is read: the seven rules, the sixteen lists, the fewest states.
    std::string read_back() const {
        const int rule = table().broken_rule();
        if (rule != 0) return ", but then rule " + std::to_string(rule) + " is broken";
        if (known.sizes) return "";
        for (uint32_t mission = 0; mission < missions; ++mission) {
            const Names& wanted = known.lists[mission];
            const Names list = table().list(mission, wanted.size() + 1);
            const auto [is, should] = std::mismatch(list.begin(), list.end(), wanted.begin(), wanted.end());
            if (is == list.end() && should == wanted.end()) continue;
            return ", but then list " + std::to_string(mission) + " goes on with " + name_at(is, list) +
                   ", by the sets with " + name_at(should, wanted);
        }
        const size_t used = table().rows_in_use().size();
        const size_t needed = known.lists.needed();
        if (used == needed) return "";
        return ", but then " + std::to_string(used) + " rows are in use, by the sets " + std::to_string(needed);
    }

    static std::string name_at(Names::const_iterator at, const Names& names) {
        return at == names.end() ? "no name" : *at;
    }

    Fault fault;
    Known known;
    Lent<uint16_t> lent;
    Made made = {};
    bool outside = false;
    bool too_many = false;
    bool table_is_told = false;
};

}  // namespace

#endif
