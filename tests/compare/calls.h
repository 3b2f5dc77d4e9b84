// calls.h: the calls, the refusals of 01 and 02, and what is expected of a call by the sets.
#ifndef COMPARE_CALLS_H
#define COMPARE_CALLS_H

#include "names.h"
#include "sets.h"
#include "table.h"

#include <algorithm>
#include <array>
#include <cstddef>
#include <cstdint>
#include <iomanip>
#include <iostream>
#include <iterator>
#include <optional>
#include <string>
#include <variant>
#include <vector>

namespace {

// The calls of the book, and behind them what a script itself does to the table.
enum class Kind {
    empty, check, ask, next, add, remove, clear, load, load_two, combine, count, rank, nth, write, used,
    numbers, length, many_names
};

bool is_call(Kind kind) {
    return kind <= Kind::used;
}

struct Answer {
    uint32_t number = 0;
    uint32_t value = 0;
    uint32_t followed = 0;
    uint64_t letters = 0;
    std::string buffer = {};  // all of it, with the bytes behind the name or the list
};

struct Change {
    size_t index;
    uint16_t value;
};

std::vector<Change> changes_between(const Numbers& before, const Numbers& after) {
    std::vector<Change> changes;
    for (size_t i = 0; i < before.size(); ++i) {
        if (before[i] != after[i]) changes.push_back({i, after[i]});
    }
    return changes;
}

// A call and what it is given, or what a script itself does.
struct Call {
    Kind kind = Kind::check;
    uint32_t mission = 0;  // a in combine
    uint32_t b = 0;
    uint32_t c = 0;
    uint32_t operation = 0;
    uint32_t n = 0;
    uint32_t buffer_length = 0;
    std::string bytes = {};            // the name, prefix or list
    std::string second = {};           // list of load_two
    std::vector<Change> changes = {};  // to numbers of the table
    size_t length = 0;                 // of the table from here on
    std::optional<Answer> stored = {};
    size_t line = 0;  // where it stands in a stored script
};

// A table of so many zeros, and what is done with it.
struct Script {
    size_t length;
    std::vector<Call> calls = {};
};

using Argument = std::variant<uint32_t Call::*, std::string Call::*>;

struct BookCall {
    const char* word;
    std::vector<Argument> arguments;  // in the order of a script's line
    std::vector<uint32_t> refusals;   // 01's table, its column "Calls" turned round, in the order of the tests
};

constexpr uint32_t last_refusal = 11;
constexpr size_t most_counted = 60000;

const std::array<BookCall, 15> book_calls = {{
    {"empty", {}, {1}},
    {"check", {}, {1, 7}},
    {"ask", {&Call::mission, &Call::bytes}, {1, 2, 4}},
    {"next", {&Call::mission, &Call::bytes}, {1, 2, 4}},
    {"add", {&Call::mission, &Call::bytes}, {1, 2, 4, 7, 11}},
    {"remove", {&Call::mission, &Call::bytes}, {1, 2, 4, 7, 11}},
    {"clear", {&Call::mission}, {1, 2, 7}},
    {"load", {&Call::mission, &Call::bytes}, {1, 2, 5, 7, 8, 11}},
    {"load_two", {&Call::mission, &Call::bytes, &Call::second}, {1, 2, 5, 7, 8, 11}},
    {"combine", {&Call::operation, &Call::mission, &Call::b, &Call::c}, {1, 2, 3, 7, 8, 11}},
    {"count", {&Call::mission}, {1, 2, 7, 9}},
    {"rank", {&Call::mission, &Call::bytes}, {1, 2, 4, 7, 9}},
    {"nth", {&Call::mission, &Call::n, &Call::buffer_length}, {1, 2, 6, 7, 9, 10}},
    {"write", {&Call::mission, &Call::buffer_length}, {1, 2, 7, 5, 6}},
    {"used", {}, {1, 7}},
}};

const BookCall& book_call(Kind kind) {
    return book_calls[static_cast<size_t>(kind)];
}

bool may_be_refused_by(uint32_t number, Kind kind) {
    const std::vector<uint32_t>& refusals = book_call(kind).refusals;
    return std::find(refusals.begin(), refusals.end(), number) != refusals.end();
}

// What is known of a table beside its numbers: the sets, as long as it is a sound book.
struct Known {
    size_t length;
    bool sound = true;
    Lists lists = {};
    std::optional<Sizes> sizes = {};  // by the table, in place of sets that could not hold the lists

    size_t names_on(uint32_t mission) const { return sizes ? (*sizes)[mission].names : lists[mission].size(); }
    size_t bytes_of(uint32_t mission) const {
        return sizes ? (*sizes)[mission].bytes : list_of_names(lists[mission]).size();
    }
};

constexpr size_t most_held = 100000;  // names on one list, by the sets

// What an answer buffer holds before the call: bytes of all kinds, letters and 0x0A too.
std::string buffer_before(const Call& call) {
    std::string buffer(call.buffer_length, 0);
    uint32_t state = 1;
    for (char& byte : buffer) {
        state = state * 1664525 + 1013904223;
        byte = static_cast<char>(state >> 24);
    }
    return buffer;
}

bool changes_a_list(Kind kind) {
    return kind == Kind::clear || may_be_refused_by(11, kind);
}

// Is a name or a list the answer of the call?
bool writes_to_buffer(Kind kind) {
    return may_be_refused_by(6, kind);
}

// The mission whose list the call reads or changes.
uint32_t mission_of(const Call& call) {
    return call.kind == Kind::combine ? call.c : call.mission;
}

// The names that a load puts on a list: those of its list, or of both its lists. Nothing, if either is no list.
std::optional<Names> names_of_load(const Call& call) {
    const std::optional<Names> first = names_of_list(call.bytes);
    const std::optional<Names> second = names_of_list(call.second);
    return first && second ? std::optional(combined(1, *first, *second)) : std::nullopt;
}

Names list_after(const Call& call, const Lists& lists) {
    Names names = lists[mission_of(call)];
    switch (call.kind) {
        case Kind::add: names.insert(call.bytes); break;
        case Kind::remove: names.erase(call.bytes); break;
        case Kind::clear: names.clear(); break;
        case Kind::load:
        case Kind::load_two: names = *names_of_load(call); break;
        case Kind::combine: names = combined(call.operation, lists[call.mission], lists[call.b]); break;
        default: break;
    }
    return names;
}

size_t needed_after(const Call& call, Lists& lists) {
    return lists.needed_with(mission_of(call), list_after(call, lists));
}

// 01's table of refusals, its column "Given exactly when", and those of 02's wishes. The numbers are tried in the
// call's order: where one looks at missions, names or lists, those before it have found them good.
bool applies(uint32_t number, const Call& call, Known& known) {
    switch (number) {
        case 1: return !is_slice(known.length);
        case 2: return std::max({call.mission, call.b, call.c}) >= missions;
        case 3: return call.operation < 1 || call.operation > 3;
        case 4: return call.kind == Kind::next ? !is_prefix(call.bytes) : !is_name(call.bytes);
        case 5: return call.kind == Kind::write ? known.bytes_of(call.mission) > longest_list : !names_of_load(call);
        case 6: return call.buffer_length < (call.kind == Kind::write ? known.bytes_of(call.mission) : longest_name);
        case 7: return !known.sound;
        case 8: return known.names_on(mission_of(call)) != 0;
        case 9: return known.names_on(mission_of(call)) > most_counted;
        case 10: return call.n >= known.names_on(mission_of(call));
        default: return !known.sizes && needed_after(call, known.lists) > room_of(known.length);
    }
}

// "Of those that apply to a call, the lowest is given, and none when none applies." Writing: "1, 2, 7, then 5 if over
// 65,535 bytes are needed, 6 if the buffer is short."
uint32_t refusal(const Call& call, Known& known) {
    for (const uint32_t number : book_call(call.kind).refusals) {
        if (applies(number, call, known)) return number;
    }
    return 0;
}

// "Values when done".
size_t value_when_done(const Call& call, const Lists& lists) {
    const Names& names = lists[mission_of(call)];
    switch (call.kind) {
        case Kind::ask: return names.count(call.bytes);
        case Kind::next: return number_of_letters(letters_after(names, call.bytes));
        case Kind::add: return 1 - names.count(call.bytes);
        case Kind::remove: return names.count(call.bytes);
        case Kind::clear: return names.empty() ? 0 : 1;
        case Kind::load:
        case Kind::load_two: return list_after(call, lists).size();
        case Kind::combine: return list_after(call, lists).empty() ? 0 : 1;
        case Kind::count: return names.size();
        case Kind::rank: return static_cast<size_t>(std::distance(names.begin(), names.lower_bound(call.bytes)));
        case Kind::nth: return std::next(names.begin(), call.n)->size();
        case Kind::write: return list_of_names(names).size();
        case Kind::used: return lists.needed();
        default: return 0;
    }
}

// "ask and next work on any numbers."
bool works_on_any_numbers(Kind kind) {
    return kind == Kind::ask || kind == Kind::next;
}

// ask and next by the walk: right on any numbers, on a sound book too.
Answer walked_answer(const Call& call, const Table& table) {
    Answer answer;
    if (call.kind == Kind::ask) {
        answer.value = table.accepts(call.mission, call.bytes);
        answer.followed = static_cast<uint32_t>(table.followed(call.mission, call.bytes));
    } else if (const size_t row = table.walk(call.mission, call.bytes); row != 0) {
        answer.letters = table.letters_at(row);
        answer.value = number_of_letters(answer.letters);
    }
    return answer;
}

// "Values when done", where the sets cannot hold the lists: nothing, if only they could say it.
std::optional<size_t> value_by_table(const Call& call, const Known& known, const Table& table) {
    switch (call.kind) {
        case Kind::add: return table.accepts(call.mission, call.bytes) ? 0 : 1;
        case Kind::remove: return table.accepts(call.mission, call.bytes) ? 1 : 0;
        case Kind::clear: return known.names_on(call.mission) == 0 ? 0 : 1;
        case Kind::load:
        case Kind::load_two: return names_of_load(call)->size();
        case Kind::count: return known.names_on(call.mission);
        case Kind::write: return known.bytes_of(call.mission);
        case Kind::used: return table.rows_in_use().size();
        case Kind::check: return 0;
        default: return std::nullopt;
    }
}

// Where the sets cannot hold the lists, and none of refusals 1 to 10 applies: the table says what it can, the stored
// answer the rest. A call that changes nothing is not refused by 11.
Answer answer_by_table(const Call& call, const Known& known, const Table& table) {
    if (works_on_any_numbers(call.kind)) return walked_answer(call, table);
    const std::optional<size_t> value = value_by_table(call, known, table);
    Answer answer = *call.stored;
    if (answer.number == 11 && may_be_refused_by(11, call.kind) && value != size_t{0}) return answer;
    answer.number = 0;
    answer.value = static_cast<uint32_t>(value.value_or(answer.value));
    return answer;
}

Answer expected_answer(const Call& call, Known& known, const Table& table) {
    Answer answer;
    answer.number = refusal(call, known);
    answer.buffer = buffer_before(call);
    if (answer.number != 0 || call.kind == Kind::empty) return answer;
    if (!known.sound) return walked_answer(call, table);
    if (known.sizes) return answer_by_table(call, known, table);
    const Names& names = known.lists[mission_of(call)];
    answer.value = static_cast<uint32_t>(value_when_done(call, known.lists));
    if (call.kind == Kind::ask) answer.followed = static_cast<uint32_t>(longest_prefix(names, call.bytes));
    if (call.kind == Kind::next) answer.letters = letters_after(names, call.bytes);
    if (call.kind == Kind::nth) answer.buffer.replace(0, answer.value, *std::next(names.begin(), call.n));
    if (call.kind == Kind::write) answer.buffer.replace(0, answer.value, list_of_names(names));
    return answer;
}

// What is known after a call that is done.
void carry_out(const Call& call, Known& known) {
    if (changes_a_list(call.kind)) known.lists.put(mission_of(call), list_after(call, known.lists));
    if (call.kind == Kind::empty) known = Known{known.length};
}

// How often each number was answered to each call.
class Tally {
public:
    void note(Kind kind, uint32_t number) {
        ++times[static_cast<size_t>(kind)][number];
        ++sum;
    }

    uint64_t calls() const { return sum; }

    // Prints all. False, where it must be complete and an answer that 01 or 02 allows never came up: so much was not
    // tested.
    bool print(bool must_be_complete) const {
        size_t missing = 0;
        std::cout << "answered";
        for (uint32_t number = 0; number <= last_refusal; ++number) std::cout << std::setw(8) << number;
        for (size_t kind = 0; kind < times.size(); ++kind) {
            std::cout << '\n' << std::left << std::setw(8) << book_calls[kind].word << std::right;
            for (uint32_t number = 0; number <= last_refusal; ++number) {
                const bool allowed = number == 0 || may_be_refused_by(number, static_cast<Kind>(kind));
                std::cout << std::setw(8) << (allowed ? std::to_string(times[kind][number]) : ".");
                if (allowed && times[kind][number] == 0) ++missing;
            }
        }
        std::cout << '\n';
        if (missing == 0 || !must_be_complete) return true;
        std::cout << "compare: " << missing << " answers that 01 and 02 allow never came up\n";
        return false;
    }

private:
    std::array<std::array<uint64_t, last_refusal + 1>, book_calls.size()> times{};
    uint64_t sum = 0;
};

}  // namespace

#endif
