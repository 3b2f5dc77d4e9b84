// shorten.h: the shortest script that still ends in a difference.
#ifndef COMPARE_SHORTEN_H
#define COMPARE_SHORTEN_H

#include "calls.h"
#include "sets.h"
#include "table.h"
#include "trial.h"
#include "writing.h"

#include <algorithm>
#include <chrono>
#include <cstddef>
#include <cstdint>
#include <iostream>
#include <string>
#include <type_traits>
#include <utility>
#include <vector>

namespace {

// Makes a script shorter as long as its last call, and none before it, makes a difference.
class Shortening {
public:
    Shortening(Script first, Fault its_fault) : best(std::move(first)), fault(its_fault) {}

    Script shortest() {
        leave_out([](Script& script) -> auto& { return script.calls; });
        begin_with_table();
        do {
            shorter = false;
            leave_out([](Script& script) -> auto& { return script.calls; }, longest_name);
            lower([](Script& script) -> auto& { return script.length; });
            for (size_t i = 0; i < best.calls.size(); ++i) shorten_call(i);
        } while (shorter);
        for (uint32_t mission = 1; mission < missions; ++mission) lower_mission(mission);
        return best;
    }

private:
    using Clock = std::chrono::steady_clock;

    // No script may change numbers in rows that the library chose: the table behind the last change becomes its
    // beginning.
    void begin_with_table() {
        const auto first = best.calls.begin();
        const auto is_change = [](const Call& call) { return !is_call(call.kind); };
        const auto behind = std::find_if(best.calls.rbegin(), best.calls.rend(), is_change).base();
        if (behind - first <= 1) return;
        Trial trial(best.length, fault);
        for (auto call = first; call != behind; ++call) trial.step(*call);
        Script tried{best.length, {Call{Kind::numbers}}};
        tried.calls[0].changes = changes_between(Numbers(best.length), trial.numbers());
        tried.calls.insert(tried.calls.end(), behind, best.calls.end());
        takes(tried);
    }

    void shorten_call(size_t i) {
        leave_out([i](Script& script) -> auto& { return script.calls[i].bytes; }, longest_name);
        leave_out([i](Script& script) -> auto& { return script.calls[i].second; }, longest_name);
        leave_out([i](Script& script) -> auto& { return script.calls[i].changes; });
        for (const auto number : {&Call::mission, &Call::b, &Call::c, &Call::operation, &Call::n}) {
            lower([i, number](Script& script) -> auto& { return script.calls[i].*number; });
        }
        lower([i](Script& script) -> auto& { return script.calls[i].buffer_length; });
        for (size_t j = 0; j < best.calls[i].changes.size(); ++j) {
            lower([i, j](Script& script) -> auto& { return script.calls[i].changes[j].value; });
        }
    }

    // Leaves out halves of a part of the script, then smaller pieces, at last single ones.
    template <typename Part>
    void leave_out(Part part, size_t fewer_rows = 0) {
        for (size_t piece = (part(best).size() + 1) / 2; piece > 0; piece /= 2) {
            for (size_t from = 0; from + piece <= part(best).size();) {
                Script tried = best;
                const auto first = part(tried).begin() + static_cast<std::ptrdiff_t>(from);
                part(tried).erase(first, first + static_cast<std::ptrdiff_t>(piece));
                if (!takes(tried, fewer_rows)) from += piece;
            }
        }
    }

    template <typename Part>
    void lower(Part part) {
        const size_t number = part(best);
        for (const size_t lower_number : {size_t{0}, number / 2, number - row_length, number - 1}) {
            Script tried = best;
            part(tried) = static_cast<std::decay_t<decltype(part(tried))>>(lower_number);
            if (lower_number < number && takes(tried)) return lower(part);
        }
    }

    // A mission stands in several calls: it is lowered in all of them at once.
    void lower_mission(uint32_t mission) {
        bool lowered = false;
        for (uint32_t to = 0; to < mission && !lowered; ++to) {
            Script tried = best;
            for (Call& call : tried.calls) {
                for (const auto number : {&Call::mission, &Call::b, &Call::c}) {
                    if (call.*number == mission) call.*number = to;
                }
            }
            lowered = takes(tried);
        }
    }

    // What was left out may have filled the room: so the script is also tried with fewer rows. After a minute it
    // stays as it is, since a difference may need tens of thousands of names.
    bool takes(Script tried, size_t fewer_rows = 0) {
        for (size_t rows = 0; rows <= fewer_rows && Clock::now() - begun < std::chrono::minutes(1); ++rows) {
            if (ends_in_difference(tried)) {
                best = tried;
                shorter = true;
                return true;
            }
            if (!is_slice(tried.length)) return false;
            tried.length -= row_length;
        }
        return false;
    }

    bool ends_in_difference(const Script& script) const {
        Trial trial(script.length, fault);
        for (size_t i = 0; i < script.calls.size() && !trial.is_over(); ++i) {
            if (!trial.step(script.calls[i]).empty()) return i + 1 == script.calls.size();
        }
        return false;
    }

    Script best;
    Fault fault;
    bool shorter = false;
    Clock::time_point begun = Clock::now();
};

// The script with the answers of the sets, and what the library did in its last call.
void print_script(const Script& script, Fault fault) {
    Trial trial(script.length, fault);
    for (const Call& call : script.calls) {
        if (!is_call(call.kind)) {
            trial.change(call);
            continue;
        }
        const Answer expected = trial.expected(call);
        std::cout << trial.lines_of(call, expected);
        const std::string difference = trial.make(call, expected);
        const std::string answer = shown(trial.last_answer(), call.kind);
        const bool is_same = answer == shown(expected, call.kind);
        if (!difference.empty()) std::cout << "   # the library: " << brief(answer) << (is_same ? difference : "");
        std::cout << '\n';
    }
}

}  // namespace

#endif
