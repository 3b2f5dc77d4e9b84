// compare: every call of the book library beside sixteen plain sets of names.
//
//     compare scripts FILE..                  stored scripts; exit status 0 only if there is no difference
//     compare random JOURNAL [CALLS [SEED]]   random sequences of calls; the first difference ends it, exit status 1
//     compare lie JOURNAL                     the same with one lie told about the answers, which must be found
//     compare crash JOURNAL                   the same, but it aborts in place of a call, as if the library crashed
//     compare desk                            what the desk program must print for standard input
//     compare lines SEED                      a random input for the desk program
//
// JOURNAL is a file: a script with the calls of the sequence that runs, each written before it is made. The exit status
// is 3 when the library crashed or did not answer.
//
// "01" is the paper with the exact rules, "02" the one with later wishes; the sentences in quotes are theirs. The
// library is known here by book.h alone: the sets, the count of the fewest states and the reader of the table are this
// program's own.
//
// To be read in this order: names, sets, table, calls (what is expected); boundary, trial (what is made and compared);
// writing, reading, scripts; journal; random, damage, sequences, shorten; desk.

#include "calls.h"
#include "desk.h"
#include "journal.h"
#include "random.h"
#include "reading.h"
#include "scripts.h"
#include "sequences.h"
#include "shorten.h"
#include "trial.h"

#include <cstddef>
#include <cstdint>
#include <exception>
#include <iostream>
#include <iterator>
#include <optional>
#include <string>
#include <vector>

namespace {

constexpr uint64_t usual_calls = 200000;
constexpr uint64_t usual_seed = 1;

int run_scripts(const std::vector<std::string>& files) {
    ScriptRun scripts;
    for (const std::string& file : files) scripts.run(file);
    return scripts.end() ? 0 : 1;
}

// A run that is shorter than usual need not have all answers.
int run_random(const std::string& path, Fault fault, uint64_t calls, uint64_t seed) {
    Journal journal(path);
    Tally tally;
    Random seeds(seed);  // a sequence's own seed follows from the seed and its number
    for (uint64_t number = 0; tally.calls() < calls; ++number) {
        const std::string title = "# seed " + std::to_string(seed) + ", sequence " + std::to_string(number);
        Sequence sequence(seeds.next(), number, fault);
        journal.begin(title + '\n');
        if (sequence.run(tally, journal)) continue;
        std::cout << title << ", a difference after " << tally.calls() << " calls, made shorter" << std::endl;
        print_script(Shortening(sequence.made(), fault).shortest(), fault);
        return 1;
    }
    const bool all_came_up = tally.print(calls >= usual_calls);
    std::cout << "compare: seed " << seed << ", " << tally.calls() << " calls, 0 differences\n";
    return all_came_up ? 0 : 1;
}

int run_desk() {
    std::cout << desk_output({std::istreambuf_iterator<char>(std::cin), {}});
    return 0;
}

int print_lines(uint64_t seed) {
    std::cout << DeskInput(seed).lines();
    return 0;
}

int usage() {
    std::cerr << "usage: compare scripts FILE.., compare random JOURNAL [CALLS [SEED]], compare lie JOURNAL,\n"
                 "       compare crash JOURNAL, compare desk, compare lines SEED\n";
    return 2;
}

int run(const std::vector<std::string>& arguments) {
    const std::string mode = arguments.empty() ? "" : arguments[0];
    const size_t given = arguments.size();
    const auto number = [&](size_t i, uint64_t usual) { return i < given ? number_of(arguments[i]) : usual; };
    if (mode == "scripts" && given > 1) return run_scripts({arguments.begin() + 1, arguments.end()});
    if (mode == "lie" && given == 2) return run_random(arguments[1], Fault::lie, usual_calls, usual_seed);
    if (mode == "crash" && given == 2) return run_random(arguments[1], Fault::crash, usual_calls, usual_seed);
    if (mode == "desk" && given == 1) return run_desk();
    if (mode == "lines" && given == 2 && number(1, 0)) return print_lines(*number(1, 0));
    if (mode != "random" || given < 2 || given > 4) return usage();
    const std::optional<uint64_t> calls = number(2, usual_calls);
    const std::optional<uint64_t> seed = number(3, usual_seed);
    return calls && seed ? run_random(arguments[1], Fault::none, *calls, *seed) : usage();
}

}  // namespace

int main(int argc, char** argv) {
    tell_place_at_a_crash();
    try {
        return run({argv + 1, argv + argc});
    } catch (const std::exception& error) {
        std::cerr << "compare: " << error.what() << '\n';
        return 1;
    }
}
