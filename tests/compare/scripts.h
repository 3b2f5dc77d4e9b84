// scripts.h: stored scripts are run. Each call is compared with the answer that is stored behind it and with the sets.
#ifndef COMPARE_SCRIPTS_H
#define COMPARE_SCRIPTS_H

#include "calls.h"
#include "journal.h"
#include "reading.h"
#include "trial.h"
#include "writing.h"

#include <cstddef>
#include <fstream>
#include <iostream>
#include <string>
#include <vector>

namespace {

class ScriptRun {
public:
    void run(const std::string& its_file) {
        file = its_file;
        ++files;
        std::ifstream text(file);
        ScriptReader reader;
        try {
            if (!text) throw Unreadable("there is no such file");
            for (const Script& script : reader.read(text)) run(script);
        } catch (const Unreadable& unreadable) {
            report(reader.at_line(), std::string("cannot be read: ") + unreadable.what());
            ++unread;
        }
    }

    // Of many scripts it is asked that every answer came up.
    bool end() const {
        const bool all_came_up = files == 1 || tally.print(true);
        std::cout << "compare: " << files << " scripts, " << tally.calls() << " calls, " << differences
                  << " differences";
        if (unread != 0) std::cout << ", " << unread << " cannot be read";
        std::cout << '\n';
        return all_came_up && differences == 0 && unread == 0;
    }

private:
    // "A difference is reported with the file and the line, and the script goes on at its next `room`."
    void run(const Script& script) {
        Trial trial(script.length);
        for (const Call& call : script.calls) {
            const std::string difference = step(call, trial);
            if (difference.empty()) continue;
            report(call.line, difference);
            ++differences;
            return;
        }
    }

    std::string step(const Call& call, Trial& trial) {
        now_at(file + ':' + std::to_string(call.line));
        if (call.kind == Kind::many_names) {
            return trial.go_on_without_sets() ? "" : "many names, but the sets can hold these lists";
        }
        if (!is_call(call.kind)) {
            trial.change(call);
            return "";
        }
        const std::string line = brief(shown(call));
        if (trial.is_over()) return line + ", but `many names` is not said and the sets cannot hold these lists";
        const std::string by_sets = trial.make(call, trial.expected(call));
        const std::string answer = shown(trial.last_answer(), call.kind);
        const std::string stored = shown(*call.stored, call.kind);
        const std::string difference = (answer == stored ? "" : ", stored " + brief(stored)) + by_sets;
        if (!difference.empty()) return line + " -> " + brief(answer) + difference;
        tally.note(call.kind, trial.last_answer().number);
        return "";
    }

    void report(size_t line, const std::string& what) const {
        std::cout << file << ':' << line << ": " << what << std::endl;
    }

    std::string file;
    Tally tally;
    size_t files = 0;
    size_t differences = 0;
    size_t unread = 0;
};

}  // namespace

#endif
