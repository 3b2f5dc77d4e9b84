// journal.h: what is left when the library crashes or does not answer: where that was, and the calls up to there.
#ifndef COMPARE_JOURNAL_H
#define COMPARE_JOURNAL_H

#include <cstddef>
#include <stdexcept>
#include <string>
#include <string_view>

#include <fcntl.h>
#include <signal.h>
#include <unistd.h>

namespace {

constexpr unsigned seconds_for_a_call = 60;

// Where the program is: the file and the line of a script, or the journal.
char place[4096];
size_t place_length = 0;

void now_at(const std::string& where) {
    place_length = where.copy(place, sizeof place);
}

// Only what may be done in a handler: write and _exit.
void tell_place(int signal) {
    constexpr std::string_view crashed = ": the library crashed here\n";
    constexpr std::string_view hangs = ": no answer after 60 seconds\n";
    const std::string_view what = signal == SIGALRM ? hangs : crashed;
    const ssize_t where = write(STDOUT_FILENO, place, place_length);
    _exit(where >= 0 && write(STDOUT_FILENO, what.data(), what.size()) >= 0 ? 3 : 4);
}

// On a stack of its own, since the call may have used up the other.
void tell_place_at_a_crash() {
    static char stack[65536];
    stack_t own_stack{};
    own_stack.ss_sp = stack;
    own_stack.ss_size = sizeof stack;
    sigaltstack(&own_stack, nullptr);
    struct sigaction action{};
    action.sa_handler = tell_place;
    action.sa_flags = SA_ONSTACK;
    for (const int signal : {SIGSEGV, SIGABRT, SIGFPE, SIGILL, SIGBUS, SIGALRM}) sigaction(signal, &action, nullptr);
}

// As long as it lives a call has its time.
class Clocked {
public:
    Clocked() { alarm(seconds_for_a_call); }
    ~Clocked() { alarm(0); }
    Clocked(const Clocked&) = delete;
    Clocked& operator=(const Clocked&) = delete;
};

// A script that is in the file line by line: each before its call is made.
class Journal {
public:
    explicit Journal(const std::string& its_path) : path(its_path), file(open(path.c_str(), O_WRONLY | O_CREAT, 0666)) {
        begin("");
    }

    ~Journal() { close(file); }
    Journal(const Journal&) = delete;
    Journal& operator=(const Journal&) = delete;

    void begin(const std::string& lines) {
        if (ftruncate(file, 0) != 0 || lseek(file, 0, SEEK_SET) != 0) fail();
        now_at(path);
        add(lines);
    }

    void add(std::string_view lines) {
        while (!lines.empty()) {
            const ssize_t written = write(file, lines.data(), lines.size());
            if (written < 0) fail();
            lines.remove_prefix(static_cast<size_t>(written));
        }
    }

private:
    [[noreturn]] void fail() const { throw std::runtime_error(path + " cannot be written"); }

    std::string path;
    int file;
};

}  // namespace

#endif
