// What one call of the book costs, in CPU time: how it grows with the rows in use, how it stands beside containers that
// do the same job, and how long it takes on books that were written to be slow.
//
// benchmark [--plot FILE] [--only PARTS] [--brief]
//
// Prints docs/BENCHMARK.md but for its last chapter. FILE gets the plot. PARTS are some of sizes,rivals,dense,worst:
// only these are measured. --brief prints a line for each figure that a change of the library is judged by, with a tab
// before the figure. Built with BEFORE, and linked with an earlier state of the library, it measures both in the same
// rounds and prints them side by side.
//
// All contestants do the same jobs on the same names. Where they do not answer alike, or the book refuses, the run
// fails. The order of names is not that of bytes, by which containers go: they get a slash for each underscore, whose
// byte stands before the digits. No time is counted for that.

#include "book.h"
#include "slow_books.h"
#include <algorithm>
#include <array>
#include <chrono>
#include <cmath>
#include <cstdlib>
#include <ctime>
#include <fstream>
#include <functional>
#include <iomanip>
#include <iostream>
#include <iterator>
#include <limits>
#include <map>
#include <memory>
#include <set>
#include <sstream>
#include <string>
#include <sys/utsname.h>
#include <unordered_set>
#include <utility>
#include <vector>
#if __has_include(<dawgdic/dawg-builder.h>)
#define DAWG_INSTALLED
#include <dawgdic/dawg-builder.h>
#include <dawgdic/dictionary-builder.h>
#endif

using Name = std::string;
constexpr unsigned missions = 16, jobs_in_a_turn = 16;
constexpr unsigned dense = 12, receiving = 14, helping = 15; // missions: two from 12 for dense lists, two without any
constexpr unsigned both = 1, common = 2;                     // operations of combine; 3: the names of a that b has not

[[noreturn]] void fail(const std::string &why) { std::cerr << "benchmark: " << why << '\n'; std::exit(1); }

// 1,234 or 12 or 1.25; "-" for what was not measured
constexpr double unmeasured = std::numeric_limits<double>::quiet_NaN();
std::string figure(double number) {
    if (std::isnan(number)) return "-";
    std::ostringstream text;
    text << std::fixed << std::setprecision(number >= 10 || number == int(number) ? 0 : 2) << number;
    std::string digits = text.str();
    for (std::size_t at = digits.find('.') == Name::npos ? digits.size() : 0; at > 3;) digits.insert(at -= 3, 1, ',');
    return digits;
}

// ---- The library --------------------------------------------------------------------------------------------------
#define EACH_CALL(DO)                                                                                                  \
    DO(empty) DO(check) DO(ask) DO(next) DO(add) DO(remove) DO(clear) DO(load) DO(load_two) DO(combine) DO(count)      \
    DO(rank) DO(nth) DO(write) DO(used)
#define POINTER(call) decltype(&book_##call) call;
#define NOW(call) book_##call,
struct Library { EACH_CALL(POINTER) };
constexpr Library now = {EACH_CALL(NOW)};
#ifdef BEFORE // an earlier state of it, whose names the script has changed
// Where a call has got a last parameter since then, the earlier one leaves a register of x86-64 unread. A call that it
// had not yet is a null pointer, as the names are weak, and is not measured.
#define DECLARED(call) extern "C" __attribute__((weak)) decltype(book_##call) before_book_##call;
#define EARLIER(call) before_book_##call,
EACH_CALL(DECLARED)
constexpr Library before = {EACH_CALL(EARLIER)};
#endif

// ---- The contestants: sixteen lists with the book's calls, which answer the book's values -------------------------
std::array<uint8_t, longest_list> written; // by write

template <const Library &library> class BookBy {
  public:
    template <class Call> static bool has(Call Library::*call) { return library.*call != nullptr; }
    explicit BookBy(unsigned room) : table(BOOK_LENGTH(room)) { empty(); }
    explicit BookBy(Table table) : table(std::move(table)) { check(); }
    uint64_t empty() { return value(library.empty, table); }
    uint64_t check() const { return value(library.check, table); }
    uint64_t used() const { return value(library.used, table); }
    uint64_t ask(unsigned m, const Name &name) const {
        uint32_t followed = 0;
        return value(library.ask, table, m, bytes(name), name.size(), &followed);
    }
    uint64_t next(unsigned m, const Name &prefix) const {
        uint64_t letters = 0;
        value(library.next, table, m, bytes(prefix), prefix.size(), &letters);
        return letters;
    }
    uint64_t add(unsigned m, const Name &name) { return value(library.add, table, m, bytes(name), name.size()); }
    uint64_t remove(unsigned m, const Name &name) { return value(library.remove, table, m, bytes(name), name.size()); }
    uint64_t clear(unsigned m) { return value(library.clear, table, m); }
    uint64_t load(unsigned m, const std::string &list) {
        return value(library.load, table, m, bytes(list), list.size());
    }
    uint64_t load_two(unsigned m, const std::string &first, const std::string &second) {
        return value(library.load_two, table, m, bytes(first), first.size(), bytes(second), second.size());
    }
    uint64_t combine(unsigned operation, unsigned a, unsigned b, unsigned c) {
        return value(library.combine, table, operation, a, b, c);
    }
    uint64_t count(unsigned m) const { return value(library.count, table, m); }
    uint64_t rank(unsigned m, const Name &name) const {
        return value(library.rank, table, m, bytes(name), name.size());
    }
    Name nth(unsigned m, uint32_t n) const {
        uint8_t name[BOOK_LONGEST];
        return Name(name, name + value(library.nth, table, m, n, name, sizeof name));
    }
    uint64_t write(unsigned m) const { return value(library.write, table, m, written.data(), written.size()); }
    // The number by which it refuses to.
    uint64_t write_refused(unsigned m) const {
        const uint64_t answer = library.write(table.data(), table.size(), m, written.data(), written.size());
        if (BOOK_NUMBER(answer) == 0) fail("the book writes a list that is too long");
        return BOOK_NUMBER(answer);
    }
    // No call: what it costs to look at each number of the table once. The empty assembly keeps the compiler from
    // adding up several at a time.
    uint64_t sum() const {
        uint64_t total = 0;
        for (const uint16_t number : table) {
            total += number;
            asm("" : "+r"(total));
        }
        return total;
    }

  private:
    Table table;
    static const uint8_t *bytes(const std::string &text) { return reinterpret_cast<const uint8_t *>(text.data()); }
    template <class Call, class Table, class... More> static uint64_t value(Call call, Table &table, More... more) {
        const uint64_t answer = call(table.data(), table.size(), more...);
        if (BOOK_NUMBER(answer) != 0) fail("the book refuses by " + std::to_string(BOOK_NUMBER(answer)));
        return BOOK_VALUE(answer);
    }
};
using Book = BookBy<now>;
template <class Contestant> constexpr bool is_book = false;
template <const Library &library> constexpr bool is_book<BookBy<library>> = true;

// A sorted vector with binary search, in the words of std::set.
struct SortedVector : std::vector<Name> {
    using std::vector<Name>::insert, std::vector<Name>::erase;
    const_iterator lower_bound(const Name &name) const { return std::lower_bound(begin(), end(), name); }
    std::size_t count(const Name &name) const { return std::binary_search(begin(), end(), name); }
    std::pair<const_iterator, bool> insert(const Name &name) {
        const auto at = lower_bound(name);
        return at != end() && *at == name ? std::pair(at, false) : std::pair(const_iterator(insert(at, name)), true);
    }
    std::size_t erase(const Name &name) {
        const auto at = lower_bound(name);
        return at != end() && *at == name ? (erase(at), 1) : 0;
    }
};
using Lists = std::array<SortedVector, missions>;

// The names of a list as load takes it.
std::vector<Name> names_of(const std::string &list) {
    std::vector<Name> names;
    for (std::size_t from = 0, end; (end = list.find('\n', from)) != Name::npos; from = end + 1)
        names.push_back(list.substr(from, end - from));
    return names;
}

// Writes names that are in order as write does.
template <class Names> uint64_t write_names(const Names &names) {
    uint8_t *at = written.data();
    for (const Name &name : names) {
        at = std::copy(name.begin(), name.end(), at);
        *at++ = '\n';
    }
    return at - written.data();
}

std::string slashed(std::string text) {
    std::replace(text.begin(), text.end(), '_', '/');
    return text;
}

// The letters of the containers' names, and the number of each.
const std::string slashed_alphabet = slashed(alphabet);
uint64_t bit_of(char letter) { return 1ull << (letter <= '9' ? letter - '/' : letter - 'A' + 11); }

// The calls on sixteen of a container's lists, written for an ordered one.
template <class List> struct Containers {
    std::array<List, missions> lists;
    template <class Call> static bool has(Call Library::*) { return true; }
    uint64_t ask(unsigned m, const Name &name) const { return lists[m].count(name); }
    uint64_t next(unsigned m, const Name &prefix) const {
        uint64_t letters = 0;
        for (auto at = lists[m].lower_bound(prefix + '/'); // the lowest letter
             at != lists[m].end() && at->compare(0, prefix.size(), prefix) == 0; ++at)
            letters |= bit_of((*at)[prefix.size()]);
        return letters;
    }
    uint64_t add(unsigned m, const Name &name) { return lists[m].insert(name).second; }
    uint64_t remove(unsigned m, const Name &name) { return lists[m].erase(name); }
    uint64_t clear(unsigned m) {
        List old; // its own clear() may keep memory for the next load
        old.swap(lists[m]);
        return !old.empty();
    }
    uint64_t load(unsigned m, const std::string &list) {
        for (std::size_t from = 0, end; (end = list.find('\n', from)) != Name::npos; from = end + 1)
            lists[m].insert(lists[m].end(), list.substr(from, end - from));
        return lists[m].size();
    }
    uint64_t load_two(unsigned m, const std::string &first, const std::string &second) {
        const std::vector<Name> names = names_of(first), others = names_of(second);
        std::set_union(names.begin(), names.end(), others.begin(), others.end(),
                       std::inserter(lists[m], lists[m].end()));
        return lists[m].size();
    }
    uint64_t combine(unsigned operation, unsigned a, unsigned b, unsigned c) {
        const auto begin = lists[a].begin(), end = lists[a].end(), from = lists[b].begin(), to = lists[b].end();
        const auto result = std::inserter(lists[c], lists[c].end());
        if (operation == both) std::set_union(begin, end, from, to, result);
        else if (operation == common) std::set_intersection(begin, end, from, to, result);
        else std::set_difference(begin, end, from, to, result);
        return !lists[c].empty();
    }
    uint64_t count(unsigned m) const { return lists[m].size(); }
    uint64_t rank(unsigned m, const Name &name) const {
        return std::distance(lists[m].begin(), lists[m].lower_bound(name));
    }
    Name nth(unsigned m, uint32_t n) const { return *std::next(lists[m].begin(), n); }
    uint64_t write(unsigned m) const { return write_names(lists[m]); }
};

// Without an order each name must be looked at.
struct Hashed : Containers<std::unordered_set<Name>> {
    uint64_t next(unsigned m, const Name &prefix) const {
        uint64_t letters = 0;
        for (const Name &name : lists[m])
            if (name.size() > prefix.size() && name.compare(0, prefix.size(), prefix) == 0)
                letters |= bit_of(name[prefix.size()]);
        return letters;
    }
    uint64_t combine(unsigned operation, unsigned a, unsigned b, unsigned c) {
        for (const Name &name : lists[a])
            if (operation == both || ask(b, name) == (operation == common)) lists[c].insert(name);
        if (operation == both) lists[c].insert(lists[b].begin(), lists[b].end());
        return !lists[c].empty();
    }
    uint64_t rank(unsigned m, const Name &name) const {
        return std::count_if(lists[m].begin(), lists[m].end(), [&](const Name &other) { return other < name; });
    }
    Name nth(unsigned m, uint32_t n) const {
        std::vector<Name> names(lists[m].begin(), lists[m].end());
        std::nth_element(names.begin(), names.begin() + n, names.end());
        return names[n];
    }
    uint64_t write(unsigned m) const {
        std::vector<Name> names(lists[m].begin(), lists[m].end());
        std::sort(names.begin(), names.end());
        return write_names(names);
    }
};

#ifdef DAWG_INSTALLED
// A dictionary of libdawgdic cannot be changed: who must change it keeps the names beside it and builds another.
struct Dawg : Containers<SortedVector> {
    std::array<std::shared_ptr<dawgdic::Dictionary>, missions> built;
    uint64_t ask(unsigned m, const Name &name) const { return built[m]->Contains(name.data(), name.size()); }
    uint64_t next(unsigned m, const Name &prefix) const {
        uint64_t letters = 0;
        dawgdic::BaseType row = built[m]->root(), target = row;
        if (built[m]->Follow(prefix.data(), prefix.size(), &row))
            for (const char letter : slashed_alphabet)
                letters |= built[m]->Follow(letter, &(target = row)) ? bit_of(letter) : 0;
        return letters;
    }
    uint64_t add(unsigned m, const Name &name) { return build(m, Containers::add(m, name)); }
    uint64_t remove(unsigned m, const Name &name) { return build(m, Containers::remove(m, name)); }
    uint64_t clear(unsigned m) { return build(m, Containers::clear(m)); }
    uint64_t load(unsigned m, const std::string &list) { return build(m, Containers::load(m, list)); }
    uint64_t load_two(unsigned m, const std::string &first, const std::string &second) {
        return build(m, Containers::load_two(m, first, second));
    }
    uint64_t combine(unsigned operation, unsigned a, unsigned b, unsigned c) {
        return build(c, Containers::combine(operation, a, b, c));
    }

  private:
    uint64_t build(unsigned m, uint64_t answer) {
        dawgdic::DawgBuilder builder;
        for (const Name &name : lists[m]) builder.Insert(name.data(), name.size(), 0);
        dawgdic::Dawg dawg;
        builder.Finish(&dawg);
        built[m] = std::make_shared<dawgdic::Dictionary>(); // a new one: copies share the old
        dawgdic::DictionaryBuilder::Build(dawg, built[m].get());
        return answer;
    }
};
#endif

// ---- The names and the jobs ---------------------------------------------------------------------------------------
// A generator of our own: the same names on every machine and with every library.
struct Dice {
    uint64_t state = 4537; // from here the first two groups of names need about ten rows
    std::size_t below(std::size_t bound) {
        state = state * 6364136223846793005u + 1442695040888963407u;
        return (state >> 33) % bound;
    }
};

// Groups of names such as SLEW_A3, RATE_12 and WHEEL_B_ON. Each group is on the lists of two neighbours: so lists end
// alike, and a mission has about half of its names in common with the next. They are made as the containers get them.
Lists script_names(unsigned groups) {
    static const std::vector<Name> parts = {
        "ANTENNA", "ARM", "BATTERY", "BUS", "CAMERA", "CLOCK", "COVER", "DOOR", "DRUM", "FILTER", "GYRO", "HEATER",
        "LAMP", "MAST", "MOTOR", "PANEL", "PUMP", "RADIO", "RATE", "SENSOR", "SLEW", "TANK", "TRACK", "VALVE", "WHEEL"};
    static const std::vector<std::vector<Name>> endings = {
        {"1", "2", "3"}, {"3", "4", "5", "6"}, {"_ON", "_OFF"}, {"_ON", "_OFF", "_SAFE", "_TEST"},
        {"0", "1", "2", "3"}, {"2", "4", "6"}, {"_RUN", "_STOP", "_TEST"}, {"7", "8"}};
    Dice dice;
    Lists lists;
    for (unsigned group = 0; group < groups; ++group) {
        const Name &part = parts[dice.below(parts.size())];
        const char unit = "ABCDEFGH12345678"[dice.below(16)];
        for (const Name &ending : endings[dice.below(endings.size())])
            for (const unsigned m : {group % receiving, (group + 1) % receiving})
                lists[m].insert(slashed(part + '_' + unit + ending));
    }
    return lists;
}

// Puts the first so many names from A0000 to F9999 on a list, and all of them that do not end in 9 on another. Each
// needs six rows, however many its names are.
Lists with_dense_names(Lists lists, unsigned names) {
    for (unsigned n = 0; n < names; ++n) {
        const Name name = static_cast<char>('A' + n / 10000) + std::to_string(10000 + n % 10000).substr(1);
        lists[dense].push_back(name);
        if (n % 10 != 9) lists[dense + 1].push_back(name);
    }
    return lists;
}

// The list as load takes it: in pieces, if it has too many bytes for one.
std::vector<std::string> pieces_of(const SortedVector &list) {
    std::vector<std::string> pieces;
    for (const Name &name : list) {
        if (pieces.empty() || pieces.back().size() + name.size() >= longest_list) pieces.emplace_back();
        pieces.back() += name + '\n';
    }
    return pieces;
}

// The first so many names of two missions that have none in common.
SortedVector first_names(const Lists &lists, unsigned m, unsigned other, std::size_t number) {
    SortedVector names = lists[m];
    for (const Name &name : lists[other]) names.insert(name);
    names.resize(number);
    return names;
}

// What is loaded into an empty list.
struct Loads {
    std::string hundred;       // names; none, where there are not so many
    std::string first, second; // a hundred names each, of which every second one is on both lists
};

// In the largest book these need 67 and 72 new rows.
Loads loads_of(const Lists &lists) {
    SortedVector first, second;
    unsigned i = 0;
    for (const Name &name : first_names(lists, 3, 12, 150)) {
        if (i % 3 != 2) first.push_back(name);
        if (i % 3 != 0) second.push_back(name);
        ++i;
    }
    return {pieces_of(first_names(lists, 3, 8, 100))[0], pieces_of(first)[0], pieces_of(second)[0]};
}

struct Job {
    unsigned mission, other, operation;
    std::size_t place;               // of a name on the mission's list
    Name name, asked, prefix;        // that name; the same, or in every second job one on no list; a front of it
    std::vector<std::string> pieces; // the whole list
};
using Jobs = std::shared_ptr<const std::vector<Job>>;

// Jobs on the lists of so many missions from the first on.
Jobs jobs_on(const Lists &lists, unsigned first, unsigned asked_missions) {
    Dice dice;
    std::vector<Job> jobs;
    for (unsigned i = 0; i < jobs_in_a_turn; ++i) {
        const unsigned m = first + i % asked_missions, other = first + (i + 1) % asked_missions;
        const std::size_t place = dice.below(lists[m].size());
        Name asked = lists[m][place];
        if (i % 2 == 1) asked.back() = 'X';
        const Name prefix = asked.substr(0, dice.below(asked.size() + 1));
        jobs.push_back({m, other, both + i % 3, place, lists[m][place], asked, prefix, pieces_of(lists[m])});
    }
    return std::make_shared<std::vector<Job>>(jobs);
}

// What a contestant gets.
struct Work {
    Lists lists;
    Jobs jobs;
    Loads loads;
};

// The same for the book, with underscores again.
Work for_book(Work work) {
    const auto change = [](std::string &text) { std::replace(text.begin(), text.end(), '/', '_'); };
    for (SortedVector &list : work.lists) std::for_each(list.begin(), list.end(), change);
    std::vector<Job> jobs = *work.jobs;
    for (Job &job : jobs) {
        for (Name *name : {&job.name, &job.asked, &job.prefix}) change(*name);
        std::for_each(job.pieces.begin(), job.pieces.end(), change);
    }
    work.jobs = std::make_shared<std::vector<Job>>(jobs);
    for (std::string *list : {&work.loads.hundred, &work.loads.first, &work.loads.second}) change(*list);
    return work;
}

// A list may come in several pieces: each is loaded apart, and then combined with what the mission has.
template <class Contestant> Contestant filled(Contestant book, const Lists &lists) {
    for (unsigned m = 0; m < receiving; ++m)
        for (const std::string &piece : pieces_of(lists[m])) {
            book.load(receiving, piece);
            book.combine(both, m, receiving, helping);
            for (const unsigned done : {m, receiving}) book.clear(done);
            book.combine(both, helping, helping, m);
            book.clear(helping);
        }
    return book;
}

// ---- Measuring ----------------------------------------------------------------------------------------------------
using Wall = std::chrono::steady_clock; // says only when to stop

// What this thread has had of the processor, in nanoseconds.
double cpu_time() {
    timespec time;
    clock_gettime(CLOCK_THREAD_CPUTIME_ID, &time);
    return time.tv_sec * 1e9 + time.tv_nsec;
}

double median(std::vector<double> times) {
    std::nth_element(times.begin(), times.begin() + times.size() / 2, times.end());
    return times[times.size() / 2];
}

// What the clock itself costs, which is no part of a turn's time.
double clock_cost() {
    static const double cost = [] {
        std::vector<double> times(1001);
        for (double &time : times) time = cpu_time(), time = cpu_time() - time;
        return median(times);
    }();
    return cost;
}

// A turn does some jobs of one call, each once. What they need is prepared outside its time.
struct Measurement {
    std::function<void()> prepare;
    std::function<uint64_t()> work;
    bool repeats; // may the jobs be done again at once? Then a turn does so until it is long beside the clock
    unsigned jobs, laps = 1;
    std::vector<double> times = {}; // nanoseconds of one job, by round; at least 1: under it the clock tells nothing
    uint64_t answers = 0;           // the sum of all jobs'
    double turn() {
        prepare();
        const double start = cpu_time();
        for (unsigned lap = 0; lap < laps; ++lap) answers = work();
        const double time = cpu_time() - start - clock_cost(), of_one = time / laps / jobs;
        if (repeats && time < 20000) laps *= 2;
        return std::max(1.0, of_one);
    }
    void round(Wall::duration enough, unsigned most) {
        const auto end = Wall::now() + enough;
        std::vector<double> turns;
        do turns.push_back(turn());
        while (turns.size() < most && Wall::now() < end);
        times.push_back(median(turns));
    }
};

// How many times as long the first takes: the median of the rounds' ratios, as a busy machine slows both in a round.
double ratio(const Measurement &first, const Measurement &second) {
    std::vector<double> ratios = first.times;
    for (std::size_t i = 0; i < ratios.size(); ++i) ratios[i] /= second.times[i];
    return median(ratios);
}
using Column = std::map<std::string, Measurement>; // by call

// All jobs are done on one book, or where they change it each on its own copy, so that all find the same.
template <class Contestant> Column column_of(const Contestant &full, const Work &work) {
    const Jobs &jobs = work.jobs;
    const Loads &loads = work.loads;
    Column column;
    const auto plan = [&](const char *call, bool changes, auto before, auto answer) {
        const auto books = std::make_shared<std::vector<Contestant>>();
        const auto each = [=](auto step) {
            uint64_t answers = 0;
            for (std::size_t i = 0; i < jobs->size(); ++i) answers += step((*books)[changes ? i : 0], (*jobs)[i]);
            return answers;
        };
        const auto prepare = [=] { books->assign(changes ? jobs->size() : 1, full); each(before); };
        column[call] = {prepare, [=] { return each(answer); }, !changes, jobs_in_a_turn};
    };
    const auto nothing = [](auto &, auto &) { return 0; };
    const auto read = [&](const char *call, auto answer) { plan(call, false, nothing, answer); };
    const auto change = [&](const char *call, auto before, auto answer) { plan(call, true, before, answer); };
    const auto remove = [](auto &book, auto &job) { return book.remove(job.mission, job.name); };
    const auto clear = [](auto &book, auto &job) { return book.clear(job.mission); };

    read("ask", [](auto &book, auto &job) { return book.ask(job.mission, job.asked); });
    read("next", [](auto &book, auto &job) { return book.next(job.mission, job.prefix); });
    change("add", remove, [](auto &book, auto &job) { return book.add(job.mission, job.name); });
    change("remove", nothing, remove);
    change("clear", nothing, clear);
    const bool are_lists = jobs->front().pieces.size() == 1, are_hundred = !loads.hundred.empty();
    if (are_lists) change("load", clear, [](auto &book, auto &job) { return book.load(job.mission, job.pieces[0]); });
    if (are_hundred)
        change("load of 100 names", nothing, [=](auto &book, auto &) { return book.load(receiving, loads.hundred); });
    if (are_hundred && full.has(&Library::load_two))
        change("load of two lists", nothing,
               [=](auto &book, auto &) { return book.load_two(receiving, loads.first, loads.second); });
    change("combine", nothing,
           [](auto &book, auto &job) { return book.combine(job.operation, job.mission, job.other, receiving); });
    read("count", [](auto &book, auto &job) { return book.count(job.mission); });
    read("rank", [](auto &book, auto &job) { return book.rank(job.mission, job.asked); });
    read("nth", [](auto &book, auto &job) { return book.nth(job.mission, job.place) == job.name; });
    if (are_lists && full.has(&Library::write))
        read("write", [](auto &book, auto &job) { return book.write(job.mission); });
    if constexpr (is_book<Contestant>) {
        change("empty", nothing, [](auto &book, auto &) { return book.empty(); });
        const auto check = [](auto &book, auto &) { return book.check(); };
        read("check", check);
        change("check of a copy", nothing, check); // for the ratios of calls that change each its own copy
        read("used", [](auto &book, auto &) { return book.used(); });
        read("sum", [](auto &book, auto &) { return book.sum(); });
    }
    return column;
}

struct Contest {
    std::vector<double> about; // the numbers that `facts` names
    std::vector<std::pair<std::string, Column>> columns;
    bool has(const std::string &call, const std::string &contestant = "book") const {
        return column(contestant).count(call) == 1;
    }
    const Measurement &of(const std::string &call, const std::string &contestant = "book") const {
        return column(contestant).at(call);
    }

  private:
    const Column &column(const std::string &contestant) const {
        return std::find_if(columns.begin(), columns.end(), [&](auto &one) { return one.first == contestant; })->second;
    }
};
constexpr std::array facts = {"rows in use", "room", "names on all lists", "names on the longest list"};

std::vector<double> about(const Book &book, unsigned room, const Lists &lists) {
    double names = 0, longest = 0;
    for (const SortedVector &list : lists) {
        names += list.size();
        longest = std::max<double>(longest, list.size());
    }
    return {1.0 * book.used(), 1.0 * room, names, longest};
}

Contest contest_on(unsigned rows, const Work &work, bool with_rivals) {
    const unsigned room = std::min(rows + 60, most_room); // combine needs rows for what it makes
    const Work of_book = for_book(work);
    const Book book = filled(Book(room), of_book.lists);
    Contest made = {about(book, room, of_book.lists), {{"book", column_of(book, of_book)}}};
    const auto join = [&](const char *name, auto empty, const Work &given) {
        made.columns.emplace_back(name, column_of(filled(empty, given.lists), given));
    };
#ifdef BEFORE
    join("before", BookBy<before>(room), of_book);
#endif
    if (!with_rivals) return made;
    join("set", Containers<std::set<Name>>(), work);
    join("unordered_set", Hashed(), work);
    join("sorted vector", Containers<SortedVector>(), work);
#ifdef DAWG_INSTALLED
    join("libdawgdic", Dawg(), work);
    for (const char *call : {"count", "rank", "nth", "write"}) // of the vector beside it
        made.columns.back().second.erase(call);
#endif
    return made;
}

std::vector<Contest> by_size(bool with_rivals) {
    constexpr unsigned rows_and_groups[][2] = {{10, 2}, {30, 3}, {100, 11}, {300, 46}, {1000, 175}};
    std::vector<Contest> contests;
    for (const auto &[rows, groups] : rows_and_groups) {
        const Lists lists = script_names(groups);
        const Jobs jobs = jobs_on(lists, 0, std::min(groups + 1, receiving));
        const Loads loads = rows == 1000 ? loads_of(lists) : Loads(); // only there are so many names
        contests.push_back(contest_on(rows, {lists, jobs, loads}, with_rivals && rows != 30 && rows != 300));
    }
    return contests;
}

std::vector<Contest> by_names() {
    std::vector<Contest> contests;
    for (const unsigned names : {100, 1000, 10000, 60000}) {
        const Lists lists = with_dense_names(script_names(11), names);
        contests.push_back(contest_on(100, {lists, jobs_on(lists, dense, 2), {}}, false));
    }
    return contests;
}

// Each call in turn, of all contestants: the book has every call that another has. In every second round they come in
// the other order, since who comes first finds the caches as the call before left them.
void measure_round(Contest &contest, bool backwards) {
    for (const auto &[call, of_book] : contest.columns[0].second)
        for (std::size_t i = 0, last = contest.columns.size() - 1; i <= last; ++i) {
            Column &column = contest.columns[backwards ? last - i : i].second;
            if (column.count(call) == 1) column[call].round(std::chrono::microseconds(500), 40);
        }
}

// In rounds, so that whatever else the machine does meets all alike. The first ones warm up; the median leaves them
// out.
void measure(std::vector<Contest> &contests, std::chrono::seconds enough) {
    const auto end = Wall::now() + enough;
    for (unsigned round = 0; !contests.empty() && (round < 5 || Wall::now() < end); ++round)
        for (Contest &contest : contests) measure_round(contest, round % 2 == 1);
}

// A call that takes long on one book: for pairs of rows that it settles, rows that it asks for or goes through.
struct Slow {
    std::string call, unit;
    double rows, units, time; // rows in use, units of work, nanoseconds
};

// Any call on any table that is a sound book, unless an earlier state of the library has it not. Few turns, since one
// may take seconds.
template <class Book>
Slow slow_call(const std::string &call, std::size_t units, const std::string &unit, const Table &table,
               const std::function<uint64_t(Book &)> &answer, bool has = true) {
    const Book full(table);
    if (!has) return {call, unit, 1.0 * full.used(), 1.0 * units, unmeasured};
    Book book = full;
    Measurement slow = {[&] { book = full; }, [&] { return answer(book); }, false, 1};
    slow.round(std::chrono::seconds(1), 15);
    return {call, unit, 1.0 * full.used(), 1.0 * units, median(slow.times)};
}

template <class Book> Slow slow_combine(const std::string &call, const Table &table, unsigned operation) {
    return slow_call<Book>(call, pairs_met(table, 0, 1), "pairs of rows", table,
                           [=](Book &book) { return book.combine(operation, 0, 1, receiving); });
}

template <class Book> Slow slow_load(const std::string &call) {
    const std::string list = lists_that_end_alike(1)[0];
    return slow_call<Book>(call, rows_asked(list), "rows asked for", book_of_like_beginnings(),
                           [=](Book &book) { return book.load(receiving, list); });
}

template <class Book> Slow slow_load_two(const std::string &call) {
    const std::vector<std::string> lists = lists_that_end_alike(2);
    return slow_call<Book>(call, rows_asked(lists[0] + lists[1]), "rows asked for", book_of_like_beginnings(),
                           [=](Book &book) { return book.load_two(receiving, lists[0], lists[1]); },
                           Book::has(&Library::load_two));
}

template <class Book> Slow slow_write(const std::string &call) {
    const std::string list = longest_list_to_write();
    Table table = book_of_like_beginnings();
    book_load(table.data(), table.size(), receiving, reinterpret_cast<const uint8_t *>(list.data()), list.size());
    return slow_call<Book>(call, rows_asked(list), "rows entered", table,
                           [=](Book &book) { return book.write(receiving); }, Book::has(&Library::write));
}

template <class Book> Slow slow_refusal_of_write(const std::string &call) {
    const Table table = book_of_very_many_names();
    return slow_call<Book>(call, arcs_of(table), "arcs", table, [](Book &book) { return book.write_refused(0); },
                           Book::has(&Library::write));
}

// The worst that were found. Another is one more line here, and one in print_slow.
template <class Book> std::vector<Slow> slow_calls() {
    return {slow_combine<Book>("combine", book_of_few_arcs(), common),
            slow_load<Book>("load"),
            slow_combine<Book>("combine, all arcs", book_of_all_arcs(), both),
            slow_combine<Book>("combine, one key", book_of_one_key(), both),
            slow_load_two<Book>("load of two lists"),
            slow_write<Book>("write"),
            slow_refusal_of_write<Book>("write, refused")};
}

// ---- Printing -----------------------------------------------------------------------------------------------------
constexpr std::array calls = {"empty", "check", "ask", "next", "add", "remove", "clear", "load", "load of 100 names",
                              "load of two lists", "combine", "count", "rank", "nth", "write", "used"};
using Cells = std::vector<std::string>;

// The book's time for a call, or that over its time for another; "-" where the call was not measured.
std::string cell(const Contest &contest, const std::string &call, const std::string &over = "") {
    if (!contest.has(call)) return "-";
    return figure(over.empty() ? median(contest.of(call).times) : ratio(contest.of(call), contest.of(over)));
}

void print_line(const Cells &cells) {
    for (const std::string &cell : cells) std::cout << "| " << cell << ' ';
    std::cout << "|\n";
}

void print_head(const Cells &cells) {
    std::cout << '\n';
    print_line(cells);
    std::cout << "|---";
    for (std::size_t i = 1; i < cells.size(); ++i) std::cout << "|--:";
    std::cout << "|\n";
}

using Say = std::function<std::string(const Contest &)>;

Cells cells_of(const std::string &first, const std::vector<Contest> &contests, const Say &say) {
    Cells cells = {first};
    for (const Contest &contest : contests) cells.push_back(say(contest));
    return cells;
}

// A line with a cell for each book, if there is anything to say.
void print_books(const std::string &first, const std::vector<Contest> &contests, const Say &say) {
    const Cells cells = cells_of(first, contests, say);
    const auto said = [](const std::string &cell) { return cell != "-"; };
    if (std::any_of(cells.begin() + 1, cells.end(), said)) print_line(cells);
}

Say fact(std::size_t i) {
    return [=](const Contest &contest) { return figure(contest.about[i]); };
}

// A column for each book, headed by one of the facts.
void print_times(const std::string &heading, std::size_t headed_by, const std::vector<Contest> &contests) {
    std::cout << "\n## " << heading << '\n';
    print_head(cells_of(facts[headed_by], contests, fact(headed_by)));
    for (std::size_t i = 0; i < facts.size(); ++i)
        if (i != headed_by) print_books(facts[i], contests, fact(i));
    for (const std::string call : calls)
        print_books("**" + call + "**", contests, [&](const Contest &contest) { return cell(contest, call); });
    print_books("sum of the table", contests, [](const Contest &contest) { return cell(contest, "sum"); });
}

void print_checks(const std::vector<Contest> &contests) {
    std::cout << R"(
## One call, in checks of the same book

Every call but empty, ask and next first checks the whole book, since it must refuse a table that is not
sound: so none of them can take much less than 1 here. A call that changes the book is compared with a check
of such a copy. The last line is check itself, in sums of the table.
)";
    static const std::set<std::string> reading = {"count", "rank", "nth", "write", "used"};
    static const std::set<std::string> others = {"empty", "check", "ask", "next"};
    print_head(cells_of(facts[0], contests, fact(0)));
    for (const std::string call : calls)
        if (others.count(call) == 0) {
            const std::string over = reading.count(call) == 1 ? "check" : "check of a copy";
            print_books(call + " / check", contests, [&](const Contest &book) { return cell(book, call, over); });
        }
    print_books("**check / sum**", contests, [](const Contest &book) { return cell(book, "check", "sum"); });
}

void print_slow(const std::vector<Slow> &slow) {
    std::cout << R"(
## The worst books that were found

Sound books, written by hand, on which a call takes as long as we could make it take (`tests/slow_books.h`):

- **combine**: any two rows of two lists meet, and each pair makes one and the same row, behind all others.
- **load**: names of 24 letters ask for the same rows again and again, in a book whose rows begin like these.
- **combine, all arcs**: as the first, but each row has an arc for every letter.
- **combine, one key**: as the third, but all those rows have one key in the library's index of rows, so that
  each of them is looked at for each pair.
- **load of two lists**: as load, by two lists of such names, which come by turns.
- **write**: 65,535 bytes of such names, in the same book. Each name enters rows anew from its third letter
  on.
- **write, refused**: a list with more names than could ever be written, in a book where each row has an arc
  for every letter.
)";
    print_head({"call", "rows in use", "work", "microseconds", "nanoseconds for each"});
    for (const Slow &one : slow)
        print_line({"**" + one.call + "**", figure(one.rows), figure(one.units) + ' ' + one.unit,
                    figure(one.time / 1000), figure(one.time / one.units)});
}

std::string beside(const Contest &contest, const std::string &call, const std::string &rival) {
    if (!contest.has(call) || !contest.has(call, rival)) return "-";
    if (contest.of(call).answers != contest.of(call, rival).answers) fail(call + ": not all answer alike");
    return figure(ratio(contest.of(call), contest.of(call, rival)));
}

void print_beside(const Contest &contest) {
    std::cout << "\n### " << figure(contest.about[0]) << " rows in use\n";
    Cells head = {"call", "book, ns"};
    for (std::size_t i = 1; i < contest.columns.size(); ++i) head.push_back(contest.columns[i].first);
    print_head(head);
    for (const std::string call : calls) {
        Cells cells = {call, cell(contest, call)};
        for (std::size_t i = 2; i < head.size(); ++i) cells.push_back(beside(contest, call, head[i]));
        if (cells[2] != "-") print_line(cells);
    }
}

void print_rivals(const std::vector<Contest> &contests) {
    std::cout << R"(
## Beside containers of the C++ library

How many times as long as a container the book takes for the same jobs: 2 is twice as long, and under 1 the
book is faster. The containers check nothing, and get the names in a spelling whose bytes have the order of
names, which is not in their time. libdawgdic, where it is installed, can neither change nor count: its names
stand in a sorted vector beside it, and a change builds it anew.
)";
    for (const Contest &contest : contests)
        if (contest.columns.size() > 1) print_beside(contest);
}

std::string machine() {
    std::string processor = "unknown processor";
    std::ifstream file("/proc/cpuinfo");
    for (std::string line; std::getline(file, line);)
        if (line.rfind("model name", 0) == 0) processor = line.substr(line.find(':') + 2);
    utsname system;
    uname(&system);
    return processor + ", " + system.sysname + ' ' + system.release + ' ' + system.machine + ", g++ " + __VERSION__;
}

void print_introduction() {
    std::cout << "# What a call costs\n\nMeasured on " << machine() << R"(.
`tests/bench` writes this page, but for its last chapter.

![CPU time of check, add, load and combine against rows in use](benchmark.svg)

## What is measured, and against what

- **Time** is CPU time of one call, at least 1 nanosecond, without what the clock itself costs. Calls are
  timed by sixteen. All have their turns in many rounds, so that whatever else the machine does meets all of
  them. A time is the median of the rounds, and a ratio the median of the rounds' ratios.
- **The books** hold names such as SLEW_A3 and WHEEL_B_ON. Each name is on the lists of two missions.
- **The jobs**: every second name that ask, next and rank are given is on no list. add puts a name back that
  was taken off, and load a list that was cleared; "load of 100 names" fills one that was empty, and "load of
  two lists" does so by 100 names and 100 more, of which half are the same. combine does its three operations
  in turn, and write writes a whole list. A call that changes the book works on a copy of its own; the others
  are repeated on one book, so that ask and next find what they read in the nearest cache.
- **The sum** is no call, but a plain loop that adds up all numbers of the table, one after another, those of
  free rows too. check has to look at each of them as well.
)";
}

// ---- The plot: time against rows in use, both logarithmic ---------------------------------------------------------
struct Line {
    std::string name, colour;
    std::vector<std::pair<double, double>> points; // rows in use and nanoseconds
};

class Picture {
  public:
    Picture(const std::string &path, const std::vector<Line> &lines) : file(path) {
        for (const Line &line : lines)
            for (const auto &[rows, time] : line.points) {
                lowest = std::min(lowest, std::floor(std::log10(time)));
                highest = std::max(highest, std::ceil(std::log10(time)));
            }
        file << std::fixed << std::setprecision(1)
             << "<svg xmlns='http://www.w3.org/2000/svg' viewBox='0 0 900 520' width='900' height='520' "
             << "font-family='sans-serif' font-size='14' fill='#333'>\n<rect width='900' height='520' fill='white'/>\n";
        text(left, 32, "font-size='17'", "CPU time of one call against rows in use; both axes are logarithmic");
        for (const int rows : {10, 20, 50, 100, 200, 500, 1000}) mark_rows(rows);
        for (double power = lowest; power <= highest; ++power) mark_time(power);
        text((left + right) / 2, bottom + 48, "text-anchor='middle'", "rows in use");
        for (const Line &line : lines) draw(line);
        file << "</svg>\n";
    }

  private:
    static constexpr double left = 90, right = 690, top = 60, bottom = 450;
    std::ofstream file;
    double lowest = 9, highest = 0; // powers of ten
    double legend = top + 20;
    double x(double rows) const { return left + (right - left) * std::log10(rows / 10) / 2; } // from 10 rows to 1,000
    double y(double time) const { return bottom - (bottom - top) * (std::log10(time) - lowest) / (highest - lowest); }
    void text(double at_x, double at_y, const std::string &style, const std::string &said) {
        file << "<text x='" << at_x << "' y='" << at_y << "' " << style << '>' << said << "</text>\n";
    }
    void dot(double at_x, double at_y, const std::string &colour) {
        file << "<circle cx='" << at_x << "' cy='" << at_y << "' r='4.5' fill='" << colour << "'/>\n";
    }
    void mark_rows(int rows) {
        file << "<path stroke='#ddd' d='M" << x(rows) << ' ' << top << 'V' << bottom << "'/>\n";
        text(x(rows), bottom + 22, "text-anchor='middle'", figure(rows));
    }
    void mark_time(double power) {
        static const std::array units = {" ns", " µs", " ms", " s"};
        const double at = y(std::pow(10, power));
        file << "<path stroke='#ddd' d='M" << left << ' ' << at << 'H' << right << "'/>\n";
        text(left - 10, at + 5, "text-anchor='end'", figure(std::pow(10, std::fmod(power, 3))) + units[int(power) / 3]);
    }
    void draw(const Line &line) {
        file << "<polyline fill='none' stroke='" << line.colour << "' stroke-width='2.5' points='";
        for (const auto &[rows, time] : line.points) file << x(rows) << ',' << y(time) << ' ';
        file << "'/>\n";
        for (const auto &[rows, time] : line.points) dot(x(rows), y(time), line.colour);
        dot(right + 30, legend - 5, line.colour);
        text(right + 44, legend, "", line.name);
        legend += 28;
    }
};

void plot(const std::string &path, const std::vector<Contest> &contests) {
    std::vector<Line> lines = {{"combine", "#7b3294", {}}, {"load", "#d95f02", {}}, {"add", "#1b9e77", {}},
                               {"check", "#2166ac", {}},   {"sum", "#999999", {}}};
    for (Line &line : lines)
        for (const Contest &contest : contests)
            line.points.emplace_back(contest.about[0], median(contest.of(line.name).times));
    lines.back().name = "sum of the table";
    Picture(path, lines);
}

// ---- What a change of the library is judged by --------------------------------------------------------------------
// The states of the library that are measured, the earlier first.
#ifdef BEFORE
const std::vector<std::string> states = {"before", "book"};
#else
const std::vector<std::string> states = {"book"};
#endif

void print_figures(const std::string &what, const std::vector<double> &figures) {
    std::cout << what;
    for (const double number : figures) std::cout << '\t' << figure(number);
    std::cout << '\n';
}

// A ratio of two times, for each state that has the call.
void print_ratio(const std::string &call, const Contest &contest, const std::string &over, const Contest &other) {
    std::vector<double> figures(states.size(), unmeasured);
    for (std::size_t i = 0; i < states.size(); ++i)
        if (contest.has(call, states[i])) figures[i] = ratio(contest.of(call, states[i]), other.of(over, states[i]));
    const auto at = [](const Contest &one) { return " at " + figure(one.about[0]) + " rows"; };
    print_figures(call + (&contest == &other ? "" : at(contest)) + " / " + over + at(other), figures);
}

// A time for each state, and then how many times as fast as before it is now.
void print_time(const std::string &call, const Contest &contest) {
    std::vector<double> figures(states.size() == 2 ? 3 : 1, unmeasured);
    for (std::size_t i = 0; i < states.size(); ++i)
        if (contest.has(call, states[i])) figures[i] = median(contest.of(call, states[i]).times);
    if (states.size() == 2 && contest.has(call, "before"))
        figures[2] = ratio(contest.of(call, "before"), contest.of(call));
    print_figures(call + " at " + figure(contest.about[0]) + " rows, ns", figures);
}

void print_slow_times(const std::vector<std::vector<Slow>> &by_state) {
    for (std::size_t i = 0; i < by_state[0].size(); ++i) {
        std::vector<double> figures;
        for (const std::vector<Slow> &slow : by_state) figures.push_back(slow[i].time / 1000);
        if (states.size() == 2) figures.push_back(figures[0] / figures[1]);
        print_figures("worst " + by_state[0][i].call + ", microseconds", figures);
    }
}

void print_brief(const std::vector<Contest> &contests, const std::vector<std::vector<Slow>> &slow) {
    const Contest &small = contests[0], &middle = contests[2], &large = contests[4];
    if (states.size() == 2) std::cout << "figure\tbefore\tnow\tbefore / now\n";
    print_ratio("check", large, "sum", large);
    print_ratio("check", large, "check", middle);
    for (const char *call : {"count", "write"}) print_ratio(call, large, "check", large);
    for (const char *call : {"add", "remove", "load of 100 names", "load of two lists"})
        print_ratio(call, large, "check of a copy", large);
    print_slow_times(slow);
    for (const std::string call : calls)
        if (small.has(call)) print_time(call, small);
    for (const char *call : {"ask", "next"}) print_time(call, large); // the calls that no check makes slow
}

// ---- What is asked for --------------------------------------------------------------------------------------------
struct Options {
    std::string plot, only = "sizes,rivals,dense,worst";
    bool brief = false;
    bool wants(const std::string &part) const { return (',' + only + ',').find(',' + part + ',') != Name::npos; }
};

[[noreturn]] void explain() {
    fail("usage: benchmark [--plot FILE] [--only PARTS] [--brief]; PARTS of sizes,rivals,dense,worst");
}

void expect_parts(const std::string &only) {
    std::istringstream parts(only);
    for (std::string part; std::getline(parts, part, ',');)
        if (!Options().wants(part)) explain();
}

Options options_of(const std::vector<std::string> &words) {
    Options options;
    const std::map<std::string, std::string *> with_text = {{"--plot", &options.plot}, {"--only", &options.only}};
    for (std::size_t i = 0; i < words.size(); ++i) {
        if (words[i] == "--brief") options.brief = true;
        else if (with_text.count(words[i]) == 1 && i + 1 < words.size()) *with_text.at(words[i]) = words[i + 1], ++i;
        else explain();
    }
    expect_parts(options.only);
    if (options.brief) options.only = "sizes,worst";
    return options;
}

int main(int count, char **arguments) {
    const Options options = options_of({arguments + 1, arguments + count});
    const bool sizes_wanted = options.wants("sizes") || options.wants("rivals") || !options.plot.empty();
    std::vector<Contest> sizes = sizes_wanted ? by_size(options.wants("rivals")) : std::vector<Contest>();
    std::vector<Contest> names = options.wants("dense") ? by_names() : std::vector<Contest>();
    measure(sizes, std::chrono::seconds(options.brief ? 15 : 25));
    measure(names, std::chrono::seconds(5));
    std::vector<std::vector<Slow>> slow; // by state
#ifdef BEFORE
    slow.push_back(slow_calls<BookBy<before>>());
#endif
    if (options.wants("worst")) slow.push_back(slow_calls<Book>());
    if (!options.plot.empty()) plot(options.plot, sizes);
    if (options.brief) return print_brief(sizes, slow), 0;

    print_introduction();
    if (options.wants("sizes")) print_times("One call, in nanoseconds", 0, sizes), print_checks(sizes);
    if (options.wants("worst")) print_slow(slow.back());
    if (options.wants("rivals")) print_rivals(sizes);
    if (options.wants("dense")) print_times("More names on as many rows, in nanoseconds", 2, names);
}
