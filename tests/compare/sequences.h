// sequences.h: random sequences of calls.
#ifndef COMPARE_SEQUENCES_H
#define COMPARE_SEQUENCES_H

#include "calls.h"
#include "damage.h"
#include "journal.h"
#include "names.h"
#include "random.h"
#include "sets.h"
#include "table.h"
#include "trial.h"

#include "book.h"

#include <algorithm>
#include <array>
#include <cstddef>
#include <cstdint>
#include <deque>
#include <numeric>
#include <string>
#include <string_view>
#include <utility>
#include <vector>

namespace {

// Rooms of up to 12, 60 and 1,000 states; tables of no room; and rare and costly sequences.
enum class Manner { small, middle, large, wrong_length, dense, full, long_lists };

// The rare ones come by number, so that every long run has them.
Manner manner_of(uint64_t number, Random& random) {
    switch (number % 400) {
        case 50: return Manner::dense;
        case 150: return Manner::full;
        case 250: return Manner::long_lists;
        case 350: return Manner::wrong_length;
    }
    const size_t drawn = random.below(100);
    return drawn < 6 ? Manner::wrong_length : drawn < 50 ? Manner::small : drawn < 93 ? Manner::middle : Manner::large;
}

size_t length_of(Manner manner, uint64_t number, Random& random) {
    const std::vector<size_t> wrong = {0,           1,           39,            40,            40 * 26,   40 * 26 + 1,
                                       40 * 27 - 1, 40 * 27 + 1, 40 * 1026 - 1, 40 * 1026 + 1, 40 * 1027, 40 * 2000};
    switch (manner) {
        case Manner::small: return BOOK_LENGTH(random.between(1, 12));
        case Manner::middle: return BOOK_LENGTH(random.between(13, 60));
        case Manner::large: return BOOK_LENGTH(random.between(61, 1000));
        case Manner::dense: return BOOK_LENGTH(size_t{40});
        case Manner::wrong_length:  // 65,563 rows are 27, if their number is cut to 16 bits
            return number % 400 == 350 ? 40 * 65563 : random.one_of(wrong);
        default: return BOOK_LENGTH(size_t{1000});
    }
}

// One sequence, made up call by call from what is known of the table.
class Sequence {
public:
    Sequence(uint64_t seed, uint64_t number, Fault fault)
        : random(seed), manner(manner_of(number, random)), script{length_of(manner, number, random)},
          trial(script.length, fault) {
        own_letters = random.some_letters(is_large() ? 12 : random.one_of(std::vector<size_t>{1, 2, 2, 3, 4, 6}));
        longest = random.one_of(std::vector<size_t>{2, 3, 3, 4, 4, 5, 8, 24});
        if (manner == Manner::small) longest = std::min(longest, room_of(script.length));
        damaged = is_usual() && random.chance(40);
    }

    const Script& made() const { return script; }

    // False when the last call of the script makes a difference.
    bool run(Tally& tally, Journal& journal) {
        for (const Call& call : first_calls()) {
            if (!step(call, tally, journal)) return false;
        }
        for (size_t left = is_usual() ? random.between(20, 280) : 26; left > 0 && !trial.is_over(); --left) {
            if (!step(any_call(), tally, journal)) return false;
        }
        return true;
    }

private:
    bool is_usual() const { return manner <= Manner::large; }
    bool is_large() const { return manner == Manner::large || manner == Manner::full; }

    // A call stands in the journal before it is made.
    bool step(const Call& call, Tally& tally, Journal& journal) {
        script.calls.push_back(call);
        if (!is_call(call.kind)) {
            trial.change(call);
            return true;
        }
        const Answer expected = trial.expected(call);
        journal.add(trial.lines_of(call, expected) + '\n');
        if (!trial.make(call, expected).empty()) return false;
        tally.note(call.kind, expected.number);
        if (call.kind == Kind::write && expected.number == 0) plan_to_take_back();
        return true;
    }

    static Call call_of(Kind kind, uint32_t mission, const std::string& bytes, const std::string& second = "") {
        Call call{kind, mission};
        call.bytes = bytes;
        call.second = second;
        return call;
    }

    static Call write_of(uint32_t mission, size_t buffer_length) {
        Call call{Kind::write, mission};
        call.buffer_length = static_cast<uint32_t>(buffer_length);
        return call;
    }

    Call damage_to(const Numbers& after) const {
        Call call{Kind::numbers};
        call.changes = changes_between(trial.numbers(), after);
        return call;
    }

    std::vector<Call> first_calls() {
        switch (manner) {
            case Manner::wrong_length: return any_numbers();
            case Manner::dense: return dense_lists();
            case Manner::full: return lists_for_the_whole_room();
            case Manner::long_lists: return longest_lists();
            default: return {};
        }
    }

    std::vector<Call> any_numbers() {
        Numbers after = trial.numbers();
        const size_t most = std::min<size_t>(after.size(), 5 * row_length);
        for (size_t i = 0; i < most; ++i) after[i] = static_cast<uint16_t>(random.below(3));
        return {damage_to(after)};
    }

    // Few rows with 65,536 names and with exactly 60,000; one more and one less than these.
    std::vector<Call> dense_lists() {
        const std::string first_three(letters.substr(0, 3));  // that are in every place
        Places places;
        for (const size_t number : {32, 25, 25, 3}) places.push_back(letters.substr(0, number));
        random.shuffle(places);
        Numbers after = trial.numbers();
        Damage(after, random).put_book({words_by(Places(4, letters.substr(0, 16))), words_by(places)});
        std::vector<Call> calls = {damage_to(after)};
        const auto count_names = [&](uint32_t mission) {
            calls.push_back(call_of(Kind::count, mission, ""));
            calls.push_back(call_of(Kind::rank, mission, random.word(first_three, 3)));
            calls.push_back({Kind::nth, mission, 0, 0, 0, 59999, longest_name});
            calls.push_back({Kind::nth, mission, 0, 0, 0, 70000, longest_name});
            calls.push_back(write_of(mission, random.one_of(std::vector<size_t>{0, longest_list, 400000})));
        };
        count_names(0);
        count_names(1);
        calls.push_back(call_of(Kind::add, 1, std::string(5, letters[0])));
        count_names(1);
        calls.push_back(call_of(Kind::remove, 1, std::string(5, letters[0])));
        calls.push_back(call_of(Kind::remove, 1, random.word(first_three, 4)));
        count_names(1);
        return calls;
    }

    // A list that needs 1,001 states and one that needs 1,000, as one list and as two.
    std::vector<Call> lists_for_the_whole_room() {
        const Names over = random.list_needing(1001, own_letters, longest_name);
        const Names just = random.list_needing(1000, own_letters, longest_name);
        const auto [over_first, over_second] = in_two_lists(over);
        const auto [just_first, just_second] = in_two_lists(just);
        return {call_of(Kind::load, 0, list_of_names(over)),
                call_of(Kind::load_two, 0, list_of_names(over_first), list_of_names(over_second)),
                call_of(Kind::load, 0, list_of_names(just)),
                {Kind::clear},
                call_of(Kind::load_two, 0, list_of_names(just_first), list_of_names(just_second))};
    }

    // A list of 65,536 bytes and one of 65,535, which is 13,107 words of four letters; beside it another such list, of
    // the last of all these words. Then words of three letters that are 65,536 bytes, and one word less.
    std::vector<Call> longest_lists() {
        const std::string_view few = letters.substr(0, random.between(12, 16));
        const std::string all = list_of_names(words_by(Places(4, few)));
        const std::string just = all.substr(0, longest_list);
        const std::string other = all.substr(all.size() - longest_list);
        const std::string over = just.substr(0, longest_list - 1) + letters[0] + '\n';
        const Names short_words = words_by(Places(3, letters), (longest_list + 1) / 4);
        const auto [first, second] = in_two_lists(short_words);
        return {call_of(Kind::load, 0, over),
                call_of(Kind::load_two, 0, over, ""),
                call_of(Kind::load_two, 0, just, over),
                call_of(Kind::load, 0, just),
                write_of(0, longest_list - 1),
                write_of(0, longest_list),
                call_of(Kind::load_two, 1, just, other),
                write_of(1, 2 * longest_list),
                call_of(Kind::load_two, 2, list_of_names(first), list_of_names(second)),
                write_of(2, longest_list + 1),
                call_of(Kind::remove, 2, random.one_of(short_words)),
                write_of(2, longest_list + 1)};
    }

    // "as bytes that load takes back": what was written is loaded into another list, mostly an empty one, or into
    // another book, by one call or the other; and what that list is then is written, too.
    void plan_to_take_back() {
        if (!planned.empty() || random.chance(50)) return;
        const Answer& answer = trial.last_answer();
        const std::string written = answer.buffer.substr(0, answer.value);
        const auto [first, second] = in_two_lists(*names_of_list(written));
        const uint32_t receiver = any_receiver();
        if (random.chance(30)) planned.push_back({Kind::empty});
        if (random.chance(50)) planned.push_back(call_of(Kind::load, receiver, written));
        else planned.push_back(call_of(Kind::load_two, receiver, list_of_names(first), list_of_names(second)));
        planned.push_back(write_of(receiver, written.size() + random.below(3)));
    }

    Call any_call() {
        if (!planned.empty()) {
            const Call call = planned.front();
            planned.pop_front();
            return call;
        }
        const Known& known = trial.knowledge();
        if (damaged && known.sound && random.chance(7)) return any_damage();
        if (!known.sound && random.chance(7)) return random.chance(30) ? Call{Kind::empty} : damage_to(last_sound);
        if (is_usual() && known.lists.number_of_names() > 2000) return {Kind::empty};
        return with_arguments({any_kind()});
    }

    Call any_damage() {
        last_sound = trial.numbers();
        Numbers after = last_sound;
        Damage(after, random).any();
        return damage_to(after);
    }

    // In a sound book most calls change lists; elsewhere ask and next are those that answer.
    Kind any_kind() {
        using Shares = std::array<size_t, book_calls.size()>;  // in the order of Kind
        const Shares changing = {1, 4, 14, 12, 100, 36, 6, 20, 24, 26, 8, 12, 20, 16, 4};
        const Shares reading = {1, 1, 12, 8, 1, 1, 1, 1, 1, 1, 1, 1, 1, 1, 1};
        const Shares& shares = is_usual() && trial.knowledge().sound ? changing : reading;
        size_t drawn = random.below(std::accumulate(shares.begin(), shares.end(), size_t{0}));
        size_t kind = 0;
        while (drawn >= shares[kind]) drawn -= shares[kind++];
        return static_cast<Kind>(kind);
    }

    Call with_arguments(Call call) {
        const auto has = [&](uint32_t number) { return may_be_refused_by(number, call.kind); };
        const bool loads = call.kind == Kind::load || call.kind == Kind::load_two;
        if (has(2)) call.mission = loads ? any_receiver() : any_mission();
        if (has(4)) call.bytes = call.kind == Kind::next ? any_prefix() : any_name(call.kind);
        if (call.kind == Kind::ask && random.chance(40)) call.bytes = leaving_name(list(call.mission));
        if (call.kind == Kind::load) call.bytes = list_of(any_names(), 15);
        if (call.kind == Kind::load_two) {
            const auto [first, second] = any_two();
            call.bytes = list_of(first, 8);
            call.second = list_of(second, 8);
        }
        if (call.kind == Kind::write) {
            const size_t bytes = list_of_names(list(call.mission)).size();
            call.buffer_length = static_cast<uint32_t>(any_length_for(bytes));
        }
        if (call.kind == Kind::combine) {
            call.b = any_mission();
            call.c = any_receiver();
            call.operation = any_operation();
        }
        if (call.kind == Kind::nth) {
            call.n = any_n(static_cast<uint32_t>(list(call.mission).size()));
            call.buffer_length = random.one_of(std::vector<uint32_t>{0, 23, 24, 24, 24, 24, 24, 25, 25, 40, 40, 40});
        }
        return call;
    }

    const Names& list(uint32_t mission) const { return trial.knowledge().lists[mission % missions]; }

    uint32_t any_mission() {
        const uint32_t wrong = random.one_of(std::vector<uint32_t>{16, 17, 256, 65536, 0x80000000, 0xFFFFFFFF});
        return random.chance(3) ? wrong : random.mission();
    }

    // Mostly a mission whose list is empty.
    uint32_t any_receiver() {
        uint32_t mission = any_mission();
        for (size_t tries = random.below(8); tries > 0 && !list(mission).empty(); --tries) mission = random.mission();
        return mission;
    }

    uint32_t any_operation() {
        const uint32_t right = static_cast<uint32_t>(random.between(1, 3));
        return random.chance(95) ? right : random.one_of(std::vector<uint32_t>{0, 4, 257, 65538, 0xFFFFFFFF});
    }

    uint32_t any_n(uint32_t count) {
        switch (random.below(10)) {
            case 0: return count - 1;
            case 1: return count;
            case 2: return count + 1;
            case 3: return random.one_of(std::vector<uint32_t>{60000, 65536, 0x7FFFFFFF, 0x80000000, 0xFFFFFFFF});
            default: return static_cast<uint32_t>(random.below(std::max<size_t>(count, 1)));
        }
    }

    // The length of a buffer for so many bytes.
    size_t any_length_for(size_t bytes) {
        switch (random.below(10)) {
            case 0: return 0;
            case 1: return random.below(bytes + 1);
            case 2: return std::max<size_t>(bytes, 1) - 1;
            case 3: return bytes + 1;
            case 4: return bytes + random.below(random.chance(20) ? 2 * longest_list : 100);
            default: return bytes;
        }
    }

    std::string own_word() { return random.word(own_letters, random.between(1, longest)); }

    std::string listed_name() {
        const Names& names = list(random.mission());
        return names.empty() ? own_word() : random.one_of(names);
    }

    std::string any_name(Kind kind) {
        const size_t drawn = random.below(100);
        if (drawn < 4) return bad_name();
        if (drawn < (kind == Kind::add ? 15 : 50)) return listed_name();
        if (drawn < 70) return random.altered(listed_name(), own_letters);
        return own_word();
    }

    // A name of the list up to any of its letters, and then any letters: most leave the list there.
    std::string leaving_name(const Names& names) {
        const std::string name = names.empty() ? own_word() : random.one_of(names);
        const size_t stays = random.between(1, name.size());
        return name.substr(0, stays) + random.word(std::string(letters), random.below(longest_name + 1 - stays));
    }

    std::string any_prefix() {
        const std::string name = any_name(Kind::next);
        return random.chance(30) ? name : name.substr(0, random.below(name.size() + 1));
    }

    // One of the neighbours of the letters in the order of bytes, or any byte.
    char odd_byte() {
        const char any = static_cast<char>(random.below(256));
        return random.chance(50) ? any : random.one_of(std::string("\x2F\x3A\x40\x5B\x5E\x60\x61"));
    }

    std::string bad_name() {
        std::string name = listed_name();
        const size_t at = random.below(name.size());
        switch (random.below(4)) {
            case 0: return "";
            case 1: return random.word(own_letters, longest_name + 1);
            case 2: return random.word(own_letters, random.between(longest_name, 300));
            default: return name.replace(at, 1, 1, odd_byte());
        }
    }

    // The names as load takes them, or what is no list.
    std::string list_of(const Names& names, size_t percent_bad) {
        const std::string good = list_of_names(names);
        return random.chance(percent_bad) ? bad_list(good) : good;
    }

    using TwoLists = std::pair<Names, Names>;

    // Two lists that have these names together. Where a name stands goes by one rule up to any place and by another
    // behind it: so they may be equal, without a common name, by turns, one the front or the end of the other, with
    // common names only at the start or only at the end; and one of them may be empty.
    TwoLists in_two_lists(const Names& names) {
        const size_t cut = random.below(names.size() + 1);
        const size_t rule_before = random.below(6);
        const size_t rule_behind = random.below(6);
        TwoLists two;
        size_t place = 0;
        for (const std::string& name : names) {
            const size_t lists = lists_of_name(place < cut ? rule_before : rule_behind, place);
            if (lists % 2 == 1) two.first.insert(two.first.end(), name);
            if (lists >= 2) two.second.insert(two.second.end(), name);
            ++place;
        }
        return two;
    }

    // 1 the first, 2 the second, 3 both.
    size_t lists_of_name(size_t rule, size_t place) {
        switch (rule) {
            case 0: return 1;
            case 1: return 2;
            case 2: return 3;
            case 3: return 1 + place % 2;
            case 4: return random.between(1, 2);
            default: return random.between(1, 3);
        }
    }

    // The names of the second may also be fronts of the first's, or have nothing to do with them.
    TwoLists any_two() {
        TwoLists two = in_two_lists(any_names());
        const size_t drawn = random.below(100);
        if (drawn < 20) {
            two.second = any_names();
        } else if (drawn < 35) {
            two.second.clear();
            for (const std::string& name : two.first) two.second.insert(name.substr(0, random.between(1, name.size())));
        }
        if (random.chance(50)) std::swap(two.first, two.second);
        return two;
    }

    Names any_names() {
        const size_t drawn = random.below(100);
        const size_t room = room_of(script.length);
        if (drawn < 25 && room <= 60) return random.list_needing(room + random.below(2), own_letters, longest);
        if (drawn < 50) return nearly_all_words(random.between(1, is_large() ? 2 : 3));
        Names names;
        for (size_t left = random.between(0, std::min<size_t>(room, 100)); left > 0; --left) names.insert(own_word());
        return names;
    }

    // All words of so many letters, or all but one: these need few states, and a name less may need more.
    Names nearly_all_words(size_t length) {
        Names words = words_by(Places(length, own_letters));
        if (random.chance(50)) words.erase(random.one_of(words));
        return words;
    }

    std::string bad_list(std::string list) {
        if (list.empty()) return random.chance(50) ? "\n" : own_word();
        const size_t at = random.below(list.size());
        const size_t last_line = list.rfind('\n', list.size() - 2) + 1;  // 0, if there is one line
        switch (random.below(6)) {
            case 0: return list.substr(0, list.size() - 1);  // without the last 0x0A
            case 1: return list + list.substr(last_line);    // equal neighbours
            case 2: return list.substr(last_line) + list;    // not rising
            case 3: return list.insert(last_line, "\n");     // an empty line
            case 4: return list + std::string(longest_name + 1, letters.back()) + '\n';
            default: return list.replace(at, 1, 1, odd_byte());
        }
    }

    Random random;
    Manner manner;
    Script script;
    Trial trial;
    std::string own_letters;  // few, so that the lists share states
    size_t longest;           // of its names
    bool damaged;
    Numbers last_sound = {};
    std::deque<Call> planned = {};
};

}  // namespace

#endif
