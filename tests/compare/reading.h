// reading.h: scripts read as tests/scripts/README.md says; the sentences in quotes are from there.
#ifndef COMPARE_READING_H
#define COMPARE_READING_H

#include "calls.h"
#include "names.h"
#include "table.h"
#include "writing.h"

#include "book.h"

#include <algorithm>
#include <charconv>
#include <cstddef>
#include <cstdint>
#include <istream>
#include <optional>
#include <stdexcept>
#include <string>
#include <string_view>
#include <system_error>
#include <utility>
#include <variant>
#include <vector>

namespace {

constexpr size_t longest_table = 100000 * row_length;  // that a script may lend
constexpr uint32_t longest_buffer = 1000000;

// Why a line cannot be read.
struct Unreadable : std::runtime_error {
    using std::runtime_error::runtime_error;
};

std::string quoted(const std::string& text) {
    return '`' + shown(text) + '`';
}

std::vector<std::string> split(std::string_view text, char between) {
    std::vector<std::string> parts(1);
    for (const char byte : text) {
        if (byte == between) parts.emplace_back();
        else parts.back() += byte;
    }
    return parts;
}

std::optional<uint64_t> number_of(const std::string& text) {
    uint64_t number = 0;
    const auto [end, error] = std::from_chars(text.data(), text.data() + text.size(), number);
    return error == std::errc() && end == text.data() + text.size() ? std::optional(number) : std::nullopt;
}

uint64_t number_between(uint64_t least, uint64_t most, const std::string& text) {
    const std::optional<uint64_t> number = number_of(text);
    if (number && least <= *number && *number <= most) return *number;
    throw Unreadable(quoted(text) + " is no number from " + std::to_string(least) + " to " + std::to_string(most));
}

// `A`, or `A-F`: "the letters from A to F".
std::string_view letters_of(const std::string& text) {
    const bool is_range = text.size() == 3 && text[1] == '-';
    if (text.size() == 1 || is_range) {
        const size_t first = letter_number(text.front());
        const size_t last = letter_number(text.back());
        if (first <= last && last != no_letter) return letters.substr(first, last - first + 1);
    }
    throw Unreadable(quoted(text) + " are no letters");
}

// "`words(N,A-F,0-9)` is the first N words whose letters are from A to F and from 0 to 9, each followed by 0x0A."
std::string words_of(const std::string& inside) {
    const std::vector<std::string> parts = split(inside, ',');
    const size_t wanted = number_between(0, most_held, parts[0]);
    Places places;
    for (size_t i = 1; i < parts.size(); ++i) places.push_back(letters_of(parts[i]));
    const Names words = words_by(places, wanted);
    if (places.empty() || words.size() < wanted) throw Unreadable("there are not so many words(" + inside + ")");
    return list_of_names(words);
}

// "`\n` is 0x0A, `\x61` the byte 0x61": the byte that is meant by what stands behind a `\`.
char escaped_byte(std::string_view behind) {
    if (behind.substr(0, 1) == "n") return '\n';
    const std::string_view digits = behind.substr(0, 1) == "x" ? behind.substr(1, 2) : "";
    const char* const digits_end = digits.data() + digits.size();
    unsigned code = 0;
    const auto [end, error] = std::from_chars(digits.data(), digits_end, code, 16);
    if (digits.size() == 2 && end == digits_end && error == std::errc()) return static_cast<char>(code);
    throw Unreadable("what stands behind a \\ is neither n nor x and two digits");
}

// "Names, prefixes and lists are bytes."
std::string bytes_of(const std::string& text) {
    constexpr std::string_view words = "words(";
    if (text == "\"\"") return "";
    std::string bytes;
    for (size_t at = 0; at < text.size();) {
        const std::string_view left = std::string_view(text).substr(at);
        if (left.substr(0, words.size()) == words) {
            const size_t end = left.find(')');
            if (end == std::string_view::npos) throw Unreadable("`)` is missing");
            bytes += words_of(std::string(left.substr(words.size(), end - words.size())));
            at += end + 1;
        } else if (left[0] == '\\') {
            bytes += escaped_byte(left.substr(1));
            at += left[1] == 'n' ? 2 : 4;
        } else if (is_printed(left[0]) && left[0] != '"') {
            bytes += left[0];
            at += 1;
        } else {
            throw Unreadable("a byte is not printed and must be written with \\x");
        }
    }
    return bytes;
}

// The words of a line, taken one after another. "Words stand apart by one or more spaces."
class Words {
public:
    explicit Words(const std::string& line) : words(split(line, ' ')) {
        words.erase(std::remove(words.begin(), words.end(), ""), words.end());
    }

    bool are_left() const { return taken < words.size(); }

    std::string take(const std::string& what) {
        if (!are_left()) throw Unreadable(what + " is missing");
        return words[taken++];
    }

    void take_word(const std::string& word) {
        const std::string found = take(quoted(word));
        if (found != word) throw Unreadable(quoted(found) + " in place of " + quoted(word));
    }

    uint64_t take_number(uint64_t least, uint64_t most) { return number_between(least, most, take("a number")); }

    void take_into(uint32_t& number) { number = static_cast<uint32_t>(take_number(0, UINT32_MAX)); }
    void take_into(std::string& bytes) { bytes = bytes_of(take("a name, prefix or list")); }

private:
    std::vector<std::string> words;
    size_t taken = 0;
};

// What stands behind `->`. The bytes of a buffer behind the name or the list stay.
Answer taken_answer(const Call& call, Words& words) {
    Answer answer;
    answer.number = static_cast<uint32_t>(words.take_number(0, last_refusal));
    if (call.kind == Kind::next) answer.letters = words.take_number(0, (uint64_t{1} << letters.size()) - 1);
    words.take_into(answer.value);
    if (call.kind == Kind::ask) words.take_into(answer.followed);
    answer.buffer = buffer_before(call);
    if (writes_to_buffer(call.kind) && answer.number == 0) {
        const std::string written = bytes_of(words.take("the name or the list"));
        if (written.size() != answer.value) throw Unreadable("the name or the list has not so many bytes");
        if (written.size() > call.buffer_length) throw Unreadable("the buffer has not so many bytes");
        answer.buffer.replace(0, written.size(), written);
    }
    return answer;
}

// Reads a file: every `room` begins a script.
class ScriptReader {
public:
    // "`#` and what stands behind it is a comment. A line that ends in `\` goes on in the next one."
    std::vector<Script> read(std::istream& text) {
        std::string line;
        bool goes_on = false;
        size_t number = 0;
        for (std::string part; std::getline(text, part);) {
            ++number;
            if (!goes_on) line_number = number;
            part.erase(std::min(part.find('#'), part.size()));
            part.erase(part.find_last_not_of(' ') + 1);
            goes_on = !part.empty() && part.back() == '\\';
            line += part.substr(0, part.size() - (goes_on ? 1 : 0));
            if (goes_on) continue;
            read_line(Words(line));
            line.clear();
        }
        if (goes_on) throw Unreadable("a \\ at the end of the file");
        if (calls == 0) throw Unreadable("there is no call");
        return std::move(scripts);
    }

    // Where it reads: the first line of those that go on in one another.
    size_t at_line() const { return line_number; }

private:
    void read_line(Words words) {
        if (!words.are_left()) return;
        const std::string word = words.take("a word");
        if (word == "room") begin(words.take_number(1, largest_room));
        else if (scripts.empty()) throw Unreadable(quoted(word) + " before the first `room`");
        else if (word == "length") change_length(words);
        else if (word == "number") change_number(words);
        else if (word == "numbers") change_numbers(words);
        else if (word == "start") change_start(words);
        else if (word == "row") change_row(words);
        else if (word == "many") say_many_names(words);
        else add_call(word, words);
        if (words.are_left()) throw Unreadable(quoted(words.take("a word")) + " is too much");
    }

    void begin(size_t room) {
        length = BOOK_LENGTH(room);
        scripts.push_back({length});
    }

    Call& add(Kind kind) {
        Call& call = scripts.back().calls.emplace_back();
        call.kind = kind;
        call.line = line_number;
        return call;
    }

    void change_length(Words& words) {
        length = words.take_number(0, longest_table);
        add(Kind::length).length = length;
    }

    // All changes between two calls are one step: the table is read when they are all made.
    void change(size_t index, uint64_t value) {
        std::vector<Call>& steps = scripts.back().calls;
        Call& last = !steps.empty() && steps.back().kind == Kind::numbers ? steps.back() : add(Kind::numbers);
        last.changes.push_back({index, static_cast<uint16_t>(value)});
    }

    void be_inside(size_t index) const {
        if (index >= length) throw Unreadable("number " + std::to_string(index) + " is outside the table");
    }

    void change_number(Words& words) {
        const size_t index = words.take_number(0, longest_table);
        be_inside(index);
        words.take_word("becomes");
        change(index, words.take_number(0, UINT16_MAX));
    }

    void change_numbers(Words& words) {
        const size_t first = words.take_number(0, longest_table);
        words.take_word("to");
        const size_t last = words.take_number(first, longest_table);
        be_inside(last);
        words.take_word("become");
        const uint64_t value = words.take_number(0, UINT16_MAX);
        for (size_t index = first; index <= last; ++index) change(index, value);
    }

    void change_start(Words& words) {
        const size_t mission = words.take_number(0, missions - 1);
        be_inside(mission);
        words.take_word("becomes");
        change(mission, words.take_number(0, UINT16_MAX));
    }

    // "all forty numbers of a state row; those that are not named are 0"
    void change_row(Words& words) {
        const size_t row = words.take_number(1, longest_table);
        be_inside(row * row_length + last_number);
        words.take_word("becomes");
        Numbers numbers(row_length);
        if (const std::string first = words.take("a mark"); first != "free") {
            numbers[0] = static_cast<uint16_t>(number_between(0, UINT16_MAX, first));
            numbers[1] = static_cast<uint16_t>(words.take_number(0, UINT16_MAX));
            while (words.are_left()) put_arc(words.take("an arc"), numbers);
        }
        for (size_t i = 0; i < row_length; ++i) change(row * row_length + i, numbers[i]);
    }

    // "An arc is `A>7`, letter A to row 7, or `A-F>7`, the letters from A to F, all to row 7."
    static void put_arc(const std::string& arc, Numbers& numbers) {
        const std::vector<std::string> parts = split(arc, '>');
        if (parts.size() != 2) throw Unreadable(quoted(arc) + " is no arc");
        const uint64_t target = number_between(0, UINT16_MAX, parts[1]);
        for (const char letter : letters_of(parts[0])) {
            numbers[first_target + letter_number(letter)] = static_cast<uint16_t>(target);
        }
    }

    void say_many_names(Words& words) {
        words.take_word("names");
        add(Kind::many_names);
    }

    void add_call(const std::string& word, Words& words) {
        const auto found = std::find_if(book_calls.begin(), book_calls.end(),
                                        [&](const BookCall& book_call) { return book_call.word == word; });
        if (found == book_calls.end()) throw Unreadable("the unknown word " + quoted(word));
        Call& call = add(static_cast<Kind>(found - book_calls.begin()));
        for (const Argument& argument : found->arguments) {
            std::visit([&](auto member) { words.take_into(call.*member); }, argument);
        }
        if (call.buffer_length > longest_buffer) throw Unreadable("no buffer has so many bytes");
        words.take_word("->");
        call.stored = taken_answer(call, words);
        ++calls;
    }

    std::vector<Script> scripts;
    size_t length = 0;  // of the table at this line
    size_t line_number = 1;
    size_t calls = 0;
};

}  // namespace

#endif
