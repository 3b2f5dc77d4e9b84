// desk.h: a second reading of what the desk program prints, and random inputs for it.
#ifndef COMPARE_DESK_H
#define COMPARE_DESK_H

#include "calls.h"
#include "names.h"
#include "random.h"
#include "table.h"

#include "book.h"

#include <array>
#include <cstddef>
#include <cstdint>
#include <optional>
#include <string>
#include <string_view>

namespace {

constexpr size_t desk_room = 486;
constexpr size_t longest_input = 8192;

// "A line is `+`, `-`, `?` or `L`, a space, two decimal digits for the mission and, but for `L`, a space and then
// the name, which is the rest of the line, has no space in it and may be of no bytes".
std::optional<Call> call_of_line(const std::string& line) {
    constexpr std::string_view signs = "+-?L";
    constexpr std::array<Kind, 4> kinds = {Kind::add, Kind::remove, Kind::ask, Kind::count};
    const auto is_digit = [](char byte) { return '0' <= byte && byte <= '9'; };
    if (line.size() < 4 || line[1] != ' ' || !is_digit(line[2]) || !is_digit(line[3])) return std::nullopt;
    const size_t sign = signs.find(line[0]);
    if (sign == std::string_view::npos) return std::nullopt;
    Call call{kinds[sign], static_cast<uint32_t>((line[2] - '0') * 10 + line[3] - '0')};
    if (call.kind == Kind::count) return line.size() == 4 ? std::optional(call) : std::nullopt;
    if (line.size() == 4 || line[4] != ' ' || line.find(' ', 5) != std::string::npos) return std::nullopt;
    call.bytes = line.substr(5);
    return call;
}

// "It prints the line, a space, the number, a space, the value. After `L` with number 0 the names follow in order,
// one per line. For any other line it prints `! ` and the line's number from 1."
std::string answer_to_line(const std::string& line, size_t line_number, Known& known) {
    const std::optional<Call> call = call_of_line(line);
    if (!call) return "! " + std::to_string(line_number) + '\n';
    const Answer answer = expected_answer(*call, known, Table(nullptr, 0));
    if (answer.number == 0) carry_out(*call, known);
    const bool names_follow = call->kind == Kind::count && answer.number == 0;
    return line + ' ' + std::to_string(answer.number) + ' ' + std::to_string(answer.value) + '\n' +
           (names_follow ? list_of_names(known.lists[call->mission]) : "");
}

std::string desk_output(std::string input) {
    if (input.size() > longest_input) return "! long\n";
    // "A last line without an end is read as if it had one."
    if (!input.empty() && input.back() != '\n') input += '\n';
    Known known{BOOK_LENGTH(desk_room)};
    std::string output;
    size_t line_number = 0;
    for (size_t from = 0, end; from < input.size(); from = end + 1) {
        end = input.find('\n', from);
        output += answer_to_line(input.substr(from, end - from), ++line_number, known);
    }
    return output;
}

// A random input for the desk program. The seed's last digit says of what kind: 0 empty; 1 and 2 of 8,192 and
// 8,193 bytes; 3 and 4 with names that fill the room; the others of any length, on few letters.
class DeskInput {
public:
    explicit DeskInput(uint64_t seed) : kind(seed % 10), random(seed), fills(kind == 3 || kind == 4) {
        own_letters = random.some_letters(fills ? 20 : random.between(1, 3));
    }

    std::string lines() {
        const size_t any_length = random.between(1, longest_input);
        const size_t length = kind == 0 ? 0 : kind == 2 ? longest_input + 1 : kind <= 4 ? longest_input : any_length;
        std::string made;
        while (made.size() < length) made += (random.chance(12) ? odd_line() : line()) + '\n';
        made.resize(length);
        if (length != 0 && random.chance(50)) made.back() = '\n';
        return made;
    }

private:
    std::string two_digits() {
        const size_t drawn = random.below(100);
        const size_t mission = drawn < 80 ? random.below(3) : drawn < 95 ? random.mission() : random.between(16, 99);
        return std::to_string(mission / 10) + std::to_string(mission % 10);
    }

    std::string line() {
        const char sign = random.one_of(std::string(fills ? "++++++++-?L" : "++++---?LL"));
        const std::string start = sign + (' ' + two_digits());
        const size_t length = fills ? longest_name : random.between(1, 4);
        return sign == 'L' ? start : start + ' ' + random.word(own_letters, length);
    }

    std::string odd_line() {
        std::string good = line();
        const size_t at = random.below(good.size());
        const std::string start = random.one_of(std::string("+-?L")) + std::string(" 00");
        const std::string byte(1, static_cast<char>(random.below(256)));
        switch (random.below(14)) {
            case 0: return "";
            case 1: return byte + good.substr(1);
            case 2: return good.erase(1, 1);
            case 3: return good.erase(2, 1);
            case 4: return good.insert(2, "0");
            case 5: return good.replace(3, 1, "A");
            case 6: return good.replace(at, 1, byte);
            case 7: return good + ' ';
            case 8: return good + " A";
            case 9: return good + '\r';
            case 10: return good + byte;
            case 11: return start;
            case 12: return start + ' ';
            default: return start + ' ' + random.word(own_letters, longest_name + random.below(2));
        }
    }

    size_t kind;
    Random random;
    bool fills;
    std::string own_letters;
};

}  // namespace

#endif
