// writing.h: calls, answers and changes of the table as tests/scripts/README.md writes them.
#ifndef COMPARE_WRITING_H
#define COMPARE_WRITING_H

#include "calls.h"
#include "names.h"
#include "sets.h"
#include "table.h"

#include <cstddef>
#include <cstdint>
#include <string>
#include <string_view>
#include <variant>

namespace {

bool is_printed(char byte) {
    return byte > ' ' && byte <= '~';
}

std::string shown(uint32_t number) {
    return std::to_string(number);
}

// "A printed byte stands for itself", but for those that mean something in a script; `(` is in `words(`.
std::string shown(const std::string& bytes) {
    constexpr std::string_view digits = "0123456789ABCDEF";
    constexpr std::string_view meaning = "\"#\\(";
    std::string text;
    for (const char byte : bytes) {
        const unsigned code = static_cast<unsigned char>(byte);
        if (byte == '\n') text += "\\n";
        else if (is_printed(byte) && meaning.find(byte) == std::string_view::npos) text += byte;
        else text = text + "\\x" + digits[code / 16] + digits[code % 16];
    }
    return bytes.empty() ? "\"\"" : text;
}

// A text that can be read, also where a list has thousands of names.
std::string brief(const std::string& text) {
    constexpr size_t most = 200;
    return text.size() <= most ? text : text.substr(0, most) + " ..";
}

std::string shown(const Call& call) {
    std::string line = book_call(call.kind).word;
    for (const Argument& argument : book_call(call.kind).arguments) {
        line += ' ' + std::visit([&](auto member) { return shown(call.*member); }, argument);
    }
    return line;
}

// What stands behind `->`: "`-> NUMBER VALUE`", ask "`-> NUMBER VALUE FOLLOWED`", next "`-> NUMBER LETTERS COUNT`",
// nth "and the name where it is done", write "and the list where it is done".
std::string shown(const Answer& answer, Kind kind) {
    std::string text = std::to_string(answer.number);
    if (kind == Kind::next) text += ' ' + std::to_string(answer.letters);
    text += ' ' + std::to_string(answer.value);
    if (kind == Kind::ask) text += ' ' + std::to_string(answer.followed);
    if (writes_to_buffer(kind) && answer.number == 0) text += ' ' + shown(answer.buffer.substr(0, answer.value));
    return text;
}

std::string shown(const Call& call, const Answer& answer) {
    return shown(call) + " -> " + shown(answer, call.kind);
}

// "`row R becomes MARK HEIGHT ARC ..`"; letters one after another that lead to the same row are one arc.
std::string line_of_row(const Table& table, size_t row) {
    std::string line = "row " + std::to_string(row) + " becomes " + std::to_string(table.mark(row)) + ' ' +
                       std::to_string(table.height(row));
    for (size_t x = 0, end; x < letters.size(); x = end) {
        const uint16_t target = table.target(row, x);
        for (end = x + 1; end < letters.size() && table.target(row, end) == target;) ++end;
        if (target == 0) continue;
        line = line + ' ' + letters[x] + (end > x + 1 ? std::string{'-', letters[end - 1]} : "") + '>' +
               std::to_string(target);
    }
    return line + '\n';
}

// A table, begun anew. One that has no room begins as another and gets its length.
std::string lines_of_table(const Numbers& numbers) {
    const size_t length = numbers.size();
    const Table table(numbers.data(), length);
    const std::string other = "1\nlength " + std::to_string(length);
    std::string lines = "room " + (is_slice(length) ? std::to_string(room_of(length)) : other) + '\n';
    for (size_t i = 0; i < length; ++i) {
        const size_t row = i / row_length;
        const bool in_row = row != 0 && (row + 1) * row_length <= length && i % row_length != last_number;
        if (in_row && i % row_length == 0 && !table.is_zero(row, 0)) lines += line_of_row(table, row);
        if (numbers[i] == 0 || in_row) continue;
        lines += i < missions ? "start " : "number ";
        lines += std::to_string(i) + " becomes " + std::to_string(numbers[i]) + '\n';
    }
    return lines;
}

}  // namespace

#endif
