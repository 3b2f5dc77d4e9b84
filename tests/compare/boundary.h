// boundary.h: a call made through the C functions, with all that is lent to it between things that it must not touch.
#ifndef COMPARE_BOUNDARY_H
#define COMPARE_BOUNDARY_H

#include "calls.h"
#include "journal.h"
#include "table.h"

#include "book.h"

#include <algorithm>
#include <cstddef>
#include <cstdint>
#include <string>
#include <vector>

namespace {

// Numbers or bytes for the library, in the middle of others that no call may touch.
template <typename T>
class Lent {
public:
    Lent(size_t length, T inside, T outside) : all(length + 2 * margin, outside), around(outside) {
        std::fill_n(data(), length, inside);
    }

    T* data() { return all.data() + margin; }
    const T* data() const { return all.data() + margin; }
    size_t size() const { return all.size() - 2 * margin; }

    bool outside_stays() const {
        const auto stays = [&](const T* first) { return std::count(first, first + margin, around) == margin; };
        return stays(all.data()) && stays(data() + size());
    }

private:
    static constexpr std::ptrdiff_t margin = 2 * row_length;
    std::vector<T> all;
    T around;
};

// Outside the table all numbers are 2: a row that is read there is one where a name may end.
Lent<uint16_t> lent_table(size_t length) {
    return {length, 0, 2};
}

Lent<char> lent_bytes(const std::string& inside, char outside) {
    Lent<char> lent(inside.size(), 0, outside);
    std::copy(inside.begin(), inside.end(), lent.data());
    return lent;
}

uint64_t call_library(const Call& call, Lent<uint16_t>& table, const char* its_bytes, const char* its_second,
                      char* its_buffer, uint32_t* followed, uint64_t* following) {
    const Clocked clocked;
    uint16_t* const first = table.data();
    const size_t length = table.size();
    const uint8_t* const bytes = reinterpret_cast<const uint8_t*>(its_bytes);
    const size_t bytes_length = call.bytes.size();
    const uint8_t* const second = reinterpret_cast<const uint8_t*>(its_second);
    const size_t second_length = call.second.size();
    uint8_t* const buffer = reinterpret_cast<uint8_t*>(its_buffer);
    switch (call.kind) {
        case Kind::empty: return book_empty(first, length);
        case Kind::check: return book_check(first, length);
        case Kind::ask: return book_ask(first, length, call.mission, bytes, bytes_length, followed);
        case Kind::next: return book_next(first, length, call.mission, bytes, bytes_length, following);
        case Kind::add: return book_add(first, length, call.mission, bytes, bytes_length);
        case Kind::remove: return book_remove(first, length, call.mission, bytes, bytes_length);
        case Kind::clear: return book_clear(first, length, call.mission);
        case Kind::load: return book_load(first, length, call.mission, bytes, bytes_length);
        case Kind::load_two:
            return book_load_two(first, length, call.mission, bytes, bytes_length, second, second_length);
        case Kind::combine: return book_combine(first, length, call.operation, call.mission, call.b, call.c);
        case Kind::count: return book_count(first, length, call.mission);
        case Kind::rank: return book_rank(first, length, call.mission, bytes, bytes_length);
        case Kind::nth: return book_nth(first, length, call.mission, call.n, buffer, call.buffer_length);
        case Kind::write: return book_write(first, length, call.mission, buffer, call.buffer_length);
        default: return book_used(first, length);
    }
}

struct Made {
    Answer answer;
    bool stayed_inside;  // wrote nothing but the table, the buffer, the arcs followed and the letters
};

// The two lists of a call may overlap: where the second is the end of the first, it is lent as that.
const char* lent_second(const Call& call, const Lent<char>& bytes, const Lent<char>& second) {
    if (second.size() > bytes.size()) return second.data();
    const size_t before = bytes.size() - second.size();
    return call.bytes.compare(before, second.size(), call.second) == 0 ? bytes.data() + before : second.data();
}

Made made_by_library(const Call& call, Lent<uint16_t>& table) {
    const char outside = may_be_refused_by(4, call.kind) ? 'A' : '\n';  // names and lists would go on there
    const Lent<char> bytes = lent_bytes(call.bytes, outside);
    const Lent<char> second = lent_bytes(call.second, outside);
    Lent<char> buffer = lent_bytes(buffer_before(call), '\xC3');
    Lent<uint32_t> followed(1, ~uint32_t{0}, ~uint32_t{0});
    Lent<uint64_t> following(1, ~uint64_t{0}, ~uint64_t{0});
    const uint64_t both = call_library(call, table, bytes.data(), lent_second(call, bytes, second), buffer.data(),
                                       followed.data(), following.data());
    Answer answer{BOOK_NUMBER(both), BOOK_VALUE(both)};
    if (call.kind == Kind::ask) answer.followed = *followed.data();
    if (call.kind == Kind::next) answer.letters = *following.data();
    answer.buffer.assign(buffer.data(), buffer.size());
    return {answer, table.outside_stays() && bytes.outside_stays() && second.outside_stays() &&
                        buffer.outside_stays() && followed.outside_stays() && following.outside_stays() &&
                        std::equal(call.bytes.begin(), call.bytes.end(), bytes.data()) &&
                        std::equal(call.second.begin(), call.second.end(), second.data())};
}

}  // namespace

#endif
