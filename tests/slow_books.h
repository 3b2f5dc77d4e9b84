// Sound books that were written by hand so that one call takes long on them, and lists for them.

#ifndef SLOW_BOOKS_H
#define SLOW_BOOKS_H

#include "book.h"
#include <algorithm>
#include <array>
#include <functional>
#include <set>
#include <string>
#include <vector>

using Table = std::vector<uint16_t>;
using Rows = std::vector<uint16_t>;
constexpr unsigned width = 40, letters = 37, most_room = 1000;
constexpr std::size_t longest_list = 65535; // bytes that load takes
inline const std::string alphabet = "_0123456789ABCDEFGHIJKLMNOPQRSTUVWXYZ";

using Targets = std::array<uint16_t, letters>;

inline Targets all_to(uint16_t row) {
    Targets targets;
    targets.fill(row);
    return targets;
}

inline Targets with_target(Targets targets, unsigned x, uint16_t row) {
    targets[x] = row;
    return targets;
}

// A table written row by row. A row stands behind its targets: so its height is known when it is written.
class HandWritten {
  public:
    Table table = Table(BOOK_LENGTH(most_room));
    uint16_t row(const Targets &targets, uint16_t mark = 1) {
        uint16_t *const numbers = &table[++last * width];
        numbers[0] = mark;
        for (unsigned x = 0; x < letters; ++x) {
            numbers[2 + x] = targets[x];
            if (targets[x] != 0) numbers[1] = std::max<uint16_t>(numbers[1], table[targets[x] * width + 1] + 1);
        }
        return last;
    }
    void start(unsigned m, uint16_t row) { table[m] = row; }

  private:
    uint16_t last = 0;
};

// ---- combine: many pairs of rows meet, and each makes the same row ------------------------------------------------
// Fewer rows above the given ones: if any two of these meet, then by their arcs any two of the given meet. Each given
// row is at a point of the projective plane of 31 points, and each letter is a line: it leads from the rows above to
// the rows at the six points of its line, from each to another one. Any two points are on a line.
inline Rows rows_above(HandWritten &book, const Rows &given) {
    constexpr unsigned lines = 31;
    static const std::set<unsigned> first_line = {1, 5, 11, 24, 25, 27}; // the others are this one moved on
    std::array<Rows, lines> by_line;                                     // the rows on the line, and then all others
    std::ptrdiff_t most = 0;
    for (unsigned line = 0; line < lines; ++line) {
        const auto on_line = [&](uint16_t row) { return first_line.count((row + line) % lines) == 1; };
        by_line[line] = given;
        const auto others = std::stable_partition(by_line[line].begin(), by_line[line].end(), on_line);
        most = std::max(most, others - by_line[line].begin());
    }
    Rows above;
    for (std::ptrdiff_t i = 0; i < most; ++i) {
        Targets targets = {};
        for (unsigned line = 0; line < lines; ++line) targets[letters - lines + line] = by_line[line][i];
        above.push_back(book.row(targets));
    }
    return above;
}

// Gives missions 0 and 1 lists on which any two of the given rows meet.
inline void let_meet(HandWritten &book, Rows rows) {
    constexpr unsigned few = 6; // each two of them, in both orders, get a letter of the starts
    while (rows.size() > few) rows = rows_above(book, rows);
    Targets first = {}, second = {};
    unsigned x = 0;
    for (const uint16_t row : rows)
        for (const uint16_t other : rows)
            if (row != other) first[x] = row, second[x++] = other;
    book.start(0, book.row(first));
    book.start(1, book.row(second));
}

// Many rows that have a name of one letter in common, and one of two letters each that no other has. So combine makes
// the same row for the common names of any two, and it stands behind all rows of the book. It begins as most of them
// do, with no targets: who compares targets in turn finds late that a row is another one.
inline Table book_of_few_arcs() {
    constexpr unsigned many = 768, last = letters - 1; // so 993 rows, and 998 with those that combine makes
    HandWritten book;
    const uint16_t end = book.row({}, 2);
    Rows only, rows; // the row of the last letter only is what each pair makes
    for (unsigned x = 0; x < last; ++x) only.push_back(book.row(with_target({}, x, end)));
    for (unsigned i = 0; i < many; ++i)
        rows.push_back(book.row(with_target(with_target({}, last, end), last - 1 - i / last, only[i % last])));
    let_meet(book, rows);
    return book.table;
}

// Rows for all names of one letter but one, each without another.
inline Rows all_but_one(HandWritten &book, uint16_t end) {
    Rows rows;
    for (unsigned x = 0; x < letters; ++x) rows.push_back(book.row(with_target(all_to(end), x, 0)));
    return rows;
}

// Rows for all names of two letters but one, each without another.
inline Rows all_but_one_of_two(HandWritten &book, uint16_t one_letter, const Rows &but_one, unsigned many) {
    Rows rows;
    for (unsigned i = 0; i < many; ++i)
        rows.push_back(book.row(with_target(all_to(one_letter), letters - 1 - i / letters, but_one[i % letters])));
    return rows;
}

// The same for both together, where each row has all arcs: any two of the many have all names of two letters.
inline Table book_of_all_arcs() {
    constexpr unsigned many = 768; // so 995 rows, and 1,000 with those that combine makes
    HandWritten book;
    const uint16_t end = book.row({}, 2), one_letter = book.row(all_to(end));
    let_meet(book, all_but_one_of_two(book, one_letter, all_but_one(book, end), many));
    return book.table;
}

// The pairs of rows that combine settles for two missions.
inline std::size_t pairs_met(const Table &table, unsigned a, unsigned b) {
    const std::size_t rows = table.size() / width;
    std::vector<bool> met(rows * rows);
    const std::function<void(unsigned, unsigned)> meet = [&](unsigned p, unsigned q) {
        if (p == q || p == 0 || q == 0 || met[p * rows + q]) return;
        met[p * rows + q] = true;
        for (unsigned x = 0; x < letters; ++x) meet(table[p * width + 2 + x], table[q * width + 2 + x]);
    };
    meet(table[a], table[b]);
    return std::count(met.begin(), met.end(), true);
}

// ---- load: many rows are asked for, and nearly all of them are there ----------------------------------------------
// Rows in layers that begin alike: all but a few have targets for the last two letters alone. So begin the rows of the
// list below, too; none of them is in the book, so they come behind all its rows.
inline Table book_of_like_beginnings() {
    constexpr unsigned in_layer = 42, layers = BOOK_LONGEST - 1; // so 969 rows, and 995 with those that load makes
    constexpr unsigned last = letters - 1;
    HandWritten book;
    const uint16_t end = book.row({}, 2);
    Rows layer;
    for (unsigned set = 2; set < in_layer + 2; ++set) { // letters by the ones of a number; 1 is a row of the list
        Targets targets = {};
        for (unsigned i = 0; set >> i != 0; ++i) targets[last - i] = (set >> i & 1) * end;
        layer.push_back(book.row(targets));
    }
    for (unsigned height = 2; height <= layers; ++height) {
        Rows next;
        for (unsigned i = 0; i < in_layer; ++i)
            next.push_back(book.row(with_target(with_target({}, last - 1, layer[i]), last, layer[(i + 1) % in_layer])));
        layer = next;
    }
    for (unsigned m = 0; m * letters < in_layer; ++m) {
        Targets targets = {};
        std::copy(layer.begin() + m * letters, layer.begin() + std::min((m + 1) * letters, in_layer), targets.begin());
        book.start(m, book.row(targets));
    }
    return book.table;
}

// As many names of 24 letters as so many lists can have, one list or two, whose names come by turns. They differ in the
// first three letters and go on alike: so load asks for the same rows again for each.
inline std::vector<std::string> lists_that_end_alike(unsigned many) {
    const std::string end = std::string(BOOK_LONGEST - 3, alphabet.back()) + '\n';
    std::vector<std::string> lists(many);
    unsigned turn = 0;
    for (const char first : alphabet)
        for (const char second : alphabet)
            for (const char third : alphabet.substr(letters - 2 * many)) {
                std::string &list = lists[turn++ % many];
                if (list.size() + 3 + end.size() <= longest_list) list += {first, second, third}, list += end;
            }
    return lists;
}

// The rows that load asks for: one for each beginning of a name.
inline std::size_t rows_asked(const std::string &list) {
    std::set<std::string> beginnings;
    for (std::size_t from = 0, end; (end = list.find('\n', from)) != std::string::npos; from = end + 1)
        for (std::size_t length = 0; length <= end - from; ++length) beginnings.insert(list.substr(from, length));
    return beginnings.size();
}

// ---- write: many rows are entered, or very many words are counted ---------------------------------------------------
// The longest list that can be written: the names of above, and one of the bytes that they leave. From its third letter
// on each name enters rows anew, which have an arc for the last letter alone.
inline std::string longest_list_to_write() {
    const std::string list = lists_that_end_alike(1)[0];
    return list + std::string(longest_list - list.size() - 1, alphabet.back()) + '\n';
}

// Rows in layers, each with an arc to every row of the layer below. The list has nearly all names of up to 24 letters,
// more than a number of 64 bits can count.
inline Table book_of_very_many_names() {
    constexpr unsigned layers = BOOK_LONGEST - 1; // so 853 rows
    HandWritten book;
    const uint16_t end = book.row({}, 2);
    Rows layer = all_but_one(book, end);
    for (unsigned height = 2; height <= layers; ++height) {
        Rows next;
        for (unsigned i = 0; i < letters; ++i) {
            Targets targets;
            for (unsigned x = 0; x < letters; ++x) targets[x] = layer[(i + x) % letters];
            next.push_back(book.row(targets, 2));
        }
        layer = next;
    }
    Targets targets;
    std::copy(layer.begin(), layer.end(), targets.begin());
    book.start(0, book.row(targets));
    return book.table;
}

// The arcs of all rows.
inline std::size_t arcs_of(const Table &table) {
    std::size_t arcs = 0;
    for (std::size_t row = 1; row < table.size() / width; ++row)
        arcs += letters - std::count(&table[row * width + 2], &table[row * width + 2 + letters], 0);
    return arcs;
}

// ---- combine where the index is of no use -------------------------------------------------------------------------
// The index finds a row by a key of 16 bits (crates/index/src/keys.rt): the mark and the targets, each times a factor,
// are added, and the key is half of the lower 32 bits. It looks in turn at the rows that have the key.
constexpr uint32_t mark_factor = 2654435761;

inline uint32_t factor(unsigned x) {
    const uint32_t root = x * 2654435761 + 1640531527;
    return root * root;
}

// Finds targets that lead to `whole` but with three letters, and have the key of those that lead there with all.
class OneKey {
  public:
    OneKey(uint16_t whole, const Rows &parts) : whole(whole), sum(mark_factor) {
        unused.fill(parts);
        for (unsigned x = 0; x < letters; ++x) sum += whole * factor(x);
    }
    // The first of the three letters is given. No letter leads to a part that it led to before.
    bool find(unsigned x, Targets &targets) {
        targets = all_to(whole);
        return turn_off(x, sum, 3, targets);
    }

  private:
    const uint16_t whole;
    uint32_t sum; // of the mark and all targets to `whole`
    std::array<Rows, letters> unused;

    bool turn_off(unsigned x, uint32_t m, unsigned letters_left, Targets &targets) {
        for (auto part = unused[x].begin(); part != unused[x].end(); ++part)
            if (go_on(x + 1, m + (*part - whole) * factor(x), letters_left - 1, targets)) {
                targets[x] = *part;
                unused[x].erase(part);
                return true;
            }
        return false;
    }
    bool go_on(unsigned x, uint32_t m, unsigned letters_left, Targets &targets) {
        if (letters_left == 0) return m >> 16 == sum >> 16;
        for (; x < letters; ++x)
            if (turn_off(x, m, letters_left, targets)) return true;
        return false;
    }
};

// As book_of_all_arcs, for names of three letters. All of the many have the key of the row that each pair makes, and
// that row is in the book, before them.
inline Table book_of_one_key() {
    constexpr unsigned many = 690, some = 80; // so 982 rows, and 986 with those that combine makes
    HandWritten book;
    const uint16_t end = book.row({}, 2), one_letter = book.row(all_to(end));
    const uint16_t two_letters = book.row(all_to(one_letter));
    OneKey one_key(two_letters, all_but_one_of_two(book, one_letter, all_but_one(book, end), some));
    book.start(2, book.row(all_to(two_letters)));
    Rows rows;
    Targets targets;
    for (unsigned x = letters; x-- > 0;)
        while (rows.size() < many && one_key.find(x, targets)) rows.push_back(book.row(targets));
    let_meet(book, rows);
    return book.table;
}

#endif
