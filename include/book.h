/*
 * book.h: sixteen lists of names, one for each mission, in one table of 16-bit numbers.
 *
 * For the author of a script host. `./library` makes target/book/libbook.a, for programs on x86-64 Linux,
 * with this header beside it, and prints the line to link with. The functions are written in Rattle and
 * proved: every call ends, stays inside what was lent to it, and answers as sixteen plain sets of names do.
 *
 * The table. The host lends it to every call: `length` numbers from `table` on. A table for a room of
 * r states, r from 1 to 1,000, has BOOK_LENGTH(r) numbers. The book lives in the table and nowhere
 * else: nothing is kept between calls, so it may be copied, written to a file and read back as it is.
 * A new table becomes a book by book_empty. The table may hold any numbers: a call refuses what is no
 * book, and never reads or writes outside the table.
 *
 * Who owns what. All memory is the host's. A call writes to the table only where its parameter is not
 * const, to the answer buffer, to *followed and to *letters, and keeps no pointer. A pointer must not be
 * null, also where its length is 0, must be aligned for its type, and `length` numbers or bytes behind it
 * must be the host's. While a call runs nothing else may write what it was lent, and what it writes (a
 * table that is not const, a buffer, *followed, *letters) must not overlap anything else that it was
 * lent. The two lists of load_two are only read, so they may overlap each other. Two threads may read one
 * table at the same time.
 *
 * Names are bytes, without an end: 1 to 24 letters. The letters are `_`, `0` to `9` and `A` to `Z`, with
 * the numbers 0, 1 to 10 and 11 to 36, and names are ordered by these: `_` stands before `0`, though its
 * byte stands behind that of `Z`. So a list that was sorted by bytes, as by strcmp, need not be one that
 * load takes. Any bytes may be given; what is no name is refused. Missions are 0 to 15.
 *
 * Old tables. In an earlier library the digits had the numbers 0 to 9, `A` to `Z` 10 to 35, and `_` 36. A
 * table that it left is not read as it was meant, and no call can tell: a row has a place for each number, so
 * the table is as sound as it was, and in each name the letters become those that have their numbers now,
 * SLEW becomes RKDV. Let the earlier library write the lists, sort them by the new order, and load them.
 *
 * The answer is number * 2^32 + value; BOOK_NUMBER and BOOK_VALUE take it apart. Number 0 is done. Any
 * other number is a refusal: the value is 0, *followed or *letters becomes 0, and the table and the
 * answer buffer are as they were. Of the refusals that apply, the lowest is given; but book_write tests 1,
 * 2, 7, then 5, then 6, and the first of this order is given, since only a sound book has a list to write:
 *
 *    1  the length is not BOOK_LENGTH(r) for a room r from 1 to 1,000     all
 *    2  a mission number over 15                                          all with one
 *    3  the operation is not 1, 2 or 3                                    combine
 *    4  no name (next: no prefix, 0 to 24 letters)                        ask next add remove rank
 *    5  no list (load_two: either is none)                                load load_two
 *       the list needs over 65,535 bytes                                  write
 *    6  the answer buffer has under 24 bytes                              nth
 *       the answer buffer has fewer bytes than the list needs             write
 *    7  the table is not a sound book                                     all but empty ask next
 *    8  the receiving list is not empty                                   load load_two combine
 *    9  the list has over 60,000 names                                    count rank nth
 *   10  n is not under the count                                          nth
 *   11  the sixteen lists after the change need more states than room     add remove load load_two combine
 *
 * Stack. combine keeps a table of pairs on the stack, 2,105,352 bytes; with its frames it was measured to
 * take under 2,120,000. Call it from a thread with 4 MiB of stack or more. The other calls were measured
 * to take under 24 KiB, load and load_two the most. This is measured and not proved.
 *
 * An example, a whole program. It prints "0 1", "11 0", "0 1 SLEW":
 *
 *     #include "book.h"
 *     #include <stdio.h>
 *
 *     int main(void)
 *     {
 *         static uint16_t table[BOOK_LENGTH(5)];   // room for five states
 *         const size_t length = BOOK_LENGTH(5);
 *         uint8_t name[BOOK_LONGEST];
 *
 *         book_empty(table, length);
 *         uint64_t add = book_add(table, length, 0, (const uint8_t *)"SLEW", 4);
 *         printf("%u %u\n", BOOK_NUMBER(add), BOOK_VALUE(add));
 *         uint64_t full = book_add(table, length, 1, (const uint8_t *)"RATE", 4);
 *         printf("%u %u\n", BOOK_NUMBER(full), BOOK_VALUE(full));
 *         uint64_t count = book_count(table, length, 0);
 *         uint64_t nth = book_nth(table, length, 0, 0, name, sizeof name);
 *         printf("%u %u %.*s\n", BOOK_NUMBER(count), BOOK_VALUE(count), (int)BOOK_VALUE(nth), (const char *)name);
 *         return 0;
 *     }
 */
#ifndef BOOK_H
#define BOOK_H

#include <stddef.h>
#include <stdint.h>

/* How many numbers the table for a room has, and how many letters the longest name. */
#define BOOK_LENGTH(room) (((room) + 26) * 40)
#define BOOK_LONGEST 24

/* The number and the value of an answer. */
#define BOOK_NUMBER(answer) ((uint32_t)((answer) >> 32))
#define BOOK_VALUE(answer) ((uint32_t)(answer))

#ifdef __cplusplus
extern "C" {
#endif

/* Make an empty book: every number becomes 0. Value 0. */
uint64_t book_empty(uint16_t *table, size_t length);

/* Is it a sound book? Number 0 if it is. Value 0. */
uint64_t book_check(const uint16_t *table, size_t length);

/* Is the name on the mission's list? Value 1 or 0. *followed is how far the name got: the length of its
   longest prefix that some name on the list begins with, 0 for an empty list. On a refusal it is 0. On
   any numbers: where the table is not sound, what the walk over its numbers finds, and *followed is the
   number of letters whose target is a row. */
uint64_t book_ask(const uint16_t *table, size_t length, uint32_t mission, const uint8_t *name, size_t name_length, uint32_t *followed);

/* Which letters may follow the prefix on the mission's list? The value is how many they are; *letters
   is their set: bit x for letter x, `_` 0, digits from 1, capitals from 11. On a refusal it is 0. The
   prefix has 0 to 24 letters. On any numbers, as ask. */
uint64_t book_next(const uint16_t *table, size_t length, uint32_t mission, const uint8_t *prefix, size_t prefix_length, uint64_t *letters);

/* Put the name on the mission's list, or take it off. Value 1 if the list changed, else 0, and then no
   number of the table changed. Taking a name off may need more states, too. */
uint64_t book_add(uint16_t *table, size_t length, uint32_t mission, const uint8_t *name, size_t name_length);
uint64_t book_remove(uint16_t *table, size_t length, uint32_t mission, const uint8_t *name, size_t name_length);

/* Take all names off the mission's list. Value 1 if there were any, else 0. */
uint64_t book_clear(uint16_t *table, size_t length, uint32_t mission);

/* Put all names of a list on the mission's list, which must be empty. The list is bytes: each name
   followed by 0x0A, names strictly rising (`_` before `0`), at most 65,535 bytes. The value is the number
   of names. */
uint64_t book_load(uint16_t *table, size_t length, uint32_t mission, const uint8_t *list, size_t list_length);

/* Put all names of two lists on the mission's list, which must be empty. Each is a list as load takes it,
   of at most 65,535 bytes, so that they may have 131,070 together; either may be empty. A name that both
   have is put there once. The value is the number of different names. */
uint64_t book_load_two(uint16_t *table, size_t length, uint32_t mission, const uint8_t *first, size_t first_length,
                       const uint8_t *second, size_t second_length);

/* Combine the lists of missions a and b into the list of mission c, which must be empty. Operation 1:
   both together, 2: the common names, 3: the names of a that b has not. Value 1 if the result has a
   name, else 0. Takes over 2 MB of stack. */
uint64_t book_combine(uint16_t *table, size_t length, uint32_t operation, uint32_t a, uint32_t b, uint32_t c);

/* The number of names on the mission's list. */
uint64_t book_count(const uint16_t *table, size_t length, uint32_t mission);

/* How many names of the mission's list stand before the name, which need not be on it. */
uint64_t book_rank(const uint16_t *table, size_t length, uint32_t mission, const uint8_t *name, size_t name_length);

/* The name of the mission's list that has n names before it, written to the front of the buffer, which
   has at least 24 bytes; later bytes stay. The value is its length. */
uint64_t book_nth(const uint16_t *table, size_t length, uint32_t mission, uint32_t n, uint8_t *buffer, size_t buffer_length);

/* Write the mission's list to the front of the buffer, as bytes that load takes back: each name followed by
   0x0A, in order; later bytes stay. The value is the number of bytes, which is 0 for an empty list and at
   most 65,535: such a buffer is large enough for every list that can be written. */
uint64_t book_write(const uint16_t *table, size_t length, uint32_t mission, uint8_t *buffer, size_t buffer_length);

/* The number of rows in use, which is the fewest states that any automaton with the sixteen lists has. */
uint64_t book_used(const uint16_t *table, size_t length);

#ifdef __cplusplus
}
#endif

#endif
