/* Calls the courier's calls on the cases of `courier make` (standard input) and writes what they answer for `courier judge` (standard output). It judges
 * nothing but the bytes around each slice and those of the slices that are only read. With the word "pages" every slice stands between two pages that nobody may touch. */
#define _DEFAULT_SOURCE
#include "siltbrow.h"

#define DRIVER "courier driver"
#define MOST_SLICES 8
#include "slices.h"

enum { LIST_MADE = 1, RUN = 2, PARTS_OF = 3 };

/* A run has held and settled, parts have entries and parts. */
enum { VERTICES, WALKS, HOPS, LIST, HELD, SETTLED, ANSWER, SLICES, ENTRIES = HELD, PARTS = SETTLED };

#define LENT(i) s[i].bytes, s[i].len
#define TABLES LENT(VERTICES), LENT(WALKS), LENT(HOPS), hop_size
#define QUERY q[0], q[1], departure, q[3], q[4]

static void do_case(int kind, int null)
{
    Slice s[SLICES] = {{NULL, NULL, NULL, 0, 0, NULL}};
    uint32_t q[6] = {0, 0, 0, 0, 0, 0};
    int32_t departure;
    uint64_t value;
    for (int i = VERTICES; i <= LIST; i++)
        s[i] = read_slice(null, i, i != LIST || kind != LIST_MADE);
    uint32_t hop_size = read_number();
    for (int i = 0; kind != LIST_MADE && i < 6; i++)
        q[i] = read_number();
    memcpy(&departure, &q[2], sizeof departure);
    for (int i = HELD; kind != LIST_MADE && i <= ANSWER; i++)
        s[i] = read_slice(null, i, kind == PARTS_OF && i == ENTRIES);
    switch (kind) {
    case LIST_MADE: value = siltbrow_courier_list(TABLES, LENT(LIST)); break;
    case RUN: value = siltbrow_courier(TABLES, LENT(LIST), QUERY, q[5], LENT(HELD), LENT(SETTLED), LENT(ANSWER)); break;
    case PARTS_OF: value = siltbrow_courier_parts(TABLES, LENT(LIST), QUERY, LENT(ENTRIES), LENT(PARTS), LENT(ANSWER)); break;
    default: fail("no such kind of case");
    }
    write_number((uint64_t)kind, 1);
    write_number(value, 8);
    if (kind == LIST_MADE)
        write_slice(&s[LIST]);
    for (int i = kind == RUN ? HELD : PARTS; kind != LIST_MADE && i <= ANSWER; i++)
        write_slice(&s[i]);
    write_number(close_slices(s, SLICES) != 0, 1);
}

int main(int words, char **word)
{
    return drive(words, word, do_case);
}
