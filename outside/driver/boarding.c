/* Calls siltbrow_run_boarding on the cases of `boarding make` (standard input) and writes what it answers for `boarding judge` (standard output). It judges nothing but
 * the bytes around each slice and those of the slices that are only read. With the word "pages" every slice stands between two pages that nobody may touch. */
#define _DEFAULT_SOURCE
#include "siltbrow.h"

#define DRIVER "boarding driver"
#define MOST_SLICES 6
#include "slices.h"

enum { RUN = 1 };

enum { VERTICES, WALKS, HOPS, SETTLED, SCRATCH, ANSWER, SLICES };

enum { HOP_SIZE, RECORD, OFFSET, ARRIVAL, DURATION, SPEED, BOARDING, LIMIT, NUMBERS };

#define LENT(i) s[i].bytes, s[i].len

static void do_case(int kind, int null)
{
    Slice s[SLICES];
    uint32_t q[NUMBERS];
    int32_t arrival;
    if (kind != RUN)
        fail("no such kind of case");
    for (int i = VERTICES; i <= HOPS; i++)
        s[i] = read_slice(null, i, 1);
    for (int i = 0; i < NUMBERS; i++)
        q[i] = read_number();
    for (int i = SETTLED; i <= ANSWER; i++)
        s[i] = read_slice(null, i, 0);
    memcpy(&arrival, &q[ARRIVAL], sizeof arrival);
    uint32_t value = siltbrow_run_boarding(LENT(VERTICES), LENT(WALKS), LENT(HOPS), q[HOP_SIZE],
                                           q[RECORD], q[OFFSET], arrival, q[DURATION], q[SPEED], q[BOARDING], q[LIMIT],
                                           LENT(SETTLED), LENT(SCRATCH), LENT(ANSWER));
    write_number(RUN, 1);
    write_number(value, 4);
    for (int i = SETTLED; i <= ANSWER; i++)
        write_slice(&s[i]);
    write_number(close_slices(s, SLICES) != 0, 1);
}

int main(int words, char **word)
{
    return drive(words, word, do_case);
}
