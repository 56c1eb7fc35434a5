/* Calls siltbrow_timetable on the cases of `timetable make` (standard input) and writes what it answers for `timetable judge` (standard output).
 * It judges nothing but the bytes around each slice and those of the texts. With the word "pages" every slice stands between two pages that nobody may touch. */
#define _DEFAULT_SOURCE
#include "siltbrow.h"

#define DRIVER "timetable driver"
#define MOST_SLICES 5
#include "slices.h"

enum { CASE = 1 };

enum { STOP_TIMES, STOPS, TRIPS, HOPS, ANSWER, SLICES };

static void do_case(int kind, int null)
{
    Slice s[SLICES];
    if (kind != CASE)
        fail("no such case");
    for (int i = 0; i < SLICES; i++)
        s[i] = read_slice(null, i, i <= TRIPS);
    uint32_t value = siltbrow_timetable(s[STOP_TIMES].bytes, s[STOP_TIMES].len, s[STOPS].bytes, s[STOPS].len, s[TRIPS].bytes, s[TRIPS].len,
                                        s[HOPS].bytes, s[HOPS].len, s[ANSWER].bytes, s[ANSWER].len);
    write_number(CASE, 1);
    write_number(value, 4);
    write_slice(&s[HOPS]);
    write_slice(&s[ANSWER]);
    write_number(close_slices(s, SLICES) != 0, 1);
}

int main(int words, char **word)
{
    return drive(words, word, do_case);
}
