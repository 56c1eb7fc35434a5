/* Calls siltbrow_frame on the cases of `framing make` (standard input) and writes what it answers for `framing judge` (standard output).
 * It judges nothing but the bytes around each slice and those of the tables. With the word "pages" every slice stands between two pages that nobody may touch. */
#define _DEFAULT_SOURCE
#include "siltbrow.h"

#define DRIVER "frame driver"
#define MOST_SLICES 4
#include "slices.h"

enum { CASE = 1 };

enum { VERTICES, LIST, COORDINATES, ANSWER, SLICES };

static void do_case(int kind, int null)
{
    Slice s[SLICES];
    if (kind != CASE)
        fail("no such case");
    for (int i = 0; i < SLICES; i++)
        s[i] = read_slice(null, i, i != ANSWER);
    uint32_t value = siltbrow_frame(s[VERTICES].bytes, s[VERTICES].len, s[LIST].bytes, s[LIST].len, s[COORDINATES].bytes,
                                    s[COORDINATES].len, s[ANSWER].bytes, s[ANSWER].len);
    write_number(CASE, 1);
    write_number(value, 4);
    write_slice(&s[ANSWER]);
    write_number(close_slices(s, SLICES) != 0, 1);
}

int main(int words, char **word)
{
    return drive(words, word, do_case);
}
