/* Calls the library on the cases of `outside make` (standard input) and writes
 * what it answers for `outside judge` (standard output). It judges nothing but
 * the bytes around each slice. Numbers are big-endian, a slice is its length in
 * four bytes and then its bytes; README.md has the layout.
 * slices.h has what it shares with the others. With the word "pages" every slice
 * stands between two pages that nobody may touch. */
#define _DEFAULT_SOURCE
#include "siltbrow.h"

#define DRIVER "driver"
#define MOST_SLICES 13
#include "slices.h"

enum { CHECK = 1, RUN = 2, PARTS_ALONE = 3, PAIR = 4, FORWARD = 5, BACKWARD = 6, JUDGE = 7, RUNS = 8, EVENING = 9 };

enum { VERTICES, WALKS, HOPS, HELD, SETTLED, ANSWER, LIST, PARTS, PARTS_ANSWER, TARGET, QUERIES, PATIENTS, REPORT, SLICES };

/* How long a record of a settled list is, and where the run's answer has the
 * refusal and the settled count. */
enum { SETTLED_SIZE = 8, ANSWER_SIZE = 24, REFUSAL_AT = 0, COUNT_AT = 8 };

typedef struct {
    uint32_t record, offset;
    int32_t arrival;
    uint32_t duration, speed;
} Query;

/* A slice of a case, by its number. */
static Slice get_slice(int null, int number)
{
    int only_read = number <= HOPS || number == LIST || number == QUERIES || number == PATIENTS;
    return read_slice(null, number, only_read);
}

/* A slice, the three tables and a query as the calls take them. */
#define LENT(i) s[i].bytes, s[i].len
#define TABLES LENT(VERTICES), LENT(WALKS), LENT(HOPS), hop_size
#define QUERY q.record, q.offset, q.arrival, q.duration, q.speed

static uint32_t run(const Slice *s, uint32_t hop_size, Query q, uint32_t limit)
{
    return siltbrow_run(TABLES, QUERY, limit, LENT(HELD), LENT(SETTLED), LENT(ANSWER));
}

static uint32_t parts(const Slice *s, uint32_t hop_size, Query q, const uint8_t *list, size_t list_len)
{
    return siltbrow_parts(TABLES, QUERY, list, list_len, LENT(PARTS), LENT(PARTS_ANSWER));
}

/* The run, and where it is accepted the parts of its own list: as many bytes of
 * its settled buffer as it tells, where they stand. */
static uint64_t pair(const Slice *s, uint32_t hop_size, Query q, uint32_t limit)
{
    uint64_t value = (uint64_t)run(s, hop_size, q, limit) << 32;
    if (value != 0 || s[ANSWER].len != ANSWER_SIZE || number_at(s[ANSWER].bytes + REFUSAL_AT) != 0)
        return value;
    size_t list_len = SETTLED_SIZE * (size_t)number_at(s[ANSWER].bytes + COUNT_AT);
    if (list_len > s[SETTLED].len)
        return value;
    return value | parts(s, hop_size, q, s[SETTLED].bytes, list_len);
}

static Query read_query(void)
{
    Query q;
    q.record = read_number();
    q.offset = read_number();
    uint32_t arrival = read_number();
    memcpy(&q.arrival, &arrival, sizeof arrival);
    q.duration = read_number();
    q.speed = read_number();
    return q;
}

/* A move from the hops that are read to the target. */
static void do_move(int kind, int null)
{
    Slice s[SLICES] = {{NULL, NULL, NULL, 0, 0, NULL}};
    s[HOPS] = get_slice(null, HOPS);
    s[TARGET] = get_slice(null, TARGET);
    uint64_t (*move)(const uint8_t *, size_t, uint8_t *, size_t) =
        kind == FORWARD ? siltbrow_hops_forward : siltbrow_hops_backward;
    uint64_t value = move(s[HOPS].bytes, s[HOPS].len, s[TARGET].bytes, s[TARGET].len);
    write_number((uint64_t)kind, 1);
    write_number(value, 8);
    write_slice(&s[TARGET]);
    write_number(close_slices(s, SLICES), 2);
}

static void do_case(int kind, int null)
{
    Slice s[SLICES] = {{NULL, NULL, NULL, 0, 0, NULL}};
    int runs = kind == RUN || kind == PAIR, searches = runs || kind == RUNS || kind == EVENING;
    int makes_parts = kind == PARTS_ALONE || kind == PAIR;
    Query q = {0, 0, 0, 0, 0};
    uint32_t limit = 0, gap = 0, arrivals = 0;
    uint64_t value;
    for (int i = VERTICES; i <= HOPS; i++)
        s[i] = get_slice(null, i);
    uint32_t hop_size = read_number();
    if (kind != CHECK && kind != RUNS)
        q = read_query();
    if (runs)
        limit = read_number();
    if (kind == RUNS)
        s[QUERIES] = get_slice(null, QUERIES);
    if (kind == EVENING) {
        gap = read_number();
        arrivals = read_number();
        s[PATIENTS] = get_slice(null, PATIENTS);
        s[REPORT] = get_slice(null, REPORT);
    }
    for (int i = HELD; searches && i <= ANSWER; i++)
        s[i] = get_slice(null, i);
    if (kind == PARTS_ALONE || kind == JUDGE)
        s[LIST] = get_slice(null, LIST);
    for (int i = PARTS; makes_parts && i <= PARTS_ANSWER; i++)
        s[i] = get_slice(null, i);
    switch (kind) {
    case CHECK: value = siltbrow_check(TABLES); break;
    case RUN: value = run(s, hop_size, q, limit); break;
    case PARTS_ALONE: value = parts(s, hop_size, q, s[LIST].bytes, s[LIST].len); break;
    case PAIR: value = pair(s, hop_size, q, limit); break;
    case JUDGE: value = siltbrow_judge(TABLES, QUERY, LENT(LIST)); break;
    case RUNS: value = siltbrow_runs(TABLES, LENT(QUERIES), LENT(HELD), LENT(SETTLED), LENT(ANSWER)); break;
    case EVENING:
        value = siltbrow_patients(TABLES, QUERY, gap, arrivals, LENT(PATIENTS), LENT(HELD), LENT(SETTLED), LENT(REPORT), LENT(ANSWER));
        break;
    default: fail("no such kind of case");
    }
    write_number((uint64_t)kind, 1);
    write_number(value, 8);
    for (int i = HELD; searches && i <= ANSWER; i++)
        write_slice(&s[i]);
    if (kind == EVENING)
        write_slice(&s[REPORT]);
    for (int i = PARTS; makes_parts && i <= PARTS_ANSWER; i++)
        write_slice(&s[i]);
    write_number(close_slices(s, SLICES), 2);
}

static void do_one(int kind, int null)
{
    if (kind == FORWARD || kind == BACKWARD)
        do_move(kind, null);
    else
        do_case(kind, null);
}

int main(int words, char **word)
{
    return drive(words, word, do_one);
}
