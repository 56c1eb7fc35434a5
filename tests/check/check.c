/* Calls siltbrow_check on good and damaged tables, and compares it on random ones with a judge that counts by hand.
 * The last line is 'N passed, M failed'. */
#include <stdio.h>
#include <stdlib.h>
#include <string.h>

#include "siltbrow.h"

#define NONE 0xFFFFFFFFu

typedef struct {
    uint8_t *v, *w, *h;
    size_t v_len, w_len, h_len;
} tables;

static int passed, failed;

static void put(uint8_t *p, uint32_t x)
{
    p[0] = (uint8_t)(x >> 24);
    p[1] = (uint8_t)(x >> 16);
    p[2] = (uint8_t)(x >> 8);
    p[3] = (uint8_t)x;
}

static uint32_t get(const uint8_t *p)
{
    return (uint32_t)p[0] << 24 | (uint32_t)p[1] << 16 | (uint32_t)p[2] << 8 | p[3];
}

static void compare(const char *name, uint64_t answer, uint32_t refusal, uint32_t place)
{
    if (answer == ((uint64_t)refusal << 32 | place)) {
        passed++;
        return;
    }
    failed++;
    printf("%s: expected %u %u, got %u %u\n", name, refusal, place, (uint32_t)(answer >> 32), (uint32_t)answer);
}

/* The same hops with some trip behind each. Bytes behind the last whole hop stay there, and make no whole one of 20. */
static uint64_t with_trips(tables t)
{
    size_t hops = t.h_len / 16, rest = t.h_len % 16, i;
    uint8_t *wide = malloc(20 * hops + rest + 1);
    uint64_t answer;
    if (!wide)
        exit(2);
    for (i = 0; i < hops; i++) {
        memcpy(wide + 20 * i, t.h + 16 * i, 16);
        put(wide + 20 * i + 16, 0x9E3779B9u * (uint32_t)(i + 1));
    }
    for (i = 0; i < rest; i++)
        wide[20 * hops + i] = t.h[16 * hops + i];
    answer = siltbrow_check(t.v, t.v_len, t.w, t.w_len, wide, 20 * hops + rest, SILTBROW_HOP_WITH_TRIP_SIZE);
    free(wide);
    return answer;
}

/* In both sizes of a hop. */
static void expect(const char *name, tables t, uint32_t refusal, uint32_t place)
{
    compare(name, siltbrow_check(t.v, t.v_len, t.w, t.w_len, t.h, t.h_len, SILTBROW_HOP_SIZE), refusal, place);
    compare(name, with_trips(t), refusal, place);
}

/* ---- tables */

static tables room(size_t vertices, size_t walks, size_t hops)
{
    tables t = {calloc(vertices + 1, 12), calloc(walks + 1, 16), calloc(hops + 1, 16), vertices * 12, walks * 16, hops * 16};
    if (!t.v || !t.w || !t.h)
        exit(2);
    return t;
}

static void release(tables t)
{
    free(t.v);
    free(t.w);
    free(t.h);
}

static void vertex(tables t, size_t i, uint32_t walk, uint32_t hop, uint32_t departing)
{
    put(t.v + 12 * i, walk);
    put(t.v + 12 * i + 4, hop);
    put(t.v + 12 * i + 8, departing << 16);
}

static void record(uint8_t *table, size_t i, uint32_t a, uint32_t b, uint32_t c, uint32_t d)
{
    put(table + 16 * i, a);
    put(table + 16 * i + 4, b);
    put(table + 16 * i + 8, c);
    put(table + 16 * i + 12, d);
}

/* The base job, RULES 15. */
static tables base(void)
{
    tables t = room(5, 6, 1);
    vertex(t, 0, 0, 0, 1);
    vertex(t, 1, 1, 0, 2);
    vertex(t, 2, 3, 1, 1);
    vertex(t, 3, 4, 1, 2);
    vertex(t, 4, 5, 1, 1);
    record(t.w, 0, 1, 0, 2000, 1);
    record(t.w, 1, 0, 1, 2000, 0);
    record(t.w, 2, 2, 1, 2500, 3);
    record(t.w, 3, 1, 2, 2500, 2);
    record(t.w, 4, 4, 3, 900, 5);
    record(t.w, 5, 3, 4, 900, 4);
    record(t.h, 0, 3, 1, 35760, 35880);
    return t;
}

/* Any other size of a hop is refused, whatever the hop table is, and after the other two tables. */
static void sizes(void)
{
    static const uint32_t wrong[] = {0, 1, 4, 8, 12, 15, 17, 19, 21, 24, 32, 40, 272, 276, 65552, 0x80000000, 0x80000010, 0xFFFFFFF0, NONE};
    tables t = base();
    size_t i;
    for (i = 0; i < sizeof wrong / sizeof *wrong; i++) {
        compare("a size", siltbrow_check(t.v, t.v_len, t.w, t.w_len, t.h, t.h_len, wrong[i]), 1, 2);
        compare("a size over no hop", siltbrow_check(t.v, t.v_len, t.w, t.w_len, NULL, 0, wrong[i]), 1, 2);
        compare("a size after vertices", siltbrow_check(t.v, t.v_len - 1, t.w, t.w_len, t.h, t.h_len, wrong[i]), 1, 0);
        compare("a size after walks", siltbrow_check(t.v, t.v_len, t.w, t.w_len - 1, t.h, t.h_len, wrong[i]), 1, 1);
    }
    release(t);
}

/* Firsts, departing counts and zeros that are right for the records. */
static void settle(tables t)
{
    size_t n = t.v_len / 12, i;
    uint32_t *first = calloc(2 * n + 2, 4), *departing = calloc(n + 1, 4);
    if (!first || !departing)
        exit(2);
    for (i = 0; i < t.w_len / 16; i++) {
        first[get(t.w + 16 * i + 4) + 1]++;
        departing[get(t.w + 16 * i)]++;
    }
    for (i = 0; i < t.h_len / 16; i++) {
        first[n + 1 + get(t.h + 16 * i + 4) + 1]++;
        departing[get(t.h + 16 * i)]++;
    }
    for (i = 0; i < n; i++) {
        first[i + 1] += first[i];
        first[n + 1 + i + 1] += first[n + 1 + i];
        vertex(t, i, first[i], first[n + 1 + i], departing[i]);
    }
    free(first);
    free(departing);
}

/* One damage of the base job: a word of a table is set. */
static void damage(const char *name, char table, size_t at, uint32_t x, uint32_t refusal, uint32_t place)
{
    tables t = base();
    put((table == 'v' ? t.v : table == 'w' ? t.w : t.h) + at, x);
    expect(name, t, refusal, place);
    release(t);
}

/* ---- refusal 1, and tables that are not there */

static void lengths(void)
{
    tables t = base(), none = {0}, x;
    uint8_t one[12] = {0};
    expect("base job", t, 0, 0);
    expect("no tables", none, 1, 0);
    x = none, x.v = one, x.v_len = 12;
    expect("one vertex and nothing else", x, 0, 0);
    x = t, x.v_len = 0;
    expect("no vertex", x, 1, 0);
    x = t, x.v = NULL, x.v_len = 0;
    expect("no vertex table", x, 1, 0);
    x = t, x.v_len = 59;
    expect("a vertex is cut", x, 1, 0);
    x = t, x.w_len = 95;
    expect("a walk is cut", x, 1, 1);
    x = t, x.h_len = 17;
    expect("a hop is cut", x, 1, 2);
    x = t, x.h_len = 1;
    expect("one byte of a hop", x, 1, 2);
    x = t, x.v_len = 13, x.w_len = 17, x.h_len = 17;
    expect("all three lengths", x, 1, 0);
    x = t, x.w_len = 17, x.h_len = 17;
    expect("two lengths", x, 1, 1);
    put(t.w + 8, 0);
    x = t, x.h_len = 17;
    expect("1 before 2", x, 1, 2);
    release(t);

    t = room(65537, 262145, 262145);
    expect("too many vertices", t, 1, 0);
    t.v_len = 12 * 65536;
    expect("too many walks", t, 1, 1);
    t.w_len = 0;
    expect("too many hops", t, 1, 2);
    t.h_len = 0;
    expect("as many vertices as can be", t, 0, 0);
    release(t);
}

/* ---- refusals 2 and 3 */

static void records(void)
{
    tables t;
    damage("walk from no vertex", 'w', 0, 5, 2, 0);
    damage("walk to no vertex", 'w', 16 * 4 + 4, 5, 2, 4);
    damage("walk to far beyond", 'w', 16 * 4 + 4, 0x80000003, 2, 4);
    damage("walk with equal ends", 'w', 16 * 2, 1, 2, 2);
    damage("walk of no length", 'w', 16 * 3 + 8, 0, 2, 2);
    damage("walk too long", 'w', 16 * 3 + 8, 100001, 2, 2);
    damage("twin is no record", 'w', 16 * 4 + 12, 6, 2, 4);
    damage("twin FFFFFFFE", 'w', 16 * 4 + 12, 0xFFFFFFFE, 2, 4);
    damage("twin that wraps to itself", 'w', 16 * 4 + 12, 0x10000005, 2, 4);
    damage("twin of another road", 'w', 16 * 4 + 12, 1, 2, 4);
    damage("twin is the record itself", 'w', 16 * 4 + 12, 4, 2, 4);
    damage("twin that is not named back", 'w', 12, NONE, 2, 1);
    damage("lengths of a pair differ", 'w', 16 * 1 + 8, 1999, 2, 0);
    damage("walk with a wait of 1", 'w', 16 * 3 + 8, 1u << 24 | 2500, 0, 0);
    damage("walk with a wait of 120", 'w', 16 * 3 + 8, 120u << 24 | 2500, 0, 0);
    damage("walk with a wait of 121", 'w', 16 * 3 + 8, 121u << 24 | 2500, 2, 3);
    damage("walk with a wait of 128", 'w', 16 * 3 + 8, 128u << 24 | 2500, 2, 3);
    damage("walk with a wait of 255", 'w', 16 * 3 + 8, 255u << 24 | 2500, 2, 3);
    damage("walk with a wait and no length", 'w', 16 * 3 + 8, 120u << 24, 2, 2);
    damage("walk with a wait, lengths of a pair differ", 'w', 16 * 3 + 8, 120u << 24 | 2501, 2, 2);

    t = base();
    put(t.w + 12, NONE);
    put(t.w + 16 + 12, NONE);
    expect("a pair without twins", t, 0, 0);
    put(t.w + 8, 1);
    put(t.w + 16 + 8, 100000);
    expect("the least and the greatest length", t, 0, 0);
    put(t.w + 8, 120u << 24 | 1);
    put(t.w + 16 + 8, 120u << 24 | 100000);
    expect("the same with the greatest wait", t, 0, 0);
    put(t.w + 8, 1u << 24);
    expect("a wait alone", t, 2, 0);
    put(t.w + 8, 1u << 24 | 100001);
    expect("a wait and too long a length", t, 2, 0);
    release(t);

    damage("hop from no vertex", 'h', 0, 5, 3, 0);
    damage("hop to no vertex", 'h', 4, 5, 3, 0);
    damage("hop with equal ends", 'h', 0, 1, 3, 0);
    damage("hop departs at its arrival", 'h', 8, 35880, 0, 0);
    damage("hop departs a second after its arrival", 'h', 8, 35881, 3, 0);
    damage("hop departs too early", 'h', 8, (uint32_t)-86401, 3, 0);
    damage("hop departs as early as can be", 'h', 8, (uint32_t)-86400, 0, 0);
    damage("hop departs before midnight", 'h', 8, (uint32_t)-1, 0, 0);
    damage("hop arrives too late", 'h', 12, 172801, 3, 0);
    damage("hop arrives as late as can be", 'h', 12, 172800, 0, 0);
    damage("hop arrives before midnight", 'h', 12, (uint32_t)-1, 3, 0);
    damage("hop departs at the lowest second", 'h', 8, 0x80000000, 3, 0);
    damage("hop arrives at the highest second", 'h', 12, 0x7FFFFFFF, 3, 0);
    t = base();
    record(t.h, 0, 3, 1, (uint32_t)-5, (uint32_t)-4);
    expect("a ride before midnight", t, 0, 0);
    record(t.h, 0, 3, 1, (uint32_t)-5, (uint32_t)-5);
    expect("a ride of no time before midnight", t, 0, 0);
    record(t.h, 0, 3, 1, (uint32_t)-86400, (uint32_t)-86400);
    expect("a ride of no time as early as can be", t, 0, 0);
    record(t.h, 0, 3, 1, 172800, 172800);
    expect("a ride of no time as late as can be", t, 0, 0);
    record(t.h, 0, 3, 1, (uint32_t)-4, (uint32_t)-5);
    expect("a ride back in time before midnight", t, 3, 0);
    release(t);
}

/* ---- refusals 4 to 6 */

static void order(void)
{
    tables t = base();
    uint8_t row[16];
    memcpy(row, t.w + 16 * 3, 16);
    memcpy(t.w + 16 * 3, t.w + 16 * 4, 16);
    memcpy(t.w + 16 * 4, row, 16);
    put(t.w + 16 * 2 + 12, 4);
    put(t.w + 16 * 3 + 12, 5);
    put(t.w + 16 * 5 + 12, 3);
    expect("a walk's to falls", t, 4, 4);
    release(t);

    t = room(3, 0, 4);
    record(t.h, 0, 0, 1, 1, 2);
    record(t.h, 1, 0, 1, 1, 2);
    record(t.h, 2, 0, 2, 1, 2);
    record(t.h, 3, 2, 1, 1, 2);
    settle(t);
    expect("a hop's to falls", t, 5, 3);
    put(t.h + 16 * 3 + 4, 0);
    settle(t);
    expect("a hop's to falls to 0", t, 5, 3);
    release(t);
}

static void vertices(void)
{
    tables t;
    damage("first walk", 'v', 12 * 1, 0, 6, 1);
    damage("first walk beyond the table", 'v', 12 * 4, 0xFFFFFFFF, 6, 4);
    damage("first walk of vertex 0", 'v', 0, 1, 6, 0);
    damage("first hop", 'v', 12 * 1 + 4, 1, 6, 1);
    damage("first hop behind the last", 'v', 12 * 4 + 4, 2, 6, 4);
    damage("one departing record too many", 'v', 12 * 3 + 8, 3 << 16, 6, 3);
    damage("one departing record too few", 'v', 12 * 3 + 8, 1 << 16, 6, 3);
    damage("zero", 'v', 12 * 2 + 8, 1 << 16 | 1, 6, 2);
    damage("the upper zero", 'v', 12 * 2 + 8, 1 << 16 | 256, 6, 2);

    t = base();
    put(t.v + 12 * 4 + 4, 9);
    put(t.v + 12 * 3 + 8, 7 << 16);
    put(t.v + 12 * 2 + 8, 1 << 16 | 1);
    expect("the lowest vertex of several facts: zero", t, 6, 2);
    put(t.v + 12 * 1 + 8, 9 << 16);
    expect("the lowest vertex of several facts: departing", t, 6, 1);
    put(t.v, 3);
    expect("the lowest vertex of several facts: first", t, 6, 0);
    release(t);
}

/* As many departing records as a field of 2 bytes can say, and more. */
static void many_departing(void)
{
    size_t i;
    tables t = room(3, 65536, 1);
    t.w_len = 16 * 65535;
    t.h_len = 0;
    for (i = 0; i < 65536; i++)
        record(t.w, i, 1, 2, 7, NONE);
    record(t.h, 0, 1, 2, 1, 2);
    settle(t);
    expect("65,535 departing records", t, 0, 0);
    t.w_len = 16 * 65536;
    settle(t);
    expect("65,536 departing walks", t, 6, 1);
    put(t.v + 12 + 8, 0xFFFF0000);
    expect("65,536 departing walks that say 65,535", t, 6, 1);
    t.w_len = 16 * 65535;
    t.h_len = 16;
    settle(t);
    put(t.v + 12 + 8, 0xFFFF0000);
    expect("65,535 departing walks and a hop", t, 6, 1);
    put(t.v + 8, 1);
    expect("a lower vertex beside it", t, 6, 0);
    release(t);
}

/* The largest tables: each vertex has four walks and four hops in and out. */
static void largest(void)
{
    size_t n = 65536, i;
    uint8_t *kept;
    tables t = room(n, 4 * n, 4 * n);
    for (i = 0; i < 4 * n; i++) {
        record(t.w, i, (uint32_t)((i / 4 + 1 + i % 4 * 9001) % n), (uint32_t)(i / 4), 5, NONE);
        record(t.h, i, (uint32_t)((i / 4 + 7 + i % 4 * 700) % n), (uint32_t)(i / 4), 1, 2);
    }
    settle(t);
    expect("the largest tables", t, 0, 0);
    kept = malloc(t.v_len);
    if (!kept)
        exit(2);
    memcpy(kept, t.v, t.v_len);
    put(t.v + 12 * 65535 + 8, 7 << 16);
    expect("departing of the last vertex", t, 6, 65535);
    put(t.v + 12 * 40000 + 8, 9 << 16);
    expect("departing of a vertex in the middle", t, 6, 40000);
    put(t.v + 12 * 1904 + 8, 8 << 16 | 1);
    expect("zero of vertex 1904", t, 6, 1904);
    put(t.v + 12 * 1903, 1);
    expect("first walk of vertex 1903", t, 6, 1903);
    memcpy(t.v, kept, t.v_len);
    put(t.h + 16 * 262143 + 8, 3);
    expect("the last hop", t, 3, 262143);
    put(t.w + 16 * 262143 + 8, 0);
    expect("the last walk before the last hop", t, 2, 262143);
    free(kept);
    release(t);
}

/* Every refusal but the first at once, mended one after the other. */
static void numbers(void)
{
    tables t = room(4, 3, 3);
    record(t.w, 0, 0, 2, 5, NONE);
    record(t.w, 1, 0, 1, 5, NONE);
    record(t.w, 2, 0, 3, 0, NONE);
    record(t.h, 0, 0, 2, 6, 5);
    record(t.h, 1, 0, 1, 5, 6);
    record(t.h, 2, 0, 3, 5, 6);
    settle(t);
    put(t.v + 8, 6 << 16 | 1);
    expect("2 before 3: a later record all the same", t, 2, 2);
    put(t.w + 16 * 2 + 8, 5);
    expect("3 before 4", t, 3, 0);
    put(t.h + 12, 6);
    expect("4 before 5", t, 4, 1);
    put(t.w + 4, 1);
    expect("5 before 6", t, 5, 1);
    put(t.h + 4, 1);
    expect("6 last", t, 6, 0);
    settle(t);
    expect("all mended", t, 0, 0);
    release(t);
}

/* ---- a judge that counts by hand */

static int bad_twin(tables t, uint32_t i)
{
    const uint8_t *w = t.w + 16 * i, *x;
    uint32_t twin = get(w + 12);
    if (twin == NONE)
        return 0;
    if (twin >= t.w_len / 16)
        return 1;
    x = t.w + 16 * (size_t)twin;
    return get(x + 12) != i || get(x) != get(w + 4) || get(x + 4) != get(w) || (get(x + 8) ^ get(w + 8)) << 8 != 0;
}

static int bad_ends(tables t, const uint8_t *r)
{
    return get(r) >= t.v_len / 12 || get(r + 4) >= t.v_len / 12 || get(r) == get(r + 4);
}

static int bad_vertex(tables t, uint32_t v)
{
    uint32_t i, walk = 0, hop = 0, departing = 0;
    for (i = 0; i < t.w_len / 16; i++) {
        walk += get(t.w + 16 * i + 4) < v;
        departing += get(t.w + 16 * i) == v;
    }
    for (i = 0; i < t.h_len / 16; i++) {
        hop += get(t.h + 16 * i + 4) < v;
        departing += get(t.h + 16 * i) == v;
    }
    return get(t.v + 12 * v) != walk || get(t.v + 12 * v + 4) != hop || get(t.v + 12 * v + 8) != departing << 16;
}

static uint64_t by_hand(tables t)
{
    uint32_t i, walks = (uint32_t)(t.w_len / 16), hops = (uint32_t)(t.h_len / 16);
    for (i = 0; i < walks; i++)
        if (bad_ends(t, t.w + 16 * i) || (get(t.w + 16 * i + 8) & 0xFFFFFF) - 1 > 99999 || t.w[16 * i + 8] > 120 || bad_twin(t, i))
            return 2ull << 32 | i;
    for (i = 0; i < hops; i++) {
        int32_t departure = (int32_t)get(t.h + 16 * i + 8), arrival = (int32_t)get(t.h + 16 * i + 12);
        if (bad_ends(t, t.h + 16 * i) || departure < -86400 || arrival > 172800 || departure > arrival)
            return 3ull << 32 | i;
    }
    for (i = 1; i < walks; i++)
        if (get(t.w + 16 * i + 4) < get(t.w + 16 * i - 12))
            return 4ull << 32 | i;
    for (i = 1; i < hops; i++)
        if (get(t.h + 16 * i + 4) < get(t.h + 16 * i - 12))
            return 5ull << 32 | i;
    for (i = 0; i < t.v_len / 12; i++)
        if (bad_vertex(t, i))
            return 6ull << 32 | i;
    return 0;
}

static uint32_t next(uint32_t below)
{
    static uint64_t state = 20261115;
    state = state * 6364136223846793005ull + 1442695040888963407ull;
    return (uint32_t)(state >> 33) % below;
}

/* A good network of random records, with up to two words damaged. */
static void random_tables(void)
{
    static const uint32_t words[] = {0, 1, 2, 3, 120u << 24, 120u << 24 | 2, 121u << 24 | 2, 255u << 24 | 1, 255, 256, 65536, 65537, 100000, 100001, 172800, 172801, 0x7FFFFFFF, 0x80000000, 0xFFFEAE80, 0xFFFEAE7F, 0xFFFFFFFE, NONE};
    int round;
    for (round = 0; round < 20000; round++) {
        uint32_t n = 2 + next(5), walks = next(8), hops = next(6), i, k;
        tables t = room(n, walks, hops);
        uint8_t *before;
        uint64_t answer;
        for (i = 0; i < walks; i++) {
            uint32_t to = i * n / walks;
            record(t.w, i, (to + 1 + next(n - 1)) % n, to, next(2) << 24 | (1 + next(3)), NONE);
        }
        for (i = 0; i + 1 < walks; i++) {
            k = i + 1 + next(walks - i - 1);
            if (get(t.w + 16 * i) == get(t.w + 16 * k + 4) && get(t.w + 16 * k) == get(t.w + 16 * i + 4) && get(t.w + 16 * i + 12) == NONE && get(t.w + 16 * k + 12) == NONE) {
                put(t.w + 16 * k + 8, next(121) << 24 | (get(t.w + 16 * i + 8) & 0xFFFFFF));
                put(t.w + 16 * i + 12, k);
                put(t.w + 16 * k + 12, i);
            }
        }
        for (i = 0; i < hops; i++) {
            uint32_t to = i * n / hops;
            record(t.h, i, (to + 1 + next(n - 1)) % n, to, next(4) - 1, 2 + next(3));
        }
        settle(t);
        for (k = next(3); k > 0; k--) {
            uint32_t which = next(3);
            uint8_t *table = which == 0 ? t.v : which == 1 ? t.w : t.h;
            size_t length = which == 0 ? t.v_len : which == 1 ? t.w_len : t.h_len;
            if (length > 0)
                put(table + 4 * next((uint32_t)(length / 4)), next(2) ? next(n + 2) : words[next(sizeof words / 4)]);
        }
        before = malloc(t.v_len + t.w_len + t.h_len);
        if (!before)
            exit(2);
        memcpy(before, t.v, t.v_len);
        memcpy(before + t.v_len, t.w, t.w_len);
        memcpy(before + t.v_len + t.w_len, t.h, t.h_len);
        answer = by_hand(t);
        expect("random tables", t, (uint32_t)(answer >> 32), (uint32_t)answer);
        if (memcmp(before, t.v, t.v_len) || memcmp(before + t.v_len, t.w, t.w_len) || memcmp(before + t.v_len + t.w_len, t.h, t.h_len)) {
            failed++;
            printf("random tables: a table was written\n");
        }
        free(before);
        release(t);
    }
}

int main(void)
{
    lengths();
    sizes();
    records();
    order();
    vertices();
    many_departing();
    largest();
    numbers();
    random_tables();
    printf("%d passed, %d failed\n", passed, failed);
    return failed != 0;
}
