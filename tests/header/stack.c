/* How much stack a call of the library takes: each call runs on a thread whose
 * stack was painted before, and what is still painted afterwards was not used. */
#define _DEFAULT_SOURCE
#include <pthread.h>
#include <stdio.h>
#include <stdlib.h>
#include <string.h>
#include <sys/mman.h>

#include "siltbrow.h"

enum { SIDE = 160, VERTICES = SIDE * SIDE, WALKS = 4 * SIDE * (SIDE - 1), STACK = 1 << 21, MOST = 8192, MOST_JUDGE = MOST + (1 << 18), MOST_READING = 147456, MOST_BOARDING = 1136 * 1024, FIELDS = 1000000, LINES = 20000, TRIPS = 20000 };

static uint8_t vertices[VERTICES * SILTBROW_VERTEX_SIZE];
static uint8_t walks[WALKS * SILTBROW_WALK_SIZE];
static uint8_t held[SILTBROW_HELD_BYTES(sizeof vertices)];
static uint8_t settled[SILTBROW_SETTLED_BYTES(sizeof vertices)];
static uint8_t parts[SILTBROW_PART_BYTES(sizeof walks)];
static uint8_t points[VERTICES * SILTBROW_POINT_SIZE];
static uint8_t wide[SILTBROW_FORWARD_BYTES(sizeof walks)], narrow[SILTBROW_BACKWARD_BYTES(sizeof wide)];
static uint8_t answer[SILTBROW_ANSWER_SIZE];

static uint8_t bought[VERTICES * SILTBROW_ENTRY_SIZE];

static uint32_t limit;
static size_t many;
static uint32_t reached;
static uint64_t judged;
static size_t held_len, list_len;
static const uint8_t *top; /* where the frame of the caller lies */

/* A grid of streets for one way each, there and back. */
static void make_grid(void)
{
    uint32_t count = 0;
    for (uint32_t v = 0; v < VERTICES; v++) {
        uint32_t from[4], near = 0;
        if (v >= SIDE) from[near++] = v - SIDE;
        if (v % SIDE > 0) from[near++] = v - 1;
        if (v % SIDE < SIDE - 1) from[near++] = v + 1;
        if (v + SIDE < VERTICES) from[near++] = v + SIDE;
        siltbrow_put(vertices + 12 * v, count);
        siltbrow_put(vertices + 12 * v + 8, near << 16);
        for (uint32_t i = 0; i < near; i++, count++) {
            siltbrow_put(walks + 16 * count, from[i]);
            siltbrow_put(walks + 16 * count + 4, v);
            siltbrow_put(walks + 16 * count + 8, 500 + v * 7919 % 1000);
            siltbrow_put(walks + 16 * count + 12, SILTBROW_NONE);
        }
    }
}

static void *run(void *unused)
{
    uint8_t here = 0;
    top = &here;
    (void)siltbrow_run(vertices, sizeof vertices, walks, sizeof walks, NULL, 0,
                       SILTBROW_HOP_SIZE, WALKS / 2, 10, 36000, SILTBROW_MAX_DURATION, 14, limit,
                       held, held_len, settled, sizeof settled, answer, sizeof answer);
    return unused;
}

/* The parts of the list that stands in the settled buffer. */
static void *cover(void *unused)
{
    uint8_t here = 0;
    top = &here;
    (void)siltbrow_parts(vertices, sizeof vertices, walks, sizeof walks, NULL, 0,
                         SILTBROW_HOP_SIZE, WALKS / 2, 10, 36000, SILTBROW_MAX_DURATION, 14,
                         settled, list_len, parts, sizeof parts, answer,
                         SILTBROW_PARTS_ANSWER_SIZE);
    return unused;
}

static void *check(void *unused)
{
    uint8_t here = 0;
    top = &here;
    if (siltbrow_check(vertices, sizeof vertices, walks, sizeof walks, NULL, 0, SILTBROW_HOP_SIZE) != 0)
        exit(2);
    return unused;
}

/* So many queries, each with its share of the settled buffer. */
static void *runs(void *unused)
{
    static uint8_t asked[3 * SILTBROW_QUERY_SIZE], answers[3 * SILTBROW_ANSWER_SIZE];
    uint8_t here = 0;
    for (size_t i = 0; i < 3; i++)
        siltbrow_put_query(asked + SILTBROW_QUERY_SIZE * i, WALKS / 2, 10, 36000, SILTBROW_MAX_DURATION, 14, limit);
    top = &here;
    (void)siltbrow_runs(vertices, sizeof vertices, walks, sizeof walks, NULL, 0, SILTBROW_HOP_SIZE, asked, SILTBROW_QUERY_SIZE * many, held, held_len,
                        settled, sizeof settled, answers, SILTBROW_ANSWER_SIZE * many);
    memcpy(answer, answers, sizeof answer);
    return unused;
}

/* Two arrivals, a patient at each vertex. */
static void *evening(void *unused)
{
    static uint8_t patients[VERTICES * SILTBROW_FIGURE_SIZE], report[SILTBROW_REPORT_BYTES(sizeof vertices, 2u)];
    uint8_t here = 0;
    for (size_t v = 0; v < VERTICES; v++)
        siltbrow_put(patients + SILTBROW_FIGURE_SIZE * v, 1);
    top = &here;
    (void)siltbrow_patients(vertices, sizeof vertices, walks, sizeof walks, NULL, 0, SILTBROW_HOP_SIZE, WALKS / 2, 10, 36000, SILTBROW_MAX_DURATION, 14, 60, 2,
                            patients, sizeof patients, held, sizeof held, settled, sizeof settled, report, sizeof report, answer, sizeof answer);
    reached = siltbrow_get(report + SILTBROW_FIGURE_SIZE * (VERTICES + 1));
    return unused;
}

/* The list that is made of what the run has settled. */
static void *judge(void *unused)
{
    uint8_t here = 0;
    top = &here;
    judged = siltbrow_judge(vertices, sizeof vertices, walks, sizeof walks, NULL, 0, SILTBROW_HOP_SIZE, WALKS / 2, 10,
                            36000, SILTBROW_MAX_DURATION, 14, bought, list_len);
    return unused;
}

/* Makes a bought list of all settled vertices, each with the lowest record that is its reason. */
static void buy(void)
{
    static uint32_t place[VERTICES], ticks[VERTICES];
    uint32_t count = siltbrow_read_answer(answer).settled;
    for (uint32_t i = 0; i < count; i++) {
        uint32_t vertex = siltbrow_get(settled + 8 * i);
        place[vertex] = i;
        ticks[vertex] = siltbrow_get(settled + 8 * i + 4);
        siltbrow_put_entry(bought + SILTBROW_ENTRY_SIZE * i, vertex, ticks[vertex], SILTBROW_SEED);
    }
    for (uint32_t record = 0; record < WALKS; record++) {
        uint32_t from = siltbrow_get(walks + 16 * record), to = siltbrow_get(walks + 16 * record + 4);
        if (place[to] < place[from] && ticks[to] + siltbrow_get_length(walks + 16 * record) == ticks[from])
            siltbrow_put(bought + SILTBROW_ENTRY_SIZE * place[from] + 8, record);
    }
    list_len = SILTBROW_ENTRY_SIZE * (size_t)count;
}

/* The courier's list of the grid, his run, and the parts of what it has left. */
static uint8_t numbers[SILTBROW_COURIER_LIST_BYTES(sizeof walks, 0, SILTBROW_HOP_SIZE)];

static void *list_numbers(void *unused)
{
    uint8_t here = 0;
    top = &here;
    if (siltbrow_courier_list(vertices, sizeof vertices, walks, sizeof walks, NULL, 0, SILTBROW_HOP_SIZE, numbers, sizeof numbers) != 0)
        exit(2);
    return unused;
}

static void *carry(void *unused)
{
    uint8_t here = 0;
    top = &here;
    (void)siltbrow_courier(vertices, sizeof vertices, walks, sizeof walks, NULL, 0, SILTBROW_HOP_SIZE, numbers, sizeof numbers, WALKS / 2, 10, 36000,
                           SILTBROW_MAX_DURATION, 14, limit, held, held_len, settled, sizeof settled, answer, sizeof answer);
    return unused;
}

static void *carry_parts(void *unused)
{
    uint8_t here = 0;
    top = &here;
    (void)siltbrow_courier_parts(vertices, sizeof vertices, walks, sizeof walks, NULL, 0, SILTBROW_HOP_SIZE, numbers, sizeof numbers, WALKS / 2, 10, 36000,
                                 SILTBROW_MAX_DURATION, 14, settled, list_len, parts, sizeof parts, answer, SILTBROW_PARTS_ANSWER_SIZE);
    return unused;
}

/* The same grid with rides: one trip through all vertices in turn, or, to a hub, rides of many trips from all others to vertex 0. */
enum { HOPS = VERTICES - 1 };
static uint8_t stops[sizeof vertices], rides[HOPS * SILTBROW_HOP_WITH_TRIP_SIZE], scratch[SILTBROW_SCRATCH_BYTES(sizeof rides, SILTBROW_HOP_WITH_TRIP_SIZE)];

static void make_rides(int hub)
{
    memcpy(stops, vertices, sizeof stops);
    for (uint32_t v = 0; v < VERTICES; v++) {
        int leaves = hub ? v > 0 : v < HOPS;
        siltbrow_put(stops + 12 * v + 4, v == 0 ? 0 : hub ? HOPS : v - 1);
        siltbrow_put(stops + 12 * v + 8, siltbrow_get(vertices + 12 * v + 8) + ((uint32_t)leaves << 16));
    }
    for (uint32_t j = 0; j < HOPS; j++) {
        uint8_t *at = rides + SILTBROW_HOP_WITH_TRIP_SIZE * j;
        siltbrow_put(at, hub ? j + 1 : j);
        siltbrow_put(at + 4, hub ? 0 : j + 1);
        siltbrow_put(at + 8, hub ? 5000 + j * 7919 % 20000 : 5000 + j);
        siltbrow_put(at + 12, hub ? 5060 + j * 7919 % 20000 : 5001 + j);
        siltbrow_put_trip(at, hub ? 1 + j * 31 % 97 : 1);
    }
}

static void *board(void *unused)
{
    uint8_t here = 0;
    top = &here;
    (void)siltbrow_run_boarding(stops, sizeof stops, walks, sizeof walks, rides, sizeof rides, SILTBROW_HOP_WITH_TRIP_SIZE, WALKS / 2, 10, 36000,
                                SILTBROW_MAX_DURATION, 14, 60, limit, settled, sizeof settled, scratch, sizeof scratch, answer, sizeof answer);
    return unused;
}

/* The frame of all vertices, which stand in the settled buffer. */
static void *frame(void *unused)
{
    uint8_t here = 0;
    top = &here;
    (void)siltbrow_frame(vertices, sizeof vertices, settled, sizeof settled, points, sizeof points, answer, sizeof answer);
    return unused;
}

/* The walks taken for hops, as a move judges no contents; and back. */
static void *forward(void *unused)
{
    uint8_t here = 0;
    top = &here;
    if (siltbrow_hops_forward(walks, sizeof walks, wide, sizeof wide) != 0)
        exit(2);
    return unused;
}

static void *backward(void *unused)
{
    uint8_t here = 0;
    top = &here;
    if (siltbrow_hops_backward(wide, sizeof wide, narrow, sizeof narrow) != 0)
        exit(2);
    return unused;
}

/* A line of a million fields, plain and quoted in turn; and many lines, with
 * their trips in one another, whose ids stand in a long list. */
static char *wide_text, *long_text, *trip_list;
static uint8_t ridden[LINES * SILTBROW_HOP_WITH_TRIP_SIZE];

static void make_texts(void)
{
    char *at = wide_text = (char *)malloc(8 * FIELDS);
    at += sprintf(at, "trip_id,arrival_time,departure_time,stop_id,stop_sequence");
    for (int i = 0; i < FIELDS; i++)
        at += sprintf(at, i % 2 == 0 ? ",a" : ",\"b\"");
    sprintf(at, "\n");
    at = long_text = (char *)malloc(64 * LINES);
    at += sprintf(at, "trip_id,arrival_time,departure_time,stop_id,stop_sequence\n");
    for (int i = LINES - 1; i >= 0; i--)
        at += sprintf(at, "\"t%d\",%02d:%02d:00,,%c,%d\n", i % 100, i / 6000, i / 100 % 60, i / 100 % 2 == 0 ? 'A' : 'B', i);
    at = trip_list = (char *)malloc(32 * TRIPS);
    for (int i = 0; i < TRIPS; i++)
        at += sprintf(at, "t%d,%d\n", i, i);
}

static void read_text(const char *times, size_t room)
{
    static const char stops[] = "A,0\nB,1\n";
    uint8_t here = 0;
    top = &here;
    (void)siltbrow_timetable((const uint8_t *)times, strlen(times), (const uint8_t *)stops, strlen(stops), (const uint8_t *)trip_list, strlen(trip_list),
                             ridden, room * SILTBROW_HOP_WITH_TRIP_SIZE, answer, SILTBROW_TIMETABLE_ANSWER_SIZE);
}

static void *read_wide(void *unused)
{
    read_text(wide_text, LINES);
    return unused;
}

static void *read_long(void *unused)
{
    read_text(long_text, LINES);
    return unused;
}

/* With less room than there are lines, and hops. */
static void *read_narrow(void *unused)
{
    read_text(long_text, 5);
    return unused;
}

/* The bytes below the caller's frame that a call has used. */
static size_t used(void *(*call)(void *))
{
    pthread_attr_t attributes;
    pthread_t thread;
    uint8_t *stack = mmap(NULL, STACK, PROT_READ | PROT_WRITE, MAP_PRIVATE | MAP_ANONYMOUS, -1, 0);
    memset(stack, 0xA5, STACK);
    pthread_attr_init(&attributes);
    pthread_attr_setstack(&attributes, stack, STACK);
    if (pthread_create(&thread, &attributes, call, NULL) != 0)
        exit(2);
    pthread_join(thread, NULL);
    size_t low = 0;
    while (stack[low] == 0xA5)
        low++;
    size_t depth = (size_t)(top - (stack + low));
    munmap(stack, STACK);
    return depth;
}

int main(void)
{
    static const uint32_t limits[] = {0, 1, 300, 5000, VERTICES / 2, SILTBROW_NO_LIMIT};
    static const size_t rooms[] = {VERTICES, 4000, 600, 0};
    size_t most = 0, covering = 0;
    uint32_t whole = 0; /* runs that settle every vertex, and whose parts are made */
    make_grid();
    for (size_t i = 0; i < sizeof limits / sizeof *limits; i++)
        for (size_t j = 0; j < sizeof rooms / sizeof *rooms; j++) {
            limit = limits[i];
            held_len = rooms[j] * SILTBROW_HELD_SIZE;
            size_t depth = used(run);
            most = depth > most ? depth : most;
            list_len = SILTBROW_LIST_BYTES(siltbrow_read_answer(answer).settled);
            depth = used(cover);
            covering = depth > covering ? depth : covering;
            whole += list_len == sizeof settled && siltbrow_read_parts(answer).parts >= WALKS;
        }
    limit = SILTBROW_NO_LIMIT;
    held_len = sizeof held;
    many = 3; /* each has a third of what it needs */
    size_t several = used(runs);
    int shared = siltbrow_read_answer(answer).refusal == SILTBROW_SETTLED_ROOM;
    many = 1;
    size_t single = used(runs);
    shared = shared && siltbrow_read_answer(answer).settled == VERTICES;
    size_t reporting = used(evening);
    (void)used(run);
    buy();
    size_t judging = used(judge);
    int right = judged == 0 && list_len == sizeof bought;
    size_t listing = used(list_numbers), carrying = used(carry);
    int carried = siltbrow_read_answer(answer).settled == VERTICES;
    list_len = sizeof settled;
    size_t carrying_parts = used(carry_parts);
    carried = carried && siltbrow_read_parts(answer).parts >= WALKS && listing < MOST && carrying < MOST && carrying_parts < MOST;
    limit = SILTBROW_NO_LIMIT;
    make_rides(0);
    size_t boarding = used(board);
    int boarded = siltbrow_read_answer(answer).settled == VERTICES;
    make_rides(1);
    size_t at_hub = used(board);
    boarded = boarded && siltbrow_read_answer(answer).settled == VERTICES && boarding < MOST_BOARDING && at_hub < MOST_BOARDING;
    size_t depth = used(check);
    for (uint32_t v = 0; v < VERTICES; v++)
        siltbrow_put(settled + 8 * v, v);
    size_t framing = used(frame);
    int framed = siltbrow_read_frame(answer).refusal == SILTBROW_ACCEPTED;
    size_t moving = used(forward), back = used(backward);
    make_texts();
    size_t wide_line = used(read_wide);
    int read = siltbrow_read_timetable(answer).refusal == SILTBROW_ACCEPTED;
    size_t reading = used(read_long);
    read = read && siltbrow_read_timetable(answer).hops == LINES - 100;
    size_t in_turn = used(read_narrow);
    read = read && siltbrow_read_timetable(answer).refusal == SILTBROW_HOP_ROOM;
    printf("a check uses %zu bytes of stack, a run at most %zu, parts at most %zu, a frame %zu, the moves %zu and %zu, judging %zu, queries %zu and %zu, an evening %zu, a timetable %zu, with little room %zu, with a line of a million fields %zu\n", depth, most, covering,
           framing, moving, back, judging, several, single, reporting, reading, in_turn, wide_line);
    printf("the courier's list uses %zu, his run %zu, his parts %zu; a run with a boarding time %zu, to a hub %zu\n", listing, carrying, carrying_parts, boarding, at_hub);
    int good = boarded && carried && whole > 0 && framed && depth > 1000 && most > 1000 && covering > 1000 && framing > 1000 && depth < MOST && most < MOST
               && covering < MOST && framing < MOST && moving < MOST && back < MOST && right && judging < MOST_JUDGE && shared && several < MOST && single < MOST && reached == VERTICES && reporting < MOST && read && reading < MOST_READING && in_turn < MOST_READING && wide_line < MOST_READING && memcmp(narrow, walks, sizeof walks) == 0;
    printf("%d passed, %d failed\n", good, !good);
    return !good;
}
