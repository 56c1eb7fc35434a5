/* Holds what siltbrow.h has beside the calls against the library itself: the
 * bytes, the refusals and their names, the limits, the rooms, the version. It
 * is compiled as C99, C11 and C++17. */
#include <stdio.h>
#include <string.h>

#include "siltbrow.h"

static unsigned passed, failed;

static void count(int good, const char *what)
{
    if (good) {
        passed++;
        return;
    }
    failed++;
    printf("not so: %s\n", what);
}

/* Two vertices and a street of two records between them; a ride back. */
static uint8_t vertices[2 * SILTBROW_VERTEX_SIZE];
static uint8_t walks[2 * SILTBROW_WALK_SIZE];
static uint8_t hops[2 * SILTBROW_HOP_SIZE];

static uint8_t held[SILTBROW_HELD_BYTES(sizeof vertices)];
static uint8_t settled[SILTBROW_SETTLED_BYTES(sizeof vertices)];
static uint8_t parts[SILTBROW_PART_BYTES(sizeof walks)];

static void put4(uint8_t *at, uint32_t a, uint32_t b, uint32_t c, uint32_t d)
{
    siltbrow_put(at, a);
    siltbrow_put(at + 4, b);
    siltbrow_put(at + 8, c);
    siltbrow_put(at + 12, d);
}

static void fill(void)
{
    siltbrow_put(vertices, 0);
    siltbrow_put(vertices + 4, 0);
    siltbrow_put(vertices + 8, 3u << 16);
    siltbrow_put(vertices + 12, 1);
    siltbrow_put(vertices + 16, 0);
    siltbrow_put(vertices + 20, 1u << 16);
    put4(walks, 1, 0, SILTBROW_MAX_LENGTH, 1);
    put4(walks + 16, 0, 1, SILTBROW_MAX_LENGTH, 0);
    put4(hops, 0, 1, (uint32_t)SILTBROW_MIN_TIME, (uint32_t)SILTBROW_MAX_TIME);
    put4(hops + 16, 0, 1, 0, 1);
}

static siltbrow_answer ask(uint32_t record, uint32_t offset, int32_t arrival, uint32_t duration,
                           uint32_t speed, size_t held_len, size_t settled_len)
{
    uint8_t bytes[SILTBROW_ANSWER_SIZE];
    (void)siltbrow_run(vertices, sizeof vertices, walks, sizeof walks, hops, sizeof hops,
                       SILTBROW_HOP_SIZE, record, offset, arrival, duration, speed,
                       SILTBROW_NO_LIMIT, held, held_len, settled, settled_len, bytes,
                       sizeof bytes);
    return siltbrow_read_answer(bytes);
}

static siltbrow_answer ask_fully(uint32_t duration, uint32_t speed)
{
    return ask(0, 0, SILTBROW_MAX_TIME, duration, speed, sizeof held, sizeof settled);
}

/* The parts of the first bytes of the settled buffer, with the widest query. */
static siltbrow_parts_answer cover(uint32_t record, uint32_t offset, size_t list_len, size_t parts_len)
{
    uint8_t bytes[SILTBROW_PARTS_ANSWER_SIZE];
    (void)siltbrow_parts(vertices, sizeof vertices, walks, sizeof walks, hops, sizeof hops,
                         SILTBROW_HOP_SIZE, record, offset, SILTBROW_MAX_TIME,
                         SILTBROW_MAX_DURATION, SILTBROW_MAX_SPEED, settled, list_len, parts,
                         parts_len, bytes, sizeof bytes);
    return siltbrow_read_parts(bytes);
}

static void refused(siltbrow_answer answer, uint32_t refusal, uint32_t place, const char *what)
{
    count(answer.refusal == refusal && answer.place == place, what);
}

/* The check of the three tables as they stand, some of them cut. */
static void checked(size_t v, size_t w, size_t h, uint32_t refusal, uint32_t place, const char *what)
{
    uint64_t answer = siltbrow_check(vertices, v, walks, w, hops, h, SILTBROW_HOP_SIZE);
    count(siltbrow_check_refusal(answer) == refusal && siltbrow_check_place(answer) == place, what);
}

/* One field of a table gets another number, and the check refuses it. */
static void broken(uint8_t *at, uint32_t number, uint32_t refusal, uint32_t place, const char *what)
{
    uint32_t before = siltbrow_get(at);
    siltbrow_put(at, number);
    checked(sizeof vertices, sizeof walks, sizeof hops, refusal, place, what);
    siltbrow_put(at, before);
}

static void bytes_test(void)
{
    static const uint32_t numbers[] = {0, 1, 255, 256, 65536, 0x01020304u, 0x7FFFFFFFu, 0x80000000u, SILTBROW_NONE};
    uint8_t b[4];
    for (size_t i = 0; i < sizeof numbers / sizeof *numbers; i++) {
        siltbrow_put(b, numbers[i]);
        count(siltbrow_get(b) == numbers[i], "a number comes back from its bytes");
    }
    siltbrow_put(b, 0x01020304u);
    count(b[0] == 1 && b[1] == 2 && b[2] == 3 && b[3] == 4, "the highest byte comes first");
    siltbrow_put(b, (uint32_t)SILTBROW_MIN_TIME);
    count(siltbrow_get_time(b) == SILTBROW_MIN_TIME, "a time before midnight comes back");
    siltbrow_put(b, 0x80000000u);
    count(siltbrow_get_time(b) == INT32_MIN, "the lowest time comes back");
    siltbrow_put(b, SILTBROW_MAX_TIME);
    count(siltbrow_get_time(b) == SILTBROW_MAX_TIME, "the last time comes back");
}

/* A walk's length and wait come back, and nothing beside them is written. */
static void wait_test(void)
{
    static const uint32_t lengths[] = {0, 1, SILTBROW_MAX_LENGTH, 0xFFFFFFu}, seconds[] = {0, 1, SILTBROW_MAX_WAIT, 255};
    uint8_t walk[SILTBROW_WALK_SIZE];
    for (size_t i = 0; i < 4; i++)
        for (size_t j = 0; j < 4; j++) {
            put4(walk, 1, 2, SILTBROW_NONE, 3);
            siltbrow_put_length(walk, lengths[i], seconds[j]);
            count(siltbrow_get_length(walk) == lengths[i] && siltbrow_get_wait(walk) == seconds[j], "length and wait come back");
            count(siltbrow_get(walk) == 1 && siltbrow_get(walk + 4) == 2 && siltbrow_get(walk + 12) == 3, "the ends and the twin stay");
        }
    siltbrow_put_length(walk, 0x1000001u, 0x101u);
    count(siltbrow_get(walk + 8) == 0x01000001u, "what is above the bytes is lost");
    siltbrow_put(walk + 8, 2000);
    count(siltbrow_get_length(walk) == 2000 && siltbrow_get_wait(walk) == 0, "a length of old is one without a wait");
}

/* The place is past the lights of walk 0, then just before them. */
static void crossing_test(void)
{
    fill();
    siltbrow_put_length(walks, 1000, 30);
    siltbrow_put_length(walks + SILTBROW_WALK_SIZE, 1000, 7);
    siltbrow_answer all = ask(0, 1000, SILTBROW_MAX_TIME, 200, 10, sizeof held, sizeof settled);
    count(all.settled == 2 && siltbrow_get(settled) == 0 && siltbrow_get(settled + 8) == 1 && siltbrow_get(settled + 12) == 1300,
          "a place past the lights");
    all = ask(0, 999, SILTBROW_MAX_TIME, 200, 10, sizeof held, sizeof settled);
    count(all.settled == 2 && siltbrow_get(settled + 8) == 1 && siltbrow_get(settled + 12) == 999, "a place just before them");
    all = ask(0, 0, SILTBROW_MAX_TIME, 200, 10, sizeof held, sizeof settled);
    count(all.settled == 2 && siltbrow_get(settled + 8) == 0 && siltbrow_get(settled + 12) == 1070, "a place past the lights of the twin");
    fill();
}

static void table_test(void)
{
    size_t v = sizeof vertices, w = sizeof walks, h = sizeof hops;
    checked(v, w, h, SILTBROW_ACCEPTED, 0, "lengths and times at their limits are good");
    checked(v - 1, w, h, SILTBROW_BAD_LENGTH, 0, "a cut vertex");
    checked(v, w - 1, h, SILTBROW_BAD_LENGTH, 1, "a cut walk");
    checked(v, w, h - 1, SILTBROW_BAD_LENGTH, 2, "a cut hop");
    broken(walks + 8, SILTBROW_MAX_LENGTH + 1, SILTBROW_BAD_WALK, 0, "a walk that is too long");
    broken(walks + 8, SILTBROW_MAX_WAIT << 24 | SILTBROW_MAX_LENGTH, SILTBROW_ACCEPTED, 0, "the longest wait, that the twin has not");
    broken(walks + 8, (SILTBROW_MAX_WAIT + 1) << 24 | SILTBROW_MAX_LENGTH, SILTBROW_BAD_WALK, 0, "a wait that is too long");
    broken(walks + 8, SILTBROW_MAX_WAIT << 24, SILTBROW_BAD_WALK, 0, "a wait without a length");
    broken(walks + 12, SILTBROW_NONE, SILTBROW_BAD_WALK, 1, "a twin that does not name it back");
    broken(hops + 8, (uint32_t)(SILTBROW_MIN_TIME - 1), SILTBROW_BAD_HOP, 0, "a hop that is too early");
    broken(hops + 12, (uint32_t)(SILTBROW_MAX_TIME + 1), SILTBROW_BAD_HOP, 0, "a hop that is too late");
    broken(hops + 24, 1, SILTBROW_ACCEPTED, 0, "a hop that arrives as it departs");
    broken(hops + 24, 2, SILTBROW_BAD_HOP, 1, "a hop that arrives before it departs");
    put4(walks, 0, 1, 10, SILTBROW_NONE);
    put4(walks + 16, 1, 0, 10, SILTBROW_NONE);
    checked(v, w, h, SILTBROW_WALK_ORDER, 1, "walks out of order");
    fill();
    put4(hops + 16, 1, 0, 0, 1);
    checked(v, w, h, SILTBROW_HOP_ORDER, 1, "hops out of order");
    fill();
    broken(vertices + 8, 2u << 16, SILTBROW_BAD_VERTEX, 0, "a departing count");
}

static void query_test(void)
{
    int32_t late = SILTBROW_MAX_TIME;
    uint32_t longest = SILTBROW_MAX_LENGTH, day = SILTBROW_MAX_DURATION, fast = SILTBROW_MAX_SPEED;
    size_t h = sizeof held, s = sizeof settled;
    siltbrow_answer all = ask_fully(day, fast);
    count(all.refusal == SILTBROW_ACCEPTED && all.settled == 2 && all.parts == 0 && all.finished == 1,
          "the widest query is accepted, with the room that is always enough");
    count(siltbrow_get(settled) == 1 && siltbrow_get(settled + 4) == 0, "the place itself is settled first");
    refused(ask(2, 0, late, day, fast, h, s), SILTBROW_BAD_QUERY, 0, "no such walk");
    refused(ask(0, longest + 1, late, day, fast, h, s), SILTBROW_BAD_QUERY, 1, "an offset beyond the end");
    refused(ask(0, 0, late + 1, day, fast, h, s), SILTBROW_BAD_QUERY, 2, "an arrival that is too late");
    refused(ask_fully(day + 1, fast), SILTBROW_BAD_QUERY, 3, "a duration that is too long");
    refused(ask_fully(day, fast + 1), SILTBROW_BAD_QUERY, 4, "a speed that is too high");
    refused(ask(0, 0, late, day, fast, h - 1, s), SILTBROW_BAD_LENGTH, 3, "a cut held record");
    refused(ask(0, 0, late, day, fast, h, s - 1), SILTBROW_BAD_LENGTH, 4, "a cut settled record");
    refused(ask(0, 0, late, day, fast, 0, s), SILTBROW_HELD_ROOM, 0, "no room for held records");
    refused(ask(0, 0, late, day, fast, h, 0), SILTBROW_SETTLED_ROOM, 1, "no room for settled records");
}

/* Whether every byte of the part buffer is this one. */
static int parts_are(uint8_t byte)
{
    for (size_t i = 0; i < sizeof parts; i++)
        if (parts[i] != byte)
            return 0;
    return 1;
}

/* A refusal of parts: it leaves the buffer zero where it is 10, and otherwise
 * as it was. */
static void uncovered(uint32_t record, size_t list_len, size_t parts_len, uint32_t refusal, uint32_t place, const char *what)
{
    memset(parts, 7, sizeof parts);
    siltbrow_parts_answer answer = cover(record, SILTBROW_MAX_LENGTH / 2, list_len, parts_len);
    count(answer.refusal == refusal && answer.place == place && answer.parts == 0, what);
    if (refusal == SILTBROW_PART_ROOM)
        memset(parts + parts_len, 0, sizeof parts - parts_len);
    count(parts_are(refusal == SILTBROW_PART_ROOM ? 0 : 7), "the bytes that a refusal leaves");
}

static void parts_test(void)
{
    uint32_t half = SILTBROW_MAX_LENGTH / 2, farthest = SILTBROW_MAX_DURATION * SILTBROW_MAX_SPEED;
    size_t p = sizeof parts;
    siltbrow_answer all = ask(0, half, SILTBROW_MAX_TIME, SILTBROW_MAX_DURATION, SILTBROW_MAX_SPEED, sizeof held, sizeof settled);
    size_t l = SILTBROW_LIST_BYTES(all.settled);
    count(l == sizeof settled, "the list of a run that settles all");
    siltbrow_parts_answer covered = cover(0, half, l, p);
    count(covered.refusal == SILTBROW_ACCEPTED && covered.place == 0 && covered.parts == 4,
          "a place in the middle gives two parts more than there are walks");
    count(siltbrow_get(parts) == 0 && siltbrow_get(parts + 4) == 0 && siltbrow_get(parts + 8) == half, "the first part ends at the place");
    count(cover(0, half, 0, p).parts == 2 && siltbrow_get(parts + 2 * SILTBROW_PART_SIZE) == 0, "an empty list gives the parts of step 0, and zeros");
    count(siltbrow_parts(vertices, sizeof vertices, walks, sizeof walks, hops, sizeof hops, SILTBROW_HOP_SIZE, 0, half, 0, 1, 1,
                         settled, l, parts, p, NULL, 0) == 1, "an answer that is too short");
    uncovered(2, l, p, SILTBROW_BAD_QUERY, 0, "no such walk");
    uncovered(0, l - 1, p, SILTBROW_BAD_LENGTH, 4, "a cut entry");
    uncovered(0, l, p - 1, SILTBROW_BAD_LENGTH, 5, "a cut part");
    uncovered(0, l, SILTBROW_PART_SIZE, SILTBROW_PART_ROOM, 0, "no room for the parts of step 0");
    uncovered(0, l, 3 * SILTBROW_PART_SIZE, SILTBROW_PART_ROOM, 2, "no room for the parts of the last entry");
    siltbrow_put(settled + 12, farthest + 1);
    uncovered(0, l, 0, SILTBROW_BAD_ENTRY, 1, "a distance above the duration, before all room");
    siltbrow_put(settled + 12, farthest);
    count(cover(0, half, l, p).parts == 3, "a distance of the whole duration gives no part");
    siltbrow_put(settled + 8, siltbrow_get(settled));
    uncovered(0, l, p, SILTBROW_BAD_ENTRY, 1, "a vertex twice");
    siltbrow_put(settled + 8, 2);
    uncovered(0, l, p, SILTBROW_BAD_ENTRY, 1, "no such vertex");
}

static void judged(const uint8_t *list, size_t len, uint32_t refusal, uint32_t place, const char *what)
{
    uint64_t answer = siltbrow_judge(vertices, sizeof vertices, walks, sizeof walks, hops, sizeof hops, SILTBROW_HOP_SIZE, 0, 300,
                                     SILTBROW_MAX_TIME, 200, 10, list, len);
    count(siltbrow_check_refusal(answer) == refusal && siltbrow_check_place(answer) == place, what);
}

/* The road is 1,000 long, the place 300 from vertex 1, and D is 2,000. */
static void judge_test(void)
{
    uint8_t list[2 * SILTBROW_ENTRY_SIZE];
    size_t l = sizeof list, e = SILTBROW_ENTRY_SIZE;
    fill();
    siltbrow_put_length(walks, 1000, 0);
    siltbrow_put_length(walks + SILTBROW_WALK_SIZE, 1000, 0);
    siltbrow_put_entry(list, 1, 300, SILTBROW_SEED);
    siltbrow_put_entry(list + e, 0, 700, SILTBROW_SEED);
    count(siltbrow_get(list + e) == 0 && siltbrow_get(list + e + 4) == 700 && siltbrow_get(list + e + 8) == SILTBROW_SEED, "an entry comes back from its bytes");
    judged(list, l, SILTBROW_ACCEPTED, 0, "a right list");
    judged(list, l - 1, SILTBROW_BAD_LENGTH, 4, "a cut entry");
    judged(NULL, 0, SILTBROW_BETTER_OFFER, SILTBROW_SEED_FROM, "an empty list");
    judged(list, e, SILTBROW_BETTER_OFFER, SILTBROW_SEED_TO, "without the other end");
    siltbrow_put_entry(list + e, 0, 1300, 1);
    judged(list, l, SILTBROW_BETTER_OFFER, SILTBROW_SEED_TO, "the way around instead of the way straight");
    siltbrow_put_entry(list + e, 0, 1300, 0);
    judged(list, l, SILTBROW_LISTED_RECORD, 1, "a record from elsewhere");
    siltbrow_put_entry(list + e, 0, 2001, 1);
    judged(list, l, SILTBROW_LISTED_DISTANCE, 1, "a distance above the duration");
    siltbrow_put_entry(list + e, 1, 300, SILTBROW_SEED);
    judged(list, l, SILTBROW_LISTED_VERTEX, 1, "a vertex twice");
    fill();
}

/* Two queries, a bad one between them: each has its share of five records, and two are left over. */
static void runs_test(void)
{
    uint8_t asked[3 * SILTBROW_QUERY_SIZE], answers[3 * SILTBROW_ANSWER_SIZE];
    uint8_t held[2 * SILTBROW_HELD_SIZE], settled[17 * SILTBROW_SETTLED_SIZE];
    size_t q = SILTBROW_QUERY_SIZE, share = SILTBROW_SHARE_BYTES(sizeof settled, 3u);
    fill();
    siltbrow_put_length(walks, 1000, 0);
    siltbrow_put_length(walks + SILTBROW_WALK_SIZE, 1000, 0);
    memset(settled, 9, sizeof settled);
    siltbrow_put_query(asked, 0, 300, SILTBROW_MAX_TIME, 200, 10, SILTBROW_NO_LIMIT);
    siltbrow_put_query(asked + q, 0, 300, -1, 200, 10, SILTBROW_NO_LIMIT);
    siltbrow_put_query(asked + 2 * q, 0, 400, SILTBROW_MAX_TIME, 200, 10, 1);
    count(siltbrow_get_time(asked + q + 8) == -1 && siltbrow_get(asked + q + 20) == SILTBROW_NO_LIMIT, "a query comes back from its bytes");
    count(share == 5 * SILTBROW_SETTLED_SIZE, "a share of five records");
    count(siltbrow_runs(vertices, sizeof vertices, walks, sizeof walks, hops, sizeof hops, SILTBROW_HOP_SIZE, asked, sizeof asked, held, sizeof held,
                        settled, sizeof settled, answers, sizeof answers) == 0, "three queries");
    siltbrow_answer first = siltbrow_read_answer(answers), bad = siltbrow_read_answer(answers + SILTBROW_ANSWER_SIZE);
    siltbrow_answer last = siltbrow_read_answer(answers + 2 * SILTBROW_ANSWER_SIZE);
    count(first.settled == 2 && first.finished == 1 && siltbrow_get(settled) == 1 && siltbrow_get(settled + 4) == 300, "the first query");
    count(bad.refusal == SILTBROW_BAD_QUERY && bad.place == 2 && settled[share] == 9 && settled[2 * share - 1] == 9, "the bad query");
    count(last.settled == 1 && last.finished == 0 && siltbrow_get(settled + 2 * share + 4) == 400 && settled[3 * share - 1] == 0, "the last query");
    count(settled[3 * share] == 9 && settled[sizeof settled - 1] == 9, "behind the last share");
    count(siltbrow_runs(vertices, sizeof vertices, walks, sizeof walks, hops, sizeof hops, SILTBROW_HOP_SIZE, asked, sizeof asked - 1, held, sizeof held,
                        settled, sizeof settled, answers, sizeof answers) == 1, "a cut query");
    count(siltbrow_runs(vertices, sizeof vertices, walks, sizeof walks, hops, sizeof hops, SILTBROW_HOP_SIZE, asked, sizeof asked, held, sizeof held,
                        settled, sizeof settled, answers, sizeof answers - 1) == 1, "a cut answer");
    count(siltbrow_runs(NULL, 0, NULL, 0, NULL, 0, SILTBROW_HOP_SIZE, NULL, 0, NULL, 0, NULL, 0, NULL, 0) == 0, "no query");
    fill();
}

static siltbrow_answer evening(int32_t first, uint32_t gap, uint32_t arrivals, const uint8_t *patients, size_t patients_len, uint8_t *report, size_t report_len)
{
    uint8_t held[2 * SILTBROW_HELD_SIZE], settled[2 * SILTBROW_SETTLED_SIZE], bytes[SILTBROW_ANSWER_SIZE];
    count(siltbrow_patients(vertices, sizeof vertices, walks, sizeof walks, hops, sizeof hops, SILTBROW_HOP_SIZE, 0, 300, first, 50, 10, gap, arrivals,
                            patients, patients_len, held, sizeof held, settled, sizeof settled, report, report_len, bytes, sizeof bytes) == 0, "an evening");
    return siltbrow_read_answer(bytes);
}

static void unreported(siltbrow_answer answer, const uint8_t *report, uint32_t refusal, uint32_t place, const char *what)
{
    count(answer.refusal == refusal && answer.place == place && answer.settled == 0 && report[0] == 9, what);
}

/* The road is 1,000 long, the place 300 from vertex 1, and D is 500: vertex 1 alone is reached. */
static void patients_test(void)
{
    uint8_t patients[2 * SILTBROW_FIGURE_SIZE], report[SILTBROW_REPORT_BYTES(sizeof vertices, 2u)];
    size_t p = sizeof patients, r = sizeof report;
    fill();
    siltbrow_put_length(walks, 1000, 0);
    siltbrow_put_length(walks + SILTBROW_WALK_SIZE, 1000, 0);
    siltbrow_put(patients, 7);
    siltbrow_put(patients + 4, SILTBROW_MAX_PATIENTS);
    count(r == 5 * SILTBROW_FIGURE_SIZE, "a figure for each vertex, each arrival and the total");
    siltbrow_answer answer = evening(SILTBROW_MAX_TIME - (int32_t)SILTBROW_MAX_GAP, SILTBROW_MAX_GAP, 2, patients, p, report, r);
    count(answer.refusal == SILTBROW_ACCEPTED && answer.settled == 1 && answer.finished == 1, "two arrivals");
    count(siltbrow_get(report) == 0 && siltbrow_get(report + 4) == 2 && siltbrow_get(report + 8) == SILTBROW_MAX_PATIENTS
              && siltbrow_get(report + 12) == SILTBROW_MAX_PATIENTS && siltbrow_get(report + 16) == SILTBROW_MAX_PATIENTS + 7, "their report");
    memset(report, 9, sizeof report);
    unreported(evening(0, 60, 2, patients, p - 1, report, r), report, SILTBROW_BAD_LENGTH, 6, "a cut count");
    unreported(evening(0, 60, 2, patients, p, report, r - 4), report, SILTBROW_BAD_LENGTH, 7, "a figure missing");
    unreported(evening(0, SILTBROW_MAX_GAP + 1, 2, patients, p, report, r), report, SILTBROW_BAD_EVENING, 0, "the gap");
    unreported(evening(SILTBROW_MAX_TIME, 1, 2, patients, p, report, r), report, SILTBROW_BAD_EVENING, 2, "the last arrival");
    siltbrow_put(patients + 4, SILTBROW_MAX_PATIENTS + 1);
    unreported(evening(0, 0, 2, patients, p, report, r), report, SILTBROW_TOO_MANY_PATIENTS, 1, "too many patients");
    uint8_t large[SILTBROW_REPORT_BYTES(sizeof vertices, SILTBROW_MAX_ARRIVALS + 1u)] = {9};
    siltbrow_put(patients + 4, 0);
    unreported(evening(0, 1, SILTBROW_MAX_ARRIVALS + 1, patients, p, large, sizeof large), large, SILTBROW_BAD_EVENING, 1, "97 arrivals");
    answer = evening(0, 1, SILTBROW_MAX_ARRIVALS, patients, p, large, sizeof large - SILTBROW_FIGURE_SIZE);
    count(answer.refusal == SILTBROW_ACCEPTED && siltbrow_get(large + 4) == SILTBROW_MAX_ARRIVALS, "96 arrivals");
    fill();
}

static void count_test(void)
{
    static uint8_t many[(SILTBROW_MAX_VERTICES + 1) * SILTBROW_VERTEX_SIZE];
    uint64_t most = siltbrow_check(many, sizeof many - SILTBROW_VERTEX_SIZE, NULL, 0, NULL, 0, SILTBROW_HOP_SIZE);
    uint64_t more = siltbrow_check(many, sizeof many, NULL, 0, NULL, 0, SILTBROW_HOP_SIZE);
    count(most == 0, "as many vertices as there may be");
    count(siltbrow_check_refusal(more) == SILTBROW_BAD_LENGTH, "one vertex more");
    count(SILTBROW_MAX_WALKS == 4 * SILTBROW_MAX_VERTICES && SILTBROW_MAX_HOPS == SILTBROW_MAX_WALKS, "walks and hops");
}

static void moved(uint64_t answer, uint32_t refusal, uint32_t place, const char *what)
{
    count(siltbrow_check_refusal(answer) == refusal && siltbrow_check_place(answer) == place, what);
}

/* The hops to 20 bytes and back, and the same answers over both. */
static void move_test(void)
{
    uint8_t wide[SILTBROW_FORWARD_BYTES(sizeof hops)], back[sizeof hops];
    size_t v = sizeof vertices, w = sizeof walks, h = sizeof hops, x = sizeof wide;
    memset(wide, 7, x);
    moved(siltbrow_hops_forward(hops, h - 1, wide, x), SILTBROW_BAD_LENGTH, 2, "a cut hop is not moved");
    moved(siltbrow_hops_forward(hops, h, wide, x - 1), SILTBROW_BAD_LENGTH, 6, "a target that is too short");
    count(wide[0] == 7 && wide[x - 1] == 7, "a refused move changes nothing");
    moved(siltbrow_hops_forward(hops, h, wide, x), SILTBROW_ACCEPTED, 0, "forward");
    count(siltbrow_get_trip(wide) == 0 && siltbrow_get_trip(wide + SILTBROW_HOP_WITH_TRIP_SIZE) == 0, "forward sets the trips to 0");
    count(SILTBROW_BACKWARD_BYTES(sizeof wide) == sizeof hops, "the bytes of the way back");
    moved(siltbrow_hops_backward(wide, x, back, h), SILTBROW_ACCEPTED, 0, "backward");
    count(memcmp(back, hops, h) == 0, "forward then backward gives the same bytes");
    siltbrow_put_trip(wide + SILTBROW_HOP_WITH_TRIP_SIZE, 1001);
    count(siltbrow_get_trip(wide + SILTBROW_HOP_WITH_TRIP_SIZE) == 1001, "a trip comes back from its bytes");
    memset(back, 7, h);
    moved(siltbrow_hops_backward(wide, x, back, h - 1), SILTBROW_BAD_LENGTH, 6, "the target is judged before the trips");
    moved(siltbrow_hops_backward(wide, x, back, h), SILTBROW_KNOWN_TRIP, 1, "a trip that is known");
    count(back[0] == 7 && back[h - 1] == 7, "what is known is not lost");
    moved(siltbrow_hops_forward(NULL, 0, NULL, 0), SILTBROW_ACCEPTED, 0, "no hop");
    moved(siltbrow_check(vertices, v, walks, w, wide, x, SILTBROW_HOP_WITH_TRIP_SIZE), SILTBROW_ACCEPTED, 0, "hops with trips");
    moved(siltbrow_check(vertices, v, walks, w, wide, x, SILTBROW_HOP_SIZE), SILTBROW_BAD_LENGTH, 2, "another size than they have");
    moved(siltbrow_check(vertices, v, walks, w, NULL, 0, 0), SILTBROW_BAD_LENGTH, 2, "no size");
}

/* The same bits: == takes -0.0 for 0.0. */
static int same(float a, float b)
{
    return memcmp(&a, &b, sizeof a) == 0;
}

static siltbrow_frame_answer frame(const uint8_t *list, size_t list_len, const uint8_t *points, size_t points_len)
{
    uint8_t bytes[SILTBROW_ANSWER_SIZE];
    (void)siltbrow_frame(vertices, sizeof vertices, list, list_len, points, points_len, bytes, sizeof bytes);
    return siltbrow_read_frame(bytes);
}

static void framed(siltbrow_frame_answer answer, uint32_t refusal, uint32_t place, const char *what)
{
    count(answer.refusal == refusal && answer.place == place && same(answer.least_x, 0.0f) && same(answer.greatest_x, 0.0f)
              && same(answer.least_y, 0.0f) && same(answer.greatest_y, 0.0f), what);
}

static void frame_test(void)
{
    uint8_t list[2 * SILTBROW_SETTLED_SIZE], points[2 * SILTBROW_POINT_SIZE], bytes[SILTBROW_ANSWER_SIZE] = {7};
    size_t l = sizeof list, p = sizeof points;
    put4(list, 1, 0, 0, 0);
    siltbrow_put_float(points, -1.5f);
    siltbrow_put_float(points + 4, 0.0f);
    siltbrow_put_float(points + 8, 2.25f);
    siltbrow_put_float(points + 12, -0.0f);
    count(siltbrow_get(points) == 0xBFC00000u && same(siltbrow_get_float(points), -1.5f), "a float comes back from its bytes");
    siltbrow_frame_answer both = frame(list, l, points, p);
    count(both.refusal == SILTBROW_ACCEPTED && same(both.least_x, -1.5f) && same(both.greatest_x, 2.25f), "the frame of two points");
    count(same(both.least_y, -0.0f) && same(both.greatest_y, -0.0f), "of two zeros that of the earlier entry stays");
    framed(frame(list, l - 1, points, p), SILTBROW_BAD_LENGTH, 4, "a cut entry");
    framed(frame(list, l, points, p - SILTBROW_POINT_SIZE), SILTBROW_BAD_LENGTH, 6, "a point is missing");
    framed(frame(list, 0, points, p), SILTBROW_EMPTY_LIST, 0, "an empty list");
    siltbrow_put(list + 8, 1);
    framed(frame(list, l, points, p), SILTBROW_BAD_ENTRY, 1, "a vertex twice");
    siltbrow_put(list + 8, 2);
    framed(frame(list, l, points, p), SILTBROW_BAD_ENTRY, 1, "no such vertex");
    siltbrow_put(points + 4, 0x7F800000u);
    framed(frame(list, SILTBROW_SETTLED_SIZE, points, p), SILTBROW_BAD_POINT, 0, "an infinite coordinate, not listed");
    count(siltbrow_frame(vertices, sizeof vertices, list, l, points, p, bytes, sizeof bytes - 1) == 1 && bytes[0] == 7, "an answer that is too short");
}

/* The hops of a timetable of two stops, in a target of so many bytes. */
static siltbrow_timetable_answer timetable(const char *times, const char *stops, const char *trips, uint8_t *target, size_t target_len)
{
    uint8_t bytes[SILTBROW_TIMETABLE_ANSWER_SIZE];
    memset(target, 7, target_len);
    (void)siltbrow_timetable((const uint8_t *)times, strlen(times), (const uint8_t *)stops, strlen(stops), (const uint8_t *)trips, strlen(trips),
                             target, target_len, bytes, sizeof bytes);
    return siltbrow_read_timetable(bytes);
}

static void read_refused(siltbrow_timetable_answer answer, uint32_t refusal, uint32_t place, const uint8_t *target, uint8_t left, const char *what)
{
    count(answer.refusal == refusal && answer.place == place && answer.hops == 0 && target[0] == left && target[SILTBROW_HOP_WITH_TRIP_SIZE] == left, what);
}

#define HEADER "trip_id,arrival_time,departure_time,stop_id,stop_sequence\n"
#define RIDE "x,9:00:00,,A,1\nx,9:05:00,,B,2\n"

static void timetable_test(void)
{
    static const char *const lines = HEADER RIDE, *const ab = "A,0\nB,1\n";
    uint8_t target[2 * SILTBROW_HOP_WITH_TRIP_SIZE], bytes[SILTBROW_TIMETABLE_ANSWER_SIZE] = {7};
    size_t t = sizeof target;
    count(siltbrow_timetable_room((const uint8_t *)lines, strlen(lines)) == 3 * SILTBROW_HOP_WITH_TRIP_SIZE, "a record for each line end");
    siltbrow_timetable_answer answer = timetable(lines, ab, "x,1001", target, t);
    count(answer.refusal == SILTBROW_ACCEPTED && answer.place == 0 && answer.hops == 1, "the hop of two stops");
    count(siltbrow_get(target) == 0 && siltbrow_get(target + 4) == 1 && siltbrow_get_time(target + 8) == 32400 && siltbrow_get_time(target + 12) == 32700
              && siltbrow_get_trip(target) == 1001 && target[SILTBROW_HOP_WITH_TRIP_SIZE] == 0 && target[t - 1] == 0, "its bytes, and zeros behind it");
    moved(siltbrow_check(vertices, sizeof vertices, walks, sizeof walks, target, SILTBROW_HOP_WITH_TRIP_SIZE, SILTBROW_HOP_WITH_TRIP_SIZE), SILTBROW_BAD_VERTEX, 0,
          "the hop is good, and the vertices are those of other hops");
    read_refused(timetable(lines, ab, "x,1001", target, t - 1), SILTBROW_BAD_LENGTH, 2, target, 7, "a cut record");
    read_refused(timetable(lines, "A\n", "x", target, t), SILTBROW_BAD_ID_LINE, 1, target, 0, "a stop without a vertex");
    read_refused(timetable(lines, ab, "y,1\nx,4294967296", target, t), SILTBROW_BAD_ID_LINE, 2, target, 0, "a trip of 33 bits");
    read_refused(timetable("trip_id\n" RIDE, ab, "x,1", target, t), SILTBROW_BAD_COLUMNS, 1, target, 0, "columns are missing");
    read_refused(timetable(HEADER "\nx,48:00:00,,A,1\n", ab, "x,1", target, t), SILTBROW_BAD_LINE, 3, target, 0, "a bad time, behind an empty line");
    read_refused(timetable(lines, "A,0", "x,1", target, t), SILTBROW_UNKNOWN_ID, 3, target, 0, "an unknown stop");
    read_refused(timetable(HEADER RIDE RIDE, ab, "x,1", target, t), SILTBROW_SEQUENCE_REPEATED, 4, target, 0, "a sequence twice");
    read_refused(timetable(HEADER RIDE "x,,,A,3", ab, "x,1", target, t), SILTBROW_BAD_STOP, 4, target, 0, "a last stop without a time");
    read_refused(timetable(lines, ab, "x,1", target, 0), SILTBROW_HOP_ROOM, 0, target, 0, "no room");
    count(siltbrow_timetable(NULL, 0, NULL, 0, NULL, 0, NULL, 0, bytes, sizeof bytes - 1) == 1 && bytes[0] == 7, "a timetable's answer that is too short");
}

/* The courier's list of the four records: walk 1 and both hops leave vertex 0, walk 0 leaves vertex 1. */
static uint8_t numbers[SILTBROW_COURIER_LIST_BYTES(sizeof walks, sizeof hops, SILTBROW_HOP_SIZE)];

static void listed(size_t v, size_t len, uint32_t refusal, uint32_t place, const char *what)
{
    memset(numbers, 9, sizeof numbers);
    uint64_t answer = siltbrow_courier_list(vertices, v, walks, sizeof walks, hops, sizeof hops, SILTBROW_HOP_SIZE, numbers, len);
    count(siltbrow_check_refusal(answer) == refusal && siltbrow_check_place(answer) == place, what);
    count(refusal == SILTBROW_ACCEPTED || (numbers[0] == 9 && numbers[sizeof numbers - 1] == 9), "a list that is refused stays");
}

static void courier_list_test(void)
{
    size_t v = sizeof vertices, n = sizeof numbers;
    fill();
    count(n == 4 * SILTBROW_NUMBER_SIZE, "a number for each record");
    listed(v, n - 1, SILTBROW_BAD_LENGTH, 6, "a cut number");
    listed(v, n - SILTBROW_NUMBER_SIZE, SILTBROW_BAD_LENGTH, 6, "a number less");
    listed(v - 1, n - 1, SILTBROW_BAD_LENGTH, 0, "a cut vertex before it");
    siltbrow_put(vertices + 8, 2u << 16);
    listed(v, n, SILTBROW_BAD_VERTEX, 0, "a departing count");
    fill();
    listed(v, n, SILTBROW_ACCEPTED, 0, "the list");
    count(siltbrow_get(numbers) == 1 && siltbrow_get(numbers + 4) == 2 && siltbrow_get(numbers + 8) == 3 && siltbrow_get(numbers + 12) == 0, "its numbers");
}

static siltbrow_answer carry(uint32_t record, int32_t departure, size_t held_len, size_t list_len)
{
    uint8_t bytes[SILTBROW_ANSWER_SIZE];
    count(siltbrow_courier(vertices, sizeof vertices, walks, sizeof walks, hops, sizeof hops, SILTBROW_HOP_SIZE, numbers, list_len, record, 300, departure, 200, 10,
                           SILTBROW_NO_LIMIT, held, held_len, settled, sizeof settled, bytes, sizeof bytes) == 0, "a courier");
    return siltbrow_read_answer(bytes);
}

/* The road is 1,000 long with 30 and 7 seconds of wait, the place 300 from vertex 1 on the way to 0, and D is 2,000. */
static void courier_test(void)
{
    size_t h = sizeof held, n = sizeof numbers;
    siltbrow_put_length(walks, 1000, 30);
    siltbrow_put_length(walks + SILTBROW_WALK_SIZE, 1000, 7);
    siltbrow_answer all = carry(0, 36000, h, n);
    count(all.refusal == SILTBROW_ACCEPTED && all.settled == 2 && all.parts == 0 && all.held == 0 && all.finished == 1, "where the courier comes");
    count(siltbrow_get(settled) == 1 && siltbrow_get(settled + 4) == 370 && siltbrow_get(settled + 8) == 0 && siltbrow_get(settled + 12) == 1000, "when he comes there");
    refused(carry(0, 36000, h, n - 1), SILTBROW_BAD_LENGTH, 6, "a cut list");
    refused(carry(0, 36000, h - 1, n - 1), SILTBROW_BAD_LENGTH, 3, "a cut held record before it");
    refused(carry(2, 36000, h, n), SILTBROW_BAD_QUERY, 0, "no such walk");
    refused(carry(0, SILTBROW_MAX_TIME + 1, h, n), SILTBROW_BAD_QUERY, 2, "a departure that is too late");
    refused(carry(0, 36000, SILTBROW_HELD_SIZE, n), SILTBROW_HELD_ROOM, 0, "no room for both ends");
    siltbrow_put(numbers + 4, 3);
    siltbrow_put(numbers + 8, 2);
    refused(carry(2, 36000, h, n), SILTBROW_OTHER_LIST, 1, "a list that is not that of the tables, before the query");
    siltbrow_put(numbers + 4, 2);
    siltbrow_put(numbers + 8, 3);
    count(siltbrow_courier(vertices, sizeof vertices, walks, sizeof walks, hops, sizeof hops, SILTBROW_HOP_SIZE, numbers, n, 0, 300, 36000, 200, 10,
                           SILTBROW_NO_LIMIT, held, h, settled, sizeof settled, NULL, 0) == 1, "a courier's answer that is too short");
}

static siltbrow_parts_answer carried(size_t numbers_len, size_t list_len, size_t parts_len)
{
    uint8_t bytes[SILTBROW_PARTS_ANSWER_SIZE];
    memset(parts, 7, sizeof parts);
    count(siltbrow_courier_parts(vertices, sizeof vertices, walks, sizeof walks, hops, sizeof hops, SILTBROW_HOP_SIZE, numbers, numbers_len, 0, 300, 36000, 200, 10,
                                 settled, list_len, parts, parts_len, bytes, sizeof bytes) == 0, "a courier's parts");
    return siltbrow_read_parts(bytes);
}

/* The same place, from the list that the courier's run has left. */
static void courier_parts_test(void)
{
    size_t n = sizeof numbers, p = sizeof parts, l = SILTBROW_LIST_BYTES(carry(0, 36000, sizeof held, n).settled);
    siltbrow_parts_answer covered = carried(n, l, p);
    count(covered.refusal == SILTBROW_ACCEPTED && covered.place == 0 && covered.parts == 4, "his parts");
    count(siltbrow_get(parts) == 0 && siltbrow_get(parts + 4) == 300 && siltbrow_get(parts + 8) == 1000, "the first begins at the place");
    count(siltbrow_get(parts + 24) == 0 && siltbrow_get(parts + 28) == 0 && siltbrow_get(parts + 32) == 300, "the third ends there");
    covered = carried(n - 1, l, p);
    count(covered.refusal == SILTBROW_BAD_LENGTH && covered.place == 6 && parts_are(7), "parts of a cut list");
    covered = carried(n, l - 1, p - 1);
    count(covered.refusal == SILTBROW_BAD_LENGTH && covered.place == 4 && parts_are(7), "parts of a cut entry");
    covered = carried(n, l, 3 * SILTBROW_PART_SIZE);
    count(covered.refusal == SILTBROW_PART_ROOM && covered.place == 2 && parts[0] == 0, "no room for his last part");
    siltbrow_put(settled, 2);
    covered = carried(n, l, 0);
    count(covered.refusal == SILTBROW_BAD_ENTRY && covered.place == 0, "no such vertex");
    fill();
}

static uint8_t scratch[SILTBROW_SCRATCH_BYTES(sizeof hops, SILTBROW_HOP_SIZE) + 3];

static siltbrow_answer board(uint32_t boarding, size_t settled_len, size_t scratch_len)
{
    uint8_t bytes[SILTBROW_ANSWER_SIZE];
    memset(settled, 9, sizeof settled);
    memset(scratch, 9, sizeof scratch);
    count(siltbrow_run_boarding(vertices, sizeof vertices, walks, sizeof walks, hops, sizeof hops, SILTBROW_HOP_SIZE, 0, 300, 36000, 200, 10, boarding,
                                SILTBROW_NO_LIMIT, settled, settled_len, scratch, scratch_len, bytes, sizeof bytes) == 0, "a run with a boarding time");
    return siltbrow_read_answer(bytes);
}

static int scratch_is(uint8_t byte)
{
    for (size_t i = 0; i < sizeof scratch; i++)
        if (scratch[i] != byte)
            return 0;
    return 1;
}

/* The place is 300 from vertex 1 on a long road, D is 2,000, and a ride leaves vertex 0 100 seconds before T. */
static void boarding_test(void)
{
    size_t s = sizeof settled, need = SILTBROW_SCRATCH_BYTES(sizeof hops, SILTBROW_HOP_SIZE);
    put4(hops, 0, 1, 35900, 35960);
    count(need == 2 * SILTBROW_NUMBER_SIZE, "a number for each hop");
    siltbrow_answer all = board(60, s, sizeof scratch);
    count(all.refusal == SILTBROW_ACCEPTED && all.settled == 2 && all.parts == 0 && all.held == 0 && all.finished == 1 && scratch_is(0), "who can board in time");
    count(siltbrow_get(settled) == 1 && siltbrow_get(settled + 4) == 300 && siltbrow_get(settled + 8) == 0 && siltbrow_get(settled + 12) == 1600, "when one must start");
    count(board(100, s, need).settled == 2 && siltbrow_get(settled + 12) == 2000, "just within the duration");
    count(board(101, s, need).settled == 1 && siltbrow_get(settled + 8) == 0, "a second more is too long");
    count(board(0, s, need).settled == 2 && siltbrow_get(settled + 12) == 1000, "no boarding time");
    count(board(SILTBROW_MAX_BOARDING, s, need).refusal == SILTBROW_ACCEPTED, "the longest boarding time");
    refused(board(SILTBROW_MAX_BOARDING + 1, s, need - 1), SILTBROW_BAD_QUERY, 5, "a boarding time that is too long, before the scratch");
    count(scratch_is(9) && settled[0] == 9, "it changes nothing");
    refused(board(60, s, need - 1), SILTBROW_SCRATCH_ROOM, 0, "too little scratch");
    count(scratch_is(9) && settled[0] == 9, "that changes nothing either");
    refused(board(601, s - 1, need), SILTBROW_BAD_LENGTH, 4, "a cut settled record");
    refused(board(60, SILTBROW_SETTLED_SIZE, sizeof scratch), SILTBROW_SETTLED_ROOM, 2, "no room for the second vertex");
    count(scratch_is(0) && settled[0] == 0 && settled[SILTBROW_SETTLED_SIZE] == 9, "it leaves both zero");
    count(siltbrow_run_boarding(vertices, sizeof vertices, walks, sizeof walks, hops, sizeof hops, SILTBROW_HOP_SIZE, 0, 300, 36000, 200, 10, 60,
                                SILTBROW_NO_LIMIT, settled, s, scratch, need, NULL, 0) == 1, "an answer with a boarding time that is too short");
    fill();
}

static void text_test(void)
{
    static const uint32_t refusals[] = {0, 1, 2, 3, 4, 5, 6, 7, 8, 9, 10, SILTBROW_KNOWN_TRIP, 12, 13, 14, 15, 16, 17, SILTBROW_SCRATCH_ROOM, SILTBROW_TOO_MANY_PATIENTS, SILTBROW_BAD_EVENING, SILTBROW_BAD_ENTRY, SILTBROW_OTHER_LIST, SILTBROW_BAD_POINT, SILTBROW_EMPTY_LIST, 25, 26, 27, 28, SILTBROW_BAD_ID_LINE, 99};
    char version[32];
    for (size_t a = 0; a < sizeof refusals / sizeof *refusals; a++)
        for (size_t b = 0; b < a; b++)
            count(strcmp(siltbrow_refusal_text(refusals[a]), siltbrow_refusal_text(refusals[b])) != 0, "each refusal has its own text");
    count(strcmp(siltbrow_refusal_text(99), "there is no such refusal") == 0, "no other refusal has one");
    count(strcmp(siltbrow_place_text(SILTBROW_BAD_WALK), "walk record") == 0, "the place of a walk");
    (void)snprintf(version, sizeof version, "%d.%d.%d", SILTBROW_VERSION_MAJOR, SILTBROW_VERSION_MINOR, SILTBROW_VERSION_PATCH);
    count(strcmp(version, SILTBROW_VERSION) == 0, "the version is its three numbers");
}

int main(void)
{
    fill();
    bytes_test();
    wait_test();
    table_test();
    crossing_test();
    query_test();
    parts_test();
    judge_test();
    runs_test();
    patients_test();
    count_test();
    move_test();
    frame_test();
    timetable_test();
    courier_list_test();
    courier_test();
    courier_parts_test();
    boarding_test();
    text_test();
    printf("%u passed, %u failed\n", passed, failed);
    return failed != 0;
}
