/* Who can be at the clinic by ten with a pram, if changing takes a minute? One
 * run with a boarding time and its parts through siltbrow.h: three stops, two
 * buses. A word is another boarding time in seconds: with 0 the connection at
 * stop 1 is made, and 601 is refused. Where the library is installed
 * (`make install`):
 *
 *   gcc -std=c99 examples/prams.c $(pkg-config --cflags --libs siltbrow)
 *
 * or straight from here, after `make lib`:
 *
 *   gcc -std=c99 -Iinclude examples/prams.c target/staticlib/libsiltbrow.a
 */
#include <stdio.h>
#include <stdlib.h>

#include "siltbrow.h"

/* Tables are bytes, and each number's highest byte comes first. */
#define NUMBER(n) (n) >> 24 & 255, (n) >> 16 & 255, (n) >> 8 & 255, (n) & 255
#define VERTEX(walk, hop, departing) NUMBER(walk), NUMBER(hop), NUMBER((departing) << 16)
#define WALK(from, to, length, twin) NUMBER(from), NUMBER(to), NUMBER(length), NUMBER(twin)
#define HOP(from, to, departure, arrival, trip) NUMBER(from), NUMBER(to), NUMBER(departure), NUMBER(arrival), NUMBER(trip)

/* First walk and first hop that arrive there, and how many depart. */
static const uint8_t vertices[] = {
    VERTEX(0, 0, 1), VERTEX(0, 0, 1), VERTEX(0, 2, 1), VERTEX(1, 3, 1), VERTEX(2, 3, 1),
};

/* From, to, length in decimetres, twin: the clinic's street, between 2 and 3. */
static const uint8_t walks[] = {
    WALK(3, 2, 1000, 1), WALK(2, 3, 1000, 0),
};

/* From, to, departure, arrival, trip. Bus 7 comes from 0 and goes on; from 4
 * bus 8 meets it at 1, half a minute before it leaves. */
static const uint8_t hops[] = {
    HOP(0, 1, 35400, 35640, 7), HOP(4, 1, 35280, 35630, 8), HOP(1, 2, 35660, 35880, 7),
};

/* The clinic lies 40 m along walk 1; by 10:00, within 15 minutes, at 1 m/s. */
enum { RECORD_ASKED = 1, OFFSET = 400, ARRIVAL = 36000, DURATION = 900, SPEED = 10 };

static uint8_t settled[SILTBROW_SETTLED_BYTES(sizeof vertices)];
static uint8_t scratch[SILTBROW_SCRATCH_BYTES(sizeof hops, SILTBROW_HOP_WITH_TRIP_SIZE)];
static uint8_t parts[SILTBROW_PART_BYTES(sizeof walks)];

static int refused(uint32_t refusal, uint32_t place)
{
    if (refusal != SILTBROW_ACCEPTED)
        printf("refused: %s (refusal %u, place %u)\n", siltbrow_refusal_text(refusal), refusal, place);
    return refusal != SILTBROW_ACCEPTED;
}

static void print_vertex(const uint8_t *record)
{
    unsigned vertex = siltbrow_get(record), distance = siltbrow_get(record + 4);
    unsigned start = ARRIVAL - (distance + SPEED - 1) / SPEED;
    printf("vertex %u  start by %02u:%02u:%02u  (%u ticks)\n", vertex, start / 3600, start / 60 % 60, start % 60, distance);
}

static void print_part(const uint8_t *record)
{
    const uint8_t *walk = walks + SILTBROW_WALK_SIZE * siltbrow_get(record);
    printf("street %u to %u  from %5.1f m to %5.1f m of %.1f m\n", siltbrow_get(walk), siltbrow_get(walk + 4), siltbrow_get(record + 4) / 10.0,
           siltbrow_get(record + 8) / 10.0, siltbrow_get_length(walk) / 10.0);
}

int main(int words, char **word)
{
    uint32_t boarding = words > 1 ? (uint32_t)strtoul(word[1], NULL, 10) : 60;
    uint8_t bytes[SILTBROW_ANSWER_SIZE], three[SILTBROW_PARTS_ANSWER_SIZE];

    (void)siltbrow_run_boarding(vertices, sizeof vertices, walks, sizeof walks, hops, sizeof hops, SILTBROW_HOP_WITH_TRIP_SIZE, RECORD_ASKED, OFFSET,
                                ARRIVAL, DURATION, SPEED, boarding, SILTBROW_NO_LIMIT, settled, sizeof settled, scratch, sizeof scratch, bytes,
                                sizeof bytes);
    siltbrow_answer answer = siltbrow_read_answer(bytes);
    if (refused(answer.refusal, answer.place))
        return 1;

    /* the parts know no boarding time */
    (void)siltbrow_parts(vertices, sizeof vertices, walks, sizeof walks, hops, sizeof hops, SILTBROW_HOP_WITH_TRIP_SIZE, RECORD_ASKED, OFFSET, ARRIVAL,
                         DURATION, SPEED, settled, SILTBROW_LIST_BYTES(answer.settled), parts, sizeof parts, three, sizeof three);
    siltbrow_parts_answer covered = siltbrow_read_parts(three);
    if (refused(covered.refusal, covered.place))
        return 1;

    for (unsigned i = 0; i < answer.settled; i++)
        print_vertex(settled + SILTBROW_SETTLED_SIZE * i);
    for (unsigned i = 0; i < covered.parts; i++)
        print_part(parts + SILTBROW_PART_SIZE * i);
    printf("%s\n", answer.finished ? "nothing is left to settle" : "the limit came first");
    return 0;
}
