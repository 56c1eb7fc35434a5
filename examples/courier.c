/* Which streets does the courier reach from the pharmacy in 7.5 minutes? The list
 * of records, one run and its parts through siltbrow.h, over the five vertices
 * of streets.c, with a crossing. A word is another departure, in seconds from
 * midnight: at 35701 he misses the ride, and -1 is refused. Where the library
 * is installed (`make install`):
 *
 *   gcc -std=c99 examples/courier.c $(pkg-config --cflags --libs siltbrow)
 *
 * or straight from here, after `make lib`:
 *
 *   gcc -std=c99 -Iinclude examples/courier.c target/staticlib/libsiltbrow.a
 */
#include <stdio.h>
#include <stdlib.h>

#include "siltbrow.h"

/* Tables are bytes, and each number's highest byte comes first. */
#define NUMBER(n) (n) >> 24 & 255, (n) >> 16 & 255, (n) >> 8 & 255, (n) & 255
#define VERTEX(walk, hop, departing) NUMBER(walk), NUMBER(hop), NUMBER((departing) << 16)
#define RECORD(a, b, c, d) NUMBER(a), NUMBER(b), NUMBER(c), NUMBER(d)

/* First walk and first hop that arrive there, and how many depart. */
static const uint8_t vertices[] = {
    VERTEX(0, 0, 1), VERTEX(1, 0, 2), VERTEX(3, 1, 1), VERTEX(4, 1, 2), VERTEX(5, 1, 1),
};

/* From, to, length in decimetres, twin; at 2 one waits 45 seconds. */
static const uint8_t walks[] = {
    RECORD(1, 0, 2000, 1), RECORD(0, 1, 2000, 0), RECORD(2, 1, 2500, 3),
    RECORD(1, 2, 45 << 24 | 2500, 2), RECORD(4, 3, 900, 5), RECORD(3, 4, 900, 4),
};

/* From, to, departure, arrival: 9:56:00 to 9:58:00. */
static const uint8_t hops[] = {RECORD(3, 1, 35760, 35880)};

/* The pharmacy lies 30 m along walk 4. */
enum { RECORD_ASKED = 4, OFFSET = 300, DURATION = 450, SPEED = 10 };

static uint8_t list[SILTBROW_COURIER_LIST_BYTES(sizeof walks, sizeof hops, SILTBROW_HOP_SIZE)];
static uint8_t held[SILTBROW_HELD_BYTES(sizeof vertices)];
static uint8_t settled[SILTBROW_SETTLED_BYTES(sizeof vertices)];
static uint8_t parts[SILTBROW_PART_BYTES(sizeof walks)];

static int refused(uint32_t refusal, uint32_t place)
{
    if (refusal != SILTBROW_ACCEPTED)
        printf("refused: %s (refusal %u, place %u)\n", siltbrow_refusal_text(refusal), refusal, place);
    return refusal != SILTBROW_ACCEPTED;
}

static void print_vertex(const uint8_t *record, unsigned departure)
{
    unsigned vertex = siltbrow_get(record), distance = siltbrow_get(record + 4);
    unsigned there = departure + (distance + SPEED - 1) / SPEED;
    printf("vertex %u  there at %02u:%02u:%02u  (%u ticks)\n", vertex, there / 3600, there / 60 % 60, there % 60, distance);
}

static void print_part(const uint8_t *record)
{
    const uint8_t *walk = walks + SILTBROW_WALK_SIZE * siltbrow_get(record);
    printf("street %u to %u  from %5.1f m to %5.1f m of %.1f m\n", siltbrow_get(walk), siltbrow_get(walk + 4), siltbrow_get(record + 4) / 10.0,
           siltbrow_get(record + 8) / 10.0, siltbrow_get_length(walk) / 10.0);
}

int main(int words, char **word)
{
    int32_t departure = words > 1 ? (int32_t)strtol(word[1], NULL, 10) : 35700;
    uint8_t bytes[SILTBROW_ANSWER_SIZE], three[SILTBROW_PARTS_ANSWER_SIZE];

    /* once for the tables */
    uint64_t made = siltbrow_courier_list(vertices, sizeof vertices, walks, sizeof walks, hops, sizeof hops, SILTBROW_HOP_SIZE, list, sizeof list);
    if (refused(siltbrow_check_refusal(made), siltbrow_check_place(made)))
        return 1;

    /* for each query */
    (void)siltbrow_courier(vertices, sizeof vertices, walks, sizeof walks, hops, sizeof hops, SILTBROW_HOP_SIZE, list, sizeof list, RECORD_ASKED, OFFSET,
                           departure, DURATION, SPEED, SILTBROW_NO_LIMIT, held, sizeof held, settled, sizeof settled, bytes, sizeof bytes);
    siltbrow_answer answer = siltbrow_read_answer(bytes);
    if (refused(answer.refusal, answer.place))
        return 1;
    (void)siltbrow_courier_parts(vertices, sizeof vertices, walks, sizeof walks, hops, sizeof hops, SILTBROW_HOP_SIZE, list, sizeof list, RECORD_ASKED,
                                 OFFSET, departure, DURATION, SPEED, settled, SILTBROW_LIST_BYTES(answer.settled), parts, sizeof parts, three,
                                 sizeof three);
    siltbrow_parts_answer covered = siltbrow_read_parts(three);
    if (refused(covered.refusal, covered.place))
        return 1;

    for (unsigned i = 0; i < answer.settled; i++)
        print_vertex(settled + SILTBROW_SETTLED_SIZE * i, (unsigned)departure);
    for (unsigned i = 0; i < covered.parts; i++)
        print_part(parts + SILTBROW_PART_SIZE * i);
    printf("still held: %u; %s\n", answer.held, answer.finished ? "nothing is left to settle" : "the limit came first");
    return 0;
}
