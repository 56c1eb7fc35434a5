/* From which streets can the pharmacy be reached by ten o'clock? One query
 * through siltbrow.h, over five vertices, three streets for both ways and one
 * ride. A word is another offset of the pharmacy on its street: 2001 is beyond
 * the end, and refused. Where the library is installed (`make install`):
 *
 *   gcc -std=c99 examples/streets.c $(pkg-config --cflags --libs siltbrow)
 *
 * or straight from here, after `make lib`:
 *
 *   gcc -std=c99 -Iinclude examples/streets.c target/staticlib/libsiltbrow.a
 */
#include <stdio.h>
#include <stdlib.h>

#include "siltbrow.h"

/* Tables are bytes, and each number's highest byte comes first. */
#define NUMBER(n) (n) >> 24 & 255, (n) >> 16 & 255, (n) >> 8 & 255, (n) & 255
#define VERTEX(walk, hop, departing) NUMBER(walk), NUMBER(hop), NUMBER((departing) << 16)
#define RECORD(a, b, c, d) NUMBER(a), NUMBER(b), NUMBER(c), NUMBER(d)

/* First walk and first hop that arrive there, and how many depart. */
static const uint8_t vertices[] = {
    VERTEX(0, 0, 1), VERTEX(1, 0, 2), VERTEX(3, 1, 1), VERTEX(4, 1, 2), VERTEX(5, 1, 1),
};

/* From, to, length in decimetres, twin: the same street the other way. */
static const uint8_t walks[] = {
    RECORD(1, 0, 2000, 1), RECORD(0, 1, 2000, 0), RECORD(2, 1, 2500, 3),
    RECORD(1, 2, 2500, 2), RECORD(4, 3, 900, 5),  RECORD(3, 4, 900, 4),
};

/* From, to, departure, arrival: 9:56:00 to 9:58:00. */
static const uint8_t hops[] = {RECORD(3, 1, 35760, 35880)};

enum { RECORD_ASKED = 1, ARRIVAL = 36000, DURATION = 300, SPEED = 10 };

/* Room that is always enough. */
static uint8_t held[SILTBROW_HELD_BYTES(sizeof vertices)];
static uint8_t settled[SILTBROW_SETTLED_BYTES(sizeof vertices)];
static uint8_t parts[SILTBROW_PART_BYTES(sizeof walks)];

/* Which vertices, with what distance. */
static siltbrow_answer run(uint32_t offset)
{
    uint8_t bytes[SILTBROW_ANSWER_SIZE];
    /* It returns 1 only where the answer has another size. */
    (void)siltbrow_run(vertices, sizeof vertices, walks, sizeof walks, hops, sizeof hops,
                       SILTBROW_HOP_SIZE, RECORD_ASKED, offset, ARRIVAL, DURATION, SPEED,
                       SILTBROW_NO_LIMIT, held, sizeof held, settled, sizeof settled, bytes,
                       sizeof bytes);
    return siltbrow_read_answer(bytes);
}

/* Which streets, from the records that the run has settled: the zeros behind
 * them are no list. */
static siltbrow_parts_answer cover(uint32_t offset, uint32_t count)
{
    uint8_t bytes[SILTBROW_PARTS_ANSWER_SIZE];
    (void)siltbrow_parts(vertices, sizeof vertices, walks, sizeof walks, hops, sizeof hops,
                         SILTBROW_HOP_SIZE, RECORD_ASKED, offset, ARRIVAL, DURATION, SPEED,
                         settled, SILTBROW_LIST_BYTES(count), parts, sizeof parts, bytes,
                         sizeof bytes);
    return siltbrow_read_parts(bytes);
}

static void print_vertex(const uint8_t *record)
{
    unsigned vertex = siltbrow_get(record), distance = siltbrow_get(record + 4);
    unsigned leave = ARRIVAL - (distance + SPEED - 1) / SPEED;
    printf("vertex %u  leave by %02u:%02u:%02u  (%u ticks)\n", vertex, leave / 3600,
           leave / 60 % 60, leave % 60, distance);
}

static void print_part(const uint8_t *record)
{
    const uint8_t *walk = walks + SILTBROW_WALK_SIZE * siltbrow_get(record);
    printf("street %u to %u  from %5.1f m to %5.1f m of %.1f m\n", siltbrow_get(walk),
           siltbrow_get(walk + 4), siltbrow_get(record + 4) / 10.0, siltbrow_get(record + 8) / 10.0,
           siltbrow_get_length(walk) / 10.0);
}

static int refused(uint32_t refusal, uint32_t place)
{
    if (refusal != SILTBROW_ACCEPTED)
        printf("refused: %s (refusal %u, place %u)\n", siltbrow_refusal_text(refusal), refusal, place);
    return refusal != SILTBROW_ACCEPTED;
}

int main(int words, char **word)
{
    uint32_t offset = words > 1 ? (uint32_t)strtoul(word[1], NULL, 10) : 1500;
    siltbrow_answer answer = run(offset);
    if (refused(answer.refusal, answer.place))
        return 1;
    siltbrow_parts_answer covered = cover(offset, answer.settled);
    if (refused(covered.refusal, covered.place))
        return 1;
    for (unsigned i = 0; i < answer.settled; i++)
        print_vertex(settled + SILTBROW_SETTLED_SIZE * i);
    for (unsigned i = 0; i < covered.parts; i++)
        print_part(parts + SILTBROW_PART_SIZE * i);
    printf("still held: %u; %s\n", answer.held,
           answer.finished ? "nothing is left to settle" : "the limit came first");
    return 0;
}
