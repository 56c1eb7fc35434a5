/* From an operator's timetable to an answer: the text becomes hops, the hops
 * and some streets become tables, the tables are checked, and one query is
 * run. When does one have to leave, to be at the station by half past midnight?
 * The three words are stop_times.txt and the lists of stops and trips:
 *
 *   gcc -std=c99 examples/timetable.c $(pkg-config --cflags --libs siltbrow) -o timetable
 *   ./timetable examples/feed/stop_times.txt examples/feed/stops.csv examples/feed/trips.csv
 */
#include <stdio.h>
#include <stdlib.h>

#include "siltbrow.h"

/* Tables are bytes, and each number's highest byte comes first. */
#define NUMBER(n) (n) >> 24 & 255, (n) >> 16 & 255, (n) >> 8 & 255, (n) & 255
#define WALK(from, to, length, twin) NUMBER(from), NUMBER(to), NUMBER(length), NUMBER(twin)

enum { MILL, CHURCH, MARKET, STATION, VERTICES };

/* From, to, length in decimetres, twin; in ascending order of "to". */
static const uint8_t walks[] = {
    WALK(CHURCH, MILL, 16000, 1),  WALK(MILL, CHURCH, 16000, 0),   WALK(MARKET, CHURCH, 9000, 3),
    WALK(CHURCH, MARKET, 9000, 2), WALK(STATION, MARKET, 7000, 5), WALK(MARKET, STATION, 7000, 4),
};
enum { WALKS = sizeof walks / SILTBROW_WALK_SIZE };

/* The place is the end of walk 5, the station. */
enum { RECORD = 5, OFFSET = 7000, ARRIVAL = 24 * 3600 + 1800, DURATION = 7200, SPEED = 12 };

static uint8_t vertices[VERTICES * SILTBROW_VERTEX_SIZE];
static uint8_t held[SILTBROW_HELD_BYTES(sizeof vertices)];
static uint8_t settled[SILTBROW_SETTLED_BYTES(sizeof vertices)];

typedef struct {
    uint8_t *bytes;
    size_t len;
} Text;

static Text read_text(const char *path)
{
    Text text = {NULL, 0};
    FILE *file = fopen(path, "rb");
    if (file == NULL) {
        perror(path);
        exit(2);
    }
    for (size_t got = 1; got != 0; text.len += got) {
        text.bytes = realloc(text.bytes, text.len + 65536);
        if (text.bytes == NULL)
            exit(2);
        got = fread(text.bytes + text.len, 1, 65536, file);
    }
    fclose(file);
    return text;
}

static void refused(const char *what, uint32_t refusal, uint32_t place)
{
    if (refusal == SILTBROW_ACCEPTED)
        return;
    printf("%s: %s (refusal %u; %s %u)\n", what, siltbrow_refusal_text(refusal), refusal, siltbrow_place_text(refusal), place);
    exit(1);
}

/* The hops of the feed, in a target that is large enough; it is given back with
 * the length of what is written. */
static Text read_hops(Text times, Text stops, Text trips)
{
    uint8_t bytes[SILTBROW_TIMETABLE_ANSWER_SIZE];
    Text hops = {NULL, siltbrow_timetable_room(times.bytes, times.len)};
    hops.bytes = malloc(hops.len + 1);
    if (hops.bytes == NULL)
        exit(2);
    (void)siltbrow_timetable(times.bytes, times.len, stops.bytes, stops.len, trips.bytes, trips.len,
                             hops.bytes, hops.len, bytes, sizeof bytes);
    siltbrow_timetable_answer answer = siltbrow_read_timetable(bytes);
    refused("the timetable", answer.refusal, answer.place);
    hops.len = (size_t)answer.hops * SILTBROW_HOP_WITH_TRIP_SIZE;
    return hops;
}

/* Both tables ascend by "to", so the first that arrive at each vertex follow
 * one another; what departs is counted. A stop that is no vertex here is left to
 * the check. */
static void make_vertices(Text hops)
{
    const size_t hop_size = SILTBROW_HOP_WITH_TRIP_SIZE;
    uint32_t departing[VERTICES] = {0}, walk = 0, hop = 0, hop_count = (uint32_t)(hops.len / hop_size);
    for (uint32_t i = 0; i < WALKS; i++)
        departing[siltbrow_get(walks + SILTBROW_WALK_SIZE * i)]++;
    for (uint32_t i = 0; i < hop_count; i++) {
        uint32_t from = siltbrow_get(hops.bytes + hop_size * i);
        if (from < VERTICES)
            departing[from]++;
    }
    for (uint32_t v = 0; v < VERTICES; v++) {
        while (walk < WALKS && siltbrow_get(walks + SILTBROW_WALK_SIZE * walk + 4) < v)
            walk++;
        while (hop < hop_count && siltbrow_get(hops.bytes + hop_size * hop + 4) < v)
            hop++;
        siltbrow_put(vertices + SILTBROW_VERTEX_SIZE * v, walk);
        siltbrow_put(vertices + SILTBROW_VERTEX_SIZE * v + 4, hop);
        siltbrow_put(vertices + SILTBROW_VERTEX_SIZE * v + 8, departing[v] << 16);
    }
}

static void print_clock(uint32_t second)
{
    printf("%02u:%02u:%02u", second / 3600, second / 60 % 60, second % 60);
}

static void print_hops(Text hops)
{
    for (const uint8_t *hop = hops.bytes; hop < hops.bytes + hops.len; hop += SILTBROW_HOP_WITH_TRIP_SIZE) {
        printf("hop %u to %u  ", siltbrow_get(hop), siltbrow_get(hop + 4));
        print_clock(siltbrow_get(hop + 8));
        printf(" to ");
        print_clock(siltbrow_get(hop + 12));
        printf("  trip %u\n", siltbrow_get_trip(hop));
    }
}

static void print_answer(siltbrow_answer answer)
{
    for (uint32_t i = 0; i < answer.settled; i++) {
        uint32_t ticks = siltbrow_get(settled + SILTBROW_SETTLED_SIZE * i + 4);
        printf("vertex %u  leave by ", siltbrow_get(settled + SILTBROW_SETTLED_SIZE * i));
        print_clock(ARRIVAL - (ticks + SPEED - 1) / SPEED);
        printf("\n");
    }
}

int main(int words, char **word)
{
    uint8_t bytes[SILTBROW_ANSWER_SIZE];
    if (words != 4) {
        fprintf(stderr, "timetable STOP_TIMES STOPS TRIPS\n");
        return 2;
    }
    Text times = read_text(word[1]), stops = read_text(word[2]), trips = read_text(word[3]);
    Text hops = read_hops(times, stops, trips);
    print_hops(hops);
    make_vertices(hops);
    uint64_t checked = siltbrow_check(vertices, sizeof vertices, walks, sizeof walks, hops.bytes, hops.len, SILTBROW_HOP_WITH_TRIP_SIZE);
    refused("the tables", siltbrow_check_refusal(checked), siltbrow_check_place(checked));
    (void)siltbrow_run(vertices, sizeof vertices, walks, sizeof walks, hops.bytes, hops.len, SILTBROW_HOP_WITH_TRIP_SIZE,
                       RECORD, OFFSET, ARRIVAL, DURATION, SPEED, SILTBROW_NO_LIMIT, held, sizeof held, settled, sizeof settled, bytes, sizeof bytes);
    siltbrow_answer answer = siltbrow_read_answer(bytes);
    refused("the query", answer.refusal, answer.place);
    print_answer(answer);
    free(times.bytes);
    free(stops.bytes);
    free(trips.bytes);
    free(hops.bytes);
    return 0;
}
