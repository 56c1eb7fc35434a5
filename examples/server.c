/* A map server in small: many queries at once, from threads over one copy of
 * the tables.
 *
 *   server VERTICES WALKS HOPS THREADS [parts | batch] <queries
 *
 * The first three words are files with the tables, as `make city` writes them.
 * A query is a line of numbers: record, offset, arrival, duration, speed. For
 * each query a line is printed, in the order in which they were asked: the list
 * page, which needs the run alone; with "parts" the map page, which also
 * needs the parts of the run's list; with "batch" the list page again, for many
 * queries in one call, which judges the tables once for all of them. Where the
 * library is installed (`make install`):
 *
 *   gcc -std=c11 -pthread examples/server.c $(pkg-config --cflags --libs siltbrow)
 *
 * Tables are only read, so all threads share them. Held, settled, parts and
 * answer belong to one call at a time, so each thread has its own; they are
 * made once and used for all its queries.
 */
#define _POSIX_C_SOURCE 200809L
#include <fcntl.h>
#include <inttypes.h>
#include <pthread.h>
#include <stdio.h>
#include <stdlib.h>
#include <string.h>
#include <sys/mman.h>
#include <sys/stat.h>
#include <unistd.h>

#include "siltbrow.h"

typedef struct {
    const uint8_t *bytes;
    size_t len;
} Slice;

typedef struct {
    uint32_t record, offset;
    int32_t arrival;
    uint32_t duration, speed;
    siltbrow_answer answer;
    siltbrow_parts_answer covered; /* with "parts" */
    uint64_t metres;               /* of it, both ways of a street counted */
    uint32_t sum, held_sum;        /* over the lists that were answered, and over the held records */
} Query;

/* What one thread lends to the library. */
typedef struct {
    uint8_t *held, *settled, *parts;
    size_t held_len, settled_len, parts_len;
} Room;

/* How many queries a thread takes at once. */
enum { BATCH = 24 };

static Slice vertices, walks, hops;
static int with_parts, in_batches;

static Query *queries;
static size_t query_count;
static size_t next_query;
static pthread_mutex_t next_lock = PTHREAD_MUTEX_INITIALIZER;

static void fail(const char *what)
{
    perror(what);
    exit(2);
}

static void *allocate(size_t len)
{
    void *block = malloc(len > 0 ? len : 1);
    if (block == NULL)
        fail("no memory");
    return block;
}

static Slice map_table(const char *path)
{
    struct stat about;
    Slice slice = {NULL, 0};
    int file = open(path, O_RDONLY);
    if (file < 0 || fstat(file, &about) != 0)
        fail(path);
    slice.len = (size_t)about.st_size;
    if (slice.len > 0) { /* an empty slice may be NULL */
        void *bytes = mmap(NULL, slice.len, PROT_READ, MAP_SHARED, file, 0);
        if (bytes == MAP_FAILED)
            fail(path);
        slice.bytes = bytes;
    }
    close(file);
    return slice;
}

/* One held record for each vertex: enough for every query, and fast. */
static Room make_room(void)
{
    Room room;
    room.held_len = SILTBROW_HELD_BYTES(vertices.len);
    room.settled_len = SILTBROW_SETTLED_BYTES(vertices.len) * (in_batches ? BATCH : 1);
    room.parts_len = with_parts ? SILTBROW_PART_BYTES(walks.len) : 0;
    room.held = allocate(room.held_len);
    room.settled = allocate(room.settled_len);
    room.parts = allocate(room.parts_len);
    return room;
}

/* The vertices: all that a list page asks for. */
static siltbrow_answer run(const Query *q, const Room *room)
{
    uint8_t bytes[SILTBROW_ANSWER_SIZE];
    (void)siltbrow_run(vertices.bytes, vertices.len, walks.bytes, walks.len, hops.bytes, hops.len,
                       SILTBROW_HOP_SIZE, q->record, q->offset, q->arrival, q->duration, q->speed,
                       SILTBROW_NO_LIMIT, room->held, room->held_len, room->settled,
                       room->settled_len, bytes, sizeof bytes);
    return siltbrow_read_answer(bytes);
}

/* The streets, from the records that the run has settled. */
static siltbrow_parts_answer cover(const Query *q, const Room *room)
{
    uint8_t bytes[SILTBROW_PARTS_ANSWER_SIZE];
    (void)siltbrow_parts(vertices.bytes, vertices.len, walks.bytes, walks.len, hops.bytes, hops.len,
                         SILTBROW_HOP_SIZE, q->record, q->offset, q->arrival, q->duration, q->speed,
                         room->settled, SILTBROW_LIST_BYTES(q->answer.settled), room->parts,
                         room->parts_len, bytes, sizeof bytes);
    return siltbrow_read_parts(bytes);
}

static uint32_t add_up(uint32_t sum, const uint8_t *bytes, size_t len)
{
    for (size_t i = 0; i < len; i++)
        sum = (sum ^ bytes[i]) * 16777619u;
    return sum;
}

static void answer_parts(Query *q, const Room *room)
{
    q->covered = cover(q, room);
    for (size_t i = 0; i < q->covered.parts; i++) {
        const uint8_t *part = room->parts + SILTBROW_PART_SIZE * i;
        q->metres += siltbrow_get(part + 8) - siltbrow_get(part + 4);
    }
    q->metres /= 10;
    q->sum = add_up(q->sum, room->parts, SILTBROW_PART_SIZE * (size_t)q->covered.parts);
}

static uint32_t list_sum(const Query *q, const uint8_t *settled)
{
    return add_up(2166136261u, settled, SILTBROW_LIST_BYTES(q->answer.settled));
}

static void answer_one(Query *q, const Room *room)
{
    q->answer = run(q, room);
    q->sum = list_sum(q, room->settled);
    q->held_sum = add_up(2166136261u, room->held, SILTBROW_HELD_SIZE * (size_t)q->answer.held);
    if (with_parts && q->answer.refusal == SILTBROW_ACCEPTED)
        answer_parts(q, room);
}

/* Many list pages in one call: each query has a share of the settled buffer. */
static void answer_batch(Query *q, size_t count, const Room *room)
{
    uint8_t asked[BATCH * SILTBROW_QUERY_SIZE] = {0}, bytes[BATCH * SILTBROW_ANSWER_SIZE];
    for (size_t i = 0; i < count; i++)
        siltbrow_put_query(asked + SILTBROW_QUERY_SIZE * i, q[i].record, q[i].offset, q[i].arrival,
                           q[i].duration, q[i].speed, SILTBROW_NO_LIMIT);
    (void)siltbrow_runs(vertices.bytes, vertices.len, walks.bytes, walks.len, hops.bytes, hops.len,
                        SILTBROW_HOP_SIZE, asked, SILTBROW_QUERY_SIZE * count, room->held,
                        room->held_len, room->settled, room->settled_len, bytes,
                        SILTBROW_ANSWER_SIZE * count);
    for (size_t i = 0; i < count; i++) {
        q[i].answer = siltbrow_read_answer(bytes + SILTBROW_ANSWER_SIZE * i);
        q[i].sum = list_sum(&q[i], room->settled + SILTBROW_SHARE_BYTES(room->settled_len, count) * i);
    }
}

/* The next queries that nobody has taken, at most so many; how many they are. */
static size_t take_queries(size_t most, Query **first)
{
    pthread_mutex_lock(&next_lock);
    size_t left = query_count - next_query, taken = left < most ? left : most;
    *first = queries + next_query;
    next_query += taken;
    pthread_mutex_unlock(&next_lock);
    return taken;
}

static void *work(void *unused)
{
    Room room = make_room();
    Query *q;
    size_t count;
    (void)unused;
    while ((count = take_queries(in_batches ? BATCH : 1, &q)) > 0)
        if (in_batches)
            answer_batch(q, count, &room);
        else
            answer_one(q, &room);
    free(room.held);
    free(room.settled);
    free(room.parts);
    return NULL;
}

static void read_queries(void)
{
    size_t room = 0;
    Query q = {0};
    while (scanf("%" SCNu32 "%" SCNu32 "%" SCNd32 "%" SCNu32 "%" SCNu32, &q.record, &q.offset,
                 &q.arrival, &q.duration, &q.speed) == 5) {
        if (query_count == room) {
            room = 2 * room + 64;
            queries = realloc(queries, room * sizeof *queries);
            if (queries == NULL)
                fail("no memory");
        }
        queries[query_count++] = q;
    }
}

static int print_query(size_t number, const Query *q)
{
    uint32_t run = q->answer.refusal, refusal = run != SILTBROW_ACCEPTED ? run : q->covered.refusal;
    printf("query %zu: ", number);
    if (refusal != SILTBROW_ACCEPTED) {
        printf("refused, %s (%" PRIu32 "; %s %" PRIu32 ")\n", siltbrow_refusal_text(refusal), refusal,
               siltbrow_place_text(refusal), run != SILTBROW_ACCEPTED ? q->answer.place : q->covered.place);
        return 1;
    }
    printf("%" PRIu32 " corners, ", q->answer.settled);
    if (with_parts)
        printf("%" PRIu64 " m in %" PRIu32 " parts, ", q->metres, q->covered.parts);
    printf("%" PRIu32 " held, sum %08" PRIx32, q->answer.held, q->sum);
    if (!in_batches)
        printf(", of the held %08" PRIx32, q->held_sum);
    printf("\n");
    return 0;
}

int main(int words, char **word)
{
    enum { MOST_THREADS = 256 };
    pthread_t thread[MOST_THREADS];
    with_parts = words == 6 && strcmp(word[5], "parts") == 0;
    in_batches = words == 6 && strcmp(word[5], "batch") == 0;
    int threads = words == 5 || with_parts || in_batches ? atoi(word[4]) : 0, refused = 0;
    if (threads < 1 || threads > MOST_THREADS) {
        fprintf(stderr, "usage: server VERTICES WALKS HOPS THREADS [parts | batch] <queries\n");
        return 2;
    }
    vertices = map_table(word[1]);
    walks = map_table(word[2]);
    hops = map_table(word[3]);
    read_queries();
    for (int i = 0; i < threads; i++)
        if (pthread_create(&thread[i], NULL, work, NULL) != 0)
            fail("no thread");
    for (int i = 0; i < threads; i++)
        pthread_join(thread[i], NULL);
    for (size_t i = 0; i < query_count; i++)
        refused |= print_query(i, &queries[i]);
    free(queries);
    return refused;
}
