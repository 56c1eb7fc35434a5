/* What the drivers share: numbers and slices read from standard input and
 * written to standard output, and the bytes around each slice that nobody may
 * change. Numbers are big-endian, a slice is its length in four bytes and then
 * its bytes.
 *
 * Where `with_pages` is set every slice stands between two pages that nobody
 * may touch: at every other case it ends just before one, at the others up to
 * 15 bytes before, so that its address is any. Whoever reads or writes beyond
 * it ends the driver, and the judge misses the answer.
 *
 * A driver says before this what it is (DRIVER) and how many slices a case has
 * at most (MOST_SLICES). */
#include <stdint.h>
#include <stdio.h>
#include <stdlib.h>
#include <string.h>
#include <sys/mman.h>
#include <unistd.h>

/* The kind of a case that is none: the end of all. */
enum { END = 0 };

/* An odd length, so that no slice begins at an even address by design: the
 * library may not count on more than bytes. */
enum { GUARD = 61 };

typedef struct {
    uint8_t *block; /* guard, bytes, guard; NULL where an arena has them */
    uint8_t *start; /* its first byte, with guard bytes before it; NULL if the call has no such slice */
    uint8_t *bytes; /* what the library gets: may be NULL if empty */
    size_t len;
    size_t behind; /* guard bytes behind it */
    uint8_t *copy; /* what is only read, as it was lent; NULL for a buffer */
} Slice;

/* Memory between two pages that nobody may touch; one for each slice. */
typedef struct {
    uint8_t *base;
    size_t size; /* both pages included */
} Arena;

static int with_pages;
static unsigned long cases;
static Arena arenas[MOST_SLICES];

static _Noreturn void fail(const char *message)
{
    fprintf(stderr, DRIVER ": %s\n", message);
    exit(2);
}

static void read_bytes(uint8_t *bytes, size_t len)
{
    if (len != 0 && fread(bytes, 1, len, stdin) != len)
        fail("the cases are cut");
}

static void write_bytes(const uint8_t *bytes, size_t len)
{
    if (len != 0 && fwrite(bytes, 1, len, stdout) != len)
        fail("cannot write the answers");
}

static void flush(void)
{
    if (fflush(stdout) != 0)
        fail("cannot write the answers");
}

static uint32_t number_at(const uint8_t *b)
{
    return (uint32_t)b[0] << 24 | (uint32_t)b[1] << 16 | (uint32_t)b[2] << 8 | b[3];
}

static uint32_t read_number(void)
{
    uint8_t b[4];
    read_bytes(b, sizeof b);
    return number_at(b);
}

static void write_number(uint64_t number, int bytes)
{
    uint8_t b[8];
    for (int i = 0; i < bytes; i++)
        b[i] = (uint8_t)(number >> 8 * (bytes - 1 - i));
    write_bytes(b, (size_t)bytes);
}

static void *allocate(size_t len)
{
    void *block = malloc(len);
    if (block == NULL)
        fail("no memory");
    return block;
}

/* The guard's pattern: no byte is 0, so that zeroing too far shows. */
static uint8_t guard_byte(size_t i)
{
    return (uint8_t)(0x81 + i % 101);
}

/* Makes an arena hold so many bytes. */
static void enlarge(Arena *arena, size_t len)
{
    size_t page = (size_t)sysconf(_SC_PAGESIZE);
    size_t size = (len / page + 3) * page;
    if (size <= arena->size)
        return;
    if (arena->base != NULL)
        munmap(arena->base, arena->size);
    void *base = mmap(NULL, size, PROT_READ | PROT_WRITE, MAP_PRIVATE | MAP_ANONYMOUS, -1, 0);
    if (base == MAP_FAILED)
        fail("no memory");
    arena->base = base;
    arena->size = size;
    if (mprotect(arena->base, page, PROT_NONE) != 0 || mprotect(arena->base + size - page, page, PROT_NONE) != 0)
        fail("cannot forbid a page");
}

/* Finds the place of a slice: just before the forbidden page, or some bytes
 * before it, which are guard bytes then. */
static void place_before_page(Slice *slice, int number)
{
    size_t page = (size_t)sysconf(_SC_PAGESIZE);
    Arena *arena = &arenas[number];
    slice->behind = cases % 2 == 0 ? 0 : (cases / 2 + 5 * (size_t)number) % 16;
    enlarge(arena, slice->len + GUARD + slice->behind);
    slice->start = arena->base + arena->size - page - slice->behind - slice->len;
}

static void place_in_block(Slice *slice)
{
    slice->behind = GUARD;
    slice->block = allocate(slice->len + 2 * GUARD);
    slice->start = slice->block + GUARD;
}

static Slice read_slice(int null, int number, int only_read)
{
    Slice slice = {NULL, NULL, NULL, read_number(), 0, NULL};
    if (with_pages)
        place_before_page(&slice, number);
    else
        place_in_block(&slice);
    for (size_t i = 0; i < GUARD; i++)
        slice.start[i - GUARD] = guard_byte(i);
    for (size_t i = 0; i < slice.behind; i++)
        slice.start[slice.len + i] = guard_byte(i + 7);
    read_bytes(slice.start, slice.len);
    if (only_read && slice.len != 0) {
        slice.copy = allocate(slice.len);
        memcpy(slice.copy, slice.start, slice.len);
    }
    slice.bytes = null && slice.len == 0 ? NULL : slice.start;
    return slice;
}

/* 1 if the library wrote beside a slice, or into one that it only reads. */
static unsigned touched(const Slice *slice)
{
    for (size_t i = 0; i < GUARD; i++)
        if (slice->start[i - GUARD] != guard_byte(i))
            return 1;
    for (size_t i = 0; i < slice->behind; i++)
        if (slice->start[slice->len + i] != guard_byte(i + 7))
            return 1;
    return slice->copy != NULL && memcmp(slice->copy, slice->start, slice->len) != 0;
}

static void write_slice(const Slice *slice)
{
    write_number(slice->len, 4);
    write_bytes(slice->bytes, slice->len);
}

/* A bit for each slice that was touched; all of them are given back. */
static unsigned close_slices(Slice *slices, int count)
{
    unsigned bits = 0;
    for (int i = 0; i < count; i++) {
        if (slices[i].start == NULL)
            continue;
        bits |= touched(&slices[i]) << i;
        free(slices[i].copy);
        free(slices[i].block);
    }
    return bits;
}

/* Does each case, which begins with its kind and whether an empty slice is
 * NULL. The word "pages" may be given. */
static int drive(int words, char **word, void (*one)(int kind, int null))
{
    with_pages = words > 1 && strcmp(word[1], "pages") == 0;
    for (;; cases++) {
        uint8_t head[2];
        read_bytes(head, 1);
        if (head[0] == END)
            break;
        read_bytes(head + 1, 1);
        one(head[0], head[1]);
        /* If the library breaks off, all cases before that are answered. */
        flush();
    }
    write_number(END, 1);
    flush();
    return 0;
}
