#define _GNU_SOURCE
#include "play_memory.h"
#include "play_text.h"

#include <stdlib.h>
#include <string.h>
#include <sys/mman.h>
#include <unistd.h>

enum { MOST_LENT = 40960, BESIDE = 0x5A };

/* A buffer's place. Guarded, its pages are seen twice: to fill them, and as they are given to a call, to be written and to be read. */
struct place {
    size_t size;
    uint8_t *fill, *writable, *readable;
    int in_use, read_alone;
    size_t at, length;
    uint8_t *piece;
    uint8_t copy[MOST_LENT];
};

static struct place places[LENT_PLACES];
static uint8_t beside[MOST_LENT];
static int guarded;

/* Where the next call's buffers lie: at the end of their pages, at their start, or, those of bytes, at an odd address. */
enum turn { AT_END, AT_START, AT_ODD, TURNS };
static enum turn turn;

static uint8_t *view(int file, size_t page, size_t size, int protection)
{
    uint8_t *all = mmap(NULL, size + 2 * page, PROT_NONE, MAP_PRIVATE | MAP_ANONYMOUS, -1, 0);
    if (all == MAP_FAILED || mmap(all + page, size, protection, MAP_SHARED | MAP_FIXED, file, 0) == MAP_FAILED)
        fail("no pages");
    return all + page;
}

static void open_place(struct place *place, size_t most)
{
    size_t page = (size_t)sysconf(_SC_PAGESIZE);
    int file = memfd_create("pages", 0);
    place->size = (most + page - 1) / page * page;
    if (file < 0 || ftruncate(file, (off_t)place->size) != 0)
        fail("no pages");
    place->fill = view(file, page, place->size, PROT_READ | PROT_WRITE);
    place->writable = view(file, page, place->size, PROT_READ | PROT_WRITE);
    place->readable = view(file, page, place->size, PROT_READ);
    close(file);
    memset(place->fill, BESIDE, place->size);
}

void memory_open(int between_pages)
{
    int i;
    guarded = between_pages;
    memset(beside, BESIDE, sizeof beside);
    for (i = 0; guarded && i < LENT_PLACES; i++)
        open_place(&places[i], i == LENT_STATE ? 31138 : 4096);
}

/* Where what is lent stands: the view to fill it and to look at it. */
static uint8_t *mine(struct place *place)
{
    return guarded ? place->fill + place->at : place->piece;
}

/* Where so many bytes lie in their pages. */
static size_t place_for(const struct place *place, size_t length)
{
    enum lent which = (enum lent)(place - places);
    size_t rest = place->size - length;
    int of_bytes = which == LENT_STATE || which == LENT_OUT || which == LENT_BYTES;
    if (turn == AT_END)
        return rest;
    return turn == AT_ODD && of_bytes && rest > 0 ? 1 : 0;
}

static void put(struct place *place, const void *bytes, size_t length, int read_alone)
{
    if (length > (guarded ? place->size : MOST_LENT))
        fail("%lu bytes are too many to lend", (unsigned long)length);
    place->in_use = 1;
    place->read_alone = read_alone;
    place->length = length;
    place->at = guarded ? place_for(place, length) : 0;
    if (!guarded)
        place->piece = length > 0 ? malloc(length) : NULL;
    if (!guarded && length > 0 && place->piece == NULL)
        fail("no memory");
    if (length > 0)
        memcpy(mine(place), bytes, length);
    if (read_alone && !guarded && length > 0)
        memcpy(place->copy, bytes, length);
}

void *lend(enum lent which, const void *bytes, size_t length)
{
    struct place *place = &places[which];
    put(place, bytes, length, 0);
    return guarded ? place->writable + place->at : place->piece;
}

const void *lend_read(enum lent which, const void *bytes, size_t length)
{
    struct place *place = &places[which];
    put(place, bytes, length, 1);
    return guarded ? place->readable + place->at : place->piece;
}

void take_back(enum lent which, void *bytes)
{
    struct place *place = &places[which];
    if (place->length > 0)
        memcpy(bytes, mine(place), place->length);
}

static int all_beside(const uint8_t *bytes, size_t length)
{
    return memcmp(bytes, beside, length) == 0;
}

void memory_after(void)
{
    int i;
    for (i = 0; i < LENT_PLACES; i++) {
        struct place *place = &places[i];
        if (!place->in_use)
            continue;
        if (!guarded && place->read_alone && place->length > 0 && memcmp(place->piece, place->copy, place->length) != 0)
            fail("a call has changed what it was lent to read");
        if (!guarded)
            free(place->piece);
        else if (!all_beside(place->fill, place->at) ||
                 !all_beside(place->fill + place->at + place->length, place->size - place->at - place->length))
            fail("a call has changed a byte beside what it was lent");
        else if (place->length > 0)
            memset(mine(place), BESIDE, place->length);
        place->in_use = 0;
    }
    turn = (enum turn)((turn + 1) % TURNS);
}
