/*
 * boxstore: eight files of up to 4,096 bytes on one media part, behind a cache of 24 pages, safe against loss of power.
 *
 * Link target/staticlib/libboxstore.a, which `./build boxstore` writes. The library keeps nothing between calls: the caller
 * owns all memory and lends it to each call, as a pointer and a number of elements:
 *
 *   media    32,768 bytes   the bytes of the part; byte i of file f is at 4,096 * f + i
 *   sizes    8 numbers      the stored size of each file
 *   frames   6,144 bytes    the bytes of the cached pages; slot k has those from 256 * k on
 *   state    137 bytes      the cache state, laid out as said below
 *
 * struct boxstore is that memory of one store, and the box_ calls lend it whole: most programs need no others.
 *
 * Beside the store there are calls on trip lists, which know nothing of it: texts in memory of the caller, as from a file.
 *
 * media and sizes stand for what survives a loss of power; frames and state do not survive it. After one, make the state down
 * (boxstore_down) and mount. The mount then finds each file as its last completed sync left it, changed by a first part of the
 * bytes of each later write, from none to all, and by each later truncate or not. That presumes of the part behind media and sizes that it does each media write whole or not at all, and in order: PAGE (256 bytes of a file), SIZE (one
 * stored size), TRIM (zeros to the end of a file, and its stored size). And nothing else may alter media, sizes, frames or state
 * between the calls.
 *
 * The calls change media and sizes as plain memory, in no promised order within a call; a part that is mapped there directly does
 * not do as presumed. Keep them in RAM, and carry the media writes of a call to the part, in their order. Those of a sync: TRIM to
 * the floor, if that is below the stored size; PAGE for each used slot of the file, by ascending page; SIZE, if the logical size
 * differs from the floor. Of a mount: for each file from 0 on with a nonzero byte at or past its stored size, TRIM to that size. Of a
 * format: for each file from 0 on with a nonzero byte or a nonzero stored size, TRIM to 0. All of it as state and media were before
 * the call. Power that goes on the way leaves on the part what CUT leaves in media and sizes.
 *
 * The budget of sync, mount and format is the number of media writes that can still be paid for, as by a hold-up capacitor. One
 * of it must pay for any media write, so for the dearest: a TRIM of a whole file.
 *
 * Every call ends on every input: all numbers, lengths and contents are allowed. It writes only to what it is lent without
 * `const`. What the C compiler cannot check is asked of the caller: a pointer is not null (not even beside the length 0), is
 * aligned for its type, and has that many elements behind it; and what a call may write overlaps nothing else that it is lent.
 * Calls on different memory may run at the same time; on the same memory one call must end before the next begins, in an
 * interrupt too.
 *
 * The archive is for x86-64 Linux: one ELF object, size_t has 8 bytes. It makes no system call, needs nothing but memcpy, memmove
 * and memset, and uses SSE registers. sizes are numbers of the machine; the sizes inside the state have their low byte first.
 *
 * The answer is one word, 65,536 * number + count. Number 0 is done, so a done call answers its count, below
 * BOXSTORE_REFUSED. Otherwise the number says why the call was refused, and is the first of these that applies (of the calls on
 * files; those from boxstore_truncate_sizes on say their own):
 *
 *   2 SHAPE     media, sizes, frames or state, where lent, has another length than above; sizes_len counts numbers and not bytes:
 *               8, not 32
 *   3 MEDIA     a stored size is above 4,096, as on a part that was never formatted (not from format)
 *   4 BOOKS     the state is not sound (not from mount or format)
 *   5 DOWN      the state is down (not from mount or format)
 *   6 NO FILE   the file number is above 7
 *   7 RANGE     a position, a size, or position + length of a write is above 4,096
 *   8 NO ROOM   a write of at least one byte whose first page is not cached while 24 pages are
 *   9 CUT       sync, mount and format: the budget is below the media writes needed
 *
 * (1 is of the session program.) The calls on trip lists give SHAPE, RANGE and, for the first bad line,
 *
 *  10 TRIP FORM    the line lacks the form
 *  11 TRIP ORDER   its minute is not above that of the line before
 *
 * and a join of two lists neither of which is refused, the first of these that applies:
 *
 *  17 TRIP CONFLICT    a minute has other metres or another driver in the second list
 *  18 TRIPS TOO LONG   the joined list is longer than 4,096 bytes
 *
 * All refusals but CUT have count 0 and leave all memory as it came. CUT has the budget as its count: that many first media
 * writes were done, and the state is down, as after a loss of power at that moment.
 *
 * The cache state, byte by byte:
 *
 *   BOXSTORE_STATE_MOUNTED           1 where the device is mounted, 0 where it is down
 *   BOXSTORE_STATE_SLOTS + 3 * k     slot k, from 0 to 23: 1 where it is used, 0 where it is free; then its file, then its page
 *   BOXSTORE_STATE_LOGICAL + 4 * f   logical size of file f, as read and write see it: 4 bytes, low byte first
 *   BOXSTORE_STATE_FLOOR + 4 * f     floor of file f, the smallest of its stored size and of all truncates since the last sync or
 *                                    mount: alike
 *
 * The down state is 137 bytes of 0. A state is sound where its first byte and that of each slot are 0 or 1; used slots name files
 * 0 to 7 and pages 0 to 15, none twice, and free slots are three bytes of 0; of each file floor <= logical size <= 4,096 and
 * floor <= stored size; and where its first byte is 0, all others are 0 too.
 */
#ifndef BOXSTORE_H
#define BOXSTORE_H

#include <stddef.h>
#include <stdint.h>

#if !defined(__x86_64__) || SIZE_MAX != 0xFFFFFFFFFFFFFFFFu
#error "libboxstore.a is for x86-64 Linux, with a size_t of 64 bits; this is another target"
#endif

#ifdef __cplusplus
extern "C" {
#endif

/* The version of this interface. */
#define BOXSTORE_VERSION "0.3.0"
#define BOXSTORE_VERSION_MAJOR 0
#define BOXSTORE_VERSION_MINOR 3
#define BOXSTORE_VERSION_PATCH 0

#define BOXSTORE_FILES 8
#define BOXSTORE_PAGE_BYTES 256
#define BOXSTORE_SLOTS 24
#define BOXSTORE_FILE_BYTES 4096
#define BOXSTORE_MEDIA_BYTES 32768
#define BOXSTORE_FRAMES_BYTES 6144
#define BOXSTORE_STATE_BYTES 137

/* The greatest length of a trip list, and the length of the buffer that one is written into. */
#define BOXSTORE_LIST_BYTES 4096

/* Where the parts of the cache state begin. */
#define BOXSTORE_STATE_MOUNTED 0
#define BOXSTORE_STATE_SLOTS 1
#define BOXSTORE_STATE_LOGICAL 73
#define BOXSTORE_STATE_FLOOR 105

/* The most media writes that a sync needs, and that a mount or a format needs: a budget that is never CUT. */
#define BOXSTORE_SYNC_WRITES 18
#define BOXSTORE_MOUNT_WRITES 8

/* An answer from here on is a refusal. */
#define BOXSTORE_REFUSED 65536u

/* The numbers. They are compared with boxstore_number(answer), never with the answer: a done write of 5 bytes answers 5. */
enum boxstore_answer_number {
    BOXSTORE_DONE = 0,
    BOXSTORE_SHAPE = 2,
    BOXSTORE_MEDIA = 3,
    BOXSTORE_BOOKS = 4,
    BOXSTORE_DOWN = 5,
    BOXSTORE_NO_FILE = 6,
    BOXSTORE_RANGE = 7,
    BOXSTORE_NO_ROOM = 8,
    BOXSTORE_CUT = 9,
    BOXSTORE_TRIP_FORM = 10,
    BOXSTORE_TRIP_ORDER = 11,
    BOXSTORE_TRIP_CONFLICT = 17,
    BOXSTORE_TRIPS_TOO_LONG = 18
};

/* The number of an answer, and its count. */
static inline unsigned boxstore_number(uint32_t answer) { return answer >> 16; }
static inline size_t boxstore_count(uint32_t answer) { return answer & 65535u; }

/* The name of an answer, and what it means. They take the answer itself, not its number. */
static inline const char *boxstore_name(uint32_t answer)
{
    switch (boxstore_number(answer)) {
    case BOXSTORE_DONE: return "done";
    case BOXSTORE_SHAPE: return "SHAPE";
    case BOXSTORE_MEDIA: return "MEDIA";
    case BOXSTORE_BOOKS: return "BOOKS";
    case BOXSTORE_DOWN: return "DOWN";
    case BOXSTORE_NO_FILE: return "NO FILE";
    case BOXSTORE_RANGE: return "RANGE";
    case BOXSTORE_NO_ROOM: return "NO ROOM";
    case BOXSTORE_CUT: return "CUT";
    case BOXSTORE_TRIP_FORM: return "TRIP FORM";
    case BOXSTORE_TRIP_ORDER: return "TRIP ORDER";
    case BOXSTORE_TRIP_CONFLICT: return "TRIP CONFLICT";
    case BOXSTORE_TRIPS_TOO_LONG: return "TRIPS TOO LONG";
    default: return "unknown";
    }
}
static inline const char *boxstore_meaning(uint32_t answer)
{
    switch (boxstore_number(answer)) {
    case BOXSTORE_DONE: return "the call was carried out";
    case BOXSTORE_SHAPE: return "lent memory has another length than the call needs";
    case BOXSTORE_MEDIA: return "a stored size is above 4,096";
    case BOXSTORE_BOOKS: return "the cache state, or a record of sizes, is not sound";
    case BOXSTORE_DOWN: return "the device is not mounted";
    case BOXSTORE_NO_FILE: return "the file number is above 7";
    case BOXSTORE_RANGE: return "a position, a size, or the end of a write is above its limit";
    case BOXSTORE_NO_ROOM: return "the first page of the write is not cached, while 24 others are";
    case BOXSTORE_CUT: return "the budget was below the media writes needed; the device is down";
    case BOXSTORE_TRIP_FORM: return "a line of the trip list lacks the form minute,metres,driver";
    case BOXSTORE_TRIP_ORDER: return "the minute of a trip is not above that of the line before";
    case BOXSTORE_TRIP_CONFLICT: return "the lists have trips of the same minute that differ in metres or driver";
    case BOXSTORE_TRIPS_TOO_LONG: return "the joined list is longer than 4,096 bytes";
    default: return "no call gives this answer";
    }
}

/* The logical size of a file, 0 to 7, as read and write see it: of a state that a call left, with 137 bytes. */
static inline size_t boxstore_logical_size(const uint8_t *state, size_t file)
{
    const uint8_t *at = state + BOXSTORE_STATE_LOGICAL + 4 * file;
    return (size_t)at[0] | (size_t)at[1] << 8 | (size_t)at[2] << 16 | (size_t)at[3] << 24;
}

/* Down: the state becomes the down state, as at the start and after a loss of power. Answers 0, or SHAPE. */
uint32_t boxstore_down(uint8_t *state, size_t state_len);

/* Format: empties all files; the device is down after it. Counts the media writes. For new media, and only there: it ends
 * what the files hold. */
uint32_t boxstore_format(uint8_t *media, size_t media_len, uint32_t *sizes, size_t sizes_len,
                         uint8_t *state, size_t state_len, size_t budget);

/* Mount: brings the device up, from whatever state, with no page cached: what was not synced is gone. Bytes past a stored size
 * are cleared first. Counts the media writes. */
uint32_t boxstore_mount(uint8_t *media, size_t media_len, uint32_t *sizes, size_t sizes_len,
                        uint8_t *state, size_t state_len, size_t budget);

/* Read: copies bytes of a file, from a position on, into the front of the buffer: as many as it takes, up to the logical size.
 * Counts them; 0 at or past the logical size. The rest of the buffer keeps its bytes. */
uint32_t boxstore_read(const uint8_t *media, size_t media_len, const uint32_t *sizes, size_t sizes_len,
                       const uint8_t *frames, size_t frames_len, const uint8_t *state, size_t state_len,
                       size_t file, size_t position, uint8_t *buffer, size_t buffer_len);

/* Write: puts bytes into cached pages, ascending, and counts them. Fewer than asked where a page finds all slots taken: sync a
 * file, then write the rest. Nothing is on the media before a sync. */
uint32_t boxstore_write(const uint8_t *media, size_t media_len, const uint32_t *sizes, size_t sizes_len,
                        uint8_t *frames, size_t frames_len, uint8_t *state, size_t state_len,
                        size_t file, size_t position, const uint8_t *bytes, size_t bytes_len);

/* Truncate: the file has n bytes after it; it is cut, or filled with zeros. The count is 0. */
uint32_t boxstore_truncate(const uint8_t *media, size_t media_len, const uint32_t *sizes, size_t sizes_len,
                           uint8_t *frames, size_t frames_len, uint8_t *state, size_t state_len,
                           size_t file, size_t n);

/* Sync: stores a file: its truncation, its cached pages ascending, its size last. Its slots are free after it. Counts the media
 * writes. */
uint32_t boxstore_sync(uint8_t *media, size_t media_len, uint32_t *sizes, size_t sizes_len,
                       const uint8_t *frames, size_t frames_len, uint8_t *state, size_t state_len,
                       size_t file, size_t budget);

/* Look count: as count the bytes from the position to the end of its page or to the logical size, the nearer. */
uint32_t boxstore_look_count(const uint8_t *media, size_t media_len, const uint32_t *sizes, size_t sizes_len,
                             const uint8_t *frames, size_t frames_len, const uint8_t *state, size_t state_len,
                             size_t file, size_t position);

/* Look: where the bytes from the position on lie, to the end of its page at most, without a copy. One word:
 * 2^32 * offset + 65,536 * source + count, source 0 for the media and 1 for the frames. On a refusal the word is 0, which may also
 * be a look that is done and empty: boxstore_look_count tells them apart. The count is 0 at or past the logical size, and in zeros
 * that no buffer has. Where it is less than the count of boxstore_look_count, the rest are zeros. The part is good until the next
 * write, truncate, sync, mount or format. */
uint64_t boxstore_look(const uint8_t *media, size_t media_len, const uint32_t *sizes, size_t sizes_len,
                       const uint8_t *frames, size_t frames_len, const uint8_t *state, size_t state_len,
                       size_t file, size_t position);

/* The part that a look names, of the media and the frames that it was given: its first byte, and its length. */
static inline const uint8_t *boxstore_looked_at(uint64_t look, const uint8_t *media, const uint8_t *frames)
{
    return ((look >> 16) & 1 ? frames : media) + (size_t)(look >> 32);
}
static inline size_t boxstore_looked_len(uint64_t look) { return (size_t)(look & 65535u); }

/* The truncate rule on the sizes of one file: three numbers, logical size, floor and stored size, and the greatest file size.
 * SHAPE where there are not three; BOOKS unless floor <= logical size <= greatest and floor <= stored size; RANGE where n is
 * above the greatest. */
uint32_t boxstore_truncate_sizes(uint32_t *record, size_t record_len, size_t n, uint32_t greatest);

/* The media writes by themselves, for a part that is driven without the cache. Done, they count 0.
 * Page: the 256 bytes of a page are replaced. SHAPE where either has another length. */
uint32_t boxstore_write_page(uint8_t *page, size_t page_len, const uint8_t *bytes, size_t bytes_len);

/* Size: the stored size of a file is replaced. SHAPE, NO FILE, then RANGE above 4,096. */
uint32_t boxstore_write_size(const uint8_t *media, size_t media_len, uint32_t *sizes, size_t sizes_len,
                             size_t file, size_t n);

/* Trim: the bytes of a file from n on become 0, and its stored size n. SHAPE, NO FILE, then RANGE where n is above 4,096 or
 * above the stored size. */
uint32_t boxstore_trim(uint8_t *media, size_t media_len, uint32_t *sizes, size_t sizes_len, size_t file, size_t n);

/* A trip list has a line `minute,metres,driver` for each trip, and at most 4,096 bytes; one without trips is empty. Every line ends
 * with LF, the last too, and has no CR. A number has 1 to 10 digits, which may begin with zeros, and is at most 4,294,967,295; a
 * driver has 1 to 16 characters, A to Z and 0 to 9. From line to line the minutes rise. A trip is told as four numbers: minute,
 * metres, the index in the list where the driver begins, and its length.
 *
 * Read trip: the trip at a place, from 0. Counts the trips of the list; where the place is not below that, the four numbers stay.
 * SHAPE where there are not four, RANGE where the list is longer; then the first bad line of the whole list decides, wherever the
 * place is: TRIP FORM, else TRIP ORDER. */
uint32_t boxstore_read_trip(const uint8_t *list, size_t list_len, size_t place, uint32_t *trip, size_t trip_len);

/* Next trip: the trip of the line that begins at an index, and as count the index after its LF, where the next one begins. Start
 * with at 0 and least 0; go on with at = count and least = minute + 1, in 64 bits. At or past the end of the list the count is 0
 * and the four numbers stay. SHAPE and RANGE as above; TRIP FORM where no line of the form begins there, TRIP ORDER where its
 * minute is below least. Other lines are not looked at. */
uint32_t boxstore_next_trip(const uint8_t *list, size_t list_len, size_t at, size_t least, uint32_t *trip, size_t trip_len);

/* Write trips: copies the list into the front of the buffer, without the leading zeros of its numbers, and counts the bytes: never
 * more than the list has. All lists of the same trips get this one spelling, and no others do. The rest of the buffer keeps its
 * bytes. SHAPE where the buffer has not 4,096 bytes, else refused as read trip is. The buffer may not be the list itself. Takes
 * about 5 KB of stack, most of it for the spelled list. */
uint32_t boxstore_write_trips(const uint8_t *list, size_t list_len, uint8_t *buffer, size_t buffer_len);

/* Join trips: makes one list of two, as of a van whose box was exchanged: all their trips by rising minute, one that both have
 * once, spelled and counted as write trips does. Which list comes first makes no difference to what is written. SHAPE where the
 * buffer has not 4,096 bytes; then the first list is refused as read trip is, then the second; then TRIP CONFLICT where a minute
 * has other metres or another driver in the second list; then TRIPS TOO LONG where the joined list has more than 4,096 bytes. The
 * rest of the buffer keeps its bytes. The buffer may overlap neither list; the lists may overlap each other. Takes about 5 KB of
 * stack, most of it for the joined list. */
uint32_t boxstore_join_trips(const uint8_t *first, size_t first_len, const uint8_t *second, size_t second_len,
                             uint8_t *buffer, size_t buffer_len);

/* The memory of one store. All zeros, as a static one begins, it is down and its files are empty. */
struct boxstore {
    uint8_t media[BOXSTORE_MEDIA_BYTES];
    uint32_t sizes[BOXSTORE_FILES];
    uint8_t frames[BOXSTORE_FRAMES_BYTES];
    uint8_t state[BOXSTORE_STATE_BYTES];
};

/* The calls on it: each does and answers what the call above with the same end of its name does on this memory, so never SHAPE. */
static inline uint32_t box_down(struct boxstore *store) { return boxstore_down(store->state, BOXSTORE_STATE_BYTES); }

static inline uint32_t box_format(struct boxstore *store, size_t budget)
{
    return boxstore_format(store->media, BOXSTORE_MEDIA_BYTES, store->sizes, BOXSTORE_FILES,
                           store->state, BOXSTORE_STATE_BYTES, budget);
}

static inline uint32_t box_mount(struct boxstore *store, size_t budget)
{
    return boxstore_mount(store->media, BOXSTORE_MEDIA_BYTES, store->sizes, BOXSTORE_FILES,
                          store->state, BOXSTORE_STATE_BYTES, budget);
}

static inline uint32_t box_read(const struct boxstore *store, size_t file, size_t position, void *buffer, size_t buffer_len)
{
    return boxstore_read(store->media, BOXSTORE_MEDIA_BYTES, store->sizes, BOXSTORE_FILES,
                         store->frames, BOXSTORE_FRAMES_BYTES, store->state, BOXSTORE_STATE_BYTES,
                         file, position, (uint8_t *)buffer, buffer_len);
}

static inline uint32_t box_write(struct boxstore *store, size_t file, size_t position, const void *bytes, size_t bytes_len)
{
    return boxstore_write(store->media, BOXSTORE_MEDIA_BYTES, store->sizes, BOXSTORE_FILES,
                          store->frames, BOXSTORE_FRAMES_BYTES, store->state, BOXSTORE_STATE_BYTES,
                          file, position, (const uint8_t *)bytes, bytes_len);
}

static inline uint32_t box_truncate(struct boxstore *store, size_t file, size_t n)
{
    return boxstore_truncate(store->media, BOXSTORE_MEDIA_BYTES, store->sizes, BOXSTORE_FILES,
                             store->frames, BOXSTORE_FRAMES_BYTES, store->state, BOXSTORE_STATE_BYTES, file, n);
}

static inline uint32_t box_sync(struct boxstore *store, size_t file, size_t budget)
{
    return boxstore_sync(store->media, BOXSTORE_MEDIA_BYTES, store->sizes, BOXSTORE_FILES,
                         store->frames, BOXSTORE_FRAMES_BYTES, store->state, BOXSTORE_STATE_BYTES, file, budget);
}

static inline uint32_t box_look_count(const struct boxstore *store, size_t file, size_t position)
{
    return boxstore_look_count(store->media, BOXSTORE_MEDIA_BYTES, store->sizes, BOXSTORE_FILES,
                               store->frames, BOXSTORE_FRAMES_BYTES, store->state, BOXSTORE_STATE_BYTES, file, position);
}

/* Look, with the refusals of box_look_count: counts the bytes of the part and points to its first. A refusal leaves the pointer. */
static inline uint32_t box_look(const struct boxstore *store, size_t file, size_t position, const uint8_t **part)
{
    uint64_t look = boxstore_look(store->media, BOXSTORE_MEDIA_BYTES, store->sizes, BOXSTORE_FILES,
                                  store->frames, BOXSTORE_FRAMES_BYTES, store->state, BOXSTORE_STATE_BYTES, file, position);
    if (look == 0) {
        uint32_t answer = box_look_count(store, file, position);
        if (answer >= BOXSTORE_REFUSED)
            return answer;
    }
    *part = boxstore_looked_at(look, store->media, store->frames);
    return (uint32_t)boxstore_looked_len(look);
}

/* Size: counts the bytes of a file, its logical size, with the refusals of a read. */
static inline uint32_t box_size(const struct boxstore *store, size_t file)
{
    uint32_t answer = box_look_count(store, file, 0);
    return answer >= BOXSTORE_REFUSED ? answer : (uint32_t)boxstore_logical_size(store->state, file);
}

/* A trip. The driver is in the list, and no NUL ends it: printf("%.*s", (int)trip.letters, trip.driver). */
struct box_trip {
    uint32_t minute, metres;
    const char *driver;
    size_t letters;
};

/* The trip that four numbers tell of a list. */
static inline struct box_trip boxstore_trip(const uint8_t *list, const uint32_t *numbers)
{
    struct box_trip trip;
    trip.minute = numbers[0];
    trip.metres = numbers[1];
    trip.driver = (const char *)list + numbers[2];
    trip.letters = numbers[3];
    return trip;
}

/* Read trip: as boxstore_read_trip. The trip is filled where the place is below the count, and stays otherwise. */
static inline uint32_t box_read_trip(const void *list, size_t list_len, size_t place, struct box_trip *trip)
{
    uint32_t numbers[4];
    uint32_t answer = boxstore_read_trip((const uint8_t *)list, list_len, place, numbers, 4);
    if (answer < BOXSTORE_REFUSED && place < boxstore_count(answer))
        *trip = boxstore_trip((const uint8_t *)list, numbers);
    return answer;
}

/* A walk over a list, and its start. The list is to stay as it is until the walk ends. */
struct box_trips {
    const uint8_t *list;
    size_t list_len, at, least;
};
static inline struct box_trips box_walk_trips(const void *list, size_t list_len)
{
    struct box_trips trips;
    trips.list = (const uint8_t *)list;
    trips.list_len = list_len;
    trips.at = 0;
    trips.least = 0;
    return trips;
}

/* Next trip of a walk: counts 1 and fills the trip; counts 0 at the end. A walk meets a bad line only when it gets there, is
 * refused, and gets no further: box_read_trip first, with any place, to have the whole list checked. */
static inline uint32_t box_next_trip(struct box_trips *trips, struct box_trip *trip)
{
    uint32_t numbers[4];
    uint32_t answer = boxstore_next_trip(trips->list, trips->list_len, trips->at, trips->least, numbers, 4);
    if (answer == 0 || answer >= BOXSTORE_REFUSED)
        return answer;
    *trip = boxstore_trip(trips->list, numbers);
    trips->at = boxstore_count(answer);
    trips->least = (size_t)numbers[0] + 1;
    return 1;
}

/* Write trips: as boxstore_write_trips, into a buffer of BOXSTORE_LIST_BYTES. */
static inline uint32_t box_write_trips(const void *list, size_t list_len, void *buffer)
{
    return boxstore_write_trips((const uint8_t *)list, list_len, (uint8_t *)buffer, BOXSTORE_LIST_BYTES);
}

/* Join trips: as boxstore_join_trips, into a buffer of BOXSTORE_LIST_BYTES. */
static inline uint32_t box_join_trips(const void *first, size_t first_len, const void *second, size_t second_len, void *buffer)
{
    return boxstore_join_trips((const uint8_t *)first, first_len, (const uint8_t *)second, second_len,
                               (uint8_t *)buffer, BOXSTORE_LIST_BYTES);
}

#ifdef __cplusplus
}
#endif

#endif
