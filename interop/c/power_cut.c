/*
 * The box store from C: a serial that survives a loss of power, a sync that the budget cuts, a look, refusals, the media writes
 * by themselves, trip lists, and the names of the answers.
 *
 *   ./build boxstore
 *   gcc -std=c99 -Wall -Wextra -pedantic -Werror -Iinterop interop/c/power_cut.c target/staticlib/libboxstore.a -o power_cut
 *   ./power_cut
 *
 * Prints a line for each step. Ends with 1 at the first step that goes wrong, saying what was expected.
 */
#include <stdio.h>
#include <stdlib.h>
#include <string.h>

#include "boxstore.h"

static struct boxstore store;

/* The answer of a step: prints it, and ends the program where it is another than expected. */
static void expect(const char *step, uint32_t answer, unsigned number, size_t count)
{
    printf("%-44s %s, count %lu\n", step, boxstore_name(answer), (unsigned long)boxstore_count(answer));
    if (boxstore_number(answer) != number || boxstore_count(answer) != count) {
        fprintf(stderr, "power_cut: %s: expected %s, count %lu; got count %lu, and %s: %s\n", step,
                boxstore_name(number * BOXSTORE_REFUSED), (unsigned long)count, (unsigned long)boxstore_count(answer),
                boxstore_name(answer), boxstore_meaning(answer));
        exit(1);
    }
}

/* A condition of a step. */
static void require(const char *condition, int holds)
{
    printf("  %s\n", condition);
    if (!holds) {
        fprintf(stderr, "power_cut: expected: %s\n", condition);
        exit(1);
    }
}

static int all(const uint8_t *bytes, size_t length, uint8_t value)
{
    size_t i;
    for (i = 0; i < length; i++)
        if (bytes[i] != value)
            return 0;
    return 1;
}

/* The power goes: the media and the stored sizes stay, the frames and the state do not. */
static void cut_power(void)
{
    memset(store.frames, 0xa5, sizeof store.frames);
    memset(store.state, 0xa5, sizeof store.state);
    expect("power cut: the state is made down", box_down(&store), BOXSTORE_DONE, 0);
    require("the down state is zeros", all(store.state, sizeof store.state, 0));
}

static void serial(void)
{
    static const char text[] = "SN-000042-A7";
    uint8_t found[16];

    memset(store.media, 0xff, sizeof store.media); /* a new part */
    memset(store.sizes, 0xff, sizeof store.sizes);

    expect("format", box_format(&store, BOXSTORE_MOUNT_WRITES), BOXSTORE_DONE, 8);
    expect("mount", box_mount(&store, BOXSTORE_MOUNT_WRITES), BOXSTORE_DONE, 0);
    expect("write the serial to file 0", box_write(&store, 0, 0, text, 12), BOXSTORE_DONE, 12);
    require("nothing is on the media before a sync", store.sizes[0] == 0 && all(store.media, sizeof store.media, 0));
    expect("sync file 0", box_sync(&store, 0, BOXSTORE_SYNC_WRITES), BOXSTORE_DONE, 2);
    require("the stored size is 12", store.sizes[0] == 12);
    cut_power();
    expect("mount", box_mount(&store, BOXSTORE_MOUNT_WRITES), BOXSTORE_DONE, 0);
    memset(found, '.', sizeof found);
    expect("read file 0", box_read(&store, 0, 0, found, sizeof found), BOXSTORE_DONE, 12);
    require("the serial is SN-000042-A7", memcmp(found, text, 12) == 0);
    require("the rest of the buffer keeps its bytes", all(found + 12, 4, '.'));
    expect("size of file 0", box_size(&store, 0), BOXSTORE_DONE, 12);
}

static void sync_that_is_cut(void)
{
    uint8_t old_bytes[300], new_bytes[300], found[300];

    memset(old_bytes, 'A', sizeof old_bytes);
    memset(new_bytes, 'B', sizeof new_bytes);
    expect("write 300 A to file 1", box_write(&store, 1, 0, old_bytes, 300), BOXSTORE_DONE, 300);
    expect("sync file 1", box_sync(&store, 1, BOXSTORE_SYNC_WRITES), BOXSTORE_DONE, 3);
    expect("write 300 B over them", box_write(&store, 1, 0, new_bytes, 300), BOXSTORE_DONE, 300);
    expect("sync file 1, budget 1", box_sync(&store, 1, 1), BOXSTORE_CUT, 1);
    expect("read while down", box_read(&store, 1, 0, found, sizeof found), BOXSTORE_DOWN, 0);
    expect("size while down", box_size(&store, 1), BOXSTORE_DOWN, 0);
    cut_power();
    expect("mount", box_mount(&store, BOXSTORE_MOUNT_WRITES), BOXSTORE_DONE, 0);
    expect("read file 1", box_read(&store, 1, 0, found, sizeof found), BOXSTORE_DONE, 300);
    require("page 0 has the new bytes, page 1 the old ones", all(found, 256, 'B') && all(found + 256, 44, 'A'));

    expect("write 300 B to file 2", box_write(&store, 2, 0, new_bytes, 300), BOXSTORE_DONE, 300);
    expect("sync file 2, budget 2", box_sync(&store, 2, 2), BOXSTORE_CUT, 2);
    require("both pages are stored, and the size is not", store.sizes[2] == 0 && store.media[2 * BOXSTORE_FILE_BYTES] == 'B');
    expect("mount, budget 0", box_mount(&store, 0), BOXSTORE_CUT, 0);
    expect("mount", box_mount(&store, BOXSTORE_MOUNT_WRITES), BOXSTORE_DONE, 1);
    expect("read file 2", box_read(&store, 2, 0, found, sizeof found), BOXSTORE_DONE, 0);
    require("file 2 is empty, as before", all(store.media + 2 * BOXSTORE_FILE_BYTES, BOXSTORE_FILE_BYTES, 0));
}

/* Of a look's word: 0 for the media and 1 for the frames, and where in them. */
static unsigned source(uint64_t word) { return (unsigned)(word >> 16) & 65535u; }
static size_t offset(uint64_t word) { return (size_t)(word >> 32); }

static uint64_t look(size_t file, size_t position)
{
    return boxstore_look(store.media, sizeof store.media, store.sizes, BOXSTORE_FILES, store.frames, sizeof store.frames,
                         store.state, sizeof store.state, file, position);
}

static void look_at_file_1(void)
{
    const uint8_t *part = NULL;
    uint64_t at;

    expect("look at 10 of file 1: count", box_look_count(&store, 1, 10), BOXSTORE_DONE, 246);
    expect("look at 10 of file 1", box_look(&store, 1, 10, &part), BOXSTORE_DONE, 246);
    at = look(1, 10);
    require("the look is the media's bytes 10 to 255", boxstore_looked_len(at) == 246
            && source(at) == 0 && offset(at) == BOXSTORE_FILE_BYTES + 10
            && part == store.media + BOXSTORE_FILE_BYTES + 10 && part == boxstore_looked_at(at, store.media, store.frames)
            && all(part, 246, 'B'));
    expect("write 1 byte to file 1", box_write(&store, 1, 10, "C", 1), BOXSTORE_DONE, 1);
    expect("look at 10 of file 1", box_look(&store, 1, 10, &part), BOXSTORE_DONE, 246);
    at = look(1, 10);
    require("the look is in the frames, and sees the byte", boxstore_looked_len(at) == 246
            && source(at) == 1 && offset(at) + 246 <= sizeof store.frames
            && part == store.frames + offset(at) && part == boxstore_looked_at(at, store.media, store.frames)
            && *part == 'C');
    expect("truncate file 1 to 2,000", box_truncate(&store, 1, 2000), BOXSTORE_DONE, 0);
    expect("size of file 1", box_size(&store, 1), BOXSTORE_DONE, 2000);
    expect("look at 1,000 of file 1: count", box_look_count(&store, 1, 1000), BOXSTORE_DONE, 24);
    expect("look at 1,000 of file 1", box_look(&store, 1, 1000, &part), BOXSTORE_DONE, 0);
    require("zeros that no buffer has: the look is empty", boxstore_looked_len(look(1, 1000)) == 0);
    part = NULL;
    expect("look at 4,097 of file 1", box_look(&store, 1, 4097, &part), BOXSTORE_RANGE, 0);
    require("a refused look leaves the pointer", part == NULL);
    expect("sync file 1", box_sync(&store, 1, BOXSTORE_SYNC_WRITES), BOXSTORE_DONE, 2);
}

static void refusals(void)
{
    static uint8_t page[4096];
    uint8_t byte = 7;

    expect("SHAPE: media one byte short",
           boxstore_mount(store.media, sizeof store.media - 1, store.sizes, BOXSTORE_FILES, store.state, sizeof store.state, 8),
           BOXSTORE_SHAPE, 0);
    expect("SHAPE: the sizes counted in bytes",
           boxstore_mount(store.media, sizeof store.media, store.sizes, sizeof store.sizes, store.state, sizeof store.state, 8),
           BOXSTORE_SHAPE, 0);
    expect("NO FILE: read file 8", box_read(&store, 8, 0, &byte, 1), BOXSTORE_NO_FILE, 0);
    expect("NO FILE: size of file 8", box_size(&store, 8), BOXSTORE_NO_FILE, 0);
    expect("RANGE: read at 4,097", box_read(&store, 0, 4097, &byte, 1), BOXSTORE_RANGE, 0);
    expect("RANGE: write 2 bytes at 4,095", box_write(&store, 0, 4095, page, 2), BOXSTORE_RANGE, 0);
    expect("RANGE: truncate to the greatest number", box_truncate(&store, 0, (size_t)-1), BOXSTORE_RANGE, 0);
    require("the buffer keeps its byte", byte == 7);

    store.state[BOXSTORE_STATE_MOUNTED] = 2;
    expect("BOOKS: the state is not sound", box_truncate(&store, 0, 0), BOXSTORE_BOOKS, 0);
    store.state[BOXSTORE_STATE_MOUNTED] = 1;
    store.sizes[7] = 4097;
    expect("MEDIA: a stored size of 4,097", box_mount(&store, BOXSTORE_MOUNT_WRITES), BOXSTORE_MEDIA, 0);
    store.sizes[7] = 0;

    expect("write 4,096 bytes to file 3", box_write(&store, 3, 0, page, 4096), BOXSTORE_DONE, 4096);
    expect("write 4,096 to file 4: 8 slots are left", box_write(&store, 4, 0, page, 4096), BOXSTORE_DONE, 2048);
    expect("NO ROOM: write 1 byte to file 5", box_write(&store, 5, 0, &byte, 1), BOXSTORE_NO_ROOM, 0);
    expect("sync file 3", box_sync(&store, 3, BOXSTORE_SYNC_WRITES), BOXSTORE_DONE, 17);
    expect("write 1 byte to file 5", box_write(&store, 5, 0, &byte, 1), BOXSTORE_DONE, 1);
}

static void media_writes(void)
{
    uint32_t record[3] = {300, 200, 250}; /* logical size, floor, stored size */
    uint8_t bytes[256];

    expect("truncate sizes to 100", boxstore_truncate_sizes(record, 3, 100, 4096), BOXSTORE_DONE, 0);
    require("logical size and floor are 100, the stored size stays", record[0] == 100 && record[1] == 100 && record[2] == 250);
    expect("truncate sizes to 4,000", boxstore_truncate_sizes(record, 3, 4000, 4096), BOXSTORE_DONE, 0);
    require("the logical size is 4,000, the floor stays", record[0] == 4000 && record[1] == 100 && record[2] == 250);

    memset(store.media, 0, sizeof store.media);
    memset(store.sizes, 0, sizeof store.sizes);
    memset(bytes, 'D', sizeof bytes);
    expect("write page 1 of file 6", boxstore_write_page(store.media + 6 * BOXSTORE_FILE_BYTES + 256, 256, bytes, sizeof bytes),
           BOXSTORE_DONE, 0);
    require("its bytes are on the media, and no others", all(store.media, 6 * BOXSTORE_FILE_BYTES + 256, 0)
            && all(store.media + 6 * BOXSTORE_FILE_BYTES + 256, 256, 'D')
            && all(store.media + 6 * BOXSTORE_FILE_BYTES + 512, 2 * BOXSTORE_FILE_BYTES - 512, 0));
    expect("write size 500 of file 6", boxstore_write_size(store.media, sizeof store.media, store.sizes, BOXSTORE_FILES, 6, 500),
           BOXSTORE_DONE, 0);
    require("the stored size is 500", store.sizes[6] == 500 && store.sizes[5] == 0 && store.sizes[7] == 0);
    expect("trim file 6 to 300", boxstore_trim(store.media, sizeof store.media, store.sizes, BOXSTORE_FILES, 6, 300),
           BOXSTORE_DONE, 0);
    require("the stored size is 300, and zeros follow", store.sizes[6] == 300
            && all(store.media + 6 * BOXSTORE_FILE_BYTES + 256, 44, 'D')
            && all(store.media + 6 * BOXSTORE_FILE_BYTES + 300, BOXSTORE_FILE_BYTES - 300, 0));
    require("the logical size of file 0 is 12", boxstore_logical_size(store.state, 0) == 12);
}

static void trip_lists(void)
{
    static const char list[] = "007,0,A\n4294967295,0042,BOB7\n", same_minute[] = "1,1,A\n2,2,B\n2,3,C\n";
    static uint8_t buffer[BOXSTORE_LIST_BYTES + 1];
    const size_t length = sizeof list - 1, bad_length = sizeof same_minute - 1;
    uint32_t numbers[4] = {9, 9, 9, 9};
    struct box_trip trip;
    struct box_trips trips;

    expect("read trip 1", box_read_trip(list, length, 1, &trip), BOXSTORE_DONE, 2);
    require("it is minute 4,294,967,295, 42 m, BOB7", trip.minute == UINT32_MAX && trip.metres == 42
            && trip.driver == list + 24 && trip.letters == 4);
    expect("read trip 2", box_read_trip(list, length, 2, &trip), BOXSTORE_DONE, 2);
    require("there is none: the trip stays", trip.minute == UINT32_MAX && trip.driver == list + 24);
    trips = box_walk_trips(list, length);
    expect("next trip", box_next_trip(&trips, &trip), BOXSTORE_DONE, 1);
    require("it is minute 7, 0 m, A", trip.minute == 7 && trip.metres == 0 && trip.driver == list + 6 && trip.letters == 1);
    expect("next trip", box_next_trip(&trips, &trip), BOXSTORE_DONE, 1);
    expect("next trip: the end", box_next_trip(&trips, &trip), BOXSTORE_DONE, 0);
    require("the trip stays", trip.minute == UINT32_MAX && trip.metres == 42);
    expect("next trip amid a line, minute 7 at least",
           boxstore_next_trip((const uint8_t *)list, length, 1, 7, numbers, 4), BOXSTORE_DONE, 8);
    require("its four numbers", numbers[0] == 7 && numbers[1] == 0 && numbers[2] == 6 && numbers[3] == 1);
    memset(buffer, '.', sizeof buffer);
    expect("write trips", box_write_trips(list, length, buffer), BOXSTORE_DONE, 25);
    require("the leading zeros are gone", memcmp(buffer, "7,0,A\n4294967295,42,BOB7\n", 25) == 0);
    require("the rest of the buffer keeps its bytes", all(buffer + 25, sizeof buffer - 25, '.'));

    expect("TRIP ORDER: two trips in a minute", box_read_trip(same_minute, bad_length, 0, &trip), BOXSTORE_TRIP_ORDER, 0);
    trips = box_walk_trips(same_minute, bad_length);
    expect("a walk gets as far as that", box_next_trip(&trips, &trip), BOXSTORE_DONE, 1);
    expect("next trip", box_next_trip(&trips, &trip), BOXSTORE_DONE, 1);
    expect("TRIP ORDER: next trip", box_next_trip(&trips, &trip), BOXSTORE_TRIP_ORDER, 0);
    expect("TRIP ORDER: again", box_next_trip(&trips, &trip), BOXSTORE_TRIP_ORDER, 0);
    require("the trip stays", trip.minute == 2 && trip.metres == 2);
    expect("TRIP FORM: no LF", box_write_trips(list, length - 1, buffer), BOXSTORE_TRIP_FORM, 0);
    expect("RANGE: a list of 4,097 bytes", box_read_trip(buffer, sizeof buffer, 0, &trip), BOXSTORE_RANGE, 0);
    expect("SHAPE: the four numbers counted in bytes",
           boxstore_read_trip((const uint8_t *)list, length, 0, numbers, sizeof numbers), BOXSTORE_SHAPE, 0);
    expect("SHAPE: three numbers", boxstore_next_trip((const uint8_t *)list, length, 0, 0, numbers, 3), BOXSTORE_SHAPE, 0);
    expect("SHAPE: a buffer of 4,097 bytes",
           boxstore_write_trips((const uint8_t *)list, length, buffer, sizeof buffer), BOXSTORE_SHAPE, 0);
    expect("SHAPE: a join into 4,095 bytes", boxstore_join_trips((const uint8_t *)list, length, (const uint8_t *)list, length,
           buffer, BOXSTORE_LIST_BYTES - 1), BOXSTORE_SHAPE, 0);
    require("the buffer keeps its bytes", memcmp(buffer, "7,0,A", 5) == 0 && all(buffer + 25, sizeof buffer - 25, '.'));
}

/* Two lists that are joined. */
static void joined_lists(void)
{
    static const char first[] = "7,0,A\n9,42,BOB7\n", second[] = "007,00,A\n8,1,C\n", joined[] = "7,0,A\n8,1,C\n9,42,BOB7\n";
    static const char other[] = "8,1,C\n9,42,BOB8\n", bad[] = "9,0,b\n";
    static uint8_t buffer[BOXSTORE_LIST_BYTES];
    static char full[2][BOXSTORE_LIST_BYTES + 1];
    const size_t first_len = sizeof first - 1, second_len = sizeof second - 1;
    size_t half, line;

    memset(buffer, '.', sizeof buffer);
    expect("join", box_join_trips(first, first_len, second, second_len, buffer), BOXSTORE_DONE, sizeof joined - 1);
    require("all trips by minute, that of both once", memcmp(buffer, joined, sizeof joined - 1) == 0);
    require("the rest of the buffer keeps its bytes", all(buffer + sizeof joined - 1, sizeof buffer - sizeof joined + 1, '.'));
    expect("join of a list with itself", box_join_trips(first, first_len, first, first_len, buffer), BOXSTORE_DONE, first_len);
    expect("join of two that are empty", box_join_trips("", 0, "", 0, buffer), BOXSTORE_DONE, 0);

    memset(buffer, '.', sizeof buffer);
    expect("TRIP CONFLICT: minute 9 has two drivers", box_join_trips(first, first_len, other, sizeof other - 1, buffer),
           BOXSTORE_TRIP_CONFLICT, 0);
    expect("TRIP FORM: the second list", box_join_trips(first, first_len, bad, sizeof bad - 1, buffer), BOXSTORE_TRIP_FORM, 0);
    expect("TRIP FORM: the first list before the second",
           box_join_trips(bad, sizeof bad - 1, full[0], sizeof full[0], buffer), BOXSTORE_TRIP_FORM, 0);
    expect("RANGE: 4,097 bytes", box_join_trips(full[0], sizeof full[0], bad, sizeof bad - 1, buffer), BOXSTORE_RANGE, 0);
    /* 256 lines of 8 bytes each, of other minutes */
    for (half = 0; half < 2; half++)
        for (line = 0; line < 256; line++)
            sprintf(full[half] + 8 * line, "%03u,0,A\n", (unsigned)(100 + 2 * line + half));
    strcpy(full[1] + 2048, "999,0,A\n");
    expect("TRIPS TOO LONG: 4,104 bytes", box_join_trips(full[0], 2048, full[1], 2056, buffer), BOXSTORE_TRIPS_TOO_LONG, 0);
    require("the buffer keeps its bytes", all(buffer, sizeof buffer, '.'));
    expect("join of 4,096 bytes", box_join_trips(full[0], 2048, full[1], 2048, buffer), BOXSTORE_DONE, BOXSTORE_LIST_BYTES);
    require("the lists by turns", memcmp(buffer, "100,0,A\n101,0,A\n102,0,A\n", 24) == 0
            && memcmp(buffer + BOXSTORE_LIST_BYTES - 8, "611,0,A\n", 8) == 0);
}

/* The name of each number, with the least and the greatest count. */
static void names(void)
{
    static const char *const expected[] = {"done", "unknown", "SHAPE", "MEDIA", "BOOKS", "DOWN", "NO FILE", "RANGE", "NO ROOM",
                                           "CUT", "TRIP FORM", "TRIP ORDER", "unknown", "unknown", "unknown", "unknown", "unknown",
                                           "TRIP CONFLICT", "TRIPS TOO LONG", "unknown"};
    int named = 1, meant = 1;
    unsigned number;
    char version[40];

    for (number = 0; number <= 19; number++) {
        uint32_t least = number * BOXSTORE_REFUSED, greatest = least + 65535;
        int unknown = strcmp(boxstore_meaning(least), "no call gives this answer") == 0;
        int free_number = number == 1 || (number >= 12 && number <= 16) || number == 19;
        printf("%u is %s: %s\n", number, boxstore_name(least), boxstore_meaning(least));
        named = named && strcmp(boxstore_name(least), expected[number]) == 0
                && strcmp(boxstore_name(greatest), expected[number]) == 0;
        meant = meant && unknown == free_number
                && strcmp(boxstore_meaning(greatest), boxstore_meaning(least)) == 0;
    }
    require("each number has its name", named && strcmp(boxstore_name(UINT32_MAX), "unknown") == 0);
    require("1, 12 to 16 and 19 alone mean nothing", meant);

    sprintf(version, "%d.%d.%d", BOXSTORE_VERSION_MAJOR, BOXSTORE_VERSION_MINOR, BOXSTORE_VERSION_PATCH);
    require("the version " BOXSTORE_VERSION " is the same in numbers", strcmp(version, BOXSTORE_VERSION) == 0);
}

int main(void)
{
    serial();
    sync_that_is_cut();
    look_at_file_1();
    refusals();
    media_writes();
    trip_lists();
    joined_lists();
    names();
    puts("power_cut: all as expected");
    return 0;
}
