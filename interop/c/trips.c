/*
 * Trip lists from C: the list in file 2 of a box is read, its trips are printed, and it is written back in its one spelling. Then
 * the van gets another box, and the lists of both are joined. At the end a list and a join are refused.
 *
 *   ./build boxstore
 *   gcc -std=c99 -Wall -Wextra -pedantic -Werror -Iinterop interop/c/trips.c target/staticlib/libboxstore.a -o trips
 *   ./trips
 *
 * Prints what trips.out has. Ends with 1 at the first step that is refused, saying why.
 */
#include <stdio.h>
#include <stdlib.h>
#include <string.h>

#include "boxstore.h"

#define TRIPS 2 /* the file */

static struct boxstore store;
static uint8_t list[BOXSTORE_FILE_BYTES];

/* The count of a step; ends the program where it is refused. */
static size_t done(const char *step, uint32_t answer)
{
    if (answer >= BOXSTORE_REFUSED) {
        fprintf(stderr, "trips: %s: %s: %s\n", step, boxstore_name(answer), boxstore_meaning(answer));
        exit(1);
    }
    return boxstore_count(answer);
}

/* File 2 holds this text and nothing else, on the media too. */
static void store_list(const void *text, size_t length)
{
    done("truncate", box_truncate(&store, TRIPS, 0));
    if (done("write", box_write(&store, TRIPS, 0, text, length)) != length) {
        fputs("trips: write: too few slots are free\n", stderr);
        exit(1);
    }
    done("sync", box_sync(&store, TRIPS, BOXSTORE_SYNC_WRITES));
}

static size_t load_list(void) { return done("read", box_read(&store, TRIPS, 0, list, sizeof list)); }

static void print_trip(const struct box_trip *trip)
{
    printf("  minute %lu: %lu m, %.*s\n", (unsigned long)trip->minute, (unsigned long)trip->metres, (int)trip->letters,
           trip->driver);
}

static void print_trips(const void *text, size_t length)
{
    struct box_trips trips = box_walk_trips(text, length);
    struct box_trip trip;
    while (done("a trip", box_next_trip(&trips, &trip)) == 1)
        print_trip(&trip);
}

int main(void)
{
    static const char driven[] = "29001234,0012400,ANNA\n0029001301,800,B7\n29001377,0,ANNA\n";
    static const char late[] = "29001234,12400,ANNA\n29001234,800,B7\n";
    static const char second_box[] = "29001377,0,ANNA\n29001402,0000950,B7\n", other[] = "29001377,0,B7\n";
    static uint8_t spelled[BOXSTORE_LIST_BYTES], joined[BOXSTORE_LIST_BYTES];
    struct box_trip trip;
    size_t length, count;
    uint32_t answer;

    done("mount", box_mount(&store, BOXSTORE_MOUNT_WRITES));
    store_list(driven, strlen(driven));

    length = load_list();
    count = done("the list", box_read_trip(list, length, 0, &trip));
    printf("%lu bytes, %lu trips:\n", (unsigned long)length, (unsigned long)count);
    print_trips(list, length);
    done("the last trip", box_read_trip(list, length, count - 1, &trip));
    puts("the last:");
    print_trip(&trip);

    length = done("the spelling", box_write_trips(list, length, spelled));
    store_list(spelled, length);
    length = load_list();
    printf("%lu bytes in its one spelling:\n%.*s", (unsigned long)length, (int)length, (const char *)list);

    count = done("the join", box_join_trips(list, length, second_box, strlen(second_box), joined));
    printf("%lu bytes with the trips of the second box:\n", (unsigned long)count);
    print_trips(joined, count);

    answer = box_read_trip(late, strlen(late), 0, &trip);
    printf("two trips in one minute: %s: %s\n", boxstore_name(answer), boxstore_meaning(answer));
    answer = box_join_trips(list, length, other, strlen(other), joined);
    printf("another driver in the other list: %s: %s\n", boxstore_name(answer), boxstore_meaning(answer));
    return 0;
}
