/* Grants and releases frames from C, over a table of 16 words. From the repository's top:
 *
 *     tools/native frame_c
 *     cc -std=c99 -Wall -Wextra -Iinclude -o target/frames_example examples/frames.c target/native/libframe_c.a
 *     target/frames_example
 */
#include <inttypes.h>
#include <stdio.h>

#include "lavikety.h"

enum { WORDS = 16 };

/* Prints what a call answered, so that the whole run can be read. */
static lavikety_answer show(const char *call, lavikety_answer got)
{
    if (got.number == LAVIKETY_DONE)
        printf("%s: %" PRIu64 "\n", call, got.value);
    else
        printf("%s: refused, number %" PRIu64 "\n", call, got.number);
    return got;
}

static void show_summary(const uint64_t *table)
{
    uint64_t figures[LAVIKETY_FIGURES];
    uint64_t number = lavikety_frame_summary(table, WORDS, figures);
    printf("summary: number %" PRIu64 ", granted %" PRIu64 " of %" PRIu64 ", largest free run %" PRIu64 "\n", number,
           figures[LAVIKETY_FRAMES_GRANTED], figures[LAVIKETY_FRAMES_MANAGED], figures[LAVIKETY_LARGEST_FREE_RUN]);
}

int main(void)
{
    static uint64_t table[WORDS];
    lavikety_answer window;

    show("alloc before a table is made", lavikety_frame_alloc(table, WORDS, 1));
    show("new, ORDER 33", lavikety_frame_new(table, WORDS, 33));
    show("add frames 0 to 1023", lavikety_frame_add(table, WORDS, 0, 1024));
    show("add frame 1000 again", lavikety_frame_add(table, WORDS, 1000, 1001));
    window = show("alloc 5", lavikety_frame_alloc(table, WORDS, 5));
    show("alloc 4 at 512", lavikety_frame_alloc_at(table, WORDS, 512, 4));
    show("alloc 2 at 513", lavikety_frame_alloc_at(table, WORDS, 513, 2));
    show("alloc 3 aligned to 64", lavikety_frame_alloc_aligned(table, WORDS, 3, 64));
    show_summary(table);
    show("dealloc 9 where 5 were granted", lavikety_frame_dealloc(table, WORDS, window.value, 9));
    show("dealloc 5", lavikety_frame_dealloc(table, WORDS, window.value, 5));
    show("dealloc 5 again", lavikety_frame_dealloc(table, WORDS, window.value, 5));
    show("dealloc 3 aligned to 64", lavikety_frame_dealloc_aligned(table, WORDS, 64, 3, 64));
    show("dealloc 4 at 512", lavikety_frame_dealloc(table, WORDS, 512, 4));
    show_summary(table);
    return 0;
}
