/* A heap of bytes over words of our own: the meter keeps two readings of different sizes, and gives one of them back. From the
 * repository's top:
 *
 *     tools/native heap_held
 *     cc -std=c99 -Wall -Wextra -Iinclude -o target/heap_example examples/heap.c target/native/libheap_held.a
 *     target/heap_example
 */
#include <inttypes.h>
#include <stdio.h>
#include <string.h>

#include "lavikety.h"

enum { ARENA = 64, LEDGER = 4 };

static lavikety_heap heap;
static uint64_t arena[ARENA];
static uint64_t ledger[LEDGER];

static lavikety_answer get(uint64_t size, uint64_t align) {
    return lavikety_heap_alloc(&heap, arena, ARENA, ledger, LEDGER, size, align);
}

static lavikety_answer give_back(uint64_t address, uint64_t size, uint64_t align) {
    return lavikety_heap_dealloc(&heap, arena, ARENA, ledger, LEDGER, address, size, align);
}

static void say(const char *what, lavikety_answer got) {
    printf("%s: %" PRIu64 " %" PRIu64 "\n", what, got.number, got.value);
}

int main(void) {
    lavikety_answer day, month;

    say("made", lavikety_heap_new(&heap, arena, ARENA, ledger, LEDGER, 9));
    say("bytes 8 to 511", lavikety_heap_add(&heap, arena, ARENA, ledger, LEDGER, 8, 8 * ARENA));
    day = get(24, 8);
    say("24 bytes", day);
    month = get(31 * 4, 4);
    say("124 bytes", month);
    memset(&arena[day.value / 8], 0xff, 24);
    say("cleared", lavikety_heap_zero(&heap, arena, ARENA, ledger, LEDGER, day.value, 24, 8));
    say("asked for", lavikety_heap_stats_alloc_user(&heap, arena, ARENA, ledger, LEDGER));
    say("granted", lavikety_heap_stats_alloc_actual(&heap, arena, ARENA, ledger, LEDGER));
    say("managed", lavikety_heap_stats_total_bytes(&heap, arena, ARENA, ledger, LEDGER));
    say("of another size", give_back(day.value, 25, 8));
    say("given back", give_back(day.value, 24, 8));
    say("once more", give_back(day.value, 24, 8));
    say("no alignment", get(8, 3));
    say("too large", get(512, 1));
    heap.heads[5] += 8;
    say("with a list that was overwritten", get(8, 8));
    say("made anew with no ORDER", lavikety_heap_new(&heap, arena, ARENA, ledger, LEDGER, 3));
    say("the first of a word", lavikety_heap_init(&heap, arena, ARENA, ledger, LEDGER, 0, 8));
    return 0;
}
