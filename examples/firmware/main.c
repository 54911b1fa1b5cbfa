/* The memory of a demand meter: two channels with sliding windows. The samples of an interval stand in frames that the frame table grants, and
 * what is known of the interval in a note that the heap grants; as an interval leaves the window, both are given back, first with a
 * wrong count, as a faulty meter once did: that is refused, and no word changes.
 *
 * To build it: tools/native frame_c && tools/native heap_held, then
 *     cc -std=c99 -Iinclude -o meter examples/firmware/main.c target/native/libframe_c.a target/native/libheap_held.a */
#include <inttypes.h>
#include <stdio.h>
#include <stdlib.h>
#include <string.h>

#include "lavikety.h"
#include "meter.h"

enum {
    FRAME = 4,     /* samples in a frame */
    FRAMES = 128,  /* frames in the sample memory */
    TABLE = 64,    /* words of the table: room for 63 blocks */
    ARENA = 128,   /* words of the arena */
    LEDGER = 16,   /* notes that can be granted at a time */
    HEAP_ORDER = 11
};

/* What is known of an interval: where its samples stand, how many there are, and their sum. */
typedef struct note {
    uint64_t start;
    uint64_t samples;
    uint64_t sum;
} note;

static uint32_t memory[FRAMES * FRAME];
static uint64_t table[TABLE];
static lavikety_heap heap;
static uint64_t arena[ARENA], ledger[LEDGER];

/* The addresses of the notes of a channel's window, the oldest first. */
static uint64_t window[CHANNELS][WINDOW];
static uint32_t filled[CHANNELS];
static uint64_t refused, changed;

/* An answer that must not be a refusal. */
static uint64_t must(const char *what, lavikety_answer got) {
    if (got.number != LAVIKETY_DONE) {
        fprintf(stderr, "meter: %s: refused with %" PRIu64 "\n", what, got.number);
        exit(1);
    }
    return got.value;
}

static uint64_t frames_of(uint64_t samples) { return (samples + FRAME - 1) / FRAME; }

static note note_at(uint64_t address) {
    note n;
    memcpy(&n, &arena[address / 8], sizeof n);
    return n;
}

/* The oldest interval given back with a wrong count and a wrong size: both must be refused, and change nothing of what we lend. */
static void forget_wrongly(uint32_t channel) {
    static uint64_t words[TABLE + ARENA + LEDGER], now[TABLE + ARENA + LEDGER];
    uint64_t address = window[channel][0];
    note n = note_at(address);
    lavikety_heap record = heap;
    lavikety_answer frames, bytes;

    memcpy(words, table, sizeof table);
    memcpy(words + TABLE, arena, sizeof arena);
    memcpy(words + TABLE + ARENA, ledger, sizeof ledger);
    frames = lavikety_frame_dealloc(table, TABLE, n.start, 2 * frames_of(n.samples));
    bytes = lavikety_heap_dealloc(&heap, arena, ARENA, ledger, LEDGER, address, sizeof n + 1, 8);
    memcpy(now, table, sizeof table);
    memcpy(now + TABLE, arena, sizeof arena);
    memcpy(now + TABLE + ARENA, ledger, sizeof ledger);
    refused += frames.number == LAVIKETY_NOT_GRANTED ? 1 : 0;
    refused += bytes.number == LAVIKETY_NOT_GRANTED ? 1 : 0;
    changed += memcmp(words, now, sizeof now) != 0 || memcmp(&record, &heap, sizeof heap) != 0 ? 1 : 0;
}

static void forget_oldest(uint32_t channel) {
    uint64_t address = window[channel][0];
    note n = note_at(address);

    must("release of samples", lavikety_frame_dealloc(table, TABLE, n.start, frames_of(n.samples)));
    must("release of a note", lavikety_heap_dealloc(&heap, arena, ARENA, ledger, LEDGER, address, sizeof n, 8));
    memmove(&window[channel][0], &window[channel][1], (WINDOW - 1) * sizeof window[channel][0]);
    filled[channel]--;
}

static void take_interval(uint32_t channel, uint32_t interval) {
    uint64_t address;
    note n;
    uint32_t i;

    address = must("a note", lavikety_heap_alloc(&heap, arena, ARENA, ledger, LEDGER, sizeof n, 8));
    must("a clean note", lavikety_heap_zero(&heap, arena, ARENA, ledger, LEDGER, address, sizeof n, 8));
    n = note_at(address);
    n.samples = samples_of(channel);
    n.start = must("samples", lavikety_frame_alloc(table, TABLE, frames_of(n.samples)));
    for (i = 0; i < n.samples; i++) {
        memory[n.start * FRAME + i] = sample(channel, interval, i);
        n.sum += memory[n.start * FRAME + i];
    }
    memcpy(&arena[address / 8], &n, sizeof n);
    window[channel][filled[channel]++] = address;
}

/* The demand: every sample of the window, from the memory where it stands. The notes must say the same. */
static uint64_t demand(uint32_t channel) {
    uint64_t sum = 0, noted = 0, i;
    uint32_t w;
    for (w = 0; w < filled[channel]; w++) {
        note n = note_at(window[channel][w]);
        noted += n.sum;
        for (i = 0; i < n.samples; i++) {
            sum += memory[n.start * FRAME + i];
        }
    }
    if (sum != noted) {
        fprintf(stderr, "meter: samples or notes were overwritten\n");
        exit(1);
    }
    return sum;
}

int main(void) {
    uint64_t figures[LAVIKETY_FIGURES], bytes;
    uint32_t channel, interval;

    must("table", lavikety_frame_new(table, TABLE, 8));
    must("frames", lavikety_frame_add(table, TABLE, 0, FRAMES));
    must("heap", lavikety_heap_new(&heap, arena, ARENA, ledger, LEDGER, HEAP_ORDER));
    must("bytes", lavikety_heap_add(&heap, arena, ARENA, ledger, LEDGER, 8, 8 * ARENA));
    for (interval = 0; interval < INTERVALS; interval++) {
        for (channel = 0; channel < CHANNELS; channel++) {
            if (filled[channel] == WINDOW) {
                forget_wrongly(channel);
                forget_oldest(channel);
            }
            take_interval(channel, interval);
            printf("interval %" PRIu32 " channel %" PRIu32 " demand %" PRIu64 "\n", interval, channel, demand(channel));
        }
    }
    printf("wrong releases refused: %" PRIu64 ", times that a word changed: %" PRIu64 "\n", refused, changed);
    for (channel = 0; channel < CHANNELS; channel++) {
        while (filled[channel] > 0) {
            forget_oldest(channel);
        }
    }
    if (lavikety_frame_summary(table, TABLE, figures) != LAVIKETY_DONE) {
        return 1;
    }
    bytes = must("count", lavikety_heap_stats_alloc_user(&heap, arena, ARENA, ledger, LEDGER));
    printf("left: %" PRIu64 " frames, %" PRIu64 " bytes\n", figures[LAVIKETY_FRAMES_GRANTED], bytes);
    return 0;
}
