/* lavikety.h: memory handed out in blocks of frames, over a table of words that the caller lends; and, further down, a heap of bytes
 * over an arena of words.
 *
 * A frame is a unit of memory of whatever size you choose; the library sees its number only, 0 to 2^32 - 1, and never touches the
 * memory itself. A block is 1, 2, 4, .. 2^32 frames and starts at a multiple of its size. ORDER, 1 to 33, is chosen when a table is
 * made: the largest block of that table has 2^(ORDER-1) frames. Every count is rounded up to a block: 5 frames are granted as 8, and
 * 0 frames as 1.
 *
 * THE TABLE is 1 to 65,536 words of 64 bits, fields from the most significant bit:
 *     word 0: ORDER 6 bits, number of records 16, zero 42;
 *     a record, one for each free or granted block, ascending: granted 1 bit, class 6 (the block has 2^class frames), zero 25, start 32.
 * Words after the last record are zero. A table of n words has room for n - 1 blocks, free and granted together. You may read it, copy
 * it and move it; what you write into it is tested at the next call.
 *
 * EVERY CALL answers for every number and every content of the words. None traps, loops for ever, allocates, or keeps anything
 * between calls: all state is in your words. A refused call gives its number, the value 0, and changes no word. An accepted call
 * gives number 0 and, for a grant, the first frame as its value. Which block is granted is fixed by the rules: the smallest that
 * suffices, among those the one with the lowest start.
 *
 * WHAT YOU MUST SEE TO, since C cannot be held to it:
 *   - `table` points to `words` words that can be read and (but for the summary) written, and is 8-byte aligned. It is not null, unless
 *     `words` is 0.
 *   - `words` is the same for a table from its making on: the table does not hold its own length.
 *   - Nobody else reads or writes these words while a call runs: no other thread, no interrupt, no DMA. There is no lock inside.
 *   - `figures` points to three words that are not in the table, and is 8-byte aligned.
 *
 * MACHINES. The library is built for Linux on x86-64, where an answer comes back in two registers. A call needs at most 600
 * bytes of stack (as compiled for x86-64) beside what memset needs.
 *
 * TIME. Each call but the making of a table reads every lent word once to see that the table is sound. Then a grant goes over the
 * records once more at most, the summary once more, adding takes a step for each piece of the range, up to the room there is, and a
 * change moves each record after it once at most. So lend no more words than you need.
 *
 * POWER LOSS inside a call may leave a table that is half changed. The next call then most often finds it not sound and refuses with
 * LAVIKETY_BAD_STATE; nothing is proved of a call that is cut short. After such a loss make a new table, or go back to a copy.
 *
 * EXAMPLE
 *     static uint64_t table[64];
 *     lavikety_frame_new(table, 64, 33);
 *     lavikety_frame_add(table, 64, 0, 1024);                    frames 0 to 1023 are ours to grant
 *     lavikety_answer got = lavikety_frame_alloc(table, 64, 5);   8 frames
 *     if (got.number == LAVIKETY_DONE) {
 *         use(got.value);                                        the first of them
 *         lavikety_frame_dealloc(table, 64, got.value, 5);
 *     }
 *
 * examples/frames.c is a whole program. TO LINK: liblavikety.a, beside which this header is shipped, has all of it but the numbers of blocks at
 * the end (tools/dist writes it); or tools/native frame_c and target/native/libframe_c.a. At link time the
 * frame calls need memset and nothing else.
 */
#ifndef LAVIKETY_H
#define LAVIKETY_H

#include <stddef.h>
#include <stdint.h>

/* The version of this header and of the library that belongs to it, as in the file VERSION. */
#define LAVIKETY_VERSION "4.0.0"

#ifdef __cplusplus
extern "C" {
#endif

/* What a call gives: 0 or a refusal's number, and beside 0 what was asked for. It comes back by value, in registers. */
typedef struct lavikety_answer {
    uint64_t number;
    uint64_t value;
} lavikety_answer;

/* The numbers, each with its cause. Where several causes hold, the smallest number is given; but in lavikety_frame_alloc_at a size
 * above the top block gets 9 and not 8. */
enum {
    LAVIKETY_DONE = 0,
    LAVIKETY_BAD_ORDER = 1,    /* making: ORDER is not 1 to 33; of a heap, not 4 to 33 */
    LAVIKETY_BAD_SIZE = 2,     /* making: not 1 to 65,536 words; of a heap, an arena or a ledger of a length out of range */
    LAVIKETY_BAD_STATE = 3,    /* the words are no sound table or heap: never made, damaged, or cut short */
    LAVIKETY_BAD_RANGE = 4,    /* adding: start > end, or end > 2^32; to a heap, a byte above the arena, or rounded start > rounded end */
    LAVIKETY_NULL_START = 5,   /* adding to a heap: the rounded start is 0 and the rounded end is not; no frame call gives this */
    LAVIKETY_OVERLAP = 6,      /* adding: a frame or byte of the range is there already, free or granted */
    LAVIKETY_BAD_ALIGN = 7,    /* the alignment is not a power of two (0 is none) */
    LAVIKETY_MISALIGNED = 8,   /* granting at a start: start is no multiple of the rounded count */
    LAVIKETY_NO_BLOCK = 9,     /* granting: rounded up, it is above the largest block, or no free block serves */
    LAVIKETY_NOT_GRANTED = 10, /* releasing or clearing: no granted block has this start and this rounded size (of a heap: and this size) */
    LAVIKETY_NO_ROOM = 11      /* adding or granting: the blocks afterwards would not fit into the table; of a heap, the ledger is full */
};

/* What lavikety_frame_summary writes where: the length of `figures`, and the places in it. */
enum {
    LAVIKETY_FRAMES_GRANTED = 0,
    LAVIKETY_FRAMES_MANAGED = 1, /* granted and free together */
    LAVIKETY_LARGEST_FREE_RUN = 2, /* frames in the largest free block, 0 if there is none */
    LAVIKETY_FIGURES = 3
};

/* Makes a table without blocks over any words: word 0 is written and every other word is zeroed. Numbers 1, 2. */
lavikety_answer lavikety_frame_new(uint64_t *table, size_t words, uint64_t order);

/* Adds the frames start to end - 1 as free blocks. An empty range is accepted and adds nothing. Numbers 3, 4, 6, 11. */
lavikety_answer lavikety_frame_add(uint64_t *table, size_t words, uint64_t start, uint64_t end);

/* Grants `count` frames, rounded up; the value is the first. Numbers 3, 9, 11. */
lavikety_answer lavikety_frame_alloc(uint64_t *table, size_t words, uint64_t count);

/* Grants the larger of `size`, rounded up, and `align`; the value is the first frame, a multiple of the block. Numbers 3, 7, 9, 11. */
lavikety_answer lavikety_frame_alloc_aligned(uint64_t *table, size_t words, uint64_t size, uint64_t align);

/* Grants `count` frames, rounded up, at `start` and nowhere else; the value is start. Numbers 3, 8, 9, 11. */
lavikety_answer lavikety_frame_alloc_at(uint64_t *table, size_t words, uint64_t start, uint64_t count);

/* Releases the granted block at `start` whose size is `count` rounded up. It never lacks room. Numbers 3, 10. */
lavikety_answer lavikety_frame_dealloc(uint64_t *table, size_t words, uint64_t start, uint64_t count);

/* Releases the block at `start` that lavikety_frame_alloc_aligned grants for this size and alignment. Numbers 3, 7, 10. */
lavikety_answer lavikety_frame_dealloc_aligned(uint64_t *table, size_t words, uint64_t start, uint64_t size, uint64_t align);

/* Writes the three figures, zeros where refused, and gives the number itself: 0 or 3. */
uint64_t lavikety_frame_summary(const uint64_t *table, size_t words, uint64_t figures[LAVIKETY_FIGURES]);

/* ---- THE HEAP: target/native/libheap_held.a, by tools/native heap_held. Bytes are granted from an arena of words that the caller lends, under a
 * record and a ledger that the caller keeps.
 *
 * An address is a byte offset in the arena, and 0 is no address: the first 8 bytes are never granted. Blocks have 8, 16, .. bytes and
 * start at a multiple of their size; ORDER, 4 to 33, is chosen when a heap is made, and the largest block has 2^(ORDER-1) bytes. A
 * request gets a block of the least size that is not below its size, its alignment and 8. THE ARENA is 2 to 1,048,576 words; a free
 * block's first word holds the address of the next free block of its class, and the library touches no other word but to clear it
 * (lavikety_heap_zero). What stands in a granted block is its holder's. THE LEDGER is 1 to 65,535 words, one for each granted block.
 * THE RECORD is a lavikety_heap; you may read it, copy it and move it with arena and ledger, and what you write into any of them is
 * tested at the next call. Every call answers for every content of them, as the frame calls do, and a refused call, a making too,
 * changes no word of any of the three.
 *
 * WHAT YOU MUST SEE TO, as for a table, and:
 *   - record, arena and ledger do not overlap, and each is 8-byte aligned and can be read and, where it is not const, written. The record
 *     is not null.
 *   - `arena_words` and `ledger_words` are the same for a heap from its making on.
 *   - to be aligned in memory as in the arena, `arena` stands at a multiple of the largest alignment that you ask for.
 *
 * TIME. Each call but the making tests the heap first, which compares every free block with every other block: with some hundreds of
 * blocks that is most of the time of a call. Lend a ledger no longer than you need, and ask for few sizes.
 *
 * MACHINES, as for tables; a call needs at most 2,900 bytes of stack (as compiled for x86-64) beside what memcpy and memset need, and at
 * link time the heap needs these two and nothing else. examples/heap.c is a whole program.
 *
 * EXAMPLE
 *     static lavikety_heap heap;
 *     static uint64_t arena[512], ledger[32];
 *     lavikety_heap_new(&heap, arena, 512, ledger, 32, 13);
 *     lavikety_heap_add(&heap, arena, 512, ledger, 32, 8, 4096);          the bytes 8 to 4095 are ours to grant
 *     lavikety_answer got = lavikety_heap_alloc(&heap, arena, 512, ledger, 32, 100, 8);
 *     if (got.number == LAVIKETY_DONE) {
 *         use(&arena[got.value / 8]);                                     128 bytes
 *         lavikety_heap_dealloc(&heap, arena, 512, ledger, 32, got.value, 100, 8);
 *     }
 */

/* The record of a heap: 38 words. */
typedef struct lavikety_heap {
    uint64_t order;     /* ORDER */
    uint64_t heads[33]; /* the first free block of each class, 0 where there is none; a block of class k has 2^k bytes */
    uint64_t count;     /* granted blocks, each a word of the ledger */
    uint64_t user;      /* bytes asked for, of all that is granted */
    uint64_t allocated; /* bytes of the granted blocks */
    uint64_t total;     /* bytes of all blocks, free and granted */
} lavikety_heap;

/* Makes a heap without blocks over any words: the record is written, the ledger zeroed, the arena not touched. Numbers 1, 2. */
lavikety_answer lavikety_heap_new(lavikety_heap *heap, const uint64_t *arena, size_t arena_words, uint64_t *ledger, size_t ledger_words, uint64_t order);

/* Adds the `size` bytes from start on, as lavikety_heap_add does. Numbers 3, 4, 5, 6. */
lavikety_answer lavikety_heap_init(lavikety_heap *heap, uint64_t *arena, size_t arena_words, const uint64_t *ledger, size_t ledger_words, uint64_t start, uint64_t size);

/* Adds the bytes start to end - 1 as free blocks, start rounded up and end down to multiples of 8. Numbers 3, 4, 5, 6. */
lavikety_answer lavikety_heap_add(lavikety_heap *heap, uint64_t *arena, size_t arena_words, const uint64_t *ledger, size_t ledger_words, uint64_t start, uint64_t end);

/* Grants `size` bytes at a multiple of `align`, rounded up; the value is the address. Numbers 3, 7, 9, 11. */
lavikety_answer lavikety_heap_alloc(lavikety_heap *heap, uint64_t *arena, size_t arena_words, uint64_t *ledger, size_t ledger_words, uint64_t size, uint64_t align);

/* Releases the block granted at the address for this size and alignment; the value is how many free blocks, this one too, were compared
 * with the buddy that it could be joined with, class by class. Numbers 3, 7, 10. */
lavikety_answer lavikety_heap_dealloc(lavikety_heap *heap, uint64_t *arena, size_t arena_words, uint64_t *ledger, size_t ledger_words, uint64_t address, uint64_t size, uint64_t align);

/* Clears the words of the `size` bytes of the block granted at the address for this size and alignment. Numbers 3, 7, 10. */
lavikety_answer lavikety_heap_zero(lavikety_heap *heap, uint64_t *arena, size_t arena_words, const uint64_t *ledger, size_t ledger_words, uint64_t address, uint64_t size, uint64_t align);

/* The value is the bytes asked for, of all that is granted. Number 3. */
lavikety_answer lavikety_heap_stats_alloc_user(const lavikety_heap *heap, const uint64_t *arena, size_t arena_words, const uint64_t *ledger, size_t ledger_words);

/* The value is the bytes of the granted blocks. Number 3. */
lavikety_answer lavikety_heap_stats_alloc_actual(const lavikety_heap *heap, const uint64_t *arena, size_t arena_words, const uint64_t *ledger, size_t ledger_words);

/* The value is the bytes of all blocks, free and granted. Number 3. */
lavikety_answer lavikety_heap_stats_total_bytes(const lavikety_heap *heap, const uint64_t *arena, size_t arena_words, const uint64_t *ledger, size_t ledger_words);

/* ---- The numbers of blocks by themselves, for tools: target/native/libblocks_c.a, by tools/native blocks_c. They hold no state, are
 * no part of the frame calls, and may change; firmware needs none of them. */

/* The class whose blocks hold count frames: 0 to 32, or 64 for a count above 2^32. */
uint64_t lavikety_blocks_round(uint64_t count);
/* The same for a request with an alignment: the class of the larger of the two, each rounded up. */
uint64_t lavikety_blocks_round_aligned(uint64_t size, uint64_t align);
/* The size of a block of the class: 2^class, and 0 for a class above 32. */
uint64_t lavikety_blocks_size_of(uint64_t class_number);
/* The class of a size that is a power of two. */
uint64_t lavikety_blocks_class_of(uint64_t size);
/* The largest power of two that is at most num; 0 at 0. */
uint64_t lavikety_blocks_prev_power_of_two(uint64_t num);
/* 1 if num is a power of two, else 0. */
uint64_t lavikety_blocks_is_power_of_two(uint64_t num);
/* The largest power of two that divides start; 0 at 0. */
uint64_t lavikety_blocks_lowest_bit(uint64_t start);
/* The start of the block beside the one at start: start with its bit class_number flipped. */
uint64_t lavikety_blocks_buddy(uint64_t start, uint64_t class_number);
/* The size of the next block cut from `left` frames at start, of a class up to `top`. */
uint64_t lavikety_blocks_piece(uint64_t start, uint64_t left, uint64_t top);

#ifdef __cplusplus
}
#endif

#endif /* LAVIKETY_H */
