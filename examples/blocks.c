/* Calls the proved block arithmetic from C. From the repository's top:
 *
 *     tools/native blocks_c
 *     cc -std=c99 -Wall -Wextra -Iinclude -o target/blocks_example examples/blocks.c target/native/libblocks_c.a
 *     target/blocks_example
 */
#include <inttypes.h>
#include <stdio.h>

#include "lavikety.h"

int main(void)
{
    uint64_t count = 5;
    uint64_t k = lavikety_blocks_round(count);
    printf("%" PRIu64 " frames: class %" PRIu64 ", %" PRIu64 " frames; the buddy of block 8 is %" PRIu64 "\n",
           count, k, lavikety_blocks_size_of(k), lavikety_blocks_buddy(8, k));
    return 0;
}
