/* The plain reference of examples/firmware/main.c: the same sums and the same report, from an array of every interval's sum; no memory is
 * granted or given back. What it prints is examples/firmware/expected.out. */
#include <inttypes.h>
#include <stdio.h>

#include "meter.h"

int main(void) {
    uint64_t interval_sum[CHANNELS][INTERVALS];
    uint64_t wrong = 0;
    uint32_t channel, interval, i, back;

    for (interval = 0; interval < INTERVALS; interval++) {
        for (channel = 0; channel < CHANNELS; channel++) {
            uint64_t demand = 0;
            interval_sum[channel][interval] = 0;
            for (i = 0; i < samples_of(channel); i++) {
                interval_sum[channel][interval] += sample(channel, interval, i);
            }
            for (back = 0; back < WINDOW && back <= interval; back++) {
                demand += interval_sum[channel][interval - back];
            }
            printf("interval %" PRIu32 " channel %" PRIu32 " demand %" PRIu64 "\n", interval, channel, demand);
            /* each interval that leaves the window is given back by a wrong count and a wrong size first */
            wrong += interval >= WINDOW ? 2 : 0;
        }
    }
    printf("wrong releases refused: %" PRIu64 ", times that a word changed: 0\n", wrong);
    printf("left: 0 frames, 0 bytes\n");
    return 0;
}
