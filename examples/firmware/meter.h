/* What the firmware and the plain reference agree on: the channels, the intervals and the samples. */
#ifndef METER_H
#define METER_H

#include <stdint.h>

enum {
    CHANNELS = 2,
    INTERVALS = 96, /* a day of quarters of an hour */
    WINDOW = 4      /* the demand of a channel is its sum over the last four of them */
};

/* How many samples an interval of a channel has: the channels differ, so that their blocks differ in size. */
static inline uint32_t samples_of(uint32_t channel) { return channel == 0 ? 20 : 7; }

/* Sample i of an interval, in watts: any numbers would do that are not alike. */
static inline uint32_t sample(uint32_t channel, uint32_t interval, uint32_t i) {
    uint32_t x = (channel + 1) * 2654435761u + interval * 40503u + i * 69069u;
    x ^= x >> 13;
    x *= 1274126177u;
    x ^= x >> 16;
    return x % 5000;
}

#endif
