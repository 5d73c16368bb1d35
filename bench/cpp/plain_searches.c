#include "plain_searches.h"

#define RANGE_SIZE 256

/* How many records have a source at or below an address. */
static size_t moves_up_to(const struct plain_move *moves, size_t count, uint32_t address) {
    size_t low = 0, high = count;
    while (low < high) {
        size_t middle = low + (high - low) / 2;
        if (moves[middle].source <= address)
            low = middle + 1;
        else
            high = middle;
    }
    return low;
}

uint64_t plain_omap(const struct plain_move *moves, size_t count, const uint32_t *addresses, size_t asked) {
    uint64_t sum = 0;
    for (size_t i = 0; i < asked; i++) {
        size_t place = moves_up_to(moves, count, addresses[i]);
        if (place == 0 || moves[place - 1].target == 0)
            sum += 1;
        else
            sum += moves[place - 1].target + (addresses[i] - moves[place - 1].source);
    }
    return sum;
}

uint64_t plain_ranges(const struct plain_move *moves, size_t count, const uint32_t *addresses, size_t asked) {
    uint64_t sum = 0;
    for (size_t i = 0; i < asked; i++) {
        uint32_t start = addresses[i];
        uint32_t end = start > UINT32_MAX - RANGE_SIZE ? UINT32_MAX : start + RANGE_SIZE;
        size_t place = moves_up_to(moves, count, start);
        if (place > 0)
            place -= 1;
        for (; place < count && moves[place].source < end; place++) {
            uint32_t from = moves[place].source > start ? moves[place].source : start;
            uint32_t to = place + 1 < count && moves[place + 1].source < end ? moves[place + 1].source : end;
            if (moves[place].target != 0 && from < to)
                sum += 1 + (to - from);
        }
    }
    return sum;
}

/* How many frames start at or below an address. */
static size_t frames_up_to(const struct plain_frame *frames, size_t count, uint32_t address) {
    size_t low = 0, high = count;
    while (low < high) {
        size_t middle = low + (high - low) / 2;
        if (frames[middle].start <= address)
            low = middle + 1;
        else
            high = middle;
    }
    return low;
}

uint64_t plain_frames(const struct plain_frame *frames, size_t count, const uint32_t *addresses, size_t asked) {
    uint64_t sum = 0;
    for (size_t i = 0; i < asked; i++) {
        size_t place = frames_up_to(frames, count, addresses[i]);
        if (place > 0) {
            uint32_t behind = addresses[i] - frames[place - 1].start;
            if (behind == 0 || behind < frames[place - 1].size)
                place -= 1;
        }
        sum += place < count ? frames[place].start : 1;
    }
    return sum;
}
