/* 02's U1: "for each subspace with entries, in ascending order, 16 bytes subspace, 4 bytes count, 8 bytes newest timestamp, big-endian", worked out by
   looking at all entries for each subspace. */
#include "items.h"

static bool counted_before(const item *const *entries, size_t k) {
    for (size_t j = 0; j < k; j++)
        if (same_subspace(entries[j], entries[k])) return true;
    return false;
}

void lay_tally(const item *const *entries, size_t n, size_t limit, uint8_t *tally) {
    memset(tally, 0, ITEM_BYTES * limit); /* "0 behind its last item up to there" */
    for (size_t k = 0; k < n; k++) {
        if (counted_before(entries, k)) continue;
        uint32_t count = 0;
        uint64_t newest = 0;
        size_t place = 0;
        for (size_t j = 0; j < n; j++) {
            if (same_subspace(entries[j], entries[k])) {
                count++;
                if (entries[j]->time > newest) newest = entries[j]->time;
            } else if (memcmp(entries[j]->subspace, entries[k]->subspace, 16) < 0 && !counted_before(entries, j)) {
                place++;
            }
        }
        uint8_t *at = tally + ITEM_BYTES * place;
        memcpy(at, entries[k]->subspace, 16);
        for (int i = 0; i < 4; i++) at[COUNT_AT + i] = (uint8_t)(count >> (24 - 8 * i));
        put64(at + NEWEST_AT, newest);
    }
}
