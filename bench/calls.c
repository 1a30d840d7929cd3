/* One call of the door, for a count of its instructions: `calls CALL ENTRIES MORE SUBSPACES` builds a store of so many entries, their paths with so
   many components of 16 bytes more, in so many subspaces by turns, and makes the call once in `measured`. `calls` alone names the calls. With one subspace the entries are
   those of times.c. The call `again` files a stored entry once more: from edition 3 on it must be held. For older archives: editions.h;
   with VB_NO_ARRIVALS the two about available lengths are left out. Listings go by place there, and by key here: a step behind the first half, and a whole listing, one call a match. */
#include "editions.h"
#include <stdio.h>
#include <stdlib.h>
#include <string.h>

enum { MOST = VB_LIMIT_MOST };
static vb_state state;
static uint8_t tree[2][RECORD * MOST], tally[ITEM * MOST];
static uint32_t dir[2][2 * MOST];
static vb_pair prune[MOST];
static uint32_t numbers[2 * MOST];
static uint8_t token[64];
static size_t entries, subspaces;
static int more;
#define READ tree[0], RECORD * state.limit, dir[0], 2 * state.limit, tree[1], RECORD * state.limit, dir[1], 2 * state.limit
#define STORE READ TALLIED(tally, ITEM * state.limit)

/* Entry n: a component of 4 bytes that ascend with n, `more` components of 16, one of two times. */
static vb_entry entry(uint64_t n) {
    vb_entry e;
    memset(&e, 0, sizeof e);
    for (int i = 0; i < 4; i++) e.path.bytes[i] = 1 + (n >> (7 * (3 - i)) & 127);
    memset(e.path.bytes + 4, 0xaa, 16 * more);
    for (int i = 0; i <= more; i++) e.path.ends[i] = 4 + 16 * i;
    e.path.count = more + 1, e.timestamp = 100 + n % 2, e.payload_length = 3, e.subspace_id.low = n % subspaces;
    memset(e.payload_digest, 10, 32);
    return e;
}

static vb_area area(void) {
    vb_area a;
    memset(&a, 0, sizeof a);
    a.any_subspace = 1, a.times.open = 1;
    return a;
}

static const char *const calls[] = {"validation", "ingest_entry_numbers", "ingest_entry", "again", "newer", "forget_entry", "forget_area", "count_area of all", "count_area of one path", "entry", "a step of a listing: found", "area_of_interest_to_range",
                                    "record_available_length", "forget_payload", "a step of a listing: the record", "a whole listing"};
enum { CALLS = sizeof calls / sizeof *calls, RECORD_LENGTH = 12, FORGET_PAYLOAD, STEP_RECORD, WHOLE_LISTING };

/* Whether the archive has the call. */
static int has(int call) {
#ifdef VB_NO_ARRIVALS
    return call != RECORD_LENGTH && call != FORGET_PAYLOAD;
#else
    return call < CALLS;
#endif
}

/* Each call answers what `wanted` says, or the program ends with 1. */
__attribute__((noinline)) static size_t measured(int call) {
    vb_entry first = entry(0), mid = entry(entries / 2);
    vb_area all = area(), one = all, none = all, half = all;
    none.path.count = 9, one.path = mid.path, half.times.start = 101;
    vb_ignore nothing = {0, 0};
    vb_interest quarter = {all, entries / 4, UINT64_MAX};
    switch (call) {
    case 0: return vb_count_area(state, READ, none).refusal;
    case 1: return vb_ingest_entry_numbers(state, STORE, numbers, 2 * entries, first, token, 0 FROM).state.count;
    case 2: return vb_ingest_entry(state, STORE, prune, entries, first, token, 0 FROM).state.count;
    case 3: return vb_ingest_entry(state, STORE, prune, entries, mid, token, 0 FROM).state.count;
    case 4: mid.timestamp = 200; return vb_ingest_entry(state, STORE, prune, entries, mid, token, 0 FROM).pruned;
    case 5: return vb_forget_entry(state, STORE, first.subspace_id, first.path, 0, first.payload_digest).state.count;
    case 6: return vb_forget_area(state, STORE, half, 0, half).forgotten;
    case 7: return vb_count_area(state, READ, all).count;
    case 8: return vb_count_area(state, READ, one).count;
    case 9: return vb_find_entry(state, READ, mid.subspace_id, mid.path, nothing).found;
    case 10: return step_finds(state, READ, all, nothing, entries / 2);
    case STEP_RECORD: return step_gives(state, READ, all, nothing, entries / 2);
    case WHOLE_LISTING: return whole_listing(state, READ, all, nothing);
#ifndef VB_NO_ARRIVALS
    case RECORD_LENGTH: return vb_record_available_length(state, READ, mid.subspace_id, mid.path, 1, mid.payload_digest, 2).refusal;
    case FORGET_PAYLOAD: return vb_forget_payload(state, READ, mid.subspace_id, mid.path, 1, mid.payload_digest).refusal;
#endif
    default: return vb_area_of_interest_to_range(state, READ, quarter).range.times.start;
    }
}

/* How much of the payload of the entry in the middle is there. */
static uint64_t available(void) {
    vb_entry mid = entry(entries / 2);
    vb_ignore nothing = {0, 0};
    return vb_find_entry(state, READ, mid.subspace_id, mid.path, nothing).lengthy.available;
}

int main(int argc, char **argv) {
    static const uint8_t namespace_id[16];
    if (argc != 5) {
        for (int k = 0; k < CALLS; k++)
            if (has(k)) printf("%d %s\n", k, calls[k]);
        return argc != 1;
    }
    (void)tally; /* not lent to an archive of edition 1 */
    int call = atoi(argv[1]);
    entries = strtoul(argv[2], 0, 10), more = atoi(argv[3]), subspaces = strtoul(argv[4], 0, 10);
    if (call < 0 || call >= CALLS || !has(call) || entries < 4 || entries > MOST || more < 0 || more > 7 || !subspaces) return 2;
    state.limit = entries;
    state = vb_open(namespace_id, entries, STORE).state;
    for (size_t k = 0; k < entries; k++) {
        vb_ingested r = vb_ingest_entry(state, STORE, prune, entries, entry(k), token, 0 FROM);
        if (r.refusal | r.obsolete) return 1;
        state = r.state;
    }
    vb_entry first = entry(0);
    if (call == 1 || call == 2) state = vb_forget_entry(state, STORE, first.subspace_id, first.path, 0, first.payload_digest).state;
#ifndef VB_NO_ARRIVALS
    vb_entry mid = entry(entries / 2);
    if (call == FORGET_PAYLOAD && vb_record_available_length(state, READ, mid.subspace_id, mid.path, 0, token, 3).refusal) return 1;
    if (available() != (call == FORGET_PAYLOAD ? 3 : 0)) return 1;
#endif
    const size_t wanted[] = {4, entries, entries, entries, 1, entries - 1, entries / 2, entries, 1, 1, 1, 101, 0, 0, dir[0][entries / 2 * 2 + 1], entries};
    if (measured(call) != wanted[call]) return 1;
    if ((call == RECORD_LENGTH || call == FORGET_PAYLOAD) && available() != (call == FORGET_PAYLOAD ? 0 : 2)) return 1;
    return call == 3 && vb_edition() > 2 && !vb_ingest_entry(state, STORE, prune, entries, entry(entries / 2), token, 0 FROM).held;
}
