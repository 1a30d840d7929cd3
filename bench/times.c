/* Times the store's calls through the door, beside memcmp and memmove of the same bytes. The validation of a store is vb_count_area with an illegal path:
   it is refused with 4 once 1, 2 and 3 have been ruled out. Microseconds, the best of 200 rounds: the noise of a shared machine only adds. With an
   argument, so many rounds. For older archives: editions.h; with VB_NO_ARRIVALS the columns of these calls are 0. A listing goes by place there, and by key here: `step` is one behind the first half
   that says whether it finds something, `step's record` one that answers the record, and `listing` a whole one, of which there are fewer rounds. */
#define _POSIX_C_SOURCE 199309L
#include "editions.h"
#include <stdbool.h>
#include <stdio.h>
#include <stdlib.h>
#include <string.h>
#include <time.h>

enum { MOST = VB_LIMIT_MOST };
typedef struct {
    vb_state state;
    uint8_t tree[2][RECORD * MOST], tally[ITEM * MOST];
    uint32_t dir[2][2 * MOST];
} Store;
static Store store, full, less;
static vb_pair prune[MOST];
static uint8_t token[64];
static volatile size_t sink;
#define READ store.tree[0], RECORD * store.state.limit, store.dir[0], 2 * store.state.limit, store.tree[1], RECORD * store.state.limit, store.dir[1], 2 * store.state.limit
#define STORE READ TALLIED(store.tally, ITEM * store.state.limit)

static double now(void) {
    struct timespec t;
    clock_gettime(CLOCK_MONOTONIC, &t);
    return t.tv_sec * 1e6 + t.tv_nsec / 1e3;
}

static size_t subspaces;

/* Entry n: a component of 4 bytes that ascend with n, `more` components of 16, one of two times, in one of so many subspaces. */
static vb_entry entry(uint64_t n, int more) {
    vb_entry e;
    memset(&e, 0, sizeof e);
    for (int i = 0; i < 4; i++) e.path.bytes[i] = 1 + (n >> (7 * (3 - i)) & 127);
    memset(e.path.bytes + 4, 0xaa, 16 * more);
    for (int i = 0; i <= more; i++) e.path.ends[i] = 4 + 16 * i;
    e.path.count = more + 1, e.timestamp = 100 + n % 2, e.payload_length = 3, e.subspace_id.low = n % subspaces;
    memset(e.payload_digest, 10, 32);
    return e;
}

static void restore(const Store *from) {
    store.state = from->state;
    for (int t = 0; t < 2; t++)
        memcpy(store.tree[t], from->tree[t], RECORD * from->state.limit), memcpy(store.dir[t], from->dir[t], 8 * from->state.limit);
    memcpy(store.tally, from->tally, ITEM * from->state.limit);
}

static void must(const char *what, size_t got, size_t want) {
    if (got == want) return;
    printf("%s answers %zu, not %zu\n", what, got, want);
    exit(1);
}

/* Whether the archive says held: one of edition 1 or 2 takes a resend anew. */
static bool says_held;

static void ingest(uint64_t n, int more, bool held) {
    vb_ingested r = vb_ingest_entry(store.state, STORE, prune, store.state.limit, entry(n, more), token, 0 FROM);
    must("an ingestion", r.refusal | r.obsolete, 0);
    if (says_held) must("an ingestion's verdict", r.held, held);
    store.state = r.state;
}

static int rounds = 200;
#define BEST(name, before, what)                  \
    double name = 1e18;                           \
    for (int round = 0; round < rounds; round++) { \
        before;                                   \
        double t0 = now();                        \
        what;                                     \
        double t = now() - t0;                    \
        if (t < name) name = t;                   \
    }

static void times(size_t n, int more) {
    static const uint8_t namespace_id[16];
    store.state.limit = n;
    store.state = vb_open(namespace_id, n, STORE).state;
    for (size_t k = 0; k < n; k++) ingest(k, more, false);
    full = store;
    vb_entry first = entry(0, more), mid = entry(n / 2, more);
    vb_area all, none, one;
    memset(&all, 0, sizeof all);
    all.any_subspace = 1, all.times.open = 1;
    none = one = all, none.path.count = 9, one.path = mid.path;
    vb_interest quarter = {all, n / 4, UINT64_MAX};
    vb_ignore nothing = {0, 0};
    store.state = vb_forget_entry(store.state, STORE, first.subspace_id, first.path, 0, first.payload_digest).state;
    less = store;
    size_t used = full.dir[0][2 * n - 2];

    restore(&full);
    BEST(check, , sink = vb_count_area(store.state, READ, none).refusal)
    must("validation", sink, 4);
    BEST(cmp, , sink = memcmp(store.tree, full.tree, RECORD * n) + memcmp(store.tree[1], full.tree[1], RECORD * n) + memcmp(store.dir, full.dir, 8 * n) + memcmp(store.dir[1], full.dir[1], 8 * n))
    BEST(in, restore(&less), ingest(0, more, false))
    must("an ingestion's count", store.state.count, n);
    BEST(again, restore(&full), ingest(n / 2, more, true))
    must("a resend's count", store.state.count, n);
    BEST(forget, restore(&full), sink = vb_forget_entry(store.state, STORE, first.subspace_id, first.path, 0, first.payload_digest).state.count)
    must("a forgetting", sink, n - 1);
    vb_area half = all;
    half.times.start = 101;
    BEST(area, restore(&full), sink = vb_forget_area(store.state, STORE, half, 0, half).forgotten)
    must("a forgetting of an area", sink, n / 2);
    restore(&full);
    BEST(count, , sink = vb_count_area(store.state, READ, all).count)
    must("a count", sink, n);
    BEST(small, , sink = vb_count_area(store.state, READ, one).count)
    must("a small count", sink, 1);
    BEST(step, , sink = step_finds(store.state, READ, all, nothing, n / 2))
    must("a step", sink, 1);
    BEST(gives, , sink = step_gives(store.state, READ, all, nothing, n / 2))
    must("a step's record", sink, full.dir[0][n / 2 * 2 + 1]);
    const int usual = rounds;
    rounds = 1 + usual / 40;
    BEST(listing, , sink = whole_listing(store.state, READ, all, nothing))
    must("a listing", sink, n);
    rounds = usual;
    BEST(interest, , sink = vb_area_of_interest_to_range(store.state, READ, quarter).range.times.start)
    must("an interest", sink, 101);
    double record = 0, unrecord = 0;
#ifndef VB_NO_ARRIVALS
    BEST(recording, , sink = vb_record_available_length(store.state, READ, mid.subspace_id, mid.path, 1, mid.payload_digest, 2).refusal)
    must("a recording", sink, 0);
    must("what was recorded", vb_find_entry(store.state, READ, mid.subspace_id, mid.path, nothing).lengthy.available, 2);
    BEST(unrecording, sink = vb_record_available_length(store.state, READ, mid.subspace_id, mid.path, 1, mid.payload_digest, 3).refusal,
         sink |= vb_forget_payload(store.state, READ, mid.subspace_id, mid.path, 1, mid.payload_digest).refusal)
    must("a payload's forgetting", sink, 0);
    must("what is left", vb_find_entry(store.state, READ, mid.subspace_id, mid.path, nothing).lengthy.available, 0);
    record = recording, unrecord = unrecording;
#endif
    BEST(move, , memmove(store.tree[0], store.tree[0] + full.dir[0][1], used))
    printf("| %zu | %zu | %u | %.1f | %.1f | %.1f | %.1f | %.1f | %.1f | %.1f | %.1f | %.1f | %.1f | %.1f | %.1f | %.1f | %.1f | %.1f |\n", n, subspaces, full.dir[0][1], check, cmp, in, again, forget, area, count, small,
           step, gives, listing, interest, record, unrecord, move);
}

int main(int argc, char **argv) {
    static const size_t sizes[] = {64, 256, 1024};
    if (argc > 1) rounds = atoi(argv[1]);
    says_held = vb_edition() > 2;
    puts("| entries | subspaces | bytes a record | validation | memcmp | ingest | again | forget entry | forget half | count all | count one | step | step's record | listing | interest | record | forget payload | memmove of a tree |");
    puts("|---|---|---|---|---|---|---|---|---|---|---|---|---|---|---|---|---|---|");
    static const struct { int more; size_t subspaces; } kinds[] = {{0, 1}, {7, 1}, {0, 16}};
    for (int kind = 0; kind < 3; kind++) {
        subspaces = kinds[kind].subspaces;
        for (int i = 0; i < 3; i++) times(sizes[i], kinds[kind].more);
    }
    return 0;
}
