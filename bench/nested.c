/* Times stores of 1,024 entries in which 0, 1, 4 or 8 entries cover all the others: validation, and the ingestion of an entry at the empty path into
   such a store with one entry less. All other entries have seven components alike, of 1 or of 16 bytes, and one of their own; the covering ones are
   the first beginnings of these paths, each older than all that it covers. Microseconds, the best of 200 rounds; with an argument, so many rounds.
   With three, the bytes of a component, how many cover, and v or i for the call: one call, for a count of the instructions in `measured`. For older archives:
   editions.h. */
#define _POSIX_C_SOURCE 199309L
#include "editions.h"
#include <stdio.h>
#include <stdlib.h>
#include <string.h>
#include <time.h>

enum { LIMIT = VB_LIMIT_MOST, LAST = 7 };
typedef struct {
    vb_state state;
    uint8_t tree[2][RECORD * LIMIT], tally[ITEM * LIMIT];
    uint32_t dir[2][2 * LIMIT];
} Store;
static Store store, filled;
static vb_pair prune[LIMIT];
static uint8_t token[64];
#define READ store.tree[0], sizeof store.tree[0], store.dir[0], 2 * LIMIT, store.tree[1], sizeof store.tree[1], store.dir[1], 2 * LIMIT
#define STORE READ TALLIED(store.tally, sizeof store.tally)

static double now(void) {
    struct timespec t;
    clock_gettime(CLOCK_MONOTONIC, &t);
    return t.tv_sec * 1e6 + t.tv_nsec / 1e3;
}

static void must(const char *what, size_t got, size_t want) {
    if (got == want) return;
    printf("%s answers %zu, not %zu\n", what, got, want);
    exit(1);
}

/* The entry at so many components alike, `own` bytes behind them if there are any. */
static vb_entry entry(size_t bytes, size_t components, const uint8_t *own, uint64_t time) {
    vb_entry e;
    memset(&e, 0, sizeof e);
    memset(e.path.bytes, 'a', bytes * components);
    for (size_t i = 0; i < components; i++) e.path.ends[i] = bytes * (i + 1);
    e.path.count = components, e.timestamp = time, e.payload_length = 3;
    if (own) {
        size_t more = bytes < 2 ? 2 : bytes;
        memset(e.path.bytes + bytes * components, 'b', more);
        memcpy(e.path.bytes + bytes * components, own, 2);
        e.path.ends[e.path.count++] = bytes * components + more;
    }
    return e;
}

static void ingest(vb_entry e) {
    vb_ingested r = vb_ingest_entry(store.state, STORE, prune, LIMIT, e, token, 0 FROM);
    must("an ingestion", r.refusal | r.obsolete, 0);
    store.state = r.state;
}

static void fill(size_t bytes, size_t covering, size_t n) {
    static const uint8_t namespace_id[16];
    store.state = vb_open(namespace_id, LIMIT, STORE).state;
    for (size_t k = covering; k < n; k++) {
        uint8_t own[2] = {1 + k / 255, 1 + k % 255};
        ingest(entry(bytes, LAST, own, 100 + k % 2));
    }
    for (size_t d = 0; d < covering; d++) ingest(entry(bytes, d, 0, 10 + d));
    must("the number of entries", store.state.count, n);
    filled = store;
}

/* Validation is a count that is refused with 4 once 1, 2 and 3 have been ruled out. */
__attribute__((noinline)) static size_t measured(char call) {
    if (call == 'i') return vb_ingest_entry(store.state, STORE, prune, LIMIT, entry(0, 0, 0, 50), token, 0 FROM).state.count;
    vb_area none;
    memset(&none, 0, sizeof none);
    none.path.count = LAST + 2;
    return vb_count_area(store.state, READ, none).refusal;
}

static double best(size_t bytes, size_t covering, char call, int rounds) {
    double least = 1e18;
    fill(bytes, covering, call == 'i' ? LIMIT - 1 : LIMIT);
    for (int round = 0; round < rounds; round++) {
        store = filled;
        double t0 = now();
        size_t r = measured(call);
        double t = now() - t0;
        must("the call", r, call == 'i' ? LIMIT - covering : 4);
        if (t < least) least = t;
    }
    return least;
}

int main(int argc, char **argv) {
    static const size_t bytes[] = {1, 16}, covering[] = {0, 1, 4, 8};
    if (argc == 4) return best(atoi(argv[1]), atoi(argv[2]), argv[3][0], 1) < 0;
    int rounds = argc > 1 ? atoi(argv[1]) : 200;
    puts("| bytes a component | covering entries | validation | ingestion at the empty path |\n|---|---|---|---|");
    for (int b = 0; b < 2; b++)
        for (int c = 0; c < 4; c++)
            printf("| %zu | %zu | %.1f | %.1f |\n", bytes[b], covering[c], best(bytes[b], covering[c], 'v', rounds), best(bytes[b], covering[c], 'i', rounds));
    return 0;
}
