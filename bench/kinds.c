/* Times the validation of a store of 1,024 entries for eight kinds of paths, from short ones to such as are made to be dear. Each path ends with
   the entry's number, in four bytes, in two where the path is short. Microseconds, the best of 200 rounds; with an argument, so many rounds. With two, the kind's number from 0 on and any word:
   one call, for a count of the instructions in `measured`. For older archives: editions.h. */
#define _POSIX_C_SOURCE 199309L
#include "editions.h"
#include <stdio.h>
#include <stdlib.h>
#include <string.h>
#include <time.h>

enum { LIMIT = VB_LIMIT_MOST, KINDS = 8 };
static vb_state state;
static uint8_t tree[2][RECORD * LIMIT], tally[ITEM * LIMIT];
static uint32_t dir[2][2 * LIMIT];
static vb_pair prune[LIMIT];
static uint8_t token[64];
#define READ tree[0], sizeof tree[0], dir[0], 2 * LIMIT, tree[1], sizeof tree[1], dir[1], 2 * LIMIT
#define STORE READ TALLIED(tally, sizeof tally)

/* Components, bytes of each, and which bytes are 00: none, every other one, or all. */
static const struct { const char *name; size_t components, bytes, zeros; } kinds[KINDS] = {
    {"8 bytes, two times", 0, 0, 0},
    {"8 bytes, another time each", 0, 0, 0},
    {"128 bytes in eight components", 8, 16, 0},
    {"128 bytes in eight components, all but four 00", 8, 16, 1},
    {"128 bytes in eight components, every other 00", 8, 16, 2},
    {"56 bytes in eight components, all but four 00", 8, 7, 1},
    {"128 bytes in two components, all but four 00", 2, 64, 1},
    {"120 bytes in two components, all but four 00", 2, 60, 1},
};

static double now(void) {
    struct timespec t;
    clock_gettime(CLOCK_MONOTONIC, &t);
    return t.tv_sec * 1e6 + t.tv_nsec / 1e3;
}

static void must(const char *what, size_t got, size_t want) {
    if (got == want) return;
    printf("%s answers %zu, not %zu\n", what, got, want);
    exit(1);
}

static vb_path path(uint32_t n, int kind) {
    const uint8_t number[4] = {n >> 24, n >> 16, n >> 8, n};
    size_t components = kinds[kind].components, bytes = kinds[kind].bytes, zeros = kinds[kind].zeros;
    vb_path p;
    memset(&p, 0, sizeof p);
    if (!components) {
        memcpy(p.bytes, "season", 6), memcpy(p.bytes + 6, number + 2, 2);
        p.ends[0] = 6, p.ends[1] = 8, p.count = 2;
        return p;
    }
    for (size_t c = 0; c < components; c++) {
        for (size_t j = 0; j < bytes; j++) p.bytes[bytes * c + j] = zeros && (j + 1) % zeros == 0 ? 0 : 'a';
        p.ends[c] = bytes * (c + 1);
    }
    memcpy(p.bytes + bytes * components - 4, number, 4);
    p.count = components;
    return p;
}

static void fill(int kind) {
    static const uint8_t namespace_id[16];
    state = vb_open(namespace_id, LIMIT, STORE).state;
    for (uint32_t n = 0; n < LIMIT; n++) {
        vb_entry e;
        memset(&e, 0, sizeof e);
        e.path = path(n, kind), e.payload_length = 3;
        e.timestamp = kind == 1 ? (n + UINT64_C(1)) * UINT64_C(0x9e3779b97f4a7c15) % UINT64_C(100000000000) : 100 + n % 2;
        vb_ingested r = vb_ingest_entry(state, STORE, prune, LIMIT, e, token, 0 FROM);
        must("an ingestion", r.refusal | r.obsolete, 0);
        state = r.state;
    }
    must("the number of entries", state.count, LIMIT);
}

/* Validation is a count that is refused with 4 once 1, 2 and 3 have been ruled out. */
__attribute__((noinline)) static size_t measured(void) {
    vb_area none;
    memset(&none, 0, sizeof none);
    none.path.count = VB_MCC + 1;
    return vb_count_area(state, READ, none).refusal;
}

static double best(int kind, int rounds) {
    double least = 1e18;
    fill(kind);
    for (int round = 0; round < rounds; round++) {
        double t0 = now();
        size_t r = measured();
        double t = now() - t0;
        must("validation", r, 4);
        if (t < least) least = t;
    }
    return least;
}

int main(int argc, char **argv) {
    if (argc == 3) return best(atoi(argv[1]) % KINDS, 1) < 0;
    int rounds = argc > 1 ? atoi(argv[1]) : 200;
    puts("| paths | bytes a record | validation |\n|---|---|---|");
    for (int kind = 0; kind < KINDS; kind++) {
        double least = best(kind, rounds);
        printf("| %s | %u | %.1f |\n", kinds[kind].name, dir[0][1], least);
    }
    return 0;
}
