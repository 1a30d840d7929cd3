/* Opens a store, files five readings, one of them from another tablet, and the last of them again, records how much of two photographs has arrived, lists what
   the store then holds and what of it is all there, files two more while a listing is open, looks up where two came from, asks the tally for a recorder's, and
   drops an area.
   Build: cc example.c libvirebony.a */
#include "virebony.h"
#include <stdio.h>
#include <string.h>

enum { LIMIT = 16 };
static uint8_t spt[VB_RECORD_MOST * LIMIT], tsp[VB_RECORD_MOST * LIMIT], tally[VB_ITEM * LIMIT];
static uint32_t spt_dir[2 * LIMIT], tsp_dir[2 * LIMIT];
static vb_pair pruned[LIMIT];
#define READ spt, sizeof spt, spt_dir, 2 * LIMIT, tsp, sizeof tsp, tsp_dir, 2 * LIMIT
#define STORE READ, tally, sizeof tally

/* A path of components that slashes part, at most 8 of them and 128 bytes. */
static vb_path path_of(const char *text) {
    vb_path p;
    memset(&p, 0, sizeof p);
    for (size_t n = 0; *text; text++) {
        if (*text != '/') p.bytes[n++] = (uint8_t)*text;
        if (*text == '/' || !text[1]) p.ends[p.count++] = n;
    }
    return p;
}

static void print_path(vb_path p) {
    for (size_t i = 0, from = 0; i < p.count; from = p.ends[i++]) printf("/%.*s", (int)(p.ends[i] - from), (const char *)p.bytes + from);
}

/* A number of so many bytes, big-endian. */
static uint64_t number(const uint8_t *p, int bytes) {
    uint64_t n = 0;
    for (int i = 0; i < bytes; i++) n = n << 8 | p[i];
    return n;
}

/* The item of a subspace in the tally of a store of `count` entries, by halving; NULL if the subspace has no entry. There are at most as many items
   as entries, and a place behind the last item has count 0. */
static const uint8_t *item_of(vb_subspace s, size_t count) {
    size_t from = 0, to = count;
    while (from < to) {
        size_t mid = from + (to - from) / 2;
        const uint8_t *item = tally + VB_ITEM * mid;
        uint64_t high = number(item, 8), low = number(item + 8, 8);
        int behind = number(item + 16, 4) == 0;
        if (!behind && high == s.high && low == s.low) return item;
        if (behind || high > s.high || (high == s.high && low > s.low)) to = mid;
        else from = mid + 1;
    }
    return NULL;
}

static void print_recorder(uint64_t low, size_t count) {
    vb_subspace s = {0, low};
    const uint8_t *item = item_of(s, count);
    if (!item) printf("recorder %llu has none\n", (unsigned long long)low);
    else printf("recorder %llu has %u, the newest at %llu\n", (unsigned long long)low, (unsigned)number(item + 16, 4), (unsigned long long)number(item + 20, 8));
}

static void print_origin(vb_origin from) {
    if (from.remote) printf("from session %llu\n", (unsigned long long)from.session);
    else puts("local");
}

/* A listing remembers the last key that it gave; at its start none. */
typedef struct { uint8_t key[VB_KEY_MOST]; size_t len; } remembered;

/* A step of the listing of an area, but for the entries that `ignore` passes over: where the next record lies, and what the end of its value says: how much of the
   payload is there, and where the entry came from. Its key is copied, as the next filing writes the tree that it lies in. Answers 0 if there is none. */
static int step(vb_state state, vb_area area, vb_ignore ignore, remembered *last) {
    vb_part r = vb_query_area(state, READ, area, ignore, last->key, last->len);
    if (!r.length) {
        vb_listed l = vb_query_area_found(state, READ, area, ignore, last->key, last->len);
        puts(l.refusal ? vb_refusal_text(l.refusal) : "that is all");
        return 0;
    }
    const uint8_t *record = spt + r.offset, *value = record + r.length - VB_VALUE;
    last->len = vb_record_key(record, r.length).length;
    memcpy(last->key, record, last->len);
    vb_decoded d = vb_decode_spt_entry_key(last->key, last->len);
    const vb_origin from = {value[VB_VALUE_ORIGIN], number(value + VB_VALUE_SESSION, 8)};
    print_path(d.path);
    printf(" at %llu, %zu bytes from %zu on, %llu of the payload's, ", (unsigned long long)d.timestamp, r.length, r.offset,
           (unsigned long long)number(value + VB_VALUE_AVAILABLE, 8));
    print_origin(from);
    return 1;
}

static void list(vb_state state, vb_area area, vb_ignore ignore) {
    remembered last;
    last.len = 0;
    while (step(state, area, ignore, &last)) continue;
}

static const uint8_t namespace_id[16] = {1}, token[64] = {7};

/* Files a reading of recorder 9. */
static vb_state file(vb_state state, const char *path, uint64_t timestamp, vb_origin from) {
    vb_entry e;
    memset(&e, 0, sizeof e);
    memcpy(e.namespace_id, namespace_id, 16);
    e.path = path_of(path);
    e.timestamp = timestamp;
    e.subspace_id.low = 9; /* the recorder */
    e.payload_length = 5000;
    vb_ingested r = vb_ingest_entry(state, STORE, pruned, LIMIT, e, token, 0, from);
    printf("%s: %s, %zu pruned\n", path, r.refusal ? vb_refusal_text(r.refusal) : r.obsolete ? "obsolete" : r.held ? "held already" : "taken", r.pruned);
    return r.state;
}

int main(void) {
    static const char *const paths[] = {"ward/3/ann", "ward/3/bob", "ward/4", "ward/3", "ward/3/ann", "ward/3/ann"};
    vb_opened opened = vb_open(namespace_id, LIMIT, STORE);
    if (vb_edition() != VB_EDITION || opened.refusal) return 1;
    vb_state state = opened.state;
    const vb_origin local = {0, 0}, remote = {1, 31};
    for (uint64_t i = 0; i < 6; i++) /* the fourth prunes the first two; the last is the fifth again, which another tablet had too, and stays local */
        state = file(state, paths[i], 100 + (i < 5 ? i : 4), i == 2 || i == 5 ? remote : local);
    static const struct { const char *path; uint64_t bytes; } arrived[] = {{"ward/3", 1200}, {"ward/4", 5000}, {"ward", 5000}, {"ward/4", 5001}};
    const vb_subspace recorder = {0, 9};
    const uint8_t digest[32] = {0};
    for (int i = 0; i < 4; i++) { /* no entry stands at the third, and the last is too much; the tally is not lent */
        vb_available_recorded r = vb_record_available_length(state, READ, recorder, path_of(arrived[i].path), 1, digest, arrived[i].bytes);
        printf("%s, %llu bytes: %s\n", arrived[i].path, (unsigned long long)arrived[i].bytes, r.refusal ? vb_refusal_text(r.refusal) : "recorded");
        state = r.state;
    }
    vb_area all;
    memset(&all, 0, sizeof all); /* the empty path prefixes every path */
    all.any_subspace = all.times.open = 1;
    const vb_ignore none = {0, 0}, incomplete = {1, 0};
    list(state, all, none);
    puts("all there:");
    list(state, all, incomplete);
    puts("while readings come in:");
    remembered last;
    last.len = 0;
    step(state, all, none, &last);
    state = file(state, "ward/2", 105, local);     /* behind: this listing does not show it */
    state = file(state, "ward/3/ann", 106, local); /* in the place of the one whose turn is next, and shown in its stead */
    while (step(state, all, none, &last)) continue;
    static const char *const asked[] = {"ward/4", "ward/3/ann"};
    for (int i = 0; i < 2; i++) {
        vb_entry_found found = vb_find_entry(state, READ, recorder, path_of(asked[i]), none);
        printf("%s: ", asked[i]);
        print_origin(found.lengthy.origin);
    }
    print_recorder(8, state.count);
    print_recorder(9, state.count);
    all.path = path_of("ward/3");
    vb_area_forgotten f = vb_forget_area(state, STORE, all, 0, all);
    printf("%zu forgotten\n", f.forgotten);
    print_recorder(9, f.state.count);
    return 0;
}
