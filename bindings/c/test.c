/* Every call of the door with answers written by hand from documents 01 and 02, on buffers that are as long as asked and no longer; and listings at random keys,
   and with random filings between their steps, beside a walk over the records. It prints how many values were compared; the first wrong one is shown and ends it. */
#include "virebony.h"
#include <stdio.h>
#include <stdlib.h>
#include <string.h>

static unsigned compared;
#define IS(x, y) is((unsigned long long)(x), (unsigned long long)(y), #x, __LINE__)
static void is(unsigned long long x, unsigned long long y, const char *what, int line) {
    compared++;
    if (x == y) return;
    printf("line %d: %s is %llu, not %llu\n", line, what, x, y);
    exit(1);
}

static void *lent(size_t bytes) {
    void *p = malloc(bytes ? bytes : 1);
    if (!p) exit(2);
    memset(p, 0xee, bytes);
    return p;
}

/* A store's state and its buffers, exactly as long as its limit asks. */
typedef struct { vb_state state; uint8_t *spt, *tsp, *tally; uint32_t *spt_dir, *tsp_dir; vb_pair *prune; size_t limit; } kept;
#define READ(k) (k)->spt, VB_RECORD_MOST * (k)->limit, (k)->spt_dir, 2 * (k)->limit, (k)->tsp, VB_RECORD_MOST * (k)->limit, (k)->tsp_dir, 2 * (k)->limit
#define STORE(k) READ(k), (k)->tally, VB_ITEM * (k)->limit

static kept store_of(size_t limit) {
    static const uint8_t namespace_id[16] = {0};
    kept k;
    memset(&k, 0, sizeof k);
    k.limit = limit;
    k.spt = (uint8_t *)lent(VB_RECORD_MOST * limit);
    k.tsp = (uint8_t *)lent(VB_RECORD_MOST * limit);
    k.spt_dir = (uint32_t *)lent(8 * limit);
    k.tsp_dir = (uint32_t *)lent(8 * limit);
    k.tally = (uint8_t *)lent(VB_ITEM * limit);
    k.prune = (vb_pair *)lent(8 * limit);
    vb_opened o = vb_open(namespace_id, limit, STORE(&k));
    IS(o.refusal, VB_DONE);
    IS(o.state.limit, limit);
    IS(o.state.count, 0);
    for (size_t i = 0; i < VB_RECORD_MOST * limit; i++) if (k.spt[i] | k.tsp[i]) IS(i, SIZE_MAX);
    for (size_t i = 0; i < 2 * limit; i++) if (k.spt_dir[i] | k.tsp_dir[i]) IS(i, SIZE_MAX);
    for (size_t i = 0; i < VB_ITEM * limit; i++) if (k.tally[i]) IS(i, SIZE_MAX);
    k.state = o.state;
    return k;
}

static void drop(kept *k) {
    free(k->spt);
    free(k->tsp);
    free(k->spt_dir);
    free(k->tsp_dir);
    free(k->tally);
    free(k->prune);
}

/* A copy of a store's buffers, to be compared byte for byte. */
static kept copy_of(const kept *k) {
    kept c = *k;
    c.spt = (uint8_t *)memcpy(lent(VB_RECORD_MOST * k->limit), k->spt, VB_RECORD_MOST * k->limit);
    c.tsp = (uint8_t *)memcpy(lent(VB_RECORD_MOST * k->limit), k->tsp, VB_RECORD_MOST * k->limit);
    c.spt_dir = (uint32_t *)memcpy(lent(8 * k->limit), k->spt_dir, 8 * k->limit);
    c.tsp_dir = (uint32_t *)memcpy(lent(8 * k->limit), k->tsp_dir, 8 * k->limit);
    c.tally = (uint8_t *)memcpy(lent(VB_ITEM * k->limit), k->tally, VB_ITEM * k->limit);
    c.prune = (vb_pair *)memcpy(lent(8 * k->limit), k->prune, 8 * k->limit);
    return c;
}

static void same_buffers(const kept *a, const kept *b) {
    IS(memcmp(a->spt, b->spt, VB_RECORD_MOST * a->limit) | memcmp(a->tsp, b->tsp, VB_RECORD_MOST * a->limit), 0);
    IS(memcmp(a->spt_dir, b->spt_dir, 8 * a->limit) | memcmp(a->tsp_dir, b->tsp_dir, 8 * a->limit), 0);
    IS(memcmp(a->tally, b->tally, VB_ITEM * a->limit), 0);
}

static void unchanged(const kept *a, const kept *b) {
    same_buffers(a, b);
    IS(memcmp(a->prune, b->prune, 8 * a->limit), 0);
}

/* A path from text: components of lower-case hex joined by slashes, a point for an empty component, nothing for the empty path. Behind it lies garbage,
   which no call may look at. */
static vb_path path(const char *hex) {
    vb_path p;
    memset(&p, 0x77, sizeof p);
    p.count = 0;
    size_t n = 0;
    while (*hex) {
        for (; *hex && *hex != '/'; hex += *hex == '.' ? 1 : 2)
            if (*hex != '.') {
                const char pair[3] = {hex[0], hex[1], 0};
                p.bytes[n++] = (uint8_t)strtoul(pair, NULL, 16);
            }
        p.ends[p.count++] = n;
        if (*hex == '/') hex++;
    }
    return p;
}

/* Paths that are none: too many components, the greatest count, ends that descend, a component of 65 bytes, 129 bytes in all. */
static vb_path illegal(int which) {
    vb_path p = path("61/62");
    if (which == 0) p.count = 9;
    if (which == 1) p.count = SIZE_MAX;
    if (which == 2) p.ends[1] = 0;
    if (which == 3) p.ends[0] = 65, p.ends[1] = 65;
    if (which == 4) p.count = 3, p.ends[0] = 60, p.ends[1] = 120, p.ends[2] = 129;
    return p;
}

static void same_path(vb_path p, const char *hex) {
    vb_path q = path(hex);
    size_t total = q.count ? q.ends[q.count - 1] : 0;
    IS(p.count, q.count);
    for (size_t i = 0; i < VB_MCC; i++) IS(p.ends[i], i < q.count ? q.ends[i] : 0);
    for (size_t i = 0; i < VB_MPL; i++) IS(p.bytes[i], i < total ? q.bytes[i] : 0);
}

static vb_subspace subspace(uint64_t low) { vb_subspace s; s.high = 0; s.low = low; return s; }

static vb_entry entry(uint64_t in, const char *hex, uint64_t timestamp, uint64_t length, uint8_t digest) {
    vb_entry e;
    memset(&e, 0, sizeof e);
    e.subspace_id = subspace(in);
    e.path = path(hex);
    e.timestamp = timestamp;
    e.payload_length = length;
    memset(e.payload_digest, digest, 32);
    return e;
}

static vb_times times(uint64_t start, uint64_t end, uint8_t open) { vb_times t; t.start = start; t.end = end; t.open = open; return t; }

static vb_area area(uint8_t any, uint64_t in, vb_path p, vb_times t) {
    vb_area a;
    memset(&a, 0x55, sizeof a);
    a.any_subspace = any;
    a.subspace = subspace(in);
    a.path = p;
    a.times = t;
    return a;
}

/* Subspaces from 0 and times from 0, both open; paths from one up to another. */
static vb_range range(vb_path from, vb_path to, uint8_t open) {
    vb_range r;
    memset(&r, 0, sizeof r);
    r.subspaces.open = 200;
    r.paths.start = from;
    r.paths.end = to;
    r.paths.open = open;
    r.times = times(0, 0, 3);
    return r;
}

static vb_ignore ignore(uint8_t incomplete, uint8_t empty) { vb_ignore i; i.incomplete_payloads = incomplete; i.empty_payloads = empty; return i; }

static vb_origin origin(uint8_t remote, uint64_t session) { vb_origin o; memset(&o, 0x55, sizeof o); o.remote = remote; o.session = session; return o; }
static vb_origin local(void) { return origin(0, 0); }
static vb_origin remote(uint64_t session) { return origin(1, session); }

static uint8_t token[64];

static vb_ingested ingest_from(kept *k, vb_entry e, uint8_t prevent, vb_origin from) {
    vb_ingested r = vb_ingest_entry(k->state, STORE(k), k->prune, k->limit, e, token, prevent, from);
    k->state = r.state;
    return r;
}

static vb_ingested ingest(kept *k, vb_entry e, uint8_t prevent) { return ingest_from(k, e, prevent, local()); }

/* The bytes of records: at the empty path, at one of one component of a byte, at one of two. 26, 29 and 32 of key, and 121 of value. */
enum { NONE = 147, ONE = 150, TWO = 153 };
/* Where in a record of ONE bytes the last byte of the available length lies: its value from 29 on, therein 104 to 111, and behind it nine bytes of origin. */
enum { ARRIVED = 140 };

/* A lookup that shows nothing: every field is 0. */
static void shows_nothing(vb_entry_found f, uint8_t refusal) {
    const vb_entry *e = &f.lengthy.entry;
    IS(f.refusal, refusal);
    IS(f.found, 0);
    for (int i = 0; i < 16; i++) IS(e->namespace_id[i], 0);
    for (int i = 0; i < 32; i++) IS(e->payload_digest[i], 0);
    for (int i = 0; i < 64; i++) IS(f.lengthy.token[i], 0);
    same_path(e->path, "");
    IS(e->subspace_id.high | e->subspace_id.low | e->timestamp | e->payload_length, 0);
    IS(f.lengthy.available, 0);
    IS(f.lengthy.origin.remote, 0);
    IS(f.lengthy.origin.session, 0);
}

/* Every call that takes a store, over so many bytes of either tree: refused so, with the state as it was handed in. What else they are handed is legal with
   `legal`, and else has a path that is none, which 1, 2 and 3 go before. */
static void all_refuse(kept *k, vb_state s, size_t spt_len, size_t tsp_len, int legal, uint8_t want) {
#define LENT k->spt, spt_len, k->spt_dir, 2 * k->limit, k->tsp, tsp_len, k->tsp_dir, 2 * k->limit
#define LENT_TALLY LENT, k->tally, VB_ITEM * k->limit
    static vb_pairs by_value;
    static const uint8_t digest[32] = {0};
    const vb_path p = legal ? path("61") : illegal(0);
    const vb_area all = area(1, 0, legal ? path("") : p, times(0, 0, 1));
    const vb_range whole = range(legal ? path("") : p, path(""), 1);
    vb_interest most;
    most.area = all;
    most.max_count = most.max_size = UINT64_MAX;
    vb_entry e = entry(1, "61", 5, 3, 9);
    e.path = p;
    memset(&by_value, 0xdd, sizeof by_value);
    const vb_pairs_ingested v = vb_ingest_entry_by_value(s, LENT_TALLY, by_value, e, token, 0, remote(9));
    IS(memcmp(v.pairs, by_value.pairs, sizeof v.pairs), 0);
    const vb_ingested filed[3] = {vb_ingest_entry(s, LENT_TALLY, k->prune, k->limit, e, token, 0, remote(9)),
                                  vb_ingest_entry_numbers(s, LENT_TALLY, (uint32_t *)k->prune, 2 * k->limit, e, token, 0, remote(9)), v.ingested};
    for (int i = 0; i < 3; i++) {
        IS(filed[i].refusal, want);
        IS(filed[i].obsolete | filed[i].held | filed[i].pruned | filed[i].newer.timestamp | filed[i].token[0], 0);
        IS(filed[i].state.count, s.count);
        IS(filed[i].state.limit, s.limit);
    }
    const vb_entry_forgotten g = vb_forget_entry(s, LENT_TALLY, subspace(1), p, 0, digest);
    IS(g.refusal, want);
    IS(g.state.count, s.count);
    const vb_area_forgotten a = vb_forget_area(s, LENT_TALLY, all, 0, all);
    IS(a.refusal, want);
    IS(a.forgotten, 0);
    IS(a.state.count, s.count);
    const vb_available_recorded r[2] = {vb_record_available_length(s, LENT, subspace(1), p, 1, digest, UINT64_MAX), vb_forget_payload(s, LENT, subspace(1), p, 1, digest)};
    for (int i = 0; i < 2; i++) {
        IS(r[i].refusal, want);
        IS(r[i].state.count, s.count);
        IS(r[i].state.limit, s.limit);
    }
    shows_nothing(vb_find_entry(s, LENT, subspace(1), p, ignore(0, 0)), want);
    for (size_t last_len = 0; last_len < 2; last_len++) { /* from the start, and from a byte, which is no key */
        const uint8_t *last = last_len ? digest : NULL;
        const vb_listed l[2] = {vb_query_area_found(s, LENT, all, ignore(0, 0), last, last_len), vb_query_range_found(s, LENT, whole, ignore(0, 0), last, last_len)};
        const vb_part q[2] = {vb_query_area(s, LENT, all, ignore(0, 0), last, last_len), vb_query_range(s, LENT, whole, ignore(0, 0), last, last_len)};
        for (int i = 0; i < 2; i++) {
            IS(l[i].refusal, want);
            IS(l[i].found | q[i].offset | q[i].length, 0);
        }
    }
    const vb_counted c[2] = {vb_count_area(s, LENT, all), vb_summarise(s, LENT, whole)};
    for (int i = 0; i < 2; i++) {
        IS(c[i].refusal, want);
        IS(c[i].count, 0);
    }
    IS(vb_area_of_interest_to_range(s, LENT, most).refusal, want);
#undef LENT_TALLY
#undef LENT
}

static void paths(void) {
    IS(vb_path_is_legal(path("")), 1);
    IS(vb_path_is_legal(path("61/62/63/64/65/66/67/68")), 1);
    for (int i = 0; i < 5; i++) {
        vb_path bad = illegal(i);
        IS(vb_path_is_legal(bad), 0);
        IS(vb_path_cmp(bad, path("")).refusal, 4);
        IS(vb_path_cmp(path(""), bad).refusal, 4);
        IS(vb_path_eq(bad, path("")).refusal, 4);
        IS(vb_path_is_prefix_of(path(""), bad).refusal, 4);
        vb_above a = vb_path_greater_but_not_prefixed(bad);
        IS(a.refusal, 4);
        IS(a.found, 0);
        same_path(a.path, "");
    }
    vb_path most = path("61/62/63"); /* 64 bytes in a component, 128 in all */
    most.ends[0] = 64, most.ends[1] = 128, most.ends[2] = 128;
    IS(vb_path_is_legal(most), 1);
    most.ends[0] = 65;
    IS(vb_path_is_legal(most), 0);
    static const char *const ascending[] = {"", ".", "00", "01", "61", "61/62", "6162"};
    for (int i = 0; i < 7; i++)
        for (int j = 0; j < 7; j++) {
            vb_compared c = vb_path_cmp(path(ascending[i]), path(ascending[j]));
            IS(c.refusal, 0);
            IS(c.less, i < j);
            IS(c.greater, i > j);
            vb_answer e = vb_path_eq(path(ascending[i]), path(ascending[j]));
            IS(e.refusal, 0);
            IS(e.yes, i == j);
            IS(vb_path_is_prefix_of(path(ascending[i]), path(ascending[j])).yes, i == 0 || i == j || (i == 4 && j == 5));
        }
    vb_above a = vb_path_greater_but_not_prefixed(path("61"));
    IS(a.refusal, 0);
    IS(a.found, 1);
    same_path(a.path, "6100");
    a = vb_path_greater_but_not_prefixed(path(""));
    IS(a.refusal, 0);
    IS(a.found, 0);
    same_path(a.path, "");
}

/* How two entries compare, and the other way round. */
static void compared_as(vb_entry a, vb_entry b, uint8_t newer, uint8_t older) {
    vb_entries_compared there = vb_entry_compare(a, b), back = vb_entry_compare(b, a);
    IS(there.refusal | back.refusal, 0);
    IS(there.newer, newer);
    IS(there.older, older);
    IS(back.newer, older);
    IS(back.older, newer);
}

static void entries(void) {
    vb_entry a = entry(1, "61", 5, 3, 9), b = entry(1, "61/62", 5, 3, 9), bad = b;
    bad.path = illegal(1);
    compared_as(a, b, 0, 0); /* a tie: the same, whatever the paths */
    a.payload_length = 4;
    compared_as(a, b, 1, 0);
    IS(vb_entry_prunes(a, b).yes, 1);
    IS(vb_entry_prunes(b, a).yes, 0);
    IS(vb_entry_is_pruned_by(b, a).yes, 1);
    IS(vb_entry_is_pruned_by(a, b).yes, 0);
    b.payload_digest[31] = 10; /* the digest goes before the length */
    compared_as(b, a, 1, 0);
    b.payload_digest[0] = 8;
    compared_as(b, a, 0, 1);
    b.timestamp = UINT64_MAX; /* the timestamp before both */
    compared_as(b, a, 1, 0);
    b.namespace_id[15] = 1, b.subspace_id.high = 1; /* play no part */
    compared_as(b, a, 1, 0);
    b.subspace_id.high = 0;
    b.timestamp = 0;
    IS(vb_entry_prunes(a, b).yes, 0);
    IS(vb_entry_compare(a, bad).refusal, 4);
    IS(vb_entry_compare(bad, a).refusal, 4);
    IS(vb_entry_compare(a, bad).newer | vb_entry_compare(a, bad).older | vb_entry_compare(bad, a).newer | vb_entry_compare(bad, a).older, 0);
    IS(vb_entry_prunes(a, bad).refusal, 4);
    IS(vb_entry_prunes(bad, a).refusal, 4);
    IS(vb_entry_is_pruned_by(a, bad).refusal, 4);
    IS(vb_entry_is_pruned_by(bad, a).refusal, 4);
}

static void areas_and_ranges(void) {
    vb_area a = area(0, 7, path("61"), times(5, 10, 0));
    IS(vb_area_includes_triplet(a, subspace(7), path("61/62"), 9).yes, 1);
    IS(vb_area_includes_triplet(a, subspace(7), path("61/62"), 10).yes, 0);
    IS(vb_area_includes_triplet(a, subspace(7), path("61/62"), 4).yes, 0);
    IS(vb_area_includes_triplet(a, subspace(8), path("61/62"), 9).yes, 0);
    IS(vb_area_includes_triplet(a, subspace(7), path("6162"), 9).yes, 0);
    a.any_subspace = 255;
    IS(vb_area_includes_triplet(a, subspace(8), path("61/62"), 9).yes, 1);
    a.times = times(0, 0, 2);
    IS(vb_area_includes_triplet(a, subspace(8), path("61"), UINT64_MAX).yes, 1);
    IS(vb_area_includes_triplet(a, subspace(8), illegal(2), 9).refusal, 4);

    vb_area_range r = vb_area_to_range(a);
    IS(r.refusal, 0);
    IS(r.range.subspaces.open, 1);
    IS(r.range.subspaces.start.high | r.range.subspaces.start.low | r.range.subspaces.end.high | r.range.subspaces.end.low, 0);
    IS(r.range.paths.open, 0);
    same_path(r.range.paths.start, "61");
    same_path(r.range.paths.end, "6100");
    IS(r.range.times.start, 0);
    IS(r.range.times.end, 0);
    IS(r.range.times.open, 1);
    r = vb_area_to_range(area(0, UINT64_MAX, path(""), times(5, 10, 0)));
    IS(r.range.subspaces.open, 0);
    IS(r.range.subspaces.start.low, UINT64_MAX);
    IS(r.range.subspaces.end.high, 1);
    IS(r.range.subspaces.end.low, 0);
    IS(r.range.paths.open, 1);
    same_path(r.range.paths.end, "");
    IS(r.range.times.start, 5);
    IS(r.range.times.end, 10);
    IS(r.range.times.open, 0);
    r = vb_area_to_range(area(1, 0, illegal(4), times(5, 10, 0)));
    IS(r.refusal, 4);
    IS(r.range.subspaces.open | r.range.paths.open | r.range.times.open, 0);
    IS(r.range.times.start | r.range.times.end, 0);

    vb_range whole = range(path(""), illegal(1), 2); /* the end of an open range is not looked at */
    IS(vb_range_includes_triplet(whole, subspace(0), path("ff"), UINT64_MAX).yes, 1);
    whole.paths.open = 0;
    IS(vb_range_includes_triplet(whole, subspace(0), path("ff"), 0).refusal, 4);
    whole = range(path("61"), path("62"), 0);
    IS(vb_range_includes_triplet(whole, subspace(0), path("61/ff"), 0).yes, 1);
    IS(vb_range_includes_triplet(whole, subspace(0), path("62"), 0).yes, 0);
    IS(vb_range_includes_triplet(whole, subspace(0), path("60"), 0).yes, 0);
    IS(vb_range_includes_triplet(whole, subspace(0), illegal(0), 0).refusal, 4);
    whole.paths.start = illegal(3);
    IS(vb_range_includes_triplet(whole, subspace(0), path("61"), 0).refusal, 4);
    whole.paths.start = path("61");
    whole.subspaces.open = 0;
    whole.subspaces.end = subspace(3);
    IS(vb_range_includes_triplet(whole, subspace(2), path("61"), 0).yes, 1);
    IS(vb_range_includes_triplet(whole, subspace(3), path("61"), 0).yes, 0);
}

static void same_triple(vb_decoded d, uint8_t refusal, const char *hex, uint64_t in, uint64_t timestamp) {
    IS(d.refusal, refusal);
    IS(d.subspace.high, 0);
    IS(d.subspace.low, in);
    IS(d.timestamp, timestamp);
    same_path(d.path, hex);
}

static void keys(void) {
    static const uint8_t path_key[9] = {0x62, 0, 1, 0, 2, 0, 1, 0, 0}; /* [62][00] */
    uint8_t spt[33] = {0}, tsp[33] = {0};
    spt[15] = tsp[23] = 7;
    spt[32] = tsp[7] = 5;
    memcpy(spt + 16, path_key, 9);
    memcpy(tsp + 24, path_key, 9);
    uint8_t *out = (uint8_t *)lent(VB_KEY_MOST);
    vb_encoded e = vb_encode_spt_entry_key(subspace(7), path("62/00"), 5, out, VB_KEY_MOST);
    IS(e.refusal, 0);
    IS(e.length, 33);
    IS(memcmp(out, spt, 33), 0);
    for (size_t i = 33; i < VB_KEY_MOST; i++) IS(out[i], 0xee);
    e = vb_encode_tsp_entry_key(subspace(7), path("62/00"), 5, out, VB_KEY_MOST);
    IS(e.refusal, 0);
    IS(e.length, 33);
    IS(memcmp(out, tsp, 33), 0);
    memset(out, 0xee, VB_KEY_MOST);
    vb_path zeros = path("");
    memset(zeros.bytes, 0, VB_MPL);
    for (size_t i = 0; i < VB_MCC; i++) zeros.ends[i] = 16 * (i + 1);
    zeros.count = VB_MCC;
    IS(vb_encode_spt_entry_key(subspace(7), zeros, 5, out, VB_KEY_MOST).length, VB_KEY_MOST); /* the longest key */
    IS(vb_encode_tsp_entry_key(subspace(7), zeros, 5, out, VB_KEY_MOST).length, VB_KEY_MOST);
    IS(vb_decode_tsp_entry_key(out, VB_KEY_MOST).path.count, VB_MCC);
    memset(out, 0xee, VB_KEY_MOST);
    IS(vb_encode_spt_entry_key(subspace(7), illegal(1), 5, out, VB_KEY_MOST - 1).refusal, 2);
    IS(vb_encode_tsp_entry_key(subspace(7), illegal(1), 5, NULL, 0).refusal, 2);
    IS(vb_encode_spt_entry_key(subspace(7), illegal(1), 5, out, VB_KEY_MOST).refusal, 4);
    e = vb_encode_tsp_entry_key(subspace(7), illegal(2), 5, out, VB_KEY_MOST);
    IS(e.refusal, 4);
    IS(e.length, 0);
    for (size_t i = 0; i < VB_KEY_MOST; i++) IS(out[i], 0xee);
    free(out);

    same_triple(vb_decode_spt_entry_key(spt, 33), 0, "62/00", 7, 5);
    same_triple(vb_decode_tsp_entry_key(tsp, 33), 0, "62/00", 7, 5);
    same_triple(vb_read_spt_entry_key(spt, 33), 0, "62/00", 7, 5);
    same_triple(vb_read_tsp_entry_key(tsp, 33), 0, "62/00", 7, 5);
    for (size_t cut = 0; cut < 33; cut++) { /* a key cut anywhere */
        uint8_t *short_key = (uint8_t *)lent(cut);
        memcpy(short_key, spt, cut);
        same_triple(vb_decode_spt_entry_key(cut ? short_key : NULL, cut), 5, "", 0, 0);
        same_triple(vb_read_spt_entry_key(short_key, cut), 5, "", 0, 0);
        memcpy(short_key, tsp, cut);
        same_triple(vb_decode_tsp_entry_key(short_key, cut), 5, "", 0, 0);
        same_triple(vb_read_tsp_entry_key(short_key, cut), 5, "", 0, 0);
        free(short_key);
    }
    spt[20] = 3; /* 00 03 is no escape */
    same_triple(vb_decode_spt_entry_key(spt, 33), 5, "", 0, 0);
    spt[20] = 2;

    vb_stepped s = vb_read_component_at(spt, 33, 16);
    IS(s.refusal, 0);
    IS(s.component, 1);
    IS(s.length, 1);
    IS(s.bytes[0], 0x62);
    IS(s.bytes[1], 0);
    IS(s.position, 19);
    IS(s.left, 14);
    s = vb_read_component_at(spt, 33, s.position);
    IS(s.component, 1);
    IS(s.length, 1);
    IS(s.bytes[0], 0);
    IS(s.position, 23);
    s = vb_read_component_at(spt, 33, s.position);
    IS(s.refusal, 0);
    IS(s.component, 0);
    IS(s.length, 0);
    IS(s.position, 25);
    IS(s.left, 8);
    { /* refused inside a key: the reader stands where it stood */
        const uint8_t none[3] = {0x61, 0, 3};
        s = vb_read_component_at(none, 3, 1);
        IS(s.refusal, 5);
        IS(s.component, 0);
        IS(s.length, 0);
        IS(s.position, 1);
        IS(s.left, 2);
    }
    s = vb_read_component_at(spt, 33, SIZE_MAX);
    IS(s.refusal, 5);
    IS(s.component, 0);
    IS(s.position, SIZE_MAX);
    IS(s.left, 0);
    vb_path_read r = vb_read_path_at(spt, 33, 16);
    IS(r.refusal, 0);
    same_path(r.path, "62/00");
    IS(r.next, 25);
    r = vb_read_path_at(spt, 33, 34);
    IS(r.refusal, 5);
    same_path(r.path, "");
    IS(r.next, 0);
    IS(vb_read_path_at(NULL, 0, 0).refusal, 5);
}

/* What the bytes of a path are read as: `count` components, of which the first has the first `length` of `bytes` and the others none; or 5. The first
   component, or the path's end, takes `took` bytes. */
typedef struct { uint8_t refusal; size_t count, length, took; uint8_t bytes[4]; } taken;

/* Whether every call that is handed the bytes of a key answers so: both decoders and both readers of keys, of subspace 7 and timestamp 5 (with `cut` the
   subspace-first key stops behind the path's bytes), the reader of a path, and the reader of a component. Refused, all else is 0. */
static int reads(const uint8_t *path_bytes, size_t len, int cut, taken t) {
    uint8_t want[VB_MPL] = {0}, *spt = (uint8_t *)lent(16 + len + (cut ? 0 : 8)), *tsp = (uint8_t *)lent(24 + len);
    size_t spt_len = 16 + len + (cut ? 0 : 8);
    int right = 1;
    memset(spt, 0, spt_len);
    memset(tsp, 0, 24 + len);
    spt[15] = tsp[23] = 7;
    if (!cut) spt[spt_len - 1] = 5;
    tsp[7] = 5;
    memcpy(spt + 16, path_bytes, len);
    memcpy(tsp + 24, path_bytes, len);
    memcpy(want, t.bytes, t.length);
    vb_decoded d[4] = {vb_decode_spt_entry_key(spt, spt_len), vb_read_spt_entry_key(spt, spt_len), vb_decode_tsp_entry_key(tsp, 24 + len), vb_read_tsp_entry_key(tsp, 24 + len)};
    vb_path_read p = vb_read_path_at(tsp, 24 + len, 24);
    vb_stepped s = vb_read_component_at(tsp, 24 + len, 24);
    for (int i = 0; i < 5; i++) {
        vb_path q = i < 4 ? d[i].path : p.path;
        right &= (i < 4 ? d[i].refusal : p.refusal) == t.refusal && q.count == t.count && memcmp(q.bytes, want, VB_MPL) == 0;
        if (i < 4) right &= d[i].subspace.high == 0 && d[i].subspace.low == (t.refusal ? 0 : 7) && d[i].timestamp == (t.refusal ? 0 : 5);
        for (size_t k = 0; k < VB_MCC; k++) right &= q.ends[k] == (k < t.count ? t.length : 0);
    }
    right &= p.next == (t.refusal ? 0 : 24 + len);
    right &= s.refusal == t.refusal && s.component == (t.count > 0) && s.length == t.length && memcmp(s.bytes, want, VB_MCL) == 0;
    right &= s.position == 24 + t.took && s.left == len - t.took;
    free(spt);
    free(tsp);
    return right;
}

/* What the escape table says of the bytes b, m, 00 01 00 00, where a component begins or behind its first byte, 61. */
static taken by_table(size_t begun, uint8_t b, uint8_t m) {
    const taken refused = {5, 0, 0, 0, {0}};
    taken t = {0, 1, begun, begun + 4, {0x61}};
    t.bytes[begun] = b;
    t.bytes[begun + 1] = m;
    if (b != 0 && m != 0) t.length += 2;                            /* ordinary bytes */
    else if (b != 0) return refused;                                /* 00 then 00, in a component that has begun */
    else if (m == 0 && begun) return refused;                       /* 00 then 00, behind the 61 */
    else if (m == 0) t.count = 0, t.took = 2;                       /* 00 then 00: the path's end */
    else if (m == 1) t.count = 2, t.took = begun + 2;               /* 00 then 01: the component's end, and behind it an empty one */
    else if (m == 2) t.length += 1;                                 /* 00 then 02: the byte 00 */
    else return refused;                                            /* 00 then anything else */
    return t;
}

/* The escape table, by every byte and every byte behind it, where a component begins and in one that has begun; and at the end. */
static void escape_table(void) {
    const taken refused = {5, 0, 0, 0, {0}};
    unsigned first_wrong = 0x20000; /* begun, b, m, in this order */
    for (unsigned all = 0; all < 0x20000; all++) {
        size_t begun = all >> 16;
        uint8_t b = (uint8_t)(all >> 8), m = (uint8_t)all;
        const uint8_t open[7] = {0x61, b, m, 0, 1, 0, 0}, shut[6] = {0x61, b, 0, 0, 0, 0}, *key = open + 1 - begun;
        taken t = by_table(begun, b, m);
        int right = reads(key, t.refusal || t.count ? begun + 6 : 2, 0, t);
        if (b != 0 || m > 1) right &= reads(key, begun + 2, 1, refused); /* neither the component nor the path ends */
        if (m == 0) right &= reads(key, begun + 1, 1, refused);          /* 00 at the end, or a byte and no end */
        if (t.refusal && m == 0)                                         /* 00 00 in a component ends neither the path nor the component */
            for (size_t len = begun + (b ? 3 : 2), more = 0; more < 3; more += 2) right &= reads(shut + 1 - begun, len + more, 0, refused);
        if (!right && first_wrong == 0x20000) first_wrong = all;
    }
    IS(first_wrong, 0x20000);
    IS(reads((const uint8_t *)"", 0, 1, refused), 1); /* no byte at all */
}

/* Ends at will: all bytes 7, all other ends 255. */
static vb_path odd(size_t count, size_t first, size_t second, size_t third) {
    vb_path p;
    memset(p.bytes, 7, VB_MPL);
    for (size_t i = 0; i < VB_MCC; i++) p.ends[i] = 255;
    p.ends[0] = first, p.ends[1] = second, p.ends[2] = third, p.count = count;
    return p;
}

/* Values that no line of text can say. */
static void odd_values(void) {
    const vb_path garbage = odd(0, 255, 255, 255), nine = odd(9, 1, 2, 3), none = path("");
    IS(vb_path_is_legal(garbage), 1);
    IS(vb_path_is_legal(nine), 0);
    IS(vb_path_is_legal(odd(SIZE_MAX, 1, 2, 3)), 0);
    IS(vb_path_is_legal(odd(2, 5, 3, 255)), 0);
    IS(vb_path_is_legal(odd(2, 5, 5, 255)), 1);
    IS(vb_path_is_legal(odd(1, 64, 255, 255)), 1);
    IS(vb_path_is_legal(odd(1, 65, 255, 255)), 0);
    IS(vb_path_is_legal(odd(1, SIZE_MAX, 255, 255)), 0);
    IS(vb_path_is_legal(odd(2, 64, 128, 255)), 1);
    IS(vb_path_is_legal(odd(3, 64, 128, 129)), 0);
    IS(vb_path_is_legal(odd(3, 64, 128, 128)), 1);
    IS(vb_path_eq(garbage, none).yes, 1);
    IS(vb_path_is_prefix_of(none, garbage).yes, 1);
    IS(vb_path_is_prefix_of(garbage, odd(1, 3, 255, 255)).yes, 1);
    IS(vb_path_eq(nine, nine).refusal, 4);
    IS(vb_path_is_prefix_of(nine, none).refusal, 4);
    IS(vb_range_includes_triplet(range(none, nine, 1), subspace(0), none, 0).yes, 1);
    IS(vb_range_includes_triplet(range(none, nine, 0), subspace(0), none, 0).refusal, 4);
    vb_range r = range(none, none, 1);
    r.times = times(0, UINT64_MAX, 0);
    IS(vb_range_includes_triplet(r, subspace(0), none, UINT64_MAX).yes, 0);
    IS(vb_range_includes_triplet(r, subspace(0), none, UINT64_MAX - 1).yes, 1);
    r.times = times(20, 10, 0);
    IS(vb_range_includes_triplet(r, subspace(0), none, 15).yes, 0);
    vb_subspace next;
    next.high = 1, next.low = 0;
    vb_area_range a = vb_area_to_range(area(0, UINT64_MAX, garbage, times(0, 0, 1)));
    IS(a.refusal, 0);
    same_path(a.range.paths.start, ""); /* zeros behind */
    IS(vb_range_includes_triplet(a.range, next, none, 0).yes, 0);
    IS(vb_range_includes_triplet(a.range, subspace(UINT64_MAX), none, 0).yes, 1);
    vb_area last = area(0, UINT64_MAX, none, times(0, 0, 1));
    last.subspace.high = UINT64_MAX;
    a = vb_area_to_range(last);
    IS(a.range.subspaces.open, 1); /* nothing lies above the last subspace */
    IS(vb_range_includes_triplet(a.range, last.subspace, none, 0).yes, 1);
    IS(vb_area_to_range(area(1, 0, nine, times(0, 0, 1))).refusal, 4);
    IS(vb_area_includes_triplet(area(1, 0, nine, times(0, 0, 1)), subspace(0), none, 0).refusal, 4);
    uint8_t *out = (uint8_t *)lent(300);
    vb_encoded e = vb_encode_spt_entry_key(subspace(0), garbage, 0, out, 300); /* a longer buffer is taken */
    IS(e.refusal, 0);
    IS(e.length, 26);
    for (size_t i = 0; i < 300; i++) IS(out[i], i < 26 ? 0 : 0xee);
    free(out);
}

/* Opening and the refusals that every call of a store shares: 1, 2, 3. */
static void openings(void) {
    static const uint8_t namespace_id[16] = {0xaa};
    kept k = store_of(3);
    static const size_t wrong[] = {0, 1025, SIZE_MAX};
    for (int i = 0; i < 3; i++) {
        vb_opened o = vb_open(namespace_id, wrong[i], STORE(&k));
        IS(o.refusal, 1);
        IS(o.state.namespace_id[0] | o.state.count | o.state.limit, 0);
    }
    IS(vb_open(namespace_id, 4, STORE(&k)).refusal, 2);
    IS(vb_open(namespace_id, 1, NULL, 0, NULL, 0, NULL, 0, NULL, 0, NULL, 0).refusal, 2);
    IS(vb_open(namespace_id, 3, READ(&k), k.tally, VB_ITEM * 3 - 1).refusal, 2);
    vb_state none;
    memset(&none, 0, sizeof none), none.limit = 1;
    IS(vb_record_available_length(none, NULL, 0, NULL, 0, NULL, 0, NULL, 0, subspace(1), path("61"), 0, token, 0).refusal, 2);
    IS(vb_forget_payload(none, NULL, 0, NULL, 0, NULL, 0, NULL, 0, subspace(1), path("61"), 0, token).refusal, 2);
    k.spt[VB_RECORD_MOST * 2] = k.tally[VB_ITEM * 2] = 9;
    vb_opened o = vb_open(namespace_id, 2, STORE(&k)); /* what lies beyond the limit's room stays */
    IS(o.refusal, 0);
    IS(o.state.namespace_id[0], 0xaa);
    IS(k.spt[VB_RECORD_MOST * 2], 9);
    IS(k.tally[VB_ITEM * 2], 9);

    const vb_entry e = entry(1, "61", 5, 3, 9);
    const vb_area all = area(1, 0, path(""), times(0, 0, 1));
    vb_interest most;
    most.max_count = most.max_size = UINT64_MAX;
    const uint8_t digest[32] = {0};
    const kept before = copy_of(&k);
    for (int want = 1; want <= 3; want++) {
        vb_state s = o.state;
        if (want == 1) s.limit = 0, s.count = SIZE_MAX;
        if (want == 2) s.limit = 4, s.count = 5;
        if (want == 3) s.count = 1;
        for (int legal = 0; legal < 2; legal++) all_refuse(&k, s, VB_RECORD_MOST * 3, VB_RECORD_MOST * 3, legal, (uint8_t)want);
    }
    vb_area bad = all;
    bad.path = illegal(1);
    most.area = bad;
    const vb_range descends = range(path(""), illegal(2), 0);
    vb_entry bad_entry = e;
    bad_entry.path = illegal(1);
    bad_entry.namespace_id[0] = 1;
    IS(vb_ingest_entry(o.state, STORE(&k), k.prune, 3, bad_entry, token, 0, local()).refusal, 4);
    IS(vb_ingest_entry(o.state, STORE(&k), k.prune, 1, e, token, 0, local()).refusal, 2);
    IS(vb_ingest_entry(o.state, STORE(&k), NULL, 0, e, token, 0, local()).refusal, 2);
    IS(vb_ingest_entry(o.state, STORE(&k), k.prune, 3, e, token, 0, local()).refusal, 6);
    IS(vb_ingest_entry_numbers(o.state, STORE(&k), (uint32_t *)k.prune, 3, e, token, 0, local()).refusal, 2);
    IS(vb_forget_entry(o.state, STORE(&k), subspace(1), illegal(0), 0, digest).refusal, 4);
    IS(vb_forget_area(o.state, STORE(&k), all, 1, bad).refusal, 4);
    IS(vb_forget_area(o.state, STORE(&k), bad, 0, all).refusal, 4);
    IS(vb_forget_area(o.state, STORE(&k), all, 0, bad).refusal, 0);
    IS(vb_record_available_length(o.state, READ(&k), subspace(1), illegal(4), 1, digest, UINT64_MAX).refusal, 4);
    IS(vb_forget_payload(o.state, READ(&k), subspace(1), illegal(4), 1, digest).refusal, 4);
    IS(vb_record_available_length(o.state, READ(&k), subspace(1), path("61"), 1, digest, UINT64_MAX).refusal, 11); /* of a store without entries */
    IS(vb_forget_payload(o.state, READ(&k), subspace(1), path("61"), 1, digest).refusal, 11);
    IS(vb_find_entry(o.state, READ(&k), subspace(1), illegal(3), ignore(0, 0)).refusal, 4);
    IS(vb_query_area_found(o.state, READ(&k), bad, ignore(0, 0), digest, 25).refusal, 4); /* goes before 5 */
    IS(vb_query_range_found(o.state, READ(&k), descends, ignore(0, 0), NULL, 0).refusal, 4);
    IS(vb_query_area_found(o.state, READ(&k), all, ignore(0, 0), digest, 25).refusal, 5);
    IS(vb_query_area_found(o.state, READ(&k), all, ignore(0, 0), digest, 26).refusal, 0); /* 26 zeros are a key */
    IS(vb_count_area(o.state, READ(&k), bad).refusal, 4);
    IS(vb_summarise(o.state, READ(&k), descends).refusal, 4);
    IS(vb_area_of_interest_to_range(o.state, READ(&k), most).refusal, 4);
    unchanged(&k, &before);
    kept done = before;
    drop(&done);
    drop(&k);
}

/* One entry after another, and what is stored then. */
static void ingestion(void) {
    kept k = store_of(4);
    vb_ingested r = ingest(&k, entry(1, "61/62", 5, 3, 9), 0);
    IS(r.refusal | r.obsolete | r.held | r.pruned, 0);
    IS(r.state.count, 1);
    IS(k.spt_dir[0], 0);
    IS(k.spt_dir[1], TWO);
    IS(k.prune[0].offset, 0xeeeeeeee);
    kept before = copy_of(&k);
    r = ingest(&k, entry(1, "61", 6, 3, 9), 1);
    IS(r.refusal, 7); /* it would prune */
    IS(r.state.count, 1);
    vb_ingested refused = ingest(&k, entry(1, "61/62", 4, 3, 9), 2); /* obsolete goes before 7 */
    IS(refused.refusal, 0);
    IS(refused.obsolete, 1);
    IS(refused.held, 0);
    IS(refused.newer.timestamp, 5);
    IS(refused.newer.payload_digest[31], 9);
    IS(refused.token[0], 0x42);
    same_path(refused.newer.path, "61/62");
    unchanged(&k, &before);
    drop(&before);
    r = ingest(&k, entry(1, "61", 6, 3, 9), 0); /* the older one is removed */
    IS(r.refusal | r.obsolete | r.held, 0);
    IS(r.pruned, 1);
    IS(r.state.count, 1);
    IS(k.prune[0].offset, 0);
    IS(k.prune[0].length, TWO);
    IS(k.prune[1].offset, 0xeeeeeeee);
    r = ingest(&k, entry(1, "61/62", 6, 3, 9), 255); /* of equal rank: two */
    IS(r.refusal | r.obsolete | r.held | r.pruned, 0);
    IS(r.state.count, 2);
    IS(r.newer.timestamp | r.token[0], 0);
    drop(&k);

    k = store_of(1);
    IS(ingest(&k, entry(1, "61", 5, 3, 9), 0).refusal, 0);
    before = copy_of(&k);
    IS(ingest(&k, entry(1, "62", 5, 3, 9), 0).refusal, 8);
    unchanged(&k, &before);
    drop(&before);
    IS(ingest(&k, entry(1, "", 6, 3, 9), 0).refusal, 0);
    IS(k.state.count, 1);
    IS(k.prune[0].length, ONE);
    drop(&k);

    k = store_of(3); /* over numbers, and over pairs by value */
    uint32_t *numbers = (uint32_t *)lent(24);
    static vb_pairs by_value;
    memset(&by_value, 0xdd, sizeof by_value);
    IS(ingest(&k, entry(1, "61/62", 5, 3, 9), 0).refusal, 0);
    IS(ingest(&k, entry(1, "61/63", 5, 3, 9), 0).refusal, 0);
    kept second = copy_of(&k);
    r = vb_ingest_entry_numbers(k.state, STORE(&k), numbers, 6, entry(1, "61", 6, 3, 9), token, 0, local());
    IS(r.pruned, 2);
    IS(numbers[0], 0);
    IS(numbers[1], TWO);
    IS(numbers[2], TWO);
    IS(numbers[3], TWO);
    IS(numbers[4], 0xeeeeeeee);
    vb_pairs_ingested v = vb_ingest_entry_by_value(second.state, STORE(&second), by_value, entry(1, "61", 6, 3, 9), token, 0, local());
    IS(v.ingested.pruned, 2);
    IS(v.ingested.state.count, 1);
    IS(v.pairs[0].offset, 0);
    IS(v.pairs[1].offset, TWO);
    IS(v.pairs[1].length, TWO);
    IS(v.pairs[2].offset, 0xdddddddd);
    IS(v.pairs[1023].length, 0xdddddddd);
    same_buffers(&second, &k);
    free(numbers);
    drop(&second);
    drop(&k);
}

static void reading_and_forgetting(void) {
    kept k = store_of(5);
    static const char *const at[] = {"61", "61/62", "63", "64"};
    for (uint64_t i = 0; i < 4; i++) IS(ingest(&k, entry(i == 3 ? 2 : 1, at[i], 10 * (4 - i), i, 9), 0).obsolete, i == 1);
    IS(k.state.count, 3); /* [61][62] was older than [61] */
    IS(ingest(&k, entry(1, "61/62", 50, 1, 9), 0).state.count, 4);

    vb_entry_found f = vb_find_entry(k.state, READ(&k), subspace(1), path("61/62"), ignore(0, 0));
    IS(f.refusal, 0);
    IS(f.found, 1);
    same_path(f.lengthy.entry.path, "61/62");
    IS(f.lengthy.entry.timestamp, 50);
    IS(f.lengthy.entry.payload_length, 1);
    IS(f.lengthy.entry.subspace_id.low, 1);
    IS(f.lengthy.token[0], 0x42);
    IS(f.lengthy.available, 0);
    IS(vb_find_entry(k.state, READ(&k), subspace(1), path("61/62"), ignore(128, 0)).found, 0); /* its payload is not all there */
    IS(vb_find_entry(k.state, READ(&k), subspace(1), path("61"), ignore(1, 0)).found, 1);
    IS(vb_find_entry(k.state, READ(&k), subspace(1), path("61"), ignore(0, 1)).found, 0); /* its payload is empty */
    IS(vb_find_entry(k.state, READ(&k), subspace(2), path("61"), ignore(0, 0)).found, 0);

    vb_area all = area(1, 0, path(""), times(0, 0, 1)), one = area(0, 1, path("61"), times(0, 50, 0));
    vb_range whole = range(path(""), path(""), 1), from = range(path("61/62"), path("64"), 0);
    static const char *const order[] = {"61", "61/62", "63", "64"};
    static const uint64_t at_times[] = {40, 50, 20, 10};
    const uint8_t *last = NULL; /* nothing writes the tree here, so the key may stay where it lies */
    size_t last_len = 0;
    for (size_t i = 0; i < 4; i++) {
        vb_listed l = vb_query_area_found(k.state, READ(&k), all, ignore(0, 0), last, last_len), m = vb_query_range_found(k.state, READ(&k), whole, ignore(0, 0), last, last_len);
        IS(l.refusal | m.refusal, 0);
        IS(l.found & m.found, 1);
        vb_part p = vb_query_area(k.state, READ(&k), all, ignore(0, 0), last, last_len), q = vb_query_range(k.state, READ(&k), whole, ignore(0, 0), last, last_len);
        IS(p.offset, k.spt_dir[2 * i]);
        IS(p.length, k.spt_dir[2 * i + 1]);
        IS(q.offset, p.offset);
        IS(q.length, p.length);
        vb_part key = vb_record_key(k.spt + p.offset, p.length);
        IS(key.offset, 0);
        IS(key.length, p.length - VB_VALUE);
        last = k.spt + p.offset, last_len = key.length;
        same_triple(vb_decode_spt_entry_key(last, last_len), 0, order[i], i == 3 ? 2 : 1, at_times[i]);
    }
    IS(vb_query_area_found(k.state, READ(&k), all, ignore(0, 0), last, last_len).found, 0);
    IS(vb_query_area_found(k.state, READ(&k), all, ignore(0, 0), last, last_len).refusal, 0);
    IS(vb_query_range_found(k.state, READ(&k), whole, ignore(0, 0), last, last_len).found, 0);
    IS(vb_query_area(k.state, READ(&k), all, ignore(0, 0), last, last_len).length, 0);
    IS(vb_query_area(k.state, READ(&k), all, ignore(0, 0), last, last_len).offset, 0);
    IS(vb_query_range(k.state, READ(&k), whole, ignore(0, 0), last, last_len).length, 0);
    IS(vb_query_area_found(k.state, READ(&k), one, ignore(0, 0), k.spt, k.spt_dir[1] - VB_VALUE).found, 0); /* behind [61]: at 50 it is outside */
    IS(vb_query_range(k.state, READ(&k), from, ignore(0, 0), NULL, 0).offset, k.spt_dir[2]);
    IS(vb_query_range_found(k.state, READ(&k), from, ignore(7, 0), NULL, 0).found, 0);
    IS(vb_count_area(k.state, READ(&k), all).count, 4);
    IS(vb_count_area(k.state, READ(&k), one).count, 1);
    IS(vb_summarise(k.state, READ(&k), whole).count, 4);
    IS(vb_summarise(k.state, READ(&k), from).count, 2);

    vb_interest i; /* met from the newest: 50, 40, 20, 10; payloads 1, 0, 2, 3 */
    i.area = all;
    i.max_count = i.max_size = UINT64_MAX;
    IS(vb_area_of_interest_to_range(k.state, READ(&k), i).range.times.start, 10);
    i.max_count = 1;
    IS(vb_area_of_interest_to_range(k.state, READ(&k), i).range.times.start, 40);
    i.max_count = UINT64_MAX;
    i.max_size = 2;
    vb_area_range r = vb_area_of_interest_to_range(k.state, READ(&k), i);
    IS(r.refusal, 0);
    IS(r.range.times.start, 20);
    IS(r.range.times.open, 1);
    IS(r.range.paths.open, 1);
    i.area = area(0, 9, path("61"), times(3, 0, 1));
    r = vb_area_of_interest_to_range(k.state, READ(&k), i);
    IS(r.range.times.start, 3); /* no match: as given */
    same_path(r.range.paths.end, "6100");

    uint8_t digest[32];
    memset(digest, 8, 32);
    kept before = copy_of(&k);
    vb_entry_forgotten g = vb_forget_entry(k.state, STORE(&k), subspace(1), path("63"), 1, digest);
    IS(g.refusal, 9);
    IS(g.state.count, 4);
    IS(vb_forget_entry(k.state, STORE(&k), subspace(9), path("63"), 1, digest).refusal, 0); /* absent: done */
    unchanged(&k, &before);
    drop(&before);
    g = vb_forget_entry(k.state, STORE(&k), subspace(1), path("63"), 0, digest); /* the digest is not looked at */
    IS(g.refusal, 0);
    IS(g.state.count, 3);
    k.state = g.state;
    memset(digest, 9, 32);
    g = vb_forget_entry(k.state, STORE(&k), subspace(2), path("64"), 2, digest);
    IS(g.refusal, 0);
    IS(g.state.count, 2);
    k.state = g.state;
    vb_area_forgotten a = vb_forget_area(k.state, STORE(&k), all, 4, area(0, 1, path("61/62"), times(0, 0, 1)));
    IS(a.refusal, 0);
    IS(a.forgotten, 1); /* [61]; below it is protected */
    IS(a.state.count, 1);
    k.state = a.state;
    a = vb_forget_area(k.state, STORE(&k), all, 0, all);
    IS(a.forgotten, 1);
    IS(a.state.count, 0);
    for (size_t n = 0; n < VB_RECORD_MOST * 5; n++) IS(k.spt[n] | k.tsp[n], 0);
    for (size_t n = 0; n < 10; n++) IS(k.spt_dir[n] | k.tsp_dir[n], 0);
    for (size_t n = 0; n < VB_ITEM * 5; n++) IS(k.tally[n], 0);
    drop(&k);
}

/* One item: subspace, count and newest timestamp. */
static void same_item(const kept *k, size_t place, uint64_t high, uint64_t low, uint32_t count, uint64_t newest) {
    const uint8_t *p = k->tally + VB_ITEM * place;
    for (int i = 0; i < 8; i++) {
        IS(p[i], (uint8_t)(high >> (8 * (7 - i))));
        IS(p[8 + i], (uint8_t)(low >> (8 * (7 - i))));
        IS(p[20 + i], (uint8_t)(newest >> (8 * (7 - i))));
    }
    for (int i = 0; i < 4; i++) IS(p[16 + i], (uint8_t)(count >> (8 * (3 - i))));
}

/* So many items, and zeros behind the last. */
static void items(const kept *k, size_t n) {
    for (size_t i = 0; i < n; i++) IS((k->tally[VB_ITEM * i + 18] | k->tally[VB_ITEM * i + 19]) != 0, 1); /* no count is 0 */
    for (size_t i = VB_ITEM * n; i < VB_ITEM * k->limit; i++) IS(k->tally[i], 0);
}

/* The tally after one call and another. */
static void tallies(void) {
    const uint8_t digest[32] = {0};
    kept k = store_of(5);
    IS(ingest(&k, entry(0, "", 0, 0, 9), 0).refusal, 0); /* 19 zeros, 01, 8 zeros */
    same_item(&k, 0, 0, 0, 1, 0);
    items(&k, 1);
    vb_entry high = entry(0, "61", UINT64_MAX, 0, 9); /* subspaces that differ in the high half only */
    high.subspace_id.high = 1;
    IS(ingest(&k, high, 0).refusal, 0);
    IS(ingest(&k, entry(7, "61", 5, 0, 9), 0).refusal, 0);
    IS(ingest(&k, entry(7, "62", 9, 0, 9), 0).refusal, 0);
    same_item(&k, 0, 0, 0, 1, 0);
    same_item(&k, 1, 0, 7, 2, 9);
    same_item(&k, 2, 1, 0, 1, UINT64_MAX);
    items(&k, 3);
    IS(ingest(&k, entry(7, "62", 8, 0, 9), 0).obsolete, 1);
    IS(ingest(&k, entry(7, "", 8, 0, 9), 0).pruned, 1); /* [61]; [62] is newer */
    same_item(&k, 1, 0, 7, 2, 9);
    items(&k, 3);
    k.state = vb_forget_entry(k.state, STORE(&k), subspace(7), path("62"), 0, digest).state; /* the newest goes */
    same_item(&k, 1, 0, 7, 1, 8);
    items(&k, 3);
    k.state = vb_forget_entry(k.state, STORE(&k), subspace(7), path(""), 0, digest).state; /* an item goes with its last entry, and those behind it move up */
    same_item(&k, 0, 0, 0, 1, 0);
    same_item(&k, 1, 1, 0, 1, UINT64_MAX);
    items(&k, 2);
    IS(k.state.count, 2);
    const vb_area zero = area(0, 0, path(""), times(0, 0, 1));
    k.state = vb_forget_area(k.state, STORE(&k), zero, 0, zero).state;
    same_item(&k, 0, 1, 0, 1, UINT64_MAX);
    items(&k, 1);
    kept second = copy_of(&k); /* over numbers, and over pairs by value */
    uint32_t *numbers = (uint32_t *)lent(40);
    static vb_pairs by_value;
    high.path = path(""), high.payload_length = 1;
    vb_ingested r = vb_ingest_entry_numbers(k.state, STORE(&k), numbers, 10, high, token, 0, local());
    IS(r.pruned, 1);
    k.state = r.state;
    IS(vb_ingest_entry_by_value(second.state, STORE(&second), by_value, high, token, 0, local()).ingested.pruned, 1);
    same_item(&k, 0, 1, 0, 1, UINT64_MAX);
    items(&k, 1);
    same_buffers(&k, &second);
    free(numbers);
    drop(&second);
    drop(&k);
}

/* Taken, with so many pruned and so many entries then. */
static void is_taken(vb_ingested r, size_t pruned, size_t count) {
    IS(r.refusal | r.obsolete | r.held, 0);
    IS(r.pruned, pruned);
    IS(r.state.count, count);
}

/* Ties: equal in timestamp, digest and length, one path extending the other. None removes another, so the order in which they come leaves no trace. */
static void ties(void) {
    static const char *const line[] = {"61", "61/62", "61/62/63"};
    static const int orders[][3] = {{0, 2, 1}, {1, 0, 2}, {1, 2, 0}, {2, 0, 1}, {2, 1, 0}};
    static vb_pairs by_value;
    kept k = store_of(2), second = store_of(2);
    for (int i = 0; i < 2; i++) { /* [61][62] and then [61], the other way round in the second: two, with pruning prevented too, and the same bytes */
        is_taken(ingest(&k, entry(1, line[1 - i], 5, 3, 9), 1), 0, 1 + (size_t)i);
        is_taken(ingest(&second, entry(1, line[i], 5, 3, 9), 0), 0, 1 + (size_t)i);
    }
    unchanged(&k, &second); /* both lists of pairs are as they were lent */
    IS(k.prune[0].offset, 0xeeeeeeee);
    const uint32_t pairs[] = {0, ONE, ONE, TWO};
    for (int i = 0; i < 4; i++) {
        IS(k.spt_dir[i], pairs[i]);
        IS(k.tsp_dir[i], pairs[i]);
    }
    same_triple(vb_decode_spt_entry_key(k.spt, 29), 0, "61", 1, 5);
    same_triple(vb_decode_spt_entry_key(k.spt + ONE, 32), 0, "61/62", 1, 5);
    same_triple(vb_decode_tsp_entry_key(k.tsp, 29), 0, "61", 1, 5);
    same_triple(vb_decode_tsp_entry_key(k.tsp + ONE, 32), 0, "61/62", 1, 5);
    same_item(&k, 0, 0, 1, 2, 5);
    is_taken(ingest(&k, entry(1, "", 6, 0, 0), 0), 2, 1); /* a later one above removes both */
    for (int i = 0; i < 2; i++) {
        IS(k.prune[i].offset, pairs[2 * i]);
        IS(k.prune[i].length, pairs[2 * i + 1]);
    }
    drop(&second);
    drop(&k);

    k = store_of(1); /* full, and nothing would go: 8, with pruning prevented too */
    is_taken(ingest(&k, entry(1, "61/62", 5, 3, 9), 0), 0, 1);
    kept before = copy_of(&k);
    for (int prevent = 0; prevent < 2; prevent++) {
        IS(ingest(&k, entry(1, "61", 5, 3, 9), prevent).refusal, 8);
        IS(vb_ingest_entry_numbers(k.state, STORE(&k), (uint32_t *)k.prune, 2, entry(1, "61", 5, 3, 9), token, prevent, local()).refusal, 8);
        IS(vb_ingest_entry_by_value(k.state, STORE(&k), by_value, entry(1, "61", 5, 3, 9), token, prevent, local()).ingested.refusal, 8);
    }
    unchanged(&k, &before);
    drop(&before);
    drop(&k);

    kept first = store_of(5); /* three on one line, and again in each other order */
    for (size_t i = 0; i < 3; i++) is_taken(ingest(&first, entry(1, line[i], 5, 3, 9), 0), 0, i + 1);
    for (size_t i = 0; i < 3; i++) IS(ingest(&first, entry(1, line[i], 5, 3, 9), 0).held, 1);
    same_item(&first, 0, 0, 1, 3, 5);
    items(&first, 1);
    for (int o = 0; o < 5; o++) {
        k = store_of(5);
        for (size_t i = 0; i < 3; i++) is_taken(ingest(&k, entry(1, line[orders[o][i]], 5, 3, 9), (uint8_t)(o % 2)), 0, i + 1);
        unchanged(&k, &first);
        drop(&k);
    }
    drop(&first);

    k = store_of(2); /* [61][62] ties and [61][63] is older: the second goes, and its pair alone is told */
    is_taken(ingest(&k, entry(1, "61/62", 5, 3, 9), 0), 0, 1);
    is_taken(ingest(&k, entry(1, "61/63", 5, 2, 9), 0), 0, 2);
    IS(ingest(&k, entry(1, "61", 5, 3, 9), 1).refusal, 7);
    second = copy_of(&k);
    is_taken(vb_ingest_entry_numbers(second.state, STORE(&second), (uint32_t *)second.prune, 4, entry(1, "61", 5, 3, 9), token, 0, local()), 1, 2);
    is_taken(ingest(&k, entry(1, "61", 5, 3, 9), 0), 1, 2);
    IS(k.prune[0].offset, TWO);
    IS(k.prune[0].length, TWO);
    IS(k.prune[1].offset, 0xeeeeeeee);
    unchanged(&k, &second);
    IS(vb_find_entry(k.state, READ(&k), subspace(1), path("61/62"), ignore(0, 0)).found, 1);
    IS(vb_find_entry(k.state, READ(&k), subspace(1), path("61/63"), ignore(0, 0)).found, 0);
    drop(&second);
    drop(&k);

    static const struct { uint64_t time, length; uint8_t digest; size_t pruned; } near[] = {
        {4, 9, 255, 1}, {5, 9, 8, 1}, {5, 2, 9, 1}, {6, 0, 0, 0}, {5, 0, 10, 0}, {5, 4, 9, 0}};
    for (int i = 0; i < 6; i++) { /* [61][62] older, or newer, by the timestamp, the digest or the length: no tie */
        k = store_of(2);
        is_taken(ingest(&k, entry(1, "61/62", near[i].time, near[i].length, near[i].digest), 0), 0, 1);
        if (near[i].pruned) IS(ingest(&k, entry(1, "61", 5, 3, 9), 1).refusal, 7);
        is_taken(ingest(&k, entry(1, "61", 5, 3, 9), 0), near[i].pruned, 2 - near[i].pruned);
        drop(&k);
    }
}

/* The verdict held, and nothing else in the answer but the state. */
static void is_held(vb_ingested r, const kept *k) {
    IS(r.held, 1);
    IS(r.refusal | r.obsolete | r.pruned, 0);
    IS(r.state.count, k->state.count);
    IS(r.state.limit, k->state.limit);
    IS(memcmp(r.state.namespace_id, k->state.namespace_id, 16), 0);
    IS(r.newer.timestamp | r.newer.payload_length | r.newer.subspace_id.low | r.newer.namespace_id[0] | r.newer.payload_digest[0] | r.token[0] | r.token[63], 0);
    same_path(r.newer.path, "");
}

/* The same entry twice: [61] and [61][62], which tie, in a store of two, which is then full. A resend of either is held, with pruning prevented too, with
   another token and origin, with other bytes and ends behind its path, and where a part of its payload is there; nothing changes. */
static void resends(void) {
    static vb_pairs by_value;
    uint8_t other[64];
    memset(other, 1, sizeof other), memset(&by_value, 0xdd, sizeof by_value);
    kept k = store_of(2);
    IS(ingest(&k, entry(1, "61", 5, 3, 9), 0).held, 0);
    IS(ingest(&k, entry(1, "61/62", 5, 3, 9), 0).held, 0);
    k.spt[ARRIVED] = k.tsp[ARRIVED] = 2; /* of [61], available length 2 of 3 */
    IS(vb_find_entry(k.state, READ(&k), subspace(1), path("61"), ignore(0, 0)).lengthy.available, 2);
    kept before = copy_of(&k);
    for (int i = 0; i < 2; i++) {
        vb_entry e = entry(1, i ? "61/62" : "61", 5, 3, 9), elsewhere = e, longer = e, digest = e, later = e, older = e;
        for (size_t n = e.path.count; n < VB_MCC; n++) e.path.ends[n] = SIZE_MAX - n;
        memset(e.path.bytes + 2, 0x5a + i, sizeof e.path.bytes - 2);
        for (int prevent = 0; prevent < 2; prevent++) {
            is_held(ingest(&k, e, prevent), &before);
            is_held(vb_ingest_entry(k.state, STORE(&k), k.prune, 2, e, other, prevent, remote(8)), &before);
            is_held(vb_ingest_entry_numbers(k.state, STORE(&k), (uint32_t *)k.prune, 4, e, other, prevent, remote(8)), &before);
            vb_pairs_ingested v = vb_ingest_entry_by_value(k.state, STORE(&k), by_value, e, other, prevent, remote(8));
            is_held(v.ingested, &before);
            IS(memcmp(v.pairs, by_value.pairs, sizeof v.pairs), 0);
        }
        elsewhere.namespace_id[15] ^= 1, longer.payload_length = 4, digest.payload_digest[31] = 10, later.timestamp = 6, older.payload_length = 2;
        IS(ingest(&k, elsewhere, 1).refusal, 6);
        IS(ingest(&k, longer, 1).refusal, 7); /* no resend: it would prune the stored one */
        IS(ingest(&k, digest, 1).refusal, 7);
        IS(ingest(&k, later, 1).refusal, 7);
        IS(ingest(&k, older, 1).obsolete, 1);
    }
    unchanged(&k, &before);
    drop(&before);
    drop(&k);
}

/* A call that changes a store, by its number: its refusal. */
static uint8_t changes(int call, vb_state s, kept *k, vb_entry e, size_t tally_len) {
    static vb_pairs by_value;
    const vb_area at = area(0, 1, e.path, times(0, 0, 1));
    switch (call) {
    case 0: return vb_ingest_entry(s, READ(k), k->tally, tally_len, k->prune, k->limit, e, token, 1, local()).refusal;
    case 1: return vb_ingest_entry_numbers(s, READ(k), k->tally, tally_len, (uint32_t *)k->prune, 2 * k->limit, e, token, 1, local()).refusal;
    case 2: return vb_ingest_entry_by_value(s, READ(k), k->tally, tally_len, by_value, e, token, 1, local()).ingested.refusal;
    case 3: return vb_forget_entry(s, READ(k), k->tally, tally_len, e.subspace_id, e.path, 1, e.payload_digest).refusal;
    default: return vb_forget_area(s, READ(k), k->tally, tally_len, at, 1, at).refusal;
    }
}

/* Refusal 10: behind 1, 2 and 3, before 4, 6, a verdict of obsolete or held, 7, 8 and 9. Calls that read are not lent the tally. */
static void wrong_tallies(void) {
    kept k = store_of(2);
    IS(ingest(&k, entry(1, "61", 5, 3, 9), 0).refusal, 0);
    IS(ingest(&k, entry(1, "62", 5, 3, 9), 0).refusal, 0);
    vb_entry bad = entry(1, "61", 4, 3, 8), older = bad, elsewhere = bad, resent = entry(1, "61", 5, 3, 9), later = entry(1, "61", 6, 3, 9),
             third = entry(1, "63", 5, 3, 9);
    bad.path = illegal(1);
    elsewhere.namespace_id[3] = 1;
    for (size_t at = 0; at < VB_ITEM * 2; at++) { /* a byte of the item, or behind it */
        k.tally[at] ^= 1;
        kept before = copy_of(&k);
        for (int call = 0; call < 5; call++) {
            IS(changes(call, k.state, &k, bad, VB_ITEM * 2), VB_WRONG_TALLY);
            IS(changes(call, k.state, &k, older, VB_ITEM * 2), VB_WRONG_TALLY);
            IS(changes(call, k.state, &k, elsewhere, VB_ITEM * 2), VB_WRONG_TALLY);
            IS(changes(call, k.state, &k, resent, VB_ITEM * 2), VB_WRONG_TALLY);
            IS(changes(call, k.state, &k, later, VB_ITEM * 2), VB_WRONG_TALLY);
            IS(changes(call, k.state, &k, third, VB_ITEM * 2), VB_WRONG_TALLY);
            IS(changes(call, k.state, &k, bad, VB_ITEM * 2 - 1), VB_SHORT_BUFFER);
            IS(changes(call, k.state, &k, bad, 0), VB_SHORT_BUFFER);
            vb_state other = k.state;
            other.count = 1;
            IS(changes(call, other, &k, bad, VB_ITEM * 2), VB_NOT_WELL_FORMED);
            IS(changes(call, other, &k, bad, VB_ITEM * 2 - 1), VB_SHORT_BUFFER);
            other.limit = 0;
            IS(changes(call, other, &k, bad, VB_ITEM * 2 - 1), VB_BAD_LIMIT);
        }
        unchanged(&k, &before);
        drop(&before);
        IS(vb_count_area(k.state, READ(&k), area(1, 0, path(""), times(0, 0, 1))).count, 2);
        k.tally[at] ^= 1;
    }
    static const uint8_t refusals[][6] = {{4, 0, 6, 0, 7, 8}, {4, 0, 6, 0, 7, 8}, {4, 0, 6, 0, 7, 8}, {4, 9, 9, 0, 0, 0}, {4, 0, 0, 0, 0, 0}};
    for (int call = 0; call < 5; call++) { /* the same calls with the right tally; an area that protects itself drops nothing */
        const vb_entry asked[] = {bad, older, elsewhere, resent, later, third};
        for (int i = 0; i < 6; i++) {
            kept one = copy_of(&k);
            IS(changes(call, one.state, &one, asked[i], VB_ITEM * 2), refusals[call][i]);
            drop(&one);
        }
    }
    drop(&k);
}

/* A recording, or with `forgets` a forgetting of what was recorded: its refusal, and that the state is the one handed in. Without a digest none is expected. */
static uint8_t arrived(kept *k, int forgets, uint64_t in, vb_path p, int digest, uint64_t available) {
    uint8_t expected[32];
    memset(expected, digest < 0 ? 0xab : digest, 32);
    const uint8_t expects = digest < 0 ? 0 : 200;
    vb_available_recorded r = forgets ? vb_forget_payload(k->state, READ(k), subspace(in), p, expects, expected)
                                      : vb_record_available_length(k->state, READ(k), subspace(in), p, expects, expected, available);
    IS(memcmp(r.state.namespace_id, k->state.namespace_id, 16), 0);
    IS(r.state.count, k->state.count);
    IS(r.state.limit, k->state.limit);
    return r.refusal;
}

static uint64_t available(const kept *k, uint64_t in, const char *hex) {
    vb_entry_found f = vb_find_entry(k->state, READ(k), subspace(in), path(hex), ignore(0, 0));
    IS(f.refusal, 0);
    IS(f.found, 1);
    return f.lengthy.available;
}

/* How much has arrived. [61] at 5 and [61][62] at 6 in subspace 1, [61] in subspace 2, of payload lengths 3, 0 and the greatest: records of ONE, TWO and ONE bytes,
   in the subspace-first tree from 0, ONE and ONE + TWO on, in the time-first tree by their times 5, 6 and 4 from ONE, 2 * ONE and 0 on. No byte of their origins,
   which stand behind the available lengths, is 0; whatever is recorded, they stay. */
static void arrivals(void) {
    kept k = store_of(4);
    IS(ingest_from(&k, entry(1, "61", 5, 3, 9), 0, remote(UINT64_MAX)).refusal, 0);
    IS(ingest_from(&k, entry(1, "61/62", 6, 0, 9), 0, remote(UINT64_C(0x1122334455667788))).refusal, 0);
    IS(ingest_from(&k, entry(2, "61", 4, UINT64_MAX, 9), 0, remote(UINT64_MAX - 1)).refusal, 0);
    IS(k.state.count, 3);
    kept filed = copy_of(&k);

    static const struct { int digest; uint8_t available; } asks[] = {{-1, 3}, {9, 1}, {-1, 1}, {9, 0}, {9, 2}};
    for (int i = 0; i < 5; i++) { /* the last byte of the available length in either tree, and no other */
        IS(arrived(&k, 0, 1, path("61"), asks[i].digest, asks[i].available), 0);
        IS(k.spt[ARRIVED], asks[i].available);
        IS(k.tsp[ONE + ARRIVED], asks[i].available);
        IS(available(&k, 1, "61"), asks[i].available);
        kept want = copy_of(&filed);
        want.spt[ARRIVED] = want.tsp[ONE + ARRIVED] = asks[i].available;
        unchanged(&k, &want);
        drop(&want);
    }
    IS(arrived(&k, 1, 1, path("61"), 9, 0), 0);
    unchanged(&k, &filed);
    IS(arrived(&k, 1, 1, path("61"), -1, 0), 0); /* nothing has arrived: done all the same */
    unchanged(&k, &filed);
    IS(arrived(&k, 0, 2, path("61"), -1, UINT64_C(0x0102030405060708)), 0);
    for (int greatest = 0; greatest < 2; greatest++) { /* all eight bytes, and no other */
        kept want = copy_of(&filed);
        for (int i = 0; i < 8; i++) want.spt[ONE + TWO + ARRIVED - 7 + i] = want.tsp[ARRIVED - 7 + i] = (uint8_t)(greatest ? 0xff : i + 1);
        unchanged(&k, &want);
        drop(&want);
        IS(arrived(&k, 0, 2, path("61"), 9, UINT64_MAX), 0);
    }
    IS(available(&k, 2, "61"), UINT64_MAX);
    IS(arrived(&k, 1, 2, path("61"), 9, 0), 0);
    unchanged(&k, &filed);
    IS(arrived(&k, 0, 2, path("61"), 9, UINT64_MAX), 0);
    IS(arrived(&k, 0, 1, path("61/62"), 9, 0), 0); /* 0 of 0 */

    IS(arrived(&k, 0, 1, path("61"), -1, 2), 0);
    kept before = copy_of(&k); /* refusals, in checking order: 4, 11, 9, 12 */
    static const struct { uint64_t in; const char *path; } absent[] = {{1, ""}, {1, "61/62/63"}, {1, "6162"}, {1, "61/."}, {2, "61/62"}, {3, "61"}, {0, "61"}};
    for (int digest = -1; digest < 10; digest += digest < 0 ? 9 : 1)
        for (int forgets = 0; forgets < 2; forgets++) {
            for (int i = 0; i < 7; i++) {
                IS(arrived(&k, forgets, absent[i].in, path(absent[i].path), digest, 0), VB_ABSENT_ENTRY);
                IS(arrived(&k, forgets, absent[i].in, path(absent[i].path), digest, UINT64_MAX), VB_ABSENT_ENTRY);
            }
            for (int i = 0; i < 5; i++) IS(arrived(&k, forgets, 1 + 8 * (i % 2), illegal(i), digest, UINT64_MAX), VB_ILLEGAL_PATH);
        }
    static const uint64_t lengths[] = {0, 3, 4, UINT64_MAX};
    for (int i = 0; i < 4; i++) {
        IS(arrived(&k, 0, 1, path("61"), 8, lengths[i]), VB_OTHER_DIGEST);
        IS(arrived(&k, 1, 1, path("61"), 8, lengths[i]), VB_OTHER_DIGEST);
        IS(arrived(&k, 0, 1, path("61/62"), 8, lengths[i]), VB_OTHER_DIGEST);
        if (i >= 2) IS(arrived(&k, 0, 1, path("61"), 9, lengths[i]), VB_TOO_MUCH_AVAILABLE);
        if (i >= 2) IS(arrived(&k, 0, 1, path("61"), -1, lengths[i]), VB_TOO_MUCH_AVAILABLE);
        if (i >= 1) IS(arrived(&k, 0, 1, path("61/62"), 9, lengths[i]), VB_TOO_MUCH_AVAILABLE);
    }
    IS(arrived(&k, 0, 1, path("61/62"), -1, 1), VB_TOO_MUCH_AVAILABLE);
    unchanged(&k, &before);
    drop(&before);
    uint8_t digest[32];
    memset(digest, 8, 32);
    IS(vb_forget_entry(k.state, STORE(&k), subspace(3), path("61"), 1, digest).refusal, 0); /* forgetting an absent entry is done, as before */

    const vb_area all = area(1, 0, path(""), times(0, 0, 1)); /* the flag goes by what was recorded */
    IS(vb_query_area(k.state, READ(&k), all, ignore(1, 0), NULL, 0).offset, ONE);
    IS(arrived(&k, 0, 1, path("61"), -1, 3), 0);
    IS(vb_query_area(k.state, READ(&k), all, ignore(1, 0), NULL, 0).length, ONE);
    IS(vb_query_area(k.state, READ(&k), all, ignore(1, 0), NULL, 0).offset, 0);
    IS(vb_query_range_found(k.state, READ(&k), range(path(""), path(""), 1), ignore(1, 0), NULL, 0).found, 1);
    IS(vb_query_area(k.state, READ(&k), all, ignore(1, 0), k.spt + ONE, TWO - VB_VALUE).offset, ONE + TWO);
    IS(vb_find_entry(k.state, READ(&k), subspace(1), path("61"), ignore(1, 0)).found, 1);
    IS(arrived(&k, 0, 1, path("61"), -1, 2), 0);
    IS(vb_find_entry(k.state, READ(&k), subspace(1), path("61"), ignore(1, 0)).found, 0);
    IS(vb_count_area(k.state, READ(&k), all).count, 3);

    k.tally[27] ^= 1; /* the tally is not lent, right or wrong */
    IS(arrived(&k, 0, 1, path("61"), 9, 1), 0);
    IS(arrived(&k, 1, 1, path("61"), 9, 0), 0);
    k.tally[27] ^= 1;
    IS(arrived(&k, 0, 1, path("61"), 9, 2), 0);
    IS(ingest(&k, entry(1, "61", 5, 3, 9), 0).held, 1); /* a resend keeps what there is */
    IS(available(&k, 1, "61"), 2);
    IS(ingest(&k, entry(1, "61", 5, 4, 9), 0).pruned, 1); /* another entry at the place starts at 0 */
    IS(available(&k, 1, "61"), 0);
    IS(arrived(&k, 0, 1, path("61"), 9, 4), 0);
    k.state = vb_forget_entry(k.state, STORE(&k), subspace(1), path("61"), 0, digest).state;
    IS(arrived(&k, 0, 1, path("61"), -1, 4), VB_ABSENT_ENTRY);
    IS(ingest(&k, entry(1, "61", 5, 4, 9), 0).refusal, 0); /* forgotten and filed again: 0 */
    IS(available(&k, 1, "61"), 0);

    k.spt[ARRIVED] = 1; /* in one tree only: no store */
    IS(arrived(&k, 0, 9, illegal(0), 8, UINT64_MAX), VB_NOT_WELL_FORMED);
    IS(arrived(&k, 1, 1, path("61"), 9, 0), VB_NOT_WELL_FORMED);
    IS(k.spt[ARRIVED], 1);
    k.spt[ARRIVED] = 0;
    for (int which = 0; which < 4; which++) /* a tree a byte too short, or a directory a number */
        for (int forgets = 0; forgets < 2; forgets++) {
            const size_t tree[2] = {VB_RECORD_MOST * k.limit - (which == 0), VB_RECORD_MOST * k.limit - (which == 2)};
            const size_t dir[2] = {2 * k.limit - (which == 1), 2 * k.limit - (which == 3)};
            vb_available_recorded r = forgets ? vb_forget_payload(k.state, k.spt, tree[0], k.spt_dir, dir[0], k.tsp, tree[1], k.tsp_dir, dir[1], subspace(1), illegal(0), 1, digest)
                : vb_record_available_length(k.state, k.spt, tree[0], k.spt_dir, dir[0], k.tsp, tree[1], k.tsp_dir, dir[1], subspace(1), illegal(0), 1, digest, UINT64_MAX);
            IS(r.refusal, VB_SHORT_BUFFER);
            IS(r.state.count, k.state.count);
        }
    IS(arrived(&k, 0, 1, path("61"), 9, 4), 0);
    drop(&filed);
    drop(&k);
}

/* The nine bytes at a record's end, in both trees; and what a lookup shows. */
static void came_from(const kept *k, uint64_t in, const char *hex, size_t spt_place, size_t tsp_place, uint8_t kind, uint64_t session) {
    const uint8_t *ends[2] = {k->spt + k->spt_dir[2 * spt_place] + k->spt_dir[2 * spt_place + 1], k->tsp + k->tsp_dir[2 * tsp_place] + k->tsp_dir[2 * tsp_place + 1]};
    for (int t = 0; t < 2; t++) {
        IS(ends[t][-9], kind);
        for (int i = 0; i < 8; i++) IS(ends[t][i - 8], (uint8_t)(session >> (8 * (7 - i))));
    }
    vb_entry_found f = vb_find_entry(k->state, READ(k), subspace(in), path(hex), ignore(0, 0));
    IS(f.refusal, 0);
    IS(f.found, 1);
    IS(f.lengthy.origin.remote, kind);
    IS(f.lengthy.origin.session, session);
    vb_part p = vb_query_area(k->state, READ(k), area(0, in, path(hex), times(0, 0, 1)), ignore(0, 0), NULL, 0); /* the listing shows the same bytes */
    const uint8_t *value = k->spt + p.offset + p.length - VB_VALUE;
    IS(value + VB_VALUE_ORIGIN == ends[0] - 9, 1);
    IS(value + VB_VALUE_SESSION == ends[0] - 8, 1);
}

/* Files by one of the three calls. */
static vb_ingested file_by(int call, kept *k, vb_entry e, vb_origin from) {
    static vb_pairs by_value;
    vb_ingested r = call == 0   ? vb_ingest_entry(k->state, STORE(k), k->prune, k->limit, e, token, 0, from)
                    : call == 1 ? vb_ingest_entry_numbers(k->state, STORE(k), (uint32_t *)k->prune, 2 * k->limit, e, token, 0, from)
                                : vb_ingest_entry_by_value(k->state, STORE(k), by_value, e, token, 0, from).ingested;
    k->state = r.state;
    return r;
}

/* Where entries came from: [61] at 5 and, of the origin of the line below, [62] at 4, which is the second by key and the first by time. */
static void origins(void) {
    static const struct { uint8_t remote; uint64_t session; uint8_t kind; uint64_t kept; } asks[] = {
        {0, 0, 0, 0}, {0, 7, 0, 0}, {0, UINT64_MAX, 0, 0}, {1, 7, 1, 7}, {1, 0, 1, 0}, {1, UINT64_MAX, 1, UINT64_MAX},
        {1, UINT64_C(0x0102030405060708), 1, UINT64_C(0x0102030405060708)}, {2, 7, 1, 7}, {128, 0, 1, 0}, {255, 7, 1, 7}, {255, UINT64_MAX, 1, UINT64_MAX}};
    enum { ASKS = 11 };
    uint8_t digest[32], other[64];
    memset(digest, 9, 32), memset(other, 1, 64);
    for (int call = 0; call < 3; call++)
        for (int i = 0; i < ASKS; i++) {
            const int n = (i + 1) % ASKS;
            const vb_origin from = origin(asks[i].remote, asks[i].session), next = origin(asks[n].remote, asks[n].session);
            kept k = store_of(3), first = store_of(3);
            is_taken(file_by(call, &k, entry(1, "61", 5, 3, 9), next), 0, 1);
            is_taken(file_by(call, &k, entry(1, "62", 4, 3, 9), from), 0, 2);
            is_taken(ingest_from(&first, entry(1, "61", 5, 3, 9), 0, next), 0, 1);
            is_taken(ingest_from(&first, entry(1, "62", 4, 3, 9), 0, from), 0, 2);
            same_buffers(&k, &first);
            came_from(&k, 1, "61", 0, 1, asks[n].kind, asks[n].kept);
            came_from(&k, 1, "62", 1, 0, asks[i].kind, asks[i].kept);
            for (int again = 0; again < 3; again++) { /* held, whatever origin comes now */
                is_held(file_by(again, &k, entry(1, "61", 5, 3, 9), from), &k);
                is_held(file_by(again, &k, entry(1, "62", 4, 3, 9), next), &k);
                is_held(vb_ingest_entry(k.state, STORE(&k), k.prune, 3, entry(1, "62", 4, 3, 9), other, 1, origin(3, 99)), &k);
                vb_ingested r = file_by(again, &k, entry(1, "61", 5, 2, 9), from); /* obsolete: no origin is shown, and none is kept */
                IS(r.obsolete, 1);
                IS(r.refusal | r.held | r.pruned, 0);
                IS(r.newer.timestamp, 5);
                IS(r.newer.payload_length, 3);
                IS(r.token[0], 0x42);
                same_path(r.newer.path, "61");
                IS(vb_ingest_entry(k.state, STORE(&k), k.prune, 3, entry(1, "61", 6, 2, 9), token, 1, from).refusal, 7);
            }
            unchanged(&k, &first);
            shows_nothing(vb_find_entry(k.state, READ(&k), subspace(1), path("62"), ignore(1, 0)), 0); /* hidden by the flag, absent, refused */
            shows_nothing(vb_find_entry(k.state, READ(&k), subspace(1), path("63"), ignore(0, 0)), 0);
            shows_nothing(vb_find_entry(k.state, READ(&k), subspace(2), path("62"), ignore(0, 0)), 0);
            shows_nothing(vb_find_entry(k.state, READ(&k), subspace(1), illegal(2), ignore(0, 0)), 4);

            IS(arrived(&k, 0, 1, path("62"), 9, 2), 0); /* what has arrived leaves them, also where the flag then shows the entry */
            came_from(&k, 1, "62", 1, 0, asks[i].kind, asks[i].kept);
            IS(arrived(&k, 0, 1, path("62"), -1, 3), 0);
            came_from(&k, 1, "62", 1, 0, asks[i].kind, asks[i].kept);
            IS(vb_find_entry(k.state, READ(&k), subspace(1), path("62"), ignore(1, 0)).lengthy.origin.session, asks[i].kept);
            is_held(ingest_from(&k, entry(1, "62", 4, 3, 9), 0, next), &k);
            IS(available(&k, 1, "62"), 3);
            IS(arrived(&k, 1, 1, path("62"), 9, 0), 0);
            unchanged(&k, &first);
            drop(&first);

            is_taken(file_by(call, &k, entry(1, "62", 5, 3, 9), remote(77)), 1, 2); /* what replaces an entry has its own */
            came_from(&k, 1, "62", 1, 1, 1, 77);
            came_from(&k, 1, "61", 0, 0, asks[n].kind, asks[n].kept);
            k.state = vb_forget_entry(k.state, STORE(&k), subspace(1), path("62"), 1, digest).state;
            shows_nothing(vb_find_entry(k.state, READ(&k), subspace(1), path("62"), ignore(0, 0)), 0);
            is_taken(file_by(call, &k, entry(1, "62", 5, 3, 9), local()), 0, 2); /* forgotten and filed again */
            came_from(&k, 1, "62", 1, 1, 0, 0);
            is_taken(file_by(call, &k, entry(1, "62/63", 5, 3, 9), remote(78)), 0, 3); /* a tie below has its own too */
            came_from(&k, 1, "62", 1, 1, 0, 0);
            came_from(&k, 1, "62/63", 2, 2, 1, 78);
            is_taken(file_by(call, &k, entry(1, "", 6, 0, 9), from), 3, 1);
            came_from(&k, 1, "", 0, 0, asks[i].kind, asks[i].kept);
            IS(k.spt_dir[1], NONE);
            drop(&k);
        }
}

/* Writes nine bytes to the end of a record, in the subspace-first tree (1), the time-first tree (2) or both (3); both trees have records of ONE bytes. */
static void write_origin(kept *k, size_t spt_place, size_t tsp_place, int trees, uint8_t kind, uint64_t session) {
    for (int t = 0; t < 2; t++) {
        uint8_t *end = (t ? k->tsp + ONE * tsp_place : k->spt + ONE * spt_place) + ONE;
        if (!(trees & (1 << t))) continue;
        end[-9] = kind;
        for (int i = 0; i < 8; i++) end[i - 8] = (uint8_t)(session >> (8 * (7 - i)));
    }
}

/* Nine bytes that are no origin, or another in the other tree: no store, in every call. [61] at 5 is local, [62] at 4 and [63] at 3 came in sessions 7 and 0. */
static void damaged_origins(void) {
    const size_t full = VB_RECORD_MOST * 3;
    static const uint8_t kinds[] = {0, 1, 1};
    static const uint64_t sessions[] = {0, 7, 0};
    static const struct { uint8_t kind; uint64_t session; } wrong[] = {
        {2, 0}, {2, 7}, {3, 0}, {128, 7}, {255, 0}, {255, UINT64_MAX}, {0, 1}, {0, 7}, {0, UINT64_C(1) << 56}, {0, UINT64_C(1) << 63}, {0, UINT64_MAX}};
    static const struct { uint8_t kind; uint64_t session; } right[] = {{0, 0}, {1, 0}, {1, 1}, {1, 7}, {1, UINT64_C(7) << 56}, {1, UINT64_MAX}};
    kept k = store_of(3);
    IS(ingest(&k, entry(1, "61", 5, 3, 9), 0).refusal, 0);
    IS(ingest_from(&k, entry(1, "62", 4, 3, 9), 0, remote(7)).refusal, 0);
    IS(ingest_from(&k, entry(1, "63", 3, 3, 9), 0, remote(0)).refusal, 0);
    static const char *const at[] = {"61", "62", "63"};
    for (size_t n = 0; n < 3; n++) {
        came_from(&k, 1, at[n], n, 2 - n, kinds[n], sessions[n]);
        for (int trees = 1; trees < 4; trees++) {
            for (int w = 0; w < 11; w++) {
                write_origin(&k, n, 2 - n, trees, wrong[w].kind, wrong[w].session);
                kept before = copy_of(&k);
                for (int legal = 0; legal < 2; legal++) all_refuse(&k, k.state, full, full, legal, VB_NOT_WELL_FORMED);
                unchanged(&k, &before);
                drop(&before);
            }
            for (unsigned kind = 2; kind < 256; kind++) { /* every other kind */
                write_origin(&k, n, 2 - n, trees, (uint8_t)kind, 0);
                IS(vb_find_entry(k.state, READ(&k), subspace(9), path("61"), ignore(0, 0)).refusal, VB_NOT_WELL_FORMED);
                IS(changes(0, k.state, &k, entry(1, "64", 5, 3, 9), VB_ITEM * 3), VB_NOT_WELL_FORMED);
            }
            for (int bit = 0; bit < 64; bit++) { /* local, and any one bit of a session number */
                write_origin(&k, n, 2 - n, trees, 0, UINT64_C(1) << bit);
                IS(vb_find_entry(k.state, READ(&k), subspace(9), path("61"), ignore(0, 0)).refusal, VB_NOT_WELL_FORMED);
            }
            for (int w = 0; w < 6; w++) { /* any origin in both trees is well-formed, in one tree only if it is the other's */
                write_origin(&k, n, 2 - n, 3, kinds[n], sessions[n]);
                write_origin(&k, n, 2 - n, trees, right[w].kind, right[w].session);
                kept before = copy_of(&k);
                if (trees == 3 || (right[w].kind == kinds[n] && right[w].session == sessions[n])) {
                    came_from(&k, 1, at[n], n, 2 - n, right[w].kind, right[w].session);
                    IS(ingest(&k, entry(1, "64", 5, 3, 9), 0).refusal, VB_FULL);
                    is_held(ingest(&k, entry(1, at[n], 5 - n, 3, 9), 0), &k);
                } else for (int legal = 0; legal < 2; legal++) all_refuse(&k, k.state, full, full, legal, VB_NOT_WELL_FORMED);
                unchanged(&k, &before);
                drop(&before);
            }
        }
        write_origin(&k, n, 2 - n, 3, kinds[n], sessions[n]);
    }
    IS(vb_count_area(k.state, READ(&k), area(1, 0, path(""), times(0, 0, 1))).count, 3);
    drop(&k);
}

/* Takes the last nine bytes from each record of a tree, or gives each nine zeros. */
static void recut(const kept *k, uint8_t *tree, uint32_t *dir, int longer) {
    const size_t room = VB_RECORD_MOST * k->limit;
    uint8_t *from = (uint8_t *)memcpy(lent(room), tree, room);
    memset(tree, 0, room);
    for (size_t i = 0, at = 0; i < k->state.count; i++) {
        const uint32_t length = longer ? dir[2 * i + 1] + 9 : dir[2 * i + 1] - 9;
        memcpy(tree + at, from + dir[2 * i], longer ? length - 9 : length);
        dir[2 * i] = (uint32_t)at, dir[2 * i + 1] = length;
        at += length;
    }
    free(from);
}

/* Trees that are shorter than 419 bytes for each entry of the limit, among them those of edition 5; and a store of edition 5 in longer ones. */
static void edition_5(void) {
    static const uint8_t namespace_id[16] = {0};
    enum { RECORD_MOST_5 = 410, LIMIT = 3 };
    const size_t room = VB_RECORD_MOST * LIMIT;
    IS(VB_RECORD_MOST, 419);
    IS(VB_RECORD_MOST, VB_KEY_MOST + VB_VALUE);
    IS(VB_VALUE, VB_VALUE_SESSION + 8);
    static const size_t cut[] = {RECORD_MOST_5 * LIMIT, VB_RECORD_MOST *LIMIT - 1, 0};
    kept k = store_of(LIMIT);
    for (int filed = 0; filed < 2; filed++) { /* of no entry, and of one */
        kept before = copy_of(&k);
        for (int i = 0; i < 3; i++)
            for (int trees = 1; trees < 4; trees++) {
                const size_t spt_len = trees & 1 ? cut[i] : room, tsp_len = trees & 2 ? cut[i] : room;
                IS(vb_open(namespace_id, LIMIT, k.spt, spt_len, k.spt_dir, 2 * LIMIT, k.tsp, tsp_len, k.tsp_dir, 2 * LIMIT, k.tally, VB_ITEM * LIMIT).refusal, VB_SHORT_BUFFER);
                for (int legal = 0; legal < 2; legal++) all_refuse(&k, k.state, spt_len, tsp_len, legal, VB_SHORT_BUFFER);
            }
        unchanged(&k, &before);
        drop(&before);
        IS(ingest(&k, entry(1, "61", 5, 3, 9), 0).held, filed); /* and of the whole length it is taken */
    }
    IS(ingest(&k, entry(1, "62", 4, 3, 9), 0).refusal, 0);
    IS(ingest(&k, entry(2, "61/62", 6, 3, 9), 0).refusal, 0);
    IS(arrived(&k, 0, 1, path("61"), 9, 2), 0);

    kept now = copy_of(&k);
    recut(&k, k.spt, k.spt_dir, 0), recut(&k, k.tsp, k.tsp_dir, 0); /* as edition 5 kept it */
    IS(k.spt_dir[1], ONE - 9);
    kept before = copy_of(&k);
    for (int legal = 0; legal < 2; legal++) all_refuse(&k, k.state, room, room, legal, VB_NOT_WELL_FORMED);
    unchanged(&k, &before);
    drop(&before);
    recut(&k, k.spt, k.spt_dir, 1), recut(&k, k.tsp, k.tsp_dir, 1); /* nine zeros behind each value: carried over */
    unchanged(&k, &now);
    came_from(&k, 1, "61", 0, 1, 0, 0);
    came_from(&k, 1, "62", 1, 0, 0, 0);
    came_from(&k, 2, "61/62", 2, 2, 0, 0);
    IS(available(&k, 1, "61"), 2);
    is_taken(ingest_from(&k, entry(2, "61", 7, 3, 9), 0, remote(5)), 1, 3);
    drop(&now);
    drop(&k);
}

/* The key of a record: all but its last 121 bytes, of any number of them, and nothing of fewer. */
static void record_keys(void) {
    static const size_t more[] = {VB_RECORD_MOST, VB_RECORD_MOST + 1, 65536 + VB_VALUE, 100000};
    for (size_t n = 0; n < 305; n++) {
        const size_t len = n < 301 ? n : more[n - 301];
        uint8_t *record = (uint8_t *)lent(len);
        vb_part p = vb_record_key(len ? record : NULL, len);
        IS(p.offset, 0);
        IS(p.length, len < 121 ? 0 : len - 121);
        for (size_t i = 0; i < len; i++) if (record[i] != 0xee) IS(i, SIZE_MAX);
        free(record);
    }
}

/* A key, or bytes that are none. */
typedef struct { uint8_t bytes[VB_KEY_MOST + 2]; size_t len; } key;

static key key_of(uint64_t in, const char *hex, uint64_t timestamp) {
    key a;
    memset(&a, 0xee, sizeof a);
    vb_encoded e = vb_encode_spt_entry_key(subspace(in), path(hex), timestamp, a.bytes, VB_KEY_MOST);
    IS(e.refusal, 0);
    a.len = e.length;
    return a;
}

/* What a listing asks for, and the key that it remembers. */
typedef struct { int by_range; vb_area area; vb_range range; vb_ignore ignore; key last; } listing;

/* A listing of an area, or of the 3d range that includes the same, at its start. */
static listing listing_of(int by_range, vb_area a, vb_ignore i) {
    listing l;
    memset(&l, 0xee, sizeof l);
    l.by_range = by_range, l.area = a, l.ignore = i, l.last.len = 0;
    vb_area_range r = vb_area_to_range(a);
    IS(r.refusal, 0);
    l.range = r.range;
    return l;
}

static listing all_of(int by_range) { return listing_of(by_range, area(1, 0, path(""), times(0, 0, 1)), ignore(0, 0)); }

/* What both calls of a step answer: the number of the record that it gives; or that the listing is finished; or the refusal, behind REFUSED. The key is lent in a
   buffer of its own length. */
enum { FINISHED = 2000, REFUSED = 3000 };
static size_t step(const kept *k, const listing *l) {
    const size_t len = l->last.len;
    uint8_t *copy = (uint8_t *)lent(len), *last = len ? copy : NULL;
    if (len) memcpy(copy, l->last.bytes, len);
    const vb_listed f = l->by_range ? vb_query_range_found(k->state, READ(k), l->range, l->ignore, last, len)
                                    : vb_query_area_found(k->state, READ(k), l->area, l->ignore, last, len);
    const vb_part p = l->by_range ? vb_query_range(k->state, READ(k), l->range, l->ignore, last, len)
                                  : vb_query_area(k->state, READ(k), l->area, l->ignore, last, len);
    if (len) IS(memcmp(copy, l->last.bytes, len), 0);
    free(copy);
    IS(f.found, p.length != 0);
    if (f.refusal) IS(f.found, 0);
    if (f.refusal) IS(p.offset, 0);
    if (f.refusal) return REFUSED + f.refusal;
    if (!f.found) IS(p.offset, 0);
    if (!f.found) return FINISHED;
    size_t n = 0;
    while (n < k->state.count && k->spt_dir[2 * n] != p.offset) n++;
    IS(n < k->state.count, 1);
    IS(p.length, k->spt_dir[2 * n + 1]);
    return n;
}

/* The record of a number, of which the listing remembers the key. */
static void remember(const kept *k, listing *l, size_t n) {
    const uint8_t *record = k->spt + k->spt_dir[2 * n];
    l->last.len = vb_record_key(record, k->spt_dir[2 * n + 1]).length;
    IS(l->last.len <= VB_KEY_MOST, 1);
    memcpy(l->last.bytes, record, l->last.len);
}

/* The listing goes on with this entry, or is finished. */
static void gives(const kept *k, listing *l, uint64_t in, const char *hex, uint64_t timestamp) {
    size_t n = step(k, l);
    IS(n < k->state.count, 1);
    remember(k, l, n);
    same_triple(vb_decode_spt_entry_key(l->last.bytes, l->last.len), 0, hex, in, timestamp);
}

static void is_finished(const kept *k, const listing *l) { IS(step(k, l), FINISHED); }

/* A step from this key, whatever the listing remembers. */
static size_t step_from(const kept *k, listing l, key last) {
    l.last = last;
    return step(k, &l);
}

/* Forgets the entry at a path of subspace 1. */
static void forget(kept *k, const char *hex) {
    static const uint8_t digest[32] = {0};
    vb_entry_forgotten g = vb_forget_entry(k->state, STORE(k), subspace(1), path(hex), 0, digest);
    IS(g.refusal, 0);
    IS(g.state.count + 1, k->state.count);
    k->state = g.state;
}

/* [61], [62] and [63] at 5 in subspace 1, each of 3 bytes and digest 9; room for six. */
static kept three(void) {
    kept k = store_of(6);
    is_taken(ingest(&k, entry(1, "61", 5, 3, 9), 0), 0, 1);
    is_taken(ingest(&k, entry(1, "62", 5, 3, 9), 0), 0, 2);
    is_taken(ingest(&k, entry(1, "63", 5, 3, 9), 0), 0, 3);
    return k;
}

/* Filing while a listing is open, by an area's calls and by a 3d range's. */
static void open_listings(int by_range) {
    kept k = three(); /* the record of the remembered key is not given again, and need neither be stored nor match */
    listing l = all_of(by_range);
    gives(&k, &l, 1, "61", 5);
    listing second = l;
    gives(&k, &second, 1, "62", 5);
    forget(&k, "61");
    second = l;
    gives(&k, &second, 1, "62", 5);
    IS(step_from(&k, l, key_of(1, "61/61", 9)), 0); /* the key of no entry */
    listing below = listing_of(by_range, area(0, 1, path("62"), times(0, 0, 1)), ignore(0, 0));
    IS(step_from(&k, below, key_of(1, "61", 5)), 0);
    IS(step_from(&k, below, key_of(9, "61", 5)), FINISHED);
    IS(step_from(&k, below, key_of(0, "62", 5)), 0);
    drop(&k);

    k = three(); /* another entry at the place: a later one has another key, which is above; one of a greater digest has the same key */
    l = all_of(by_range);
    gives(&k, &l, 1, "61", 5);
    is_taken(ingest(&k, entry(1, "61", 6, 3, 9), 0), 1, 3);
    gives(&k, &l, 1, "61", 6);
    is_taken(ingest(&k, entry(1, "61", 6, 3, 10), 0), 1, 3);
    gives(&k, &l, 1, "62", 5);
    is_taken(ingest(&k, entry(1, "62", 5, 3, 10), 0), 1, 3);
    is_taken(ingest(&k, entry(1, "63", 5, 4, 9), 0), 1, 3); /* before its turn, in the place of one that was not given yet: the new one */
    IS(step(&k, &l), 2);
    IS(k.spt[k.spt_dir[4] + 29 + VB_VALUE_PAYLOAD_LENGTH + 7], 4);
    gives(&k, &l, 1, "63", 5);
    is_finished(&k, &l);
    is_taken(ingest(&k, entry(1, "63", 5, 5, 9), 0), 1, 3);
    is_finished(&k, &l);
    is_taken(ingest(&k, entry(1, "63", 6, 0, 9), 0), 1, 3); /* finished, and then there is more */
    gives(&k, &l, 1, "63", 6);
    is_finished(&k, &l);
    drop(&k);

    k = three(); /* what arrives behind is not given, what arrives before us is; what is pruned before its turn is not, what pruned it is if its key is above */
    l = all_of(by_range);
    gives(&k, &l, 1, "61", 5);
    gives(&k, &l, 1, "62", 5);
    is_taken(ingest(&k, entry(1, "60", 7, 3, 9), 0), 0, 4);
    is_taken(ingest(&k, entry(1, "61/ff", 5, 3, 9), 0), 0, 5);
    is_taken(ingest(&k, entry(1, "62/61", 5, 3, 9), 0), 0, 6);
    gives(&k, &l, 1, "62/61", 5);
    second = l;
    is_taken(ingest(&k, entry(1, "62", 6, 3, 9), 0), 2, 5); /* the new [62] is behind [62][61], which it pruned */
    gives(&k, &l, 1, "63", 5);
    is_finished(&k, &l);
    is_taken(ingest(&k, entry(1, "", 8, 0, 9), 0), 5, 1);
    is_finished(&k, &second);
    second.last.len = 0;
    gives(&k, &second, 1, "", 8);
    is_taken(ingest(&k, entry(1, "", 9, 0, 9), 0), 1, 1);
    gives(&k, &second, 1, "", 9);
    drop(&k);

    k = three(); /* forgotten and filed again: given if it is above the remembered key when its turn comes */
    l = all_of(by_range);
    gives(&k, &l, 1, "61", 5);
    forget(&k, "61"), forget(&k, "63");
    is_taken(ingest(&k, entry(1, "61", 5, 3, 9), 0), 0, 2);
    is_taken(ingest(&k, entry(1, "63", 5, 3, 9), 0), 0, 3);
    second = l;
    gives(&k, &l, 1, "62", 5);
    gives(&k, &l, 1, "63", 5);
    is_finished(&k, &l);
    forget(&k, "62");
    gives(&k, &second, 1, "63", 5);
    is_taken(ingest(&k, entry(1, "62", 5, 3, 9), 0), 0, 3);
    is_finished(&k, &second);
    drop(&k);

    k = three(); /* the part lies in the tree that a filing writes: of the bytes that stand there then, [62] is given again */
    l = listing_of(by_range, area(1, 0, path(""), times(0, 0, 1)), ignore(0, 0));
    forget(&k, "61");
    gives(&k, &l, 1, "62", 5);
    IS(memcmp(k.spt, l.last.bytes, l.last.len), 0);
    is_taken(ingest(&k, entry(1, "61", 5, 3, 9), 0), 0, 3);
    IS(memcmp(k.spt, l.last.bytes, l.last.len) != 0, 1);
    second = l;
    memcpy(second.last.bytes, k.spt, second.last.len);
    gives(&k, &second, 1, "62", 5);
    gives(&k, &l, 1, "63", 5);
    is_finished(&k, &l);
    drop(&k);

    k = three(); /* passed over as incomplete, and then complete: behind, not given; before us, given; and incomplete again before its turn: not given */
    l = listing_of(by_range, area(1, 0, path(""), times(0, 0, 1)), ignore(1, 0));
    is_finished(&k, &l);
    IS(arrived(&k, 0, 1, path("62"), -1, 3), 0);
    gives(&k, &l, 1, "62", 5);
    second = l;
    IS(arrived(&k, 0, 1, path("61"), -1, 3), 0);
    is_finished(&k, &l);
    IS(arrived(&k, 0, 1, path("63"), -1, 3), 0);
    IS(step(&k, &l), 2);
    IS(arrived(&k, 1, 1, path("63"), -1, 0), 0);
    is_finished(&k, &l);
    IS(arrived(&k, 1, 1, path("62"), -1, 0), 0); /* the remembered key's record no longer matches */
    IS(arrived(&k, 0, 1, path("63"), -1, 3), 0);
    gives(&k, &second, 1, "63", 5);
    is_finished(&k, &second);
    second.last.len = 0;
    gives(&k, &second, 1, "61", 5);
    drop(&k);
}

/* A remembered key that is none, whatever else there is: 5, but behind 1, 2, 3 and 4. */
static void is_no_key(kept *k, const uint8_t *bytes, size_t len) {
    key bad;
    memset(&bad, 0, sizeof bad);
    memcpy(bad.bytes, bytes, len), bad.len = len;
    IS(vb_decode_spt_entry_key(bad.bytes, len).refusal, VB_NO_KEY);
    for (int by_range = 0; by_range < 2; by_range++) {
        listing l = all_of(by_range), none = listing_of(by_range, area(0, 77, path("61"), times(9, 3, 0)), ignore(255, 255)), wrong = l;
        IS(step_from(k, l, bad), REFUSED + VB_NO_KEY);
        IS(step_from(k, none, bad), REFUSED + VB_NO_KEY); /* also where nothing matches */
        wrong.area.path = wrong.range.paths.start = illegal((int)(len % 5));
        IS(step_from(k, wrong, bad), REFUSED + VB_ILLEGAL_PATH);
        kept other = *k;
        other.state.count--;
        IS(step_from(&other, wrong, bad), REFUSED + VB_NOT_WELL_FORMED);
        other.limit--;
        IS(step_from(&other, wrong, bad), REFUSED + VB_SHORT_BUFFER);
        other.state.limit = 0;
        IS(step_from(&other, wrong, bad), REFUSED + VB_BAD_LIMIT);
    }
}

/* Which keys may be remembered, and where a listing goes on from them. [61] and [62] at 5 in subspace 1, [61] at 5 in subspace 3. */
static void remembered_keys(void) {
    kept k = store_of(4);
    is_taken(ingest(&k, entry(1, "61", 5, 3, 9), 0), 0, 1);
    is_taken(ingest(&k, entry(1, "62", 5, 3, 9), 0), 0, 2);
    is_taken(ingest(&k, entry(3, "61", 5, 3, 9), 0), 0, 3);
    const kept before = copy_of(&k);
    static const struct { uint64_t in; const char *path; uint64_t timestamp; size_t gives; } from[] = {
        {0, "", 0, 0}, {0, "ff/ff", UINT64_MAX, 0}, {1, "", 0, 0}, {1, "", UINT64_MAX, 0}, {1, "60/ff", 9, 0}, {1, "61", 0, 0}, {1, "61", 4, 0}, /* below all */
        {1, "61", 5, 1}, {1, "61", 6, 1}, {1, "61", UINT64_MAX, 1}, {1, "61/.", 0, 1}, {1, "61/00", 0, 1}, {1, "6100", 0, 1}, {1, "62", 4, 1},
        {1, "62", 5, 2}, {1, "62/62", 5, 2}, {1, "ff", 0, 2}, {2, "", 0, 2}, {2, "ff", UINT64_MAX, 2}, {3, "", 9, 2}, {3, "61", 4, 2}, /* another subspace: by the bytes */
        {3, "61", 5, FINISHED}, {3, "61", 6, FINISHED}, {3, "61/61/61/61/61/61/61/61", 0, FINISHED}, {3, "62", 0, FINISHED}, {4, "", 0, FINISHED},
        {UINT64_MAX, "", 0, FINISHED}, {UINT64_MAX, "ff", UINT64_MAX, FINISHED}}; /* above all */
    for (int by_range = 0; by_range < 2; by_range++)
        for (size_t i = 0; i < sizeof from / sizeof *from; i++) {
            const key last = key_of(from[i].in, from[i].path, from[i].timestamp);
            IS(step_from(&k, all_of(by_range), last), from[i].gives);
            const listing third = listing_of(by_range, area(0, 3, path("61"), times(5, 6, 0)), ignore(0, 0)); /* where the first two do not match */
            IS(step_from(&k, third, last), from[i].gives == FINISHED ? FINISHED : 2);
            listing turned = listing_of(by_range, area(1, 0, path(""), times(6, 5, 0)), ignore(0, 0)); /* a start above its end: nothing is between */
            IS(step_from(&k, turned, last), FINISHED);
            turned.range = range(path("62"), path("61"), 0), turned.by_range = 1;
            IS(step_from(&k, turned, last), FINISHED);
            turned.range = range(path(""), path(""), 1);
            turned.range.subspaces.start = subspace(4), turned.range.subspaces.open = 0;
            IS(step_from(&k, turned, last), FINISHED);
        }
    vb_path zeros = path("");
    memset(zeros.bytes, 0, VB_MPL);
    for (size_t i = 0; i < VB_MCC; i++) zeros.ends[i] = 16 * (i + 1);
    zeros.count = VB_MCC;
    key longest;
    memset(&longest, 0, sizeof longest);
    longest.len = vb_encode_spt_entry_key(subspace(1), zeros, 5, longest.bytes, VB_KEY_MOST).length;
    IS(longest.len, 298);
    for (int by_range = 0; by_range < 2; by_range++) IS(step_from(&k, all_of(by_range), longest), 0);

    const key good = key_of(1, "61", 5);
    static const uint8_t by_hand[29] = {0, 0, 0, 0, 0, 0, 0, 0, 0, 0, 0, 0, 0, 0, 0, 1, 0x61, 0, 1, 0, 0, 0, 0, 0, 0, 0, 0, 0, 5};
    IS(good.len, 29);
    IS(memcmp(good.bytes, by_hand, 29), 0);
    uint8_t bytes[300];
    for (size_t cut = 1; cut < 29; cut++) is_no_key(&k, good.bytes, cut); /* a key cut anywhere but to nothing */
    static const uint8_t behind[] = {0, 1, 0x61, 0xff};
    for (int i = 0; i < 4; i++) { /* a byte behind it */
        memcpy(bytes, good.bytes, 29), bytes[29] = behind[i];
        is_no_key(&k, bytes, 30);
        memcpy(bytes, longest.bytes, 298), bytes[298] = behind[i];
        is_no_key(&k, bytes, 299);
    }
    is_no_key(&k, longest.bytes, 297);
    memset(bytes, 0, sizeof bytes);
    is_no_key(&k, bytes, 1), is_no_key(&k, bytes, 25), is_no_key(&k, bytes, 27), is_no_key(&k, bytes, 299), is_no_key(&k, bytes, 300); /* 26 zeros are a key */
    for (size_t n = 7; n < 10; n++) { /* of seven and eight components, and of nine */
        memset(bytes, 0, sizeof bytes), bytes[15] = 1;
        for (size_t i = 0; i < n; i++) bytes[16 + 3 * i] = 0x61, bytes[18 + 3 * i] = 1;
        key many;
        memcpy(many.bytes, bytes, sizeof bytes), many.len = 16 + 3 * n + 2 + 8;
        if (n == 9) is_no_key(&k, bytes, many.len);
        else IS(step_from(&k, all_of(0), many), 1);
    }
    memset(bytes, 0, sizeof bytes), memset(bytes + 16, 0x61, 65), bytes[82] = 1; /* a component of 65 bytes */
    is_no_key(&k, bytes, 16 + 65 + 4 + 8);
    memset(bytes, 0, sizeof bytes); /* three of 43 bytes, 129 in all */
    for (size_t i = 0; i < 3; i++) memset(bytes + 16 + 45 * i, 0x61, 43), bytes[16 + 45 * i + 44] = 1;
    is_no_key(&k, bytes, 16 + 135 + 2 + 8);
    static const uint8_t malformed[][4] = {{0x61, 0, 0, 0}, {0x61, 0, 3, 0}, {0, 3, 0, 0}, {0, 2, 0, 0}, {0x61, 0x61, 0, 0}, {0, 0xff, 0, 0}};
    for (int i = 0; i < 6; i++)
        for (size_t len = 26; len < 40; len++) { /* 61 00 00 and others: no component ends */
            memset(bytes, 0, sizeof bytes), bytes[15] = 1;
            memcpy(bytes + 16, malformed[i], 4);
            is_no_key(&k, bytes, len);
        }
    vb_encoded e = vb_encode_tsp_entry_key(subspace(1), path("61"), 5, bytes, VB_KEY_MOST); /* a time-first key */
    IS(e.length, 29);
    is_no_key(&k, bytes, 29);
    e = vb_encode_tsp_entry_key(subspace(1), path("61/62"), 5, bytes, VB_KEY_MOST);
    is_no_key(&k, bytes, e.length);
    unchanged(&k, &before);

    /* That of the empty path in subspace 1 is also the subspace-first key of another triple: it is taken, by its bytes. At 0 that triple is the empty path in subspace
       0 at 65536; at 5 it is in the subspace whose high half is 5. */
    key both;
    both.len = vb_encode_tsp_entry_key(subspace(1), path(""), 5, both.bytes, VB_KEY_MOST).length;
    IS(both.len, 26);
    IS(vb_decode_spt_entry_key(both.bytes, 26).subspace.high, 5);
    for (int by_range = 0; by_range < 2; by_range++) IS(step_from(&k, all_of(by_range), both), FINISHED);
    both.len = vb_encode_tsp_entry_key(subspace(1), path(""), 0, both.bytes, VB_KEY_MOST).length;
    same_triple(vb_decode_spt_entry_key(both.bytes, 26), 0, "", 0, 65536);
    is_taken(ingest(&k, entry(0, "", 65536, 3, 9), 0), 0, 4);
    for (int by_range = 0; by_range < 2; by_range++) IS(step_from(&k, all_of(by_range), both), 1);
    is_taken(ingest(&k, entry(0, "", 65537, 3, 9), 0), 1, 4);
    for (int by_range = 0; by_range < 2; by_range++) IS(step_from(&k, all_of(by_range), both), 0);
    kept done = before;
    drop(&done);
    drop(&k);
}

/* Numbers that look random, the same in each run. */
static uint64_t seed = 7;
static uint64_t random_below(uint64_t n) {
    seed = seed * UINT64_C(6364136223846793005) + UINT64_C(1442695040888963407);
    return (seed >> 33) % n;
}

/* Whether a's bytes are above b's. */
static int is_above(const uint8_t *a, size_t a_len, const uint8_t *b, size_t b_len) {
    const int c = memcmp(a, b, a_len < b_len ? a_len : b_len);
    return c ? c > 0 : a_len > b_len;
}

/* Whether a listing shows the record of a number, as what it asks for and the end of the record say. */
static int shows(const kept *k, const listing *l, size_t n) {
    const uint8_t *record = k->spt + k->spt_dir[2 * n], *value = record + k->spt_dir[2 * n + 1] - VB_VALUE;
    const vb_decoded d = vb_decode_spt_entry_key(record, k->spt_dir[2 * n + 1] - VB_VALUE);
    const int incomplete = memcmp(value + VB_VALUE_AVAILABLE, value + VB_VALUE_PAYLOAD_LENGTH, 8) != 0, empty = value[VB_VALUE_PAYLOAD_LENGTH + 7] == 0;
    if ((l->ignore.incomplete_payloads && incomplete) || (l->ignore.empty_payloads && empty)) return 0;
    return l->by_range ? vb_range_includes_triplet(l->range, d.subspace, d.path, d.timestamp).yes : vb_area_includes_triplet(l->area, d.subspace, d.path, d.timestamp).yes;
}

/* What a step answers, by a walk over all records. */
static size_t walk(const kept *k, const listing *l) {
    size_t least = FINISHED;
    if (l->last.len && vb_decode_spt_entry_key(l->last.bytes, l->last.len).refusal) return REFUSED + VB_NO_KEY;
    for (size_t n = 0; n < k->state.count; n++) {
        const uint8_t *record = k->spt + k->spt_dir[2 * n];
        const size_t len = k->spt_dir[2 * n + 1] - VB_VALUE;
        if (!is_above(record, len, l->last.bytes, l->last.len) || !shows(k, l, n)) continue;
        if (least == FINISHED || is_above(k->spt + k->spt_dir[2 * least], k->spt_dir[2 * least + 1] - VB_VALUE, record, len)) least = n;
    }
    return least;
}

static const char *const places[] = {"", ".", "00", "61", "61/61", "61/62", "6162", "62", "62/00", "62/61/61"};

/* Files, forgets or records at random. */
static void stir(kept *k) {
    const char *hex = places[random_below(10)];
    const uint64_t in = random_below(3), length = random_below(3);
    static const uint8_t digest[32] = {0};
    switch (random_below(4)) {
    case 0: k->state = vb_forget_entry(k->state, STORE(k), subspace(in), path(hex), 0, digest).state; break;
    case 1: vb_record_available_length(k->state, READ(k), subspace(in), path(hex), 0, digest, length); break;
    default: ingest(k, entry(in, hex, random_below(6), length, (uint8_t)random_below(3)), 0);
    }
}

static listing random_listing(void) {
    const uint64_t open = random_below(3);
    vb_area a = area((uint8_t)random_below(3), random_below(3), path(random_below(2) ? "" : places[random_below(10)]), times(random_below(3), 3 + random_below(4), open < 2));
    return listing_of((int)random_below(2), a, ignore(random_below(4) == 0, random_below(4) == 0));
}

/* A copy of a record's key. */
static key key_at(const kept *k, size_t n) {
    key a;
    a.len = k->spt_dir[2 * n + 1] - VB_VALUE;
    memcpy(a.bytes, k->spt + k->spt_dir[2 * n], a.len);
    return a;
}

/* The number of the record of a key, or FINISHED. */
static size_t stored_as(const kept *k, const key *a) {
    for (size_t n = 0; n < k->state.count; n++)
        if (k->spt_dir[2 * n + 1] - VB_VALUE == a->len && memcmp(k->spt + k->spt_dir[2 * n], a->bytes, a->len) == 0) return n;
    return FINISHED;
}

/* Listings over a store that changes between two steps: each step is as the walk says; keys ascend; and what was stored and shown all the while was given once. */
static void stirred_listings(void) {
    enum { ROOM = 30, ROUNDS = 1500 };
    size_t given = 0, stayed = 0, came = 0;
    kept k = store_of(ROOM);
    for (int round = 0; round < ROUNDS; round++) {
        for (int i = 0; i < 8; i++) stir(&k);
        listing l = random_listing();
        key stays[ROOM], gave[200];
        size_t stay = 0, gaves = 0, at_start = 0;
        for (size_t n = 0; n < k.state.count; n++) if (shows(&k, &l, n)) stays[stay++] = key_at(&k, n);
        at_start = stay;
        for (;;) {
            const size_t n = step(&k, &l);
            IS(n, walk(&k, &l));
            if (n == FINISHED) break;
            IS(gaves < 200, 1);
            gave[gaves] = key_at(&k, n);
            if (gaves) IS(is_above(gave[gaves].bytes, gave[gaves].len, gave[gaves - 1].bytes, gave[gaves - 1].len), 1);
            l.last = gave[gaves++];
            for (uint64_t i = random_below(3); i > 0; i--) {
                stir(&k);
                size_t left = 0;
                for (size_t m = 0; m < stay; m++) {
                    const size_t there = stored_as(&k, &stays[m]);
                    if (there != FINISHED && shows(&k, &l, there)) stays[left++] = stays[m];
                }
                stay = left;
            }
        }
        for (size_t m = 0; m < stay; m++) {
            size_t times_given = 0;
            for (size_t g = 0; g < gaves; g++) times_given += gave[g].len == stays[m].len && memcmp(gave[g].bytes, stays[m].bytes, gave[g].len) == 0;
            IS(times_given, 1);
        }
        given += gaves, stayed += stay, came += gaves > at_start;
    }
    IS(given > ROUNDS && stayed > ROUNDS, 1); /* it was no walk over nothing */
    IS(came > 0, 1);
    drop(&k);
}

/* Random keys: of triples, with a byte changed, cut, with bytes behind, and bytes at will. Each is taken if the decoder takes it, and the step is as the walk says. */
static void random_keys(void) {
    enum { KEYS = 20000 };
    size_t refused = 0, gave = 0, finished = 0;
    kept k = store_of(12);
    for (int i = 0; i < KEYS; i++) {
        if (i % 16 == 0) stir(&k);
        listing l = random_listing();
        l.last = key_of(random_below(3), places[random_below(10)], random_below(6));
        const uint64_t way = random_below(6);
        if (way == 0) l.last.bytes[random_below(l.last.len)] = (uint8_t)(random_below(2) ? random_below(4) : random_below(256));
        if (way == 1) l.last.len = random_below(l.last.len);
        if (way == 2)
            for (uint64_t more = 1 + random_below(3); more > 0; more--) l.last.bytes[l.last.len++] = (uint8_t)random_below(3);
        if (way == 3) {
            l.last.len = random_below(VB_KEY_MOST + 3);
            for (size_t b = 0; b < l.last.len; b++) l.last.bytes[b] = (uint8_t)(random_below(2) ? random_below(3) : random_below(256));
        }
        const size_t n = step(&k, &l);
        IS(n, walk(&k, &l));
        refused += n == REFUSED + VB_NO_KEY, gave += n < k.state.count, finished += n == FINISHED;
    }
    IS(refused + gave + finished, KEYS);
    IS(refused > KEYS / 10 && gave > KEYS / 10 && finished > KEYS / 10, 1);
    drop(&k);
}

int main(void) {
    memset(token, 0x42, sizeof token);
    IS(vb_edition(), VB_EDITION);
    for (unsigned n = 0; n < 13; n++) IS(strcmp(vb_refusal_text(n), "unknown") != 0, 1);
    IS(strcmp(vb_refusal_text(13), "unknown"), 0);
    paths();
    entries();
    areas_and_ranges();
    keys();
    escape_table();
    odd_values();
    openings();
    ingestion();
    reading_and_forgetting();
    tallies();
    ties();
    resends();
    wrong_tallies();
    arrivals();
    origins();
    damaged_origins();
    edition_5();
    record_keys();
    open_listings(0);
    open_listings(1);
    remembered_keys();
    unsigned by_hand = compared;
    stirred_listings();
    random_keys();
    printf("%u comparisons with answers written by hand, %u of listings beside a walk over the records\n", by_hand, compared - by_hand);
    return 0;
}
