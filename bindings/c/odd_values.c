/* Values that no line of text can say, and refusal 4 of every call of the keys' layer that takes a path, with answers written by hand from document 01:
   garbage behind a path's count and total, ends that make no path, open ends with a path that is none, ranges that end before they start, key
   buffers one byte short; such values where an available length is recorded or forgotten, from document 02's U4; every byte as an origin's kind, from its
   U6; and every byte in every place of the key that a listing remembers, from its U7. It prints how many answers were compared; the first wrong one is shown and
   ends it. */
#include "virebony.h"
#include <stdio.h>
#include <stdlib.h>
#include <string.h>

static unsigned compared;
#define IS(x, y) is((unsigned long long)(x), (unsigned long long)(y), #x, __LINE__)
static void is(unsigned long long x, unsigned long long y, const char *what, int line) {
    compared++;
    if (x == y) return;
    printf("line %d: %s is %llu, not %llu\n", line, what, x, y);
    exit(1);
}

/* All bytes 7 and all ends 255 where nothing else is said. */
static vb_path odd(size_t count, size_t first, size_t second, size_t third) {
    vb_path p;
    memset(p.bytes, 7, sizeof p.bytes);
    for (size_t i = 0; i < VB_MCC; i++) p.ends[i] = 255;
    p.ends[0] = first, p.ends[1] = second, p.ends[2] = third;
    p.count = count;
    return p;
}

/* The paths that are none, each by one bound alone. */
enum { ILLEGAL = 8 };
static vb_path illegal(int which) {
    vb_path p = odd(9, 1, 2, 3);
    switch (which) {
    case 0: for (size_t i = 0; i < VB_MCC; i++) p.ends[i] = i; break; /* nine components of a byte at most */
    case 1: p.count = SIZE_MAX; break;
    case 2: p = odd(2, 5, 3, 255); break; /* descend */
    case 3: p = odd(3, 3, 5, 4); break;
    case 4: p = odd(1, 65, 255, 255); break;
    case 5: p = odd(2, 0, 65, 255); break;
    case 6: p = odd(3, 64, 128, 129); break; /* 129 in all */
    default: p = odd(1, SIZE_MAX, 255, 255);
    }
    return p;
}

static vb_path empty(void) { vb_path p; memset(&p, 0, sizeof p); return p; }
static vb_path garbage(void) { return odd(0, 255, 255, 255); } /* the empty path, garbage behind it */
static vb_subspace subspace(uint64_t high, uint64_t low) { vb_subspace s; s.high = high; s.low = low; return s; }
static vb_times times(uint64_t start, uint64_t end, uint8_t open) { vb_times t; t.start = start; t.end = end; t.open = open; return t; }

/* Any subspace and time; paths from one up to another. */
static vb_range range(vb_path from, vb_path to, uint8_t open) {
    vb_range r;
    memset(&r, 0, sizeof r);
    r.subspaces.open = r.times.open = 1;
    r.paths.start = from, r.paths.end = to, r.paths.open = open;
    return r;
}

static vb_area area(uint8_t any, vb_subspace s, vb_path p, vb_times t) {
    vb_area a;
    memset(&a, 0, sizeof a);
    a.any_subspace = any, a.subspace = s, a.path = p, a.times = t;
    return a;
}

static void is_empty(vb_path p) {
    IS(p.count, 0);
    for (size_t i = 0; i < VB_MCC; i++) IS(p.ends[i], 0);
    for (size_t i = 0; i < VB_MPL; i++) IS(p.bytes[i], 0);
}

static void legality(void) {
    IS(vb_path_is_legal(garbage()), 1);
    for (int i = 0; i < ILLEGAL; i++) IS(vb_path_is_legal(illegal(i)), 0);
    IS(vb_path_is_legal(odd(2, 5, 5, 255)), 1);
    IS(vb_path_is_legal(odd(1, 64, 255, 255)), 1);
    IS(vb_path_is_legal(odd(2, 64, 128, 255)), 1);
    IS(vb_path_is_legal(odd(3, 64, 128, 128)), 1);
    vb_path eight = odd(8, 1, 2, 3);
    for (size_t i = 3; i < VB_MCC; i++) eight.ends[i] = 128;
    IS(vb_path_is_legal(eight), 0); /* the fourth has 125 bytes */
    eight.ends[3] = 64, eight.ends[4] = 127;
    IS(vb_path_is_legal(eight), 1);
}

static void relations(void) {
    IS(vb_path_eq(garbage(), empty()).yes, 1);
    IS(vb_path_is_prefix_of(empty(), garbage()).yes, 1);
    IS(vb_path_is_prefix_of(garbage(), odd(1, 3, 255, 255)).yes, 1);
    IS(vb_path_is_prefix_of(odd(1, 3, 255, 255), garbage()).yes, 0);
    IS(vb_path_cmp(garbage(), empty()).less | vb_path_cmp(garbage(), empty()).greater, 0);
    IS(vb_path_greater_but_not_prefixed(garbage()).found, 0);
    vb_above a = vb_path_greater_but_not_prefixed(odd(2, 1, 1, 255)); /* [07][] */
    IS(a.found, 1);
    IS(a.path.count, 2);
    IS(a.path.ends[0], 1);
    IS(a.path.ends[1], 2);
    IS(a.path.bytes[0], 7);
    for (size_t i = 1; i < VB_MPL; i++) IS(a.path.bytes[i], 0); /* and zeros behind */
}

static void says_four(vb_answer a) {
    IS(a.refusal, 4);
    IS(a.yes, 0);
}

/* A path that is none, in every place of every call that takes one. */
static void refusal_four(vb_path bad) {
    const vb_compared c[3] = {vb_path_cmp(bad, empty()), vb_path_cmp(empty(), bad), vb_path_cmp(bad, bad)};
    for (int i = 0; i < 3; i++) {
        IS(c[i].refusal, 4);
        IS(c[i].less | c[i].greater, 0);
    }
    says_four(vb_path_eq(bad, bad)), says_four(vb_path_eq(bad, empty())), says_four(vb_path_eq(empty(), bad));
    says_four(vb_path_is_prefix_of(bad, empty())), says_four(vb_path_is_prefix_of(empty(), bad)), says_four(vb_path_is_prefix_of(bad, bad));
    vb_above above = vb_path_greater_but_not_prefixed(bad);
    IS(above.refusal, 4);
    IS(above.found, 0);
    is_empty(above.path);

    vb_entry good, none; /* the timestamps differ, so the path is not needed; it is refused all the same */
    memset(&good, 0, sizeof good);
    none = good, none.path = bad, none.timestamp = 9;
    const vb_entries_compared e[3] = {vb_entry_compare(good, none), vb_entry_compare(none, good), vb_entry_compare(none, none)};
    for (int i = 0; i < 3; i++) {
        IS(e[i].refusal, 4);
        IS(e[i].newer | e[i].older, 0);
    }
    says_four(vb_entry_prunes(good, none)), says_four(vb_entry_prunes(none, good)), says_four(vb_entry_prunes(none, none));
    says_four(vb_entry_is_pruned_by(good, none)), says_four(vb_entry_is_pruned_by(none, good)), says_four(vb_entry_is_pruned_by(none, none));
    none.namespace_id[0] = 1, none.subspace_id.high = 1; /* nor is it, where another namespace and subspace decide */
    says_four(vb_entry_prunes(none, good)), says_four(vb_entry_is_pruned_by(good, none));

    const vb_subspace zero = subspace(0, 0);
    vb_area a = area(0, subspace(0, 1), bad, times(5, 4, 0)); /* another subspace, and no time is in it */
    says_four(vb_area_includes_triplet(a, zero, empty(), 0));
    a.path = empty();
    says_four(vb_area_includes_triplet(a, zero, bad, 0));
    a.path = bad;
    vb_area_range r = vb_area_to_range(a);
    IS(r.refusal, 4);
    IS(r.range.subspaces.open | r.range.paths.open | r.range.times.open, 0);
    IS(r.range.subspaces.start.low | r.range.subspaces.end.low | r.range.times.start | r.range.times.end, 0);
    is_empty(r.range.paths.start), is_empty(r.range.paths.end);

    says_four(vb_range_includes_triplet(range(bad, empty(), 1), zero, empty(), 0));
    says_four(vb_range_includes_triplet(range(bad, empty(), 0), zero, empty(), 0));
    says_four(vb_range_includes_triplet(range(empty(), bad, 0), zero, empty(), 0));
    says_four(vb_range_includes_triplet(range(empty(), bad, 1), zero, bad, 0));
    IS(vb_range_includes_triplet(range(empty(), bad, 1), zero, empty(), 0).refusal, 0); /* the path of an open end is not looked at */
    IS(vb_range_includes_triplet(range(empty(), bad, 255), zero, empty(), 0).yes, 1);
    vb_range nothing = range(empty(), bad, 0);
    nothing.times = times(9, 9, 0);
    says_four(vb_range_includes_triplet(nothing, zero, empty(), 0));
}

static void ranges(void) {
    vb_range r = range(empty(), empty(), 1);
    const vb_subspace zero = subspace(0, 0);
    IS(vb_range_includes_triplet(r, zero, empty(), UINT64_MAX).yes, 1);
    r.times = times(0, UINT64_MAX, 0);
    IS(vb_range_includes_triplet(r, zero, empty(), UINT64_MAX).yes, 0);
    IS(vb_range_includes_triplet(r, zero, empty(), UINT64_MAX - 1).yes, 1);
    r.times = times(20, 10, 0); /* ends before it starts */
    static const uint64_t around[] = {9, 10, 15, 20, 21};
    for (int i = 0; i < 5; i++) IS(vb_range_includes_triplet(r, zero, empty(), around[i]).yes, 0);
    r = range(odd(1, 3, 255, 255), odd(1, 2, 255, 255), 0); /* from [070707] to [0707] */
    for (size_t n = 0; n < 5; n++) IS(vb_range_includes_triplet(r, zero, odd(1, n, 255, 255), 0).yes, 0);
    IS(vb_range_includes_triplet(r, zero, empty(), 0).refusal, 0);
    r = range(empty(), empty(), 1);
    r.subspaces.start = subspace(1, 0), r.subspaces.end = subspace(0, UINT64_MAX), r.subspaces.open = 0;
    IS(vb_range_includes_triplet(r, subspace(1, 0), empty(), 0).yes, 0);
    IS(vb_range_includes_triplet(r, subspace(0, UINT64_MAX), empty(), 0).yes, 0);
    r.subspaces.end = subspace(1, 1);
    IS(vb_range_includes_triplet(r, subspace(1, 0), empty(), 0).yes, 1);
    IS(vb_range_includes_triplet(r, subspace(1, 1), empty(), 0).yes, 0);
    IS(vb_range_includes_triplet(r, subspace(0, UINT64_MAX), empty(), 0).yes, 0);
}

static void areas(void) {
    vb_area_range r = vb_area_to_range(area(0, subspace(0, UINT64_MAX), garbage(), times(0, 77, 9)));
    IS(r.refusal, 0);
    IS(vb_range_includes_triplet(r.range, subspace(1, 0), empty(), 0).yes, 0);
    IS(vb_range_includes_triplet(r.range, subspace(0, UINT64_MAX), empty(), UINT64_MAX).yes, 1);
    is_empty(r.range.paths.start);
    IS(r.range.times.end, 0); /* an open end is told as 0 */
    r = vb_area_to_range(area(0, subspace(1, 0), garbage(), times(0, 0, 1)));
    IS(vb_range_includes_triplet(r.range, subspace(1, 0), empty(), 0).yes, 1);
    is_empty(r.range.paths.start);
    r = vb_area_to_range(area(0, subspace(UINT64_MAX, UINT64_MAX), garbage(), times(0, 0, 1))); /* no subspace above it */
    IS(r.range.subspaces.open, 1);
    IS(vb_range_includes_triplet(r.range, subspace(UINT64_MAX, UINT64_MAX), empty(), 0).yes, 1);
    IS(vb_range_includes_triplet(r.range, subspace(UINT64_MAX, UINT64_MAX - 1), empty(), 0).yes, 0);
}

/* A key written to so many bytes, all 9: which answer, and that only the key's bytes, all 0, have changed. */
static void written(size_t bytes, vb_path p, int refusal, size_t length) {
    for (int time_first = 0; time_first < 2; time_first++) {
        uint8_t *out = (uint8_t *)malloc(bytes);
        if (!out) exit(2);
        memset(out, 9, bytes);
        vb_encoded e = time_first ? vb_encode_tsp_entry_key(subspace(0, 0), p, 0, out, bytes) : vb_encode_spt_entry_key(subspace(0, 0), p, 0, out, bytes);
        IS(e.refusal, refusal);
        IS(e.length, length);
        for (size_t i = 0; i < bytes; i++) IS(out[i], i < length ? 0 : 9);
        free(out);
    }
}

/* One entry, at the empty path, of payload length 3, in a store of one: its record has 26 + 121 bytes. The last byte of its available length is the 112th of the
   value, and behind it are the origin's kind and session. */
enum { RECORD = 26 + VB_VALUE, ARRIVED = 26 + VB_VALUE_AVAILABLE + 7, KIND = 26 + VB_VALUE_ORIGIN, SESSION = 26 + VB_VALUE_SESSION };
static uint8_t spt[VB_RECORD_MOST], tsp[VB_RECORD_MOST], tally[VB_ITEM];
static uint32_t spt_dir[2], tsp_dir[2];
#define TREES spt, sizeof spt, spt_dir, 2, tsp, sizeof tsp, tsp_dir, 2

/* Both calls: what they answer, that the state is the one handed in, and the available length in either tree afterwards. */
static void recorded(vb_state s, vb_path p, uint8_t expects, const uint8_t *digest, uint64_t available, uint8_t refusal, uint8_t after) {
    vb_available_recorded r = vb_record_available_length(s, TREES, subspace(0, 5), p, expects, digest, available);
    IS(r.refusal, refusal);
    IS(memcmp(r.state.namespace_id, s.namespace_id, 16), 0);
    IS(r.state.count, s.count);
    IS(r.state.limit, s.limit);
    IS(spt[ARRIVED], after);
    IS(tsp[ARRIVED], after);
}

static void forgotten(vb_state s, vb_path p, uint8_t expects, const uint8_t *digest, uint8_t refusal, uint8_t after) {
    vb_available_recorded r = vb_forget_payload(s, TREES, subspace(0, 5), p, expects, digest);
    IS(r.refusal, refusal);
    IS(memcmp(r.state.namespace_id, s.namespace_id, 16), 0);
    IS(r.state.count, s.count);
    IS(r.state.limit, s.limit);
    IS(spt[ARRIVED], after);
    IS(tsp[ARRIVED], after);
}

/* An origin with garbage between its two fields. */
static vb_origin origin(uint8_t between, uint8_t remote, uint64_t session) {
    vb_origin o;
    memset(&o, between, sizeof o);
    o.remote = remote, o.session = session;
    return o;
}

/* Every byte as `remote`: all but 0 mean yes, and 1 is written; the session of a local one is not looked at, and 0 is written. Whatever lies between the two fields
   plays no part. Read back, every kind but 0 and 1 is no store's, whatever the session, and neither is 0 with a session. */
static void origins(void) {
    const uint8_t namespace_id[16] = {0}, token[64] = {7}, digest[32] = {0};
    static const uint64_t sessions[] = {0, 1, 255, 256, UINT64_C(1) << 32, UINT64_C(0x8000000000000001), UINT64_MAX};
    static const uint8_t between[] = {0, 1, 0x55, 255};
    static vb_pairs by_value;
    vb_entry e;
    memset(&e, 0, sizeof e);
    e.subspace_id = subspace(0, 5), e.path = garbage(), e.payload_length = 3;
    vb_ignore none;
    none.incomplete_payloads = none.empty_payloads = 0;
    for (int b = 0; b < 256; b++)
        for (int n = 0; n < 7; n++) {
            const vb_origin from = origin(between[(b + n) % 4], (uint8_t)b, sessions[n]);
            const uint64_t session = b ? sessions[n] : 0;
            vb_pair pruned[1];
            uint32_t numbers[2];
            vb_state s = vb_open(namespace_id, 1, TREES, tally, sizeof tally).state;
            vb_ingested r = n % 3 == 0   ? vb_ingest_entry(s, TREES, tally, sizeof tally, pruned, 1, e, token, 0, from)
                            : n % 3 == 1 ? vb_ingest_entry_numbers(s, TREES, tally, sizeof tally, numbers, 2, e, token, 0, from)
                                         : vb_ingest_entry_by_value(s, TREES, tally, sizeof tally, by_value, e, token, 0, from).ingested;
            IS(r.refusal | r.obsolete | r.held | r.pruned, 0);
            s = r.state;
            IS(spt[KIND], b != 0);
            IS(tsp[KIND], b != 0);
            for (int i = 0; i < 8; i++) {
                IS(spt[SESSION + i], (uint8_t)(session >> (8 * (7 - i))));
                IS(tsp[SESSION + i], (uint8_t)(session >> (8 * (7 - i))));
            }
            vb_entry_found f = vb_find_entry(s, TREES, subspace(0, 5), empty(), none);
            IS(f.found, 1);
            IS(f.lengthy.origin.remote, b != 0);
            IS(f.lengthy.origin.session, session);
            spt[KIND] = tsp[KIND] = (uint8_t)b; /* the byte itself in both trees */
            for (int i = 0; i < 8; i++) spt[SESSION + i] = tsp[SESSION + i] = (uint8_t)(sessions[n] >> (8 * (7 - i)));
            const int well_formed = b == 1 || (b == 0 && sessions[n] == 0);
            f = vb_find_entry(s, TREES, subspace(0, 5), garbage(), none);
            IS(f.refusal, well_formed ? 0 : 3);
            IS(f.found, well_formed);
            IS(f.lengthy.origin.remote, well_formed && b == 1);
            IS(f.lengthy.origin.session, well_formed ? sessions[n] : 0);
            recorded(s, empty(), 0, digest, 2, well_formed ? 0 : 3, well_formed ? 2 : 0);
            IS(spt[KIND], b);
            IS(tsp[KIND], b);
            r = vb_ingest_entry(s, TREES, tally, sizeof tally, pruned, 1, e, token, 0, from);
            IS(r.refusal, well_formed ? 0 : 3);
            IS(r.held, well_formed);
        }
}

/* Garbage behind the path, digests that play no part, every byte but 0 as yes, paths that are none, lengths up to the greatest. */
static void arrivals(void) {
    const uint8_t namespace_id[16] = {9, 8}, token[64] = {7};
    uint8_t right[32], wrong[32];
    vb_pair pruned[1];
    vb_entry e;
    memset(right, 3, 32), memset(wrong, 3, 32), wrong[31] = 2;
    memset(&e, 0, sizeof e), memcpy(e.namespace_id, namespace_id, 16), memcpy(e.payload_digest, right, 32);
    e.subspace_id = subspace(0, 5), e.path = garbage(), e.timestamp = 6, e.payload_length = 3;
    vb_state s = vb_open(namespace_id, 1, TREES, tally, sizeof tally).state;
    vb_ingested r = vb_ingest_entry(s, TREES, tally, sizeof tally, pruned, 1, e, token, 0, origin(0, 0, 0));
    IS(r.refusal | r.obsolete | r.held, 0);
    s = r.state;
    IS(spt_dir[1], RECORD);
    IS(spt_dir[1], 147);
    for (int yes = 1; yes < 256; yes++) {
        recorded(s, garbage(), (uint8_t)yes, right, 2, 0, 2);
        recorded(s, garbage(), (uint8_t)yes, wrong, 1, 9, 2);
        recorded(s, empty(), (uint8_t)yes, wrong, UINT64_MAX, 9, 2);
        forgotten(s, garbage(), (uint8_t)yes, wrong, 9, 2);
        forgotten(s, garbage(), (uint8_t)yes, right, 0, 0);
    }
    recorded(s, garbage(), 0, wrong, 3, 0, 3);
    static const uint64_t too_much[] = {4, 255, 256, UINT64_C(1) << 32, UINT64_C(1) << 63, UINT64_MAX - 1, UINT64_MAX};
    for (int i = 0; i < 7; i++) recorded(s, empty(), 0, wrong, too_much[i], 12, 3), recorded(s, garbage(), 1, right, too_much[i], 12, 3);
    for (int i = 0; i < ILLEGAL; i++) {
        recorded(s, illegal(i), 1, wrong, UINT64_MAX, 4, 3);
        forgotten(s, illegal(i), 0, right, 4, 3);
    }
    recorded(s, odd(1, 0, 255, 255), 1, wrong, UINT64_MAX, 11, 3); /* a path of one empty component is not the empty path */
    forgotten(s, odd(1, 0, 255, 255), 0, right, 11, 3);
    vb_state other = s;
    other.namespace_id[0] = 1; /* neither call looks at the namespace, and both answer it */
    recorded(other, empty(), 1, right, 1, 0, 1);
    other.limit = 0;
    recorded(other, illegal(0), 1, wrong, UINT64_MAX, 1, 1), forgotten(other, illegal(0), 1, wrong, 1, 1);
    other.limit = SIZE_MAX;
    recorded(other, empty(), 0, right, 0, 1, 1), forgotten(other, empty(), 0, right, 1, 1);
    other.limit = 2;
    recorded(other, illegal(0), 1, wrong, UINT64_MAX, 2, 1), forgotten(other, illegal(0), 1, wrong, 2, 1);
    other.limit = 1, other.count = 0;
    recorded(other, illegal(0), 1, wrong, UINT64_MAX, 3, 1), forgotten(other, illegal(0), 1, wrong, 3, 1);
    other.count = SIZE_MAX;
    recorded(other, empty(), 0, right, 0, 3, 1), forgotten(other, empty(), 0, right, 3, 1);
    forgotten(s, garbage(), 0, wrong, 0, 0), forgotten(s, empty(), 255, right, 0, 0);
}

/* Both calls of an area's listing and of a 3d range's, from a key in a buffer of its own length: refused so, or the one record, or finished. */
static void listed(vb_state s, vb_area a, vb_range r, vb_ignore ignore, const uint8_t *key, size_t len, uint8_t refusal, uint8_t found) {
    uint8_t *last = (uint8_t *)malloc(len ? len : 1);
    if (!last) exit(2);
    if (len) memcpy(last, key, len);
    const vb_listed l[2] = {vb_query_area_found(s, TREES, a, ignore, last, len), vb_query_range_found(s, TREES, r, ignore, last, len)};
    const vb_part p[2] = {vb_query_area(s, TREES, a, ignore, last, len), vb_query_range(s, TREES, r, ignore, last, len)};
    for (int i = 0; i < 2; i++) {
        IS(l[i].refusal, refusal);
        IS(l[i].found, found);
        IS(p[i].offset, 0);
        IS(p[i].length, found ? RECORD : 0);
    }
    free(last);
}

/* Every byte in every place of a remembered key, every length of one, and such values as an area, a 3d range and flags may have beside it. The one entry stands at the empty
   path in subspace 5 at 6, so its key is 16 bytes of subspace, two zeros and 8 bytes of timestamp: any bytes are a subspace and a timestamp, and no others than two
   zeros end the path of a key of that length, with so few bytes that are not 0. */
static void remembered(void) {
    const uint8_t namespace_id[16] = {0}, token[64] = {7};
    uint8_t key[400] = {0};
    key[15] = 5, key[25] = 6;
    vb_pair pruned[1];
    vb_entry e;
    memset(&e, 0, sizeof e);
    e.subspace_id = subspace(0, 5), e.path = garbage(), e.timestamp = 6, e.payload_length = 3;
    vb_state s = vb_open(namespace_id, 1, TREES, tally, sizeof tally).state;
    const vb_area all = area(255, subspace(9, 9), garbage(), times(0, 5, 255));
    const vb_range whole = range(garbage(), illegal(3), 128); /* the path of an open end is not looked at */
    vb_ignore none, incomplete;
    none.incomplete_payloads = none.empty_payloads = 0;
    incomplete.incomplete_payloads = 128, incomplete.empty_payloads = 0;
    listed(s, all, whole, none, key, 0, 0, 0); /* of a store of no entries */
    listed(s, all, whole, none, key, 26, 0, 0);
    listed(s, all, whole, none, key, 25, 5, 0);
    vb_ingested r = vb_ingest_entry(s, TREES, tally, sizeof tally, pruned, 1, e, token, 0, origin(0, 0, 0));
    IS(r.refusal | r.obsolete | r.held, 0);
    s = r.state;
    IS(memcmp(spt, key, 26), 0);
    for (size_t len = 0; len <= sizeof key; len++) listed(s, all, whole, none, key, len, len == 0 || len == 26 ? 0 : 5, len == 0);
    for (size_t at = 0; at < 26; at++) {
        const uint8_t was = key[at];
        for (int b = 0; b < 256; b++) {
            key[at] = (uint8_t)b;
            const int in_path = at == 16 || at == 17, is_key = !in_path || b == 0, below = !in_path && b < was;
            listed(s, all, whole, none, key, 26, is_key ? 0 : 5, (uint8_t)below);
            listed(s, all, whole, incomplete, key, 26, is_key ? 0 : 5, 0);
        }
        key[at] = was;
    }
    for (int i = 0; i < ILLEGAL; i++) { /* 4 goes before 5, whatever the key; 3, 2 and 1 go before 4 */
        const vb_area bad = area(1, subspace(0, 0), illegal(i), times(9, 3, 0));
        const vb_range ends[2] = {range(illegal(i), garbage(), 1), range(garbage(), illegal(i), 0)};
        for (size_t len = 0; len < 28; len++)
            for (int end = 0; end < 2; end++) {
                vb_state other = s;
                listed(other, bad, ends[end], none, key, len, 4, 0);
                other.count = SIZE_MAX;
                listed(other, bad, ends[end], none, key, len, 3, 0);
                other.limit = 2;
                listed(other, bad, ends[end], none, key, len, 2, 0);
                other.limit = SIZE_MAX;
                listed(other, bad, ends[end], none, key, len, 1, 0);
            }
    }
    const vb_area turned = area(0, subspace(0, 5), garbage(), times(7, 6, 0)); /* ends before they start: finished, and 5 all the same */
    vb_range descends = range(odd(1, 3, 255, 255), odd(1, 2, 255, 255), 0);
    for (size_t len = 0; len < 28; len++) listed(s, turned, descends, none, key, len, len == 0 || len == 26 ? 0 : 5, 0);
    for (int i = 0; i < 8; i++) { /* NULL with a count of 0 */
        const uint8_t *last = i % 2 ? key : NULL;
        if (i < 4) IS(vb_query_area(s, TREES, i < 2 ? all : turned, none, last, 0).length, i < 2 ? RECORD : 0);
        else IS(vb_query_range(s, TREES, i < 6 ? whole : descends, none, last, 0).length, i < 6 ? RECORD : 0);
    }
    IS(vb_record_key(spt, RECORD).length, 26);
    IS(vb_record_key(NULL, 0).length, 0);
}

int main(void) {
    legality();
    relations();
    for (int i = 0; i < ILLEGAL; i++) refusal_four(illegal(i));
    ranges();
    areas();
    origins();
    arrivals();
    remembered();
    written(1, empty(), 2, 0);
    written(297, empty(), 2, 0);
    written(298, empty(), 0, 26);
    written(300, garbage(), 0, 26);
    for (int i = 0; i < ILLEGAL; i++) written(297, illegal(i), 2, 0), written(298, illegal(i), 4, 0);
    printf("%u answers on odd values as written\n", compared);
    return 0;
}
