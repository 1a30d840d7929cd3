/* Stores and calls on which a plausible wrong port fails, each answer written by hand from 01, and from 02: U1 for the tally, U2 for the same entry twice, U3 for ties, U4
   for how much has arrived, U6 for where an entry came from, U7 for filing while a listing is open. Ends with 1 if one is not as written. */
#include "virebony.h"
#include <stdbool.h>
#include <stdio.h>
#include <string.h>

/* Bytes of a record at most, of its value, of the origin at the value's end, of an item of the tally; and of a record before values had an origin. */
enum { MOST = 8, RECORD = 419, VALUE = 121, ORIGIN = 9, ITEM = 28, RECORD_BEFORE = 410, ANY = 1 };
enum {
    KEY = 29,                                 /* bytes of the key of a path of one component of one byte: subspace 16, component 1 and its end 2, the path's end 2, time 8 */
    LENGTH_AT = KEY + VB_VALUE_AVAILABLE + 7, /* the last byte of the available length, the kind and the last byte of the session of a first record that has such a key */
    KIND_AT = KEY + VB_VALUE_ORIGIN,
    SESSION_AT = KEY + VB_VALUE_SESSION + 7
};
#define GREATEST UINT64_MAX

static vb_state state;
static uint8_t tree[2][RECORD * MOST + 8], tally[ITEM * MOST + 8], token[64];
static vb_origin origin; /* what the next entries are filed with: local, unless a trap says otherwise */
static uint32_t dir[2][2 * MOST + 8];
static vb_pair prune[MOST + 4];
/* Bytes lent of the subspace-first tree, of the time-first tree and of the tally, pairs of the prune list. */
static size_t room = sizeof tree[0], other_room = sizeof tree[1], tally_room = sizeof tally, lent = MOST;
static int wrong, asked;
#define READ tree[0], room, dir[0], 2 * MOST + 8, tree[1], other_room, dir[1], 2 * MOST + 8
#define STORE READ, tally, tally_room

static void expect(const char *what, uint64_t got, uint64_t want) {
    asked++;
    if (got == want) return;
    printf("%s: %llu, by the papers %llu\n", what, (unsigned long long)got, (unsigned long long)want);
    wrong++;
}

static vb_path path(const char *components) { /* components of text, parted by '/'; "" is the empty path */
    vb_path p;
    size_t at = 0;
    memset(&p, 0, sizeof p);
    if (!*components) return p;
    for (p.count = 1; *components; components++) {
        if (*components == '/') p.count++;
        else p.bytes[at++] = *components;
        p.ends[p.count - 1] = at;
    }
    return p;
}

static vb_subspace subspace(uint64_t low) {
    vb_subspace s = {0, low};
    return s;
}

static vb_entry entry(const char *p, uint64_t time, uint64_t length, uint8_t digest) {
    vb_entry e;
    memset(&e, 0, sizeof e);
    e.subspace_id = subspace(1), e.path = path(p), e.timestamp = time, e.payload_length = length;
    memset(e.payload_digest, digest, 32);
    return e;
}

static vb_area all(void) { /* any subspace, any path, any time */
    vb_area a;
    memset(&a, 0, sizeof a);
    a.any_subspace = ANY, a.times.open = 1;
    return a;
}

static vb_range whole(void) {
    vb_range r;
    memset(&r, 0, sizeof r);
    r.subspaces.open = r.paths.open = r.times.open = 1;
    return r;
}

static vb_ignore ignore(bool incomplete, bool empty) {
    vb_ignore i = {incomplete, empty};
    return i;
}

static void open_store(const char *what, size_t limit, int refusal) {
    static const uint8_t namespace_id[16] = {9};
    vb_opened o = vb_open(namespace_id, limit, STORE);
    expect(what, o.refusal, refusal);
    if (refusal) expect("refused opening's state", o.state.count | o.state.limit | o.state.namespace_id[0], 0);
    else state = o.state;
}

static void fresh(size_t limit) {
    memset(tree, 7, sizeof tree), memset(dir, 7, sizeof dir), memset(tally, 7, sizeof tally), memset(prune, 7, sizeof prune);
    open_store("opened", limit, 0);
}

static void ingests(const char *what, vb_entry e, bool prevent, int refusal, bool obsolete, size_t pruned) {
    vb_ingested r = vb_ingest_entry(state, STORE, prune, lent, e, token, prevent, origin);
    expect(what, r.refusal, refusal);
    expect(what, r.obsolete, obsolete);
    expect(what, r.held, false);
    expect(what, r.pruned, pruned);
    state = r.state;
}

/* Every byte of the trees, the directories, the tally and the prune list, kept; and whether they are again what was kept. */
static struct {
    uint8_t trees[sizeof tree], items[sizeof tally];
    uint32_t dirs[2][2 * MOST + 8];
    vb_pair pairs[MOST + 4];
} was;

static void keep(void) {
    memcpy(was.trees, tree, sizeof tree), memcpy(was.items, tally, sizeof tally), memcpy(was.dirs, dir, sizeof dir), memcpy(was.pairs, prune, sizeof prune);
}

static bool as_it_was(void) {
    return !memcmp(was.trees, tree, sizeof tree) && !memcmp(was.items, tally, sizeof tally) && !memcmp(was.dirs, dir, sizeof dir) && !memcmp(was.pairs, prune, sizeof prune);
}

/* The verdict held: nothing else in the answer but the state that was handed in, and no byte of any buffer is another. */
static void holds(const char *what, vb_entry e, bool prevent) {
    keep();
    vb_ingested r = vb_ingest_entry(state, STORE, prune, lent, e, token, prevent, origin);
    expect(what, r.held, true);
    expect(what, r.refusal | r.obsolete | r.pruned, 0);
    expect(what, r.state.count, state.count), expect(what, r.state.limit, state.limit);
    expect(what, memcmp(r.state.namespace_id, state.namespace_id, 16), 0);
    uint8_t told = 0;
    for (int i = 0; i < 16; i++) told |= r.newer.namespace_id[i];
    for (int i = 0; i < 32; i++) told |= r.newer.payload_digest[i];
    for (int i = 0; i < 64; i++) told |= r.token[i];
    for (int i = 0; i < VB_MPL; i++) told |= r.newer.path.bytes[i];
    expect(what, told, 0);
    expect(what, r.newer.timestamp | r.newer.payload_length | r.newer.subspace_id.high | r.newer.subspace_id.low | r.newer.path.count | r.newer.path.ends[0], 0);
    expect(what, as_it_was(), true);
}

static vb_entry named(vb_entry e) { /* of the store's namespace */
    memcpy(e.namespace_id, state.namespace_id, 16);
    return e;
}

static void in(const char *p, uint64_t time, uint64_t length, uint8_t digest) {
    memset(token, 1, sizeof token);
    ingests(p, named(entry(p, time, length, digest)), false, 0, false, 0);
}

/* A recording, or a forgetting of one: its refusal, and that the state is the one handed in. */
static void recorded(const char *what, vb_available_recorded r, int refusal) {
    expect(what, r.refusal, refusal);
    expect(what, r.state.count, state.count), expect(what, r.state.limit, state.limit);
    expect(what, memcmp(r.state.namespace_id, state.namespace_id, 16), 0);
}

/* At a path of subspace 1; `digest` is a byte 32 times, or -1: none is expected, and the 32 bytes are no entry's. */
static void records(const char *what, vb_path p, int digest, uint64_t available, int refusal) {
    uint8_t expected[32];
    memset(expected, digest < 0 ? 0xdd : digest, 32);
    recorded(what, vb_record_available_length(state, READ, subspace(1), p, digest >= 0, expected, available), refusal);
}

static void unrecords(const char *what, vb_path p, int digest, int refusal) {
    uint8_t expected[32];
    memset(expected, digest < 0 ? 0xdd : digest, 32);
    recorded(what, vb_forget_payload(state, READ, subspace(1), p, digest >= 0, expected), refusal);
}

static void has(const char *what, const char *p, uint64_t available) {
    vb_entry_found f = vb_find_entry(state, READ, subspace(1), path(p), ignore(false, false));
    expect(what, f.found, true), expect(what, f.lengthy.available, available);
}

static void counts(const char *what, vb_area a, int refusal, size_t count) {
    vb_counted c = vb_count_area(state, READ, a);
    expect(what, c.refusal, refusal);
    expect(what, c.count, count);
}

/* A step of an area's and of a range's listing, from some bytes: the refusal, and the record, of so many bytes from an offset on; no byte of any buffer is another. */
static void makes(const char *what, vb_area a, vb_range r, vb_ignore i, const uint8_t *last, size_t n, int refusal, size_t offset, size_t length) {
    keep();
    vb_listed by_area = vb_query_area_found(state, READ, a, i, last, n), by_range = vb_query_range_found(state, READ, r, i, last, n);
    vb_part p = vb_query_area(state, READ, a, i, last, n), q = vb_query_range(state, READ, r, i, last, n);
    expect(what, by_area.refusal, refusal), expect(what, by_range.refusal, refusal);
    expect(what, by_area.found, length > 0), expect(what, by_range.found, length > 0);
    expect(what, p.length, length), expect(what, q.length, length);
    expect(what, p.offset, offset), expect(what, q.offset, offset);
    expect(what, as_it_was(), true);
}

enum { START = -1 };

/* A step of everything from the key of a record that stands at a place, or from the start: the record at another place, of so many bytes, or finished. */
static void lists(const char *what, vb_ignore i, int from, bool found, size_t at, size_t length) {
    const uint8_t *last = from == START ? NULL : tree[0] + dir[0][2 * from];
    makes(what, all(), whole(), i, last, last ? dir[0][2 * from + 1] - VALUE : 0, 0, found ? dir[0][2 * at] : 0, length);
}

/* The item at a place, and, with `last`, that zeros follow it up to the limit's room and what lies beyond is untouched. */
static void item(const char *what, size_t place, uint64_t high, uint64_t low, uint32_t count, uint64_t newest, bool last) {
    const uint8_t *p = tally + ITEM * place;
    for (int i = 0; i < 8; i++) {
        expect(what, p[i], high >> (56 - 8 * i) & 255), expect(what, p[8 + i], low >> (56 - 8 * i) & 255);
        expect(what, p[20 + i], newest >> (56 - 8 * i) & 255);
    }
    for (int i = 0; i < 4; i++) expect(what, p[16 + i], count >> (24 - 8 * i) & 255);
    if (!last) return;
    for (size_t i = ITEM * (place + 1); i < sizeof tally; i++) expect(what, tally[i], i < ITEM * state.limit ? 0 : 7);
}

/* [61][62] stored, then [61] equal in timestamp, digest and length, pruning prevented: both stand, no pair is written, and the calls after it don't answer 3. The
   other way round it is the same in every byte. The keys have 29 and 32 bytes. */
static void ties(void) {
    static const uint32_t pairs[] = {0, 29 + VALUE, 29 + VALUE, 32 + VALUE};
    fresh(4), in("a", 5, 3, 1), in("a/b", 5, 3, 1), keep();
    fresh(4), in("a/b", 5, 3, 1);
    ingests("a tie above, prevented", named(entry("a", 5, 3, 1)), true, 0, false, 0);
    expect("the same bytes", as_it_was(), true);
    expect("no pair", prune[0].offset, 0x07070707);
    for (int i = 0; i < 4; i++) expect("two records", dir[0][i], pairs[i]), expect("two records", dir[1][i], pairs[i]);
    item("two are tallied", 0, 0, 1, 2, 5, true);
    counts("ties are counted", all(), 0, 2);
    holds("the first once more", named(entry("a/b", 5, 3, 1)), true), holds("the second once more", named(entry("a", 5, 3, 1)), true);
    vb_entry e = entry("a", 5, 3, 1);
    vb_entry_forgotten f = vb_forget_entry(state, STORE, e.subspace_id, e.path, 0, e.payload_digest);
    expect("a tie is forgotten", f.refusal, 0);
    expect("the other is left", f.state.count, 1);
}

/* [61], [61][62] and [61][62][63], all tied, in each of six orders: three, and every byte the same. Then the empty path, of the same digest and length: at 5 a fourth;
   a length more and it removes all four, whose keys have 26, 29, 32 and 35 bytes. */
static void line_of_ties(void) {
    static const char *const line[] = {"a", "a/b", "a/b/c"};
    static const int orders[][3] = {{0, 1, 2}, {0, 2, 1}, {1, 0, 2}, {1, 2, 0}, {2, 0, 1}, {2, 1, 0}};
    static const uint32_t pairs[] = {0, 26 + VALUE, 26 + VALUE, 29 + VALUE, 55 + 2 * VALUE, 32 + VALUE, 87 + 3 * VALUE, 35 + VALUE};
    for (int o = 0; o < 6; o++) {
        fresh(5);
        for (int i = 0; i < 3; i++) in(line[orders[o][i]], 5, 3, 1);
        expect("three", state.count, 3);
        item("three are tallied", 0, 0, 1, 3, 5, true);
        if (o) expect("the same bytes", as_it_was(), true);
        else keep();
    }
    in("", 5, 3, 1);
    ingests("newer than all four", named(entry("", 5, 4, 1)), false, 0, false, 4);
    for (int i = 0; i < 4; i++) expect("its pair", prune[i].offset, pairs[2 * i]), expect("its pair", prune[i].length, pairs[2 * i + 1]);
    expect("no fifth pair", prune[4].offset, 0x07070707);
    item("one is tallied", 0, 0, 1, 1, 5, true);
}

/* Limit 1, full of [61][62]. [61] that ties with it removes nothing: 8, with pruning prevented too, and no byte is another. One that is newer is taken. */
static void full_of_ties(void) {
    fresh(1), in("a/b", 5, 3, 1), keep();
    ingests("a tie makes no room", named(entry("a", 5, 3, 1)), false, 8, false, 0);
    ingests("a tie makes no room, prevented", named(entry("a", 5, 3, 1)), true, 8, false, 0);
    ingests("nor does one above both", named(entry("", 5, 3, 1)), false, 8, false, 0);
    ingests("nor does one below", named(entry("a/b/c", 5, 3, 1)), false, 8, false, 0);
    expect("no byte changed", as_it_was(), true);
    ingests("newer, prevented", named(entry("a", 5, 4, 1)), true, 7, false, 0);
    ingests("newer", named(entry("a", 5, 4, 1)), false, 0, false, 1);
}

/* Below [61] at 5, of length 3 and digest 1, stand [61][62], which ties, [61][63], [61][64] and [61][65], older by length, digest and time, and [61][66], [61][67] and
   [61][68], newer by these. It is refused with 7 if pruning is prevented; else the three older go, and theirs are the pairs. Each key has 32 bytes. */
static void beside_ties(void) {
    const uint32_t record = 32 + VALUE;
    fresh(8), in("a/b", 5, 3, 1), in("a/c", 5, 2, 1), in("a/d", 5, 9, 0), in("a/e", 4, 9, 9), in("a/f", 5, 4, 1), in("a/g", 5, 0, 2), in("a/h", 6, 0, 0);
    ingests("three would go", named(entry("a", 5, 3, 1)), true, 7, false, 0);
    ingests("three go", named(entry("a", 5, 3, 1)), false, 0, false, 3);
    for (uint32_t i = 0; i < 3; i++) expect("its pair", prune[i].offset, record * (i + 1)), expect("its pair", prune[i].length, record);
    expect("no fourth pair", prune[3].offset, 0x07070707);
    item("five are tallied", 0, 0, 1, 5, 6, true);
    static const char *const left[] = {"a", "a/b", "a/f", "a/g", "a/h"};
    for (int i = 0; i < 5; i++) expect(left[i], vb_find_entry(state, READ, subspace(1), path(left[i]), ignore(false, false)).found, true);
    vb_entry other = named(entry("a", 5, 3, 1));
    other.subspace_id = subspace(2), other.path = path("a/b");
    ingests("a tie of another subspace", other, true, 0, false, 0);
    other.path = path("a");
    ingests("and one above it there", other, true, 0, false, 0);
    item("there two", 1, 0, 2, 2, 5, true);
    fresh(3), in("a/b", 5, 3, 1), in("a/c", 5, 2, 1); /* one that ties, and an older one */
    ingests("one goes", named(entry("a", 5, 3, 1)), false, 0, false, 1);
    expect("that of [61][63]", prune[0].offset, record), expect("and no other", prune[1].offset, 0x07070707);
    ingests("a later one, prevented", named(entry("a", 6, 0, 0)), true, 7, false, 0);
    ingests("a later one removes both", named(entry("a", 6, 0, 0)), false, 0, false, 2);
}

/* Limit 1, full. The same entry with another token: held, not 7 or 8, and the old token stays; of another namespace 6, with a wrong tally 10. The same place
   with another length, digest or time is no resend: 7 with pruning prevented, else a success that prunes one and has the new token. Then an older entry,
   pruning prevented: obsolete, not 7 or 8; of another namespace too: 6; with an illegal path too: 4; with a short prune list too: 2. */
static void full(void) {
    fresh(1), in("a", 5, 3, 1);
    memset(token, 9, sizeof token);
    vb_entry again = named(entry("a", 5, 3, 1)), elsewhere = again;
    holds("resent, prevented", again, true), holds("resent", again, false);
    expect("the old token stays", tree[0][KEY + VB_VALUE_TOKEN], 1);
    elsewhere.namespace_id[15] = 1;
    ingests("resent, another namespace", elsewhere, false, 6, false, 0);
    tally[27] ^= 1;
    ingests("resent, wrong tally", again, false, 10, false, 0), ingests("resent, wrong tally, prevented", again, true, 10, false, 0);
    tally[27] ^= 1;
    lent = 0;
    ingests("resent, a short prune list", again, false, 2, false, 0);
    lent = MOST;
    tree[1][RECORD - 1] = 1;
    ingests("resent, not well-formed", again, false, 3, false, 0);
    tree[1][RECORD - 1] = 0;
    static const struct { uint64_t time, length; uint8_t digest; } near[] = {{5, 4, 1}, {5, 3, 2}, {6, 3, 1}};
    for (int i = 0; i < 3; i++) ingests("no resend, prevented", named(entry("a", near[i].time, near[i].length, near[i].digest)), true, 7, false, 0);
    ingests("no resend: another length", named(entry("a", 5, 4, 1)), false, 0, false, 1);
    expect("the new token", tree[0][KEY + VB_VALUE_TOKEN], 9);
    expect("one is left", state.count, 1);
    ingests("what was stored is now obsolete", again, true, 0, true, 0);
    vb_entry older = named(entry("a", 4, 3, 1));
    ingests("obsolete in a full store", older, true, 0, true, 0);
    older.namespace_id[15] = 1;
    ingests("another namespace", older, true, 6, false, 0);
    older.path.count = 9;
    ingests("an illegal path", older, true, 4, false, 0);
    lent = 0;
    ingests("a short prune list", older, true, 2, false, 0);
    lent = MOST;
}

/* [61] and [61][62], which tie, of available lengths 2 and 0: a resend of either is held, and both stay. Other bytes behind the path's total and other ends
   behind its count make no other entry. Other components do: [61][62][] and [6162] are taken. Then the store is full, and an entry of that rank in another
   subspace or at [61][63] gets 8: it is not held. */
static void resends(void) {
    fresh(4), in("a", 5, 3, 1), in("a/b", 5, 3, 1);
    memset(token, 9, sizeof token);
    holds("resent above a tie", named(entry("a", 5, 3, 1)), false);
    records("two of three", path("a"), 1, 2, 0);
    expect("in both trees", tree[0][LENGTH_AT], 2), expect("in both trees", tree[1][LENGTH_AT], 2);
    for (int i = 0; i < 2; i++) {
        vb_entry again = named(entry(i ? "a/b" : "a", 5, 3, 1));
        holds("resent beside a tie", again, i), holds("resent beside a tie", again, !i);
        for (size_t k = 1 + (size_t)i; k < VB_MPL; k++) again.path.bytes[k] = (uint8_t)(0x62 + k);
        holds("other bytes behind the path", again, i);
        for (size_t k = again.path.count; k < VB_MCC; k++) again.path.ends[k] = k % 2 ? GREATEST : 0;
        holds("other ends behind its count", again, !i);
    }
    vb_entry_found f = vb_find_entry(state, READ, subspace(1), path("a"), ignore(false, false));
    expect("its token stays", f.lengthy.token[0], 1), expect("its available length stays", f.lengthy.available, 2);
    vb_entry below = named(entry("a/b", 5, 3, 1)), other = named(entry("a", 5, 3, 1));
    below.path.ends[2] = 2, below.path.count = 3;
    ingests("[61][62][]", below, true, 0, false, 0), ingests("[6162]", named(entry("ab", 5, 3, 1)), true, 0, false, 0);
    other.subspace_id = subspace(2);
    ingests("another subspace", other, true, 8, false, 0);
    ingests("[61][63]", named(entry("a/c", 5, 3, 1)), true, 8, false, 0);
    holds("[61][62][] again", below, true);
    counts("four", all(), 0, 4);
}

/* How much has arrived */

/* Of [61], length 3 and digest 1: 3 is taken, 4 and 2^64 - 1 are 12; smaller than before is taken. Another digest is 9, with a length that would be 12 too; one that is not
   expected plays no part. Of length 0: 0 is taken, 1 is 12. Of length 2^64 - 1 every number is taken. Each refusal leaves every byte. */
static void lengths(void) {
    fresh(4), in("a", 5, 3, 1), in("b", 5, 0, 1), in("c", 5, GREATEST, 1);
    static const uint64_t taken[] = {3, 0, 1, 1, 3, 2};
    for (int i = 0; i < 6; i++) {
        keep();
        records("up to the payload length", path("a"), i % 2 ? 1 : -1, taken[i], 0);
        expect("in the subspace-first tree", tree[0][LENGTH_AT], taken[i]), expect("in the time-first tree", tree[1][LENGTH_AT], taken[i]);
        was.trees[LENGTH_AT] = was.trees[sizeof tree[0] + LENGTH_AT] = (uint8_t)taken[i];
        expect("and no other byte", as_it_was(), true);
        has("it is shown", "a", taken[i]);
    }
    keep();
    static const uint64_t over[] = {4, 5, 256 + 3, 1ull << 32, 1ull << 63, GREATEST};
    for (int i = 0; i < 6; i++) {
        records("over the payload length", path("a"), -1, over[i], 12), records("over the payload length, its digest", path("a"), 1, over[i], 12);
        records("another digest, and over", path("a"), 2, over[i], 9);
        records("an absent entry, and over", path("d"), -1, over[i], 11), records("an absent entry, another digest, and over", path("d"), 2, over[i], 11);
    }
    records("another digest", path("a"), 2, 3, 9), records("another digest, nothing there", path("a"), 0, 0, 9);
    unrecords("another digest", path("a"), 2, 9), unrecords("an absent entry", path("d"), -1, 11), unrecords("an absent entry, another digest", path("d"), 2, 11);
    records("one of none", path("b"), 1, 1, 12), records("2^64 - 1 of none", path("b"), -1, GREATEST, 12), records("none of none", path("b"), 1, 0, 0);
    unrecords("none of none", path("b"), 1, 0);
    expect("no byte changed", as_it_was(), true);
    static const uint64_t great[] = {GREATEST, GREATEST - 1, 1ull << 63, 0x0102030405060708};
    for (int i = 0; i < 4; i++) records("of 2^64 - 1", path("c"), -1, great[i], 0), has("of 2^64 - 1", "c", great[i]);
    const size_t third = 2 * (KEY + VALUE) + KEY + VB_VALUE_AVAILABLE;
    for (size_t i = 0; i < 8; i++) expect("big-endian", tree[0][third + i], i + 1), expect("big-endian", tree[1][third + i], i + 1);
    unrecords("forgotten", path("c"), 1, 0), expect("every byte again", as_it_was(), true);
    unrecords("two of three are forgotten", path("a"), -1, 0), has("none is left", "a", 0);
    keep(), unrecords("and once more", path("a"), 1, 0), expect("no byte changed", as_it_was(), true);
}

/* [61][62] stored with 2 of 3 bytes, and [61] not: recording and forgetting at [61] is 11, and the extension keeps its length. The other way round too. Then both stand, which
   tie, and each has its own. [6162], [61][], the empty path and another subspace are other places. */
static void exact(void) {
    static const char *const line[] = {"a/b", "a"};
    for (int i = 0; i < 2; i++) {
        fresh(3), in(line[i], 5, 3, 1);
        records("at the path", path(line[i]), 1, 2, 0), keep();
        records("at the other", path(line[!i]), -1, 3, 11), records("at the other, its digest", path(line[!i]), 1, 0, 11), unrecords("at the other", path(line[!i]), -1, 11);
        unrecords("at the other, its digest", path(line[!i]), 1, 11), records("at the empty path", path(""), 1, 1, 11), unrecords("at the empty path", path(""), -1, 11);
        expect("no byte changed", as_it_was(), true), has("it keeps its length", line[i], 2);
        in(line[!i], 5, 3, 1);
        has("the new one has none", line[!i], 0), has("it keeps its length", line[i], 2);
        records("at the new one", path(line[!i]), 1, 3, 0), has("the new one", line[!i], 3), has("it keeps its length", line[i], 2);
        unrecords("the new one's", path(line[!i]), 1, 0), has("the new one", line[!i], 0), has("it keeps its length", line[i], 2);
    }
    vb_path blank = path("a");
    blank.ends[1] = 1, blank.count = 2;
    keep();
    records("[6162]", path("ab"), -1, 1, 11), records("[61][]", blank, -1, 1, 11), unrecords("[6162]", path("ab"), -1, 11), unrecords("[61][]", blank, -1, 11);
    uint8_t digest[32];
    memset(digest, 1, 32);
    for (uint64_t low = 0; low < 3; low += 2) {
        recorded("another subspace", vb_record_available_length(state, READ, subspace(low), path("a"), 1, digest, 1), 11);
        recorded("another subspace", vb_forget_payload(state, READ, subspace(low), path("a"), 1, digest), 11);
    }
    expect("no byte changed", as_it_was(), true);
    vb_path behind = path("a");
    for (size_t k = 1; k < VB_MPL; k++) behind.bytes[k] = (uint8_t)k;
    for (size_t k = 1; k < VB_MCC; k++) behind.ends[k] = GREATEST - k;
    records("other bytes and ends behind the path", behind, 1, 1, 0), has("they are not looked at", "a", 1);
    unrecords("other bytes and ends behind the path", behind, 1, 0), has("they are not looked at", "a", 0);
    vb_entry_forgotten f = vb_forget_entry(state, STORE, subspace(1), path("d"), 1, digest);
    expect("forgetting an absent entry is done", f.refusal, 0), expect("and drops none", f.state.count, 2);
}

/* The flag of lookups and listings: 2 of 3 is passed over, 3 of 3 is not, 0 of 0 is complete, and empty. Counts have all. */
static void flagged(void) {
    const size_t record = 16 + 3 + 2 + 8 + VALUE;
    fresh(4), in("a", 5, 3, 1), in("b", 5, 0, 1), in("c", 5, 3, 1);
    lists("0 of 0 alone", ignore(true, false), START, true, 1, record), lists("no other", ignore(true, false), 1, false, 0, 0);
    records("2 of 3", path("c"), -1, 2, 0), lists("2 of 3 is passed over", ignore(true, false), 1, false, 0, 0);
    records("3 of 3", path("c"), 1, 3, 0), lists("3 of 3 is not", ignore(true, false), 1, true, 2, record), lists("with both flags it is the first", ignore(true, true), START, true, 2, record);
    expect("found", vb_find_entry(state, READ, subspace(1), path("c"), ignore(true, true)).found, true);
    records("1 of 3", path("a"), 1, 1, 0), expect("passed over", vb_find_entry(state, READ, subspace(1), path("a"), ignore(true, false)).found, false);
    expect("without the flag it is found", vb_find_entry(state, READ, subspace(1), path("a"), ignore(false, true)).lengthy.available, 1);
    counts("three are counted", all(), 0, 3);
    unrecords("none of 3", path("c"), 1, 0), lists("passed over again", ignore(true, false), 1, false, 0, 0);
    item("three are tallied", 0, 0, 1, 3, 5, true);
}

/* An entry that is filed starts at 0, also over one at the same place, after a forgetting of the entry or of an area, and above one that it prunes; one that stays keeps its own,
   as does one that is held, whatever its token, one that ties, and one beside which another is refused. */
static void filed(void) {
    fresh(2), in("a", 5, 3, 1), records("3 of 3", path("a"), 1, 3, 0);
    memset(token, 9, sizeof token);
    holds("resent", named(entry("a", 5, 3, 1)), false), holds("resent, prevented", named(entry("a", 5, 3, 1)), true), has("held keeps it", "a", 3);
    ingests("obsolete", named(entry("a", 5, 2, 1)), false, 0, true, 0), has("obsolete keeps it", "a", 3);
    ingests("prevented", named(entry("a", 6, 3, 1)), true, 7, false, 0), has("7 keeps it", "a", 3);
    in("a/b", 5, 3, 1), has("a tie keeps it", "a", 3), has("and starts at 0", "a/b", 0);
    ingests("full", named(entry("c", 5, 3, 1)), false, 8, false, 0), has("8 keeps it", "a", 3);
    ingests("newer by its length", named(entry("a/b", 5, 4, 1)), false, 0, false, 1), has("the other keeps it", "a", 3), has("the newer one starts at 0", "a/b", 0);
    records("2 of 4", path("a/b"), 1, 2, 0);
    ingests("newer than both", named(entry("a", 5, 3, 2)), false, 0, false, 2), has("the newer one starts at 0", "a", 0);
    records("1 of 3", path("a"), 2, 1, 0), records("the old digest", path("a"), 1, 1, 9);
    vb_entry e = named(entry("a", 5, 3, 2));
    vb_entry_forgotten f = vb_forget_entry(state, STORE, e.subspace_id, e.path, 0, e.payload_digest);
    state = f.state;
    records("forgotten", path("a"), -1, 1, 11), unrecords("forgotten", path("a"), -1, 11);
    in("a", 5, 3, 2), has("filed again", "a", 0);
    records("1 of 3", path("a"), 2, 1, 0), state = vb_forget_area(state, STORE, all(), 0, all()).state;
    in("a", 5, 3, 2), has("filed again after an area's forgetting", "a", 0);
    records("1 of 3", path("a"), 2, 1, 0), in("b", 5, 3, 2);
    vb_area later = all();
    later.path = path("b");
    state = vb_forget_area(state, STORE, later, 0, later).state, has("what is not forgotten keeps it", "a", 1);
    memset(token, 9, sizeof token);
    ingests("above it, and newer", named(entry("", 6, 3, 2)), false, 0, false, 1), has("it starts at 0", "", 0);
}

/* Refusals in checking order: a limit of 0 before short buffers, these before a store that is not well-formed, that before an illegal path, that before 11, 9, 12. A wrong or
   short tally is none, nor is another namespace in the state, which comes back. Written in one tree only: 3, then and to the next call. */
static void turned_away_lengths(void) {
    fresh(2), in("a", 5, 3, 1);
    vb_path illegal = path("a");
    illegal.count = 9;
    keep();
    for (int digest = -1; digest < 3; digest++) {
        records("an illegal path", illegal, digest, GREATEST, 4), unrecords("an illegal path", illegal, digest, 4);
        tree[1][RECORD * 2 - 1] = 1;
        records("not well-formed", illegal, digest, GREATEST, 3), unrecords("not well-formed", illegal, digest, 3);
        room = RECORD * 2 - 1;
        records("short", illegal, digest, GREATEST, 2), unrecords("short", illegal, digest, 2);
        vb_state kept = state;
        state.limit = 0;
        records("a limit of 0", illegal, digest, GREATEST, 1), unrecords("a limit of 0", illegal, digest, 1);
        state.limit = 1025;
        records("a limit of 1,025", path("a"), digest, 0, 1), unrecords("a limit of 1,025", path("a"), digest, 1);
        state = kept, room = sizeof tree[0], tree[1][RECORD * 2 - 1] = 0;
    }
    expect("no byte changed", as_it_was(), true);
    tally[27] ^= 1, tally_room = 0;
    records("the tally is not lent", path("a"), 1, 2, 0), unrecords("nor here", path("a"), 1, 0);
    tally[27] ^= 1, tally_room = sizeof tally;
    state.namespace_id[15] ^= 1;
    records("another namespace", path("a"), 1, 2, 0);
    state.namespace_id[15] ^= 1;
    for (int t = 0; t < 2; t++) {
        tree[t][LENGTH_AT] = 1;
        keep();
        records("one tree only", path("a"), 1, 2, 3), unrecords("one tree only", path("a"), 1, 3), counts("one tree only", all(), 3, 0);
        expect("no byte changed", as_it_was(), true);
        tree[t][LENGTH_AT] = 2;
    }
    room = RECORD * 2;
    records("buffers of the room alone", path("a"), 1, 3, 0), unrecords("buffers of the room alone", path("a"), 1, 0);
    room = sizeof tree[0];
    for (int t = 0; t < 2; t++)
        for (int i = 0; i < 8; i++) expect("what lies beyond stays", tree[t][RECORD * 2 + i], 7), expect("what lies beyond stays", dir[t][4 + i], 0x07070707);
}

/* [61][62] alone, whose key has 16 + 8 + 8 bytes, then a newer [61]: the pair is that of the record before the call, later pairs are
   untouched, the time-first tree has one record and zeros behind it. Stored [61] at 5, [61][62] at 9, [61][63] at 6, [6162] at 1, and
   [61][62] of another subspace at 1, then [61] at 7: it removes [61] and [61][63] only. */
static void pruned(void) {
    fresh(4), in("a/b", 5, 3, 1);
    const uint32_t size = 16 + 3 + 3 + 2 + 8 + VALUE;
    expect("size of the record", dir[0][1], size);
    ingests("one is pruned", named(entry("a", 6, 3, 1)), false, 0, false, 1);
    expect("pair's offset", prune[0].offset, 0), expect("pair's length", prune[0].length, size);
    expect("next pair untouched", prune[1].offset, 0x07070707);
    expect("time-first record", dir[1][1], size - 3), expect("zeros behind it", tree[1][size - 3], 0);
    fresh(8), in("a", 5, 3, 1), in("a/b", 9, 3, 1), in("a/c", 6, 3, 1), in("ab", 1, 3, 1);
    vb_entry other = named(entry("a/b", 1, 3, 1));
    other.subspace_id = subspace(2);
    ingests("another subspace", other, false, 0, false, 0);
    ingests("two are pruned", named(entry("a", 7, 3, 1)), false, 0, false, 2);
    expect("four are left", state.count, 4);
}

/* Matches at times 9, 5, 3 of lengths 1, 2^64 - 1, 1. A size limit that the sum passes starts at the entry that broke it, also where the
   sum passes 2^64 - 1; the greatest limit means none; count limits of 0, 1, 2 and 3 start at 9, 5, 3 and 3. Without a match the times start as
   given, 20, although they end at 10. */
static void interest(void) {
    fresh(8), in("c", 9, 1, 1), in("b", 5, GREATEST, 1), in("a", 3, 1, 1);
    static const struct { uint64_t count, size, start; } asks[] = {
        {GREATEST, 10, 5}, {GREATEST, GREATEST, 3}, {0, GREATEST, 9}, {1, GREATEST, 5}, {2, GREATEST, 3}, {3, GREATEST, 3}, {GREATEST, GREATEST - 1, 5}, {GREATEST, 0, 9}};
    vb_interest i = {all(), 0, 0};
    for (size_t k = 0; k < sizeof asks / sizeof *asks; k++) {
        i.max_count = asks[k].count, i.max_size = asks[k].size;
        vb_area_range r = vb_area_of_interest_to_range(state, READ, i);
        expect("area of interest", r.refusal, 0), expect("area of interest", r.range.times.start, asks[k].start);
    }
    i.area.times.start = 20, i.area.times.end = 10, i.area.times.open = 0;
    expect("times as given", vb_area_of_interest_to_range(state, READ, i).range.times.start, 20);
    counts("no match is counted", i.area, 0, 0);
}

/* A listing of an empty store, and from the last record: finished, the part empty. Of fresh entries of lengths 0 and 3, ignoring empty ones hides the first, ignoring incomplete ones the
   second only, as 0 of 0 is complete; a count has both. */
static void listings(void) {
    const size_t record = 16 + 3 + 2 + 8 + VALUE;
    fresh(8), lists("empty store", ignore(false, false), START, false, 0, 0);
    in("a", 5, 0, 1), in("b", 5, 3, 1);
    lists("first match", ignore(false, false), START, true, 0, record);
    lists("behind the first", ignore(false, false), 0, true, 1, record);
    lists("behind the last", ignore(false, false), 1, false, 0, 0);
    lists("empty ones hidden", ignore(false, true), START, true, 1, record);
    lists("incomplete ones hidden", ignore(true, false), 0, false, 0, 0);
    lists("0 of 0 is complete", ignore(true, false), START, true, 0, record);
    counts("a count has both", all(), 0, 2);
}

/* The key that a listing remembers: the last that it gave, copied; none at its start. */
typedef struct {
    uint8_t key[VB_KEY_MOST + 2];
    size_t len;
} remembered;

/* A key by the printed table: the subspace's last byte, components of text parted by '/', each with its end 00 01, the path's end 00 00, the time's last byte. */
static remembered key(uint8_t low, const char *components, uint8_t time) {
    remembered k;
    memset(&k, 0, sizeof k);
    k.key[15] = low, k.len = 16;
    for (const char *c = components; *c; c++) {
        if (*c == '/') k.len++, k.key[k.len++] = 1;
        else k.key[k.len++] = (uint8_t)*c;
    }
    if (*components) k.len++, k.key[k.len++] = 1;
    k.len += 2, k.key[k.len + 7] = time, k.len += 8;
    return k;
}

/* The step of everything from what is remembered gives the record of this key, whose digest is a byte 32 times; then this key is remembered. */
static void gives(const char *what, remembered *last, vb_ignore i, remembered k, uint8_t digest) {
    size_t offset = SIZE_MAX, length = 0;
    for (size_t n = 0; n < state.count; n++)
        if (dir[0][2 * n + 1] == k.len + VALUE && !memcmp(tree[0] + dir[0][2 * n], k.key, k.len)) offset = dir[0][2 * n], length = k.len + VALUE;
    makes(what, all(), whole(), i, last->key, last->len, 0, offset, length);
    vb_part p = vb_query_area(state, READ, all(), i, last->key, last->len), its_key = vb_record_key(tree[0] + p.offset, p.length);
    expect(what, its_key.offset, 0), expect(what, its_key.length, k.len), expect(what, memcmp(tree[0] + p.offset, k.key, k.len), 0);
    expect(what, tree[0][p.offset + k.len + VB_VALUE_DIGEST], digest);
    memcpy(last->key, tree[0] + p.offset, its_key.length), last->len = its_key.length;
}

static void ends(const char *what, const remembered *last, vb_ignore i) { makes(what, all(), whole(), i, last->key, last->len, 0, 0, 0); }

static void gone(const char *p) {
    static const uint8_t digest[32];
    vb_entry_forgotten f = vb_forget_entry(state, STORE, subspace(1), path(p), 0, digest);
    expect(p, f.refusal, 0), expect(p, f.state.count, state.count - 1);
    state = f.state;
}

/* The remembered key's own record is not given again; it need not be stored any more, nor match, nor ever have been stored. */
static void not_again(void) {
    const vb_ignore none = ignore(false, false);
    remembered last = {{0}, 0};
    fresh(8), in("a", 5, 3, 1), in("b", 5, 3, 2), in("c", 5, 3, 3);
    gives("the first", &last, none, key(1, "a", 5), 1), gives("the next", &last, none, key(1, "b", 5), 2);
    gone("b"), gives("behind one that is gone", &last, none, key(1, "c", 5), 3), ends("none is left", &last, none), ends("nor later", &last, none);
    vb_range from_c = whole(), to_b = whole();
    from_c.paths.start = path("c"), to_b.paths.end = path("b"), to_b.paths.open = 0;
    vb_area c = all();
    c.path = path("c");
    remembered a = key(1, "a", 5);
    makes("from one that does not match", c, from_c, none, a.key, a.len, 0, dir[0][2], KEY + VALUE);
    vb_area early = all();
    early.times.start = 6;
    makes("from one that does not match, and nothing else does", early, to_b, none, a.key, a.len, 0, 0, 0);
    last = key(1, "b/x", 0), gives("never stored, between two", &last, none, key(1, "c", 5), 3);
    last = key(1, "c", 4), gives("never stored, at its path and before its time", &last, none, key(1, "c", 5), 3);
    last = key(1, "c", 6), ends("at its path and after its time", &last, none);
}

/* [61] time 5 is given, and then pruned by [61] time 6, whose key is above: it is given. With a greater digest in its place the key is the same, and it is not. */
static void in_its_place(void) {
    const vb_ignore none = ignore(false, false);
    remembered last = {{0}, 0};
    fresh(8), in("a", 5, 3, 1), in("b", 5, 3, 2);
    gives("time 5", &last, none, key(1, "a", 5), 1);
    ingests("time 6", named(entry("a", 6, 3, 1)), false, 0, false, 1);
    gives("time 6", &last, none, key(1, "a", 6), 1), gives("and on", &last, none, key(1, "b", 5), 2), ends("to the end", &last, none);
    last.len = 0, fresh(8), in("a", 5, 3, 1), in("b", 5, 3, 2);
    gives("time 5", &last, none, key(1, "a", 5), 1);
    ingests("a greater digest", named(entry("a", 5, 3, 9)), false, 0, false, 1);
    gives("the key was given", &last, none, key(1, "b", 5), 2), ends("to the end", &last, none);
}

/* A key above all: finished. Below all: the first. Of a subspace without entries, by its bytes. The longest key, and one all ff. A time-first key of the empty path is one that the subspace-first
   encoder writes: it lies where its bytes do. */
static void any_key(void) {
    const vb_ignore none = ignore(false, false);
    remembered last;
    fresh(8), in("a", 5, 3, 1);
    vb_entry third = named(entry("a", 5, 3, 3));
    third.subspace_id = subspace(3), ingests("subspace 3", third, false, 0, false, 0);
    last = key(0, "", 0), gives("below all", &last, none, key(1, "a", 5), 1);
    last = key(2, "", 0), gives("between the subspaces", &last, none, key(3, "a", 5), 3);
    last = key(3, "b", 0), ends("above all", &last, none);
    last = key(4, "", 0), ends("of a greater subspace", &last, none);
    vb_area one = all();
    one.any_subspace = 0, one.subspace = subspace(1);
    vb_range only = whole();
    only.subspaces.end = subspace(2), only.subspaces.open = 0;
    last = key(2, "", 0), makes("subspace 1 is behind", one, only, none, last.key, last.len, 0, 0, 0);
    last = key(0, "z", 255), makes("subspace 1 is ahead", one, only, none, last.key, last.len, 0, 0, KEY + VALUE);
    memset(&last, 0, sizeof last); /* two components of 64 bytes 00 and six empty ones */
    last.key[15] = 1, last.len = 298;
    for (int i = 0; i < 2; i++) {
        for (int n = 0; n < 64; n++) last.key[16 + 130 * i + 2 * n + 1] = 2;
        last.key[16 + 130 * i + 129] = 1;
    }
    for (int i = 0; i < 6; i++) last.key[276 + 2 * i + 1] = 1;
    gives("298 bytes", &last, none, key(1, "a", 5), 1);
    last.len = 16 + 66 + 66 + 2 + 8; /* a subspace, two components and a time, all ff */
    memset(last.key, 0xff, last.len), last.key[80] = last.key[146] = last.key[148] = last.key[149] = 0, last.key[81] = last.key[147] = 1;
    ends("above everything", &last, none);
    uint8_t time_first[26] = {0, 0, 0, 0, 0, 0, 0, 5, 0, 0, 0, 0, 0, 0, 0, 0, 0, 0, 0, 0, 0, 0, 0, 1}; /* time 5, subspace 1, the empty path; as a key: subspace 5 << 64, the empty path, time 2^16 */
    memcpy(last.key, time_first, last.len = 26), ends("time 5 of the empty path", &last, none);
    last.key[7] = 0, gives("time 0 of the empty path", &last, none, key(1, "a", 5), 1);
}

/* 5 for what the subspace-first encoder does not write: cut anywhere, with a byte behind it, nine components, a time-first key, 299 bytes, 61 00 00, 61 00 03. Behind 1, 2, 3 and 4, whatever else. */
static void no_keys(void) {
    const vb_ignore none = ignore(false, false);
    remembered k = key(1, "a", 5), odd;
    fresh(8), in("a", 5, 3, 1);
    makes("the empty key", all(), whole(), none, k.key, 0, 0, 0, KEY + VALUE), makes("no bytes at all", all(), whole(), none, NULL, 0, 0, 0, KEY + VALUE);
    makes("a key", all(), whole(), none, k.key, k.len, 0, 0, 0);
    for (size_t n = 1; n < k.len; n++) makes("cut", all(), whole(), none, k.key, n, 5, 0, 0);
    for (int b = 0; b < 256; b += 51) odd = k, odd.key[odd.len++] = (uint8_t)b, makes("a byte behind it", all(), whole(), none, odd.key, odd.len, 5, 0, 0);
    odd = key(1, "", 5), makes("26 bytes", all(), whole(), none, odd.key, 26, 0, 0, KEY + VALUE), makes("25 bytes", all(), whole(), none, odd.key, 25, 5, 0, 0);
    odd = key(1, "b/b/b/b/b/b/b/b", 5), makes("eight components", all(), whole(), none, odd.key, odd.len, 0, 0, 0);
    odd = key(1, "b/b/b/b/b/b/b/b/b", 5), makes("nine components", all(), whole(), none, odd.key, odd.len, 5, 0, 0);
    odd = key(1, "bbbbbbbbbbbbbbbbbbbbbbbbbbbbbbbbbbbbbbbbbbbbbbbbbbbbbbbbbbbbbbbb", 5), makes("64 bytes", all(), whole(), none, odd.key, odd.len, 0, 0, 0);
    odd = key(1, "bbbbbbbbbbbbbbbbbbbbbbbbbbbbbbbbbbbbbbbbbbbbbbbbbbbbbbbbbbbbbbbbb", 5), makes("65 bytes", all(), whole(), none, odd.key, odd.len, 5, 0, 0);
    const uint8_t time_first[29] = {0, 0, 0, 0, 0, 0, 0, 5, 0, 0, 0, 0, 0, 0, 0, 0, 0, 0, 0, 0, 0, 0, 0, 1, 'a', 0, 1, 0, 0};
    makes("the time-first key", all(), whole(), none, time_first, 29, 5, 0, 0);
    const uint8_t zeros[VB_KEY_MOST + 1] = {0};
    makes("299 bytes", all(), whole(), none, zeros, 299, 5, 0, 0), makes("298 zeros", all(), whole(), none, zeros, 298, 5, 0, 0), makes("26 zeros", all(), whole(), none, zeros, 26, 0, 0, KEY + VALUE);
    static const uint8_t paths[][6] = {{'a', 0, 0}, {'a', 0, 3, 0, 1, 0}, {'a', 0, 3, 0, 0}, {0, 3, 0, 1, 0, 0}, {'a', 0, 255, 0, 1, 0}, {'a', 'b', 'c', 'd', 'e', 'f'}};
    for (size_t n = 0; n < sizeof paths / sizeof *paths; n++)
        for (size_t len = 3; len <= 6; len++) { /* then the time */
            memset(&odd, 0, sizeof odd), odd.key[15] = 1, memcpy(odd.key + 16, paths[n], len), odd.key[16 + len + 7] = 5;
            makes("no path", all(), whole(), none, odd.key, 16 + len + 8, 5, 0, 0);
        }
    vb_range back = whole(), bad_range = whole();
    vb_area nothing = all(), bad = all();
    back.paths.start = path("b"), back.paths.end = path("a"), back.paths.open = 0, nothing.times.start = 9, nothing.times.end = 3, nothing.times.open = 0;
    makes("it ends before it starts", nothing, back, none, NULL, 0, 0, 0, 0), makes("from a key", nothing, back, none, k.key, k.len, 0, 0, 0), makes("from no key", nothing, back, none, k.key, k.len - 1, 5, 0, 0);
    bad.path.count = bad_range.paths.start.count = 9;
    const vb_state was_state = state;
    for (int n = 0; n < 3; n++) { /* the start, a key, no key */
        const size_t len = n == 0 ? 0 : n == 1 ? k.len : k.len - 1;
        makes("an illegal path", bad, bad_range, none, k.key, len, 4, 0, 0);
        tree[1][RECORD * 8 - 1] = 1;
        makes("not well-formed", bad, bad_range, none, k.key, len, 3, 0, 0), makes("not well-formed", all(), whole(), none, k.key, len, 3, 0, 0);
        room = RECORD * 8 - 1;
        makes("a short tree", bad, bad_range, none, k.key, len, 2, 0, 0);
        state.limit = 0;
        makes("no limit", bad, bad_range, none, k.key, len, 1, 0, 0);
        state = was_state, room = sizeof tree[0], tree[1][RECORD * 8 - 1] = 0;
    }
    fresh(8), makes("no key in an empty store", all(), whole(), none, k.key, k.len - 1, 5, 0, 0), makes("a key in an empty store", all(), whole(), none, k.key, k.len, 0, 0, 0);
}

/* What arrives behind is not given, what arrives ahead is; pruned or forgotten before its turn it is not; forgotten and filed again it is, if it is ahead when its turn comes; what is there all the
   while is given once. An opening between: the listing goes on in what is filed then. The key lies in the tree, and a filing moves it: a copy stays what it was. */
static void open_listing(void) {
    const vb_ignore none = ignore(false, false);
    remembered last = {{0}, 0};
    fresh(8), in("b", 5, 3, 1), in("d", 5, 3, 2), in("f", 5, 3, 3), in("f/x", 6, 3, 4), in("h", 5, 3, 5);
    gives("the first", &last, none, key(1, "b", 5), 1), gives("the next", &last, none, key(1, "d", 5), 2);
    vb_part p = vb_query_area(state, READ, all(), none, key(1, "b", 5).key, KEY);
    expect("its key is in the tree", memcmp(tree[0] + p.offset, last.key, KEY), 0);
    in("a", 5, 3, 6);
    expect("and is moved", memcmp(tree[0] + p.offset, last.key, KEY) != 0, true);
    in("e", 5, 3, 7);
    gives("ahead", &last, none, key(1, "e", 5), 7);
    ingests("both that were to come", named(entry("f", 7, 3, 8)), false, 0, false, 2);
    gives("in their place", &last, none, key(1, "f", 7), 8);
    gone("h"), gone("f"), in("h", 5, 3, 9), in("f", 7, 3, 9);
    gives("filed again ahead", &last, none, key(1, "h", 5), 9), ends("filed again behind, and what arrived behind", &last, none);
    ingests("everything of the subspace", named(entry("", 9, 3, 1)), false, 0, false, 6), ends("pruned", &last, none);
    in("i", 9, 3, 1), gives("finished it goes on", &last, none, key(1, "i", 9), 1);
    fresh(8), ends("an empty store", &last, none), in("a", 5, 3, 1), in("j", 5, 3, 2);
    gives("in another store", &last, none, key(1, "j", 5), 2), ends("to its end", &last, none);
}

/* Passed over as incomplete, then recorded complete: its key is behind, not given; ahead, given. Forgotten before its turn: not given. */
static void completed(void) {
    const vb_ignore incomplete = ignore(true, false);
    remembered last = {{0}, 0};
    fresh(8), in("a", 5, 3, 1), in("b", 5, 3, 2), in("c", 5, 3, 3), in("d", 5, 3, 4);
    records("all of b", path("b"), -1, 3, 0), records("all of d", path("d"), -1, 3, 0);
    gives("the first that is all there", &last, incomplete, key(1, "b", 5), 2);
    records("all of a", path("a"), -1, 3, 0), records("all of c", path("c"), -1, 3, 0), unrecords("none of d", path("d"), -1, 0), unrecords("none of b", path("b"), -1, 0);
    gives("completed ahead", &last, incomplete, key(1, "c", 5), 3), ends("completed behind, forgotten ahead", &last, incomplete);
}

/* The key of a record is all but its last 121 bytes; of fewer bytes there is none. */
static void keys_of_records(void) {
    static const uint8_t record[RECORD + 1];
    static const size_t some[][2] = {{0, 0}, {1, 0}, {120, 0}, {121, 0}, {122, 1}, {KEY + VALUE, KEY}, {418, 297}, {419, 298}, {420, 299}};
    for (size_t k = 0; k < sizeof some / sizeof *some; k++) {
        vb_part p = vb_record_key(record, some[k][0]);
        expect("a record's key", p.length, some[k][1]), expect("from its first byte on", p.offset, 0);
    }
}

/* 3 for a byte 1 at the last place within the bounds of either tree, a number 1 behind the last pair, values that differ between the trees
   in the token only, an available length above the payload's; not for what stands beyond the bounds. The greatest limit gets 1, as 419
   times it must not be formed; a count above the limit gets 3. An opening of limit 0 with short buffers gets 1; refused, its state is all 0
   and the buffers are untouched. */
static void shapes(void) {
    fresh(2), in("a", 5, 3, 1);
    for (int t = 0; t < 2; t++) {
        tree[t][RECORD * 2 - 1] = 1;
        counts("a byte behind the records", all(), 3, 0);
        tree[t][RECORD * 2 - 1] = 0;
        expect("a byte beyond the bounds", tree[t][RECORD * 2], 7);
        dir[t][2] = 1;
        counts("a number behind the pairs", all(), 3, 0);
        dir[t][2] = 0;
    }
    tree[0][KEY + VB_VALUE_TOKEN] ^= 1;
    counts("another token", all(), 3, 0);
    tree[0][KEY + VB_VALUE_TOKEN] ^= 1;
    tree[0][LENGTH_AT] = tree[1][LENGTH_AT] = 4;
    counts("too much available", all(), 3, 0);
    tree[0][LENGTH_AT] = tree[1][LENGTH_AT] = 3;
    counts("all available", all(), 0, 1);
    vb_state kept = state;
    state.limit = GREATEST;
    counts("greatest limit", all(), 1, 0);
    state.limit = 2, state.count = 3;
    counts("count above the limit", all(), 3, 0);
    room = 0;
    open_store("limit before buffers", 0, 1);
    room = sizeof tree[0];
    open_store("short buffers", MOST + 1, 2);
    state = kept;
    counts("buffers untouched", all(), 0, 1);
}

/* The tally */

static void in_subspace(vb_subspace s, const char *p, uint64_t time) {
    vb_entry e = named(entry(p, time, 3, 1));
    e.subspace_id = s;
    ingests(p, e, false, 0, false, 0);
}

static void forgets(const char *what, uint64_t low, const char *p, int refusal) {
    static const uint8_t digest[32];
    vb_entry_forgotten f = vb_forget_entry(state, STORE, subspace(low), path(p), 0, digest);
    expect(what, f.refusal, refusal);
    state = f.state;
}

/* Subspace all 0, one entry at time 0: the item is 19 zeros, 01, 8 zeros. Nothing takes zeros for the end of the items: another item follows it. */
static void zeros(void) {
    fresh(3), in_subspace(subspace(0), "a", 0);
    for (int i = 0; i < ITEM; i++) expect("19 zeros, 01, 8 zeros", tally[i], i == 19);
    item("one item", 0, 0, 0, 1, 0, true);
    in_subspace(subspace(1), "a", 0);
    item("item of zeros", 0, 0, 0, 1, 0, false), item("the next", 1, 0, 1, 1, 0, true);
    tally[19] = 0;
    forgets("no item of zeros", 1, "a", 10);
    tally[19] = 1;
    forgets("with it", 1, "a", 0);
    item("again one item", 0, 0, 0, 1, 0, true);
}

/* Entries of one subspace at 5 and 9, and the one at 9 is forgotten: newest 5. What an entry prunes is older than it, so that pruning lowers nothing:
   [61] at 9 stays when [62] at 5 is pruned by one at 6. */
static void lowered(void) {
    fresh(4), in("a", 5, 3, 1), in("b", 9, 3, 1);
    item("5 and 9", 0, 0, 1, 2, 9, true);
    forgets("the newest is forgotten", 1, "b", 0);
    item("newest 5", 0, 0, 1, 1, 5, true);
    in("b", 9, 3, 1);
    ingests("one that prunes", named(entry("a", 6, 3, 1)), false, 0, false, 1);
    item("pruned", 0, 0, 1, 2, 9, true);
    ingests("one that prunes both", named(entry("", 9, 4, 1)), false, 0, false, 2);
    item("pruned both", 0, 0, 1, 1, 9, true);
    ingests("obsolete", named(entry("c", 8, 3, 1)), false, 0, true, 0);
    item("obsolete leaves it", 0, 0, 1, 1, 9, true);
    vb_area late = all();
    late.times.start = 9;
    in("d", 10, 3, 1), in_subspace(subspace(2), "d", 3);
    vb_area_forgotten f = vb_forget_area(state, STORE, late, 0, late);
    expect("from 9 on", f.forgotten, 2), state = f.state;
    item("an area's forgetting", 0, 0, 2, 1, 3, true);
}

/* The only entry of the middle one of three subspaces forgotten: the third item moves up, 28 zeros follow. */
static void moved_up(void) {
    fresh(3), in_subspace(subspace(7), "a", 3), in_subspace(subspace(5), "a", 2), in_subspace(subspace(3), "a", 1);
    item("first", 0, 0, 3, 1, 1, false), item("second", 1, 0, 5, 1, 2, false), item("third", 2, 0, 7, 1, 3, true);
    forgets("the middle one", 5, "a", 0);
    item("first", 0, 0, 3, 1, 1, false), item("third, moved up", 1, 0, 7, 1, 3, true);
}

/* Subspaces that differ in the high half only, and in the low one; the greatest time. */
static void halves(void) {
    static const vb_subspace ascending[] = {{0, 0}, {0, GREATEST}, {1, 0}, {1, 1}, {GREATEST, 0}, {GREATEST, GREATEST}};
    static const int order[] = {4, 1, 5, 0, 3, 2};
    fresh(6);
    for (int i = 0; i < 6; i++) in_subspace(ascending[order[i]], "a", GREATEST - (uint64_t)order[i]);
    for (int i = 0; i < 6; i++) item("halves", (size_t)i, ascending[i].high, ascending[i].low, 1, GREATEST - (uint64_t)i, i == 5);
}

/* The greatest limit: 1,024 entries of one subspace (count 00 00 04 00), then 1,024 subspaces, from the last to the first. */
static void most(void) {
    enum { ALL = 1024 };
    static uint8_t trees[2][RECORD * ALL], items[ITEM * ALL];
    static uint32_t dirs[2][2 * ALL];
    static vb_pair pairs[ALL];
    static const uint8_t namespace_id[16], digest[32];
#define MOST_STORE trees[0], sizeof trees[0], dirs[0], 2 * ALL, trees[1], sizeof trees[1], dirs[1], 2 * ALL, items, sizeof items
    for (int many = 0; many < 2; many++) {
        memset(items, 9, sizeof items);
        vb_state s = vb_open(namespace_id, ALL, MOST_STORE).state;
        expect("1,024 opened", s.limit, ALL);
        vb_entry e = entry("ab", 0, 3, 1);
        for (uint32_t i = 0; i < ALL; i++) {
            e.path.bytes[0] = (uint8_t)(i >> 8), e.path.bytes[1] = (uint8_t)i;
            e.subspace_id = subspace(many ? ALL - i : 5), e.timestamp = i;
            vb_ingested r = vb_ingest_entry(s, MOST_STORE, pairs, ALL, e, token, 0, origin);
            expect("one of 1,024", r.refusal | r.obsolete, 0);
            s = r.state;
        }
        expect("1,024 entries", s.count, ALL);
        for (size_t k = 0; k < (many ? ALL : 1); k++) {
            const uint8_t *p = items + ITEM * k;
            const size_t low = many ? k + 1 : 5, time = many ? ALL - 1 - k : ALL - 1;
            for (int i = 0; i < 14; i++) expect("its subspace", p[i], 0);
            expect("its subspace", (uint64_t)p[14] << 8 | p[15], low);
            expect("its count", (uint64_t)p[16] << 24 | (uint64_t)p[17] << 16 | (uint64_t)p[18] << 8 | p[19], many ? 1 : 0x400);
            for (int i = 20; i < 26; i++) expect("its time", p[i], 0);
            expect("its time", (uint64_t)p[26] << 8 | p[27], time);
        }
        for (size_t i = many ? sizeof items : ITEM; i < sizeof items; i++) expect("zeros behind one item", items[i], 0);
        items[sizeof items - 1] ^= 1; /* the last byte within the room */
        expect("the last byte of 28,672", vb_forget_entry(s, MOST_STORE, e.subspace_id, e.path, 0, digest).refusal, 10);
        items[sizeof items - 1] ^= 1;
        expect("1,023 are left", vb_forget_entry(s, MOST_STORE, e.subspace_id, e.path, 0, digest).state.count, ALL - 1);
    }
}

/* A byte 1 at 28 x limit - 1: 10. At 28 x limit: nothing, and it stays. */
static void behind(void) {
    fresh(3), in("a", 5, 3, 1);
    tally[ITEM * 3 - 1] = 1;
    forgets("a byte behind the last item", 1, "b", 10);
    ingests("a byte behind the last item", named(entry("b", 5, 3, 1)), false, 10, false, 0);
    tally[ITEM * 3 - 1] = 0, tally[ITEM * 3] = 1;
    ingests("a byte beyond the room", named(entry("b", 5, 3, 1)), false, 0, false, 0);
    expect("it stays", tally[ITEM * 3], 1);
    tally_room = ITEM * 3;
    forgets("a tally of the room alone", 1, "b", 0);
    tally_room--;
    forgets("one byte less", 1, "a", 2);
    open_store("opening, one byte less", 3, 2);
    tally_room = sizeof tally;
    item("untouched", 0, 0, 1, 1, 5, false);
}

/* Wrong tally and illegal path, another namespace, an entry that would be obsolete or held, one that would prune while that is prevented, a full store, another
   digest: 10. Not well-formed and wrong tally: 3. Short tally and not well-formed: 2; a limit of 0 too: 1. Calls that read don't take it. An opening has
   no 10. */
static void turned_away(void) {
    uint8_t digest[32] = {0};
    fresh(1), in("a", 5, 3, 1);
    tally[27] = 6; /* newest 6 in place of 5 */
    vb_entry illegal = named(entry("a", 5, 3, 1)), elsewhere = named(entry("a", 5, 3, 1));
    illegal.path.count = 9, elsewhere.namespace_id[15] = 1;
    const uint32_t before = dir[0][1];
    ingests("illegal path", illegal, false, 10, false, 0), ingests("another namespace", elsewhere, false, 10, false, 0);
    ingests("would be obsolete", named(entry("a", 4, 3, 1)), false, 10, false, 0);
    ingests("would be prevented", named(entry("a", 7, 3, 1)), true, 10, false, 0);
    ingests("would be full", named(entry("b", 7, 3, 1)), false, 10, false, 0);
    ingests("would be held", named(entry("a", 5, 3, 1)), false, 10, false, 0);
    ingests("would be taken", named(entry("a", 7, 3, 1)), false, 10, false, 0);
    expect("another digest", vb_forget_entry(state, STORE, subspace(1), path("a"), 1, digest).refusal, 10);
    expect("illegal path", vb_forget_entry(state, STORE, subspace(1), illegal.path, 0, digest).refusal, 10);
    vb_area bad = all();
    bad.path = illegal.path;
    vb_area_forgotten f = vb_forget_area(state, STORE, all(), 0, bad);
    expect("everything", f.refusal, 10), expect("nothing is forgotten", f.forgotten, 0), expect("the state handed in", f.state.count, 1);
    expect("illegal path", vb_forget_area(state, STORE, bad, 0, bad).refusal, 10);
    expect("no byte changed", tally[27], 6), expect("no number changed", dir[0][1], before);
    counts("reading calls don't take it", all(), 0, 1), counts("nor with an illegal path", bad, 4, 0);
    lists("nor listings", ignore(false, false), START, true, 0, before);
    expect("nor lookups", vb_find_entry(state, READ, subspace(1), path("a"), ignore(false, false)).found, 1);
    tree[1][RECORD - 1] = 1;
    ingests("not well-formed, wrong tally", illegal, false, 3, false, 0), forgets("not well-formed, wrong tally", 1, "a", 3);
    expect("not well-formed, wrong tally", vb_forget_area(state, STORE, bad, 0, bad).refusal, 3);
    tally_room = ITEM - 1;
    ingests("not well-formed, short tally", illegal, false, 2, false, 0), forgets("not well-formed, short tally", 1, "a", 2);
    expect("not well-formed, short tally", vb_forget_area(state, STORE, bad, 0, bad).refusal, 2);
    vb_state kept = state;
    state.limit = 0;
    ingests("a limit of 0 too", illegal, false, 1, false, 0), forgets("a limit of 0 too", 1, "a", 1);
    open_store("a limit of 0 too", 0, 1);
    state = kept, tally_room = sizeof tally, tree[1][RECORD - 1] = 0;
    forgets("still wrong", 1, "a", 10);
    tally[27] = 5;
    forgets("right again", 1, "a", 0);
    tally[0] = 9;
    open_store("an opening has no 10", 1, 0);
    expect("and clears", tally[0], 0);
}

/* Where an entry came from */

static const vb_origin local;

static vb_origin remote(uint64_t session) {
    vb_origin o = {1, session};
    return o;
}

/* As `in`, with an origin. */
static void in_from(vb_origin o, const char *p, uint64_t time, uint64_t length, uint8_t digest) { origin = o, in(p, time, length, digest), origin = local; }

/* The last nine bytes of the record at a place of either tree: a kind and a session, big-endian. */
static void nine(const char *what, size_t place, uint8_t kind, uint64_t session) {
    for (int t = 0; t < 2; t++) {
        const uint8_t *end = tree[t] + dir[t][2 * place] + dir[t][2 * place + 1];
        expect(what, end[-ORIGIN], kind);
        for (int i = 0; i < 8; i++) expect(what, end[i - 8], session >> (56 - 8 * i) & 255);
    }
}

/* Writes the nine bytes of the first record, whose key has 29 bytes: in the first tree by bit 0 of `trees`, in the second by bit 1. */
static void put_nine(int trees, uint8_t kind, uint64_t session) {
    for (int t = 0; t < 2; t++)
        for (int i = 0; i < ORIGIN && trees >> t & 1; i++) tree[t][KIND_AT + i] = i ? (uint8_t)(session >> (64 - 8 * i)) : kind;
}

/* A lookup at a path of subspace 1: whether it finds, and which origin it shows. */
static void shows(const char *what, const char *p, vb_ignore i, bool found, vb_origin o) {
    vb_entry_found f = vb_find_entry(state, READ, subspace(1), path(p), i);
    expect(what, f.refusal, 0), expect(what, f.found, found);
    expect(what, f.lengthy.origin.remote, o.remote), expect(what, f.lengthy.origin.session, o.session);
}

/* Every call that is handed the store is refused so, a part is empty, the state is the one handed in, and no byte changes. */
static void all_refuse(const char *what, int refusal) {
    static vb_pairs pairs;
    static const uint8_t digest[32];
    const vb_entry e = named(entry("b", 9, 3, 1));
    const vb_ignore none = ignore(false, false);
    const vb_interest i = {all(), GREATEST, GREATEST};
    keep();
    vb_ingested by[] = {vb_ingest_entry(state, STORE, prune, lent, e, token, 0, origin), vb_ingest_entry_numbers(state, STORE, (uint32_t *)prune, 2 * lent, e, token, 0, origin),
                        vb_ingest_entry_by_value(state, STORE, pairs, e, token, 0, origin).ingested};
    for (int k = 0; k < 3; k++) expect(what, by[k].refusal, refusal), expect(what, by[k].state.count, state.count), expect(what, by[k].held | by[k].obsolete | by[k].pruned, 0);
    expect(what, vb_forget_entry(state, STORE, subspace(1), path("a"), 0, digest).refusal, refusal);
    expect(what, vb_forget_area(state, STORE, all(), 0, all()).refusal, refusal);
    records(what, path("a"), -1, 2, refusal), unrecords(what, path("a"), -1, refusal);
    vb_entry_found f = vb_find_entry(state, READ, subspace(1), path("a"), none);
    expect(what, f.refusal, refusal), expect(what, f.found | f.lengthy.origin.remote | f.lengthy.origin.session, 0);
    expect(what, vb_query_area_found(state, READ, all(), none, NULL, 0).refusal, refusal), expect(what, vb_query_range_found(state, READ, whole(), none, NULL, 0).refusal, refusal);
    expect(what, vb_query_area(state, READ, all(), none, NULL, 0).length, 0), expect(what, vb_query_range(state, READ, whole(), none, NULL, 0).length, 0);
    counts(what, all(), refusal, 0);
    expect(what, vb_summarise(state, READ, whole()).refusal, refusal), expect(what, vb_area_of_interest_to_range(state, READ, i).refusal, refusal);
    expect(what, as_it_was(), true);
}

/* [61] filed as remote 0, which is legal. Kind 0 with a number, kind 2, kind 255 and others: 3 in every call, in the subspace-first tree alone, in the time-first tree alone, in both. Of
   all kinds with session 0, in both trees, 0 and 1 only are legal; of kind 0 with one bit of the session none. */
static void unknown_kinds(void) {
    static const struct { uint8_t kind; uint64_t session; } bad[] = {{0, 1}, {2, 0}, {255, 0}, {2, 7}, {3, 0}, {128, 0}, {254, 1}, {0, 256}, {0, 1ull << 63}, {0, GREATEST}};
    fresh(2), in_from(remote(0), "a", 5, 3, 1);
    counts("remote 0 is legal", all(), 0, 1), nine("remote 0", 0, 1, 0), shows("remote 0", "a", ignore(false, false), true, remote(0));
    for (size_t k = 0; k < sizeof bad / sizeof *bad; k++)
        for (int trees = 1; trees < 4; trees++) put_nine(trees, bad[k].kind, bad[k].session), all_refuse("another kind, or local with a number", 3), put_nine(3, 1, 0);
    for (int kind = 0; kind < 256; kind++) put_nine(3, (uint8_t)kind, 0), counts("a kind with session 0", all(), kind < 2 ? 0 : 3, kind < 2);
    for (int bit = 0; bit < 64; bit++) {
        put_nine(3, 0, 1ull << bit), counts("local with a number", all(), 3, 0);
        put_nine(3, 1, 1ull << bit), counts("remote with it", all(), 0, 1), shows("remote with it", "a", ignore(false, false), true, remote(1ull << bit));
    }
    put_nine(3, 0, 0), counts("local without", all(), 0, 1), shows("local without", "a", ignore(false, false), true, local);
}

/* Nine bytes that differ between the trees, legal in each: 3 in every call. Remote 7 against remote 8, local against remote 0, and remote against remote in each bit of the session. */
static void trees_that_differ(void) {
    fresh(2), in_from(remote(7), "a", 5, 3, 1);
    for (int trees = 1; trees < 3; trees++) {
        put_nine(trees, 1, 8), all_refuse("7 against 8", 3), put_nine(3, 1, 7);
        put_nine(trees, 0, 0), all_refuse("local against remote 7", 3);
        put_nine(3, 0, 0), put_nine(trees, 1, 0), all_refuse("local against remote 0", 3);
        put_nine(3, 1, 7), counts("alike again", all(), 0, 1);
        for (int bit = 0; bit < 64; bit++) put_nine(trees, 1, 7 ^ 1ull << bit), counts("a bit of the session", all(), 3, 0), put_nine(3, 1, 7);
    }
    shows("alike again", "a", ignore(false, false), true, remote(7));
}

/* A tree of 410 x limit bytes, as a store needed before its records had an origin, or of a byte less than 419 x limit: 2 in every call, and in an opening. With 419 x limit it is taken. */
static void rooms(void) {
    static const size_t short_rooms[] = {0, RECORD_BEFORE, RECORD_BEFORE * 2, RECORD_BEFORE * 2 + ORIGIN, RECORD * 2 - 1};
    fresh(2), in_from(remote(7), "a", 5, 3, 1);
    expect("nine bytes more", RECORD, RECORD_BEFORE + ORIGIN), expect("nine bytes more", RECORD, VB_RECORD_MOST), expect("nine bytes more", VALUE, VB_VALUE);
    for (int t = 0; t < 2; t++)
        for (int k = 0; k < 5; k++) {
            size_t *lent_bytes = t ? &other_room : &room, kept = *lent_bytes;
            *lent_bytes = short_rooms[k];
            all_refuse("a short tree", 2);
            open_store("opened with a short tree", 2, 2), expect("no byte changed", as_it_was(), true);
            *lent_bytes = kept;
        }
    room = other_room = RECORD * 2;
    counts("trees of the room alone", all(), 0, 1), in_from(remote(8), "b", 5, 3, 1), shows("trees of the room alone", "b", ignore(false, false), true, remote(8));
    open_store("opened with the room alone", 2, 0);
    room = other_room = sizeof tree[0];
}

/* Filed by vb_ingest_entry, over numbers, or with the prune list by value. */
static void files(const char *what, int by, vb_entry e) {
    static vb_pairs pairs;
    vb_ingested r = by == 0 ? vb_ingest_entry(state, STORE, prune, lent, e, token, 0, origin) : by == 1 ? vb_ingest_entry_numbers(state, STORE, (uint32_t *)prune, 2 * lent, e, token, 0, origin)
                  : vb_ingest_entry_by_value(state, STORE, pairs, e, token, 0, origin).ingested;
    expect(what, r.refusal | r.obsolete | r.held, 0);
    state = r.state;
}

/* Sessions of every size, above 2^63 too and all ff: big-endian at the record's end, in both trees, and so looked up and listed. A yes is any byte but 0, and the kind is 1; the session of
   local is not looked at: nine zeros. By all three calls that file. */
static void sessions(void) {
    static const uint64_t some[] = {0, 1, 7, 255, 256, 1ull << 32, (1ull << 63) - 1, 1ull << 63, (1ull << 63) + 1, GREATEST - 1, GREATEST, 0x0102030405060708};
    static const uint8_t yes[] = {0, 1, 2, 128, 255};
    for (int by = 0; by < 3; by++)
        for (int y = 0; y < 5; y++)
            for (size_t k = 0; k < sizeof some / sizeof *some; k++) {
                fresh(2);
                origin.remote = yes[y], origin.session = some[k];
                files("filed", by, named(entry("a", 5, 3, 1)));
                origin = local;
                nine("its last nine bytes", 0, y > 0, y ? some[k] : 0);
                shows("looked up", "a", ignore(false, false), true, y ? remote(some[k]) : local);
                vb_part p = vb_query_area(state, READ, all(), ignore(false, false), NULL, 0);
                expect("listed", p.length, KEY + VALUE), expect("listed", tree[0][p.offset + p.length - ORIGIN], y > 0);
                expect("listed", tree[0][p.offset + p.length - 1], y ? some[k] & 255 : 0);
                expect("nothing has arrived", tree[0][LENGTH_AT] | tree[1][LENGTH_AT], 0);
            }
}

/* Limit 1,024, and every record of 419 bytes: 128 bytes 00 in eight components, cut elsewhere in each, entry k from remote 2^64 - 1 - k. A tree has 429,056 bytes, all of them taken;
   one of 429,055 or of 410 x 1,024 gets 2. One more gets 8. A newer one at the empty path removes all, and the pairs are 419 apart. */
static void greatest_records(void) {
    enum { ALL = 1024 };
    static uint8_t trees[2][RECORD * ALL], items[ITEM * ALL];
    static uint32_t dirs[2][2 * ALL];
    static vb_pair pairs[ALL];
    static const uint8_t namespace_id[16];
#define LENT(N) trees[0], N, dirs[0], 2 * ALL, trees[1], sizeof trees[1], dirs[1], 2 * ALL
#define OTHER_LENT(N) trees[0], sizeof trees[0], dirs[0], 2 * ALL, trees[1], N, dirs[1], 2 * ALL
#define GREATEST_STORE LENT(sizeof trees[0]), items, sizeof items
    expect("bytes of a tree", sizeof trees[0], 429056);
    expect("429,055", vb_open(namespace_id, ALL, LENT(429055), items, sizeof items).refusal, 2), expect("429,055", vb_open(namespace_id, ALL, OTHER_LENT(429055), items, sizeof items).refusal, 2);
    vb_state s = vb_open(namespace_id, ALL, GREATEST_STORE).state;
    vb_entry e = entry("", 5, 3, 1);
    e.path.count = 8;
    for (size_t k = 0; k < ALL; k++) {
        const size_t ends[] = {k / 32, 32, 32 + k % 32, 64, 80, 96, 112, 128};
        memcpy(e.path.ends, ends, sizeof ends);
        vb_ingested r = vb_ingest_entry(s, GREATEST_STORE, pairs, ALL, e, token, 0, remote(GREATEST - k));
        expect("one of 1,024", r.refusal | r.obsolete | r.held | r.pruned, 0);
        s = r.state;
    }
    expect("1,024 entries", s.count, ALL);
    for (int t = 0; t < 2; t++) expect("the last record", dirs[t][2 * ALL - 2], 428637), expect("the last record", dirs[t][2 * ALL - 1], 419);
    expect("429,056", vb_count_area(s, LENT(429056), all()).count, ALL);
    expect("429,055", vb_count_area(s, LENT(429055), all()).refusal, 2), expect("429,055", vb_count_area(s, OTHER_LENT(429055), all()).refusal, 2);
    expect("410 x 1,024", vb_count_area(s, LENT(RECORD_BEFORE * ALL), all()).refusal, 2), expect("410 x 1,024", vb_count_area(s, OTHER_LENT(RECORD_BEFORE * ALL), all()).refusal, 2);
    vb_entry_found f = vb_find_entry(s, LENT(sizeof trees[0]), e.subspace_id, e.path, ignore(false, false)); /* the one that was filed last */
    expect("its session", f.lengthy.origin.remote, 1), expect("its session", f.lengthy.origin.session, GREATEST - 1023);
    expect("recorded", vb_record_available_length(s, LENT(sizeof trees[0]), e.subspace_id, e.path, 0, e.payload_digest, 2).refusal, 0);
    f = vb_find_entry(s, LENT(sizeof trees[0]), e.subspace_id, e.path, ignore(false, false));
    expect("2 of 3", f.lengthy.available, 2), expect("its session stays", f.lengthy.origin.session, GREATEST - 1023);
    e.path.ends[6] = 113;
    expect("one more", vb_ingest_entry(s, GREATEST_STORE, pairs, ALL, e, token, 0, local).refusal, 8);
    e.path.count = 0, e.timestamp = 6;
    vb_ingested r = vb_ingest_entry(s, GREATEST_STORE, pairs, ALL, e, token, 0, local);
    expect("all go", r.pruned, ALL), expect("one is left", r.state.count, 1);
    for (uint32_t k = 0; k < ALL; k++) expect("419 apart", pairs[k].offset, 419 * k), expect("419 apart", pairs[k].length, 419);
    f = vb_find_entry(r.state, LENT(sizeof trees[0]), e.subspace_id, e.path, ignore(false, false));
    expect("local", f.found, true), expect("local", f.lengthy.origin.remote | f.lengthy.origin.session, 0);
}

/* [61] filed as remote 7, then the same entry as local, as remote 8 and as remote 0: held, and remote 7 and the token stay. So do they beside an obsolete entry, 7 and 8. Forgotten and filed as
   local it is local, and then a resend from remote 7 leaves it so. A newer one has its own, and so has one filed after an area's forgetting. [62] keeps its own all the while. */
static void kept_origins(void) {
    static const vb_origin others[] = {{0, 0}, {1, 8}, {1, 0}, {0, 7}, {255, GREATEST}};
    const vb_ignore none = ignore(false, false);
    fresh(2), in_from(remote(7), "a", 5, 3, 1), in_from(remote(3), "b", 5, 3, 1);
    memset(token, 9, sizeof token);
    for (int k = 0; k < 5; k++) {
        origin = others[k];
        holds("resent from elsewhere", named(entry("a", 5, 3, 1)), false), holds("resent from elsewhere, prevented", named(entry("a", 5, 3, 1)), true);
        ingests("obsolete", named(entry("a", 4, 3, 1)), false, 0, true, 0), ingests("prevented", named(entry("a", 6, 3, 1)), true, 7, false, 0);
        ingests("full", named(entry("c", 5, 3, 1)), false, 8, false, 0);
        nine("remote 7 stays", 0, 1, 7), shows("remote 7 stays", "a", none, true, remote(7));
        expect("its token too", tree[0][KEY + VB_VALUE_TOKEN], 1), expect("its token too", tree[1][KEY + VB_VALUE_TOKEN], 1);
    }
    origin = local;
    forgets("forgotten", 1, "a", 0), shows("forgotten", "a", none, false, local), in("a", 5, 3, 1);
    nine("filed again as local", 0, 0, 0), shows("filed again as local", "a", none, true, local);
    origin = remote(7), holds("resent from remote 7", named(entry("a", 5, 3, 1)), false), origin = local;
    nine("it stays local", 0, 0, 0), nine("[62] keeps its own", 1, 1, 3);
    static const vb_origin newer[] = {{1, 9}, {0, 0}, {1, 0}, {1, GREATEST}};
    for (int k = 0; k < 4; k++) {
        origin = newer[k], ingests("a newer one", named(entry("a", 6 + (uint64_t)k, 3, 1)), false, 0, false, 1), origin = local;
        shows("has its own", "a", none, true, newer[k]), shows("[62] keeps its own", "b", none, true, remote(3));
    }
    vb_area one = all();
    one.path = path("a");
    state = vb_forget_area(state, STORE, one, 0, one).state;
    in_from(remote(8), "a", 5, 3, 1), nine("filed again as remote 8", 0, 1, 8), nine("[62] keeps its own", 1, 1, 3);
    origin = remote(5), ingests("above both", named(entry("", 9, 3, 1)), false, 0, false, 2), origin = local;
    nine("it has its own", 0, 1, 5), shows("it has its own", "", none, true, remote(5)), shows("gone", "b", none, false, local);
}

/* [61] filed as remote 01 02 03 04 05 06 07 08, of length 2^64 - 1: what is recorded stands before the nine bytes, in both trees, and they stay; so they do when it is forgotten. */
static void recorded_origins(void) {
    static const uint64_t lengths[] = {2, GREATEST, 0xf1f2f3f4f5f6f7f8, 0, 1};
    const uint64_t session = 0x0102030405060708;
    fresh(2), in_from(remote(session), "a", 5, GREATEST, 1), in_from(remote(7), "b", 5, 3, 1);
    for (int k = 0; k < 5; k++) {
        keep();
        records("recorded", path("a"), 1, lengths[k], 0);
        for (int t = 0; t < 2; t++)
            for (int i = 0; i < 8; i++) was.trees[(size_t)t * sizeof tree[0] + LENGTH_AT - 7 + i] = (uint8_t)(lengths[k] >> (56 - 8 * i));
        expect("eight bytes before the nine, and no other", as_it_was(), true);
        nine("the nine stay", 0, 1, session), expect("at the record's end", tree[0][KEY + VALUE - 1], 8), expect("at the record's end", tree[0][SESSION_AT], 8);
        shows("the origin stays", "a", ignore(false, false), true, remote(session)), has("so much has arrived", "a", lengths[k]);
    }
    unrecords("forgotten", path("a"), 1, 0), nine("the nine stay", 0, 1, session), has("none has arrived", "a", 0);
    records("2 of 3", path("b"), 1, 2, 0), nine("the nine stay", 1, 1, 7), nine("and those of the other", 0, 1, session);
}

/* The empty path, [61], [61][62] and [61][62][63], tied, from four origins: the records have 147, 150, 153 and 156 bytes, nine more than the Rust's, and each offset has nine more for each
   record before it. */
static void pairs_with_origins(void) {
    static const uint32_t pairs[] = {0, 147, 147, 150, 297, 153, 450, 156};
    fresh(4), in_from(local, "", 5, 3, 1), in_from(remote(0), "a", 5, 3, 1), in_from(remote(7), "a/b", 5, 3, 1), in_from(remote(GREATEST), "a/b/c", 5, 3, 1);
    for (int i = 0; i < 8; i++) expect("the directories", dir[0][i], pairs[i]), expect("the directories", dir[1][i], pairs[i]);
    nine("local", 0, 0, 0), nine("remote 0", 1, 1, 0), nine("remote 7", 2, 1, 7), nine("remote 2^64 - 1", 3, 1, GREATEST);
    ingests("the last two go", named(entry("a/b", 6, 3, 1)), false, 0, false, 2);
    for (int i = 0; i < 2; i++) expect("their pairs", prune[i].offset, pairs[4 + 2 * i]), expect("their pairs", prune[i].length, pairs[5 + 2 * i]);
    expect("no third pair", prune[2].offset, 0x07070707);
    ingests("three go", named(entry("", 7, 3, 1)), false, 0, false, 3);
    for (int i = 0; i < 3; i++) expect("their pairs", prune[i].offset, pairs[2 * i]), expect("their pairs", prune[i].length, pairs[1 + 2 * i]);
    expect("no fourth pair", prune[3].offset, 0x07070707);
}

/* Where a lookup shows nothing its origin is local: the flags hide the entry, none stands there, or at an extension or a prefix only, or it is refused. */
static void nothing_shown(void) {
    fresh(4), in_from(remote(7), "a", 5, 3, 1), in_from(remote(8), "b", 5, 0, 1), in_from(remote(9), "c/d", 5, 3, 1), records("2 of 3", path("a"), 1, 2, 0);
    shows("2 of 3 is hidden", "a", ignore(true, false), false, local), shows("2 of 3 is hidden", "a", ignore(true, true), false, local), shows("and shown", "a", ignore(false, true), true, remote(7));
    shows("0 of 0 is hidden", "b", ignore(false, true), false, local), shows("0 of 0 is hidden", "b", ignore(true, true), false, local), shows("and shown", "b", ignore(true, false), true, remote(8));
    shows("none stands there", "e", ignore(false, false), false, local), shows("nor above", "c", ignore(false, false), false, local), shows("nor below", "c/d/e", ignore(false, false), false, local);
    vb_path illegal = path("a");
    illegal.count = 9;
    vb_entry_found f = vb_find_entry(state, READ, subspace(1), illegal, ignore(false, false));
    expect("an illegal path", f.refusal, 4), expect("an illegal path", f.found | f.lengthy.origin.remote | f.lengthy.origin.session, 0);
    state.limit = 0, f = vb_find_entry(state, READ, subspace(1), path("a"), ignore(false, false));
    expect("a limit of 0", f.refusal, 1), expect("a limit of 0", f.lengthy.origin.remote | f.lengthy.origin.session, 0);
}

/* The same calls with other origins: every byte is the same but those nine of each record, and so is every verdict. */
static void no_other_byte(void) {
    static uint8_t trees[sizeof tree], items[sizeof tally];
    static uint32_t dirs[2][2 * MOST + 8];
    for (int round = 0; round < 3; round++) {
        fresh(4), origin = round == 0 ? local : round == 1 ? remote(7) : remote(GREATEST);
        in("a/b", 5, 3, 1), in("a", 5, 3, 1), in("c", 5, 3, 1), in("", 4, 3, 1);
        ingests("a newer one", named(entry("a/b", 6, 3, 1)), false, 0, false, 1), ingests("an older one", named(entry("c", 4, 3, 1)), false, 0, true, 0);
        holds("a resend", named(entry("a", 5, 3, 1)), false), ingests("full", named(entry("d", 5, 3, 1)), false, 8, false, 0), records("2 of 3", path("a"), 1, 2, 0);
        origin = local;
        for (int t = 0; t < 2; t++)
            for (size_t k = 0; k < state.count; k++) memset(tree[t] + dir[t][2 * k] + dir[t][2 * k + 1] - ORIGIN, 0, ORIGIN);
        if (!round) memcpy(trees, tree, sizeof tree), memcpy(items, tally, sizeof tally), memcpy(dirs, dir, sizeof dir);
        expect("the same bytes but nine", !memcmp(trees, tree, sizeof tree), true), expect("the same tally", !memcmp(items, tally, sizeof tally), true);
        expect("the same directories", !memcmp(dirs, dir, sizeof dir), true);
    }
}

int main(void) {
    ties(), line_of_ties(), full_of_ties(), beside_ties(), full(), resends(), pruned(), interest(), listings(), shapes();
    zeros(), lowered(), moved_up(), halves(), most(), behind(), turned_away();
    lengths(), exact(), flagged(), filed(), turned_away_lengths();
    not_again(), in_its_place(), any_key(), no_keys(), open_listing(), completed(), keys_of_records();
    unknown_kinds(), trees_that_differ(), rooms(), sessions(), greatest_records(), kept_origins(), recorded_origins(), pairs_with_origins(), nothing_shown(), no_other_byte();
    printf("traps: %d expectations, %d wrong\n", asked, wrong);
    return wrong != 0;
}
