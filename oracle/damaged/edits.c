/* Random edits of a store through the door, each beside a plain copy in C: two lists of records, sorted by key, into which a record is put, or out of which
   some are taken, by plain memmove, or in which the available length of one is written. After each edit both trees, both directories and the tally are compared byte for byte, and the pairs of what was
   pruned, a lookup shows the origin of the copy, and a listing that is held open over all of them gives the copy of the least key above the last one; then a byte behind the last record, an offset, a byte of a key's end, an available length in one tree, an origin's kind and its session, in
   one tree or in both, are damaged in turn, and each must be refused with 3, and a byte of the tally, which must be refused with 10. Ends with 1 at the first difference. */
#include "virebony.h"
#include <stdbool.h>
#include <stdio.h>
#include <stdlib.h>
#include <string.h>

enum { MOST = 40, RECORD = 419, VALUE = 121, ITEM = 28, SUBSPACES = 4 };
/* Bytes of the origin at a record's end, and how far from that end the last byte of the available length stands. */
enum { ORIGIN = 9, LENGTH_BEFORE = ORIGIN + 1 };

/* A path is one component `n` and `more` components of 16 bytes, so one prefixes another if `n` is the same and `more` not greater. */
typedef struct {
    uint64_t n, time;
    int more, subspace;
    vb_origin origin; /* as it was handed in */
    size_t len[2];
    uint8_t record[2][RECORD];
} Copy;

static Copy copies[MOST + 1];
static size_t copied;

/* Subspaces by number, ascending: the second differs from the third in its high half only. */
static const vb_subspace subspaces[SUBSPACES] = {{0, 0}, {0, 9}, {1, 9}, {UINT64_MAX, 0}};

static uint8_t tree[2][RECORD * MOST], want[RECORD * MOST], tally[ITEM * MOST], want_tally[ITEM * MOST];
static uint32_t dir[2][2 * MOST], want_dir[2 * MOST];
static vb_pair prune[MOST], want_prune[MOST];
static vb_state state;
#define READ tree[0], RECORD * state.limit, dir[0], 2 * state.limit, tree[1], RECORD * state.limit, dir[1], 2 * state.limit
#define STORE READ, tally, ITEM * state.limit

static uint8_t *put64(uint8_t *p, uint64_t x) {
    for (int i = 7; i >= 0; i--) *p++ = (uint8_t)(x >> (8 * i));
    return p;
}

static uint8_t *put_path(uint8_t *p, const Copy *c) {
    for (int i = 3; i >= 0; i--) *p++ = 1 + (c->n >> (7 * i) & 127);
    *p++ = 0, *p++ = 1;
    for (int k = 0; k < c->more; k++) {
        memset(p, 0xaa, 16), p += 16;
        *p++ = 0, *p++ = 1;
    }
    *p++ = 0, *p++ = 0;
    return p;
}

static void write_records(Copy *c) {
    for (int t = 0; t < 2; t++) {
        uint8_t *p = c->record[t];
        if (t) p = put64(p, c->time);
        p = put_path(put64(put64(p, subspaces[c->subspace].high), subspaces[c->subspace].low), c);
        if (!t) p = put64(p, c->time);
        p = put64(p, 7);
        for (int i = 0; i < 96; i++) *p++ = i;
        p = put64(p, 0);
        *p++ = c->origin.remote != 0;
        c->len[t] = put64(p, c->origin.remote ? c->origin.session : 0) - c->record[t];
    }
}

static vb_entry entry(const Copy *c) {
    vb_entry e;
    memset(&e, 0, sizeof e);
    for (int i = 3; i >= 0; i--) e.path.bytes[3 - i] = 1 + (c->n >> (7 * i) & 127);
    memset(e.path.bytes + 4, 0xaa, 16 * c->more);
    for (int i = 0; i <= c->more; i++) e.path.ends[i] = 4 + 16 * i;
    e.subspace_id = subspaces[c->subspace];
    e.path.count = c->more + 1, e.timestamp = c->time, e.payload_length = 7;
    for (int i = 0; i < 32; i++) e.payload_digest[i] = i;
    return e;
}

static int compare(const Copy *a, const Copy *b, int t) {
    size_t m = a->len[t] - VALUE, n = b->len[t] - VALUE;
    int c = memcmp(a->record[t], b->record[t], m < n ? m : n);
    return c ? c : (m > n) - (m < n);
}

/* Whether a copy's path is that of another of its subspace, or prefixes it. */
static bool covers(const Copy *a, const Copy *b) { return a->subspace == b->subspace && a->n == b->n && a->more <= b->more; }

static void take_out(size_t k) { memmove(copies + k, copies + k + 1, (--copied - k) * sizeof(Copy)); }

/* 0 if taken, 8 if full, -1 if obsolete, -2 if held; the pairs of what it prunes. Digest, length and token are always the same, so that equal times tie. */
static int put_in(const Copy *c, size_t *pruned) {
    size_t at = 0;
    for (size_t k = 0; k < copied; k++)
        if (covers(copies + k, c) && copies[k].time > c->time) return -1;
    for (size_t k = 0; k < copied; k++)
        if (covers(copies + k, c) && copies[k].more == c->more && copies[k].time == c->time) return -2;
    *pruned = 0;
    for (size_t k = 0, offset = 0; k < copied; k++) {
        if (covers(c, copies + k) && copies[k].time < c->time)
            want_prune[*pruned].offset = (uint32_t)offset, want_prune[(*pruned)++].length = (uint32_t)copies[k].len[0];
        offset += copies[k].len[0];
    }
    if (copied - *pruned == state.limit) return 8;
    for (size_t k = copied; k-- > 0;)
        if (covers(c, copies + k) && copies[k].time < c->time) take_out(k);
    while (at < copied && compare(copies + at, c, 0) < 0) at++;
    memmove(copies + at + 1, copies + at, (copied++ - at) * sizeof(Copy));
    copies[at] = *c;
    return 0;
}

/* The refusal of a recording, or with no length (NULL) of a forgetting of one; what it leaves in both lists. */
static int record(const Copy *at, bool other_digest, const uint64_t *length, long *kinds) {
    bool extension = false, prefix = false;
    Copy *c = NULL;
    for (size_t k = 0; k < copied; k++) {
        if (covers(copies + k, at) && copies[k].more == at->more) c = copies + k;
        else extension |= covers(at, copies + k), prefix |= covers(copies + k, at);
    }
    if (!c) return kinds[12] += extension, kinds[13] += prefix, 11;
    if (other_digest) return kinds[14] += length && *length > 7, 9;
    if (length && *length > 7) return kinds[15]++, 12;
    for (int t = 0; t < 2; t++) {
        uint8_t *last = c->record[t] + c->len[t] - LENGTH_BEFORE; /* lengths are at most 7, so that seven of the 8 bytes are 0 */
        if (t) kinds[length ? *length > *last ? 9 : *length < *last ? 10 : 11 : *last ? 16 : 17]++;
        *last = (uint8_t)(length ? *length : 0);
    }
    return 0;
}

static vb_area area(const Copy *c, uint64_t start, uint64_t end) {
    vb_area a;
    memset(&a, 0, sizeof a);
    if (c) a.path = entry(c).path;
    a.any_subspace = 1, a.times.start = start, a.times.end = end;
    return a;
}

static const char *laid(void) {
    const Copy *sorted[MOST];
    for (int t = 0; t < 2; t++) {
        size_t at = 0;
        for (size_t k = 0; k < copied; k++) {
            size_t i = k;
            for (; i > 0 && compare(sorted[i - 1], copies + k, t) > 0; i--) sorted[i] = sorted[i - 1];
            sorted[i] = copies + k;
        }
        memset(want, 0, RECORD * state.limit), memset(want_dir, 0, 8 * state.limit);
        for (size_t k = 0; k < copied; k++) {
            memcpy(want + at, sorted[k]->record[t], sorted[k]->len[t]);
            want_dir[2 * k] = (uint32_t)at, want_dir[2 * k + 1] = (uint32_t)sorted[k]->len[t], at += sorted[k]->len[t];
        }
        if (memcmp(want, tree[t], RECORD * state.limit)) return "a tree's bytes";
        if (memcmp(want_dir, dir[t], 8 * state.limit)) return "a directory's numbers";
    }
    uint8_t *at = want_tally;
    memset(want_tally, 0, ITEM * state.limit);
    for (int s = 0; s < SUBSPACES; s++) {
        uint64_t count = 0, newest = 0;
        for (size_t k = 0; k < copied; k++)
            if (copies[k].subspace == s) count++, newest = copies[k].time > newest ? copies[k].time : newest;
        if (!count) continue;
        at = put64(put64(at, subspaces[s].high), subspaces[s].low);
        for (int i = 3; i >= 0; i--) *at++ = (uint8_t)(count >> (8 * i));
        at = put64(at, newest);
    }
    if (memcmp(want_tally, tally, ITEM * state.limit)) return "the tally";
    return state.count == copied ? NULL : "the count";
}

/* A lookup of a stored entry shows its origin, of a place where none stands local. */
static const char *looked_up(void) {
    static const vb_ignore none;
    Copy at = {0};
    at.subspace = rand() % SUBSPACES, at.more = rand() % 4;
    if (copied && rand() % 8) at = copies[rand() % copied];
    bool stored = false;
    for (size_t k = 0; k < copied; k++)
        if (covers(copies + k, &at) && copies[k].more == at.more) stored = true, at = copies[k];
    vb_entry e = entry(&at);
    vb_entry_found f = vb_find_entry(state, READ, e.subspace_id, e.path, none);
    bool remote = stored && at.origin.remote;
    if (f.refusal || f.found != stored) return "a lookup";
    return f.lengthy.origin.remote == remote && f.lengthy.origin.session == (remote ? at.origin.session : 0) ? NULL : "the origin that a lookup shows";
}

/* The origin's nine bytes of a copy's record, in a tree of the store. */
static uint8_t *origin_in(int t, const Copy *c) {
    for (size_t k = 0; k < copied; k++)
        if (dir[t][2 * k + 1] == c->len[t] && !memcmp(tree[t] + dir[t][2 * k], c->record[t], c->len[t])) return tree[t] + dir[t][2 * k] + dir[t][2 * k + 1] - ORIGIN;
    abort();
}

/* Origins that no value may have, in one tree or in both, and legal ones that differ between the trees: 3. A legal one in both trees: none. */
static const char *damaged_origin(const Copy *c, vb_area all) {
    uint8_t *nine[] = {origin_in(0, c), origin_in(1, c)}, kept[ORIGIN];
    memcpy(kept, nine[0], sizeof kept);
    int t = rand() % 2;
    bool remote = kept[0];
    nine[t][0] = (uint8_t)(2 + rand() % 254);
    if (vb_count_area(state, READ, all).refusal != 3) return "another kind in one tree";
    nine[!t][0] = nine[t][0];
    if (vb_count_area(state, READ, all).refusal != 3) return "another kind in both trees";
    nine[0][0] = nine[1][0] = 0, nine[0][1 + rand() % 8] |= 1, memcpy(nine[1], nine[0], sizeof kept);
    if (vb_count_area(state, READ, all).refusal != 3) return "local with a session in both trees";
    nine[0][0] = nine[1][0] = 1;
    if (vb_count_area(state, READ, all).refusal) return "remote with a session in both trees";
    nine[t][1 + rand() % 8] ^= 1 << rand() % 8;
    if (vb_count_area(state, READ, all).refusal != 3) return "another session in one tree";
    memcpy(nine[0], kept, sizeof kept), memcpy(nine[1], kept, sizeof kept);
    memset(nine[t], 0, sizeof kept), nine[t][0] = !remote; /* local for remote, remote 0 for local */
    if (vb_count_area(state, READ, all).refusal != 3) return "local in one tree and remote in the other";
    memcpy(nine[t], kept, sizeof kept);
    return NULL;
}

static const char *damaged(void) {
    int t = rand() % 2;
    size_t end = copied ? dir[t][2 * copied - 2] + dir[t][2 * copied - 1] : 0, k = copied ? rand() % copied : 0;
    vb_area all = area(NULL, 0, UINT64_MAX);
    if (vb_count_area(state, READ, all).refusal) return "a sound store";
    if (vb_forget_area(state, STORE, all, 1, all).refusal) return "a sound store with its tally";
    size_t byte = rand() % (ITEM * state.limit);
    tally[byte] ^= 1;
    if (vb_forget_area(state, STORE, all, 1, all).refusal != 10) return "a byte of the tally";
    if (vb_count_area(state, READ, all).refusal) return "a count, which is not lent the tally";
    tally[byte] ^= 1;
    if (end < RECORD * state.limit) {
        tree[t][end] ^= 1;
        if (vb_count_area(state, READ, all).refusal != 3) return "a byte behind the last record";
        tree[t][end] ^= 1;
    }
    if (!copied) return NULL;
    dir[t][2 * k] ^= 1;
    if (vb_count_area(state, READ, all).refusal != 3) return "an offset";
    dir[t][2 * k] ^= 1;
    size_t last = dir[t][2 * k] + dir[t][2 * k + 1] - VALUE - (t ? 1 : 9);
    tree[t][last] = 3;
    if (vb_count_area(state, READ, all).refusal != 3) return "a byte of a key's end";
    tree[t][last] = 0;
    vb_entry e = entry(copies + rand() % copied);
    last = dir[t][2 * k] + dir[t][2 * k + 1] - LENGTH_BEFORE;
    tree[t][last] ^= 1;
    if (vb_record_available_length(state, READ, e.subspace_id, e.path, 0, e.payload_digest, 8).refusal != 3) return "a recording, an available length in one tree";
    if (vb_forget_payload(state, READ, e.subspace_id, e.path, 0, e.payload_digest).refusal != 3) return "a forgetting of a payload, an available length in one tree";
    tree[t][last] ^= 1;
    return damaged_origin(copies + k, all);
}

/* Local, also with a session, which is not looked at; remote 0, a small number, a great one, the greatest. */
static vb_origin some_origin(void) {
    static const uint64_t sessions[] = {0, 0, 1, 7, 256, 1ull << 63, UINT64_MAX, 0x0102030405060708};
    vb_origin o = {rand() % 3 == 0 ? 0 : (uint8_t)(rand() % 2 ? 1 : 1 + rand() % 255), sessions[rand() % 8]};
    return o;
}

static const char *ingest(long *kinds) {
    Copy c;
    memset(&c, 0, sizeof c);
    c.n = rand() % (rand() % 5 > 1 ? 1000 : 10), c.more = rand() % 4, c.time = rand() % 8, c.subspace = rand() % 3 ? 1 : rand() % SUBSPACES;
    if (copied && rand() % 4 == 0) { /* once more, or what ties with it: at a prefix of its path, or below */
        c = copies[rand() % copied];
        if (rand() % 2) c.more = rand() % 4;
    }
    c.origin = some_origin();
    write_records(&c);
    const Copy *there = NULL; /* what stands at its place */
    for (size_t k = 0; k < copied; k++)
        if (covers(copies + k, &c) && copies[k].more == c.more) there = copies + k;
    bool other_origin = there && memcmp(there->record[0] + there->len[0] - ORIGIN, c.record[0] + c.len[0] - ORIGIN, ORIGIN);
    bool above_tie = false;
    for (size_t k = 0; k < copied; k++) above_tie |= covers(&c, copies + k) && copies[k].more > c.more && copies[k].time == c.time;
    vb_entry e = entry(&c);
    uint8_t token[64];
    size_t pruned = 0;
    for (int i = 0; i < 64; i++) token[i] = 32 + i;
    int said = put_in(&c, &pruned);
    vb_ingested r = vb_ingest_entry(state, STORE, prune, state.limit, e, token, 0, c.origin);
    if (r.obsolete != (said == -1) || r.held != (said == -2) || r.refusal != (said > 0 ? said : 0)) return "a verdict";
    if (!said && (r.pruned != pruned || memcmp(prune, want_prune, pruned * sizeof *prune))) return "a pair";
    state = r.state;
    kinds[said == -1 ? 1 : said == -2 ? 6 : said ? 2 : pruned ? 3 : 0]++;
    kinds[7] += above_tie && !said, kinds[8] += above_tie && said > 0;
    kinds[18] += !said && !c.origin.remote, kinds[19] += !said && !c.origin.remote && c.origin.session, kinds[20] += !said && c.origin.remote && !c.origin.session;
    kinds[21] += !said && c.origin.remote && c.origin.session, kinds[22] += !said && other_origin, kinds[23] += said == -2 && other_origin;
    return NULL;
}

static const char *forget(long *kinds) {
    if (copied && rand() % 2) {
        size_t k = rand() % copied;
        vb_entry e = entry(copies + k);
        vb_entry_forgotten r = vb_forget_entry(state, STORE, e.subspace_id, e.path, 1, e.payload_digest);
        if (r.refusal) return "a forgetting";
        take_out(k), state = r.state, kinds[4]++;
        return NULL;
    }
    uint64_t start = rand() % 8, end = start + 1 + rand() % 2; /* scattered over the tree */
    const Copy *saved = copied && rand() % 2 ? copies + rand() % copied : NULL;
    uint64_t n = saved ? saved->n : 0;
    int more = saved ? saved->more : 0;
    vb_area_forgotten r = vb_forget_area(state, STORE, area(NULL, start, end), saved != NULL, area(saved, 0, UINT64_MAX));
    size_t before = copied;
    for (size_t k = copied; k-- > 0;)
        if (copies[k].time >= start && copies[k].time < end && !(saved && copies[k].n == n && copies[k].more >= more)) take_out(k);
    if (r.refusal || r.forgotten != before - copied) return "a forgetting of an area";
    state = r.state, kinds[5]++;
    return NULL;
}

/* Of an entry that is stored, or near one; of all entries the payload length is 7. */
static const char *arrive(long *kinds) {
    static const uint64_t lengths[] = {0, 1, 6, 7, 7, 8, 1ull << 56, UINT64_MAX};
    Copy at;
    memset(&at, 0, sizeof at);
    at.n = rand() % 10, at.subspace = rand() % SUBSPACES;
    if (copied && rand() % 8) at = copies[rand() % copied];
    if (rand() % 3 == 0) at.more = rand() % 4;
    vb_entry e = entry(&at);
    uint64_t length = rand() % 3 ? lengths[rand() % 8] : (uint64_t)(rand() % 10);
    bool forgets = rand() % 4 == 0, wrong = rand() % 3 == 0;
    uint8_t expects = rand() % 2 ? (uint8_t)(1 + rand() % 255) : 0;
    if (wrong) e.payload_digest[rand() % 32] ^= 0x40;
    int said = record(&at, wrong && expects, forgets ? NULL : &length, kinds);
    vb_available_recorded r = forgets ? vb_forget_payload(state, READ, e.subspace_id, e.path, expects, e.payload_digest)
                                      : vb_record_available_length(state, READ, e.subspace_id, e.path, expects, e.payload_digest, length);
    if (r.refusal != said) return forgets ? "a forgetting of a payload" : "a recording";
    if (r.state.count != state.count || r.state.limit != state.limit || memcmp(r.state.namespace_id, state.namespace_id, 16)) return "the state of a recording";
    return NULL;
}

/* The key that a listing of everything remembers; it is held open while the store is edited, and begins again at its end. */
static uint8_t last[VB_KEY_MOST];
static size_t last_len;

/* The copy whose key as bytes is the least above what is remembered; NULL if there is none. */
static const Copy *least_above(void) {
    const Copy *least = NULL;
    for (size_t k = 0; k < copied; k++) {
        const uint8_t *key = copies[k].record[0];
        const size_t n = copies[k].len[0] - VALUE;
        int c = memcmp(key, last, n < last_len ? n : last_len);
        if (c < 0 || (c == 0 && n <= last_len)) continue;
        size_t m = least ? least->len[0] - VALUE : 0;
        c = least ? memcmp(key, least->record[0], n < m ? n : m) : 0;
        if (!least || c < 0 || (c == 0 && n < m)) least = copies + k;
    }
    return least;
}

/* A step, of an area's listing or of a range's in turn. */
static const char *scroll(bool by_area, long *kinds) {
    static const vb_ignore none;
    vb_range whole;
    memset(&whole, 0, sizeof whole);
    whole.subspaces.open = whole.paths.open = whole.times.open = 1;
    vb_area all = area(NULL, 0, UINT64_MAX);
    all.times.open = 1;
    vb_listed l = by_area ? vb_query_area_found(state, READ, all, none, last, last_len) : vb_query_range_found(state, READ, whole, none, last, last_len);
    vb_part p = by_area ? vb_query_area(state, READ, all, none, last, last_len) : vb_query_range(state, READ, whole, none, last, last_len);
    const Copy *c = least_above();
    if (l.refusal || l.found != (c != NULL) || p.length != (c ? c->len[0] : 0)) return "whether a step gives something";
    if (!c) {
        kinds[25] += last_len > 0, last_len = 0;
        return NULL;
    }
    if (memcmp(tree[0] + p.offset, c->record[0], p.length)) return "the record that a step gives";
    kinds[24]++, last_len = vb_record_key(tree[0] + p.offset, p.length).length;
    memcpy(last, tree[0] + p.offset, last_len);
    return last_len == c->len[0] - VALUE ? NULL : "the key of the record that a step gives";
}

int main(void) {
    static const uint8_t namespace_id[16];
    enum { KINDS = 26 };
    long done = 0, kinds[KINDS] = {0};
    for (int seed = 0; seed < 220; seed++) {
        srand(seed);
        copied = 0, state.limit = 1 + rand() % MOST;
        state = vb_open(namespace_id, state.limit, STORE).state;
        for (int s = 0; s < 400; s++) {
            const char *wrong = rand() % 4 == 0 ? arrive(kinds) : rand() % 3 ? ingest(kinds) : forget(kinds);
            if (!wrong) wrong = laid();
            if (!wrong) wrong = looked_up();
            if (!wrong && s % 2) wrong = scroll(s % 4 == 1, kinds);
            if (!wrong) wrong = damaged();
            if (wrong) return printf("%s, seed %d, step %d\n", wrong, seed, s), 1;
            done++;
        }
    }
    printf("%ld random edits beside a plain copy: %ld put in, %ld obsolete, %ld held, %ld full, %ld that prune, %ld entries and %ld areas forgotten; above a tie %ld put in, %ld full\n", done,
           kinds[0], kinds[1], kinds[6], kinds[2], kinds[3], kinds[4], kinds[5], kinds[7], kinds[8]);
    printf("available lengths: %ld greater than before, %ld smaller, %ld the same, %ld forgotten, %ld forgotten that were 0; refused: 11 with an extension stored %ld, with a prefix %ld, "
           "9 that would be 12 too %ld, 12 %ld\n", kinds[9], kinds[10], kinds[11], kinds[16], kinds[17], kinds[12], kinds[13], kinds[14], kinds[15]);
    printf("origins: %ld put in as local, %ld of them with a session, %ld as remote 0, %ld as remote with a number, %ld in place of another; %ld held with another\n", kinds[18], kinds[19], kinds[20],
           kinds[21], kinds[22], kinds[23]);
    printf("a listing held open over the edits: %ld steps that give a record, %ld ends\n", kinds[24], kinds[25]);
    for (int i = 0; i < KINDS; i++)
        if (!kinds[i]) return printf("an edit of kind %d never came\n", i), 1;
    return 0;
}
