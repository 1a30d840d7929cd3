/* Random values for calls on stores. Few subspaces, times, digests and bytes stand in many of them, so that entries meet; others are any numbers and any
   bytes. Every bound of a path is met by itself, from both sides. */
#ifndef VALUES_H
#define VALUES_H
#include "judge.h"

static uint64_t seed;
static uint64_t random64(void) {
    uint64_t z = seed += 0x9e3779b97f4a7c15;
    z = (z ^ z >> 30) * 0xbf58476d1ce4e5b9;
    z = (z ^ z >> 27) * 0x94d049bb133111eb;
    return z ^ z >> 31;
}
static uint64_t below(uint64_t n) { return random64() % n; }
static bool one_in(uint64_t n) { return below(n) == 0; }

static const uint8_t SOME[] = {0x00, 0x01, 0x02, 0x61, 0xff};

static void random_bytes(uint8_t *p, size_t n) {
    for (size_t i = 0; i < n; i++) p[i] = (uint8_t)(random64() >> 56);
}

/* A yes or no: "every byte but 0 means yes". */
static uint8_t yes_in(uint64_t n) { return one_in(n) ? 1 + below(255) : 0; }

static uint64_t random_number(uint64_t few) {
    switch (below(16)) {
    case 0: return UINT64_MAX;
    case 1: return UINT64_MAX - below(3);
    case 2: return random64();
    default: return below(few);
    }
}

static vb_subspace random_subspace(void) {
    vb_subspace s = {0, below(3)};
    switch (below(12)) {
    case 0: s.high = s.low = UINT64_MAX; break;
    case 1: s.low = UINT64_MAX; break;
    case 2: s.high = random64(), s.low = one_in(2) ? random64() : 0; break;
    }
    return s;
}

/* One of four digests that differ in a byte, or 32 bytes. */
static void random_digest(uint8_t *d) {
    if (one_in(16)) {
        random_bytes(d, 32);
        return;
    }
    for (int i = 0; i < 32; i++) d[i] = (uint8_t)(7 * i);
    switch (below(4)) {
    case 0: d[31] ^= 1; break;
    case 1: d[0] ^= 0x80; break;
    case 2: d[below(32)] = SOME[below(5)]; break;
    }
}

/* Local, mostly with a session, which is not looked at; or remote, by any byte but 0, with a session that is 0, small, from 2^63 on, the greatest, or any. */
static vb_origin random_origin(void) {
    vb_origin o;
    memset(&o, 0, sizeof o);
    o.remote = one_in(3) ? 1 : yes_in(2);
    switch (below(8)) {
    case 0: case 1: o.session = 0; break;
    case 2: o.session = UINT64_MAX; break;
    case 3: o.session = random64() | 1ull << 63; break;
    case 4: o.session = random64(); break;
    default: o.session = 1 + below(9);
    }
    return o;
}

/* Adds a component of so many bytes. */
static void add_component(vb_path *p, size_t len) {
    size_t at = p->count ? p->ends[p->count - 1] : 0;
    for (size_t k = 0; k < len; k++) p->bytes[at + k] = SOME[below(5)];
    p->ends[p->count++] = at + len;
}

/* An empty path with bytes and ends behind it that no call may look at. */
static vb_path no_path(void) {
    vb_path p;
    random_bytes(p.bytes, sizeof p.bytes);
    for (int i = 0; i < VB_MCC; i++) p.ends[i] = random64();
    p.count = 0;
    return p;
}

/* At a bound, and legal: 128 bytes, 64 in a component, eight components. */
static vb_path long_path(void) {
    vb_path p = no_path();
    switch (below(5)) {
    case 0: add_component(&p, 64), add_component(&p, 64); break;
    case 1: for (int i = 0; i < 8; i++) add_component(&p, 16); break;
    case 2: for (int i = 0; i < 7; i++) add_component(&p, below(2)); add_component(&p, 64); break;
    case 3: add_component(&p, 64); break;
    default: for (int i = 0; i < 8; i++) add_component(&p, below(3));
    }
    if (one_in(3)) memset(p.bytes, one_in(2) ? 0xff : 0, sizeof p.bytes);
    return p;
}

static vb_path random_path(void) {
    if (one_in(12)) return long_path();
    vb_path p = no_path();
    for (uint64_t parts = below(4); parts > 0; parts--) add_component(&p, below(3));
    return p;
}

/* No path: one bound at a time, or ends that descend. */
static vb_path illegal_path(void) {
    vb_path p = no_path();
    switch (below(7)) {
    case 0: for (int i = 0; i < 8; i++) add_component(&p, 1); p.count = 9; break;
    case 1: p.count = one_in(2) ? SIZE_MAX : 9 + below(1000); break;
    case 2: add_component(&p, 3), add_component(&p, 0), p.ends[1] = 2; break;
    case 3: add_component(&p, 65); break;
    case 4: add_component(&p, 1), add_component(&p, 65); break;
    case 5: add_component(&p, 43), add_component(&p, 43), add_component(&p, 42), p.ends[2] = 129; break;
    default: add_component(&p, 2), add_component(&p, 2), p.ends[1] = random64() | 1ull << 32;
    }
    return p;
}

/* Entries that were handed in before, so that a call can speak of one that is stored. */
enum { REMEMBERED = 32 };
static vb_entry remembered[REMEMBERED];
static size_t memories;

/* A path once more, with other bytes and ends behind it. */
static vb_path path_again(const vb_path *was) {
    vb_path p = no_path();
    p.count = was->count;
    memcpy(p.ends, was->ends, was->count * sizeof *p.ends);
    if (p.count) memcpy(p.bytes, was->bytes, was->ends[was->count - 1]);
    return p;
}

/* A path, a prefix of it, or one component more. */
static vb_path path_near(vb_path p) {
    if (p.count && one_in(3)) p.count = below(p.count);
    else if (p.count < VB_MCC && (p.count ? p.ends[p.count - 1] : 0) < VB_MPL && one_in(3)) add_component(&p, below(2));
    return p;
}

static vb_path near_path(void) { return !memories || one_in(3) ? random_path() : path_near(remembered[below(memories)].path); }

static vb_subspace near_subspace(void) { return memories && !one_in(4) ? remembered[below(memories)].subspace_id : random_subspace(); }

static vb_times random_times(void) {
    vb_times t = {one_in(2) ? 0 : random_number(6), random_number(9), yes_in(2)};
    return t;
}

static vb_area random_area(void) {
    vb_area a;
    memset(&a, 0, sizeof a);
    a.any_subspace = yes_in(3);
    a.subspace = near_subspace();
    a.path = near_path();
    if (a.path.count && one_in(2)) a.path.count = below(a.path.count);
    a.times = random_times();
    return a;
}

static vb_range random_range(void) {
    static const vb_subspace none;
    vb_range r;
    memset(&r, 0, sizeof r);
    r.subspaces.start = one_in(2) ? none : near_subspace(), r.subspaces.end = near_subspace(), r.subspaces.open = yes_in(2);
    r.paths.start = one_in(2) ? no_path() : near_path(), r.paths.end = near_path(), r.paths.open = yes_in(2);
    r.times = random_times();
    return r;
}

/* The key of a subspace, a legal path and a time, subspace-first or time-first. */
static size_t put_key(bool time_first, vb_subspace s, const vb_path *p, uint64_t time, uint8_t *out) {
    uint8_t *at = out;
    uint64_t numbers[] = {time, s.high, s.low};
    size_t from = 0;
    for (int i = !time_first; i < 3; i++)
        for (int k = 56; k >= 0; k -= 8) *at++ = (uint8_t)(numbers[i] >> k);
    for (size_t i = 0; i < p->count; from = p->ends[i++]) {
        for (size_t k = from; k < p->ends[i]; k++) {
            *at++ = p->bytes[k];
            if (!p->bytes[k]) *at++ = 2;
        }
        *at++ = 0, *at++ = 1;
    }
    *at++ = 0, *at++ = 0;
    for (int k = 56; !time_first && k >= 0; k -= 8) *at++ = (uint8_t)(time >> k);
    return at - out;
}

/* A listing remembers the key of this entry, whose path is legal; or, often, another, or something that is none: of another time or subspace, time-first, cut, with a byte behind it, a byte of its path
   another, more components, bytes that are nothing, more of them than a key has; all ff. */
static void remember(call *c, vb_entry e) {
    uint8_t *k = c->last;
    size_t n = c->last_len = put_key(false, e.subspace_id, &e.path, e.timestamp, k), end = n - 10;
    switch (below(20)) {
    case 0: c->last_len = put_key(false, e.subspace_id, &e.path, e.timestamp + 1, k); break;
    case 1: c->last_len = put_key(false, e.subspace_id, &e.path, e.timestamp - 1, k); break;
    case 2: c->last_len = put_key(false, random_subspace(), &e.path, e.timestamp, k); break;
    case 3: c->last_len = put_key(true, e.subspace_id, &e.path, e.timestamp, k); break;
    case 4: c->last_len = one_in(3) ? 25 : 1 + below(n - 1); break;
    case 5: k[c->last_len++] = SOME[below(5)]; break;
    case 6: k[16 + below(n - 24)] = one_in(3) ? 3 : SOME[below(5)]; break;
    case 7: /* components behind its own: eight of them are one too many, if it has one */
        memmove(k + end + 16, k + end, 10), memset(k + end, 0, 16), c->last_len += 16;
        for (size_t i = 1; i < 16; i += 2) k[end + i] = 1;
        break;
    case 8: random_bytes(k, c->last_len = 1 + below(LAST_ROOM)); break;
    case 9: memset(k + n, 0, LAST_ROOM - n), c->last_len = 299; break;
    case 10: memset(k, 0xff, 16); break;
    case 11: case 12: c->last_len = 0;
    }
}

/* Set while a store is filled: entries are then unrelated, and their paths not yet handed in. */
static uint64_t filled;

static vb_entry random_entry(const uint8_t namespace_id[16]) {
    vb_entry e;
    memset(&e, 0, sizeof e);
    memcpy(e.namespace_id, namespace_id, 16);
    e.subspace_id = random_subspace();
    e.path = random_path();
    e.timestamp = random_number(6);
    e.payload_length = random_number(4);
    random_digest(e.payload_digest);
    if (filled) {
        e.path = no_path();
        e.path.bytes[0] = (uint8_t)(filled >> 8), e.path.bytes[1] = (uint8_t)filled++, e.path.ends[0] = 2, e.path.count = 1;
        if (one_in(2)) add_component(&e.path, 1);
    } else if (memories && one_in(3)) { /* at a place that may be stored, above it or below; perhaps the same entry, or one that ties with it */
        const vb_entry *r = remembered + below(memories);
        e.subspace_id = r->subspace_id;
        if (!one_in(4)) e.path = path_near(r->path);
        if (one_in(2)) e.timestamp = r->timestamp, e.payload_length = r->payload_length, memcpy(e.payload_digest, r->payload_digest, 32);
    }
    return e;
}

/* A length as one that was handed in, one more or less, none, a part of it, or any. */
static uint64_t near_length(uint64_t length) {
    switch (below(8)) {
    case 0: case 1: return length;
    case 2: return length + 1;
    case 3: return length - 1;
    case 4: return 0;
    case 5: return length ? below(length) : 0;
    default: return random_number(5);
    }
}

static call random_call(enum call_kind kind, const uint8_t namespace_id[16]) {
    call c;
    memset(&c, 0, sizeof c);
    c.kind = kind;
    c.entry = random_entry(namespace_id);
    if ((kind == FORGET_ENTRY || kind == FIND_ENTRY) && memories && !one_in(3)) {
        const vb_entry *r = remembered + below(memories);
        c.entry.subspace_id = r->subspace_id, c.entry.path = r->path;
        if (one_in(2)) memcpy(c.entry.payload_digest, r->payload_digest, 32);
    }
    if (kind > OPEN && kind < FORGET_ENTRY && memories && !filled && one_in(6)) { /* once more, with other bytes and ends behind its path */
        c.entry = remembered[below(memories)], c.entry.path = path_again(&c.entry.path);
        memcpy(c.entry.namespace_id, namespace_id, 16);
    }
    c.available = near_length(c.entry.payload_length);
    if ((kind == RECORD_AVAILABLE || kind == FORGET_PAYLOAD) && memories && !one_in(6)) { /* at a place that may be stored, above it or below */
        const vb_entry *r = remembered + below(memories);
        c.entry.subspace_id = r->subspace_id, c.entry.path = path_again(&r->path), c.available = near_length(r->payload_length);
        if (one_in(3)) c.entry.path = path_near(c.entry.path);
        if (!one_in(3)) memcpy(c.entry.payload_digest, r->payload_digest, 32);
    }
    random_bytes(c.token, sizeof c.token);
    c.origin = random_origin();
    c.prevent_pruning = yes_in(4), c.expects = yes_in(2), c.protects = yes_in(2);
    c.area = random_area(), c.protected_area = random_area();
    c.range = random_range();
    c.ignore.incomplete_payloads = yes_in(4), c.ignore.empty_payloads = yes_in(4);
    if (!one_in(4)) {
        vb_entry e = c.entry;
        if (memories && !one_in(3)) e = remembered[below(memories)];
        else e.subspace_id = random_subspace(), e.path = random_path();
        remember(&c, e);
    }
    c.max_count = one_in(2) ? UINT64_MAX : random_number(6), c.max_size = one_in(2) ? UINT64_MAX : random_number(12);
    return c;
}

/* Illegal paths, also where none is looked at, or an entry of another namespace: refused behind 1, 2 and 3 only. */
static void odd_call(call *c) {
    switch (below(6)) {
    case 0: c->entry.path = illegal_path(), c->area.path = illegal_path(), c->range.paths.start = illegal_path(); break;
    case 1: c->range.paths.end = illegal_path(), c->protected_area.path = illegal_path(); break;
    case 2: c->entry.namespace_id[below(16)] ^= 1 << below(8); break;
    case 3: c->entry.path = illegal_path(), c->entry.namespace_id[below(16)] ^= 1; break;
    case 4: c->area.path = illegal_path(), c->protected_area.path = illegal_path(), c->range.paths.start = c->range.paths.end = illegal_path(); break;
    default: c->protects = 0, c->protected_area.path = illegal_path(), c->range.paths.open = 2, c->range.paths.end = illegal_path();
    }
}
#endif
