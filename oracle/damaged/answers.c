/* What a call answers on the store that was read, and what it leaves in the buffers: documents 01 and 02 over a plain list of items. Nothing of the trees
   is edited: what is left is laid again, record after record, from its triple and its value. */
#include "items.h"
#include <stdlib.h>

/* Calls that write */

static size_t write_key(int t, const item *e, uint8_t *out) {
    uint8_t *p = out;
    if (t) put64(p, e->time), p += 8;
    memcpy(p, e->subspace, 16), p += 16;
    for (int i = 0; i < e->parts; i++) {
        for (int k = 0; k < e->len[i]; k++) {
            *p++ = e->part[i][k];
            if (!e->part[i][k]) *p++ = 2;
        }
        *p++ = 0, *p++ = 1;
    }
    *p++ = 0, *p++ = 0;
    if (!t) put64(p, e->time), p += 8;
    return p - out;
}

static const item *left[LIMIT_LAST + 1];

/* "ascending by that tree's keys; zeros follow up to 410 × limit", which with U6 reads 419 */
static void lay_trees(lent *after, size_t n) {
    for (int t = 0; t < 2; t++) {
        size_t at = 0;
        memset(after->tree[t], 0, RECORD_BYTES * after->state.limit), memset(after->dir[t], 0, 8 * after->state.limit);
        qsort(left, n, sizeof *left, t ? time_first : subspace_first);
        for (size_t k = 0; k < n; k++) {
            size_t key = write_key(t, left[k], after->tree[t] + at);
            memcpy(after->tree[t] + at + key, left[k]->value, VALUE_BYTES);
            after->dir[t][2 * k] = (uint32_t)at, after->dir[t][2 * k + 1] = (uint32_t)(key + VALUE_BYTES);
            at += key + VALUE_BYTES;
        }
    }
}

static void lay(lent *after, size_t n) {
    lay_trees(after, n);
    lay_tally(left, n, after->state.limit, after->tally);
    after->state.count = n;
}

static answer refused(answer a, int number) {
    a.refusal = (uint8_t)number;
    return a;
}

static item new;

/* U6: "the origin its entry was inserted with: a kind (0 local, 1 remote) and a big-endian session number, which is 0 for local". Handed in, every byte but 0 says remote, and the session of
   local is not looked at. */
static void write_origin(vb_origin o, uint8_t *value) {
    value[KIND_AT] = o.remote ? REMOTE : LOCAL;
    put64(value + SESSION_AT, o.remote ? o.session : 0);
}

/* The entry that a call hands in, with its token and its origin, as an item. */
static void take_new(const call *c) {
    static uint8_t value[VALUE_BYTES];
    take_subspace(c->entry.subspace_id, new.subspace), take_path(&c->entry.path, &new);
    new.time = c->entry.timestamp, new.value = value;
    put64(value, c->entry.payload_length), memcpy(value + DIGEST_AT, c->entry.payload_digest, 32), memcpy(value + TOKEN_AT, c->token, 64);
    write_origin(c->origin, value);
}

/* "the same subspace, path, timestamp, digest and length" */
static bool same_entry(const item *a, const item *b) { return same_subspace(a, b) && same_path(a, b) && compared(a, b) == SAME; }

bool judge_above_tie(const call *c) {
    take_new(c);
    for (size_t k = 0; k < judged_store->state.count; k++) {
        const item *e = judged_items + k;
        if (same_subspace(e, &new) && prefixes(&new, e) && !same_path(e, &new) && compared(e, &new) == SAME) return true;
    }
    return false;
}

held_how judge_held_how(const call *c) {
    held_how how = {false, false, false, false};
    take_new(c);
    for (size_t k = 0; k < judged_store->state.count; k++) {
        const item *e = judged_items + k;
        if (same_entry(e, &new))
            how.available = be64(e->value + AVAILABLE_AT), how.other_token = memcmp(e->value + TOKEN_AT, c->token, 64), how.other_origin = memcmp(e->value + KIND_AT, new.value + KIND_AT, VALUE_BYTES - KIND_AT);
        else if (same_subspace(e, &new) && (prefixes(e, &new) || prefixes(&new, e)) && compared(e, &new) == SAME) how.beside_tie = true;
    }
    return how;
}

static answer ingested(const call *c, lent *after, answer a) {
    size_t n = 0, pruned = 0;
    if (!judge_is_legal(&c->entry.path)) return refused(a, 4);
    if (memcmp(c->entry.namespace_id, after->state.namespace_id, 16)) return refused(a, 6);
    take_new(c);
    for (size_t k = 0; k < after->state.count; k++) {
        const item *e = judged_items + k;
        if (same_subspace(e, &new) && prefixes(e, &new) && compared(e, &new) == NEWER) {
            a.yes = 1;
            return a;
        }
    }
    for (size_t k = 0; k < after->state.count; k++)
        if (same_entry(judged_items + k, &new)) { /* "Nothing changes then, the token included"; nor the origin */
            a.held = 1;
            return a;
        }
    for (size_t k = 0; k < after->state.count; k++) {
        const item *e = judged_items + k;
        if (same_subspace(e, &new) && prefixes(&new, e) && compared(e, &new) == OLDER) pruned++; /* "removes strictly older entries only" */
        else left[n++] = e;
    }
    if (c->prevent_pruning && pruned) return refused(a, 7);
    if (n >= after->state.limit) return refused(a, 8);
    a.number = pruned;
    for (size_t k = 0, i = 0; k < after->state.count; k++) { /* "as they stood in the subspace-first tree before the call, in key order" */
        const item *e = judged_items + k;
        if (i < n && left[i] == e) {
            i++;
            continue;
        }
        *after->prune++ = (uint32_t)e->offset, *after->prune++ = (uint32_t)e->size;
    }
    after->prune -= 2 * pruned;
    left[n++] = &new;
    lay(after, n);
    a.state = after->state;
    return a;
}

static answer forgotten(const call *c, lent *after, answer a) {
    item at;
    size_t n = 0;
    if (!judge_is_legal(&c->entry.path)) return refused(a, 4);
    take_subspace(c->entry.subspace_id, at.subspace), take_path(&c->entry.path, &at);
    for (size_t k = 0; k < after->state.count; k++) {
        const item *e = judged_items + k;
        if (!same_subspace(e, &at) || !same_path(e, &at)) left[n++] = e;
        else if (c->expects && memcmp(e->value + DIGEST_AT, c->entry.payload_digest, 32)) return refused(a, 9);
    }
    lay(after, n);
    a.state = after->state;
    return a;
}

static answer area_forgotten(const call *c, lent *after, answer a) {
    size_t n = 0;
    if (!judge_is_legal(&c->area.path) || (c->protects && !judge_is_legal(&c->protected_area.path))) return refused(a, 4);
    for (size_t k = 0; k < after->state.count; k++) {
        const item *e = judged_items + k;
        if (in_area(&c->area, e) && !(c->protects && in_area(&c->protected_area, e))) a.number++;
        else left[n++] = e;
    }
    lay(after, n);
    a.state = after->state;
    return a;
}

/* U4: "records the available length of a stored entry, and one that forgets it, setting it to 0 in both trees". "Ours uses the exact path". "11, no entry at that path,
   before 9; 12, an available length above the payload length, after 9". The tally is not lent, and the state answered is the one handed in. */
static answer recorded(const call *c, lent *after, answer a) {
    static uint8_t value[VALUE_BYTES];
    item at;
    const item *stored = NULL;
    size_t place = 0;
    uint64_t available = c->kind == FORGET_PAYLOAD ? 0 : c->available;
    if (!judge_is_legal(&c->entry.path)) return refused(a, 4);
    take_subspace(c->entry.subspace_id, at.subspace), take_path(&c->entry.path, &at);
    for (size_t k = 0; k < after->state.count; k++) {
        const item *e = judged_items + k;
        left[k] = e;
        if (same_subspace(e, &at) && same_path(e, &at)) stored = e, place = k;
    }
    if (!stored) return refused(a, 11);
    if (c->expects && memcmp(stored->value + DIGEST_AT, c->entry.payload_digest, 32)) return refused(a, 9);
    if (available > be64(stored->value)) return refused(a, 12);
    at = *stored, at.value = value;
    memcpy(value, stored->value, VALUE_BYTES), put64(value + AVAILABLE_AT, available);
    left[place] = &at;
    lay_trees(after, after->state.count);
    return a;
}

recorded_how judge_recorded_how(const call *c) {
    recorded_how how = {false, false, false, false, 0, 0};
    item at;
    take_subspace(c->entry.subspace_id, at.subspace), take_path(&c->entry.path, &at);
    for (size_t k = 0; k < judged_store->state.count; k++) {
        const item *e = judged_items + k;
        if (!same_subspace(e, &at)) continue;
        if (same_path(e, &at)) {
            how.stored = true, how.other_digest = memcmp(e->value + DIGEST_AT, c->entry.payload_digest, 32);
            how.before = be64(e->value + AVAILABLE_AT), how.length = be64(e->value);
        } else {
            how.extension |= prefixes(&at, e), how.prefix |= prefixes(e, &at);
        }
    }
    return how;
}

bool judge_stored_origin(const call *c, vb_origin *origin) {
    item at;
    take_subspace(c->entry.subspace_id, at.subspace), take_path(&c->entry.path, &at);
    for (size_t k = 0; k < judged_store->state.count; k++) {
        const item *e = judged_items + k;
        if (!same_subspace(e, &at) || !same_path(e, &at)) continue;
        *origin = give_origin(e->value);
        return true;
    }
    return false;
}

vb_entry judge_entry(size_t place) {
    vb_lengthy_entry e;
    give_entry(judged_items + place, &e);
    return e.entry;
}

/* Calls that read */

static answer found(const call *c, const lent *s, answer a) {
    item at;
    if (!judge_is_legal(&c->entry.path)) return refused(a, 4);
    take_subspace(c->entry.subspace_id, at.subspace), take_path(&c->entry.path, &at);
    for (size_t k = 0; k < s->state.count; k++) {
        const item *e = judged_items + k;
        if (!same_subspace(e, &at) || !same_path(e, &at) || passed_over(&c->ignore, e)) continue;
        a.yes = 1;
        give_entry(e, &a.lengthy);
    }
    return a;
}

static bool matches(const call *c, const item *e) {
    switch (c->kind) {
    case RANGE_FOUND: case RANGE_PART: return in_range(&c->range, e) && !passed_over(&c->ignore, e);
    case SUMMARISE: return in_range(&c->range, e);
    case AREA_FOUND: case AREA_PART: return in_area(&c->area, e) && !passed_over(&c->ignore, e);
    default: return in_area(&c->area, e);
    }
}

static bool legal_query(const call *c) {
    bool range = c->kind == RANGE_FOUND || c->kind == RANGE_PART || c->kind == SUMMARISE;
    if (!range) return judge_is_legal(&c->area.path);
    return judge_is_legal(&c->range.paths.start) && (c->range.paths.open || judge_is_legal(&c->range.paths.end));
}

/* Keys as bytes, of a length each: the first that differs, and else the shorter one comes first. */
static int compare_keys(const uint8_t *p, size_t m, const uint8_t *q, size_t n) {
    int c = memcmp(p, q, m < n ? m : n);
    return c ? c : (m > n) - (m < n);
}

/* The key of a stored item stands before its value. */
static size_t key_bytes(const item *e) { return e->size - VALUE_BYTES; }
static const uint8_t *key_of(const item *e) { return e->value - key_bytes(e); }

/* U7: "Each step answers the record of the least matching key above that one (at the start, of all) in the store as it then is; the second call answers found in place of
   the match's place. Any other remembered key that the subspace-first encoder doesn't write gets 5." 01: finished or refused, "the part is empty"; it cannot say a refusal. */
static answer listed(const call *c, const lent *s, answer a) {
    bool part = c->kind == AREA_PART || c->kind == RANGE_PART;
    const item *least = NULL;
    item last;
    if (!legal_query(c)) return refused(a, part ? 0 : 4);
    if (c->last_len && !read_key(0, c->last, c->last_len, &last)) return refused(a, part ? 0 : 5);
    for (size_t k = 0; k < s->state.count; k++) {
        const item *e = judged_items + k;
        if (!matches(c, e) || compare_keys(key_of(e), key_bytes(e), c->last, c->last_len) <= 0) continue;
        if (!least || compare_keys(key_of(e), key_bytes(e), key_of(least), key_bytes(least)) < 0) least = e;
    }
    if (!least) return a;
    if (part) a.part.offset = least->offset, a.part.length = least->size, a.number = key_bytes(least);
    else a.yes = 1;
    return a;
}

listed_how judge_listed_how(const call *c) {
    listed_how how = {false, false, false, true, true, true, false, false};
    item last, other;
    how.key = read_key(0, c->last, c->last_len, &last);
    how.byte_behind = c->last_len && read_key(0, c->last, c->last_len - 1, &other), how.time_first = read_key(1, c->last, c->last_len, &other);
    for (size_t k = 0; k < judged_store->state.count; k++) {
        const item *e = judged_items + k;
        int order = compare_keys(c->last, c->last_len, key_of(e), key_bytes(e));
        if (order == 0) how.stored = true, how.matches = legal_query(c) && matches(c, e);
        how.below_all &= order < 0, how.above_all &= order > 0, how.other_subspace &= how.key && !same_subspace(e, &last);
    }
    return how;
}

static answer counted(const call *c, const lent *s, answer a) {
    if (!legal_query(c)) return refused(a, 4);
    for (size_t k = 0; k < s->state.count; k++) a.number += matches(c, judged_items + k);
    return a;
}

/* "walking the matches in time-first order from the last; the times start at that of the first entry met that broke a limit, else of the least
   match, else as given. A limit of 2^64 − 1 means none; for the size, no sum is then kept. A sum past 2^64 − 1 counts as over" */
static answer interest(const call *c, const lent *s, answer a) {
    uint64_t met = 0, sum = 0;
    if (!legal_query(c)) return refused(a, 4);
    area_range(&c->area, &a.range);
    size_t n = 0;
    for (size_t k = 0; k < s->state.count; k++)
        if (matches(c, judged_items + k)) left[n++] = judged_items + k;
    qsort(left, n, sizeof *left, time_first);
    while (n-- > 0) {
        uint64_t length = be64(left[n]->value);
        bool over = length > UINT64_MAX - sum;
        met++, sum += length;
        a.range.times.start = left[n]->time;
        if (c->max_count != UINT64_MAX && met > c->max_count) break;
        if (c->max_size != UINT64_MAX && (over || sum > c->max_size)) break;
    }
    return a;
}

answer judge_answers(const call *c, lent *after) {
    static const answer nothing;
    answer a = nothing;
    bool writes = c->kind < FIND_ENTRY, part = c->kind == AREA_PART || c->kind == RANGE_PART;
    int number = judge_refuses(c->kind, after);
    if (writes && !(c->kind == OPEN && number)) a.state = after->state; /* "A refused opening, handed no state, returns one that is all 0." */
    if (number) return refused(a, part ? 0 : number);
    switch (c->kind) {
    case OPEN:
        lay(after, 0);
        a.state.count = 0;
        return a;
    case INGEST: case INGEST_NUMBERS: case INGEST_BY_VALUE: return ingested(c, after, a);
    case FORGET_ENTRY: return forgotten(c, after, a);
    case FORGET_AREA: return area_forgotten(c, after, a);
    case RECORD_AVAILABLE: case FORGET_PAYLOAD: return recorded(c, after, a);
    case FIND_ENTRY: return found(c, after, a);
    case COUNT_AREA: case SUMMARISE: return counted(c, after, a);
    case INTEREST: return interest(c, after, a);
    default: return listed(c, after, a);
    }
}
