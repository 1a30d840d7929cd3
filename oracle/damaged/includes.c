/* Values taken apart and put together, the order of triples, areas and ranges: document 01's words over items. */
#include "items.h"

/* Values taken apart */

/* "A path handed in has over 8 components, a component over 64 bytes, a total over 128, or ends that descend." */
bool judge_is_legal(const vb_path *p) {
    if (p->count > COMPONENTS_MOST) return false;
    size_t from = 0;
    for (size_t i = 0; i < p->count; i++) {
        if (p->ends[i] < from || p->ends[i] - from > COMPONENT_MOST) return false;
        from = p->ends[i];
    }
    return from <= PATH_MOST;
}

void take_path(const vb_path *p, item *e) {
    size_t from = 0;
    e->parts = (int)p->count;
    for (int i = 0; i < e->parts; i++) {
        e->len[i] = (int)(p->ends[i] - from);
        memcpy(e->part[i], p->bytes + from, e->len[i]);
        from = p->ends[i];
    }
}

void give_path(const item *e, vb_path *p) {
    size_t at = 0;
    memset(p, 0, sizeof *p);
    for (int i = 0; i < e->parts; i++) {
        memcpy(p->bytes + at, e->part[i], e->len[i]);
        p->ends[i] = at += e->len[i];
    }
    p->count = e->parts;
}

void put64(uint8_t *p, uint64_t x) {
    for (int i = 7; i >= 0; i--, x >>= 8) p[i] = (uint8_t)x;
}

void take_subspace(vb_subspace s, uint8_t out[16]) { put64(out, s.high), put64(out + 8, s.low); }

static vb_subspace give_subspace(const uint8_t in[16]) {
    vb_subspace s = {be64(in), be64(in + 8)};
    return s;
}

/* U6: "Lookups show the origin as local, or remote with its session" */
vb_origin give_origin(const uint8_t *value) {
    vb_origin o;
    memset(&o, 0, sizeof o);
    if (value[KIND_AT] == REMOTE) o.remote = 1, o.session = be64(value + SESSION_AT);
    return o;
}

void give_entry(const item *e, vb_lengthy_entry *out) {
    memset(out, 0, sizeof *out);
    memcpy(out->entry.namespace_id, judged_store->state.namespace_id, 16);
    out->entry.subspace_id = give_subspace(e->subspace);
    give_path(e, &out->entry.path);
    out->entry.timestamp = e->time;
    out->entry.payload_length = be64(e->value);
    memcpy(out->entry.payload_digest, e->value + DIGEST_AT, 32);
    memcpy(out->token, e->value + TOKEN_AT, 64);
    out->available = be64(e->value + AVAILABLE_AT);
    out->origin = give_origin(e->value);
}

/* Order, areas and ranges */

static int compare_paths(const item *a, const item *b) {
    for (int i = 0; i < a->parts && i < b->parts; i++) {
        int n = a->len[i] < b->len[i] ? a->len[i] : b->len[i], c = memcmp(a->part[i], b->part[i], n);
        if (c) return c;
        if (a->len[i] != b->len[i]) return a->len[i] - b->len[i];
    }
    return a->parts - b->parts;
}

static int compare_times(const item *a, const item *b) { return (a->time > b->time) - (a->time < b->time); }

/* "Key bytes compare as the triples do": subspace, path, time; or time, subspace, path. */
int subspace_first(const void *x, const void *y) {
    const item *a = *(const item *const *)x, *b = *(const item *const *)y;
    int c = memcmp(a->subspace, b->subspace, 16);
    if (!c) c = compare_paths(a, b);
    return c ? c : compare_times(a, b);
}

int time_first(const void *x, const void *y) {
    int c = compare_times(*(const item *const *)x, *(const item *const *)y);
    return c ? c : subspace_first(x, y);
}

/* "a closed end shuts out its own value" */
static bool in_times(const vb_times *t, uint64_t time) { return t->start <= time && (t->open || time < t->end); }

bool in_area(const vb_area *a, const item *e) {
    item at;
    if (!a->any_subspace) {
        take_subspace(a->subspace, at.subspace);
        if (!same_subspace(&at, e)) return false;
    }
    take_path(&a->path, &at);
    return prefixes(&at, e) && in_times(&a->times, e->time);
}

bool in_range(const vb_range *r, const item *e) {
    item bound;
    take_subspace(r->subspaces.start, bound.subspace);
    if (memcmp(e->subspace, bound.subspace, 16) < 0) return false;
    take_subspace(r->subspaces.end, bound.subspace);
    if (!r->subspaces.open && memcmp(e->subspace, bound.subspace, 16) >= 0) return false;
    take_path(&r->paths.start, &bound);
    if (compare_paths(e, &bound) < 0) return false;
    if (!r->paths.open) {
        take_path(&r->paths.end, &bound);
        if (compare_paths(e, &bound) >= 0) return false;
    }
    return in_times(&r->times, e->time);
}

bool passed_over(const vb_ignore *i, const item *e) {
    uint64_t length = be64(e->value);
    return (i->incomplete_payloads && be64(e->value + AVAILABLE_AT) != length) || (i->empty_payloads && length == 0);
}

/* "the least legal path above the area's path that this path does not prefix": it shares the most components, and then the most bytes. False: none. */
static bool least_above(const item *p, item *out) {
    int before[COMPONENTS_MOST + 1] = {0};
    for (int i = 0; i < p->parts; i++) before[i + 1] = before[i] + p->len[i];
    *out = *p;
    for (int i = p->parts - 1; i >= 0; i--) {
        int n = p->len[i];
        out->parts = i + 1;
        if (n < COMPONENT_MOST && before[i] + n < PATH_MOST) {
            out->part[i][n] = 0, out->len[i] = n + 1;
            return true;
        }
        while (n-- > 0)
            if (p->part[i][n] < 0xff) {
                out->part[i][n]++, out->len[i] = n + 1;
                return true;
            }
    }
    return false;
}

void area_range(const vb_area *a, vb_range *r) {
    item at, above;
    memset(r, 0, sizeof *r);
    if (a->any_subspace || (a->subspace.high == UINT64_MAX && a->subspace.low == UINT64_MAX)) r->subspaces.open = 1;
    else r->subspaces.end.low = a->subspace.low + 1, r->subspaces.end.high = a->subspace.high + (a->subspace.low == UINT64_MAX);
    if (!a->any_subspace) r->subspaces.start = a->subspace;
    take_path(&a->path, &at);
    give_path(&at, &r->paths.start);
    if (least_above(&at, &above)) give_path(&above, &r->paths.end);
    else r->paths.open = 1;
    r->times.start = a->times.start;
    if (a->times.open) r->times.open = 1;
    else r->times.end = a->times.end;
}
