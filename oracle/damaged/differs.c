/* Answers compared with the judge's. */
#include "items.h"

/* Answers compared, field by field: padding has no meaning. */

static bool same_paths(const vb_path *p, const vb_path *q) {
    return !memcmp(p->bytes, q->bytes, sizeof p->bytes) && !memcmp(p->ends, q->ends, sizeof p->ends) && p->count == q->count;
}

static bool same_subspaces(vb_subspace a, vb_subspace b) { return a.high == b.high && a.low == b.low; }

static const char *entries_differ(const vb_lengthy_entry *x, const vb_lengthy_entry *y) {
    const vb_entry *a = &x->entry, *b = &y->entry;
    if (memcmp(a->namespace_id, b->namespace_id, 16)) return "the entry's namespace";
    if (!same_subspaces(a->subspace_id, b->subspace_id)) return "the entry's subspace";
    if (!same_paths(&a->path, &b->path)) return "the entry's path";
    if (a->timestamp != b->timestamp) return "the entry's timestamp";
    if (a->payload_length != b->payload_length) return "the entry's payload length";
    if (memcmp(a->payload_digest, b->payload_digest, 32)) return "the entry's digest";
    if (memcmp(x->token, y->token, 64)) return "the entry's token";
    if (x->available != y->available) return "the entry's available length";
    if (x->origin.remote != y->origin.remote) return "the entry's origin, local or remote";
    return x->origin.session == y->origin.session ? NULL : "the entry's origin, its session";
}

static const char *ranges_differ(const vb_range *a, const vb_range *b) {
    if (!same_subspaces(a->subspaces.start, b->subspaces.start)) return "the start of the range's subspaces";
    if (!same_subspaces(a->subspaces.end, b->subspaces.end) || a->subspaces.open != b->subspaces.open) return "the end of the range's subspaces";
    if (!same_paths(&a->paths.start, &b->paths.start)) return "the start of the range's paths";
    if (!same_paths(&a->paths.end, &b->paths.end) || a->paths.open != b->paths.open) return "the end of the range's paths";
    if (a->times.start != b->times.start) return "the start of the range's times";
    return a->times.end == b->times.end && a->times.open == b->times.open ? NULL : "the end of the range's times";
}

/* "it is stored, of the subspace, at a prefix of the path or the path itself, and newer" */
static const char *shown(const call *c, const answer *got) {
    item new;
    uint8_t value[VALUE_BYTES];
    take_subspace(c->entry.subspace_id, new.subspace), take_path(&c->entry.path, &new);
    new.time = c->entry.timestamp, new.value = value;
    put64(value, c->entry.payload_length), memcpy(value + DIGEST_AT, c->entry.payload_digest, 32);
    for (size_t k = 0; k < judged_store->state.count; k++) {
        const item *e = judged_items + k;
        vb_lengthy_entry one;
        give_entry(e, &one);
        one.available = 0, memset(&one.origin, 0, sizeof one.origin); /* are not told */
        if (same_subspace(e, &new) && prefixes(e, &new) && compared(e, &new) == NEWER && !entries_differ(&one, &got->lengthy)) return NULL;
    }
    return "the newer entry shown";
}

const char *judge_differs(const call *c, const answer *want, const answer *got) {
    if (want->refusal != got->refusal) return "the refusal";
    if (want->yes != got->yes || want->held != got->held) return "the verdict";
    if (want->number != got->number) return "the number";
    if (memcmp(want->state.namespace_id, got->state.namespace_id, 16)) return "the state's namespace";
    if (want->state.count != got->state.count) return "the state's count";
    if (want->state.limit != got->state.limit) return "the state's limit";
    if (want->part.offset != got->part.offset || want->part.length != got->part.length) return "the part";
    const char *field = ranges_differ(&want->range, &got->range);
    if (field) return field;
    if (c->kind < FORGET_ENTRY && want->yes) return shown(c, got);
    return entries_differ(&want->lengthy, &got->lengthy);
}
