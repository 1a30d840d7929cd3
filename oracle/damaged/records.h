/* The records of the global `store` as they lie, so that one can be taken out, put in or changed, and the trees written anew without gaps. */
#ifndef RECORDS_H
#define RECORDS_H
#include "values.h"
#include <stdlib.h>

static lent store;

static void put64(uint8_t *p, uint64_t x) {
    for (int i = 7; i >= 0; i--, x >>= 8) p[i] = (uint8_t)x;
}

typedef struct {
    size_t len;
    uint8_t b[VB_RECORD_MOST + 32];
} Rec;

static Rec recs[2][VB_LIMIT_MOST + 2];
static uint64_t held[2];

static void take_apart(void) {
    for (int t = 0; t < 2; t++) {
        held[t] = store.state.count;
        for (uint64_t k = 0; k < store.state.count; k++) {
            recs[t][k].len = store.dir[t][2 * k + 1];
            memcpy(recs[t][k].b, store.tree[t] + store.dir[t][2 * k], recs[t][k].len);
        }
    }
}

static void put_together(void) {
    for (int t = 0; t < 2; t++) {
        size_t at = 0;
        memset(store.tree[t], 0, VB_RECORD_MOST * store.state.limit), memset(store.dir[t], 0, 8 * store.state.limit);
        for (uint64_t k = 0; k < held[t]; k++) {
            if (k >= store.state.limit || at + recs[t][k].len > VB_RECORD_MOST * store.state.limit) break;
            memcpy(store.tree[t] + at, recs[t][k].b, recs[t][k].len);
            store.dir[t][2 * k] = at, store.dir[t][2 * k + 1] = recs[t][k].len;
            at += recs[t][k].len;
        }
    }
}

static int by_key(const void *x, const void *y) {
    const Rec *a = x, *b = y;
    size_t m = a->len - VB_VALUE, n = b->len - VB_VALUE;
    int c = memcmp(a->b, b->b, m < n ? m : n);
    return c ? c : (m > n) - (m < n);
}

/* The record in the other tree of the one at k in the subspace-first tree. */
static uint64_t partner(uint64_t k) {
    Rec *r = &recs[0][k];
    size_t key = r->len - VB_VALUE;
    for (uint64_t j = 0; j < held[1]; j++) {
        Rec *o = &recs[1][j];
        if (o->len == r->len && !memcmp(o->b, r->b + key - 8, 8) && !memcmp(o->b + 8, r->b, key - 8)) return j;
    }
    return 0;
}

/* A tree's record made out of the other's key: time, subspace and path change places. */
static void as_time_first(const Rec *r, Rec *o) {
    size_t key = r->len - VB_VALUE;
    o->len = r->len;
    memcpy(o->b, r->b + key - 8, 8), memcpy(o->b + 8, r->b, key - 8), memcpy(o->b + key, r->b + key, VB_VALUE);
}

static void shift(Rec *r, size_t at, int by) {
    if (by > 0) memmove(r->b + at + 1, r->b + at, r->len - at), r->len++;
    else memmove(r->b + at, r->b + at + 1, r->len - at - 1), r->len--;
}

/* A record of any components, also of such as make no path. */
static void write_record(Rec *p, vb_subspace subspace, const uint8_t *bytes, const size_t *ends, size_t parts, uint64_t time, const uint8_t *value) {
    uint8_t *q = p->b;
    put64(q, subspace.high), put64(q + 8, subspace.low), q += 16;
    for (size_t i = 0, at = 0; i < parts; i++) {
        for (; at < ends[i]; at++) {
            *q++ = bytes[at];
            if (!bytes[at]) *q++ = 2;
        }
        *q++ = 0, *q++ = 1;
    }
    *q++ = 0, *q++ = 0;
    put64(q, time), q += 8;
    memmove(q, value, VB_VALUE), p->len = q - p->b + VB_VALUE;
}

/* Components of which one bound is met, or passed by one: a total of 128 or 129, eight or nine components, 64 or 65 bytes in one. How many. */
static size_t bound_path(uint8_t bytes[VB_MPL + 1], size_t ends[VB_MCC + 1]) {
    size_t over = below(2), parts;
    for (size_t i = 0; i <= VB_MPL; i++) bytes[i] = SOME[1 + below(4)]; /* few bytes 00: the record has at most VB_RECORD_MOST bytes */
    switch (below(3)) {
    case 0: ends[0] = 43, ends[1] = 86, ends[2] = 128 + over, parts = 3; break;
    case 1: parts = 8 + over; for (size_t i = 0; i < parts; i++) ends[i] = i / 2; break;
    default: ends[0] = 2, ends[1] = 66 + over, parts = 2;
    }
    return parts;
}

/* The record at n of the subspace-first tree also goes to the other; both are sorted again. */
static void add_last(uint64_t n) {
    as_time_first(&recs[0][n], &recs[1][n]);
    held[0] = held[1] = store.state.count = n + 1;
    for (int i = 0; i < 2; i++) qsort(recs[i], held[i], sizeof(Rec), by_key);
}

/* The tally of a list of subspace-first records, up to the limit's room: each record is counted at its subspace's item, which is put in its place. */
static void put_tally(const Rec *list, uint64_t n) {
    size_t items = 0;
    memset(store.tally, 0, VB_ITEM * store.state.limit);
    for (uint64_t k = 0; k < n; k++) {
        const uint8_t *subspace = list[k].b, *time = list[k].b + list[k].len - VB_VALUE - 8;
        uint8_t *item = store.tally;
        while (item < store.tally + VB_ITEM * items && memcmp(item, subspace, 16) < 0) item += VB_ITEM;
        if (item == store.tally + VB_ITEM * items || memcmp(item, subspace, 16)) {
            if (items == store.state.limit) return;
            memmove(item + VB_ITEM, item, store.tally + VB_ITEM * items++ - item);
            memcpy(item, subspace, 16), memset(item + 16, 0, VB_ITEM - 16);
        }
        for (int i = 19; !++item[i]; i--) {}
        if (memcmp(item + 20, time, 8) < 0) memcpy(item + 20, time, 8);
    }
}

/* Of a store that is well-formed, where the tally has room. */
static void right_tally(void) {
    if (store.tally_bytes < VB_ITEM * store.state.limit) return;
    take_apart();
    put_tally(recs[0], held[0]);
}

/* How many items the tally has, as it was reached. */
static size_t items_held(void) {
    size_t n = 0;
    while (n < store.state.limit && (store.tally[VB_ITEM * n + 18] || store.tally[VB_ITEM * n + 19])) n++;
    return n;
}
#endif
