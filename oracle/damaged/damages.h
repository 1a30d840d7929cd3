/* Ways to damage the global `store`, some of which leave it well-formed. */
#ifndef DAMAGES_H
#define DAMAGES_H
#include "records.h"

static uint32_t odd_number(uint32_t x) {
    switch (below(5)) {
    case 0: return x + 1;
    case 1: return x - 1;
    case 2: return x ^ 1u << below(32);
    case 3: return (uint32_t)random64();
    default: return (uint32_t)below(500);
    }
}

enum { ORIGIN_DAMAGES = 23, TALLY_DAMAGES = 29, DAMAGES = 35 }; /* those from TALLY_DAMAGES on change the tally only */

/* What is done to an entry's origin, and in which tree: the last two leave every value legal, and the store well-formed if both trees are changed alike. */
enum origin_damage { KIND_2, KIND_255, ANOTHER_KIND, LOCAL_WITH_A_SESSION, ANOTHER_SESSION, REMOTE_0, ORIGIN_WAYS };
enum where { SUBSPACE_FIRST_ALONE, TIME_FIRST_ALONE, BOTH, WHERE };
static int origin_way = ORIGIN_WAYS, origin_where; /* what was done to the store as it is, if anything of this */

/* The origin's nine bytes in a value. */
static void put_origin(uint8_t *value, uint8_t kind, uint64_t session) { value[VB_VALUE_ORIGIN] = kind, put64(value + VB_VALUE_SESSION, session); }

/* Damages the origin of one entry, whose two values are handed in. */
static void damage_origin(enum origin_damage way, enum where where, uint8_t *values[2]) {
    uint64_t any = one_in(2) ? 0 : one_in(2) ? below(9) : random64(), some = one_in(2) ? 1ull << below(64) : one_in(2) ? UINT64_MAX : 1 + random64() / 2;
    uint8_t kind = (uint8_t)(3 + below(252));
    uint64_t seven = one_in(2) ? 7 : random64();
    for (int t = 0; t < 2; t++) {
        bool changed = where == BOTH || (int)where == t;
        switch (way) {
        case KIND_2: case KIND_255: case ANOTHER_KIND:
            if (changed) put_origin(values[t], way == KIND_2 ? 2 : way == KIND_255 ? 255 : kind, any);
            break;
        case LOCAL_WITH_A_SESSION:
            if (changed) put_origin(values[t], 0, some);
            break;
        case ANOTHER_SESSION: put_origin(values[t], 1, changed ? seven + 1 : seven); break;
        default: put_origin(values[t], changed, 0); /* remote 0, and local in the other */
        }
    }
}

static void damage(int kind) {
    int t = (int)below(2);
    uint64_t n = store.state.count, k = n ? below(n) : 0, j = n ? below(n) : 0, end = n ? store.dir[t][2 * n - 2] + store.dir[t][2 * n - 1] : 0;
    uint64_t room = VB_RECORD_MOST * store.state.limit;
    take_apart();
    Rec *r = &recs[0][k], *o = &recs[1][partner(k)], swap;
    size_t key = r->len - VB_VALUE, items = items_held(), from = items ? below(items) : 0, to = items ? below(items) : 0;
    uint8_t other[VB_ITEM];
    switch (kind) {
    case 0: /* a byte of a tree */
        if (end) store.tree[t][below(end)] ^= 1 << below(8);
        break;
    case 1: /* a byte of a tree, to one of the bytes that keys have */
        if (end) store.tree[t][below(end)] = SOME[below(5)];
        break;
    case 2: { /* a number of a directory */
        uint64_t i = below(2 * store.state.limit);
        if (n && one_in(2)) i = below(2 * n);
        store.dir[t][i] = odd_number(store.dir[t][i]);
        break;
    }
    case 3: /* the count */
        store.state.count = one_in(3) ? n + 1 : one_in(3) ? n - 1 : one_in(3) ? below(2 * store.state.limit) : random64();
        break;
    case 4: /* the limit */
        store.state.limit = one_in(4) ? 0 : one_in(4) ? 1025 + below(3) : one_in(3) ? store.state.limit + 1 : one_in(2) ? store.state.limit - 1 : random64();
        break;
    case 5: /* the length of a buffer */
        switch (below(3)) {
        case 0: store.bytes[t] = one_in(2) ? room - 1 : below(room); break;
        case 1: store.numbers[t] = one_in(2) ? 2 * store.state.limit - 1 : below(2 * store.state.limit); break;
        default: store.prune_numbers = one_in(2) ? 2 * store.state.limit - 1 : below(2 * store.state.limit);
        }
        break;
    case 6: /* two records of one tree change places */
        swap = recs[t][k], recs[t][k] = recs[t][j], recs[t][j] = swap;
        put_together();
        break;
    case 7: /* a value in one tree only */
        if (n) recs[t][k].b[recs[t][k].len - VB_VALUE + below(VB_VALUE)] ^= 1 << below(8);
        put_together();
        break;
    case 8: /* a value in both trees alike */
        if (n) {
            size_t i = one_in(2) ? below(8) : below(VB_VALUE);
            uint8_t x = 1 << below(8);
            r->b[key + i] ^= x, o->b[key + i] ^= x;
        }
        put_together();
        break;
    case 9: /* a key in both trees alike, a byte more or less: of another form, or another path */
        if (n) {
            size_t at = 16 + below(key - 23);
            int by = one_in(2) ? 1 : -1;
            shift(r, at, by), shift(o, at + 8, by);
            if (by > 0) r->b[at] = o->b[at + 8] = SOME[below(5)];
        }
        put_together();
        break;
    case 10: /* a byte of the path in both trees alike */
        if (n) {
            size_t at = 16 + below(key - 24);
            r->b[at] = o->b[at + 8] = one_in(3) ? 3 : SOME[below(5)];
        }
        put_together();
        break;
    case 11: /* the same, sorted again: a form of key that no encoder writes, or another entry */
        if (n) {
            size_t at = 16 + below(key - 24);
            r->b[at] = o->b[at + 8] = one_in(3) ? 3 : SOME[below(5)];
            for (int i = 0; i < 2; i++) qsort(recs[i], held[i], sizeof(Rec), by_key);
        }
        put_together();
        break;
    case 12: /* a timestamp in both trees, sorted again: perhaps it now prunes another, or is pruned */
        if (n) {
            uint64_t x = below(9);
            put64(r->b + key - 8, x), put64(o->b, x);
            for (int i = 0; i < 2; i++) qsort(recs[i], held[i], sizeof(Rec), by_key);
        }
        put_together();
        break;
    case 13: /* one entry more in both trees, in order, unasked: unrelated, pruning, pruned, or at a taken place */
        if (n && n < store.state.limit) {
            Rec *p = &recs[0][n];
            *p = *r;
            if (one_in(2)) {
                vb_path path = random_path();
                write_record(p, random_subspace(), path.bytes, path.ends, path.count, random_number(6), r->b + key);
            } else {
                put64(p->b + key - 8, below(9)); /* the same place */
            }
            add_last(n);
        }
        put_together();
        break;
    case 14: /* one entry less, in both trees or in one */
        if (n) {
            int both = one_in(2);
            if (both || t == 0) memmove(r, r + 1, (held[0]-- - k - 1) * sizeof(Rec));
            if (both || t == 1) memmove(o, o + 1, (held[1]-- - (o - recs[1]) - 1) * sizeof(Rec));
            store.state.count = n - 1 + (!both && one_in(2));
        }
        put_together();
        break;
    case 15: /* a byte behind the last record */
        if (end < room) store.tree[t][end + below(one_in(2) ? 1 : room - end)] = 1 + below(255);
        break;
    case 16: /* a number behind the last pair */
        if (n < store.state.limit) store.dir[t][2 * n + below(one_in(2) ? 1 : 2 * (store.state.limit - n))] = 1 + below(500);
        break;
    case 17: /* an available length, in both trees or in one: perhaps above the payload's */
        if (n) {
            uint64_t x = one_in(4) ? random64() : below(5);
            int both = !one_in(3);
            if (both || t == 0) put64(r->b + key + VB_VALUE_AVAILABLE, x);
            if (both || t == 1) put64(o->b + key + VB_VALUE_AVAILABLE, x);
        }
        put_together();
        break;
    case 18: /* bytes beyond the bounds: no damage */
        if (store.bytes[t] > room) store.tree[t][room + below(store.bytes[t] - room)] ^= 0xff;
        if (store.numbers[t] > 2 * store.state.limit) store.dir[t][2 * store.state.limit + below(store.numbers[t] - 2 * store.state.limit)] ^= 0xff;
        if (store.tally_bytes > VB_ITEM * store.state.limit) store.tally[VB_ITEM * store.state.limit + below(store.tally_bytes - VB_ITEM * store.state.limit)] ^= 0xff;
        break;
    case 19: /* the state's namespace: no damage */
        store.state.namespace_id[below(16)] ^= 1 << below(8);
        break;
    case 20: /* a path at a bound or one over it, in both trees, in order: in place of an entry, or one more */
    case 21:
        if (n) {
            uint8_t bytes[VB_MPL + 1];
            size_t ends[VB_MCC + 1], parts = bound_path(bytes, ends);
            bool more = n < store.state.limit && one_in(2);
            uint8_t value[VB_VALUE];
            memcpy(value, r->b + key, VB_VALUE);
            if (!more) {
                memmove(r, r + 1, (n - k - 1) * sizeof(Rec)), memmove(o, o + 1, (n - (o - recs[1]) - 1) * sizeof(Rec));
                n--;
            }
            write_record(&recs[0][n], random_subspace(), bytes, ends, parts, random_number(6), value);
            add_last(n);
        }
        put_together();
        break;
    case 22: /* a gap: all offsets but the first one further, or the first not 0 */
        if (n) {
            uint64_t first = one_in(2) ? 0 : k;
            if (end < room) memmove(store.tree[t] + store.dir[t][2 * first] + 1, store.tree[t] + store.dir[t][2 * first], end - store.dir[t][2 * first]);
            for (uint64_t i = first; i < n; i++) store.dir[t][2 * i]++;
        }
        break;
    case 23: case 24: case 25: case 26: case 27: case 28: /* an entry's origin, in one tree or in both */
        if (n) {
            uint8_t *values[] = {r->b + key, o->b + key};
            origin_way = kind - ORIGIN_DAMAGES, origin_where = (int)below(WHERE);
            damage_origin(origin_way, origin_where, values);
        }
        put_together();
        break;
    case 29: /* a byte of an item: of its subspace, its count or its timestamp */
        if (items) store.tally[VB_ITEM * from + (one_in(2) ? below(VB_ITEM) : 16 + below(VB_ITEM - 16))] ^= 1 << below(8);
        break;
    case 30: /* two items change places */
        memcpy(other, store.tally + VB_ITEM * from, VB_ITEM);
        memcpy(store.tally + VB_ITEM * from, store.tally + VB_ITEM * to, VB_ITEM);
        memcpy(store.tally + VB_ITEM * to, other, VB_ITEM);
        break;
    case 31: /* an item left out */
        if (items) {
            memmove(store.tally + VB_ITEM * from, store.tally + VB_ITEM * (from + 1), VB_ITEM * (items - from - 1));
            memset(store.tally + VB_ITEM * (items - 1), 0, VB_ITEM);
        }
        break;
    case 32: { /* a byte behind the last item, the first one or the last one of the room among them */
        size_t behind = VB_ITEM * (store.state.limit - items);
        if (behind) store.tally[VB_ITEM * items + (one_in(3) ? 0 : one_in(2) ? behind - 1 : below(behind))] = 1 + below(255);
        break;
    }
    case 33: /* a tally too short */
        store.tally_bytes = one_in(2) ? VB_ITEM * store.state.limit - 1 : below(VB_ITEM * store.state.limit);
        break;
    default: /* the tally of another store: without an entry, with one twice, or with another time for one */
        if (n) {
            if (one_in(3)) put64(r->b + key - 8, one_in(2) ? below(9) : random64());
            else if (one_in(2)) recs[0][held[0]++] = *r;
            else *r = recs[0][--held[0]];
        }
        put_tally(recs[0], held[0]);
    }
}
#endif
