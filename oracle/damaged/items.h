/* What the judge keeps of a record, and 01's words about such items. Its numbers stand here and are nobody else's. */
#ifndef ITEMS_H
#define ITEMS_H
#include "judge.h"

enum {
    COMPONENT_MOST = 64, /* "MCL = 64 bytes a component, MCC = 8 components, MPL = 128 bytes a path" */
    COMPONENTS_MOST = 8,
    PATH_MOST = 128,
    KEY_LEAST = 26, /* "Key length is 26 to 298"; U6: "A record is then at most 419 bytes" */
    RECORD_BYTES = 419,
    VALUE_BYTES = 121, /* "payload length 8, digest 32, token 64, available length 8"; U6: "Each value gains nine bytes at its end", "a kind (0 local, 1 remote) and a big-endian session number" */
    DIGEST_AT = 8,
    TOKEN_AT = 40,
    AVAILABLE_AT = 104,
    KIND_AT = 112,
    SESSION_AT = 113,
    LOCAL = 0,
    REMOTE = 1,
    LIMIT_LAST = 1024,
    ITEM_BYTES = 28, /* "16 bytes subspace, 4 bytes count, 8 bytes newest timestamp, big-endian" */
    COUNT_AT = 16,
    NEWEST_AT = 20
};

typedef struct {
    uint8_t subspace[16];
    uint64_t time;
    int parts, len[COMPONENTS_MOST];
    uint8_t part[COMPONENTS_MOST][COMPONENT_MOST];
    const uint8_t *value;
    size_t offset, size; /* of the record in the subspace-first tree; a new one has none */
} item;

/* The store that was read last: its entries in the order of the subspace-first tree, and the judge's word on it. */
extern item judged_items[LIMIT_LAST];
extern const lent *judged_store;
extern int judged_refusal;
extern bool judged_wrong_tally;

static inline uint64_t be64(const uint8_t *p) {
    uint64_t x = 0;
    for (int i = 0; i < 8; i++) x = x << 8 | p[i];
    return x;
}

/* well_formed.c: reads a key of a tree by the grammar; false if no encoder of that kind writes it. */
bool read_key(int t, const uint8_t *p, size_t n, item *e);

/* tally.c: the tally of some entries, in whatever order they stand, up to the limit's room. */
void lay_tally(const item *const *entries, size_t n, size_t limit, uint8_t *tally);

/* includes.c */
void put64(uint8_t *p, uint64_t x);
void take_path(const vb_path *p, item *e);
void give_path(const item *e, vb_path *p);
void take_subspace(vb_subspace s, uint8_t out[16]);
vb_origin give_origin(const uint8_t *value);
void give_entry(const item *e, vb_lengthy_entry *out);
int subspace_first(const void *x, const void *y);
int time_first(const void *x, const void *y);
bool in_area(const vb_area *a, const item *e);
bool in_range(const vb_range *r, const item *e);
bool passed_over(const vb_ignore *i, const item *e);
void area_range(const vb_area *a, vb_range *r);

static inline bool same_subspace(const item *a, const item *b) { return !memcmp(a->subspace, b->subspace, 16); }

/* "[61] prefixes [61][62] and not [6162]": by whole components. */
static inline bool prefixes(const item *a, const item *b) {
    if (a->parts > b->parts) return false;
    for (int i = 0; i < a->parts; i++)
        if (a->len[i] != b->len[i] || memcmp(a->part[i], b->part[i], a->len[i])) return false;
    return true;
}

static inline bool same_path(const item *a, const item *b) { return a->parts == b->parts && prefixes(a, b); }

/* "newer, older or same": by timestamp, then digest as bytes, then payload length. */
enum recency { OLDER = -1, SAME, NEWER };
static inline enum recency compared(const item *a, const item *b) {
    if (a->time != b->time) return a->time > b->time ? NEWER : OLDER;
    int d = memcmp(a->value + DIGEST_AT, b->value + DIGEST_AT, 32);
    if (d) return d > 0 ? NEWER : OLDER;
    uint64_t m = be64(a->value), n = be64(b->value);
    return m > n ? NEWER : m < n ? OLDER : SAME;
}
#endif
