/* A well-formed store by document 01's words, and its tally by 02's: which of refusals 1, 2, 3, 10 a call must give. Every pair of entries is looked at,
   every byte of the bounds, every key by the grammar. */
#include "items.h"

item judged_items[LIMIT_LAST];
const lent *judged_store;
int judged_refusal;
bool judged_wrong_tally;
static item other_items[LIMIT_LAST];

/* "Component byte 00 is written 00 02; other bytes as themselves. A component ends 00 01, a path 00 00." How many bytes the path at the
   front takes; 0 if there is none within the bounds. */
static size_t read_path(const uint8_t *p, size_t n, item *e) {
    size_t at = 0;
    int total = 0, len = 0;
    e->parts = 0;
    for (;;) {
        if (at == n) return 0;
        uint8_t b = p[at++];
        if (b == 0) {
            if (at == n) return 0;
            uint8_t c = p[at++];
            if (c == 0) {
                if (len) return 0;
                return at;
            }
            if (c == 1) {
                if (e->parts == COMPONENTS_MOST) return 0;
                e->len[e->parts++] = len;
                len = 0;
                continue;
            }
            if (c != 2) return 0;
        }
        if (e->parts == COMPONENTS_MOST || len == COMPONENT_MOST || total == PATH_MOST) return 0;
        e->part[e->parts][len++] = b;
        total++;
    }
}

/* U6: "A value with another kind, or local with a number, makes the store not well-formed." */
static bool read_origin(const uint8_t *value) {
    if (value[KIND_AT] == LOCAL) return be64(value + SESSION_AT) == 0;
    return value[KIND_AT] == REMOTE;
}

bool read_key(int t, const uint8_t *p, size_t n, item *e) {
    if (n < KEY_LEAST) return false;
    if (t) {
        e->time = be64(p), memcpy(e->subspace, p + 8, 16);
        size_t used = read_path(p + 24, n - 24, e);
        return used && 24 + used == n;
    }
    memcpy(e->subspace, p, 16);
    size_t used = read_path(p + 16, n - 16, e);
    if (!used || 16 + used + 8 != n) return false;
    e->time = be64(p + n - 8);
    return true;
}

static bool read_record(int t, const uint8_t *p, size_t n, item *e) {
    if (n < VALUE_BYTES + KEY_LEAST) return false;
    size_t key = n - VALUE_BYTES;
    e->value = p + key;
    if (!read_key(t, p, key, e)) return false;
    if (be64(e->value + AVAILABLE_AT) > be64(e->value)) return false;
    return read_origin(e->value);
}

static bool read_tree(const lent *s, int t, item *items) {
    const uint8_t *tree = s->tree[t];
    const uint32_t *dir = s->dir[t];
    size_t room = RECORD_BYTES * s->state.limit, end = 0;
    for (size_t k = 0; k < s->state.count; k++) {
        size_t at = dir[2 * k], n = dir[2 * k + 1];
        if (at != end || at + n > room) return false;
        end = at + n;
        if (!read_record(t, tree + at, n, items + k)) return false;
        items[k].offset = at, items[k].size = n;
        if (k) {
            size_t before = dir[2 * k - 2], a = dir[2 * k - 1] - VALUE_BYTES, b = n - VALUE_BYTES;
            int c = memcmp(tree + before, tree + at, a < b ? a : b);
            if (c > 0 || (c == 0 && a >= b)) return false;
        }
    }
    for (size_t i = end; i < room; i++)
        if (tree[i]) return false;
    for (size_t i = 2 * s->state.count; i < 2 * s->state.limit; i++)
        if (dir[i]) return false;
    return true;
}

static bool same_entry(const item *a, const item *b) {
    return same_subspace(a, b) && same_path(a, b) && a->time == b->time && !memcmp(a->value, b->value, VALUE_BYTES);
}

static bool well_formed(const lent *s) {
    size_t count = s->state.count;
    if (count > s->state.limit) return false;
    if (!read_tree(s, 0, judged_items) || !read_tree(s, 1, other_items)) return false;
    for (size_t i = 0; i < count; i++) {
        const item *a = judged_items + i;
        size_t j = 0;
        while (j < count && !same_entry(a, other_items + j)) j++;
        if (j == count) return false;
        for (j = 0; j < count; j++) {
            const item *b = judged_items + j;
            if (j == i || !same_subspace(a, b)) continue;
            if (same_path(a, b)) return false;
            if (prefixes(a, b) && compared(a, b) == NEWER) return false;
        }
    }
    return true;
}

static int read_store(const lent *s) {
    size_t limit = s->state.limit;
    if (limit < 1 || limit > LIMIT_LAST) return 1;
    for (int t = 0; t < 2; t++)
        if (s->bytes[t] < RECORD_BYTES * limit || s->numbers[t] < 2 * limit) return 2;
    return well_formed(s) ? 0 : 3;
}

static bool wrong_tally(const lent *s) {
    static const item *all[LIMIT_LAST];
    static uint8_t right[ITEM_BYTES * LIMIT_LAST];
    for (size_t k = 0; k < s->state.count; k++) all[k] = judged_items + k;
    lay_tally(all, s->state.count, s->state.limit, right);
    return memcmp(s->tally, right, ITEM_BYTES * s->state.limit) != 0;
}

int judge_reads(const lent *s) {
    judged_store = s;
    judged_refusal = read_store(s);
    judged_wrong_tally = !judged_refusal && s->tally_bytes >= ITEM_BYTES * s->state.limit && wrong_tally(s);
    return judged_refusal;
}

int judge_refuses(enum call_kind kind, const lent *s) {
    bool lists = kind == INGEST || kind == INGEST_NUMBERS; /* a list by value is never short */
    bool tallies = kind < RECORD_AVAILABLE;                /* "opening, ingest_entry, forget_entry and forget_area take it, other calls don't" */
    if (judged_refusal == 1) return 1;
    if (lists && s->prune_numbers < 2 * s->state.limit) return 2;
    if (tallies && s->tally_bytes < ITEM_BYTES * s->state.limit) return 2;
    if (kind == OPEN && judged_refusal == 3) return 0; /* an opening is handed no store */
    if (judged_refusal) return judged_refusal;
    return tallies && kind != OPEN && judged_wrong_tally ? 10 : 0;
}
