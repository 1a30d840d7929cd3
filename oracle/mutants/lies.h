/* Ports that lie: LIE says which. Included before a run's own source, so that the run calls these in place of the door's own calls. */
#include "virebony.h"
#include <stdlib.h>
#include <string.h>

#define ARGUMENTS spt, spt_len, spt_dir, spt_dir_len, tsp, tsp_len, tsp_dir, tsp_dir_len
#define ALL_ARGUMENTS ARGUMENTS, tally, tally_len
#ifdef __GNUC__
#define MAY __attribute__((unused))
#endif

/* The value of the record at a subspace and path in one tree; NULL if none stands there. Of a store that is well-formed. */
MAY static uint8_t *value_at(vb_state state, uint8_t *tree, const uint32_t *dir, int time_first, vb_subspace subspace, vb_path path) {
    for (size_t k = 0; k < state.count; k++) {
        uint8_t *record = tree + dir[2 * k];
        const size_t key = dir[2 * k + 1] - VB_VALUE;
        vb_decoded d = time_first ? vb_decode_tsp_entry_key(record, key) : vb_decode_spt_entry_key(record, key);
        if (d.subspace.high == subspace.high && d.subspace.low == subspace.low && vb_path_eq(d.path, path).yes) return record + key;
    }
    return NULL;
}

MAY static uint64_t number_at(const uint8_t *p) {
    uint64_t n = 0;
    for (int i = 0; i < 8; i++) n = n << 8 | p[i];
    return n;
}

MAY static void put_number(uint8_t *p, uint64_t n) {
    for (int i = 7; i >= 0; i--, n >>= 8) p[i] = (uint8_t)n;
}

MAY static uint64_t reversed(uint64_t n) {
    uint8_t bytes[8];
    for (int i = 0; i < 8; i++) bytes[i] = (uint8_t)(n >> (8 * i));
    return number_at(bytes);
}

/* The origin's nine bytes of a value, as a port writes them that tells the truth. */
MAY static void put_origin_of(uint8_t *value, vb_origin origin) {
    value[VB_VALUE_ORIGIN] = origin.remote != 0;
    put_number(value + VB_VALUE_SESSION, origin.remote ? origin.session : 0);
}

/* A count over copies of the trees in which what a lying port takes for sound is made so, and whose room is what an honest port asks for. `zero_session`: whether an entry is remote 0. */
MAY static vb_counted count_mended(vb_state state, VB_CONST_BUFFERS, vb_area area, int *zero_session) {
    static uint8_t trees[2][VB_RECORD_MOST * VB_LIMIT_MOST];
    for (int t = 0; t < 2; t++) {
        const uint32_t *dir = t ? tsp_dir : spt_dir;
        const size_t len = t ? tsp_len : spt_len, room = VB_RECORD_MOST * state.limit;
        memset(trees[t], 0, room), memcpy(trees[t], t ? tsp : spt, len < room ? len : room);
        for (size_t k = 0; k < state.count && k < state.limit; k++) {
            const size_t end = (size_t)dir[2 * k] + dir[2 * k + 1];
            if (end > room || end < VB_VALUE) continue;
            uint8_t *value = trees[t] + end - VB_VALUE, *kind = value + VB_VALUE_ORIGIN, *session = value + VB_VALUE_SESSION;
            if (LIE == KIND_2_TAKEN && *kind == 2) *kind = 1;
            if (LIE == LOCAL_WITH_A_NUMBER_TAKEN && *kind == 0) put_number(session, 0);
            if (LIE == NINE_NOT_COMPARED && (*kind == 1 || (*kind == 0 && !number_at(session)))) *kind = 0, put_number(session, 0);
            *zero_session |= *kind == 1 && !number_at(session);
        }
    }
    return vb_count_area(state, trees[0], sizeof trees[0], spt_dir, spt_dir_len, trees[1], sizeof trees[1], tsp_dir, tsp_dir_len, area);
}

MAY static vb_counted lie_count_area(vb_state state, VB_CONST_BUFFERS, vb_area area) {
    vb_counted c = vb_count_area(state, ARGUMENTS, area);
    if (LIE == COUNTS_MADE_UP && !c.refusal) c.count = 7;
    if (LIE == READS_REFUSED && !c.refusal) c.refusal = 9, c.count = 0;
    const int origins = LIE == KIND_2_TAKEN || LIE == LOCAL_WITH_A_NUMBER_TAKEN || LIE == NINE_NOT_COMPARED;
    const size_t before = (VB_RECORD_MOST - (VB_VALUE - VB_VALUE_ORIGIN)) * state.limit; /* the room of trees whose values have no origin */
    int zero_session = 0;
    if (origins && c.refusal == 3) c = count_mended(state, ARGUMENTS, area, &zero_session);
    if (LIE == ROOM_WITHOUT_ORIGINS && c.refusal == 2 && spt_len >= before && tsp_len >= before && spt_dir_len >= 2 * state.limit && tsp_dir_len >= 2 * state.limit)
        c = count_mended(state, ARGUMENTS, area, &zero_session);
    if (LIE == ZERO_SESSION_REFUSED && !c.refusal) {
        count_mended(state, ARGUMENTS, area, &zero_session);
        if (zero_session) c.refusal = 3, c.count = 0;
    }
    if (LIE == DESCENDING_ACCEPTED && c.refusal == 4 && area.path.count == 2 && area.path.ends[1] < area.path.ends[0]) c.refusal = 0;
    return c;
}

MAY static vb_counted lie_summarise(vb_state state, VB_CONST_BUFFERS, vb_range range) {
    vb_counted c = vb_summarise(state, ARGUMENTS, range);
    if (LIE == SIZES_MADE_UP && c.count) c.count--;
    if (LIE == READS_REFUSED && !c.refusal) c.refusal = 9, c.count = 0;
    return c;
}

MAY static vb_entry_found lie_find_entry(vb_state state, VB_CONST_BUFFERS, vb_subspace subspace, vb_path path, vb_ignore ignore) {
    vb_entry_found f = vb_find_entry(state, ARGUMENTS, subspace, path, ignore);
    if (LIE == READS_REFUSED && !f.refusal) memset(&f, 0, sizeof f), f.refusal = 9;
    if (LIE == OTHER_TOKEN && f.found) f.lengthy.token[63] ^= 1;
    if (LIE == FLAGS_NOT_LOOKED_AT) {
        vb_ignore none = {0, 0};
        f = vb_find_entry(state, ARGUMENTS, subspace, path, none);
    }
    if (LIE == PART_IS_COMPLETE && ignore.incomplete_payloads && !f.refusal && !f.found) {
        ignore.incomplete_payloads = 0;
        vb_entry_found part = vb_find_entry(state, ARGUMENTS, subspace, path, ignore);
        if (part.found && part.lengthy.available) f = part;
    }
    vb_origin *origin = &f.lengthy.origin;
    if (LIE == ALL_SHOWN_AS_LOCAL || (LIE == ZERO_SESSION_SHOWN_AS_LOCAL && !origin->session)) origin->remote = 0, origin->session = 0;
    if (LIE == REMOTE_SHOWN_AS_255 && origin->remote) origin->remote = 255;
    if (LIE == SESSION_SHOWN_REVERSED) origin->session = reversed(origin->session);
    if (LIE == NOTHING_SHOWS_AN_ORIGIN && !f.refusal && !f.found) origin->remote = 1;
    if (LIE == REFUSED_SHOWS_AN_ORIGIN && f.refusal) origin->remote = 1;
    if (LIE == HIDDEN_SHOWS_ITS_ORIGIN && !f.refusal && !f.found) {
        vb_ignore none = {0, 0};
        *origin = vb_find_entry(state, ARGUMENTS, subspace, path, none).lengthy.origin;
    }
    return f;
}

/* Listings */

/* Both calls of a step, told honestly: of an area's listing, or of a range's where `area` is NULL. */
typedef struct {
    vb_listed listed;
    vb_part part;
} both;
MAY static both honest(vb_state state, VB_CONST_BUFFERS, const vb_area *area, const vb_range *range, vb_ignore ignore, const uint8_t *last, size_t len) {
    both s;
    s.listed = area ? vb_query_area_found(state, ARGUMENTS, *area, ignore, last, len) : vb_query_range_found(state, ARGUMENTS, *range, ignore, last, len);
    s.part = area ? vb_query_area(state, ARGUMENTS, *area, ignore, last, len) : vb_query_range(state, ARGUMENTS, *range, ignore, last, len);
    return s;
}

/* By the first byte that differs; and else the longer one is above. */
MAY static int key_order(const uint8_t *p, size_t m, const uint8_t *q, size_t n) {
    int c = memcmp(p, q, m < n ? m : n);
    return c ? c : (m > n) - (m < n);
}

/* Where the matches are walked by another rule: the match that it gives behind some bytes. */
enum rule { AT_OR_ABOVE, ABOVE, BY_LENGTH, BY_NUMBER, BY_TIME };
MAY static both walked(enum rule rule, size_t number, vb_state state, VB_CONST_BUFFERS, const vb_area *area, const vb_range *range, vb_ignore ignore, const uint8_t *last, size_t len) {
    both none = {{0, 0}, {0, 0}}, best = none;
    size_t met = 0, best_len = 0;
    for (both s = honest(state, ARGUMENTS, area, range, ignore, NULL, 0); s.part.length;) {
        const uint8_t *key = spt + s.part.offset;
        const size_t n = s.part.length - VB_VALUE;
        int order = key_order(key, n, last, len), longer = n > len || (n == len && order > 0), later = len >= 8 && memcmp(key + n - 8, last + len - 8, 8) > 0;
        if (rule == AT_OR_ABOVE && order >= 0) return s;
        if (rule == ABOVE && order > 0) return s;
        if (rule == BY_TIME && (!len || later)) return s;
        if (rule == BY_NUMBER && met++ == number) return s;
        if (rule == BY_LENGTH && (!len || longer) && (!best_len || n < best_len)) best = s, best_len = n;
        s = honest(state, ARGUMENTS, area, range, ignore, key, n);
    }
    return best;
}

/* How many an area's listing and a range's gave since they began. */
static size_t given_since[2];

/* Lies about a step; `part_asked`: the call that answers the record, and not the other. */
MAY static both lie_step(int part_asked, vb_state state, VB_CONST_BUFFERS, const vb_area *area, const vb_range *range, vb_ignore ignore, const uint8_t *last, size_t len) {
    both s = honest(state, ARGUMENTS, area, range, ignore, last, len);
    const int refusal = s.listed.refusal, five = refusal == 5;
    const both finished = {{0, 0}, {0, 0}};
    both other = finished;
    if (LIE == READS_REFUSED && area && !refusal) s = finished, s.listed.refusal = 9;
    if (LIE == FINISHED_TOO_EARLY && area) s.listed.found = 0;
#define WALKED(RULE, NUMBER) walked(RULE, NUMBER, state, ARGUMENTS, area, range, ignore, last, len)
#define FROM_KEY(KEY, LEN) honest(state, ARGUMENTS, area, range, ignore, KEY, LEN)
    if (!refusal) {
        const uint8_t *key = spt + s.part.offset;
        const size_t n = s.part.length ? s.part.length - VB_VALUE : 0;
        if (LIE == REMEMBERED_GIVEN_AGAIN || (LIE == RANGE_GIVES_IT_AGAIN && !area)) s = WALKED(AT_OR_ABOVE, 0);
        if (LIE == FIRST_ALWAYS) s = FROM_KEY(NULL, 0);
        if (LIE == EMPTY_KEY_REFUSED && !len) s = finished, s.listed.refusal = 5;
        if (LIE == LENGTHS_COMPARED) s = WALKED(BY_LENGTH, 0);
        if (LIE == TIMES_COMPARED) s = WALKED(BY_TIME, 0);
        if (LIE == BY_THE_PLACE) {
            size_t *given = given_since + !area;
            if (!len) *given = 0;
            s = WALKED(BY_NUMBER, *given);
            *given += part_asked && s.part.length;
        }
        if (LIE == ONE_SKIPPED && n) other = FROM_KEY(key, n), s = len && other.part.length ? other : s;
        if (LIE == LAST_NOT_GIVEN && n) s = FROM_KEY(key, n).part.length ? s : finished;
        if (LIE == WITHIN_ITS_SUBSPACE && n && len && memcmp(key, last, 16)) s = finished;
        if (LIE == FLAGS_OF_STEPS_NOT_LOOKED_AT) s = honest(state, ARGUMENTS, area, range, (vb_ignore){0, 0}, last, len);
        if ((LIE == STORED_KEYS_ONLY || LIE == KEYS_THAT_MATCH_ONLY) && len) {
            int there = 0;
            for (size_t k = 0; k < state.count; k++) there |= !key_order(spt + spt_dir[2 * k], spt_dir[2 * k + 1] - VB_VALUE, last, len);
            if (LIE == KEYS_THAT_MATCH_ONLY) other = WALKED(AT_OR_ABOVE, 0), there = other.part.length && !key_order(spt + other.part.offset, other.part.length - VB_VALUE, last, len);
            if (!there) s = finished, s.listed.refusal = LIE == STORED_KEYS_ONLY ? 5 : 0;
        }
    }
    if (five) {
        const vb_decoded turned = vb_decode_tsp_entry_key(last, len);
        uint8_t key[VB_KEY_MOST];
        int escape = 0;
        for (size_t i = 16; i + 9 < len; i++) escape |= !last[i] && last[i + 1] > 2;
        if (LIE == NO_FIVE || (LIE == SHORT_KEYS_TAKEN && len < 26) || (LIE == LONG_KEYS_TAKEN && len > VB_KEY_MOST) || (LIE == ESCAPES_TAKEN && escape)) s = WALKED(ABOVE, 0);
        if (LIE == FIVE_IS_FINISHED) s = finished;
        if (LIE == FIVE_IS_THE_START) s = FROM_KEY(NULL, 0);
        if (LIE == BYTE_BEHIND_TAKEN) s = FROM_KEY(last, len - 1);
        if (LIE == TIME_FIRST_KEYS_TAKEN && !turned.refusal) s = FROM_KEY(key, vb_encode_spt_entry_key(turned.subspace, turned.path, turned.timestamp, key, VB_KEY_MOST).length);
        size_t at = 16, components = 0;
        while (at + 1 < len && (last[at] || last[at + 1] == 1 || last[at + 1] == 2)) components += !last[at] && last[at + 1] == 1, at += last[at] ? 1 : 2;
        if (LIE == NINE_COMPONENTS_TAKEN && components > 8 && at + 10 == len) s = WALKED(ABOVE, 0);
        if (LIE == FOUR_AND_FIVE_EXCHANGED) s.listed.refusal = 4;
    }
    if (refusal == 4) {
        const int none = len && vb_decode_spt_entry_key(last, len).refusal;
        if (LIE == FOUR_AND_FIVE_EXCHANGED || (LIE == FIVE_BEFORE_FOUR && none)) s.listed.refusal = 5;
    }
    if (LIE == FIVE_BEFORE_THREE && refusal == 3 && len && vb_decode_spt_entry_key(last, len).refusal) s.listed.refusal = 5;
    if (LIE == FOUND_AT_THE_END && !refusal && !s.part.length) s.listed.found = 1;
    if (LIE == FOUND_IS_THE_LENGTH && s.listed.found) s.listed.found = 2;
    if (LIE == PART_ONE_BYTE_ON && s.part.length) s.part.offset++;
    if (LIE == PART_ONE_BYTE_LESS && s.part.length) s.part.length--;
    if (LIE == PART_IS_THE_KEY && s.part.length) s.part.length -= VB_VALUE;
    if (LIE == PART_AT_THE_END && !s.part.length) s.part.offset = 1;
    if (LIE == PART_OF_THE_REFUSED && five) s.part = FROM_KEY(NULL, 0).part;
    if (LIE == STEP_WRITES && s.part.length && spt_len > VB_RECORD_MOST * state.limit) ((uint8_t *)spt)[VB_RECORD_MOST * state.limit] ^= 1;
#undef WALKED
#undef FROM_KEY
    return s;
}

MAY static vb_listed lie_query_area_found(vb_state state, VB_CONST_BUFFERS, vb_area area, vb_ignore ignore, const uint8_t *last, size_t last_len) {
    return lie_step(0, state, ARGUMENTS, &area, NULL, ignore, last, last_len).listed;
}
MAY static vb_part lie_query_area(vb_state state, VB_CONST_BUFFERS, vb_area area, vb_ignore ignore, const uint8_t *last, size_t last_len) {
    return lie_step(1, state, ARGUMENTS, &area, NULL, ignore, last, last_len).part;
}
MAY static vb_listed lie_query_range_found(vb_state state, VB_CONST_BUFFERS, vb_range range, vb_ignore ignore, const uint8_t *last, size_t last_len) {
    return lie_step(0, state, ARGUMENTS, NULL, &range, ignore, last, last_len).listed;
}
MAY static vb_part lie_query_range(vb_state state, VB_CONST_BUFFERS, vb_range range, vb_ignore ignore, const uint8_t *last, size_t last_len) {
    return lie_step(1, state, ARGUMENTS, NULL, &range, ignore, last, last_len).part;
}

MAY static vb_part lie_record_key(const uint8_t *record, size_t record_len) {
    vb_part p = vb_record_key(record, record_len);
    if (LIE == KEY_ONE_BYTE_SHORT && p.length) p.length--;
    if (LIE == KEY_WITH_ITS_LENGTH && p.length) p.length += 8;
    if (LIE == KEY_OF_A_STUMP && record_len < VB_VALUE) p.length = record_len;
    if (LIE == KEY_BY_112_BYTES && record_len > VB_VALUE_ORIGIN) p.length = record_len - VB_VALUE_ORIGIN;
    return p;
}

MAY static vb_area_range lie_interest(vb_state state, VB_CONST_BUFFERS, vb_interest interest) {
    vb_area_range r = vb_area_of_interest_to_range(state, ARGUMENTS, interest);
    if (LIE == INTEREST_AS_GIVEN && !r.refusal) r.range.times.start = interest.area.times.start;
    return r;
}

/* The tally as it was handed in. */
static uint8_t kept_tally[VB_ITEM * VB_LIMIT_MOST + 64];
MAY static void keep_tally(const uint8_t *tally, size_t tally_len) { memcpy(kept_tally, tally, tally_len < sizeof kept_tally ? tally_len : sizeof kept_tally); }

MAY static const uint8_t *kept_item(const uint8_t *subspace, size_t limit) {
    for (size_t i = 0; i < limit; i++)
        if (!memcmp(kept_tally + VB_ITEM * i, subspace, 16) && (kept_tally[VB_ITEM * i + 18] | kept_tally[VB_ITEM * i + 19])) return kept_tally + VB_ITEM * i;
    return NULL;
}

/* Lies in the tally of a call that answered so; answers the refusal. */
MAY static uint8_t lie_about_tally(vb_state state, uint8_t refusal, int changed, vb_path path, uint8_t *tally, size_t tally_len) {
    if (LIE == TEN_HIDDEN && refusal == 10) return 0;
    if (LIE == TEN_BEHIND_FOUR && refusal == 10 && !vb_path_is_legal(path)) return 4;
    if (LIE == TEN_WRITES && refusal == 10) memset(tally, 0, VB_ITEM);
    if (!changed) return refusal;
    if (LIE == TALLY_STALE) memcpy(tally, kept_tally, VB_ITEM * state.limit);
    if (LIE == COUNT_OFF && tally[19] > 1) tally[19]++;
    if (LIE == TALLY_BEYOND && tally_len > VB_ITEM * state.limit) tally[VB_ITEM * state.limit] = 0;
    for (size_t i = 0; i < state.limit; i++) {
        uint8_t *item = tally + VB_ITEM * i;
        const uint8_t *kept = kept_item(item, state.limit);
        if (LIE == NEWEST_NOT_LOWERED && kept && (item[18] | item[19]) && memcmp(kept + 20, item + 20, 8) > 0) memcpy(item + 20, kept + 20, 8);
        if (LIE == ITEM_KEPT && !(item[18] | item[19]) && (kept_tally[VB_ITEM * i + 18] | kept_tally[VB_ITEM * i + 19])) memcpy(item, kept_tally + VB_ITEM * i, 16);
    }
    return refusal;
}

MAY static vb_opened lie_open(const uint8_t namespace_id[16], size_t limit, VB_BUFFERS) {
    keep_tally(tally, tally_len);
    vb_opened o = vb_open(namespace_id, limit, ALL_ARGUMENTS);
    if (LIE == TALLY_NOT_CLEARED && !o.refusal) memcpy(tally, kept_tally, VB_ITEM * limit);
    return o;
}

/* The entry that was forgotten last, if one was found. */
static vb_entry_found last_forgotten;

MAY static vb_entry_forgotten lie_forget_entry(vb_state state, VB_BUFFERS, vb_subspace subspace, vb_path path, uint8_t expects, const uint8_t digest[32]) {
    if (LIE == NOTHING_FORGOTTEN) {
        vb_ignore none = {0, 0};
        vb_entry_found f = vb_find_entry(state, ARGUMENTS, subspace, path, none);
        vb_entry_forgotten r;
        memset(&r, 0, sizeof r);
        r.refusal = f.refusal, r.state = state;
        if (f.found && expects && memcmp(f.lengthy.entry.payload_digest, digest, 32)) r.refusal = 9;
        return r;
    }
    keep_tally(tally, tally_len);
    if (LIE == FILED_AGAIN_WITH_THE_LENGTH || LIE == FILED_AGAIN_WITH_THE_ORIGIN) {
        vb_ignore none = {0, 0};
        last_forgotten = vb_find_entry(state, ARGUMENTS, subspace, path, none);
    }
    vb_entry_forgotten r = vb_forget_entry(state, ALL_ARGUMENTS, subspace, path, expects, digest);
    if (LIE == NINE_HIDDEN && r.refusal == 9) r.refusal = 0;
    r.refusal = lie_about_tally(state, r.refusal, !r.refusal && r.state.count < state.count, path, tally, tally_len);
    return r;
}

MAY static vb_area_forgotten lie_forget_area(vb_state state, VB_BUFFERS, vb_area area, uint8_t protects, vb_area protected_area) {
    if (LIE == NOTHING_FORGOTTEN) {
        vb_counted c = vb_count_area(state, ARGUMENTS, area);
        vb_area_forgotten r;
        memset(&r, 0, sizeof r);
        r.refusal = c.refusal, r.state = state, r.forgotten = c.count;
        return r;
    }
    keep_tally(tally, tally_len);
    vb_area_forgotten r = vb_forget_area(state, ALL_ARGUMENTS, area, LIE == NOTHING_PROTECTED ? 0 : protects, protected_area);
    if (LIE == FORGOTTEN_MADE_UP && !r.refusal) r.forgotten = 1;
    r.refusal = lie_about_tally(state, r.refusal, !r.refusal && r.forgotten, area.path, tally, tally_len);
    return r;
}

/* Lies about an entry that is held; `found` is what is stored at its place. */
MAY static vb_ingested lie_about_held(vb_ingested r, vb_state state, VB_BUFFERS, vb_pair *prune, size_t prune_len, vb_entry entry, const uint8_t token[64], uint8_t prevent,
                                      vb_origin origin, vb_lengthy_entry found) {
    if (!r.held) return r;
    size_t total = entry.path.count ? entry.path.ends[entry.path.count - 1] : 0;
    if (LIE == HELD_IS_SEVEN && prevent) r.refusal = 7, r.held = 0;
    if (LIE == HELD_BEHIND_EIGHT && state.count == state.limit) r.refusal = 8, r.held = 0;
    if (LIE == HELD_IS_SUCCESS) r.held = 0;
    if (LIE == HELD_AND_PRUNED) r.pruned = 1;
    if (LIE == HELD_SHOWS_THE_STORED) r.newer = found.entry, memcpy(r.token, found.token, 64);
    if (LIE == HELD_BY_BYTES_BEHIND && total < VB_MPL && entry.path.bytes[total]) r.held = 0, r.pruned = 1;
    if (LIE == HELD_BY_ENDS_BEHIND && entry.path.count < VB_MCC && entry.path.ends[entry.path.count]) r.held = 0, r.pruned = 1;
    if (LIE == HELD_BY_TOKEN && memcmp(token, found.token, 64)) r.held = 0, r.pruned = 1;
    if (LIE == HELD_BY_ORIGIN && (found.origin.remote != (origin.remote != 0) || (found.origin.remote && found.origin.session != origin.session))) r.held = 0, r.pruned = 1;
    if (LIE == HELD_TAKES_THE_TOKEN || LIE == HELD_CLEARS_THE_AVAILABLE || LIE == HELD_TAKES_THE_ORIGIN || LIE == HELD_TAKES_TIES) {
        vb_area below;
        memset(&below, 0, sizeof below);
        below.subspace = entry.subspace_id, below.path = entry.path, below.times.start = entry.timestamp, below.times.open = 1;
        if (LIE == HELD_TAKES_TIES && !found.available && vb_count_area(state, ARGUMENTS, below).count > 1) { /* what lies below goes, and the entry is filed again */
            vb_state left = vb_forget_area(state, ALL_ARGUMENTS, below, 0, below).state;
            r.state = vb_ingest_entry(left, ALL_ARGUMENTS, prune, prune_len, entry, found.token, 0, found.origin).state;
            return r;
        }
        for (int t = 0; t < 2; t++) {
            uint8_t *value = value_at(state, t ? tsp : spt, t ? tsp_dir : spt_dir, t, entry.subspace_id, entry.path);
            if (LIE == HELD_TAKES_THE_TOKEN) memcpy(value + VB_VALUE_TOKEN, token, 64);
            if (LIE == HELD_CLEARS_THE_AVAILABLE) put_number(value + VB_VALUE_AVAILABLE, 0);
            if (LIE == HELD_TAKES_THE_ORIGIN) put_origin_of(value, origin);
        }
    }
    return r;
}

/* The paths of the stored entries that tie with an entry from below; their pairs and those of what is older at its path or below, in key order. */
static size_t tied, covered;
static vb_path tied_paths[VB_LIMIT_MOST];
static vb_pair covered_pairs[VB_LIMIT_MOST];
MAY static void find_ties(vb_state state, VB_CONST_BUFFERS, vb_entry entry) {
    tied = covered = 0;
    if (vb_count_area(state, ARGUMENTS, (vb_area){.path = entry.path}).refusal) return;
    for (size_t k = 0; k < state.count; k++) {
        vb_pair pair = {spt_dir[2 * k], spt_dir[2 * k + 1]};
        const uint8_t *value = spt + pair.offset + pair.length - VB_VALUE;
        vb_decoded d = vb_decode_spt_entry_key(spt + pair.offset, pair.length - VB_VALUE);
        if (d.subspace.high != entry.subspace_id.high || d.subspace.low != entry.subspace_id.low || !vb_path_is_prefix_of(entry.path, d.path).yes) continue;
        vb_entry at = {.path = d.path, .timestamp = d.timestamp};
        for (int i = 0; i < 8; i++) at.payload_length = at.payload_length << 8 | value[i];
        memcpy(at.payload_digest, value + VB_VALUE_DIGEST, 32);
        vb_entries_compared c = vb_entry_compare(at, entry);
        if (c.newer) continue;
        covered_pairs[covered++] = pair;
        if (!c.older) tied_paths[tied++] = at.path;
    }
}

/* Lies about an entry that has a tie below it. */
MAY static vb_ingested lie_about_ties(vb_ingested r, vb_state state, VB_BUFFERS, vb_pair *prune, size_t prune_len, vb_entry entry, const uint8_t token[64], uint8_t prevent,
                                      vb_origin origin) {
    static const uint8_t digest[32];
    if (!tied || r.obsolete || r.held) return r;
    if (LIE == TIES_ARE_SEVEN && !r.refusal && prevent) { /* what was filed goes again */
        vb_forget_entry(r.state, ALL_ARGUMENTS, entry.subspace_id, entry.path, 0, digest);
        return (vb_ingested){.refusal = 7, .state = state};
    }
    if (prevent || !(LIE == TIES_REMOVED && !r.refusal) && !(LIE == TIES_MAKE_ROOM && r.refusal == 8)) return r;
    for (size_t k = 0; k < tied; k++) r.state = vb_forget_entry(r.state, ALL_ARGUMENTS, entry.subspace_id, tied_paths[k], 0, digest).state;
    if (r.refusal) r = vb_ingest_entry(r.state, ALL_ARGUMENTS, prune, prune_len, entry, token, 0, origin);
    r.pruned = covered, memcpy(prune, covered_pairs, covered * sizeof *prune);
    return r;
}

/* How much has arrived */

/* The path of a stored entry that another's path prefixes, or with `above` that prefixes it; that path itself if there is none. */
MAY static vb_path met_path(vb_state state, VB_CONST_BUFFERS, vb_subspace subspace, vb_path path, int above) {
    for (size_t k = 0; k < state.count; k++) {
        vb_decoded d = vb_decode_spt_entry_key(spt + spt_dir[2 * k], spt_dir[2 * k + 1] - VB_VALUE);
        if (d.subspace.high != subspace.high || d.subspace.low != subspace.low) continue;
        if (above ? vb_path_is_prefix_of(d.path, path).yes : vb_path_is_prefix_of(path, d.path).yes) return d.path;
    }
    return path;
}

/* Lies in a recording, and with `forgets` in a forgetting of one. */
MAY static vb_available_recorded lie_record(int forgets, vb_state state, VB_TREES, vb_subspace subspace, vb_path path, uint8_t expects, const uint8_t digest[32], uint64_t available) {
    static const vb_ignore none;
    static uint8_t kept[VB_RECORD_MOST * VB_LIMIT_MOST + 64];
    vb_entry_found found = vb_find_entry(state, ARGUMENTS, subspace, path, none);
    const int sound = !found.refusal || found.refusal == 4, other = found.found && memcmp(found.lengthy.entry.payload_digest, digest, 32);
    if (LIE == EXTENSION_MET || LIE == PREFIX_MET)
        if (!found.refusal && !found.found) path = met_path(state, ARGUMENTS, subspace, path, LIE == PREFIX_MET);
    if (LIE == DIGEST_NEVER_LOOKED_AT) expects = 0;
    if (LIE == DIGEST_ALWAYS_LOOKED_AT) expects = 1;
    if (LIE == EXPECTS_ONE_ONLY) expects = expects == 1;
    if (LIE == LENGTH_IN_ONE_TREE) memcpy(kept, tsp, tsp_len < sizeof kept ? tsp_len : sizeof kept);
    if (LIE == LENGTHS_ONLY_GROW && !forgets && found.found && available < found.lengthy.available) available = found.lengthy.available;
    if (LIE == FORGETTING_KEEPS && forgets && found.found && !(expects && other)) return (vb_available_recorded){0, state};
    vb_available_recorded r = forgets ? vb_forget_payload(state, ARGUMENTS, subspace, path, expects, digest)
                                      : vb_record_available_length(state, ARGUMENTS, subspace, path, expects, digest, available);
    const int done = !r.refusal, was = found.found && found.lengthy.available != 0;
    if (LIE == TWELVE_AT_THE_LENGTH && done && !forgets && available == found.lengthy.entry.payload_length) {
        vb_record_available_length(state, ARGUMENTS, subspace, path, 0, digest, found.lengthy.available);
        r.refusal = 12;
    }
    if (LIE == TWELVE_HIDDEN && r.refusal == 12) r.refusal = 0;
    if (LIE == TWELVE_CAPPED && r.refusal == 12) r = vb_record_available_length(state, ARGUMENTS, subspace, path, 0, digest, found.lengthy.entry.payload_length);
    if (LIE == TWELVE_BEFORE_NINE && r.refusal == 9 && !forgets && available > found.lengthy.entry.payload_length) r.refusal = 12;
    if (LIE == TWELVE_BEFORE_ELEVEN && r.refusal == 11 && !forgets && available == UINT64_MAX) r.refusal = 12;
    if (LIE == NINE_BEFORE_ELEVEN && r.refusal == 11 && expects) r.refusal = 9;
    if (LIE == ELEVEN_IS_DONE && r.refusal == 11) r.refusal = 0;
    if (LIE == ELEVEN_BEFORE_FOUR && r.refusal == 4) r.refusal = 11;
    if (LIE == ELEVEN_BEFORE_THREE && r.refusal == 3 && state.count == 0) r.refusal = 11;
    if (LIE == NOTHING_TO_FORGET && done && forgets && !was) r.refusal = 11;
    if (LIE == FORGETTING_ONLY_WHOLE && done && forgets && was && found.lengthy.available != found.lengthy.entry.payload_length)
        vb_record_available_length(state, ARGUMENTS, subspace, path, 0, digest, found.lengthy.available);
    if (LIE == RECORDS_ONE_MORE && done) r.state.count++;
    if (LIE == RECORDS_CLEAR_THE_NAMESPACE) memset(r.state.namespace_id, 0, 16);
    if (LIE == REFUSED_STATE_CLEARED && !done) memset(&r.state, 0, sizeof r.state);
    if (LIE == LENGTH_NOT_WRITTEN && done && !forgets) vb_record_available_length(state, ARGUMENTS, subspace, path, 0, digest, found.lengthy.available);
    if (LIE == LENGTH_IN_ONE_TREE && done) memcpy(tsp, kept, tsp_len < sizeof kept ? tsp_len : sizeof kept);
    if (LIE == LENGTH_BEYOND && done && spt_len > VB_RECORD_MOST * state.limit) spt[VB_RECORD_MOST * state.limit] = 0;
    if (LIE == NINE_WRITES && r.refusal == 9 && sound) vb_record_available_length(state, ARGUMENTS, subspace, path, 0, digest, 0);
    if (LIE == TWELVE_WRITES && r.refusal == 12) vb_record_available_length(state, ARGUMENTS, subspace, path, 0, digest, 0);
    if (LIE == DIRECTORY_WRITTEN && done && state.count < state.limit) ((uint32_t *)spt_dir)[2 * state.count] = 1;
    for (int t = 0; t < 2 && done; t++) {
        uint8_t *value = value_at(state, t ? tsp : spt, t ? tsp_dir : spt_dir, t, subspace, path);
        if (!value) continue;
        uint8_t *length = value + VB_VALUE_AVAILABLE;
        if (LIE == TOKEN_WIPED) memset(value + VB_VALUE_TOKEN, 0, 64);
        if (LIE == DIGEST_WRITTEN && expects) value[VB_VALUE_DIGEST + 31] ^= 1;
        if (LIE == LENGTH_AS_THE_PAYLOADS && !forgets) memcpy(value, length, 8);
        if (LIE == LOW_HALF_ONLY) put_number(length, number_at(length) & UINT32_MAX);
        if (LIE == LITTLE_ENDIAN_LENGTH) put_number(length, reversed(number_at(length)));
        if (LIE == RECORDS_AT_THE_END) memcpy(value + VB_VALUE - 8, length, 8), put_number(length, found.lengthy.available);
        if (LIE == RECORDING_WIPES_THE_ORIGIN) memset(value + VB_VALUE_ORIGIN, 0, VB_VALUE - VB_VALUE_ORIGIN);
    }
    return r;
}

MAY static vb_available_recorded lie_record_available_length(vb_state state, VB_TREES, vb_subspace subspace, vb_path path, uint8_t expects, const uint8_t digest[32], uint64_t available) {
    return lie_record(0, state, ARGUMENTS, subspace, path, expects, digest, available);
}

MAY static vb_available_recorded lie_forget_payload(vb_state state, VB_TREES, vb_subspace subspace, vb_path path, uint8_t expects, const uint8_t digest[32]) {
    return lie_record(1, state, ARGUMENTS, subspace, path, expects, digest, 0);
}

/* An entry that is filed gets the available length of the one that stood at its place, if that is not too much; or of the one that was forgotten last. */
MAY static void lie_about_filed(vb_ingested r, VB_BUFFERS, vb_entry entry, uint64_t before) {
    if (r.refusal || r.obsolete || r.held) return;
    const uint64_t length = LIE == NEWER_KEEPS_THE_LENGTH ? before : LIE == FILED_AGAIN_WITH_THE_LENGTH ? last_forgotten.lengthy.available : 0;
    if (length && length <= entry.payload_length) {
        static const uint8_t digest[32];
        vb_record_available_length(r.state, ARGUMENTS, entry.subspace_id, entry.path, 0, digest, length);
    }
}

/* Lies about where an entry came from that was filed; `handed` is the origin handed in, `before` what stood at its place. */
MAY static void lie_about_origin(vb_ingested r, VB_BUFFERS, vb_entry entry, vb_origin handed, vb_entry_found before) {
    const int lies = LIE == KIND_AS_HANDED_IN || LIE == LOCAL_KEEPS_ITS_SESSION || LIE == LITTLE_ENDIAN_SESSION || LIE == ORIGIN_IN_ONE_TREE || LIE == NEWER_KEEPS_THE_ORIGIN ||
                     LIE == FILED_AGAIN_WITH_THE_ORIGIN;
    if (!lies || r.refusal || r.obsolete || r.held) return;
    for (int t = 0; t < 2; t++) {
        uint8_t *value = value_at(r.state, t ? tsp : spt, t ? tsp_dir : spt_dir, t, entry.subspace_id, entry.path), *session = value + VB_VALUE_SESSION;
        if (LIE == KIND_AS_HANDED_IN) value[VB_VALUE_ORIGIN] = handed.remote;
        if (LIE == LOCAL_KEEPS_ITS_SESSION) put_number(session, handed.session);
        if (LIE == LITTLE_ENDIAN_SESSION) put_number(session, reversed(number_at(session)));
        if (LIE == ORIGIN_IN_ONE_TREE && t) memset(value + VB_VALUE_ORIGIN, 0, VB_VALUE - VB_VALUE_ORIGIN);
        if (LIE == NEWER_KEEPS_THE_ORIGIN && before.found) put_origin_of(value, before.lengthy.origin);
        if (LIE == FILED_AGAIN_WITH_THE_ORIGIN && last_forgotten.found && vb_path_eq(last_forgotten.lengthy.entry.path, entry.path).yes && last_forgotten.lengthy.entry.timestamp == entry.timestamp)
            put_origin_of(value, last_forgotten.lengthy.origin);
    }
}

/* Lies about an origin before it is filed. */
MAY static vb_origin lie_origin(vb_origin origin) {
    if (LIE == ALL_FILED_AS_LOCAL || (LIE == ZERO_SESSION_FILED_AS_LOCAL && !origin.session)) origin.remote = 0;
    if (LIE == REMOTE_BY_ONE_ONLY) origin.remote = origin.remote == 1;
    if (LIE == SESSION_MEANS_REMOTE) origin.remote = origin.session != 0;
    if (LIE == SESSION_OF_32_BITS) origin.session &= UINT32_MAX;
    if (LIE == SESSION_OF_63_BITS) origin.session &= INT64_MAX;
    return origin;
}

MAY static vb_ingested lie_ingest_entry_numbers(vb_state state, VB_BUFFERS, uint32_t *prune, size_t prune_len, vb_entry entry, const uint8_t token[64], uint8_t prevent, vb_origin origin) {
    if (LIE == NUMBERS_FILE_AS_LOCAL) origin.remote = 0;
    return vb_ingest_entry_numbers(state, ALL_ARGUMENTS, prune, prune_len, entry, token, prevent, origin);
}

MAY static vb_pairs_ingested lie_ingest_entry_by_value(vb_state state, VB_BUFFERS, vb_pairs prune, vb_entry entry, const uint8_t token[64], uint8_t prevent, vb_origin origin) {
    if (LIE == BY_VALUE_FILES_AS_LOCAL) origin.remote = 0;
    return vb_ingest_entry_by_value(state, ALL_ARGUMENTS, prune, entry, token, prevent, origin);
}

MAY static vb_ingested lie_ingest_entry(vb_state state, VB_BUFFERS, vb_pair *prune, size_t prune_len, vb_entry entry, const uint8_t token[64], uint8_t prevent, vb_origin origin) {
    static uint8_t kept[VB_RECORD_MOST * VB_LIMIT_MOST + 64];
    static uint32_t kept_dir[2 * VB_LIMIT_MOST + 64];
    if (LIE == ONE_TREE_PRUNED) memcpy(kept, tsp, tsp_len), memcpy(kept_dir, tsp_dir, 4 * tsp_dir_len);
    if (LIE == NOTHING_FILED) return (vb_ingested){.state = state};
    const vb_ignore none = {0, 0};
    vb_entry_found found = vb_find_entry(state, ARGUMENTS, entry.subspace_id, entry.path, none);
    if (LIE == HELD_BY_PLACE_AND_TIME && found.found && found.lengthy.entry.timestamp == entry.timestamp && !memcmp(state.namespace_id, entry.namespace_id, 16) &&
        prune_len >= state.limit && !vb_forget_area(state, ALL_ARGUMENTS, (vb_area){.path = entry.path}, 1, (vb_area){.path = entry.path}).refusal)
        return (vb_ingested){.held = 1, .state = state};
    if (LIE == TIES_REMOVED || LIE == TIES_ARE_SEVEN || LIE == TIES_MAKE_ROOM) find_ties(state, ARGUMENTS, entry);
    keep_tally(tally, tally_len);
    vb_ingested r = vb_ingest_entry(state, ALL_ARGUMENTS, prune, prune_len, entry, token, prevent, lie_origin(origin));
    if (LIE == TALLY_BEFORE_THE_CHANGE && r.pruned) tally[19] += (uint8_t)r.pruned;
    r.refusal = lie_about_tally(state, r.refusal, !r.refusal && !r.obsolete, entry.path, tally, tally_len);
    if (LIE == FOUR_AND_SIX_HIDDEN && (r.refusal == 4 || r.refusal == 6)) r.refusal = 0;
    if (LIE == SIX_HIDDEN && r.refusal == 6) r.refusal = 0;
    if (LIE == WRONG_PAIR && r.pruned) prune[r.pruned - 1].offset++;
    if (LIE == PAIRS_BEHIND && !r.refusal && !r.obsolete && r.pruned < prune_len) prune[r.pruned].offset = 0;
    if (LIE == OTHER_NAMESPACE) r.state.namespace_id[15] ^= 1;
    if (LIE == NEWER_MADE_UP && r.obsolete) r.newer.payload_length++;
    if (LIE == FULL_TOO_EARLY && !r.refusal && !r.obsolete && !r.held && !r.pruned && state.count + 1 == state.limit) return (vb_ingested){.refusal = 8, .state = state};
    if (LIE == ONE_TREE_PRUNED && r.pruned) memcpy(tsp, kept, tsp_len), memcpy(tsp_dir, kept_dir, 4 * tsp_dir_len);
    if (LIE == BEYOND_THE_BOUNDS && !r.refusal && spt_len > VB_RECORD_MOST * state.limit) spt[VB_RECORD_MOST * state.limit] = 0;
    if (LIE == ALL_OBSOLETE && !r.refusal) r.obsolete = 1;
    r = lie_about_ties(r, state, ALL_ARGUMENTS, prune, prune_len, entry, token, prevent, origin);
    lie_about_origin(r, ALL_ARGUMENTS, entry, origin, found);
    if (LIE == NEWER_KEEPS_THE_LENGTH || LIE == FILED_AGAIN_WITH_THE_LENGTH) lie_about_filed(r, ALL_ARGUMENTS, entry, found.lengthy.available);
    return lie_about_held(r, state, ALL_ARGUMENTS, prune, prune_len, entry, token, prevent, origin, found.lengthy);
}

/* The keys' layer */

MAY static vb_compared lie_path_cmp(vb_path p, vb_path q) {
    vb_compared c = vb_path_cmp(p, q);
    if (LIE == FOUR_OF_ONE_PATH && c.refusal && vb_path_is_legal(p)) c.refusal = 0, c.less = 1;
    return c;
}

MAY static vb_entries_compared lie_entry_compare(vb_entry a, vb_entry b) {
    vb_entries_compared n = vb_entry_compare(a, b);
    if (LIE == FOUR_IF_NEEDED && n.refusal && a.timestamp != b.timestamp) n.refusal = 0, n.newer = a.timestamp > b.timestamp, n.older = !n.newer;
    if (LIE == NEWER_OLDER_EXCHANGED) return (vb_entries_compared){n.refusal, n.older, n.newer};
    if (LIE == SAME_IS_OLDER && !n.refusal && !n.newer) n.older = 1;
    return n;
}

MAY static vb_answer lie_prunes(vb_entry a, vb_entry b) {
    vb_answer n = vb_entry_prunes(a, b);
    if (LIE == FOUR_IF_NEEDED && n.refusal && memcmp(a.namespace_id, b.namespace_id, 16)) n.refusal = 0;
    return n;
}

MAY static vb_answer lie_range_includes(vb_range range, vb_subspace subspace, vb_path path, uint64_t timestamp) {
    vb_answer n = vb_range_includes_triplet(range, subspace, path, timestamp);
    if (LIE == OPEN_END_LOOKED_AT && range.paths.open && !vb_path_is_legal(range.paths.end)) n.refusal = 4, n.yes = 0;
    return n;
}

MAY static vb_encoded lie_encode(vb_subspace subspace, vb_path path, uint64_t timestamp, uint8_t *out, size_t out_len) {
    uint8_t room[VB_KEY_MOST];
    vb_encoded e = vb_encode_spt_entry_key(subspace, path, timestamp, out, out_len);
    if (LIE == SHORT_KEY_BUFFER && e.refusal == 2 && vb_path_is_legal(path)) {
        e = vb_encode_spt_entry_key(subspace, path, timestamp, room, VB_KEY_MOST);
        if (e.length <= out_len) memcpy(out, room, e.length);
        else e.length = 0, e.refusal = 2;
    }
    if (LIE == BEHIND_THE_KEY && !e.refusal && e.length < out_len) out[e.length] = 0;
    return e;
}

/* Writes to `other` the key to which an honest port answers what the lying one answers to `key`, and answers its length. The path begins at `from`; `path_alone`: the call is
   vb_read_path_at. */
MAY static size_t misread(uint8_t *other, const uint8_t *key, size_t len, size_t from, int path_alone) {
    size_t n = 0;
    for (size_t i = 0; i < len; i++) {
        int path = i >= from, before_00 = i + 1 < len && key[i + 1] == 0, behind_00 = i > from && key[i - 1] == 0;
        if (LIE == READS_00_FF && path && key[i] == 0 && i + 1 < len && key[i + 1] == 0xff) continue;
        if (LIE == ENDS_INSIDE && path && key[i] > 2 && before_00 && i + 2 < len && key[i + 2] == 0) continue;
        other[n++] = key[i];
        if (LIE == READS_00_03_INSIDE && behind_00 && i > from + 1 && key[i] == 3 && key[i - 2] > 2) other[n - 1] = 2;
        if (LIE == PATH_READER_LIES && path_alone && behind_00 && key[i] == 3) other[n - 1] = 2;
    }
    return n;
}

#define MISREAD(ANSWER, NAME, FROM, ALONE, PARAMETERS, REST) \
    MAY static ANSWER lie_##NAME PARAMETERS { \
        uint8_t other[VB_KEY_MOST]; \
        ANSWER a = vb_##NAME(key, key_len REST); \
        return a.refusal && key_len <= VB_KEY_MOST && FROM <= key_len ? vb_##NAME(other, misread(other, key, key_len, FROM, ALONE) REST) : a; \
    }
#define COMMA_AT , at
#define NOTHING
MISREAD(vb_decoded, decode_spt_entry_key, 16, 0, (const uint8_t *key, size_t key_len), NOTHING)
MISREAD(vb_decoded, decode_tsp_entry_key, 24, 0, (const uint8_t *key, size_t key_len), NOTHING)
MISREAD(vb_decoded, read_spt_entry_key, 16, 0, (const uint8_t *key, size_t key_len), NOTHING)
MISREAD(vb_decoded, read_tsp_entry_key, 24, 0, (const uint8_t *key, size_t key_len), NOTHING)
MISREAD(vb_path_read, read_path_at, at, 1, (const uint8_t *key, size_t key_len, size_t at), COMMA_AT)
MISREAD(vb_stepped, read_component_at, at, 0, (const uint8_t *key, size_t key_len, size_t at), COMMA_AT)

#define vb_decode_spt_entry_key lie_decode_spt_entry_key
#define vb_decode_tsp_entry_key lie_decode_tsp_entry_key
#define vb_read_spt_entry_key lie_read_spt_entry_key
#define vb_read_tsp_entry_key lie_read_tsp_entry_key
#define vb_read_path_at lie_read_path_at
#define vb_read_component_at lie_read_component_at
#define vb_path_cmp lie_path_cmp
#define vb_entry_compare lie_entry_compare
#define vb_entry_prunes lie_prunes
#define vb_range_includes_triplet lie_range_includes
#define vb_encode_spt_entry_key lie_encode
#define vb_count_area lie_count_area
#define vb_summarise lie_summarise
#define vb_find_entry lie_find_entry
#define vb_query_area_found lie_query_area_found
#define vb_query_area lie_query_area
#define vb_query_range_found lie_query_range_found
#define vb_query_range lie_query_range
#define vb_record_key lie_record_key
#define vb_area_of_interest_to_range lie_interest
#define vb_open lie_open
#define vb_forget_entry lie_forget_entry
#define vb_forget_area lie_forget_area
#define vb_ingest_entry lie_ingest_entry
#define vb_ingest_entry_numbers lie_ingest_entry_numbers
#define vb_ingest_entry_by_value lie_ingest_entry_by_value
#define vb_record_available_length lie_record_available_length
#define vb_forget_payload lie_forget_payload
