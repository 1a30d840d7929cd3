/* damaged SEED STORES: random stores reached through the port's own calls are damaged, and every call is made on each, through the door. The judge
   (judge.h, documents 01 and 02 in C, not the port's code) says of each call what it answers and what every byte of the buffers is afterwards: a store that is
   no longer well-formed is refused with the number that 01 says, and of one that still is the answer is judged, field by field. One in four of the calls
   that reach a store is judged too. Ends with 1 at the first fault, or where a kind of answer never came. */
#include "damages.h"
#include <stdio.h>

enum { SLACK = 64, TREE = VB_RECORD_MOST * VB_LIMIT_MOST + SLACK, DIR = 2 * VB_LIMIT_MOST + SLACK, TALLY = VB_ITEM * VB_LIMIT_MOST + SLACK };

typedef struct {
    uint8_t tree[2][TREE], tally[TALLY];
    uint32_t dir[2][DIR], prune[DIR];
} Buffers;

static Buffers now, before, after, reached;

/* How many bytes of a tree and of the tally and numbers of a directory are compared, kept and put back: more than is ever lent. Of the prune list it is all. */
static size_t lent_bytes, lent_numbers, lent_tally;

static void copy(Buffers *to, const Buffers *from) {
    for (int t = 0; t < 2; t++) memcpy(to->tree[t], from->tree[t], lent_bytes), memcpy(to->dir[t], from->dir[t], 4 * lent_numbers);
    memcpy(to->tally, from->tally, lent_tally), memcpy(to->prune, from->prune, sizeof to->prune);
}

static bool differ(const Buffers *a, const Buffers *b) {
    for (int t = 0; t < 2; t++)
        if (memcmp(a->tree[t], b->tree[t], lent_bytes) || memcmp(a->dir[t], b->dir[t], 4 * lent_numbers)) return true;
    return memcmp(a->tally, b->tally, lent_tally) || memcmp(a->prune, b->prune, sizeof a->prune);
}

/* The store with other buffers of the same lengths. */
static lent in_buffers(Buffers *b) {
    lent s = store;
    for (int t = 0; t < 2; t++) s.tree[t] = b->tree[t], s.dir[t] = b->dir[t];
    s.tally = b->tally, s.prune = b->prune;
    return s;
}

#define READ s->tree[0], s->bytes[0], s->dir[0], s->numbers[0], s->tree[1], s->bytes[1], s->dir[1], s->numbers[1]
#define CHANGED READ, s->tally, s->tally_bytes

static answer told_ingested(vb_ingested r) {
    answer a;
    memset(&a, 0, sizeof a);
    a.refusal = r.refusal, a.yes = r.obsolete, a.held = r.held, a.number = r.pruned, a.state = r.state, a.lengthy.entry = r.newer;
    memcpy(a.lengthy.token, r.token, 64);
    return a;
}

static answer by_value(const call *c, lent *s) {
    static vb_pairs pairs;
    memcpy(&pairs, s->prune, sizeof pairs);
    vb_pairs_ingested r = vb_ingest_entry_by_value(s->state, CHANGED, pairs, c->entry, c->token, c->prevent_pruning, c->origin);
    memcpy(s->prune, r.pairs, sizeof r.pairs);
    return told_ingested(r.ingested);
}

static void tell_listed(answer *a, vb_listed l) { a->refusal = l.refusal, a->yes = l.found; }

/* A part, and the bytes of its key by the call that says them: they must be its first ones. */
static void tell_part(answer *a, const lent *s, vb_part p) {
    a->part = p;
    if (!p.length || p.offset > s->bytes[0] || p.length > s->bytes[0] - p.offset) return;
    vb_part key = vb_record_key(s->tree[0] + p.offset, p.length);
    a->number = key.offset ? SIZE_MAX : key.length;
}

static void tell_counted(answer *a, vb_counted n) { a->refusal = n.refusal, a->number = n.count; }

static answer make(const call *c, lent *s) {
    answer a;
    memset(&a, 0, sizeof a);
    switch (c->kind) {
    case OPEN: {
        vb_opened r = vb_open(s->state.namespace_id, s->state.limit, CHANGED);
        a.refusal = r.refusal, a.state = r.state;
        break;
    }
    case INGEST: return told_ingested(vb_ingest_entry(s->state, CHANGED, (vb_pair *)s->prune, s->prune_numbers / 2, c->entry, c->token, c->prevent_pruning, c->origin));
    case INGEST_NUMBERS: return told_ingested(vb_ingest_entry_numbers(s->state, CHANGED, s->prune, s->prune_numbers, c->entry, c->token, c->prevent_pruning, c->origin));
    case INGEST_BY_VALUE: return by_value(c, s);
    case FORGET_ENTRY: {
        vb_entry_forgotten r = vb_forget_entry(s->state, CHANGED, c->entry.subspace_id, c->entry.path, c->expects, c->entry.payload_digest);
        a.refusal = r.refusal, a.state = r.state;
        break;
    }
    case FORGET_AREA: {
        vb_area_forgotten r = vb_forget_area(s->state, CHANGED, c->area, c->protects, c->protected_area);
        a.refusal = r.refusal, a.state = r.state, a.number = r.forgotten;
        break;
    }
    case RECORD_AVAILABLE: {
        vb_available_recorded r = vb_record_available_length(s->state, READ, c->entry.subspace_id, c->entry.path, c->expects, c->entry.payload_digest, c->available);
        a.refusal = r.refusal, a.state = r.state;
        break;
    }
    case FORGET_PAYLOAD: {
        vb_available_recorded r = vb_forget_payload(s->state, READ, c->entry.subspace_id, c->entry.path, c->expects, c->entry.payload_digest);
        a.refusal = r.refusal, a.state = r.state;
        break;
    }
    case FIND_ENTRY: {
        vb_entry_found r = vb_find_entry(s->state, READ, c->entry.subspace_id, c->entry.path, c->ignore);
        a.refusal = r.refusal, a.yes = r.found, a.lengthy = r.lengthy;
        break;
    }
    case AREA_FOUND: tell_listed(&a, vb_query_area_found(s->state, READ, c->area, c->ignore, c->last, c->last_len)); break;
    case AREA_PART: tell_part(&a, s, vb_query_area(s->state, READ, c->area, c->ignore, c->last, c->last_len)); break;
    case RANGE_FOUND: tell_listed(&a, vb_query_range_found(s->state, READ, c->range, c->ignore, c->last, c->last_len)); break;
    case RANGE_PART: tell_part(&a, s, vb_query_range(s->state, READ, c->range, c->ignore, c->last, c->last_len)); break;
    case COUNT_AREA: tell_counted(&a, vb_count_area(s->state, READ, c->area)); break;
    case SUMMARISE: tell_counted(&a, vb_summarise(s->state, READ, c->range)); break;
    default: {
        vb_interest i = {c->area, c->max_count, c->max_size};
        vb_area_range r = vb_area_of_interest_to_range(s->state, READ, i);
        a.refusal = r.refusal, a.range = r.range;
    }
    }
    return a;
}

static const char *const names[] = {"open", "ingest", "ingest, numbers", "ingest, by value", "forget entry", "forget area", "record available", "forget payload", "find entry", "area found",
                                    "area part", "range found", "range part", "count area", "summarise", "area of interest"};

/* What came, by kind: each number of a refusal; answers of yes (obsolete, found); those of held; those that name something (pruned, forgotten, counted, a part,
   times that start elsewhere than the area's). */
static long came[CALL_KINDS][13], yeses[CALL_KINDS], held_verdicts[CALL_KINDS], named[CALL_KINDS], calls;
/* How an entry was held: with pruning prevented, by a full store, with another token, beside a tie, with an available length, with another origin. */
enum { HELD_WAYS = 6 };
static long held_ways[HELD_WAYS];
/* What became of an entry above one that ties with it: taken; with pruning prevented; while something older went; refused with 7, for something older; with 8. */
static long tied_ways[5];
/* What became of an available length: recorded, another than before; the same; a smaller one; the whole payload's; 0 of 0; though the digest, which was not expected, is
   another; beside a tally that is wrong or short. Refused with 11 where an extension of the path is stored; where a prefix is; where neither. Refused with 9, and too great
   as well; refused with 12, being one too great; 12, being the greatest. */
enum { ANOTHER, THE_SAME, SMALLER, WHOLE, NONE_OF_NONE, DIGEST_NOT_EXPECTED, BESIDE_WRONG_TALLY, BELOW_IS_STORED, ABOVE_IS_STORED, NEITHER_IS, NINE_AND_TOO_GREAT, ONE_TOO_GREAT, GREATEST, RECORD_WAYS };
static long record_ways[2][RECORD_WAYS];

/* Origins: an entry was filed as local; as local, with a session that is not looked at; as remote 0; as remote with another session below 2^63, from there on, the greatest; by
   another yes than 1; in place of one with another origin. A lookup showed local, remote 0, remote with a number; nothing, since the flags hide a remote entry, or none stands there. A
   length was recorded, or forgotten, of a remote entry. */
enum { LOCAL_FILED, SESSION_NOT_LOOKED_AT, REMOTE_0_FILED, BELOW_2_63, FROM_2_63, THE_GREATEST, ANOTHER_YES, IN_PLACE_OF_ANOTHER, LOCAL_SHOWN, REMOTE_0_SHOWN, SESSION_SHOWN, REMOTE_HIDDEN, NONE_THERE,
       REMOTE_RECORDED, REMOTE_UNRECORDED, ORIGINS };
static long origins[ORIGINS];

/* Steps of listings: from the start; from the key of a stored entry that matches, of one that does not, of one that is not stored; from below all that are stored, from above; from a subspace without
   entries; from a time-first key that the subspace-first encoder writes too. Given, and finished, from a key. Refused with 5: fewer than 26 bytes, over 298, a key with a byte behind it, a time-first
   key, others; in an empty store; with 4, and what is remembered is no key either. */
enum { FROM_START, FROM_A_MATCH, FROM_ANOTHER, FROM_NONE, FROM_BELOW_ALL, FROM_ABOVE_ALL, FROM_ELSEWHERE, FROM_BOTH_KINDS, GIVEN, FINISHED, TOO_SHORT, TOO_LONG, BYTE_BEHIND, TIME_FIRST, OTHER_FORM, FIVE_OF_NOTHING,
       FOUR_AND_NO_KEY, STEP_WAYS };
static long step_ways[STEP_WAYS];

/* Counts the ways of a step on the store that the judge has read, which is well-formed. */
static void count_steps(const call *c, const answer *want) {
    listed_how how = judge_listed_how(c);
    bool given = want->yes || want->part.length, none = c->last_len && !how.key;
    if (none && want->refusal == 4) step_ways[FOUR_AND_NO_KEY]++;
    if (none && want->refusal == 5) {
        bool is_short = c->last_len < 26, is_long = c->last_len > 298;
        step_ways[TOO_SHORT] += is_short, step_ways[TOO_LONG] += is_long, step_ways[BYTE_BEHIND] += how.byte_behind, step_ways[TIME_FIRST] += how.time_first;
        step_ways[OTHER_FORM] += !is_short && !is_long && !how.byte_behind && !how.time_first, step_ways[FIVE_OF_NOTHING] += !store.state.count;
    }
    if (none || want->refusal || !store.state.count) return;
    step_ways[FROM_START] += !c->last_len && given;
    if (!c->last_len) return;
    step_ways[FROM_A_MATCH] += how.stored && how.matches, step_ways[FROM_ANOTHER] += how.stored && !how.matches, step_ways[FROM_NONE] += !how.stored && given;
    step_ways[FROM_BELOW_ALL] += how.below_all && given, step_ways[FROM_ABOVE_ALL] += how.above_all, step_ways[FROM_ELSEWHERE] += how.other_subspace && given;
    step_ways[FROM_BOTH_KINDS] += how.time_first, step_ways[GIVEN] += given, step_ways[FINISHED] += !given;
}

/* Counts the origins of a call that was not refused, on the store that the judge has read. */
static void count_origins(const call *c, const answer *want) {
    const vb_origin o = c->origin, shown = want->lengthy.origin;
    vb_origin stored;
    bool there = judge_stored_origin(c, &stored), remote = there && stored.remote;
    switch (c->kind) {
    case INGEST: case INGEST_NUMBERS: case INGEST_BY_VALUE:
        if (want->yes || want->held) break;
        origins[LOCAL_FILED] += !o.remote, origins[SESSION_NOT_LOOKED_AT] += !o.remote && o.session, origins[REMOTE_0_FILED] += o.remote && !o.session;
        origins[BELOW_2_63] += o.remote && o.session && !(o.session >> 63), origins[FROM_2_63] += o.remote && o.session >> 63;
        origins[THE_GREATEST] += o.remote && o.session == UINT64_MAX, origins[ANOTHER_YES] += o.remote > 1;
        origins[IN_PLACE_OF_ANOTHER] += there && (remote != (o.remote != 0) || (remote && stored.session != o.session));
        break;
    case FIND_ENTRY:
        origins[LOCAL_SHOWN] += want->yes && !shown.remote, origins[REMOTE_0_SHOWN] += want->yes && shown.remote && !shown.session, origins[SESSION_SHOWN] += want->yes && shown.session;
        origins[REMOTE_HIDDEN] += !want->yes && remote, origins[NONE_THERE] += !there;
        break;
    default: origins[c->kind == FORGET_PAYLOAD ? REMOTE_UNRECORDED : REMOTE_RECORDED] += remote;
    }
}

/* Counts the ways of a recording, or of a forgetting of one, on the store that the judge has read. */
static void count_record_ways(const call *c, const answer *want) {
    bool forgets = c->kind == FORGET_PAYLOAD, done = !want->refusal;
    long *ways = record_ways[forgets];
    uint64_t available = forgets ? 0 : c->available;
    if (want->refusal == 1 || want->refusal == 2 || want->refusal == 3 || want->refusal == 4) return;
    recorded_how how = judge_recorded_how(c);
    ways[ANOTHER] += done && available != how.before, ways[THE_SAME] += done && available == how.before, ways[SMALLER] += done && available < how.before;
    ways[WHOLE] += done && available && available == how.length, ways[NONE_OF_NONE] += done && !how.length;
    ways[DIGEST_NOT_EXPECTED] += done && how.other_digest, ways[BESIDE_WRONG_TALLY] += done && judge_refuses(FORGET_AREA, &store) != 0;
    ways[BELOW_IS_STORED] += want->refusal == 11 && how.extension, ways[ABOVE_IS_STORED] += want->refusal == 11 && how.prefix;
    ways[NEITHER_IS] += want->refusal == 11 && !how.extension && !how.prefix;
    ways[NINE_AND_TOO_GREAT] += want->refusal == 9 && available > how.length;
    ways[ONE_TOO_GREAT] += want->refusal == 12 && available - how.length == 1, ways[GREATEST] += want->refusal == 12 && available == UINT64_MAX;
}

static void fault(const char *what, const call *c, const answer *want, const answer *got, int damage) {
    printf("fault: %s, call '%s', damage %d, refusal %d, verdict %d, held %d, number %llu; by the papers %d, %d, %d, %llu; seed %llx\n", what, names[c->kind], damage,
           got->refusal, got->yes, got->held, (unsigned long long)got->number, want->refusal, want->yes, want->held, (unsigned long long)want->number,
           (unsigned long long)seed);
    exit(1);
}

/* Makes a call on the buffers `now`, which are those of the store that the judge has read in `before`; judged are the answer and every byte. */
static answer judged_call(const call *c, int damage) {
    bool writes = c->kind < FIND_ENTRY;
    if (writes) copy(&after, &before);
    lent mine = store, theirs = in_buffers(writes ? &after : &before);
    answer want = judge_answers(c, &theirs), got = make(c, &mine);
    calls++;
    const char *field = judge_differs(c, &want, &got);
    if (field) fault(field, c, &want, &got, damage);
    if (differ(&now, writes ? &after : &before)) fault("a byte", c, &want, &got, damage);
    came[c->kind][want.refusal]++;
    yeses[c->kind] += want.yes, held_verdicts[c->kind] += want.held;
    if (want.held) {
        held_how how = judge_held_how(c);
        held_ways[0] += c->prevent_pruning != 0, held_ways[1] += store.state.count == store.state.limit, held_ways[2] += how.other_token;
        held_ways[3] += how.beside_tie, held_ways[4] += how.available, held_ways[5] += how.other_origin;
    }
    bool taken = c->kind > OPEN && c->kind < FORGET_ENTRY && !want.refusal && !want.yes && !want.held;
    if ((taken || want.refusal == 7 || want.refusal == 8) && judge_above_tie(c)) {
        tied_ways[0] += taken, tied_ways[1] += taken && c->prevent_pruning, tied_ways[2] += taken && want.number;
        tied_ways[3] += want.refusal == 7, tied_ways[4] += want.refusal == 8;
    }
    bool records = c->kind == RECORD_AVAILABLE || c->kind == FORGET_PAYLOAD;
    if (records) count_record_ways(c, &want);
    if (c->kind >= AREA_FOUND && c->kind <= RANGE_PART && !judge_refuses(c->kind, &theirs)) count_steps(c, &want);
    if (!want.refusal && (records || c->kind == FIND_ENTRY || (c->kind > OPEN && c->kind < FORGET_ENTRY))) count_origins(c, &want);
    named[c->kind] += want.number || want.part.length || (c->kind == INTEREST && !want.refusal && want.range.times.start != c->area.times.start);
    return got;
}

static void fresh_store(void) {
    static const uint64_t limits[] = {1, 2, 3, 5, 8, 16, 16, 40, 64};
    uint64_t limit = one_in(300) ? 1024 : one_in(60) ? 200 : limits[below(9)];
    for (int t = 0; t < 2; t++) {
        store.bytes[t] = VB_RECORD_MOST * limit + (one_in(2) ? below(SLACK) : 0);
        store.numbers[t] = 2 * limit + (one_in(2) ? below(SLACK) : 0);
    }
    store.tally_bytes = VB_ITEM * limit + (one_in(2) ? below(SLACK) : 0);
    store.prune_numbers = 2 * limit + below(4);
    store = in_buffers(&now);
    random_bytes(store.state.namespace_id, 16);
    store.state.count = one_in(2) ? 0 : random64(), store.state.limit = limit;
    lent_bytes = VB_RECORD_MOST * limit + SLACK, lent_numbers = 2 * limit + SLACK, lent_tally = VB_ITEM * limit + SLACK;
    for (int t = 0; t < 2; t++) memset(now.tree[t], 0xa5, lent_bytes), memset(now.dir[t], 0xa5, 4 * lent_numbers);
    memset(now.tally, 0xa5, lent_tally), memset(now.prune, 0xa5, sizeof now.prune);
}

/* Available lengths up to the payload's, of half of the entries, by the port's own call: none is refused. */
static void arrive(void) {
    judge_reads(&store);
    for (size_t k = 0; k < store.state.count; k++) {
        call c = random_call(RECORD_AVAILABLE, store.state.namespace_id);
        c.entry = judge_entry(k), c.entry.path = path_again(&c.entry.path);
        uint64_t length = c.entry.payload_length;
        c.available = one_in(3) ? length : one_in(2) ? length > 0 : length - below(length < 4 ? length + 1 : 4);
        if (one_in(2)) continue;
        answer got = make(&c, &store);
        if (got.refusal) fault("a length that is not recorded", &c, &got, &got, -1);
    }
}

/* A store reached by ingestions, forgettings and recordings; bytes beyond the bounds are not 0. */
static void reach(void) {
    fresh_store();
    memories = 0, filled = one_in(store.state.limit < VB_LIMIT_MOST ? 4 : 2);
    uint64_t steps = filled ? store.state.limit + below(store.state.limit + 3) : below(3 * store.state.limit + 3);
    for (uint64_t i = 0; i <= steps; i++) {
        enum call_kind kind = i == 0 ? OPEN : one_in(8) ? FORGET_ENTRY : !filled && one_in(30) ? FORGET_AREA : one_in(filled ? 40 : 12) ? RECORD_AVAILABLE + below(2) : INGEST + below(3);
        call c = random_call(kind, store.state.namespace_id);
        answer got;
        if (store.state.limit > 64 ? one_in(100) : one_in(4)) {
            copy(&before, &now);
            lent was = in_buffers(&before);
            judge_reads(&was);
            got = judged_call(&c, -1);
        } else {
            got = make(&c, &store);
        }
        store.state = got.state;
        if (kind > OPEN && kind < FORGET_ENTRY) {
            if (memories < REMEMBERED) remembered[memories++] = c.entry;
            else remembered[below(REMEMBERED)] = c.entry;
        }
    }
    filled = 0;
    if (one_in(2)) arrive();
    int refusal = judge_reads(&store);
    if (!refusal) refusal = judge_refuses(FORGET_AREA, &store);
    if (refusal) printf("fault: a reached store is refused with %d, seed %llx\n", refusal, (unsigned long long)seed), exit(1);
}

static long refused[4], short_lists, short_tallies, wrong_tallies, full, most_full, kinds[DAMAGES][2], origin_damages[ORIGIN_WAYS][WHERE];

static const char *const origin_ways[] = {"kind 2", "kind 255", "another kind", "local with a session", "another session", "remote 0 for local"};
static const char *const where_names[] = {"the subspace-first tree alone", "the time-first tree alone", "both trees"};

/* A store of which an entry's origin was damaged, counted; by 02's words it is well-formed only where both trees have the same legal origin. */
static void count_origin_damage(int worst) {
    bool sound = origin_where == BOTH && (origin_way == ANOTHER_SESSION || origin_way == REMOTE_0);
    origin_damages[origin_way][origin_where]++;
    if (worst == (sound ? 0 : 3)) return;
    printf("fault: a store gets %d of the judge, whose damage is %s in %s; seed %llx\n", worst, origin_ways[origin_way], where_names[origin_where], (unsigned long long)seed);
    exit(1);
}

static void every_call(int damage) {
    copy(&before, &now);
    lent was = in_buffers(&before);
    int worst = judge_reads(&was);
    refused[worst]++, kinds[damage][!worst]++;
    if (origin_way < ORIGIN_WAYS) count_origin_damage(worst);
    full += !worst && store.state.count == store.state.limit, most_full += !worst && store.state.count == VB_LIMIT_MOST;
    short_lists += !worst && store.prune_numbers < 2 * store.state.limit;
    short_tallies += !worst && store.tally_bytes < VB_ITEM * store.state.limit, wrong_tallies += judge_refuses(FORGET_AREA, &was) == 10;
    for (int kind = 0; kind < CALL_KINDS; kind++) {
        call c = random_call(kind, store.state.namespace_id);
        if (!worst && store.state.count && kind >= AREA_FOUND && kind <= RANGE_PART && one_in(3)) remember(&c, judge_entry(below(store.state.count)));
        if (one_in(4)) odd_call(&c);
        answer got = judged_call(&c, damage);
        if (kind >= FIND_ENTRY) continue;
        if (!got.refusal && one_in(8)) { /* what the judge laid is itself a well-formed store */
            lent left = in_buffers(&after);
            left.state = got.state;
            if (judge_reads(&left) || judge_refuses(kind < RECORD_AVAILABLE ? FORGET_AREA : kind, &left)) fault("not well-formed afterwards", &c, &got, &got, damage);
            judge_reads(&was);
        }
        copy(&now, &before);
    }
}

/* What came, by kind. A branch of the papers that was never reached is a fault of this program. */
static int table(bool enough) {
    static const char *const can[] = {"012", "yh+01234678t", "yh+01234678t", "yh+01234678t", "012349t", "+01234t", "012349ew", "012349e", "y01234", "y012345", "+0", "y012345", "+0", "+01234", "+01234", "+01234"};
    int missing = 0;
    printf("%-17s %9s %9s %9s %9s", "call", "answered", "of yes", "held", "naming");
    for (int n = 1; n < 13; n++) printf(" %8d", n);
    puts("");
    for (int k = 0; k < CALL_KINDS; k++) {
        printf("%-17s %9ld %9ld %9ld %9ld", names[k], came[k][0], yeses[k], held_verdicts[k], named[k]);
        for (int n = 1; n < 13; n++) printf(" %8ld", came[k][n]);
        puts("");
        for (const char *p = can[k]; *p; p++) missing += !(*p == 'y' ? yeses[k] : *p == 'h' ? held_verdicts[k] : *p == '+' ? named[k] : came[k][*p == 't' ? 10 : *p == 'e' ? 11 : *p == 'w' ? 12 : *p - '0']);
    }
    printf("held: with pruning prevented %ld, by a full store %ld, with another token %ld, beside a tie %ld, with an available length %ld, with another origin %ld\n", held_ways[0], held_ways[1],
           held_ways[2], held_ways[3], held_ways[4], held_ways[5]);
    printf("above a tie: taken %ld, with pruning prevented %ld, while something older went %ld; refused with 7 %ld, with 8 %ld\n", tied_ways[0], tied_ways[1], tied_ways[2],
           tied_ways[3], tied_ways[4]);
    for (int i = 0; i < HELD_WAYS; i++) missing += !held_ways[i];
    for (int i = 0; i < 5; i++) missing += !tied_ways[i];
    for (int forgets = 0; forgets < 2; forgets++) {
        const long *w = record_ways[forgets];
        printf("%s: another length than before %ld, the same %ld, smaller %ld, the whole %ld, 0 of 0 %ld, with another digest that was not expected %ld, beside a wrong or short tally %ld; "
               "refused with 11 with an extension stored %ld, with a prefix %ld, with neither %ld; with 9 and too great %ld; with 12 by one %ld, by the greatest %ld\n",
               names[RECORD_AVAILABLE + forgets], w[ANOTHER], w[THE_SAME], w[SMALLER], w[WHOLE], w[NONE_OF_NONE], w[DIGEST_NOT_EXPECTED], w[BESIDE_WRONG_TALLY], w[BELOW_IS_STORED],
               w[ABOVE_IS_STORED], w[NEITHER_IS], w[NINE_AND_TOO_GREAT], w[ONE_TOO_GREAT], w[GREATEST]);
        for (int i = 0; i < (forgets ? NINE_AND_TOO_GREAT : RECORD_WAYS); i++) missing += !w[i] && !(forgets && i == WHOLE); /* 0 is never too great, nor a whole payload */
    }
    printf("origins: filed as local %ld, of these with a session %ld; as remote 0 %ld, remote below 2^63 %ld, from there on %ld, of these the greatest %ld; by another yes than 1 %ld; in place of another origin %ld; "
           "lookups show local %ld, remote 0 %ld, remote with a number %ld, nothing for a remote entry %ld, nothing where none stands %ld; lengths of remote entries recorded %ld, forgotten %ld\n",
           origins[LOCAL_FILED], origins[SESSION_NOT_LOOKED_AT], origins[REMOTE_0_FILED], origins[BELOW_2_63], origins[FROM_2_63], origins[THE_GREATEST], origins[ANOTHER_YES], origins[IN_PLACE_OF_ANOTHER],
           origins[LOCAL_SHOWN], origins[REMOTE_0_SHOWN], origins[SESSION_SHOWN], origins[REMOTE_HIDDEN], origins[NONE_THERE], origins[REMOTE_RECORDED], origins[REMOTE_UNRECORDED]);
    for (int i = 0; i < ORIGINS; i++) missing += !origins[i];
    fputs("damaged origins, in the subspace-first tree alone, in the time-first, in both:", stdout);
    for (int i = 0; i < ORIGIN_WAYS; i++) {
        printf("%s %s %ld, %ld, %ld", i ? ";" : "", origin_ways[i], origin_damages[i][0], origin_damages[i][1], origin_damages[i][2]);
        for (int t = 0; t < WHERE; t++) missing += !origin_damages[i][t];
    }
    puts("; the last two in both are well-formed, all others 3");
    printf("steps: from the start %ld; from the key of a match %ld, of a stored entry that does not match %ld, of none that is stored %ld, from below all %ld, from above all %ld, of a subspace without entries %ld, "
           "by a time-first key that is one %ld; from a key given %ld, finished %ld; refused with 5: fewer than 26 bytes %ld, over 298 %ld, a byte behind a key %ld, a time-first key %ld, others %ld, in an empty store %ld; "
           "with 4 and no key %ld\n",
           step_ways[FROM_START], step_ways[FROM_A_MATCH], step_ways[FROM_ANOTHER], step_ways[FROM_NONE], step_ways[FROM_BELOW_ALL], step_ways[FROM_ABOVE_ALL], step_ways[FROM_ELSEWHERE], step_ways[FROM_BOTH_KINDS],
           step_ways[GIVEN], step_ways[FINISHED], step_ways[TOO_SHORT], step_ways[TOO_LONG], step_ways[BYTE_BEHIND], step_ways[TIME_FIRST], step_ways[OTHER_FORM], step_ways[FIVE_OF_NOTHING], step_ways[FOUR_AND_NO_KEY]);
    for (int i = 0; i < STEP_WAYS; i++) missing += !step_ways[i];
    if (missing && enough) printf("fault: %d kinds of answers never came\n", missing);
    return missing && enough;
}

int main(int argc, char **argv) {
    if (argc != 3) return puts("damaged SEED STORES"), 2;
    seed = strtoull(argv[1], 0, 10);
    long stores = atol(argv[2]), done = 0;
    while (done < stores) {
        reach();
        lent at = store;
        copy(&reached, &now);
        for (int i = 0; i < 20 && done < stores; i++) {
            int kind = (int)below(DAMAGES);
            origin_way = ORIGIN_WAYS;
            damage(kind);
            if (kind < TALLY_DAMAGES && !judge_reads(&store) && !one_in(4)) right_tally();
            if (one_in(8) && !judge_reads(&store) && store.prune_numbers >= 2 * store.state.limit) {
                origin_way = ORIGIN_WAYS;
                damage((int)below(DAMAGES));
            }
            /* where the damage had nothing to change, the store is not counted */
            if (differ(&now, &reached) || memcmp(&store, &at, sizeof at)) every_call(kind), done++;
            store = at;
            copy(&now, &reached);
        }
    }
    printf("damaged stores %ld: refused with 1 %ld, with 2 %ld, with 3 %ld; still well-formed %ld, of these %ld with a wrong tally, %ld with a short one, %ld with a short prune list, %ld full, %ld of 1,024\n",
           done, refused[1], refused[2], refused[3], refused[0], wrong_tallies, short_tallies, short_lists, full, most_full);
    printf("calls %ld, each judged: its answer, and every byte afterwards\n", calls);
    if (getenv("KINDS"))
        for (int i = 0; i < DAMAGES; i++) printf("damage %2d: not well-formed %ld, well-formed %ld\n", i, kinds[i][0], kinds[i][1]);
    return table(stores >= 10000);
}
