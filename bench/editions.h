/* The door, or that of an older archive which is measured beside it by the same calls: with VB_NO_KEYS of one up to edition 6, whose listings remember a place and not a key; with VB_NO_ORIGINS of one up to edition 5, whose records are nine bytes shorter and whose calls
   neither take an origin nor show one; with VB_NO_ARRIVALS of one up to edition 4, which moreover has no call about available lengths; with VB_NO_TALLY of one of edition 1, whose calls moreover
   take no tally. A call that files ends in FROM: all entries are local. */
#ifndef EDITIONS_H
#define EDITIONS_H
#if defined VB_NO_TALLY && !defined VB_NO_ARRIVALS
#define VB_NO_ARRIVALS
#endif
#if defined VB_NO_ARRIVALS && !defined VB_NO_ORIGINS
#define VB_NO_ORIGINS
#endif
#if defined VB_NO_ORIGINS && !defined VB_NO_KEYS
#define VB_NO_KEYS
#endif
#ifdef VB_NO_KEYS /* the header's declarations of these go to other names */
#define vb_query_area other_query_area
#endif
#ifdef VB_NO_ORIGINS
#define vb_ingest_entry other_ingest_entry
#define vb_ingest_entry_numbers other_ingest_entry_numbers
#define vb_find_entry other_find_entry
#endif
#ifdef VB_NO_TALLY
#define vb_open other_open
#define vb_forget_entry other_forget_entry
#define vb_forget_area other_forget_area
#endif
#include "virebony.h"

#ifdef VB_NO_TALLY
#undef vb_open
#undef vb_forget_entry
#undef vb_forget_area
#define OLDER_BUFFERS uint8_t *spt, size_t spt_len, uint32_t *spt_dir, size_t spt_dir_len, uint8_t *tsp, size_t tsp_len, uint32_t *tsp_dir, size_t tsp_dir_len
vb_opened vb_open(const uint8_t namespace_id[16], size_t limit, OLDER_BUFFERS);
vb_entry_forgotten vb_forget_entry(vb_state state, OLDER_BUFFERS, vb_subspace subspace, vb_path path, uint8_t expects, const uint8_t expected_digest[32]);
vb_area_forgotten vb_forget_area(vb_state state, OLDER_BUFFERS, vb_area area, uint8_t protects, vb_area protected_area);
#define TALLIED(TALLY, BYTES)
#else
#define OLDER_BUFFERS VB_BUFFERS
#define TALLIED(TALLY, BYTES) , TALLY, BYTES
#endif

#ifdef VB_NO_ORIGINS
#undef vb_ingest_entry
#undef vb_ingest_entry_numbers
#undef vb_find_entry
typedef struct { vb_entry entry; uint8_t token[64]; uint64_t available; } older_lengthy_entry;
typedef struct { uint8_t refusal, found; older_lengthy_entry lengthy; } older_entry_found;
vb_ingested vb_ingest_entry(vb_state state, OLDER_BUFFERS, vb_pair *prune, size_t prune_len, vb_entry entry, const uint8_t token[64], uint8_t prevent_pruning);
vb_ingested vb_ingest_entry_numbers(vb_state state, OLDER_BUFFERS, uint32_t *prune, size_t prune_len, vb_entry entry, const uint8_t token[64], uint8_t prevent_pruning);
older_entry_found vb_find_entry(vb_state state, VB_CONST_BUFFERS, vb_subspace subspace, vb_path path, vb_ignore ignore);
#define FROM
enum { RECORD = VB_RECORD_MOST - (VB_VALUE - VB_VALUE_ORIGIN), ITEM = VB_ITEM };
#else
static const vb_origin local;
#define FROM , local
enum { RECORD = VB_RECORD_MOST, ITEM = VB_ITEM };
#endif

/* A listing of an area. A step behind the first so many records: whether it finds one, and how many bytes that has. By place, an older archive finds the record after so many; by key, this one finds it
   above the last of these, whose key lies in the tree, which nothing writes meanwhile. A whole listing, one call a match: how many there are. By place the caller takes the record from the directory,
   by key from the part that the call answers, which at the end is empty. */
#define LENT spt, spt_len, spt_dir, spt_dir_len, tsp, tsp_len, tsp_dir, tsp_dir_len
#ifdef VB_NO_KEYS
#undef vb_query_area
typedef struct { uint8_t refusal, found; size_t place; } older_listed;
older_listed vb_query_area_place(vb_state state, VB_CONST_BUFFERS, vb_area area, vb_ignore ignore, size_t place);
vb_part vb_query_area(vb_state state, VB_CONST_BUFFERS, vb_area area, vb_ignore ignore, size_t place);
static inline size_t step_finds(vb_state state, VB_CONST_BUFFERS, vb_area area, vb_ignore ignore, size_t behind) { return vb_query_area_place(state, LENT, area, ignore, behind).found; }
static inline size_t step_gives(vb_state state, VB_CONST_BUFFERS, vb_area area, vb_ignore ignore, size_t behind) { return vb_query_area(state, LENT, area, ignore, behind).length; }
static inline size_t whole_listing(vb_state state, VB_CONST_BUFFERS, vb_area area, vb_ignore ignore) {
    size_t n = 0;
    for (older_listed l = vb_query_area_place(state, LENT, area, ignore, 0); l.found && spt_dir[2 * l.place + 1]; n++) l = vb_query_area_place(state, LENT, area, ignore, l.place + 1);
    return n;
}
#else
static inline const uint8_t *key_before(const uint8_t *spt, const uint32_t *spt_dir, size_t behind, size_t *len) {
    *len = behind ? spt_dir[2 * behind - 1] - VB_VALUE : 0;
    return behind ? spt + spt_dir[2 * behind - 2] : NULL;
}
static inline size_t step_finds(vb_state state, VB_CONST_BUFFERS, vb_area area, vb_ignore ignore, size_t behind) {
    size_t len;
    const uint8_t *last = key_before(spt, spt_dir, behind, &len);
    return vb_query_area_found(state, LENT, area, ignore, last, len).found;
}
static inline size_t step_gives(vb_state state, VB_CONST_BUFFERS, vb_area area, vb_ignore ignore, size_t behind) {
    size_t len;
    const uint8_t *last = key_before(spt, spt_dir, behind, &len);
    return vb_query_area(state, LENT, area, ignore, last, len).length;
}
static inline size_t whole_listing(vb_state state, VB_CONST_BUFFERS, vb_area area, vb_ignore ignore) {
    size_t n = 0, len = 0;
    const uint8_t *last = NULL;
    for (vb_part p = vb_query_area(state, LENT, area, ignore, last, len); p.length; n++) {
        last = spt + p.offset, len = vb_record_key(last, p.length).length;
        p = vb_query_area(state, LENT, area, ignore, last, len);
    }
    return n;
}
#endif
#endif
