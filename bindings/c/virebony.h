/* virebony: a proved entry store in buffers that you lend. Every call here is proved to end, to read and write nothing but what it is lent, and to
   answer as its contract says (crates/virebony_c), for every value that these types can hold: any numbers, any bytes, any lengths.

   Make the archive with `tests/archive` and link target/staticlib/libvirebony.a, from C11 or C++11. It is made for x86-64 Linux. Of functions that
   are not its own it calls memcpy and memset; it allocates nothing, keeps nothing between calls and has no variables, so several threads may call it at once, on
   different stores. docs/FORMAT.md shows how keys, records, directories, the tally and the state lie in memory.

   What you owe: a pointer with a count points to so many elements, of the type's own alignment, and is not NULL unless the count is 0; a pointer
   without a count points to the whole array that is named. A buffer that a call writes (no const) overlaps no other that it is lent. Nobody else
   writes a lent buffer during the call. Compare VB_EDITION with vb_edition() once: an archive of another edition may link all the same, and answer
   otherwise.

   How to read a call. Structs go by value. A yes or no is a byte: handed in, every byte but 0 means yes; answered, it is 0 or 1. So no value is left
   without a meaning. `refusal` is 0, or the first number of VB_* below that applies, in the order that the call's comment lists. A refused call has changed
   no byte of any buffer; the state in its answer is the one that it was handed (all 0 for a refused opening), and all else in the answer is 0, but for a
   prune list by value, which comes back as it was handed in, and a reader's position and what is left from it. An entry, subspace, path or origin that is
   answered where there is none is all 0. */
#ifndef VIREBONY_H
#define VIREBONY_H
#include <stddef.h>
#include <stdint.h>
#ifdef __cplusplus
extern "C" {
#define VB_ASSERT static_assert
#else
#define VB_ASSERT _Static_assert
#endif

/* The edition of this header. 2 brought the tally; 3 brought `held`, and vb_entry_compare in place of vb_entry_is_newer_than; with 4 an ingestion removes
   older entries only, and no longer those of equal rank. A program of edition 2 would take an entry that is held for one that was taken; one of edition 3
   would take it that an entry of equal rank below a new one is gone. 5 brought how much of a payload has arrived: vb_record_available_length and
   vb_forget_payload, with the refusals 11 and 12; no call of edition 4 answers otherwise. 6 brought where an entry came from: vb_origin, which the three calls
   that file take last and a lookup answers last. A record is nine bytes longer, so a store that edition 5 kept, with an entry, is refused with 2 or 3; docs/FORMAT.md tells how to
   carry one over, with nine zeros behind each value. With 7 a listing remembers the last key that it gave in place of a place: vb_query_area and vb_query_range take
   that key, vb_query_area_found and vb_query_range_found stand in place of vb_query_area_place and vb_query_range_place, vb_listed has no place, and vb_record_key
   is new. A program of edition 6 that is linked all the same, as one that calls no _place function is, would hand in a place where a pointer and a length are wanted. */
#define VB_EDITION 7

enum {
    VB_LIMIT_MOST = 1024, /* entries that a store may be opened for */
    VB_RECORD_MOST = 419, /* bytes of a record: a tree has so many for each entry of the limit */
    VB_KEY_MOST = 298,    /* bytes of a key: what a buffer for a key must have */
    VB_VALUE = 121,       /* bytes of a record's value, its last ones: payload length 8, digest 32, token 64, available length 8, origin 9 */
    VB_ITEM = 28,         /* bytes of a tally's item: subspace 16, count 4, newest timestamp 8; a tally has so many for each entry of the limit */
    VB_MCL = 64,          /* bytes of a component */
    VB_MCC = 8,           /* components of a path */
    VB_MPL = 128,         /* bytes of a path */
    /* Where the parts of a value begin, counted from the value's own first byte. Numbers are big-endian. */
    VB_VALUE_PAYLOAD_LENGTH = 0, /* 8 bytes */
    VB_VALUE_DIGEST = 8,         /* 32 bytes */
    VB_VALUE_TOKEN = 40,         /* 64 bytes */
    VB_VALUE_AVAILABLE = 104,    /* 8 bytes: the available length */
    VB_VALUE_ORIGIN = 112,       /* 1 byte: the origin's kind, 0 for local and 1 for remote */
    VB_VALUE_SESSION = 113       /* 8 bytes: the origin's session, 0 for local */
};

/* Why a call was refused. */
enum {
    VB_DONE = 0,               /* It was not. An entry that is handed in may still be obsolete, or held: see vb_ingested. */
    VB_BAD_LIMIT = 1,          /* The limit is not 1 to 1024. */
    VB_SHORT_BUFFER = 2,       /* A lent buffer is shorter than the limit asks, or a key's buffer than 298 bytes. */
    VB_NOT_WELL_FORMED = 3,    /* The state and the buffers are not a well-formed store. */
    VB_ILLEGAL_PATH = 4,       /* A path has over 8 components, a component over 64 bytes, over 128 bytes in all, or ends that descend. */
    VB_NO_KEY = 5,             /* The bytes are no key that the encoder of that order writes: for a listing, the subspace-first one. */
    VB_OTHER_NAMESPACE = 6,    /* The entry names another namespace than the store's. */
    VB_PRUNING_PREVENTED = 7,  /* Pruning is prevented, and an entry would be removed. */
    VB_FULL = 8,               /* The entries that would be left already number the limit. */
    VB_OTHER_DIGEST = 9,       /* The stored entry's digest is not the one expected. */
    VB_WRONG_TALLY = 10,       /* The tally is not the one that the store gives. */
    VB_ABSENT_ENTRY = 11,      /* No entry stands at the subspace and path. */
    VB_TOO_MUCH_AVAILABLE = 12 /* The available length is above the payload length. */
};

/* What a refusal means, in a sentence; for a number that is none of them, "unknown". */
static inline const char *vb_refusal_text(unsigned refusal) {
    switch (refusal) {
    case VB_DONE: return "not refused";
    case VB_BAD_LIMIT: return "the limit is not 1 to 1024";
    case VB_SHORT_BUFFER: return "a lent buffer is too short";
    case VB_NOT_WELL_FORMED: return "the state and the buffers are not a well-formed store";
    case VB_ILLEGAL_PATH: return "a path is illegal";
    case VB_NO_KEY: return "the bytes are no key that the encoder writes";
    case VB_OTHER_NAMESPACE: return "the entry names another namespace";
    case VB_PRUNING_PREVENTED: return "pruning is prevented, and an entry would be removed";
    case VB_FULL: return "the store is full";
    case VB_OTHER_DIGEST: return "the stored entry's digest is not the one expected";
    case VB_WRONG_TALLY: return "the tally is not the one that the store gives";
    case VB_ABSENT_ENTRY: return "no entry stands at the subspace and path";
    case VB_TOO_MUCH_AVAILABLE: return "the available length is above the payload length";
    default: return "unknown";
    }
}

/* ---- Values ---- */

/* 16 bytes as two numbers, the high half first. */
typedef struct { uint64_t high, low; } vb_subspace;

/* Component i is bytes[ends[i - 1]] up to bytes[ends[i]], the first from 0. Ends from `count` on, and bytes from the last end on, are not looked at;
   in a path that is answered they are 0. */
typedef struct { uint8_t bytes[VB_MPL]; size_t ends[VB_MCC]; size_t count; } vb_path;

typedef struct {
    uint8_t namespace_id[16];
    vb_subspace subspace_id;
    vb_path path;
    uint64_t timestamp, payload_length;
    uint8_t payload_digest[32];
} vb_entry;

/* From `start` up to `end`, which is outside; if `open` is yes there is no end, and `end` is not looked at. */
typedef struct { uint64_t start, end; uint8_t open; } vb_times;
typedef struct { vb_subspace start, end; uint8_t open; } vb_subspaces;
typedef struct { vb_path start, end; uint8_t open; } vb_paths;

/* One subspace, or any if `any_subspace` is yes (`subspace` is then not looked at); all paths that `path` prefixes; a range of times. */
typedef struct { uint8_t any_subspace; vb_subspace subspace; vb_path path; vb_times times; } vb_area;
typedef struct { vb_subspaces subspaces; vb_paths paths; vb_times times; } vb_range;

/* What is asked for of an area: its newest entries, at most so many, and so many bytes of payload; UINT64_MAX means no limit. */
typedef struct { vb_area area; uint64_t max_count, max_size; } vb_interest;

/* Which entries a query passes over: those whose payload is not all there, their available length being another than their payload length; those of an
   empty payload, whose length is 0. */
typedef struct { uint8_t incomplete_payloads, empty_payloads; } vb_ignore;

/* Where an entry came from. If `remote` is yes, from another source, in the session with this number, which may be any; else it is local, and `session` is not
   looked at. In an origin that is answered, `session` is 0 for local. */
typedef struct { uint8_t remote; uint64_t session; } vb_origin;

/* Kept by you from one call to the next, beside the buffers; hand in the one that the last call answered. */
typedef struct { uint8_t namespace_id[16]; size_t count, limit; } vb_state;

/* Offset and length of a record in the subspace-first tree. */
typedef struct { uint32_t offset, length; } vb_pair;
typedef struct { vb_pair pairs[VB_LIMIT_MOST]; } vb_pairs;

/* ---- Answers ---- */

typedef struct { uint8_t refusal; vb_state state; } vb_opened;
/* Refused; or `obsolete`, with a stored entry that is newer and its token; or `held`, the very entry being stored already; or, if all three are 0, taken, with
   how many entries were pruned. Only an entry that is taken changes anything. */
typedef struct { uint8_t refusal, obsolete, held; size_t pruned; vb_state state; vb_entry newer; uint8_t token[64]; } vb_ingested;
typedef struct { vb_ingested ingested; vb_pair pairs[VB_LIMIT_MOST]; } vb_pairs_ingested;
typedef struct { uint8_t refusal; vb_state state; } vb_entry_forgotten;
typedef struct { uint8_t refusal; vb_state state; size_t forgotten; } vb_area_forgotten;
typedef struct { uint8_t refusal; vb_state state; } vb_available_recorded;
/* An entry as it is stored: with its token; how much of its payload is available, as vb_record_available_length and vb_forget_payload left it since the
   entry was filed, and 0 if neither did; and the origin that it was filed with. */
typedef struct { vb_entry entry; uint8_t token[64]; uint64_t available; vb_origin origin; } vb_lengthy_entry;
typedef struct { uint8_t refusal, found; vb_lengthy_entry lengthy; } vb_entry_found;
/* Refused; or a record was found; or, if both are 0, the listing is finished. */
typedef struct { uint8_t refusal, found; } vb_listed;
/* `length` bytes from an offset on, of what was lent. */
typedef struct { size_t offset, length; } vb_part;
typedef struct { uint8_t refusal; size_t count; } vb_counted;
/* Refused, the range is one that includes nothing. */
typedef struct { uint8_t refusal; vb_range range; } vb_area_range;
typedef struct { uint8_t refusal, yes; } vb_answer;
/* Equal if neither. */
typedef struct { uint8_t refusal, less, greater; } vb_compared;
/* The same if all three are 0. */
typedef struct { uint8_t refusal, newer, older; } vb_entries_compared;
typedef struct { uint8_t refusal, found; vb_path path; } vb_above;
typedef struct { uint8_t refusal; size_t length; } vb_encoded;
typedef struct { uint8_t refusal; vb_subspace subspace; vb_path path; uint64_t timestamp; } vb_decoded;
typedef struct { uint8_t refusal; vb_path path; size_t next; } vb_path_read;
typedef struct { uint8_t refusal, component; size_t length; uint8_t bytes[VB_MCL]; size_t position, left; } vb_stepped;

/* ---- Calls ---- */

/* The buffers of a store: the subspace-first tree and its directory, the time-first tree and its directory, and the tally. A tree has at least
   419 * limit bytes, a directory at least 2 * limit numbers, a tally at least 28 * limit bytes; what lies beyond is neither read nor written. Calls that
   read a store are not lent the tally; nor are the two that write how much of a payload has arrived, which changes neither a tally nor a directory.

   The tally: for each subspace with entries, in ascending order, an item of 28 bytes, and zeros behind the last item up to 28 * limit. In an item bytes
   0 to 15 are the subspace, 16 to 19 the number of its entries, 20 to 27 the newest of their timestamps, each big-endian. Opening clears it. A call that
   files or drops entries is refused with 10 if the tally is not the one that the store gives, and leaves the right one.

   No call answers what an item says: read the bytes. No item has count 0, and a place behind the last item has; so a walk until a count of 0 finds a
   subspace's item, and so does halving over as many places as the state counts entries, where a place of count 0 stands above every subspace.
   example.c shows it. A store that was kept without its tally has it again by a walk over the subspace-first tree: of each record the first 16 bytes are
   the subspace, and the 8 bytes before its last 121 the timestamp; records of one subspace stand together. */
#define VB_BUFFERS uint8_t *spt, size_t spt_len, uint32_t *spt_dir, size_t spt_dir_len, uint8_t *tsp, size_t tsp_len, uint32_t *tsp_dir, size_t tsp_dir_len, \
    uint8_t *tally, size_t tally_len
/* The same four buffers for the two calls about available lengths: the trees are written, the directories are only read. */
#define VB_TREES uint8_t *spt, size_t spt_len, const uint32_t *spt_dir, size_t spt_dir_len, uint8_t *tsp, size_t tsp_len, const uint32_t *tsp_dir, size_t tsp_dir_len
#define VB_CONST_BUFFERS const uint8_t *spt, size_t spt_len, const uint32_t *spt_dir, size_t spt_dir_len, const uint8_t *tsp, size_t tsp_len, const uint32_t *tsp_dir, size_t tsp_dir_len

/* The edition that the archive was made with. */
uint32_t vb_edition(void);

/* Opens a store of no entries, for at most `limit` of them: writes zeros up to the limit's room, in the tally too. Refused: 1, 2. */
vb_opened vb_open(const uint8_t namespace_id[16], size_t limit, VB_BUFFERS);

/* Files an entry with its token, its origin and available length 0. It is obsolete, and nothing changes, if a stored entry of the subspace, at a prefix of its
   path or the path itself, is newer. It is held, and nothing changes, if an entry of the same subspace, path, timestamp, digest and length is stored: the
   stored one keeps its token, available length and origin, whatever token and origin come now. Else the entries of the subspace at its path or below that are older, by
   timestamp, then digest, then payload length, are removed; an entry of equal rank stays. The pairs of those removed, as they stood before the call, in key
   order, go to the front of `prune`, which has at least `limit` pairs; `pruned` says how many, and what lies behind stays.
   Refused: 1, 2, 3, 10, 4, 6, then obsolete, held, then 7 (with `prevent_pruning`), 8. */
vb_ingested vb_ingest_entry(vb_state state, VB_BUFFERS, vb_pair *prune, size_t prune_len, vb_entry entry, const uint8_t token[64], uint8_t prevent_pruning, vb_origin origin);

/* vb_ingest_entry over a prune list of at least 2 * limit numbers, offset and length by turns. Refused as there. */
vb_ingested vb_ingest_entry_numbers(vb_state state, VB_BUFFERS, uint32_t *prune, size_t prune_len, vb_entry entry, const uint8_t token[64], uint8_t prevent_pruning, vb_origin origin);

/* vb_ingest_entry over a prune list of 1024 pairs that goes in and comes back by value, 8 KB each way: for tests. Refused as there. */
vb_pairs_ingested vb_ingest_entry_by_value(vb_state state, VB_BUFFERS, vb_pairs prune, vb_entry entry, const uint8_t token[64], uint8_t prevent_pruning, vb_origin origin);

/* Drops the entry at a subspace and path, if there is one. With `expects`, only if its digest is the one expected; without, the 32 bytes
   play no part, but must be there. An absent entry answers done. Refused: 1, 2, 3, 10, 4, 9. */
vb_entry_forgotten vb_forget_entry(vb_state state, VB_BUFFERS, vb_subspace subspace, vb_path path, uint8_t expects, const uint8_t expected_digest[32]);

/* Drops every entry that `area` includes and, with `protects`, `protected_area` does not; answers how many. Without `protects` the second area is not
   looked at. Refused: 1, 2, 3, 10, 4. */
vb_area_forgotten vb_forget_area(vb_state state, VB_BUFFERS, vb_area area, uint8_t protects, vb_area protected_area);

/* Records how much of a payload has arrived: `available` becomes the available length of the entry at exactly this subspace and path, in both trees. Any
   number up to the payload length will do, a smaller one than before too. With `expects`, only if the entry's digest is the one expected; without, the 32
   bytes play no part, but must be there. Of each tree the 8 bytes of the entry's available length are written, before the nine of its origin, and nothing
   else; the state in the answer is the one handed in. An absent entry is refused, unlike in vb_forget_entry, and so is a path that is only a prefix or an
   extension of a stored entry's.
   Refused: 1, 2, 3, 4, 11, 9, 12. */
vb_available_recorded vb_record_available_length(vb_state state, VB_TREES, vb_subspace subspace, vb_path path, uint8_t expects, const uint8_t expected_digest[32], uint64_t available);

/* Forgets how much of a payload has arrived: vb_record_available_length of 0. An entry of which nothing has arrived answers done. Refused: 1, 2, 3, 4, 11, 9. */
vb_available_recorded vb_forget_payload(vb_state state, VB_TREES, vb_subspace subspace, vb_path path, uint8_t expects, const uint8_t expected_digest[32]);

/* The entry at a subspace and path, unless `ignore` passes over it. Refused: 1, 2, 3, 4. Writes nothing. */
vb_entry_found vb_find_entry(vb_state state, VB_CONST_BUFFERS, vb_subspace subspace, vb_path path, vb_ignore ignore);

/* A step of an area's listing. A listing remembers the last key that it gave, at its start the empty one (`last_len` 0). A step answers the record of the least
   matching key above `last`, as bytes, in the store as it then is: `length` bytes from spt + offset on, key then value; the last VB_VALUE bytes are the value, where
   the available length and the origin stand at VB_VALUE_AVAILABLE and VB_VALUE_ORIGIN. Then remember its key, which vb_record_key gives, and go on until the length
   is 0: the listing is finished, or the step was refused, and vb_query_area_found says which.
   You may file, forget and record between two steps. What is stored and matches all the while is given once; what first arrives at or below the remembered key is
   not given; what is gone before its turn, and not filed again, is not given; no key is given twice. The key lies in the tree that a filing writes: copy it, at most
   VB_KEY_MOST bytes, before you file. If nothing writes the tree meanwhile, `last` may point into it, at the part that vb_record_key answers.
   Refused: 1, 2, 3, 4, then 5 if `last` is neither empty nor a key that vb_encode_spt_entry_key writes; no record of that key need be stored, or match. Writes nothing. */
vb_part vb_query_area(vb_state state, VB_CONST_BUFFERS, vb_area area, vb_ignore ignore, const uint8_t *last, size_t last_len);

/* Whether vb_query_area finds a record; or refused as there; or, if both are 0, the listing is finished. Writes nothing. */
vb_listed vb_query_area_found(vb_state state, VB_CONST_BUFFERS, vb_area area, vb_ignore ignore, const uint8_t *last, size_t last_len);

/* A step of a 3d range's listing, as vb_query_area is of an area's. Refused as there. Writes nothing. */
vb_part vb_query_range(vb_state state, VB_CONST_BUFFERS, vb_range range, vb_ignore ignore, const uint8_t *last, size_t last_len);

/* Whether vb_query_range finds a record; or refused as there; or, if both are 0, the listing is finished. Writes nothing. */
vb_listed vb_query_range_found(vb_state state, VB_CONST_BUFFERS, vb_range range, vb_ignore ignore, const uint8_t *last, size_t last_len);

/* The key of a record, which is all before its value: `length` bytes from record + offset on, and offset is 0. Of fewer bytes than a value has, nothing. */
vb_part vb_record_key(const uint8_t *record, size_t record_len);

/* How many entries an area includes. Refused: 1, 2, 3, 4. Writes nothing. */
vb_counted vb_count_area(vb_state state, VB_CONST_BUFFERS, vb_area area);

/* How many entries a 3d range includes. Refused: 1, 2, 3, 4. Writes nothing. */
vb_counted vb_summarise(vb_state state, VB_CONST_BUFFERS, vb_range range);

/* The 3d range of an area of interest: the area's own, its times starting at that of the first entry, walking its matches from the newest, that breaks
   a limit; else of the oldest match; else as given. Refused: 1, 2, 3, 4. Writes nothing. */
vb_area_range vb_area_of_interest_to_range(vb_state state, VB_CONST_BUFFERS, vb_interest interest);

/* Whether a path is legal: at most 8 components, each at most 64 bytes, at most 128 in all, ends that do not descend. 1 or 0. */
uint8_t vb_path_is_legal(vb_path p);

/* How p compares with q, component by component, components byte by byte; a proper prefix is less. Refused: 4. */
vb_compared vb_path_cmp(vb_path p, vb_path q);

/* Whether p and q have the same components. Refused: 4. */
vb_answer vb_path_eq(vb_path p, vb_path q);

/* Whether p is q or a beginning of it, by whole components. Refused: 4. */
vb_answer vb_path_is_prefix_of(vb_path p, vb_path q);

/* The least legal path above p that p does not prefix, if there is one. Refused: 4. */
vb_above vb_path_greater_but_not_prefixed(vb_path p);

/* Whether a is newer than b, older or the same: by timestamp, then digest as bytes, then payload length. Namespace, subspace and path play no part, but an
   illegal path is refused. So entries at two places may compare as the same; vb_ingest_entry holds one only if subspace and path are the same too. Refused: 4. */
vb_entries_compared vb_entry_compare(vb_entry a, vb_entry b);

/* Whether a prunes b: of one namespace and subspace, a's path is b's or prefixes it, and a is newer. Refused: 4. */
vb_answer vb_entry_prunes(vb_entry a, vb_entry b);

/* Whether b prunes a. Refused: 4. */
vb_answer vb_entry_is_pruned_by(vb_entry a, vb_entry b);

/* Whether an area includes a subspace, path and timestamp. Refused: 4. */
vb_answer vb_area_includes_triplet(vb_area area, vb_subspace subspace, vb_path path, uint64_t timestamp);

/* Whether a 3d range includes a subspace, path and timestamp. Refused: 4. */
vb_answer vb_range_includes_triplet(vb_range range, vb_subspace subspace, vb_path path, uint64_t timestamp);

/* The 3d range that includes what an area includes. Refused: 4. */
vb_area_range vb_area_to_range(vb_area area);

/* Writes a triple's subspace-first key to the front of `out`, which has at least 298 bytes, and answers its length; the bytes behind stay. Refused: 2, 4. */
vb_encoded vb_encode_spt_entry_key(vb_subspace subspace, vb_path path, uint64_t timestamp, uint8_t *out, size_t out_len);

/* Writes a triple's time-first key to the front of `out`, which has at least 298 bytes, and answers its length; the bytes behind stay. Refused: 2, 4. */
vb_encoded vb_encode_tsp_entry_key(vb_subspace subspace, vb_path path, uint64_t timestamp, uint8_t *out, size_t out_len);

/* The triple that a subspace-first key stands for. Refused: 5. */
vb_decoded vb_decode_spt_entry_key(const uint8_t *key, size_t key_len);

/* The triple that a time-first key stands for. Refused: 5. */
vb_decoded vb_decode_tsp_entry_key(const uint8_t *key, size_t key_len);

/* What a reader takes at a position of a key's path: a component, its length and bytes; or the path's end (`component` is 0). `position` is where the
   reader then stands, `left` how many bytes are left. Refused: 5, and the reader stands where it stood: `position` is `at`, `left` is
   how many bytes are left from there. */
vb_stepped vb_read_component_at(const uint8_t *key, size_t key_len, size_t at);

/* The whole path at a position of a key, taken by a reader, and the position behind it. Refused: 5. */
vb_path_read vb_read_path_at(const uint8_t *key, size_t key_len, size_t at);

/* The triple that a subspace-first key stands for, taken by a reader. Refused: 5. */
vb_decoded vb_read_spt_entry_key(const uint8_t *key, size_t key_len);

/* The triple that a time-first key stands for, taken by a reader. Refused: 5. */
vb_decoded vb_read_tsp_entry_key(const uint8_t *key, size_t key_len);

/* ---- Layout, as the archive was made for it ---- */

VB_ASSERT(sizeof(size_t) == 8, "x86-64 only");
VB_ASSERT(sizeof(vb_subspace) == 16, "vb_subspace");
VB_ASSERT(sizeof(vb_path) == 200 && offsetof(vb_path, ends) == 128 && offsetof(vb_path, count) == 192, "vb_path");
VB_ASSERT(sizeof(vb_entry) == 280 && offsetof(vb_entry, subspace_id) == 16 && offsetof(vb_entry, path) == 32 && offsetof(vb_entry, timestamp) == 232 &&
              offsetof(vb_entry, payload_length) == 240 && offsetof(vb_entry, payload_digest) == 248, "vb_entry");
VB_ASSERT(sizeof(vb_times) == 24 && offsetof(vb_times, open) == 16, "vb_times");
VB_ASSERT(sizeof(vb_subspaces) == 40 && offsetof(vb_subspaces, open) == 32, "vb_subspaces");
VB_ASSERT(sizeof(vb_paths) == 408 && offsetof(vb_paths, open) == 400, "vb_paths");
VB_ASSERT(sizeof(vb_area) == 248 && offsetof(vb_area, subspace) == 8 && offsetof(vb_area, path) == 24 && offsetof(vb_area, times) == 224, "vb_area");
VB_ASSERT(sizeof(vb_range) == 472 && offsetof(vb_range, paths) == 40 && offsetof(vb_range, times) == 448, "vb_range");
VB_ASSERT(sizeof(vb_interest) == 264 && offsetof(vb_interest, max_count) == 248, "vb_interest");
VB_ASSERT(sizeof(vb_ignore) == 2, "vb_ignore");
VB_ASSERT(sizeof(vb_origin) == 16 && offsetof(vb_origin, session) == 8, "vb_origin");
VB_ASSERT(sizeof(vb_state) == 32 && offsetof(vb_state, count) == 16 && offsetof(vb_state, limit) == 24, "vb_state");
VB_ASSERT(sizeof(vb_pair) == 8, "vb_pair");
VB_ASSERT(sizeof(vb_pairs) == 8192, "vb_pairs");
VB_ASSERT(sizeof(vb_opened) == 40 && offsetof(vb_opened, state) == 8, "vb_opened");
VB_ASSERT(sizeof(vb_ingested) == 392 && offsetof(vb_ingested, obsolete) == 1 && offsetof(vb_ingested, held) == 2 && offsetof(vb_ingested, pruned) == 8 &&
              offsetof(vb_ingested, state) == 16 && offsetof(vb_ingested, newer) == 48 && offsetof(vb_ingested, token) == 328, "vb_ingested");
VB_ASSERT(sizeof(vb_pairs_ingested) == 8584 && offsetof(vb_pairs_ingested, pairs) == 392, "vb_pairs_ingested");
VB_ASSERT(sizeof(vb_entry_forgotten) == 40, "vb_entry_forgotten");
VB_ASSERT(sizeof(vb_area_forgotten) == 48 && offsetof(vb_area_forgotten, forgotten) == 40, "vb_area_forgotten");
VB_ASSERT(sizeof(vb_available_recorded) == 40 && offsetof(vb_available_recorded, state) == 8, "vb_available_recorded");
VB_ASSERT(sizeof(vb_lengthy_entry) == 368 && offsetof(vb_lengthy_entry, token) == 280 && offsetof(vb_lengthy_entry, available) == 344 &&
              offsetof(vb_lengthy_entry, origin) == 352, "vb_lengthy_entry");
VB_ASSERT(sizeof(vb_entry_found) == 376 && offsetof(vb_entry_found, lengthy) == 8, "vb_entry_found");
VB_ASSERT(sizeof(vb_listed) == 2, "vb_listed");
VB_ASSERT(sizeof(vb_part) == 16, "vb_part");
VB_ASSERT(sizeof(vb_counted) == 16 && offsetof(vb_counted, count) == 8, "vb_counted");
VB_ASSERT(sizeof(vb_area_range) == 480 && offsetof(vb_area_range, range) == 8, "vb_area_range");
VB_ASSERT(sizeof(vb_answer) == 2, "vb_answer");
VB_ASSERT(sizeof(vb_compared) == 3, "vb_compared");
VB_ASSERT(sizeof(vb_entries_compared) == 3, "vb_entries_compared");
VB_ASSERT(sizeof(vb_above) == 208 && offsetof(vb_above, path) == 8, "vb_above");
VB_ASSERT(sizeof(vb_encoded) == 16 && offsetof(vb_encoded, length) == 8, "vb_encoded");
VB_ASSERT(sizeof(vb_decoded) == 232 && offsetof(vb_decoded, subspace) == 8 && offsetof(vb_decoded, path) == 24 &&
              offsetof(vb_decoded, timestamp) == 224, "vb_decoded");
VB_ASSERT(sizeof(vb_path_read) == 216 && offsetof(vb_path_read, path) == 8 && offsetof(vb_path_read, next) == 208, "vb_path_read");
VB_ASSERT(sizeof(vb_stepped) == 96 && offsetof(vb_stepped, component) == 1 && offsetof(vb_stepped, length) == 8 && offsetof(vb_stepped, bytes) == 16 &&
              offsetof(vb_stepped, position) == 80 && offsetof(vb_stepped, left) == 88, "vb_stepped");

#ifdef __cplusplus
}
#endif
#endif
