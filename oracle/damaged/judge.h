/* A judge of the store's calls, written from document 01 and from 02's U1 (the tally), U2 (the same entry twice), U3 (ties), U4 (how much has arrived), U6 (where an entry came from) and U7 (filing while a listing is open), and sharing no
   code and no number with the port or with whoever makes the calls: of the header it uses the shapes of values only. It reads a store once, as it was lent, and then says of each call on it
   what the answer is and what every byte of the buffers is afterwards. */
#ifndef JUDGE_H
#define JUDGE_H
#include "virebony.h"
#include <stdbool.h>
#include <string.h>

/* A state and what is lent beside it. Trees and directories: subspace-first, then time-first. */
typedef struct {
    vb_state state;
    uint8_t *tree[2], *tally;
    uint32_t *dir[2], *prune;
    size_t bytes[2], numbers[2], tally_bytes, prune_numbers;
} lent;

enum call_kind {
    OPEN, INGEST, INGEST_NUMBERS, INGEST_BY_VALUE, FORGET_ENTRY, FORGET_AREA, RECORD_AVAILABLE, FORGET_PAYLOAD,
    FIND_ENTRY, AREA_FOUND, AREA_PART, RANGE_FOUND, RANGE_PART, COUNT_AREA, SUMMARISE, INTEREST, CALL_KINDS
};

/* How many bytes a remembered key may have here: more than any key has. */
enum { LAST_ROOM = 320 };

/* The arguments of every kind of call. An opening's namespace and limit are those of the state. */
typedef struct {
    enum call_kind kind;
    vb_entry entry; /* its subspace, path and digest are also those of a forgetting, of a recording and of a lookup */
    uint8_t token[64], prevent_pruning, expects, protects;
    vb_origin origin; /* of an ingestion */
    vb_area area, protected_area;
    vb_range range;
    vb_ignore ignore;
    uint8_t last[LAST_ROOM]; /* the key that a listing remembers */
    size_t last_len;
    uint64_t max_count, max_size, available;
} call;

/* The answer of every kind of call; what a kind does not answer is 0. */
typedef struct {
    uint8_t refusal, yes, held; /* yes: obsolete, or found */
    size_t number;        /* pruned, forgotten, counted, or the bytes of the key of a part that is not empty */
    vb_state state;
    vb_part part;
    vb_lengthy_entry lengthy; /* found, or newer */
    vb_range range;
} answer;

/* Reads a store. Which of 1, 2, 3 a call must give that has no prune list and no tally, or 0. What is kept points into its buffers. */
int judge_reads(const lent *s);

/* The answer to a call on the store that was read, by its kind; `after` is a copy of it, whose buffers become what the call leaves. */
answer judge_answers(const call *c, lent *after);

/* The first field in which an answer is not the judge's, or NULL. Of an obsolete verdict: whether the entry shown is one that 01 allows. */
const char *judge_differs(const call *c, const answer *want, const answer *got);

/* Of an ingestion that is held on the store that was read: whether an entry that ties with it is stored, a part of its payload is there, the token is another, the origin is
   another. */
typedef struct { bool beside_tie, available, other_token, other_origin; } held_how;
held_how judge_held_how(const call *c);

/* Of an ingestion with a legal path on the store that was read, which is well-formed: whether an entry at a proper extension of its path ties with it. */
bool judge_above_tie(const call *c);

/* Of a recording with a legal path on the store that was read, which is well-formed: whether an entry stands there, or at a proper extension of its path, or at a proper
   prefix; how much of its payload was there, how long it is, and whether its digest is another. */
typedef struct { bool stored, extension, prefix, other_digest; uint64_t before, length; } recorded_how;
recorded_how judge_recorded_how(const call *c);

/* The origin of the entry at the subspace and path of a call, which are legal, in the store that was read, which is well-formed; false if none stands there. */
bool judge_stored_origin(const call *c, vb_origin *origin);

/* Of a step of a listing on the store that was read, which is well-formed: whether what it remembers is a key, that of a stored entry, of one that matches; lies below all that are stored, or above;
   is of a subspace that has no entry. Whether it would be one without its last byte; is a time-first key. */
typedef struct { bool key, stored, matches, below_all, above_all, other_subspace, byte_behind, time_first; } listed_how;
listed_how judge_listed_how(const call *c);

/* An entry of the store that was read, which is well-formed, by its place. */
vb_entry judge_entry(size_t place);

/* Whether a path is legal. */
bool judge_is_legal(const vb_path *p);

/* The number that a call by its kind must be refused with on the store that was read, whatever else it is handed, or 0: 1, 2, 3 or 10. */
int judge_refuses(enum call_kind kind, const lent *s);
#endif
