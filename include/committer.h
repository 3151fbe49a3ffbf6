/*
 * The committer for C hosts: the functions of libcommitter.a (`.ci/build`, x86-64).
 *
 * The host keeps a state and lends four tables. Each call takes the state by value and returns the state after it in its reply; the next
 * call is given that one. Before the first start the state is all zero (committer_no_state), and the tables may hold anything.
 *
 *     committer_state state = committer_no_state();
 *     committer_reply reply = committer_start(state, keys, keys_len, .., with);
 *     state = reply.state;
 *
 * Every call tests the state and the tables by the rules that all calls keep, before it trusts them. State and tables that break a rule
 * count as not started, whatever they hold: calls are refused with 2, and a start clears them. A change from outside that keeps the rules,
 * as a committed mark more or less, is not noticed.
 *
 * A call answers with a number in `refused`, 0 if it isn't refused. A refused call changes nothing: the tables stay as they are, and the
 * state returned is the one given. Only a commit may have finished anchors before it is refused, as many as `anchors` says; what these
 * changed stays. An outlook changes nothing at all but its buffer, and that only if it isn't refused; a refused remove writes no byte.
 *
 * The host's fault, with undefined behaviour as in all C, is only what a callee can't see:
 *   - a null pointer with a length above 0, or a pointer that isn't aligned for uint64_t;
 *   - a length above the number of words behind the pointer, or of bytes behind a buffer;
 *   - tables, links lent to a resolution, place lists, or a buffer, that overlap each other;
 *   - what is lent that another thread writes during the call (or reads, if the call changes it).
 * Everything else is refused by number, tables of wrong lengths too.
 *
 * The calls allocate nothing, keep no pointer, and share nothing: different states with tables of their own can be used at the same time.
 * 'platform' says more on interrupts and power cuts.
 */
#ifndef COMMITTER_H
#define COMMITTER_H

#include <stddef.h>
#include <stdint.h>

#ifdef __cplusplus
#define COMMITTER_AS(type, value) static_cast<type>(value)
extern "C" {
#else
#define COMMITTER_AS(type, value) ((type)(value))
#endif

/* ---- version and layout */

/*
 * The version of this header; committer_library_version says the library's. Below 1.0 the minor number is raised if the layout, a
 * declaration or what a function answers changes, or if a function is added. From 1.0 on the major number is raised for the first three,
 * the minor number for an addition. The patch number is raised for anything else. A number that is raised sets those after it to 0.
 */
#define COMMITTER_VERSION_MAJOR 0
#define COMMITTER_VERSION_MINOR 9
#define COMMITTER_VERSION_PATCH 0

/* As text, "major.minor.patch". */
#define COMMITTER_VERSION \
    COMMITTER_QUOTED(COMMITTER_VERSION_MAJOR) "." COMMITTER_QUOTED(COMMITTER_VERSION_MINOR) "." COMMITTER_QUOTED(COMMITTER_VERSION_PATCH)
#define COMMITTER_QUOTED(number) COMMITTER_QUOTED_AS_IT_IS(number)
#define COMMITTER_QUOTED_AS_IT_IS(number) #number

/*
 * The number of the layout: types, parameters, the words of the tables, the bytes of what is lent and answered. It is raised if one of them
 * changes. The library has a function whose name ends with its layout's number, and every translation unit with this header refers to that
 * of this number. So a library of another layout doesn't link, and the linker says which function it doesn't have: committer_layout_2.
 * A host that stores state and tables and goes on with them after an update stores this number too: words of another layout may pass the
 * tests of a call.
 *
 * A translation unit that takes no function of the library, as a program that only reads records, defines COMMITTER_TYPES_ONLY before it
 * includes this header. Functions of the library aren't declared then, and it links without the library.
 */
#define COMMITTER_LAYOUT 2

/* ---- platform */

/*
 * The library is one ELF object for x86-64 with the System V calling convention; `.ci/build` writes no other. It has some 45 KB of
 * position-independent code and constants, and no variables. It uses SSE2, which must be enabled, and nothing beyond it.
 *
 * It needs from outside: memcpy, memset.
 * Its global symbols are the functions that are declared here. host/check.sh compares both lists with the library.
 *
 * Interrupts: a call may be interrupted, and the handler may make calls on a state and tables of its own. What the interrupted call was
 * lent it may not change, nor read where that call changes it. It saves the registers that it changes, those of SSE2 too. It may run on the
 * same stack, 128 bytes below the stack pointer if it may interrupt one of the functions that use those bytes, as the convention allows.
 * It keeps something below the stack pointer in: committer_write_resolve.
 *
 * Power cuts: a call isn't atomic. It changes the tables word by word, and the state that goes with them is in its reply. Tables that a
 * call left halfway, with the state that it was given, may be refused with 2, but may pass the tests as well: after a name one point may
 * stand in the order in another's stead, after a commit points may be marked as committed that stand in no record. So a host whose tables
 * outlive a power cut copies tables and state before a call that changes tables, and goes on from the copy; or it keeps a trace of the
 * calls and makes them again. Round, gap question and outlook change no table.
 */

/* ---- limits */

#define COMMITTER_PLACES_MAX 4096u /* places of the tables, at least 1 */
#define COMMITTER_ROUNDS_MAX 512u /* retained rounds */
#define COMMITTER_PEERS_MAX 32u /* peers are numbered 0 to 31 */
#define COMMITTER_VERSIONS_MAX 4u /* digests of one author in one round */
#define COMMITTER_LINKS_MAX 32u /* includes of a point, and witness */
#define COMMITTER_HISTORY_MAX 255u /* history rounds (H), at least 1 */
#define COMMITTER_DEDUPLICATE_MAX 65535u /* deduplicate rounds */
#define COMMITTER_ROUND_MAX 4000000000u /* a round's number */
#define COMMITTER_MEMORY_MAX 128u /* entries of the inspector's memory */

/* ---- tables */

/*
 * The tables are arrays of 64-bit words. All four have room for the same number of places.
 *   keys   round, author, digest (4), status (0: not resolved), marks
 *   links  evidence, round, author and digest (4) of the top proof, word 7: payload_len * 2^32 + payload_bytes, 64 target words, 64
 *          digests (4 each). Link k is under peer k % 32 and leads 1 + k / 32 rounds down; its target word is 0 for no link, else 1 + the
 *          place of the point it leads to, or 1 if it led into a round that wasn't retained.
 *   certs  the certificate word
 *   order  the first state.count words are the used places, by rising round, then by rising digest
 * The host may read them between the calls.
 */
#define COMMITTER_KEY_WORDS 8u
#define COMMITTER_LINK_WORDS 328u
#define COMMITTER_CERT_WORDS 1u
#define COMMITTER_ORDER_WORDS 1u

/* The lengths of the tables, in words. */
#define COMMITTER_KEYS_LEN(places) (COMMITTER_AS(size_t, places) * COMMITTER_KEY_WORDS)
#define COMMITTER_LINKS_LEN(places) (COMMITTER_AS(size_t, places) * COMMITTER_LINK_WORDS)
#define COMMITTER_CERTS_LEN(places) (COMMITTER_AS(size_t, places) * COMMITTER_CERT_WORDS)
#define COMMITTER_ORDER_LEN(places) (COMMITTER_AS(size_t, places) * COMMITTER_ORDER_WORDS)

/*
 * The bytes of a place in all four tables, 2,704, and of tables of so many places: 11,075,584 for COMMITTER_PLACES_MAX. Beside them a host
 * holds a state, 15,432 bytes, a reply, 15,448, and the buffers that it lends.
 */
#define COMMITTER_PLACE_BYTES (8u * (COMMITTER_KEY_WORDS + COMMITTER_LINK_WORDS + COMMITTER_CERT_WORDS + COMMITTER_ORDER_WORDS))
#define COMMITTER_TABLES_BYTES(places) (COMMITTER_AS(size_t, places) * COMMITTER_PLACE_BYTES)

/* A certificate word: four flags, the height in the low 12 bits. Certified: height above 0. Proved: the top flag as well. */
#define COMMITTER_CERT_TOP 0x8000u
#define COMMITTER_CERT_STARTED 0x4000u
#define COMMITTER_CERT_COMPLETED 0x2000u
#define COMMITTER_CERT_COMMITTED 0x1000u
#define COMMITTER_CERT_HEIGHT 0x0fffu

/* ---- anchor records */

/*
 * What a commit writes for each anchor, numbers big-endian; a point id is round (4 bytes), author (1), digest (32).
 *   0    id of the anchor
 *   37   id of its proof
 *   74   executable, 1 or 0
 *   75   round of the previous anchor (4), 0 for none
 *   79   number of points n (4)
 *   83   their ids, by rising round; inside a round in the reverse of the order that its place list says (see 'place lists')
 *   83 + 37n   of each of them, in the same order, the link behind it, COMMITTER_LINK_BYTES bytes:
 *     +0       id of a point of the same record that links to it
 *     +37      the link's kind as a word (8), filled with zero bytes: `includes` if that point is one round above, `witness` if it is two
 *   83 + 82n   the sum of payload_len over them (8)
 *   91 + 82n   the sum of payload_bytes over them (8)
 * If several points of the record link to it, told is the one in the highest round, and of these the one with the lowest digest. The anchor
 * stands with its own id and the word `anchor`; any other point of the record has such a link. So the links lead from every point up to the
 * anchor, and say why it is in the record. A link of a point that isn't in the record is never told.
 */
#define COMMITTER_ID_BYTES 37u
#define COMMITTER_WORD_BYTES 8u
#define COMMITTER_LINK_BYTES (COMMITTER_ID_BYTES + COMMITTER_WORD_BYTES)
#define COMMITTER_RECORD_BYTES(points) (99u + COMMITTER_AS(size_t, points) * (COMMITTER_ID_BYTES + COMMITTER_LINK_BYTES))

/* The words, to compare COMMITTER_WORD_BYTES bytes with. */
#define COMMITTER_WORD_INCLUDES "includes"
#define COMMITTER_WORD_WITNESS "witness\0"
#define COMMITTER_WORD_ANCHOR "anchor\0\0"

/* Where the links stand, and where the two sums do. */
#define COMMITTER_LINKS_AT(points) (83u + COMMITTER_AS(size_t, points) * COMMITTER_ID_BYTES)
#define COMMITTER_SUMS_AT(points) (COMMITTER_LINKS_AT(points) + COMMITTER_AS(size_t, points) * COMMITTER_LINK_BYTES)

/* A buffer of so many bytes has room for the records of any commit: at most 511 anchors, and each point in one history at most. */
#define COMMITTER_COMMIT_MAX \
    (511u * COMMITTER_RECORD_BYTES(0) + COMMITTER_AS(size_t, COMMITTER_PLACES_MAX) * (COMMITTER_ID_BYTES + COMMITTER_LINK_BYTES))

/*
 * What an outlook writes for each anchor. Its counts suppose that the anchors before it in the same outlook have been committed.
 *   0    id of the anchor
 *   37   number of points in its history (4), as many as the commit hands out with it
 *   41   for each round of its history, from the anchor's down to committer_lowest_round, the number of points linked in it (4), the
 *        anchor and committed ones too: the length of the round's place list
 */
#define COMMITTER_LOOK_BYTES(rounds) (41u + 4u * COMMITTER_AS(size_t, rounds))

/* A buffer of so many bytes has room for any outlook: at most 511 anchors, each with a history of at most 256 rounds. */
#define COMMITTER_OUTLOOK_MAX (511u * COMMITTER_LOOK_BYTES(COMMITTER_HISTORY_MAX + 1u))

/* ---- place lists */

/*
 * What a commit is lent for the order inside a round: for each anchor, oldest first, and each round of its history, from the anchor's down
 * to committer_lowest_round, one list, end to end. The list of a round has a byte for each point linked in it: each that the anchor reaches
 * by links of points that aren't committed, the anchor and committed ones too. Byte k says which of them stands at position k after the
 * host's shuffle, counted from 0 by rising digest. The points that aren't committed come out in the reverse of that order.
 *
 * With a < b < c in a round, the list 1 2 0 says b, c, a, and they come out as a, c, b. The anchor's own round has the one byte 0; a round
 * without linked points has no byte. A round has at most 128 linked points, and an anchor's lists at most COMMITTER_PLACES_MAX bytes.
 *
 * An outlook tells how long the lists of all its anchors are, since the counts of each suppose those before it committed. So a host asks for
 * one outlook, makes the lists of all anchors and makes one commit, with no call between. The lists have as many bytes as the linked counts
 * add up to; the commit's buffer needs the sum of COMMITTER_RECORD_BYTES(n) over the anchors, n the number of points that is told. With the
 * lists of the first anchors alone, as where a commit's record of a trace has no room for more, the commit is refused with 24 after these,
 * since every anchor has a byte; the lists of the others are those of the same outlook, or of a new one. An outlook that is refused for a
 * later anchor tells no counts; they follow from the tables.
 */

/*
 * A buffer of so many bytes has room for the place lists of any commit: of each of at most 511 anchors the byte of the anchor itself, and one
 * for each link of a point, which is handed out with one anchor at most.
 */
#define COMMITTER_LISTS_MAX (511u + COMMITTER_AS(size_t, COMMITTER_PLACES_MAX) * 2u * COMMITTER_LINKS_MAX)

/* ---- what a remove answers */

/*
 * The stats of the peers, by rising number, then the events by kind, round, author (or signer) and digest.
 *   0         number of peers p (1)
 *   1         of each peer COMMITTER_PEER_BYTES bytes:
 *     +0      number of the peer (1)
 *     +1      first round (4)
 *     +5      last round (4)
 *     +9      the nine counters in the order of committer_counters (2 each)
 *     +27     score (4)
 *   1 + 31p   number of events (4)
 *   5 + 31p   the events, each after its kind (1):
 *     1 trans-invalid, 2 invalid, 3 ill-formed: COMMITTER_FAULT_BYTES bytes
 *       +1    id of the point
 *     4 equivocation: COMMITTER_FORK_BYTES(n) bytes
 *       +1    author (1)
 *       +2    round (4)
 *       +6    number of digests n (4)
 *       +10   the digests (32 each)
 *     5 evidence without inclusion: COMMITTER_EVIDENCE_BYTES(x + y) bytes
 *       +1    signer (1)
 *       +2    number of blamed points x (4)
 *       +6    their ids, all by the signer, the earlier round first
 *       +6 + 37x    number of proofs y (4)
 *       +10 + 37x   their ids
 * Inside a round all lists rise by digest.
 */
#define COMMITTER_PEER_BYTES 31u
#define COMMITTER_FAULT_BYTES (1u + COMMITTER_ID_BYTES)
#define COMMITTER_FORK_BYTES(digests) (10u + COMMITTER_AS(size_t, digests) * 32u)
#define COMMITTER_EVIDENCE_BYTES(ids) (10u + COMMITTER_AS(size_t, ids) * COMMITTER_ID_BYTES)

/* Where the number of events stands. */
#define COMMITTER_EVENTS_AT(peers) (1u + COMMITTER_AS(size_t, peers) * COMMITTER_PEER_BYTES)

#define COMMITTER_TRANS_INVALID_EVENT 1u
#define COMMITTER_INVALID_EVENT 2u
#define COMMITTER_ILL_FORMED_EVENT 3u
#define COMMITTER_EQUIVOCATED_EVENT 4u
#define COMMITTER_NO_INCLUSION_EVENT 5u

/*
 * A buffer of so many bytes has room for the answer of any remove: 5,785,509.
 *   - 32 peers and the two numbers: 5 + 32 * 31;
 *   - a point is in one event of kind 1 to 3 at most, and is one digest of an event of kind 4, which has at least two: 38 + 32 + 10 / 2;
 *   - at most 511 rounds are drained, each with an event of kind 5 for each of 32 signers: 10 bytes beside its ids;
 *   - a point, or an entry of the memory, is blamed at most twice (at its own round and at the one above it) and is a proof for each signer
 *     once at most: 2 + 32 ids of it.
 */
#define COMMITTER_REMOVE_MAX \
    (COMMITTER_EVENTS_AT(COMMITTER_PEERS_MAX) + 4u \
        + COMMITTER_AS(size_t, COMMITTER_PLACES_MAX) * (COMMITTER_FAULT_BYTES + 32u + COMMITTER_FORK_BYTES(0) / 2u) \
        + 511u * COMMITTER_PEERS_MAX * COMMITTER_EVIDENCE_BYTES(0) \
        + COMMITTER_AS(size_t, COMMITTER_PLACES_MAX + COMMITTER_MEMORY_MAX) * (2u + COMMITTER_PEERS_MAX) * COMMITTER_ID_BYTES)

/* ---- traces */

/*
 * A trace is a run of records, one for each call, numbers big-endian: the length of the rest (4), version 1 (1), kind (1), the fields of
 * the kind. Kinds: 1 start, 2 round, 3 name, 4 resolve, 5 certify, 6 commit, 7 remove, 8 drop, 9 gap question, 10 reset; an outlook has
 * none. docs/FORMATS.md has their fields. The rest is of 2 to 4,096 bytes, so a commit's record has room for 4,057 bytes of place lists, a
 * resolution's for 121 links. The program `player` plays a trace on 20 places and says its anchors and refusals; it ends with 26 at a record
 * that is cut short or of wrong length, with 27 at one of an unknown version or kind. 'writing a trace' has the functions that write records.
 */
#define COMMITTER_RECORD_MAX 4100u /* bytes: a buffer of so many has room for any record */

/* ---- numbers */

/* Statuses of a resolved point. 4 and 5 come without links and evidence. */
#define COMMITTER_VALID 1u
#define COMMITTER_TRANS_INVALID 2u
#define COMMITTER_INVALID 3u
#define COMMITTER_ILL_FORMED 4u
#define COMMITTER_NOT_FOUND 5u

/* Marks of a point. Further bits aren't read. */
#define COMMITTER_PROOF 1u
#define COMMITTER_TRIGGER 2u
#define COMMITTER_CAUSE 4u

/* `used` of a start whose bottom has no used mark. */
#define COMMITTER_NOBODY UINT32_MAX

/* The numbers of refusals; committer_refusal_text says what each means. */
enum committer_refusal {
    COMMITTER_DONE = 0,
    COMMITTER_BAD_START = 1,
    COMMITTER_WRONG_PHASE = 2,
    COMMITTER_ROUND_AHEAD = 3,
    COMMITTER_FULL = 4,
    COMMITTER_NOT_A_PEER = 5,
    COMMITTER_NOT_RETAINED = 6,
    COMMITTER_DIGEST_NAMED = 7,
    COMMITTER_FIFTH_DIGEST = 8,
    COMMITTER_NOT_NAMED = 9,
    COMMITTER_RESOLVED = 10,
    COMMITTER_BAD_INFO = 11,
    COMMITTER_LINK_NOT_NAMED = 12,
    COMMITTER_CONFLICT = 13, /* at the round in `conflict` */
    COMMITTER_POINT_MISSING = 14,
    COMMITTER_UNUSABLE = 15,
    COMMITTER_BROKEN_CHAIN = 16,
    COMMITTER_ROUNDS_MISSING = 17,
    COMMITTER_NOT_CERTIFIED = 18,
    COMMITTER_CHAIN_ENDS_EARLY = 19,
    COMMITTER_GAP_QUESTION = 20,
    COMMITTER_NO_ROOM = 21,
    COMMITTER_AT_GENESIS = 22,
    COMMITTER_REMOVE_AHEAD = 23,
    COMMITTER_BAD_LISTS = 24,
    COMMITTER_NEVER_NAMED = 25,
    COMMITTER_BAD_RECORD = 26, /* of a trace; no call's */
    COMMITTER_UNKNOWN_RECORD = 27, /* of a trace; no call's, and no function's here */
    COMMITTER_BAD_GAME = 31 /* no call's */
};

/* ---- types */

typedef struct committer_version {
    uint32_t major;
    uint32_t minor;
    uint32_t patch;
} committer_version;

/* 32 bytes as four words, the most significant first. */
typedef struct committer_digest {
    uint64_t words[4];
} committer_digest;

/* A number of 128 bits: high times 2^64, plus low. */
typedef struct committer_wide {
    uint64_t high;
    uint64_t low;
} committer_wide;

/* The generator PCG XSL RR 128/64. Any numbers will do. */
typedef struct committer_pcg {
    committer_wide state;
    committer_wide increment;
} committer_pcg;

/* A draw, and the generator to draw the next one from. */
typedef struct committer_drawn {
    uint64_t value;
    committer_pcg next;
} committer_drawn;

typedef struct committer_point_id {
    uint32_t round;
    uint32_t author;
    committer_digest digest;
} committer_point_id;

/* Who decides a game of keepers and spoilers: forced 1, keepers; forced 0 where it isn't refused, spoilers. */
typedef struct committer_reach {
    uint32_t refused; /* COMMITTER_BAD_GAME, or 0 for none */
    uint32_t forced; /* 1 for yes, else 0 */
} committer_reach;

/* A retained round: its peers (peer n is the bit of weight 2^n), and the author of its used mark plus 1, or 0 for none. */
typedef struct committer_round_record {
    uint32_t peers;
    uint32_t used_anchor_proof;
} committer_round_record;

/*
 * A trusted point of the inspector's last round: author, digest, digest of its previous point if it has one (has_previous isn't 0), and
 * the peers that signed the previous point and did not include it.
 */
typedef struct committer_entry {
    uint32_t author;
    committer_digest digest;
    uint32_t has_previous;
    committer_digest previous;
    uint32_t unreferenced_by;
} committer_entry;

/* The inspector's memory of its last round: entries rise strictly by digest, and authors are below 32. Other memory counts as not started. */
typedef struct committer_memory {
    uint32_t last;
    size_t count;
    committer_entry entries[128];
} committer_memory;

/*
 * What the host keeps between the calls. It may read it; it gives back what the last call returned.
 * Any bytes are a state. The padding is not part of it: compare states by their fields, not with memcmp.
 */
typedef struct committer_state {
    uint32_t phase; /* 1 started, 2 reset, other numbers neither */
    size_t count; /* used places */
    uint32_t genesis;
    uint32_t commit_history_rounds;
    uint32_t deduplicate_rounds;
    uint32_t bottom; /* rounds from bottom to top are retained */
    uint32_t top;
    uint32_t last_committed_proof; /* the last committed proof's round plus 1, or 0 for none */
    uint32_t last_anchor; /* the last anchor's round plus 1, or 0 for none */
    uint32_t full_history_bottom;
    uint32_t first_executable;
    uint32_t emit_first_after_gap; /* 0 disarmed, 1 before the gap question, else after it */
    committer_round_record rounds[512]; /* round r in record r % 512 */
    committer_memory memory;
} committer_state;

/* What a call answers. */
typedef struct committer_reply {
    uint32_t refused; /* enum committer_refusal, 0 for none */
    uint32_t said; /* 1 for yes, of the gap question and of a drop; else 0 */
    uint32_t anchors; /* anchors handed out, or finished before a refusal, by a commit; anchors that an outlook tells; else 0 */
    uint32_t conflict; /* the round of a history conflict (13), else 0 */
    committer_state state; /* the state after the call */
} committer_reply;

/* What a start takes. */
typedef struct committer_start_args {
    uint32_t genesis;
    uint32_t commit_history_rounds; /* H */
    uint32_t deduplicate_rounds;
    uint32_t bottom;
    uint32_t peers; /* of the bottom, as a set */
    uint32_t after_gap; /* 0 for no */
    uint32_t used; /* author of the bottom's used mark, COMMITTER_NOBODY for none */
} committer_start_args;

/* What a resolution gives, but for its links. */
typedef struct committer_resolution {
    uint32_t status;
    uint32_t marks;
    committer_point_id top_proof; /* of the top anchor proof; only its author is tested */
    uint32_t evidence; /* a set of peers */
    size_t includes; /* number of links one round down */
    size_t witness; /* number of links two rounds down */
    uint32_t payload_len; /* any number, of any status */
    uint32_t payload_bytes; /* any number, of any status */
} committer_resolution;

/* What a writer of records answers. */
typedef struct committer_written {
    uint32_t refused; /* COMMITTER_BAD_RECORD, COMMITTER_NO_ROOM, or 0 for none */
    size_t length; /* of the record, 0 if refused */
} committer_written;

/* The counters of a peer over the rounds that a remove reports. */
typedef struct committer_counters {
    uint16_t was_leader; /* rounds with its used mark */
    uint16_t skipped_rounds; /* without a point of status 1 to 4 */
    uint16_t valid_points; /* rounds with a valid point */
    uint16_t points_proved;
    uint16_t equivocated; /* points of status 1 to 4 beyond the first of a round */
    uint16_t trans_invalid_points; /* not proved, with a cause that has a DAG round */
    uint16_t invalid_points; /* not certified, with a cause that has a DAG round */
    uint16_t ill_formed_points; /* not certified */
    uint16_t references_skipped; /* proofs of points that it signed and didn't reference */
} committer_counters;

/* Words of a link that a resolution is lent: peer and digest. */
#define COMMITTER_REF_WORDS 5u

/* The layout that the library was built with. */
#if defined(__cplusplus)
#define COMMITTER_ASSERT(name, holds) static_assert(holds, #name)
#elif defined(__STDC_VERSION__) && __STDC_VERSION__ >= 201112L
#define COMMITTER_ASSERT(name, holds) _Static_assert(holds, #name)
#else
#define COMMITTER_ASSERT(name, holds) typedef char committer_assert_##name[(holds) ? 1 : -1]
#endif

COMMITTER_ASSERT(words_of_64_bits, sizeof(size_t) == 8);
COMMITTER_ASSERT(size_of_a_version, sizeof(committer_version) == 12);
COMMITTER_ASSERT(size_of_a_point_id, sizeof(committer_point_id) == 40);
COMMITTER_ASSERT(size_of_a_generator, sizeof(committer_pcg) == 32);
COMMITTER_ASSERT(size_of_a_draw, sizeof(committer_drawn) == 40);
COMMITTER_ASSERT(size_of_a_reach, sizeof(committer_reach) == 8);
COMMITTER_ASSERT(size_of_a_round_record, sizeof(committer_round_record) == 8);
COMMITTER_ASSERT(size_of_an_entry, sizeof(committer_entry) == 88);
COMMITTER_ASSERT(size_of_a_memory, sizeof(committer_memory) == 11280);
COMMITTER_ASSERT(rounds_of_a_state, offsetof(committer_state, rounds) == 56);
COMMITTER_ASSERT(memory_of_a_state, offsetof(committer_state, memory) == 4152);
COMMITTER_ASSERT(size_of_a_state, sizeof(committer_state) == 15432);
COMMITTER_ASSERT(state_of_a_reply, offsetof(committer_reply, state) == 16);
COMMITTER_ASSERT(size_of_a_reply, sizeof(committer_reply) == 15448);
COMMITTER_ASSERT(size_of_start_args, sizeof(committer_start_args) == 28);
COMMITTER_ASSERT(size_of_a_resolution, sizeof(committer_resolution) == 80);
COMMITTER_ASSERT(length_of_what_is_written, offsetof(committer_written, length) == 8);
COMMITTER_ASSERT(size_of_what_is_written, sizeof(committer_written) == 16);
COMMITTER_ASSERT(size_of_counters, sizeof(committer_counters) == 18);
COMMITTER_ASSERT(bytes_of_a_place, COMMITTER_PLACE_BYTES == 2704u);
COMMITTER_ASSERT(bytes_of_the_tables, COMMITTER_TABLES_BYTES(COMMITTER_PLACES_MAX) == 11075584u);
COMMITTER_ASSERT(bytes_of_a_remove, COMMITTER_REMOVE_MAX == 5785509u);
COMMITTER_ASSERT(bytes_of_a_link, COMMITTER_LINK_BYTES == 45u);
COMMITTER_ASSERT(bytes_of_a_record, COMMITTER_RECORD_BYTES(1) == 181u);
COMMITTER_ASSERT(bytes_of_the_words,
    sizeof(COMMITTER_WORD_INCLUDES) == COMMITTER_WORD_BYTES + 1u && sizeof(COMMITTER_WORD_WITNESS) == COMMITTER_WORD_BYTES + 1u
        && sizeof(COMMITTER_WORD_ANCHOR) == COMMITTER_WORD_BYTES + 1u);
COMMITTER_ASSERT(bytes_of_a_commit, COMMITTER_COMMIT_MAX == 386461u);
COMMITTER_ASSERT(bytes_of_an_outlook, COMMITTER_OUTLOOK_MAX == 511u * 1065u);
COMMITTER_ASSERT(bytes_of_place_lists, COMMITTER_LISTS_MAX == 262655u);

#undef COMMITTER_ASSERT

/* ---- helpers */

/* The four words of a digest's 32 bytes. */
static inline committer_digest committer_digest_of(const unsigned char *bytes)
{
    committer_digest digest = {{0, 0, 0, 0}};
    for (int i = 0; i < 4; i++) {
        for (int k = 0; k < 8; k++) {
            digest.words[i] = digest.words[i] << 8 | bytes[8 * i + k];
        }
    }
    return digest;
}

/* Writes the 32 bytes of a digest. */
static inline void committer_digest_bytes(committer_digest digest, unsigned char *bytes)
{
    for (int i = 0; i < 32; i++) {
        bytes[i] = COMMITTER_AS(unsigned char, digest.words[i / 8] >> (56 - 8 * (i % 8)));
    }
}

/*
 * The lowest round of an anchor's history: H rounds below the anchor, but above genesis and not below the bottom. The first three stand in
 * the state. The history has anchor_round + 1 - committer_lowest_round(..) rounds.
 */
static inline uint32_t committer_lowest_round(uint32_t genesis, uint32_t commit_history_rounds, uint32_t bottom, uint32_t anchor_round)
{
    uint32_t lowest = anchor_round > commit_history_rounds ? anchor_round - commit_history_rounds : 0;
    if (lowest <= genesis) {
        lowest = genesis + 1;
    }
    return lowest < bottom ? bottom : lowest;
}

/* What a number of enum committer_refusal means, in words; of a number that is none, that it is none. */
static inline const char *committer_refusal_text(uint32_t number)
{
    switch (number) {
    case COMMITTER_DONE:
        return "not refused";
    case COMMITTER_BAD_START:
        return "what a start takes, or the tables' lengths, out of range";
    case COMMITTER_WRONG_PHASE:
        return "not started, or started twice";
    case COMMITTER_ROUND_AHEAD:
        return "round beyond top + 1, or above 4,000,000,000";
    case COMMITTER_FULL:
        return "512 rounds, or no place free";
    case COMMITTER_NOT_A_PEER:
        return "author not a peer of its round";
    case COMMITTER_NOT_RETAINED:
        return "round not retained";
    case COMMITTER_DIGEST_NAMED:
        return "digest named in this round";
    case COMMITTER_FIFTH_DIGEST:
        return "a fifth digest of its author and round";
    case COMMITTER_NOT_NAMED:
        return "id not named, or trigger not resolved";
    case COMMITTER_RESOLVED:
        return "resolved already";
    case COMMITTER_BAD_INFO:
        return "what a resolution gives has a wrong form";
    case COMMITTER_LINK_NOT_NAMED:
        return "link into a retained round, not named";
    case COMMITTER_CONFLICT:
        return "history conflict";
    case COMMITTER_POINT_MISSING:
        return "point needed, named and not resolved";
    case COMMITTER_UNUSABLE:
        return "status neither usable nor certified";
    case COMMITTER_BROKEN_CHAIN:
        return "no previous point, or the sought proof isn't where and what it must be";
    case COMMITTER_ROUNDS_MISSING:
        return "limit at or above the full-history bottom, rounds missing";
    case COMMITTER_NOT_CERTIFIED:
        return "history point of height 0";
    case COMMITTER_CHAIN_ENDS_EARLY:
        return "oldest link above the walk's lowest round";
    case COMMITTER_GAP_QUESTION:
        return "gap question not put";
    case COMMITTER_NO_ROOM:
        return "answer larger than the buffer left";
    case COMMITTER_AT_GENESIS:
        return "anchor at genesis";
    case COMMITTER_REMOVE_AHEAD:
        return "remove above the last anchor handed out since the start, or none";
    case COMMITTER_BAD_LISTS:
        return "place list that isn't each place from 0 once";
    case COMMITTER_NEVER_NAMED:
        return "point needed, never named";
    case COMMITTER_BAD_RECORD:
        return "record of a trace cut short or of wrong length, or a call that has no room in one";
    case COMMITTER_UNKNOWN_RECORD:
        return "record of a trace of an unknown version or kind";
    case COMMITTER_BAD_GAME:
        return "numbers or sets of a game of keepers and spoilers out of range";
    default:
        return "not the number of a refusal";
    }
}

#ifndef COMMITTER_TYPES_ONLY

/* ---- the library's version and layout */

/* The version of the library that is linked. A host may compare it with COMMITTER_VERSION_MAJOR and the other two. */
committer_version committer_library_version(void);

/* committer_layout_2, which answers COMMITTER_LAYOUT. Nobody needs to call it. */
#define COMMITTER_LAYOUT_NAME COMMITTER_LAYOUT_NAMED(COMMITTER_LAYOUT)
#define COMMITTER_LAYOUT_NAMED(number) COMMITTER_LAYOUT_JOINED(number)
#define COMMITTER_LAYOUT_JOINED(number) committer_layout_##number
uint32_t COMMITTER_LAYOUT_NAME(void);

/* The reference to it: eight bytes of constants that compiler and linker (--gc-sections too, where `retain` is known) leave in place. */
#if defined(__has_attribute)
#if __has_attribute(retain)
#define COMMITTER_KEPT __attribute__((used, retain))
#endif
#endif
#if defined(__GNUC__) && !defined(COMMITTER_KEPT)
#define COMMITTER_KEPT __attribute__((used))
#endif
#ifdef COMMITTER_KEPT
static uint32_t (*const committer_layout_needed)(void) COMMITTER_KEPT = COMMITTER_LAYOUT_NAME;
#undef COMMITTER_KEPT
#endif

/* The bytes of stack that they take at most, as below. */
#define COMMITTER_STACK_LIBRARY_VERSION 100u
#define COMMITTER_STACK_LAYOUT 100u

/* The state before the first start. It refers to the layout as well. */
static inline committer_state committer_no_state(void)
{
#ifdef __cplusplus
    committer_state state = {};
#else
    committer_state state = {0};
#endif
    (void)COMMITTER_LAYOUT_NAME();
    return state;
}

/* ---- generator. It takes no state and no tables, and refuses nothing. */

/*
 * The generator that an anchor's digest seeds: rand_pcg's Pcg64::from_seed of its 32 bytes. Word k of the seed is word k of the digest with
 * its bytes in the other order: state low, state high, increment low, increment high; the increment's lowest bit is set.
 */
committer_pcg committer_seed(committer_digest digest);

/* The next draw: rand_pcg's next_u64, of any generator, one with an even increment too. */
committer_drawn committer_draw(committer_pcg generator);

/* The bytes of stack that they take at most, as below. */
#define COMMITTER_STACK_SEED 100u
#define COMMITTER_STACK_DRAW 100u

/* ---- keepers and spoilers. No state and no tables are taken. */

/*
 * Whether keepers can force an anchor to reach a wanted point, or spoilers can prevent it; one of the two holds. Of the peers, those in
 * `keepers` are keepers and the others spoilers. The points of the peers in `reaching` reach the wanted point now. In each of the coming
 * rounds, the last of them the anchor's, `distance` rounds from now, every peer writes one point that includes at least `quorum` points of
 * the round before, as its side likes, spoilers choosing after keepers; it reaches the wanted point if it includes one that does. The
 * anchor is the author's point of the last round. Sets have peer n as the bit of weight 2^n.
 * Refused: 31 no peers, a quorum of 0 or above their number, an author or a peer of a set that isn't one of them, a distance of 0 or above
 * 255.
 */
committer_reach committer_reach_of(
    uint32_t peers, uint32_t keepers, uint32_t quorum, uint32_t reaching, uint32_t author, uint32_t distance);

/* The bytes of stack that it takes at most, as below. */
#define COMMITTER_STACK_REACH_OF 200u

/* ---- stack */

/*
 * The bytes of stack that a call takes at most, beside its arguments and its reply, which the caller holds: a state and a reply of some
 * 15 KB each. Measured from the library as built for x86-64 (host/check.sh compares).
 */
#define COMMITTER_STACK_START 74000u
#define COMMITTER_STACK_RESET 62000u
#define COMMITTER_STACK_ROUND 82000u
#define COMMITTER_STACK_GAP 67000u
#define COMMITTER_STACK_NAME 71000u
#define COMMITTER_STACK_RESOLVE 75000u
#define COMMITTER_STACK_CERTIFY 67000u
#define COMMITTER_STACK_DROP 67000u
#define COMMITTER_STACK_COMMIT 235000u
#define COMMITTER_STACK_OUTLOOK 107000u
#define COMMITTER_STACK_REMOVE 117000u
#define COMMITTER_STACK_MERGE 100u

/* ---- calls. The numbers named are those that the call is refused with, in the order of the tests. */

/*
 * Starts on state and tables that don't count as started: the tables are zeroed, one round is retained, the bottom. The inspector's memory
 * stays if the state is what a reset returned and it rises by digest, else it is emptied.
 * Refused: 1 H of 0 or above 255, deduplicate rounds above 65,535, genesis or bottom above 4,000,000,000, bottom below genesis, used
 * author above 31, tables of no places, of more than 4,096, or of different numbers of places; 2 started already.
 */
committer_reply committer_start(committer_state state,
    uint64_t *keys, size_t keys_len, uint64_t *links, size_t links_len,
    uint64_t *certs, size_t certs_len, uint64_t *order, size_t order_len,
    committer_start_args with);

/*
 * Zeroes the tables and the state, but for the inspector's memory. A start may follow.
 * Refused: 2 not started.
 */
committer_reply committer_reset(committer_state state,
    uint64_t *keys, size_t keys_len, uint64_t *links, size_t links_len,
    uint64_t *certs, size_t certs_len, uint64_t *order, size_t order_len);

/*
 * Adds the round above the top, with its peers as a set. A round at or below the top does nothing.
 * Refused: 2 not started; 3 round beyond top + 1 or above 4,000,000,000; 4 512 rounds are retained.
 */
committer_reply committer_round(committer_state state,
    const uint64_t *keys, size_t keys_len, const uint64_t *links, size_t links_len,
    const uint64_t *certs, size_t certs_len, const uint64_t *order, size_t order_len,
    uint32_t round, uint32_t peers);

/*
 * The gap question. Says yes if it is waited for, after a start after a gap or a drop; from then on it is put, and the answer is no.
 * Refused: 2 not started.
 */
committer_reply committer_gap(committer_state state,
    const uint64_t *keys, size_t keys_len, const uint64_t *links, size_t links_len,
    const uint64_t *certs, size_t certs_len, const uint64_t *order, size_t order_len);

/*
 * Names a point: it stands in the lowest free place, not resolved.
 * Refused: 2 not started; 5 author above 31; 6 round not retained; 5 author not a peer of its round; 7 digest named in this round, by
 * whichever author; 8 the author has four digests in this round; 4 no place free.
 */
committer_reply committer_name(committer_state state,
    uint64_t *keys, size_t keys_len, const uint64_t *links, size_t links_len,
    uint64_t *certs, size_t certs_len, uint64_t *order, size_t order_len,
    committer_point_id id);

/*
 * Resolves a named point, once. refs holds its links, COMMITTER_REF_WORDS words each: peer, digest; the includes first, then the witness,
 * so refs_len is 5 * (resolution.includes + resolution.witness). Heights of certified points are handed on along the links. The point
 * holds both payload numbers; no relation between them is tested.
 * Refused: 2 not started; 5 author above 31; 6 round not retained; 5 author not a peer of its round; 9 not named; 10 resolved already;
 * 11 status not 1 to 5, over 32 links of a kind, refs_len another number, author above 31 in a link or the top proof, peers of a kind not
 * strictly rising, status 4 or 5 with links or evidence, links below round 0; 12 link into a retained round, not named.
 */
committer_reply committer_resolve(committer_state state,
    uint64_t *keys, size_t keys_len, uint64_t *links, size_t links_len,
    uint64_t *certs, size_t certs_len, const uint64_t *order, size_t order_len,
    committer_point_id id, committer_resolution resolution, const uint64_t *refs, size_t refs_len);

/*
 * Certifies a named point: it is a top of height H + 1, and heights are handed on along the links of resolved points, one less for each
 * round down. A point that isn't resolved hands its height on when it is. A second certificate changes nothing.
 * Refused: 2 not started; 5 author above 31; 6 round not retained; 5 author not a peer of its round; 9 not named.
 */
committer_reply committer_certify(committer_state state,
    const uint64_t *keys, size_t keys_len, const uint64_t *links, size_t links_len,
    uint64_t *certs, size_t certs_len, const uint64_t *order, size_t order_len,
    committer_point_id id);

/*
 * Drops the rounds below the given one, but never the top; their places are zeroed and free again. Also if nothing is dropped, histories
 * are full from H rounds above the lesser of the given round and the top on, and the gap question is waited for.
 * Says yes if the given round isn't above the top.
 * Refused: 2 not started.
 */
committer_reply committer_drop(committer_state state,
    uint64_t *keys, size_t keys_len, uint64_t *links, size_t links_len,
    uint64_t *certs, size_t certs_len, uint64_t *order, size_t order_len,
    uint32_t round);

/*
 * Commits the anchors that a trigger yields, oldest first. Their number is in `anchors`, and their records stand in the buffer one after
 * the other from its first byte on; the bytes beyond them stay as they are. The points of a history are marked as committed, the proof's
 * round gets its used mark and is that of the last proof. A point that isn't marked as trigger yields no anchors, nor does one below the
 * bottom, at genesis, or not above the last proof. `lists` holds the place lists of these anchors (see 'place lists'); bytes beyond them
 * aren't read, and without anchors none are. Lists and buffer may have any length, and may be null with the length 0.
 * A trigger that was left out is made up for by a later one whose walk seeks the first one's previous point: if no commit is refused and
 * the lists are the same for each anchor and round, the records of the later one alone are those of both in a row, byte by byte, and all that
 * is left is the same.
 * Refused by its walk, with 0 anchors: 2 not started; 5 author above 31; 6 round above the top; 5 author not a peer of its round; 9 not
 * named or not resolved; 13 history conflict, its round in `conflict`; 14 point needed, named and not resolved; 25 point needed, never
 * named: an anchor's top proof; 15 status neither usable nor certified; 16 no previous point, or the sought proof above the round walked,
 * of another author than the used mark, or not marked as proof; 19 oldest link above the walk's lowest round.
 * Refused by an anchor, with those before it finished: 22 anchor at genesis; 13, 14, 15 as above, of its history; 17 rounds of its history
 * missing; 18 point of its history not certified; 20 gap question not put; 24 one of its place lists isn't each place from 0 once, or too few
 * bytes are left for them; 21 record larger than the buffer left. The records, marks and state of the finished anchors stay, and nothing
 * else changes.
 */
committer_reply committer_commit(committer_state state,
    const uint64_t *keys, size_t keys_len, const uint64_t *links, size_t links_len,
    uint64_t *certs, size_t certs_len, const uint64_t *order, size_t order_len,
    committer_point_id id, const uint8_t *lists, size_t lists_len, uint8_t *buffer, size_t buffer_len);

/*
 * Tells which anchors a commit of this trigger would hand out, oldest first, without making it. Their number is in `anchors`, and
 * COMMITTER_LOOK_BYTES(rounds) bytes for each stand in the buffer one after the other, with the counts of its rounds at their end; the bytes
 * beyond them stay as they are. The counts of an anchor suppose that the anchors before it in the same outlook have been committed: a point
 * that the histories of two anchors reach is counted for the first, as it is handed out, and the numbers of points add up to those that the
 * commit hands out. If no call lies between and the commit isn't refused, the commit's counts are the outlook's: the same anchors with as
 * many points, and place lists as long as told; its buffer needs the sum of COMMITTER_RECORD_BYTES(n) over the anchors. Tables and state
 * stay as they are, and the gap question needn't be put. The buffer may have any length, and may be null with the length 0.
 * Refused as the commit would be, in the same order of tests, but never with 20 or 24: 2; 5, 6, 5, 9; 13, 14, 25, 15, 16; 19; then for each
 * anchor 22; 13 to 15; 17; 18; 21 no COMMITTER_LOOK_BYTES(rounds) bytes left for it. A refused outlook writes no byte, and `anchors` is 0.
 */
committer_reply committer_outlook(committer_state state,
    const uint64_t *keys, size_t keys_len, const uint64_t *links, size_t links_len,
    const uint64_t *certs, size_t certs_len, const uint64_t *order, size_t order_len,
    committer_point_id id, uint8_t *buffer, size_t buffer_len);

/*
 * Removes the rounds that the history of the given anchor doesn't reach, those more than H rounds below it, but never the top; their places
 * are zeroed and free again. What the inspector finds in them stands in the buffer (see 'what a remove answers'), the bytes beyond it stay
 * as they are; where nothing is drained, five zero bytes. Drained rounds are reported from the first executable round on, and above genesis.
 * Counters are of the peers of a reported round, from the round `since` on if has_since isn't 0, else none are counted; events don't go by
 * it. An event of kind 5 needs points of the signer at a round and at the one below it, of which the state's memory tells if it was drained
 * by an earlier call. The last anchor, the last proof, the full-history bottom and the gap flag stay.
 * The buffer may have any length, and may be null with the length 0.
 * Refused: 2 not started; 23 round above the last anchor handed out since the start, or none was; 21 answer larger than the buffer.
 */
committer_reply committer_remove(committer_state state,
    uint64_t *keys, size_t keys_len, uint64_t *links, size_t links_len,
    uint64_t *certs, size_t certs_len, uint64_t *order, size_t order_len,
    uint32_t round, uint32_t has_since, uint32_t since, uint8_t *buffer, size_t buffer_len);

/*
 * Adds the counters of another answer to those of a peer, each up to 65,535 at most, for hosts that sum several answers. `counters` is not
 * null.
 */
void committer_merge(committer_counters *counters, committer_counters other);

/* ---- writing a trace. No state and no tables are taken. */

/*
 * Each writes the record of one call from the buffer's first byte on, says its length, and leaves the bytes beyond it as they are. They
 * take what the call takes; the host writes what it calls before it calls it, and keeps the records one after the other. What is written
 * reads back as the same call, whether or not the call is refused.
 * Refused, in this order: 26 something has no room: an author, a link's peer or a status above 255, a used author of 255 or above that isn't
 * COMMITTER_NOBODY, more than 255 includes or witness, refs_len another number than 5 * (resolution.includes + resolution.witness), a rest
 * above 4,096 bytes; 21 the buffer is shorter than the record. Nothing is written then. The buffer may have any length, and may be null with
 * the length 0. It doesn't overlap links or place lists.
 */
committer_written committer_write_start(uint8_t *buffer, size_t buffer_len, committer_start_args with);

committer_written committer_write_round(uint8_t *buffer, size_t buffer_len, uint32_t round, uint32_t peers);

committer_written committer_write_name(uint8_t *buffer, size_t buffer_len, committer_point_id id);

/* Mark bits above the third are written 0. */
committer_written committer_write_resolve(uint8_t *buffer, size_t buffer_len,
    committer_point_id id, committer_resolution resolution, const uint64_t *refs, size_t refs_len);

committer_written committer_write_certify(uint8_t *buffer, size_t buffer_len, committer_point_id id);

committer_written committer_write_commit(uint8_t *buffer, size_t buffer_len,
    committer_point_id id, const uint8_t *lists, size_t lists_len);

/* With has_since 0 the round `since` is written 0. */
committer_written committer_write_remove(uint8_t *buffer, size_t buffer_len, uint32_t round, uint32_t has_since, uint32_t since);

committer_written committer_write_drop(uint8_t *buffer, size_t buffer_len, uint32_t round);

committer_written committer_write_gap(uint8_t *buffer, size_t buffer_len);

committer_written committer_write_reset(uint8_t *buffer, size_t buffer_len);

/* The bytes of stack that they take at most, as above. */
#define COMMITTER_STACK_WRITE_START 100u
#define COMMITTER_STACK_WRITE_ROUND 100u
#define COMMITTER_STACK_WRITE_NAME 100u
#define COMMITTER_STACK_WRITE_RESOLVE 200u
#define COMMITTER_STACK_WRITE_CERTIFY 100u
#define COMMITTER_STACK_WRITE_COMMIT 100u
#define COMMITTER_STACK_WRITE_REMOVE 100u
#define COMMITTER_STACK_WRITE_DROP 100u
#define COMMITTER_STACK_WRITE_GAP 100u
#define COMMITTER_STACK_WRITE_RESET 100u

#endif /* COMMITTER_TYPES_ONLY */

#ifdef __cplusplus
}
#endif

#endif
