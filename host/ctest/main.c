/*
 * Calls every function of committer.h: on full-size tables, with every refusal that there is, and on noise.
 * Writes `ok N checks`, or the first check that fails.
 */
#include <stdbool.h>
#include <stdio.h>
#include <stdlib.h>
#include <string.h>

#include "committer.h"

#define PLACES COMMITTER_PLACES_MAX
#define BOTTOM 1000u
#define TOP (BOTTOM + 511u)
#define ALL UINT32_MAX

static unsigned long checks;

static void failed(const char *file, int line, const char *what)
{
    fprintf(stderr, "%s:%d: after %lu checks: %s\n", file, line, checks, what);
    exit(1);
}

#define CHECK(holds) ((holds) ? (void)checks++ : failed(__FILE__, __LINE__, #holds))

/* ---- a board: tables of `places` places, and the state */

typedef struct {
    size_t places;
    uint64_t *keys, *links, *certs, *order;
    committer_state state;
} board;

static uint64_t *words(size_t n)
{
    uint64_t *table = calloc(n == 0 ? 1 : n, sizeof *table);
    if (table == NULL) {
        failed(__FILE__, __LINE__, "no memory");
    }
    return table;
}

static board new_board(size_t places)
{
    board b;
    b.places = places;
    b.keys = words(COMMITTER_KEYS_LEN(places));
    b.links = words(COMMITTER_LINKS_LEN(places));
    b.certs = words(COMMITTER_CERTS_LEN(places));
    b.order = words(COMMITTER_ORDER_LEN(places));
    b.state = committer_no_state();
    return b;
}

static void free_board(board *b)
{
    free(b->keys);
    free(b->links);
    free(b->certs);
    free(b->order);
}

static void copy_board(board *to, const board *from)
{
    memcpy(to->keys, from->keys, COMMITTER_KEYS_LEN(from->places) * sizeof(uint64_t));
    memcpy(to->links, from->links, COMMITTER_LINKS_LEN(from->places) * sizeof(uint64_t));
    memcpy(to->certs, from->certs, COMMITTER_CERTS_LEN(from->places) * sizeof(uint64_t));
    memcpy(to->order, from->order, COMMITTER_ORDER_LEN(from->places) * sizeof(uint64_t));
    to->state = from->state;
}

static bool same_words(const uint64_t *a, const uint64_t *b, size_t n)
{
    return memcmp(a, b, n * sizeof *a) == 0;
}

/* By fields, because padding is no part of a state. */
static bool same_entry(const committer_entry *a, const committer_entry *b)
{
    return a->author == b->author && a->has_previous == b->has_previous && a->unreferenced_by == b->unreferenced_by
        && same_words(a->digest.words, b->digest.words, 4) && same_words(a->previous.words, b->previous.words, 4);
}

static bool same_memory(const committer_memory *a, const committer_memory *b)
{
    if (a->last != b->last || a->count != b->count) {
        return false;
    }
    for (size_t i = 0; i < COMMITTER_MEMORY_MAX; i++) {
        if (!same_entry(&a->entries[i], &b->entries[i])) {
            return false;
        }
    }
    return true;
}

static bool same_state(const committer_state *a, const committer_state *b)
{
    return a->phase == b->phase && a->count == b->count && a->genesis == b->genesis
        && a->commit_history_rounds == b->commit_history_rounds && a->deduplicate_rounds == b->deduplicate_rounds
        && a->bottom == b->bottom && a->top == b->top && a->last_committed_proof == b->last_committed_proof
        && a->last_anchor == b->last_anchor && a->full_history_bottom == b->full_history_bottom
        && a->first_executable == b->first_executable && a->emit_first_after_gap == b->emit_first_after_gap
        && memcmp(a->rounds, b->rounds, sizeof a->rounds) == 0 && same_memory(&a->memory, &b->memory);
}

static bool same_board(const board *a, const board *b)
{
    return a->places == b->places && same_state(&a->state, &b->state)
        && same_words(a->keys, b->keys, COMMITTER_KEYS_LEN(a->places))
        && same_words(a->links, b->links, COMMITTER_LINKS_LEN(a->places))
        && same_words(a->certs, b->certs, COMMITTER_CERTS_LEN(a->places))
        && same_words(a->order, b->order, COMMITTER_ORDER_LEN(a->places));
}

/* ---- the calls, each keeping the state that it returns */

typedef struct {
    uint32_t refused, said;
} answer;

#define TABLES(b) \
    (b)->keys, COMMITTER_KEYS_LEN((b)->places), (b)->links, COMMITTER_LINKS_LEN((b)->places), \
        (b)->certs, COMMITTER_CERTS_LEN((b)->places), (b)->order, COMMITTER_ORDER_LEN((b)->places)

static answer keep(board *b, const committer_reply *reply)
{
    answer a = {reply->refused, reply->said};
    CHECK(reply->refused <= 12 && reply->said <= 1);
    CHECK(reply->anchors == 0 && reply->conflict == 0);
    CHECK(reply->refused == 0 || reply->said == 0);
    b->state = reply->state;
    return a;
}

static answer start(board *b, committer_start_args with)
{
    committer_reply reply = committer_start(b->state, TABLES(b), with);
    return keep(b, &reply);
}

static answer reset(board *b)
{
    committer_reply reply = committer_reset(b->state, TABLES(b));
    return keep(b, &reply);
}

static answer add_round(board *b, uint32_t round, uint32_t peers)
{
    committer_reply reply = committer_round(b->state, TABLES(b), round, peers);
    return keep(b, &reply);
}

static answer ask(board *b)
{
    committer_reply reply = committer_gap(b->state, TABLES(b));
    return keep(b, &reply);
}

static answer name(board *b, committer_point_id id)
{
    committer_reply reply = committer_name(b->state, TABLES(b), id);
    return keep(b, &reply);
}

static answer resolve(board *b, committer_point_id id, committer_resolution resolution, const uint64_t *refs, size_t refs_len)
{
    committer_reply reply = committer_resolve(b->state, TABLES(b), id, resolution, refs, refs_len);
    return keep(b, &reply);
}

static answer certify(board *b, committer_point_id id)
{
    committer_reply reply = committer_certify(b->state, TABLES(b), id);
    return keep(b, &reply);
}

static answer drop(board *b, uint32_t round)
{
    committer_reply reply = committer_drop(b->state, TABLES(b), round);
    return keep(b, &reply);
}

/* What a commit or an outlook answers besides. */
typedef struct {
    uint32_t anchors, conflict;
} handed;

static handed last_commit, last_outlook;

static answer outlook(board *b, committer_point_id id, uint8_t *buffer, size_t length)
{
    committer_reply reply = committer_outlook(b->state, TABLES(b), id, buffer, length);
    answer a = {reply.refused, reply.said};
    CHECK(reply.said == 0 && reply.refused != COMMITTER_GAP_QUESTION);
    CHECK(reply.refused <= COMMITTER_AT_GENESIS || reply.refused == COMMITTER_NEVER_NAMED);
    CHECK(reply.refused == COMMITTER_CONFLICT || reply.conflict == 0);
    CHECK(reply.refused == 0 || reply.anchors == 0);
    CHECK(same_state(&reply.state, &b->state));
    last_outlook.anchors = reply.anchors;
    last_outlook.conflict = reply.conflict;
    return a;
}

static uint32_t number_at(const uint8_t *bytes)
{
    return (uint32_t)bytes[0] << 24 | (uint32_t)bytes[1] << 16 | (uint32_t)bytes[2] << 8 | bytes[3];
}

/* The number of rounds of an anchor's history. */
static uint32_t rounds_of(const committer_state *state, uint32_t anchor)
{
    return anchor + 1 - committer_lowest_round(state->genesis, state->commit_history_rounds, state->bottom, anchor);
}

/* What a commit takes and hands out by what an outlook tells of so many anchors: points, bytes of the place lists, bytes of the records. */
typedef struct {
    size_t points, lists, records;
} sizes;

static sizes sizes_of(const committer_state *state, const uint8_t *look, uint32_t anchors)
{
    sizes all = {0, 0, 0};
    for (uint32_t i = 0; i < anchors; i++) {
        uint32_t points = number_at(look + COMMITTER_ID_BYTES), rounds = rounds_of(state, number_at(look));
        for (uint32_t n = 0; n < rounds; n++) {
            all.lists += number_at(look + COMMITTER_LOOK_BYTES(n));
        }
        all.points += points;
        all.records += COMMITTER_RECORD_BYTES(points);
        look += COMMITTER_LOOK_BYTES(rounds);
    }
    return all;
}

/* The records of a commit are those that an outlook told of: the same anchors with as many points. */
static void check_told(const committer_state *state, const uint8_t *look, const uint8_t *record, uint32_t anchors)
{
    for (uint32_t i = 0; i < anchors; i++) {
        CHECK(memcmp(look, record, COMMITTER_ID_BYTES) == 0);
        CHECK(number_at(look + COMMITTER_ID_BYTES) == number_at(record + 79));
        look += COMMITTER_LOOK_BYTES(rounds_of(state, number_at(look)));
        record += COMMITTER_RECORD_BYTES(number_at(record + 79));
    }
}

static size_t put_id(uint8_t *bytes, committer_point_id id)
{
    for (int i = 0; i < 4; i++) {
        bytes[i] = (uint8_t)(id.round >> (24 - 8 * i));
    }
    bytes[4] = (uint8_t)id.author;
    committer_digest_bytes(id.digest, bytes + 5);
    return COMMITTER_ID_BYTES;
}

static committer_point_id id_at(const uint8_t *bytes)
{
    committer_point_id id = {number_at(bytes), bytes[4], committer_digest_of(bytes + 5)};
    return id;
}

static bool same_id(committer_point_id a, committer_point_id b)
{
    return a.round == b.round && a.author == b.author && same_words(a.digest.words, b.digest.words, 4);
}

static bool is_lower(committer_digest a, committer_digest b)
{
    int i = 0;
    while (i < 3 && a.words[i] == b.words[i]) {
        i++;
    }
    return a.words[i] < b.words[i];
}

/* The words of a point's links: evidence, top proof, payload, targets, digests. */
static const uint64_t *links_of(const board *b, committer_point_id id)
{
    const uint64_t *key = b->keys;
    while (key[0] != id.round || key[1] != id.author || !same_words(key + 2, id.digest.words, 4)) {
        key += COMMITTER_KEY_WORDS;
        CHECK(key < b->keys + COMMITTER_KEYS_LEN(b->places));
    }
    return b->links + (size_t)(key - b->keys) / COMMITTER_KEY_WORDS * COMMITTER_LINK_WORDS;
}

/* Whether a point was resolved with a link to another, one round down (includes) or two (witness). */
static bool links_to(const board *b, committer_point_id by, committer_point_id to)
{
    if (by.round <= to.round || by.round > to.round + 2) {
        return false;
    }
    const uint64_t *links = links_of(b, by);
    size_t k = (by.round - to.round - 1) * COMMITTER_LINKS_MAX + to.author;
    return links[8 + k] != 0 && same_words(links + 72 + 4 * k, to.digest.words, 4);
}

/* The link behind a point. */
typedef struct {
    committer_point_id by;
    const char *word;
} behind;

/* Whether it is told before another: in a higher round, or in the same with a lower digest. */
static bool goes_before(committer_point_id a, committer_point_id b)
{
    return a.round > b.round || (a.round == b.round && is_lower(a.digest, b.digest));
}

/* The link behind the nth point of a record, sought among the ids of the record. */
static behind link_behind(const board *b, const uint8_t *record, uint32_t n)
{
    const uint8_t *ids = record + 83;
    committer_point_id to = id_at(ids + n * COMMITTER_ID_BYTES);
    behind found = {to, COMMITTER_WORD_ANCHOR};
    if (memcmp(ids + n * COMMITTER_ID_BYTES, record, COMMITTER_ID_BYTES) == 0) {
        return found;
    }
    for (uint32_t i = 0; i < number_at(record + 79); i++) {
        committer_point_id by = id_at(ids + i * COMMITTER_ID_BYTES);
        if (links_to(b, by, to) && goes_before(by, found.by)) {
            found.by = by;
        }
    }
    CHECK(!same_id(found.by, to));
    found.word = found.by.round == to.round + 1 ? COMMITTER_WORD_INCLUDES : COMMITTER_WORD_WITNESS;
    return found;
}

static size_t put_behind(uint8_t *bytes, behind link)
{
    put_id(bytes, link.by);
    memcpy(bytes + COMMITTER_ID_BYTES, link.word, COMMITTER_WORD_BYTES);
    return COMMITTER_LINK_BYTES;
}

/* The links of a record are those that are sought anew. Returns the record's length. */
static size_t check_links(const board *b, const uint8_t *record)
{
    uint32_t points = number_at(record + 79);
    for (uint32_t n = 0; n < points; n++) {
        uint8_t link[COMMITTER_LINK_BYTES];
        put_behind(link, link_behind(b, record, n));
        CHECK(memcmp(record + COMMITTER_LINKS_AT(points) + n * COMMITTER_LINK_BYTES, link, sizeof link) == 0);
    }
    return COMMITTER_RECORD_BYTES(points);
}

/* Place lists and their length. */
#define LISTS(...) (const uint8_t[]){__VA_ARGS__}, sizeof(const uint8_t[]){__VA_ARGS__}
#define NO_LISTS NULL, 0

/*
 * With an outlook before it, which says the same unless the commit says 20, 24 or 21, and has the counts of one that isn't refused. The links
 * of its records are sought anew.
 */
static answer commit(board *b, committer_point_id id, const uint8_t *lists, size_t lists_len, uint8_t *buffer, size_t length)
{
    static uint8_t large[COMMITTER_OUTLOOK_MAX];
    uint32_t told = outlook(b, id, large, sizeof large).refused;
    committer_reply reply = committer_commit(b->state, TABLES(b), id, lists, lists_len, buffer, length);
    answer a = {reply.refused, reply.said};
    CHECK(reply.said == 0 && reply.refused <= COMMITTER_NEVER_NAMED && reply.refused != COMMITTER_REMOVE_AHEAD);
    CHECK(reply.refused == COMMITTER_CONFLICT || reply.conflict == 0);
    CHECK(told != COMMITTER_NO_ROOM);
    if (reply.refused != COMMITTER_GAP_QUESTION && reply.refused != COMMITTER_BAD_LISTS && reply.refused != COMMITTER_NO_ROOM) {
        CHECK(told == reply.refused && last_outlook.conflict == reply.conflict);
        CHECK(told != 0 || last_outlook.anchors == reply.anchors);
    }
    if (reply.refused == COMMITTER_DONE) {
        sizes all = sizes_of(&b->state, large, reply.anchors);
        CHECK(all.lists <= lists_len && all.lists <= COMMITTER_LISTS_MAX && all.records <= length);
        check_told(&b->state, large, buffer, reply.anchors);
    }
    const uint8_t *record = buffer;
    for (uint32_t i = 0; i < reply.anchors; i++) {
        record += check_links(b, record);
    }
    last_commit.anchors = reply.anchors;
    last_commit.conflict = reply.conflict;
    b->state = reply.state;
    return a;
}

static answer remove_upto(board *b, uint32_t round, uint32_t has_since, uint32_t since, uint8_t *buffer, size_t length)
{
    committer_reply reply = committer_remove(b->state, TABLES(b), round, has_since, since, buffer, length);
    answer a = {reply.refused, reply.said};
    CHECK(reply.said == 0 && reply.anchors == 0 && reply.conflict == 0);
    CHECK(reply.refused == 0 || reply.refused == COMMITTER_WRONG_PHASE || reply.refused == COMMITTER_REMOVE_AHEAD
        || reply.refused == COMMITTER_NO_ROOM);
    b->state = reply.state;
    return a;
}

/* The call is refused with the number, and the board stays as it is; `spare` is a board of the same size to compare with. */
#define REFUSED(b, spare, number, call) \
    do { \
        copy_board(spare, b); \
        answer given = (call); \
        CHECK(given.refused == (number)); \
        CHECK(same_board(b, spare)); \
    } while (0)

#define DONE(call) CHECK((call).refused == 0)

/* ---- points */

/* Which word of the digest holds the author, and which the version, goes by the round, so that all four words are compared somewhere. */
static committer_point_id version(uint32_t round, uint32_t author, uint32_t n)
{
    committer_point_id id = {round, author, {{(uint64_t)round << 32, 0, 0, 0}}};
    id.digest.words[round % 4] += author;
    id.digest.words[round / 4 % 4] += (uint64_t)n << 16;
    return id;
}

static committer_point_id point(uint32_t round, uint32_t author)
{
    return version(round, author, 0);
}

static committer_resolution valid(size_t includes, size_t witness)
{
    committer_resolution resolution = {COMMITTER_VALID, 0, {0, 0, {{0, 0, 0, 0}}}, 0, includes, witness, 0, 0};
    return resolution;
}

/* The payload numbers that a point is resolved with: small ones that tell K13's points apart, else large ones. */
typedef struct {
    uint32_t len, bytes;
} payload;

static payload payload_of(committer_point_id id)
{
    static const payload k13[5][2] = {{{1, 10}, {1, 10}}, {{2, 200}, {3, 3000}}, {{4, 40000}}, {{5, 5}}, {{6, 6}}};
    if (id.round < 11 || id.round > 15 || id.author > 1) {
        return (payload){UINT32_MAX, UINT32_MAX - 1};
    }
    return k13[id.round - 11][id.author];
}

static committer_resolution paid(committer_resolution resolution, payload with)
{
    resolution.payload_len = with.len;
    resolution.payload_bytes = with.bytes;
    return resolution;
}

/* Writes a link as the five words that a resolution is lent. */
static void put_link(uint64_t *refs, size_t i, committer_point_id to)
{
    refs[i * COMMITTER_REF_WORDS] = to.author;
    memcpy(refs + i * COMMITTER_REF_WORDS + 1, to.digest.words, sizeof to.digest.words);
}

static committer_start_args beginning(uint32_t bottom)
{
    committer_start_args with = {10, 2, 0, bottom, ALL, 0, COMMITTER_NOBODY};
    return with;
}

/* A started board with the rounds up to `top`. */
static board started(size_t places, committer_start_args with, uint32_t top)
{
    board b = new_board(places);
    DONE(start(&b, with));
    for (uint32_t round = with.bottom + 1; round <= top; round++) {
        DONE(add_round(&b, round, ALL));
    }
    return b;
}

/* The certificate word of position i of the order. */
static uint64_t cert_at(const board *b, size_t i)
{
    return b->certs[b->order[i]];
}

static uint64_t height_at(const board *b, size_t i)
{
    return cert_at(b, i) & COMMITTER_CERT_HEIGHT;
}

/* ---- the version as text, said by the header in one place and made of the library's numbers */

static void check_version(void)
{
    char text[40];
    committer_version version = committer_library_version();
    snprintf(text, sizeof text, "%u.%u.%u", (unsigned)version.major, (unsigned)version.minor, (unsigned)version.patch);
    CHECK(strcmp(text, COMMITTER_VERSION) == 0);
}

/* ---- helpers of the header */

static void check_helpers(void)
{
    unsigned char bytes[32], back[32];
    for (int i = 0; i < 32; i++) {
        bytes[i] = (unsigned char)(i * 37 + 1);
    }
    committer_digest digest = committer_digest_of(bytes);
    CHECK(digest.words[0] == 0x01264b7095badf04u);
    CHECK(digest.words[3] >> 56 == bytes[24] && (digest.words[3] & 0xff) == bytes[31]);
    committer_digest_bytes(digest, back);
    CHECK(memcmp(bytes, back, sizeof bytes) == 0);
    committer_state none = committer_no_state();
    CHECK(none.phase == 0 && none.count == 0 && none.memory.entries[127].unreferenced_by == 0);
    /* H rounds below the anchor, above genesis, the bottom */
    CHECK(committer_lowest_round(10, 2, 10, 15) == 13 && committer_lowest_round(10, 255, 10, 400) == 145);
    CHECK(committer_lowest_round(10, 2, 10, 12) == 11 && committer_lowest_round(10, 255, 10, 200) == 11);
    CHECK(committer_lowest_round(10, 4, 15, 16) == 15 && committer_lowest_round(10, 4, 12, 16) == 12);
    CHECK(committer_lowest_round(0, 1, 0, 1) == 1 && committer_lowest_round(0, 255, 0, 2) == 1);
    CHECK(committer_lowest_round(COMMITTER_ROUND_MAX - 1, 1, COMMITTER_ROUND_MAX, COMMITTER_ROUND_MAX) == COMMITTER_ROUND_MAX);
}

/* ---- the generator: the PCG suite's state 42 and stream 54, and an even increment */

static void check_generator(void)
{
    static const uint64_t draws[6] = {0x86b1da1d72062b68u, 0x1304aa46c9853d39u, 0xa3670e9e0dd50358u,
        0xf9090e529a7dae00u, 0xc85b9fd837996f2cu, 0x606121f8e3919196u};
    unsigned char bytes[32] = {0x2a};
    bytes[16] = 0x6d;
    committer_pcg generator = committer_seed(committer_digest_of(bytes));
    CHECK(generator.increment.high == 0 && generator.increment.low == 0x6d);
    for (int i = 0; i < 6; i++) {
        committer_drawn drawn = committer_draw(generator);
        CHECK(drawn.value == draws[i]);
        generator = drawn.next;
    }
    committer_drawn none = committer_draw((committer_pcg){{0, 0}, {0, 0}});
    CHECK(none.value == 0 && none.next.state.high == 0 && none.next.state.low == 0 && none.next.increment.low == 0);
}

/* ---- keepers and spoilers: peers 0 and 31, of whom 31 keeps and 0 reaches */

static void check_games(void)
{
    committer_reach kept = committer_reach_of(0x80000001u, 0x80000000u, 1, 1, 31, 1);
    CHECK(kept.refused == 0 && kept.forced == 1);
    committer_reach spoilt = committer_reach_of(0x80000001u, 0x80000000u, 1, 1, 0, 255);
    CHECK(spoilt.refused == 0 && spoilt.forced == 0);
    committer_reach refused = committer_reach_of(0x80000001u, 0x80000000u, 1, 1, 0, 256);
    CHECK(refused.refused == COMMITTER_BAD_GAME && refused.forced == 0);
}

/* ---- records of a trace */

/* Where the last record was written, with some bytes behind the longest one. */
static uint8_t trace_room[COMMITTER_RECORD_MAX + 3u];
#define UNTOUCHED 0xa5

static bool untouched(size_t from)
{
    for (size_t i = from; i < sizeof trace_room; i++) {
        if (trace_room[i] != UNTOUCHED) {
            return false;
        }
    }
    return true;
}

/* The call, which takes `buffer` and `buffer_len`, with the buffer's bytes set before it. */
#define WRITE(length, call) \
    do { \
        uint8_t *buffer = trace_room; \
        size_t buffer_len = (length); \
        memset(trace_room, UNTOUCHED, sizeof trace_room); \
        written = (call); \
    } while (0)

/* The call writes just these bytes, and is refused with 21 where one byte, or all, are missing. */
#define WRITES(bytes, count, call) \
    do { \
        committer_written written; \
        WRITE(sizeof trace_room, call); \
        CHECK(written.refused == 0 && written.length == (count)); \
        CHECK(memcmp(trace_room, (bytes), (count)) == 0 && untouched(count)); \
        WRITE(count, call); \
        CHECK(written.refused == 0 && written.length == (count) && memcmp(trace_room, (bytes), (count)) == 0 && untouched(count)); \
        WRITE((count) - 1, call); \
        CHECK(written.refused == COMMITTER_NO_ROOM && written.length == 0 && untouched(0)); \
        WRITE(0, call); \
        CHECK(written.refused == COMMITTER_NO_ROOM && written.length == 0 && untouched(0)); \
    } while (0)

/* The call is refused with 26, whatever the buffer. */
#define WRITES_NOTHING(call) \
    do { \
        committer_written written; \
        WRITE(sizeof trace_room, call); \
        CHECK(written.refused == COMMITTER_BAD_RECORD && written.length == 0 && untouched(0)); \
        WRITE(0, call); \
        CHECK(written.refused == COMMITTER_BAD_RECORD && written.length == 0 && untouched(0)); \
    } while (0)

/* What a record is to be: its fields are put one after the other. */
typedef struct {
    uint8_t bytes[COMMITTER_RECORD_MAX + 100u];
    size_t length;
} trace_record;

static void field(trace_record *r, uint64_t number, size_t width)
{
    for (size_t i = 0; i < width; i++) {
        r->bytes[r->length + i] = (uint8_t)(number >> 8 * (width - 1 - i));
    }
    r->length += width;
}

static void id_field(trace_record *r, committer_point_id id)
{
    field(r, id.round, 4);
    field(r, id.author, 1);
    committer_digest_bytes(id.digest, r->bytes + r->length);
    r->length += 32;
}

static trace_record record_of(uint32_t kind)
{
    trace_record r = {{0}, 4};
    field(&r, 1, 1);
    field(&r, kind, 1);
    return r;
}

static const trace_record *ended(trace_record *r)
{
    size_t length = r->length;
    r->length = 0;
    field(r, length - 4, 4);
    r->length = length;
    return r;
}

#define WRITES_RECORD(r, call) \
    do { \
        const trace_record *expected = ended(r); \
        WRITES(expected->bytes, expected->length, call); \
    } while (0)

static committer_point_id by(uint32_t author)
{
    committer_point_id id = point(0x01020304, 7);
    id.author = author;
    return id;
}

static void check_written_starts(void)
{
    committer_start_args with = {1, 2, 0x01020304, UINT32_MAX, 5, 0, 6};
    const uint32_t used[] = {0, 31, 32, 254, COMMITTER_NOBODY}, flags[] = {0, 1, 2, 0x100, UINT32_MAX};
    for (size_t i = 0; i < 5; i++) {
        trace_record r = record_of(1);
        with.used = used[i];
        with.after_gap = flags[i];
        field(&r, 1, 4);
        field(&r, 2, 4);
        field(&r, 0x01020304, 4);
        field(&r, UINT32_MAX, 4);
        field(&r, 5, 4);
        field(&r, flags[i] != 0, 1);
        field(&r, used[i] == COMMITTER_NOBODY ? 255 : used[i], 1);
        WRITES_RECORD(&r, committer_write_start(buffer, buffer_len, with));
    }
    const uint32_t none[] = {255, 256, 0x01000000, COMMITTER_NOBODY - 1};
    for (size_t i = 0; i < 4; i++) {
        with.used = none[i];
        WRITES_NOTHING(committer_write_start(buffer, buffer_len, with));
    }
}

/* Authors to 255 are written, whether or not a call refuses them. */
static void check_written_ids(void)
{
    const uint8_t lists[] = {2, 0, 1, 255};
    const uint32_t authors[] = {0, 31, 32, 255};
    for (size_t i = 0; i < 4; i++) {
        committer_point_id id = by(authors[i]);
        trace_record named = record_of(3), certified = record_of(5), committed = record_of(6), bare = record_of(6);
        id_field(&named, id);
        WRITES_RECORD(&named, committer_write_name(buffer, buffer_len, id));
        id_field(&certified, id);
        WRITES_RECORD(&certified, committer_write_certify(buffer, buffer_len, id));
        id_field(&bare, id);
        WRITES_RECORD(&bare, committer_write_commit(buffer, buffer_len, id, NULL, 0));
        id_field(&committed, id);
        for (size_t k = 0; k < sizeof lists; k++) {
            field(&committed, lists[k], 1);
        }
        WRITES_RECORD(&committed, committer_write_commit(buffer, buffer_len, id, lists, sizeof lists));
    }
    const uint32_t above[] = {256, 0x0100001f, UINT32_MAX};
    for (size_t i = 0; i < 3; i++) {
        WRITES_NOTHING(committer_write_name(buffer, buffer_len, by(above[i])));
        WRITES_NOTHING(committer_write_certify(buffer, buffer_len, by(above[i])));
        WRITES_NOTHING(committer_write_commit(buffer, buffer_len, by(above[i]), lists, sizeof lists));
    }
}

/* 4,057 bytes of lists just fit. */
static void check_written_lists(void)
{
    static uint8_t lists[5000];
    trace_record r = record_of(6);
    id_field(&r, by(0));
    for (size_t i = 0; i < sizeof lists; i++) {
        lists[i] = (uint8_t)i;
    }
    for (size_t i = 0; i < 4057; i++) {
        field(&r, lists[i], 1);
    }
    CHECK(r.length == COMMITTER_RECORD_MAX);
    WRITES_RECORD(&r, committer_write_commit(buffer, buffer_len, by(0), lists, 4057));
    WRITES_NOTHING(committer_write_commit(buffer, buffer_len, by(0), lists, 4058));
    WRITES_NOTHING(committer_write_commit(buffer, buffer_len, by(0), lists, sizeof lists));
}

static uint64_t written_links[600 * COMMITTER_REF_WORDS];

/* The record of a resolution with that many links, of the peers that stand there. */
static trace_record resolved(committer_point_id id, committer_resolution with)
{
    trace_record r = record_of(4);
    id_field(&r, id);
    field(&r, with.status, 1);
    field(&r, with.marks % 8, 1);
    id_field(&r, with.top_proof);
    field(&r, with.evidence, 4);
    field(&r, with.includes, 1);
    field(&r, with.witness, 1);
    for (size_t i = 0; i < with.includes + with.witness; i++) {
        field(&r, written_links[5 * i], 1);
        for (size_t k = 1; k < 5; k++) {
            field(&r, written_links[5 * i + k], 8);
        }
    }
    field(&r, with.payload_len, 4);
    field(&r, with.payload_bytes, 4);
    return r;
}

#define WRITE_RESOLVE(id, with) committer_write_resolve(buffer, buffer_len, id, with, written_links, 5 * ((with).includes + (with).witness))

static void check_written_resolutions(void)
{
    const size_t fit[][2] = {{0, 0}, {1, 0}, {0, 1}, {32, 2}, {61, 60}, {121, 0}, {0, 121}};
    const size_t none[][2] = {{61, 61}, {122, 0}, {0, 122}, {255, 255}, {256, 0}, {0, 256}, {257, 1}, {300, 300}};
    for (size_t i = 0; i < 600; i++) {
        put_link(written_links, i, by((uint32_t)i % 256));
        written_links[5 * i + 4] = 0xf1e2d3c4b5a69788u + i;
    }
    committer_resolution with = valid(0, 0);
    with.top_proof = by(9);
    with.evidence = 0xdeadbeef;
    with = paid(with, (payload){0x0a0b0c0d, UINT32_MAX});
    for (size_t i = 0; i < sizeof fit / sizeof fit[0]; i++) {
        with.includes = fit[i][0];
        with.witness = fit[i][1];
        with.status = i == 0 ? 255 : (uint32_t)i;
        with.marks = (uint32_t)i;
        trace_record r = resolved(by(31), with);
        CHECK(i < 4 || r.length == 4089);
        WRITES_RECORD(&r, WRITE_RESOLVE(by(31), with));
    }
    /* mark bits that aren't read are written 0 */
    with.marks = 0xfffffffd;
    trace_record r = resolved(by(31), with);
    WRITES_RECORD(&r, WRITE_RESOLVE(by(31), with));
    for (size_t i = 0; i < sizeof none / sizeof none[0]; i++) {
        with.includes = none[i][0];
        with.witness = none[i][1];
        WRITES_NOTHING(WRITE_RESOLVE(by(31), with));
    }
}

static void check_unwritten_resolutions(void)
{
    committer_resolution with = valid(2, 1), wrong;
    WRITES_NOTHING(WRITE_RESOLVE(by(256), with));
    wrong = with;
    wrong.status = 256;
    WRITES_NOTHING(WRITE_RESOLVE(by(0), wrong));
    wrong = with;
    wrong.top_proof = by(256);
    WRITES_NOTHING(WRITE_RESOLVE(by(0), wrong));
    const uint64_t peers[] = {256, 0x100000000u, UINT64_MAX};
    for (size_t i = 0; i < 3; i++) {
        uint64_t right = written_links[10];
        written_links[10] = peers[i];
        WRITES_NOTHING(WRITE_RESOLVE(by(0), with));
        written_links[10] = right;
    }
    /* links that aren't as many as the numbers say, also where the product of a number has no room in 64 bits */
    const size_t lengths[] = {0, 1, 14, 16, 20};
    for (size_t i = 0; i < 5; i++) {
        WRITES_NOTHING(committer_write_resolve(buffer, buffer_len, by(0), with, written_links, lengths[i]));
    }
    wrong = valid(SIZE_MAX, 1);
    WRITES_NOTHING(committer_write_resolve(buffer, buffer_len, by(0), wrong, NULL, 0));
    wrong = valid((size_t)1 << 63, (size_t)1 << 63);
    WRITES_NOTHING(committer_write_resolve(buffer, buffer_len, by(0), wrong, NULL, 0));
}

static void check_written_rounds(void)
{
    const uint8_t round[] = {0, 0, 0, 10, 1, 2, 0, 0, 0, 1, 0, 0, 0, 2}, dropped[] = {0, 0, 0, 6, 1, 8, 1, 2, 3, 4};
    const uint8_t gap[] = {0, 0, 0, 2, 1, 9}, cleared[] = {0, 0, 0, 2, 1, 10};
    const uint8_t none[] = {0, 0, 0, 11, 1, 7, 0, 0, 0, 1, 0, 0, 0, 0, 0};
    const uint8_t since_two[] = {0, 0, 0, 11, 1, 7, 0, 0, 0, 1, 1, 0, 0, 0, 2};
    const uint8_t since_zero[] = {0, 0, 0, 11, 1, 7, 0, 0, 0, 1, 1, 0, 0, 0, 0};
    WRITES(round, sizeof round, committer_write_round(buffer, buffer_len, 1, 2));
    WRITES(dropped, sizeof dropped, committer_write_drop(buffer, buffer_len, 16909060));
    WRITES(gap, sizeof gap, committer_write_gap(buffer, buffer_len));
    WRITES(cleared, sizeof cleared, committer_write_reset(buffer, buffer_len));
    WRITES(none, sizeof none, committer_write_remove(buffer, buffer_len, 1, 0, 0));
    WRITES(none, sizeof none, committer_write_remove(buffer, buffer_len, 1, 0, 2));
    WRITES(since_two, sizeof since_two, committer_write_remove(buffer, buffer_len, 1, 1, 2));
    WRITES(since_two, sizeof since_two, committer_write_remove(buffer, buffer_len, 1, 0x100, 2));
    WRITES(since_zero, sizeof since_zero, committer_write_remove(buffer, buffer_len, 1, UINT32_MAX, 0));
    CHECK(committer_write_gap(NULL, 0).refused == COMMITTER_NO_ROOM);
    CHECK(committer_write_name(NULL, 0, by(256)).refused == COMMITTER_BAD_RECORD);
}

static void check_writing(void)
{
    check_written_starts();
    check_written_ids();
    check_written_lists();
    check_written_resolutions();
    check_unwritten_resolutions();
    check_written_rounds();
}

/* ---- refusals */

static void check_start_refusals(void)
{
    board b = new_board(4), spare = new_board(4);
    committer_start_args right = beginning(10), wrong[8];
    for (int i = 0; i < 8; i++) {
        wrong[i] = right;
    }
    wrong[0].commit_history_rounds = 0;
    wrong[1].commit_history_rounds = COMMITTER_HISTORY_MAX + 1;
    wrong[2].deduplicate_rounds = COMMITTER_DEDUPLICATE_MAX + 1;
    wrong[3].genesis = wrong[3].bottom = COMMITTER_ROUND_MAX + 1;
    wrong[4].bottom = COMMITTER_ROUND_MAX + 1;
    wrong[5].bottom = 9;
    wrong[6].used = 32;
    wrong[7].used = COMMITTER_NOBODY - 1;
    for (int i = 0; i < 8; i++) {
        REFUSED(&b, &spare, COMMITTER_BAD_START, start(&b, wrong[i]));
    }
    DONE(start(&b, right));
    for (int i = 0; i < 8; i++) {
        REFUSED(&b, &spare, COMMITTER_BAD_START, start(&b, wrong[i]));
    }
    REFUSED(&b, &spare, COMMITTER_WRONG_PHASE, start(&b, right));
    free_board(&b);
    free_board(&spare);
}

static void check_places(void)
{
    const size_t wrong[] = {0, PLACES + 1};
    for (int i = 0; i < 2; i++) {
        board b = new_board(wrong[i]), spare = new_board(wrong[i]);
        REFUSED(&b, &spare, COMMITTER_BAD_START, start(&b, beginning(10)));
        REFUSED(&b, &spare, COMMITTER_WRONG_PHASE, ask(&b));
        free_board(&b);
        free_board(&spare);
    }
    /* no table at all */
    committer_reply none = committer_start(committer_no_state(), NULL, 0, NULL, 0, NULL, 0, NULL, 0, beginning(10));
    CHECK(none.refused == COMMITTER_BAD_START);
    none = committer_gap(committer_no_state(), NULL, 0, NULL, 0, NULL, 0, NULL, 0);
    CHECK(none.refused == COMMITTER_WRONG_PHASE);
}

/* Lengths of different numbers of places. */
static void check_lengths(void)
{
    board b = started(4, beginning(10), 11);
    for (int table = 0; table < 4; table++) {
        for (int less = 1; less <= 4; less++) {
            size_t n[4] = {COMMITTER_KEYS_LEN(4), COMMITTER_LINKS_LEN(4), COMMITTER_CERTS_LEN(4), COMMITTER_ORDER_LEN(4)};
            n[table] -= (size_t)less;
            committer_reply first = committer_start(b.state, b.keys, n[0], b.links, n[1], b.certs, n[2], b.order, n[3], beginning(10));
            CHECK(first.refused == COMMITTER_BAD_START && same_state(&first.state, &b.state));
            committer_reply second = committer_drop(b.state, b.keys, n[0], b.links, n[1], b.certs, n[2], b.order, n[3], 11);
            CHECK(second.refused == COMMITTER_WRONG_PHASE && same_state(&second.state, &b.state));
        }
    }
    DONE(drop(&b, 11));
    free_board(&b);
}

static void check_not_started(board *b, board *spare)
{
    uint64_t refs[COMMITTER_REF_WORDS];
    put_link(refs, 0, point(10, 0));
    REFUSED(b, spare, COMMITTER_WRONG_PHASE, reset(b));
    REFUSED(b, spare, COMMITTER_WRONG_PHASE, add_round(b, 11, ALL));
    REFUSED(b, spare, COMMITTER_WRONG_PHASE, ask(b));
    REFUSED(b, spare, COMMITTER_WRONG_PHASE, name(b, point(11, 0)));
    REFUSED(b, spare, COMMITTER_WRONG_PHASE, resolve(b, point(11, 0), valid(1, 0), refs, COMMITTER_REF_WORDS));
    REFUSED(b, spare, COMMITTER_WRONG_PHASE, certify(b, point(11, 0)));
    REFUSED(b, spare, COMMITTER_WRONG_PHASE, drop(b, 11));
    uint8_t bytes[4] = {1, 2, 3, 4};
    REFUSED(b, spare, COMMITTER_WRONG_PHASE, commit(b, point(11, 0), LISTS(0), bytes, 4));
    REFUSED(b, spare, COMMITTER_WRONG_PHASE, commit(b, point(11, 0), NO_LISTS, NULL, 0));
    REFUSED(b, spare, COMMITTER_WRONG_PHASE, outlook(b, point(11, 0), bytes, 4));
    REFUSED(b, spare, COMMITTER_WRONG_PHASE, outlook(b, point(11, 0), NULL, 0));
    REFUSED(b, spare, COMMITTER_WRONG_PHASE, remove_upto(b, 11, 1, 0, bytes, 4));
    REFUSED(b, spare, COMMITTER_WRONG_PHASE, remove_upto(b, 11, 0, 0, NULL, 0));
    CHECK(bytes[0] == 1 && bytes[3] == 4 && last_commit.anchors == 0);
}

static void check_round_refusals(void)
{
    board b = started(1, beginning(COMMITTER_ROUND_MAX - 2), COMMITTER_ROUND_MAX - 2), spare = new_board(1);
    REFUSED(&b, &spare, COMMITTER_ROUND_AHEAD, add_round(&b, COMMITTER_ROUND_MAX, ALL));
    DONE(add_round(&b, COMMITTER_ROUND_MAX - 1, ALL));
    DONE(add_round(&b, COMMITTER_ROUND_MAX, ALL));
    REFUSED(&b, &spare, COMMITTER_ROUND_AHEAD, add_round(&b, COMMITTER_ROUND_MAX + 1, ALL));
    REFUSED(&b, &spare, COMMITTER_ROUND_AHEAD, add_round(&b, UINT32_MAX, ALL));
    copy_board(&spare, &b);
    DONE(add_round(&b, COMMITTER_ROUND_MAX, 0));
    DONE(add_round(&b, 0, 0));
    CHECK(same_board(&b, &spare));
    free_board(&b);
    free_board(&spare);
}

typedef answer (*by_id)(board *, committer_point_id);

static answer resolve_bare(board *b, committer_point_id id)
{
    return resolve(b, id, valid(0, 0), NULL, 0);
}

static void check_id_refusals(void)
{
    const by_id calls[] = {name, resolve_bare, certify};
    committer_start_args with = beginning(20);
    with.peers = 1u | 1u << 31;
    board b = started(4, with, 20), spare = new_board(4);
    DONE(add_round(&b, 21, 0));
    for (int i = 0; i < 3; i++) {
        by_id call = calls[i];
        REFUSED(&b, &spare, COMMITTER_NOT_A_PEER, call(&b, point(20, 32)));
        REFUSED(&b, &spare, COMMITTER_NOT_A_PEER, call(&b, point(19, UINT32_MAX)));
        REFUSED(&b, &spare, COMMITTER_NOT_RETAINED, call(&b, point(19, 0)));
        REFUSED(&b, &spare, COMMITTER_NOT_RETAINED, call(&b, point(22, 1)));
        REFUSED(&b, &spare, COMMITTER_NOT_RETAINED, call(&b, point(20 + 512, 0)));
        REFUSED(&b, &spare, COMMITTER_NOT_A_PEER, call(&b, point(20, 1)));
        REFUSED(&b, &spare, COMMITTER_NOT_A_PEER, call(&b, point(21, 0)));
    }
    REFUSED(&b, &spare, COMMITTER_NOT_NAMED, resolve_bare(&b, point(20, 31)));
    REFUSED(&b, &spare, COMMITTER_NOT_NAMED, certify(&b, point(20, 31)));
    DONE(name(&b, point(20, 31)));
    committer_point_id other = point(20, 31);
    other.author = 0;
    REFUSED(&b, &spare, COMMITTER_DIGEST_NAMED, name(&b, point(20, 31)));
    REFUSED(&b, &spare, COMMITTER_DIGEST_NAMED, name(&b, other));
    REFUSED(&b, &spare, COMMITTER_NOT_NAMED, certify(&b, other));
    for (uint32_t n = 1; n < 4; n++) {
        DONE(name(&b, version(20, 31, n)));
    }
    REFUSED(&b, &spare, COMMITTER_FIFTH_DIGEST, name(&b, version(20, 31, 4)));
    REFUSED(&b, &spare, COMMITTER_FULL, name(&b, point(20, 0)));
    free_board(&b);
    free_board(&spare);
}

static void check_info_refusals(void)
{
    enum { KIND = 33 };
    board b = started(4, beginning(20), 22), spare = new_board(4);
    committer_point_id id = point(22, 0), low = point(20, 3), mid = point(21, 4);
    uint64_t refs[2 * KIND * COMMITTER_REF_WORDS];
    committer_resolution resolution;
    DONE(name(&b, id));
    DONE(name(&b, low));
    DONE(name(&b, mid));
    for (uint32_t i = 0; i < 2 * KIND; i++) {
        put_link(refs, i, point(21, i));
    }
    const uint32_t statuses[] = {0, 6, 256, 257, UINT32_MAX};
    for (int i = 0; i < 5; i++) {
        resolution = valid(0, 0);
        resolution.status = statuses[i];
        REFUSED(&b, &spare, COMMITTER_BAD_INFO, resolve(&b, id, resolution, NULL, 0));
    }
    for (uint32_t status = 4; status <= 5; status++) {
        resolution = valid(1, 0);
        resolution.status = status;
        REFUSED(&b, &spare, COMMITTER_BAD_INFO, resolve(&b, id, resolution, refs, 5));
        resolution = valid(0, 1);
        resolution.status = status;
        REFUSED(&b, &spare, COMMITTER_BAD_INFO, resolve(&b, id, resolution, refs, 5));
        resolution = valid(0, 0);
        resolution.status = status;
        resolution.evidence = 1;
        REFUSED(&b, &spare, COMMITTER_BAD_INFO, resolve(&b, id, resolution, NULL, 0));
    }
    resolution = valid(0, 0);
    resolution.top_proof.author = 32;
    REFUSED(&b, &spare, COMMITTER_BAD_INFO, resolve(&b, id, resolution, NULL, 0));
    REFUSED(&b, &spare, COMMITTER_BAD_INFO, resolve(&b, id, valid(33, 0), refs, 33 * 5));
    REFUSED(&b, &spare, COMMITTER_BAD_INFO, resolve(&b, id, valid(0, 33), refs, 33 * 5));
    /* numbers that aren't those of the words */
    REFUSED(&b, &spare, COMMITTER_BAD_INFO, resolve(&b, id, valid(1, 0), refs, 0));
    REFUSED(&b, &spare, COMMITTER_BAD_INFO, resolve(&b, id, valid(1, 0), refs, 6));
    REFUSED(&b, &spare, COMMITTER_BAD_INFO, resolve(&b, id, valid(0, 0), refs, 5));
    REFUSED(&b, &spare, COMMITTER_BAD_INFO, resolve(&b, id, valid(SIZE_MAX, 1), refs, 0));
    REFUSED(&b, &spare, COMMITTER_BAD_INFO, resolve(&b, id, valid(SIZE_MAX / 5 + 1, 0), refs, 4));
    /* peers that don't rise, peers above 31, in either kind */
    const uint64_t peers[][2] = {{4, 4}, {5, 4}, {4, 32}, {32, 33}, {0, UINT64_MAX}, {UINT64_MAX, 0}, {4, (uint64_t)1 << 32}};
    for (int i = 0; i < 7; i++) {
        put_link(refs, 0, mid);
        put_link(refs, 1, mid);
        refs[0] = peers[i][0];
        refs[5] = peers[i][1];
        REFUSED(&b, &spare, COMMITTER_BAD_INFO, resolve(&b, id, valid(2, 0), refs, 10));
        REFUSED(&b, &spare, COMMITTER_BAD_INFO, resolve(&b, id, valid(0, 2), refs, 10));
    }
    /* links to nothing */
    put_link(refs, 0, mid);
    put_link(refs, 1, mid);
    REFUSED(&b, &spare, COMMITTER_LINK_NOT_NAMED, resolve(&b, id, valid(1, 1), refs, 10));
    put_link(refs, 0, point(21, 5));
    REFUSED(&b, &spare, COMMITTER_LINK_NOT_NAMED, resolve(&b, id, valid(1, 0), refs, 5));
    put_link(refs, 0, mid);
    put_link(refs, 1, low);
    DONE(resolve(&b, id, valid(1, 1), refs, 10));
    REFUSED(&b, &spare, COMMITTER_RESOLVED, resolve(&b, id, valid(1, 1), refs, 10));
    REFUSED(&b, &spare, COMMITTER_RESOLVED, resolve(&b, id, valid(0, 9), refs, 10));
    CHECK(b.links[8 + 4] == 3 && b.links[8 + 32 + 3] == 2);
    /* the links' places were looked up; those below the bottom aren't */
    put_link(refs, 0, point(19, 7));
    put_link(refs, 1, point(18, 7));
    DONE(resolve(&b, low, valid(1, 1), refs, 10));
    free_board(&b);
    free_board(&spare);
}

static void check_links_below_zero(void)
{
    committer_start_args with = beginning(0);
    with.genesis = 0;
    board b = started(3, with, 2), spare = new_board(3);
    uint64_t refs[5];
    for (uint32_t round = 0; round <= 2; round++) {
        DONE(name(&b, point(round, 0)));
    }
    put_link(refs, 0, point(0, 0));
    REFUSED(&b, &spare, COMMITTER_BAD_INFO, resolve(&b, point(0, 0), valid(1, 0), refs, 5));
    REFUSED(&b, &spare, COMMITTER_BAD_INFO, resolve(&b, point(0, 0), valid(0, 1), refs, 5));
    REFUSED(&b, &spare, COMMITTER_BAD_INFO, resolve(&b, point(1, 0), valid(0, 1), refs, 5));
    DONE(resolve(&b, point(1, 0), valid(1, 0), refs, 5));
    DONE(resolve(&b, point(2, 0), valid(0, 1), refs, 5));
    free_board(&b);
    free_board(&spare);
}

/* ---- full-size tables */

/* Eight of the 32 peers have points in a round, the next eight in the next. */
static committer_point_id eighth(uint32_t round, uint32_t k)
{
    return point(round, round % 4 * 8 + k);
}

/* The points of a round, each with the eight of the round below and of two below, as far as they are there. */
static void fill_round(board *b, uint32_t round, uint32_t lowest)
{
    uint64_t refs[16 * COMMITTER_REF_WORDS];
    size_t includes = round >= lowest + 1 ? 8 : 0, witness = round >= lowest + 2 ? 8 : 0;
    for (uint32_t i = 0; i < includes; i++) {
        put_link(refs, i, eighth(round - 1, i));
    }
    for (uint32_t i = 0; i < witness; i++) {
        put_link(refs, 8 + i, eighth(round - 2, i));
    }
    for (uint32_t k = 0; k < 8; k++) {
        DONE(name(b, eighth(round, k)));
        DONE(resolve(b, eighth(round, k), valid(includes, witness), refs, (includes + witness) * COMMITTER_REF_WORDS));
    }
}

/* The heights under one top, the k-th point of a round, with H 255. */
static void check_heights(const board *b, uint32_t top, uint32_t k)
{
    for (size_t i = 0; i < b->state.count; i++) {
        uint32_t round = (uint32_t)b->keys[b->order[i] * COMMITTER_KEY_WORDS];
        uint32_t author = (uint32_t)b->keys[b->order[i] * COMMITTER_KEY_WORDS + 1];
        bool is_top = round == top && author == eighth(top, k).author;
        uint32_t height = round < top || is_top ? 256 - (top - round) : 0;
        if (round < top && top - round > 255) {
            height = 0;
        }
        CHECK(height_at(b, i) == height);
        CHECK((cert_at(b, i) & COMMITTER_CERT_TOP) == (is_top ? COMMITTER_CERT_TOP : 0));
    }
}

static void check_full_size(void)
{
    committer_start_args with = {BOTTOM, 255, 65535, BOTTOM, ALL, 1, 31};
    board b = new_board(PLACES), spare = new_board(PLACES);
    check_not_started(&b, &spare);
    free_board(&b);
    b = started(PLACES, with, TOP);
    CHECK(b.state.full_history_bottom == BOTTOM && b.state.first_executable == BOTTOM + 65535);
    CHECK(b.state.rounds[BOTTOM % 512].used_anchor_proof == 32);
    REFUSED(&b, &spare, COMMITTER_FULL, add_round(&b, TOP + 1, ALL));
    REFUSED(&b, &spare, COMMITTER_ROUND_AHEAD, add_round(&b, TOP + 2, ALL));
    for (uint32_t round = BOTTOM; round <= TOP; round++) {
        fill_round(&b, round, BOTTOM);
    }
    CHECK(b.state.count == PLACES);
    REFUSED(&b, &spare, COMMITTER_FULL, name(&b, version(TOP, 0, 9)));
    REFUSED(&b, &spare, COMMITTER_FULL, add_round(&b, TOP + 1, ALL));
    REFUSED(&b, &spare, COMMITTER_WRONG_PHASE, start(&b, with));
    DONE(certify(&b, eighth(TOP, 3)));
    check_heights(&b, TOP, 3);
    copy_board(&spare, &b);
    DONE(certify(&b, eighth(TOP, 3)));
    CHECK(same_board(&b, &spare));

    CHECK(ask(&b).said == 1);
    CHECK(ask(&b).said == 0);

    /* all but 16 rounds go; other points come into the places that they leave */
    answer dropped = drop(&b, TOP - 15);
    CHECK(dropped.refused == 0 && dropped.said == 1);
    CHECK(b.state.count == 16 * 8 && b.state.bottom == TOP - 15 && b.state.full_history_bottom == TOP - 15 + 255);
    check_heights(&b, TOP, 3);
    for (uint32_t round = TOP + 1; round <= TOP + 496; round++) {
        DONE(add_round(&b, round, ALL));
        fill_round(&b, round, BOTTOM);
    }
    CHECK(b.state.count == PLACES);
    check_heights(&b, TOP, 3);
    CHECK(drop(&b, UINT32_MAX).said == 0);
    CHECK(b.state.count == 8 && b.state.bottom == TOP + 496);

    DONE(reset(&b));
    check_not_started(&b, &spare);
    CHECK(b.state.phase == 2);
    DONE(start(&b, beginning(10)));
    CHECK(b.state.count == 0 && b.state.top == 10);
    free_board(&b);
    free_board(&spare);
}

/* Entries that rise by digest; each word of the digests decides somewhere. */
static void fill_memory(committer_memory *memory, size_t count)
{
    memory->last = 9;
    memory->count = count;
    for (size_t i = 0; i < COMMITTER_MEMORY_MAX; i++) {
        committer_entry *entry = &memory->entries[i];
        entry->author = (uint32_t)(i % 32);
        entry->digest.words[0] = i / 64;
        entry->digest.words[1] = i / 16 % 4;
        entry->digest.words[2] = i / 4 % 4;
        entry->digest.words[3] = i % 4;
        entry->unreferenced_by = 77;
    }
}

/* A start after a reset keeps the inspector's memory and clears the tables; any other start clears both. */
static void check_memory(void)
{
    board b = started(3, beginning(10), 11), fresh = started(3, beginning(10), 10);
    for (int kept = 1; kept >= 0; kept--) {
        fill_memory(&b.state.memory, 128);
        DONE(reset(&b));
        committer_memory memory = b.state.memory;
        CHECK(memory.count == 128 && memory.entries[127].unreferenced_by == 77);
        memset(b.keys, 0xa5, COMMITTER_KEYS_LEN(3) * sizeof(uint64_t));
        memset(b.links, 0xa5, COMMITTER_LINKS_LEN(3) * sizeof(uint64_t));
        memset(b.certs, 0xa5, COMMITTER_CERTS_LEN(3) * sizeof(uint64_t));
        memset(b.order, 0xa5, COMMITTER_ORDER_LEN(3) * sizeof(uint64_t));
        b.state.phase = kept ? 2 : 0;
        DONE(start(&b, beginning(10)));
        CHECK(same_memory(&b.state.memory, kept ? &memory : &fresh.state.memory));
        b.state.memory = fresh.state.memory;
        CHECK(same_board(&b, &fresh));
    }
    free_board(&b);
    free_board(&fresh);
}

/* With 129 entries, an author who is no peer, equal digests or falling ones the tables count as not started; a start, after a reset too,
   empties the memory. */
static void check_broken_memory(void)
{
    board b = started(3, beginning(10), 11), spare = new_board(3), fresh = started(3, beginning(10), 10);
    for (int i = 0; i < 8; i++) {
        committer_memory *memory = &b.state.memory;
        committer_entry *entries = memory->entries;
        fill_memory(memory, 128);
        if (i % 2 == 1) {
            DONE(reset(&b));
        }
        switch (i / 2) {
        case 0:
            memory->count = 129;
            break;
        case 1:
            entries[127].author = 32;
            break;
        case 2:
            entries[64].digest = entries[63].digest;
            break;
        default:
            entries[1].digest = entries[3].digest;
        }
        check_not_started(&b, &spare);
        DONE(start(&b, beginning(10)));
        CHECK(same_board(&b, &fresh));
    }
    free_board(&b);
    free_board(&spare);
    free_board(&fresh);
}

/* K4, K5 and K9 of document 01. */
static void check_cases(void)
{
    committer_start_args with = beginning(16);
    with.commit_history_rounds = 3;
    board b = started(8, with, 20);
    uint64_t refs[5];
    DONE(name(&b, point(20, 0)));
    DONE(certify(&b, point(20, 0)));
    for (uint32_t round = 16; round <= 20; round++) {
        put_link(refs, 0, point(round - 1, 0));
        if (round < 20) {
            DONE(name(&b, point(round, 0)));
        }
        DONE(resolve(&b, point(round, 0), valid(round > 16, 0), refs, round > 16 ? 5 : 0));
    }
    for (uint32_t i = 0; i < 5; i++) {
        CHECK(height_at(&b, i) == i);
    }
    DONE(certify(&b, point(18, 0)));
    CHECK(height_at(&b, 1) == 3);
    free_board(&b);

    b = started(1, beginning(20), 30);
    answer dropped = drop(&b, 40);
    CHECK(dropped.refused == 0 && dropped.said == 0 && b.state.bottom == 30);
    free_board(&b);
}

/* ---- commits */

/* Names a point and resolves it so, with its payload numbers; its links lead to these points, the includes first. */
static void put_linked(board *b, committer_point_id id, committer_resolution resolution, const committer_point_id *to)
{
    uint64_t refs[4 * COMMITTER_REF_WORDS];
    size_t count = resolution.includes + resolution.witness;
    CHECK(count <= 4);
    for (size_t i = 0; i < count; i++) {
        put_link(refs, i, to[i]);
    }
    DONE(name(b, id));
    DONE(resolve(b, id, paid(resolution, payload_of(id)), refs, count * COMMITTER_REF_WORDS));
}

/* With up to two includes. */
static void put(board *b, committer_point_id id, uint32_t status, uint32_t marks, committer_point_id top, size_t includes,
    committer_point_id first, committer_point_id second)
{
    committer_resolution resolution = valid(includes, 0);
    resolution.status = status;
    resolution.marks = marks;
    resolution.top_proof = top;
    put_linked(b, id, resolution, (const committer_point_id[]){first, second});
}

static void put_one(board *b, committer_point_id id, uint32_t marks, committer_point_id top, committer_point_id below)
{
    put(b, id, COMMITTER_VALID, marks, top, 1, below, below);
}

static size_t put_wide(uint8_t *bytes, uint64_t number)
{
    for (int i = 0; i < 8; i++) {
        bytes[i] = (uint8_t)(number >> (56 - 8 * i));
    }
    return 8;
}

/*
 * The record of an anchor on this board, proved one round above it by the same author, with the links that are sought anew and the sums over
 * what its points were resolved with.
 */
static size_t put_record(
    const board *b, uint8_t *bytes, committer_point_id anchor, uint32_t previous, const committer_point_id *points, uint8_t count)
{
    uint8_t *end = bytes;
    end += put_id(end, anchor);
    end += put_id(end, point(anchor.round + 1, anchor.author));
    const uint8_t middle[9] = {1, (uint8_t)(previous >> 24), (uint8_t)(previous >> 16), (uint8_t)(previous >> 8), (uint8_t)previous, 0, 0, 0, count};
    memcpy(end, middle, sizeof middle);
    end += sizeof middle;
    uint64_t len = 0, sum = 0;
    for (int i = 0; i < count; i++) {
        end += put_id(end, points[i]);
        len += payload_of(points[i]).len;
        sum += payload_of(points[i]).bytes;
    }
    CHECK((size_t)(end - bytes) == COMMITTER_LINKS_AT(count));
    for (uint8_t n = 0; n < count; n++) {
        end += put_behind(end, link_behind(b, bytes, n));
    }
    CHECK((size_t)(end - bytes) == COMMITTER_SUMS_AT(count));
    end += put_wide(end, len);
    end += put_wide(end, sum);
    CHECK((size_t)(end - bytes) == COMMITTER_RECORD_BYTES(count));
    return COMMITTER_RECORD_BYTES(count);
}

static committer_start_args used_beginning(uint32_t commit_history_rounds)
{
    committer_start_args with = beginning(10);
    with.commit_history_rounds = commit_history_rounds;
    with.used = 0;
    return with;
}

/* K13 of document 01, its anchor 13.0 not certified; the trigger is 15.0. */
static board k13(uint32_t after_gap)
{
    committer_start_args with = used_beginning(2);
    with.after_gap = after_gap;
    board b = started(8, with, 15);
    committer_point_id low = point(11, 1), left = point(12, 0), right = point(12, 1), anchor = point(13, 0), proof = point(14, 0);
    put(&b, low, COMMITTER_VALID, 0, low, 0, low, low);
    put_one(&b, left, 0, low, low);
    put_one(&b, right, 0, low, low);
    put(&b, anchor, COMMITTER_VALID, 0, point(10, 0), 2, left, right);
    put_one(&b, proof, COMMITTER_PROOF, proof, anchor);
    put_one(&b, point(15, 0), COMMITTER_TRIGGER, low, proof);
    return b;
}

static void check_k13(void)
{
    enum { LENGTH = 427, MORE = 50 };
    board b = k13(0), spare = new_board(8);
    committer_point_id anchor = point(13, 0), points[4] = {point(11, 1), point(12, 0), point(12, 1), anchor};
    uint8_t bytes[LENGTH + MORE], record[LENGTH];
    memset(bytes, 0xa5, sizeof bytes);
    REFUSED(&b, &spare, COMMITTER_NOT_CERTIFIED, commit(&b, point(15, 0), NO_LISTS, bytes, sizeof bytes));
    DONE(certify(&b, anchor));
    REFUSED(&b, &spare, COMMITTER_NO_ROOM, commit(&b, point(15, 0), LISTS(0, 1, 0, 0), bytes, LENGTH - 1));
    REFUSED(&b, &spare, COMMITTER_NO_ROOM, commit(&b, point(15, 0), LISTS(0, 1, 0, 0), NULL, 0));
    CHECK(bytes[0] == 0xa5 && last_commit.anchors == 0);
    DONE(commit(&b, point(15, 0), LISTS(0, 1, 0, 0), bytes, sizeof bytes));
    CHECK(last_commit.anchors == 1);
    CHECK(put_record(&b, record, anchor, 0, points, 4) == LENGTH);
    CHECK(memcmp(bytes, record, LENGTH) == 0);
    /* 10 and 43,210 */
    static const uint8_t sums[16] = {[7] = 10, [14] = 0xa8, [15] = 0xca};
    CHECK(memcmp(bytes + 83 + 4 * 82, sums, 16) == 0);
    for (int i = 0; i < MORE; i++) {
        CHECK(bytes[LENGTH + i] == 0xa5);
    }
    for (size_t i = 0; i < 6; i++) {
        CHECK(((cert_at(&b, i) & COMMITTER_CERT_COMMITTED) != 0) == (i < 4));
    }
    CHECK(b.state.last_committed_proof == 15 && b.state.last_anchor == 14 && b.state.rounds[14].used_anchor_proof == 1);
    copy_board(&spare, &b);
    DONE(commit(&b, point(15, 0), NO_LISTS, NULL, 0));
    DONE(commit(&b, point(15, 0), LISTS(9), NULL, 0));
    CHECK(last_commit.anchors == 0 && same_board(&b, &spare));
    free_board(&b);
    free_board(&spare);
}

/* Anchors 11 and 13 with H 1; the second includes 12.1 of the given status, 0 for not resolved. */
static board two_anchors(uint32_t status)
{
    board b = started(8, used_beginning(1), 15);
    committer_point_id side = point(12, 1);
    put(&b, point(11, 0), COMMITTER_VALID, 0, point(10, 0), 0, side, side);
    put_one(&b, point(12, 0), COMMITTER_PROOF, point(12, 0), point(11, 0));
    if (status == 0) {
        DONE(name(&b, side));
    } else {
        put(&b, side, status, 0, side, 0, side, side);
    }
    put(&b, point(13, 0), COMMITTER_VALID, 0, point(12, 0), 2, point(12, 0), side);
    put_one(&b, point(14, 0), COMMITTER_PROOF, point(14, 0), point(13, 0));
    put_one(&b, point(15, 0), COMMITTER_TRIGGER, point(14, 0), point(14, 0));
    DONE(certify(&b, point(11, 0)));
    return b;
}

/* The lengths of records of one, two and three points. */
enum { ONE = 99 + 82, TWO = 99 + 2 * 82, THREE = 99 + 3 * 82 };

/* The second anchor is refused: the first one's record and marks stay, and then, with the lists after its one byte, nothing changes. */
static void check_refused_after_one(
    board *b, uint32_t number, uint32_t conflict, size_t length, const uint8_t *lists, size_t lists_len)
{
    uint8_t bytes[600], record[ONE];
    committer_point_id anchor = point(11, 0);
    board spare = new_board(8);
    memset(bytes, 0xa5, sizeof bytes);
    CHECK(commit(b, point(15, 0), lists, lists_len, bytes, length).refused == number);
    CHECK(last_commit.anchors == 1 && last_commit.conflict == conflict);
    put_record(b, record, anchor, 0, &anchor, 1);
    CHECK(memcmp(bytes, record, ONE) == 0);
    for (size_t i = ONE; i < sizeof bytes; i++) {
        CHECK(bytes[i] == 0xa5);
    }
    CHECK(b->state.last_committed_proof == 13 && b->state.rounds[12].used_anchor_proof == 1);
    CHECK((cert_at(b, 0) & COMMITTER_CERT_COMMITTED) != 0 && (cert_at(b, 1) & COMMITTER_CERT_COMMITTED) == 0);
    REFUSED(b, &spare, number, commit(b, point(15, 0), lists + 1, lists_len - 1, bytes + ONE, length - ONE));
    CHECK(last_commit.anchors == 0 && last_commit.conflict == conflict && bytes[ONE] == 0xa5);
    free_board(b);
    free_board(&spare);
}

static void check_commit_refusals(void)
{
    board b = two_anchors(COMMITTER_VALID);
    check_refused_after_one(&b, COMMITTER_NOT_CERTIFIED, 0, 600, LISTS(0, 0, 1, 0));
    b = two_anchors(COMMITTER_INVALID);
    check_refused_after_one(&b, COMMITTER_UNUSABLE, 0, 600, LISTS(0, 0, 1, 0));
    for (uint32_t status = COMMITTER_INVALID; status <= COMMITTER_NOT_FOUND; status++) {
        b = two_anchors(status);
        DONE(certify(&b, point(13, 0)));
        check_refused_after_one(&b, COMMITTER_CONFLICT, 12, 600, LISTS(0, 0, 1, 0));
    }
    b = two_anchors(0);
    DONE(certify(&b, point(13, 0)));
    check_refused_after_one(&b, COMMITTER_POINT_MISSING, 0, 600, LISTS(0, 0, 1, 0));
    for (size_t length = ONE; length < ONE + THREE; length++) {
        b = two_anchors(COMMITTER_VALID);
        DONE(certify(&b, point(13, 0)));
        check_refused_after_one(&b, COMMITTER_NO_ROOM, 0, length, LISTS(0, 0, 1, 0));
    }
    b = two_anchors(COMMITTER_VALID);
    DONE(certify(&b, point(13, 0)));
    uint8_t bytes[ONE + THREE], record[THREE];
    committer_point_id points[3] = {point(12, 0), point(12, 1), point(13, 0)};
    DONE(commit(&b, point(15, 0), LISTS(0, 0, 1, 0), bytes, sizeof bytes));
    put_record(&b, record, point(13, 0), 11, points, 3);
    CHECK(last_commit.anchors == 2 && memcmp(bytes + ONE, record, sizeof record) == 0);
    free_board(&b);
}

/* ---- outlooks */

static size_t put_number(uint8_t *bytes, uint8_t number)
{
    const uint8_t whole[4] = {0, 0, 0, number};
    memcpy(bytes, whole, sizeof whole);
    return sizeof whole;
}

/* What an outlook writes for an anchor with a history of so many rounds. */
static size_t put_look(uint8_t *bytes, committer_point_id anchor, uint8_t points, size_t rounds, const uint8_t *linked)
{
    uint8_t *end = bytes;
    end += put_id(end, anchor);
    end += put_number(end, points);
    for (size_t i = 0; i < rounds; i++) {
        end += put_number(end, linked[i]);
    }
    CHECK((size_t)(end - bytes) == COMMITTER_LOOK_BYTES(rounds));
    return COMMITTER_LOOK_BYTES(rounds);
}

/* The outlook of 15.0 with every length up to one byte more than `length`, which is needed: 21 and no byte, or `expected` and none beyond. */
static void check_lengths_of_outlook(board *b, const uint8_t *expected, size_t length, uint32_t anchors)
{
    board spare = new_board(8);
    for (size_t room = 0; room <= length + 1; room++) {
        uint8_t bytes[100];
        memset(bytes, 0xa5, sizeof bytes);
        if (room < length) {
            REFUSED(b, &spare, COMMITTER_NO_ROOM, outlook(b, point(15, 0), bytes, room));
        } else {
            copy_board(&spare, b);
            DONE(outlook(b, point(15, 0), bytes, room));
            CHECK(last_outlook.anchors == anchors && same_board(b, &spare));
            CHECK(memcmp(bytes, expected, length) == 0);
        }
        for (size_t i = room < length ? 0 : length; i < sizeof bytes; i++) {
            CHECK(bytes[i] == 0xa5);
        }
    }
    free_board(&spare);
}

/* Two anchors whose histories don't overlap; what is told of the second stays when the first is committed; a refusal by the second leaves the
 * buffer alone. */
static void check_outlooks(void)
{
    CHECK(COMMITTER_OUTLOOK_MAX == 511 * (41 + 4 * 256) && COMMITTER_OUTLOOK_MAX == 511 * 1065);
    uint8_t expected[COMMITTER_LOOK_BYTES(1) + COMMITTER_LOOK_BYTES(2)], record[ONE], bytes[100];
    board b = two_anchors(COMMITTER_VALID), spare = new_board(8);
    memset(bytes, 0xa5, sizeof bytes);
    REFUSED(&b, &spare, COMMITTER_NOT_CERTIFIED, outlook(&b, point(15, 0), bytes, sizeof bytes));
    CHECK(bytes[0] == 0xa5 && last_outlook.anchors == 0);
    DONE(certify(&b, point(13, 0)));
    size_t first = put_look(expected, point(11, 0), 1, 1, (const uint8_t[]){1});
    size_t second = put_look(expected + first, point(13, 0), 3, 2, (const uint8_t[]){1, 2});
    check_lengths_of_outlook(&b, expected, first + second, 2);
    CHECK(commit(&b, point(15, 0), LISTS(0, 0, 1, 0), record, sizeof record).refused == COMMITTER_NO_ROOM && last_commit.anchors == 1);
    check_lengths_of_outlook(&b, expected + first, second, 1);
    free_board(&b);
    b = two_anchors(COMMITTER_INVALID);
    DONE(certify(&b, point(13, 0)));
    REFUSED(&b, &spare, COMMITTER_CONFLICT, outlook(&b, point(15, 0), bytes, sizeof bytes));
    CHECK(last_outlook.conflict == 12 && bytes[0] == 0xa5);
    free_board(&b);
    free_board(&spare);
}

/* ---- place lists */

/* The anchor is refused with the number, for a buffer of any length: nothing changes, and no byte is written. */
static void check_lists_refused(board *b, uint32_t number, const uint8_t *lists, size_t lists_len)
{
    static const size_t lengths[4] = {0, 98, 427, 500};
    board spare = new_board(b->places);
    for (int i = 0; i < 4; i++) {
        uint8_t bytes[500];
        memset(bytes, 0xa5, sizeof bytes);
        REFUSED(b, &spare, number, commit(b, point(15, 0), lists, lists_len, bytes, lengths[i]));
        CHECK(last_commit.anchors == 0);
        for (size_t k = 0; k < sizeof bytes; k++) {
            CHECK(bytes[k] == 0xa5);
        }
    }
    free_board(&spare);
}

/* The commit of 15.0 hands out one anchor with these points. The board stays as it is. */
static void check_handed(const board *b, const uint8_t *lists, size_t lists_len, const committer_point_id *points, uint8_t count)
{
    uint8_t bytes[600], record[600];
    board copy = new_board(b->places);
    copy_board(&copy, b);
    size_t length = put_record(b, record, points[count - 1], 0, points, count);
    DONE(commit(&copy, point(15, 0), lists, lists_len, bytes, length));
    CHECK(last_commit.anchors == 1 && memcmp(bytes, record, length) == 0);
    free_board(&copy);
}

/* K13: both orders of round 12, bytes beyond the lists, wrong lists, the outlook's counts. */
static void check_k13_lists(void)
{
    committer_point_id low = point(11, 1), left = point(12, 0), right = point(12, 1), anchor = point(13, 0);
    const committer_point_id rising[4] = {low, left, right, anchor}, falling[4] = {low, right, left, anchor};
    for (uint32_t after_gap = 0; after_gap < 2; after_gap++) {
        board b = k13(after_gap);
        check_lists_refused(&b, COMMITTER_NOT_CERTIFIED, NO_LISTS);
        DONE(certify(&b, anchor));
        if (after_gap) {
            check_lists_refused(&b, COMMITTER_GAP_QUESTION, NO_LISTS);
            CHECK(ask(&b).said == 1);
        }
        check_handed(&b, LISTS(0, 0, 1, 0), falling, 4);
        check_handed(&b, LISTS(0, 1, 0, 0), rising, 4);
        check_handed(&b, LISTS(0, 1, 0, 0, 255, 255), rising, 4);
        check_lists_refused(&b, COMMITTER_BAD_LISTS, LISTS(0, 0, 0, 0));
        check_lists_refused(&b, COMMITTER_BAD_LISTS, LISTS(0, 2, 0, 0));
        check_lists_refused(&b, COMMITTER_BAD_LISTS, LISTS(1, 1, 0, 0));
        check_lists_refused(&b, COMMITTER_BAD_LISTS, LISTS(0, 0, 1));
        check_lists_refused(&b, COMMITTER_BAD_LISTS, NO_LISTS);
        uint8_t expected[COMMITTER_LOOK_BYTES(3)];
        size_t length = put_look(expected, anchor, 4, 3, (const uint8_t[]){1, 2, 1});
        CHECK(length == 53);
        check_lengths_of_outlook(&b, expected, length, 1);
        free_board(&b);
    }
}

/* Three points of a round under the anchor 13.0: a byte says which of them stands at its position. */
static void check_three_in_a_round(void)
{
    board b = started(8, used_beginning(2), 15);
    committer_point_id p[3] = {point(12, 0), point(12, 1), point(12, 2)}, anchor = point(13, 0);
    uint64_t refs[3 * COMMITTER_REF_WORDS];
    for (size_t i = 0; i < 3; i++) {
        put(&b, p[i], COMMITTER_VALID, 0, p[i], 0, p[i], p[i]);
        put_link(refs, i, p[i]);
    }
    committer_resolution resolution = paid(valid(3, 0), payload_of(anchor));
    resolution.top_proof = point(10, 0);
    DONE(name(&b, anchor));
    DONE(resolve(&b, anchor, resolution, refs, 3 * COMMITTER_REF_WORDS));
    put_one(&b, point(14, 0), COMMITTER_PROOF, point(14, 0), anchor);
    put_one(&b, point(15, 0), COMMITTER_TRIGGER, anchor, point(14, 0));
    DONE(certify(&b, anchor));
    check_handed(&b, LISTS(0, 1, 2, 0), (const committer_point_id[]){p[0], p[2], p[1], anchor}, 4);
    check_handed(&b, LISTS(0, 2, 0, 1), (const committer_point_id[]){p[1], p[0], p[2], anchor}, 4);
    check_handed(&b, LISTS(0, 0, 1, 2), (const committer_point_id[]){p[2], p[1], p[0], anchor}, 4);
    check_lists_refused(&b, COMMITTER_BAD_LISTS, LISTS(0, 1, 2, 1));
    check_lists_refused(&b, COMMITTER_BAD_LISTS, LISTS(0, 1, 2, 3));
    uint8_t expected[COMMITTER_LOOK_BYTES(3)];
    check_lengths_of_outlook(&b, expected, put_look(expected, anchor, 4, 3, (const uint8_t[]){1, 3, 0}), 1);
    free_board(&b);
}

/* Lists for the first anchor alone: 24 with 1 finished, then those of the second. */
static void check_anchor_by_anchor(void)
{
    board b = two_anchors(COMMITTER_VALID), whole = new_board(8);
    DONE(certify(&b, point(13, 0)));
    copy_board(&whole, &b);
    check_refused_after_one(&b, COMMITTER_BAD_LISTS, 0, 600, LISTS(0));
    static const uint8_t wrong[4][4] = {{0, 0, 1, 1}, {0, 0, 2, 0}, {0, 1, 1, 0}, {0, 0, 0, 0}};
    for (int i = 0; i < 4; i++) {
        b = new_board(8);
        copy_board(&b, &whole);
        check_refused_after_one(&b, COMMITTER_BAD_LISTS, 0, 600, wrong[i], 4);
    }
    uint8_t bytes[ONE + THREE], parts[sizeof bytes];
    b = new_board(8);
    copy_board(&b, &whole);
    CHECK(commit(&b, point(15, 0), LISTS(0), parts, sizeof parts).refused == COMMITTER_BAD_LISTS && last_commit.anchors == 1);
    DONE(commit(&b, point(15, 0), LISTS(0, 0, 1), parts + ONE, sizeof parts - ONE));
    CHECK(last_commit.anchors == 1);
    DONE(commit(&whole, point(15, 0), LISTS(0, 0, 0, 1), bytes, sizeof bytes));
    CHECK(last_commit.anchors == 2 && memcmp(bytes, parts, sizeof bytes) == 0 && same_board(&b, &whole));
    free_board(&b);
    free_board(&whole);
}

/* Anchors 11 and 13 with H 2, one point a round: the second one's lists have a byte for 11, which is committed then and isn't handed out. */
static void check_committed_ones(void)
{
    board b = started(8, used_beginning(2), 15);
    committer_point_id first = point(11, 0), second = point(13, 0), points[2] = {point(12, 0), second};
    put(&b, first, COMMITTER_VALID, 0, point(10, 0), 0, first, first);
    put_one(&b, points[0], COMMITTER_PROOF, points[0], first);
    put_one(&b, second, 0, points[0], points[0]);
    put_one(&b, point(14, 0), COMMITTER_PROOF, point(14, 0), second);
    put_one(&b, point(15, 0), COMMITTER_TRIGGER, second, point(14, 0));
    DONE(certify(&b, first));
    DONE(certify(&b, second));
    uint8_t expected[COMMITTER_LOOK_BYTES(1) + COMMITTER_LOOK_BYTES(3)], bytes[ONE + TWO], record[TWO];
    const uint8_t linked[3] = {1, 1, 1};
    size_t length = put_look(expected, first, 1, 1, linked);
    length += put_look(expected + length, second, 2, 3, linked);
    check_lengths_of_outlook(&b, expected, length, 2);
    CHECK(commit(&b, point(15, 0), LISTS(0, 0, 0), bytes, sizeof bytes).refused == COMMITTER_BAD_LISTS && last_commit.anchors == 1);
    check_lengths_of_outlook(&b, expected, put_look(expected, second, 2, 3, linked), 1);
    check_lists_refused(&b, COMMITTER_BAD_LISTS, LISTS(0, 0));
    DONE(commit(&b, point(15, 0), LISTS(0, 0, 0), bytes + ONE, sizeof bytes - ONE));
    put_record(&b, record, second, 11, points, 2);
    CHECK(last_commit.anchors == 1 && memcmp(bytes + ONE, record, sizeof record) == 0);
    free_board(&b);
}

/* Writes place lists by what an outlook tells of so many anchors, each round's from the last place down, and says their length. */
static size_t make_lists(const committer_state *state, const uint8_t *look, uint32_t anchors, uint8_t *lists)
{
    size_t length = 0;
    for (uint32_t i = 0; i < anchors; i++) {
        uint32_t rounds = rounds_of(state, number_at(look));
        for (uint32_t n = 0; n < rounds; n++) {
            for (uint32_t place = number_at(look + COMMITTER_LOOK_BYTES(n)); place > 0; place--) {
                lists[length++] = (uint8_t)(place - 1);
            }
        }
        look += COMMITTER_LOOK_BYTES(rounds);
    }
    return length;
}

/*
 * Anchors 12.0 and 14.0 with H 4, the trigger 16.0; if broad, 14.0 includes 13.1 too, which includes 12.0 and 12.1. The second history
 * reaches the first one's points, which are counted once.
 */
static board overlapping(bool broad)
{
    board b = started(10, used_beginning(4), 16);
    put(&b, point(11, 0), COMMITTER_VALID, 0, point(10, 0), 0, point(11, 0), point(11, 0));
    put_one(&b, point(12, 0), 0, point(10, 0), point(11, 0));
    put_one(&b, point(13, 0), COMMITTER_PROOF, point(13, 0), point(12, 0));
    if (broad) {
        put_one(&b, point(12, 1), 0, point(10, 0), point(11, 0));
        put(&b, point(13, 1), COMMITTER_VALID, 0, point(10, 0), 2, point(12, 0), point(12, 1));
    }
    put(&b, point(14, 0), COMMITTER_VALID, 0, point(13, 0), broad ? 2 : 1, point(13, 0), point(13, 1));
    put_one(&b, point(15, 0), COMMITTER_PROOF, point(15, 0), point(14, 0));
    put_one(&b, point(16, 0), COMMITTER_TRIGGER, point(13, 0), point(15, 0));
    DONE(certify(&b, point(14, 0)));
    return b;
}

/* The commit of 16.0 with so many bytes of lists and of buffer: refused after the first anchor, whose record is all that is written. */
static void check_short(const board *b, uint32_t number, const uint8_t *lists, size_t lists_len, const uint8_t *records, size_t length)
{
    uint8_t bytes[700];
    board copy = new_board(b->places);
    copy_board(&copy, b);
    memset(bytes, 0xa5, sizeof bytes);
    CHECK(commit(&copy, point(16, 0), lists, lists_len, bytes, length).refused == number && last_commit.anchors == 1);
    CHECK(memcmp(bytes, records, TWO) == 0);
    for (size_t i = TWO; i < sizeof bytes; i++) {
        CHECK(bytes[i] == 0xa5);
    }
    free_board(&copy);
}

/* One outlook tells the place lists and the buffer of the commit of all anchors, to the byte. */
static void check_sizes(void)
{
    static const uint8_t linked[2][4] = {{1, 1, 1, 0}, {1, 2, 2, 1}};
    static const uint8_t points[2] = {2, 4};
    static const size_t bytes_of_lists[2] = {5, 8};
    for (int broad = 0; broad < 2; broad++) {
        board b = overlapping(broad), spare = new_board(10);
        uint8_t expected[106], looks[106], lists[8], records[700];
        size_t length = put_look(expected, point(12, 0), 2, 2, (const uint8_t[]){1, 1});
        length += put_look(expected + length, point(14, 0), points[broad], 4, linked[broad]);
        CHECK(length == sizeof expected);
        for (size_t room = 0; room <= length; room++) {
            memset(looks, 0xa5, sizeof looks);
            if (room < length) {
                REFUSED(&b, &spare, COMMITTER_NO_ROOM, outlook(&b, point(16, 0), looks, room));
                CHECK(looks[0] == 0xa5 && memcmp(looks, looks + 1, sizeof looks - 1) == 0);
            } else {
                copy_board(&spare, &b);
                DONE(outlook(&b, point(16, 0), looks, room));
                CHECK(last_outlook.anchors == 2 && same_board(&b, &spare) && memcmp(looks, expected, length) == 0);
            }
        }
        sizes all = sizes_of(&b.state, looks, 2);
        CHECK(all.points == 2u + points[broad] && all.lists == bytes_of_lists[broad]);
        CHECK(all.records == COMMITTER_RECORD_BYTES(2) + COMMITTER_RECORD_BYTES(points[broad]) && all.records <= sizeof records);
        CHECK(make_lists(&b.state, looks, 2, lists) == all.lists);
        DONE(commit(&spare, point(16, 0), lists, all.lists, records, all.records));
        CHECK(last_commit.anchors == 2);
        check_short(&b, COMMITTER_NO_ROOM, lists, all.lists, records, all.records - 1);
        check_short(&b, COMMITTER_BAD_LISTS, lists, all.lists - 1, records, all.records);
        DONE(outlook(&spare, point(16, 0), NULL, 0));
        CHECK(last_outlook.anchors == 0);
        free_board(&b);
        free_board(&spare);
    }
}

/* ---- the link behind each point */

/*
 * The commit of this trigger on a copy writes one record, of these points with these links behind them. In every shorter buffer it is 21, and
 * no byte is written.
 */
static void check_behind(const board *b, committer_point_id trigger, const uint8_t *lists, size_t lists_len,
    const committer_point_id *points, const behind *links, uint8_t count)
{
    uint8_t bytes[600], record[600];
    board copy = new_board(b->places), spare = new_board(b->places);
    copy_board(&copy, b);
    size_t length = put_record(b, record, points[count - 1], 0, points, count);
    CHECK(length == 99 + 82 * (size_t)count && length < sizeof bytes);
    for (uint8_t n = 0; n < count; n++) {
        put_behind(record + 83 + 37 * count + 45 * n, links[n]);
    }
    memset(bytes, 0xa5, sizeof bytes);
    for (size_t room = 0; room < length; room++) {
        REFUSED(&copy, &spare, COMMITTER_NO_ROOM, commit(&copy, trigger, lists, lists_len, bytes, room));
    }
    CHECK(bytes[0] == 0xa5 && memcmp(bytes, bytes + 1, sizeof bytes - 1) == 0);
    DONE(commit(&copy, trigger, lists, lists_len, bytes, length));
    CHECK(last_commit.anchors == 1 && memcmp(bytes, record, length) == 0 && bytes[length] == 0xa5);
    free_board(&copy);
    free_board(&spare);
}

/*
 * List C: 11.0 and 11.1; 12.0 and 12.1 of this status, which include both; the anchor 13.0, certified, which includes 12.1, if so 12.0 too, and
 * may have the witness 11.1; its proof 14.0, the trigger 15.0.
 */
static board list_c(bool left, size_t witness, uint32_t status)
{
    board b = started(8, used_beginning(4), 15);
    const committer_point_id low[2] = {point(11, 0), point(11, 1)}, anchor = point(13, 0);
    const committer_point_id both[3] = {point(12, 0), point(12, 1), low[1]};
    committer_resolution side = valid(2, 0), over = valid(left ? 2 : 1, witness);
    side.status = status;
    over.top_proof = point(10, 0);
    put_linked(&b, low[0], valid(0, 0), NULL);
    put_linked(&b, low[1], valid(0, 0), NULL);
    put_linked(&b, both[0], valid(2, 0), low);
    put_linked(&b, both[1], side, low);
    put_linked(&b, anchor, over, left ? both : both + 1);
    put_one(&b, point(14, 0), COMMITTER_PROOF, point(14, 0), anchor);
    put_one(&b, point(15, 0), COMMITTER_TRIGGER, anchor, point(14, 0));
    DONE(certify(&b, anchor));
    return b;
}

/* The cases of document 02, N7. */
static void check_links_behind(void)
{
    CHECK(COMMITTER_WORD_BYTES == 8 && COMMITTER_LINK_BYTES == 45 && COMMITTER_LINKS_AT(4) == 231 && COMMITTER_RECORD_BYTES(5) == 509);
    const committer_point_id a = point(11, 0), low = point(11, 1), c = point(12, 0), d = point(12, 1), e = point(13, 0), trigger = point(15, 0);
    const behind by_c = {c, "includes"}, by_d = {d, "includes"}, by_e = {e, "includes"}, seen = {e, "witness\0"}, itself = {e, "anchor\0\0"};
    /* the lowest digest of the round above, and a witness before it; the other order of the lists */
    board b = list_c(true, 1, COMMITTER_VALID);
    check_behind(&b, trigger, LISTS(0, 1, 0, 1, 0), (const committer_point_id[]){a, low, c, d, e}, (const behind[]){by_c, seen, by_e, by_e, itself}, 5);
    check_behind(&b, trigger, LISTS(0, 0, 1, 0, 1), (const committer_point_id[]){low, a, d, c, e}, (const behind[]){seen, by_c, by_e, by_e, itself}, 5);
    free_board(&b);
    /* without the witness */
    b = list_c(true, 0, COMMITTER_VALID);
    check_behind(&b, trigger, LISTS(0, 1, 0, 1, 0), (const committer_point_id[]){a, low, c, d, e}, (const behind[]){by_c, by_c, by_e, by_e, itself}, 5);
    free_board(&b);
    for (uint32_t status = COMMITTER_VALID; status <= COMMITTER_TRANS_INVALID; status++) {
        /* 12.0 isn't reached, and its links don't count; 12.1 may be trans-invalid */
        b = list_c(false, 1, status);
        check_behind(&b, trigger, LISTS(0, 0, 1, 0), (const committer_point_id[]){a, low, d, e}, (const behind[]){by_d, seen, by_e, itself}, 4);
        free_board(&b);
    }
    /* a witness alone, and the anchor alone */
    for (size_t witness = 0; witness < 2; witness++) {
        b = started(8, used_beginning(2), 15);
        committer_resolution over = valid(0, witness);
        over.top_proof = point(10, 0);
        put_linked(&b, a, valid(0, 0), NULL);
        put_linked(&b, e, over, &a);
        put_one(&b, point(14, 0), COMMITTER_PROOF, point(14, 0), e);
        put_one(&b, trigger, COMMITTER_TRIGGER, e, point(14, 0));
        DONE(certify(&b, e));
        const committer_point_id points[2] = {a, e};
        const behind links[2] = {seen, itself};
        check_behind(&b, trigger, LISTS(0, 0), points + 1 - witness, links + 1 - witness, (uint8_t)(1 + witness));
        free_board(&b);
    }
}

/* Two records: 13.0 of the second links to 12.0, which stands in the first, and that link isn't told. */
static void check_links_of_two(void)
{
    board b = overlapping(false);
    uint8_t bytes[2 * TWO], links[4 * COMMITTER_LINK_BYTES];
    const behind expected[4] = {
        {point(12, 0), "includes"}, {point(12, 0), "anchor\0\0"}, {point(14, 0), "includes"}, {point(14, 0), "anchor\0\0"}};
    for (size_t n = 0; n < 4; n++) {
        put_behind(links + 45 * n, expected[n]);
    }
    DONE(commit(&b, point(16, 0), LISTS(0, 0, 0, 0, 0), bytes, sizeof bytes));
    CHECK(last_commit.anchors == 2 && memcmp(bytes + 83 + 2 * 37, links, 90) == 0);
    CHECK(memcmp(bytes + TWO + 83 + 2 * 37, links + 90, 90) == 0);
    free_board(&b);
}

/* ---- payloads */

/* Word 7 of a place. */
static uint64_t *payload_word(board *b, size_t place)
{
    return b->links + place * COMMITTER_LINK_WORDS + 7;
}

static uint64_t word_of(payload with)
{
    return (uint64_t)with.len << 32 | with.bytes;
}

/* The commit of K13 on a copy: its record ends with these sums. */
static void check_sums(const board *b, uint64_t len, uint64_t sum)
{
    uint8_t bytes[427], sums[16];
    board copy = new_board(b->places);
    copy_board(&copy, b);
    DONE(commit(&copy, point(15, 0), LISTS(0, 0, 1, 0), bytes, sizeof bytes));
    put_wide(sums, len);
    put_wide(sums + 8, sum);
    CHECK(last_commit.anchors == 1 && memcmp(bytes + COMMITTER_SUMS_AT(4), sums, sizeof sums) == 0);
    free_board(&copy);
}

/* K13: what each point holds; second and refused resolutions, statuses 4 and 5; any words. */
static void check_payloads(void)
{
    CHECK(sizeof(committer_resolution) == 80 && COMMITTER_RECORD_BYTES(4) == 427 && COMMITTER_RECORD_BYTES(0) == 99);
    CHECK(COMMITTER_SUMS_AT(4) == 411 && COMMITTER_COMMIT_MAX == 511 * 99 + 4096 * 82);
    static const payload seven = {7, 7};
    board b = k13(0), spare = new_board(8);
    DONE(certify(&b, point(13, 0)));
    for (size_t i = 0; i < 6; i++) {
        uint32_t round = (uint32_t)b.keys[i * COMMITTER_KEY_WORDS], author = (uint32_t)b.keys[i * COMMITTER_KEY_WORDS + 1];
        CHECK(*payload_word(&b, i) == word_of(payload_of(point(round, author))));
    }
    check_sums(&b, 10, 43210);
    REFUSED(&b, &spare, COMMITTER_RESOLVED, resolve(&b, point(11, 1), paid(valid(0, 0), seven), NULL, 0));
    /* a refused resolution leaves what stands there, an accepted one of any status writes both numbers */
    for (uint32_t status = COMMITTER_ILL_FORMED; status <= COMMITTER_NOT_FOUND; status++) {
        committer_point_id id = point(12, status);
        committer_resolution resolution = paid(valid(0, 0), seven);
        size_t place = b.state.count;
        DONE(name(&b, id));
        *payload_word(&b, place) = UINT64_MAX;
        resolution.status = 6;
        REFUSED(&b, &spare, COMMITTER_BAD_INFO, resolve(&b, id, resolution, NULL, 0));
        resolution.status = status;
        resolution.evidence = 1;
        REFUSED(&b, &spare, COMMITTER_BAD_INFO, resolve(&b, id, resolution, NULL, 0));
        resolution.evidence = 0;
        DONE(resolve(&b, id, resolution, NULL, 0));
        CHECK(*payload_word(&b, place) == word_of(seven));
        REFUSED(&b, &spare, COMMITTER_RESOLVED, resolve(&b, id, valid(0, 0), NULL, 0));
    }
    check_sums(&b, 10, 43210);
    uint8_t expected[COMMITTER_LOOK_BYTES(3)];
    check_lengths_of_outlook(&b, expected, put_look(expected, point(13, 0), 4, 3, (const uint8_t[]){1, 2, 1}), 1);
    /* any word is a pair of numbers, of 12.0 and of all */
    *payload_word(&b, 1) = (uint64_t)UINT32_MAX << 32;
    check_sums(&b, 8 + (uint64_t)UINT32_MAX, 43010);
    for (size_t i = 0; i < 8; i++) {
        *payload_word(&b, i) = UINT64_MAX;
    }
    check_sums(&b, 17179869180u, 17179869180u);
    for (size_t i = 0; i < 8; i++) {
        *payload_word(&b, i) = 0;
    }
    check_sums(&b, 0, 0);
    free_board(&b);
    free_board(&spare);
}

/* A drop clears the numbers of the places that it frees; a point that comes there has its own. */
static void check_freed_payloads(void)
{
    static const payload mine = {100, UINT32_MAX};
    board b = k13(0);
    CHECK(drop(&b, 14).said == 1 && b.state.count == 2);
    for (size_t i = 0; i < 4; i++) {
        CHECK(*payload_word(&b, i) == 0);
    }
    CHECK(*payload_word(&b, 4) == word_of((payload){5, 5}) && *payload_word(&b, 5) == word_of((payload){6, 6}));
    DONE(name(&b, point(15, 1)));
    CHECK(*payload_word(&b, 0) == 0);
    DONE(resolve(&b, point(15, 1), paid(valid(0, 0), mine), NULL, 0));
    CHECK(*payload_word(&b, 0) == word_of(mine));
    DONE(reset(&b));
    for (size_t i = 0; i < 8; i++) {
        CHECK(*payload_word(&b, i) == 0);
    }
    free_board(&b);
}

/* ---- removes */

static void put_evidence(board *b, committer_point_id id, uint32_t evidence, committer_point_id below)
{
    uint64_t refs[COMMITTER_REF_WORDS];
    committer_resolution resolution = valid(1, 0);
    resolution.evidence = evidence;
    put_link(refs, 0, below);
    DONE(name(b, id));
    DONE(resolve(b, id, resolution, refs, COMMITTER_REF_WORDS));
}

/* Two proofs of one previous point in round 2, signed by 1, which has a point in 2 and in 3 and references neither; an anchor in 5. */
static board to_remove(void)
{
    committer_point_id low = point(1, 0);
    committer_start_args with = beginning(2);
    with.genesis = 1;
    with.commit_history_rounds = 1;
    with.peers = 3;
    board b = new_board(8);
    DONE(start(&b, with));
    for (uint32_t round = 3; round <= 7; round++) {
        DONE(add_round(&b, round, 3));
    }
    put_evidence(&b, version(2, 0, 1), 2, low);
    put_evidence(&b, version(2, 0, 2), 2, low);
    put(&b, point(2, 1), COMMITTER_VALID, 0, low, 0, low, low);
    put(&b, point(3, 1), COMMITTER_VALID, 0, low, 0, low, low);
    put(&b, point(5, 0), COMMITTER_VALID, 0, low, 0, low, low);
    put_one(&b, point(6, 0), COMMITTER_PROOF, point(6, 0), point(5, 0));
    put_one(&b, point(7, 0), COMMITTER_TRIGGER, low, point(6, 0));
    DONE(certify(&b, point(5, 0)));
    return b;
}

static size_t put_peer(uint8_t *bytes, uint8_t peer, uint8_t first, uint8_t last, committer_counters counters, uint8_t score)
{
    const uint16_t counts[9] = {counters.was_leader, counters.skipped_rounds, counters.valid_points, counters.points_proved,
        counters.equivocated, counters.trans_invalid_points, counters.invalid_points, counters.ill_formed_points, counters.references_skipped};
    memset(bytes, 0, COMMITTER_PEER_BYTES);
    bytes[0] = peer;
    bytes[4] = first;
    bytes[8] = last;
    for (int i = 0; i < 9; i++) {
        bytes[9 + 2 * i] = (uint8_t)(counts[i] >> 8);
        bytes[10 + 2 * i] = (uint8_t)counts[i];
    }
    bytes[30] = score;
    return COMMITTER_PEER_BYTES;
}

static size_t put_event(uint8_t *bytes, uint8_t kind, uint8_t peer)
{
    bytes[0] = kind;
    bytes[1] = peer;
    return 2;
}

/* What the remove of round 5, counted from 0 on, writes: both peers, one event of kind 4 and one of kind 5. */
static size_t put_answer(uint8_t *bytes)
{
    const committer_counters zero = {.skipped_rounds = 1, .valid_points = 1, .equivocated = 1};
    const committer_counters one = {.valid_points = 2, .references_skipped = 1};
    size_t at = 0;
    bytes[at++] = 2;
    at += put_peer(bytes + at, 0, 2, 3, zero, 22);
    at += put_peer(bytes + at, 1, 2, 3, one, 1);
    CHECK(at == COMMITTER_EVENTS_AT(2));
    at += put_number(bytes + at, 2);
    size_t event = at;
    at += put_event(bytes + at, COMMITTER_EQUIVOCATED_EVENT, 0);
    at += put_number(bytes + at, 2);
    at += put_number(bytes + at, 2);
    for (uint32_t n = 1; n <= 2; n++) {
        committer_digest_bytes(version(2, 0, n).digest, bytes + at);
        at += 32;
    }
    CHECK(at - event == COMMITTER_FORK_BYTES(2));
    event = at;
    at += put_event(bytes + at, COMMITTER_NO_INCLUSION_EVENT, 1);
    at += put_number(bytes + at, 2);
    at += put_id(bytes + at, point(2, 1));
    at += put_id(bytes + at, point(3, 1));
    at += put_number(bytes + at, 1);
    at += put_id(bytes + at, version(2, 0, 2));
    CHECK(at - event == COMMITTER_EVIDENCE_BYTES(3));
    return at;
}

static void check_removes(void)
{
    CHECK(COMMITTER_REMOVE_MAX == 997 + 75 * 4096 + 320 * 511 + 37 * 34 * 4224);
    uint8_t expected[300], bytes[300];
    size_t length = put_answer(expected);
    CHECK(length == 262);
    board b = to_remove(), spare = new_board(8), after = new_board(8);
    REFUSED(&b, &spare, COMMITTER_REMOVE_AHEAD, remove_upto(&b, 5, 1, 0, bytes, sizeof bytes));
    REFUSED(&b, &spare, COMMITTER_REMOVE_AHEAD, remove_upto(&b, 0, 0, 0, NULL, 0));
    uint8_t record[ONE];
    DONE(commit(&b, point(7, 0), LISTS(0), record, sizeof record));
    REFUSED(&b, &spare, COMMITTER_REMOVE_AHEAD, remove_upto(&b, 6, 1, 0, bytes, sizeof bytes));
    REFUSED(&b, &spare, COMMITTER_REMOVE_AHEAD, remove_upto(&b, UINT32_MAX, 1, 0, NULL, 0));
    REFUSED(&b, &spare, COMMITTER_NO_ROOM, remove_upto(&b, 5, 1, 0, NULL, 0));
    /* every length up to one byte more than is needed: 21 and no byte, or the answer and no byte beyond */
    for (size_t room = 0; room <= length + 1; room++) {
        memset(bytes, 0xa5, sizeof bytes);
        if (room < length) {
            REFUSED(&b, &spare, COMMITTER_NO_ROOM, remove_upto(&b, 5, 1, 0, bytes, room));
        } else {
            copy_board(&after, &b);
            DONE(remove_upto(&after, 5, 1, 0, bytes, room));
            CHECK(memcmp(bytes, expected, length) == 0);
        }
        for (size_t i = room < length ? 0 : length; i < sizeof bytes; i++) {
            CHECK(bytes[i] == 0xa5);
        }
    }
    CHECK(after.state.bottom == 4 && after.state.top == 7 && after.state.count == 3 && after.state.last_anchor == 6);
    CHECK(after.state.memory.last == 3 && after.state.memory.count == 1 && after.state.memory.entries[0].author == 1);
    /* without a round to count from there are events alone; has_since is no only at 0 */
    copy_board(&after, &b);
    DONE(remove_upto(&after, 5, 0, 2, bytes, 200));
    CHECK(bytes[0] == 0 && memcmp(bytes + 1, expected + 63, 199) == 0);
    copy_board(&after, &b);
    DONE(remove_upto(&after, 5, UINT32_MAX, 4, bytes, 200));
    CHECK(bytes[0] == 0 && bytes[4] == 2);
    /* nothing to drain: five zero bytes, and all stays */
    copy_board(&spare, &after);
    memset(bytes, 0xa5, sizeof bytes);
    DONE(remove_upto(&after, 5, 1, 0, bytes, 5));
    CHECK(bytes[0] == 0 && bytes[1] == 0 && bytes[4] == 0 && bytes[5] == 0xa5 && same_board(&after, &spare));
    REFUSED(&after, &spare, COMMITTER_NO_ROOM, remove_upto(&after, 0, 1, 0, bytes, 4));
    free_board(&b);
    free_board(&spare);
    free_board(&after);
}

static void check_merge(void)
{
    committer_counters counters = {1, 2, 3, 4, 65535, 65530, 40000, 0, 9};
    const committer_counters other = {0, 1, 2, 3, 1, 5, 40000, 0, 65535};
    committer_merge(&counters, other);
    CHECK(counters.was_leader == 1 && counters.skipped_rounds == 3 && counters.valid_points == 5 && counters.points_proved == 7);
    CHECK(counters.equivocated == 65535 && counters.trans_invalid_points == 65535 && counters.invalid_points == 65535);
    CHECK(counters.ill_formed_points == 0 && counters.references_skipped == 65535);
}

/* Refusals of the walk and of the first anchor. */
static void check_walk_refusals(void)
{
    board b = started(8, beginning(10), 12), spare = new_board(8);
    committer_point_id low = point(10, 0), mid = point(11, 0), high = point(12, 0);
    put(&b, low, COMMITTER_VALID, 0, point(9, 0), 0, low, low);
    put_one(&b, mid, COMMITTER_PROOF, mid, low);
    put_one(&b, high, COMMITTER_TRIGGER, low, mid);
    REFUSED(&b, &spare, COMMITTER_AT_GENESIS, commit(&b, high, NO_LISTS, NULL, 0));
    put(&b, point(12, 1), COMMITTER_VALID, COMMITTER_TRIGGER, low, 0, low, low);
    REFUSED(&b, &spare, COMMITTER_BROKEN_CHAIN, commit(&b, point(12, 1), NO_LISTS, NULL, 0));
    put(&b, point(12, 2), COMMITTER_INVALID, COMMITTER_TRIGGER, low, 0, low, low);
    REFUSED(&b, &spare, COMMITTER_UNUSABLE, commit(&b, point(12, 2), NO_LISTS, NULL, 0));
    DONE(certify(&b, point(12, 2)));
    REFUSED(&b, &spare, COMMITTER_CONFLICT, commit(&b, point(12, 2), NO_LISTS, NULL, 0));
    CHECK(last_commit.conflict == 12);
    DONE(name(&b, point(12, 3)));
    REFUSED(&b, &spare, COMMITTER_NOT_NAMED, commit(&b, point(12, 3), NO_LISTS, NULL, 0));
    REFUSED(&b, &spare, COMMITTER_NOT_NAMED, commit(&b, point(12, 4), NO_LISTS, NULL, 0));
    REFUSED(&b, &spare, COMMITTER_NOT_RETAINED, commit(&b, point(13, 0), NO_LISTS, NULL, 0));
    REFUSED(&b, &spare, COMMITTER_NOT_A_PEER, commit(&b, point(13, 32), NO_LISTS, NULL, 0));
    copy_board(&spare, &b);
    DONE(commit(&b, point(9, 0), NO_LISTS, NULL, 0));
    CHECK(last_commit.anchors == 0 && same_board(&b, &spare));
    free_board(&b);

    committer_start_args with = used_beginning(1);
    with.after_gap = 1;
    b = started(8, with, 13);
    put(&b, point(11, 0), COMMITTER_VALID, 0, point(10, 0), 0, low, low);
    put_one(&b, point(12, 0), COMMITTER_PROOF, point(12, 0), point(11, 0));
    put_one(&b, point(13, 0), COMMITTER_TRIGGER, low, point(12, 0));
    DONE(certify(&b, point(11, 0)));
    REFUSED(&b, &spare, COMMITTER_GAP_QUESTION, commit(&b, point(13, 0), NO_LISTS, NULL, 0));
    uint8_t told[COMMITTER_LOOK_BYTES(1)];
    REFUSED(&b, &spare, COMMITTER_NO_ROOM, outlook(&b, point(13, 0), told, sizeof told - 1));
    DONE(outlook(&b, point(13, 0), told, sizeof told));
    CHECK(last_outlook.anchors == 1 && told[40] == 1 && told[44] == 1);
    CHECK(ask(&b).said == 1);
    REFUSED(&b, &spare, COMMITTER_BAD_LISTS, commit(&b, point(13, 0), NO_LISTS, NULL, 0));
    REFUSED(&b, &spare, COMMITTER_NO_ROOM, commit(&b, point(13, 0), LISTS(0), NULL, 0));
    uint8_t bytes[ONE];
    DONE(commit(&b, point(13, 0), LISTS(0), bytes, sizeof bytes));
    CHECK(last_commit.anchors == 1 && b.state.emit_first_after_gap == 0);
    free_board(&b);
    free_board(&spare);
}

/* Anchor 11.0, certified, whose top proof 10.0 isn't named; the trigger is 13.0. */
static board seeking(void)
{
    board b = started(8, beginning(10), 13);
    committer_point_id sought = point(10, 0);
    put(&b, point(11, 0), COMMITTER_VALID, 0, sought, 0, sought, sought);
    put_one(&b, point(12, 0), COMMITTER_PROOF, point(12, 0), point(11, 0));
    put_one(&b, point(13, 0), COMMITTER_TRIGGER, sought, point(12, 0));
    DONE(certify(&b, point(11, 0)));
    return b;
}

/* A needed point that was never named, one that is named only, one that is resolved (document 02, N3). */
static void check_needed(void)
{
    board b = seeking(), spare = new_board(8);
    committer_point_id sought = point(10, 0), other = point(10, 0), trigger = point(13, 0);
    uint8_t bytes[4] = {0xa5, 0xa5, 0xa5, 0xa5};
    REFUSED(&b, &spare, COMMITTER_NEVER_NAMED, commit(&b, trigger, LISTS(0), bytes, sizeof bytes));
    /* another author's point of the same digest isn't the one sought */
    other.author = 1;
    DONE(name(&b, other));
    REFUSED(&b, &spare, COMMITTER_NEVER_NAMED, commit(&b, trigger, LISTS(0), bytes, sizeof bytes));
    free_board(&b);

    b = seeking();
    DONE(name(&b, sought));
    REFUSED(&b, &spare, COMMITTER_POINT_MISSING, commit(&b, trigger, LISTS(0), bytes, sizeof bytes));
    DONE(certify(&b, sought));
    REFUSED(&b, &spare, COMMITTER_POINT_MISSING, commit(&b, trigger, LISTS(0), bytes, sizeof bytes));
    committer_resolution resolution = valid(0, 0);
    resolution.marks = COMMITTER_PROOF;
    DONE(resolve(&b, sought, resolution, NULL, 0));
    REFUSED(&b, &spare, COMMITTER_BROKEN_CHAIN, commit(&b, trigger, LISTS(0), bytes, sizeof bytes));
    CHECK(last_commit.anchors == 0 && bytes[0] == 0xa5);
    free_board(&b);
    free_board(&spare);
}

/* ---- noise */

static uint64_t next_word(uint64_t *seed)
{
    *seed ^= *seed << 13;
    *seed ^= *seed >> 7;
    *seed ^= *seed << 17;
    return *seed;
}

static void fill(uint64_t *table, size_t n, uint64_t *seed)
{
    for (size_t i = 0; i < n; i++) {
        table[i] = next_word(seed);
    }
}

/* Any bytes are a state. */
static void fill_state(committer_state *state, uint64_t *seed)
{
    unsigned char *bytes = (unsigned char *)state;
    for (size_t i = 0; i < sizeof *state; i++) {
        bytes[i] = (unsigned char)(next_word(seed) >> 24);
    }
}

/* Numbers in their ranges, so that the tests of the tables are reached. */
static void make_plausible(committer_state *state, size_t places, uint64_t *seed)
{
    state->phase = 1;
    state->count = 1 + next_word(seed) % places;
    state->genesis = 10;
    state->commit_history_rounds = 1 + (uint32_t)(next_word(seed) % 255);
    state->deduplicate_rounds = (uint32_t)(next_word(seed) % 65536);
    state->bottom = 10 + (uint32_t)(next_word(seed) % 20);
    state->top = state->bottom + (uint32_t)(next_word(seed) % 512);
    for (size_t i = 0; i < 512; i++) {
        state->rounds[i].used_anchor_proof = (uint32_t)(next_word(seed) % 33);
    }
    fill_memory(&state->memory, next_word(seed) % 129);
}

static void check_noise(size_t places, int times)
{
    uint64_t seed = 0x9e3779b97f4a7c15u + places;
    board b = new_board(places), spare = new_board(places), zeroed = new_board(places);
    for (int i = 0; i < times; i++) {
        fill(b.keys, COMMITTER_KEYS_LEN(places), &seed);
        fill(b.links, COMMITTER_LINKS_LEN(places), &seed);
        fill(b.certs, COMMITTER_CERTS_LEN(places), &seed);
        fill(b.order, COMMITTER_ORDER_LEN(places), &seed);
        fill_state(&b.state, &seed);
        if (i % 2 == 1) {
            make_plausible(&b.state, places, &seed);
        }
        for (size_t k = 0; i % 4 == 3 && k < places; k++) {
            b.order[k] %= places;
        }
        check_not_started(&b, &spare);
        committer_start_args wrong = beginning(10);
        wrong.commit_history_rounds = 0;
        REFUSED(&b, &spare, COMMITTER_BAD_START, start(&b, wrong));
        /* a start leaves what it leaves on zeros */
        DONE(start(&b, beginning(10)));
        zeroed.state = committer_no_state();
        DONE(start(&zeroed, beginning(10)));
        CHECK(same_board(&b, &zeroed));
        DONE(reset(&zeroed));
    }
    free_board(&b);
    free_board(&spare);
    free_board(&zeroed);
}

int main(void)
{
    check_version();
    check_helpers();
    check_generator();
    check_games();
    check_writing();
    check_start_refusals();
    check_places();
    check_lengths();
    check_round_refusals();
    check_id_refusals();
    check_info_refusals();
    check_links_below_zero();
    check_cases();
    check_memory();
    check_broken_memory();
    check_k13();
    check_commit_refusals();
    check_outlooks();
    check_k13_lists();
    check_three_in_a_round();
    check_anchor_by_anchor();
    check_committed_ones();
    check_sizes();
    check_links_behind();
    check_links_of_two();
    check_payloads();
    check_freed_payloads();
    check_removes();
    check_merge();
    check_walk_refusals();
    check_needed();
    for (size_t places = 1; places <= 9; places++) {
        check_noise(places, 500);
    }
    check_noise(PLACES, 8);
    check_full_size();
    printf("ok %lu checks\n", checks);
    return 0;
}
