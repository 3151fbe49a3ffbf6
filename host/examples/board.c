/*
 * A board's use of the committer from C: case K13 of document 01. Genesis 10, H 2, a start at 10; the trigger 15.0 yields the anchor 13.0
 * with four points. One outlook tells the lengths of the place lists of all anchors and the buffer that they need; then they are committed at
 * once. What the outlook tells and the anchor records are written as the lines that `replay` writes. At last it says why a point is in its
 * record.
 */
#include <inttypes.h>
#include <stdio.h>
#include <stdlib.h>
#include <string.h>

#include "committer.h"

#define PLACES 20u
#define PEERS 3u /* the set of peers 0 and 1 */

/* What the host keeps: the tables that it lends, and the state. */
static uint64_t keys[COMMITTER_KEYS_LEN(PLACES)], links[COMMITTER_LINKS_LEN(PLACES)], certs[COMMITTER_CERTS_LEN(PLACES)],
    order[COMMITTER_ORDER_LEN(PLACES)];
static committer_state state; /* all zero before the first start */

#define TABLES \
    keys, COMMITTER_KEYS_LEN(PLACES), links, COMMITTER_LINKS_LEN(PLACES), certs, COMMITTER_CERTS_LEN(PLACES), order, COMMITTER_ORDER_LEN(PLACES)

/* Keeps the state that a call returned, and ends the program if the call was refused. Returns the number of anchors. */
static uint32_t keep(const char *call, const committer_reply *reply)
{
    if (reply->refused != COMMITTER_DONE) {
        fprintf(stderr, "%s: refused %" PRIu32 ": %s\n", call, reply->refused, committer_refusal_text(reply->refused));
        exit(1);
    }
    state = reply->state;
    return reply->anchors;
}

/* A stand-in for the digest that a real point has. */
static committer_point_id id(uint32_t round, uint32_t author, uint64_t digest)
{
    committer_point_id id = {round, author, {{0, 0, 0, digest}}};
    return id;
}

/* The payload of a point. */
typedef struct {
    uint32_t len, bytes;
} payload;

/* Names a valid point and resolves it; its includes are peers 0 and 1, as many as there are, with these digests. */
static void add(
    committer_point_id point, payload with, uint32_t marks, committer_point_id top_proof, size_t includes, const uint64_t *digests)
{
    committer_resolution resolution = {COMMITTER_VALID, marks, top_proof, 0, includes, 0, with.len, with.bytes};
    uint64_t refs[2 * COMMITTER_REF_WORDS] = {0};
    for (size_t i = 0; i < includes; i++) {
        refs[i * COMMITTER_REF_WORDS] = i;
        refs[i * COMMITTER_REF_WORDS + 4] = digests[i];
    }
    committer_reply reply = committer_name(state, TABLES, point);
    keep("name", &reply);
    reply = committer_resolve(state, TABLES, point, resolution, refs, includes * COMMITTER_REF_WORDS);
    keep("resolve", &reply);
}

static uint32_t number(const uint8_t *bytes)
{
    return (uint32_t)bytes[0] << 24 | (uint32_t)bytes[1] << 16 | (uint32_t)bytes[2] << 8 | bytes[3];
}

static uint64_t wide(const uint8_t *bytes)
{
    return (uint64_t)number(bytes) << 32 | number(bytes + 4);
}

/* Prints an id, with a mark between round, author and digest. */
static void print_id(const uint8_t *bytes, char mark)
{
    printf("%" PRIu32 "%c%u%c", number(bytes), mark, bytes[4], mark);
    for (int i = 5; i < 37; i++) {
        printf("%02x", bytes[i]);
    }
}

/* The number of rounds of an anchor's history. */
static uint32_t rounds_of(uint32_t anchor)
{
    return anchor + 1 - committer_lowest_round(state.genesis, state.commit_history_rounds, state.bottom, anchor);
}

/* Prints what an outlook tells of an anchor. */
static void print_look(const uint8_t *look)
{
    uint32_t rounds = rounds_of(number(look));
    printf("outlook ");
    print_id(look, ' ');
    printf(" %" PRIu32 " linked", number(look + COMMITTER_ID_BYTES));
    for (uint32_t n = 0; n < rounds; n++) {
        printf(" %" PRIu32, number(look + COMMITTER_LOOK_BYTES(n)));
    }
    putchar('\n');
}

/* Writes an anchor's place lists, as long as the outlook says, and returns their length. A real host shuffles each of them. */
static size_t make_lists(const uint8_t *look, uint8_t *lists)
{
    uint32_t rounds = rounds_of(number(look));
    size_t length = 0;
    for (uint32_t n = 0; n < rounds; n++) {
        uint32_t linked = number(look + COMMITTER_LOOK_BYTES(n));
        for (uint32_t place = 0; place < linked; place++) {
            lists[length++] = (uint8_t)place;
        }
    }
    return length;
}

/* The id of a record's point. */
static const uint8_t *point_at(const uint8_t *record, uint32_t n)
{
    return record + 83 + n * COMMITTER_ID_BYTES;
}

/* The link behind a record's point: the id of the point that links to it, and a word. */
static const uint8_t *link_at(const uint8_t *record, uint32_t n)
{
    return record + COMMITTER_LINKS_AT(number(record + 79)) + n * COMMITTER_LINK_BYTES;
}

static int has_word(const uint8_t *link, const char *word)
{
    return memcmp(link + COMMITTER_ID_BYTES, word, COMMITTER_WORD_BYTES) == 0;
}

/* The word of a link, as text. */
static const char *word_of(const uint8_t *link)
{
    if (has_word(link, COMMITTER_WORD_INCLUDES)) {
        return COMMITTER_WORD_INCLUDES;
    }
    if (has_word(link, COMMITTER_WORD_WITNESS)) {
        return COMMITTER_WORD_WITNESS;
    }
    return has_word(link, COMMITTER_WORD_ANCHOR) ? COMMITTER_WORD_ANCHOR : "?";
}

/* Prints a link behind a point after the point's id. */
static void print_link(const uint8_t *id, const uint8_t *link)
{
    printf("link ");
    print_id(id, '.');
    printf(" by ");
    print_id(link, '.');
    printf(" %s\n", word_of(link));
}

/*
 * Prints why a point is in a record: the links behind it, followed up to the anchor. Rounds rise, so the point that links to another stands
 * behind it, and the anchor last.
 */
static void print_why(const uint8_t *record, const uint8_t *id)
{
    uint32_t points = number(record + 79);
    printf("why:\n");
    for (uint32_t n = 0; n < points; n++) {
        if (memcmp(point_at(record, n), id, COMMITTER_ID_BYTES) == 0) {
            print_link(id, link_at(record, n));
            id = link_at(record, n);
        }
    }
}

/* Prints an anchor record, and returns its length. */
static size_t print_record(const uint8_t *bytes)
{
    uint32_t points = number(bytes + 79);
    const uint8_t *sums = bytes + COMMITTER_SUMS_AT(points);
    printf("anchor ");
    print_id(bytes, ' ');
    printf(" proof ");
    print_id(bytes + 37, ' ');
    printf(" exec %u prev %" PRIu32, bytes[74], number(bytes + 75));
    printf(" payload %" PRIu64 " %" PRIu64 " points %" PRIu32 ":", wide(sums), wide(sums + 8), points);
    for (uint32_t i = 0; i < points; i++) {
        putchar(' ');
        print_id(point_at(bytes, i), '.');
    }
    putchar('\n');
    for (uint32_t i = 0; i < points; i++) {
        print_link(point_at(bytes, i), link_at(bytes, i));
    }
    return COMMITTER_RECORD_BYTES(points);
}

/* Hands out the anchors that a trigger yields. The buffers have room for any outlook, lists and records; lent is as much as the outlook says. */
static void hand_out(committer_point_id trigger)
{
    static uint8_t looks[COMMITTER_OUTLOOK_MAX], lists[COMMITTER_LISTS_MAX], records[COMMITTER_COMMIT_MAX];
    committer_reply reply = committer_outlook(state, TABLES, trigger, looks, sizeof looks);
    uint32_t told = keep("outlook", &reply);
    size_t lists_len = 0, records_len = 0;
    const uint8_t *look = looks;
    for (uint32_t i = 0; i < told; i++) {
        print_look(look);
        lists_len += make_lists(look, lists + lists_len);
        records_len += COMMITTER_RECORD_BYTES(number(look + COMMITTER_ID_BYTES));
        look += COMMITTER_LOOK_BYTES(rounds_of(number(look)));
    }
    reply = committer_commit(state, TABLES, trigger, lists, lists_len, records, records_len);
    uint32_t handed = keep("commit", &reply);
    const uint8_t *record = records;
    for (uint32_t i = 0; i < handed; i++) {
        const uint8_t *lowest = point_at(record, 0);
        size_t length = print_record(record);
        print_why(record, lowest);
        record += length;
    }
}

int main(void)
{
    const committer_start_args with = {10, 2, 5, 10, PEERS, 0, 0};
    const committer_point_id used = id(10, 0, 0), anchor = id(13, 0, 130), trigger = id(15, 0, 150);

    committer_reply reply = committer_start(state, TABLES, with);
    keep("start", &reply);
    for (uint32_t round = 11; round <= 15; round++) {
        reply = committer_round(state, TABLES, round, PEERS);
        keep("round", &reply);
    }
    add(id(11, 0, 110), (payload){1, 10}, 0, used, 0, NULL);
    add(id(12, 0, 120), (payload){2, 200}, 0, used, 1, (const uint64_t[]){110});
    add(id(12, 1, 121), (payload){3, 3000}, 0, used, 1, (const uint64_t[]){110});
    add(anchor, (payload){4, 40000}, 0, used, 2, (const uint64_t[]){120, 121});
    add(id(14, 0, 140), (payload){5, 5}, COMMITTER_PROOF, id(14, 0, 140), 1, (const uint64_t[]){130});
    add(trigger, (payload){6, 6}, COMMITTER_TRIGGER, used, 1, (const uint64_t[]){140});
    reply = committer_certify(state, TABLES, anchor);
    keep("certify", &reply);

    hand_out(trigger);
    return 0;
}
