/*
 * What committer.h has beside its calls, in the words that C99 and C++11 share, with no header but it: check.sh compiles it as each of
 * them, for a freestanding environment too. Returns 0, or the line of the first check that fails.
 */
#include "committer.h"

#define PLACES 3u

#define CHECK(holds) \
    do { \
        if (!(holds)) { \
            return __LINE__; \
        } \
    } while (0)

static uint64_t keys[COMMITTER_KEYS_LEN(PLACES)], links[COMMITTER_LINKS_LEN(PLACES)], certs[COMMITTER_CERTS_LEN(PLACES)],
    order[COMMITTER_ORDER_LEN(PLACES)];

static int same(const char *a, const char *b)
{
    while (*a != 0 && *a == *b) {
        a++;
        b++;
    }
    return *a == *b;
}

static int check_numbers(void)
{
    CHECK(COMMITTER_TABLES_BYTES(PLACES) == sizeof keys + sizeof links + sizeof certs + sizeof order);
    CHECK(COMMITTER_RECORD_BYTES(4) == 427 && COMMITTER_LINKS_AT(4) == 231 && COMMITTER_SUMS_AT(4) == 411 && COMMITTER_LOOK_BYTES(3) == 53);
    CHECK(COMMITTER_WORD_BYTES == 8 && COMMITTER_LINK_BYTES == 45);
    CHECK(COMMITTER_RECORD_MAX == 4100 && COMMITTER_BAD_RECORD == 26 && COMMITTER_UNKNOWN_RECORD == 27);
    CHECK(COMMITTER_COMMIT_MAX == 386461 && COMMITTER_OUTLOOK_MAX == 544215 && COMMITTER_REMOVE_MAX == 5785509);
    CHECK(COMMITTER_LISTS_MAX == 262655);
    CHECK(COMMITTER_FORK_BYTES(2) == 74 && COMMITTER_EVIDENCE_BYTES(3) == 121 && COMMITTER_EVENTS_AT(2) == 63);
    CHECK(COMMITTER_CERT_TOP + COMMITTER_CERT_STARTED + COMMITTER_CERT_COMPLETED + COMMITTER_CERT_COMMITTED + COMMITTER_CERT_HEIGHT == 0xffff);
    return 0;
}

/* each has the letters of its word, then zero bytes */
static int check_words(void)
{
    static const char *const words[3] = {COMMITTER_WORD_INCLUDES, COMMITTER_WORD_WITNESS, COMMITTER_WORD_ANCHOR};
    static const char *const letters[3] = {"includes", "witness", "anchor"};
    for (int n = 0; n < 3; n++) {
        int end = 0;
        for (unsigned i = 0; i < COMMITTER_WORD_BYTES; i++) {
            end = end || letters[n][i] == 0;
            CHECK(words[n][i] == (end ? 0 : letters[n][i]));
        }
    }
    return 0;
}

/* header and library are of one version and layout */
static int check_version(void)
{
    committer_version version = committer_library_version();
    CHECK(version.major == COMMITTER_VERSION_MAJOR);
    CHECK(version.minor == COMMITTER_VERSION_MINOR);
    CHECK(version.patch == COMMITTER_VERSION_PATCH);
    CHECK(COMMITTER_LAYOUT_NAME() == COMMITTER_LAYOUT);
    return 0;
}

static int check_helpers(void)
{
    unsigned char bytes[32] = {1, 2, 3, 4, 5, 6, 7, 8, 9}, back[32];
    committer_digest digest = committer_digest_of(bytes);
    CHECK(digest.words[0] == 0x0102030405060708u && digest.words[1] == 0x0900000000000000u && digest.words[3] == 0);
    committer_digest_bytes(digest, back);
    for (int i = 0; i < 32; i++) {
        CHECK(back[i] == bytes[i]);
    }
    CHECK(committer_lowest_round(10, 2, 10, 15) == 13);
    CHECK(same(committer_refusal_text(COMMITTER_WRONG_PHASE), "not started, or started twice"));
    return 0;
}

/* the record of a gap question: length of the rest, version, kind */
static int check_writing(void)
{
    const uint8_t expected[6] = {0, 0, 0, 2, 1, 9};
    uint8_t buffer[COMMITTER_RECORD_MAX];
    committer_written written = committer_write_gap(buffer, sizeof buffer);
    CHECK(written.refused == COMMITTER_DONE && written.length == sizeof expected);
    for (unsigned i = 0; i < sizeof expected; i++) {
        CHECK(buffer[i] == expected[i]);
    }
    committer_point_id id = {1, 256, {{0, 0, 0, 0}}};
    written = committer_write_name(buffer, sizeof buffer, id);
    CHECK(written.refused == COMMITTER_BAD_RECORD && written.length == 0);
    return 0;
}

static int check_start(void)
{
    committer_start_args with = {10, 2, 0, 10, 3, 0, COMMITTER_NOBODY};
    committer_reply reply = committer_start(committer_no_state(), keys, COMMITTER_KEYS_LEN(PLACES), links, COMMITTER_LINKS_LEN(PLACES), certs,
        COMMITTER_CERTS_LEN(PLACES), order, COMMITTER_ORDER_LEN(PLACES), with);
    CHECK(reply.refused == COMMITTER_DONE && reply.state.bottom == 10 && reply.state.top == 10);
    return 0;
}

int main(void)
{
    int (*const checks[])(void) = {check_numbers, check_words, check_version, check_helpers, check_writing, check_start};
    for (unsigned i = 0; i < sizeof checks / sizeof checks[0]; i++) {
        int line = checks[i]();
        if (line != 0) {
            return line;
        }
    }
    return 0;
}
