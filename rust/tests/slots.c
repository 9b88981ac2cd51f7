/* Writes a session from tables and reads it, each slot and each column by its name. */
#include <haspeljo.h>
#include <haspeljo.h> /* a second time, as headers of a program may */
#include <stdio.h>
#include <string.h>

enum { ROOM = 1024, CAP = 64, TYPE = 3 };

/* Places in the buffer. No two numbers of a row are equal, so that each shows in which column it stands. */
enum { AGENT = 5, NAME = 12, URL = 16, ADDRESS = 22, ID = 38, BYTES = 70, END = 75 };

static uint8_t buffer[END], s[ROOM];
static uint64_t written[HASPELJO_WRITTEN_LENGTH];
static int failed;

#define CHECK(holds) check((holds), __LINE__, #holds)

static void check(int holds, int line, const char *what)
{
    if (holds)
        return;
    printf("slots.c:%d: %s\n", line, what);
    failed = 1;
}

/* Whether so many bytes at a place of the session are those of the buffer. */
static int stands(uint64_t at, uint64_t length, size_t place, size_t expected)
{
    return length == expected && memcmp(s + at, buffer + place, expected) == 0;
}

static void fill_buffer(void)
{
    memcpy(buffer + AGENT, "ergoref", 7);
    memcpy(buffer + NAME, "node", 4);
    memcpy(buffer + URL, "\5https", 6);
    memcpy(buffer + ADDRESS, "\x20\x01\x0d\xb8", 4);
    buffer[ADDRESS + 15] = 1;
    memset(buffer + ID, 17, HASPELJO_MODIFIER_ID_BYTES);
    memcpy(buffer + BYTES, "bytes", 5);
}

static void write_handshake(void)
{
    CHECK(haspeljo_build(s, ROOM, 0, HASPELJO_MAINNET, 0, 0, 1, -1, 6, 0, 1, HASPELJO_ADDRESS_IPV4, 0x08080404, 0, 9030,
        1700000000, -2, buffer + AGENT, 7, buffer + NAME, 4, written) == 0);
}

/* [2001:db8::1]:9030 with the features in rows 1 and 2, and an entry without either. */
static void write_peers(void)
{
    uint32_t entries[2 * HASPELJO_ENTRY_ROW_LENGTH] = {0}, features[3 * HASPELJO_FEATURE_ROW_LENGTH] = {0};
    uint32_t *feature = features + HASPELJO_FEATURE_ROW_LENGTH;
    entries[HASPELJO_ENTRY_ROW_AGENT] = AGENT;
    entries[HASPELJO_ENTRY_ROW_AGENT_LENGTH] = 7;
    entries[HASPELJO_ENTRY_ROW_MAJOR] = 3;
    entries[HASPELJO_ENTRY_ROW_MINOR] = 6;
    entries[HASPELJO_ENTRY_ROW_PATCH] = 8;
    entries[HASPELJO_ENTRY_ROW_NAME] = NAME;
    entries[HASPELJO_ENTRY_ROW_NAME_LENGTH] = 4;
    entries[HASPELJO_ENTRY_ROW_ADDRESS_LENGTH] = 20;
    entries[HASPELJO_ENTRY_ROW_ADDRESS] = ADDRESS;
    entries[HASPELJO_ENTRY_ROW_PORT] = 9030;
    entries[HASPELJO_ENTRY_ROW_FIRST_FEATURE] = 1;
    entries[HASPELJO_ENTRY_ROW_FEATURES] = 2;
    feature[HASPELJO_FEATURE_ROW_ID] = 4;
    feature[HASPELJO_FEATURE_ROW_BODY] = URL;
    feature[HASPELJO_FEATURE_ROW_BODY_LENGTH] = 6;
    CHECK(haspeljo_write_peers(s, ROOM, written[HASPELJO_WRITTEN_NEXT], HASPELJO_MAINNET, CAP, entries,
        2 * HASPELJO_ENTRY_ROW_LENGTH, features, 3 * HASPELJO_FEATURE_ROW_LENGTH, buffer, END, written) == 0);
}

static void write_modifiers(void)
{
    uint32_t ids[HASPELJO_ID_ROW_LENGTH], payloads[HASPELJO_PAYLOAD_ROW_LENGTH];
    ids[HASPELJO_ID_ROW_PLACE] = ID;
    payloads[HASPELJO_PAYLOAD_ROW_ID] = ID;
    payloads[HASPELJO_PAYLOAD_ROW_BYTES] = BYTES;
    payloads[HASPELJO_PAYLOAD_ROW_BYTES_LENGTH] = 5;
    CHECK(haspeljo_write_inv(s, ROOM, written[HASPELJO_WRITTEN_NEXT], HASPELJO_MAINNET, TYPE, ids,
        HASPELJO_ID_ROW_LENGTH, buffer, END, written) == 0);
    CHECK(haspeljo_write_modifier_response(s, ROOM, written[HASPELJO_WRITTEN_NEXT], HASPELJO_MAINNET, TYPE, payloads,
        HASPELJO_PAYLOAD_ROW_LENGTH, buffer, END, written) == 0);
}

static void read_handshake(size_t n, const uint64_t step[HASPELJO_STEP_LENGTH])
{
    uint64_t h[HASPELJO_ENTRY_LENGTH], size[HASPELJO_SIZE_LENGTH], f[HASPELJO_FEATURE_LENGTH];
    uint64_t verdict[HASPELJO_VERDICT_LENGTH];
    CHECK(haspeljo_parse(s, n, h) == 0 && h[HASPELJO_ENTRY_NEXT] == step[HASPELJO_STEP_NEXT]);
    CHECK(h[HASPELJO_ENTRY_TIMESTAMP] == 1700000000);
    CHECK(stands(h[HASPELJO_ENTRY_AGENT], h[HASPELJO_ENTRY_AGENT_LENGTH], AGENT, 7));
    CHECK(h[HASPELJO_ENTRY_MAJOR] == 6 && h[HASPELJO_ENTRY_MINOR] == 0 && h[HASPELJO_ENTRY_PATCH] == 1);
    CHECK(stands(h[HASPELJO_ENTRY_NAME], h[HASPELJO_ENTRY_NAME_LENGTH], NAME, 4));
    CHECK(h[HASPELJO_ENTRY_ADDRESS_KIND] == HASPELJO_ADDRESS_IPV4 && h[HASPELJO_ENTRY_ADDRESS_HIGH] == 0x08080404);
    CHECK(h[HASPELJO_ENTRY_ADDRESS_LOW] == 0 && h[HASPELJO_ENTRY_PORT] == 9030 && h[HASPELJO_ENTRY_FEATURES] == 2);
    CHECK(haspeljo_measure_size(s, n, size) == 0 && size[HASPELJO_SIZE_BYTES] == h[HASPELJO_ENTRY_NEXT]);
    CHECK(haspeljo_validate_peer(s, n, HASPELJO_TESTNET, verdict) == 0);
    CHECK(verdict[HASPELJO_VERDICT_VALUE] == HASPELJO_OTHER_NETWORK);
    CHECK(verdict[HASPELJO_VERDICT_NEXT] == h[HASPELJO_ENTRY_NEXT]);
    CHECK(haspeljo_read_feature(s, n, h[HASPELJO_ENTRY_FIRST_FEATURE], f) == 0 && f[HASPELJO_FEATURE_ID] == 16);
    CHECK(f[HASPELJO_FEATURE_BODY_LENGTH] == 4 && memcmp(s + f[HASPELJO_FEATURE_BODY], "\0\1\0\1", 4) == 0);
    CHECK(haspeljo_read_feature(s, n, f[HASPELJO_FEATURE_NEXT], f) == 0 && f[HASPELJO_FEATURE_ID] == 3);
    CHECK(f[HASPELJO_FEATURE_NEXT] == h[HASPELJO_ENTRY_NEXT]);
    CHECK(step[HASPELJO_STEP_KIND] == HASPELJO_STEP_KIND_HANDSHAKE && step[HASPELJO_STEP_START] == 0);
    CHECK(step[HASPELJO_STEP_VERDICT] == HASPELJO_VALID);
}

/* The frame and its message say what the step says. */
static void read_frame(size_t n, const uint64_t step[HASPELJO_STEP_LENGTH])
{
    uint64_t f[HASPELJO_FRAME_LENGTH], m[HASPELJO_MESSAGE_LENGTH];
    CHECK(step[HASPELJO_STEP_KIND] == HASPELJO_STEP_KIND_MESSAGE);
    CHECK(haspeljo_decode(s, n, step[HASPELJO_STEP_START], HASPELJO_MAINNET, f) == 0);
    CHECK(f[HASPELJO_FRAME_CODE] == step[HASPELJO_STEP_CODE] && f[HASPELJO_FRAME_NEXT] == step[HASPELJO_STEP_NEXT]);
    CHECK(f[HASPELJO_FRAME_BODY] == step[HASPELJO_STEP_BODY]);
    CHECK(f[HASPELJO_FRAME_BODY_LENGTH] == step[HASPELJO_STEP_BODY_LENGTH]);
    CHECK(f[HASPELJO_FRAME_BODY] + f[HASPELJO_FRAME_BODY_LENGTH] == f[HASPELJO_FRAME_NEXT]);
    CHECK(haspeljo_from_frame(s + f[HASPELJO_FRAME_BODY], f[HASPELJO_FRAME_BODY_LENGTH], HASPELJO_MAINNET, CAP,
        (uint8_t)f[HASPELJO_FRAME_CODE], m) == 0);
    CHECK(m[HASPELJO_MESSAGE_TYPE] == step[HASPELJO_STEP_TYPE]);
    CHECK(m[HASPELJO_MESSAGE_COUNT] == step[HASPELJO_STEP_COUNT]);
    CHECK(m[HASPELJO_MESSAGE_BOGUS] == step[HASPELJO_STEP_BOGUS]);
    CHECK(m[HASPELJO_MESSAGE_FIRST] == step[HASPELJO_STEP_FIRST]);
    CHECK(m[HASPELJO_MESSAGE_NEXT] == f[HASPELJO_FRAME_BODY_LENGTH] && step[HASPELJO_STEP_RESERVED] == 0);
}

static void read_peers(size_t n, const uint64_t step[HASPELJO_STEP_LENGTH])
{
    uint64_t e[HASPELJO_ENTRY_LENGTH], url[HASPELJO_URL_LENGTH], verdict[HASPELJO_VERDICT_LENGTH];
    size_t first = step[HASPELJO_STEP_BODY] + step[HASPELJO_STEP_FIRST];
    read_frame(n, step);
    CHECK(step[HASPELJO_STEP_CODE] == HASPELJO_PEERS && step[HASPELJO_STEP_TYPE] == 0);
    CHECK(step[HASPELJO_STEP_COUNT] == 2 && step[HASPELJO_STEP_BOGUS] == 1 && step[HASPELJO_STEP_FIRST] == 1);
    CHECK(haspeljo_parse_peer_entry(s, n, first, e) == 0 && e[HASPELJO_ENTRY_TIMESTAMP] == 0);
    CHECK(stands(e[HASPELJO_ENTRY_AGENT], e[HASPELJO_ENTRY_AGENT_LENGTH], AGENT, 7));
    CHECK(e[HASPELJO_ENTRY_MAJOR] == 3 && e[HASPELJO_ENTRY_MINOR] == 6 && e[HASPELJO_ENTRY_PATCH] == 8);
    CHECK(stands(e[HASPELJO_ENTRY_NAME], e[HASPELJO_ENTRY_NAME_LENGTH], NAME, 4));
    CHECK(e[HASPELJO_ENTRY_ADDRESS_KIND] == HASPELJO_ADDRESS_IPV6 && e[HASPELJO_ENTRY_FEATURES] == 2);
    CHECK(e[HASPELJO_ENTRY_ADDRESS_HIGH] == 0x20010db800000000 && e[HASPELJO_ENTRY_ADDRESS_LOW] == 1);
    CHECK(haspeljo_rest_api_url(s, n, first, url) == 0 && url[HASPELJO_URL_FOUND] == 1);
    CHECK(stands(url[HASPELJO_URL_BYTES], url[HASPELJO_URL_BYTES_LENGTH], URL + 1, 5));
    CHECK(haspeljo_validate_entry(s, n, first, HASPELJO_MAINNET, verdict) == 0);
    CHECK(verdict[HASPELJO_VERDICT_VALUE] == HASPELJO_OLD_VERSION);
    CHECK(url[HASPELJO_URL_NEXT] == e[HASPELJO_ENTRY_NEXT] && verdict[HASPELJO_VERDICT_NEXT] == e[HASPELJO_ENTRY_NEXT]);
    CHECK(haspeljo_parse_peer_entry(s, n, e[HASPELJO_ENTRY_NEXT], e) == 0);
    CHECK(e[HASPELJO_ENTRY_ADDRESS_KIND] == HASPELJO_ADDRESS_NONE && e[HASPELJO_ENTRY_FEATURES] == 0);
    CHECK(e[HASPELJO_ENTRY_NEXT] == step[HASPELJO_STEP_NEXT]);
}

static void read_inv(size_t n, const uint64_t step[HASPELJO_STEP_LENGTH])
{
    uint64_t id[HASPELJO_ID_LENGTH];
    read_frame(n, step);
    CHECK(step[HASPELJO_STEP_CODE] == HASPELJO_INV && step[HASPELJO_STEP_TYPE] == TYPE);
    CHECK(step[HASPELJO_STEP_COUNT] == 1 && step[HASPELJO_STEP_BOGUS] == 0);
    CHECK(haspeljo_id_in_stream(s, n, step[HASPELJO_STEP_BODY], step[HASPELJO_STEP_BODY_LENGTH], 0, id) == 0);
    CHECK(stands(id[HASPELJO_ID_PLACE], 32, ID, HASPELJO_MODIFIER_ID_BYTES));
}

static void read_response(size_t n, const uint64_t step[HASPELJO_STEP_LENGTH])
{
    uint64_t p[HASPELJO_PAYLOAD_LENGTH], q[HASPELJO_READ_PAYLOAD_LENGTH];
    const uint8_t *body = s + step[HASPELJO_STEP_BODY];
    size_t len = step[HASPELJO_STEP_BODY_LENGTH];
    read_frame(n, step);
    CHECK(step[HASPELJO_STEP_CODE] == HASPELJO_MODIFIER_RESPONSE && step[HASPELJO_STEP_COUNT] == 1);
    CHECK(haspeljo_payload_by_index(body, len, 0, p) == 0);
    CHECK(memcmp(body + p[HASPELJO_PAYLOAD_ID], buffer + ID, HASPELJO_MODIFIER_ID_BYTES) == 0);
    CHECK(p[HASPELJO_PAYLOAD_BYTES_LENGTH] == 5 && memcmp(body + p[HASPELJO_PAYLOAD_BYTES], buffer + BYTES, 5) == 0);
    CHECK(p[HASPELJO_PAYLOAD_NEXT] == len);
    CHECK(haspeljo_read_payload(body, len, step[HASPELJO_STEP_FIRST], 1, q) == 0);
    CHECK(q[HASPELJO_READ_PAYLOAD_ID] == p[HASPELJO_PAYLOAD_ID] && q[HASPELJO_READ_PAYLOAD_NEXT] == len);
    CHECK(q[HASPELJO_READ_PAYLOAD_BYTES] == p[HASPELJO_PAYLOAD_BYTES]);
    CHECK(q[HASPELJO_READ_PAYLOAD_BYTES_LENGTH] == 5 && q[HASPELJO_READ_PAYLOAD_TOTAL] == 6);
}

static void read_leaves(void)
{
    static const uint8_t leaves[] = {0xac, 2, 2, 'a', 'b'};
    uint64_t number[HASPELJO_READ_LENGTH], part[HASPELJO_PART_LENGTH];
    CHECK(haspeljo_read_vlq(leaves, sizeof leaves, 0, number) == 0);
    CHECK(number[HASPELJO_READ_VALUE] == 300 && number[HASPELJO_READ_NEXT] == 2);
    CHECK(haspeljo_read_short_string(leaves, sizeof leaves, 2, part) == 0);
    CHECK(part[HASPELJO_PART_BYTES] == 3 && part[HASPELJO_PART_BYTES_LENGTH] == 2 && part[HASPELJO_PART_NEXT] == 5);
}

/* Both ends of 3fff::/20, their neighbours outside, and testnet. */
static void read_addresses(void)
{
    const uint64_t first = 0x3fff000000000000, last = 0x3fff0fffffffffff;
    CHECK(haspeljo_is_bogus_v6(first - 1, UINT64_MAX, 9030, HASPELJO_MAINNET) == 0);
    CHECK(haspeljo_is_bogus_v6(first, 0, 9030, HASPELJO_MAINNET) == 1);
    CHECK(haspeljo_is_bogus_v6(last, UINT64_MAX, 9030, HASPELJO_MAINNET) == 1);
    CHECK(haspeljo_is_bogus_v6(last + 1, 0, 9030, HASPELJO_MAINNET) == 0);
    CHECK(haspeljo_is_bogus_v6(first, 0, 9030, HASPELJO_TESTNET) == 0);
}

static void read_hashes(void)
{
    uint8_t digest[HASPELJO_DIGEST_BYTES], start[HASPELJO_CHECK_BYTES];
    haspeljo_blake2b256(buffer, END, digest);
    haspeljo_frame_check(buffer, END, start);
    CHECK(memcmp(digest, start, HASPELJO_CHECK_BYTES) == 0);
}

/* A cut handshake, a cut frame, and a Peers body with more entries than the cap. */
static void read_stops(size_t n, size_t peers)
{
    uint64_t step[HASPELJO_STEP_LENGTH];
    CHECK(haspeljo_step(s, 1, 0, HASPELJO_MAINNET, CAP, step) == 0);
    CHECK(step[HASPELJO_STEP_KIND] == HASPELJO_STEP_KIND_STOP && step[HASPELJO_STEP_START] == 0);
    CHECK(step[HASPELJO_STEP_LAYER] == HASPELJO_LAYER_HANDSHAKE && step[HASPELJO_STEP_NUMBER] == HASPELJO_MISSING);
    CHECK(haspeljo_step(s, peers + 8, peers, HASPELJO_MAINNET, CAP, step) == 0);
    CHECK(step[HASPELJO_STEP_LAYER] == HASPELJO_LAYER_FRAME && step[HASPELJO_STEP_NUMBER] == HASPELJO_SHORT_FRAME);
    CHECK(haspeljo_step(s, n, peers, HASPELJO_MAINNET, 1, step) == 0 && step[HASPELJO_STEP_START] == peers);
    CHECK(step[HASPELJO_STEP_LAYER] == HASPELJO_LAYER_BODY && step[HASPELJO_STEP_NUMBER] == HASPELJO_MANY_ITEMS);
    CHECK(haspeljo_step(s, n, n + 1, HASPELJO_MAINNET, CAP, step) == HASPELJO_OUTSIDE);
}

static int is_cut(const uint64_t step[HASPELJO_STEP_LENGTH])
{
    uint64_t number = step[HASPELJO_STEP_NUMBER];
    if (step[HASPELJO_STEP_KIND] != HASPELJO_STEP_KIND_STOP)
        return 0;
    if (step[HASPELJO_STEP_LAYER] == HASPELJO_LAYER_HANDSHAKE)
        return number == HASPELJO_MISSING;
    return step[HASPELJO_STEP_LAYER] == HASPELJO_LAYER_FRAME
        && (number == HASPELJO_SHORT_FRAME || number == HASPELJO_SHORT_BODY);
}

/* The session as it grows byte by byte. The place that is kept is at, after a cut as at the clean end. */
static void read_growing(size_t n, size_t items)
{
    static const uint64_t clean_end[HASPELJO_STEP_LENGTH] = {HASPELJO_STEP_KIND_END};
    uint64_t step[HASPELJO_STEP_LENGTH];
    size_t at = 0, found = 0;
    for (size_t m = 0; m <= n; m++) {
        CHECK(haspeljo_step(s, m, at, HASPELJO_MAINNET, CAP, step) == 0);
        if (step[HASPELJO_STEP_KIND] == HASPELJO_STEP_KIND_STOP) {
            CHECK(is_cut(step) && step[HASPELJO_STEP_START] == at);
            continue;
        }
        CHECK(step[HASPELJO_STEP_START] == at && step[HASPELJO_STEP_NEXT] == m);
        at = step[HASPELJO_STEP_NEXT];
        found++;
        CHECK(haspeljo_step(s, m, at, HASPELJO_MAINNET, CAP, step) == 0);
        CHECK(memcmp(step, clean_end, sizeof step) == 0);
    }
    CHECK(at == n && found == items);
}

static void read_texts(void)
{
    CHECK(strcmp(haspeljo_refusal_text(0), "no refusal") == 0);
    CHECK(strcmp(haspeljo_refusal_text(HASPELJO_NO_ROOM), "the output is too short") == 0);
    for (int number = HASPELJO_BAD_TABLE + 1; number < 256; number++)
        CHECK(strcmp(haspeljo_refusal_text((uint8_t)number), "unknown number") == 0);
}

int main(void)
{
    static void (*const readers[])(size_t, const uint64_t *) = {read_handshake, read_peers, read_inv, read_response};
    const size_t items = sizeof readers / sizeof *readers;
    uint64_t step[HASPELJO_STEP_LENGTH];
    size_t n, at = 0, peers = 0;
    fill_buffer();
    write_handshake();
    peers = written[HASPELJO_WRITTEN_NEXT];
    write_peers();
    write_modifiers();
    n = written[HASPELJO_WRITTEN_NEXT];
    for (size_t i = 0; i < items; i++) {
        CHECK(haspeljo_step(s, n, at, HASPELJO_MAINNET, CAP, step) == 0);
        readers[i](n, step);
        at = step[HASPELJO_STEP_NEXT];
    }
    CHECK(at == n && haspeljo_step(s, n, at, HASPELJO_MAINNET, CAP, step) == 0);
    CHECK(step[HASPELJO_STEP_KIND] == HASPELJO_STEP_KIND_END);
    read_leaves();
    read_addresses();
    read_hashes();
    read_stops(n, peers);
    read_growing(n, items);
    read_texts();
    return failed;
}
