/* Calls every function that takes slices with no bytes, once by a null pointer and once by a pointer to none, and
 * compares what it answers and leaves. */
#include <assert.h>
#include <haspeljo.h>
#include <stdio.h>
#include <string.h>

enum { ROOM = 256, CAP = 64, UNKNOWN = 90, ANSWERS = 16384 };

/* What the calls are given: s and rows have no elements, out has n. */
struct given {
    const uint8_t *s;
    const uint32_t *rows;
    uint8_t *out;
    size_t n;
};

struct answers {
    size_t n;
    uint64_t numbers[ANSWERS];
};

static uint64_t r[HASPELJO_ENTRY_LENGTH];

static void note(struct answers *answers, uint64_t number)
{
    assert(answers->n < ANSWERS);
    answers->numbers[answers->n++] = number;
}

/* The number that a call returns, then r, which holds a pattern before the call. */
#define CALL(call) \
    do { \
        memset(r, 0xa5, sizeof r); \
        note(answers, call); \
        for (size_t i = 0; i < HASPELJO_ENTRY_LENGTH; i++) \
            note(answers, r[i]); \
    } while (0)

static void leaves(struct given g, size_t at, struct answers *answers)
{
    CALL(haspeljo_read_byte(g.s, 0, at, r));
    CALL(haspeljo_read_vlq(g.s, 0, at, r));
    CALL(haspeljo_read_vlq_length(g.s, 0, at, r));
    CALL(haspeljo_read_short_string(g.s, 0, at, r));
    CALL(haspeljo_read_part(g.s, 0, at, 0, r));
    CALL(haspeljo_read_part(g.s, 0, at, 1, r));
    CALL(haspeljo_is_utf8(g.s, 0));
}

static void hashes(struct given g, struct answers *answers)
{
    uint8_t digest[HASPELJO_DIGEST_BYTES], check[HASPELJO_CHECK_BYTES];
    haspeljo_blake2b256(g.s, 0, digest);
    haspeljo_frame_check(g.s, 0, check);
    for (size_t i = 0; i < sizeof digest; i++)
        note(answers, digest[i]);
    for (size_t i = 0; i < sizeof check; i++)
        note(answers, check[i]);
}

static void entries(struct given g, size_t at, struct answers *answers)
{
    CALL(haspeljo_parse(g.s, 0, r));
    CALL(haspeljo_measure_size(g.s, 0, r));
    CALL(haspeljo_parse_peer_entry(g.s, 0, at, r));
    CALL(haspeljo_read_feature(g.s, 0, at, r));
    CALL(haspeljo_feature_by_index(g.s, 0, at, 0, r));
    CALL(haspeljo_validate_peer(g.s, 0, HASPELJO_MAINNET, r));
    CALL(haspeljo_validate_entry(g.s, 0, at, HASPELJO_MAINNET, r));
    CALL(haspeljo_rest_api_url(g.s, 0, at, r));
}

static void messages(struct given g, size_t at, struct answers *answers)
{
    CALL(haspeljo_decode(g.s, 0, at, HASPELJO_MAINNET, r));
    for (int code = 0; code < 256; code++)
        CALL(haspeljo_from_frame(g.s, 0, HASPELJO_MAINNET, CAP, (uint8_t)code, r));
    CALL(haspeljo_parse_peers_body(g.s, 0, HASPELJO_MAINNET, CAP, r));
    CALL(haspeljo_entry_by_index(g.s, 0, CAP, 0, r));
    CALL(haspeljo_id_by_index(g.s, 0, 0, r));
    CALL(haspeljo_read_payload(g.s, 0, at, 0, r));
    CALL(haspeljo_payload_by_index(g.s, 0, 0, r));
    CALL(haspeljo_step(g.s, 0, at, HASPELJO_MAINNET, CAP, r));
    CALL(haspeljo_entry_in_stream(g.s, 0, at, 0, CAP, 0, r));
    CALL(haspeljo_id_in_stream(g.s, 0, at, 0, 0, r));
    CALL(haspeljo_payload_in_stream(g.s, 0, at, 0, 0, r));
}

static void writers(struct given g, size_t at, struct answers *answers)
{
    CALL(haspeljo_write_vlq(g.out, g.n, at, 300, r));
    CALL(haspeljo_write_short_string(g.out, g.n, at, g.s, 0, r));
    CALL(haspeljo_write_part(g.out, g.n, at, g.s, 0, r));
    CALL(haspeljo_write_entry(g.out, g.n, at, 0, g.rows, 0, g.rows, 0, g.s, 0, r));
    CALL(haspeljo_write_handshake(g.out, g.n, at, 1, 0, g.rows, 0, g.rows, 0, g.s, 0, r));
    CALL(haspeljo_build(g.out, g.n, at, HASPELJO_MAINNET, 0, 0, 1, -1, 6, 0, 1, HASPELJO_ADDRESS_NONE, 0, 0, 0, 1, 2,
        g.s, 0, g.s, 0, r));
    CALL(haspeljo_encode(g.out, g.n, at, HASPELJO_MAINNET, UNKNOWN, g.s, 0, r));
    CALL(haspeljo_write_get_peers(g.out, g.n, at, HASPELJO_MAINNET, r));
    CALL(haspeljo_write_peers(g.out, g.n, at, HASPELJO_MAINNET, CAP, g.rows, 0, g.rows, 0, g.s, 0, r));
    CALL(haspeljo_write_modifier_request(g.out, g.n, at, HASPELJO_MAINNET, 2, g.rows, 0, g.s, 0, r));
    CALL(haspeljo_write_modifier_response(g.out, g.n, at, HASPELJO_MAINNET, 2, g.rows, 0, g.s, 0, r));
    CALL(haspeljo_write_inv(g.out, g.n, at, HASPELJO_MAINNET, 2, g.rows, 0, g.s, 0, r));
    CALL(haspeljo_write_sync_info(g.out, g.n, at, HASPELJO_MAINNET, g.s, 0, r));
    CALL(haspeljo_write_unknown(g.out, g.n, at, HASPELJO_MAINNET, UNKNOWN, g.s, 0, r));
}

/* A table of one row whose every list is empty: no agent, no name, no address, no features. */
static void row(struct given g, struct answers *answers)
{
    static const uint32_t entry[HASPELJO_ENTRY_ROW_LENGTH] = {0};
    CALL(haspeljo_write_entry(g.out, g.n, 0, 0, entry, HASPELJO_ENTRY_ROW_LENGTH, g.rows, 0, g.s, 0, r));
    CALL(haspeljo_write_peers(g.out, g.n, 0, HASPELJO_MAINNET, CAP, entry, HASPELJO_ENTRY_ROW_LENGTH, g.rows, 0, g.s, 0,
        r));
}

static void all(struct given g, struct answers *answers)
{
    answers->n = 0;
    for (size_t at = 0; at < 2; at++) {
        leaves(g, at, answers);
        entries(g, at, answers);
        messages(g, at, answers);
        writers(g, at, answers);
    }
    hashes(g, answers);
    row(g, answers);
    for (size_t i = 0; i < g.n; i++)
        note(answers, g.out[i]);
}

static int same(const struct answers *a, const struct answers *b)
{
    return a->n == b->n && memcmp(a->numbers, b->numbers, a->n * sizeof *a->numbers) == 0;
}

int main(void)
{
    static const uint8_t none[1] = {7};
    static const uint32_t no_rows[1] = {7};
    static uint8_t room[2][ROOM], no_room[1] = {7};
    static struct answers by_null, by_none;
    struct given null = {NULL, NULL, NULL, 0}, empty = {none, no_rows, no_room, 0};
    int failed = 0;

    all(null, &by_null);
    all(empty, &by_none);
    failed |= !same(&by_null, &by_none) || no_room[0] != 7;

    null.out = room[0];
    empty.out = room[1];
    null.n = empty.n = ROOM;
    all(null, &by_null);
    all(empty, &by_none);
    failed |= !same(&by_null, &by_none);

    if (failed)
        printf("nulls: a null pointer with no bytes is answered otherwise\n");
    return failed;
}
