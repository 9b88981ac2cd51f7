/* The functions of libhaspeljo.a, which read and write Ergo peer sessions.
 *
 * Arguments come in one order: the bytes that are read, or the output, and their length (n); the place at, or a body's
 * start and length (start, len); mainnet; cap; other numbers; further slices, each with its length; the array r. Where
 * an address is asked about, it stands in place of the bytes.
 *
 * A slice passes as a pointer and a length. Where the length is 0 the pointer may be null; r never is. An output and r
 * overlap no other argument. Unless a line says otherwise, a function returns 0 and fills r, or returns a refusal
 * number and leaves r and the output as they were. A place counts from the slice's first byte.
 *
 * A place in the stream and a place in a message body are different things: a body begins at the place that
 * haspeljo_decode or haspeljo_step gives. The functions whose names end in _by_index give places in the body, those in
 * _in_stream places in the stream.
 *
 * Threads: the functions keep nothing and allocate nothing. Any number of calls may run at once, as long as no output
 * and no r of one is an argument of another. The bytes that a call is given must not change until it returns; if they
 * do, nothing is promised of that call. So a mapped file may be read while nobody writes to it, and as with every
 * mapping the process gets SIGBUS where the file has been made shorter.
 *
 * The slots of an array and the columns of a table have names, and so have their lengths. Slots are appended, and never
 * moved: declare an array with the name of its length, and compile with the header that comes with the archive. */
#ifndef HASPELJO_H
#define HASPELJO_H

#include <stddef.h>
#include <stdint.h>

#define HASPELJO_VERSION_MAJOR 0
#define HASPELJO_VERSION_MINOR 1
#define HASPELJO_VERSION_PATCH 0
#define HASPELJO_VERSION "0.1.0"

#ifdef __cplusplus
extern "C" {
#endif

/* Refusal numbers; haspeljo_refusal_text has a sentence for each. */
enum {
    HASPELJO_MISSING = 1,
    HASPELJO_LONG_VLQ = 2,
    HASPELJO_OVER_LIMIT = 3,
    HASPELJO_NOT_UTF8 = 4,
    HASPELJO_SHORT_FRAME = 5,
    HASPELJO_OTHER_MAGIC = 6,
    HASPELJO_LONG_BODY = 7,
    HASPELJO_SHORT_BODY = 8,
    HASPELJO_OTHER_CHECK = 9,
    HASPELJO_MANY_ITEMS = 10,
    HASPELJO_LONG_PAYLOADS = 11,
    HASPELJO_OUTSIDE = 12,
    HASPELJO_LONG_STRING = 13,
    HASPELJO_NO_ROOM = 14,
    HASPELJO_UNWRITABLE = 15,
    HASPELJO_BAD_TABLE = 16
};

/* The sentence of a refusal number. It is never null and lives as long as the program. */
static inline const char *haspeljo_refusal_text(uint8_t number)
{
    switch (number) {
    case 0: return "no refusal";
    case HASPELJO_MISSING: return "bytes of a field are missing";
    case HASPELJO_LONG_VLQ: return "a VLQ does not end within ten bytes";
    case HASPELJO_OVER_LIMIT: return "a length or count is above 16,388,608";
    case HASPELJO_NOT_UTF8: return "a string is not UTF-8";
    case HASPELJO_SHORT_FRAME: return "a frame has fewer than 9 bytes";
    case HASPELJO_OTHER_MAGIC: return "a frame does not begin with this network's magic";
    case HASPELJO_LONG_BODY: return "a body is longer than 16,388,608 bytes";
    case HASPELJO_SHORT_BODY: return "bytes of a frame's check or body are missing";
    case HASPELJO_OTHER_CHECK: return "a frame's check does not match its body";
    case HASPELJO_MANY_ITEMS: return "a message has more items than allowed";
    case HASPELJO_LONG_PAYLOADS: return "payloads are together longer than their body";
    case HASPELJO_OUTSIDE: return "a place, part or index is outside";
    case HASPELJO_LONG_STRING: return "a string has more than 255 bytes";
    case HASPELJO_NO_ROOM: return "the output is too short";
    case HASPELJO_UNWRITABLE: return "an entry has more than 255 features, or an unknown message a known code";
    case HASPELJO_BAD_TABLE: return "a table has a broken row, or a number that does not fit its column or address";
    default: return "unknown number";
    }
}

/* Networks, as the argument mainnet. Any other number is mainnet too. */
enum {
    HASPELJO_TESTNET = 0,
    HASPELJO_MAINNET = 1
};

/* Kinds of addresses. An address is given by kind, high, low and port: of IPv4 high is the number, its first byte
 * highest, and low is 0; of IPv6 high and low are the halves. */
enum {
    HASPELJO_ADDRESS_NONE = 0,
    HASPELJO_ADDRESS_IPV4 = 4,
    HASPELJO_ADDRESS_IPV6 = 6
};

/* Verdicts: good; a version below 4.0.100; a first Session feature that does not begin with this network's magic. */
enum {
    HASPELJO_VALID = 0,
    HASPELJO_OLD_VERSION = 1,
    HASPELJO_OTHER_NETWORK = 2
};

/* Codes of known messages. */
enum {
    HASPELJO_GET_PEERS = 1,
    HASPELJO_PEERS = 2,
    HASPELJO_MODIFIER_REQUEST = 22,
    HASPELJO_MODIFIER_RESPONSE = 33,
    HASPELJO_INV = 55,
    HASPELJO_SYNC_INFO = 65
};

/* Lengths in bytes: of a digest, of a frame's check, of an id. */
enum {
    HASPELJO_DIGEST_BYTES = 32,
    HASPELJO_CHECK_BYTES = 4,
    HASPELJO_MODIFIER_ID_BYTES = 32
};

/* VLQs, strings, parts */

/* r of a number: its value, the next place. */
enum {
    HASPELJO_READ_VALUE = 0,
    HASPELJO_READ_NEXT = 1,
    HASPELJO_READ_LENGTH = 2
};

/* r of bytes: their place, how many, the next place. */
enum {
    HASPELJO_PART_BYTES = 0,
    HASPELJO_PART_BYTES_LENGTH = 1,
    HASPELJO_PART_NEXT = 2,
    HASPELJO_PART_LENGTH = 3
};

/* r of every writer: the place after what was written. */
enum {
    HASPELJO_WRITTEN_NEXT = 0,
    HASPELJO_WRITTEN_LENGTH = 1
};

/* A byte. Refuses 12, 1. */
uint8_t haspeljo_read_byte(const uint8_t *s, size_t n, size_t at, uint64_t r[HASPELJO_READ_LENGTH]);

/* A VLQ. Refuses 12, 1, 2. */
uint8_t haspeljo_read_vlq(const uint8_t *s, size_t n, size_t at, uint64_t r[HASPELJO_READ_LENGTH]);

/* A VLQ that is a length or a count. Refuses 12, 1, 2, 3. */
uint8_t haspeljo_read_vlq_length(const uint8_t *s, size_t n, size_t at, uint64_t r[HASPELJO_READ_LENGTH]);

/* A length byte and so many bytes of UTF-8. Refuses 12, 1, 4. */
uint8_t haspeljo_read_short_string(const uint8_t *s, size_t n, size_t at, uint64_t r[HASPELJO_PART_LENGTH]);

/* count bytes. Refuses 12, 1. */
uint8_t haspeljo_read_part(const uint8_t *s, size_t n, size_t at, size_t count, uint64_t r[HASPELJO_PART_LENGTH]);

/* The shortest VLQ. Refuses 12, 14. */
uint8_t haspeljo_write_vlq(uint8_t *out, size_t n, size_t at, uint64_t value, uint64_t r[HASPELJO_WRITTEN_LENGTH]);

/* A length byte and the bytes of s. Refuses 12, 13, 4, 14. */
uint8_t haspeljo_write_short_string(uint8_t *out, size_t n, size_t at, const uint8_t *s, size_t s_n,
    uint64_t r[HASPELJO_WRITTEN_LENGTH]);

/* The bytes of s. Refuses 12, 14. */
uint8_t haspeljo_write_part(uint8_t *out, size_t n, size_t at, const uint8_t *s, size_t s_n,
    uint64_t r[HASPELJO_WRITTEN_LENGTH]);

/* Returns 2 value, or -2 value - 1 of a negative one. */
uint32_t haspeljo_zigzag_encode(int32_t value);

/* Undoes haspeljo_zigzag_encode. */
int32_t haspeljo_zigzag_decode(uint32_t value);

/* Returns 2 value, or -2 value - 1 of a negative one. */
uint64_t haspeljo_zigzag_encode_i64(int64_t value);

/* Undoes haspeljo_zigzag_encode_i64. */
int64_t haspeljo_zigzag_decode_i64(uint64_t value);

/* Returns 1 if all of s is UTF-8, otherwise 0. */
uint8_t haspeljo_is_utf8(const uint8_t *s, size_t n);

/* Addresses and hashes */

/* Returns 1 if the address, its first byte highest, is bogus, otherwise 0. The port plays no part. */
uint8_t haspeljo_is_bogus_v4(uint32_t address, uint16_t port, uint8_t mainnet);

/* The same for IPv6, by the high and the low half. Bogus on mainnet are also 2001:db8::/32 and 3fff::/20. */
uint8_t haspeljo_is_bogus_v6(uint64_t high, uint64_t low, uint16_t port, uint8_t mainnet);

/* r: the BLAKE2b digest of 32 bytes, no key. Refuses nothing. */
void haspeljo_blake2b256(const uint8_t *s, size_t n, uint8_t r[HASPELJO_DIGEST_BYTES]);

/* r: the first four bytes of the digest. Refuses nothing. */
void haspeljo_frame_check(const uint8_t *s, size_t n, uint8_t r[HASPELJO_CHECK_BYTES]);

/* Entries and handshakes */

/* r of a handshake or an entry. The timestamp of an entry is 0. AGENT and NAME are places, FEATURES is how many there
 * are, FIRST_FEATURE the place of the first. */
enum {
    HASPELJO_ENTRY_TIMESTAMP = 0,
    HASPELJO_ENTRY_AGENT = 1,
    HASPELJO_ENTRY_AGENT_LENGTH = 2,
    HASPELJO_ENTRY_MAJOR = 3,
    HASPELJO_ENTRY_MINOR = 4,
    HASPELJO_ENTRY_PATCH = 5,
    HASPELJO_ENTRY_NAME = 6,
    HASPELJO_ENTRY_NAME_LENGTH = 7,
    HASPELJO_ENTRY_ADDRESS_KIND = 8,
    HASPELJO_ENTRY_ADDRESS_HIGH = 9,
    HASPELJO_ENTRY_ADDRESS_LOW = 10,
    HASPELJO_ENTRY_PORT = 11,
    HASPELJO_ENTRY_FEATURES = 12,
    HASPELJO_ENTRY_FIRST_FEATURE = 13,
    HASPELJO_ENTRY_NEXT = 14,
    HASPELJO_ENTRY_LENGTH = 15
};

/* r of a size: how many bytes. */
enum {
    HASPELJO_SIZE_BYTES = 0,
    HASPELJO_SIZE_LENGTH = 1
};

/* r of a feature: its id, its body's place and length, the next place. */
enum {
    HASPELJO_FEATURE_ID = 0,
    HASPELJO_FEATURE_BODY = 1,
    HASPELJO_FEATURE_BODY_LENGTH = 2,
    HASPELJO_FEATURE_NEXT = 3,
    HASPELJO_FEATURE_LENGTH = 4
};

/* r of a verdict: the verdict, the next place. */
enum {
    HASPELJO_VERDICT_VALUE = 0,
    HASPELJO_VERDICT_NEXT = 1,
    HASPELJO_VERDICT_LENGTH = 2
};

/* r of a URL: 1, its place and length, or three zeros if there is none; the next place. */
enum {
    HASPELJO_URL_FOUND = 0,
    HASPELJO_URL_BYTES = 1,
    HASPELJO_URL_BYTES_LENGTH = 2,
    HASPELJO_URL_NEXT = 3,
    HASPELJO_URL_LENGTH = 4
};

/* The handshake from the first byte on. Refuses 1 to 4. */
uint8_t haspeljo_parse(const uint8_t *s, size_t n, uint64_t r[HASPELJO_ENTRY_LENGTH]);

/* How many bytes the handshake takes. Refuses 1 to 4. */
uint8_t haspeljo_measure_size(const uint8_t *s, size_t n, uint64_t r[HASPELJO_SIZE_LENGTH]);

/* The entry at a place. Refuses 12, 1 to 4. */
uint8_t haspeljo_parse_peer_entry(const uint8_t *s, size_t n, size_t at, uint64_t r[HASPELJO_ENTRY_LENGTH]);

/* The feature at a place. Refuses 12, 1, 2, 3. */
uint8_t haspeljo_read_feature(const uint8_t *s, size_t n, size_t at, uint64_t r[HASPELJO_FEATURE_LENGTH]);

/* A feature of the entry at a place, by index; each call reads the entry anew. Refuses 12, 1 to 4. */
uint8_t haspeljo_feature_by_index(const uint8_t *s, size_t n, size_t at, size_t index,
    uint64_t r[HASPELJO_FEATURE_LENGTH]);

/* The verdict on the handshake from the first byte on. Refuses 1 to 4. */
uint8_t haspeljo_validate_peer(const uint8_t *s, size_t n, uint8_t mainnet, uint64_t r[HASPELJO_VERDICT_LENGTH]);

/* The verdict on the entry at a place. Refuses 12, 1 to 4. */
uint8_t haspeljo_validate_entry(const uint8_t *s, size_t n, size_t at, uint8_t mainnet,
    uint64_t r[HASPELJO_VERDICT_LENGTH]);

/* The REST API URL of the entry at a place. Refuses 12, 1 to 4. */
uint8_t haspeljo_rest_api_url(const uint8_t *s, size_t n, size_t at, uint64_t r[HASPELJO_URL_LENGTH]);

/* Frames and messages */

/* r of a frame: its code, its body's place and length, the next place. */
enum {
    HASPELJO_FRAME_CODE = 0,
    HASPELJO_FRAME_BODY = 1,
    HASPELJO_FRAME_BODY_LENGTH = 2,
    HASPELJO_FRAME_NEXT = 3,
    HASPELJO_FRAME_LENGTH = 4
};

/* r of a message's body: the type byte; how many ids, payloads or entries; how many entries have a bogus address; the
 * place of the first in the body, each 0 where the message has none; the next place. */
enum {
    HASPELJO_MESSAGE_TYPE = 0,
    HASPELJO_MESSAGE_COUNT = 1,
    HASPELJO_MESSAGE_BOGUS = 2,
    HASPELJO_MESSAGE_FIRST = 3,
    HASPELJO_MESSAGE_NEXT = 4,
    HASPELJO_MESSAGE_LENGTH = 5
};

/* r of an id: its place. */
enum {
    HASPELJO_ID_PLACE = 0,
    HASPELJO_ID_LENGTH = 1
};

/* r of a payload: its id's place, its bytes' place and length, the next place. */
enum {
    HASPELJO_PAYLOAD_ID = 0,
    HASPELJO_PAYLOAD_BYTES = 1,
    HASPELJO_PAYLOAD_BYTES_LENGTH = 2,
    HASPELJO_PAYLOAD_NEXT = 3,
    HASPELJO_PAYLOAD_LENGTH = 4
};

/* r of haspeljo_read_payload: the same, and the total with this payload. */
enum {
    HASPELJO_READ_PAYLOAD_ID = 0,
    HASPELJO_READ_PAYLOAD_BYTES = 1,
    HASPELJO_READ_PAYLOAD_BYTES_LENGTH = 2,
    HASPELJO_READ_PAYLOAD_NEXT = 3,
    HASPELJO_READ_PAYLOAD_TOTAL = 4,
    HASPELJO_READ_PAYLOAD_LENGTH = 5
};

/* The frame at a place. Refuses 12, 5 to 9. */
uint8_t haspeljo_decode(const uint8_t *s, size_t n, size_t at, uint8_t mainnet, uint64_t r[HASPELJO_FRAME_LENGTH]);

/* The message of a frame's body and code; Peers has at most cap entries. Refuses 1 to 4, 10, 11. */
uint8_t haspeljo_from_frame(const uint8_t *body, size_t n, uint8_t mainnet, size_t cap, uint8_t code,
    uint64_t r[HASPELJO_MESSAGE_LENGTH]);

/* A Peers body of at most cap entries. Refuses 1 to 4, 10. */
uint8_t haspeljo_parse_peers_body(const uint8_t *body, size_t n, uint8_t mainnet, size_t cap,
    uint64_t r[HASPELJO_MESSAGE_LENGTH]);

/* An entry of a Peers body, by index; each call reads the body anew. Refuses 1 to 4, 10, 12. */
uint8_t haspeljo_entry_by_index(const uint8_t *body, size_t n, size_t cap, size_t index,
    uint64_t r[HASPELJO_ENTRY_LENGTH]);

/* An id of a ModifierRequest or Inv body, by index. Refuses 1, 2, 3, 10, 12. */
uint8_t haspeljo_id_by_index(const uint8_t *body, size_t n, size_t index, uint64_t r[HASPELJO_ID_LENGTH]);

/* The payload at a place of a ModifierResponse body, where the ones before it have total bytes together. Refuses 12, 1,
 * 2, 3, 11. */
uint8_t haspeljo_read_payload(const uint8_t *body, size_t n, size_t at, size_t total,
    uint64_t r[HASPELJO_READ_PAYLOAD_LENGTH]);

/* A payload of a ModifierResponse body, by index; each call reads the body anew. Refuses 1, 2, 3, 10, 11, 12. */
uint8_t haspeljo_payload_by_index(const uint8_t *body, size_t n, size_t index, uint64_t r[HASPELJO_PAYLOAD_LENGTH]);

/* The session walk */

/* Kinds of steps: the clean end, an item of two kinds, a stop. */
enum {
    HASPELJO_STEP_KIND_END = 0,
    HASPELJO_STEP_KIND_HANDSHAKE = 1,
    HASPELJO_STEP_KIND_MESSAGE = 2,
    HASPELJO_STEP_KIND_STOP = 3
};

/* r of a step: its kind, then what the kind has. START is where the item or the stop begins. Of an item NEXT is its
 * end, which is the next place. Of a handshake VERDICT is the verdict on it. Of a message CODE is its code, BODY and
 * BODY_LENGTH are its body's place and length, TYPE to FIRST what HASPELJO_MESSAGE_TYPE to HASPELJO_MESSAGE_FIRST are;
 * FIRST is a place in the body. Of a stop LAYER is its layer, NUMBER the refusal number. RESERVED is 0, and so is what
 * the kind does not have: at the clean end every slot. */
enum {
    HASPELJO_STEP_KIND = 0,
    HASPELJO_STEP_START = 1,
    HASPELJO_STEP_NEXT = 2,
    HASPELJO_STEP_LAYER = 2,
    HASPELJO_STEP_VERDICT = 3,
    HASPELJO_STEP_CODE = 3,
    HASPELJO_STEP_NUMBER = 3,
    HASPELJO_STEP_BODY = 4,
    HASPELJO_STEP_BODY_LENGTH = 5,
    HASPELJO_STEP_TYPE = 6,
    HASPELJO_STEP_COUNT = 7,
    HASPELJO_STEP_BOGUS = 8,
    HASPELJO_STEP_FIRST = 9,
    HASPELJO_STEP_RESERVED = 10,
    HASPELJO_STEP_LENGTH = 11
};

/* The layer of a stop. A cut is 1 in the handshake, 5 or 8 in the frame. */
enum {
    HASPELJO_LAYER_HANDSHAKE = 1,
    HASPELJO_LAYER_FRAME = 2,
    HASPELJO_LAYER_BODY = 3
};

/* The step at a place of a session, 0 at first, then each item's end; Peers has at most cap entries. Refuses 12.
 *
 * A session that grows is gone on with from the end of its last item, or 0 if it has none: keep that place, and call
 * again with the longer bytes and the same at. Nothing before it is read again. Do so after the clean end, where r has
 * no place to keep, and after a stop that is a cut. Any other stop stays, however many bytes follow. */
uint8_t haspeljo_step(const uint8_t *s, size_t n, size_t at, uint8_t mainnet, size_t cap,
    uint64_t r[HASPELJO_STEP_LENGTH]);

/* By index from a message of a session: start and len are its body's place and length, as haspeljo_step gives them, and
 * every place in r is a place in the session. Each call reads the body anew. A body outside is refused first; then the
 * order is that of the function of the same name in _by_index. */

/* An entry of a Peers message. Refuses 12, 1 to 4, 10. */
uint8_t haspeljo_entry_in_stream(const uint8_t *s, size_t n, size_t start, size_t len, size_t cap, size_t index,
    uint64_t r[HASPELJO_ENTRY_LENGTH]);

/* An id of a ModifierRequest or Inv message. Refuses 12, 1, 2, 3, 10. */
uint8_t haspeljo_id_in_stream(const uint8_t *s, size_t n, size_t start, size_t len, size_t index,
    uint64_t r[HASPELJO_ID_LENGTH]);

/* A payload of a ModifierResponse message. Refuses 12, 1, 2, 3, 10, 11. */
uint8_t haspeljo_payload_in_stream(const uint8_t *s, size_t n, size_t start, size_t len, size_t index,
    uint64_t r[HASPELJO_PAYLOAD_LENGTH]);

/* Writers, each from a place of an output.
 *
 * Lists are tables of rows beside a buffer, into which their places point. entries_n, features_n, ids_n and payloads_n
 * count numbers, not rows. */

/* The row of an id: its place. */
enum {
    HASPELJO_ID_ROW_PLACE = 0,
    HASPELJO_ID_ROW_LENGTH = 1
};

/* The row of a payload: its id's place, its bytes' place and length. */
enum {
    HASPELJO_PAYLOAD_ROW_ID = 0,
    HASPELJO_PAYLOAD_ROW_BYTES = 1,
    HASPELJO_PAYLOAD_ROW_BYTES_LENGTH = 2,
    HASPELJO_PAYLOAD_ROW_LENGTH = 3
};

/* The row of a feature: its id, its body's place and length. */
enum {
    HASPELJO_FEATURE_ROW_ID = 0,
    HASPELJO_FEATURE_ROW_BODY = 1,
    HASPELJO_FEATURE_ROW_BODY_LENGTH = 2,
    HASPELJO_FEATURE_ROW_LENGTH = 3
};

/* The row of an entry. ADDRESS_LENGTH is the address length byte L: 0 for none, 8 for IPv4, 20 for IPv6. ADDRESS is the
 * place of its L - 4 bytes, FIRST_FEATURE the row of the first feature, FEATURES how many there are. */
enum {
    HASPELJO_ENTRY_ROW_AGENT = 0,
    HASPELJO_ENTRY_ROW_AGENT_LENGTH = 1,
    HASPELJO_ENTRY_ROW_MAJOR = 2,
    HASPELJO_ENTRY_ROW_MINOR = 3,
    HASPELJO_ENTRY_ROW_PATCH = 4,
    HASPELJO_ENTRY_ROW_NAME = 5,
    HASPELJO_ENTRY_ROW_NAME_LENGTH = 6,
    HASPELJO_ENTRY_ROW_ADDRESS_LENGTH = 7,
    HASPELJO_ENTRY_ROW_ADDRESS = 8,
    HASPELJO_ENTRY_ROW_PORT = 9,
    HASPELJO_ENTRY_ROW_FIRST_FEATURE = 10,
    HASPELJO_ENTRY_ROW_FEATURES = 11,
    HASPELJO_ENTRY_ROW_LENGTH = 12
};

/* The entry in row index. Refuses 16, 12, 13, 4, 15, 3, 14. */
uint8_t haspeljo_write_entry(uint8_t *out, size_t n, size_t at, size_t index, const uint32_t *entries, size_t entries_n,
    const uint32_t *features, size_t features_n, const uint8_t *buffer, size_t buffer_n,
    uint64_t r[HASPELJO_WRITTEN_LENGTH]);

/* A handshake: a timestamp with the entry in row index. Refuses 16, 12, 13, 4, 15, 3, 14. */
uint8_t haspeljo_write_handshake(uint8_t *out, size_t n, size_t at, uint64_t timestamp, size_t index,
    const uint32_t *entries, size_t entries_n, const uint32_t *features, size_t features_n, const uint8_t *buffer,
    size_t buffer_n, uint64_t r[HASPELJO_WRITTEN_LENGTH]);

/* A handshake with the features Mode and Session. light is 0 for a full node, verifying 0 for one that does not verify.
 * Refuses 16, 12, 13, 4, 14: 16 for another kind of address, and of IPv4 for a high above 2^32 - 1 or a low other than
 * 0. Of no address high, low and port are not looked at. */
uint8_t haspeljo_build(uint8_t *out, size_t n, size_t at, uint8_t mainnet, uint8_t light, uint8_t state_type_id,
    uint8_t verifying, int32_t blocks_to_keep, uint8_t major, uint8_t minor, uint8_t patch, uint8_t kind, uint64_t high,
    uint64_t low, uint16_t port, uint64_t timestamp, int64_t session, const uint8_t *agent, size_t agent_n,
    const uint8_t *name, size_t name_n, uint64_t r[HASPELJO_WRITTEN_LENGTH]);

/* A frame of any code. Refuses 12, 7, 14. */
uint8_t haspeljo_encode(uint8_t *out, size_t n, size_t at, uint8_t mainnet, uint8_t code, const uint8_t *body,
    size_t body_n, uint64_t r[HASPELJO_WRITTEN_LENGTH]);

/* GetPeers, as its whole frame. Refuses 12, 14. */
uint8_t haspeljo_write_get_peers(uint8_t *out, size_t n, size_t at, uint8_t mainnet,
    uint64_t r[HASPELJO_WRITTEN_LENGTH]);

/* Peers from all rows, at most cap. Refuses 16, 12, 13, 4, 15, 3, 10, 7, 14. */
uint8_t haspeljo_write_peers(uint8_t *out, size_t n, size_t at, uint8_t mainnet, size_t cap, const uint32_t *entries,
    size_t entries_n, const uint32_t *features, size_t features_n, const uint8_t *buffer, size_t buffer_n,
    uint64_t r[HASPELJO_WRITTEN_LENGTH]);

/* ModifierRequest: a type byte and ids. Refuses 12, 10, 14. */
uint8_t haspeljo_write_modifier_request(uint8_t *out, size_t n, size_t at, uint8_t mainnet, uint8_t modifier_type,
    const uint32_t *ids, size_t ids_n, const uint8_t *buffer, size_t buffer_n, uint64_t r[HASPELJO_WRITTEN_LENGTH]);

/* ModifierResponse: a type byte and payloads. Refuses 16, 12, 3, 10, 7, 14. */
uint8_t haspeljo_write_modifier_response(uint8_t *out, size_t n, size_t at, uint8_t mainnet, uint8_t modifier_type,
    const uint32_t *payloads, size_t payloads_n, const uint8_t *buffer, size_t buffer_n,
    uint64_t r[HASPELJO_WRITTEN_LENGTH]);

/* Inv: a type byte and ids. Refuses 12, 10, 14. */
uint8_t haspeljo_write_inv(uint8_t *out, size_t n, size_t at, uint8_t mainnet, uint8_t modifier_type,
    const uint32_t *ids, size_t ids_n, const uint8_t *buffer, size_t buffer_n, uint64_t r[HASPELJO_WRITTEN_LENGTH]);

/* SyncInfo, whose body is written as it is. Refuses 12, 7, 14. */
uint8_t haspeljo_write_sync_info(uint8_t *out, size_t n, size_t at, uint8_t mainnet, const uint8_t *body,
    size_t body_n, uint64_t r[HASPELJO_WRITTEN_LENGTH]);

/* A message of another code, whose body is written as it is. Refuses 12, 7, 15, 14. */
uint8_t haspeljo_write_unknown(uint8_t *out, size_t n, size_t at, uint8_t mainnet, uint8_t code, const uint8_t *body,
    size_t body_n, uint64_t r[HASPELJO_WRITTEN_LENGTH]);

#ifdef __cplusplus
}
#endif

#endif
