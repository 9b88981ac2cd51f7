/* Writes a session to standard output: a handshake, Peers with two entries, Inv with two ids. Mainnet, cap 64. */
#include <haspeljo.h>
#include <stdio.h>

enum { CAP = 64 };

static uint8_t out[1024];
static uint64_t end[HASPELJO_WRITTEN_LENGTH];

static const uint8_t agent[] = {'e', 'r', 'g', 'o', 'r', 'e', 'f'};
static const uint8_t name[] = {'n', 'o', 'd', 'e'};

/* Full, state type 0, verifying, all blocks, version 6.0.1, 8.8.8.8:9030. */
static uint8_t write_handshake(void)
{
    return haspeljo_build(out, sizeof out, end[0], HASPELJO_MAINNET, 0, 0, 1, -1, 6, 0, 1, HASPELJO_ADDRESS_IPV4,
        0x08080808, 0, 9030, 1700000000000, -2, agent, sizeof agent, name, sizeof name, end);
}

/* The agent is at 0, the name at 7, the addresses 10.0.0.1 and 8.8.4.4 at 11 and 15, a feature's body at 19. */
static uint8_t write_peers(void)
{
    static const uint8_t buffer[] = {
        'e', 'r', 'g', 'o', 'r', 'e', 'f', 'n', 'o', 'd', 'e', 10, 0, 0, 1, 8, 8, 4, 4, 0, 1, 0, 1,
    };
    static const uint32_t features[HASPELJO_FEATURE_ROW_LENGTH] = {16, 19, 4};
    static const uint32_t entries[2 * HASPELJO_ENTRY_ROW_LENGTH] = {
        0, 7, 5, 0, 20, 7, 4, 8, 11, 9030, 0, 1,
        0, 7, 4, 0, 99, 7, 4, 8, 15, 9030, 0, 0,
    };
    return haspeljo_write_peers(out, sizeof out, end[0], HASPELJO_MAINNET, CAP, entries, 2 * HASPELJO_ENTRY_ROW_LENGTH,
        features, HASPELJO_FEATURE_ROW_LENGTH, buffer, sizeof buffer, end);
}

/* The ids are the bytes from 0 and from 8 on. */
static uint8_t write_inv(void)
{
    static const uint8_t buffer[40] = {1, 2, 3};
    static const uint32_t ids[2 * HASPELJO_ID_ROW_LENGTH] = {0, 8};
    return haspeljo_write_inv(out, sizeof out, end[0], HASPELJO_MAINNET, 2, ids, 2 * HASPELJO_ID_ROW_LENGTH, buffer,
        sizeof buffer, end);
}

int main(void)
{
    if (write_handshake() != 0 || write_peers() != 0 || write_inv() != 0)
        return 1;
    return fwrite(out, 1, end[0], stdout) == end[0] ? 0 : 1;
}
