/* Prints the report of a session on standard input: mainnet, cap 64. */
#include <haspeljo.h>
#include <inttypes.h>
#include <stdio.h>

enum { CAP = 64, LONGEST = 65536 };

static const char *const LAYERS[] = {"", "handshake", "frame", "body"};

static void print_handshake(const uint8_t *s, size_t n, const uint64_t step[HASPELJO_STEP_LENGTH])
{
    uint64_t h[HASPELJO_ENTRY_LENGTH];
    if (haspeljo_parse(s, n, h) == 0)
        printf("handshake %" PRIu64 " %" PRIu64 " version %" PRIu64 ".%" PRIu64 ".%" PRIu64 " verdict %" PRIu64 "\n",
            step[HASPELJO_STEP_START], step[HASPELJO_STEP_NEXT], h[HASPELJO_ENTRY_MAJOR], h[HASPELJO_ENTRY_MINOR],
            h[HASPELJO_ENTRY_PATCH], step[HASPELJO_STEP_VERDICT]);
}

static void print_message(const uint64_t step[HASPELJO_STEP_LENGTH])
{
    printf("message %" PRIu64 " %" PRIu64 " code %" PRIu64, step[HASPELJO_STEP_START], step[HASPELJO_STEP_NEXT],
        step[HASPELJO_STEP_CODE]);
    if (step[HASPELJO_STEP_CODE] == HASPELJO_PEERS)
        printf(" entries %" PRIu64 " bogus %" PRIu64, step[HASPELJO_STEP_COUNT], step[HASPELJO_STEP_BOGUS]);
    printf("\n");
}

/* Prints the item or the ending. Returns whether the session goes on. */
static int print_step(const uint8_t *s, size_t n, const uint64_t step[HASPELJO_STEP_LENGTH])
{
    switch (step[HASPELJO_STEP_KIND]) {
    case HASPELJO_STEP_KIND_HANDSHAKE:
        print_handshake(s, n, step);
        return 1;
    case HASPELJO_STEP_KIND_MESSAGE:
        print_message(step);
        return 1;
    case HASPELJO_STEP_KIND_STOP:
        printf("stop %s %" PRIu64 " %" PRIu64 "\n", LAYERS[step[HASPELJO_STEP_LAYER]], step[HASPELJO_STEP_NUMBER],
            step[HASPELJO_STEP_START]);
        return 0;
    default:
        printf("end %zu\n", n);
        return 0;
    }
}

int main(void)
{
    static uint8_t s[LONGEST + 1];
    size_t n = fread(s, 1, sizeof s, stdin);
    size_t at = 0;
    uint64_t step[HASPELJO_STEP_LENGTH];
    if (n > LONGEST) {
        printf("long\n");
        return 0;
    }
    while (haspeljo_step(s, n, at, HASPELJO_MAINNET, CAP, step) == 0 && print_step(s, n, step))
        at = step[HASPELJO_STEP_NEXT];
    return 0;
}
