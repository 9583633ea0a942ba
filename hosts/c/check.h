/* What a host's answers are held to. `failed` is 1 once one differs. */
#include <stdio.h>
#include <string.h>

#include "rtcp.h"

static int failed;

static inline void compare(const char *file, const char *name, const void *got, const void *want, size_t size) {
    if (memcmp(got, want, size) != 0) {
        printf("%s: %s differs\n", file, name);
        failed = 1;
    }
}

#define CHECK(result, call, ...)                               \
    do {                                                       \
        struct result got = call;                              \
        struct result want = {__VA_ARGS__};                    \
        compare(__FILE__, #call, &got, &want, sizeof got);     \
    } while (0)

/* A block, field by field: the bytes between its fields are anything. */
static inline void compare_block(const char *file, const char *name, const struct RtcpBlock *got, const struct RtcpBlock *want) {
    int same = got->number == want->number && got->first == want->first && got->second == want->second && got->ssrc == want->ssrc &&
               got->fraction_lost == want->fraction_lost && got->cumulative_lost == want->cumulative_lost &&
               got->extended_sequence_number == want->extended_sequence_number && got->interarrival_jitter == want->interarrival_jitter &&
               got->last_sender_report_timestamp == want->last_sender_report_timestamp &&
               got->delay_since_last_sender_report_timestamp == want->delay_since_last_sender_report_timestamp;
    compare(file, name, same ? "same" : "else", "same", 4);
}

#define CHECK_BLOCK(call, ...)                                 \
    do {                                                       \
        struct RtcpBlock got = call;                           \
        struct RtcpBlock want = {__VA_ARGS__};                 \
        compare_block(__FILE__, #call, &got, &want);           \
    } while (0)

/* An RR and an SR of two blocks that differ from each other in the 24 bits of their losses alone. */
static inline void two_blocks(uint8_t rr[56], uint8_t sr[76], const uint8_t *bits, const uint8_t *others) {
    static const uint8_t block[] = {1, 2, 3, 4, 5, 6, 7, 8, 9, 10, 11, 12, 13, 14, 15, 16, 17, 18, 19, 20, 21, 22, 23, 24};
    static const uint8_t rr_head[] = {0x82, 0xC9, 0x00, 0x0D, 0, 0, 0, 1};
    static const uint8_t sr_head[] = {0x82, 0xC8, 0x00, 0x12, 0, 0, 0, 1, 0, 0, 0, 2, 0, 0, 0, 3, 0, 0, 0, 4, 0, 0, 0, 5, 0, 0, 0, 6};
    memcpy(rr, rr_head, 8);
    memcpy(rr + 8, block, 24);
    memcpy(rr + 13, bits, 3);
    memcpy(rr + 32, block, 24);
    memcpy(rr + 37, others, 3);
    memcpy(sr, sr_head, 28);
    memcpy(sr + 28, rr + 8, 48);
}

/* A line where nothing differs; the exit status. */
static inline int finish(const char *file) {
    if (!failed) printf("%s: as docs/PROTOCOL.md says\n", file);
    return failed;
}
