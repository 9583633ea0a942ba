/* Worked examples of the rules in docs/PROTOCOL.md, through the C functions. The exit status is 1 where an answer differs. */
#include "check.h"

static const uint8_t rr[] = {0x80, 0xC9, 0x00, 0x01, 0x11, 0x22, 0x33, 0x44};
static const uint8_t cname[] = {0x81, 0xCA, 0x00, 0x03, 0x11, 0x22, 0x33, 0x44, 0x01, 0x03, 0x61, 0x40, 0x62, 0x00, 0x00, 0x00};
static const uint8_t two[] = {0x82, 0xCA, 0x00, 0x04, 0, 0, 0, 1, 0, 0, 0, 0, 0, 0, 0, 0x10, 0, 0, 0, 0};
static const uint8_t padded[] = {0xA0, 0xCA, 0x00, 0x00};
static const uint8_t prefix[] = {0x81, 0xCA, 0x00, 0x03, 0, 0, 0, 1, 0x08, 0x01, 0x05, 0, 0, 0, 0, 0};
static const uint8_t cut[] = {0x81, 0xCA, 0x00, 0x01, 0, 0, 0, 1};
static const uint8_t bye[] = {0xA1, 0xCB, 0x00, 0x03, 0x11, 0x22, 0x33, 0x44, 0x02, 0x61, 0x62, 0, 0, 0, 0, 4};
static const uint8_t app[] = {0x85, 0xCC, 0x00, 0x03, 0, 0, 0, 1, 'n', 'a', 'm', 'e', 'd', 'a', 't', 'a'};
static const uint8_t private_item[] = {0x08, 0x04, 0x02, 'a', 'b', 'c'};
static const uint8_t block[] = {1, 2, 3, 4, 5, 6, 7, 8, 9, 10, 11, 12, 13, 14, 15, 16, 17, 18, 19, 20, 21, 22, 23, 24};

static void reports(void) {
    uint8_t sr[28] = {0x80, 0xC8, 0x00, 0x06, 0, 0, 0, 1, 0, 0, 0, 2, 0, 0, 0, 3, 0, 0, 0, 4, 0, 0, 0, 5, 0, 0, 0, 6};
    CHECK(RtcpRr, rtcp_rr_parse(rr, sizeof rr), 0, 0, 0, 0x11223344, 0, 8, 0, 8, 0);
    CHECK(RtcpRr, rtcp_rr_parse(rr, 4), 2, 8, 4, 0, 0, 0, 0, 0, 0);
    CHECK(RtcpRr, rtcp_rr_parse(NULL, 0), 2, 8, 0, 0, 0, 0, 0, 0, 0);
    CHECK(RtcpRr, rtcp_rr_parse(cname, sizeof cname), 6, 202, 201, 0, 0, 0, 0, 0, 0);
    CHECK_BLOCK(rtcp_rr_report_block(rr, sizeof rr, 0), 25, 0, 0, 0, 0, 0, 0, 0, 0, 0);
    CHECK(RtcpSr, rtcp_sr_parse(sr, sizeof sr), 0, 0, 0, 1, 0x200000003, 4, 5, 6, 0, 28, 0, 28, 0);
    CHECK_BLOCK(rtcp_sr_report_block(sr, sizeof sr, 7), 25, 0, 0, 0, 0, 0, 0, 0, 0, 0);
    CHECK_BLOCK(rtcp_block_parse(block, sizeof block), 0, 0, 0, 0x01020304, 5, 0x060708, 0x090A0B0C, 0x0D0E0F10, 0x11121314, 0x15161718);
    CHECK_BLOCK(rtcp_block_parse(block, 23), 2, 24, 23, 0, 0, 0, 0, 0, 0, 0);
    CHECK(RtcpWritten, rtcp_rr_report_blocks(rr, sizeof rr, NULL, 0, NULL, 0, NULL, 0), 0, 0, 0, 0);
    CHECK(RtcpWritten, rtcp_rr_report_blocks(cname, sizeof cname, NULL, 0, NULL, 0, NULL, 0), 6, 202, 201, 0);
    CHECK(RtcpWritten, rtcp_sr_report_blocks(sr, sizeof sr, NULL, 0, NULL, 0, NULL, 0), 0, 0, 0, 0);
    CHECK(RtcpRr, rtcp_rr_read(cname, sizeof cname, NULL, 0, NULL, 0, NULL, 0), 6, 202, 201, 0, 0, 0, 0, 0, 0);
    CHECK(RtcpSr, rtcp_sr_read(sr, sizeof sr, NULL, 0, NULL, 0, NULL, 0), 0, 0, 0, 1, 0x200000003, 4, 5, 6, 0, 28, 0, 28, 0);
}

/* The blocks at once, into lists that are one number longer, just long enough, and one of them too short. */
static void block_lists(void) {
    static const uint8_t wanted_fractions[] = {5, 7};
    static const int32_t wanted_losses[] = {0x060708, 7};
    static const uint32_t wanted_words[] = {0x01020304, 0x090A0B0C, 0x0D0E0F10, 0x11121314, 0x15161718, 7};
    uint8_t one[32] = {0x81, 0xC9, 0x00, 0x07, 0, 0, 0, 1};
    uint8_t fractions[2] = {0, 7};
    int32_t losses[2] = {0, 7};
    uint32_t words[6] = {0, 0, 0, 0, 0, 7};
    memcpy(one + 8, block, sizeof block);
    CHECK(RtcpWritten, rtcp_rr_report_blocks(one, sizeof one, fractions, 0, losses, 2, words, 6), 10, 1, 0, 0);
    CHECK(RtcpWritten, rtcp_rr_report_blocks(one, sizeof one, fractions, 2, losses, 0, words, 6), 10, 1, 0, 0);
    CHECK(RtcpWritten, rtcp_rr_report_blocks(one, sizeof one, fractions, 2, losses, 2, words, 4), 10, 1, 0, 0);
    CHECK(RtcpRr, rtcp_rr_read(one, sizeof one, fractions, 2, losses, 2, words, 4), 10, 1, 0, 0, 0, 0, 0, 0, 0);
    if (fractions[0] != 0 || losses[0] != 0 || words[0] != 0) compare(__FILE__, "lists of a refused call", "", "x", 1);
    CHECK(RtcpWritten, rtcp_rr_report_blocks(one, sizeof one, fractions, 1, losses, 1, words, 5), 0, 0, 0, 1);
    compare(__FILE__, "the fractions", fractions, wanted_fractions, sizeof fractions);
    compare(__FILE__, "the losses", losses, wanted_losses, sizeof losses);
    compare(__FILE__, "the words", words, wanted_words, sizeof words);
    memset(fractions, 7, sizeof fractions);
    words[4] = 0;
    CHECK(RtcpRr, rtcp_rr_read(one, sizeof one, fractions, 2, losses, 2, words, 6), 0, 0, 0, 1, 1, 32, 0, 32, 0);
    compare(__FILE__, "the fractions", fractions, wanted_fractions, sizeof fractions);
    compare(__FILE__, "the losses", losses, wanted_losses, sizeof losses);
    compare(__FILE__, "the words", words, wanted_words, sizeof words);
}

/* A call that fills the lists with two blocks, and the losses that it leaves in them. */
#define FILLS(loss, other, call)                                                     \
    do {                                                                             \
        const int32_t wanted[] = {loss, other};                                      \
        memset(losses, 0x5A, sizeof losses);                                         \
        if ((call).number != 0) compare(__FILE__, #call, "", "x", 1);                \
        compare(__FILE__, "the losses of " #call, losses, wanted, sizeof losses);    \
    } while (0)
#define LISTS fractions, 2, losses, 2, words, 10

/* 24 bits of a block, and the loss that each call reads them as, in the second of two blocks; the first one's is -2. */
static void loss_is(uint8_t high, uint8_t middle, uint8_t low, int32_t loss) {
    const uint8_t two_less[] = {0xFF, 0xFF, 0xFE}, bits[] = {high, middle, low};
    uint8_t rr2[56], sr2[76];
    uint8_t fractions[2];
    int32_t losses[2];
    uint32_t words[10];
    two_blocks(rr2, sr2, two_less, bits);
    CHECK_BLOCK(rtcp_block_parse(rr2 + 32, 24), 0, 0, 0, 0x01020304, 5, loss, 0x090A0B0C, 0x0D0E0F10, 0x11121314, 0x15161718);
    CHECK_BLOCK(rtcp_rr_report_block(rr2, sizeof rr2, 0), 0, 0, 0, 0x01020304, 5, -2, 0x090A0B0C, 0x0D0E0F10, 0x11121314, 0x15161718);
    CHECK_BLOCK(rtcp_rr_report_block(rr2, sizeof rr2, 1), 0, 0, 0, 0x01020304, 5, loss, 0x090A0B0C, 0x0D0E0F10, 0x11121314, 0x15161718);
    CHECK_BLOCK(rtcp_sr_report_block(sr2, sizeof sr2, 1), 0, 0, 0, 0x01020304, 5, loss, 0x090A0B0C, 0x0D0E0F10, 0x11121314, 0x15161718);
    FILLS(-2, loss, rtcp_rr_report_blocks(rr2, sizeof rr2, LISTS));
    FILLS(-2, loss, rtcp_sr_report_blocks(sr2, sizeof sr2, LISTS));
    FILLS(-2, loss, rtcp_rr_read(rr2, sizeof rr2, LISTS));
    FILLS(-2, loss, rtcp_sr_read(sr2, sizeof sr2, LISTS));
}

static void losses_of_24_bits(void) {
    loss_is(0x00, 0x00, 0x00, 0);
    loss_is(0x00, 0x00, 0x01, 1);
    loss_is(0x7F, 0xFF, 0xFF, RTCP_MAX_LOST);
    loss_is(0x80, 0x00, 0x00, RTCP_MIN_LOST);
    loss_is(0x80, 0x00, 0x01, -8388607);
    loss_is(0xFF, 0x00, 0x00, -65536);
    loss_is(0xFF, 0xFF, 0xFF, -1);
}

static void descriptions(void) {
    CHECK(RtcpSdes, rtcp_sdes_parse(cname, sizeof cname), 0, 0, 0, 1, 1, 16, 0);
    CHECK(RtcpSdes, rtcp_sdes_parse(two, sizeof two), 0, 0, 0, 2, 0, 20, 0);
    CHECK(RtcpSdes, rtcp_sdes_parse(padded, sizeof padded), 4, 0, 0, 0, 0, 0, 0);
    CHECK(RtcpSdes, rtcp_sdes_parse(prefix, sizeof prefix), 5, 5, 0, 0, 0, 0, 0);
    CHECK(RtcpSdes, rtcp_sdes_parse(cut, sizeof cut), 2, 8, 4, 0, 0, 0, 0);
    CHECK(RtcpChunkWalk, rtcp_chunk_walk_open(two, sizeof two), 0, 0, 0, 4, 20);
    CHECK(RtcpChunkStep, rtcp_chunk_walk_step(two, sizeof two, 4, 20), 0, 0, 0, 1, 8, 0, 12, 20);
    CHECK(RtcpChunkStep, rtcp_chunk_walk_step(two, sizeof two, 12, 20), 0, 0, 0, 16, 8, 0, 20, 20);
    CHECK(RtcpChunkStep, rtcp_chunk_walk_step(two, sizeof two, 20, 20), 25, 0, 0, 0, 0, 0, 20, 20);
    CHECK(RtcpChunk, rtcp_chunk_parse(cname + 4, 12), 0, 0, 0, 0x11223344, 12, 4);
    CHECK(RtcpItemWalk, rtcp_item_walk_open(cname + 4, 12), 0, 0, 0, 4);
    CHECK(RtcpItemStep, rtcp_item_walk_step(cname + 4, 12, 4), 0, 0, 0, 1, 3, 6, 0, 6, 3, 9);
    CHECK(RtcpItemStep, rtcp_item_walk_step(cname + 4, 12, 9), 25, 0, 0, 0, 0, 0, 0, 0, 0, 9);
    CHECK(RtcpItem, rtcp_item_parse(private_item, sizeof private_item), 0, 0, 0, 8, 4, 3, 2, 5, 1);
    CHECK(RtcpPart, rtcp_item_priv_prefix(private_item, sizeof private_item), 0, 0, 0, 3, 2);
    CHECK(RtcpPart, rtcp_item_priv_prefix(cname + 8, 5), 30, 1, 0, 0, 0);
}

/* The items at once, into a list that is one number longer, just long enough, and too short; a chunk without items, and no chunk. */
static void item_lists(void) {
    static const uint32_t numbers[] = {0x11223344, 1, 10, 0, 3, 0x11223344, 0, 13, 0, 0, 7};
    static const uint32_t ends[] = {1, 0, 8, 0, 0, 16, 0, 16, 0, 0, 7};
    static const uint8_t none[] = {0x80, 0xCA, 0x00, 0x00};
    uint8_t priv[16] = {0x81, 0xCA, 0x00, 0x03, 0, 0, 0, 1};
    static const uint32_t private_row[] = {1, 8, 13, 2, 1, 1, 0, 14, 0, 0, 7};
    uint32_t list[11] = {0, 0, 0, 0, 0, 0, 0, 0, 0, 0, 7};
    memcpy(priv + 8, private_item, sizeof private_item);
    CHECK(RtcpWritten, rtcp_sdes_items(cname, sizeof cname, list, 9), 10, 10, 0, 0);
    CHECK(RtcpWritten, rtcp_sdes_items(cname, sizeof cname, list, 11), 0, 0, 0, 10);
    compare(__FILE__, "the list of items", list, numbers, sizeof numbers);
    CHECK(RtcpWritten, rtcp_sdes_items(two, sizeof two, list, 10), 0, 0, 0, 10);
    compare(__FILE__, "the list of chunks without items", list, ends, sizeof ends);
    CHECK(RtcpWritten, rtcp_sdes_items(priv, sizeof priv, list, 10), 0, 0, 0, 10);
    compare(__FILE__, "the list with a prefix", list, private_row, sizeof private_row);
    CHECK(RtcpWritten, rtcp_sdes_items(none, sizeof none, NULL, 0), 0, 0, 0, 0);
    CHECK(RtcpWritten, rtcp_sdes_items(prefix, sizeof prefix, list, 11), 5, 5, 0, 0);
    CHECK(RtcpWritten, rtcp_sdes_items(NULL, 0, NULL, 0), 2, 4, 0, 0);
}

/* A lookup that is done: the index that each SSRC is answered, -1 for none. The answers are 31 before, which is no index, and one past the list
   stays. The visits are at most the chunks. */
static void finds(const char *name, const uint8_t *packet, size_t len, const uint32_t *ssrcs, size_t n, const int *indices) {
    uint8_t answers[32];
    memset(answers, 31, sizeof answers);
    struct RtcpLookup l = rtcp_sdes_lookup(packet, len, ssrcs, n, answers, n + 1);
    if (l.number != 0 || l.first != 0 || l.second != 0 || l.visits > (packet[0] & 31)) compare(__FILE__, name, "", "x", 1);
    for (size_t i = 0; i < n; i++) {
        int index = answers[i] == RTCP_NO_CHUNK ? -1 : answers[i] & RTCP_CHUNK_INDEX;
        compare(__FILE__, name, &index, &indices[i], sizeof index);
    }
    if (answers[n] != 31) compare(__FILE__, "the answer past the list", "", "x", 1);
}

#define FINDS(packet, list, ...)                                                                              \
    finds("the lookup of " #list " in " #packet, packet, sizeof packet, list, sizeof list / sizeof list[0],   \
          (const int[]){__VA_ARGS__})

static void lookups(void) {
    static const uint8_t five[] = {
        0xA5, 0xCA, 0x00, 0x0D,
        0, 0, 0, 7, 1, 1, 'a', 0,                /* a CNAME */
        0, 0, 0, 8, 7, 1, 'a', 0,                /* a NOTE */
        0, 0, 0, 8, 1, 1, 'a', 0,                /* a CNAME of the same source */
        0, 0, 0, 8, 1, 1, 'b', 0,                /* and another */
        0, 0, 0, 0, 2, 1, 'a', 1, 1, 'b', 0, 0,  /* a NAME, then a CNAME, of SSRC 0 */
        0, 0, 0, 9, 1, 1, 'a', 8};               /* padding that starts as a chunk of 9 */
    static const uint32_t none_and_first[] = {9, 7}, first_of_two[] = {8}, twice[] = {8, 0, 8, 9, 7, 8, 9, 0};
    FINDS(five, none_and_first, -1, 0);
    FINDS(five, first_of_two, 2);
    FINDS(five, twice, 2, 4, 2, -1, 0, 2, -1, 4);
    FINDS(two, twice, -1, -1, -1, -1, -1, -1, -1, -1);
    FINDS(cname, none_and_first, -1, -1);
    finds("the lookup of no SSRC", five, sizeof five, NULL, 0, NULL);
}

/* 31 chunks: the last, then all of them from the last to the first. */
static void lookups_of_31(void) {
    uint8_t packet[4 + 31 * 8] = {0x9F, 0xCA, 0x00, 0x3E};
    uint32_t last[] = {31}, all[31];
    int indices[31];
    for (int i = 0; i < 31; i++) {
        const uint8_t chunk[] = {0, 0, 0, (uint8_t)(i + 1), 1, 1, 'a', 0};
        memcpy(packet + 4 + 8 * i, chunk, sizeof chunk);
        all[30 - i] = (uint32_t)i + 1;
        indices[30 - i] = i;
    }
    FINDS(packet, last, 30);
    finds("the lookup of all 31 chunks", packet, sizeof packet, all, 31, indices);
}

/* Nothing lent, 31 before the packet is looked at, then its refusals; no answer is written. */
static void refused_lookups(void) {
    static const uint8_t none[] = {0x80, 0xCA, 0x00, 0x00};
    static const uint32_t ssrcs[] = {0x11223344, 1};
    uint8_t answers[] = {7, 7};
    CHECK(RtcpLookup, rtcp_sdes_lookup(none, sizeof none, NULL, 0, NULL, 0), 0, 0, 0, 0);
    CHECK(RtcpLookup, rtcp_sdes_lookup(NULL, 0, NULL, 0, NULL, 0), 2, 4, 0, 0);
    CHECK(RtcpLookup, rtcp_sdes_lookup(prefix, sizeof prefix, NULL, 0, NULL, 0), 5, 5, 0, 0);
    CHECK(RtcpLookup, rtcp_sdes_lookup(NULL, 0, ssrcs, 1, NULL, 0), 31, 0, 0, 0);
    CHECK(RtcpLookup, rtcp_sdes_lookup(NULL, 0, ssrcs, 2, answers, 1), 31, 0, 0, 0);
    CHECK(RtcpLookup, rtcp_sdes_lookup(cname, sizeof cname, ssrcs, 2, answers, 1), 31, 0, 0, 0);
    CHECK(RtcpLookup, rtcp_sdes_lookup(prefix, sizeof prefix, ssrcs, 2, answers, 1), 31, 0, 0, 0);
    CHECK(RtcpLookup, rtcp_sdes_lookup(NULL, 0, ssrcs, 2, answers, 2), 2, 4, 0, 0);
    CHECK(RtcpLookup, rtcp_sdes_lookup(rr, sizeof rr, ssrcs, 2, answers, 2), 6, 201, 202, 0);
    CHECK(RtcpLookup, rtcp_sdes_lookup(padded, sizeof padded, ssrcs, 2, answers, 2), 4, 0, 0, 0);
    CHECK(RtcpLookup, rtcp_sdes_lookup(prefix, sizeof prefix, ssrcs, 2, answers, 2), 5, 5, 0, 0);
    CHECK(RtcpLookup, rtcp_sdes_lookup(cut, sizeof cut, ssrcs, 2, answers, 2), 2, 8, 4, 0);
    compare(__FILE__, "the answers of a refused lookup", answers, "\7\7", 2);
}

static void others(void) {
    CHECK(RtcpBye, rtcp_bye_parse(bye, sizeof bye), 0, 0, 0, 1, 1, 9, 2, 11, 1, 12, 4);
    CHECK(RtcpSource, rtcp_bye_source(bye, sizeof bye, 0), 0, 0, 0, 0x11223344);
    CHECK(RtcpSource, rtcp_bye_source(bye, sizeof bye, UINT64_MAX), 25, 0, 0, 0);
    CHECK(RtcpApp, rtcp_app_parse(app, sizeof app), 0, 0, 0, 5, 1, 8, 4, 12, 4, 16, 0);
    CHECK(RtcpApp, rtcp_app_parse(app, 12), 2, 16, 12, 0, 0, 0, 0, 0, 0, 0, 0);
}

int main(void) {
    reports();
    block_lists();
    losses_of_24_bits();
    descriptions();
    item_lists();
    lookups();
    lookups_of_31();
    refused_lookups();
    others();
    return finish(__FILE__);
}
