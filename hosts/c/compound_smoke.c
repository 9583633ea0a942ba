/* A datagram written by calls of the compound writer, read, and walked over, through the C functions. The exit status is 1 where an answer
   differs. */
#include "check.h"

/* The writer that is lent to every call. */
static struct RtcpWriter w;

/* A call: its answer, and the writer after it. */
#define CALLS(number, first, second, length, padded, cname, closed, call)    \
    do {                                                                     \
        struct RtcpCall got = call;                                          \
        struct RtcpCall want = {number, first, second};                      \
        struct RtcpWriter after = {length, padded, cname, closed};           \
        compare(__FILE__, #call, &got, &want, sizeof got);                   \
        compare(__FILE__, "the writer after " #call, &w, &after, sizeof w);  \
    } while (0)

static const uint8_t fractions[] = {5};
static const int32_t losses[] = {0x060708};
static const uint32_t words[] = {0x01020304, 0x090A0B0C, 0x0D0E0F10, 0x11121314, 0x15161718};

/* One block, none, and lists that disagree. */
#define BLOCK fractions, 1, losses, 1, words, 5
#define NO_BLOCK NULL, 0, NULL, 0, NULL, 0
#define DISAGREE fractions, 1, losses, 0, words, 5

static const uint32_t ssrcs[] = {0x11223344};
static const uint64_t counts[] = {1};
static const uint8_t types[] = {1};
static const uint64_t prefixes[] = {0};
static const uint64_t values[] = {3};
static const uint8_t text[] = {'a', '@', 'b'};

static const uint8_t datagram[] = {
    0x81, 0xC8, 0x00, 0x0C, 0, 0, 0, 1, 0, 0, 0, 2, 0, 0, 0, 3, 0, 0, 0, 4, 0, 0, 0, 5, 0, 0, 0, 6,
    1, 2, 3, 4, 5, 6, 7, 8, 9, 10, 11, 12, 13, 14, 15, 16, 17, 18, 19, 20, 21, 22, 23, 24,
    0x80, 0xC9, 0x00, 0x01, 0x11, 0x22, 0x33, 0x44,
    0x81, 0xCA, 0x00, 0x03, 0x11, 0x22, 0x33, 0x44, 0x01, 0x03, 0x61, 0x40, 0x62, 0, 0, 0,
    0x85, 0xCC, 0x00, 0x03, 0, 0, 0, 1, 'n', 'a', 'm', 0, 'd', 'a', 't', 'a',
    0xA1, 0xCB, 0x00, 0x03, 0x11, 0x22, 0x33, 0x44, 0x02, 0x61, 0x62, 0, 0, 0, 0, 4};

static uint8_t buf[sizeof datagram + 4];

static void left(size_t size) {
    size_t i;
    compare(__FILE__, "the bytes written", buf, datagram, size);
    for (i = size; i < sizeof buf; i++) {
        if (buf[i] != 0x5A) {
            compare(__FILE__, "the bytes past them", buf + i, "\x5A", 1);
            return;
        }
    }
}

static void writes(void) {
    struct RtcpWriter fresh = {0, 0, 0, 0};
    const uint8_t *nam = (const uint8_t *)"nam", *data = (const uint8_t *)"data";
    memset(buf, 0x5A, sizeof buf);
    memset(&w, 0x5A, sizeof w);
    rtcp_writer_new(&w);
    compare(__FILE__, "rtcp_writer_new", &w, &fresh, sizeof w);
    CALLS(27, 0, 0, 0, 0, 0, 0, rtcp_writer_add_bye(&w, buf, sizeof buf, ssrcs, 1, text, 2, 3));
    CALLS(28, 0, 0, 0, 0, 0, 0, rtcp_writer_close(&w));
    CALLS(24, 0, 0, 0, 0, 0, 0, rtcp_writer_add_sr(&w, buf, sizeof buf, 1, 2, 3, 4, 5, DISAGREE, 3));
    CALLS(10, 52, 0, 0, 0, 0, 0, rtcp_writer_add_sr(&w, buf, 51, 1, 0x200000003, 4, 5, 6, BLOCK, 0));
    left(0);
    CALLS(0, 0, 0, 52, 0, 0, 0, rtcp_writer_add_sr(&w, buf, 52, 1, 0x200000003, 4, 5, 6, BLOCK, 0));
    left(52);
    CALLS(10, 52, 0, 52, 0, 0, 0, rtcp_writer_add_rr(&w, buf, 51, 0x11223344, NO_BLOCK, 0));
    CALLS(10, 60, 0, 52, 0, 0, 0, rtcp_writer_add_rr(&w, buf, 59, 0x11223344, NO_BLOCK, 0));
    CALLS(24, 0, 0, 52, 0, 0, 0, rtcp_writer_add_rr(&w, NULL, 0, 0x11223344, DISAGREE, 3));
    CALLS(0, 0, 0, 60, 0, 0, 0, rtcp_writer_add_rr(&w, buf, 60, 0x11223344, NO_BLOCK, 0));
    CALLS(24, 0, 0, 60, 0, 0, 0, rtcp_writer_add_sdes(&w, buf, sizeof buf, ssrcs, 1, counts, 1, types, 1, prefixes, 1, values, 1, text, 2, 0));
    CALLS(0, 0, 0, 76, 0, 1, 0, rtcp_writer_add_sdes(&w, buf, sizeof buf, ssrcs, 1, counts, 1, types, 1, prefixes, 1, values, 1, text, 3, 0));
    CALLS(0, 0, 0, 92, 0, 1, 0, rtcp_writer_add_app(&w, buf, sizeof buf, 5, 1, nam, 3, data, 4, 0));
    CALLS(0, 0, 0, 108, 1, 1, 0, rtcp_writer_add_bye(&w, buf, sizeof buf, ssrcs, 1, (const uint8_t *)"ab", 2, 4));
    CALLS(29, 0, 0, 108, 1, 1, 0, rtcp_writer_add_rr(&w, buf, sizeof buf, 1, DISAGREE, 3));
    CALLS(29, 0, 0, 108, 1, 1, 0, rtcp_writer_add_app(&w, buf, sizeof buf, 32, 1, nam, 3, data, 4, 0));
    CALLS(0, 0, 0, 108, 1, 1, 1, rtcp_writer_close(&w));
    CALLS(26, 0, 0, 108, 1, 1, 1, rtcp_writer_close(&w));
    CALLS(26, 0, 0, 108, 1, 1, 1, rtcp_writer_add_sr(&w, buf, sizeof buf, 1, 2, 3, 4, 5, DISAGREE, 3));
    left(sizeof datagram);
}

/* States that no call leaves: any flag but 0 is set, and a sum past 64 bits is named as the largest number. */
static void states(void) {
    static const struct RtcpWriter seven = {12, 7, 7, 7}, last = {UINT64_MAX, 0, 0, 0}, named = {12, 7, 7, 0};
    memset(buf, 0x5A, sizeof buf);
    w = seven;
    CALLS(26, 0, 0, 12, 7, 7, 7, rtcp_writer_close(&w));
    w = named;
    CALLS(29, 0, 0, 12, 7, 7, 0, rtcp_writer_add_rr(&w, buf, sizeof buf, 1, NO_BLOCK, 0));
    CALLS(0, 0, 0, 12, 1, 1, 1, rtcp_writer_close(&w));
    w = last;
    CALLS(10, UINT64_MAX, 0, UINT64_MAX, 0, 0, 0, rtcp_writer_add_rr(&w, buf, 16, 1, NO_BLOCK, 0));
    left(0);
}

static const uint8_t two_fractions[] = {5, 7};
static const uint32_t two_words[] = {1, 2, 3, 4, 5, 6, 7, 8, 9, 10};
#define TWO(given) two_fractions, 2, given, 2, two_words, 10

/* 17 with the low 32 bits of a loss, from both calls that add a report, the first packet and a later one; no byte changes. */
static void loss_refused(uint64_t low, const int32_t *given) {
    memset(buf, 0x5A, sizeof buf);
    rtcp_writer_new(&w);
    CALLS(17, low, 8388607, 0, 0, 0, 0, rtcp_writer_add_rr(&w, buf, sizeof buf, 1, TWO(given), 0));
    CALLS(17, low, 8388607, 0, 0, 0, 0, rtcp_writer_add_sr(&w, buf, sizeof buf, 1, 2, 3, 4, 5, TWO(given), 0));
    CALLS(17, low, 8388607, 0, 0, 0, 0, rtcp_writer_add_rr(&w, NULL, 0, 1, TWO(given), 0));
    left(0);
    CALLS(0, 0, 0, 52, 0, 0, 0, rtcp_writer_add_sr(&w, buf, sizeof buf, 1, 0x200000003, 4, 5, 6, BLOCK, 0));
    CALLS(17, low, 8388607, 52, 0, 0, 0, rtcp_writer_add_rr(&w, buf, sizeof buf, 1, TWO(given), 0));
    CALLS(11, 3, 0, 52, 0, 0, 0, rtcp_writer_add_rr(&w, buf, sizeof buf, 1, TWO(given), 3));
    left(52);
}

/* Losses below zero and both limits, added and read back; those past the limits refused. */
static void signed_losses(void) {
    static const int32_t limits[] = {RTCP_MIN_LOST, RTCP_MAX_LOST}, over[] = {8388608, 0}, under[] = {-8388609, 0};
    static const int32_t second_over[] = {-1, 8388608}, second_under[] = {-1, -8388609}, below[] = {-1};
    loss_refused(8388608, over);
    loss_refused(4286578687, under);
    loss_refused(8388608, second_over);
    loss_refused(4286578687, second_under);
    rtcp_writer_new(&w);
    CALLS(0, 0, 0, 56, 0, 0, 0, rtcp_writer_add_rr(&w, buf, sizeof buf, 1, TWO(limits), 0));
    CALLS(0, 0, 0, 108, 0, 0, 0, rtcp_writer_add_sr(&w, buf, sizeof buf, 1, 2, 3, 4, 5, fractions, 1, below, 1, words, 5, 0));
    CHECK_BLOCK(rtcp_rr_report_block(buf, 56, 0), 0, 0, 0, 1, 5, RTCP_MIN_LOST, 2, 3, 4, 5);
    CHECK_BLOCK(rtcp_rr_report_block(buf, 56, 1), 0, 0, 0, 6, 7, RTCP_MAX_LOST, 7, 8, 9, 10);
    CHECK_BLOCK(rtcp_sr_report_block(buf + 56, 52, 0), 0, 0, 0, 0x01020304, 5, -1, 0x090A0B0C, 0x0D0E0F10, 0x11121314, 0x15161718);
    struct RtcpBlock block = rtcp_rr_report_block(buf, 56, 0);
    rtcp_writer_new(&w);
    CALLS(0, 0, 0, 32, 0, 0, 0, rtcp_writer_add_rr_blocks(&w, buf, sizeof buf, 1, &block, 1));
    CHECK_BLOCK(rtcp_rr_report_block(buf, 32, 0), 0, 0, 0, 1, 5, RTCP_MIN_LOST, 2, 3, 4, 5);
    block.cumulative_lost--;
    CALLS(17, 4286578687, 8388607, 32, 0, 0, 0, rtcp_writer_add_rr_blocks(&w, buf, sizeof buf, 1, &block, 1));
}

/* The inline helpers. */
static void helpers(void) {
    static const struct RtcpBlock blocks[] = {{0, 0, 0, 0x01020304, 5, 0x060708, 0x090A0B0C, 0x0D0E0F10, 0x11121314, 0x15161718}};
    static const struct RtcpBlock many[32];
    struct RtcpPacketEntry packets[2];
    struct RtcpItemEntry items[2];
    memset(buf, 0x5A, sizeof buf);
    rtcp_writer_new(&w);
    CALLS(0, 0, 0, 32, 0, 0, 0, rtcp_writer_add_rr_blocks(&w, buf, sizeof buf, 1, blocks, 1));
    compare(__FILE__, "the block", buf + 8, datagram + 28, 24);
    CALLS(0, 0, 0, 48, 0, 1, 0, rtcp_writer_add_cname(&w, buf, sizeof buf, 0x11223344, "a@b", 3));
    compare(__FILE__, "the CNAME", buf + 32, datagram + 60, 16);
    CHECK(RtcpWritten, rtcp_compound_entries(buf, 48, packets, 2), 0, 0, 0, 2);
    CHECK(RtcpWritten, rtcp_sdes_entries(buf + packets[1].offset, packets[1].len, items, 2), 0, 0, 0, 2);
    if (packets[0].packet_type != RTCP_RR || items[0].type_ != RTCP_CNAME || items[0].value != 10 || items[0].value_len != 3 || items[1].type_ != 0) {
        compare(__FILE__, "the entries", "", "x", 1);
    }
    struct RtcpSr sr = rtcp_sr_parse(datagram, 52);
    rtcp_writer_new(&w);
    CALLS(0, 0, 0, 52, 0, 0, 0, rtcp_writer_add_sr_blocks(&w, buf, sizeof buf, &sr, blocks, 1));
    compare(__FILE__, "the sender report", buf, datagram, 52);
    CALLS(18, 32, 31, 52, 0, 0, 0, rtcp_writer_add_sr_blocks(&w, buf, sizeof buf, &sr, many, 32));
    CALLS(18, 32, 31, 52, 0, 0, 0, rtcp_writer_add_rr_blocks(&w, buf, sizeof buf, 1, many, 32));
    compare(__FILE__, "the name of 25", rtcp_refusal_name(RTCP_NOTHING_LEFT), "RTCP_NOTHING_LEFT", 18);
    compare(__FILE__, "the name of 31", rtcp_refusal_name(RTCP_ANSWERS_TOO_SHORT), "RTCP_ANSWERS_TOO_SHORT", 23);
    compare(__FILE__, "the name of 32", rtcp_refusal_name(RTCP_ANSWERS_TOO_SHORT + 1), "no such refusal", 16);
    compare(__FILE__, "the text of 25", rtcp_refusal_text(RTCP_NOTHING_LEFT), "nothing is left, or no such index", 33);
    compare(__FILE__, "the text of 31", rtcp_refusal_text(RTCP_ANSWERS_TOO_SHORT), "more SSRCs than the list of answers has room for", 49);
    compare(__FILE__, "the text of 32", rtcp_refusal_text(RTCP_ANSWERS_TOO_SHORT + 1), "no such refusal", 16);
    compare(__FILE__, "the text of 17", rtcp_refusal_text(RTCP_CUMULATIVE_LOST_TOO_LARGE), "a cumulative loss below -8,388,608 or above 8,388,607", 54);
}

static void reads(void) {
    const uint8_t *s = datagram;
    const size_t n = sizeof datagram;
    static const uint64_t rows[] = {200, 0, 52, 201, 52, 8, 202, 60, 16, 204, 76, 16, 203, 92, 16, 7};
    uint64_t packets[16] = {0, 0, 0, 0, 0, 0, 0, 0, 0, 0, 0, 0, 0, 0, 0, 7};
    CHECK(RtcpCompound, rtcp_compound_parse(s, n), 0, 0, 0, 5);
    CHECK(RtcpCompound, rtcp_compound_parse(NULL, 0), 2, 4, 0, 0);
    CHECK(RtcpCompound, rtcp_compound_parse(s, 52), 8, 0, 0, 0);
    CHECK(RtcpCompound, rtcp_compound_parse(s + 60, 16), 7, 202, 0, 0);
    CHECK(RtcpWritten, rtcp_compound_packets(s, n, packets, 14), 10, 15, 0, 0);
    CHECK(RtcpWritten, rtcp_compound_packets(s, n, packets, 16), 0, 0, 0, 15);
    compare(__FILE__, "the list of packets", packets, rows, sizeof rows);
    CHECK(RtcpWritten, rtcp_compound_packets(s, 52, packets, 16), 8, 0, 0, 0);
    CHECK(RtcpWalk, rtcp_walk_open(s, n), 0, 0, 0, 0);
    CHECK(RtcpWalk, rtcp_walk_open(s, 52), 8, 0, 0, 0);
    CHECK(RtcpStep, rtcp_walk_step(s, n, 0), 0, 0, 0, 200, 200, 1, 0, 52, 52, 0, 1, 0x200000003, 4, 5, 6, 52, 0, 0, 0, 0, 52);
    CHECK_BLOCK(rtcp_sr_report_block(s, 52, 0), 0, 0, 0, 0x01020304, 5, 0x060708, 0x090A0B0C, 0x0D0E0F10, 0x11121314, 0x15161718);
    CHECK(RtcpStep, rtcp_walk_step(s, n, 52), 0, 0, 0, 201, 201, 0, 52, 8, 8, 0, 0x11223344, 0, 0, 0, 0, 8, 0, 0, 0, 0, 60);
    CHECK(RtcpStep, rtcp_walk_step(s, n, 60), 0, 0, 0, 202, 202, 1, 60, 16, 16, 0, 0, 0, 0, 0, 0, 0, 1, 0, 0, 0, 76);
    CHECK(RtcpStep, rtcp_walk_step(s, n, 76), 0, 0, 0, 204, 204, 5, 76, 16, 16, 0, 1, 0, 0, 0, 0, 0, 0, 0, 0, 0, 92);
    CHECK(RtcpStep, rtcp_walk_step(s, n, 92), 0, 0, 0, 203, 203, 1, 92, 16, 12, 4, 0, 0, 0, 0, 0, 0, 0, 1, 9, 2, 108);
    CHECK(RtcpStep, rtcp_walk_step(s, n, 108), 25, 0, 0, 0, 0, 0, 0, 0, 0, 0, 0, 0, 0, 0, 0, 0, 0, 0, 0, 0, 108);
    CHECK(RtcpStep, rtcp_walk_step(s, n, UINT64_MAX), 25, 0, 0, 0, 0, 0, 0, 0, 0, 0, 0, 0, 0, 0, 0, 0, 0, 0, 0, 0, UINT64_MAX);
    CHECK(RtcpStep, rtcp_walk_step((const uint8_t *)"\x80\xC9\0\1\0\0\0\7\x83\xCF\0\1\1\2\3\4", 16, 8), 0, 0, 0, 0, 207, 3, 8, 8, 8, 0, 0, 0, 0, 0, 0, 0, 0, 0, 0, 0, 16);
}

int main(void) {
    writes();
    states();
    signed_losses();
    helpers();
    reads();
    return finish(__FILE__);
}
