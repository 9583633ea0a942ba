/* Packets written through the C functions: the result, the bytes, and the bytes past them. The exit status is 1 where something differs. */
#include "check.h"

/* Lent to every write, and filled with 0x5A before it. */
static uint8_t buf[80];

static void differs(const char *name, const char *what) {
    printf("%s: %s: %s\n", __FILE__, name, what);
    failed = 1;
}

static void same(const char *name, struct RtcpWritten got, uint64_t number, uint64_t first, uint64_t second, uint64_t size) {
    if (got.number != number || got.first != first || got.second != second || got.size != size) {
        differs(name, "the result differs");
    }
}

static void left(const char *name, const uint8_t *want, size_t size) {
    size_t i;
    if (size != 0 && memcmp(buf, want, size) != 0) {
        differs(name, "the bytes differ");
    }
    for (i = size; i < sizeof buf; i++) {
        if (buf[i] != 0x5A) {
            differs(name, "a byte past the size changed");
            return;
        }
    }
}

#define WRITES(want, call)                                    \
    do {                                                      \
        memset(buf, 0x5A, sizeof buf);                        \
        same(#call, call, 0, 0, 0, sizeof want);              \
        left(#call, want, sizeof want);                       \
    } while (0)

#define REFUSES(number, first, second, call)                  \
    do {                                                      \
        memset(buf, 0x5A, sizeof buf);                        \
        same(#call, call, number, first, second, 0);          \
        left(#call, NULL, 0);                                 \
    } while (0)

#define SIZES(size, call) same(#call, call, 0, 0, 0, size)

static void reports(void) {
    static const uint8_t fraction[] = {5};
    static const int32_t loss[] = {0x060708}, over[] = {0x800000};
    static const uint32_t words[] = {0x01020304, 0x090A0B0C, 0x0D0E0F10, 0x11121314, 0x15161718};
    static uint8_t fractions[32];
    static int32_t losses[32];
    static uint32_t many[32 * 5];
    static const uint8_t rr[] = {0x81, 0xC9, 0x00, 0x07, 0x11, 0x22, 0x33, 0x44, 1, 2, 3, 4, 5, 6, 7, 8, 9, 10, 11, 12, 13, 14, 15, 16, 17, 18, 19, 20, 21, 22, 23, 24};
    static const uint8_t sr[] = {0xA0, 0xC8, 0x00, 0x07, 0, 0, 0, 1, 0, 0, 0, 2, 0, 0, 0, 3, 0, 0, 0, 4, 0, 0, 0, 5, 0, 0, 0, 6, 0, 0, 0, 4};
    WRITES(rr, rtcp_rr_write(buf, sizeof buf, 0x11223344, fraction, 1, loss, 1, words, 5, 0));
    SIZES(32, rtcp_rr_size(fraction, 1, loss, 1, words, 5, 0));
    SIZES(56, rtcp_sr_size(fraction, 1, loss, 1, words, 5, 4));
    WRITES(sr, rtcp_sr_write(buf, sizeof buf, 1, 0x200000003, 4, 5, 6, NULL, 0, NULL, 0, NULL, 0, 4));
    REFUSES(10, 32, 0, rtcp_rr_write(buf, 31, 0x11223344, fraction, 1, loss, 1, words, 5, 0));
    REFUSES(24, 0, 0, rtcp_rr_write(buf, sizeof buf, 1, fraction, 1, loss, 1, words, 4, 3));
    REFUSES(24, 0, 0, rtcp_rr_write(buf, sizeof buf, 1, fraction, 1, NULL, 0, words, 5, 3));
    REFUSES(24, 0, 0, rtcp_sr_write(buf, sizeof buf, 1, 2, 3, 4, 5, NULL, 0, loss, 1, NULL, 0, 3));
    REFUSES(11, 3, 0, rtcp_rr_write(buf, sizeof buf, 1, fraction, 1, over, 1, words, 5, 3));
    REFUSES(17, 0x800000, 8388607, rtcp_rr_write(buf, sizeof buf, 1, fraction, 1, over, 1, words, 5, 0));
    REFUSES(18, 32, 31, rtcp_rr_write(buf, sizeof buf, 1, fractions, 32, losses, 32, many, 32 * 5, 3));
    REFUSES(24, 0, 0, rtcp_sr_write(buf, sizeof buf, 1, 2, 3, 4, 5, fractions, 32, losses, 31, many, 32 * 5, 0));
    SIZES(8 + 31 * 24, rtcp_rr_size(fractions, 31, losses, 31, many, 31 * 5, 0));
}

/* Two blocks that differ from each other in the loss alone. */
static const uint8_t two_fractions[] = {5, 5};
static const uint32_t two_words[] = {0x01020304, 0x090A0B0C, 0x0D0E0F10, 0x11121314, 0x15161718, 0x01020304, 0x090A0B0C, 0x0D0E0F10, 0x11121314, 0x15161718};
#define TWO(losses) two_fractions, 2, losses, 2, two_words, 10

/* Lists that hold the losses which were written. */
static void read_back(const char *name, struct RtcpWritten got, const int32_t *read, const int32_t *given) {
    same(name, got, 0, 0, 0, 2);
    if (read[0] != given[0] || read[1] != given[1]) differs(name, "the losses differ");
}

/* The losses written in an RR and an SR, whose 24 bits are these, and read back from both; a size for both. */
static void loss_bits(const int32_t *given, const uint8_t *bits, const uint8_t *others) {
    uint8_t rr[56], sr[76], fractions[2];
    int32_t losses[2];
    uint32_t words[10];
    two_blocks(rr, sr, bits, others);
    SIZES(56, rtcp_rr_size(TWO(given), 0));
    SIZES(76, rtcp_sr_size(TWO(given), 0));
    WRITES(rr, rtcp_rr_write(buf, sizeof buf, 1, TWO(given), 0));
    read_back("an RR", rtcp_rr_report_blocks(buf, sizeof rr, fractions, 2, losses, 2, words, 10), losses, given);
    WRITES(sr, rtcp_sr_write(buf, sizeof buf, 1, 0x200000003, 4, 5, 6, TWO(given), 0));
    read_back("an SR", rtcp_sr_report_blocks(buf, sizeof sr, fractions, 2, losses, 2, words, 10), losses, given);
}

/* 17 of two losses from all calls that write or size a report, with the low 32 bits of the one that does not fit. */
static void loss_refused(uint64_t low, const int32_t *given) {
    REFUSES(17, low, 8388607, rtcp_rr_write(buf, sizeof buf, 1, TWO(given), 0));
    REFUSES(17, low, 8388607, rtcp_sr_write(buf, sizeof buf, 1, 2, 3, 4, 5, TWO(given), 0));
    REFUSES(17, low, 8388607, rtcp_rr_size(TWO(given), 0));
    REFUSES(17, low, 8388607, rtcp_sr_size(TWO(given), 0));
    REFUSES(17, low, 8388607, rtcp_rr_write(buf, 0, 1, TWO(given), 0));
    REFUSES(11, 3, 0, rtcp_sr_write(buf, sizeof buf, 1, 2, 3, 4, 5, TWO(given), 3));
    REFUSES(24, 0, 0, rtcp_rr_write(buf, sizeof buf, 1, two_fractions, 1, given, 2, two_words, 5, 0));
}

static void losses(void) {
    static const int32_t limits[] = {RTCP_MIN_LOST, RTCP_MAX_LOST}, near[] = {-1, 0}, inside[] = {-8388607, 8388606};
    static const int32_t over[] = {8388608, 0}, under[] = {-8388609, 0}, second_over[] = {RTCP_MIN_LOST, 8388608};
    static const int32_t second_under[] = {RTCP_MAX_LOST, -8388609}, both[] = {8388609, -8388609};
    static const int32_t farthest[] = {-1, INT32_MIN}, largest[] = {1, INT32_MAX}, unsigned_24_bits[] = {16777215, 0};
    loss_bits(limits, (const uint8_t *)"\x80\0\0", (const uint8_t *)"\x7F\xFF\xFF");
    loss_bits(near, (const uint8_t *)"\xFF\xFF\xFF", (const uint8_t *)"\0\0\0");
    loss_bits(inside, (const uint8_t *)"\x80\0\1", (const uint8_t *)"\x7F\xFF\xFE");
    loss_refused(8388608, over);
    loss_refused(4286578687, under);
    loss_refused(8388608, second_over);
    loss_refused(4286578687, second_under);
    loss_refused(8388609, both);
    loss_refused(2147483648, farthest);
    loss_refused(2147483647, largest);
    loss_refused(16777215, unsigned_24_bits);
}

static void descriptions(void) {
    static const uint32_t ssrcs[] = {0x11223344};
    static const uint64_t counts[] = {1};
    static const uint8_t types[] = {1};
    static const uint64_t prefixes[] = {0};
    static const uint64_t values[] = {3};
    static const uint8_t text[] = {'a', '@', 'b'};
    static const uint8_t sdes[] = {0x81, 0xCA, 0x00, 0x03, 0x11, 0x22, 0x33, 0x44, 0x01, 0x03, 0x61, 0x40, 0x62, 0x00, 0x00, 0x00};
    static const uint8_t private_item[] = {0x08, 0x05, 0x01, 'a', '@', 'b', 'a'};
    WRITES(sdes, rtcp_sdes_write(buf, sizeof buf, ssrcs, 1, counts, 1, types, 1, prefixes, 1, values, 1, text, 3, 0));
    SIZES(20, rtcp_sdes_size(ssrcs, 1, counts, 1, types, 1, prefixes, 1, values, 1, text, 3, 4));
    REFUSES(24, 0, 0, rtcp_sdes_write(buf, sizeof buf, ssrcs, 1, counts, 1, types, 1, prefixes, 1, values, 1, text, 2, 0));
    memset(buf, 0x5A, sizeof buf);
    same("chunk", rtcp_chunk_write(buf, sizeof buf, 0x11223344, types, 1, prefixes, 1, values, 1, text, 3), 0, 0, 0, 12);
    left("chunk", sdes + 4, 12);
    SIZES(12, rtcp_chunk_size(types, 1, prefixes, 1, values, 1, text, 3));
    WRITES(private_item, rtcp_item_write(buf, sizeof buf, 8, text, 1, (const uint8_t *)"@ba", 3));
    SIZES(5, rtcp_item_size(1, text, 2, text, 3));
    REFUSES(23, 0, 0, rtcp_item_write(buf, sizeof buf, 0, NULL, 0, text, 3));
}

static void others(void) {
    static const uint32_t sources[] = {0x11223344};
    static const uint8_t reason[] = {'a', 'b'};
    static const uint8_t bye[] = {0xA1, 0xCB, 0x00, 0x03, 0x11, 0x22, 0x33, 0x44, 0x02, 0x61, 0x62, 0x00, 0x00, 0x00, 0x00, 0x04};
    static const uint8_t app[] = {0xA5, 0xCC, 0x00, 0x04, 0, 0, 0, 1, 'n', 'a', 'm', 0, 'd', 'a', 't', 'a', 0, 0, 0, 4};
    /* Row 9. */
    WRITES(bye, rtcp_bye_write(buf, sizeof buf, sources, 1, reason, 2, 4));
    SIZES(16, rtcp_bye_size(sources, 1, reason, 2, 4));
    REFUSES(10, 16, 0, rtcp_bye_write(buf, 15, sources, 1, reason, 2, 4));
    REFUSES(11, 5, 0, rtcp_bye_write(buf, sizeof buf, sources, 1, reason, 2, 5));
    WRITES(app, rtcp_app_write(buf, sizeof buf, 5, 1, (const uint8_t *)"nam", 3, (const uint8_t *)"data", 4, 4));
    SIZES(20, rtcp_app_size(5, (const uint8_t *)"nam", 3, (const uint8_t *)"data", 4, 4));
    REFUSES(12, 32, 31, rtcp_app_write(buf, sizeof buf, 32, 1, (const uint8_t *)"nam", 3, (const uint8_t *)"data", 4, 5));
}

int main(void) {
    reports();
    losses();
    descriptions();
    others();
    return finish(__FILE__);
}
