/* The reception figures of RFC 3550 A.1, A.3 and A.8, through the C functions: both sides of each limit, and states of any bits. The exit status is 1
   where an answer differs. */
#include "check.h"

/* Field by field: the bytes between the fields are anything. */
static int same_state(const struct RtcpReception *got, const struct RtcpReception *want) {
    return got->max_seq == want->max_seq && got->cycles == want->cycles && got->base_seq == want->base_seq && got->bad_seq == want->bad_seq &&
           got->probation == want->probation && got->received == want->received && got->expected_prior == want->expected_prior &&
           got->received_prior == want->received_prior && got->transit == want->transit && got->jitter == want->jitter;
}

static void compare_state(const char *name, struct RtcpReception got, struct RtcpReception want) {
    compare(__FILE__, name, same_state(&got, &want) ? "same" : "else", "same", 4);
}

#define STATE(...) ((struct RtcpReception){__VA_ARGS__})

/* The state after packets with these sequence numbers, from a new source, and whether the last is accepted. */
#define COMES_TO(seqs, is_accepted, ...)                                                   \
    do {                                                                                   \
        struct RtcpReceptionUpdate u = after(seqs, sizeof seqs / sizeof seqs[0]);          \
        compare_state("the packets " #seqs, u.reception, STATE(__VA_ARGS__));              \
        if (u.accepted != is_accepted) compare(__FILE__, "accepted of " #seqs, "", "x", 1); \
    } while (0)

static struct RtcpReceptionUpdate after(const uint16_t *seqs, size_t n) {
    struct RtcpReceptionUpdate u = {rtcp_reception_new(seqs[0]), 0};
    for (size_t i = 0; i < n; i++) u = rtcp_reception_update(u.reception, seqs[i], 0, 0);
    return u;
}

static void starts(void) {
    static const uint16_t first[] = {7}, in_order[] = {0, 1}, around[] = {65535, 0}, gap[] = {5, 7}, mended[] = {5, 7, 8};
    static const uint16_t again[] = {5, 5}, back[] = {5, 4}, forth[] = {5, 4, 5};
    compare_state("new", rtcp_reception_new(7), STATE(6, 0, 7, 65537, 2, 0, 0, 0, 0, 0));
    compare_state("new from 0", rtcp_reception_new(0), STATE(65535, 0, 0, 65537, 2, 0, 0, 0, 0, 0));
    compare_state("new from 65535", rtcp_reception_new(65535), STATE(65534, 0, 65535, 65537, 2, 0, 0, 0, 0, 0));
    COMES_TO(first, 0, 7, 0, 7, 65537, 1, 0, 0, 0, 0, 0);
    COMES_TO(in_order, 1, 1, 0, 1, 65537, 0, 1, 0, 0, 0, 0);
    COMES_TO(around, 1, 0, 0, 0, 65537, 0, 1, 0, 0, 0, 0);
    COMES_TO(gap, 0, 7, 0, 5, 65537, 1, 0, 0, 0, 0, 0);
    COMES_TO(mended, 1, 8, 0, 8, 65537, 0, 1, 0, 0, 0, 0);
    COMES_TO(again, 0, 5, 0, 5, 65537, 1, 0, 0, 0, 0, 0);
    COMES_TO(back, 0, 4, 0, 5, 65537, 1, 0, 0, 0, 0, 0);
    COMES_TO(forth, 1, 5, 0, 5, 65537, 0, 1, 0, 0, 0, 0);
}

/* How far ahead is a gap, and how far back is late. */
static void distances(void) {
    static const uint16_t duplicate[] = {0, 1, 1}, gap[] = {0, 1, 3000}, jump[] = {0, 1, 3001}, far[] = {0, 1, 65437}, late[] = {0, 1, 65438};
    static const uint16_t before[] = {0, 1, 0}, wrapped[] = {65534, 65535, 2998}, past[] = {65534, 65535, 2999}, old[] = {65534, 65535, 0, 65535};
    COMES_TO(duplicate, 1, 1, 0, 1, 65537, 0, 2, 0, 0, 0, 0);
    COMES_TO(gap, 1, 3000, 0, 1, 65537, 0, 2, 0, 0, 0, 0);
    COMES_TO(jump, 0, 1, 0, 1, 3002, 0, 1, 0, 0, 0, 0);
    COMES_TO(far, 0, 1, 0, 1, 65438, 0, 1, 0, 0, 0, 0);
    COMES_TO(late, 1, 1, 0, 1, 65537, 0, 2, 0, 0, 0, 0);
    COMES_TO(before, 1, 1, 0, 1, 65537, 0, 2, 0, 0, 0, 0);
    COMES_TO(wrapped, 1, 2998, 65536, 65535, 65537, 0, 2, 0, 0, 0, 0);
    COMES_TO(past, 0, 65535, 0, 65535, 3000, 0, 1, 0, 0, 0, 0);
    COMES_TO(old, 1, 0, 65536, 65535, 65537, 0, 3, 0, 0, 0, 0);
}

static void restarts(void) {
    static const uint16_t two[] = {0, 1, 3001, 3002}, other[] = {0, 1, 3001, 5000}, twice[] = {0, 1, 3001, 3001};
    static const uint16_t interrupted[] = {0, 1, 3001, 2, 3002}, around[] = {30000, 30001, 65535, 0}, wrapped[] = {65534, 65535, 0, 30000, 30001};
    static const uint16_t late[] = {0, 1, 65437, 65438}, kept[] = {0, 1, 3001, 2}, cleared[] = {0, 1, 3001, 3002, 5000, 7000, 3002};
    COMES_TO(two, 1, 3002, 0, 3002, 65537, 0, 1, 0, 0, 0, 0);
    COMES_TO(other, 0, 1, 0, 1, 5001, 0, 1, 0, 0, 0, 0);
    COMES_TO(twice, 0, 1, 0, 1, 3002, 0, 1, 0, 0, 0, 0);
    COMES_TO(kept, 1, 2, 0, 1, 3002, 0, 2, 0, 0, 0, 0);
    COMES_TO(interrupted, 1, 3002, 0, 3002, 65537, 0, 1, 0, 0, 0, 0);
    COMES_TO(around, 1, 0, 0, 0, 65537, 0, 1, 0, 0, 0, 0);
    COMES_TO(wrapped, 1, 30001, 0, 30001, 65537, 0, 1, 0, 0, 0, 0);
    COMES_TO(late, 1, 1, 0, 1, 65438, 0, 2, 0, 0, 0, 0);
    COMES_TO(cleared, 0, 7000, 0, 3002, 3003, 0, 3, 0, 0, 0, 0);
}

/* A packet with a timestamp of 0, and what it makes of a state. */
#define UPDATES(from, seq, arrival, is_accepted, to)                                      \
    do {                                                                                  \
        struct RtcpReceptionUpdate u = rtcp_reception_update(from, seq, 0, arrival);      \
        compare_state(#seq " after " #from, u.reception, to);                             \
        if (u.accepted != is_accepted) compare(__FILE__, "accepted of " #from, "", "x", 1); \
    } while (0)

/* What no history shows: long probation, a bad sequence number over 16 bits, and what a start leaves and clears. */
static void handed_in(void) {
    UPDATES(STATE(9, 1, 2, 3, 5, 4, 5, 6, 7, 8), 10, 77, 0, STATE(10, 1, 2, 3, 4, 4, 5, 6, 7, 8));
    UPDATES(STATE(9, 1, 2, 3, 5, 4, 5, 6, 7, 8), 11, 77, 0, STATE(11, 1, 2, 3, 1, 4, 5, 6, 7, 8));
    UPDATES(STATE(9, 1, 2, 3, 1, 4, 5, 6, 7, 8), 10, 77, 1, STATE(10, 0, 10, 65537, 0, 1, 0, 0, 77, 8));
    UPDATES(STATE(9, 1, 2, 3, UINT32_MAX, 4, 5, 6, 7, 8), 10, 77, 0, STATE(10, 1, 2, 3, UINT32_MAX - 1, 4, 5, 6, 7, 8));
    UPDATES(STATE(1, 1, 2, 3001, 0, 4, 5, 6, 6, 8), 3001, 77, 1, STATE(3001, 0, 3001, 65537, 0, 1, 0, 0, 77, 78));
    UPDATES(STATE(1, 1, 2, 65536 + 3001, 0, 4, 5, 6, 7, 8), 3001, 77, 0, STATE(1, 1, 2, 3002, 0, 4, 5, 6, 7, 8));
    UPDATES(STATE(1, 1, 2, 3000, 0, 4, 5, 6, 7, 8), 3000, 7, 1, STATE(3000, 1, 2, 3000, 0, 5, 5, 6, 7, 7));
    UPDATES(STATE(65535, UINT32_MAX, 2, 3, 0, UINT32_MAX, 5, 6, 7, 7), 0, 7, 1, STATE(0, 65535, 2, 3, 0, 0, 5, 6, 7, 7));
}

/* A packet in order, which changes a jitter and a transit so. */
static void jitters(uint32_t jitter, uint32_t transit, uint32_t timestamp, uint32_t arrival, uint32_t want) {
    struct RtcpReceptionUpdate u = rtcp_reception_update(STATE(1, 0, 1, 65537, 0, 1, 0, 0, transit, jitter), 2, timestamp, arrival);
    compare_state("a jitter", u.reception, STATE(2, 0, 1, 65537, 0, 2, 0, 0, arrival - timestamp, want));
}

static void jitter(void) {
    jitters(0, 0, 1000, 1000, 0);
    jitters(0, 0, 1000, 1016, 16);
    jitters(0, 0, 1016, 1000, 16);
    jitters(16, 16, 1000, 1000, 31);
    jitters(7, 0, 1000, 1000, 7);
    jitters(8, 0, 1000, 1000, 7);
    jitters(23, 0, 1000, 1000, 22);
    jitters(24, 0, 1000, 1000, 22);
    jitters(0, UINT32_MAX, 0, 1, 2);
    jitters(0, 5, 0, INT32_MAX, INT32_MAX - 5);
    jitters(0, 0, 0, INT32_MAX, INT32_MAX);
    jitters(0, 0, 0, 0x80000000, 0x80000000);
    jitters(0, 0x80000000, 0, 0, 0x80000000);
    jitters(0, 0, 0, 0x80000001, INT32_MAX);
    jitters(0x80000000, 0, 0, 0x80000000, 0xF8000000);
    jitters(UINT32_MAX, 0, 0, 0, UINT32_MAX);
    jitters(UINT32_MAX, 0, 0, 1, 0);
    jitters(UINT32_MAX - 8, 0, 0, 0, 0xEFFFFFF8);
    jitters(UINT32_MAX - 7, 0, 0, 0, UINT32_MAX - 7);
}

/* The block of a state, and the state after it, which differs in the two prior counts alone. */
static void gives(struct RtcpReception from, uint8_t fraction, int32_t lost, uint32_t sequence, uint32_t shown, uint32_t expected) {
    struct RtcpReceptionBlock r = rtcp_reception_report_block(from, 7, UINT32_MAX, 9);
    const struct RtcpBlock want = {0, 0, 0, 7, fraction, lost, sequence, shown, UINT32_MAX, 9};
    compare_block(__FILE__, "a block", &r.block, &want);
    from.expected_prior = expected;
    from.received_prior = from.received;
    compare_state("the state after a block", r.reception, from);
    if (r.in_probation != 0) compare(__FILE__, "in_probation of a block", "", "x", 1);
}

/* A state that expects so many packets of its base 1 on; the counts before it are 0. */
static struct RtcpReception of(uint32_t expected, uint32_t received) {
    return STATE((uint16_t)expected, expected & 0xFFFF0000, 1, 65537, 0, received, 0, 0, 0, 0);
}

static void blocks(void) {
    gives(of(1, 1), 0, 0, 1, 0, 1);
    gives(STATE(1, 0, 1, 65537, 0, 1, 1, 1, 0, 0), 0, 0, 1, 0, 1);
    gives(of(4, 3), 64, 1, 4, 0, 4);
    gives(of(3, 2), 85, 1, 3, 0, 3);
    gives(of(1, 3), 0, -2, 1, 0, 1);
    gives(of(256, 1), 255, 255, 256, 0, 256);
    gives(of(257, 1), 255, 256, 257, 0, 257);
    gives(of(257, 256), 0, 1, 257, 0, 257);
    gives(of(10, 0), 255, 10, 10, 0, 10);
    gives(STATE(10, 0, 1, 65537, 0, 1, 5, 2, 0, 0), 255, 9, 10, 0, 10);
    gives(STATE(10, 0, 1, 65537, 0, 8, 2, 8, 0, 0), 255, 2, 10, 0, 10);
    gives(STATE(10, 0, 1, 65537, 0, 8, 10, 9, 0, 0), 0, 2, 10, 0, 10);
    gives(STATE(10, 0, 1, 65537, 0, 9, 9, 8, 0, 15), 0, 1, 10, 0, 10);
    gives(STATE(10, 0, 1, 65537, 0, 9, 9, 8, 0, 16), 0, 1, 10, 1, 10);
    gives(STATE(10, 0, 1, 65537, 0, 9, 9, 8, 0, UINT32_MAX), 0, 1, 10, 0x0FFFFFFF, 10);
    gives(STATE(1, UINT32_MAX, 0, 65537, 0, 1, 0, 0, 0, 0), 0, 0, 0, 0, 1);
}

/* Losses at the limits of 24 bits, and of 32, where the fraction's product takes more than 32. */
static void limits(void) {
    gives(of(8388608, 1), 255, RTCP_MAX_LOST, 8388608, 0, 8388608);
    gives(of(8388609, 1), 255, RTCP_MAX_LOST, 8388609, 0, 8388609);
    gives(of(1, 8388609), 0, RTCP_MIN_LOST, 1, 0, 1);
    gives(of(1, 8388610), 0, RTCP_MIN_LOST, 1, 0, 1);
    gives(of(1, 8388608), 0, -8388607, 1, 0, 1);
    gives(of(8388607, 1), 255, 8388606, 8388607, 0, 8388607);
    gives(of(0x80000000, 0x40000000), 128, RTCP_MAX_LOST, 0x80000000, 0, 0x80000000);
    gives(of(0x80000000, 1), 255, RTCP_MAX_LOST, 0x80000000, 0, 0x80000000);
    gives(of(0x80000000, 0), 0, RTCP_MIN_LOST, 0x80000000, 0, 0x80000000);
    gives(of(1, 0x80000002), 255, RTCP_MAX_LOST, 1, 0, 1);
    gives(of(1, 0x80000001), 0, RTCP_MIN_LOST, 1, 0, 1);
    gives(of(UINT32_MAX, 0x80000000), 127, RTCP_MAX_LOST, UINT32_MAX, 0, UINT32_MAX);
    gives(of(0, UINT32_MAX), 0, 1, 0, 0, 0);
}

/* No block in probation, and the state as it went in. */
static void probation(void) {
    static const uint32_t probations[] = {1, 2, 3, UINT32_MAX};
    const struct RtcpBlock none = {0, 0, 0, 0, 0, 0, 0, 0, 0, 0};
    for (size_t i = 0; i < 4; i++) {
        struct RtcpReception from = STATE(1, 2, 3, 4, probations[i], 5, 6, 7, 8, 9);
        struct RtcpReceptionBlock r = rtcp_reception_report_block(from, 10, 11, 12);
        compare_block(__FILE__, "the block of a source in probation", &r.block, &none);
        compare_state("a source in probation", r.reception, from);
        if (r.in_probation != 1) compare(__FILE__, "in_probation", "", "x", 1);
    }
}

static void all_ones(void) {
    const uint32_t all = UINT32_MAX;
    UPDATES(STATE(65535, all, all, all, all, all, all, all, all, all), 0, 0, 0, STATE(0, all, all, all, all - 1, all, all, all, all, all));
    UPDATES(STATE(65535, all, all, all, all, all, all, all, all, all), 65535, all, 0, STATE(65535, all, all, all, 1, all, all, all, all, all));
    UPDATES(STATE(65535, all, all, all, 0, all, all, all, all, all), 0, 0, 1, STATE(0, 65535, all, all, 0, 0, all, all, 0, 0));
    UPDATES(STATE(65535, all, all, all, 0, all, all, all, all, all), 65535, all, 1, STATE(65535, all, all, all, 0, 0, all, all, all, all));
    gives(STATE(65535, all, all, all, 0, all, all, all, all, all), 255, 65537, 65534, 0x0FFFFFFF, 65536);
}

/* Numbers of all bits, the same in each run. */
static uint32_t bits(void) {
    static uint64_t state = 0x9E3779B97F4A7C15;
    state ^= state << 13;
    state ^= state >> 7;
    state ^= state << 17;
    return (uint32_t)(state >> 32);
}

static struct RtcpReception any_state(void) {
    struct RtcpReception s = {(uint16_t)bits(), bits(), bits(), bits(), 0, bits(), bits(), bits(), bits(), bits()};
    return s;
}

/* Both kinds of report with the block alone are written. */
static int is_written(const struct RtcpBlock *block) {
    struct RtcpBlockLists l;
    uint8_t buf[52];
    rtcp_block_lists(&l, block, 1);
    return rtcp_rr_write(buf, sizeof buf, 1, l.fractions, 1, l.losses, 1, l.words, 5, 0).number == 0 &&
           rtcp_sr_write(buf, sizeof buf, 1, 2, 3, 4, 5, l.fractions, 1, l.losses, 1, l.words, 5, 0).number == 0;
}

static void any_states(void) {
    int right = 1;
    for (int i = 0; i < 100000 && right; i++) {
        struct RtcpReception s = any_state();
        struct RtcpReceptionBlock r = rtcp_reception_report_block(s, bits(), bits(), bits());
        struct RtcpReceptionUpdate u = rtcp_reception_update(s, (uint16_t)bits(), bits(), bits());
        struct RtcpReceptionBlock next = rtcp_reception_report_block(u.reception, 1, 2, 3);
        right = r.in_probation == 0 && next.in_probation == 0 && u.accepted <= 1 && is_written(&r.block) && is_written(&next.block) &&
                r.block.fraction_lost <= 255 && r.block.number == 0 && r.block.first == 0 && r.block.second == 0;
    }
    compare(__FILE__, "a block of a state of any bits", right ? "same" : "else", "same", 4);
}

int main(void) {
    starts();
    distances();
    restarts();
    handed_in();
    jitter();
    blocks();
    limits();
    probation();
    all_ones();
    any_states();
    return finish(__FILE__);
}
