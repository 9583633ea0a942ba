/* Datagrams of 1 to 1,000 packets, written, checked as a whole and walked over. They are the starts of one datagram that repeats five packets: a receiver
   report, an SDES packet with a CNAME, a sender report, APP, BYE. So those of 10, 100 and 1,000 packets have the same mix. That of 1 packet has no
   CNAME: it is refused with 8, once all of it is read, and its walk has the same calls as the others. */
#include "harness.h"
#include "rtcp.h"

enum { PACKETS = 1000 };

static uint8_t datagram[32 * PACKETS];
static size_t length[PACKETS + 1]; /* of so many packets */

static struct RtcpCall add(struct RtcpWriter *w, size_t i) {
    static const uint8_t fraction = 2;
    static const int32_t loss = 3;
    static const uint32_t words[5] = {1, 4, 5, 6, 7};
    static const uint32_t ssrc = 0x11223344;
    static const uint8_t text[] = "hall", name[] = "hall";
    uint8_t *buf = datagram;
    size_t room = sizeof datagram;
    if (i % 5 == 0) return rtcp_writer_add_rr(w, buf, room, ssrc, &fraction, 1, &loss, 1, words, 5, 0);
    if (i % 5 == 1) return rtcp_writer_add_cname(w, buf, room, ssrc, "me@hall", 7);
    if (i % 5 == 2) return rtcp_writer_add_sr(w, buf, room, ssrc, 1, 2, 3, 4, &fraction, 1, &loss, 1, words, 5, 0);
    if (i % 5 == 3) return rtcp_writer_add_app(w, buf, room, 0, ssrc, name, 4, text, 4, 0);
    return rtcp_writer_add_bye(w, buf, room, &ssrc, 1, NULL, 0, 0);
}

/* The datagram of so many packets, written; its bytes. */
static uint64_t write(size_t packets) {
    struct RtcpWriter w;
    rtcp_writer_new(&w);
    for (size_t i = 0; i < packets; i++) {
        if (add(&w, i).number != 0) return 0;
        length[i + 1] = (size_t)w.length;
    }
    return w.length;
}

void setup(const struct Input *input) {
    (void)input;
    write(PACKETS);
}

const uint8_t *written(void) { return datagram; }

static uint64_t parse(size_t packets) {
    struct RtcpCompound c = rtcp_compound_parse(datagram, length[packets]);
    return c.number + c.n_packets;
}

static uint64_t walk(size_t packets) {
    size_t len = length[packets];
    uint64_t bytes = 0;
    struct RtcpWalk w = rtcp_walk_open(datagram, len);
    for (uint64_t at = w.at;;) {
        struct RtcpStep p = rtcp_walk_step(datagram, len, at);
        if (p.number != 0) return bytes;
        bytes += p.len;
        at = p.at;
    }
}

static uint64_t parse_1(void) { return parse(1); }
static uint64_t parse_10(void) { return parse(10); }
static uint64_t parse_100(void) { return parse(100); }
static uint64_t parse_1000(void) { return parse(1000); }
static uint64_t write_1(void) { return write(1); }
static uint64_t write_10(void) { return write(10); }
static uint64_t write_100(void) { return write(100); }
static uint64_t write_1000(void) { return write(1000); }
static uint64_t walk_1(void) { return walk(1); }
static uint64_t walk_10(void) { return walk(10); }
static uint64_t walk_100(void) { return walk(100); }
static uint64_t walk_1000(void) { return walk(1000); }

/* The sum of a reading is the number of packets, that of a walk and of filling the buffer the bytes of the datagram. */
const struct Operation operations[] = {
    {"parse-1", parse_1, NULL}, {"parse-10", parse_10, NULL}, {"parse-100", parse_100, NULL}, {"parse-1000", parse_1000, NULL},
    {"fill-1", write_1, NULL},  {"fill-10", write_10, NULL},  {"fill-100", write_100, NULL},  {"fill-1000", write_1000, NULL},
    {"walk-1", walk_1, NULL},   {"walk-10", walk_10, NULL},   {"walk-100", walk_100, NULL},   {"walk-1000", walk_1000, NULL},
    {NULL, NULL, NULL},
};
