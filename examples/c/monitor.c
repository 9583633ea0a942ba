/* Takes the datagrams of a session, counts the RTP packets of each source, updates a loss meter and a list of participants from the RTCP, and writes
   receiver reports.

     monitor        the lines of `sample` below
     monitor HEX    one datagram
     monitor -      the lines of standard input

   A line is `ARRIVAL HEX`, a datagram that came at that time, or `ARRIVAL report`, where a report is due. The time is of a clock of 8,000 ticks a
   second, as the timestamps of the RTP packets are; it wraps at 2^32. A report is also written at the end. */
#include <stdio.h>
#include <string.h>

#include "rtcp.h"

/* Rows of the table, bytes of a datagram and of an RTP header, ticks of a second. */
enum { MOST = 64, DATAGRAM = 1500, RTP_HEADER = 12, CLOCK_RATE = 8000 };

/* A source that sent a packet, or that a block or a chunk is about. */
struct Source {
    uint32_t ssrc;
    int has_loss; /* of the last block about it */
    uint32_t fraction;
    int32_t lost; /* below zero where duplicates came */
    int joined, named;
    size_t len;
    uint8_t cname[255];
    int heard; /* RTP packets of it came */
    struct RtcpReception reception;
    int reported; /* a sender report came: the middle 32 bits of its NTP time, and when */
    uint32_t last_sr, last_sr_arrival;
};

/* By their SSRC. */
static struct Source sources[MOST];
static size_t n_sources;
static uint32_t now;

/* Where the source is, or where it belongs. */
static size_t place_of(uint32_t ssrc) {
    size_t i = 0;
    while (i < n_sources && sources[i].ssrc < ssrc) i++;
    return i;
}

/* The source's row, made where there is none; NULL where the table is full. */
static struct Source *source_of(uint32_t ssrc) {
    size_t i = place_of(ssrc);
    if (i < n_sources && sources[i].ssrc == ssrc) return &sources[i];
    if (n_sources == MOST) return NULL;
    memmove(&sources[i + 1], &sources[i], (n_sources++ - i) * sizeof sources[0]);
    sources[i] = (struct Source){.ssrc = ssrc};
    return &sources[i];
}

/* ---- RTP ---- */

static uint32_t word(const uint8_t *p) { return (uint32_t)p[0] << 24 | (uint32_t)p[1] << 16 | (uint32_t)p[2] << 8 | p[3]; }

/* RTP and RTCP come to one port. They are told apart by the second byte: 192 to 223 are packet types of RTCP (RFC 5761). */
static int is_rtp(const uint8_t *datagram, size_t len) {
    return len >= RTP_HEADER && datagram[0] >> 6 == 2 && (datagram[1] < 192 || datagram[1] > 223);
}

/* The first packet of a source makes its reception, and then counts as every other does. */
static void read_rtp(const uint8_t *datagram) {
    uint16_t seq = (uint16_t)(datagram[2] << 8 | datagram[3]);
    struct Source *source = source_of(word(datagram + 8));
    if (source == NULL) return;
    if (!source->heard) source->reception = rtcp_reception_new(seq);
    source->heard = 1;
    source->reception = rtcp_reception_update(source->reception, seq, word(datagram + 4), now).reception;
}

/* ---- RTCP ---- */

/* The lists that the calls which read a report fill with its blocks. */
static uint8_t fractions[RTCP_MAX_COUNT];
static int32_t losses[RTCP_MAX_COUNT];
static uint32_t words[RTCP_MAX_COUNT * RTCP_BLOCK_WORDS];
#define LISTS fractions, RTCP_MAX_COUNT, losses, RTCP_MAX_COUNT, words, RTCP_MAX_COUNT *RTCP_BLOCK_WORDS

static struct Source *joined(uint32_t ssrc) {
    struct Source *source = source_of(ssrc);
    if (source != NULL) source->joined = 1;
    return source;
}

/* What was counted of the one that left is forgotten; the last block about it stays on the meter. */
static void left(uint32_t ssrc) {
    size_t i = place_of(ssrc);
    if (i == n_sources || sources[i].ssrc != ssrc) return;
    sources[i].joined = sources[i].named = sources[i].heard = sources[i].reported = 0;
}

static void read_report(uint32_t ssrc, uint64_t n) {
    joined(ssrc);
    for (uint64_t i = 0; i < n; i++) {
        struct Source *source = joined(words[RTCP_BLOCK_WORDS * i]);
        if (source == NULL) return;
        source->has_loss = 1;
        source->fraction = fractions[i];
        source->lost = losses[i];
    }
}

/* Of each chunk its first CNAME, NULL where it has none. Its source is on the list from then on. */
static void list_cnames(const uint8_t *packet, size_t len, const struct RtcpItemEntry *cnames[RTCP_MAX_COUNT]) {
    static struct RtcpItemEntry items[DATAGRAM / 2];
    struct RtcpWritten w = rtcp_sdes_entries(packet, len, items, sizeof items / sizeof items[0]);
    size_t chunk = 0;
    for (uint64_t i = 0; i < w.size; i++) {
        if (items[i].type_ == RTCP_CNAME && cnames[chunk] == NULL) cnames[chunk] = &items[i];
        if (items[i].type_ != 0) continue;
        joined(items[i].ssrc);
        chunk++;
    }
}

/* One call for all sources says which chunk has the name of each. */
static void read_names(const uint8_t *packet, size_t len) {
    const struct RtcpItemEntry *cnames[RTCP_MAX_COUNT] = {NULL};
    uint32_t ssrcs[MOST];
    uint8_t answers[MOST];
    list_cnames(packet, len, cnames);
    for (size_t i = 0; i < n_sources; i++) ssrcs[i] = sources[i].ssrc;
    if (rtcp_sdes_lookup(packet, len, ssrcs, n_sources, answers, MOST).number != 0) return;
    for (size_t i = 0; i < n_sources; i++) {
        if (answers[i] == RTCP_NO_CHUNK) continue;
        const struct RtcpItemEntry *cname = cnames[answers[i] & RTCP_CHUNK_INDEX];
        sources[i].named = 1;
        sources[i].len = cname->value_len;
        memcpy(sources[i].cname, packet + cname->value, cname->value_len);
    }
}

static void read_sender(uint32_t ssrc, uint64_t ntp_timestamp) {
    struct Source *source = source_of(ssrc);
    if (source == NULL) return;
    source->reported = 1;
    source->last_sr = (uint32_t)(ntp_timestamp >> 16);
    source->last_sr_arrival = now;
}

static void read_packet(const uint8_t *packet, const struct RtcpPacketEntry *p) {
    if (p->packet_type == RTCP_SR) {
        struct RtcpSr sr = rtcp_sr_read(packet, p->len, LISTS);
        read_sender((uint32_t)sr.ssrc, sr.ntp_timestamp);
        read_report((uint32_t)sr.ssrc, sr.n_reports);
    }
    if (p->packet_type == RTCP_RR) {
        struct RtcpRr rr = rtcp_rr_read(packet, p->len, LISTS);
        read_report((uint32_t)rr.ssrc, rr.n_reports);
    }
    if (p->packet_type == RTCP_SDES) read_names(packet, p->len);
    if (p->packet_type == RTCP_BYE) {
        struct RtcpBye bye = rtcp_bye_parse(packet, p->len);
        for (uint64_t i = 0; i < bye.n_sources; i++) left((uint32_t)rtcp_bye_source(packet, p->len, i).ssrc);
    }
}

/* Each packet has passed once the datagram has: only the first call can be refused. */
static int read_rtcp(const uint8_t *datagram, size_t len) {
    static struct RtcpPacketEntry packets[DATAGRAM / 4];
    struct RtcpWritten list = rtcp_compound_entries(datagram, len, packets, DATAGRAM / 4);
    if (list.number != 0) {
        fprintf(stderr, "refusal %u (%u, %u): %s\n", (unsigned)list.number, (unsigned)list.first, (unsigned)list.second,
                rtcp_refusal_text(list.number));
        return 0;
    }
    for (uint64_t i = 0; i < list.size; i++) read_packet(datagram + packets[i].offset, &packets[i]);
    return 1;
}

/* ---- reports ---- */

/* 65,536ths of a second since the source's last sender report; 0 where none came. */
static uint32_t delay_of(const struct Source *source) {
    return source->reported ? (uint32_t)((uint64_t)(now - source->last_sr_arrival) * 65536 / CLOCK_RATE) : 0;
}

/* A block for each source that is out of probation, for the first 31 of them. */
static size_t list_blocks(struct RtcpBlock blocks[RTCP_MAX_COUNT]) {
    size_t n = 0;
    for (size_t i = 0; i < n_sources && n < RTCP_MAX_COUNT; i++) {
        struct Source *source = &sources[i];
        if (!source->heard) continue;
        struct RtcpReceptionBlock r =
            rtcp_reception_report_block(source->reception, source->ssrc, source->reported ? source->last_sr : 0, delay_of(source));
        source->reception = r.reception;
        if (!r.in_probation) blocks[n++] = r.block;
    }
    return n;
}

/* An RR about what came, and an SDES packet with our own CNAME. */
static size_t write_report(uint8_t *buf, size_t len) {
    static const char cname[] = "bridge@hall";
    const uint32_t own = 0x0B0C0D0E;
    struct RtcpBlock blocks[RTCP_MAX_COUNT];
    size_t n = list_blocks(blocks);
    struct RtcpWriter writer;
    rtcp_writer_new(&writer);
    struct RtcpCall c = rtcp_writer_add_rr_blocks(&writer, buf, len, own, blocks, n);
    if (c.number == 0) c = rtcp_writer_add_cname(&writer, buf, len, own, cname, sizeof cname - 1);
    if (c.number == 0) c = rtcp_writer_close(&writer);
    return c.number == 0 ? writer.length : 0;
}

/* The exit status. */
static int print_report(void) {
    uint8_t report[DATAGRAM];
    size_t size = write_report(report, sizeof report);
    printf("reply: ");
    for (size_t i = 0; i < size; i++) printf("%02x", report[i]);
    printf("\n");
    return size == 0;
}

static void print_losses(void) {
    for (const struct Source *s = sources; s < sources + n_sources; s++)
        if (s->has_loss) printf("loss of %08x: %u/256, %d in all\n", (unsigned)s->ssrc, (unsigned)s->fraction, (int)s->lost);
}

static void print_name(const struct Source *s) {
    printf("participant %08x: ", (unsigned)s->ssrc);
    for (size_t i = 0; i < s->len; i++) putchar(s->cname[i] >= 0x20 && s->cname[i] < 0x7F ? s->cname[i] : '?');
    printf("\n");
}

/* Those whose name is known. */
static void print_participants(void) {
    for (const struct Source *s = sources; s < sources + n_sources; s++)
        if (s->joined && s->named) print_name(s);
}

/* ---- lines ---- */

static int digit(char c) {
    const char *digits = "0123456789abcdef", *found = c ? strchr(digits, c) : NULL;
    return found ? (int)(found - digits) : -1;
}

/* 0 where the datagram is taken, else the exit status. */
static int take_datagram(const char *hex) {
    uint8_t datagram[DATAGRAM];
    size_t len = 0;
    while (hex[0] != 0 && hex[0] != '\n' && len < sizeof datagram) {
        int high = digit(hex[0]), low = high < 0 ? -1 : digit(hex[1]);
        if (low < 0) return 2;
        datagram[len++] = (uint8_t)(16 * high + low);
        hex += 2;
    }
    if (hex[0] != 0 && hex[0] != '\n') return 2;
    if (!is_rtp(datagram, len)) return !read_rtcp(datagram, len);
    read_rtp(datagram);
    return 0;
}

static int take_line(const char *line) {
    unsigned long arrival;
    int at = 0;
    if (sscanf(line, "%lu %n", &arrival, &at) != 1 || at == 0) return 2;
    now = (uint32_t)arrival;
    if (strncmp(line + at, "report", 6) == 0) return print_report();
    return take_datagram(line + at);
}

/* RTP packets of a source, of which one is lost, and between them an SR of it with a block, an SDES packet with two names, and a BYE of the second. */
static const char *const sample[] = {
    "1000 8000fffe0000000011223344",
    "1160 8000ffff000000a011223344",
    "1200 81c8000c11223344eea48d64df4ff8650000ac440000001000000400556677880500000a00001234000000070000000000000000"
    "82ca0007112233440109616374407374616765005566778801046d69636b000081cb000155667788",
    "1490 80000001000001e011223344",
    "1640 800000020000028011223344",
};

static int take_sample(void) {
    int status = 0;
    for (size_t i = 0; status == 0 && i < sizeof sample / sizeof sample[0]; i++) status = take_line(sample[i]);
    return status;
}

static int take_input(void) {
    static char line[2 * DATAGRAM + 32];
    int status = 0;
    while (status == 0 && fgets(line, sizeof line, stdin) != NULL) status = take_line(line);
    return status;
}

static int take(const char *given) {
    if (given == NULL) return take_sample();
    return strcmp(given, "-") == 0 ? take_input() : take_datagram(given);
}

int main(int argc, char **argv) {
    int status = take(argc > 1 ? argv[1] : NULL);
    if (status != 0) return status;
    print_losses();
    print_participants();
    return print_report();
}
