/* This library, through its C functions. A reading that is refused returns 0, which is the sum of no input. */
#include "harness.h"
#include "rtcp.h"

static uint8_t out[ROOM];

/* The SSRCs of all chunks but the first, from the last to the second. */
static uint32_t backwards[MOST];

void setup(const struct Input *input) {
    if (input == NULL) return;
    for (size_t i = 1; i < input->n_chunks; i++) backwards[input->n_chunks - 1 - i] = input->ssrcs[i];
}

const uint8_t *written(void) { return out; }

/* The lists that the reading calls fill, each long enough for every input. */
static uint8_t fractions[31];
static int32_t losses[31];
static uint32_t words[31 * 5];
static uint32_t rows[ROOM / 2 * 5];
static uint64_t packets[3 * 8];
static uint8_t answers[MOST];

#define ROOM_OF(list) (sizeof list / sizeof list[0])
#define BLOCKS_OF(in) in->fractions, in->n_blocks, in->losses, in->n_blocks, in->words, 5 * in->n_blocks

/* The seven numbers of each block. */
static uint64_t blocks_sum(uint64_t n) {
    uint64_t sum = 0;
    for (uint64_t i = 0; i < n; i++) {
        const uint32_t *w = words + 5 * i;
        sum += (uint64_t)fractions[i] + (uint32_t)losses[i] + w[0] + w[1] + w[2] + w[3] + w[4];
    }
    return sum;
}

static uint64_t rr_sum(const uint8_t *packet, size_t len) {
    struct RtcpRr rr = rtcp_rr_read(packet, len, fractions, ROOM_OF(fractions), losses, ROOM_OF(losses), words, ROOM_OF(words));
    if (rr.number != 0) return 0;
    return rr.ssrc + blocks_sum(rr.n_reports);
}

/* A row of type 0 ends a chunk. */
static uint64_t sdes_sum(const uint8_t *packet, size_t len) {
    uint64_t sum = 0;
    struct RtcpWritten list = rtcp_sdes_items(packet, len, rows, ROOM_OF(rows));
    for (const uint32_t *row = rows; row < rows + list.size; row += 5) {
        if (row[1] == 0)
            sum += row[0];
        else
            sum += (uint64_t)row[1] + row[4] + packet[row[2]];
    }
    return sum;
}

static uint64_t datagram_sum(const struct Input *in) {
    uint64_t sum = 0;
    struct RtcpWritten list = rtcp_compound_packets(in->bytes, in->len, packets, ROOM_OF(packets));
    for (const uint64_t *p = packets; p < packets + list.size; p += 3) {
        if (p[0] == 201) sum += rr_sum(in->bytes + p[1], p[2]);
        if (p[0] == 202) sum += sdes_sum(in->bytes + p[1], p[2]);
    }
    return sum;
}

static uint64_t parse_rrsdes(void) { return datagram_sum(&rrsdes); }

static uint64_t parse_padded(void) { return datagram_sum(&padded); }

static uint64_t parse_sr31(void) {
    struct RtcpSr sr = rtcp_sr_read(sr31.bytes, sr31.len, fractions, ROOM_OF(fractions), losses, ROOM_OF(losses), words, ROOM_OF(words));
    if (sr.number != 0) return 0;
    return sr.ssrc + sr.ntp_timestamp + sr.rtp_timestamp + sr.packet_count + sr.octet_count + blocks_sum(sr.n_reports);
}

static uint64_t parse_sdes31(void) { return sdes_sum(sdes31.bytes, sdes31.len); }

static uint64_t parse_priv31(void) { return sdes_sum(priv31.bytes, priv31.len); }

/* By the walks, one call for each packet, block, chunk and item. A step has checked what it hands over, so no walk is opened on that: a chunk's items
   start at 4, a packet's chunks lie between 4 and body, and an RR's blocks start at 8. */
static uint64_t items_walked(const uint8_t *chunk, size_t len) {
    uint64_t sum = 0;
    for (uint64_t at = 4;;) {
        struct RtcpItemStep i = rtcp_item_walk_step(chunk, len, at);
        if (i.number != 0) return sum;
        sum += i.type_ + i.value_len + chunk[i.value];
        at = i.at;
    }
}
static uint64_t chunks_walked(const uint8_t *packet, size_t len, uint64_t at, uint64_t end) {
    uint64_t sum = 0;
    while (at < end) {
        struct RtcpChunkStep c = rtcp_chunk_walk_step(packet, len, at, end);
        if (c.number != 0) return 0;
        sum += c.ssrc + items_walked(packet + at, c.length);
        at = c.at;
    }
    return sum;
}
static uint64_t rr_walked(const uint8_t *packet, const struct RtcpStep *p) {
    uint64_t sum = p->ssrc;
    for (uint64_t i = 0; i < p->count; i++) {
        struct RtcpBlock b = rtcp_block_parse(packet + 8 + 24 * i, 24);
        sum += b.ssrc + b.fraction_lost + (uint32_t)b.cumulative_lost + b.extended_sequence_number + b.interarrival_jitter +
               b.last_sender_report_timestamp + b.delay_since_last_sender_report_timestamp;
    }
    return sum;
}
static uint64_t walk_rrsdes(void) {
    const struct Input *in = &rrsdes;
    uint64_t sum = 0;
    struct RtcpWalk w = rtcp_walk_open(in->bytes, in->len);
    if (w.number != 0) return 0;
    for (uint64_t at = w.at; at < in->len;) {
        struct RtcpStep p = rtcp_walk_step(in->bytes, in->len, at);
        if (p.number != 0) return 0;
        if (p.kind == 201) sum += rr_walked(in->bytes + p.offset, &p);
        if (p.kind == 202) sum += chunks_walked(in->bytes + p.offset, p.len, 4, p.body);
        at = p.at;
    }
    return sum;
}
static uint64_t walk_sdes31(void) {
    struct RtcpChunkWalk w = rtcp_chunk_walk_open(sdes31.bytes, sdes31.len);
    return w.number != 0 ? 0 : chunks_walked(sdes31.bytes, sdes31.len, w.at, w.end);
}

/* The chunks that name the sources of all chunks but the first, by one call. */
static uint64_t lookup_sum(const uint32_t *ssrcs) {
    const struct Input *in = &sdes31;
    size_t n = in->n_chunks - 1;
    uint64_t sum = 0;
    struct RtcpLookup l = rtcp_sdes_lookup(in->bytes, in->len, ssrcs, n, answers, ROOM_OF(answers));
    if (l.number != 0) return 0;
    for (size_t i = 0; i < n; i++) sum += (uint64_t)ssrcs[i] * ((answers[i] & RTCP_CHUNK_INDEX) + 1u);
    return sum;
}

static uint64_t lookup_sdes31(void) { return lookup_sum(sdes31.ssrcs + 1); }

static uint64_t lookup_back31(void) { return lookup_sum(backwards); }

/* The same by a walk for each SSRC: the number, from 1, of the chunk that names it, or 0. */
static uint64_t walk_to(const struct Input *in, uint32_t ssrc) {
    uint64_t number = 1;
    struct RtcpChunkWalk w = rtcp_chunk_walk_open(in->bytes, in->len);
    if (w.number != 0) return 0;
    for (uint64_t at = w.at;; number++) {
        struct RtcpChunkStep c = rtcp_chunk_walk_step(in->bytes, in->len, at, w.end);
        if (c.number != 0) return 0;
        if (c.ssrc == ssrc && c.cname != 0) return number;
        at = c.at;
    }
}
static uint64_t lookup_walks31(void) {
    uint64_t sum = 0;
    for (size_t i = 1; i < sdes31.n_chunks; i++) sum += sdes31.ssrcs[i] * walk_to(&sdes31, sdes31.ssrcs[i]);
    return sum;
}

/* A source in the middle of its stream, and what its host keeps of it. The packets come in order, in turn 10 units early and 10 late, at which the
   jitter stays as it is. */
static struct RtcpReception source = {30000, 65536, 20000, 65537, 0, 75000, 70000, 69900, 10, 160};
static uint32_t timestamp, late;

static uint64_t reception_update(void) {
    struct RtcpReceptionUpdate u = rtcp_reception_update(source, (uint16_t)(source.max_seq + 1), timestamp, timestamp + late);
    timestamp += 160;
    late = 10 - late;
    source = u.reception;
    return u.accepted + source.jitter;
}

/* A block of it, always from the same state: some packets were lost since the last block. */
static uint64_t reception_block(void) {
    static struct RtcpReception kept;
    struct RtcpReceptionBlock r = rtcp_reception_report_block(source, 7, 8, 9);
    const struct RtcpBlock *b = &r.block;
    kept = r.reception;
    return r.in_probation + kept.expected_prior + kept.received_prior + b->ssrc + b->fraction_lost + (uint32_t)b->cumulative_lost +
           b->extended_sequence_number + b->interarrival_jitter + b->last_sender_report_timestamp + b->delay_since_last_sender_report_timestamp;
}

static struct RtcpWritten sdes_written(uint8_t *buf, size_t room, const struct Input *in) {
    return rtcp_sdes_write(buf, room, in->ssrcs, in->n_chunks, in->counts, in->n_chunks, in->types, in->n_items, in->prefixes,
                           in->n_items, in->lengths, in->n_items, in->text, in->text_len, in->padding);
}

/* Packet after packet. */
static uint64_t datagram_written(const struct Input *in) {
    size_t rr = rtcp_rr_write(out, sizeof out, in->ssrc, BLOCKS_OF(in), 0).size;
    size_t sdes = sdes_written(out + rr, sizeof out - rr, in).size;
    return rr == 0 || sdes == 0 ? 0 : rr + sdes;
}

static uint64_t write_rrsdes(void) { return datagram_written(&rrsdes); }

static uint64_t write_padded(void) { return datagram_written(&padded); }

/* By the compound writer, which holds the rules of a compound. */
static uint64_t write_compound(void) {
    const struct Input *in = &rrsdes;
    struct RtcpWriter w;
    rtcp_writer_new(&w);
    if (rtcp_writer_add_rr(&w, out, sizeof out, in->ssrc, BLOCKS_OF(in), 0).number != 0) return 0;
    if (rtcp_writer_add_sdes(&w, out, sizeof out, in->ssrcs, in->n_chunks, in->counts, in->n_chunks, in->types, in->n_items, in->prefixes,
                             in->n_items, in->lengths, in->n_items, in->text, in->text_len, 0).number != 0)
        return 0;
    return rtcp_writer_close(&w).number == 0 ? w.length : 0;
}

static uint64_t write_sr31(void) {
    const struct Input *in = &sr31;
    return rtcp_sr_write(out, sizeof out, in->ssrc, in->ntp, in->rtp, in->packets, in->octets, BLOCKS_OF(in), 0).size;
}

static uint64_t write_sdes31(void) { return sdes_written(out, sizeof out, &sdes31).size; }

static uint64_t write_priv31(void) { return sdes_written(out, sizeof out, &priv31).size; }

const struct Operation operations[] = {
    {"parse-rrsdes", parse_rrsdes, &rrsdes}, {"parse-sr31", parse_sr31, &sr31}, {"parse-sdes31", parse_sdes31, &sdes31},
    {"walk-rrsdes", walk_rrsdes, &rrsdes},   {"walk-sdes31", walk_sdes31, &sdes31},
    {"lookup-sdes31", lookup_sdes31, &sdes31}, {"lookup-back31", lookup_back31, &sdes31}, {"lookup-walks31", lookup_walks31, &sdes31},
    {"write-rrsdes", write_rrsdes, &rrsdes}, {"write-sr31", write_sr31, &sr31}, {"write-sdes31", write_sdes31, &sdes31},
    {"write-compound", write_compound, &rrsdes},
    {"parse-padded", parse_padded, &padded}, {"parse-priv31", parse_priv31, &priv31},
    {"write-padded", write_padded, &padded}, {"write-priv31", write_priv31, &priv31},
    {"reception-update", reception_update, NULL}, {"reception-block", reception_block, NULL},
    {NULL, NULL, NULL},
};
