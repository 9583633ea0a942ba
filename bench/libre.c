/* libre 1.1.0. A message is allocated at each reading, with a copy of each text; the buffer that is written into is kept. */
/* Without these its header defines types of its own for the integers and for bool. */
#define HAVE_INTTYPES_H 1
#define HAVE_STDBOOL_H 1
#include <string.h>
#include <re.h>
#include "harness.h"

/* The library exports it, and its header leaves it out. */
int rtcp_rr_encode(struct mbuf *mb, const struct rtcp_rr *rr);

static struct mbuf *out;
static struct rtcp_rr blocks[MOST];
static char texts[MOST][256];

/* rtcp_sdes_encode takes texts that end with a zero. */
static void end_texts(const struct Input *in) {
    const uint8_t *at = in->text;
    for (size_t i = 0; i < in->n_items; i++) {
        memcpy(texts[i], at, in->lengths[i]);
        texts[i][in->lengths[i]] = 0;
        at += in->lengths[i];
    }
}

static void take_blocks(const struct Input *in) {
    for (size_t i = 0; i < in->n_blocks; i++) {
        const uint32_t *w = in->words + 5 * i;
        blocks[i].ssrc = w[0];
        blocks[i].fraction = in->fractions[i];
        blocks[i].lost = in->losses[i];
        blocks[i].last_seq = w[1];
        blocks[i].jitter = w[2];
        blocks[i].lsr = w[3];
        blocks[i].dlsr = w[4];
    }
}

void setup(const struct Input *input) {
    out = mbuf_alloc(ROOM);
    take_blocks(input);
    end_texts(input);
}

const uint8_t *written(void) { return out->buf; }

static uint64_t blocks_sum(const struct rtcp_rr *rr, size_t n) {
    uint64_t sum = 0;
    for (size_t i = 0; i < n; i++)
        sum += (uint64_t)rr[i].ssrc + rr[i].fraction + (uint32_t)rr[i].lost + rr[i].last_seq + rr[i].jitter + rr[i].lsr + rr[i].dlsr;
    return sum;
}

static uint64_t sdes_sum(const struct rtcp_sdes *chunks, size_t n) {
    uint64_t sum = 0;
    for (size_t i = 0; i < n; i++) {
        sum += chunks[i].src;
        for (size_t k = 0; k < chunks[i].n; k++) {
            const struct rtcp_sdes_item *item = &chunks[i].itemv[k];
            sum += (uint64_t)item->type + item->length + (uint8_t)item->data[0];
        }
    }
    return sum;
}

static uint64_t message_sum(const struct rtcp_msg *m) {
    if (m->hdr.pt == RTCP_RR) return m->r.rr.ssrc + blocks_sum(m->r.rr.rrv, m->hdr.count);
    if (m->hdr.pt == RTCP_SDES) return sdes_sum(m->r.sdesv, m->hdr.count);
    if (m->hdr.pt != RTCP_SR) return 0;
    return ((uint64_t)m->r.sr.ntp_sec << 32) + m->r.sr.ntp_frac + m->r.sr.ssrc + m->r.sr.rtp_ts + m->r.sr.psent + m->r.sr.osent +
           blocks_sum(m->r.sr.rrv, m->hdr.count);
}

static uint64_t parse(struct Input *in) {
    struct mbuf mb = {in->bytes, in->len, 0, in->len};
    uint64_t sum = 0;
    while (mbuf_get_left(&mb) > 0) {
        struct rtcp_msg *m;
        if (rtcp_decode(&m, &mb) != 0) return 0;
        sum += message_sum(m);
        mem_deref(m);
    }
    return sum;
}

static uint64_t parse_rrsdes(void) { return parse(&rrsdes); }
static uint64_t parse_sr31(void) { return parse(&sr31); }
static uint64_t parse_sdes31(void) { return parse(&sdes31); }

static int put_blocks(struct mbuf *mb, void *arg) {
    const struct Input *in = arg;
    for (size_t i = 0; i < in->n_blocks; i++)
        if (rtcp_rr_encode(mb, &blocks[i]) != 0) return 1;
    return 0;
}

static int put_four_items(struct mbuf *mb, void *arg) {
    const struct Input *in = arg;
    const uint8_t *t = in->types;
    return rtcp_sdes_encode(mb, in->ssrcs[0], 4, t[0], texts[0], t[1], texts[1], t[2], texts[2], t[3], texts[3]);
}

static int put_chunks_of_one_item(struct mbuf *mb, void *arg) {
    const struct Input *in = arg;
    for (size_t i = 0; i < in->n_chunks; i++)
        if (rtcp_sdes_encode(mb, in->ssrcs[i], 1, in->types[i], texts[i]) != 0) return 1;
    return 0;
}

static uint64_t write_rrsdes(void) {
    struct Input *in = &rrsdes;
    mbuf_rewind(out);
    if (rtcp_encode(out, RTCP_RR, (uint32_t)in->n_blocks, in->ssrc, put_blocks, in) != 0) return 0;
    if (rtcp_encode(out, RTCP_SDES, (uint32_t)in->n_chunks, put_four_items, in) != 0) return 0;
    return out->end;
}

static uint64_t write_sr31(void) {
    struct Input *in = &sr31;
    mbuf_rewind(out);
    if (rtcp_encode(out, RTCP_SR, (uint32_t)in->n_blocks, in->ssrc, (uint32_t)(in->ntp >> 32), (uint32_t)in->ntp, in->rtp, in->packets,
                    in->octets, put_blocks, in) != 0)
        return 0;
    return out->end;
}

static uint64_t write_sdes31(void) {
    struct Input *in = &sdes31;
    mbuf_rewind(out);
    if (rtcp_encode(out, RTCP_SDES, (uint32_t)in->n_chunks, put_chunks_of_one_item, in) != 0) return 0;
    return out->end;
}

const struct Operation operations[] = {
    {"parse-rrsdes", parse_rrsdes, &rrsdes}, {"parse-sr31", parse_sr31, &sr31}, {"parse-sdes31", parse_sdes31, &sdes31},
    {"write-rrsdes", write_rrsdes, &rrsdes}, {"write-sr31", write_sr31, &sr31}, {"write-sdes31", write_sdes31, &sdes31},
    {NULL, NULL, NULL},
};
