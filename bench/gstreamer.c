/* GStreamer 1.22. The buffers, to read and to write, are made before the loop. */
#include <gst/gst.h>
#include <gst/rtp/gstrtcpbuffer.h>
#include "harness.h"

static GstBuffer *in_rrsdes, *in_sr31, *in_sdes31, *out;

static GstBuffer *lent(struct Input *in) { return gst_buffer_new_wrapped_full(0, in->bytes, in->len, 0, in->len, NULL, NULL); }

void setup(const struct Input *input) {
    (void)input;
    gst_init(NULL, NULL);
    in_rrsdes = lent(&rrsdes);
    in_sr31 = lent(&sr31);
    in_sdes31 = lent(&sdes31);
    out = gst_rtcp_buffer_new(ROOM);
}

const uint8_t *written(void) {
    static uint8_t copy[ROOM];
    gst_buffer_extract(out, 0, copy, sizeof copy);
    return copy;
}

static uint64_t blocks_sum(GstRTCPPacket *p) {
    uint64_t sum = 0;
    guint n = gst_rtcp_packet_get_rb_count(p);
    for (guint i = 0; i < n; i++) {
        guint32 ssrc, seq, jitter, lsr, dlsr;
        guint8 fraction;
        gint32 lost;
        gst_rtcp_packet_get_rb(p, i, &ssrc, &fraction, &lost, &seq, &jitter, &lsr, &dlsr);
        sum += (uint64_t)ssrc + fraction + (guint32)lost + seq + jitter + lsr + dlsr;
    }
    return sum;
}

static uint64_t sr_sum(GstRTCPPacket *p) {
    guint32 ssrc, rtp, packets, octets;
    guint64 ntp;
    gst_rtcp_packet_sr_get_sender_info(p, &ssrc, &ntp, &rtp, &packets, &octets);
    return ntp + ssrc + rtp + packets + octets + blocks_sum(p);
}

static uint64_t items_sum(GstRTCPPacket *p) {
    uint64_t sum = 0;
    for (gboolean more = gst_rtcp_packet_sdes_first_entry(p); more; more = gst_rtcp_packet_sdes_next_entry(p)) {
        GstRTCPSDESType type;
        guint8 len, *data;
        if (gst_rtcp_packet_sdes_get_entry(p, &type, &len, &data)) sum += (uint64_t)type + len + data[0];
    }
    return sum;
}

static uint64_t sdes_sum(GstRTCPPacket *p) {
    uint64_t sum = 0;
    for (gboolean more = gst_rtcp_packet_sdes_first_item(p); more; more = gst_rtcp_packet_sdes_next_item(p))
        sum += gst_rtcp_packet_sdes_get_ssrc(p) + items_sum(p);
    return sum;
}

static uint64_t packet_sum(GstRTCPPacket *p) {
    switch (gst_rtcp_packet_get_type(p)) {
    case GST_RTCP_TYPE_SR: return sr_sum(p);
    case GST_RTCP_TYPE_RR: return gst_rtcp_packet_rr_get_ssrc(p) + blocks_sum(p);
    case GST_RTCP_TYPE_SDES: return sdes_sum(p);
    default: return 0;
    }
}

static uint64_t read_all(GstBuffer *buffer) {
    GstRTCPBuffer rtcp = GST_RTCP_BUFFER_INIT;
    GstRTCPPacket p;
    uint64_t sum = 0;
    gst_rtcp_buffer_map(buffer, GST_MAP_READ, &rtcp);
    for (gboolean more = gst_rtcp_buffer_get_first_packet(&rtcp, &p); more; more = gst_rtcp_packet_move_to_next(&p)) sum += packet_sum(&p);
    gst_rtcp_buffer_unmap(&rtcp);
    return sum;
}

static uint64_t parse_rrsdes(void) { return gst_rtcp_buffer_validate(in_rrsdes) ? read_all(in_rrsdes) : 0; }
static uint64_t parse_sr31(void) { return gst_rtcp_buffer_validate(in_sr31) ? read_all(in_sr31) : 0; }

/* A lone SDES packet is valid only as RTCP of reduced size. */
static uint64_t parse_sdes31(void) { return gst_rtcp_buffer_validate_reduced(in_sdes31) ? read_all(in_sdes31) : 0; }

static void open_out(GstRTCPBuffer *rtcp) {
    gst_buffer_set_size(out, 0);
    gst_rtcp_buffer_map(out, GST_MAP_READWRITE, rtcp);
}

static void put_blocks(GstRTCPPacket *p, const struct Input *in) {
    for (size_t i = 0; i < in->n_blocks; i++) {
        const uint32_t *w = in->words + 5 * i;
        gst_rtcp_packet_add_rb(p, w[0], in->fractions[i], in->losses[i], w[1], w[2], w[3], w[4]);
    }
}

static void put_chunks(GstRTCPPacket *p, const struct Input *in) {
    const uint8_t *text = in->text;
    size_t item = 0;
    for (size_t i = 0; i < in->n_chunks; i++) {
        gst_rtcp_packet_sdes_add_item(p, in->ssrcs[i]);
        for (uint64_t k = 0; k < in->counts[i]; k++, item++) {
            gst_rtcp_packet_sdes_add_entry(p, (GstRTCPSDESType)in->types[item], (guint8)in->lengths[item], text);
            text += in->lengths[item];
        }
    }
}

static uint64_t write_rrsdes(void) {
    GstRTCPBuffer rtcp = GST_RTCP_BUFFER_INIT;
    GstRTCPPacket p;
    open_out(&rtcp);
    gst_rtcp_buffer_add_packet(&rtcp, GST_RTCP_TYPE_RR, &p);
    gst_rtcp_packet_rr_set_ssrc(&p, rrsdes.ssrc);
    put_blocks(&p, &rrsdes);
    gst_rtcp_buffer_add_packet(&rtcp, GST_RTCP_TYPE_SDES, &p);
    put_chunks(&p, &rrsdes);
    gst_rtcp_buffer_unmap(&rtcp);
    return gst_buffer_get_size(out);
}

static uint64_t write_sr31(void) {
    GstRTCPBuffer rtcp = GST_RTCP_BUFFER_INIT;
    GstRTCPPacket p;
    open_out(&rtcp);
    gst_rtcp_buffer_add_packet(&rtcp, GST_RTCP_TYPE_SR, &p);
    gst_rtcp_packet_sr_set_sender_info(&p, sr31.ssrc, sr31.ntp, sr31.rtp, sr31.packets, sr31.octets);
    put_blocks(&p, &sr31);
    gst_rtcp_buffer_unmap(&rtcp);
    return gst_buffer_get_size(out);
}

static uint64_t write_sdes31(void) {
    GstRTCPBuffer rtcp = GST_RTCP_BUFFER_INIT;
    GstRTCPPacket p;
    open_out(&rtcp);
    gst_rtcp_buffer_add_packet(&rtcp, GST_RTCP_TYPE_SDES, &p);
    put_chunks(&p, &sdes31);
    gst_rtcp_buffer_unmap(&rtcp);
    return gst_buffer_get_size(out);
}

const struct Operation operations[] = {
    {"parse-rrsdes", parse_rrsdes, &rrsdes}, {"parse-sr31", parse_sr31, &sr31}, {"parse-sdes31", parse_sdes31, &sdes31},
    {"write-rrsdes", write_rrsdes, &rrsdes}, {"write-sr31", write_sr31, &sr31}, {"write-sdes31", write_sdes31, &sdes31},
    {NULL, NULL, NULL},
};
