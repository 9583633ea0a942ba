/* RTCP (RFC 3550): reading and writing SR, RR, SDES, BYE and APP packets, and datagrams of them; what a receiver counts of a source's RTP packets.

   Link librtcp.a. Every function is total: whatever the bytes and numbers, if the pointers are valid for their lengths, it returns, and reads and
   writes nothing but what it is lent. Nothing is kept between calls, so calls may run at the same time.

   Lists: a pointer and the number of elements. The pointer may be null where the number is 0. What a call writes, buf or a list that it fills, must
   not overlap anything else that it is lent.

   Answers: number is 0 where the call is done. Else it is a refusal of docs/REFUSALS.md with its details in first and second; then every other
   number is 0, but a walk, which is the one that went in, and a writer, a buffer or a list that was lent is as it was. The reception figures have no
   refusal. Every number of an answer is a uint64_t, but for cumulative_lost, an int32_t, and the numbers of a reception, which are as wide as in
   RFC 3550.

   Parts: an offset and a length in the caller's own bytes. Nothing is copied. A part that is not there has length 0.

   Steps of reading, in this order; the first that fails is the answer:
     2(least length, length)   too short for any packet of the kind
     1(version, 0)             the version is not 2
     6(type, wanted)           another packet type
     2(stated, length)         shorter than the length field says
     3(stated, length)         longer than the length field says
     4(0, 0)                   bad padding
   and then what the kind's function names. */
#ifndef RTCP_H
#define RTCP_H

#include <stddef.h>
#include <stdint.h>

#ifdef __cplusplus
extern "C" {
#endif

#define RTCP_VERSION "0.1.0"

/* The refusals, as docs/REFUSALS.md has them. */
enum RtcpRefusal {
    RTCP_UNSUPPORTED_VERSION = 1,
    RTCP_TRUNCATED = 2,
    RTCP_TOO_LARGE = 3,
    RTCP_INVALID_PADDING = 4,
    RTCP_PREFIX_TOO_LARGE_READ = 5,
    RTCP_PACKET_TYPE_MISMATCH = 6,
    RTCP_FIRST_PACKET_NO_REPORT_READ = 7,
    RTCP_NO_CNAME_READ = 8,
    RTCP_NON_LAST_PACKET_PADDING = 9,
    RTCP_OUTPUT_TOO_SMALL = 10,
    RTCP_INVALID_PADDING_GIVEN = 11,
    RTCP_APP_SUBTYPE_OUT_OF_RANGE = 12,
    RTCP_INVALID_NAME = 13,
    RTCP_DATA_LEN_32BIT_MULTIPLE = 14,
    RTCP_TOO_MANY_SOURCES = 15,
    RTCP_REASON_LEN_TOO_LARGE = 16,
    RTCP_CUMULATIVE_LOST_TOO_LARGE = 17,
    RTCP_TOO_MANY_REPORT_BLOCKS = 18,
    RTCP_TOO_MANY_SDES_CHUNKS = 19,
    RTCP_SDES_VALUE_TOO_LARGE = 20,
    RTCP_PREFIX_TOO_LARGE = 21,
    RTCP_PACKET_TOO_LARGE = 22,
    RTCP_ITEM_TYPE_ZERO = 23,
    RTCP_LISTS_DISAGREE = 24,
    RTCP_NOTHING_LEFT = 25,
    RTCP_WRITER_CLOSED = 26,
    RTCP_FIRST_PACKET_NO_REPORT = 27,
    RTCP_NO_CNAME = 28,
    RTCP_ALREADY_PADDED = 29,
    RTCP_NOT_PRIV = 30,
    RTCP_ANSWERS_TOO_SHORT = 31
};

enum RtcpPacketType { RTCP_SR = 200, RTCP_RR = 201, RTCP_SDES = 202, RTCP_BYE = 203, RTCP_APP = 204 };

enum RtcpItemType {
    RTCP_CNAME = 1,
    RTCP_NAME = 2,
    RTCP_EMAIL = 3,
    RTCP_PHONE = 4,
    RTCP_LOC = 5,
    RTCP_TOOL = 6,
    RTCP_NOTE = 7,
    RTCP_PRIV = 8
};

enum {
    RTCP_MAX_PACKET = 262144,  /* bytes of a packet */
    RTCP_MAX_CHUNK = 262140,   /* bytes of a lone chunk */
    RTCP_MAX_PADDING = 252,    /* bytes of padding, a multiple of 4 */
    RTCP_MAX_COUNT = 31,       /* blocks, chunks or sources of a packet; an APP's subtype */
    RTCP_MAX_REASON = 255,     /* bytes of a reason or of an item's value */
    RTCP_BLOCK_SIZE = 24,      /* bytes of a report block */
    RTCP_BLOCK_WORDS = 5,      /* words of a block: see rtcp_rr_report_blocks */
    RTCP_ITEM_ROW = 5,         /* numbers of an item: see rtcp_sdes_items */
    RTCP_PACKET_ROW = 3,       /* numbers of a packet: see rtcp_compound_packets */
    RTCP_CHUNK_INDEX = 31,     /* the bits of an answer that are a chunk's index: see rtcp_sdes_lookup */
    RTCP_NO_CHUNK = 255        /* the answer where there is no such chunk */
};

/* The least and the most that a cumulative loss can be: 24 bits with a sign. */
enum { RTCP_MIN_LOST = -8388608, RTCP_MAX_LOST = 8388607 };

/* The commit that the archive was proved from; a '+' behind it where a source was changed after that commit. */
extern const char rtcp_proved_from[];

/* What a write, a size and a call that fills a list answer: the size in bytes, or how many numbers stand at the list's start (of report blocks, how
   many blocks). A list that is too short gets 10(how many there are, 0), after every other refusal. Numbers of the list past those stay as they were. */
struct RtcpWritten {
    uint64_t number, first, second;
    uint64_t size;
};

/* ---- reports ---- */

/* A report block. cumulative_lost is signed, from RTCP_MIN_LOST to RTCP_MAX_LOST: the packets expected less those received, a duplicate counted as
   received. It is below zero where more duplicates came than packets were lost (RFC 3550 6.4.1). The four bytes after it belong to no field, so
   compare two blocks field by field. */
struct RtcpBlock {
    uint64_t number, first, second;
    uint64_t ssrc;
    uint64_t fraction_lost;
    int32_t cumulative_lost;
    uint64_t extended_sequence_number;
    uint64_t interarrival_jitter;
    uint64_t last_sender_report_timestamp;
    uint64_t delay_since_last_sender_report_timestamp;
};

/* A receiver report: n_reports blocks of 24 bytes from 8 on, then the profile's extension, then the padding. In every packet's result, body is the end
   of the body, where padding_len bytes of padding start. */
struct RtcpRr {
    uint64_t number, first, second;
    uint64_t ssrc;
    uint64_t n_reports;
    uint64_t extension;
    uint64_t extension_len;
    uint64_t body;
    uint64_t padding_len;
};

/* A sender report: n_reports blocks of 24 bytes from 28 on, then the profile's extension, then the padding. */
struct RtcpSr {
    uint64_t number, first, second;
    uint64_t ssrc;
    uint64_t ntp_timestamp;
    uint64_t rtp_timestamp;
    uint64_t packet_count;
    uint64_t octet_count;
    uint64_t n_reports;
    uint64_t extension;
    uint64_t extension_len;
    uint64_t body;
    uint64_t padding_len;
};

/* A lone block. Refusals: 2(24, length), 3(24, length).
     struct RtcpBlock b = rtcp_block_parse(bytes, 24); */
struct RtcpBlock rtcp_block_parse(const uint8_t *s, size_t len);

/* A receiver report. Refusals: the steps of reading, then 2(8 + 24 * blocks, bytes of the body): the header counts.
     struct RtcpRr rr = rtcp_rr_parse(packet, len);
     if (rr.number == 0) use(rr.ssrc, rr.n_reports); */
struct RtcpRr rtcp_rr_parse(const uint8_t *s, size_t len);

/* A sender report. Refusals as rtcp_rr_parse, with 28 for 8.
     struct RtcpSr sr = rtcp_sr_parse(packet, len); */
struct RtcpSr rtcp_sr_parse(const uint8_t *s, size_t len);

/* Block i, from 0, of a receiver report. Refusals: those of rtcp_rr_parse, then 25 where there is no such block.
     for (uint64_t i = 0; i < rr.n_reports; i++) use(rtcp_rr_report_block(packet, len, i)); */
struct RtcpBlock rtcp_rr_report_block(const uint8_t *s, size_t len, uint64_t i);

/* Block i, from 0, of a sender report. Refusals as rtcp_rr_report_block.
     use(rtcp_sr_report_block(packet, len, 0)); */
struct RtcpBlock rtcp_sr_report_block(const uint8_t *s, size_t len, uint64_t i);

/* All blocks of a receiver report at once, into three lists, as rtcp_rr_write takes them: of block i, fractions[i] is the fraction lost, losses[i]
   the cumulative lost, which is signed, and five words from words[5 * i] on are its SSRC, extended sequence number, jitter, last SR and delay since
   last SR. size is the number of blocks. Refusals: those of rtcp_rr_parse, then 10(blocks, 0) where a list is too short for them.
     uint8_t fractions[31]; int32_t losses[31]; uint32_t words[31 * 5];
     struct RtcpWritten w = rtcp_rr_report_blocks(packet, len, fractions, 31, losses, 31, words, 31 * 5);
     for (uint64_t i = 0; i < w.size; i++) use(words[5 * i], fractions[i], losses[i]); */
struct RtcpWritten rtcp_rr_report_blocks(const uint8_t *s, size_t len, uint8_t *fractions, size_t fractions_len, int32_t *losses,
                                         size_t losses_len, uint32_t *words, size_t words_len);

/* All blocks of a sender report at once. Refusals as rtcp_rr_report_blocks.
     struct RtcpWritten w = rtcp_sr_report_blocks(packet, len, fractions, 31, losses, 31, words, 31 * 5); */
struct RtcpWritten rtcp_sr_report_blocks(const uint8_t *s, size_t len, uint8_t *fractions, size_t fractions_len, int32_t *losses,
                                         size_t losses_len, uint32_t *words, size_t words_len);

/* A receiver report and all its blocks in one call, which reads the packet once: the answer of rtcp_rr_parse, and the lists of
   rtcp_rr_report_blocks, filled for n_reports blocks. Refusals: those of rtcp_rr_parse, then 10.
     struct RtcpRr rr = rtcp_rr_read(packet, len, fractions, 31, losses, 31, words, 31 * 5);
     if (rr.number == 0) use(rr.ssrc, fractions, rr.n_reports); */
struct RtcpRr rtcp_rr_read(const uint8_t *s, size_t len, uint8_t *fractions, size_t fractions_len, int32_t *losses, size_t losses_len,
                           uint32_t *words, size_t words_len);

/* A sender report and all its blocks in one call. Refusals as rtcp_rr_read.
     struct RtcpSr sr = rtcp_sr_read(packet, len, fractions, 31, losses, 31, words, 31 * 5); */
struct RtcpSr rtcp_sr_read(const uint8_t *s, size_t len, uint8_t *fractions, size_t fractions_len, int32_t *losses, size_t losses_len,
                           uint32_t *words, size_t words_len);

/* ---- reception figures ---- */

/* What a receiver keeps of one source: the state of RFC 3550 A.1, A.3 and A.8, in the RFC's names and widths. The caller keeps one for each source,
   hands it in at each call and keeps the one that comes back.
     max_seq          the highest sequence number; in probation the last one
     cycles           65,536 for each time that it wrapped; cycles + max_seq is the extended sequence number
     base_seq         the sequence number of the starting packet: the one that ended probation, or the last that restarted the source
     bad_seq          the sequence number at which a large jump restarts the source; 65,537 where there is none
     probation        how many packets in order are still wanted; 0 where the source is out of probation
     received         the packets accepted from the starting one on, late and duplicate ones too
     expected_prior   how many were expected, and
     received_prior   how many received, when the last block was made; 0 where none was since the starting packet
     transit          arrival less timestamp, of the last packet accepted
     jitter           sixteen times the interarrival jitter
   The two bytes after max_seq belong to no field, so compare two of them field by field. */
struct RtcpReception {
    uint16_t max_seq;
    uint32_t cycles;
    uint32_t base_seq;
    uint32_t bad_seq;
    uint32_t probation;
    uint32_t received;
    uint32_t expected_prior;
    uint32_t received_prior;
    uint32_t transit;
    uint32_t jitter;
};

/* The reception after a packet. accepted is 1 where A.1 accepts the packet as valid, else 0. */
struct RtcpReceptionUpdate {
    struct RtcpReception reception;
    uint64_t accepted;
};

/* The reception after a block, and the block, as the calls that write take it. in_probation is 1 where the source is in probation: no two packets in
   order came from it yet. Then there is no block to write: every number of block is 0, and the reception is the one that went in. */
struct RtcpReceptionBlock {
    struct RtcpReception reception;
    uint64_t in_probation;
    struct RtcpBlock block;
};

/* The reception of a source, from the sequence number of its first packet, which is not counted by this: it goes through rtcp_reception_update as every
   other packet does.
     struct RtcpReception source = rtcp_reception_new(seq); */
struct RtcpReception rtcp_reception_new(uint16_t seq);

/* A packet of the source: its sequence number, its RTP timestamp, and when it arrived, by a clock of the receiver's that counts in the units of the
   timestamp from any start and wraps at 2^32. Only a packet that is accepted counts for the jitter; the one that ends probation only sets the transit.
     struct RtcpReceptionUpdate u = rtcp_reception_update(source, seq, timestamp, arrival);
     source = u.reception; */
struct RtcpReceptionUpdate rtcp_reception_update(struct RtcpReception reception, uint16_t seq, uint32_t timestamp, uint32_t arrival);

/* The block about the source, for a report that is sent now. Its fraction lost counts from the last block or, where that is later, from the starting
   packet. Its cumulative lost is held between RTCP_MIN_LOST and RTCP_MAX_LOST, so no call that writes it refuses it. The caller gives what it knows of
   the source's last sender report: the middle 32 bits of its NTP time, and the time since it came in 65,536ths of a second; 0 and 0 where none came.
     struct RtcpReceptionBlock r = rtcp_reception_report_block(source, ssrc, last_sr, delay);
     source = r.reception;
     if (!r.in_probation) c = rtcp_writer_add_rr_blocks(&w, buf, sizeof buf, own_ssrc, &r.block, 1); */
struct RtcpReceptionBlock rtcp_reception_report_block(struct RtcpReception reception, uint32_t ssrc, uint32_t last_sender_report_timestamp,
                                                      uint32_t delay_since_last_sender_report_timestamp);

/* ---- APP ---- */

/* name is always 8 and name_len 4. */
struct RtcpApp {
    uint64_t number, first, second;
    uint64_t subtype;
    uint64_t ssrc;
    uint64_t name;
    uint64_t name_len;
    uint64_t data;
    uint64_t data_len;
    uint64_t body;
    uint64_t padding_len;
};

/* An APP packet. Refusals: the steps of reading.
     struct RtcpApp app = rtcp_app_parse(packet, len);
     if (app.number == 0) use(packet + app.data, app.data_len); */
struct RtcpApp rtcp_app_parse(const uint8_t *s, size_t len);

/* ---- BYE ---- */

/* has_reason tells no reason (0) from an empty one (1, with reason_len 0). The tail is what follows the reason in the body. Where there is no reason,
   reason and tail are the end of the body, and both lengths are 0. */
struct RtcpBye {
    uint64_t number, first, second;
    uint64_t n_sources;
    uint64_t has_reason;
    uint64_t reason;
    uint64_t reason_len;
    uint64_t tail;
    uint64_t tail_len;
    uint64_t body;
    uint64_t padding_len;
};

struct RtcpSource {
    uint64_t number, first, second;
    uint64_t ssrc;
};

/* A BYE packet. Refusals: the steps of reading, then 2 where the sources or the reason reach past the body.
     struct RtcpBye bye = rtcp_bye_parse(packet, len);
     if (bye.number == 0 && bye.has_reason) use(packet + bye.reason, bye.reason_len); */
struct RtcpBye rtcp_bye_parse(const uint8_t *s, size_t len);

/* Source i, from 0. Refusals: those of rtcp_bye_parse, then 25 where there is no such source.
     for (uint64_t i = 0; i < bye.n_sources; i++) use(rtcp_bye_source(packet, len, i).ssrc); */
struct RtcpSource rtcp_bye_source(const uint8_t *s, size_t len, uint64_t i);

/* ---- SDES ---- */

/* has_cname is 1 where some chunk has a CNAME item. The chunks lie between 4 and body. */
struct RtcpSdes {
    uint64_t number, first, second;
    uint64_t n_chunks;
    uint64_t has_cname;
    uint64_t body;
    uint64_t padding_len;
};

/* length is the item's own length byte. Only a PRIV item (type 8) has a prefix; else prefix_len is 0, and prefix is where the value starts. */
struct RtcpItem {
    uint64_t number, first, second;
    uint64_t type_;
    uint64_t length;
    uint64_t prefix;
    uint64_t prefix_len;
    uint64_t value;
    uint64_t value_len;
};

struct RtcpPart {
    uint64_t number, first, second;
    uint64_t offset;
    uint64_t len;
};

/* length is the bytes that the chunk takes, with its closing zeros; cname the place of its first CNAME item, or 0. Its items start at 4. */
struct RtcpChunk {
    uint64_t number, first, second;
    uint64_t ssrc;
    uint64_t length;
    uint64_t cname;
};

/* A walk over the chunks of a packet: the place of the next chunk, and the end of the body. */
struct RtcpChunkWalk {
    uint64_t number, first, second;
    uint64_t at;
    uint64_t end;
};

/* A chunk, and the walk after it. The chunk's bytes are length bytes from the place that went in. */
struct RtcpChunkStep {
    uint64_t number, first, second;
    uint64_t ssrc;
    uint64_t length;
    uint64_t cname;
    uint64_t at;
    uint64_t end;
};

/* A walk over the items of a chunk: the place of the next item, from the chunk's start. */
struct RtcpItemWalk {
    uint64_t number, first, second;
    uint64_t at;
};

/* An item with its parts counted from the chunk's start, and the walk after it. */
struct RtcpItemStep {
    uint64_t number, first, second;
    uint64_t type_;
    uint64_t length;
    uint64_t prefix;
    uint64_t prefix_len;
    uint64_t value;
    uint64_t value_len;
    uint64_t at;
};

/* What a lookup answers besides the list that it fills. */
struct RtcpLookup {
    uint64_t number, first, second;
    uint64_t visits;
};

/* An SDES packet. Refusals: the steps of reading, then those of its chunks, then 3 where bytes follow the last chunk.
     struct RtcpSdes sdes = rtcp_sdes_parse(packet, len); */
struct RtcpSdes rtcp_sdes_parse(const uint8_t *s, size_t len);

/* A lone item, at the start of the bytes. Refusals: 2 where it is longer than the bytes, 5(prefix, room) for the prefix of a PRIV item.
     struct RtcpItem item = rtcp_item_parse(bytes, len); */
struct RtcpItem rtcp_item_parse(const uint8_t *s, size_t len);

/* The prefix of a lone item. Refusals: those of rtcp_item_parse, then 30(type, 0) where the item is not PRIV.
     struct RtcpPart prefix = rtcp_item_priv_prefix(bytes, len); */
struct RtcpPart rtcp_item_priv_prefix(const uint8_t *s, size_t len);

/* A lone chunk, at the start of the bytes. Refusals: 2 where it is cut off or its fill is not zero, and those of its items.
     struct RtcpChunk chunk = rtcp_chunk_parse(bytes, len); */
struct RtcpChunk rtcp_chunk_parse(const uint8_t *s, size_t len);

/* Opens a walk over the chunks. Refusals: those of rtcp_sdes_parse.
     struct RtcpChunkWalk w = rtcp_chunk_walk_open(packet, len);
     if (w.number != 0) return;
     for (uint64_t at = w.at;;) {
         struct RtcpChunkStep c = rtcp_chunk_walk_step(packet, len, at, w.end);
         if (c.number != 0) break;
         use(packet + at, c.length);
         at = c.at;
     } */
struct RtcpChunkWalk rtcp_chunk_walk_open(const uint8_t *s, size_t len);

/* The chunk at a place, for any numbers. Only the first 262,144 bytes are read. Refusals: 25 at or past their end or that of the body, else those of
   rtcp_chunk_parse.
     see rtcp_chunk_walk_open */
struct RtcpChunkStep rtcp_chunk_walk_step(const uint8_t *s, size_t len, uint64_t at, uint64_t end);

/* Opens a walk over the items of a chunk. Refusals: those of rtcp_chunk_parse.
     struct RtcpItemWalk w = rtcp_item_walk_open(chunk, length);
     if (w.number != 0) return;
     for (uint64_t at = w.at;;) {
         struct RtcpItemStep i = rtcp_item_walk_step(chunk, length, at);
         if (i.number != 0) break;
         use(i.type_, chunk + i.value, i.value_len);
         at = i.at;
     } */
struct RtcpItemWalk rtcp_item_walk_open(const uint8_t *s, size_t len);

/* The item at a place, for any number. Refusals: 25 at the closing zero and at or past the end, else those of rtcp_item_parse.
     see rtcp_item_walk_open */
struct RtcpItemStep rtcp_item_walk_step(const uint8_t *s, size_t len, uint64_t at);

/* All chunks and items of a packet at once: five numbers for each item, in order:
     0  the SSRC of its chunk
     1  its type
     2  the offset of its value in the packet
     3  the length of its prefix, which stands right before the value; 0 where it is not PRIV
     4  the length of its value
   and after the items of each chunk five that end it: the SSRC, 0, the offset of the closing zero, 0, 0. So a chunk without items has one such row,
   and a packet without chunks none. len / 2 * 5 numbers are always enough, and with so many the rows are not counted first.
   Refusals: those of rtcp_sdes_parse, then 10.
     uint32_t rows[5 * 128];
     struct RtcpWritten w = rtcp_sdes_items(packet, len, rows, 5 * 128);
     for (uint64_t i = 0; i < w.size; i += 5)
         if (rows[i + 1] != 0) use(rows[i], rows[i + 1], packet + rows[i + 2], rows[i + 4]); */
struct RtcpWritten rtcp_sdes_items(const uint8_t *s, size_t len, uint32_t *rows, size_t rows_len);

/* The names of many sources in one pass: for each SSRC of a list, which chunk of the packet names it. answers[i] is RTCP_NO_CHUNK where no chunk has
   ssrcs[i] and a CNAME in it; else its bits RTCP_CHUNK_INDEX are the index, from 0, of the first chunk that has both. An SSRC that is listed twice is
   answered twice. Answers past the list stay as they were. visits is the number of chunks that the pass looked at: at most the packet's chunks, and no
   more is promised of it. Refusals: 31 where there are more SSRCs than answers, before the packet is looked at; then those of rtcp_sdes_parse.
     uint8_t answers[30];
     struct RtcpLookup l = rtcp_sdes_lookup(packet, len, ssrcs, 30, answers, 30);
     for (size_t i = 0; l.number == 0 && i < 30; i++)
         if (answers[i] != RTCP_NO_CHUNK) use(ssrcs[i], answers[i] & RTCP_CHUNK_INDEX); */
struct RtcpLookup rtcp_sdes_lookup(const uint8_t *s, size_t len, const uint32_t *ssrcs, size_t ssrcs_len, uint8_t *answers, size_t answers_len);

/* ---- datagrams ---- */

struct RtcpCompound {
    uint64_t number, first, second;
    uint64_t n_packets;
};

/* A walk over the packets of a datagram: the place of the next one. */
struct RtcpWalk {
    uint64_t number, first, second;
    uint64_t at;
};

/* A packet of a datagram: len bytes from offset. Every other place is counted from the packet's start, so that the numbers are those of the
   function of its kind on these bytes, by which blocks, chunks and sources are read too. Where the kind has no such field it is 0.
     kind         the packet type 200 to 204, or 0 for any other type
     count        the low 5 bits: blocks, chunks, sources, or an APP's subtype
     body         the end of the body, where padding_len bytes of padding start
     SR, RR       ssrc, the sender's numbers of an SR; the extension lies between extension and body
     SDES         has_cname; the chunks lie between 4 and body
     BYE          has_reason, reason, reason_len; the tail lies between the reason's end and body
     APP          ssrc; the name is 4 bytes at 8, the data lie between 12 and body
     other types  the body's bytes lie between 4 and body
   at is the place of the next packet. What a step hands over is checked, so a walk over its parts need not be opened: the chunks of an SDES are walked
   over from 4 to body, the items of a chunk from 4 on, and block i of an RR or SR is the 24 bytes at 24 * i from 8 or 28 on (rtcp_block_parse). */
struct RtcpStep {
    uint64_t number, first, second;
    uint64_t kind;
    uint64_t packet_type;
    uint64_t count;
    uint64_t offset;
    uint64_t len;
    uint64_t body;
    uint64_t padding_len;
    uint64_t ssrc;
    uint64_t ntp_timestamp;
    uint64_t rtp_timestamp;
    uint64_t packet_count;
    uint64_t octet_count;
    uint64_t extension;
    uint64_t has_cname;
    uint64_t has_reason;
    uint64_t reason;
    uint64_t reason_len;
    uint64_t at;
};

/* A datagram of any length. Refusals, packet by packet: 2(4, left), 1, 2(stated, left), 9 where padding comes before the last packet,
   7(type, 0) where the first is no report, the packet's own steps; at the end 8 where no chunk has a CNAME.
     if (rtcp_compound_parse(datagram, len).number == 0) use(datagram, len); */
struct RtcpCompound rtcp_compound_parse(const uint8_t *s, size_t len);

/* All packets of a datagram at once: three numbers for each, in order: its packet type, its offset in the datagram and its length.
   Refusals: those of rtcp_compound_parse, then 10.
     uint64_t packets[3 * 16];
     struct RtcpWritten w = rtcp_compound_packets(datagram, len, packets, 3 * 16);
     for (uint64_t i = 0; i < w.size; i += 3) use(packets[i], datagram + packets[i + 1], packets[i + 2]); */
struct RtcpWritten rtcp_compound_packets(const uint8_t *s, size_t len, uint64_t *packets, size_t packets_len);

/* Opens a walk over the packets. Refusals: those of rtcp_compound_parse.
     struct RtcpWalk w = rtcp_walk_open(datagram, len);
     if (w.number == 0)
         for (uint64_t at = w.at;;) {
             struct RtcpStep p = rtcp_walk_step(datagram, len, at);
             if (p.number != 0) break;
             use(p.kind, datagram + p.offset, p.len);
             at = p.at;
         } */
struct RtcpWalk rtcp_walk_open(const uint8_t *s, size_t len);

/* The packet at a place, for any number. Refusals: 25 at or past the end, else those of a packet in rtcp_compound_parse.
     see rtcp_walk_open */
struct RtcpStep rtcp_walk_step(const uint8_t *s, size_t len, uint64_t at);

/* ---- writing one packet ----

   A size function says how many bytes a write takes; it refuses what the write refuses, but for 10(size, 0), which the write adds last where buf
   is too short. Bytes of buf past the size stay as they were.

   blocks: three lists, as rtcp_rr_report_blocks fills them: for each block a fraction lost, a cumulative lost and five words. 24 exactly where there
   are not one loss and five words for each fraction. 17(the loss's low 32 bits, 8388607) where a loss is below RTCP_MIN_LOST or above RTCP_MAX_LOST;
   so -8388609 gives 17(4286578687, 8388607).
   padding: bytes of padding; 11(padding, 0) where it is no multiple of 4 or above 252. */

/* A receiver report. Refusals: 24, 18(count, 31), 11, 17(the loss's low 32 bits, 8388607) block by block, 10.
     struct RtcpWritten w = rtcp_rr_write(buf, sizeof buf, ssrc, NULL, 0, NULL, 0, NULL, 0, 0);
     if (w.number == 0) send(buf, w.size); */
struct RtcpWritten rtcp_rr_write(uint8_t *buf, size_t buf_len, uint32_t ssrc, const uint8_t *fractions, size_t fractions_len,
                                 const int32_t *losses, size_t losses_len, const uint32_t *words, size_t words_len, uint64_t padding);

/* The size of a receiver report. Refusals as rtcp_rr_write, without 10.
     struct RtcpWritten w = rtcp_rr_size(NULL, 0, NULL, 0, NULL, 0, 0); */
struct RtcpWritten rtcp_rr_size(const uint8_t *fractions, size_t fractions_len, const int32_t *losses, size_t losses_len,
                                const uint32_t *words, size_t words_len, uint64_t padding);

/* A sender report. Refusals as rtcp_rr_write.
     rtcp_sr_write(buf, sizeof buf, ssrc, ntp, rtp, packets, octets, NULL, 0, NULL, 0, NULL, 0, 0); */
struct RtcpWritten rtcp_sr_write(uint8_t *buf, size_t buf_len, uint32_t ssrc, uint64_t ntp_timestamp, uint32_t rtp_timestamp,
                                 uint32_t packet_count, uint32_t octet_count, const uint8_t *fractions, size_t fractions_len,
                                 const int32_t *losses, size_t losses_len, const uint32_t *words, size_t words_len, uint64_t padding);

/* The size of a sender report. Refusals as rtcp_rr_size.
     struct RtcpWritten w = rtcp_sr_size(fractions, 1, losses, 1, words, 5, 0); */
struct RtcpWritten rtcp_sr_size(const uint8_t *fractions, size_t fractions_len, const int32_t *losses, size_t losses_len,
                                const uint32_t *words, size_t words_len, uint64_t padding);

/* A BYE packet; an empty reason is none. Refusals: 15(count, 31), 11, 16(length, 255), 10.
     rtcp_bye_write(buf, sizeof buf, &ssrc, 1, NULL, 0, 0); */
struct RtcpWritten rtcp_bye_write(uint8_t *buf, size_t buf_len, const uint32_t *sources, size_t sources_len, const uint8_t *reason,
                                  size_t reason_len, uint64_t padding);

/* The size of a BYE packet. Refusals as rtcp_bye_write, without 10.
     struct RtcpWritten w = rtcp_bye_size(&ssrc, 1, NULL, 0, 0); */
struct RtcpWritten rtcp_bye_size(const uint32_t *sources, size_t sources_len, const uint8_t *reason, size_t reason_len, uint64_t padding);

/* An APP packet; a name of under 4 bytes is filled with zeros. Refusals: 12(subtype, 31), 13, 14(length, 0), 11, 22, 10.
     rtcp_app_write(buf, sizeof buf, 0, ssrc, (const uint8_t *)"hall", 4, NULL, 0, 0); */
struct RtcpWritten rtcp_app_write(uint8_t *buf, size_t buf_len, uint64_t subtype, uint32_t ssrc, const uint8_t *name, size_t name_len,
                                  const uint8_t *data, size_t data_len, uint64_t padding);

/* The size of an APP packet. Refusals as rtcp_app_write, without 10.
     struct RtcpWritten w = rtcp_app_size(0, (const uint8_t *)"hall", 4, NULL, 0, 0); */
struct RtcpWritten rtcp_app_size(uint64_t subtype, const uint8_t *name, size_t name_len, const uint8_t *data, size_t data_len,
                                 uint64_t padding);

/* A lone item; the prefix is written on a PRIV item (type 8) only. Refusals: 23 for type 0, 21(prefix, 254), 20(length, most), 10.
     rtcp_item_write(buf, sizeof buf, 1, NULL, 0, (const uint8_t *)"me@hall", 7); */
struct RtcpWritten rtcp_item_write(uint8_t *buf, size_t buf_len, uint8_t type_, const uint8_t *prefix, size_t prefix_len,
                                   const uint8_t *value, size_t value_len);

/* The size of a lone item. Refusals as rtcp_item_write, without 10.
     struct RtcpWritten w = rtcp_item_size(1, NULL, 0, (const uint8_t *)"me@hall", 7); */
struct RtcpWritten rtcp_item_size(uint8_t type_, const uint8_t *prefix, size_t prefix_len, const uint8_t *value, size_t value_len);

/* A lone chunk. Item i has types[i], prefixes[i] bytes of prefix and values[i] bytes of value; bytes holds the prefix and the value of each item
   in turn. Refusals: 24 where the lists do not fit together, per item 23, 21, 20, then 22 over 262,140 bytes, 10.
     uint8_t type = 1; uint64_t prefix = 0, value = 7;
     rtcp_chunk_write(buf, sizeof buf, ssrc, &type, 1, &prefix, 1, &value, 1, (const uint8_t *)"me@hall", 7); */
struct RtcpWritten rtcp_chunk_write(uint8_t *buf, size_t buf_len, uint32_t ssrc, const uint8_t *types, size_t types_len,
                                    const uint64_t *prefixes, size_t prefixes_len, const uint64_t *values, size_t values_len,
                                    const uint8_t *bytes, size_t bytes_len);

/* The size of a lone chunk. Refusals as rtcp_chunk_write, without 10.
     struct RtcpWritten w = rtcp_chunk_size(&type, 1, &prefix, 1, &value, 1, bytes, 7); */
struct RtcpWritten rtcp_chunk_size(const uint8_t *types, size_t types_len, const uint64_t *prefixes, size_t prefixes_len,
                                   const uint64_t *values, size_t values_len, const uint8_t *bytes, size_t bytes_len);

/* An SDES packet. Chunk k has ssrcs[k] and the next counts[k] of the items, which are lent as in rtcp_chunk_write. Refusals: 24, 19(count, 31),
   11, per item 23, 21, 20, then 22, 10.
     uint64_t count = 1;
     rtcp_sdes_write(buf, sizeof buf, &ssrc, 1, &count, 1, &type, 1, &prefix, 1, &value, 1, (const uint8_t *)"me@hall", 7, 0); */
struct RtcpWritten rtcp_sdes_write(uint8_t *buf, size_t buf_len, const uint32_t *ssrcs, size_t ssrcs_len, const uint64_t *counts,
                                   size_t counts_len, const uint8_t *types, size_t types_len, const uint64_t *prefixes,
                                   size_t prefixes_len, const uint64_t *values, size_t values_len, const uint8_t *bytes,
                                   size_t bytes_len, uint64_t padding);

/* The size of an SDES packet. Refusals as rtcp_sdes_write, without 10.
     struct RtcpWritten w = rtcp_sdes_size(NULL, 0, NULL, 0, NULL, 0, NULL, 0, NULL, 0, NULL, 0, 0); */
struct RtcpWritten rtcp_sdes_size(const uint32_t *ssrcs, size_t ssrcs_len, const uint64_t *counts, size_t counts_len,
                                  const uint8_t *types, size_t types_len, const uint64_t *prefixes, size_t prefixes_len,
                                  const uint64_t *values, size_t values_len, const uint8_t *bytes, size_t bytes_len, uint64_t padding);

/* ---- writing a datagram ---- */

/* The compound writer. The caller keeps it, and lends it and the same buffer at each call. length is the length so far; the rest is the writer's own,
   and later versions may have more of it. */
struct RtcpWriter {
    uint64_t length;
    uint64_t padded, cname, closed;
};

/* What a call answers. A refusal leaves the writer and the buffer as they were. */
struct RtcpCall {
    uint64_t number, first, second;
};

/* Makes it the writer of an empty datagram.
     struct RtcpWriter w;
     rtcp_writer_new(&w); */
void rtcp_writer_new(struct RtcpWriter *writer);

/* Adds a receiver report. Refusals: 26 where it is closed, 29 where a padded packet is in, then those of rtcp_rr_write, 10 with the length so
   far, 10 with the length and the packet.
     struct RtcpCall c = rtcp_writer_add_rr(&w, buf, sizeof buf, ssrc, NULL, 0, NULL, 0, NULL, 0, 0); */
struct RtcpCall rtcp_writer_add_rr(struct RtcpWriter *writer, uint8_t *buf, size_t buf_len, uint32_t ssrc, const uint8_t *fractions,
                                   size_t fractions_len, const int32_t *losses, size_t losses_len, const uint32_t *words,
                                   size_t words_len, uint64_t padding);

/* Adds a sender report. Refusals as rtcp_writer_add_rr.
     c = rtcp_writer_add_sr(&w, buf, sizeof buf, ssrc, ntp, rtp, packets, octets, fractions, 1, losses, 1, words, 5, 0); */
struct RtcpCall rtcp_writer_add_sr(struct RtcpWriter *writer, uint8_t *buf, size_t buf_len, uint32_t ssrc, uint64_t ntp_timestamp,
                                   uint32_t rtp_timestamp, uint32_t packet_count, uint32_t octet_count, const uint8_t *fractions,
                                   size_t fractions_len, const int32_t *losses, size_t losses_len, const uint32_t *words,
                                   size_t words_len, uint64_t padding);

/* Adds an SDES packet. Refusals: 26, 29, 27 where it would be the first, those of rtcp_sdes_write, 10 as rtcp_writer_add_rr.
     c = rtcp_writer_add_sdes(&w, buf, sizeof buf, &ssrc, 1, &count, 1, &type, 1, &prefix, 1, &value, 1, bytes, 7, 0); */
struct RtcpCall rtcp_writer_add_sdes(struct RtcpWriter *writer, uint8_t *buf, size_t buf_len, const uint32_t *ssrcs, size_t ssrcs_len,
                                     const uint64_t *counts, size_t counts_len, const uint8_t *types, size_t types_len,
                                     const uint64_t *prefixes, size_t prefixes_len, const uint64_t *values, size_t values_len,
                                     const uint8_t *bytes, size_t bytes_len, uint64_t padding);

/* Adds a BYE packet. Refusals: 26, 29, 27, those of rtcp_bye_write, 10 as rtcp_writer_add_rr.
     c = rtcp_writer_add_bye(&w, buf, sizeof buf, &ssrc, 1, NULL, 0, 0); */
struct RtcpCall rtcp_writer_add_bye(struct RtcpWriter *writer, uint8_t *buf, size_t buf_len, const uint32_t *sources, size_t sources_len,
                                    const uint8_t *reason, size_t reason_len, uint64_t padding);

/* Adds an APP packet. Refusals: 26, 29, 27, those of rtcp_app_write, 10 as rtcp_writer_add_rr.
     c = rtcp_writer_add_app(&w, buf, sizeof buf, 0, ssrc, (const uint8_t *)"hall", 4, NULL, 0, 0); */
struct RtcpCall rtcp_writer_add_app(struct RtcpWriter *writer, uint8_t *buf, size_t buf_len, uint64_t subtype, uint32_t ssrc,
                                    const uint8_t *name, size_t name_len, const uint8_t *data, size_t data_len, uint64_t padding);

/* Closes the datagram: writer->length bytes of buf. Refusals: 26, 28 where no chunk has a CNAME.
     c = rtcp_writer_close(&w);
     if (c.number == 0) send(buf, w.length); */
struct RtcpCall rtcp_writer_close(struct RtcpWriter *writer);

/* ---- inline helpers: plain C over the functions above, not proved ---- */

/* A row that rtcp_sdes_items fills, and one that rtcp_compound_packets fills. type_ is 0 where a chunk ends. */
struct RtcpItemEntry {
    uint32_t ssrc, type_, value, prefix_len, value_len;
};

struct RtcpPacketEntry {
    uint64_t packet_type, offset, len;
};

/* rtcp_sdes_items into n entries; size counts entries.
     struct RtcpItemEntry items[128];
     struct RtcpWritten w = rtcp_sdes_entries(packet, len, items, 128);
     for (uint64_t i = 0; i < w.size; i++)
         if (items[i].type_ == RTCP_CNAME) use(items[i].ssrc, packet + items[i].value, items[i].value_len); */
static inline struct RtcpWritten rtcp_sdes_entries(const uint8_t *s, size_t len, struct RtcpItemEntry *entries, size_t n) {
    struct RtcpWritten w = rtcp_sdes_items(s, len, (uint32_t *)entries, n * RTCP_ITEM_ROW);
    w.size /= RTCP_ITEM_ROW;
    return w;
}

/* rtcp_compound_packets into n entries; size counts entries. */
static inline struct RtcpWritten rtcp_compound_entries(const uint8_t *s, size_t len, struct RtcpPacketEntry *entries, size_t n) {
    struct RtcpWritten w = rtcp_compound_packets(s, len, (uint64_t *)entries, n * RTCP_PACKET_ROW);
    w.size /= RTCP_PACKET_ROW;
    return w;
}

/* Adds an SDES packet of one chunk with one item, the CNAME that every datagram must have.
     c = rtcp_writer_add_cname(&w, buf, sizeof buf, ssrc, "me@hall", 7); */
static inline struct RtcpCall rtcp_writer_add_cname(struct RtcpWriter *writer, uint8_t *buf, size_t buf_len, uint32_t ssrc, const char *cname,
                                                    size_t cname_len) {
    const uint64_t one = 1, none = 0, value = cname_len;
    const uint8_t type = RTCP_CNAME;
    return rtcp_writer_add_sdes(writer, buf, buf_len, &ssrc, 1, &one, 1, &type, 1, &none, 1, &value, 1, (const uint8_t *)cname, cname_len, 0);
}

/* The lists of up to 31 blocks, as the calls that write take them. */
struct RtcpBlockLists {
    uint8_t fractions[RTCP_MAX_COUNT];
    int32_t losses[RTCP_MAX_COUNT];
    uint32_t words[RTCP_MAX_COUNT * RTCP_BLOCK_WORDS];
};

/* Fills the lists with the first 31 of n blocks at most. */
static inline void rtcp_block_lists(struct RtcpBlockLists *lists, const struct RtcpBlock *blocks, size_t n) {
    for (size_t i = 0; i < n && i < RTCP_MAX_COUNT; i++) {
        uint32_t *word = lists->words + RTCP_BLOCK_WORDS * i;
        lists->fractions[i] = (uint8_t)blocks[i].fraction_lost;
        lists->losses[i] = blocks[i].cumulative_lost;
        word[0] = (uint32_t)blocks[i].ssrc;
        word[1] = (uint32_t)blocks[i].extended_sequence_number;
        word[2] = (uint32_t)blocks[i].interarrival_jitter;
        word[3] = (uint32_t)blocks[i].last_sender_report_timestamp;
        word[4] = (uint32_t)blocks[i].delay_since_last_sender_report_timestamp;
    }
}

/* Adds a receiver report of up to 31 blocks, given as the answers of rtcp_rr_report_block or filled by hand; more of them get 18(n, 31).
     c = rtcp_writer_add_rr_blocks(&w, buf, sizeof buf, ssrc, &block, 1); */
static inline struct RtcpCall rtcp_writer_add_rr_blocks(struct RtcpWriter *writer, uint8_t *buf, size_t buf_len, uint32_t ssrc,
                                                        const struct RtcpBlock *blocks, size_t n) {
    struct RtcpCall many = {RTCP_TOO_MANY_REPORT_BLOCKS, n, RTCP_MAX_COUNT};
    struct RtcpBlockLists l;
    rtcp_block_lists(&l, blocks, n);
    if (n > RTCP_MAX_COUNT) return many;
    return rtcp_writer_add_rr(writer, buf, buf_len, ssrc, l.fractions, n, l.losses, n, l.words, n * RTCP_BLOCK_WORDS, 0);
}

/* Adds a sender report in the same way. Of sr, its SSRC and the sender's four numbers are written.
     struct RtcpSr sr = {.ssrc = ssrc, .ntp_timestamp = ntp, .rtp_timestamp = rtp, .packet_count = packets, .octet_count = octets};
     c = rtcp_writer_add_sr_blocks(&w, buf, sizeof buf, &sr, NULL, 0); */
static inline struct RtcpCall rtcp_writer_add_sr_blocks(struct RtcpWriter *writer, uint8_t *buf, size_t buf_len, const struct RtcpSr *sr,
                                                        const struct RtcpBlock *blocks, size_t n) {
    struct RtcpCall many = {RTCP_TOO_MANY_REPORT_BLOCKS, n, RTCP_MAX_COUNT};
    struct RtcpBlockLists l;
    rtcp_block_lists(&l, blocks, n);
    if (n > RTCP_MAX_COUNT) return many;
    return rtcp_writer_add_sr(writer, buf, buf_len, (uint32_t)sr->ssrc, sr->ntp_timestamp, (uint32_t)sr->rtp_timestamp,
                              (uint32_t)sr->packet_count, (uint32_t)sr->octet_count, l.fractions, n, l.losses, n, l.words,
                              n * RTCP_BLOCK_WORDS, 0);
}

/* A refusal in a few words; docs/REFUSALS.md says more. */
static inline const char *rtcp_refusal_text(uint64_t number) {
    static const char *const texts[] = {
        "done",
        "the version is not 2",
        "fewer bytes than the packet needs",
        "more bytes than the packet has",
        "bad padding",
        "the prefix of a PRIV item is longer than the item",
        "another packet type than the one asked for",
        "the first packet is no sender or receiver report",
        "no SDES chunk has a CNAME",
        "padding before the last packet",
        "the buffer or the list is too short",
        "padding that is no multiple of 4, or above 252",
        "an APP subtype above 31",
        "an APP name of over 4 bytes, or not ASCII",
        "APP data that are no full words",
        "more than 31 sources",
        "a reason of over 255 bytes",
        "a cumulative loss below -8,388,608 or above 8,388,607",
        "more than 31 report blocks",
        "more than 31 chunks",
        "an item value that is too long",
        "a PRIV prefix of over 254 bytes",
        "a packet of over 262,144 bytes, or a lone chunk of over 262,140",
        "an item of type 0",
        "the lists that were lent do not fit together",
        "nothing is left, or no such index",
        "the writer is closed",
        "the first packet must be a report",
        "no CNAME is in the datagram yet",
        "a padded packet is in already, and must be the last",
        "the item is not PRIV, so it has no prefix",
        "more SSRCs than the list of answers has room for",
    };
    return number < sizeof texts / sizeof texts[0] ? texts[number] : "no such refusal";
}

/* The name that enum RtcpRefusal gives it. */
static inline const char *rtcp_refusal_name(uint64_t number) {
    static const char *const names[] = {
        "done",
        "RTCP_UNSUPPORTED_VERSION",
        "RTCP_TRUNCATED",
        "RTCP_TOO_LARGE",
        "RTCP_INVALID_PADDING",
        "RTCP_PREFIX_TOO_LARGE_READ",
        "RTCP_PACKET_TYPE_MISMATCH",
        "RTCP_FIRST_PACKET_NO_REPORT_READ",
        "RTCP_NO_CNAME_READ",
        "RTCP_NON_LAST_PACKET_PADDING",
        "RTCP_OUTPUT_TOO_SMALL",
        "RTCP_INVALID_PADDING_GIVEN",
        "RTCP_APP_SUBTYPE_OUT_OF_RANGE",
        "RTCP_INVALID_NAME",
        "RTCP_DATA_LEN_32BIT_MULTIPLE",
        "RTCP_TOO_MANY_SOURCES",
        "RTCP_REASON_LEN_TOO_LARGE",
        "RTCP_CUMULATIVE_LOST_TOO_LARGE",
        "RTCP_TOO_MANY_REPORT_BLOCKS",
        "RTCP_TOO_MANY_SDES_CHUNKS",
        "RTCP_SDES_VALUE_TOO_LARGE",
        "RTCP_PREFIX_TOO_LARGE",
        "RTCP_PACKET_TOO_LARGE",
        "RTCP_ITEM_TYPE_ZERO",
        "RTCP_LISTS_DISAGREE",
        "RTCP_NOTHING_LEFT",
        "RTCP_WRITER_CLOSED",
        "RTCP_FIRST_PACKET_NO_REPORT",
        "RTCP_NO_CNAME",
        "RTCP_ALREADY_PADDED",
        "RTCP_NOT_PRIV",
        "RTCP_ANSWERS_TOO_SHORT",
    };
    return number < sizeof names / sizeof names[0] ? names[number] : "no such refusal";
}

#ifdef __cplusplus
}
#endif

#endif
