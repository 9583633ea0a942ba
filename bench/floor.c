/* The same C functions by hand, with the same checks, but for the reason of a refusal and packets of other kinds (those: number 99). It is the limit
   that the machine code of the proved functions is held against: same arguments, same lists, same answers in memory. */
#include <string.h>

#include "rtcp.h"

#define LIKELY(x) __builtin_expect(!!(x), 1)

static inline uint32_t load32(const void *p) {
    uint32_t v;
    memcpy(&v, p, 4);
    return __builtin_bswap32(v);
}

static inline uint64_t load64(const void *p) {
    uint64_t v;
    memcpy(&v, p, 8);
    return __builtin_bswap64(v);
}

static inline void store32(void *p, uint32_t v) {
    v = __builtin_bswap32(v);
    memcpy(p, &v, 4);
}

static inline void store64(void *p, uint64_t v) {
    v = __builtin_bswap64(v);
    memcpy(p, &v, 8);
}

/* Two words in the other order. */
static inline uint64_t turned(uint64_t v) { return v << 32 | v >> 32; }

#define PADDED 0x20000000u

static inline uint32_t head(uint32_t type, size_t count, size_t size, uint64_t padding) {
    return 0x80000000u | (padding != 0) << 29 | (uint32_t)count << 24 | type << 16 | (uint32_t)(size / 4 - 1);
}

/* The length of the body of a packet of so many bytes; 0 where its padding is refused. */
static inline size_t body_of(const uint8_t *s, uint32_t w, size_t len, size_t least) {
    if (LIKELY((w & PADDED) == 0)) return len;
    size_t padding = s[len - 1];
    return padding == 0 || padding % 4 != 0 || len - least < padding ? 0 : len - padding;
}

static inline size_t headed(const uint8_t *s, uint32_t w, uint32_t type, size_t len, size_t least) {
    if ((w & 0xc0ff0000u) != (0x80000000u | type << 16) || ((w & 0xffff) + 1) * 4 != len) return 0;
    return body_of(s, w, len, least);
}

/* ---- reading ---- */

/* The low 24 bits as a signed number. */
static inline int32_t loss_of(uint32_t w) { return (int32_t)(w << 8) >> 8; }

static inline void list(const uint8_t *restrict s, uint8_t *restrict fractions, int32_t *restrict losses, uint32_t *restrict words, size_t n) {
    for (size_t i = 0; i < n; i++, s += 24, words += 5) {
        uint64_t h = load64(s), m = turned(load64(s + 8)), t = turned(load64(s + 16));
        words[0] = (uint32_t)(h >> 32);
        fractions[i] = (uint8_t)(h >> 24);
        losses[i] = loss_of((uint32_t)h);
        memcpy(words + 1, &m, 8);
        memcpy(words + 3, &t, 8);
    }
}

struct RtcpSr rtcp_sr_read(const uint8_t *s, size_t len, uint8_t *fractions, size_t n_fractions, int32_t *losses, size_t n_losses,
                           uint32_t *words, size_t n_words) {
    if (LIKELY(len >= 28)) {
        uint32_t w = load32(s);
        size_t n = w >> 24 & 31, end = 28 + 24 * n, body = headed(s, w, 200, len, 28);
        if (LIKELY(end <= body && n <= n_fractions && n <= n_losses && 5 * n <= n_words)) {
            list(s + 28, fractions, losses, words, n);
            return (struct RtcpSr){0, 0, 0, load32(s + 4), load64(s + 8), load32(s + 16), load32(s + 20), load32(s + 24), n, end, body - end, body, len - body};
        }
    }
    return (struct RtcpSr){.number = 99};
}

struct RtcpRr rtcp_rr_read(const uint8_t *s, size_t len, uint8_t *fractions, size_t n_fractions, int32_t *losses, size_t n_losses,
                           uint32_t *words, size_t n_words) {
    if (LIKELY(len >= 8)) {
        uint32_t w = load32(s);
        size_t n = w >> 24 & 31, end = 8 + 24 * n, body = headed(s, w, 201, len, 8);
        if (LIKELY(end <= body && n <= n_fractions && n <= n_losses && 5 * n <= n_words)) {
            list(s + 8, fractions, losses, words, n);
            return (struct RtcpRr){0, 0, 0, load32(s + 4), n, end, body - end, body, len - body};
        }
    }
    return (struct RtcpRr){.number = 99};
}

static inline int scan(const uint8_t *s, size_t end, size_t n, int *cname) {
    size_t at = 4;
    for (; n != 0; n--) {
        if (end - at < 8) return 0;
        at += 4;
        while (s[at] != 0) { /* at < end - 1 here */
            size_t l = s[at + 1];
            if (s[at] == 8 && (l == 0 || at + 2 == end || s[at + 2] >= l)) return 0;
            *cname |= s[at] == 1;
            at += 2 + l;
            if (at > end - 1) return 0;
            if (at == end - 1) {
                if (s[at] != 0) return 0;
                break;
            }
        }
        for (size_t up = (at | 3) + 1; at < up; at++)
            if (s[at] != 0) return 0;
    }
    return at == end;
}

struct RtcpWritten rtcp_sdes_items(const uint8_t *s, size_t len, uint32_t *rows, size_t room) {
    uint32_t *r = rows, w = len < 4 ? 0 : load32(s);
    size_t n = w >> 24 & 31, at = 4, body = headed(s, w, 202, len, 4);
    int cname = 0;
    if (!LIKELY(body != 0 && body / 2 * 5 <= room && scan(s, body, n, &cname))) return (struct RtcpWritten){.number = 99};
    for (; n != 0; n--) {
        uint32_t ssrc = load32(s + at);
        for (at += 4; s[at] != 0; r += 5) {
            uint32_t l = s[at + 1], p = s[at] == 8 ? s[at + 2] : 0, skip = s[at] == 8 ? 1 + p : 0;
            r[0] = ssrc, r[1] = s[at], r[2] = (uint32_t)at + 2 + skip, r[3] = p, r[4] = l - skip;
            at += 2 + l;
        }
        r[0] = ssrc, r[1] = 0, r[2] = (uint32_t)at, r[3] = 0, r[4] = 0;
        r += 5;
        at = (at | 3) + 1;
    }
    return (struct RtcpWritten){0, 0, 0, (size_t)(r - rows)};
}

/* Answers the SSRCs, from the first that has no answer on, that chunk k is the first to name; the first that has none after that. */
static inline size_t answer(uint32_t ssrc, size_t k, const uint32_t *ssrcs, size_t n, uint8_t *answers, size_t first) {
    for (size_t i = first; i < n; i++)
        if (ssrcs[i] == ssrc && answers[i] == RTCP_NO_CHUNK) answers[i] = (uint8_t)k;
    while (first < n && answers[first] != RTCP_NO_CHUNK) first++;
    return first;
}

struct RtcpLookup rtcp_sdes_lookup(const uint8_t *s, size_t len, const uint32_t *ssrcs, size_t n, uint8_t *answers, size_t room) {
    uint32_t w = len < 4 ? 0 : load32(s);
    size_t count = w >> 24 & 31, at = 4, k = 0, first = 0, body = headed(s, w, 202, len, 4);
    int cname = 0;
    if (!LIKELY(n <= room && body != 0 && scan(s, body, count, &cname))) return (struct RtcpLookup){.number = 99};
    for (size_t i = 0; i < n; i++) answers[i] = RTCP_NO_CHUNK;
    for (; k < count && first < n; k++) {
        uint32_t ssrc = load32(s + at);
        cname = 0;
        for (at += 4; s[at] != 0; at += 2 + s[at + 1]) cname |= s[at] == 1;
        at = (at | 3) + 1;
        if (cname) first = answer(ssrc, k, ssrcs, n, answers, first);
    }
    return (struct RtcpLookup){0, 0, 0, k};
}

static inline int packet_is_right(const uint8_t *s, uint32_t w, size_t len, int *cname) {
    size_t n = w >> 24 & 31;
    uint32_t type = w >> 16 & 255;
    if (type == 201) return 8 + 24 * n <= (len < 8 ? 0 : body_of(s, w, len, 8));
    if (type == 200) return 28 + 24 * n <= (len < 28 ? 0 : body_of(s, w, len, 28));
    size_t body = body_of(s, w, len, 4);
    return type == 202 && body != 0 && scan(s, body, n, cname);
}

struct RtcpWritten rtcp_compound_packets(const uint8_t *s, size_t len, uint64_t *p, size_t room) {
    uint64_t n = 0;
    int cname = 0;
    for (size_t at = 0; at < len; n += 3) {
        if (len - at < 4) return (struct RtcpWritten){.number = 99};
        uint32_t w = load32(s + at);
        size_t l = ((w & 0xffff) + 1) * 4;
        if (w >> 30 != 2 || len - at < l || ((w & PADDED) != 0 && len - at != l) || (at == 0 && (w >> 16 & 0xfe) != 200) ||
            !packet_is_right(s + at, w, l, &cname))
            return (struct RtcpWritten){.number = 99};
        at += l;
    }
    if (!cname || room < n) return (struct RtcpWritten){.number = 99};
    for (size_t at = 0; at < len; p += 3) {
        uint32_t w = load32(s + at);
        p[0] = w >> 16 & 255, p[1] = at, p[2] = ((w & 0xffff) + 1) * 4;
        at += p[2];
    }
    return (struct RtcpWritten){0, 0, 0, n};
}

/* ---- reception figures ---- */

/* The text of RFC 3550 A.1, with the successor in probation modulo 65,536. */
static inline void init_seq(struct RtcpReception *s, uint16_t seq) {
    s->base_seq = seq;
    s->max_seq = seq;
    s->bad_seq = 65536 + 1;
    s->cycles = 0;
    s->received = 0;
    s->received_prior = 0;
    s->expected_prior = 0;
}

static inline int in_probation(struct RtcpReception *s, uint16_t seq, uint16_t udelta) {
    s->max_seq = seq;
    s->probation = udelta == 1 ? s->probation - 1 : 1;
    if (s->probation != 0) return 0;
    init_seq(s, seq);
    s->received++;
    return 1;
}

static inline int update_seq(struct RtcpReception *s, uint16_t seq) {
    uint16_t udelta = (uint16_t)(seq - s->max_seq);
    if (s->probation != 0) return in_probation(s, seq, udelta);
    if (LIKELY(udelta < 3000)) {
        if (seq < s->max_seq) s->cycles += 65536;
        s->max_seq = seq;
    } else if (udelta <= 65536 - 100) {
        if (seq != s->bad_seq) {
            s->bad_seq = (seq + 1u) & 65535;
            return 0;
        }
        init_seq(s, seq);
    }
    s->received++;
    return 1;
}

struct RtcpReception rtcp_reception_new(uint16_t seq) {
    struct RtcpReception s = {.probation = 2};
    init_seq(&s, seq);
    s.max_seq--;
    return s;
}

/* A.8 */
struct RtcpReceptionUpdate rtcp_reception_update(struct RtcpReception s, uint16_t seq, uint32_t timestamp, uint32_t arrival) {
    uint32_t starts = s.probation, transit = arrival - timestamp, d = transit - s.transit;
    if (!update_seq(&s, seq)) return (struct RtcpReceptionUpdate){s, 0};
    s.transit = transit;
    if ((int32_t)d < 0) d = -d;
    if (LIKELY(starts == 0)) s.jitter += d - ((s.jitter + 8) >> 4);
    return (struct RtcpReceptionUpdate){s, 1};
}

static inline uint32_t fraction_of(int32_t lost, uint32_t expected) {
    if (expected == 0 || lost <= 0) return 0;
    uint64_t fraction = ((uint64_t)lost << 8) / expected;
    return fraction > 255 ? 255 : (uint32_t)fraction;
}

static inline int32_t clamped(int32_t lost) {
    if (lost > RTCP_MAX_LOST) return RTCP_MAX_LOST;
    return lost < RTCP_MIN_LOST ? RTCP_MIN_LOST : lost;
}

/* A.3 */
struct RtcpReceptionBlock rtcp_reception_report_block(struct RtcpReception s, uint32_t ssrc, uint32_t last_sr, uint32_t delay) {
    if (s.probation != 0) return (struct RtcpReceptionBlock){.reception = s, .in_probation = 1};
    uint32_t extended_max = s.cycles + s.max_seq, expected = extended_max - s.base_seq + 1;
    uint32_t expected_interval = expected - s.expected_prior, received_interval = s.received - s.received_prior;
    uint32_t fraction = fraction_of((int32_t)(expected_interval - received_interval), expected_interval);
    s.expected_prior = expected;
    s.received_prior = s.received;
    return (struct RtcpReceptionBlock){
        s, 0, {0, 0, 0, ssrc, fraction, clamped((int32_t)(expected - s.received)), extended_max, s.jitter >> 4, last_sr, delay}};
}

/* ---- walks ---- */

/* The end of the chunk at the start of the bytes, 0 where it is refused; cname is left as the place of its first CNAME. */
static inline size_t chunk_end(const uint8_t *s, size_t end, uint64_t *cname) {
    size_t at = 4;
    if (end < 8) return 0;
    while (s[at] != 0) { /* at < end - 1 here */
        size_t l = s[at + 1];
        if (s[at] == 8 && (l == 0 || at + 2 == end || s[at + 2] >= l)) return 0;
        if (s[at] == 1 && *cname == 0) *cname = at;
        at += 2 + l;
        if (at > end - 1) return 0;
        if (at == end - 1) {
            if (s[at] != 0) return 0;
            break;
        }
    }
    for (size_t up = (at | 3) + 1; at < up; at++)
        if (s[at] != 0) return 0;
    return at;
}

struct RtcpItemStep rtcp_item_walk_step(const uint8_t *s, size_t len, uint64_t at) {
    if (!LIKELY(len > at && len - 1 > at && s[at] != 0 && at + 2 + s[at + 1] <= len)) return (struct RtcpItemStep){.number = 99, .at = at};
    uint64_t l = s[at + 1], next = at + 2 + l;
    if (LIKELY(s[at] != 8)) return (struct RtcpItemStep){0, 0, 0, s[at], l, at + 2, 0, at + 2, l, next};
    if (l == 0 || s[at + 2] >= l) return (struct RtcpItemStep){.number = 99, .at = at};
    uint64_t p = s[at + 2];
    return (struct RtcpItemStep){0, 0, 0, 8, l, at + 3, p, at + 3 + p, l - 1 - p, next};
}

struct RtcpChunkWalk rtcp_chunk_walk_open(const uint8_t *s, size_t len) {
    uint32_t w = len < 4 ? 0 : load32(s);
    size_t body = headed(s, w, 202, len, 4);
    int cname = 0;
    if (!LIKELY(body != 0 && scan(s, body, w >> 24 & 31, &cname))) return (struct RtcpChunkWalk){.number = 99};
    return (struct RtcpChunkWalk){0, 0, 0, 4, body};
}

struct RtcpChunkStep rtcp_chunk_walk_step(const uint8_t *s, size_t len, uint64_t at, uint64_t end) {
    size_t limit = len < 262144 ? len : 262144;
    uint64_t cname = 0, size = at < limit && at < end ? chunk_end(s + at, limit - at, &cname) : 0;
    if (size == 0) return (struct RtcpChunkStep){.number = 99, .at = at, .end = end};
    return (struct RtcpChunkStep){0, 0, 0, load32(s + at), size, cname, at + size, end};
}

struct RtcpBlock rtcp_block_parse(const uint8_t *s, size_t len) {
    if (len < 24) return (struct RtcpBlock){.number = 99};
    return (struct RtcpBlock){0, 0, 0, load32(s), s[4], loss_of(load32(s + 4)), load32(s + 8), load32(s + 12), load32(s + 16), load32(s + 20)};
}

static inline int framed(const uint8_t *s, size_t left, int first, uint32_t *w, size_t *len) {
    if (left < 4) return 0;
    *w = load32(s);
    *len = ((*w & 0xffff) + 1) * 4;
    return *w >> 30 == 2 && *len <= left && ((*w & PADDED) == 0 || *len == left) && (!first || (*w >> 16 & 0xfe) == 200);
}

struct RtcpWalk rtcp_walk_open(const uint8_t *s, size_t len) {
    int cname = 0;
    uint32_t w;
    for (size_t at = 0, l; at < len; at += l)
        if (!framed(s + at, len - at, at == 0, &w, &l) || !packet_is_right(s + at, w, l, &cname)) return (struct RtcpWalk){.number = 99};
    return (struct RtcpWalk){.number = cname ? 0 : 99};
}

struct RtcpStep rtcp_walk_step(const uint8_t *s, size_t len, uint64_t at) {
    uint32_t w;
    size_t l;
    int cname = 0;
    if (at >= len || !framed(s + at, len - at, at == 0, &w, &l) || !packet_is_right(s + at, w, l, &cname))
        return (struct RtcpStep){.number = 99, .at = at};
    struct RtcpStep p = {.kind = w >> 16 & 255, .packet_type = w >> 16 & 255, .count = w >> 24 & 31, .offset = at, .len = l, .at = at + l};
    s += at;
    p.body = body_of(s, w, l, 4);
    p.padding_len = l - p.body;
    if (p.kind == 202) {
        p.has_cname = (uint64_t)cname;
        return p;
    }
    p.ssrc = load32(s + 4);
    p.extension = (p.kind == 200 ? 28 : 8) + 24 * p.count;
    if (p.kind == 200) p.ntp_timestamp = load64(s + 8), p.rtp_timestamp = load32(s + 16), p.packet_count = load32(s + 20), p.octet_count = load32(s + 24);
    return p;
}

/* ---- writing ---- */

/* With 2^23 added, a loss that fits has no bit above the lowest 24. */
static inline int fit(const int32_t *losses, size_t n) {
    uint32_t all = 0;
    for (size_t i = 0; i < n; i++) all |= (uint32_t)losses[i] + 0x800000;
    return all <= 0xffffff;
}

static inline void lay(uint8_t *restrict p, const uint8_t *restrict fractions, const int32_t *restrict losses, const uint32_t *restrict words, size_t n) {
    for (size_t i = 0; i < n; i++, p += 24, words += 5) {
        uint64_t m, t;
        memcpy(&m, words + 1, 8);
        memcpy(&t, words + 3, 8);
        store64(p, (uint64_t)words[0] << 32 | (uint32_t)losses[i]);
        p[4] = fractions[i]; /* in place of the bits above the loss's 24 */
        store64(p + 8, turned(m));
        store64(p + 16, turned(t));
    }
}

static inline int padding_is_right(uint64_t padding) { return padding <= 252 && padding % 4 == 0; }

static inline void pad(uint8_t *end, uint64_t padding) {
    if (LIKELY(padding == 0)) return;
    memset(end - padding, 0, padding - 1);
    end[-1] = (uint8_t)padding;
}

#define BLOCKS const uint8_t *fractions, size_t n, const int32_t *losses, size_t n_losses, const uint32_t *words, size_t n_words
#define BLOCKS_FIT (n == n_losses && 5 * n == n_words && n <= 31 && fit(losses, n))

struct RtcpWritten rtcp_rr_write(uint8_t *buf, size_t room, uint32_t ssrc, BLOCKS, uint64_t padding) {
    size_t size = 8 + 24 * n + padding;
    if (!LIKELY(padding_is_right(padding) && BLOCKS_FIT && size <= room)) return (struct RtcpWritten){.number = 99};
    store64(buf, (uint64_t)head(201, n, size, padding) << 32 | ssrc);
    pad(buf + size, padding);
    lay(buf + 8, fractions, losses, words, n);
    return (struct RtcpWritten){0, 0, 0, size};
}

struct RtcpWritten rtcp_sr_write(uint8_t *buf, size_t room, uint32_t ssrc, uint64_t ntp, uint32_t rtp, uint32_t packets, uint32_t octets, BLOCKS,
                                 uint64_t padding) {
    size_t size = 28 + 24 * n + padding;
    if (!LIKELY(padding_is_right(padding) && BLOCKS_FIT && size <= room)) return (struct RtcpWritten){.number = 99};
    store64(buf, (uint64_t)head(200, n, size, padding) << 32 | ssrc);
    pad(buf + size, padding);
    store64(buf + 8, ntp);
    store32(buf + 16, rtp);
    store32(buf + 20, packets);
    store32(buf + 24, octets);
    lay(buf + 28, fractions, losses, words, n);
    return (struct RtcpWritten){0, 0, 0, size};
}

static inline void text(uint8_t *d, const uint8_t *s, size_t n) {
    if (n > 32) {
        memcpy(d, s, n);
    } else if (n >= 8) {
        if (n > 16) {
            memcpy(d + 8, s + 8, 8);
            memcpy(d + n - 16, s + n - 16, 8);
        }
        memcpy(d, s, 8);
        memcpy(d + n - 8, s + n - 8, 8);
    } else if (n >= 4) {
        memcpy(d, s, 4);
        memcpy(d + n - 4, s + n - 4, 4);
    } else if (n != 0) {
        d[0] = s[0];
        d[n / 2] = s[n / 2];
        d[n - 1] = s[n - 1];
    }
}

#define CHUNKS                                                                                                                                  \
    const uint32_t *ssrcs, size_t nc, const uint64_t *counts, size_t n_counts, const uint8_t *types, size_t nt, const uint64_t *prefixes,       \
        size_t np, const uint64_t *values, size_t nv, const uint8_t *bytes, size_t nb

static inline int lists_fit(CHUNKS) {
    uint64_t left = nt, high = 0, sum = 0;
    (void)ssrcs, (void)bytes;
    if (((nc ^ n_counts) | (nt ^ np) | (nt ^ nv)) != 0 || nc > 31 || nt > 65536 || nb > 65536) return 0;
    for (size_t k = 0; k < nc; k++) {
        if (left < counts[k]) return 0;
        left -= counts[k];
    }
    for (size_t i = 0; i < nt; i++) {
        high |= values[i] | prefixes[i];
        sum += values[i] + prefixes[i];
        if ((types[i] & 0xf7) == 0 && (types[i] == 0 || prefixes[i] > 254 || values[i] > 254 - prefixes[i])) return 0;
    }
    return left == 0 && high >> 8 == 0 && sum == nb;
}

struct RtcpWritten rtcp_sdes_write(uint8_t *buf, size_t room, CHUNKS, uint64_t padding) {
    uint8_t *p = buf + 4;
    size_t size;
    if (!LIKELY(padding_is_right(padding) && 504 + 3 * nt + nb <= room && lists_fit(ssrcs, nc, counts, n_counts, types, nt, prefixes, np, values, nv, bytes, nb)))
        return (struct RtcpWritten){.number = 99};
    for (size_t k = 0; k < nc; k++) {
        store32(p, ssrcs[k]);
        p += 4;
        for (uint64_t c = counts[k]; c != 0; c--) {
            size_t v = *values++, f = *prefixes++;
            p[0] = *types++;
            if (p[0] == 8) {
                p[1] = (uint8_t)(1 + f + v);
                p[2] = (uint8_t)f;
                text(p + 3, bytes, f + v);
                p += 3 + f;
            } else {
                p[1] = (uint8_t)v;
                text(p + 2, bytes + f, v);
                p += 2;
            }
            p += v;
            bytes += f + v;
        }
        do *p++ = 0;
        while (((p - buf) & 3) != 0);
    }
    size = (size_t)(p - buf) + padding;
    store32(buf, head(202, nc, size, padding));
    pad(buf + size, padding);
    return (struct RtcpWritten){0, 0, 0, size};
}

void rtcp_writer_new(struct RtcpWriter *w) { *w = (struct RtcpWriter){0, 0, 0, 0}; }

struct RtcpCall rtcp_writer_add_rr(struct RtcpWriter *w, uint8_t *buf, size_t room, uint32_t ssrc, BLOCKS, uint64_t padding) {
    if (!LIKELY((w->closed | w->padded) == 0 && w->length <= room)) return (struct RtcpCall){.number = 99};
    struct RtcpWritten r = rtcp_rr_write(buf + w->length, room - w->length, ssrc, fractions, n, losses, n_losses, words, n_words, padding);
    if (r.number == 0) w->padded = padding != 0;
    w->length += r.size;
    return (struct RtcpCall){.number = r.number};
}

struct RtcpCall rtcp_writer_add_sdes(struct RtcpWriter *w, uint8_t *buf, size_t room, CHUNKS, uint64_t padding) {
    if (!LIKELY((w->closed | w->padded) == 0 && w->length != 0 && w->length <= room)) return (struct RtcpCall){.number = 99};
    struct RtcpWritten r =
        rtcp_sdes_write(buf + w->length, room - w->length, ssrcs, nc, counts, n_counts, types, nt, prefixes, np, values, nv, bytes, nb, padding);
    for (size_t i = 0; i < nt && w->cname == 0 && r.number == 0; i++) w->cname = types[i] == 1;
    if (r.number == 0) w->padded = padding != 0;
    w->length += r.size;
    return (struct RtcpCall){.number = r.number};
}

struct RtcpCall rtcp_writer_close(struct RtcpWriter *w) {
    if (w->closed != 0 || w->cname == 0) return (struct RtcpCall){.number = 99};
    w->closed = 1;
    return (struct RtcpCall){0, 0, 0};
}
