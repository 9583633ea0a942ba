/* What the sides in C have in common. A side is a program of harness.c and one file that has `operations`, `setup` and `written`. */
#ifndef HARNESS_H
#define HARNESS_H

#include <stddef.h>
#include <stdint.h>

enum { ROOM = 1024, MOST = 31 };

/* A packet or datagram as it is read, with the numbers to write it from, which plain code in harness.c took from its bytes. */
struct Input {
    uint8_t bytes[ROOM];
    size_t len;
    uint32_t ssrc;
    uint64_t ntp;
    uint32_t rtp, packets, octets;
    uint8_t fractions[MOST];
    int32_t losses[MOST];
    uint32_t words[MOST * 5]; /* of a block: SSRC, sequence, jitter, last SR, delay */
    size_t n_blocks;
    uint32_t ssrcs[MOST];
    uint64_t counts[MOST];
    size_t n_chunks;
    uint8_t types[MOST];
    uint64_t prefixes[MOST], lengths[MOST]; /* of the prefix, which only PRIV has, and of the value */
    size_t n_items;
    uint8_t text[ROOM]; /* the prefix and the value of each item, one after the other */
    size_t text_len;
    uint64_t padding; /* of the last packet */
};

extern struct Input rrsdes, sr31, sdes31, padded, priv31;

/* A reading returns the sum of all fields; a writing, whose name starts with "write", how many bytes it wrote; a lookup, whose name starts with
   "lookup", the sum of each SSRC times the number, from 1, of the chunk that it is answered, the SSRCs being those of all chunks but the first.
   `input` is what it reads or must write; where it is null, nothing is held against it. Of a loss the low 32 bits are added. Some sides read it
   without a sign; no input has one below zero, so the sums agree. */
struct Operation {
    const char *name;
    uint64_t (*run)(void);
    const struct Input *input;
};

/* The side's operations, up to one without a name. */
extern const struct Operation operations[];

/* What a side does once, before the loop, for the operation's input. */
void setup(const struct Input *input);

/* The bytes of the last writing. */
const uint8_t *written(void);

#endif
