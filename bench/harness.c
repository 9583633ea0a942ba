/* Runs one operation of a side: SIDE INPUTS OPERATION N|time.
   N      runs it N times and prints its sum or size. Status 1: it was refused, or two runs differ; 3: the side has no such operation; 4: it read
          another sum than that of the input's fields, or wrote other bytes than the input's.
   time   prints the nanoseconds of one run, in the best of 63 batches. */
#define _POSIX_C_SOURCE 199309L
#include <stdio.h>
#include <stdlib.h>
#include <string.h>
#include <time.h>
#include "harness.h"

enum { BATCHES = 63, BATCH = 200 };

struct Input rrsdes, sr31, sdes31, padded, priv31;

static uint32_t word(const uint8_t *p) {
    return (uint32_t)p[0] << 24 | (uint32_t)p[1] << 16 | (uint32_t)p[2] << 8 | p[3];
}

static void take_report(struct Input *in, const uint8_t *p) {
    const uint8_t *block = p + 8;
    in->ssrc = word(p + 4);
    if (p[1] == 200) {
        in->ntp = (uint64_t)word(p + 8) << 32 | word(p + 12);
        in->rtp = word(p + 16);
        in->packets = word(p + 20);
        in->octets = word(p + 24);
        block = p + 28;
    }
    in->n_blocks = p[0] & 31;
    for (size_t i = 0; i < in->n_blocks; i++, block += 24) {
        uint32_t *words = in->words + 5 * i;
        in->fractions[i] = block[4];
        in->losses[i] = (int32_t)(word(block + 4) << 8) >> 8;
        words[0] = word(block);
        for (size_t k = 0; k < 4; k++) words[1 + k] = word(block + 8 + 4 * k);
    }
}

static void take_chunks(struct Input *in, const uint8_t *p) {
    const uint8_t *at = p + 4;
    in->n_chunks = p[0] & 31;
    for (size_t i = 0; i < in->n_chunks; i++) {
        in->ssrcs[i] = word(at);
        for (at += 4; *at != 0; at += 2 + at[1]) {
            size_t is_priv = at[0] == 8, prefix = is_priv ? at[2] : 0, both = at[1] - is_priv;
            in->types[in->n_items] = at[0];
            in->prefixes[in->n_items] = prefix;
            in->lengths[in->n_items] = both - prefix;
            memcpy(in->text + in->text_len, at + 2 + is_priv, both);
            in->text_len += both;
            in->n_items++;
            in->counts[i]++;
        }
        at += 4 - (size_t)(at - p) % 4;
    }
}

static void take_fields(struct Input *in) {
    for (size_t at = 0; at < in->len; at += 4 * ((size_t)in->bytes[at + 2] << 8 | in->bytes[at + 3]) + 4) {
        const uint8_t *p = in->bytes + at;
        if (p[1] == 202) take_chunks(in, p);
        else take_report(in, p);
        if ((p[0] & 0x20) != 0) in->padding = in->bytes[in->len - 1];
    }
}

static uint64_t sum_of(const struct Input *in) {
    uint64_t sum = in->ntp + in->ssrc + in->rtp + in->packets + in->octets;
    const uint8_t *value = in->text;
    for (size_t i = 0; i < in->n_blocks; i++) sum += in->fractions[i] + (uint64_t)(uint32_t)in->losses[i];
    for (size_t i = 0; i < 5 * in->n_blocks; i++) sum += in->words[i];
    for (size_t i = 0; i < in->n_chunks; i++) sum += in->ssrcs[i];
    for (size_t i = 0; i < in->n_items; i++) {
        value += in->prefixes[i];
        sum += in->types[i] + in->lengths[i] + value[0];
        value += in->lengths[i];
    }
    return sum;
}

static uint64_t lookup_sum_of(const struct Input *in) {
    uint64_t sum = 0;
    for (size_t i = 1; i < in->n_chunks; i++) sum += (uint64_t)in->ssrcs[i] * (i + 1);
    return sum;
}

static struct Input *named(const char *name) {
    if (strcmp(name, "rrsdes") == 0) return &rrsdes;
    if (strcmp(name, "sr31") == 0) return &sr31;
    if (strcmp(name, "sdes31") == 0) return &sdes31;
    if (strcmp(name, "padded") == 0) return &padded;
    if (strcmp(name, "priv31") == 0) return &priv31;
    return NULL;
}

static int load(const char *path) {
    static char line[4 * ROOM];
    FILE *file = fopen(path, "r");
    int n = 0;
    if (file == NULL) return 0;
    while (fgets(line, sizeof line, file) != NULL) {
        char *hex = strchr(line, '\t');
        struct Input *in;
        unsigned byte;
        if (hex == NULL) continue;
        *hex++ = 0;
        in = named(line);
        if (in == NULL) continue;
        for (; in->len < ROOM && sscanf(hex, "%2x", &byte) == 1; hex += 2) in->bytes[in->len++] = (uint8_t)byte;
        take_fields(in);
        n++;
    }
    fclose(file);
    return n == 5;
}

static const struct Operation *find(const char *name) {
    for (const struct Operation *op = operations; op->name != NULL; op++)
        if (strcmp(op->name, name) == 0) return op;
    return NULL;
}

static double now(void) {
    struct timespec t;
    clock_gettime(CLOCK_MONOTONIC, &t);
    return 1e9 * (double)t.tv_sec + (double)t.tv_nsec;
}

/* The sums are added up, so that no run can be left out. */
static uint64_t repeat(const struct Operation *op, long n) {
    uint64_t total = 0;
    for (long i = 0; i < n; i++) total += op->run();
    return total;
}

static int print_time(const struct Operation *op) {
    double best = 0;
    uint64_t total = 0;
    for (int i = 0; i < BATCHES; i++) {
        double start = now(), taken;
        total += repeat(op, BATCH);
        taken = (now() - start) / BATCH;
        if (i == 0 || taken < best) best = taken;
    }
    if (total == 0) return 1;
    printf("%.2f\n", best);
    return 0;
}

static int is_right(const struct Operation *op, uint64_t once) {
    if (op->input == NULL) return 1;
    if (strncmp(op->name, "lookup", 6) == 0) return once == lookup_sum_of(op->input);
    if (strncmp(op->name, "write", 5) != 0) return once == sum_of(op->input);
    return once == op->input->len && memcmp(written(), op->input->bytes, op->input->len) == 0;
}

int main(int argc, char **argv) {
    const struct Operation *op;
    uint64_t once, total;
    long n;
    if (argc != 4) return 2;
    if (!load(argv[1])) return 2;
    op = find(argv[2]);
    if (op == NULL) return 3;
    setup(op->input);
    if (strcmp(argv[3], "time") == 0) return print_time(op);
    n = atol(argv[3]);
    once = op->run();
    total = repeat(op, n);
    if (once == 0 || total != once * (uint64_t)n) return 1;
    if (!is_right(op, once)) return 4;
    printf("%llu\n", (unsigned long long)once);
    return 0;
}
