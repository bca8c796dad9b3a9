/* What the comparison programs share: a source, the ten tables and two indexes that are lent, for a load also the three of kind 4, and the numbers of its reading. */
#ifndef LENT_H
#define LENT_H

#include "../include/quiltrudder.h"
#include <stdio.h>
#include <stdlib.h>
#include <string.h>

static const unsigned width[11] = {0, QUILTRUDDER_T1_WIDTH, QUILTRUDDER_T2_WIDTH, QUILTRUDDER_T3_WIDTH, QUILTRUDDER_T4_WIDTH, QUILTRUDDER_T5_WIDTH,
    QUILTRUDDER_T6_WIDTH, QUILTRUDDER_T7_WIDTH, QUILTRUDDER_T8_WIDTH, QUILTRUDDER_T9_WIDTH, QUILTRUDDER_T10_WIDTH};
static uint32_t *t[11];
static size_t n[11];
/* The indexes of tables 1 and 7, by those numbers. */
static uint32_t *ix[8];
static size_t m[8];
static uint32_t o[QUILTRUDDER_READING_CELLS];
/* Tables 15 to 17. */
static const unsigned posix_width[3] = {QUILTRUDDER_T15_WIDTH, QUILTRUDDER_T16_WIDTH, QUILTRUDDER_T17_WIDTH};
static uint32_t none[1], *posix[3] = {none, none, none};
static size_t posix_length[3];
static const uint8_t *src;
static uint32_t len;

#define TABLES t[1], n[1], t[2], n[2], t[3], n[3], t[4], n[4], t[5], n[5], t[6], n[6], t[7], n[7], t[8], n[8], t[9], n[9], t[10], n[10], ix[1], m[1], ix[7], m[7]
#define ALL_TABLES TABLES, posix[0], posix_length[0], posix[1], posix_length[1], posix[2], posix_length[2]

/* The next input of a box; its bytes are the caller's to free. Returns its kind, or -1 at the end. */
static int next_input(FILE *f, uint8_t **bytes) {
    uint8_t head[5];
    if (fread(head, 1, 5, f) != 5) return -1;
    len = head[1] | head[2] << 8 | head[3] << 16 | (uint32_t)head[4] << 24;
    *bytes = malloc(len + 1);
    if (fread(*bytes, 1, len, f) != len) exit(2);
    src = *bytes;
    return head[0];
}

/* As many slots as the tables' sizes ask for, full of rubbish. */
static void lend_indexes(void) {
    for (int k = 1; k <= 7; k += 6) {
        m[k] = QUILTRUDDER_SLOTS(n[k] / width[k]);
        free(ix[k]);
        ix[k] = malloc(m[k] * sizeof **ix);
        for (size_t i = 0; i < m[k]; i++) ix[k][i] = 0xdeadbeef;
    }
}

/* Whether the reading stopped early. */
static int is_fatal(void) { return (o[0] >= 1 && o[0] <= 19) || o[0] >= 40; }

#endif
