/* The comparison text of what a load left, on standard output: rows of tables and singles. */
#ifndef TEXT_H
#define TEXT_H

#include "lent.h"

/* A part of the source, in hexadecimal. */
static void text(const uint8_t *s, uint32_t from, uint32_t to) {
    putchar('x');
    for (uint32_t i = from; i < to; i++) printf("%02x", s[i]);
}

/* An `%epp` row with its value. */
static void epp(uint32_t row) {
    uint32_t *x = t[5] + 6 * row, a[QUILTRUDDER_VALUATION_CELLS];
    uint8_t *out = malloc(len + 1);
    quiltrudder_epp_value(src, len, o, TABLES, row, out, len, a);
    printf("t5 %u %u %u ", row, x[0], x[1]);
    text(src, x[2], x[3]);
    printf(" %u %u ", x[4], x[5]);
    if (a[0] == 0) text(out, 0, a[4]); else printf("refused %u", a[0]);
    printf("\n");
    free(out);
}

/* Every row of tables 1 to 9; a symbol with the row that it has, if that is asked. */
static void tables(int known) {
    for (uint32_t i = 0; i < o[4]; i++) { uint32_t *x = t[1] + 3 * i; printf("t1 %u %u %u %u ", i, x[0], x[1], x[2]); text(src, x[0], x[1]); printf("\n"); }
    for (uint32_t i = 0; i < o[5]; i++) { uint32_t *x = t[2] + 4 * i; printf("t2 %u %u %u %u %u ", i, x[0], x[1], x[2], x[3]); text(src, x[0], x[1]); printf("\n"); }
    for (int k = 3; k <= 4; k++)
        for (uint32_t i = 0; i < o[3 + k]; i++) { uint32_t *x = t[k] + 2 * i; printf("t%d %u %u %u ", k, i, x[0], x[1]); text(src, x[0], x[1]); printf("\n"); }
    for (uint32_t i = 0; i < o[8]; i++) epp(i);
    for (uint32_t i = 0; i < o[9]; i++) { uint32_t *x = t[6] + 3 * i; printf("t6 %u %u %u %u ", i, x[0], x[1], x[2]); text(src, x[1], x[2]); printf("\n"); }
    for (uint32_t i = 0; i < o[10]; i++) { uint32_t *x = t[7] + 5 * i; printf("t7 %u %u %u ", i, x[0], x[1]); text(src, x[0], x[1]); printf(" "); if (x[2]) text(src, x[3], x[4]); else printf("-"); printf("\n"); }
    for (uint32_t i = 0; i < o[11]; i++) {
        uint32_t *x = t[8] + 13 * i;
        printf("t8 %u %u %u %u %u %u ", i, x[0], x[1], x[2], x[3], x[4]);
        if (x[5]) text(src, x[6], x[7]); else printf("-");
        if (x[8]) { printf(" %u %u ", x[11], x[12]); text(src, x[9], x[10]); } else printf(" - - -");
        printf("\n");
    }
    for (uint32_t i = 0; i < o[12]; i++) { uint32_t *x = t[9] + QUILTRUDDER_T9_WIDTH * i; printf("t9 %u %u %u %u ", i, x[0], x[1], x[2]); text(src, x[1], x[2]); if (known && x[3] == QUILTRUDDER_NO_ROW) printf(" -"); else if (known) printf(" %u", x[3]); printf("\n"); }
}

/* A single that is a place, or none. */
static void part(const char *what, const uint32_t *x) {
    printf("%s ", what);
    if (x[0]) text(src, x[1], x[2]); else printf("-");
    printf("\n");
}

static void singles(void) {
    if (o[14]) { printf("start %u %u ", o[15], o[16]); text(src, o[15], o[16]); printf("\n"); } else printf("start - - -\n");
    for (int k = 0; k < 2; k++) {
        uint32_t *x = o + 17 + 5 * k;
        const char *what = k ? "expect-rr" : "expect";
        if (x[0]) printf("%s %llu %u %u\n", what, (unsigned long long)x[1] | (unsigned long long)x[2] << 32, x[3], x[4]); else printf("%s - - -\n", what);
    }
    if (o[27]) { printf("param "); text(src, o[28], o[29]); printf(" "); text(src, o[30], o[31]); printf("\n"); } else printf("param - -\n");
    part("generics", o + 32);
    part("programs", o + 35);
}

#endif
