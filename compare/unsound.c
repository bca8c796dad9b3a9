/* unsound BOX: every reading of the box that is full has each of its cells, counts and singles changed by itself (one less, one more, zero, one, two, the source's length and one more, the largest
   number), each slot of its indexes too, every two slots exchanged, and the sizes of tables and indexes; and validate's 44 is held against a test of soundness that is written here from the rules and knows nothing of the library's. Prints `changed N, differences M`. */
#include "lent.h"
#include <string.h>

static int place(uint32_t from, uint32_t to) { return from <= to && to <= len; }

static int given(const uint32_t *x, int places) {
    if (x[0] > 1) return 0;
    for (int i = 0; i < places; i++) {
        if (x[0] == 0 && (x[1 + 2 * i] || x[2 + 2 * i])) return 0;
        if (x[0] == 1 && !place(x[1 + 2 * i], x[2 + 2 * i])) return 0;
    }
    return 1;
}

static int row(int k, const uint32_t *x, uint32_t rules) {
    switch (k) {
    case 1: return place(x[0], x[1]) && x[2] <= 1;
    case 2: return place(x[0], x[1]) && x[3] >= 1 && x[3] <= 3;
    case 3: case 4: return place(x[0], x[1]);
    case 5: return place(x[0], x[1]) && place(x[2], x[3]) && place(x[4], x[5]);
    case 6: case 9: return (x[0] == 1 || x[0] == 2) && place(x[1], x[2]);
    case 7: return place(x[0], x[1]) && given(x + 2, 1);
    case 8: return x[0] < rules && place(x[1], x[2]) && given(x + 5, 1) && given(x + 8, 2);
    default: return x[0] >= 20 && x[0] <= 27 && place(x[1], x[2]) && place(x[3], x[4]);
    }
}

static int twice(int k) {
    for (uint32_t i = 0; i < o[3 + k]; i++)
        for (uint32_t j = 0; j < i; j++) {
            uint32_t *a = t[k] + width[k] * i, *b = t[k] + width[k] * j;
            if (a[1] - a[0] == b[1] - b[0] && !memcmp(src + a[0], src + b[0], a[1] - a[0])) return 1;
        }
    return 0;
}

static int single(const uint32_t *x, int skip, int places) {
    for (int i = 0; i < places; i++)
        if (x[0] && !place(x[1 + skip + 2 * i], x[2 + skip + 2 * i])) return 0;
    return 1;
}

static uint32_t hash(uint32_t from, uint32_t to) {
    uint64_t h = 5381;
    for (uint32_t i = from; i < to; i++) h = (33 * h + src[i]) % 4294967296u;
    return (uint32_t)h;
}

/* What entering the rows of table 1 or 7 in order gives, in `size` slots; the places of their names lie in the source. */
static uint32_t *entered(int k, size_t size) {
    uint32_t *made = calloc(size, sizeof *made);
    for (uint32_t i = 0; i < o[3 + k]; i++) {
        uint32_t *x = t[k] + (size_t)width[k] * i;
        size_t at = hash(x[0], x[1]) % size;
        while (made[at]) at = at + 1 < size ? at + 1 : 0;
        made[at] = i + 1;
    }
    return made;
}

static int is_indexed(int k) {
    if (m[k] == 0 || (m[k] & (m[k] - 1)) || m[k] < 2 * (n[k] / width[k])) return 0;
    uint32_t *right = entered(k, m[k]);
    int same = !memcmp(right, ix[k], m[k] * sizeof *right);
    free(right);
    return same;
}

/* The row of table 1 or 7 that has the name of a symbol, looked for from the first on. */
static uint32_t row_of(const uint32_t *x) {
    int k = x[0] == 1 ? 7 : 1;
    for (uint32_t i = 0; i < o[3 + k]; i++) {
        uint32_t *a = t[k] + (size_t)width[k] * i;
        if (a[1] - a[0] == x[2] - x[1] && !memcmp(src + a[0], src + x[1], a[1] - a[0])) return i;
    }
    return 4294967295u;
}

static int is_sound(void) {
    if (len > 65536) return 0;
    for (int k = 1; k <= 10; k++) {
        if (o[3 + k] > n[k] / width[k]) return 0;
        for (size_t i = (size_t)o[3 + k] * width[k]; i < n[k]; i++) if (t[k][i]) return 0;
        for (uint32_t i = 0; i < o[3 + k]; i++) if (!row(k, t[k] + (size_t)width[k] * i, o[10])) return 0;
    }
    if (twice(1) || twice(7) || !is_indexed(1) || !is_indexed(7)) return 0;
    for (uint32_t i = 0; i < o[12]; i++) if (t[9][4 * (size_t)i + 3] != row_of(t[9] + 4 * (size_t)i)) return 0;
    uint32_t at = 0;
    for (uint32_t i = 0; i < o[11]; i++) {
        uint32_t *x = t[8] + 13 * (size_t)i;
        if (x[3] != at || x[4] < at) return 0;
        at = x[4];
    }
    if (at != o[12]) return 0;
    return single(o + 14, 0, 1) && single(o + 17, 2, 1) && single(o + 22, 2, 1) && single(o + 27, 0, 2) && single(o + 32, 0, 1) && single(o + 35, 0, 1);
}

static unsigned long changed, wrong, refused;

static void ask(const char *what, int k, size_t i) {
    uint32_t v[QUILTRUDDER_VALIDITY_CELLS];
    quiltrudder_validate(src, len, o, TABLES, v);
    int s = is_sound();
    changed++;
    refused += !s;
    if ((v[0] == 44) != !s) {
        if (wrong++ < 10) printf("differs: %s %d cell %zu, validate %u, sound %d\n", what, k, i, v[0], s);
    }
}

static void each(uint32_t *cell, const char *what, int k, size_t i) {
    uint32_t was = *cell, to[9] = {was - 1, was + 1, 0, 1, 2, 3, len, len + 1, 4294967295u};
    for (int j = 0; j < 9; j++) {
        if (to[j] == was) continue;
        *cell = to[j];
        ask(what, k, i);
    }
    *cell = was;
}

/* The slots of an index, one by one and two by two, and its size. */
static void slots(int k) {
    size_t was = m[k];
    for (size_t i = 0; i < was; i++) each(ix[k] + i, "slot of", k, i);
    for (size_t i = 0; i < was; i++)
        for (size_t j = 0; j < i; j++) {
            uint32_t a = ix[k][i], b = ix[k][j];
            if (a == b) continue;
            ix[k][i] = b;
            ix[k][j] = a;
            ask("slots of", k, i);
            ix[k][i] = a;
            ix[k][j] = b;
        }
    size_t sizes[] = {0, 1, was - 1, was + 1, was / 2, was / 4, was * 2};
    for (size_t i = 0; i < sizeof sizes / sizeof *sizes; i++) { m[k] = sizes[i]; ask("size of index", k, sizes[i]); }
    m[k] = was;
}

int main(int argc, char **argv) {
    FILE *f = argc > 1 ? fopen(argv[1], "rb") : NULL;
    if (!f) return 2;
    for (int k = 1; k <= 10; k++) t[k] = malloc(4 * (size_t)width[k] * 2000);
    uint8_t *s;
    int kind;
    unsigned long full = 0;
    while ((kind = next_input(f, &s)) >= 0) {
        for (int k = 1; k <= 10; k++) n[k] = (size_t)width[k] * 1000;
        lend_indexes();
        quiltrudder_load(src, len, kind, ALL_TABLES, o);
        if (!is_fatal() && len < 2000) {
            full++;
            for (int k = 1; k <= 10; k++) n[k] = (size_t)width[k] * (o[3 + k] + 1) + 1;
            ask("as read", 0, 0);
            /* an index as small as the tables allow, with as many zeros behind it, so that a larger one can be lent too */
            for (int k = 1; k <= 7; k += 6) {
                m[k] = QUILTRUDDER_SLOTS(n[k] / width[k]);
                uint32_t *small = entered(k, m[k]);
                free(ix[k]);
                ix[k] = calloc(2 * m[k], sizeof **ix);
                memcpy(ix[k], small, m[k] * sizeof **ix);
                free(small);
            }
            ask("small indexes", 0, 0);
            for (int k = 1; k <= 7; k += 6) slots(k);
            for (int k = 1; k <= 10; k++) {
                for (size_t i = 0; i < n[k]; i++) each(t[k] + i, "table", k, i);
                each(o + 3 + k, "count", k, 0);
                size_t was = n[k];
                for (size_t less = 0; less <= 3 && less <= was; less++) { n[k] = was - less * width[k] < was ? was - less * width[k] : 0; ask("length", k, n[k]); }
                n[k] = was;
            }
            for (int i = QUILTRUDDER_START; i < QUILTRUDDER_READING_LINE; i++) each(o + i, "single", 0, i);
        }
        free(s);
    }
    printf("%lu readings, %lu of their changes unsound\n", full, refused);
    printf("changed %lu, differences %lu\n", changed, wrong);
    return wrong != 0;
}
