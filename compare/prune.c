/* prune BOX: prunes every valid reading of a box by the C name and holds the result against a pruning that was written for this from document 02: rows found by their names and marked by a plain
   search, with no bit and no index but those that are compared. Then the pruned tables are validated, reported and pruned again. Prints the pruned tables as the comparison text has them, with the
   rows that stayed by their old numbers; what is wrong is told on standard error, with the counts. Tables, indexes and work words are lent full of rubbish. */
#include "text.h"

static long pruned, dropped, bad;

/* What a reading is: its numbers, tables and indexes. */
struct kept {
    uint32_t o[QUILTRUDDER_READING_CELLS], *t[11], *ix[8];
};

static void keep(struct kept *k) {
    memcpy(k->o, o, sizeof o);
    for (int i = 1; i <= 10; i++) memcpy(k->t[i] = malloc(4 * n[i] + 4), t[i], 4 * n[i]);
    for (int i = 1; i <= 7; i += 6) memcpy(k->ix[i] = malloc(4 * m[i] + 4), ix[i], 4 * m[i]);
}

static void let_go(struct kept *k) {
    for (int i = 1; i <= 10; i++) free(k->t[i]);
    for (int i = 1; i <= 7; i += 6) free(k->ix[i]);
}

static int same_reading(const struct kept *k) {
    int same = !memcmp(k->o, o, sizeof o);
    for (int i = 1; i <= 10; i++) same &= !memcmp(k->t[i], t[i], 4 * n[i]);
    for (int i = 1; i <= 7; i += 6) same &= !memcmp(k->ix[i], ix[i], 4 * m[i]);
    return same;
}

static void wrong(long index, const char *what) {
    if (bad++ < 10) fprintf(stderr, "input %ld: %s\n", index, what);
}

/* The row of table 1 or 7 that has a name, or -1. */
static long row_of(const struct kept *k, int table, uint32_t from, uint32_t to) {
    for (uint32_t i = 0; i < k->o[3 + table]; i++) {
        uint32_t *x = k->t[table] + width[table] * i;
        if (x[1] - x[0] == to - from && !memcmp(src + x[0], src + from, to - from)) return i;
    }
    return -1;
}

static void stay_rule(const struct kept *k, char *rules, char *tokens, uint32_t r) {
    if (rules[r]) return;
    rules[r] = 1;
    for (uint32_t p = 0; p < k->o[11]; p++) {
        uint32_t *x = k->t[8] + 13 * p;
        if (x[0] != r) continue;
        for (uint32_t s = x[3]; s < x[4]; s++) {
            uint32_t *y = k->t[9] + 4 * s;
            if (y[0] == 1) stay_rule(k, rules, tokens, row_of(k, 7, y[1], y[2])); else tokens[row_of(k, 1, y[1], y[2])] = 1;
        }
        if (x[5]) tokens[row_of(k, 1, x[6], x[7])] = 1;
    }
}

/* Which rows stay: from the start, from excused rules, what those use, and excused tokens. */
static void staying(const struct kept *k, char *rules, char *tokens) {
    long r;
    if (k->o[14] && (r = row_of(k, 7, k->o[15], k->o[16])) >= 0) stay_rule(k, rules, tokens, r);
    for (uint32_t i = 0; i < k->o[9]; i++) {
        uint32_t *x = k->t[6] + 3 * i;
        if (x[0] == 1 && (r = row_of(k, 7, x[1], x[2])) >= 0) stay_rule(k, rules, tokens, r);
        if (x[0] == 2 && (r = row_of(k, 1, x[1], x[2])) >= 0) tokens[r] = 1;
    }
    for (uint32_t i = 0; i < k->o[7]; i++) if ((r = row_of(k, 1, k->t[4][2 * i], k->t[4][2 * i + 1])) >= 0) tokens[r] = 1;
}

static uint32_t rank(const char *stays, uint32_t r) {
    uint32_t c = 0;
    for (uint32_t i = 0; i < r; i++) c += stays[i];
    return c;
}

/* What entering the rows in order gives (document 02, request Three). */
static void enter(uint32_t *slots, size_t size, const uint32_t *rows, unsigned w, uint32_t count) {
    memset(slots, 0, 4 * size);
    for (uint32_t r = 0; r < count; r++) {
        uint32_t h = 5381;
        for (uint32_t i = rows[w * r]; i < rows[w * r + 1]; i++) h = 33 * h + src[i];
        size_t at = h % size;
        while (slots[at]) at = (at + 1) % size;
        slots[at] = r + 1;
    }
}

/* The pruned reading, in the place of `k`. */
static void prune_plainly(struct kept *k, const char *rules, const char *tokens) {
    struct kept w = *k;
    uint32_t c[11] = {0};
    for (int i = 1; i <= 10; i++) w.t[i] = calloc(n[i] + 1, 4);
    for (int i = 1; i <= 10; i++)
        for (uint32_t r = 0; r < k->o[3 + i]; r++) {
            uint32_t *x = k->t[i] + width[i] * r, *y = w.t[i] + width[i] * c[i];
            long token = i == 3 || i == 5 ? row_of(k, 1, x[i == 3 ? 0 : 2], x[i == 3 ? 1 : 3]) : -1;
            if ((i == 1 && !tokens[r]) || (i == 7 && !rules[r]) || (i == 8 && !rules[x[0]]) || i == 9 || (token >= 0 && !tokens[token])) continue;
            memcpy(y, x, 4 * width[i]);
            c[i]++;
            if (i != 8) continue;
            y[0] = rank(rules, x[0]);
            y[3] = c[9];
            for (uint32_t s = x[3]; s < x[4]; s++, c[9]++) {
                uint32_t *z = w.t[9] + 4 * c[9];
                memcpy(z, k->t[9] + 4 * s, 16);
                z[3] = z[0] == 1 ? rank(rules, row_of(k, 7, z[1], z[2])) : rank(tokens, row_of(k, 1, z[1], z[2]));
            }
            y[4] = c[9];
        }
    for (int i = 1; i <= 10; i++) { free(k->t[i]); k->t[i] = w.t[i]; k->o[3 + i] = c[i]; }
    for (int i = 1; i <= 7; i += 6) enter(k->ix[i], m[i], k->t[i], width[i], c[i]);
}

/* The report of what stands in the tables, and its count. */
static uint32_t reported(long index, uint32_t *out, size_t rows) {
    uint32_t a[QUILTRUDDER_LISTING_CELLS], words = (o[10] + 31) / 32 + (o[4] + 31) / 32, *work = malloc(4 * (words + 1));
    quiltrudder_report(src, len, o, TABLES, work, words, out, 2 * rows, a);
    if (a[0]) wrong(index, "the report refuses");
    free(work);
    return a[4];
}

#define PRUNE(work, words, a) quiltrudder_prune(src, len, o, TABLES, work, words, a)

static void one(long index) {
    uint32_t rules = o[10], tokens = o[4], words = (rules + 31) / 32 + (tokens + 31) / 32, a[QUILTRUDDER_PRUNING_CELLS];
    struct kept was, want;
    char *keep_rule = calloc(rules + 1, 1), *keep_token = calloc(tokens + 1, 1);
    uint32_t *before = malloc(8 * (size_t)(rules + tokens + 1)), *after = malloc(8 * (size_t)(rules + tokens + 1)), *work = malloc(4 * (words + 1));
    uint32_t listed = reported(index, before, rules + tokens), left = 0;
    keep(&was);
    /* a word less: nothing changes but the bits */
    for (uint32_t i = 0; i < words; i++) work[i] = 0xdeadbeef;
    if (words) {
        PRUNE(work, words - 1, a);
        int zero = a[0] == 42 && a[1] == 0 && a[2] == 0 && a[3] == 11 && a[4] == 1 && a[5] == 1;
        for (uint32_t i = 0; i < words - 1; i++) zero &= work[i] == 0;
        if (!zero || !same_reading(&was)) wrong(index, "a word less is not refused, or changes something");
    }
    for (uint32_t i = 0; i < words; i++) work[i] = 0xdeadbeef;
    PRUNE(work, words, a);
    if (a[0] || a[1] || a[2] || a[3] || a[4] != 1 || a[5] != 1) wrong(index, "pruning refuses");
    staying(&was, keep_rule, keep_token);
    for (uint32_t i = 0; i < rules; i++) if ((work[i / 32] >> i % 32 & 1) != (uint32_t)keep_rule[i]) { wrong(index, "the bit of a rule"); break; }
    for (uint32_t i = 0; i < tokens; i++) if ((work[(rules + 31) / 32 + i / 32] >> i % 32 & 1) != (uint32_t)keep_token[i]) { wrong(index, "the bit of a token"); break; }
    keep(&want);
    struct kept plain = was;
    for (int i = 1; i <= 10; i++) memcpy(plain.t[i] = malloc(4 * n[i] + 4), was.t[i], 4 * n[i]);
    for (int i = 1; i <= 7; i += 6) plain.ix[i] = malloc(4 * m[i] + 4);
    prune_plainly(&plain, keep_rule, keep_token);
    if (!same_reading(&plain)) wrong(index, "pruned tables are not those of the plain pruning");
    /* they validate, and their report is the earlier one, limited and renumbered */
    uint32_t v[QUILTRUDDER_VALIDITY_CELLS];
    quiltrudder_validate(src, len, o, TABLES, v);
    if (v[0]) wrong(index, "pruned tables do not validate");
    for (uint32_t i = 0; i < listed; i++) {
        const char *stays = before[2 * i] == 1 ? keep_rule : keep_token;
        if (!stays[before[2 * i + 1]]) continue;
        before[2 * left] = before[2 * i];
        before[2 * left++ + 1] = rank(stays, before[2 * i + 1]);
    }
    if (reported(index, after, rules + tokens) != left || memcmp(before, after, 8 * (size_t)left)) wrong(index, "the report is not the earlier one limited and renumbered");
    /* once more changes nothing */
    uint32_t again = (o[10] + 31) / 32 + (o[4] + 31) / 32;
    PRUNE(work, again, a);
    if (a[0] || !same_reading(&want)) wrong(index, "pruning twice is not pruning once");
    printf("input %ld\nstays", index);
    for (uint32_t i = 0; i < rules; i++) if (keep_rule[i]) printf(" 1,%u", i);
    for (uint32_t i = 0; i < tokens; i++) if (keep_token[i]) printf(" 2,%u", i);
    printf("\ncounts");
    for (int k = 1; k <= 10; k++) printf(" %u", o[3 + k]);
    printf("\n");
    tables(0);
    singles();
    pruned++;
    dropped += rules - o[10] + tokens - o[4];
    let_go(&was);
    let_go(&want);
    let_go(&plain);
    free(keep_rule); free(keep_token); free(before); free(after); free(work);
}

int main(int argc, char **argv) {
    FILE *f = argc == 2 ? fopen(argv[1], "rb") : NULL;
    uint8_t *bytes;
    int kind;
    if (!f) return 2;
    for (long index = 0; (kind = next_input(f, &bytes)) >= 0; index++) {
        for (int k = 1; k <= 10; k++) {
            n[k] = (size_t)(len + 2) * width[k];
            t[k] = malloc(n[k] * sizeof **t);
        }
        lend_indexes();
        quiltrudder_load(src, len, kind, ALL_TABLES, o);
        uint32_t v[QUILTRUDDER_VALIDITY_CELLS];
        if (!is_fatal()) {
            quiltrudder_validate(src, len, o, TABLES, v);
            if (v[0] == 0) one(index);
        }
        for (int k = 1; k <= 10; k++) free(t[k]);
        free(bytes);
    }
    fprintf(stderr, "pruned %ld dropped %ld differences %ld\n", pruned, dropped, bad);
    return bad != 0;
}
