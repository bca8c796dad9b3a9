/* dump BOX [ROWS,..]: the comparison text of every input of a box, made from the C names of the library alone. ROWS are the rows lent for tables 1 to 10, one number for all or ten, or thirteen with those of tables 15 to 17;
   without them each table has a row for each byte. Tables and indexes are lent full of rubbish; a cell past a count that is not zero afterwards is told on standard error, and a slot
   that is taken by more or fewer rows than there are. Each report is walked row by row too, by the bits of the marking; a step that is not the report's is told in the text, where the comparison
   finds it. How many were walked is told on standard error. */
#include "text.h"

/* How many readings were walked. */
static long walked;

static void errors(void) {
    uint32_t *r = t[10], count = o[13];
    char *done = calloc(count + 1, 1);
    if (o[0] < 40 || o[0] == 42 || o[0] >= 50)
        for (uint32_t i = 0; i < count; i++) {
            if (done[i]) continue;
            printf("error %u %u %u", r[5 * i], r[5 * i + 1], r[5 * i + 2]);
            for (uint32_t j = i; j < count; j++)
                if (!done[j] && r[5 * j] == r[5 * i] && r[5 * j + 1] == r[5 * i + 1] && r[5 * j + 2] == r[5 * i + 2]) {
                    done[j] = 1;
                    printf(" %u %u", r[5 * j + 3], r[5 * j + 4]);
                }
            printf("\n");
        }
    free(done);
    if ((o[0] >= 1 && o[0] <= 19) || o[0] >= 50) printf("error %u %u %u\n", o[0], o[1], o[2]);
}

/* An answer at 0..0 is on line 1, column 1. */
static void begins(const char *what, const uint32_t *a) {
    if (a[1] || a[2] || a[QUILTRUDDER_COUNTED_LINE] != 1 || a[QUILTRUDDER_COUNTED_COLUMN] != 1) printf("%s at %u..%u, line %u, column %u\n", what, a[1], a[2], a[6], a[7]);
}

/* In a table with a row for each test, in one that has just enough, and in one that is a row short; each full of rubbish. */
static void faults(void) {
    size_t cells = QUILTRUDDER_FAULT_WIDTH * QUILTRUDDER_TESTS(o);
    uint32_t *t14 = malloc(4 * cells), *again = malloc(4 * cells), a[QUILTRUDDER_FAULTS_CELLS], b[QUILTRUDDER_FAULTS_CELLS];
    for (size_t i = 0; i < cells; i++) t14[i] = again[i] = 0xdeadbeef;
    quiltrudder_faults(src, len, o, TABLES, t14, cells, a);
    if (a[0]) printf("faults refused %u\n", a[0]);
    for (uint32_t i = 0; i < a[4]; i++) {
        uint32_t at[QUILTRUDDER_SPOT_CELLS];
        quiltrudder_locate(src, len, t14[3 * i + 1], at);
        printf("fault %u %u %u %u %u\n", t14[3 * i], t14[3 * i + 1], t14[3 * i + 2], at[0], at[1]);
    }
    begins("faults", a);
    for (size_t i = 3 * (size_t)a[4]; i < cells; i++) if (t14[i]) printf("fault cell %zu is not zero\n", i);
    quiltrudder_faults(src, len, o, TABLES, again, 3 * (size_t)a[4], b);
    if (memcmp(a, b, sizeof a) || memcmp(t14, again, 12 * (size_t)a[4])) printf("faults differ with just enough room\n");
    if (a[4]) {
        quiltrudder_faults(src, len, o, TABLES, again, 3 * (size_t)a[4] - 1, b);
        int wrong = b[0] != 42 || b[1] || b[2] || b[3] != 14 || b[4] || b[5] || b[6] != 1 || b[7] != 1;
        for (size_t i = 0; i < 3 * (size_t)a[4] - 1; i++) wrong |= again[i] != 0;
        if (wrong) printf("faults without room answer %u, table %u\n", b[0], b[3]);
    }
    free(t14);
    free(again);
}

/* The marking by itself gives the report's bits, and a walk by them the report's rows, and then the end three times with the record left. */
static void walk(const uint32_t *work, uint32_t words, const uint32_t *out, uint32_t rows) {
    uint32_t *bits = malloc(4 * (size_t)(words + 1)), a[QUILTRUDDER_MARKING_CELLS], b[QUILTRUDDER_NEXT_CELLS], at[QUILTRUDDER_STANDING_CELLS] = {0, 0}, left[2];
    for (uint32_t i = 0; i < words; i++) bits[i] = 0xdeadbeef;
    quiltrudder_mark(src, len, o, TABLES, bits, words, a);
    if (a[0] || a[1] || a[2] || a[3] || a[4] != 1 || a[5] != 1 || memcmp(bits, work, 4 * (size_t)words)) printf("the marking answers %u, or its bits are not the report's\n", a[0]);
    for (uint32_t i = 0; i < rows + 3; i++) {
        memcpy(left, at, sizeof at);
        quiltrudder_next_unused(src, len, o, TABLES, bits, words, at, b);
        int over = i >= rows, wrong = b[0] || b[1] || b[2] || b[3] || b[6] != 1 || b[7] != 1;
        wrong |= over ? b[4] || b[5] || memcmp(left, at, sizeof at) : b[4] != out[2 * i] || b[5] != out[2 * i + 1];
        /* the number of the row's kind stands behind the row, and the other one stays */
        if (!over) wrong |= at[b[4] - 1] != b[5] + 1 || at[2 - b[4]] != left[2 - b[4]];
        if (wrong) printf("call %u of the walk answers %u: %u %u\n", i, b[0], b[4], b[5]);
    }
    walked++;
    /* a word less, and a record past the counts */
    if (words) {
        quiltrudder_mark(src, len, o, TABLES, bits, words - 1, a);
        int wrong = a[0] != 42 || a[1] || a[2] || a[3] != 11 || a[4] != 1 || a[5] != 1;
        for (uint32_t i = 0; i < words - 1; i++) wrong |= bits[i] != 0;
        memcpy(left, at, sizeof at);
        quiltrudder_next_unused(src, len, o, TABLES, work, words - 1, at, b);
        if (wrong || b[0] != 44 || b[4] || b[5] || memcmp(left, at, sizeof at)) printf("a word less answers %u and %u\n", a[0], b[0]);
    }
    for (int k = 0; k < 2; k++) {
        at[0] = o[10] + (k == 0), at[1] = o[4] + (k == 1);
        memcpy(left, at, sizeof at);
        quiltrudder_next_unused(src, len, o, TABLES, work, words, at, b);
        if (b[0] != 44 || b[4] || b[5] || memcmp(left, at, sizeof at)) printf("a record past the counts answers %u\n", b[0]);
    }
    free(bits);
}

static void use(void) {
    uint32_t v[QUILTRUDDER_VALIDITY_CELLS], a[QUILTRUDDER_LISTING_CELLS], words = (o[10] + 31) / 32 + (o[4] + 31) / 32;
    quiltrudder_validate(src, len, o, TABLES, v);
    printf("validate %u %u %u %u %u\n", v[0], v[1], v[2], v[4], v[5]);
    faults();
    if (v[0]) return;
    size_t rows = 2 * ((size_t)o[10] + o[4]);
    uint32_t *work = malloc(4 * (words + 1)), *out = malloc(4 * (rows + 1));
    quiltrudder_report(src, len, o, TABLES, work, words, out, rows, a);
    if (a[0]) printf("report refused %u\n", a[0]);
    begins("report", a);
    for (uint32_t i = 0; i < a[4]; i++) {
        uint32_t kind = out[2 * i], r = out[2 * i + 1], p[QUILTRUDDER_PLACE_CELLS], at[QUILTRUDDER_SPOT_CELLS];
        quiltrudder_name(src, len, o, TABLES, kind == 1 ? 7 : 1, r, p);
        quiltrudder_locate(src, len, p[0], at);
        if (p[2] != at[0] || p[3] != at[1]) printf("a name's line and column are not those of its place\n");
        printf("unused %u %u %u %u\n", kind, r, p[0], p[1]);
    }
    printf("work");
    for (uint32_t i = 0; i < words; i++) printf(" %08x", work[i]);
    printf("\n");
    if (a[0] == 0) walk(work, words, out, a[4]);
    free(work);
    free(out);
}

/* What kind 4 has besides. */
static void posix_rows(void) {
    const uint32_t *c = o + QUILTRUDDER_POSIX_COUNTS;
    printf("posix %u %u %u\n", c[0], c[1], c[2]);
    for (uint32_t i = 0; i < c[0]; i++) { uint32_t *x = posix[0] + 4 * i; printf("t15 %u %u %u %u %u ", i, x[0], x[1], x[2], x[3]); text(src, x[0], x[1]); printf(" "); text(src, x[2], x[3]); printf("\n"); }
    for (uint32_t i = 0; i < c[1]; i++) { uint32_t *x = posix[1] + 3 * i; printf("t16 %u %u %u %u ", i, x[0], x[1], x[2]); text(src, x[0], x[1]); printf("\n"); }
    for (uint32_t i = 0; i < c[2]; i++) { uint32_t *x = posix[2] + 3 * i; printf("t17 %u %u %u %u ", i, x[0], x[1], x[2]); text(src, x[1], x[2]); printf("\n"); }
}

int main(int argc, char **argv) {
    unsigned rows[11], more[3] = {70000, 70000, 70000};
    for (int k = 1; k <= 10; k++) rows[k] = 70000;
    if (argc > 2) {
        int c = sscanf(argv[2], "%u,%u,%u,%u,%u,%u,%u,%u,%u,%u,%u,%u,%u", rows + 1, rows + 2, rows + 3, rows + 4, rows + 5, rows + 6, rows + 7, rows + 8, rows + 9, rows + 10, more, more + 1, more + 2);
        for (int k = 2; c == 1 && k <= 10; k++) rows[k] = rows[1];
    }
    FILE *f = argc > 1 ? fopen(argv[1], "rb") : NULL;
    if (!f) return 2;
    for (int k = 1; k <= 10; k++) t[k] = malloc(4 * (size_t)width[k] * 70000 + 4);
    for (int k = 0; k < 3; k++) posix[k] = malloc(4 * (size_t)posix_width[k] * 70000 + 4);
    uint8_t *s;
    int bad = 0, kind;
    for (long index = 0; (kind = next_input(f, &s)) >= 0; index++) {
        for (int k = 1; k <= 10; k++) {
            size_t have = rows[k] > len + 2 && argc < 3 ? len + 2 : rows[k];
            n[k] = have * width[k];
            for (size_t i = 0; i < n[k]; i++) t[k][i] = 0xdeadbeef;
        }
        for (int k = 0; k < 3; k++) {
            size_t have = more[k] > len + 2 && argc < 3 ? len + 2 : more[k];
            posix_length[k] = have * posix_width[k];
            for (size_t i = 0; i < posix_length[k]; i++) posix[k][i] = 0xdeadbeef;
        }
        lend_indexes();
        quiltrudder_load(src, len, kind, ALL_TABLES, o);
        int fatal = is_fatal();
        printf("input %ld %u %u\nload %u %u %u", index, kind, len, o[0], o[1], o[2]);
        if (o[0] == 42) printf(" %u", o[3]);
        printf(" %u %u\n", o[QUILTRUDDER_READING_LINE], o[QUILTRUDDER_READING_COLUMN]);
        errors();
        printf("counts");
        for (int k = 1; k <= 10; k++) printf(" %u", o[3 + k]);
        printf("\n");
        if (!fatal) tables(1);
        for (uint32_t i = 0; i < o[13]; i++) { uint32_t *x = t[10] + 5 * i; printf("t10 %u %u %u %u %u %u\n", i, x[0], x[1], x[2], x[3], x[4]); }
        if (!fatal) { singles(); use(); }
        if (kind == 4) posix_rows();
        for (int k = 1; k <= 10; k++)
            for (size_t i = (size_t)o[3 + k] * width[k]; i < n[k]; i++)
                if (t[k][i]) { bad++; fprintf(stderr, "input %ld: a cell of table %d past its count is not zero\n", index, k); break; }
        for (int k = 0; k < 3; k++)
            for (size_t i = (size_t)o[QUILTRUDDER_POSIX_COUNTS + k] * posix_width[k]; i < posix_length[k]; i++)
                if (posix[k][i]) { bad++; fprintf(stderr, "input %ld: a cell of table %d past its count is not zero\n", index, 15 + k); break; }
        for (int k = 1; k <= 7; k += 6) {
            uint32_t taken = 0;
            for (size_t i = 0; i < m[k]; i++) taken += ix[k][i] != 0;
            if (taken != o[3 + k]) { bad++; fprintf(stderr, "input %ld: the index of table %d has not its rows\n", index, k); }
        }
        free(s);
    }
    fprintf(stderr, "walked %ld\n", walked);
    return bad != 0;
}
