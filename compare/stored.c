/* stored store BOX: loads each input of a box, stores each full reading, loads the blocks back into other memory, which is full of rubbish, and compares cell by cell, slot by slot and byte by byte; each reading and its
 *     blocks go to standard output, for compare/stored. What differs goes to standard error, and the counts of all that was done end that.
 * stored alter COUNT BOX: of the first COUNT full readings, every byte of the blocks changed in turn to three other values: each has to be refused, with 61 or 62 by where it lies, and leave nothing.
 * stored load: from standard input catalogues, each led by its length in four bytes; to standard output the number and the table that loading answers, a line each, with room for ROOM rows a table and a source of
 *     TEXT bytes. One that is accepted is stored again, and has to be the same. */
#include "lent.h"

enum { TABLES_STORED = 13, ROOM = 3001, TEXT = 70007, MORE = 600, RUBBISH = 0x5a };
static const unsigned widths[TABLES_STORED] = {3, 4, 2, 2, 6, 3, 5, 13, 4, 5, 4, 3, 3};
static size_t bad;
/* What is loaded back, and how much of it is lent; a cell or a byte behind each is not, and has to stay. */
static uint32_t *back[TABLES_STORED], *slots[2], stored[QUILTRUDDER_STORED_CELLS];
static size_t room[TABLES_STORED], slot_room[2], text_room;
static uint8_t *text, *blocks;
static size_t size;

#define BACK \
    back[0], room[0], back[1], room[1], back[2], room[2], back[3], room[3], back[4], room[4], back[5], room[5], back[6], room[6], back[7], room[7], back[8], room[8], back[9], room[9], slots[0], slot_room[0], slots[1], \
        slot_room[1]
#define ALL_BACK BACK, back[10], room[10], back[11], room[11], back[12], room[12]

static void fail(const char *what, long at) {
    if (bad++ < 10) fprintf(stderr, "input %ld: %s\n", at, what);
}

static uint32_t rows(const uint32_t *answer, int k) { return answer[k < 10 ? QUILTRUDDER_COUNTS + k : QUILTRUDDER_POSIX_COUNTS + k - 10]; }

static uint32_t number_of(int k) { return k < 10 ? k + 1 : k + 5; }

/* The tables that were read, and their sizes. */
static uint32_t *table(int k) { return k < 10 ? t[k + 1] : posix[k - 10]; }
static size_t table_length(int k) { return k < 10 ? n[k + 1] : posix_length[k - 10]; }

static void lend(void) {
    for (int k = 1; k <= 10; k++) {
        n[k] = (size_t)width[k] * (len + 2);
        t[k] = realloc(t[k], n[k] * sizeof **t);
        memset(t[k], RUBBISH, n[k] * sizeof **t);
    }
    for (int k = 0; k < 3; k++) {
        posix_length[k] = (size_t)posix_width[k] * (len + 2);
        posix[k] = realloc(posix[k] == none ? NULL : posix[k], posix_length[k] * sizeof **posix);
        memset(posix[k], RUBBISH, posix_length[k] * sizeof **posix);
    }
    lend_indexes();
}

/* Room for the rows of a reading and so many more, and for a source of so many bytes and seven times that. */
static void lend_back(const uint32_t *answer, size_t bytes, int more) {
    for (int k = 0; k < TABLES_STORED; k++) {
        room[k] = (size_t)widths[k] * (rows(answer, k) + more);
        back[k] = realloc(back[k], (room[k] + 1) * sizeof **back);
        memset(back[k], RUBBISH, (room[k] + 1) * sizeof **back);
    }
    for (int k = 0; k < 2; k++) {
        slot_room[k] = QUILTRUDDER_SLOTS(room[k * 6] / widths[k * 6]);
        slots[k] = realloc(slots[k], (slot_room[k] + 1) * sizeof **slots);
        memset(slots[k], RUBBISH, (slot_room[k] + 1) * sizeof **slots);
    }
    text_room = bytes + 7 * more;
    text = realloc(text, text_room + 1);
    memset(text, RUBBISH, text_room + 1);
}

static void load_back(const uint8_t *b, size_t length) {
    memset(stored, RUBBISH, sizeof stored);
    quiltrudder_load_stored(b, length, text, text_room, ALL_BACK, stored);
}

static int is_zero(const void *p, size_t bytes) {
    const uint8_t *b = p;
    while (bytes && !*b) b++, bytes--;
    return !bytes;
}

/* Whether what lies behind the lent memory has stayed. */
static int is_kept(void) {
    const uint32_t mark = RUBBISH * 0x1010101u;
    int kept = text[text_room] == RUBBISH && slots[0][slot_room[0]] == mark && slots[1][slot_room[1]] == mark;
    for (int k = 0; k < TABLES_STORED; k++) kept &= back[k][room[k]] == mark;
    return kept;
}

/* Whether a load was refused so, and left nothing. */
static int refused(uint32_t number, uint32_t of) {
    int clear = is_zero(text, text_room) && is_zero(slots[0], slot_room[0] * 4) && is_zero(slots[1], slot_room[1] * 4);
    for (int k = 0; k < TABLES_STORED; k++) clear &= is_zero(back[k], room[k] * 4);
    return clear && stored[0] == number && !stored[1] && !stored[2] && stored[3] == of && is_zero(stored + 4, 37 * 4) && stored[41] == 1 && stored[42] == 1 && !stored[43] && !stored[44];
}

/* What storing answers: number, table and count of blocks, at 0 to 0, line 1, column 1. */
static int answers(const uint32_t *a, uint32_t number, uint32_t of, size_t count) {
    return a[0] == number && !a[1] && !a[2] && a[3] == of && a[4] == count && !a[5] && a[6] == 1 && a[7] == 1;
}

/* The blocks of a full reading, with MORE bytes lent behind them; and that storing refuses what it has to. */
static void store(int kind, long at) {
    uint32_t answer[QUILTRUDDER_STORING_CELLS];
    size_t cells = 0;
    for (int k = 0; k < TABLES_STORED; k++) cells += (size_t)widths[k] * rows(o, k);
    size = QUILTRUDDER_BLOCKS(cells, len) * QUILTRUDDER_BLOCK_BYTES;
    blocks = realloc(blocks, size + MORE);
    memset(blocks, RUBBISH, size + MORE);
    quiltrudder_store(src, len, 5, o, ALL_TABLES, blocks, size + MORE, answer);
    if (!answers(answer, 43, 0, 0) || !is_zero(blocks, size + MORE)) fail("kind 5", at);
    /* a cell behind the rows of each table that is not zero */
    for (int k = 0; k < TABLES_STORED; k++) {
        uint32_t *last = table(k) + table_length(k) - 1;
        memset(blocks, RUBBISH, size + MORE);
        *last = 1;
        quiltrudder_store(src, len, kind, o, ALL_TABLES, blocks, size + MORE, answer);
        if (!answers(answer, 44, 0, 0) || !is_zero(blocks, size + MORE)) fail("stored unsound", at);
        *last = 0;
    }
    memset(blocks, RUBBISH, size + MORE);
    quiltrudder_store(src, len, kind, o, ALL_TABLES, blocks, size - 1, answer);
    if (!answers(answer, 42, 18, 0) || !is_zero(blocks, size - 1) || blocks[size - 1] != RUBBISH) fail("a byte too few", at);
    quiltrudder_store(src, len, kind, o, ALL_TABLES, blocks, size + MORE, answer);
    if (!answers(answer, 0, 0, size / 512) || !is_zero(blocks + size, MORE)) fail("not stored", at);
}

/* What was loaded back gives the same blocks, in memory of just that size, and what validate says of it is what it says of the reading. */
static void same_again(int kind, long at) {
    uint32_t answer[QUILTRUDDER_STORING_CELLS], validity[2][QUILTRUDDER_VALIDITY_CELLS];
    uint8_t *again = malloc(size);
    memset(again, RUBBISH, size);
    quiltrudder_store(text, len, kind, stored, ALL_BACK, again, size, answer);
    if (!answers(answer, 0, 0, size / 512) || memcmp(again, blocks, size)) fail("other blocks when stored again", at);
    free(again);
    quiltrudder_validate(src, len, o, TABLES, validity[0]);
    quiltrudder_validate(text, len, stored, BACK, validity[1]);
    if (validity[1][0] == 44 || memcmp(validity[0], validity[1], sizeof *validity)) fail("another validity", at);
}

/* The indexes are what a load into as much room fills in. */
static void same_indexes(int kind, long at) {
    uint32_t *then[2], reading[QUILTRUDDER_READING_CELLS];
    for (int k = 0; k < 2; k++) then[k] = memcpy(malloc(slot_room[k] * 4), slots[k], slot_room[k] * 4);
    quiltrudder_load(src, len, kind, ALL_BACK, reading);
    if (memcmp(reading, o, sizeof o)) fail("another reading in as much room", at);
    for (int k = 0; k < 2; k++) {
        if (memcmp(then[k], slots[k], slot_room[k] * 4)) fail("another index", at);
        free(then[k]);
    }
}

static void same(int kind, int more, long at) {
    lend_back(o, len, more);
    load_back(blocks, size);
    if (stored[0] || stored[1] || stored[2] || stored[3] || memcmp(stored + 4, o + 4, 37 * 4) || stored[41] != 1 || stored[42] != 1 || stored[43] != (uint32_t)kind || stored[44] != len) fail("other numbers", at);
    if (memcmp(text, src, len) || !is_zero(text + len, text_room - len)) fail("another source", at);
    for (int k = 0; k < TABLES_STORED; k++) {
        size_t held = (size_t)widths[k] * rows(o, k);
        if (memcmp(back[k], table(k), held * 4) || !is_zero(back[k] + held, (room[k] - held) * 4)) fail("other rows", at);
    }
    if (!is_kept()) fail("written behind what is lent", at);
    same_again(kind, at);
    same_indexes(kind, at);
    if (more) return;
    /* in just enough room each byte, cell and slot is needed */
    if (len) {
        text_room--;
        load_back(blocks, size);
        if (!refused(42, 19)) fail("a byte too few for the source", at);
        text_room++;
    }
    for (int k = 0; k < TABLES_STORED; k++)
        if (room[k]) {
            room[k]--;
            load_back(blocks, size);
            if (!refused(42, number_of(k))) fail("a cell too few", at);
            room[k]++;
        }
    for (int k = 0; k < 2; k++) {
        slot_room[k]--;
        load_back(blocks, size);
        if (!refused(45, 0)) fail("a slot too few", at);
        slot_room[k]++;
    }
}

static void write_out(int kind) {
    putchar(kind);
    fwrite(o, 4, 43, stdout);
    for (int k = 0; k < TABLES_STORED; k++) fwrite(table(k), 4, (size_t)widths[k] * rows(o, k), stdout);
    fwrite(&len, 4, 1, stdout);
    fwrite(src, 1, len, stdout);
    fwrite(&(uint32_t){size}, 4, 1, stdout);
    fwrite(blocks, 1, size, stdout);
}

/* How many altered catalogues were refused as they should be. */
static long alter(long at) {
    long count = 0;
    lend_back(o, len, 1);
    for (size_t i = 0; i < size; i++)
        for (int x = 1; x < 256; x = x == 1 ? 0x80 : x == 0x80 ? 0xff : 256) {
            blocks[i] ^= x;
            /* each cell that is lent has something in it before, and nothing afterwards */
            memset(text, RUBBISH, text_room);
            for (int k = 0; k < TABLES_STORED; k++) memset(back[k], RUBBISH, room[k] * 4);
            for (int k = 0; k < 2; k++) memset(slots[k], RUBBISH, slot_room[k] * 4);
            load_back(blocks, size);
            if (refused(i % 512 < 4 ? 61 : 62, 0) && is_kept()) count++;
            else fail("an altered byte", at);
            blocks[i] ^= x;
        }
    return count;
}

static void load_given(void) {
    uint32_t length, many[QUILTRUDDER_READING_CELLS], answer[QUILTRUDDER_STORING_CELLS];
    static uint8_t b[1 << 22];
    for (int k = 0; k < QUILTRUDDER_READING_CELLS; k++) many[k] = ROOM - 1;
    for (long at = 0; fread(&length, 4, 1, stdin) == 1; at++) {
        if (length > sizeof b || fread(b, 1, length, stdin) != length) exit(2);
        lend_back(many, TEXT - 7, 1);
        load_back(b, length);
        printf("%u %u\n", stored[0], stored[3]);
        if (!is_kept()) fail("written behind what is lent", at);
        if (stored[0]) {
            if (!refused(stored[0], stored[3])) fail("left standing", at);
            continue;
        }
        uint8_t *again = malloc(length);
        quiltrudder_store(text, stored[44], stored[43], stored, ALL_BACK, again, length, answer);
        if (!answers(answer, 0, 0, length / 512) || memcmp(again, b, length)) fail("not the same when stored again", at);
        free(again);
    }
}

int main(int argc, char **argv) {
    if (argc == 2 && !strcmp(argv[1], "load")) load_given();
    else {
        int is_altering = argc == 4 && !strcmp(argv[1], "alter");
        if (!is_altering && (argc != 3 || strcmp(argv[1], "store"))) return 2;
        long left = is_altering ? atol(argv[2]) : -1, at = 0, count = 0, altered = 0;
        FILE *f = fopen(argv[argc - 1], "rb");
        uint8_t *bytes;
        if (!f) return 2;
        for (int kind; left && (kind = next_input(f, &bytes)) >= 0; at++, free(bytes)) {
            lend();
            quiltrudder_load(src, len, kind, ALL_TABLES, o);
            if (is_fatal()) continue;
            store(kind, at);
            if (is_altering) {
                altered += alter(at);
                left--;
            } else {
                same(kind, 1, at);
                same(kind, 0, at);
                write_out(kind);
            }
            count++;
        }
        fprintf(stderr, "stored %ld, altered %ld, ", count, altered);
    }
    fprintf(stderr, "differences %zu\n", bad);
    return bad != 0;
}
