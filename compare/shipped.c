/* shipped BOX: ships each input of a box by the C name, everything lent full of rubbish, and compares: number and text with what `oracle ship-box` says of the input, on standard input; numbers, tables and indexes with those
 *     that a load leaves. A text that is sent is loaded, which has to answer what loading the source does, each place taken for the bytes that it denotes; and it is shipped, which has to give the same bytes. A byte too few for
 *     the text, a cell or a slot too few for the reading and another kind have to be refused, and to leave no text. What differs goes to standard error; standard output ends with `compared N, shipped M, differences D`. */
#include "lent.h"

enum { LENT = 12, MORE = 9, RUBBISH = 0x5a };
static size_t bad;
/* What one call is lent, tables 1 to 10 and both indexes, and its numbers; a cell behind each of the twelve is not lent, and has to stay. */
struct memory {
    uint32_t *cells[LENT];
    size_t length[LENT];
    uint32_t numbers[QUILTRUDDER_SHIPPING_CELLS];
};
static struct memory loaded, sent, back;
static uint8_t *out;
/* What the oracle says: a number, and if that is 0 the text. */
static uint32_t told;
static uint8_t *text;
static uint32_t text_length;

#define PART(x, k) (x)->cells[k], (x)->length[k]
#define MEMORY(x) PART(x, 0), PART(x, 1), PART(x, 2), PART(x, 3), PART(x, 4), PART(x, 5), PART(x, 6), PART(x, 7), PART(x, 8), PART(x, 9), PART(x, 10), PART(x, 11)

/* The cells of a table's row, and those of the singles: n a number, p the two of a place, and - one that is not compared. A production's own place runs over spacing. */
static const char *const rows[10] = {"pn", "pnn", "p", "p", "ppp", "np", "pnp", "n--nnnpnpp", "npn", "npp"};
static const char singles[] = "np" "nnnp" "nnnp" "npp" "np" "np";

static void fail(const char *what, long at) {
    if (bad++ < 10) fprintf(stderr, "input %ld: %s\n", at, what);
}

static int is_zero(const void *p, size_t bytes) {
    const uint8_t *b = p;
    while (bytes && !*b) b++, bytes--;
    return !bytes;
}

/* A row for each byte and two more in each table, and indexes that go with them. */
static void lend(struct memory *x) {
    size_t held = (size_t)len + 2;
    for (int k = 0; k < LENT; k++) {
        x->length[k] = k < 10 ? width[k + 1] * held : QUILTRUDDER_SLOTS(held);
        x->cells[k] = realloc(x->cells[k], (x->length[k] + 1) * sizeof **x->cells);
    }
}

static void fill(struct memory *x) {
    for (int k = 0; k < LENT; k++) memset(x->cells[k], RUBBISH, (x->length[k] + 1) * sizeof **x->cells);
    memset(x->numbers, RUBBISH, sizeof x->numbers);
}

/* Whether what lies behind the lent memory has stayed. */
static int is_kept(const struct memory *x) {
    int kept = 1;
    for (int k = 0; k < LENT; k++) kept &= x->cells[k][x->length[k]] == RUBBISH * 0x1010101u;
    return kept;
}

static void load(struct memory *x, const uint8_t *s, size_t length, uint32_t kind) {
    fill(x);
    quiltrudder_load(s, length, kind, MEMORY(x), none, 0, none, 0, none, 0, x->numbers);
}

static void ship(const uint8_t *s, size_t length, uint32_t kind, size_t room, long at) {
    fill(&sent);
    out = realloc(out, room + 1);
    memset(out, RUBBISH, room + 1);
    quiltrudder_ship(s, length, kind, MEMORY(&sent), out, room, sent.numbers);
    if (!is_kept(&sent) || out[room] != RUBBISH) fail("written behind what is lent", at);
}

/* What shipping answers at 0 to 0: number, table and how many bytes were sent. */
static int answers(uint32_t number, uint32_t table, uint32_t count) {
    const uint32_t *a = sent.numbers;
    return a[0] == number && !a[1] && !a[2] && a[3] == table && is_zero(a + 38, 3 * 4) && a[41] == 1 && a[42] == 1 && a[43] == count && !a[44];
}

/* Whether shipping left what a load has left: counts and singles, tables and indexes. */
static int as_loaded(const struct memory *x) {
    int same = !memcmp(sent.numbers + 4, x->numbers + 4, 37 * 4);
    for (int k = 0; k < LENT; k++) same &= !memcmp(sent.cells[k], x->cells[k], x->length[k] * 4);
    return same;
}

/* Shipping has to be refused as the load was, and to send nothing. */
static void refused(int kind, size_t room, long at) {
    ship(src, len, kind, room, at);
    if (memcmp(sent.numbers, loaded.numbers, 43 * 4) || sent.numbers[43] || sent.numbers[44]) fail("other numbers of a refusal", at);
    if (!as_loaded(&loaded)) fail("other tables of a refusal", at);
    if (!is_zero(out, room)) fail("a text after a refusal", at);
}

/* It has to send nothing of a source that was read, which stays in the tables. */
static void unsent(int kind, size_t room, uint32_t number, uint32_t table, long at) {
    ship(src, len, kind, room, at);
    if (!answers(number, table, 0)) fail("not refused", at);
    if (!as_loaded(&loaded)) fail("not as it was read", at);
    if (!is_zero(out, room)) fail("a text that was not sent", at);
}

/* It has to send the text, of the source or of the text itself. */
static void sends(const uint8_t *s, size_t length, const struct memory *x, int kind, size_t room, long at) {
    ship(s, length, kind, room, at);
    if (!answers(0, 0, text_length)) fail("not sent", at);
    if (!as_loaded(x)) fail("not as it was read", at);
    if (memcmp(out, text, text_length)) fail("another text", at);
    if (!is_zero(out + text_length, room - text_length)) fail("something behind the text", at);
}

/* No kind that is shipped: everything is zero. */
static void other_kind(long at) {
    static const uint32_t kinds[] = {4, 0, 5, 4, 258, 4294967295u, 0x80000001u};
    ship(src, len, kinds[at % 7], len + MORE, at);
    int clear = answers(43, 0, 0) && is_zero(sent.numbers + 4, 34 * 4) && is_zero(out, len + MORE);
    for (int k = 0; k < LENT; k++) clear &= is_zero(sent.cells[k], sent.length[k] * 4);
    if (!clear) fail("another kind", at);
}

/* A place of the source and one of the text. */
static int same_bytes(const uint32_t *x, const uint32_t *y) {
    return x[0] <= x[1] && x[1] <= len && y[0] <= y[1] && y[1] <= text_length && x[1] - x[0] == y[1] - y[0] && !memcmp(src + x[0], text + y[0], x[1] - x[0]);
}

static int is_alike(const char *fields, const uint32_t *x, const uint32_t *y) {
    int alike = 1;
    for (; *fields; fields++) {
        if (*fields == 'p') alike &= same_bytes(x, y), x++, y++;
        else if (*fields == 'n') alike &= *x == *y;
        x++, y++;
    }
    return alike;
}

/* The text that was sent reads as the source does, places aside: the answer, counts and singles, the rows of each table, zeros behind them, and both indexes. */
static void reads_back(int kind, long at) {
    const uint32_t *x = loaded.numbers, *y = back.numbers;
    uint32_t spot[QUILTRUDDER_SPOT_CELLS];
    load(&back, text, text_length, kind);
    if (x[0] != y[0] || x[3] != y[3]) fail("another answer to the text", at);
    if (y[0] ? !same_bytes(x + 1, y + 1) : x[1] != len || x[2] != len || y[1] != text_length || y[2] != text_length) fail("another place in the text", at);
    quiltrudder_locate(text, text_length, y[1], spot);
    if (y[41] != spot[0] || y[42] != spot[1]) fail("another line or column in the text", at);
    if (memcmp(x + 4, y + 4, 10 * 4) || !is_zero(y + 38, 3 * 4)) {
        fail("other counts of the text", at);
        return;
    }
    if (!is_alike(singles, x + 14, y + 14)) fail("other singles of the text", at);
    for (int k = 0; k < 10; k++) {
        uint32_t w = width[k + 1], held = y[4 + k];
        int alike = is_zero(back.cells[k] + w * held, (back.length[k] - w * held) * 4);
        for (uint32_t i = 0; i < held; i++) alike &= is_alike(rows[k], loaded.cells[k] + w * i, back.cells[k] + w * i);
        if (!alike) fail("other rows of the text", at);
    }
    for (int k = 10; k < LENT; k++)
        if (memcmp(loaded.cells[k], back.cells[k], back.length[k] * 4)) fail("another index of the text", at);
}

/* A cell too few for a table, or a slot too few for an index: shipping is refused as a load is. */
static void no_room(int kind, int k, long at) {
    size_t length = loaded.length[k], needed = k < 10 ? width[k + 1] * loaded.numbers[4 + k] : length;
    if (!needed) return;
    loaded.length[k] = sent.length[k] = needed - 1;
    load(&loaded, src, len, kind);
    if (k < 10 ? loaded.numbers[0] != 42 || loaded.numbers[3] != (uint32_t)k + 1 : loaded.numbers[0] != 45) fail("loaded without room", at);
    refused(kind, len + MORE, at);
    loaded.length[k] = sent.length[k] = length;
    load(&loaded, src, len, kind);
}

/* Whether a text was sent. */
static int compare(int kind, long at) {
    lend(&loaded), lend(&sent), lend(&back);
    load(&loaded, src, len, kind);
    other_kind(at);
    uint32_t number = loaded.numbers[0];
    if (number && (number < 30 || number > 35)) {
        if (told != number) fail("another number", at);
        refused(kind, len + MORE, at);
        refused(kind, 0, at);
        return 0;
    }
    no_room(kind, at % 10, at);
    no_room(kind, 10 + at % 2, at);
    if (told == 41) {
        unsent(kind, 0, 41, 0, at);
        unsent(kind, 2 * (size_t)len + MORE, 41, 0, at);
        return 0;
    }
    if (told) {
        fail("another number", at);
        return 0;
    }
    unsent(kind, at % text_length, 42, 13, at);
    unsent(kind, text_length - 1, 42, 13, at);
    sends(src, len, &loaded, kind, text_length, at);
    sends(src, len, &loaded, kind, text_length + MORE, at);
    reads_back(kind, at);
    sends(text, text_length, &back, kind, text_length, at);
    return 1;
}

static int next_told(void) {
    uint32_t head[2];
    if (fread(head, 4, 2, stdin) != 2) return 0;
    told = head[0];
    text_length = head[1];
    text = realloc(text, text_length + 1);
    return fread(text, 1, text_length, stdin) == text_length;
}

int main(int argc, char **argv) {
    long at = 0, shipped = 0;
    uint8_t *bytes;
    FILE *f = argc == 2 ? fopen(argv[1], "rb") : NULL;
    if (!f) return 2;
    for (int kind; (kind = next_input(f, &bytes)) >= 0; at++, free(bytes)) {
        if (!next_told()) {
            fail("the oracle says nothing", at);
            break;
        }
        shipped += compare(kind, at);
    }
    if (next_told()) fail("the oracle says more", at);
    printf("compared %ld, shipped %ld, differences %zu\n", at, shipped, bad);
    return bad != 0;
}
