/* nest BOX: loads every input of a box by the C name and looks whether places nest in each full reading, as request Fourteen says it in its strict form. Its last line counts the readings, their
   productions, symbols and actions, and what is out of place. */
#include "lent.h"

static unsigned long readings, productions, symbols, actions, bad;

static void wrong(unsigned long input, const char *what, uint32_t row) {
    bad++;
    printf("input %lu: %s, row %u\n", input, what, row);
}

/* production i, from x[1] to x[2], its symbols' rows from x[3] to x[4], its trimmed action from x[9] to x[10]; `end` is behind what the one before takes */
static uint32_t production(unsigned long input, uint32_t i, int first, uint32_t end) {
    const uint32_t *x = t[8] + QUILTRUDDER_T8_WIDTH * i;
    uint32_t at = x[1];
    if (x[1] > x[2] || (!first && end >= x[1])) wrong(input, "span", i);
    for (uint32_t q = x[3]; q < x[4]; q++) {
        const uint32_t *y = t[9] + QUILTRUDDER_T9_WIDTH * q;
        symbols++;
        if (y[1] >= y[2] || y[1] < at || y[2] > x[2]) wrong(input, "symbol", q);
        at = y[2];
    }
    if (!x[8]) return x[2];
    actions++;
    if (x[2] >= x[9] || x[9] > x[10]) wrong(input, "action", i);
    return x[10];
}

int main(int argc, char **argv) {
    if (argc != 2) return 2;
    FILE *f = fopen(argv[1], "rb");
    uint8_t *bytes;
    int kind;
    if (!f) return 2;
    for (unsigned long input = 0; (kind = next_input(f, &bytes)) >= 0; input++) {
        for (int k = 1; k <= 10; k++) {
            n[k] = (size_t)(len + 2) * width[k];
            t[k] = malloc(n[k] * sizeof **t);
        }
        lend_indexes();
        quiltrudder_load(src, len, kind, ALL_TABLES, o);
        if (!is_fatal()) {
            uint32_t end = 0;
            readings++;
            for (uint32_t i = 0; i < o[11]; i++, productions++) end = production(input, i, i == 0, end);
        }
        for (int k = 1; k <= 10; k++) free(t[k]);
        free(bytes);
    }
    printf("readings %lu productions %lu symbols %lu actions %lu bad %lu\n", readings, productions, symbols, actions, bad);
    return bad != 0;
}
