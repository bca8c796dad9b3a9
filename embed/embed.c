/* embed KIND FILE [BLOCKS [TEXT]]: loads a specification and prints the rules and tokens that nothing uses; or the answer that refuses it, and every
   fault of a file that does not validate. What was read is stored in blocks, loaded back from them and has to be the same; a third argument is
   the file that the blocks go to. A source of kind 1, 2 or 3 is shipped too, and its text has to give the same counts and the same text; a fourth
   argument is the file that the text goes to. */
#include <stdio.h>
#include <stdlib.h>
#include <string.h>

#include "quiltrudder.h"

#define ROWS 1024

/* What a load is lent: numbers alone, so that two of these are equal where their bytes are. */
struct tables {
    uint32_t t1[ROWS * QUILTRUDDER_T1_WIDTH];
    uint32_t t2[ROWS * QUILTRUDDER_T2_WIDTH];
    uint32_t t3[ROWS * QUILTRUDDER_T3_WIDTH];
    uint32_t t4[ROWS * QUILTRUDDER_T4_WIDTH];
    uint32_t t5[ROWS * QUILTRUDDER_T5_WIDTH];
    uint32_t t6[ROWS * QUILTRUDDER_T6_WIDTH];
    uint32_t t7[ROWS * QUILTRUDDER_T7_WIDTH];
    uint32_t t8[ROWS * QUILTRUDDER_T8_WIDTH];
    uint32_t t9[ROWS * QUILTRUDDER_T9_WIDTH];
    uint32_t t10[ROWS * QUILTRUDDER_T10_WIDTH];
    uint32_t t15[ROWS * QUILTRUDDER_T15_WIDTH];
    uint32_t t16[ROWS * QUILTRUDDER_T16_WIDTH];
    uint32_t t17[ROWS * QUILTRUDDER_T17_WIDTH];
    uint32_t i1[QUILTRUDDER_SLOTS(ROWS)];
    uint32_t i7[QUILTRUDDER_SLOTS(ROWS)];
};

static uint8_t src[QUILTRUDDER_SOURCE_BYTES + 1], src_back[QUILTRUDDER_SOURCE_BYTES + 1];
static uint8_t text[QUILTRUDDER_SOURCE_BYTES], text_again[QUILTRUDDER_SOURCE_BYTES];
static struct tables lent, back;
static uint32_t t14[(1 + 4 * ROWS) * QUILTRUDDER_FAULT_WIDTH];
static uint32_t work[2 * ROWS / 32];
static uint32_t out[2 * ROWS * QUILTRUDDER_REPORT_WIDTH];

/* A slice of a whole array, and all ten tables with their indexes; a load is lent kind 4's three too, and so is what stores and loads back. */
#define WHOLE(a) (a), sizeof(a) / sizeof((a)[0])
#define TABLES(s) WHOLE((s).t1), WHOLE((s).t2), WHOLE((s).t3), WHOLE((s).t4), WHOLE((s).t5), WHOLE((s).t6), WHOLE((s).t7), WHOLE((s).t8), WHOLE((s).t9), WHOLE((s).t10), WHOLE((s).i1), WHOLE((s).i7)
#define ALL_TABLES(s) TABLES(s), WHOLE((s).t15), WHOLE((s).t16), WHOLE((s).t17)

static void print_answer(const uint32_t *answer)
{
    printf("answer %u %u %u\n", (unsigned)answer[QUILTRUDDER_NUMBER], (unsigned)answer[QUILTRUDDER_FROM], (unsigned)answer[QUILTRUDDER_TO]);
}

/* A table of one row for the start and one for each row of tables 5, 6, 8 and 9 takes every fault. */
static void print_faults(size_t length, const uint32_t *reading)
{
    uint32_t faults[QUILTRUDDER_FAULTS_CELLS];

    quiltrudder_faults(src, length, reading, TABLES(lent), WHOLE(t14), faults);
    for (uint32_t i = 0; i < faults[QUILTRUDDER_COUNT_LOW]; i++) {
        const uint32_t *row = t14 + i * QUILTRUDDER_FAULT_WIDTH;

        uint32_t spot[QUILTRUDDER_SPOT_CELLS];

        quiltrudder_locate(src, length, row[1], spot);
        printf("fault %u %u %u %u %u\n", (unsigned)row[0], (unsigned)row[1], (unsigned)row[2], (unsigned)spot[QUILTRUDDER_SPOT_LINE], (unsigned)spot[QUILTRUDDER_SPOT_COLUMN]);
    }
}

/* Whether all of the source was read, be it valid or not, so that the tables hold it. */
static int is_read(const uint32_t *reading)
{
    uint32_t number = reading[QUILTRUDDER_NUMBER];

    return number == QUILTRUDDER_ACCEPTED || (number >= QUILTRUDDER_REPEATED_PRECEDENCE && number <= QUILTRUDDER_UNKNOWN_EPP);
}

/* Whether bytes go to a file, if there is one to go to. */
static int is_written(const char *path, const uint8_t *bytes, size_t length)
{
    FILE *file = path == NULL ? NULL : fopen(path, "wb");

    if (file == NULL) return path == NULL;
    size_t count = fwrite(bytes, 1, length, file);
    return fclose(file) == 0 && count == length;
}

/* How many bytes the blocks of a reading take. */
static size_t stored_bytes(const uint32_t *reading, size_t length)
{
    static const size_t widths[] = {
        QUILTRUDDER_T1_WIDTH, QUILTRUDDER_T2_WIDTH, QUILTRUDDER_T3_WIDTH, QUILTRUDDER_T4_WIDTH, QUILTRUDDER_T5_WIDTH,
        QUILTRUDDER_T6_WIDTH, QUILTRUDDER_T7_WIDTH, QUILTRUDDER_T8_WIDTH, QUILTRUDDER_T9_WIDTH, QUILTRUDDER_T10_WIDTH,
        QUILTRUDDER_T15_WIDTH, QUILTRUDDER_T16_WIDTH, QUILTRUDDER_T17_WIDTH,
    };
    size_t cells = 0;

    for (int k = 0; k < 13; k++) cells += widths[k] * reading[k < 10 ? QUILTRUDDER_COUNTS + k : QUILTRUDDER_POSIX_COUNTS + k - 10];
    return QUILTRUDDER_BLOCKS(cells, length) * QUILTRUDDER_BLOCK_BYTES;
}

/* Stores a reading, loads it back into other memory, which is full of rubbish, and says what differs, or NULL. */
static const char *stored_and_back(size_t length, uint32_t kind, const uint32_t *reading, const char *path)
{
    uint32_t storing[QUILTRUDDER_STORING_CELLS], stored[QUILTRUDDER_STORED_CELLS];
    size_t size = stored_bytes(reading, length);
    uint8_t *blocks = malloc(size);
    const char *wrong = NULL;

    if (blocks == NULL) return "no memory for the blocks";
    memset(src_back, 0x5a, sizeof src_back);
    memset(&back, 0x5a, sizeof back);
    quiltrudder_store(src, length, kind, reading, ALL_TABLES(lent), blocks, size, storing);
    quiltrudder_load_stored(blocks, size, WHOLE(src_back), ALL_TABLES(back), stored);
    if (storing[QUILTRUDDER_NUMBER] != 0 || storing[QUILTRUDDER_COUNT_LOW] * (size_t)QUILTRUDDER_BLOCK_BYTES != size) wrong = "not stored";
    else if (stored[QUILTRUDDER_NUMBER] != 0) wrong = "not loaded back";
    else if (stored[QUILTRUDDER_STORED_KIND] != kind || stored[QUILTRUDDER_STORED_LENGTH] != length) wrong = "another kind or length";
    /* the counts and singles, from the ten counts to the three */
    else if (memcmp(stored + QUILTRUDDER_COUNTS, reading + QUILTRUDDER_COUNTS, (QUILTRUDDER_READING_LINE - QUILTRUDDER_COUNTS) * sizeof *stored)) wrong = "other counts or singles";
    /* of equal size, and zero behind source and rows: the whole of both */
    else if (memcmp(src_back, src, sizeof src)) wrong = "another source";
    else if (memcmp(&back, &lent, sizeof lent)) wrong = "other tables or indexes";
    else if (!is_written(path, blocks, size)) wrong = "the blocks can't be written";
    free(blocks);
    return wrong;
}

/* Ships a source, and where a text is sent loads that and ships it again; says what is not as it should be, or NULL. */
static const char *shipped_and_back(size_t length, uint32_t kind, const uint32_t *reading, const char *path)
{
    uint32_t shipping[QUILTRUDDER_SHIPPING_CELLS], again[QUILTRUDDER_SHIPPING_CELLS], number = reading[QUILTRUDDER_NUMBER];
    /* a load validates, too, and shipping does not */
    uint32_t wanted = number >= QUILTRUDDER_NO_START_RULE && number <= QUILTRUDDER_UNKNOWN_EPP ? QUILTRUDDER_ACCEPTED : number;

    memset(text, 0x5a, sizeof text);
    memset(&back, 0x5a, sizeof back);
    quiltrudder_ship(src, length, kind, TABLES(back), WHOLE(text), shipping);
    size_t sent = shipping[QUILTRUDDER_SENT_LOW];
    if (kind > QUILTRUDDER_ECO) wanted = QUILTRUDDER_BAD_KIND;
    if (wanted == QUILTRUDDER_ACCEPTED && shipping[QUILTRUDDER_NUMBER] == QUILTRUDDER_TOO_LONG) wanted = QUILTRUDDER_TOO_LONG;
    if (shipping[QUILTRUDDER_NUMBER] != wanted) return "not shipped";
    for (size_t i = sent; i < sizeof text; i++)
        if (text[i] != 0) return "something behind the text";
    if (wanted != QUILTRUDDER_ACCEPTED) return sent == 0 ? NULL : "sent after a refusal";
    if (memcmp(shipping + QUILTRUDDER_COUNTS, reading + QUILTRUDDER_COUNTS, (QUILTRUDDER_READING_LINE - QUILTRUDDER_COUNTS) * sizeof *shipping)) return "other counts or singles of what is shipped";

    quiltrudder_load(text, sent, kind, ALL_TABLES(back), again);
    if (again[QUILTRUDDER_NUMBER] != number) return "the text is not loaded";
    /* the singles have other places */
    if (memcmp(again + QUILTRUDDER_COUNTS, reading + QUILTRUDDER_COUNTS, (QUILTRUDDER_START - QUILTRUDDER_COUNTS) * sizeof *again)) return "other counts of the text";
    quiltrudder_ship(text, sent, kind, TABLES(back), WHOLE(text_again), again);
    if (again[QUILTRUDDER_NUMBER] != 0 || memcmp(text_again, text, sizeof text)) return "another text when shipped again";
    return is_written(path, text, sent) ? NULL : "the text can't be written";
}

int main(int count, char **args)
{
    uint32_t reading[QUILTRUDDER_READING_CELLS];
    uint32_t listing[QUILTRUDDER_LISTING_CELLS];
    FILE *file = count >= 3 && count <= 5 ? fopen(args[2], "rb") : NULL;

    if (file == NULL) {
        fprintf(stderr, "usage: embed KIND FILE [BLOCKS [TEXT]]\n");
        return 1;
    }
    size_t length = fread(src, 1, sizeof src, file);
    uint32_t kind = (uint32_t)atoi(args[1]);
    fclose(file);

    quiltrudder_load(src, length, kind, ALL_TABLES(lent), reading);
    const char *wrong = is_read(reading) ? stored_and_back(length, kind, reading, args[3]) : NULL;

    if (wrong == NULL) wrong = shipped_and_back(length, kind, reading, count == 5 ? args[4] : NULL);
    if (wrong != NULL) {
        fprintf(stderr, "embed: %s\n", wrong);
        return 1;
    }
    if (reading[QUILTRUDDER_NUMBER] != 0) {
        print_answer(reading);
        if (reading[QUILTRUDDER_NUMBER] >= QUILTRUDDER_NO_START_RULE && reading[QUILTRUDDER_NUMBER] <= QUILTRUDDER_UNKNOWN_EPP) print_faults(length, reading);
        return 0;
    }
    quiltrudder_report(src, length, reading, TABLES(lent), WHOLE(work), WHOLE(out), listing);
    if (listing[QUILTRUDDER_NUMBER] != 0) {
        print_answer(listing);
        return 0;
    }
    print_answer(reading);
    for (uint32_t i = 0; i < listing[QUILTRUDDER_COUNT_LOW]; i++) {
        const uint32_t *row = out + i * QUILTRUDDER_REPORT_WIDTH;
        uint32_t place[QUILTRUDDER_PLACE_CELLS];

        quiltrudder_name(src, length, reading, TABLES(lent), row[0] == 1 ? 7 : 1, row[1], place);
        printf("%s %u %u\n", row[0] == 1 ? "rule" : "token", (unsigned)place[0], (unsigned)place[1]);
    }
    return 0;
}
