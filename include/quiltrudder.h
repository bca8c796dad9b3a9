/* Quiltrudder for C: loading a Yacc specification (it is read, and what was read is validated), validating tables from elsewhere, the list of all faults, the unused report, its marking by itself, the unused
 * rows one by one, pruning, a reading in the catalogue's blocks and back, a source in its shipping form, the name of a row, the value of an `%epp` row, and line and column of a place. Each function's contract is proved; the comments here say what
 * the contracts say.
 *
 * A slice is a pointer and a length, the length counted in elements. A pointer is never null, also where the length is 0, and no memory that a
 * function writes overlaps any other that it is lent. That is all a caller owes: every function takes any bytes, numbers and lengths, and ends. It
 * keeps nothing, allocates nothing, and touches nothing but what it is lent and the stack, of which it takes less than 256 kilobytes.
 *
 * Tables and indexes may be larger than a reading needs, and that costs: load clears all that it is lent, and every function that is lent tables looks whether the cells behind their rows are zero, so time is linear in what is lent, too. By
 * count, which no contract says, a source of n bytes has at most n rows in table 8 and n / 2 + 1 in each other one; most grammars have a tenth of that. After a 42 the number of the table is in the answer: lend that one twice as much and load again.
 *
 * Places are byte offsets into the source, half open: from, to. Every answer ends with line and column of its place's start, both from 1; a column
 * counts bytes. CR LF ends one line, and so does a CR or an LF by itself; a place on the LF of a pair is still on the earlier line. */
#ifndef QUILTRUDDER_H
#define QUILTRUDDER_H

#include <stddef.h>
#include <stdint.h>

#ifdef __cplusplus
extern "C" {
#endif

/* Kinds of specification. */
#define QUILTRUDDER_ORIGINAL 1
#define QUILTRUDDER_GRMTOOLS 2
#define QUILTRUDDER_ECO 3
#define QUILTRUDDER_POSIX 4 /* yacc as IEEE Std 1003.1 describes it: %{ %}, %union, %type, <tag> and token numbers; a comment ends at its closing pair alone */

/* A source has at most so many bytes, and so has a text that is shipped; a longer one is refused (41). */
#define QUILTRUDDER_SOURCE_BYTES 65536

/* How many numbers a row of each table has. A table holds whole rows from its first cell on; the cells behind them are zero. */
#define QUILTRUDDER_T1_WIDTH 3 /* tokens: from, to, declared */
#define QUILTRUDDER_T2_WIDTH 4 /* precedences: from, to, level, association (1 left, 2 right, 3 nonassoc) */
#define QUILTRUDDER_T3_WIDTH 2 /* avoid: from, to */
#define QUILTRUDDER_T4_WIDTH 2 /* implicit: from, to */
#define QUILTRUDDER_T5_WIDTH 6 /* %epp: key as spelled from, to; name from, to; value with its quotes from, to */
#define QUILTRUDDER_T6_WIDTH 3 /* expected unused: kind (1 rule, 2 token), from, to */
#define QUILTRUDDER_T7_WIDTH 5 /* rules: name from, to; type flag, from, to */
#define QUILTRUDDER_T8_WIDTH 13 /* productions: rule row; from, to; symbols from, to; %prec flag, from, to; action flag, text from, to, span from, to */
#define QUILTRUDDER_T9_WIDTH 4 /* symbols: kind (1 rule, 2 token), from, to, row: that of the rule in table 7 or of the token in table 1, or QUILTRUDDER_NO_ROW */
#define QUILTRUDDER_T10_WIDTH 5 /* repeats: number; first from, to; repeated from, to */
#define QUILTRUDDER_T15_WIDTH 4 /* tags, of kind 4: name from, to; tag from, to */
#define QUILTRUDDER_T16_WIDTH 3 /* token numbers, of kind 4: name from, to; number */
#define QUILTRUDDER_T17_WIDTH 3 /* bodies, of kind 4: sort (1 %{, 2 %union), from, to */

/* How many slots to lend for the index beside table 1 or 7, where that table is lent room for so many rows: the first power of two that is twice the rows or more.
 * A constant where `rows` is one. An index may be larger, as long as its size is a power of two; any other size is refused (45). */
#define QUILTRUDDER_SLOTS(rows) (QUILTRUDDER_SLOTS_5(2 * (size_t)(rows) - ((rows) > 0)) + 1)
#define QUILTRUDDER_SLOTS_0(v) ((v) | (v) >> 1)
#define QUILTRUDDER_SLOTS_1(v) (QUILTRUDDER_SLOTS_0(v) | QUILTRUDDER_SLOTS_0(v) >> 2)
#define QUILTRUDDER_SLOTS_2(v) (QUILTRUDDER_SLOTS_1(v) | QUILTRUDDER_SLOTS_1(v) >> 4)
#define QUILTRUDDER_SLOTS_3(v) (QUILTRUDDER_SLOTS_2(v) | QUILTRUDDER_SLOTS_2(v) >> 8)
#define QUILTRUDDER_SLOTS_4(v) (QUILTRUDDER_SLOTS_3(v) | QUILTRUDDER_SLOTS_3(v) >> 16)
#define QUILTRUDDER_SLOTS_5(v) (QUILTRUDDER_SLOTS_4(v) | QUILTRUDDER_SLOTS_4(v) >> 16 >> 16)

/* The row of a symbol whose name is that of no rule or token. */
#define QUILTRUDDER_NO_ROW 4294967295u

#define QUILTRUDDER_FAULT_WIDTH 3 /* faults, table 14: number, from, to */
#define QUILTRUDDER_REPORT_WIDTH 2 /* report: kind (1 rule, 2 token), row */

/* How many numbers each answer has. */
#define QUILTRUDDER_READING_CELLS 43
#define QUILTRUDDER_VALIDITY_CELLS 6
#define QUILTRUDDER_FAULTS_CELLS 8
#define QUILTRUDDER_LISTING_CELLS 8
#define QUILTRUDDER_MARKING_CELLS 6
#define QUILTRUDDER_NEXT_CELLS 8
#define QUILTRUDDER_PRUNING_CELLS 6
#define QUILTRUDDER_PLACE_CELLS 4
#define QUILTRUDDER_VALUATION_CELLS 8
#define QUILTRUDDER_SPOT_CELLS 2
#define QUILTRUDDER_STORING_CELLS 8
#define QUILTRUDDER_STORED_CELLS 45
#define QUILTRUDDER_SHIPPING_CELLS 45

/* Where they stand. Every answer but that of a name begins with number, place and table number; the table number is 0 unless the number is 42. */
#define QUILTRUDDER_NUMBER 0
#define QUILTRUDDER_FROM 1
#define QUILTRUDDER_TO 2
#define QUILTRUDDER_TABLE 3

/* Line and column of the place's start are the last two of every answer, but of a stored reading's and a shipping's, which begin with a reading's numbers: 1, 1 where the place is 0, 0, and the end's where a load is accepted. */
#define QUILTRUDDER_READING_LINE 41
#define QUILTRUDDER_READING_COLUMN 42
#define QUILTRUDDER_VALIDITY_LINE 4
#define QUILTRUDDER_VALIDITY_COLUMN 5
#define QUILTRUDDER_COUNTED_LINE 6 /* of the faults, of the report and of a value */
#define QUILTRUDDER_COUNTED_COLUMN 7
#define QUILTRUDDER_MARKING_LINE 4
#define QUILTRUDDER_MARKING_COLUMN 5
#define QUILTRUDDER_NEXT_LINE 6
#define QUILTRUDDER_NEXT_COLUMN 7
#define QUILTRUDDER_PRUNING_LINE 4
#define QUILTRUDDER_PRUNING_COLUMN 5
#define QUILTRUDDER_PLACE_LINE 2
#define QUILTRUDDER_PLACE_COLUMN 3
#define QUILTRUDDER_SPOT_LINE 0
#define QUILTRUDDER_SPOT_COLUMN 1

/* The numbers that answers begin with. */
#define QUILTRUDDER_ACCEPTED 0 /* nothing is refused */
#define QUILTRUDDER_ILLEGAL_INTEGER 1 /* a whole number that fits 64 bits is wanted */
#define QUILTRUDDER_ILLEGAL_NAME 2 /* a name is wanted */
#define QUILTRUDDER_ILLEGAL_STRING 3 /* a token is wanted */
#define QUILTRUDDER_INCOMPLETE_RULE 4 /* the source ends inside a rule */
#define QUILTRUDDER_INCOMPLETE_COMMENT 5 /* a comment does not end */
#define QUILTRUDDER_INCOMPLETE_ACTION 6 /* a brace does not close */
#define QUILTRUDDER_MISSING_COLON 7 /* a colon is wanted behind the rule's name */
#define QUILTRUDDER_MISSING_RIGHT_ARROW 8 /* -> is wanted behind the rule's name */
#define QUILTRUDDER_NON_EMPTY_PRODUCTION 9 /* %empty in a production that is not empty */
#define QUILTRUDDER_PREMATURE_END 10 /* the source ends inside the declarations */
#define QUILTRUDDER_PRODUCTION_NOT_TERMINATED 11 /* only | or ; may stand behind an action */
#define QUILTRUDDER_UNKNOWN_DECLARATION 12 /* no declaration of this kind */
#define QUILTRUDDER_REACHED_EOL 13 /* a line end where none may stand */
#define QUILTRUDDER_INVALID_STRING 14 /* a string is wanted: no opening quote */
#define QUILTRUDDER_UNKNOWN_SYMBOL 15 /* a rule's name or a quoted token is wanted */
#define QUILTRUDDER_NO_SINGLE_COLON 16 /* no single colon follows */
#define QUILTRUDDER_STRING_LINE_END 17 /* a line end inside a string */
#define QUILTRUDDER_STRING_ESCAPE 18 /* a backslash in a string before anything but a quote */
#define QUILTRUDDER_STRING_NOT_CLOSED 19 /* a string that is not closed */
#define QUILTRUDDER_REPEATED_PRECEDENCE 20 /* given before, as are those to 27 */
#define QUILTRUDDER_REPEATED_AVOID_INSERT 21
#define QUILTRUDDER_REPEATED_IMPLICIT_TOKENS 22
#define QUILTRUDDER_REPEATED_EXPECT 23
#define QUILTRUDDER_REPEATED_EXPECT_RR 24
#define QUILTRUDDER_REPEATED_START 25
#define QUILTRUDDER_REPEATED_ACTIONTYPE 26
#define QUILTRUDDER_REPEATED_EPP 27
#define QUILTRUDDER_NO_START_RULE 30 /* validate: there is no start rule */
#define QUILTRUDDER_INVALID_START_RULE 31 /* the start rule does not exist */
#define QUILTRUDDER_UNKNOWN_RULE_REF 32 /* a rule that does not exist */
#define QUILTRUDDER_UNKNOWN_TOKEN 33 /* a token that does not exist */
#define QUILTRUDDER_NO_PREC_FOR_TOKEN 34 /* a %prec names a token without a precedence */
#define QUILTRUDDER_UNKNOWN_EPP 35 /* an %epp key that is no token */
#define QUILTRUDDER_NOT_UTF8 40 /* not UTF-8 from this byte on */
#define QUILTRUDDER_TOO_LONG 41 /* more than QUILTRUDDER_SOURCE_BYTES */
#define QUILTRUDDER_NO_ROOM 42 /* a lent table is full */
#define QUILTRUDDER_BAD_KIND 43 /* no such kind */
#define QUILTRUDDER_UNSOUND 44 /* numbers, tables and indexes that are no reading of this source */
#define QUILTRUDDER_BAD_INDEX 45 /* an index whose size is no power of two, or below twice the rows that its table has room for */
#define QUILTRUDDER_TAG 50 /* kind 4: a tag that its line does not close, or none behind %type */
#define QUILTRUDDER_PROLOGUE_NOT_CLOSED 51 /* kind 4: %{ without its %} */
#define QUILTRUDDER_UNION 52 /* kind 4: %union without a body, or one that does not close */
#define QUILTRUDDER_NO_BLOCKS 60 /* load_stored: no bytes, or no whole number of blocks */
#define QUILTRUDDER_BLOCK_NUMBER 61 /* a block with a wrong number */
#define QUILTRUDDER_BLOCK_CHECK 62 /* a block with a wrong check */
#define QUILTRUDDER_BLOCK_CONTENT 63 /* content that counts and source length do not fill exactly, padding, a kind or a lead */

/* In a reading: the ten counts of tables 1 to 10, and then the singles. Each single is led by its flag: 0 absent, its numbers zero; 1 given. */
#define QUILTRUDDER_COUNTS 4
#define QUILTRUDDER_START 14 /* flag, from, to */
#define QUILTRUDDER_EXPECT 17 /* flag, value's low half, value's high half, from, to */
#define QUILTRUDDER_EXPECT_RR 22 /* as QUILTRUDDER_EXPECT */
#define QUILTRUDDER_PARAM 27 /* parse parameter: flag, name from, to, type from, to */
#define QUILTRUDDER_GENERICS 32 /* parse generics: flag, from, to */
#define QUILTRUDDER_PROGRAMS 35 /* flag, from, to */
#define QUILTRUDDER_POSIX_COUNTS 38 /* the three counts of tables 15 to 17 */

/* Behind a reading's numbers, of a stored one. */
#define QUILTRUDDER_STORED_KIND 43
#define QUILTRUDDER_STORED_LENGTH 44 /* of the source */

/* Behind a reading's numbers, of a shipping: how many bytes were sent, by its low and high 32 bits; 0 after a refusal. */
#define QUILTRUDDER_SENT_LOW 43
#define QUILTRUDDER_SENT_HIGH 44

/* The catalogue's blocks (docs/FORMAT.md): how many a reading takes whose rows have so many cells together, with a source of so many bytes. */
#define QUILTRUDDER_BLOCK_BYTES 512
#define QUILTRUDDER_BLOCKS(cells, source) (((size_t)156 + 4 * (size_t)(cells) + (size_t)(source) + 503) / 504)

/* In the answers of the faults, of the report and of a value: the count, by its low and high 32 bits; 0 after a refusal. */
#define QUILTRUDDER_COUNT_LOW 4
#define QUILTRUDDER_COUNT_HIGH 5

/* In the answer of the next unused row: its kind (1 rule, 2 token) and row; both 0 where there is none. */
#define QUILTRUDDER_NEXT_KIND 4
#define QUILTRUDDER_NEXT_ROW 5

/* The record of where a walk over the unused rows stands: how many rule rows and how many token rows it has passed. A fresh one is all zero. */
#define QUILTRUDDER_STANDING_CELLS 2

/* Reads a source of kind 1, 2, 3 or 4 into the lent tables and indexes, whatever they held, and where that is accepted validates what was read. `i1` is the index of table 1 and `i7` that of table 7: slots by which a name is
 * found, each 0 or a row number plus one.
 *
 * Number 0: read and valid, and the place is the end reached, twice. 30 to 35: all of it was read and it is not valid; the place is validate's, and the tables hold the full reading. 20 to 27: all of it was read and something was given twice; the place is the
 * first one's, table 10 lists the repeats, and the tables hold the full reading. 1 to 19, 40, 41, 43, 45, 50 to 52: refused at the place. 42: the table
 * that is named has no room for the row at the place. It never answers 44. After a refusal but 20 to 27 and 30 to 35, tables 1 to 9 and 15 to 17, both indexes and the counts of those tables are zero and the singles
 * absent, and repeats met before stay listed.
 *
 * Kinds 1 to 3 add no row to tables 15 to 17: for them lend slices of no length. Of the functions below only quiltrudder_store and quiltrudder_load_stored are lent the three. */
void quiltrudder_load(
    const uint8_t *src, size_t src_length,
    uint32_t kind,
    uint32_t *t1, size_t t1_length,
    uint32_t *t2, size_t t2_length,
    uint32_t *t3, size_t t3_length,
    uint32_t *t4, size_t t4_length,
    uint32_t *t5, size_t t5_length,
    uint32_t *t6, size_t t6_length,
    uint32_t *t7, size_t t7_length,
    uint32_t *t8, size_t t8_length,
    uint32_t *t9, size_t t9_length,
    uint32_t *t10, size_t t10_length,
    uint32_t *i1, size_t i1_length,
    uint32_t *i7, size_t i7_length,
    uint32_t *t15, size_t t15_length,
    uint32_t *t16, size_t t16_length,
    uint32_t *t17, size_t t17_length,
    uint32_t answer[QUILTRUDDER_READING_CELLS]);

/* The functions below take a reading: the numbers that quiltrudder_load wrote, and the tables and indexes as it left them. Of the numbers they look at the
 * counts and the singles only; a flag of 0 is absent, any other is given. They test first whether these are sound, so numbers, tables and indexes
 * made by hand are safe too: where they are not sound, number 44, or for a name an empty place. They change nothing lent but what is named. */

/* Whether a reading is valid, or the first that it lacks: number 0, 30 to 35 or 44, with its place. The table number is 0. For tables from elsewhere: what quiltrudder_load answers 0 for is valid. */
void quiltrudder_validate(
    const uint8_t *src, size_t src_length,
    const uint32_t reading[QUILTRUDDER_READING_CELLS],
    const uint32_t *t1, size_t t1_length,
    const uint32_t *t2, size_t t2_length,
    const uint32_t *t3, size_t t3_length,
    const uint32_t *t4, size_t t4_length,
    const uint32_t *t5, size_t t5_length,
    const uint32_t *t6, size_t t6_length,
    const uint32_t *t7, size_t t7_length,
    const uint32_t *t8, size_t t8_length,
    const uint32_t *t9, size_t t9_length,
    const uint32_t *t10, size_t t10_length,
    const uint32_t *i1, size_t i1_length,
    const uint32_t *i7, size_t i7_length,
    uint32_t answer[QUILTRUDDER_VALIDITY_CELLS]);

/* Every fault of a reading, into `t14`: rows of number, from and to, one for each test of validate that fails, in the order of the tests; the cells
 * behind them are zero. The first row has validate's number, and there is none exactly where validate answers 0. A 33 or 34 of a %prec has the place
 * of its name here, and a %prec has one of the two at most. A row for each test is always enough:
 * 1 + the counts of tables 5, 6, 8 and 9 (QUILTRUDDER_TESTS).
 *
 * Number 0 with the count of rows; 44; 42 with table 14 where `t14` has too few rows. After a refusal `t14` is zero. */
#define QUILTRUDDER_TESTS(reading) \
    (1 + (size_t)(reading)[QUILTRUDDER_COUNTS + 4] + (reading)[QUILTRUDDER_COUNTS + 5] + (reading)[QUILTRUDDER_COUNTS + 7] + (reading)[QUILTRUDDER_COUNTS + 8])
void quiltrudder_faults(
    const uint8_t *src, size_t src_length,
    const uint32_t reading[QUILTRUDDER_READING_CELLS],
    const uint32_t *t1, size_t t1_length,
    const uint32_t *t2, size_t t2_length,
    const uint32_t *t3, size_t t3_length,
    const uint32_t *t4, size_t t4_length,
    const uint32_t *t5, size_t t5_length,
    const uint32_t *t6, size_t t6_length,
    const uint32_t *t7, size_t t7_length,
    const uint32_t *t8, size_t t8_length,
    const uint32_t *t9, size_t t9_length,
    const uint32_t *t10, size_t t10_length,
    const uint32_t *i1, size_t i1_length,
    const uint32_t *i7, size_t i7_length,
    uint32_t *t14, size_t t14_length,
    uint32_t answer[QUILTRUDDER_FAULTS_CELLS]);

/* The unused rules and tokens of a valid reading, into `out`: rows of kind and row number, rules first, each once, in ascending order; the cells
 * behind them are zero. A token is used where it is a symbol of a production of a rule that a chain of productions from the start rule reaches,
 * or the name of the %prec that such a production holds. `work` holds a bit for each rule and token that is used so, 32 to a word, the lowest
 * first, rules' words before tokens' words; further words are zero.
 *
 * Number 0 with the count of rows; 44; validate's number and place; 42 with table 11 where `work` has too few words; 42 with table 12 where `out`
 * has too few rows. After a refusal `work` and `out` are zero. */
void quiltrudder_report(
    const uint8_t *src, size_t src_length,
    const uint32_t reading[QUILTRUDDER_READING_CELLS],
    const uint32_t *t1, size_t t1_length,
    const uint32_t *t2, size_t t2_length,
    const uint32_t *t3, size_t t3_length,
    const uint32_t *t4, size_t t4_length,
    const uint32_t *t5, size_t t5_length,
    const uint32_t *t6, size_t t6_length,
    const uint32_t *t7, size_t t7_length,
    const uint32_t *t8, size_t t8_length,
    const uint32_t *t9, size_t t9_length,
    const uint32_t *t10, size_t t10_length,
    const uint32_t *i1, size_t i1_length,
    const uint32_t *i7, size_t i7_length,
    uint32_t *work, size_t work_length,
    uint32_t *out, size_t out_length,
    uint32_t answer[QUILTRUDDER_LISTING_CELLS]);

/* The report's `work` of a valid reading without the list, for a caller that has no room for one.
 *
 * Number 0; 44; validate's number and place; 42 with table 11 where `work` has too few words. After a refusal `work` is zero. */
void quiltrudder_mark(
    const uint8_t *src, size_t src_length,
    const uint32_t reading[QUILTRUDDER_READING_CELLS],
    const uint32_t *t1, size_t t1_length,
    const uint32_t *t2, size_t t2_length,
    const uint32_t *t3, size_t t3_length,
    const uint32_t *t4, size_t t4_length,
    const uint32_t *t5, size_t t5_length,
    const uint32_t *t6, size_t t6_length,
    const uint32_t *t7, size_t t7_length,
    const uint32_t *t8, size_t t8_length,
    const uint32_t *t9, size_t t9_length,
    const uint32_t *t10, size_t t10_length,
    const uint32_t *i1, size_t i1_length,
    const uint32_t *i7, size_t i7_length,
    uint32_t *work, size_t work_length,
    uint32_t answer[QUILTRUDDER_MARKING_CELLS]);

/* The unused rows one by one. `work` is what the report or the marking left, and `at` the record of where the walk stands, all zero for a fresh
 * one. Each call moves the record on and answers number 0 with kind and row of the next unused rule or token, in the report's order; behind the
 * last one kind 0, row 0, and the record stays, so that each further call says so again. With the tables and bits unchanged, calls from a fresh
 * record give the rows of the report.
 *
 * It goes by the bits that are lent, whatever they are: the next row is the first rule not yet passed, else the first token not yet passed, whose
 * bit is 0 and that no declaration excuses. 44 also where `at` is past the counts or `work` has too few words; the record stays. */
void quiltrudder_next_unused(
    const uint8_t *src, size_t src_length,
    const uint32_t reading[QUILTRUDDER_READING_CELLS],
    const uint32_t *t1, size_t t1_length,
    const uint32_t *t2, size_t t2_length,
    const uint32_t *t3, size_t t3_length,
    const uint32_t *t4, size_t t4_length,
    const uint32_t *t5, size_t t5_length,
    const uint32_t *t6, size_t t6_length,
    const uint32_t *t7, size_t t7_length,
    const uint32_t *t8, size_t t8_length,
    const uint32_t *t9, size_t t9_length,
    const uint32_t *t10, size_t t10_length,
    const uint32_t *i1, size_t i1_length,
    const uint32_t *i7, size_t i7_length,
    const uint32_t *work, size_t work_length,
    uint32_t at[QUILTRUDDER_STANDING_CELLS],
    uint32_t answer[QUILTRUDDER_NEXT_CELLS]);

/* Drops the rows of a valid reading that nothing keeps. Rows stay for the start rule, for each rule that %expect-unused excuses and for every rule that a chain of
 * productions from one of these reaches, with their productions and symbols; for the tokens that those use, as the report has it; and for the tokens that %expect-unused or
 * %implicit_tokens excuses. The rows of tables 3 and 5 whose name is that of a token that goes go with it; tables 2, 4, 6 and 10 stay as they are. What is left closes up in its old order, the
 * rows freed are zero, row numbers, ranges of symbols and both indexes follow, and the ten counts in `reading` are rewritten; nothing else in `reading` changes. `work` holds a bit for each
 * rule and token that stayed, by its old number, laid out as for the report. What is left is a valid reading, which the other functions take; pruning it again changes nothing.
 *
 * Number 0; 44; validate's number and place; 42 with table 11 where `work` has too few words. After a refusal nothing is changed but `work`, which is zero. */
void quiltrudder_prune(
    const uint8_t *src, size_t src_length,
    uint32_t reading[QUILTRUDDER_READING_CELLS],
    uint32_t *t1, size_t t1_length,
    const uint32_t *t2, size_t t2_length,
    uint32_t *t3, size_t t3_length,
    const uint32_t *t4, size_t t4_length,
    uint32_t *t5, size_t t5_length,
    const uint32_t *t6, size_t t6_length,
    uint32_t *t7, size_t t7_length,
    uint32_t *t8, size_t t8_length,
    uint32_t *t9, size_t t9_length,
    const uint32_t *t10, size_t t10_length,
    uint32_t *i1, size_t i1_length,
    uint32_t *i7, size_t i7_length,
    uint32_t *work, size_t work_length,
    uint32_t answer[QUILTRUDDER_PRUNING_CELLS]);

/* Writes a reading of kind 1 to 4, tables 15 to 17 with it, and its source into the catalogue's blocks. The answer has number, place and table, how many blocks were written (QUILTRUDDER_COUNT_LOW and
 * _HIGH), line and column; bytes of `blocks` behind them are zero. Equal kind, source, counts, singles and rows give equal blocks, whatever was lent.
 *
 * Number 0; 43; 44, for tables 15 to 17 too; 42 with table 18 where `blocks` is too short. After a refusal `blocks` is zero. */
void quiltrudder_store(
    const uint8_t *src, size_t src_length,
    uint32_t kind,
    const uint32_t reading[QUILTRUDDER_READING_CELLS],
    const uint32_t *t1, size_t t1_length,
    const uint32_t *t2, size_t t2_length,
    const uint32_t *t3, size_t t3_length,
    const uint32_t *t4, size_t t4_length,
    const uint32_t *t5, size_t t5_length,
    const uint32_t *t6, size_t t6_length,
    const uint32_t *t7, size_t t7_length,
    const uint32_t *t8, size_t t8_length,
    const uint32_t *t9, size_t t9_length,
    const uint32_t *t10, size_t t10_length,
    const uint32_t *i1, size_t i1_length,
    const uint32_t *i7, size_t i7_length,
    const uint32_t *t15, size_t t15_length,
    const uint32_t *t16, size_t t16_length,
    const uint32_t *t17, size_t t17_length,
    uint8_t *blocks, size_t blocks_length,
    uint32_t answer[QUILTRUDDER_STORING_CELLS]);

/* Reads a reading back from blocks, whatever the lent memory held: the same rows and source as were written, zeros behind them, and the indexes as load fills them. The answer begins with the 43
 * numbers of a reading, which the other functions take, and has kind and source length behind them; every place is 0, 0, at line 1 and column 1. `src` may be longer than the source.
 *
 * Number 0; 60; block by block 61 and 62; 63; 45; 42 with the lowest table that has no room, then 19 for the source; 44. After a refusal everything lent is zero, and so are all numbers behind the first four
 * but line and column. One altered byte anywhere is refused. */
void quiltrudder_load_stored(
    const uint8_t *blocks, size_t blocks_length,
    uint8_t *src, size_t src_length,
    uint32_t *t1, size_t t1_length,
    uint32_t *t2, size_t t2_length,
    uint32_t *t3, size_t t3_length,
    uint32_t *t4, size_t t4_length,
    uint32_t *t5, size_t t5_length,
    uint32_t *t6, size_t t6_length,
    uint32_t *t7, size_t t7_length,
    uint32_t *t8, size_t t8_length,
    uint32_t *t9, size_t t9_length,
    uint32_t *t10, size_t t10_length,
    uint32_t *i1, size_t i1_length,
    uint32_t *i7, size_t i7_length,
    uint32_t *t15, size_t t15_length,
    uint32_t *t16, size_t t16_length,
    uint32_t *t17, size_t t17_length,
    uint32_t answer[QUILTRUDDER_STORED_CELLS]);

/* Reads a source of kind 1, 2 or 3 into the lent tables and indexes as quiltrudder_load does, but validates nothing, and where that is accepted writes it again into `out`, without comments and in one form: a declaration a line, a production a
 * line, single spaces, all in the order and spelling of the source; %token and %expect-unused with no name are left out. Bytes of `out` behind the text are zero. The text is a source of the same kind that reads to the same tables and singles, each
 * place taken for the bytes that it denotes and a production's own place aside; shipping it again gives the same bytes. QUILTRUDDER_SOURCE_BYTES of `out` are always enough; the text may be longer than the source.
 *
 * The answer begins with the 43 numbers of a reading, which the functions above and below take, and has how many bytes were sent (QUILTRUDDER_SENT_LOW and _HIGH) behind them; line and column stand where a reading has them.
 *
 * Number 0, at 0, 0; 43 for any other kind, kind 4 too, and tables, indexes and all counts are zero and the singles absent; what the read refuses, with its place and table: 1 to 27, 40 to 42, 45; 41 at 0, 0 where the text is longer than
 * QUILTRUDDER_SOURCE_BYTES; 42 with table 13 where it is longer than `out`. After the last three tables, indexes, counts and singles are as the read left them. After a refusal `out` is zero. */
void quiltrudder_ship(
    const uint8_t *src, size_t src_length,
    uint32_t kind,
    uint32_t *t1, size_t t1_length,
    uint32_t *t2, size_t t2_length,
    uint32_t *t3, size_t t3_length,
    uint32_t *t4, size_t t4_length,
    uint32_t *t5, size_t t5_length,
    uint32_t *t6, size_t t6_length,
    uint32_t *t7, size_t t7_length,
    uint32_t *t8, size_t t8_length,
    uint32_t *t9, size_t t9_length,
    uint32_t *t10, size_t t10_length,
    uint32_t *i1, size_t i1_length,
    uint32_t *i7, size_t i7_length,
    uint8_t *out, size_t out_length,
    uint32_t answer[QUILTRUDDER_SHIPPING_CELLS]);

/* The place of the name of a row of table 1 or 7: from, to, line, column. 0, 0, 1, 1 for another table, a row that is not below the table's count, or unsound
 * tables. The source's bytes at that place are the name. */
void quiltrudder_name(
    const uint8_t *src, size_t src_length,
    const uint32_t reading[QUILTRUDDER_READING_CELLS],
    const uint32_t *t1, size_t t1_length,
    const uint32_t *t2, size_t t2_length,
    const uint32_t *t3, size_t t3_length,
    const uint32_t *t4, size_t t4_length,
    const uint32_t *t5, size_t t5_length,
    const uint32_t *t6, size_t t6_length,
    const uint32_t *t7, size_t t7_length,
    const uint32_t *t8, size_t t8_length,
    const uint32_t *t9, size_t t9_length,
    const uint32_t *t10, size_t t10_length,
    const uint32_t *i1, size_t i1_length,
    const uint32_t *i7, size_t i7_length,
    uint32_t table,
    uint32_t row,
    uint32_t answer[QUILTRUDDER_PLACE_CELLS]);

/* The value of a row of table 5 without its quotes and escapes, into `out`; the bytes behind it are zero.
 *
 * Number 0 with the count of bytes; 44, also where the row is not below the count or its place is no string; 42 with table 13 where `out` is too
 * short. After a refusal `out` is zero. */
void quiltrudder_epp_value(
    const uint8_t *src, size_t src_length,
    const uint32_t reading[QUILTRUDDER_READING_CELLS],
    const uint32_t *t1, size_t t1_length,
    const uint32_t *t2, size_t t2_length,
    const uint32_t *t3, size_t t3_length,
    const uint32_t *t4, size_t t4_length,
    const uint32_t *t5, size_t t5_length,
    const uint32_t *t6, size_t t6_length,
    const uint32_t *t7, size_t t7_length,
    const uint32_t *t8, size_t t8_length,
    const uint32_t *t9, size_t t9_length,
    const uint32_t *t10, size_t t10_length,
    const uint32_t *i1, size_t i1_length,
    const uint32_t *i7, size_t i7_length,
    uint32_t row,
    uint8_t *out, size_t out_length,
    uint32_t answer[QUILTRUDDER_VALUATION_CELLS]);

/* Line and column of the byte at offset `at`, for the places that stand in rows; of the byte that would come next where `at` is the source's end or
 * behind it. In a source of more than QUILTRUDDER_SOURCE_BYTES they are 1, 1. */
void quiltrudder_locate(
    const uint8_t *src, size_t src_length,
    uint32_t at,
    uint32_t answer[QUILTRUDDER_SPOT_CELLS]);

#ifdef __cplusplus
}
#endif

#endif
