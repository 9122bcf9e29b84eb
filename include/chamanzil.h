/* Chamanzil: the 80 mm DVD channel (ECMA-268), from main data to code bits and back.
 *
 * The functions of crates/ffi/out/libffi.a, which bin/library builds. Each is proved to do what its contract in crates/ffi/src says, never to do
 * anything undefined, and to return; the contracts cite definitions taken from the standard and from documents 01 and 02. This file repeats them in words.
 *
 * Buffers. A buffer is two arguments: a pointer to its first byte and its length. A pointer is never NULL, not even where the length is 0. A buffer that is
 * written (no `const`) overlaps no other argument; nor does a record. What was written is all of a buffer or nothing, and of the capture reader's as much as its
 * counts say: no call leaves a buffer filled in part. A `bool` is 0 or 1 and nothing else.
 *
 * Answers. 0: done. 1 to 14: refused, by the numbers below, and then every buffer and record is as it was, except where a function says otherwise. Where
 * several numbers apply, the lowest is given, but 10 goes right after 3, 11 after 1 and before 4, and 9 before 7 and 8. Where none applies, nothing is refused.
 * Every refusal is below 256; from 256 on are the outcomes of a call that was not refused.
 *
 * Erasures. The marks of document 02: one byte for each byte of a sector, a block or a row, in the same order, which is 1 where the Code Word is in no table and
 * 0 elsewhere. The sector reader fills them, and the repair of the rows uses them: with f marked bytes, wrong or right, and e wrong bytes without a mark, a row is
 * repaired while 2e + f is at most 10. So ten marked bytes come back, and without marks five. Who has no marks passes zeros.
 *
 * Runs. A run is a list of blocks that follow on: the first number of each is 16 more than that of the block before. Its stream has the sixteen sectors of each
 * block, CHAMANZIL_BLOCK_STREAM bytes a block, and the closing code after the last. Block k of it, from 0, is read from the CHAMANZIL_STREAM bytes at
 * CHAMANZIL_BLOCK_STREAM k: its sectors and the four bytes after them, which are the next block's SYNC Code or the closing code.
 *
 * Threads. The functions keep no state, take no lock and allocate nothing: any number of threads may call them at once, on buffers of their own (a buffer that
 * is only read may be shared). A call needs less than 256 KiB of stack.
 *
 * C99 or later, and C++. x86-64 Linux. Link with crates/ffi/out/libffi.a; nothing else is needed.
 */
#ifndef CHAMANZIL_H
#define CHAMANZIL_H

#include <stdbool.h>
#include <stddef.h>
#include <stdint.h>

#ifdef __cplusplus
extern "C" {
#endif

/* ---- lengths */

enum {
    CHAMANZIL_SECTORS = 16,         /* sectors of a block */
    CHAMANZIL_MAIN = 32768,         /* main data of a block: 16 sectors of 2,048 bytes */
    CHAMANZIL_BLOCK = 37856,        /* an ECC Block in recording order: 208 rows of 182 bytes */
    CHAMANZIL_SECTOR = 2366,        /* a sector of a block, before the channel: 13 rows */
    CHAMANZIL_FRAME = 91,           /* a Sync Frame, before the channel: half a row */
    CHAMANZIL_FRAME_STREAM = 186,   /* a Sync Frame of a stream */
    CHAMANZIL_SECTOR_STREAM = 4836, /* a sector of a stream: 26 Sync Frames of 186 bytes */
    CHAMANZIL_SECTOR_READ = 4838,   /* the same with the two bytes after it */
    CHAMANZIL_CLOSING = 4,          /* the closing code */
    CHAMANZIL_BLOCK_STREAM = 77376, /* a block in a run's stream: 16 sectors */
    CHAMANZIL_STREAM = 77380,       /* the same with the four bytes after it */
    CHAMANZIL_ROW_DATA = 172,       /* a row without its parity, */
    CHAMANZIL_ROW_PARITY = 10,
    CHAMANZIL_ROW = 182,            /* and with it */
    CHAMANZIL_COLUMN_DATA = 192,    /* a column without its parity, */
    CHAMANZIL_COLUMN_PARITY = 16,
    CHAMANZIL_COLUMN = 208,         /* and with it */
    CHAMANZIL_ID_BYTES = 4,         /* an ID, */
    CHAMANZIL_IED_BYTES = 2,        /* and its IED */
    CHAMANZIL_SECTOR_REPORT = 2,    /* numbers in a report: of a sector, */
    CHAMANZIL_REPAIR_REPORT = 6,    /* of the repairer, */
    CHAMANZIL_BLOCK_REPORT = 8,     /* of the whole-block reader, */
    CHAMANZIL_CAPTURE_REPORT = 2    /* of the capture reader */
};

/* ---- the most bytes of a capture */

#define CHAMANZIL_CAPTURE UINT64_C(1099511627776)

/* ---- the most sectors of a run */

enum { CHAMANZIL_RUN_SECTORS = 16777216 };

/* ---- done, and the refusals */

enum {
    CHAMANZIL_DONE = 0,
    CHAMANZIL_LENGTH = 1,         /* a buffer has another length than stated */
    CHAMANZIL_NUMBER = 2,         /* the first number is no multiple of 16, or over 16,777,200 */
    CHAMANZIL_INFORMATION = 3,    /* the Sector Information has a bit outside 2D (hexadecimal) */
    CHAMANZIL_IED = 4,            /* a frame's IED differs */
    CHAMANZIL_ID = 5,             /* a frame's number or Information is not the one due, or frame 0's is none that a block may have */
    CHAMANZIL_EDC = 6,            /* a frame's EDC differs */
    CHAMANZIL_ENDED = 7,          /* a sector after number 16,777,216 of the run, or anything after closing */
    CHAMANZIL_UNFINISHED = 8,     /* closing at no sectors, or at a count that is no multiple of 16 */
    CHAMANZIL_RECORD = 9,         /* a record that the writer never hands out */
    CHAMANZIL_SEQUENCE = 10,      /* the first number is not the previous block's first number plus 16 */
    CHAMANZIL_ERASURE = 11,       /* a mark is neither 0 nor 1 */
    CHAMANZIL_NOT_TRIED = 12,     /* a take, and no trial is marked in the record */
    CHAMANZIL_OTHER_DSV = 13,     /* a take of a sector whose DSV is not the one that the trial gave */
    CHAMANZIL_STRETCHES = 14      /* a capture has more stretches than the lent list has entries */
};

/* ---- outcomes of a row or a column that was no code word, above every refusal */

enum {
    CHAMANZIL_CORRECTED = 256,     /* it became the code word near it */
    CHAMANZIL_UNCORRECTABLE = 257, /* there is none near enough, and it stays as it was */
    CHAMANZIL_HEAVIER = 258        /* of the light repair: there is none within two bytes, and it stays as it was */
};

/* ---- what a Code Word is read as where it is in no table; every other reading is a byte, 0 to 255 */

enum { CHAMANZIL_UNKNOWN_WORD = 256 };

/* ---- from main data to a stream */

/* The block maker (clauses 16 to 19). `main` has CHAMANZIL_MAIN bytes, `out` CHAMANZIL_BLOCK. `first` is the number of the block's first sector, `info` the
 * Sector Information byte. `follows` says whether a block comes before in the run; `previous` is that block's first number, which counts only then, and `first`
 * has to be 16 more (4,294,967,280 is followed by nothing: the sum does not wrap). 0, 1, 2, 3 or 10, in this order where several apply. After 0 `out` holds the
 * block in recording order; after a refusal it is as it was. */
uint32_t chamanzil_encode_block(const uint8_t *main, size_t main_len, bool follows, uint32_t previous, uint32_t first, uint8_t info, uint8_t *out, size_t out_len);

/* The formatter, for the run of one block: the block maker with none before, the writer from a new record, and closing, in one call. `main` has CHAMANZIL_MAIN
 * bytes, `out` CHAMANZIL_STREAM. 0, 1, 2 or 3. After 0 `out` holds the sixteen sectors and the closing code; after a refusal it is as it was. */
uint32_t chamanzil_format_block(const uint8_t *main, size_t main_len, uint32_t first, uint8_t info, uint8_t *out, size_t out_len);

/* The writer's record. The caller keeps it for as long as the writer runs, over all blocks of a run, and lends it to each call, by a pointer that is never NULL.
 * A call that answers 0 leaves the next record there, and a refusal leaves it as it was. The members may be read, kept elsewhere and put back at any time. A
 * record that no writer hands out is refused with 9: a State that is not 1 to 4, a level that is not 0 or 1, more than CHAMANZIL_RUN_SECTORS sectors, closed at 0
 * or at a count that is no multiple of 16, a DSV over 38,688 a sector (and 32 if closed) to either side, a peak below the absolute DSV (by more than 32 if closed)
 * or over 38,688 a sector. The mark is not looked at for 9. `closed` and `marked` hold 0 or 1 and nothing else. The bytes between the members have no meaning:
 * compare members. */
struct chamanzil_record {
    uint8_t state;    /* the State prescribed next, 1 to 4 */
    uint8_t level;    /* the NRZI level, 0 or 1 */
    int64_t dsv;      /* the Digital Sum Value so far */
    uint32_t sectors; /* sectors of the run written, 0 to 16,777,216 */
    bool closed;      /* whether the closing code is written */
    uint64_t peak;    /* the greatest absolute DSV at the end of a Sync Frame so far, 0 before the first; the closing code does not count */
    bool marked;      /* whether a trial is marked */
    int64_t mark;     /* the DSV that it gave, 0 where none is marked */
};

/* The record before the first sector of a run: State 1, level 0, DSV 0, no sector, not closed, peak 0, no mark. What `kept` held does not matter, but for `closed`
 * and `marked`, which hold 0 or 1 as always. */
void chamanzil_new_record(struct chamanzil_record *kept);

/* A sector by the two-stream rule of clause 22, in two calls: a trial, and a take. `bytes` has CHAMANZIL_SECTOR bytes (sector k of a block starts at byte 2366 k),
 * `out` CHAMANZIL_SECTOR_STREAM. The bytes are the caller's: what block they are of is not looked at.
 *
 * The trial writes nothing; `out` is the buffer that the take would fill, of which only the length is looked at. 0, 1, 9 or 7. After 0 `kept->mark` is the DSV after
 * the sector, and the rest of `kept` is as it was; a second trial replaces the mark. After a refusal `kept` is as it was. */
uint32_t chamanzil_trial(struct chamanzil_record *kept, const uint8_t *bytes, size_t bytes_len, const uint8_t *out, size_t out_len);

/* The take. 0, 1, 9, 7, 12 or 13, in this order where several apply; of bytes that a trial from this record let pass, 0. After 0 `out` holds the sector's code bits,
 * eight to a byte, first bit highest, and `kept` the next record, without a mark. After a refusal both are as they were, the mark too. */
uint32_t chamanzil_take(struct chamanzil_record *kept, const uint8_t *bytes, size_t bytes_len, uint8_t *out, size_t out_len);

/* The sixteen sectors of a block that is made, without trials. `block` has CHAMANZIL_BLOCK bytes, `out` CHAMANZIL_BLOCK_STREAM. 0, 1, 9 or 7, with 7 where sixteen
 * more sectors do not fit. After 0 `out` holds the sectors and `kept` the record after them, without a mark. After a refusal both are as they were. */
uint32_t chamanzil_write_sectors(struct chamanzil_record *kept, const uint8_t *block, size_t block_len, uint8_t *out, size_t out_len);

/* A whole block of a run: the block maker, then sixteen sectors. `main` has CHAMANZIL_MAIN bytes, `out` CHAMANZIL_BLOCK_STREAM; `follows`, `previous`, `first`
 * and `info` are the block maker's. 0, 1, 2, 3, 10, 9 or 7, in this order where several apply: what the maker refuses, then what the writer refuses, with 7 where
 * sixteen more sectors do not fit. A count of sectors that is no multiple of 16 is refused by nothing. After 0 `out` holds the sixteen sectors and `kept` the
 * record after them, without a mark. After a refusal both are as they were. */
uint32_t chamanzil_write_block(struct chamanzil_record *kept, bool follows, uint32_t previous, const uint8_t *main, size_t main_len, uint32_t first, uint8_t info, uint8_t *out, size_t out_len);

/* The closing code after the last block of a run: SY0 of the class that the State prescribes, Primary or Secondary, whichever leaves the lower absolute DSV after
 * its 32 bits; the Primary where both leave the same. `out` has CHAMANZIL_CLOSING bytes. 0, 1, 9, 7 or 8, with `out` and `kept` as above; a mark is dropped. */
uint32_t chamanzil_close(struct chamanzil_record *kept, uint8_t *out, size_t out_len);

/* ---- from a stream back to main data */

/* The sector reader. `stream` has CHAMANZIL_SECTOR_READ bytes, `out` and `erasures` CHAMANZIL_SECTOR each, `report` CHAMANZIL_SECTOR_REPORT numbers. 0 or 1: no
 * damage is refused here. After 0 `out` holds the bytes read, 0 for an unknown word, `erasures` 1 for an unknown word and 0 for any other, and `report` the
 * unknown words and the SYNC places that hold none of the codes due there. After 1 all three are as they were. */
uint32_t chamanzil_read_sector(const uint8_t *stream, size_t stream_len, uint8_t *out, size_t out_len, uint8_t *erasures, size_t erasures_len, uint32_t *report,
    size_t report_len);

/* Two readings of one block, of two drives for instance, pooled before the repair. Each has CHAMANZIL_BLOCK bytes and as many marks, as sixteen calls of the sector
 * reader leave them. 0, 1, or 11 after it for a mark of either reading that is neither 0 nor 1. After 0 `bytes` and `erasures` hold the pooled reading: where both
 * are unmarked and equal, that byte; where exactly one is marked, the other's byte, unmarked; elsewhere 0, marked. After a refusal they are as they were. Which
 * reading is the first does not matter to the result.
 * A row in which every place is right and unmarked in at least one reading, and in which the two together have at most ten unmarked wrong bytes, comes back whole
 * from the repairer; while at most eight rows are not like that it hands out the main data. Pooled with a very bad reading, a good one can be refused that is read
 * alone: a wrong byte without a mark becomes a mark. */
uint32_t chamanzil_pool(uint8_t *bytes, size_t bytes_len, uint8_t *erasures, size_t erasures_len, const uint8_t *second_bytes, size_t second_bytes_len,
    const uint8_t *second_erasures, size_t second_erasures_len);

/* The block repairer. `block` has CHAMANZIL_BLOCK bytes, sixteen answers of the sector reader; `erasures` as many, their marks; `main` CHAMANZIL_MAIN; `report`
 * CHAMANZIL_REPAIR_REPORT numbers. 0, 1, 11, 4, 5 or 6, in this order where several apply. Each row, with f marks, becomes the one code row that differs from it
 * in e bytes without a mark, 2e + f at most 10, or stays; with more than ten marks it stays and is past help, also where it is a code row. Then each of the first
 * 172 columns becomes the code column within eight bytes, or stays: columns have no marks.
 * After 0 `main` holds the main data, `block` the block after both repairs, and `report` the first number, the rows changed, the rows past help, the columns
 * changed, the columns past help, 0. After 4, 5 or 6 `main` is as it was, `block` holds the block after both repairs, and `report` five zeros and the first
 * frame that fails, 0 to 15. After 1 or 11 all three are as they were.
 * A block that is refused with its marks can be one that is read without: a row of more than ten unknown words may be nearly right all the same. Who wants such a
 * block tries again with zeros, on the block as it was read; EDC judges both. */
uint32_t chamanzil_repair_block(uint8_t *block, size_t block_len, const uint8_t *erasures, size_t erasures_len, uint8_t *main, size_t main_len, uint32_t *report,
    size_t report_len);

/* The whole-block reader: sixteen sectors, then the repairer with their marks. `stream` has CHAMANZIL_STREAM bytes, a block's sectors and the four bytes after
 * them, by which the last word is judged: a closing code or the next block's SYNC Code. `block` and `erasures` have CHAMANZIL_BLOCK bytes each, `main`
 * CHAMANZIL_MAIN, `report` CHAMANZIL_BLOCK_REPORT numbers. 0, 1, 4, 5 or 6, with `block` and `main` as the repairer leaves them; what `block` and `erasures` held
 * before does not matter. After 0 `report` holds the first number, the rows changed and past help, the columns changed and past help, the unknown words and the
 * SYNC places without a code due there, summed over the sectors, and 0. After 4, 5 or 6 it holds seven zeros and the frame. After all of these `erasures` holds
 * the marks of the sectors. After 1 all four are as they were. */
uint32_t chamanzil_read_block(const uint8_t *stream, size_t stream_len, uint8_t *block, size_t block_len, uint8_t *erasures, size_t erasures_len, uint8_t *main,
    size_t main_len, uint32_t *report, size_t report_len);

/* ---- a stream without a known start */

/* The capture reader, for what a drive captures from mid frame on, with a clock that slips. `stream` has at most CHAMANZIL_CAPTURE bytes and is looked at bit by
 * bit, first bit highest. A frame of 1,488 bits is taken where any SYNC Code of table 4, both half words, starts it and any stands exactly 1,488 bits later;
 * otherwise the look moves on by one bit. It starts at bit 0, and after a frame taken it moves to the second SYNC Code. `out` has CHAMANZIL_FRAME bytes for every
 * whole CHAMANZIL_FRAME_STREAM of `stream`, `report` CHAMANZIL_CAPTURE_REPORT numbers. `stretches` is the list for the bits in no frame taken: two numbers an
 * entry, a start and a length in bits; a number left over at its end is no entry. stream_len / 186 + 1 entries always suffice. 0, 1, or 14 after it.
 * After 0 `report` holds the counts of frames and of stretches, `out` the frames' bytes in order, CHAMANZIL_FRAME each, 0 for an unknown word, and `stretches` an
 * entry for each stretch, each as long as it can be: no two touch. Their order is not stated. The rest of `out` and of `stretches` is as it was. After a refusal
 * all three are as they were.
 * Let the bits between two neighbouring SYNC Codes of a run's stream be replaced by others, of any number, so that from the first of those codes to the end of the
 * second no further SYNC Code stands, and let its front be cut off at any bit. Then no frame is taken but at a SYNC Code of the run, and every other frame that is
 * left with its SYNC Code and the next one is taken with its bytes. */
uint32_t chamanzil_read_capture(const uint8_t *stream, size_t stream_len, uint8_t *out, size_t out_len, uint64_t *stretches, size_t stretches_len,
    uint64_t *report, size_t report_len);

/* ---- rows and columns of a block */

/* The parity of a row: `word` has CHAMANZIL_ROW_DATA bytes, `out` CHAMANZIL_ROW_PARITY; of a column: CHAMANZIL_COLUMN_DATA and CHAMANZIL_COLUMN_PARITY; the IED
 * of an ID: CHAMANZIL_ID_BYTES and CHAMANZIL_IED_BYTES. 0 or 1; `out` is as it was after 1. */
uint32_t chamanzil_row_parity(const uint8_t *word, size_t word_len, uint8_t *out, size_t out_len);
uint32_t chamanzil_column_parity(const uint8_t *word, size_t word_len, uint8_t *out, size_t out_len);
uint32_t chamanzil_ied(const uint8_t *id, size_t id_len, uint8_t *out, size_t out_len);

/* The repair in place of a row of CHAMANZIL_ROW bytes with as many marks in `erasures`, while 2e + f is at most 10; of a column of CHAMANZIL_COLUMN bytes with at
 * most eight wrong. 0: it was a code word, a row with at most ten marks. CHAMANZIL_CORRECTED: it became the one near it. CHAMANZIL_UNCORRECTABLE: there is none
 * near enough, or a row has more than ten marks, and it is as it was. 1, or 11 after it: another length, or a mark of a row that is neither 0 nor 1, and it is as
 * it was. */
uint32_t chamanzil_correct_row(uint8_t *row, size_t row_len, const uint8_t *erasures, size_t erasures_len);
uint32_t chamanzil_correct_column(uint8_t *column, size_t column_len);

/* The light repair in place of a row of CHAMANZIL_ROW bytes without marks, at most two of them wrong, by formulas that a student can follow with pencil and paper
 * (docs/course/light-repair.md). 0: a code row differs from it in at most two bytes, and it is that now; a code row is repaired to itself. What it is then,
 * chamanzil_correct_row with zeros for marks makes of it too. CHAMANZIL_HEAVIER: there is none that near, and it is as it was. 1: another length, and it is as it
 * was. */
uint32_t chamanzil_correct_light_row(uint8_t *row, size_t row_len);

/* ---- Code Words and streams */

/* The byte that a Code Word stands for where the 16 bits `following` come after it, or CHAMANZIL_UNKNOWN_WORD. */
uint32_t chamanzil_read_word(uint16_t word, uint16_t following);

/* 1 where a stream is no longer than CHAMANZIL_STREAM and has between its ONEs the runs of ZEROs that a block may have: 2 to 10, or the 13 of a SYNC Code at
 * its place; else 0. */
uint32_t chamanzil_zero_runs_hold(const uint8_t *stream, size_t stream_len);

/* 1 where `bytes` has CHAMANZIL_CLOSING bytes, and they are one of the four codes of SY0 in table 4, as a closing code is; else 0. */
uint32_t chamanzil_closing_holds(const uint8_t *bytes, size_t bytes_len);

/* ---- the field of 256 elements, x^8 + x^4 + x^3 + x^2 + 1 */

/* A product; an element to a power (any element to the power 0 is 1). */
uint8_t chamanzil_product(uint8_t a, uint8_t b);
uint8_t chamanzil_power(uint8_t a, uint64_t n);

#ifdef __cplusplus
}
#endif

#endif
