/* Formats a block, sector by sector with trials, damages its stream and reads it back, in one call, sector by sector with the marks of unknown words, from two
 * damaged readings pooled, and as a capture that begins in mid frame; then writes a run of two blocks and reads each, by the calls of chamanzil.h. Exits with 1
 * where anything differs from what is due. It is C99 and also C++: include/run compiles it as both. */
#include "chamanzil.h"

#include <stdio.h>
#include <stdlib.h>
#include <string.h>

static uint8_t main_data[CHAMANZIL_MAIN];
static uint8_t block[CHAMANZIL_BLOCK];
static uint8_t stream[CHAMANZIL_STREAM];
static uint8_t whole[CHAMANZIL_STREAM];
static uint8_t read_block[CHAMANZIL_BLOCK];
static uint8_t erasures[CHAMANZIL_BLOCK];
static uint8_t read_main[CHAMANZIL_MAIN];
static uint8_t run[2 * CHAMANZIL_BLOCK_STREAM + CHAMANZIL_CLOSING];

static void expect(bool holds, const char *what)
{
    if (!holds) {
        fprintf(stderr, "FAILED: %s\n", what);
        exit(1);
    }
}

/* Main data, others for each k. */
static void fill_main(size_t k)
{
    size_t i;
    for (i = 0; i < sizeof main_data; i++) {
        main_data[i] = (uint8_t)(i * (2 * k + 7) + i / 256);
    }
}

/* The trial of sector k of the block: the DSV that it gives. A take before it is refused. */
static int64_t try_sector(struct chamanzil_record *kept, size_t k, const uint8_t *out)
{
    static uint8_t none[CHAMANZIL_SECTOR_STREAM];
    const uint8_t *bytes = block + k * CHAMANZIL_SECTOR;
    struct chamanzil_record before = *kept;
    uint32_t answer = chamanzil_take(kept, bytes, CHAMANZIL_SECTOR, none, sizeof none);
    expect(answer == CHAMANZIL_NOT_TRIED && none[0] == 0, "a take without a trial");
    answer = chamanzil_trial(kept, bytes, CHAMANZIL_SECTOR, out, CHAMANZIL_SECTOR_STREAM);
    expect(answer == CHAMANZIL_DONE && kept->marked, "trial");
    expect(kept->sectors == before.sectors && kept->dsv == before.dsv && kept->peak == before.peak, "a trial changes nothing but the mark");
    kept->mark += 2;
    answer = chamanzil_take(kept, bytes, CHAMANZIL_SECTOR, none, sizeof none);
    expect(answer == CHAMANZIL_OTHER_DSV && none[0] == 0 && kept->marked, "a take of another DSV than the marked one");
    kept->mark -= 2;
    return kept->mark;
}

/* Block maker, sixteen sectors, closing code. */
static void format(uint32_t first, uint8_t info)
{
    struct chamanzil_record kept = {0, 0, 0, 0, false, 0, true, 1};
    size_t k;
    chamanzil_new_record(&kept);
    expect(kept.state == 1 && kept.level == 0 && kept.dsv == 0 && kept.sectors == 0 && !kept.closed && kept.peak == 0, "a new record");
    expect(!kept.marked && kept.mark == 0, "a new record has no mark");
    expect(chamanzil_encode_block(main_data, sizeof main_data, false, 0, first, info, block, sizeof block) == CHAMANZIL_DONE, "encode_block");
    for (k = 0; k < CHAMANZIL_SECTORS; k++) {
        struct chamanzil_record before = kept;
        uint8_t *out = stream + k * CHAMANZIL_SECTOR_STREAM;
        int64_t tried = try_sector(&kept, k, out);
        uint32_t answer = chamanzil_take(&kept, block + k * CHAMANZIL_SECTOR, CHAMANZIL_SECTOR, out, CHAMANZIL_SECTOR_STREAM);
        expect(answer == CHAMANZIL_DONE && kept.sectors == k + 1 && kept.dsv == tried && !kept.marked, "take");
        expect(kept.peak >= before.peak && kept.peak >= (uint64_t)llabs(kept.dsv), "the peak never falls, and the DSV is not above it");
    }
    expect(chamanzil_close(&kept, stream + CHAMANZIL_SECTORS * CHAMANZIL_SECTOR_STREAM, CHAMANZIL_CLOSING) == CHAMANZIL_DONE, "close");
    expect(kept.sectors == CHAMANZIL_SECTORS && kept.closed, "the record after closing");
    expect(chamanzil_close(&kept, stream + CHAMANZIL_SECTORS * CHAMANZIL_SECTOR_STREAM, CHAMANZIL_CLOSING) == CHAMANZIL_ENDED, "closing twice");
}

/* The whole-block reader on so many bytes of a stream, with every buffer at its length. */
static uint32_t read_whole(const uint8_t *from, size_t from_len, uint32_t *report)
{
    return chamanzil_read_block(
        from, from_len, read_block, sizeof read_block, erasures, sizeof erasures, read_main, sizeof read_main, report, CHAMANZIL_BLOCK_REPORT);
}

/* Sixteen calls of the sector reader on the stream, for the block and its marks: how many words are unknown. */
static uint32_t read_sectors(void)
{
    uint32_t report[CHAMANZIL_SECTOR_REPORT] = {0, 0};
    uint32_t unknown = 0;
    size_t k;
    for (k = 0; k < CHAMANZIL_SECTORS; k++) {
        const uint8_t *from = stream + k * CHAMANZIL_SECTOR_STREAM;
        size_t at = k * CHAMANZIL_SECTOR;
        uint32_t answer = chamanzil_read_sector(
            from, CHAMANZIL_SECTOR_READ, read_block + at, CHAMANZIL_SECTOR, erasures + at, CHAMANZIL_SECTOR, report, CHAMANZIL_SECTOR_REPORT);
        expect(answer == CHAMANZIL_DONE, "read_sector");
        unknown += report[0];
    }
    return unknown;
}

/* How many bytes of the block are marked, from one on. A mark is 0 or 1. */
static size_t marks_from(size_t at)
{
    size_t count = 0;
    size_t i;
    for (i = at; i < sizeof erasures; i++) {
        expect(erasures[i] <= 1, "a mark of the sector reader");
        count += erasures[i];
    }
    return count;
}

/* The repairer on the block that was read, by the marks. */
static uint32_t repair(const uint8_t *by, uint32_t *report)
{
    return chamanzil_repair_block(
        read_block, sizeof read_block, by, CHAMANZIL_BLOCK, read_main, sizeof read_main, report, CHAMANZIL_REPAIR_REPORT);
}

/* A row of which ten words are lost comes back by their marks. Without marks the columns have to help. */
static void repair_by_marks(void)
{
    static const uint8_t none[CHAMANZIL_BLOCK] = {0};
    uint32_t report[CHAMANZIL_REPAIR_REPORT] = {0, 0, 0, 0, 0, 0};
    memcpy(stream, whole, sizeof stream);
    memset(stream + 372 + 4, 0, 20); /* row 1, after its SYNC Code; ZEROs are no word */
    expect(read_sectors() == 10 && marks_from(0) == 10, "the marks of ten unknown words");
    expect(erasures[CHAMANZIL_ROW] == 1 && erasures[CHAMANZIL_ROW + 9] == 1, "the places of ten unknown words");
    expect(repair(erasures, report) == CHAMANZIL_DONE && memcmp(read_main, main_data, sizeof main_data) == 0, "the block by its marks");
    expect(report[1] == 1 && report[2] == 0 && report[3] == 0, "the row comes back whole");
    expect(memcmp(read_block, block, sizeof block) == 0, "the block is the one that was made");

    expect(read_sectors() == 10, "the sectors once more");
    expect(repair(none, report) == CHAMANZIL_DONE && memcmp(read_main, main_data, sizeof main_data) == 0, "the block without marks");
    expect(report[1] == 0 && report[2] == 1 && report[3] == 10, "the row is past help, and ten columns mend it");
}

/* A reading of the whole stream in which the first 91 words of twenty rows from row `from` on are lost: how many are unknown. */
static uint32_t read_scratched(size_t from)
{
    size_t row;
    memcpy(stream, whole, sizeof stream);
    for (row = from; row < from + 20; row++) {
        memset(stream + 372 * row + 4, 0, 182);
    }
    return read_sectors();
}

/* Two drives lose twenty rows each, others each: the repairer refuses each reading, and reads them pooled. */
static void pool_readings(void)
{
    static uint8_t second[CHAMANZIL_BLOCK];
    static uint8_t second_erasures[CHAMANZIL_BLOCK];
    uint32_t report[CHAMANZIL_REPAIR_REPORT] = {0, 0, 0, 0, 0, 0};
    uint32_t answer;
    expect(read_scratched(120) == 20 * 91, "the second drive's unknown words");
    memcpy(second, read_block, sizeof second);
    memcpy(second_erasures, erasures, sizeof second_erasures);
    expect(repair(erasures, report) != CHAMANZIL_DONE, "the second drive's reading alone");
    expect(read_scratched(20) == 20 * 91 && repair(erasures, report) != CHAMANZIL_DONE, "the first drive's reading alone");

    expect(read_scratched(20) == 20 * 91, "the first drive's unknown words");
    erasures[7] = 2;
    answer = chamanzil_pool(read_block, sizeof read_block, erasures, sizeof erasures, second, sizeof second, second_erasures, sizeof second_erasures);
    expect(answer == CHAMANZIL_ERASURE && erasures[7] == 2 && marks_from(8) == 20 * 91, "a mark of 2, pooled");
    erasures[7] = 0;
    answer = chamanzil_pool(read_block, sizeof read_block, erasures, sizeof erasures, second, sizeof second, second_erasures, sizeof second_erasures - 1);
    expect(answer == CHAMANZIL_LENGTH && marks_from(0) == 20 * 91, "another length, pooled");
    answer = chamanzil_pool(read_block, sizeof read_block, erasures, sizeof erasures, second, sizeof second, second_erasures, sizeof second_erasures);
    expect(answer == CHAMANZIL_DONE && marks_from(0) == 0 && memcmp(read_block, block, sizeof block) == 0, "two readings, pooled");
    expect(repair(erasures, report) == CHAMANZIL_DONE && report[1] == 0 && memcmp(read_main, main_data, sizeof main_data) == 0, "the pooled reading");
}

/* The block's stream without its first 803 bits, 100 bytes and three bits, as a drive that starts late captures it; filled up with ZEROs. Every frame but the first
 * comes back. A stretch is left before them, of the first one, and one after them, the closing code and the ZEROs. */
static void read_capture(void)
{
    enum { CUT = 803, SIZE = CHAMANZIL_STREAM - CUT / 8, FRAMES = CHAMANZIL_BLOCK / CHAMANZIL_FRAME - 1 };
    static uint8_t capture[SIZE];
    static uint8_t bytes[SIZE / CHAMANZIL_FRAME_STREAM * CHAMANZIL_FRAME];
    uint64_t stretches[6] = {7, 7, 7, 7, 7, 7};
    uint64_t report[CHAMANZIL_CAPTURE_REPORT] = {7, 7};
    uint32_t answer;
    size_t i;
    for (i = 0; i < SIZE; i++) {
        int next = i + 1 < SIZE ? whole[CUT / 8 + i + 1] : 0;
        capture[i] = (uint8_t)((whole[CUT / 8 + i] << CUT % 8) | (next >> (8 - CUT % 8)));
    }
    answer = chamanzil_read_capture(capture, SIZE, bytes, sizeof bytes, stretches, 2, report, CHAMANZIL_CAPTURE_REPORT);
    expect(answer == CHAMANZIL_STRETCHES && bytes[0] == 0 && stretches[0] == 7 && report[0] == 7, "a list with one entry");
    answer = chamanzil_read_capture(capture, SIZE, bytes, sizeof bytes - 1, stretches, 6, report, CHAMANZIL_CAPTURE_REPORT);
    expect(answer == CHAMANZIL_LENGTH && bytes[0] == 0 && stretches[0] == 7 && report[0] == 7, "another length for a capture");
    answer = chamanzil_read_capture(capture, SIZE, bytes, sizeof bytes, stretches, 6, report, CHAMANZIL_CAPTURE_REPORT);
    expect(answer == CHAMANZIL_DONE && report[0] == FRAMES && report[1] == 2, "the counts of a capture");
    expect(memcmp(bytes, block + CHAMANZIL_FRAME, FRAMES * CHAMANZIL_FRAME) == 0, "the frames of a capture");
    i = stretches[0] == 0 ? 0 : 2; /* their order is not stated */
    expect(stretches[i] == 0 && stretches[i + 1] == 1488 - CUT, "the stretch before the first frame");
    expect(stretches[2 - i] + CUT == 8 * CHAMANZIL_BLOCK_STREAM && stretches[3 - i] == 32 + CUT % 8, "the stretch after the last frame");
    expect(stretches[4] == 7 && stretches[5] == 7, "the rest of the list");
}

/* Ten wrong bytes in a row of zeros, which are a code row. */
static void correct_by_marks(void)
{
    static const uint8_t zeros[CHAMANZIL_ROW] = {0};
    uint8_t row[CHAMANZIL_ROW] = {0};
    uint8_t marked[CHAMANZIL_ROW] = {0};
    memset(row, 9, 10);
    expect(chamanzil_correct_row(row, sizeof row, zeros, sizeof zeros) == CHAMANZIL_UNCORRECTABLE && row[0] == 9, "ten wrong bytes without marks");
    memset(marked, 1, 10);
    expect(chamanzil_correct_row(row, sizeof row, marked, sizeof marked) == CHAMANZIL_CORRECTED, "ten wrong bytes with marks");
    expect(memcmp(row, zeros, sizeof row) == 0, "the row comes back");
    expect(chamanzil_correct_row(row, sizeof row, marked, sizeof marked) == CHAMANZIL_DONE, "a code row with ten marks");
    marked[10] = 1;
    expect(chamanzil_correct_row(row, sizeof row, marked, sizeof marked) == CHAMANZIL_UNCORRECTABLE, "a code row with eleven marks");
    marked[10] = 2;
    expect(chamanzil_correct_row(row, sizeof row, marked, sizeof marked) == CHAMANZIL_ERASURE, "a mark of 2 in a row");
    expect(chamanzil_correct_row(row, sizeof row, marked, sizeof marked - 1) == CHAMANZIL_LENGTH, "another length of a row's marks");
}

/* One to three wrong bytes in a row of zeros, by the light repair. */
static void correct_light(void)
{
    static const uint8_t zeros[CHAMANZIL_ROW] = {0};
    uint8_t row[CHAMANZIL_ROW] = {0};
    expect(chamanzil_correct_light_row(row, sizeof row) == CHAMANZIL_DONE, "a code row by the light repair");
    row[40] = 9;
    expect(chamanzil_correct_light_row(row, sizeof row) == CHAMANZIL_DONE && memcmp(row, zeros, sizeof row) == 0, "one wrong byte by the light repair");
    row[40] = 9;
    row[181] = 1;
    expect(chamanzil_correct_light_row(row, sizeof row) == CHAMANZIL_DONE && memcmp(row, zeros, sizeof row) == 0, "two wrong bytes by the light repair");
    memset(row, 9, 3);
    expect(chamanzil_correct_light_row(row, sizeof row) == CHAMANZIL_HEAVIER && row[0] == 9 && row[2] == 9 && row[3] == 0, "three wrong bytes are heavier");
    expect(chamanzil_correct_light_row(row, sizeof row - 1) == CHAMANZIL_LENGTH && row[0] == 9, "another length of a light row");
}

/* A mark of 2 in the last place of the block: everything is as it was, the wrong byte in its first row too. */
static void mark_refused(void)
{
    uint32_t report[CHAMANZIL_REPAIR_REPORT] = {7, 7, 7, 7, 7, 7};
    memcpy(read_block, block, sizeof block);
    read_block[0] ^= 0x08;
    memset(erasures, 0, sizeof erasures);
    erasures[sizeof erasures - 1] = 2;
    memset(read_main, 165, sizeof read_main);
    expect(repair(erasures, report) == CHAMANZIL_ERASURE, "a mark of 2");
    expect((read_block[0] ^ block[0]) == 0x08 && memcmp(read_block + 1, block + 1, sizeof block - 1) == 0, "the block after a mark of 2");
    expect(read_main[0] == 165 && report[0] == 7 && report[5] == 7, "main data and report after a mark of 2");
}

/* A refusal leaves everything as it was. */
static void be_refused(void)
{
    uint32_t report[CHAMANZIL_BLOCK_REPORT] = {7, 7, 7, 7, 7, 7, 7, 7};
    memset(read_main, 165, sizeof read_main);
    memset(erasures, 165, sizeof erasures);
    expect(read_whole(stream, sizeof stream - 1, report) == CHAMANZIL_LENGTH, "another length of stream");
    expect(read_main[0] == 165 && erasures[0] == 165 && report[0] == 7, "the buffers after another length of stream");
    mark_refused();
    expect(chamanzil_encode_block(main_data, sizeof main_data, false, 0, 8, 0, block, sizeof block) == CHAMANZIL_NUMBER, "first number 8");
}

/* Two blocks that follow on, and the closing code after the second. */
static void write_run(uint32_t first)
{
    struct chamanzil_record kept = {0, 0, 0, 0, false, 0, false, 0};
    uint8_t *second = run + CHAMANZIL_BLOCK_STREAM;
    uint8_t *closing = run + 2 * CHAMANZIL_BLOCK_STREAM;
    uint32_t answer;
    chamanzil_new_record(&kept);
    fill_main(0);
    answer = chamanzil_write_block(&kept, false, 0, main_data, sizeof main_data, first, 0x00, run, CHAMANZIL_BLOCK_STREAM);
    expect(answer == CHAMANZIL_DONE && kept.sectors == CHAMANZIL_SECTORS, "the first block of a run");
    fill_main(1);
    answer = chamanzil_write_block(&kept, true, first, main_data, sizeof main_data, first, 0x00, second, CHAMANZIL_BLOCK_STREAM);
    expect(answer == CHAMANZIL_SEQUENCE && kept.sectors == CHAMANZIL_SECTORS, "the same first number again");
    answer = chamanzil_encode_block(main_data, sizeof main_data, true, first, first + 16, 0x00, block, sizeof block);
    expect(answer == CHAMANZIL_DONE, "the second block of a run, made");
    answer = chamanzil_write_sectors(&kept, block, sizeof block, second, CHAMANZIL_BLOCK_STREAM);
    expect(answer == CHAMANZIL_DONE && kept.sectors == 2 * CHAMANZIL_SECTORS, "the second block of a run, written");
    expect(chamanzil_close(&kept, closing, CHAMANZIL_CLOSING) == CHAMANZIL_DONE && kept.closed, "closing a run of two blocks");
    expect(chamanzil_closing_holds(closing, CHAMANZIL_CLOSING) == 1, "the closing code");
    expect(chamanzil_closing_holds(run + 1, CHAMANZIL_CLOSING) == 0, "four bytes that are no closing code");
}

/* The closing code and the record after it, from a record with whole blocks. */
static void close_from(uint8_t state, int64_t dsv, uint8_t first, uint8_t second, int64_t after)
{
    struct chamanzil_record kept = {0, 0, 0, 16, false, 4, true, 1};
    uint8_t code[CHAMANZIL_CLOSING] = {0, 0, 0, 0};
    kept.state = state;
    kept.dsv = dsv;
    expect(chamanzil_close(&kept, code, sizeof code) == CHAMANZIL_DONE && kept.dsv == after, "the DSV after closing");
    expect(kept.peak == 4 && !kept.marked && kept.mark == 0, "the peak after closing, which does not count, and no mark");
    expect(code[0] == first && code[1] == second && code[2] == 0x00 && code[3] == 0x11, "the closing code by the DSV");
}

/* Of SY0's two codes the one that leaves the lower absolute DSV; the Primary where both leave the same, 7 to either side. */
static void close_by_dsv(void)
{
    close_from(1, 2, 0x12, 0x04, 6);
    close_from(2, 3, 0x12, 0x44, -7);
    close_from(3, -4, 0x92, 0x44, 6);
    close_from(4, -3, 0x92, 0x04, -7);
}

/* Each block of the run from its sectors and the four bytes after them, where the second one's code or the closing code stands. */
static void read_run(uint32_t first)
{
    uint32_t report[CHAMANZIL_BLOCK_REPORT] = {0, 0, 0, 0, 0, 0, 0, 0};
    size_t k;
    for (k = 0; k < 2; k++) {
        const uint8_t *part = run + k * CHAMANZIL_BLOCK_STREAM;
        uint32_t answer = read_whole(part, CHAMANZIL_STREAM, report);
        fill_main(k);
        expect(answer == CHAMANZIL_DONE && report[0] == first + 16 * k, "a block of the run");
        expect(memcmp(read_main, main_data, sizeof main_data) == 0, "the main data of a block of the run");
        expect(report[1] == 0 && report[5] == 0 && report[6] == 0, "a clean block of the run");
        expect(chamanzil_zero_runs_hold(part, CHAMANZIL_STREAM) == 1, "the zero runs of a block of the run, seam included");
    }
}

int main(void)
{
    uint32_t report[CHAMANZIL_BLOCK_REPORT] = {0, 0, 0, 0, 0, 0, 0, 0};
    size_t i;

    fill_main(0);
    format(0x030000, 0x00);
    expect(chamanzil_zero_runs_hold(stream, sizeof stream) == 1, "the zero runs");
    expect(chamanzil_format_block(main_data, sizeof main_data, 0x030000, 0x00, whole, sizeof whole) == CHAMANZIL_DONE, "format_block");
    expect(memcmp(whole, stream, sizeof whole) == 0, "format_block is encode_block, trials, takes and close");

    /* 8 rows of 372 bytes with wrong bits in each Code Word, and one bit in every 1,000 bytes */
    for (i = 0; i < 8 * 372; i++) {
        stream[372 * 54 + i] ^= (uint8_t)(i % 2 == 0 ? 0x10 : 0x81);
    }
    for (i = 500; i < sizeof stream; i += 1000) {
        stream[i] ^= 0x08;
    }
    expect(read_whole(stream, sizeof stream, report) == CHAMANZIL_DONE, "read_block");
    expect(memcmp(read_main, main_data, sizeof main_data) == 0, "the main data read");
    expect(report[0] == 0x030000, "the first number");
    expect(marks_from(0) == report[5], "the marks of the unknown words");

    repair_by_marks();
    pool_readings();
    read_capture();
    correct_by_marks();
    correct_light();
    be_refused();
    close_by_dsv();
    write_run(0x02FFF0);
    read_run(0x02FFF0);
    printf("block %06lX rows %lu %lu columns %lu %lu unknown %lu sync %lu: main data read back; a run of two blocks too\n", (unsigned long)report[0],
        (unsigned long)report[1], (unsigned long)report[2], (unsigned long)report[3], (unsigned long)report[4], (unsigned long)report[5], (unsigned long)report[6]);
    return 0;
}
