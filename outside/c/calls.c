/* Links the library once from C: bench c, two refusals, bad lines, its rows checked and a round trip. Exit
 * status 1 on any disagreement with documents 01 and 02. */
#include "../gelquorist.h"
#include <stdio.h>
#include <string.h>

static int faults;

static void expect(int holds, const char *what) {
    if (!holds) {
        printf("DISAGREEMENT from C: %s\n", what);
        faults += 1;
    }
}

static uint16_t memory[GELQUORIST_MEMORY_LENGTH + 1];
static uint16_t list[6];

/* Dirty lent memory before each call. */
static void dirty(void) {
    memset(memory, 0xa5, sizeof memory);
    memset(list, 0x5a, sizeof list);
}

static int all(const uint16_t *numbers, size_t length, uint16_t value) {
    for (size_t i = 0; i < length; i += 1) {
        if (numbers[i] != value) {
            return 0;
        }
    }
    return 1;
}

/* The sheet of bench c's patch: kinds 1, 2, 2 and cables 0-1, 0-2. */
static size_t patch_of_c(uint8_t *bytes, size_t length) {
    const uint16_t kinds[] = {1, 2, 2};
    const uint16_t lines[] = {1, 0, 1, 1, 0, 2};
    struct gelquorist_written written = gelquorist_write(kinds, 3, lines, 6, bytes, length);
    expect(written.number == GELQUORIST_COMPLETE && written.line == 65535 && written.count == 10, "the writer's answer");
    return written.count;
}

static const uint8_t figure[] = {0x00, 0x80, 0x04, 0x10, 0x90, 0x00, 0x04};

static void bench_c(const uint8_t *patch, size_t length) {
    dirty();
    struct gelquorist_found found = gelquorist_find(figure, sizeof figure, patch, length, memory, GELQUORIST_MEMORY_LENGTH, list, 5, 1000);
    expect(found.number == GELQUORIST_COMPLETE && found.line == 65535 && found.rows == 2 && found.tries == 3, "bench c's numbers");
    expect(list[0] == 0 && list[1] == 1 && list[2] == 0 && list[3] == 2, "bench c's rows");
    expect(all(list + 4, 2, 0x5a5a), "the list past its rows");
    expect(all(memory, GELQUORIST_MEMORY_LENGTH, 0) && memory[GELQUORIST_MEMORY_LENGTH] == 0xa5a5, "the memory after bench c");
}

static void refusals(const uint8_t *patch, size_t length) {
    dirty();
    struct gelquorist_found found = gelquorist_find(figure, sizeof figure, patch, length, memory, GELQUORIST_MEMORY_LENGTH - 1, list, 6, 1000);
    expect(found.number == GELQUORIST_MEMORY && found.line == GELQUORIST_NO_LINE && found.rows == 0 && found.tries == 0, "31");
    const uint8_t filled[] = {0x00, 0x40, 0x00, 0x51};
    found = gelquorist_find(filled, sizeof filled, patch, length, memory, GELQUORIST_MEMORY_LENGTH, list, 6, 1000);
    expect(found.number == GELQUORIST_FIGURE_FILLING && found.line == GELQUORIST_NO_LINE && found.rows == 0 && found.tries == 0, "13");
    struct gelquorist_read read = gelquorist_read(filled, sizeof filled, list, 6, memory, 6);
    expect(read.number == GELQUORIST_PATCH_FILLING && read.line == GELQUORIST_NO_LINE && read.vertices == 0 && read.lines == 0, "23");
    expect(all(memory, GELQUORIST_MEMORY_LENGTH + 1, 0xa5a5) && all(list, 6, 0x5a5a), "what a refusal leaves");
}

/* Two sheets of kinds 1, 2, 2: the cables 0-2, 0-1, whose second is not after its first; and the cables 0-1,
 * 0-2 with a line 1-2 of type 3. */
static const uint8_t unordered[] = {0x00, 0xc0, 0x08, 0x10, 0x82, 0x40, 0x00, 0x24, 0x00, 0x01};
static const uint8_t third_type[] = {0x00, 0xc0, 0x0c, 0x10, 0x82, 0x40, 0x00, 0x14, 0x00, 0x02, 0xc0, 0x20, 0x20};

static void bad_lines_found(const uint8_t *patch, size_t length) {
    dirty();
    struct gelquorist_found found = gelquorist_find(unordered, sizeof unordered, patch, length, memory, GELQUORIST_MEMORY_LENGTH, list, 6, 1000);
    expect(found.number == GELQUORIST_FIGURE_ORDER && found.line == 1 && found.rows == 0 && found.tries == 0, "15 and its line");
    found = gelquorist_find(third_type, sizeof third_type, unordered, sizeof unordered, memory, GELQUORIST_MEMORY_LENGTH, list, 6, 1000);
    expect(found.number == GELQUORIST_FIGURE_LINE && found.line == 2 && found.rows == 0 && found.tries == 0, "14 and its line");
    found = gelquorist_find(figure, sizeof figure, unordered, sizeof unordered, memory, GELQUORIST_MEMORY_LENGTH, list, 6, 1000);
    expect(found.number == GELQUORIST_PATCH_ORDER && found.line == 1 && found.rows == 0 && found.tries == 0, "25 and its line");
    found = gelquorist_find(figure, sizeof figure, third_type, sizeof third_type, memory, GELQUORIST_MEMORY_LENGTH, list, 6, 1000);
    expect(found.number == GELQUORIST_PATCH_LINE && found.line == 2 && found.rows == 0 && found.tries == 0, "24 and its line");
    expect(all(memory, GELQUORIST_MEMORY_LENGTH + 1, 0xa5a5) && all(list, 6, 0x5a5a), "what a bad line leaves");
}

static void bad_lines_elsewhere(const uint8_t *patch, size_t length) {
    dirty();
    struct gelquorist_read read = gelquorist_read(unordered, sizeof unordered, list, 6, memory, 9);
    expect(read.number == GELQUORIST_PATCH_ORDER && read.line == 1 && read.vertices == 0 && read.lines == 0, "the reader's 25 and its line");
    expect(all(memory, 9, 0xa5a5) && all(list, 6, 0x5a5a), "what the reader leaves");
    const uint16_t kinds[] = {1, 2, 2};
    const uint16_t lines[] = {1, 0, 2, 1, 0, 1};
    uint8_t byte = 0xa5;
    struct gelquorist_written written = gelquorist_write(kinds, 3, lines, 6, &byte, 1);
    expect(written.number == GELQUORIST_PATCH_ORDER && written.line == 1 && written.count == 0 && byte == 0xa5, "the writer's 25 and its line");
    const uint16_t rows[] = {0, 1};
    struct gelquorist_checked checked = gelquorist_check_rows(unordered, sizeof unordered, patch, length, rows, 2);
    expect(checked.number == GELQUORIST_FIGURE_ORDER && checked.line == 1 && checked.row == 0, "the row check's 15 and its line");
    checked = gelquorist_check_rows(figure, sizeof figure, third_type, sizeof third_type, rows, 2);
    expect(checked.number == GELQUORIST_PATCH_LINE && checked.line == 2 && checked.row == 0, "the row check's 24 and its line");
}

static void round_trip(const uint8_t *patch, size_t length) {
    uint16_t kinds[4], lines[7];
    memset(kinds, 0xa5, sizeof kinds);
    memset(lines, 0xa5, sizeof lines);
    struct gelquorist_read read = gelquorist_read(patch, length, kinds, 4, lines, 7);
    expect(read.number == GELQUORIST_COMPLETE && read.line == 65535 && read.vertices == 3 && read.lines == 2, "the reader's answer");
    expect(kinds[3] == 0xa5a5 && lines[6] == 0xa5a5, "the lists past what was read");
    uint8_t again[11];
    memset(again, 0xa5, sizeof again);
    struct gelquorist_written written = gelquorist_write(kinds, read.vertices, lines, 3 * (size_t)read.lines, again, sizeof again);
    expect(written.number == GELQUORIST_COMPLETE && written.line == 65535 && written.count == length, "the second writing");
    expect(memcmp(again, patch, length) == 0 && again[length] == 0xa5, "the same sheet again");
}

/* Bench c's rows, then with a row twice, with a row that is no place, and with part of a row. */
static void rows_checked(const uint8_t *patch, size_t length) {
    const uint16_t rows[] = {0, 1, 0, 2, 0, 1};
    struct gelquorist_checked checked = gelquorist_check_rows(figure, sizeof figure, patch, length, rows, 4);
    expect(checked.number == GELQUORIST_COMPLETE && checked.line == 65535 && checked.row == 0, "bench c's rows accepted");
    checked = gelquorist_check_rows(figure, sizeof figure, patch, length, rows, 6);
    expect(checked.number == GELQUORIST_REPEATED && checked.line == GELQUORIST_NO_LINE && checked.row == 2, "44");
    checked = gelquorist_check_rows(figure, sizeof figure, patch, length, rows, 5);
    expect(checked.number == GELQUORIST_PART_ROW && checked.line == GELQUORIST_NO_LINE && checked.row == 0, "42");
    const uint16_t other[] = {0, 1, 0, 2, 0, 65535};
    checked = gelquorist_check_rows(figure, sizeof figure, patch, length, other, 6);
    expect(checked.number == GELQUORIST_NOT_A_PLACE && checked.line == GELQUORIST_NO_LINE && checked.row == 2, "43");
}

int main(void) {
    uint8_t patch[16];
    size_t length = patch_of_c(patch, sizeof patch);
    bench_c(patch, length);
    refusals(patch, length);
    bad_lines_found(patch, length);
    bad_lines_elsewhere(patch, length);
    rows_checked(patch, length);
    round_trip(patch, length);
    printf("from C: %d disagreements\n", faults);
    return faults == 0 ? 0 : 1;
}
