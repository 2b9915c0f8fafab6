/* The C interface as a caller in C meets it: include/vintrazzola.h, the paper's register job, single steps, the bit
   beside a refusal 3, and the switches that keep a bank.
   tests/compare/run builds it and runs it with the job's path. */
#include <stdio.h>
#include <string.h>

#include "../../include/vintrazzola.h"

static int passed, failed;

static void expect(const char *what, uint64_t got, uint64_t wanted) {
    if (got == wanted) {
        passed++;
        return;
    }
    failed++;
    printf("%s: %llu, not %llu\n", what, (unsigned long long)got, (unsigned long long)wanted);
}

static uint32_t record[VINTRAZZOLA_RECORD];
static uint32_t srca[VINTRAZZOLA_SRCA], srcb[VINTRAZZOLA_SRCB], dst[VINTRAZZOLA_DST], registers[VINTRAZZOLA_REGISTERS];

static uint64_t run(const uint8_t *job, size_t length) {
    return vintrazzola_run(job, length, srca, VINTRAZZOLA_SRCA, srcb, VINTRAZZOLA_SRCB, dst, VINTRAZZOLA_DST, registers,
                           VINTRAZZOLA_REGISTERS);
}

static uint64_t step(uint32_t thread, uint32_t word) {
    return vintrazzola_step(record, VINTRAZZOLA_RECORD, thread, word, srca, VINTRAZZOLA_SRCA, srcb, VINTRAZZOLA_SRCB, dst,
                            VINTRAZZOLA_DST, registers, VINTRAZZOLA_REGISTERS);
}

/* A refused step: the parts of its answer, which are all of it. */
static void refused(const char *what, uint32_t word, uint32_t number, uint32_t bit) {
    uint64_t answer = step(0, word);
    expect(what, vintrazzola_refused(answer), 1);
    expect(what, vintrazzola_number(answer), number);
    expect(what, vintrazzola_place(answer), 0);
    expect(what, vintrazzola_bit(answer), bit);
    expect(what, answer, (uint64_t)1 << 63 | (uint64_t)bit << 40 | (uint64_t)number << 32);
}

/* A file's banks: the matrix unit's pointer, and whether it owns bank 0 and bank 1. */
static void banks(const char *what, uint32_t at, uint32_t pointer, uint32_t first, uint32_t second) {
    expect(what, record[at], pointer);
    expect(what, record[at + 2], first);
    expect(what, record[at + 3], second);
}

int main(int argc, char **argv) {
    static uint8_t job[8193];
    FILE *file = argc == 2 ? fopen(argv[1], "rb") : NULL;
    if (!file) {
        fprintf(stderr, "header JOB\n");
        return 2;
    }
    size_t length = fread(job, 1, sizeof job, file);
    fclose(file);

    /* the paper's register job, whole and cut off by a byte */
    expect("the pre-check", vintrazzola_precheck(job, length), 1);
    expect("the run", run(job, length), 1);
    expect("its register", registers[3], 9);
    uint64_t cut = run(job, length - 1);
    expect("a cut job", vintrazzola_refused(cut), 1);
    expect("its number", vintrazzola_number(cut), 1);
    expect("its place", vintrazzola_place(cut), 180);
    expect("its bit", vintrazzola_bit(cut), 0);
    expect("its register", registers[3], 9);
    expect("no bit of a count", vintrazzola_bit(run(job, length)), 0);

    /* the same job with unnamed bits 22 and 21 of its word, which stands from byte 176 on */
    job[178] |= 0x60;
    uint64_t unnamed = run(job, length);
    expect("unnamed bits of a job", vintrazzola_number(unnamed), 3);
    expect("their place", vintrazzola_place(unnamed), 172);
    expect("the lower one", vintrazzola_bit(unnamed), 21);
    expect("the pre-check's answer", vintrazzola_precheck(job, length), unnamed);

    /* thread 1: register 5 becomes register 2 or the constant 6 */
    registers[64 + 2] = 0x30;
    expect("a scalar step", step(1, 0x5B000000 | 1u << 23 | 1 << 18 | 5 << 12 | 6 << 6 | 2), 0);
    expect("its register", registers[64 + 5], 0x36);

    /* thread 2: SETRWC sets Dst to 7, and the record goes on to an INCRWC by 4 */
    uint32_t *thread = record + VINTRAZZOLA_THREAD(2);
    expect("SETRWC", step(2, 0x37000004 | 7 << 14), 0);
    expect("its Dst", thread[0], 7);
    expect("its Dst_Cr", thread[1], 7);
    expect("INCRWC", step(2, 0x38000000 | 4 << 14), 0);
    expect("its Dst", thread[0], 11);
    expect("its Dst_Cr", thread[1], 7);

    /* a slot: SHIFTXB of thread 0 moves SrcB by 3, and needs the matrix unit to own the bank */
    record[VINTRAZZOLA_SLOT(0, 1) + 3] = 3;
    uint64_t owner = step(0, 0x18000000 | 1 << 14);
    expect("the other owner", vintrazzola_number(owner), 6);
    record[VINTRAZZOLA_BANKS_B + 2] = 1;
    srcb[0] = 17;
    expect("SHIFTXB", step(0, 0x18000000 | 1 << 14), 0);
    expect("its column 15", srcb[15], 17);
    expect("its SrcB", record[VINTRAZZOLA_THREAD(0) + 4], 3);

    /* numbers of no record */
    uint32_t before[VINTRAZZOLA_RECORD];
    record[VINTRAZZOLA_LAST_ROW] = 1;
    memcpy(before, record, sizeof before);
    uint64_t none = step(0, 0x21000000);
    expect("no record", vintrazzola_number(none), 1);
    expect("its place", vintrazzola_place(none), 0);
    expect("the record as it came", memcmp(before, record, sizeof before), 0);
    record[VINTRAZZOLA_LAST_ROW] = 16;
    expect("a record again", step(0, 0x21000000), 0);
    expect("no such thread", vintrazzola_number(step(3, 0x21000000)), 1);

    /* the bit of a refusal 3, and of no other */
    refused("MVMUL's bit 16", 0x26010000, 3, 16);
    refused("MVMUL's bits 17 and 18", 0x26060000, 3, 17);
    refused("MVMUL with all bits", 0x26FFFFFF, 3, 16);
    refused("CLREXPHIST's bit 0", 0x21000001, 3, 0);
    refused("CLREXPHIST's bits 23 and 1", 0x21800002, 3, 1);
    refused("SHIFTXA's bit 23, in an undefined mode", 0x17800000, 3, 23);
    refused("INCRWC's mode and its bit 5", 0x38FC0020, 3, 5);
    refused("INCRWC's mode", 0x38FC0000, 4, 0);
    refused("MVMUL's mode", 0x26380000, 4, 0);
    refused("an unknown opcode with all bits", 0xFFFFFFFF, 2, 0);
    expect("no such thread before an unnamed bit", step(3, 0x21800000), VINTRAZZOLA_REFUSAL_BIT + VINTRAZZOLA_NUMBER_UNIT);
    expect("all that FLUSHDMA names", step(0, 0x4600000F), 0);

    /* with SrcA's switch on, a SETRWC that clears both keeps SrcA's bank 0 and gives SrcB's back */
    record[VINTRAZZOLA_KEEP_A] = 1;
    record[VINTRAZZOLA_BANKS_A + 2] = record[VINTRAZZOLA_BANKS_B + 2] = 1;
    expect("a SETRWC that clears", step(0, 0x37C00000), 0);
    banks("SrcA, kept", VINTRAZZOLA_BANKS_A, 1, 1, 0);
    banks("SrcB, given back", VINTRAZZOLA_BANKS_B, 1, 0, 0);
    expect("SrcA's switch stays", record[VINTRAZZOLA_KEEP_A], 1);
    expect("SrcB's switch stays", record[VINTRAZZOLA_KEEP_B], 0);

    /* with SrcB's on, and from the banks 1, the other way round */
    record[VINTRAZZOLA_KEEP_A] = 0;
    record[VINTRAZZOLA_KEEP_B] = 1;
    record[VINTRAZZOLA_BANKS_A + 3] = record[VINTRAZZOLA_BANKS_B + 3] = 1;
    expect("a SETRWC that clears", step(1, 0x37C00000), 0);
    banks("SrcA, given back", VINTRAZZOLA_BANKS_A, 0, 1, 0);
    banks("SrcB, kept", VINTRAZZOLA_BANKS_B, 0, 0, 1);

    /* a switch is 0 or 1 */
    for (int file = 0; file < 2; file++) {
        uint32_t *keep = record + (file ? VINTRAZZOLA_KEEP_B : VINTRAZZOLA_KEEP_A), is = *keep;
        *keep = 2;
        refused("no switch", 0x37C00000, 1, 0);
        *keep = is;
    }
    banks("SrcA as it was", VINTRAZZOLA_BANKS_A, 0, 1, 0);
    expect("a record again", step(0, 0x21000000), 0);

    printf("%d passed, %d failed\n", passed, failed);
    return failed > 0;
}
