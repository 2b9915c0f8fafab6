/* Vintrazzola's C interface: the pre-check, the job run and the single step of the proved emulator.

   Link target/staticlib/libcapi.a, which `tools/library` writes once the crate is proved (`rt lib` in crates/capi makes
   it there, as out/libcapi.a), for Linux on x86-64-v2: processors with SSE4.2 and POPCNT, which the code does not check.

   Every function is total: it takes any bytes and any lengths, never traps and always ends. A caller owes only what C
   always asks: each pointer is good for its length, the four files do not overlap each other, the job or the record,
   and no pointer is null, also where the length is 0. Nothing is kept between calls, so threads may call at once on
   files and records of their own.

   The answer is one number.
     Below 2^63: the job finished (the run) or passed (the pre-check), and the number is the count of its issue fields;
     of a step it is 0: done.
     Else it was refused: 2^63 + bit * 2^40 + number * 2^32 + place. The number is 1 to 9, as the README's table says;
     the place is the byte offset of the field's tag, or the job's length where no output stands, and 0 for a job over
     8,192 bytes or a wrong length of a file. Number 3 alone has a bit, 0 to 23: the lowest of the word's that is 1 and
     not named by the instruction's row. With any other number there is none, and 0 stands in its place. A step is refused
     with 1 to 7 or 9, always at place 0. */

#ifndef VINTRAZZOLA_H
#define VINTRAZZOLA_H

#include <stddef.h>
#include <stdint.h>

#ifdef __cplusplus
extern "C" {
#endif

/* The lengths of the four files, counted in numbers of 32 bits. With another length the run and the step
   answer 9 at 0. */
#define VINTRAZZOLA_SRCA 2048     /* number of bank, row, column: (bank * 64 + row) * 16 + column */
#define VINTRAZZOLA_SRCB 2048     /* the same */
#define VINTRAZZOLA_DST 8192      /* row * 16 + column; in the BF16 mode two rows share a lent row, as below */
#define VINTRAZZOLA_REGISTERS 192 /* thread * 64 + register */

/* Dst has 8,192 numbers in either mode. The settings of the job, or of a step's record, say how its rows lie in them.
   With Fp32, INT8 and FP16A force off and format 2, the BF16 mode, there are 1,024 rows of 16-bit numbers: row r below
   512 is the low half of lent row r, row r from 512 up the high half of lent row r - 512. Writing one half keeps the
   other, and a load of Dst rows with a number of 2^16 or more is refused with 1. Else there are 512 rows of 32-bit
   numbers, as they were lent.

   A multiply is refused with 5 where the settings are modelled in neither mode: they are not those of the BF16 mode, nor
   Fp32 on, INT8 and FP16A force off and format 2 or 6. In the BF16 mode 7 is never given, as each multiply's first row
   is below 1,024. */

/* Would the job run to its end, over any lent state? */
uint64_t vintrazzola_precheck(const uint8_t *job, size_t job_length);

/* Runs a job on the four files, which hold what it leaves. A refused job leaves every number as it stood. */
uint64_t vintrazzola_run(const uint8_t *job, size_t job_length,
                         uint32_t *srca, size_t srca_length,
                         uint32_t *srcb, size_t srcb_length,
                         uint32_t *dst, size_t dst_length,
                         uint32_t *registers, size_t registers_length);

/* The control record of a single step: VINTRAZZOLA_RECORD numbers. The record at the start is all 0.

   A flag is 0 or 1. Counters and carries are 0..63 for SrcA and SrcB and 0..1023 for Dst, FidelityPhase 0..3, pointers
   0 or 1, the last SrcA row 0, 16, 32 or 48; settings and slots are as a job's settings field may have them.

   From each of these places on, in this order:
   VINTRAZZOLA_SETTINGS     SrcA format, Fp32 (flag), INT8 (flag), FP16A force (flag), DEST_REGW_BASE, keep SrcA (flag),
                            keep SrcB (flag); the last two at VINTRAZZOLA_KEEP_A and VINTRAZZOLA_KEEP_B. Where a file's
                            is 1, an instruction that clears the file moves the matrix unit's pointer to the other bank
                            and leaves the owners; where it is 0, the bank that the pointer leaves becomes the
                            unpackers' besides
   VINTRAZZOLA_BANKS_A      SrcA's banks: matrix unit's pointer, unpackers' pointer, the matrix unit owns bank 0 (flag),
                            bank 1 (flag)
   VINTRAZZOLA_BANKS_B      SrcB's banks, the same
   VINTRAZZOLA_LAST_ROW     the last SrcA row
   VINTRAZZOLA_THREAD(t)    Dst, Dst_Cr, SrcA, SrcA_Cr, SrcB, SrcB_Cr, FidelityPhase, ExtraAddrModBit (flag), math offset,
                            fidelity base
   VINTRAZZOLA_SLOT(t, s)   SrcA step, clear (flag), carry (flag); SrcB step, clear (flag), carry (flag);
                            Dst step, clear (flag), carry (flag), copy (flag); fidelity step, clear (flag) */

/* How many numbers the settings have, the banks of a file, a thread of its own, a slot. */
#define VINTRAZZOLA_SETTINGS_LENGTH 7
#define VINTRAZZOLA_BANKS_LENGTH 4
#define VINTRAZZOLA_OWN_LENGTH 10
#define VINTRAZZOLA_SLOT_LENGTH 12

/* What follows, for three threads of eight slots. */
#define VINTRAZZOLA_SETTINGS 0
#define VINTRAZZOLA_KEEP_A (VINTRAZZOLA_SETTINGS + 5)
#define VINTRAZZOLA_KEEP_B (VINTRAZZOLA_SETTINGS + 6)
#define VINTRAZZOLA_BANKS_A (VINTRAZZOLA_SETTINGS + VINTRAZZOLA_SETTINGS_LENGTH)
#define VINTRAZZOLA_BANKS_B (VINTRAZZOLA_BANKS_A + VINTRAZZOLA_BANKS_LENGTH)
#define VINTRAZZOLA_LAST_ROW (VINTRAZZOLA_BANKS_B + VINTRAZZOLA_BANKS_LENGTH)
#define VINTRAZZOLA_THREAD_LENGTH (VINTRAZZOLA_OWN_LENGTH + 8 * VINTRAZZOLA_SLOT_LENGTH)
#define VINTRAZZOLA_THREAD(t) (VINTRAZZOLA_LAST_ROW + 1 + VINTRAZZOLA_THREAD_LENGTH * (t))
#define VINTRAZZOLA_SLOT(t, s) (VINTRAZZOLA_THREAD(t) + VINTRAZZOLA_OWN_LENGTH + VINTRAZZOLA_SLOT_LENGTH * (s))
#define VINTRAZZOLA_RECORD VINTRAZZOLA_THREAD(3)

/* One instruction of a thread 0..2 on the record and the four files. Done, the answer is 0, and record and files hold
   what the instruction leaves, so that the next step can go on with them. Refused, every number is as it came: 9 for a
   wrong length of a file, before all else; 1 for a record that has another length or a number out of range, or for
   another thread; else the lowest of 2 to 7 that the word meets, 3 with its bit. */
uint64_t vintrazzola_step(uint32_t *record, size_t record_length, uint32_t thread, uint32_t word,
                          uint32_t *srca, size_t srca_length,
                          uint32_t *srcb, size_t srcb_length,
                          uint32_t *dst, size_t dst_length,
                          uint32_t *registers, size_t registers_length);

/* The parts of an answer. Look at the number first: only with number 3 is there a bit. Of any other answer
   vintrazzola_bit gives 0. */
#define VINTRAZZOLA_REFUSAL_BIT ((uint64_t)1 << 63)
#define VINTRAZZOLA_BIT_UNIT ((uint64_t)1 << 40)
#define VINTRAZZOLA_NUMBER_UNIT ((uint64_t)1 << 32)
static inline int vintrazzola_refused(uint64_t answer) { return answer >= VINTRAZZOLA_REFUSAL_BIT; }
static inline uint32_t vintrazzola_number(uint64_t answer) {
    return (uint32_t)(answer / VINTRAZZOLA_NUMBER_UNIT % (VINTRAZZOLA_BIT_UNIT / VINTRAZZOLA_NUMBER_UNIT));
}
static inline uint32_t vintrazzola_bit(uint64_t answer) {
    return (uint32_t)(answer / VINTRAZZOLA_BIT_UNIT % (VINTRAZZOLA_REFUSAL_BIT / VINTRAZZOLA_BIT_UNIT));
}
static inline uint32_t vintrazzola_place(uint64_t answer) { return (uint32_t)(answer % VINTRAZZOLA_NUMBER_UNIT); }

#ifdef __cplusplus
}
#endif

#endif
