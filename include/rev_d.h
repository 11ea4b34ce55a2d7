/* rev_d.h: the revision D storage card as a library. For x86-64 with the System V calling convention; link libfirmware.a.
 *
 * The card is three buffers that the caller lends to each call: its state in 423 cells of eight bytes, the disk, the memory. The
 * library keeps nothing between calls and has no global variable: different cards may be in use at the same time, one card by one
 * thread at a time. No call allocates, blocks or ends the program, and none uses more than 12,288 bytes of stack.
 *
 * What is asked of a caller, at every entry:
 * - No pointer is null, also where its length is 0. A pointer with a length has that many bytes behind it, `cells` has 423 cells
 *   and is aligned to 8, `out` has 128 bytes, that of rev_d_plan 116 cells and is aligned to 8.
 * - rev_d_command and rev_d_tape write cells, disk and memory: no two of cells, tape, disk and memory overlap.
 * - A reading and rev_d_plan write nothing but `out`, which overlaps none of the others; rev_d_page_line nothing but `buffer`, which
 *   does not overlap the disk.
 * Nothing else is: slices of any length, any tape, any offset and any value in any cell have an answer.
 */
#ifndef REV_D_H
#define REV_D_H

#include <stddef.h>
#include <stdint.h>

#ifdef __cplusplus
extern "C" {
#endif

/* Cells, and bytes of the two slices: commands, readings and the planner answer slices of another length with 1. A block has 128 bytes,
 * a line of the journal page 65, a plan 116 cells. */
#define REV_D_CELLS 423
#define REV_D_DISK 32896
#define REV_D_MEMORY 16384
#define REV_D_BLOCK 128
#define REV_D_LINE 65
#define REV_D_PLAN 116

/* What a number stands for: 0 is done, any other a refusal, which changes no cell of the card and no byte of its slices. rev_d_plan has
 * its number in `out`, which a refusal fills too.
 *
 *  1  disk slice not 32,896 bytes, or memory slice not 16,384
 *  2  unknown command byte
 *  3  operands end early
 *  4  C, B or J out of range
 *  5  core not below C
 *  6  block not below B
 *  7  offset above 124
 *  8  RECOVER: master has a wrong mark or type, C, B, J out of range, or, for a core below C, a tail number outside
 *     1 to 4,000,000,001 or a position not below J; or its bytes 8 to 11 hold neither 0 nor 1. Its other bytes are not
 *     looked at
 * 20  blank (all but FORMAT)
 * 21  FORMAT, not blank
 * 22  down (WRITE, CLOSE, STORE, CHECKPOINT, reading), RETIRE, the report task's WRITE and the planner
 * 23  RECOVER while up
 * 25  a ninth block
 * 26  journal full: blocks of the records of closed unretired transactions, stored yet or not, plus 2 and the blocks of the
 *     running one, would pass J. Retired blocks count as free.
 * 27  a number above 4,000,000,000 would open
 * 28  CLOSE, none running
 * 29  CLOSE, the previous is not fully stored
 * 30  STORE, none closed and still uncommitted
 * 31  CHECKPOINT, none committed; RETIRE too
 * 32  CHECKPOINT, oldest not valid; RETIRE too
 * 33  CHECKPOINT, a lower-stamped unretired transaction shares a block (both took it); RETIRE too
 * 34  home stores outstanding (RETIRE)
 * 35  all home stores done (CHECKPOINT)
 * 36  the report task's block limit: its WRITE would take a block, and the running transaction has three or more
 *
 * Where several hold: 1, 2, 3, then 20 to 23, then 4 to 8, then 25, then 36, then 26 to 35, lowest first.
 */

/* The cells. They may be looked at, copied and put back; a copy put back goes with the disk and memory of the same moment.
 * Cells that are all zero are the blank card. Single cells: */
#define REV_D_CELL_PHASE 0     /* 0 blank, 1 up, any other down */
#define REV_D_CELL_CORES 1     /* C, 0 unless the card is up */
#define REV_D_CELL_BLOCKS 2    /* B, likewise */
#define REV_D_CELL_JOURNAL 3   /* J, likewise */
#define REV_D_CELL_CLOSES 4    /* closes since the card came up */
#define REV_D_CELL_RECOVERED 5 /* while down: recovery has passed the home blocks below this one */
#define REV_D_CELL_STORES 6    /* stores since format; the count stays at its largest */

/* Groups. Core c's tail has two cells from REV_D_FIRST_TAIL + 2 * c on: number, position. Block b's holder is cell
 * REV_D_FIRST_HOLDER + b: 0 for none, else 1 above the holder's name; a name is 8 * number + core. Core c has REV_D_CORE_SIZE cells
 * from REV_D_FIRST_CORE + REV_D_CORE_SIZE * c on: the number that runs or opens next, then those below. */
#define REV_D_FIRST_TAIL 7
#define REV_D_FIRST_HOLDER 23
#define REV_D_FIRST_CORE 87
#define REV_D_CORE_SIZE 42
#define REV_D_CORE_USED 1     /* journal blocks of its committed unretired records */
#define REV_D_CORE_STORED 2   /* stores done of its closed transaction */
#define REV_D_CORE_HOMED 3    /* home stores done of its oldest committed one */
#define REV_D_CORE_RUNNING 4  /* its running transaction */
#define REV_D_CORE_CLOSED 23  /* its closed one */

/* A transaction has REV_D_TRANSACTION_SIZE cells: 1 where there is one, then: */
#define REV_D_TRANSACTION_SIZE 19
#define REV_D_TRANSACTION_STAMP 1
#define REV_D_TRANSACTION_COUNT 2    /* how many blocks it took */
#define REV_D_TRANSACTION_BLOCKS 3   /* from here on the blocks */
#define REV_D_TRANSACTION_HIGHEST 11 /* from here on, core 0 first, the highest number that it names; 0 for none */

/* What came of a command: the offset of the next one, its number, its byte (0 past the tape's end). */
struct rev_d_reply {
    uint64_t next;
    uint32_t number;
    uint32_t byte;
};

/* The last command of a tape: where it stands, its number, its byte. 0 0 0 for an empty tape. */
struct rev_d_stop {
    uint64_t at;
    uint32_t number;
    uint32_t byte;
};

/* Where a block is read: slice 1 is the disk, 2 the memory; from which byte on, and how many bytes. Where refused, the number and
 * 0 0 0. */
struct rev_d_part {
    uint32_t number;
    uint32_t slice;
    uint64_t from;
    uint64_t length;
};

/* A blank card, which takes FORMAT first. */
void rev_d_blank(uint64_t *cells);

/* A card that is down, over a disk written elsewhere; it takes RECOVER first. */
void rev_d_down(uint64_t *cells);

/* The command at an offset of a tape: one byte, then operands of fixed widths, numbers big-endian.
 *
 * 1 FORMAT C, B, J | 2 WRITE core, block (2 bytes), offset, data (4 bytes) | 3 CLOSE core | 4 STORE core | 5 CHECKPOINT core | 6 CUT
 * | 7 RECOVER | 8 RETIRE core | 9 the report task's WRITE, with the operands of 2
 *
 * Both WRITEs go to the core's one running transaction and do the same. Only 2 takes a fourth to eighth block. A block that the
 * transaction holds, or another running one, may be written by either.
 *
 * CHECKPOINT stores the next block of the core's oldest committed transaction home. Once all of these are home, RETIRE stores the
 * master, which retires the transaction; one that took no block needs RETIRE alone. With no other command in between, a cut between the
 * two brings back the same home area as one before both.
 *
 * `next` is behind the command. After 2 or 3 the tape ends: `next` is its length, or `at` where that is greater. Over slices of a wrong
 * length it is the same. */
struct rev_d_reply rev_d_command(uint64_t *cells, const uint8_t *tape, size_t tape_length, size_t at, uint8_t *disk,
                                 size_t disk_length, uint8_t *memory, size_t memory_length);

/* Every command of a tape, refused ones too. */
struct rev_d_stop rev_d_tape(uint64_t *cells, const uint8_t *tape, size_t tape_length, uint8_t *disk, size_t disk_length,
                             uint8_t *memory, size_t memory_length);

/* Reading a block of a card that is up, three ways: the number alone; where its 128 bytes stand, without copying; copied to `out`,
 * which a refusal leaves as it was. Reading answers 0, 1, 6, 20 or 22. */
uint8_t rev_d_read_number(const uint64_t *cells, uint16_t block, const uint8_t *disk, size_t disk_length, const uint8_t *memory,
                          size_t memory_length);

struct rev_d_part rev_d_read_part(const uint64_t *cells, uint16_t block, const uint8_t *disk, size_t disk_length,
                                  const uint8_t *memory, size_t memory_length);

uint8_t rev_d_read_block(const uint64_t *cells, uint16_t block, const uint8_t *disk, size_t disk_length, const uint8_t *memory,
                         size_t memory_length, uint8_t *out);

/* How much work it is until the journals are empty and nothing is closed or runs, if nobody writes meanwhile: nothing is done, `out` is
 * filled. Its cells: the number (0, 1, 20 or 22); how many CLOSE, STORE, CHECKPOINT and RETIRE commands; how many of them store; how
 * many transactions are not retired; from cell 4 on their names (8 * number + core) in the order in which they may be stored home and
 * retired. All other cells are 0. Where refused, cell 0 has the number and all others are 0.
 *
 * On a disk that the card formatted the figure is met by STORE for the lowest core with a closed transaction, else CLOSE for the lowest
 * with a running one, else, for the core of the first name of the order that is not yet retired, CHECKPOINT once for each block of it
 * that is not yet stored home, then RETIRE; none of these is refused, and no shorter run of such commands empties the journals. */
void rev_d_plan(const uint64_t *cells, const uint8_t *disk, size_t disk_length, const uint8_t *memory, size_t memory_length,
                uint64_t *out);

/* The journal page of a disk, for the service log: how many lines it has, and line i, from 0, laid into `buffer`: 64 columns and a
 * line feed. A buffer that is not 65 bytes long is answered 1 and stays as it was; one of 65 bytes is answered 0, whatever the disk.
 *
 * A disk that RECOVER would refuse, on a card that is down over it, has one line: the number (1 or 8) in columns 1-2. Any other has
 * a head line, C 1-2, B 4-5, J 7-8; a line for each committed transaction that is not retired, in order of core and number: core
 * 1-2, number 4-13, stamp 15-34, how many blocks it took 36-37 and cores it names 39-40, then `kept`, in the valid set, or `left` in
 * 42-45; and a line for each core: core 1-2, and in 4-5 the end of its journal, that is why no further record was read. The first
 * that fits of
 *  1: no descriptor of the expected number, that number above 4,000,000,000, or no block left for one;
 *  2: a descriptor field out of range or a block twice;
 *  3: too few blocks left for data and commit;
 *  4: no commit of that number with its fields in range.
 * A page has 105 lines at most. Numbers are set right, all other columns are blank. A line past the last has 64 blanks and the
 * line feed. */
size_t rev_d_page_lines(const uint8_t *disk, size_t disk_length);

uint8_t rev_d_page_line(const uint8_t *disk, size_t disk_length, size_t i, uint8_t *buffer, size_t buffer_length);

#ifdef __cplusplus
}
#endif

#endif
