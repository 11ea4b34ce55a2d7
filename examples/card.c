/* card.c: a card is formatted, written, committed, loses its power and is recovered; then the block is read where it stands. Another
 * transaction is committed, stored home and retired.
 * Prints each command with its answer, how much work it would be to empty the journals, the journal page of the disk that the power left,
 * and what came back. README.md, 'The library', says how it is built. */
#include <assert.h>
#include <stdio.h>

#include "rev_d.h"

static_assert(sizeof(struct rev_d_reply) == 16, "a reply has no padding");
static_assert(sizeof(struct rev_d_stop) == 16, "a stop has no padding");
static_assert(sizeof(struct rev_d_part) == 24, "a part has no padding");
static_assert(sizeof(size_t) == 8, "lengths have eight bytes");

/* Lent to each call. Cells that are zero are a blank card. */
static uint64_t cells[REV_D_CELLS];
static uint8_t disk[REV_D_DISK];
static uint8_t memory[REV_D_MEMORY];

static const char *const names[] = {"", "FORMAT", "WRITE", "CLOSE", "STORE", "CHECKPOINT", "CUT", "RECOVER", "RETIRE", "WRITE (9)"};

/* Block 3 is written by core 0, which commits; core 1 writes block 2 and does not, and after the cut does. */
static const uint8_t tape[] = {
    1, 2, 4, 12,                          /* FORMAT: 2 cores, 4 home blocks, 12 journal blocks each */
    2, 0, 0, 3,  8, 'r', 'e', 'v', 'D',   /* WRITE: core 0, block 3, offset 8 */
    2, 1, 0, 2,  0, 'l', 'o', 's', 't',   /* WRITE: core 1, block 2, offset 0 */
    2, 0, 0, 9,  0, 'n', 'o', 'n', 'e',   /* WRITE: there is no block 9 */
    3, 0,                                 /* CLOSE: core 0 */
    4, 0, 4, 0,  4, 0,                    /* STORE: descriptor, data, commit */
    6,                                    /* CUT */
    7, 7,                                 /* RECOVER: block 3, then the master */
    9, 1, 0, 2,  8, 'k', 'e', 'p', 't',   /* the report task's WRITE: core 1, block 2, offset 8 */
    3, 1, 4, 1,  4, 1, 4, 1,              /* CLOSE, STORE: core 1 */
    5, 1, 8, 1,                           /* CHECKPOINT: block 2 home; RETIRE: the master */
};

/* The commands between two offsets of the tape. */
static void run(size_t from, size_t to) {
    for (size_t at = from; at < to;) {
        struct rev_d_reply reply = rev_d_command(cells, tape, to, at, disk, sizeof disk, memory, sizeof memory);
        printf("%2zu %-10s answer %u, %llu stores\n", at, names[reply.byte], (unsigned)reply.number,
               (unsigned long long)cells[REV_D_CELL_STORES]);
        at = reply.next;
    }
}

static void print_block(uint16_t block) {
    static const char *const slices[] = {"nowhere", "disk", "memory"};
    struct rev_d_part part = rev_d_read_part(cells, block, disk, sizeof disk, memory, sizeof memory);
    printf("block %u: answer %u, %s from %llu on, %llu bytes:", (unsigned)block, (unsigned)part.number, slices[part.slice],
           (unsigned long long)part.from, (unsigned long long)part.length);
    const uint8_t *bytes = (part.slice == 2 ? memory : disk) + part.from;
    for (size_t i = 8; i < 12 && i < part.length; i++) printf(" %02x", bytes[i]);
    printf("\n");
}

static void print_page(void) {
    uint8_t line[REV_D_LINE];
    size_t lines = rev_d_page_lines(disk, sizeof disk);
    for (size_t i = 0; i < lines; i++) {
        if (rev_d_page_line(disk, sizeof disk, i, line, sizeof line) == 0) fwrite(line, 1, sizeof line, stdout);
    }
}

static void print_plan(void) {
    uint64_t plan[REV_D_PLAN];
    rev_d_plan(cells, disk, sizeof disk, memory, sizeof memory, plan);
    printf("to empty the journals: answer %llu, %llu commands, %llu stores, transactions in order:", (unsigned long long)plan[0],
           (unsigned long long)plan[1], (unsigned long long)plan[2]);
    for (uint64_t i = 0; i < plan[3]; i++) {
        printf(" %llu of core %llu%s", (unsigned long long)(plan[4 + i] / 8), (unsigned long long)(plan[4 + i] % 8), i + 1 < plan[3] ? "," : "");
    }
    printf("\n");
}

int main(void) {
    rev_d_blank(cells);
    run(0, 31);
    print_block(3);
    run(31, 39);
    print_plan();
    run(39, 40);
    print_plan();
    print_page();
    run(40, 42);
    print_block(3);
    print_block(2);
    print_block(4);
    run(42, 59);
    print_plan();
    run(59, sizeof tape);
    print_plan();
    print_block(2);

    /* The same in one call, from a blank card again. */
    rev_d_blank(cells);
    struct rev_d_stop stop = rev_d_tape(cells, tape, sizeof tape, disk, sizeof disk, memory, sizeof memory);
    printf("the whole tape: the last command at %llu, %s, answer %u\n", (unsigned long long)stop.at, names[stop.byte],
           (unsigned)stop.number);

    uint8_t out[REV_D_BLOCK];
    unsigned number = rev_d_read_block(cells, 3, disk, sizeof disk, memory, sizeof memory, out);
    printf("block 3 copied: answer %u, %.4s\n", number, (const char *)out + 8);
    return 0;
}
