/* The day of a figure, through the desk: an agent reports, workers promise and take off, planners read. */
#include "stopblocker.h"
#include <stdio.h>

enum { DISK = 3, PRIORITY = 5 };

static uint8_t board[SB_BOARD_BYTES], record[SB_RECORD_BYTES], answer[SB_ANSWER_BYTES];

static void say_grant(struct stopblocker_item item) {
    printf("granted, ticket %u, told %d, amount %u\n", (unsigned)item.ticket, (int)item.told, (unsigned)item.amount);
}

/* The call of the record as it stands, and what it answers. */
static void ask(const char *what) {
    uint32_t code = step(board, sizeof board, record, sizeof record, answer, sizeof answer);
    struct stopblocker_item own = stopblocker_item_at(answer, 0);
    printf("%u %s: ", (unsigned)stopblocker_word(record, SB_RECORD_NOW), what);
    switch (code) {
    case SB_GRANTED: say_grant(own); break;
    case SB_WAITS: printf("waits, ticket %u\n", (unsigned)own.ticket); break;
    case SB_RELEASED: printf("released\n"); break;
    case SB_OPENED: printf("opened\n"); break;
    default: printf("refused %u, %s\n    %s\n", (unsigned)code, stopblocker_refusal(code), stopblocker_what_to_do(code)); break;
    }
    for (int k = 1; code == SB_RELEASED && k < SB_ITEMS && stopblocker_item_at(answer, k).ticket != 0; k++) {
        printf("    which lets one in: ");
        say_grant(stopblocker_item_at(answer, k));
    }
}

static void writes(const char *what, uint8_t method, uint32_t now, int32_t value, uint32_t own_error) {
    stopblocker_write(record, DISK, method, PRIORITY, now, now, value, own_error);
    ask(what);
}

static void reads(const char *what, uint8_t priority, uint32_t now, uint32_t stated_limit) {
    stopblocker_read(record, DISK, SB_READ_LOAD, priority, now, 1, stated_limit);
    ask(what);
}

static void releases(const char *what, uint32_t now, uint32_t ticket) {
    stopblocker_release(record, DISK, now, ticket);
    ask(what);
}

/* The disk as it stands on the board. */
static void show(void) {
    const uint8_t *part = board + stopblocker_part(DISK);
    printf("disk %d: used %d, promised %d, clock %u, next ticket %u, %u active, %u waiting\n", (int)DISK,
           (int)stopblocker_signed(part, SB_PART_USED + SB_FIGURE_VALUE), (int)stopblocker_signed(part, SB_PART_PROMISED + SB_FIGURE_VALUE),
           (unsigned)stopblocker_word(part, SB_PART_CLOCK), (unsigned)stopblocker_word(part, SB_PART_NEXT_TICKET),
           (unsigned)stopblocker_word(part, SB_PART_ACTIVE_COUNT), (unsigned)stopblocker_word(part, SB_PART_WAITING_COUNT));
}

int main(void) {
    reads("a planner reads a disk that nobody has opened", PRIORITY, 99, 1000);
    stopblocker_open(record, DISK, 100, 1000, 500);
    ask("the operator opens the disk");
    writes("the agent reports 40,000 MiB used, give or take 20", SB_REPORT_USED, 100, 40000, 20);
    releases("the agent releases", 101, 1);
    reads("a planner reads the load and can bear an error of 1,000", PRIORITY, 102, 1000);
    writes("a worker promises 700", SB_ADD_PROMISED, 103, 700, 0);
    writes("a second worker promises 500, too much for the planner", SB_ADD_PROMISED, 104, 500, 0);
    reads("a second planner, of higher priority, can bear 2,000", PRIORITY + 1, 105, 2000);
    show();
    releases("the first planner releases", 106, 2);
    releases("the first worker releases: its promise shows", 107, 3);
    releases("the second worker releases", 108, 4);
    releases("the second planner releases", 109, 5);
    show();
    reads("a planner can bear 20, just what the report left", PRIORITY, 110, 20);
    writes("the first worker's copy has landed: it takes 700 off", SB_ADD_PROMISED, 111, -700, 0);
    releases("the worker lets go of a ticket that is not there", 112, 9);
    releases("the planner releases", 113, 6);
    releases("the worker releases", 114, 7);
    reads("a planner's clock is behind", PRIORITY, 90, 1000);
    show();
    return 0;
}
