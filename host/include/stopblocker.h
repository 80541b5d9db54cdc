/* The desk for C and C++: one call on lent bytes. Link target/host/libstopblocker.a (host/build makes it); it asks the C
 * library for memset and nothing else. docs/HOST.md tells how, docs/LAYOUT.md has every byte.
 *
 * All numbers are little-endian. A word is four bytes; a signed word is in two's complement. */
#ifndef STOPBLOCKER_H
#define STOPBLOCKER_H

#include <stddef.h>
#include <stdint.h>

#ifdef __cplusplus
extern "C" {
#endif

/* One call: a request record on a board. Returns the code of the answer's first item, or 9.
 * The three buffers may have any length and hold any bytes, but must not overlap. A refusal leaves the board as it was; 9
 * leaves the answer as it was too, every other call writes all of it. The call keeps no state of its own: make one call at
 * a time on one board; calls on two boards may run at the same time. */
uint32_t step(uint8_t *board, size_t board_len, const uint8_t *record, size_t record_len, uint8_t *answer, size_t answer_len);

/* Sizes, in bytes, and counts. All zeros is the empty board. */
enum {
    SB_BOARD_BYTES = 49216,
    SB_HEAD_BYTES = 64,
    SB_OPEN_BYTES = 8, /* of the head: one bit for each disk, set when it is open; the rest is never read */
    SB_PART_BYTES = 768,
    SB_SLOT_BYTES = 44,
    SB_RECORD_BYTES = 24,
    SB_ANSWER_BYTES = 144,
    SB_ITEM_BYTES = 16,
    SB_DISKS = 64,
    SB_CLAIMS = 8, /* the most active claims of a disk, and the most waiting ones */
    SB_ITEMS = 9   /* the call's own answer, then the grants of its pass in order */
};

/* Kinds of a record. */
enum { SB_OPEN = 1, SB_CLAIM = 2, SB_RELEASE = 3 };

/* Methods of a disk. */
enum {
    SB_REPORT_USED = 0,  /* sets used */
    SB_ADD_PROMISED = 1, /* adds a signed amount to promised */
    SB_SET_PROMISED = 2, /* sets promised */
    SB_SET_STATE = 3,    /* sets the state */
    SB_READ_USED = 4,    /* told used */
    SB_READ_LOAD = 5,    /* told used + promised */
    SB_READ_STATE = 6    /* told the state */
};

/* Attributes of a disk, and for how many seconds each is valid. */
enum {
    SB_USED = 0,     /* MiB */
    SB_PROMISED = 1, /* MiB */
    SB_STATE = 2,    /* a code 0 to 255; its limit is 0 */
    SB_USED_VALID = 300,
    SB_PROMISED_VALID = 300,
    SB_STATE_VALID = 3600
};

/* Ranges. */
enum {
    SB_MOST_VALUE = 1000000000, /* values of used and promised and amounts to add lie within plus or minus this */
    SB_MOST_ERROR = 2000000000, /* limits, own errors, amounts and stated limits are 0 to this */
    SB_MOST_STATE = 255,
    SB_MOST_TICKET = 999999,
    SB_MOST_PRIORITY = 255 /* the highest */
};

/* Codes of an accepted call. */
enum {
    SB_GRANTED = 0,  /* ticket, told, amount; a write's told is 0, its amount is the attribute's after the grant */
    SB_WAITS = 1,    /* ticket */
    SB_RELEASED = 2, /* ticket */
    SB_OPENED = 3
};

/* Refusals, in the order they apply. */
enum {
    SB_REFUSED_LENGTH = 9,     /* board or answer buffer of another length; neither is touched */
    SB_REFUSED_RECORD = 10,    /* record not 24 bytes, wrong mark or kind, flag over 1, an unused byte or byte 7 not zero */
    SB_REFUSED_DISK = 11,      /* disk above 63 */
    SB_REFUSED_OPEN = 12,      /* open of an open disk */
    SB_REFUSED_CLOSED = 13,    /* claim or release on a closed disk */
    SB_REFUSED_UNSOUND = 14,   /* the disk's part isn't sound (not for open) */
    SB_REFUSED_CLOCK = 15,     /* now below the disk's clock (not for open) */
    SB_REFUSED_METHOD = 16,    /* method above 6 (claim) */
    SB_REFUSED_FIELD = 17,     /* a field out of range: values, errors, limits; a reading with value or second of measuring
                                  not 0; a write with the fresh flag, or measured after now */
    SB_REFUSED_OWN_ERROR = 18, /* a write whose own error exceeds its attribute's limit */
    SB_REFUSED_NO_TICKET = 19, /* a claim with no ticket left */
    SB_REFUSED_FULL = 20,      /* a claim that would wait while 8 wait */
    SB_REFUSED_TICKET = 21     /* release of a ticket neither active nor waiting */
};

/* Offsets in a record. Bytes unused by open (4 to 6, 12 to 15) and release (4 to 6, 16 to 23) are zero. */
enum {
    SB_MARK_0 = 0x52,
    SB_MARK_1 = 0x42,
    SB_RECORD_MARK = 0, /* two bytes */
    SB_RECORD_KIND = 2,
    SB_RECORD_DISK = 3,
    SB_RECORD_METHOD = 4,
    SB_RECORD_PRIORITY = 5,
    SB_RECORD_FRESH = 6,           /* 0 or 1 */
    SB_RECORD_ZERO = 7,            /* zero */
    SB_RECORD_NOW = 8,             /* word: second of the call */
    SB_RECORD_MEASURED = 12,       /* word, claim: second of measuring */
    SB_RECORD_TICKET = 12,         /* word, release */
    SB_RECORD_VALUE = 16,          /* signed word, claim */
    SB_RECORD_USED_LIMIT = 16,     /* word, open: the most that used may be off by, not the disk's size */
    SB_RECORD_OWN_ERROR = 20,      /* word, claim of a write */
    SB_RECORD_STATED_LIMIT = 20,   /* word, claim of a reading: the error that it can bear */
    SB_RECORD_PROMISED_LIMIT = 20  /* word, open: the most that promised may be off by */
};

/* Offsets in an item of the answer; item k begins at SB_ITEM_BYTES * k. Unused items are zero. */
enum {
    SB_ITEM_CODE = 0,   /* word */
    SB_ITEM_TICKET = 4, /* word */
    SB_ITEM_TOLD = 8,   /* signed word */
    SB_ITEM_AMOUNT = 12 /* word */
};

/* Offsets in a part; the part of disk d begins at SB_HEAD_BYTES + SB_PART_BYTES * d. */
enum {
    SB_PART_CLOCK = 0, /* word: second of the last accepted call */
    SB_PART_NEXT_TICKET = 4,
    SB_PART_ACTIVE_COUNT = 8,
    SB_PART_WAITING_COUNT = 12,
    SB_PART_USED = 16,     /* a figure */
    SB_PART_PROMISED = 32, /* a figure */
    SB_PART_STATE = 48,    /* a figure without amount and limit */
    SB_PART_ZERO = 56,     /* two words that are zero */
    SB_PART_ACTIVE = 64,   /* slots, in the order of their grants */
    SB_PART_WAITING = 416  /* slots, in the order of the pass */
};

/* Offsets in a figure. */
enum {
    SB_FIGURE_VALUE = 0,  /* signed word */
    SB_FIGURE_STAMP = 4,  /* word: second of measuring of the last set that was released, or of the open */
    SB_FIGURE_AMOUNT = 8, /* word: how much error it carries */
    SB_FIGURE_LIMIT = 12  /* word: the most that its amount may be, from the open */
};

/* Offsets in a slot. */
enum {
    SB_SLOT_TICKET = 0,
    SB_SLOT_METHOD = 4,
    SB_SLOT_PRIORITY = 8,
    SB_SLOT_FRESH = 12,
    SB_SLOT_MEASURED = 16,     /* 0 for a reading */
    SB_SLOT_VALUE = 20,        /* signed word; 0 for a reading */
    SB_SLOT_OWN_ERROR = 24,    /* of a write */
    SB_SLOT_STATED_LIMIT = 24, /* of a reading */
    SB_SLOT_TOLD = 28,         /* signed word: of an active reading; else 0 */
    SB_SLOT_AMOUNT = 32,       /* of an active reading; else 0 */
    SB_SLOT_ZERO = 36          /* two words that are zero */
};

/* Reads a word and a signed word, and puts a word, at an offset. */
static inline uint32_t stopblocker_word(const uint8_t *bytes, size_t at) {
    return (uint32_t)bytes[at] | (uint32_t)bytes[at + 1] << 8 | (uint32_t)bytes[at + 2] << 16 | (uint32_t)bytes[at + 3] << 24;
}

static inline int32_t stopblocker_signed(const uint8_t *bytes, size_t at) {
    uint32_t word = stopblocker_word(bytes, at);
    return word > INT32_MAX ? -(int32_t)(UINT32_MAX - word) - 1 : (int32_t)word;
}

static inline void stopblocker_put(uint8_t *bytes, size_t at, uint32_t word) {
    for (int i = 0; i < 4; i++) bytes[at + (size_t)i] = (uint8_t)(word >> 8 * i);
}

/* Writes a record with mark, kind, disk and second, and zeros behind. */
static inline void stopblocker_begin(uint8_t record[SB_RECORD_BYTES], uint8_t kind, uint8_t disk, uint32_t now) {
    for (int i = 0; i < SB_RECORD_BYTES; i++) record[i] = 0;
    record[SB_RECORD_MARK] = SB_MARK_0;
    record[SB_RECORD_MARK + 1] = SB_MARK_1;
    record[SB_RECORD_KIND] = kind;
    record[SB_RECORD_DISK] = disk;
    stopblocker_put(record, SB_RECORD_NOW, now);
}

/* Write the record of an open, a write, a reading and a release. The limits of an open are the most error, in MiB, that used
 * and promised may carry. They are not the disk's capacity, and cannot be changed on this board. */
static inline void stopblocker_open(uint8_t record[SB_RECORD_BYTES], uint8_t disk, uint32_t now, uint32_t used_limit, uint32_t promised_limit) {
    stopblocker_begin(record, SB_OPEN, disk, now);
    stopblocker_put(record, SB_RECORD_USED_LIMIT, used_limit);
    stopblocker_put(record, SB_RECORD_PROMISED_LIMIT, promised_limit);
}

static inline void stopblocker_write(uint8_t record[SB_RECORD_BYTES], uint8_t disk, uint8_t method, uint8_t priority, uint32_t now, uint32_t measured,
                                     int32_t value, uint32_t own_error) {
    stopblocker_begin(record, SB_CLAIM, disk, now);
    record[SB_RECORD_METHOD] = method;
    record[SB_RECORD_PRIORITY] = priority;
    stopblocker_put(record, SB_RECORD_MEASURED, measured);
    stopblocker_put(record, SB_RECORD_VALUE, (uint32_t)value);
    stopblocker_put(record, SB_RECORD_OWN_ERROR, own_error);
}

static inline void stopblocker_read(uint8_t record[SB_RECORD_BYTES], uint8_t disk, uint8_t method, uint8_t priority, uint32_t now, int fresh,
                                    uint32_t stated_limit) {
    stopblocker_begin(record, SB_CLAIM, disk, now);
    record[SB_RECORD_METHOD] = method;
    record[SB_RECORD_PRIORITY] = priority;
    record[SB_RECORD_FRESH] = fresh != 0;
    stopblocker_put(record, SB_RECORD_STATED_LIMIT, stated_limit);
}

static inline void stopblocker_release(uint8_t record[SB_RECORD_BYTES], uint8_t disk, uint32_t now, uint32_t ticket) {
    stopblocker_begin(record, SB_RELEASE, disk, now);
    stopblocker_put(record, SB_RECORD_TICKET, ticket);
}

/* An item of the answer. */
struct stopblocker_item {
    uint32_t code;
    uint32_t ticket;
    int32_t told;
    uint32_t amount;
};

/* Item k, 0 to 8. Item 0 is the call's own answer. After a release, items 1 and on are the grants of its pass, up to the
 * first item with ticket 0. */
static inline struct stopblocker_item stopblocker_item_at(const uint8_t answer[SB_ANSWER_BYTES], int k) {
    const uint8_t *bytes = answer + SB_ITEM_BYTES * k;
    struct stopblocker_item item;
    item.code = stopblocker_word(bytes, SB_ITEM_CODE);
    item.ticket = stopblocker_word(bytes, SB_ITEM_TICKET);
    item.told = stopblocker_signed(bytes, SB_ITEM_TOLD);
    item.amount = stopblocker_word(bytes, SB_ITEM_AMOUNT);
    return item;
}

/* Whether a disk 0 to 63 is open, and where its part begins. */
static inline int stopblocker_is_open(const uint8_t *board, uint8_t disk) { return board[disk / 8] >> disk % 8 & 1; }

static inline size_t stopblocker_part(uint8_t disk) { return SB_HEAD_BYTES + (size_t)SB_PART_BYTES * disk; }

/* What a refusal says; an empty text if the code is no refusal. */
static inline const char *stopblocker_refusal(uint32_t code) {
    switch (code) {
    case SB_REFUSED_LENGTH: return "board or answer buffer of another length; neither is touched";
    case SB_REFUSED_RECORD: return "record not 24 bytes, wrong mark or kind, flag over 1, an unused byte or byte 7 not zero";
    case SB_REFUSED_DISK: return "disk above 63";
    case SB_REFUSED_OPEN: return "open of an open disk";
    case SB_REFUSED_CLOSED: return "claim or release on a closed disk";
    case SB_REFUSED_UNSOUND: return "the disk's part isn't sound";
    case SB_REFUSED_CLOCK: return "now below the disk's clock";
    case SB_REFUSED_METHOD: return "method above 6";
    case SB_REFUSED_FIELD:
        return "a field out of range: values, errors, limits; a reading with value or second of measuring not 0; "
               "a write with the fresh flag, or measured after now";
    case SB_REFUSED_OWN_ERROR: return "a write whose own error exceeds its attribute's limit";
    case SB_REFUSED_NO_TICKET: return "a claim with no ticket left";
    case SB_REFUSED_FULL: return "a claim that would wait while 8 wait";
    case SB_REFUSED_TICKET: return "release of a ticket neither active nor waiting";
    default: return "";
    }
}

/* What a caller can do about it; an empty text if the code is no refusal. */
static inline const char *stopblocker_what_to_do(uint32_t code) {
    switch (code) {
    case SB_REFUSED_LENGTH: return "lend a board of 49,216 bytes and an answer buffer of 144";
    case SB_REFUSED_RECORD: return "the sender's fault, or bytes lost on the way; sb decode says which byte is wrong";
    case SB_REFUSED_DISK: return "a board has disks 0 to 63; more disks need a second board";
    case SB_REFUSED_OPEN: return "it is open already, go on with claims; its limits stay as the first open set them";
    case SB_REFUSED_CLOSED: return "open the disk first";
    case SB_REFUSED_UNSOUND: return "its bytes were changed from outside: put back a copy of the board, or clear its open bit and open it anew";
    case SB_REFUSED_CLOCK: return "an accepted call was later than this one: call again with the present second; all callers need one clock";
    case SB_REFUSED_METHOD: return "methods are 0 ReportUsed, 1 AddPromised, 2 SetPromised, 3 SetState, 4 ReadUsed, 5 ReadLoad, 6 ReadState";
    case SB_REFUSED_FIELD: return "the sender's fault; sb explain --records names the field";
    case SB_REFUSED_OWN_ERROR: return "it could never be granted: measure better, or open the disk with a larger limit on the next board";
    case SB_REFUSED_NO_TICKET: return "all 999,999 tickets of this disk are taken: begin a new board";
    case SB_REFUSED_FULL: return "try again after a release, or on a disk that is less wanted";
    case SB_REFUSED_TICKET: return "it was released before, or never was; nothing is held under it";
    default: return "";
    }
}

#ifdef __cplusplus
}
#endif

#endif
