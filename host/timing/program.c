// A million records of a kind on standard output, behind the opens of 64 disks: `readings`, `mix` or `refusals`.
#include <stdio.h>
#include <string.h>

#include "stopblocker.h"

enum { RECORDS = 1000000, HELD = 3, LIMIT = 1000, PRIORITY = 5 };

static uint8_t record[SB_RECORD_BYTES];

static void put(void) { fwrite(record, sizeof record, 1, stdout); }

// Numbers that are the same in each run.
static uint32_t below(uint32_t n) {
    static uint64_t state = 1;
    state = state * 6364136223846793005u + 1442695040888963407u;
    return (uint32_t)(state >> 33) % n;
}

// Disk after disk, a reading and its release.
static void readings(void) {
    for (uint32_t n = 0; n < RECORDS / 2; n++) {
        uint8_t disk = n % SB_DISKS;
        stopblocker_read(record, disk, SB_READ_USED, PRIORITY, n, 0, LIMIT);
        put();
        stopblocker_release(record, disk, n, n / SB_DISKS + 1);
        put();
    }
}

// On a disk by chance: a claim, or the release of a claim by chance of at most three that are held or wait there. Half
// of the claims are readings, the others reports and adds; what a write changes is more than some readings can bear.
static void mix(void) {
    static uint32_t tickets[SB_DISKS][HELD], held[SB_DISKS], last[SB_DISKS];
    for (uint32_t now = 0; now < RECORDS; now++) {
        uint8_t disk = (uint8_t)below(SB_DISKS);
        uint32_t *ticket = tickets[disk];
        if (held[disk] == HELD || (held[disk] > 0 && below(2) == 0)) {
            uint32_t at = below(held[disk]);
            stopblocker_release(record, disk, now, ticket[at]);
            ticket[at] = ticket[--held[disk]];
        } else {
            int32_t value = (int32_t)below(600);
            switch (below(4)) {
            case 0: stopblocker_write(record, disk, SB_REPORT_USED, PRIORITY, now, now, 40000 + value, below(20)); break;
            case 1: stopblocker_write(record, disk, SB_ADD_PROMISED, PRIORITY, now, now, value - 300, 0); break;
            case 2: stopblocker_read(record, disk, SB_READ_USED, PRIORITY, now, 0, LIMIT / 20); break;
            default: stopblocker_read(record, disk, SB_READ_LOAD, PRIORITY, now, 0, LIMIT / 10); break;
            }
            ticket[held[disk]++] = ++last[disk];
        }
        put();
    }
}

// Of no kind that there is: 10.
static void refusals(void) {
    stopblocker_begin(record, SB_RELEASE + 1, 0, 0);
    for (uint32_t n = 0; n < RECORDS; n++) put();
}

int main(int words, char **word) {
    const char *kind = words == 2 ? word[1] : "";
    for (uint8_t disk = 0; disk < SB_DISKS; disk++) {
        stopblocker_open(record, disk, 0, LIMIT, LIMIT);
        put();
    }
    if (strcmp(kind, "readings") == 0) readings();
    else if (strcmp(kind, "mix") == 0) mix();
    else if (strcmp(kind, "refusals") == 0) refusals();
    else return 1;
    return fflush(stdout) != 0;
}
