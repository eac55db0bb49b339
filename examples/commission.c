/* Commissions a module: loads it, places a field, stages settings, applies them and prints the active record.

   ./build
   gcc -std=c11 -I include examples/commission.c target/staticlib/libvcs.a -o target/commission
   target/commission 2 examples/linear.rw examples/linear.ro */
#include <stdio.h>
#include <stdlib.h>
#include "vcs.h"

/* Every call is given the count of applications and both strings; a call on a bank, then the bank. */
static uint8_t rw[121], ro[121], bank[VCS_BANK_SIZE]; /* A string of 121 bytes is refused, so none is cut. */
static size_t count, rw_length, ro_length;
#define MODULE count, rw, rw_length, ro, ro_length
#define BANK bank, sizeof bank

/* What is staged in every lane: values for RW entries of the linear module. Those of 09h, 0Ah and 0Dh count steps; a number
   outside the entry's Min and Max would be refused with 12. The 0 of a fresh bank isn't one of entry 6. */
static const struct {
    size_t entry;
    int64_t value;
} settings[] = {
    {1, 20},  /* 09h, input equalizer: 5 dB */
    {2, -6},  /* 0Ah, output equalizer: -3 dB */
    {3, 1},   /* 0Bh, output precoding on */
    {5, -14}, /* 0Dh, index -1: -0.14 */
    {6, 86},  /* 0Dh, index 0: 0.86 */
    {7, 9},   /* 0Eh, output amplitude: 700 mV */
    {8, 12},  /* 0Fh, the host's channel loss for Rx: 12 dB */
    {9, 9},   /* 10h, for Tx: 9 dB */
};

/* Ends the program if a call was refused. Refusals 16 and 1 to 7 name an entry, 13 and 14 a lane, the others nothing. */
static void accepted(const char *call, vcs_answer answer)
{
    size_t number = answer.refusal;
    if (number != 0) {
        int entry = number == 16 || number <= 7, lane = number == 13 || number == 14;
        printf("%s: refused with %zu", call, number);
        printf(entry ? ", entry %zu\n" : lane ? ", lane %zu\n" : "\n", answer.at);
        exit(1);
    }
}

int main(int words, char **word)
{
    FILE *rw_file, *ro_file;
    if (words != 4 || !(rw_file = fopen(word[2], "rb")) || !(ro_file = fopen(word[3], "rb"))) {
        fprintf(stderr, "usage: commission COUNT RW-FILE RO-FILE\n");
        return 1;
    }
    count = strtoul(word[1], NULL, 10);
    rw_length = fread(rw, 1, sizeof rw, rw_file);
    ro_length = fread(ro, 1, sizeof ro, ro_file);

    /* Fresh clears the bank and answers as the load does. */
    vcs_loaded map = vcs_fresh(MODULE, BANK);
    accepted("fresh", (vcs_answer){map.refusal, map.at, 0});
    size_t entries = map.rw_count + map.ro_count;
    printf("%zu entries, staged length %zu, active length %zu\n", entries, map.staged_length, map.active_length);

    /* Entry 8 is the host's channel loss for Rx (0Fh): where does its field of lane 3 stand in staged set 0? */
    vcs_placed placed = vcs_place(MODULE, 0, 8, 0, 3);
    accepted("place", (vcs_answer){placed.refusal, placed.at, 0});
    printf("entry 8, part 0, lane 3: offset %zu, page %02zXh, byte %zu, bit %zu\n", placed.offset, placed.page, placed.byte,
           placed.bit);

    /* Staged set 0: application 1 in lanes 1 to 4, 2 in the others, and the settings. */
    for (size_t lane = 1; lane <= 8; lane++) {
        accepted("select", vcs_select(MODULE, BANK, 0, lane, lane <= 4 ? 1 : 2));
        for (size_t i = 0; i < sizeof settings / sizeof settings[0]; i++) {
            accepted("write", vcs_write(MODULE, BANK, 0, settings[i].entry, 0, lane, settings[i].value));
        }
    }
    /* All eight lanes: each takes the fields that its application has. */
    accepted("apply", vcs_apply(MODULE, BANK, 0, 0xFF));

    /* The active record, set 2. A part that an entry doesn't have is refused. */
    for (size_t entry = 0; entry < entries; entry++) {
        for (size_t part = 0; vcs_read(MODULE, BANK, 2, entry, part, 1).refusal == 0; part++) {
            printf("entry %zu, part %zu, lanes 1 to 8:", entry, part);
            for (size_t lane = 1; lane <= 8; lane++) {
                printf(" %lld", (long long)vcs_read(MODULE, BANK, 2, entry, part, lane).number);
            }
            printf("\n");
        }
    }
}
