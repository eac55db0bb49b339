/* Loads a module over a slow bus: the host receives one entry at a time, has it passed and forgets its bytes. Then it breaks
   the load off after every entry and takes it up again.

   ./build
   gcc -std=c11 -I include examples/pieces.c target/staticlib/libvcs.a -o target/pieces
   target/pieces 2 examples/linear.rw examples/linear.ro */
#include <stdio.h>
#include <stdlib.h>
#include <string.h>
#include "vcs.h"

/* The module, at the other end of the bus: its strings, RW and RO, their lengths, and how many bytes of each it has sent. */
static uint8_t strings[2][121]; /* A string of 121 bytes is refused, so none is cut. */
static size_t count, lengths[2], sent[2];

/* Receives the next bytes of a string: as many as are asked for, or as are left. */
static size_t receive(int string, uint8_t *bytes, size_t asked)
{
    size_t left = lengths[string] - sent[string], got = asked < left ? asked : left;
    memcpy(bytes, strings[string] + sent[string], got);
    sent[string] += got;
    return got;
}

/* The load: entry by entry, but at most so many, then with all that is left at once. */
static vcs_loaded load(size_t pieces, int shown)
{
    vcs_state state = {0}; /* All that the host keeps between two entries. */
    sent[0] = sent[1] = 0;
    for (; pieces > 0; pieces--) {
        uint8_t entry[255];
        int ro = sent[0] == lengths[0]; /* No byte of RW is left. */
        size_t got = receive(ro, entry, 2); /* ID and Length; then what Length tells. */
        if (got == 2 && entry[1] > 2) {
            got += receive(ro, entry + 2, entry[1] - 2u);
        }
        vcs_passed next = vcs_pass(count, entry, ro ? 0 : got, entry, ro ? got : 0, state);
        if (next.refusal != 0) {
            return (vcs_loaded){.refusal = next.refusal, .at = next.at};
        }
        if (next.end != 0) {
            break;
        }
        state = next.state;
        if (shown) {
            printf("%zu bytes; kept: string %d, media %d, entries %d, before %d, sum %d, staged length %d\n", next.length,
                   state.string, state.media, state.entries, state.before, state.sum, state.staged_length);
        }
    }
    return vcs_resume(count, strings[0] + sent[0], lengths[0] - sent[0], strings[1] + sent[1], lengths[1] - sent[1], state);
}

int main(int words, char **word)
{
    FILE *rw_file, *ro_file;
    if (words != 4 || !(rw_file = fopen(word[2], "rb")) || !(ro_file = fopen(word[3], "rb"))) {
        fprintf(stderr, "usage: pieces COUNT RW-FILE RO-FILE\n");
        return 1;
    }
    count = strtoul(word[1], NULL, 10);
    lengths[0] = fread(strings[0], 1, sizeof strings[0], rw_file);
    lengths[1] = fread(strings[1], 1, sizeof strings[1], ro_file);

    /* All entries one by one: no byte is left for resume, which answers by the state. Both calls ask 9 of what they are lent;
       that no string is over 120 bytes, the host sees to. */
    vcs_loaded answer = lengths[0] > 120 || lengths[1] > 120 ? (vcs_loaded){.refusal = 9} : load(SIZE_MAX, 1);
    printf("refusal %zu at %zu; %zu and %zu entries, staged length %zu, active length %zu\n", answer.refusal, answer.at,
           answer.rw_count, answer.ro_count, answer.staged_length, answer.active_length);

    /* Broken off after any entry and taken up again, it gives the answer or refusal of the load. */
    vcs_loaded whole = vcs_load(count, strings[0], lengths[0], strings[1], lengths[1]);
    size_t entries = answer.refusal == 0 ? answer.rw_count + answer.ro_count : answer.at, same = 0;
    for (size_t pieces = 0; pieces <= entries; pieces++) {
        vcs_loaded again = load(pieces, 0);
        same += memcmp(&again, &whole, sizeof whole) == 0;
    }
    printf("taken up again after 0 to %zu entries: the load's answer in %zu of %zu\n", entries, same, entries + 1);
}
