/* Prints the active record byte by byte, by page and byte and then by offset: how many entries owner looked at until one
   covered the byte, and whose its bits are.

   ./build
   gcc -std=c11 -I include examples/owners.c target/staticlib/libvcs.a -o target/owners
   target/owners 2 examples/linear.rw examples/linear.ro */
#include <stdio.h>
#include <stdlib.h>
#include <string.h>
#include "vcs.h"

/* Every call is given the count of applications and both strings. */
static uint8_t rw[121], ro[121]; /* A string of 121 bytes is refused, so none is cut. */
static size_t count, rw_length, ro_length;
#define MODULE count, rw, rw_length, ro, ro_length

/* A byte's bits in runs of one field or gap. All bits of a byte are in one entry's space. */
static void print_bits(const vcs_owned owners[8])
{
    printf(": looked at %zu;", owners[0].looked_at);
    for (size_t first = 0, next; first < 8; first = next) {
        vcs_owned owner = owners[first];
        next = first + 1;
        while (next < 8 && memcmp(&owners[next], &owner, sizeof owner) == 0) {
            next++;
        }
        printf(first == 0 ? " " : ", ");
        printf(next - first == 1 ? "bit %zu" : "bits %zu to %zu", first, next - 1);
        printf(owner.gap ? " gap" : " entry %zu part %zu lane %zu", owner.entry, owner.part, owner.lane);
    }
    printf("\n");
}

/* Prints the byte of the active set, 2, at an address. Says whether there is one: an address outside the set is refused
   with 10. */
static int print_address(size_t page, size_t byte)
{
    vcs_owned owners[8];
    for (size_t bit = 0; bit < 8; bit++) {
        owners[bit] = vcs_owner_at(MODULE, 2, page, byte, bit);
    }
    if (owners[0].refusal != 0) {
        return 0;
    }
    printf("page %02zXh byte %zu", page, byte);
    print_bits(owners);
    return 1;
}

/* Prints the byte of the active set at an offset. */
static void print_offset(size_t offset)
{
    vcs_owned owners[8];
    for (size_t bit = 0; bit < 8; bit++) {
        owners[bit] = vcs_owner(MODULE, 2, offset, bit);
    }
    printf("offset %zu", offset);
    print_bits(owners);
}

int main(int words, char **word)
{
    FILE *rw_file, *ro_file;
    if (words != 4 || !(rw_file = fopen(word[2], "rb")) || !(ro_file = fopen(word[3], "rb"))) {
        fprintf(stderr, "usage: owners COUNT RW-FILE RO-FILE\n");
        return 1;
    }
    count = strtoul(word[1], NULL, 10);
    rw_length = fread(rw, 1, sizeof rw, rw_file);
    ro_length = fread(ro, 1, sizeof ro, ro_file);

    vcs_loaded map = vcs_load(MODULE);
    if (map.refusal != 0) {
        printf("refusal %zu at %zu\n", map.refusal, map.at);
        return 1;
    }
    printf("%zu and %zu entries, active length %zu\n", map.rw_count, map.ro_count, map.active_length);

    /* The page and the overflow page of the active set. As many offsets as bytes are found there have an address. */
    size_t found = 0;
    for (size_t byte = 0; byte <= 255; byte++) {
        found += print_address(0x11, byte);
    }
    for (size_t byte = 0; byte <= 255; byte++) {
        found += print_address(0x19, byte);
    }
    for (size_t offset = found; offset < map.active_length; offset++) {
        print_offset(offset);
    }
}
