/* The versatile control set engine: C interface of libvcs.a.

   Strings are lent as a pointer and a length; NULL with length 0 is an empty string. No call changes a byte of a string.
   A bank is lent likewise and overlaps no string; under VCS_BANK_SIZE bytes it is refused with 8. No call changes a byte
   beyond VCS_BANK_SIZE, and a refused call changes none.
   Every number may have any value: what doesn't exist is refused. In an answer, `refusal` is 0 if the call is accepted,
   otherwise the documents' number (01 and 02); `at` is then the entry that 16 and 1 to 7 name, or the lane that 13
   and 14 name, else 0. All other members are 0 in a refused answer, but for the reader's position.
   Strings are checked entry by entry, RW first; of one entry 16 comes before 1 to 7.
   Numbers of fields are unsigned, but those of 09h, 0Ah, 0Dh, 11h and 12h have a sign. Write takes of 09h, 0Ah and 0Dh a
   number from the entry's Min to its Max. Weight alone multiplies by a step, that of 12h.
   The library needs `memset` from the C library, nothing else. */
#ifndef VCS_H
#define VCS_H

#include <stddef.h>
#include <stdint.h>

#ifdef __cplusplus
extern "C" {
#endif

/* The most entries of a string; one more is refused with 16. */
#define VCS_ENTRY_LIMIT 16

/* The bank: staged sets 0 and 1 and the active set, 2, then the AppSels of each staged set, a byte for each lane (1 to 8). */
#define VCS_BANK_SIZE 784
#define VCS_SET_SIZE 256
#define VCS_SET_START(set) (VCS_SET_SIZE * (set))
#define VCS_APP_SEL_AT(set, lane) (768 + 8 * (set) + (lane) - 1)

/* Both entry counts, staged and active length. */
typedef struct {
    size_t refusal;
    size_t at;
    size_t rw_count;
    size_t ro_count;
    size_t staged_length;
    size_t active_length;
} vcs_loaded;

/* What a load keeps after an entry, and all that it keeps: the string that it is in (0 RW, any other number RO), whether a
   media-side entry of the table has been passed in either string (0 no, any other number yes), the entries passed of that
   string, the entries before that string, the sum of the MemoryLengths passed and, in the RO string, the staged length.
   A load begins with all of them 0. In an answer `string` and `media` are 0 or 1. */
typedef struct {
    uint8_t string;
    uint8_t media;
    uint8_t entries;
    uint8_t before;
    uint16_t sum;
    uint16_t staged_length;
} vcs_state;

/* What a load that is made entry by entry comes to: past an entry, its length and the state after it; or the end, where no
   byte is left (`end` is 1, and all others are 0). */
typedef struct {
    size_t refusal;
    size_t at;
    size_t end;
    size_t length;
    vcs_state state;
} vcs_passed;

/* Where an entry stands: in which string (0 RW, 1 RO), its start and length there, and its offset in a set. */
typedef struct {
    size_t refusal;
    size_t at;
    size_t string;
    size_t start;
    size_t length;
    size_t offset;
} vcs_located;

/* Where a field stands in a set: the offset of its byte; page and byte, the address that Table 4-1 of OIF-CMIS-VCS-01.1
   gives to this offset; and the field's lowest bit there, 0 to 7. Offsets run on from a set's page to its overflow page:
     staged set 0: page 10h, bytes 153 to 175, offsets 0 to 22; page 18h, bytes 144 to 199, offsets 23 to 78
     staged set 1: page 10h, bytes 188 to 210, offsets 0 to 22; page 18h, bytes 200 to 255, offsets 23 to 78
     active set:   page 11h, bytes 214 to 234, offsets 0 to 20; page 19h, bytes 152 to 207, offsets 21 to 76
   An offset past the last of its set has no address: page and byte are 0. No entry is moved to keep it on one page: where
   a module leaves bytes free before the border, its string has an entry for them (00h), or addresses behind them differ. */
typedef struct {
    size_t refusal;
    size_t at;
    size_t offset;
    size_t page;
    size_t byte;
    size_t bit;
} vcs_placed;

/* Whose a bit of a set is: entry, part and lane (1 to 8) of its field. In a gap `gap` is 1 and these are 0. In both cases
   `looked_at` is the number of entries looked at: the number of the entry whose space covers the byte, plus one. */
typedef struct {
    size_t refusal;
    size_t at;
    size_t gap;
    size_t entry;
    size_t part;
    size_t lane;
    size_t looked_at;
} vcs_owned;

/* What a call on a bank says: `number` is what read, byte read and weight answer; of the other calls it is 0, and
   `refusal` 0 means yes. */
typedef struct {
    size_t refusal;
    size_t at;
    int64_t number;
} vcs_answer;

/* What a reader takes: an entry's start and length, or the end (`end` is 1, and these are 0); and the position after
   it, which is the one before unless an entry was taken. */
typedef struct {
    size_t refusal;
    size_t end;
    size_t start;
    size_t length;
    size_t position;
} vcs_taken;

/* A call as data. Each kind reads its own arguments and ignores the other members:
   0 select (set, lane, app), 1 write (set, entry, part, lane, value), 2 read (set, entry, part, lane),
   3 byte write (set, offset, byte), 4 byte read (set, offset), 5 publish (entry, part, lane, value), 6 apply (set, lanes).
   A kind above 6 doesn't exist: refused with 10, after 9, 8, 16 and 1 to 7. */
typedef struct {
    size_t kind;
    size_t set;
    size_t entry;
    size_t part;
    size_t lane;
    size_t offset;
    size_t app;
    int64_t value;
    uint8_t byte;
    uint8_t lanes;
} vcs_call;

/* The load: the check of both strings. Refusals 9, 16, 1 to 7. */
vcs_loaded vcs_load(size_t count, const uint8_t *rw, size_t rw_length, const uint8_t *ro, size_t ro_length);

/* Pass: one entry of a load that is made entry by entry. In the RW string, `rw` are the bytes of it that are not yet read, and
   `ro` is the RO string; with no byte of the RW string left, the entry is the first of the RO string. In the RO string, `ro`
   are the bytes of it that are not yet read, and `rw` isn't read. The bytes of the entry may be all that is lent: those behind
   it change nothing. Refusals 9 (of the count, and of what is lent), 16, 1 to 7. */
vcs_passed vcs_pass(size_t count, const uint8_t *rw, size_t rw_length, const uint8_t *ro, size_t ro_length, vcs_state state);

/* Resume: the load taken up again after an entry, given the state that pass left there and the bytes not yet read, as above.
   It answers what the load of the whole strings answers, if these are within 120 bytes; from a state of all 0 it is the load.
   A state that no load comes to is taken as it stands. Refusals 9 (of the count, and of what is lent), 16, 1 to 7. */
vcs_loaded vcs_resume(size_t count, const uint8_t *rw, size_t rw_length, const uint8_t *ro, size_t ro_length, vcs_state state);

/* The entry call: the entry's own bytes are `length` bytes from `start` of its string. Refusals 9, 16, 1 to 7, 10. */
vcs_located vcs_entry(size_t count, const uint8_t *rw, size_t rw_length, const uint8_t *ro, size_t ro_length, size_t entry);

/* The place call: the field of an entry, part and lane (1 to 8) in staged set 0 or 1, or in the active set, 2. Refusals 9,
   16, 1 to 7, 10, 11. */
vcs_placed vcs_place(size_t count, const uint8_t *rw, size_t rw_length, const uint8_t *ro, size_t ro_length, size_t set,
                     size_t entry, size_t part, size_t lane);

/* The owner call: bit 0 to 7 of the byte at an offset of a set. Once the strings are accepted it looks through the entries in
   order, RW first, up to the one whose space covers the byte; an entry with MemoryLength 0 covers none and is counted when
   passed. Refusals 9, 16, 1 to 7, 10. */
vcs_owned vcs_owner(size_t count, const uint8_t *rw, size_t rw_length, const uint8_t *ro, size_t ro_length, size_t set,
                    size_t offset, size_t bit);

/* The owner call by address: the answer is that of `vcs_owner` at the offset which page and byte have in the set. An address
   that isn't one of the set's (page 0, byte 0 is none), or whose offset isn't below the set's length, is refused with 10.
   Refusals 9, 16, 1 to 7, 10. */
vcs_owned vcs_owner_at(size_t count, const uint8_t *rw, size_t rw_length, const uint8_t *ro, size_t ro_length, size_t set,
                       size_t page, size_t byte, size_t bit);

/* Fresh: clears the bank, and answers as the load does. Refusals 9, 8, 16, 1 to 7. */
vcs_loaded vcs_fresh(size_t count, const uint8_t *rw, size_t rw_length, const uint8_t *ro, size_t ro_length,
                     uint8_t *bank, size_t bank_length);

/* Select: stores an app, 0 to count, as AppSel of a lane (1 to 8) of staged set 0 or 1. Refusals 9, 8, 16, 1 to 7,
   10 to 12. */
vcs_answer vcs_select(size_t count, const uint8_t *rw, size_t rw_length, const uint8_t *ro, size_t ro_length,
                      uint8_t *bank, size_t bank_length, size_t set, size_t lane, size_t app);

/* Write: stores an accepted value in a field of an RW entry in staged set 0 or 1. Refusals 9, 8, 16, 1 to 7, 10 to 12. */
vcs_answer vcs_write(size_t count, const uint8_t *rw, size_t rw_length, const uint8_t *ro, size_t ro_length,
                     uint8_t *bank, size_t bank_length, size_t set, size_t entry, size_t part, size_t lane, int64_t value);

/* Read: the number of a field in set 0, 1 or 2. Refusals 9, 8, 16, 1 to 7, 10, 11. */
vcs_answer vcs_read(size_t count, const uint8_t *rw, size_t rw_length, const uint8_t *ro, size_t ro_length,
                    const uint8_t *bank, size_t bank_length, size_t set, size_t entry, size_t part, size_t lane);

/* Publish: stores an accepted value in a field of an RO entry in the active set. Refusals 9, 8, 16, 1 to 7, 10 to 12. */
vcs_answer vcs_publish(size_t count, const uint8_t *rw, size_t rw_length, const uint8_t *ro, size_t ro_length,
                       uint8_t *bank, size_t bank_length, size_t entry, size_t part, size_t lane, int64_t value);

/* Byte write: stores a byte of staged set 0 or 1, any value, with its gaps 0. Refusals 9, 8, 16, 1 to 7, 10, 11. */
vcs_answer vcs_byte_write(size_t count, const uint8_t *rw, size_t rw_length, const uint8_t *ro, size_t ro_length,
                          uint8_t *bank, size_t bank_length, size_t set, size_t offset, uint8_t byte);

/* Byte read: the byte at an offset of set 0, 1 or 2, with its gaps 0. Refusals 9, 8, 16, 1 to 7, 10. */
vcs_answer vcs_byte_read(size_t count, const uint8_t *rw, size_t rw_length, const uint8_t *ro, size_t ro_length,
                         const uint8_t *bank, size_t bank_length, size_t set, size_t offset);

/* Apply: for each chosen lane (bit i - 1 of `lanes` is lane i), copies each RW field whose entry's mask has the lane's
   AppSel from staged set 0 or 1 to the active set; all or nothing. An empty mask changes nothing and is accepted.
   Refusals 9, 8, 16, 1 to 7, 10, 11, 13, 14. */
vcs_answer vcs_apply(size_t count, const uint8_t *rw, size_t rw_length, const uint8_t *ro, size_t ro_length,
                     uint8_t *bank, size_t bank_length, size_t set, uint8_t lanes);

/* Perform: a call given as data; its answer and refusals are those of its kind. */
vcs_answer vcs_perform(size_t count, const uint8_t *rw, size_t rw_length, const uint8_t *ro, size_t ro_length,
                       uint8_t *bank, size_t bank_length, vcs_call call);

/* Weight: the active number of a 12h field, in thousandths. Refusals 9, 8, 16, 1 to 7, 10. */
vcs_answer vcs_weight(size_t count, const uint8_t *rw, size_t rw_length, const uint8_t *ro, size_t ro_length,
                      const uint8_t *bank, size_t bank_length, size_t entry, size_t lane);

/* What a reader takes from one string at any position: the entry that begins there, or the end if no byte is left from it on.
   From 0 on, each time at the position that the one before gave, it takes the string's entries in order, past the limit too.
   Refusals 9, 1, 2, never 16. */
vcs_taken vcs_take(size_t count, const uint8_t *string, size_t string_length, size_t position);

#ifdef __cplusplus
}
#endif

#endif
