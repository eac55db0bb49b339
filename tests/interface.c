/* Checks the C interface: the layout that include/vcs.h promises, and answers worked out by hand from document 01 and
   notes 1, 2, 7, 8 and 12 of document 02.

   gcc -std=c11 -Wall -Wextra -Werror -I include tests/interface.c target/staticlib/libvcs.a -o target/interface */
#include <stdio.h>
#include <stdlib.h>
#include <string.h>

#include "vcs.h"

/* A member of a type, and at which byte it stands. */
#define MEMBER(type, member, of, byte) \
    _Static_assert(offsetof(type, member) == (byte), #type "." #member " stands at byte " #byte); \
    _Static_assert(_Generic(((type *)0)->member, of: 1, default: 0), #type "." #member " has type " #of)

/* A number: a size_t at its place among numbers of eight bytes. */
#define AT(type, member, place) MEMBER(type, member, size_t, 8 * (place))

/* An answer: how many numbers it has, and the first two, which every answer has. */
#define ANSWER(type, numbers) \
    _Static_assert(sizeof(type) == 8 * (numbers), #type " has " #numbers " numbers"); \
    AT(type, refusal, 0); \
    AT(type, at, 1)

_Static_assert(sizeof(size_t) == 8, "size_t has 64 bits");
ANSWER(vcs_loaded, 6);
AT(vcs_loaded, rw_count, 2);
AT(vcs_loaded, ro_count, 3);
AT(vcs_loaded, staged_length, 4);
AT(vcs_loaded, active_length, 5);
ANSWER(vcs_passed, 5);
AT(vcs_passed, end, 2);
AT(vcs_passed, length, 3);
MEMBER(vcs_passed, state, vcs_state, 32);
ANSWER(vcs_located, 6);
AT(vcs_located, string, 2);
AT(vcs_located, start, 3);
AT(vcs_located, length, 4);
AT(vcs_located, offset, 5);
ANSWER(vcs_placed, 6);
AT(vcs_placed, offset, 2);
AT(vcs_placed, page, 3);
AT(vcs_placed, byte, 4);
AT(vcs_placed, bit, 5);
ANSWER(vcs_owned, 7);
AT(vcs_owned, gap, 2);
AT(vcs_owned, entry, 3);
AT(vcs_owned, part, 4);
AT(vcs_owned, lane, 5);
AT(vcs_owned, looked_at, 6);
ANSWER(vcs_answer, 3);
MEMBER(vcs_answer, number, int64_t, 16);

_Static_assert(sizeof(vcs_call) == 72, "vcs_call has eight numbers, two bytes and six of padding");
AT(vcs_call, kind, 0);
AT(vcs_call, set, 1);
AT(vcs_call, entry, 2);
AT(vcs_call, part, 3);
AT(vcs_call, lane, 4);
AT(vcs_call, offset, 5);
AT(vcs_call, app, 6);
MEMBER(vcs_call, value, int64_t, 56);
MEMBER(vcs_call, byte, uint8_t, 64);
MEMBER(vcs_call, lanes, uint8_t, 65);

_Static_assert(sizeof(vcs_state) == 8, "vcs_state has four bytes and two numbers of two bytes");
MEMBER(vcs_state, string, uint8_t, 0);
MEMBER(vcs_state, media, uint8_t, 1);
MEMBER(vcs_state, entries, uint8_t, 2);
MEMBER(vcs_state, before, uint8_t, 3);
MEMBER(vcs_state, sum, uint16_t, 4);
MEMBER(vcs_state, staged_length, uint16_t, 6);

_Static_assert(sizeof(vcs_taken) == 5 * sizeof(size_t), "vcs_taken has five numbers");
AT(vcs_taken, refusal, 0);
AT(vcs_taken, end, 1);
AT(vcs_taken, start, 2);
AT(vcs_taken, length, 3);
AT(vcs_taken, position, 4);

/* The limit of note 7, and the bank as document 01 lays it out. */
_Static_assert(VCS_ENTRY_LIMIT == 16, "a string has at most 16 entries");
_Static_assert(VCS_BANK_SIZE == 784, "a bank has 784 bytes");
_Static_assert(VCS_SET_SIZE == 256, "a set has 256 bytes");
_Static_assert(VCS_SET_START(0) == 0 && VCS_SET_START(1) == 256 && VCS_SET_START(2) == 512, "the sets");
_Static_assert(VCS_APP_SEL_AT(0, 1) == 768 && VCS_APP_SEL_AT(1, 1) == 776 && VCS_APP_SEL_AT(1, 8) == 783, "the AppSels");

_Static_assert(_Generic(&vcs_load,
    vcs_loaded (*)(size_t, const uint8_t *, size_t, const uint8_t *, size_t): 1, default: 0), "vcs_load");
_Static_assert(_Generic(&vcs_pass,
    vcs_passed (*)(size_t, const uint8_t *, size_t, const uint8_t *, size_t, vcs_state): 1, default: 0), "vcs_pass");
_Static_assert(_Generic(&vcs_resume,
    vcs_loaded (*)(size_t, const uint8_t *, size_t, const uint8_t *, size_t, vcs_state): 1, default: 0), "vcs_resume");
_Static_assert(_Generic(&vcs_entry,
    vcs_located (*)(size_t, const uint8_t *, size_t, const uint8_t *, size_t, size_t): 1, default: 0), "vcs_entry");
_Static_assert(_Generic(&vcs_place,
    vcs_placed (*)(size_t, const uint8_t *, size_t, const uint8_t *, size_t, size_t, size_t, size_t, size_t): 1,
    default: 0), "vcs_place");
_Static_assert(_Generic(&vcs_owner,
    vcs_owned (*)(size_t, const uint8_t *, size_t, const uint8_t *, size_t, size_t, size_t, size_t): 1,
    default: 0), "vcs_owner");
_Static_assert(_Generic(&vcs_owner_at,
    vcs_owned (*)(size_t, const uint8_t *, size_t, const uint8_t *, size_t, size_t, size_t, size_t, size_t): 1,
    default: 0), "vcs_owner_at");
_Static_assert(_Generic(&vcs_fresh,
    vcs_loaded (*)(size_t, const uint8_t *, size_t, const uint8_t *, size_t, uint8_t *, size_t): 1,
    default: 0), "vcs_fresh");
_Static_assert(_Generic(&vcs_select,
    vcs_answer (*)(size_t, const uint8_t *, size_t, const uint8_t *, size_t, uint8_t *, size_t, size_t, size_t, size_t): 1,
    default: 0), "vcs_select");
_Static_assert(_Generic(&vcs_write,
    vcs_answer (*)(size_t, const uint8_t *, size_t, const uint8_t *, size_t, uint8_t *, size_t, size_t, size_t, size_t,
                   size_t, int64_t): 1,
    default: 0), "vcs_write");
_Static_assert(_Generic(&vcs_read,
    vcs_answer (*)(size_t, const uint8_t *, size_t, const uint8_t *, size_t, const uint8_t *, size_t, size_t, size_t,
                   size_t, size_t): 1,
    default: 0), "vcs_read");
_Static_assert(_Generic(&vcs_publish,
    vcs_answer (*)(size_t, const uint8_t *, size_t, const uint8_t *, size_t, uint8_t *, size_t, size_t, size_t, size_t,
                   int64_t): 1,
    default: 0), "vcs_publish");
_Static_assert(_Generic(&vcs_byte_write,
    vcs_answer (*)(size_t, const uint8_t *, size_t, const uint8_t *, size_t, uint8_t *, size_t, size_t, size_t, uint8_t): 1,
    default: 0), "vcs_byte_write");
_Static_assert(_Generic(&vcs_byte_read,
    vcs_answer (*)(size_t, const uint8_t *, size_t, const uint8_t *, size_t, const uint8_t *, size_t, size_t, size_t): 1,
    default: 0), "vcs_byte_read");
_Static_assert(_Generic(&vcs_apply,
    vcs_answer (*)(size_t, const uint8_t *, size_t, const uint8_t *, size_t, uint8_t *, size_t, size_t, uint8_t): 1,
    default: 0), "vcs_apply");
_Static_assert(_Generic(&vcs_perform,
    vcs_answer (*)(size_t, const uint8_t *, size_t, const uint8_t *, size_t, uint8_t *, size_t, vcs_call): 1,
    default: 0), "vcs_perform");
_Static_assert(_Generic(&vcs_weight,
    vcs_answer (*)(size_t, const uint8_t *, size_t, const uint8_t *, size_t, const uint8_t *, size_t, size_t, size_t): 1,
    default: 0), "vcs_weight");

_Static_assert(_Generic(&vcs_take,
    vcs_taken (*)(size_t, const uint8_t *, size_t, size_t): 1, default: 0), "vcs_take");

static int checks = 0;

/* Compares an answer of up to seven numbers; ends the program at the first difference. */
static void same(const char *name, const void *answer, size_t size, const size_t expected[7])
{
    size_t got[7] = {0};
    memcpy(got, answer, size);
    checks++;
    for (int i = 0; i < 7; i++) {
        if (got[i] != expected[i]) {
            printf("interface: %s: number %d is %zu, not %zu\n", name, i, got[i], expected[i]);
            exit(1);
        }
    }
}

/* The numbers of an answer: refusal, at, then the others; 0 where an answer has fewer than seven. */
#define NUMBERS(...) ((const size_t[7]){__VA_ARGS__})
#define REFUSED(number, at) NUMBERS(number, at)

/* Strings are lent from a copy, which must keep every byte. */
static uint8_t copy[2][1024];

static const uint8_t *lend(int string, const uint8_t *bytes, size_t length)
{
    if (length == 0) {
        return NULL;
    }
    memset(copy[string], 0xA5, sizeof copy[string]);
    memcpy(copy[string], bytes, length);
    return copy[string];
}

static void kept(const char *name, int string, const uint8_t *bytes, size_t length)
{
    uint8_t expected[sizeof copy[0]];
    if (length == 0) {
        return;
    }
    memset(expected, 0xA5, sizeof expected);
    memcpy(expected, bytes, length);
    checks++;
    if (memcmp(copy[string], expected, sizeof expected) != 0) {
        printf("interface: %s: a lent string has changed\n", name);
        exit(1);
    }
}

typedef struct {
    size_t count;
    const uint8_t *rw;
    size_t rw_length;
    const uint8_t *ro;
    size_t ro_length;
} map;

/* The arguments that every call is given first. */
#define LENT(m) \
    (m).count, lend(0, (m).rw, (m).rw_length), (m).rw_length, lend(1, (m).ro, (m).ro_length), (m).ro_length

/* An answer is as expected, and both strings have kept every byte. */
static void check(const char *name, map m, const void *answer, size_t size, const size_t expected[7])
{
    same(name, answer, size, expected);
    kept(name, 0, m.rw, m.rw_length);
    kept(name, 1, m.ro, m.ro_length);
}

/* A state's members. */
#define MEMBERS(s) NUMBERS((s).string, (s).media, (s).entries, (s).before, (s).sum, (s).staged_length)

static void pass(const char *name, map m, vcs_state state, vcs_passed expected)
{
    vcs_passed answer = vcs_pass(LENT(m), state);
    check(name, m, &answer, offsetof(vcs_passed, state),
          NUMBERS(expected.refusal, expected.at, expected.end, expected.length));
    same(name, MEMBERS(answer.state), 6 * sizeof(size_t), MEMBERS(expected.state));
}

static void resume(const char *name, map m, vcs_state state, const size_t expected[7])
{
    vcs_loaded answer = vcs_resume(LENT(m), state);
    check(name, m, &answer, sizeof answer, expected);
}

/* The bytes not yet read, once an entry has been passed. */
static map behind(map m, vcs_passed entry)
{
    *(entry.state.string == 0 ? &m.rw : &m.ro) += entry.length;
    *(entry.state.string == 0 ? &m.rw_length : &m.ro_length) -= entry.length;
    return m;
}

/* The next entry's bytes alone: ID, Length and what Length tells, or less where the string ends. */
static map alone(map m, vcs_state state)
{
    int in_rw = state.string == 0 && m.rw_length > 0;
    const uint8_t *bytes = in_rw ? m.rw : m.ro;
    size_t left = in_rw ? m.rw_length : m.ro_length, told = left < 2 || bytes[1] < 2 ? 2 : bytes[1];
    size_t length = told < left ? told : left;
    return in_rw ? (map){m.count, bytes, length, NULL, 0} : (map){m.count, NULL, 0, bytes, length};
}

/* The load made entry by entry: it ends as expected and, broken off before any entry, it is taken up again with the answer
   expected. Pass answers alike if the entry's bytes alone are lent. */
static void in_pieces(const char *name, map m, const size_t expected[7])
{
    vcs_state state = {0};
    for (;;) {
        resume(name, m, state, expected);
        vcs_passed next = vcs_pass(LENT(m), state);
        int past = next.refusal == 0 && next.end == 0;
        if (!past) {
            pass(name, m, state, (vcs_passed){expected[0], expected[1], expected[0] == 0, 0, {0}});
        }
        if (next.refusal != 9) {
            pass(name, alone(m, state), state, next);
        }
        if (!past) {
            return;
        }
        m = behind(m, next);
        state = next.state;
    }
}

/* The load, at once and in pieces. */
static void load(const char *name, map m, const size_t expected[7])
{
    vcs_loaded answer = vcs_load(LENT(m));
    check(name, m, &answer, sizeof answer, expected);
    in_pieces(name, m, expected);
}

static void entry(const char *name, map m, size_t number, const size_t expected[7])
{
    vcs_located answer = vcs_entry(LENT(m), number);
    check(name, m, &answer, sizeof answer, expected);
}

static void place(const char *name, map m, size_t set, size_t number, size_t part, size_t lane, const size_t expected[7])
{
    vcs_placed answer = vcs_place(LENT(m), set, number, part, lane);
    check(name, m, &answer, sizeof answer, expected);
}

static void owner(const char *name, map m, size_t set, size_t offset, size_t bit, const size_t expected[7])
{
    vcs_owned answer = vcs_owner(LENT(m), set, offset, bit);
    check(name, m, &answer, sizeof answer, expected);
}

static void owner_at(const char *name, map m, size_t set, size_t page, size_t byte, size_t bit, const size_t expected[7])
{
    vcs_owned answer = vcs_owner_at(LENT(m), set, page, byte, bit);
    check(name, m, &answer, sizeof answer, expected);
}

/* A step over the RW string. */
static void take(const char *name, map m, size_t position, const size_t expected[7])
{
    vcs_taken answer = vcs_take(m.count, lend(0, m.rw, m.rw_length), m.rw_length, position);
    same(name, &answer, sizeof answer, expected);
    kept(name, 0, m.rw, m.rw_length);
}

/* The lent bank stands at the start of `bank`. A test first gives `wanted` the bytes that the call must change: every
   other byte must be kept, those behind the lent ones too. */
static uint8_t bank[VCS_BANK_SIZE + 16], wanted[sizeof bank];
static size_t lent = VCS_BANK_SIZE;

/* Where staged set 1 and the active set start. */
enum { SET_1 = VCS_SET_START(1), ACTIVE = VCS_SET_START(2) };

/* The bank as a call takes it; one of no bytes is NULL. */
#define BANK (lent == 0 ? NULL : bank), lent

/* A call with a bank of another length. */
#define LENDING(length, call) (lent = (length), call, lent = VCS_BANK_SIZE)

/* The answer that says yes, and one with a number. */
#define YES NUMBERS(0)
#define NUMBER(n) NUMBERS(0, 0, (size_t)(int64_t)(n))

static void fill(uint8_t byte)
{
    memset(bank, byte, sizeof bank);
    memset(wanted, byte, sizeof wanted);
}

/* Puts a byte into the bank before a call. */
static void put(size_t at, uint8_t byte)
{
    bank[at] = wanted[at] = byte;
}

/* As check, and the bank is as wanted. */
static void check_bank(const char *name, map m, const void *answer, size_t size, const size_t expected[7])
{
    check(name, m, answer, size, expected);
    checks++;
    for (size_t i = 0; i < sizeof bank; i++) {
        if (bank[i] != wanted[i]) {
            printf("interface: %s: byte %zu of the bank is %02Xh, not %02Xh\n", name, i, bank[i], wanted[i]);
            exit(1);
        }
    }
}

static void fresh(const char *name, map m, const size_t expected[7])
{
    vcs_loaded answer = vcs_fresh(LENT(m), BANK);
    check_bank(name, m, &answer, sizeof answer, expected);
}

static void choose(const char *name, map m, size_t set, size_t lane, size_t app, const size_t expected[7])
{
    vcs_answer answer = vcs_select(LENT(m), BANK, set, lane, app);
    check_bank(name, m, &answer, sizeof answer, expected);
}

static void store(const char *name, map m, size_t set, size_t number, size_t part, size_t lane, int64_t value,
                  const size_t expected[7])
{
    vcs_answer answer = vcs_write(LENT(m), BANK, set, number, part, lane, value);
    check_bank(name, m, &answer, sizeof answer, expected);
}

static void fetch(const char *name, map m, size_t set, size_t number, size_t part, size_t lane, const size_t expected[7])
{
    vcs_answer answer = vcs_read(LENT(m), BANK, set, number, part, lane);
    check_bank(name, m, &answer, sizeof answer, expected);
}

static void publish(const char *name, map m, size_t number, size_t part, size_t lane, int64_t value, const size_t expected[7])
{
    vcs_answer answer = vcs_publish(LENT(m), BANK, number, part, lane, value);
    check_bank(name, m, &answer, sizeof answer, expected);
}

static void store_byte(const char *name, map m, size_t set, size_t offset, uint8_t byte, const size_t expected[7])
{
    vcs_answer answer = vcs_byte_write(LENT(m), BANK, set, offset, byte);
    check_bank(name, m, &answer, sizeof answer, expected);
}

static void fetch_byte(const char *name, map m, size_t set, size_t offset, const size_t expected[7])
{
    vcs_answer answer = vcs_byte_read(LENT(m), BANK, set, offset);
    check_bank(name, m, &answer, sizeof answer, expected);
}

static void apply(const char *name, map m, size_t set, uint8_t lanes, const size_t expected[7])
{
    vcs_answer answer = vcs_apply(LENT(m), BANK, set, lanes);
    check_bank(name, m, &answer, sizeof answer, expected);
}

static void perform(const char *name, map m, vcs_call call, const size_t expected[7])
{
    vcs_answer answer = vcs_perform(LENT(m), BANK, call);
    check_bank(name, m, &answer, sizeof answer, expected);
}

static void weigh(const char *name, map m, size_t number, size_t lane, const size_t expected[7])
{
    vcs_answer answer = vcs_weight(LENT(m), BANK, number, lane);
    check_bank(name, m, &answer, sizeof answer, expected);
}

#define BYTES(...) (const uint8_t[]){__VA_ARGS__}, sizeof((const uint8_t[]){__VA_ARGS__})
#define NONE NULL, 0

static void loads(void)
{
    static const uint8_t zeros[1000];
    load("no string", (map){15, NONE, NONE}, NUMBERS(0, 0, 0, 0, 0, 0));
    load("count 0", (map){0, NONE, NONE}, REFUSED(9, 0));
    load("count 16", (map){16, NONE, NONE}, REFUSED(9, 0));
    load("count 257", (map){257, NONE, NONE}, REFUSED(9, 0));
    load("count 2^32 + 4", (map){((size_t)1 << 32) + 4, NONE, NONE}, REFUSED(9, 0));
    load("the largest count", (map){SIZE_MAX, NONE, NONE}, REFUSED(9, 0));
    load("RW of 121 bytes", (map){4, zeros, 121, NONE}, REFUSED(9, 0));
    load("RO of 1000 bytes", (map){4, NONE, zeros, 1000}, REFUSED(9, 0));
    load("RW of 120 bytes, Length 0", (map){4, zeros, 120, NONE}, REFUSED(2, 0));
    load("one byte left", (map){4, BYTES(0x00, 0x04, 0x00, 0x01, 0x02), NONE}, REFUSED(1, 1));
    load("Length one over", (map){4, BYTES(0x02, 0x06, 0x01, 0x01, 0x00), NONE}, REFUSED(1, 0));
    load("P8", (map){4, BYTES(0x02, 0x00), NONE}, REFUSED(2, 0));
    load("an RW parameter in RO", (map){4, BYTES(0x00, 0x04, 0x00, 0x01), BYTES(0x02, 0x05, 0x01, 0x01, 0x00)},
         REFUSED(3, 1));
    load("P9, MemoryLength 3", (map){4, BYTES(0x04, 0x07, 0x01, 0x03, 0x00, 0x00, 0x04), NONE}, REFUSED(4, 0));
    load("P9, MemoryLength 5", (map){4, BYTES(0x04, 0x07, 0x01, 0x05, 0x00, 0x00, 0x04), NONE},
         NUMBERS(0, 0, 1, 0, 5, 5));
    load("step 4", (map){4, NONE, BYTES(0x12, 0x07, 0x01, 0x08, 0x00, 0xFF, 0x04)}, REFUSED(5, 0));
    load("step 3", (map){4, NONE, BYTES(0x12, 0x07, 0x01, 0x08, 0x00, 0xFF, 0x03)}, NUMBERS(0, 0, 0, 1, 0, 8));
    load("09h, Length 8", (map){4, BYTES(0x09, 0x08, 0x01, 0x08, 0x00, 0x00, 0xF8, 0x06), NONE}, REFUSED(2, 0));
    load("09h in RO", (map){4, NONE, BYTES(0x09, 0x09, 0x01, 0x08, 0x00, 0x00, 0xF8, 0x06, 0x01)}, REFUSED(3, 0));
    load("09h, MemoryLength 7", (map){4, BYTES(0x09, 0x09, 0x01, 0x07, 0x00, 0x00, 0xF8, 0x06, 0x01), NONE},
         REFUSED(4, 0));
    load("09h, step 0", (map){4, BYTES(0x09, 0x09, 0x01, 0x08, 0x00, 0x00, 0xF8, 0x06, 0x00), NONE}, REFUSED(5, 0));
    load("0Ah, step 4", (map){4, BYTES(0x0A, 0x09, 0x01, 0x08, 0x00, 0x00, 0xF8, 0x06, 0x04), NONE},
         NUMBERS(0, 0, 1, 0, 8, 8));
    load("0Dh, step 4", (map){4, BYTES(0x0D, 0x09, 0x01, 0x08, 0x00, 0x00, 0x06, 0xF8, 0x04), NONE}, REFUSED(5, 0));
    load("0Ch, no byte", (map){4, BYTES(0x0C, 0x05, 0x01, 0x00, 0x00), NONE}, REFUSED(4, 0));
    load("host side after a media-side 0Bh",
         (map){4, BYTES(0x0B, 0x05, 0x01, 0x01, 0x01, 0x02, 0x05, 0x01, 0x01, 0x00), NONE},
         REFUSED(6, 1));
    load("host-side 0Bh after media side",
         (map){4, BYTES(0x02, 0x05, 0x01, 0x01, 0x01, 0x0B, 0x05, 0x01, 0x01, 0x00), NONE},
         NUMBERS(0, 0, 2, 0, 2, 2));
    load("host side after media side",
         (map){4, BYTES(0x0F, 0x05, 0x01, 0x08, 0x01, 0x02, 0x05, 0x01, 0x01, 0x00), NONE},
         REFUSED(6, 1));
    load("P12, 255 and 1", (map){4, BYTES(0x00, 0x04, 0x00, 0xFF), BYTES(0x00, 0x04, 0x00, 0x01)},
         NUMBERS(0, 0, 1, 1, 255, 256));
    load("P12, 255 and 2", (map){4, BYTES(0x00, 0x04, 0x00, 0xFF), BYTES(0x00, 0x04, 0x00, 0x02)}, REFUSED(7, 1));
    load("two mask bytes", (map){9, BYTES(0x02, 0x06, 0x00, 0x01, 0x03, 0x00), NONE}, NUMBERS(0, 0, 1, 0, 3, 3));
}

/* 02h of 1 byte, 00h that reserves 2, 05h of 1; 11h of 16 bytes, 12h of 9. */
#define THE_MAP \
    {4, \
     BYTES(0x02, 0x05, 0x0B, 0x01, 0x00, 0x00, 0x05, 0x00, 0x02, 0x00, 0x05, 0x05, 0x0F, 0x01, 0x00), \
     BYTES(0x11, 0x05, 0x01, 0x10, 0x00, 0x12, 0x08, 0x01, 0x09, 0x00, 0xFF, 0x00, 0x77)}

static void entries(void)
{
    map m = THE_MAP;
    load("the map", m, NUMBERS(0, 0, 3, 2, 4, 29));
    entry("entry 0", m, 0, NUMBERS(0, 0, 0, 0, 5, 0));
    entry("entry 1", m, 1, NUMBERS(0, 0, 0, 5, 5, 1));
    entry("entry 2", m, 2, NUMBERS(0, 0, 0, 10, 5, 3));
    entry("entry 3, RO", m, 3, NUMBERS(0, 0, 1, 0, 5, 4));
    entry("entry 4, RO", m, 4, NUMBERS(0, 0, 1, 5, 8, 20));
    entry("entry 5", m, 5, REFUSED(10, 0));
    entry("entry 2^32", m, (size_t)1 << 32, REFUSED(10, 0));
    entry("the largest entry", m, SIZE_MAX, REFUSED(10, 0));
    m.count = 0;
    entry("9 before 10", m, SIZE_MAX, REFUSED(9, 0));
    m.count = 4;
    m.ro_length = 6;
    entry("a bad RO string refuses an RW entry", m, 0, REFUSED(1, 4));
    entry("1 before 10", m, 99, REFUSED(1, 4));
    entry("no string", (map){1, NONE, NONE}, 0, REFUSED(10, 0));
}

/* The answer of place. */
#define PLACED(offset, page, byte, bit) NUMBERS(0, 0, offset, page, byte, bit)

static void places(void)
{
    map m = THE_MAP;
    place("02h, lane 1, set 0", m, 0, 0, 0, 1, PLACED(0, 0x10, 153, 0));
    place("05h, lane 8, set 1", m, 1, 2, 0, 8, PLACED(3, 0x10, 191, 7));
    place("05h, lane 4, active", m, 2, 2, 0, 4, PLACED(3, 0x11, 217, 3));
    place("11h, upper eye, lane 8", m, 2, 3, 0, 8, PLACED(11, 0x11, 225, 0));
    place("11h, lower eye, lane 1", m, 2, 3, 1, 1, PLACED(12, 0x11, 226, 0));
    place("12h, lane 8", m, 2, 4, 0, 8, PLACED(27, 0x19, 158, 0));
    place("11h in set 0", m, 0, 3, 0, 1, REFUSED(11, 0));
    place("12h in set 1", m, 1, 4, 0, 8, REFUSED(11, 0));
    place("10 before 11: part 2", m, 0, 3, 2, 1, REFUSED(10, 0));
    place("10 before 11: lane 9", m, 1, 4, 0, 9, REFUSED(10, 0));
    place("lane 0", m, 0, 0, 0, 0, REFUSED(10, 0));
    place("lane 9", m, 2, 0, 0, 9, REFUSED(10, 0));
    place("lane 2^61 + 1", m, 2, 4, 0, ((size_t)1 << 61) + 1, REFUSED(10, 0));
    place("part 1 of 02h", m, 0, 0, 1, 1, REFUSED(10, 0));
    place("part 2 of 11h", m, 2, 3, 2, 1, REFUSED(10, 0));
    place("00h has no field", m, 2, 1, 0, 1, REFUSED(10, 0));
    place("entry 5", m, 2, 5, 0, 1, REFUSED(10, 0));
    place("set 3", m, 3, 0, 0, 1, REFUSED(10, 0));
    place("set 2^32", m, (size_t)1 << 32, 0, 0, 1, REFUSED(10, 0));
    place("the largest numbers", m, SIZE_MAX, SIZE_MAX, SIZE_MAX, SIZE_MAX, REFUSED(10, 0));
    m.count = 16;
    place("9 before 10", m, 3, 5, 0, 0, REFUSED(9, 0));
    m.count = 4;
    m.ro_length = 6;
    place("a bad RO string refuses an RW field", m, 0, 0, 0, 1, REFUSED(1, 4));
    place("1 before 11", m, 0, 3, 0, 1, REFUSED(1, 4));
}

/* The answers of owner: a field or a gap, each with the entries looked at. */
#define FIELD(entry, part, lane, looked_at) NUMBERS(0, 0, 0, entry, part, lane, looked_at)
#define GAP(looked_at) NUMBERS(0, 0, 1, 0, 0, 0, looked_at)

static void owners(void)
{
    map m = THE_MAP;
    owner("02h, lane 1, set 0", m, 0, 0, 0, FIELD(0, 0, 1, 1));
    owner("05h, lane 8, set 1", m, 1, 3, 7, FIELD(2, 0, 8, 3));
    owner("05h, lane 4, active", m, 2, 3, 3, FIELD(2, 0, 4, 3));
    owner("11h, upper eye, lane 8", m, 2, 11, 7, FIELD(3, 0, 8, 4));
    owner("11h, lower eye, lane 1", m, 2, 12, 5, FIELD(3, 1, 1, 4));
    owner("12h, lane 8", m, 2, 27, 0, FIELD(4, 0, 8, 5));
    owner("reserved, set 0", m, 0, 1, 0, GAP(2));
    owner("reserved, active", m, 2, 2, 7, GAP(2));
    owner("surplus of 12h", m, 2, 28, 0, GAP(5));
    owner("the active length", m, 2, 29, 0, REFUSED(10, 0));
    owner("the staged length, set 0", m, 0, 4, 0, REFUSED(10, 0));
    owner("space of RO in set 1", m, 1, 20, 0, REFUSED(10, 0));
    owner("bit 8", m, 2, 0, 8, REFUSED(10, 0));
    owner("set 3", m, 3, 0, 0, REFUSED(10, 0));
    owner("offset 2^61", m, 2, (size_t)1 << 61, 0, REFUSED(10, 0));
    owner("the largest numbers", m, SIZE_MAX, SIZE_MAX, SIZE_MAX, REFUSED(10, 0));
    owner("no string", (map){1, NONE, NONE}, 2, 0, 0, REFUSED(10, 0));
    m.count = 0;
    owner("9 before 10", m, 2, 29, 8, REFUSED(9, 0));
    m.count = 4;
    m.ro_length = 6;
    owner("a bad RO string refuses an RW bit", m, 0, 0, 0, REFUSED(1, 4));
    owner("1 before 10", m, 3, 29, 8, REFUSED(1, 4));
}

/* A byte of the RW space has one owner in every set. */
static void owner_in_all(const char *name, map m, size_t offset, size_t bit, const size_t expected[7])
{
    for (size_t set = 0; set <= 2; set++) {
        owner(name, m, set, offset, bit, expected);
    }
}

/* 02h of 2 bytes, media side, which cover the byte; then an entry that is refused. */
static void refused_behind(const char *name, const uint8_t *bytes, size_t length, size_t number)
{
    uint8_t rw[32] = {0x02, 0x05, 0x0F, 0x02, 0x01};
    memcpy(rw + 5, bytes, length);
    owner_in_all(name, (map){4, rw, 5 + length, NONE}, 0, 0, REFUSED(number, 1));
}

/* 00h, 13h and 01h of no byte; 02h; 00h of none; 13h of 3 bytes at offset 1; 00h and FFh of none; 04h of 6 at 4; 00h of none.
   00h and 13h of none; 12h of 8 bytes at 10; 00h of none; FFh of 2 at 18; 00h of none. */
#define THE_EMPTY \
    {4, \
     BYTES(0x00, 0x04, 0x00, 0x00, 0x13, 0x04, 0x00, 0x00, 0x01, 0x04, 0x00, 0x00, 0x02, 0x05, 0x0F, 0x01, 0x00, \
           0x00, 0x04, 0x00, 0x00, 0x13, 0x04, 0x00, 0x03, 0x00, 0x04, 0x00, 0x00, 0xFF, 0x04, 0x00, 0x00, \
           0x04, 0x07, 0x0F, 0x06, 0x00, 0xFF, 0xFF, 0x00, 0x04, 0x00, 0x00), \
     BYTES(0x00, 0x04, 0x00, 0x00, 0x13, 0x04, 0x00, 0x00, 0x12, 0x07, 0x0F, 0x08, 0x00, 0x00, 0x00, \
           0x00, 0x04, 0x00, 0x00, 0xFF, 0x04, 0x00, 0x02, 0x00, 0x04, 0x00, 0x00)}

/* The entries looked at: up to the one whose space covers the byte. */
static void searches(void)
{
    map m = THE_EMPTY;
    load("entries of no byte", m, NUMBERS(0, 0, 10, 6, 10, 20));
    owner_in_all("three of no byte before 02h", m, 0, 7, FIELD(3, 0, 8, 4));
    owner_in_all("four, and the first byte of 13h", m, 1, 0, GAP(6));
    owner_in_all("the last byte of 13h", m, 3, 7, GAP(6));
    owner_in_all("six, and 04h, lane 1", m, 4, 3, FIELD(8, 0, 1, 9));
    owner_in_all("04h, lane 8", m, 7, 4, FIELD(8, 0, 8, 9));
    owner_in_all("surplus of 04h", m, 8, 0, GAP(9));
    owner_in_all("the last RW byte", m, 9, 7, GAP(9));
    owner("the first RO byte", m, 2, 10, 0, FIELD(12, 0, 1, 13));
    owner("12h, lane 8", m, 2, 17, 7, FIELD(12, 0, 8, 13));
    owner("ten, and FFh", m, 2, 18, 0, GAP(15));
    owner("the last byte", m, 2, 19, 7, GAP(15));
    owner("the active length", m, 2, 20, 0, REFUSED(10, 0));
    owner("the staged length, set 0", m, 0, 10, 0, REFUSED(10, 0));
    owner("the staged length, set 1", m, 1, 10, 0, REFUSED(10, 0));
    owner("bit 8", m, 2, 0, 8, REFUSED(10, 0));

    m = (map){4, NONE, BYTES(0x00, 0x04, 0x00, 0x00, 0x11, 0x05, 0x0F, 0x11, 0x00)};
    owner("RO alone", m, 2, 8, 0, FIELD(1, 1, 1, 2));
    owner("surplus of 11h", m, 2, 16, 0, GAP(2));
    m = (map){9, BYTES(0x00, 0x05, 0x00, 0x00, 0x00, 0x07, 0x09, 0x01, 0xFF, 0x09, 0x00, 0x00, 0xFF, 0xFF), NONE};
    owner_in_all("two mask bytes", m, 7, 7, FIELD(1, 1, 8, 2));
    owner_in_all("surplus with two mask bytes", m, 8, 0, GAP(2));
    m = (map){4, BYTES(0x00, 0x04, 0x00, 0xFF), BYTES(0x00, 0x04, 0x00, 0x01)};
    owner_in_all("P12, the last of 255 bytes", m, 254, 0, GAP(1));
    owner("P12, the byte behind", m, 2, 255, 7, GAP(2));

    refused_behind("1, one byte left", BYTES(0x02), 1);
    refused_behind("2, Length 0", BYTES(0x02, 0x00), 2);
    refused_behind("3, 11h in RW", BYTES(0x11, 0x05, 0x0F, 0x10, 0x00), 3);
    refused_behind("4, 03h of 1 byte", BYTES(0x03, 0x05, 0x0F, 0x01, 0x01), 4);
    refused_behind("5, 09h of step 0", BYTES(0x09, 0x09, 0x01, 0x08, 0x00, 0x00, 0xF8, 0x06, 0x00), 5);
    refused_behind("6, host side", BYTES(0x02, 0x05, 0x0F, 0x01, 0x00), 6);
    refused_behind("7, 255 bytes more", BYTES(0x00, 0x04, 0x00, 0xFF), 7);
}

/* Fields about the ends of the pages: 00h that reserves `before` bytes, 0Fh, 10h. */
#define THE_BYTES(before) \
    {4, BYTES(0x00, 0x04, 0x00, before, 0x0F, 0x05, 0x0F, 0x08, 0x00, 0x10, 0x05, 0x0F, 0x08, 0x00), NONE}

static void addresses(void)
{
    map m = THE_BYTES(15);
    load("0Fh at 15, 10h at 23", m, NUMBERS(0, 0, 3, 0, 31, 31));
    place("set 0, 0Fh, lane 1", m, 0, 1, 0, 1, PLACED(15, 0x10, 168, 0));
    place("set 0, offset 21", m, 0, 1, 0, 7, PLACED(21, 0x10, 174, 0));
    place("set 0, the page's last byte", m, 0, 1, 0, 8, PLACED(22, 0x10, 175, 0));
    place("set 0, the overflow page's first byte", m, 0, 2, 0, 1, PLACED(23, 0x18, 144, 0));
    place("set 1, offset 21", m, 1, 1, 0, 7, PLACED(21, 0x10, 209, 0));
    place("set 1, the page's last byte", m, 1, 1, 0, 8, PLACED(22, 0x10, 210, 0));
    place("set 1, the overflow page's first byte", m, 1, 2, 0, 1, PLACED(23, 0x18, 200, 0));
    place("active, the page's last byte", m, 2, 1, 0, 6, PLACED(20, 0x11, 234, 0));
    place("active, the overflow page's first byte", m, 2, 1, 0, 7, PLACED(21, 0x19, 152, 0));
    place("active, offset 22", m, 2, 1, 0, 8, PLACED(22, 0x19, 153, 0));
    place("active, offset 23", m, 2, 2, 0, 1, PLACED(23, 0x19, 154, 0));
    m = (map)THE_BYTES(70);
    load("0Fh at 70, 10h at 78", m, NUMBERS(0, 0, 3, 0, 86, 86));
    place("set 0, offset 76", m, 0, 1, 0, 7, PLACED(76, 0x18, 197, 0));
    place("set 0, offset 77", m, 0, 1, 0, 8, PLACED(77, 0x18, 198, 0));
    place("set 0, the last address", m, 0, 2, 0, 1, PLACED(78, 0x18, 199, 0));
    place("set 0, none", m, 0, 2, 0, 2, PLACED(79, 0, 0, 0));
    place("set 1, offset 77", m, 1, 1, 0, 8, PLACED(77, 0x18, 254, 0));
    place("set 1, the last address", m, 1, 2, 0, 1, PLACED(78, 0x18, 255, 0));
    place("set 1, none", m, 1, 2, 0, 2, PLACED(79, 0, 0, 0));
    place("active, offset 75", m, 2, 1, 0, 6, PLACED(75, 0x19, 206, 0));
    place("active, the last address", m, 2, 1, 0, 7, PLACED(76, 0x19, 207, 0));
    place("active, none", m, 2, 1, 0, 8, PLACED(77, 0, 0, 0));
    place("active, offset 78", m, 2, 2, 0, 1, PLACED(78, 0, 0, 0));
    place("active, offset 85", m, 2, 2, 0, 8, PLACED(85, 0, 0, 0));

    m = (map){4, BYTES(0x00, 0x04, 0x00, 0x15, 0x07, 0x08, 0x0F, 0x08, 0x00, 0x00, 0xFF, 0xFF), NONE};
    place("07h on both pages, lane 3", m, 0, 1, 0, 3, PLACED(22, 0x10, 175, 0));
    place("07h on both pages, lane 4", m, 0, 1, 0, 4, PLACED(22, 0x10, 175, 4));
    place("07h on both pages, lane 5", m, 0, 1, 0, 5, PLACED(23, 0x18, 144, 0));
    place("07h on both pages, lane 6", m, 1, 1, 0, 6, PLACED(23, 0x18, 200, 4));
    place("07h on both pages, post-cursor", m, 1, 1, 1, 8, PLACED(28, 0x18, 205, 4));
    place("07h on the overflow page", m, 2, 1, 0, 2, PLACED(21, 0x19, 152, 4));
    m = (map){4, BYTES(0x00, 0x04, 0x00, 0xF0), BYTES(0x11, 0x05, 0x0F, 0x10, 0x00)};
    place("offset 240", m, 2, 1, 0, 1, PLACED(240, 0, 0, 0));
    place("offset 255", m, 2, 1, 1, 8, PLACED(255, 0, 0, 0));
    place("offset 255 in set 0", m, 0, 1, 1, 8, REFUSED(11, 0));
}

/* Owner by address: about the ends of the pages, and at the addresses of other sets. */
static void owners_at(void)
{
    map m = THE_BYTES(15);
    owner_at("set 0, the page's first byte", m, 0, 0x10, 153, 0, GAP(1));
    owner_at("set 0, the byte before", m, 0, 0x10, 152, 0, REFUSED(10, 0));
    owner_at("set 0, the page's last byte", m, 0, 0x10, 175, 7, FIELD(1, 0, 8, 2));
    owner_at("set 0, the byte behind", m, 0, 0x10, 176, 0, REFUSED(10, 0));
    owner_at("set 0, the overflow page's first byte", m, 0, 0x18, 144, 0, FIELD(2, 0, 1, 3));
    owner_at("set 0, the byte before it", m, 0, 0x18, 143, 0, REFUSED(10, 0));
    owner_at("set 0, its last byte", m, 0, 0x18, 151, 7, FIELD(2, 0, 8, 3));
    owner_at("set 0, its length", m, 0, 0x18, 152, 0, REFUSED(10, 0));
    owner_at("set 0, past its length", m, 0, 0x18, 199, 0, REFUSED(10, 0));
    owner_at("set 1, the page's first byte", m, 1, 0x10, 188, 7, GAP(1));
    owner_at("set 1, the byte before", m, 1, 0x10, 187, 0, REFUSED(10, 0));
    owner_at("set 1, the page's last byte", m, 1, 0x10, 210, 0, FIELD(1, 0, 8, 2));
    owner_at("set 1, the byte behind", m, 1, 0x10, 211, 0, REFUSED(10, 0));
    owner_at("set 1, the overflow page's first byte", m, 1, 0x18, 200, 7, FIELD(2, 0, 1, 3));
    owner_at("set 1, its length", m, 1, 0x18, 208, 0, REFUSED(10, 0));
    owner_at("active, the page's first byte", m, 2, 0x11, 214, 0, GAP(1));
    owner_at("active, the byte before", m, 2, 0x11, 213, 0, REFUSED(10, 0));
    owner_at("active, the page's last byte", m, 2, 0x11, 234, 3, FIELD(1, 0, 6, 2));
    owner_at("active, the byte behind", m, 2, 0x11, 235, 0, REFUSED(10, 0));
    owner_at("active, the overflow page's first byte", m, 2, 0x19, 152, 0, FIELD(1, 0, 7, 2));
    owner_at("active, the byte before it", m, 2, 0x19, 151, 0, REFUSED(10, 0));
    owner_at("active, offset 22", m, 2, 0x19, 153, 0, FIELD(1, 0, 8, 2));
    owner_at("active, its last byte", m, 2, 0x19, 161, 0, FIELD(2, 0, 8, 3));
    owner_at("active, its length", m, 2, 0x19, 162, 0, REFUSED(10, 0));
    owner_at("set 0 at set 1's page", m, 0, 0x10, 188, 0, REFUSED(10, 0));
    owner_at("set 0 at set 1's overflow page", m, 0, 0x18, 200, 0, REFUSED(10, 0));
    owner_at("set 1 at set 0's page", m, 1, 0x10, 153, 0, REFUSED(10, 0));
    owner_at("set 1 at set 0's overflow page", m, 1, 0x18, 144, 0, REFUSED(10, 0));
    owner_at("set 0 at the active page", m, 0, 0x11, 214, 0, REFUSED(10, 0));
    owner_at("set 1 at the active overflow page", m, 1, 0x19, 152, 0, REFUSED(10, 0));
    owner_at("active at set 0's page", m, 2, 0x10, 153, 0, REFUSED(10, 0));
    owner_at("active at set 1's overflow page", m, 2, 0x18, 200, 0, REFUSED(10, 0));
}

/* About the last addresses, and at none of any set. */
static void owners_past(void)
{
    map m = THE_BYTES(70);
    owner_at("set 0, offset 22, in 70 bytes", m, 0, 0x10, 175, 0, GAP(1));
    owner_at("set 0, offset 23, in 70 bytes", m, 0, 0x18, 144, 0, GAP(1));
    owner_at("set 0, offset 77", m, 0, 0x18, 198, 0, FIELD(1, 0, 8, 2));
    owner_at("set 0, the last address", m, 0, 0x18, 199, 0, FIELD(2, 0, 1, 3));
    owner_at("set 0, behind it", m, 0, 0x18, 200, 0, REFUSED(10, 0));
    owner_at("set 1, the last address", m, 1, 0x18, 255, 7, FIELD(2, 0, 1, 3));
    owner_at("set 1, byte 256", m, 1, 0x18, 256, 0, REFUSED(10, 0));
    owner_at("set 1, before its overflow page", m, 1, 0x18, 199, 0, REFUSED(10, 0));
    owner_at("active, the last address", m, 2, 0x19, 207, 7, FIELD(1, 0, 7, 2));
    owner_at("active, behind it", m, 2, 0x19, 208, 0, REFUSED(10, 0));
    for (size_t set = 0; set <= 3; set++) {
        owner_at("page 0, byte 0", m, set, 0, 0, 0, REFUSED(10, 0));
        owner_at("page 0, byte 153", m, set, 0, 153, 0, REFUSED(10, 0));
        owner_at("page 10h, byte 0", m, set, 0x10, 0, 0, REFUSED(10, 0));
        owner_at("page 12h", m, set, 0x12, 214, 0, REFUSED(10, 0));
        owner_at("page 17h", m, set, 0x17, 160, 0, REFUSED(10, 0));
        owner_at("page 1Ah", m, set, 0x1A, 160, 0, REFUSED(10, 0));
        owner_at("page 110h", m, set, 0x110, 160, 0, REFUSED(10, 0));
        owner_at("page 2^32 + 10h", m, set, ((size_t)1 << 32) + 0x10, 160, 0, REFUSED(10, 0));
        owner_at("byte 256 + 160", m, set, 0x10, 256 + 160, 0, REFUSED(10, 0));
        owner_at("byte 2^61 + 160", m, set, 0x18, ((size_t)1 << 61) + 160, 0, REFUSED(10, 0));
        owner_at("the largest page", m, set, SIZE_MAX, 160, 0, REFUSED(10, 0));
        owner_at("the largest byte", m, set, 0x18, SIZE_MAX, 0, REFUSED(10, 0));
    }
    owner_at("bit 8", m, 0, 0x10, 153, 8, REFUSED(10, 0));
    owner_at("bit 2^32", m, 2, 0x11, 214, (size_t)1 << 32, REFUSED(10, 0));
    owner_at("set 3 at set 0's page", m, 3, 0x10, 153, 0, REFUSED(10, 0));
    owner_at("set 2^32 at set 0's page", m, (size_t)1 << 32, 0x10, 153, 0, REFUSED(10, 0));
    owner_at("the largest numbers", m, SIZE_MAX, SIZE_MAX, SIZE_MAX, SIZE_MAX, REFUSED(10, 0));
    owner_at("no string", (map){1, NONE, NONE}, 2, 0x11, 214, 0, REFUSED(10, 0));
}

/* In several entries, past the staged length, and after other refusals. */
static void owners_in_order(void)
{
    map m = THE_MAP;
    owner_at("05h, lane 8, set 1", m, 1, 0x10, 191, 7, FIELD(2, 0, 8, 3));
    owner_at("the staged length, set 0", m, 0, 0x10, 157, 0, REFUSED(10, 0));
    owner_at("the staged length, active", m, 2, 0x11, 218, 0, FIELD(3, 0, 1, 4));
    owner_at("12h, lane 8", m, 2, 0x19, 158, 0, FIELD(4, 0, 8, 5));
    owner_at("surplus of 12h", m, 2, 0x19, 159, 7, GAP(5));
    owner_at("the active length", m, 2, 0x19, 160, 0, REFUSED(10, 0));
    m.count = 0;
    owner_at("9 before 10", m, 3, 0, 0, 8, REFUSED(9, 0));
    m.count = 4;
    m.ro_length = 6;
    owner_at("a bad RO string refuses an RW byte", m, 0, 0x10, 153, 0, REFUSED(1, 4));
    owner_at("1 before 10", m, 0, 0, 0, 0, REFUSED(1, 4));
    m = (map)THE_EMPTY;
    owner_at("three of no byte before 02h", m, 0, 0x10, 153, 7, FIELD(3, 0, 8, 4));
    owner_at("ten, and FFh", m, 2, 0x11, 232, 0, GAP(15));
}

/* A set of so many bytes, one 00h entry: by set, its last byte and the next, which is refused with or without an address. */
static void ends(void)
{
    static const struct {
        uint8_t length;
        size_t at[3][2][2];
    } sets[] = {
        {20, {{{0x10, 172}, {0x10, 173}}, {{0x10, 207}, {0x10, 208}}, {{0x11, 233}, {0x11, 234}}}},
        {21, {{{0x10, 173}, {0x10, 174}}, {{0x10, 208}, {0x10, 209}}, {{0x11, 234}, {0x19, 152}}}},
        {22, {{{0x10, 174}, {0x10, 175}}, {{0x10, 209}, {0x10, 210}}, {{0x19, 152}, {0x19, 153}}}},
        {23, {{{0x10, 175}, {0x18, 144}}, {{0x10, 210}, {0x18, 200}}, {{0x19, 153}, {0x19, 154}}}},
        {24, {{{0x18, 144}, {0x18, 145}}, {{0x18, 200}, {0x18, 201}}, {{0x19, 154}, {0x19, 155}}}},
        {76, {{{0x18, 196}, {0x18, 197}}, {{0x18, 252}, {0x18, 253}}, {{0x19, 206}, {0x19, 207}}}},
        {77, {{{0x18, 197}, {0x18, 198}}, {{0x18, 253}, {0x18, 254}}, {{0x19, 207}, {0, 0}}}},
        {78, {{{0x18, 198}, {0x18, 199}}, {{0x18, 254}, {0x18, 255}}, {{0, 0}, {0, 0}}}},
        {79, {{{0x18, 199}, {0, 0}}, {{0x18, 255}, {0, 0}}, {{0, 0}, {0, 0}}}},
        {80, {{{0, 0}, {0, 0}}, {{0, 0}, {0, 0}}, {{0, 0}, {0, 0}}}},
    };
    for (size_t i = 0; i < sizeof sets / sizeof sets[0]; i++) {
        map m = {4, BYTES(0x00, 0x04, 0x00, sets[i].length), NONE};
        for (size_t set = 0; set <= 2; set++) {
            const size_t *last = sets[i].at[set][0], *next = sets[i].at[set][1];
            owner_at("a set's last byte", m, set, last[0], last[1], 7, last[0] == 0 ? REFUSED(10, 0) : GAP(1));
            owner_at("the byte behind a set", m, set, next[0], next[1], 0, REFUSED(10, 0));
        }
    }
}

/* Owner at the address that place gives tells the field, and read gives its number. Page 0, byte 0 is no address. */
static void round_trip(map m, size_t set, size_t number, size_t lane)
{
    uint8_t stored = (uint8_t)(64 * set + 16 * number + lane);
    vcs_placed placed = vcs_place(LENT(m), set, number, 0, lane);
    put(VCS_SET_START(set) + placed.offset, stored);
    if (placed.page == 0) {
        owner_at("without an address", m, set, placed.page, placed.byte, placed.bit, REFUSED(10, 0));
        return;
    }
    vcs_owned told = vcs_owner_at(LENT(m), set, placed.page, placed.byte, placed.bit);
    owner_at("at its address", m, set, placed.page, placed.byte, placed.bit, FIELD(number, 0, lane, number + 1));
    fetch("read of the field told", m, set, told.entry, told.part, told.lane, NUMBER(stored));
}

static void round_trips(void)
{
    fill(0x00);
    for (size_t i = 0; i < 48; i++) {
        round_trip((map)THE_BYTES(15), i / 16, 1 + i / 8 % 2, 1 + i % 8);
        round_trip((map)THE_BYTES(70), i / 16, 1 + i / 8 % 2, 1 + i % 8);
    }
}

/* 02h, 03h at offset 1, 04h at 3 with mask 1FFFh, 00h that reserves 2, 07h at 9 with mask 0FFFh. */
#define THE_SETTINGS \
    {4, \
     BYTES(0x02, 0x05, 0x0F, 0x01, 0x00, 0x03, 0x05, 0x0F, 0x02, 0x00, 0x04, 0x07, 0x0F, 0x04, 0x00, 0x1F, 0xFF, 0x00, \
           0x04, 0x00, 0x02, 0x07, 0x08, 0x0F, 0x08, 0x00, 0xFF, 0x0F, 0xFF), \
     NONE}

static void settings(void)
{
    map m = THE_SETTINGS;
    place("P2", m, 0, 1, 0, 5, PLACED(2, 0x10, 155, 0));
    place("P3", m, 1, 2, 0, 2, PLACED(3, 0x10, 191, 4));
    place("P4", m, 2, 2, 0, 7, PLACED(6, 0x11, 220, 0));
    place("P5", m, 0, 4, 1, 1, PLACED(13, 0x10, 166, 0));
    owner("P2", m, 0, 2, 0, FIELD(1, 0, 5, 2));
    owner("P3", m, 1, 3, 4, FIELD(2, 0, 2, 3));
    owner("P4", m, 2, 6, 0, FIELD(2, 0, 7, 3));
    owner("P5", m, 0, 13, 0, FIELD(4, 1, 1, 5));
}

static void fresh_banks(void)
{
    map m = THE_MAP;
    fill(0xFF);
    LENDING(0, fresh("no bank", m, REFUSED(8, 0)));
    LENDING(VCS_BANK_SIZE - 1, fresh("one byte short", m, REFUSED(8, 0)));
    m.count = 16;
    LENDING(VCS_BANK_SIZE - 1, fresh("9 before 8", m, REFUSED(9, 0)));
    m.count = 4;
    m.ro_length = 6;
    LENDING(VCS_BANK_SIZE - 1, fresh("8 before 1", m, REFUSED(8, 0)));
    fresh("a bad string", m, REFUSED(1, 4));
    m = (map)THE_MAP;
    memset(wanted, 0, VCS_BANK_SIZE);
    fresh("a whole bank", m, NUMBERS(0, 0, 3, 2, 4, 29));
    fill(0xFF);
    memset(wanted, 0, VCS_BANK_SIZE);
    LENDING(VCS_BANK_SIZE + 1, fresh("the byte behind is kept", m, NUMBERS(0, 0, 3, 2, 4, 29)));
    fill(0x5A);
    memset(wanted, 0, VCS_BANK_SIZE);
    LENDING(sizeof bank, fresh("no string", (map){15, NONE, NONE}, NUMBERS(0)));
}

static void selects(void)
{
    map m = THE_MAP;
    fill(0xFF);
    wanted[VCS_APP_SEL_AT(0, 1)] = 4;
    choose("set 0, lane 1", m, 0, 1, 4, YES);
    wanted[VCS_APP_SEL_AT(1, 8)] = 0;
    choose("set 1, lane 8, app 0", m, 1, 8, 0, YES);
    wanted[VCS_APP_SEL_AT(1, 1)] = 1;
    LENDING(VCS_BANK_SIZE + 1, choose("set 1, lane 1", m, 1, 1, 1, YES));
    choose("app 5 of 4", m, 0, 1, 5, REFUSED(12, 0));
    choose("app 257", m, 0, 1, 257, REFUSED(12, 0));
    choose("the largest app", m, 0, 1, SIZE_MAX, REFUSED(12, 0));
    choose("select on set 2", m, 2, 1, 1, REFUSED(11, 0));
    choose("11 before 12", m, 2, 8, 5, REFUSED(11, 0));
    choose("10 before 11", m, 2, 9, 1, REFUSED(10, 0));
    choose("set 3", m, 3, 1, 1, REFUSED(10, 0));
    choose("lane 0", m, 0, 0, 1, REFUSED(10, 0));
    choose("lane 9", m, 0, 9, 1, REFUSED(10, 0));
    choose("lane 2^32 + 1", m, 1, ((size_t)1 << 32) + 1, 1, REFUSED(10, 0));
    LENDING(VCS_BANK_SIZE - 1, choose("select, one byte short", m, 0, 1, 1, REFUSED(8, 0)));
    LENDING(0, choose("select, no bank", m, 3, 0, 5, REFUSED(8, 0)));
    wanted[VCS_APP_SEL_AT(0, 8)] = 15;
    choose("app 15 of 15", (map){15, NONE, NONE}, 0, 8, 15, YES);
    choose("app 16 of 15", (map){15, NONE, NONE}, 0, 8, 16, REFUSED(12, 0));
    m.ro_length = 6;
    choose("select, a bad string", m, 0, 1, 1, REFUSED(1, 4));
}

static void writes(void)
{
    map m = THE_SETTINGS;
    fill(0xFF);
    wanted[0] = 0xFB;
    store("02h, lane 3, set 0", m, 0, 0, 0, 3, 0, YES);
    wanted[SET_1 + 2] = 0xFE;
    store("P2, set 1", m, 1, 1, 0, 5, 2, YES);
    store("03h takes no 3", m, 1, 1, 0, 5, 3, REFUSED(12, 0));
    wanted[3] = 0xCF;
    LENDING(VCS_BANK_SIZE + 1, store("P3, P10", m, 0, 2, 0, 2, 12, YES));
    store("P10, 13", m, 0, 2, 0, 2, 13, REFUSED(12, 0));
    wanted[6] = 0xF0;
    store("P4", m, 0, 2, 0, 7, 0, YES);
    wanted[SET_1 + 13] = 0xFB;
    store("P5, set 1, 11", m, 1, 4, 1, 1, 11, YES);
    store("a reserved code in the mask", m, 1, 4, 1, 1, 10, REFUSED(12, 0));
    store("a code not in the mask", m, 1, 4, 1, 1, 12, REFUSED(12, 0));
    store("-1", m, 0, 0, 0, 1, -1, REFUSED(12, 0));
    store("2^32", m, 0, 0, 0, 1, (int64_t)1 << 32, REFUSED(12, 0));
    store("the least value", m, 0, 0, 0, 1, INT64_MIN, REFUSED(12, 0));
    store("the largest value", m, 0, 2, 0, 1, INT64_MAX, REFUSED(12, 0));
    store("write on set 2", m, 2, 0, 0, 1, 0, REFUSED(11, 0));
    store("11 before 12", m, 2, 0, 0, 1, 2, REFUSED(11, 0));
    store("10 before 11", m, 2, 0, 1, 1, 0, REFUSED(10, 0));
    store("set 3", m, 3, 0, 0, 1, 0, REFUSED(10, 0));
    store("00h has no field", m, 0, 3, 0, 1, 0, REFUSED(10, 0));
    LENDING(VCS_BANK_SIZE - 1, store("write, one byte short", m, 0, 0, 0, 1, 0, REFUSED(8, 0)));
    m = (map){1, BYTES(0x08, 0x07, 0x00, 0x04, 0x00, 0xFF, 0xFF, 0x10, 0x05, 0x00, 0x08, 0x00), NONE};
    wanted[0] = 0x3B;
    store("P11, 3", m, 0, 0, 0, 2, 3, YES);
    store("P11, 4", m, 0, 0, 0, 2, 4, REFUSED(12, 0));
    wanted[0] = 0xFB;
    store("P11, 15", m, 0, 0, 0, 2, 15, YES);
    wanted[SET_1 + 4] = 128;
    store("10h, 128", m, 1, 1, 0, 1, 128, YES);
    wanted[SET_1 + 4] = 255;
    store("10h, 255", m, 1, 1, 0, 1, 255, YES);
    store("10h, 256", m, 1, 1, 0, 1, 256, REFUSED(12, 0));
    m = (map)THE_MAP;
    store("an RO entry in set 0", m, 0, 3, 0, 1, 0, REFUSED(11, 0));
    store("an RO entry in set 2", m, 2, 4, 0, 1, 0, REFUSED(11, 0));
    m.ro_length = 6;
    store("write, a bad string", m, 0, 0, 0, 1, 0, REFUSED(1, 4));
}

static void reads(void)
{
    map m = THE_MAP;
    fill(0xFF);
    fetch("02h, all ones", m, 0, 0, 0, 1, NUMBER(1));
    fetch("12h, all ones", m, 2, 4, 0, 1, NUMBER(-1));
    put(ACTIVE + 20, 0xF2);
    fetch("P6", m, 2, 4, 0, 1, NUMBER(-14));
    put(ACTIVE + 19, 0x80);
    LENDING(VCS_BANK_SIZE + 1, fetch("P7, lower eye, lane 8", m, 2, 3, 1, 8, NUMBER(-128)));
    put(ACTIVE + 11, 0x7F);
    fetch("upper eye, lane 8", m, 2, 3, 0, 8, NUMBER(127));
    put(SET_1 + 3, 0xF7);
    fetch("05h, lane 4, set 1", m, 1, 2, 0, 4, NUMBER(0));
    fetch("05h, lane 4, set 0", m, 0, 2, 0, 4, NUMBER(1));
    fetch("read of 11h in set 0", m, 0, 3, 0, 1, REFUSED(11, 0));
    fetch("10 before 11", m, 0, 3, 2, 1, REFUSED(10, 0));
    fetch("set 3", m, 3, 0, 0, 1, REFUSED(10, 0));
    fetch("lane 0", m, 2, 0, 0, 0, REFUSED(10, 0));
    fetch("00h has no field", m, 2, 1, 0, 1, REFUSED(10, 0));
    LENDING(VCS_BANK_SIZE - 1, fetch("read, one byte short", m, 0, 0, 0, 1, REFUSED(8, 0)));
    LENDING(0, fetch("read, no bank", m, 3, 0, 0, 1, REFUSED(8, 0)));
    m.ro_length = 6;
    fetch("read, a bad string", m, 0, 0, 0, 1, REFUSED(1, 4));
    m = (map)THE_SETTINGS;
    put(3, 0xC5);
    fetch("lane 1 in the low four bits", m, 0, 2, 0, 1, NUMBER(5));
    fetch("lane 2 in the high four bits", m, 0, 2, 0, 2, NUMBER(12));
    put(SET_1 + 1, 0xC0);
    fetch("a value that write doesn't take", m, 1, 1, 0, 4, NUMBER(3));
    put(ACTIVE, 0xF2);
    fetch("0Fh is unsigned", (map){1, BYTES(0x0F, 0x05, 0x00, 0x08, 0x00), NONE}, 2, 0, 0, 1, NUMBER(242));
}

static void publishes(void)
{
    map m = THE_MAP;
    fill(0x00);
    wanted[ACTIVE + 20] = 0xF2;
    publish("P6", m, 4, 0, 1, -14, YES);
    fetch("P6, read", m, 2, 4, 0, 1, NUMBER(-14));
    wanted[ACTIVE + 19] = 0x80;
    LENDING(VCS_BANK_SIZE + 1, publish("P7, lower eye, lane 8", m, 3, 1, 8, -128, YES));
    wanted[ACTIVE + 4] = 0x7F;
    publish("upper eye, lane 1", m, 3, 0, 1, 127, YES);
    publish("128", m, 3, 0, 1, 128, REFUSED(12, 0));
    publish("-129", m, 4, 0, 1, -129, REFUSED(12, 0));
    publish("the largest value", m, 4, 0, 1, INT64_MAX, REFUSED(12, 0));
    publish("an RW entry", m, 0, 0, 1, 0, REFUSED(11, 0));
    publish("11 before 12", m, 0, 0, 1, 2, REFUSED(11, 0));
    publish("10 before 11", m, 0, 1, 1, 0, REFUSED(10, 0));
    publish("00h has no field", m, 1, 0, 1, 0, REFUSED(10, 0));
    publish("entry 5", m, 5, 0, 1, 0, REFUSED(10, 0));
    publish("lane 9", m, 4, 0, 9, 0, REFUSED(10, 0));
    LENDING(VCS_BANK_SIZE - 1, publish("publish, one byte short", m, 4, 0, 1, 0, REFUSED(8, 0)));
    m.count = 0;
    LENDING(VCS_BANK_SIZE - 1, publish("publish, count 0", m, 4, 0, 1, 0, REFUSED(9, 0)));
    m.count = 4;
    m.ro_length = 6;
    publish("publish, a bad string", m, 4, 0, 1, 0, REFUSED(1, 4));
}

/* A set of 256 bytes, all of them gaps: P12. */
#define THE_GAPS {4, BYTES(0x00, 0x04, 0x00, 0xFF, 0x00, 0x04, 0x00, 0x01), NONE}

static void byte_writes(void)
{
    map m = THE_MAP;
    fill(0xFF);
    wanted[0] = 0xA5;
    store_byte("02h, set 0", m, 0, 0, 0xA5, YES);
    fetch("lane 1 after a byte write", m, 0, 0, 0, 1, NUMBER(1));
    fetch("lane 2 after a byte write", m, 0, 0, 0, 2, NUMBER(0));
    wanted[SET_1 + 3] = 0;
    LENDING(VCS_BANK_SIZE + 1, store_byte("05h, set 1", m, 1, 3, 0, YES));
    wanted[SET_1 + 1] = 0;
    store_byte("a gap becomes 0, the next one keeps its bits", m, 1, 1, 0xFF, YES);
    store_byte("byte write on set 2", m, 2, 0, 0, REFUSED(11, 0));
    store_byte("the last byte of set 2", m, 2, 28, 0, REFUSED(11, 0));
    store_byte("10 before 11: the active length", m, 2, 29, 0, REFUSED(10, 0));
    store_byte("the staged length, set 0", m, 0, 4, 0, REFUSED(10, 0));
    store_byte("a byte of RO in set 1", m, 1, 20, 0, REFUSED(10, 0));
    store_byte("set 3", m, 3, 0, 0, REFUSED(10, 0));
    store_byte("set 2^32", m, (size_t)1 << 32, 0, 0, REFUSED(10, 0));
    store_byte("offset 256", m, 0, 256, 0, REFUSED(10, 0));
    store_byte("offset 2^32", m, 0, (size_t)1 << 32, 0, REFUSED(10, 0));
    store_byte("the largest numbers", m, SIZE_MAX, SIZE_MAX, 0xFF, REFUSED(10, 0));
    LENDING(VCS_BANK_SIZE - 1, store_byte("byte write, one byte short", m, 0, 0, 0, REFUSED(8, 0)));
    LENDING(0, store_byte("byte write, no bank", m, 3, 4, 0, REFUSED(8, 0)));
    m.count = 16;
    LENDING(VCS_BANK_SIZE - 1, store_byte("9 before 8", m, 0, 0, 0, REFUSED(9, 0)));
    m.count = 4;
    m.ro_length = 6;
    store_byte("byte write, a bad string", m, 0, 0, 0, REFUSED(1, 4));
    store_byte("1 before 10", m, 3, 4, 0, REFUSED(1, 4));
    m = (map)THE_SETTINGS;
    fill(0x00);
    wanted[1] = 0xFF;
    store_byte("03h takes 3", m, 0, 1, 0xFF, YES);
    fetch("03h, lane 4", m, 0, 1, 0, 4, NUMBER(3));
    wanted[SET_1 + 13] = 0xCA;
    store_byte("07h takes a reserved code and one not in its mask", m, 1, 13, 0xCA, YES);
    fetch("07h, post-cursor, lane 1", m, 1, 4, 1, 1, NUMBER(10));
    fetch("07h, post-cursor, lane 2", m, 1, 4, 1, 2, NUMBER(12));
    m = (map)THE_GAPS;
    fill(0xFF);
    wanted[255] = 0;
    store_byte("offset 255, set 0", m, 0, 255, 0xFF, YES);
    wanted[SET_1 + 255] = 0;
    store_byte("offset 255, set 1", m, 1, 255, 0x80, YES);
    store_byte("offset 256 of 256", m, 0, 256, 0, REFUSED(10, 0));
    store_byte("no string", (map){15, NONE, NONE}, 0, 0, 0, REFUSED(10, 0));
}

static void byte_reads(void)
{
    map m = THE_MAP;
    fill(0xFF);
    fetch_byte("02h, all ones", m, 0, 0, NUMBER(255));
    fetch_byte("a gap shows 0, set 0", m, 0, 1, NUMBER(0));
    LENDING(VCS_BANK_SIZE + 1, fetch_byte("a gap shows 0, set 2", m, 2, 2, NUMBER(0)));
    fetch_byte("surplus of 12h shows 0", m, 2, 28, NUMBER(0));
    put(SET_1 + 3, 0x3C);
    fetch_byte("05h, set 1", m, 1, 3, NUMBER(0x3C));
    fetch_byte("05h, set 0", m, 0, 3, NUMBER(255));
    put(ACTIVE + 3, 0x81);
    fetch_byte("05h, active", m, 2, 3, NUMBER(0x81));
    put(ACTIVE + 20, 0xF2);
    fetch_byte("12h as an unsigned pattern", m, 2, 20, NUMBER(242));
    put(ACTIVE + 19, 0x80);
    fetch_byte("P7, as an unsigned pattern", m, 2, 19, NUMBER(128));
    fetch_byte("the active length", m, 2, 29, REFUSED(10, 0));
    fetch_byte("a byte of RO in set 0", m, 0, 4, REFUSED(10, 0));
    fetch_byte("a byte of RO in set 1", m, 1, 20, REFUSED(10, 0));
    fetch_byte("set 3", m, 3, 0, REFUSED(10, 0));
    fetch_byte("offset 257", m, 1, 257, REFUSED(10, 0));
    fetch_byte("the largest numbers", m, SIZE_MAX, SIZE_MAX, REFUSED(10, 0));
    LENDING(VCS_BANK_SIZE - 1, fetch_byte("byte read, one byte short", m, 0, 0, REFUSED(8, 0)));
    LENDING(0, fetch_byte("byte read, no bank", m, 3, 0, REFUSED(8, 0)));
    m.count = 0;
    LENDING(VCS_BANK_SIZE - 1, fetch_byte("9 before 8", m, 0, 0, REFUSED(9, 0)));
    m.count = 4;
    m.ro_length = 6;
    fetch_byte("byte read, a bad string", m, 0, 0, REFUSED(1, 4));
    m = (map)THE_SETTINGS;
    put(3, 0xED);
    fetch_byte("two lanes of 04h", m, 0, 3, NUMBER(0xED));
    m = (map)THE_GAPS;
    fetch_byte("offset 255", m, 2, 255, NUMBER(0));
    fetch_byte("offset 256 of 256", m, 2, 256, REFUSED(10, 0));
    m = (map){4, BYTES(0x00, 0x04, 0x00, 0xF8, 0x0F, 0x05, 0x00, 0x08, 0x00), NONE};
    put(ACTIVE + 255, 0x5A);
    fetch_byte("the last byte of the active set", m, 2, 255, NUMBER(0x5A));
}

/* 02h for AppSel 1 to 4; 03h at offset 1 for 1 and 2, with a mask bit above the count; 04h at 3 for 1, 2 and 4 (P1), with
   code mask 1FFFh; 12h at 7. */
#define THE_PLAN \
    {4, \
     BYTES(0x02, 0x05, 0x0F, 0x01, 0x00, 0x03, 0x05, 0x13, 0x02, 0x00, 0x04, 0x07, 0x0B, 0x04, 0x00, 0x1F, 0xFF), \
     BYTES(0x12, 0x07, 0x0F, 0x08, 0x00, 0x00, 0x00)}

/* The AppSels of a staged set, all lanes alike. */
static void put_apps(size_t set, uint8_t app)
{
    for (size_t lane = 1; lane <= 8; lane++) {
        put(VCS_APP_SEL_AT(set, lane), app);
    }
}

static void applies(void)
{
    map m = THE_PLAN;
    fill(0xFF);
    memset(wanted, 0, VCS_BANK_SIZE);
    fresh("the plan's map", m, NUMBERS(0, 0, 3, 1, 7, 15));
    apply("no AppSel", m, 0, 0x04, REFUSED(13, 3));
    wanted[0] = 0x04;
    store("02h, lane 3", m, 0, 0, 0, 3, 1, YES);
    wanted[1] = 0x20;
    store("03h, lane 3", m, 0, 1, 0, 3, 2, YES);
    wanted[4] = 0x0C;
    store("04h, lane 3", m, 0, 2, 0, 3, 12, YES);
    wanted[VCS_APP_SEL_AT(0, 3)] = 4;
    choose("AppSel 4, lane 3", m, 0, 3, 4, YES);
    wanted[ACTIVE] = 0x04;
    wanted[ACTIVE + 4] = 0x0C;
    apply("AppSel 4, lane 3", m, 0, 0x04, YES);
    fetch("02h, applied", m, 2, 0, 0, 3, NUMBER(1));
    fetch("03h, not for AppSel 4", m, 2, 1, 0, 3, NUMBER(0));
    fetch("04h, applied", m, 2, 2, 0, 3, NUMBER(12));
    wanted[VCS_APP_SEL_AT(0, 3)] = 2;
    choose("AppSel 2, lane 3", m, 0, 3, 2, YES);
    wanted[ACTIVE + 1] = 0x20;
    LENDING(VCS_BANK_SIZE + 1, apply("AppSel 2, lane 3", m, 0, 0x04, YES));
    fetch("03h, applied", m, 2, 1, 0, 3, NUMBER(2));

    fill(0xFF);
    put(VCS_APP_SEL_AT(1, 5), 1);
    put(SET_1, 0x00);
    put(SET_1 + 2, 0xFE);
    put(SET_1 + 5, 0xF0);
    wanted[ACTIVE] = 0xEF;
    wanted[ACTIVE + 2] = 0xFE;
    wanted[ACTIVE + 5] = 0xF0;
    apply("set 1, lane 5: the other lanes and 12h are kept", m, 1, 0x10, YES);

    fill(0x00);
    put_apps(1, 1);
    static const uint8_t staged[7] = {0xA5, 0x99, 0x66, 0xC0, 0x12, 0x34, 0x56};
    for (size_t i = 0; i < sizeof staged; i++) {
        put(SET_1 + i, staged[i]);
    }
    memcpy(wanted + ACTIVE, staged, sizeof staged);
    apply("all lanes", m, 1, 0xFF, YES);

    fill(0xFF);
    apply("an empty mask", m, 0, 0, YES);
    apply("an empty mask on set 2", m, 2, 0, REFUSED(11, 0));
    apply("set 2", m, 2, 0xFF, REFUSED(11, 0));
    apply("set 3", m, 3, 0xFF, REFUSED(10, 0));
    apply("an empty mask on set 3", m, 3, 0, REFUSED(10, 0));
    apply("set 2^32", m, (size_t)1 << 32, 0, REFUSED(10, 0));
    apply("the largest set", m, SIZE_MAX, 0xFF, REFUSED(10, 0));
    apply("AppSel 255, lanes 2 and 8", m, 1, 0x82, REFUSED(13, 2));
    put(VCS_APP_SEL_AT(0, 8), 5);
    apply("AppSel 5 of 4, with its bit in a mask", m, 0, 0x80, REFUSED(13, 8));
    put(VCS_APP_SEL_AT(0, 8), 0);
    apply("AppSel 0", m, 0, 0x80, REFUSED(13, 8));
    LENDING(VCS_BANK_SIZE - 1, apply("apply, one byte short", m, 0, 0, REFUSED(8, 0)));
    LENDING(0, apply("apply, no bank", m, 3, 0xFF, REFUSED(8, 0)));
    m.count = 16;
    LENDING(VCS_BANK_SIZE - 1, apply("9 before 8", m, 0, 0, REFUSED(9, 0)));
    m.count = 4;
    m.ro_length = 6;
    apply("apply, a bad string", m, 0, 0, REFUSED(1, 3));
    apply("1 before 10", m, 3, 0xFF, REFUSED(1, 3));

    m = (map)THE_PLAN;
    fill(0x00);
    put_apps(0, 1);
    put(1, 0x03);
    apply("03h holds 3 in lane 1", m, 0, 0xFF, REFUSED(14, 1));
    apply("lane 1 not chosen", m, 0, 0xFE, YES);
    put(6, 0xD0);
    apply("04h holds 13 in lane 8", m, 0, 0xFE, REFUSED(14, 8));
    apply("the lowest lane of two", m, 0, 0xFF, REFUSED(14, 1));
    put(VCS_APP_SEL_AT(0, 5), 0);
    apply("13 in lane 5 before 14 in lane 1", m, 0, 0xFF, REFUSED(13, 5));
    put(VCS_APP_SEL_AT(0, 1), 4);
    apply("03h is not to be copied", m, 0, 0x01, YES);
    apply("14 needs a field to be copied", m, 0, 0x81, REFUSED(14, 8));
    put(VCS_APP_SEL_AT(0, 1), 0);
    apply("the lowest lane of two AppSels", m, 0, 0x91, REFUSED(13, 1));

    m = (map){9, BYTES(0x02, 0x06, 0x01, 0x00, 0x01, 0x00), NONE};
    fill(0x00);
    put(0, 0xC0);
    put(VCS_APP_SEL_AT(0, 7), 8);
    put(VCS_APP_SEL_AT(0, 8), 9);
    wanted[ACTIVE] = 0x80;
    apply("AppSel 9 of 9, mask 0100h", m, 0, 0xC0, YES);
    put(VCS_APP_SEL_AT(0, 8), 10);
    apply("AppSel 10 of 9", m, 0, 0xC0, REFUSED(13, 8));
    apply("no string, AppSel above the count", (map){1, NONE, NONE}, 0, 0x80, REFUSED(13, 8));
    put(VCS_APP_SEL_AT(0, 8), 1);
    apply("no string", (map){1, NONE, NONE}, 0, 0x80, YES);
}

/* 02h; 0Dh at offset 1, index -1, Max 0, Min -30, and at 9, index 0, Max 100, Min 50; 09h at 17 for AppSel 1, Min -8, Max 6;
   0Ah at 25, Min above Max, for AppSel 2; 0Eh at 33, code mask 03FFh; 0Bh at 37. */
#define THE_NUMBERS \
    {4, \
     BYTES(0x02, 0x05, 0x0F, 0x01, 0x00, 0x0D, 0x09, 0x0F, 0x08, 0x00, 0xFF, 0x00, 0xE2, 0x00, \
           0x0D, 0x09, 0x0F, 0x08, 0x00, 0x00, 0x64, 0x32, 0x00, 0x09, 0x09, 0x01, 0x08, 0x00, 0x00, 0xF8, 0x06, 0x01, \
           0x0A, 0x09, 0x02, 0x08, 0x00, 0x01, 0x06, 0xF8, 0x04, 0x0E, 0x07, 0x0F, 0x04, 0x00, 0x03, 0xFF, \
           0x0B, 0x05, 0x0F, 0x01, 0x00), \
     NONE}

static void numbers(void)
{
    map m = THE_NUMBERS;
    fill(0xFF);
    memset(wanted, 0, VCS_BANK_SIZE);
    fresh("the numbers' map", m, NUMBERS(0, 0, 7, 0, 38, 38));
    place("0Dh, lane 3", m, 0, 1, 0, 3, PLACED(3, 0x10, 156, 0));
    owner("0Dh, lane 3", m, 2, 3, 7, FIELD(1, 0, 3, 2));
    place("0Eh, lane 8", m, 1, 5, 0, 8, PLACED(36, 0x18, 213, 4));
    place("0Bh, lane 8", m, 1, 6, 0, 8, PLACED(37, 0x18, 214, 7));
    place("part 1 of 0Dh", m, 0, 1, 1, 3, REFUSED(10, 0));

    wanted[3] = 0xF2;
    store("0Dh, -14", m, 0, 1, 0, 3, -14, YES);
    fetch_byte("-14 as an unsigned pattern", m, 0, 3, NUMBER(0xF2));
    fetch("-14", m, 0, 1, 0, 3, NUMBER(-14));
    store("0Dh, Min - 1", m, 0, 1, 0, 3, -31, REFUSED(12, 0));
    store("0Dh, Max + 1", m, 0, 1, 0, 3, 1, REFUSED(12, 0));
    store("-14 as a pattern", m, 0, 1, 0, 3, 0xF2, REFUSED(12, 0));
    store("-14 - 256", m, 0, 1, 0, 3, -14 - 256, REFUSED(12, 0));
    wanted[4] = 0xE2;
    store("0Dh, Min", m, 0, 1, 0, 4, -30, YES);
    store("0Dh without 0", m, 0, 2, 0, 3, 0, REFUSED(12, 0));
    wanted[VCS_APP_SEL_AT(0, 3)] = 1;
    choose("AppSel 1, lane 3", m, 0, 3, 1, YES);
    apply("0Dh holds 0, which it lacks", m, 0, 0x04, REFUSED(14, 3));
    wanted[11] = 0x64;
    store("0Dh, Max", m, 0, 2, 0, 3, 100, YES);
    wanted[19] = 0xF8;
    store("09h, Min", m, 0, 3, 0, 3, -8, YES);
    store("09h, Min - 1", m, 0, 3, 0, 3, -9, REFUSED(12, 0));
    store("09h, Max + 1", m, 0, 3, 0, 3, 7, REFUSED(12, 0));
    store("0Ah, Min above Max", m, 0, 4, 0, 3, 0, REFUSED(12, 0));
    wanted[34] = 0x09;
    store("0Eh, 9", m, 0, 5, 0, 3, 9, YES);
    store("0Eh, 10", m, 0, 5, 0, 3, 10, REFUSED(12, 0));
    wanted[37] = 0x04;
    store("0Bh, 1", m, 0, 6, 0, 3, 1, YES);
    store("0Bh, 2", m, 0, 6, 0, 3, 2, REFUSED(12, 0));
    wanted[ACTIVE + 3] = 0xF2;
    wanted[ACTIVE + 11] = 0x64;
    wanted[ACTIVE + 19] = 0xF8;
    wanted[ACTIVE + 34] = 0x09;
    wanted[ACTIVE + 37] = 0x04;
    apply("numbers", m, 0, 0x04, YES);
    fetch("-14, applied", m, 2, 1, 0, 3, NUMBER(-14));
    fetch_byte("-14, applied, as an unsigned pattern", m, 2, 3, NUMBER(0xF2));
    fetch("-8, applied", m, 2, 3, 0, 3, NUMBER(-8));
    fetch("0Dh, lane 4 is not chosen", m, 2, 1, 0, 4, NUMBER(0));

    wanted[3] = 0xE1;
    store_byte("0Dh takes Min - 1 as a byte", m, 0, 3, 0xE1, YES);
    fetch("-31", m, 0, 1, 0, 3, NUMBER(-31));
    apply("0Dh holds Min - 1", m, 0, 0x04, REFUSED(14, 3));
    wanted[3] = 0x80;
    store_byte("0Dh takes -128 as a byte", m, 0, 3, 0x80, YES);
    fetch("-128", m, 0, 1, 0, 3, NUMBER(-128));
    wanted[3] = 0xFF;
    store_byte("0Dh takes -1 as a byte", m, 0, 3, 0xFF, YES);
    wanted[VCS_APP_SEL_AT(0, 3)] = 2;
    choose("AppSel 2, lane 3", m, 0, 3, 2, YES);
    apply("0Ah accepts nothing", m, 0, 0x04, REFUSED(14, 3));
    wanted[VCS_APP_SEL_AT(0, 3)] = 3;
    choose("AppSel 3, lane 3", m, 0, 3, 3, YES);
    wanted[ACTIVE + 3] = 0xFF;
    apply("without 09h and 0Ah", m, 0, 0x04, YES);
    fetch("09h is kept", m, 2, 3, 0, 3, NUMBER(-8));
    publish("publish to 0Dh", m, 1, 0, 3, -14, REFUSED(11, 0));
    weigh("weight of 0Dh", m, 1, 3, REFUSED(10, 0));
}

/* A call of a kind; every other member is as large as can be, so what a kind ignores would show. */
static vcs_call of_kind(size_t kind)
{
    return (vcs_call){kind, SIZE_MAX, SIZE_MAX, SIZE_MAX, SIZE_MAX, SIZE_MAX, SIZE_MAX, INT64_MAX, 0xFF, 0xFF};
}

static void performs(void)
{
    map m = THE_PLAN;
    fill(0x00);
    vcs_call call = of_kind(0);
    call.set = 0;
    call.lane = 3;
    call.app = 4;
    wanted[VCS_APP_SEL_AT(0, 3)] = 4;
    perform("select", m, call, YES);
    call.app = 5;
    perform("select, app 5 of 4", m, call, REFUSED(12, 0));

    call = of_kind(1);
    call.set = 0;
    call.entry = 2;
    call.part = 0;
    call.lane = 3;
    call.value = 12;
    wanted[4] = 0x0C;
    perform("write", m, call, YES);
    call.value = -1;
    perform("write, -1", m, call, REFUSED(12, 0));
    call.value = 12 + ((int64_t)1 << 32);
    perform("write, 2^32 + 12", m, call, REFUSED(12, 0));

    call = of_kind(2);
    call.set = 0;
    call.entry = 2;
    call.part = 0;
    call.lane = 3;
    perform("read", m, call, NUMBER(12));
    call.set = 2;
    perform("read, before apply", m, call, NUMBER(0));

    call = of_kind(6);
    call.set = 0;
    call.lanes = 0x04;
    wanted[ACTIVE + 4] = 0x0C;
    perform("apply", m, call, YES);
    call.lanes = 0x0C;
    perform("apply, no AppSel in lane 4", m, call, REFUSED(13, 4));
    call.set = 2;
    perform("apply on set 2", m, call, REFUSED(11, 0));
    call.set = 3;
    perform("apply on set 3", m, call, REFUSED(10, 0));

    call = of_kind(3);
    call.set = 0;
    call.offset = 4;
    call.byte = 0xFD;
    wanted[4] = 0xFD;
    perform("byte write", m, call, YES);

    call = of_kind(4);
    call.set = 0;
    call.offset = 4;
    perform("byte read", m, call, NUMBER(0xFD));
    call.offset = 7;
    perform("byte read, the staged length", m, call, REFUSED(10, 0));

    call = of_kind(6);
    call.set = 0;
    call.lanes = 0x04;
    perform("apply, 04h holds 13 in lane 3", m, call, REFUSED(14, 3));

    call = of_kind(5);
    call.entry = 3;
    call.part = 0;
    call.lane = 1;
    call.value = -14;
    wanted[ACTIVE + 7] = 0xF2;
    perform("publish", m, call, YES);
    call.entry = 0;
    perform("publish, an RW entry", m, call, REFUSED(11, 0));

    call = (vcs_call){7, 0, 0, 0, 1, 0, 1, 1, 1, 0};
    perform("kind 7", m, call, REFUSED(10, 0));
    call.kind = 256;
    perform("kind 256", m, call, REFUSED(10, 0));
    call.kind = ((size_t)1 << 32) + 2;
    perform("kind 2^32 + 2", m, call, REFUSED(10, 0));
    perform("the largest numbers", m, of_kind(SIZE_MAX), REFUSED(10, 0));
    LENDING(VCS_BANK_SIZE - 1, perform("8 before 10: kind 7", m, of_kind(7), REFUSED(8, 0)));
    m.count = 0;
    LENDING(VCS_BANK_SIZE - 1, perform("9 before 8: kind 7", m, of_kind(7), REFUSED(9, 0)));
    m.count = 4;
    m.ro_length = 6;
    perform("1 before 10: kind 7", m, of_kind(7), REFUSED(1, 3));
}

/* 02h, then 12h at offsets 1, 9, 17 and 25, of steps 0 to 3. */
#define THE_STEPS \
    {4, BYTES(0x02, 0x05, 0x0F, 0x01, 0x00), \
     BYTES(0x12, 0x07, 0x0F, 0x08, 0x00, 0x05, 0x00, 0x12, 0x07, 0x0F, 0x08, 0x00, 0x05, 0x01, \
           0x12, 0x07, 0x0F, 0x08, 0x00, 0x05, 0x02, 0x12, 0x07, 0x0F, 0x08, 0x00, 0x05, 0x03)}

static void weights(void)
{
    map m = THE_STEPS;
    fill(0x01);
    put(ACTIVE + 1, 0xF2);
    weigh("P6, step 0", m, 1, 1, NUMBER(-140));
    put(ACTIVE + 9 + 7, 0x80);
    weigh("step 1, lane 8, -128", m, 2, 8, NUMBER(-2560));
    put(ACTIVE + 17 + 2, 0xFD);
    LENDING(VCS_BANK_SIZE + 1, weigh("step 2, lane 3, -3", m, 3, 3, NUMBER(-75)));
    put(ACTIVE + 25, 0x80);
    weigh("step 3, -128", m, 4, 1, NUMBER(-5120));
    weigh("step 3, lane 2, 1", m, 4, 2, NUMBER(40));
    put(ACTIVE + 17 + 7, 0x7F);
    weigh("step 2, lane 8, 127", m, 3, 8, NUMBER(3175));
    put(ACTIVE + 1 + 1, 0x00);
    weigh("step 0, lane 2, 0", m, 1, 2, NUMBER(0));
    weigh("weight of 02h", m, 0, 1, REFUSED(10, 0));
    weigh("entry 5", m, 5, 1, REFUSED(10, 0));
    weigh("lane 0", m, 1, 0, REFUSED(10, 0));
    weigh("lane 9", m, 1, 9, REFUSED(10, 0));
    weigh("lane 2^32 + 1", m, 1, ((size_t)1 << 32) + 1, REFUSED(10, 0));
    weigh("entry 2^32 + 1", m, ((size_t)1 << 32) + 1, 1, REFUSED(10, 0));
    weigh("the largest numbers", m, SIZE_MAX, SIZE_MAX, REFUSED(10, 0));
    LENDING(VCS_BANK_SIZE - 1, weigh("weight, one byte short", m, 1, 1, REFUSED(8, 0)));
    LENDING(0, weigh("weight, no bank", m, 0, 0, REFUSED(8, 0)));
    m.count = 0;
    LENDING(VCS_BANK_SIZE - 1, weigh("9 before 8", m, 1, 1, REFUSED(9, 0)));
    m = (map)THE_MAP;
    weigh("weight of 00h", m, 1, 1, REFUSED(10, 0));
    weigh("weight of 11h", m, 3, 1, REFUSED(10, 0));
    m.ro_length = 6;
    weigh("weight, a bad string", m, 0, 1, REFUSED(1, 4));
    put(ACTIVE, 0xFF);
    weigh("step in byte 7 with A 2", (map){9, NONE, BYTES(0x12, 0x08, 0x00, 0x00, 0x08, 0x00, 0x01, 0x03)}, 0, 1,
          NUMBER(-40));
}

/* The answers of a step: an entry, the end, a refusal, each with the position after it. */
#define ENTRY(start, length, position) NUMBERS(0, 0, start, length, position)
#define END(position) NUMBERS(0, 1, 0, 0, position)
#define STAYS(number, position) NUMBERS(number, 0, 0, 0, position)

static void takes(void)
{
    static const uint8_t zeros[121];
    map m = THE_MAP;
    take("entry 0", m, 0, ENTRY(0, 5, 5));
    take("entry 1", m, 5, ENTRY(5, 5, 10));
    take("entry 2", m, 10, ENTRY(10, 5, 15));
    take("the end", m, 15, END(15));
    take("past the end", m, 16, END(16));
    take("position 2^32", m, (size_t)1 << 32, END((size_t)1 << 32));
    take("the largest position", m, SIZE_MAX, END(SIZE_MAX));
    take("inside an entry", m, 3, STAYS(2, 3));
    take("one byte left", m, 14, STAYS(1, 14));
    take("no string", (map){15, NONE, NONE}, 0, END(0));
    m.count = 9;
    take("Length 5 with A 2", m, 5, ENTRY(5, 5, 10));
    take("Length 5 of 02h with A 2", m, 0, STAYS(2, 0));
    m.count = 16;
    take("count 16", m, 5, STAYS(9, 5));
    take("9 before the end", m, 15, STAYS(9, 15));
    m.count = 0;
    take("9 before 1", m, 14, STAYS(9, 14));
    take("a string of 121 bytes", (map){4, zeros, 121, NONE}, 121, STAYS(9, 121));
    take("a string of 120 bytes", (map){4, zeros, 120, NONE}, 120, END(120));
    take("Length 0", (map){4, zeros, 120, NONE}, 118, STAYS(2, 118));
    take("1 before 2", (map){4, BYTES(0x02, 0x03), NONE}, 0, STAYS(1, 0));
    take("an RO parameter is no matter", (map){4, BYTES(0x11, 0x05, 0x00, 0x00, 0x00), NONE}, 0, ENTRY(0, 5, 5));
}

/* Up to 17 entries of 02h in RW, at offsets 0 to 16, and of 12h in RO; made anew, then lent from their first byte on. */
enum { RW_ENTRY = 5, RO_ENTRY = 7, FULL_RW = VCS_ENTRY_LIMIT * RW_ENTRY, FULL_RO = VCS_ENTRY_LIMIT * RO_ENTRY };
static uint8_t rw_bytes[FULL_RW + RW_ENTRY], ro_bytes[FULL_RO + RO_ENTRY];

static map many(size_t rw_length, size_t ro_length)
{
    for (int i = 0; i <= VCS_ENTRY_LIMIT; i++) {
        memcpy(rw_bytes + i * RW_ENTRY, (const uint8_t[]){0x02, 0x05, 0x0F, 0x01, 0x00}, RW_ENTRY);
        memcpy(ro_bytes + i * RO_ENTRY, (const uint8_t[]){0x12, 0x07, 0x0F, 0x08, 0x00, 0x00, 0x00}, RO_ENTRY);
    }
    return (map){4, rw_bytes, rw_length, ro_bytes, ro_length};
}

static void full_strings(void)
{
    map m = many(FULL_RW, FULL_RO);
    load("16 and 16 entries", m, NUMBERS(0, 0, 16, 16, 16, 144));
    entry("entry 15, the last of RW", m, 15, NUMBERS(0, 0, 0, 75, 5, 15));
    entry("entry 16, the first of RO", m, 16, NUMBERS(0, 0, 1, 0, 7, 16));
    entry("entry 31, the last of RO", m, 31, NUMBERS(0, 0, 1, 105, 7, 136));
    entry("entry 32", m, 32, REFUSED(10, 0));
    place("entry 15, lane 8", m, 1, 15, 0, 8, PLACED(15, 0x10, 203, 7));
    place("entry 31, lane 8, without an address", m, 2, 31, 0, 8, PLACED(143, 0, 0, 0));
    owner("entry 15, lane 8", m, 0, 15, 7, FIELD(15, 0, 8, 16));
    owner_at("entry 15, lane 8", m, 1, 0x10, 203, 7, FIELD(15, 0, 8, 16));
    owner("entry 31, lane 8", m, 2, 143, 0, FIELD(31, 0, 8, 32));
    for (size_t i = 0; i < VCS_ENTRY_LIMIT; i++) {
        owner_in_all("an RW entry, lane 2", m, i, 1, FIELD(i, 0, 2, i + 1));
        owner("an RO entry, lane 1", m, 2, 16 + 8 * i, 0, FIELD(16 + i, 0, 1, 17 + i));
    }
    fill(0xFF);
    memset(wanted, 0, VCS_BANK_SIZE);
    fresh("16 and 16 entries", m, NUMBERS(0, 0, 16, 16, 16, 144));
    wanted[15] = 0x80;
    store("entry 15, lane 8", m, 0, 15, 0, 8, 1, YES);
    wanted[VCS_APP_SEL_AT(0, 8)] = 4;
    choose("AppSel 4, lane 8", m, 0, 8, 4, YES);
    wanted[ACTIVE + 15] = 0x80;
    apply("entry 15, lane 8", m, 0, 0x80, YES);
    fetch("entry 15, applied", m, 2, 15, 0, 8, NUMBER(1));
    wanted[SET_1 + 15] = 0xA5;
    store_byte("entry 15, set 1", m, 1, 15, 0xA5, YES);
    wanted[ACTIVE + 143] = 0xF2;
    publish("entry 31, lane 8", m, 31, 0, 8, -14, YES);
    fetch_byte("entry 31, lane 8", m, 2, 143, NUMBER(0xF2));
    weigh("entry 31, lane 8", m, 31, 8, NUMBER(-140));
    vcs_call call = of_kind(2);
    call.set = 2;
    call.entry = 31;
    call.part = 0;
    call.lane = 8;
    perform("read of entry 31, lane 8", m, call, NUMBER(-14));
}

/* The name of a check: a call, and what it is given. */
static const char *given(const char *call, const char *name)
{
    static char text[100];
    snprintf(text, sizeof text, "%s, %s", call, name);
    return text;
}

/* Every call that loads refuses a map alike, perform with the largest numbers, and keeps the bank. */
static void refused_by_all(const char *name, map m, const size_t expected[7])
{
    load(given("load", name), m, expected);
    entry(given("entry", name), m, 0, expected);
    place(given("place", name), m, 0, 0, 0, 1, expected);
    owner(given("owner", name), m, 0, 0, 0, expected);
    owner_at(given("owner at", name), m, 0, 0x10, 153, 0, expected);
    owner_at(given("owner at page 0", name), m, 2, 0, 0, 0, expected);
    fresh(given("fresh", name), m, expected);
    choose(given("select", name), m, 0, 1, 1, expected);
    store(given("write", name), m, 0, 0, 0, 1, 0, expected);
    fetch(given("read", name), m, 0, 0, 0, 1, expected);
    publish(given("publish", name), m, 16, 0, 1, 0, expected);
    store_byte(given("byte write", name), m, 0, 0, 0, expected);
    fetch_byte(given("byte read", name), m, 0, 0, expected);
    apply(given("apply", name), m, 0, 0x00, expected);
    weigh(given("weight", name), m, 16, 1, expected);
    for (size_t kind = 0; kind <= 7; kind++) {
        perform(given("perform", name), m, of_kind(kind), expected);
    }
}

/* The last entry of one string is a 17th; without the string's first entry, it is refused with another number. */
static void seventeenth(const char *name, map m, size_t number)
{
    load(name, m, REFUSED(16, 16));
    if (m.rw_length > 0) {
        m.rw += RW_ENTRY;
        m.rw_length -= RW_ENTRY;
    } else {
        m.ro += RO_ENTRY;
        m.ro_length -= RO_ENTRY;
    }
    load(name, m, REFUSED(number, 15));
}

static void limits(void)
{
    fill(0xFF);
    refused_by_all("a 17th RW entry", many(FULL_RW + RW_ENTRY, FULL_RO), REFUSED(16, 16));
    refused_by_all("a 17th RO entry", many(FULL_RW, FULL_RO + RO_ENTRY), REFUSED(16, 32));
    refused_by_all("a 17th RO entry after 3", many(3 * RW_ENTRY, FULL_RO + RO_ENTRY), REFUSED(16, 19));
    refused_by_all("a 17th RO entry alone", many(0, FULL_RO + RO_ENTRY), REFUSED(16, 16));
    refused_by_all("a 17th entry of each", many(FULL_RW + RW_ENTRY, FULL_RO + RO_ENTRY), REFUSED(16, 16));
    refused_by_all("one byte after 16 RW entries", many(FULL_RW + 1, FULL_RO), REFUSED(16, 16));
    refused_by_all("one byte after 16 RO entries", many(FULL_RW, FULL_RO + 1), REFUSED(16, 32));
    refused_by_all("one byte after 15 RW entries", many(FULL_RW - RW_ENTRY + 1, FULL_RO), REFUSED(1, 15));
    refused_by_all("one byte after 15 RO entries", many(FULL_RW, FULL_RO - RO_ENTRY + 1), REFUSED(1, 31));
    take("a 17th entry is taken", many(FULL_RW + RW_ENTRY, 0), FULL_RW, ENTRY(80, 5, 85));
    take("the end after 17", many(FULL_RW + RW_ENTRY, 0), FULL_RW + RW_ENTRY, END(85));
    take("one byte after 16 entries", many(FULL_RW + 1, 0), FULL_RW, STAYS(1, 80));
}

/* What stands beside 16 in the order of refusals. */
static void limit_order(void)
{
    fill(0xFF);
    seventeenth("16 before 1, one byte", many(FULL_RW + 1, 0), 1);
    map m = many(FULL_RW + RW_ENTRY, 0);
    rw_bytes[FULL_RW + 1] = 6;
    seventeenth("16 before 1, Length one over", m, 1);
    rw_bytes[FULL_RW + 1] = 0;
    seventeenth("16 before 2, Length 0", m, 2);
    m = many(FULL_RW + RW_ENTRY, 0);
    rw_bytes[FULL_RW] = 0x11;
    seventeenth("16 before 3, 11h in RW", m, 3);
    rw_bytes[FULL_RW] = 0x03;
    seventeenth("16 before 4, 03h of 1 byte", m, 4);
    m = many(0, FULL_RO + RO_ENTRY);
    ro_bytes[FULL_RO + 6] = 4;
    seventeenth("16 before 5, step 4", m, 5);
    m = many(FULL_RW + RW_ENTRY, 0);
    rw_bytes[FULL_RW - 1] = 1;
    seventeenth("16 before 6, after a media side", m, 6);
    m = many(FULL_RW + RW_ENTRY, 0);
    rw_bytes[FULL_RW + 3] = 255;
    seventeenth("16 before 7, 255 bytes more", m, 7);

    load("1 in RW before 16 in RO", many(3 * RW_ENTRY + 1, FULL_RO + RO_ENTRY), REFUSED(1, 3));
    load("16 in RW before 1 in RO", many(FULL_RW + RW_ENTRY, 1), REFUSED(16, 16));
    m = many(FULL_RW + RW_ENTRY, 0);
    entry("16 before 10", m, 99, REFUSED(16, 16));
    publish("16 before 11", m, 0, 0, 1, 0, REFUSED(16, 16));
    choose("16 before 12", m, 0, 1, 5, REFUSED(16, 16));
    apply("16 before 13", m, 0, 0xFF, REFUSED(16, 16));
    LENDING(VCS_BANK_SIZE - 1, fresh("8 before 16", m, REFUSED(8, 0)));
    m.count = 16;
    load("9 before 16", m, REFUSED(9, 0));
    m = many(FULL_RW + RW_ENTRY, 0);
    rw_bytes[FULL_RW - RW_ENTRY + 1] = 0;
    load("2 in the 16th entry, before a 17th", m, REFUSED(2, 15));
}

/* As many entries of 00h, with nothing reserved, as 120 bytes hold: 30 with A 1, 24 with A 2. */
static void spaces(void)
{
    for (size_t a = 1; a <= 2; a++) {
        uint8_t bytes[120] = {0};
        size_t count = a == 1 ? 8 : 9, size = 3 + a, full = VCS_ENTRY_LIMIT * size;
        for (size_t i = 0; i < sizeof bytes; i += size) {
            bytes[i + 1] = (uint8_t)size;
        }
        map m = {count, bytes, sizeof bytes, NONE}, both = {count, bytes, full, bytes, full};
        load("16 and 16 spaces", both, NUMBERS(0, 0, 16, 16, 0, 0));
        owner("no byte in 32 spaces", both, 2, 0, 0, REFUSED(10, 0));
        uint8_t last[120];
        memcpy(last, bytes, sizeof last);
        last[full - 1] = 1;
        owner("the last of 32 spaces has the byte", (map){count, bytes, full, last, full}, 2, 0, 7, GAP(32));
        owner_in_all("the last of 16, 16 behind", (map){count, last, full, bytes, full}, 0, 0, GAP(16));
        owner("and then the last of 32", (map){count, last, full, last, full}, 2, 1, 0, GAP(32));
        load("120 bytes of spaces in RW", m, REFUSED(16, 16));
        load("120 bytes of spaces in RO", (map){count, bytes, full, bytes, sizeof bytes}, REFUSED(16, 32));
        for (size_t at = 0; at < sizeof bytes; at += size) {
            take("a space", m, at, ENTRY(at, size, at + size));
        }
    }
}

/* 02h of 1 byte; 00h that reserves 2, whose last byte is no PropertyFlags; 05h of 1, media side; 0Fh of 8, host side; 11h of
   16 bytes, 12h of 9. */
#define THE_PIECES \
    {4, \
     BYTES(0x02, 0x05, 0x0B, 0x01, 0x00, 0x00, 0x05, 0x00, 0x02, 0x01, 0x05, 0x05, 0x0F, 0x01, 0x01, \
           0x0F, 0x05, 0x0F, 0x08, 0x00), \
     BYTES(0x11, 0x05, 0x01, 0x10, 0x00, 0x12, 0x08, 0x01, 0x09, 0x00, 0xFF, 0x00, 0x77)}

/* What pass comes to: an entry's length and the members of the state after it; the end; or a refusal. */
#define PAST(length, ...) ((vcs_passed){0, 0, 0, length, {__VA_ARGS__}})
#define NO_MORE ((vcs_passed){0, 0, 1, 0, {0}})
#define NOT_PAST(number, at) ((vcs_passed){number, at, 0, 0, {0}})
#define STATE(...) ((vcs_state){__VA_ARGS__})

static void passes(void)
{
    static const vcs_passed past[] = {
        {0, 0, 0, 5, {0, 0, 1, 0, 1, 0}},   {0, 0, 0, 5, {0, 0, 2, 0, 3, 0}},   {0, 0, 0, 5, {0, 1, 3, 0, 4, 0}},
        {0, 0, 0, 5, {0, 1, 4, 0, 12, 0}},  {0, 0, 0, 5, {1, 1, 1, 4, 28, 12}}, {0, 0, 0, 8, {1, 1, 2, 4, 37, 12}},
    };
    map m = THE_PIECES;
    vcs_state state = {0};
    load("the pieces", m, NUMBERS(0, 0, 4, 2, 12, 37));
    for (size_t i = 0; i < sizeof past / sizeof past[0]; i++) {
        pass("an entry of the pieces", m, state, past[i]);
        m = behind(m, past[i]);
        state = past[i].state;
        resume("broken off after an entry", m, state, NUMBERS(0, 0, 4, 2, 12, 37));
    }
    pass("the end", m, state, NO_MORE);

    m = (map)THE_PIECES;
    m.rw_length = 0;
    pass("at the end of RW", m, STATE(0, 1, 4, 0, 12, 0), PAST(5, 1, 1, 1, 4, 28, 12));
    resume("at the end of RW", m, STATE(0, 1, 4, 0, 12, 0), NUMBERS(0, 0, 4, 2, 12, 37));
    m.ro_length = 0;
    pass("at the end of RW, no RO", m, STATE(0, 1, 4, 0, 12, 0), NO_MORE);
    resume("at the end of RW, no RO", m, STATE(0, 1, 4, 0, 12, 0), NUMBERS(0, 0, 4, 0, 12, 12));
    pass("no string", m, STATE(0), NO_MORE);

    m = (map)THE_PIECES;
    pass("RW isn't read in RO", m, STATE(1, 0, 1, 2, 5, 3), PAST(5, 1, 0, 2, 2, 21, 3));
    resume("RW isn't read in RO", m, STATE(1, 0, 1, 2, 5, 3), NUMBERS(0, 0, 2, 3, 3, 30));
    m.rw_length = 1;
    pass("a bad RW string in RO", m, STATE(1, 0, 1, 2, 5, 3), PAST(5, 1, 0, 2, 2, 21, 3));
    resume("a bad RW string in RO", m, STATE(1, 0, 1, 2, 5, 3), NUMBERS(0, 0, 2, 3, 3, 30));
    pass("12h, media side", (map){4, NONE, BYTES(0x12, 0x07, 0x01, 0x08, 0x01, 0x00, 0x00)}, STATE(0),
         PAST(7, 1, 1, 1, 0, 8, 0));
    pass("two mask bytes", (map){9, BYTES(0x02, 0x06, 0x00, 0x01, 0x03, 0x01), NONE}, STATE(0), PAST(6, 0, 1, 1, 0, 3, 0));
    pass("120 bytes", (map){4, (const uint8_t[120]){0x00, 120, 0x00, 0x09}, 120, NONE}, STATE(0),
         PAST(120, 0, 0, 1, 0, 9, 0));
    pass("13h, no PropertyFlags", (map){4, BYTES(0x13, 0x05, 0x01, 0x08, 0x01), NONE}, STATE(0), PAST(5, 0, 0, 1, 0, 8, 0));
}

/* Pass and resume refuse the first entry that is left alike. */
static void refuse(const char *name, map m, vcs_state state, size_t number, size_t at)
{
    pass(given("pass", name), m, state, NOT_PAST(number, at));
    resume(given("resume", name), m, state, REFUSED(number, at));
}

/* Entry 3 of the RW string; the RO string's first entry after three, and its entry 3 after five. */
static void refuse_rw(const char *name, const uint8_t *bytes, size_t length, size_t number)
{
    refuse(name, (map){4, bytes, length, NONE}, STATE(0, 0, 3, 0, 10, 0), number, 3);
}

static void refuse_ro(const char *name, const uint8_t *bytes, size_t length, size_t number)
{
    refuse(name, (map){4, NONE, bytes, length}, STATE(0, 0, 3, 0, 10, 0), number, 3);
    refuse(name, (map){4, NONE, bytes, length}, STATE(1, 0, 3, 5, 10, 7), number, 8);
}

/* 02h of 1 byte on either side, 12h of 8, and 00h. */
#define HOST BYTES(0x02, 0x05, 0x0F, 0x01, 0x00)
#define MEDIA BYTES(0x02, 0x05, 0x0F, 0x01, 0x01)
#define COEFFICIENT BYTES(0x12, 0x07, 0x0F, 0x08, 0x00, 0x00, 0x00)
#define SPACE(bytes) BYTES(0x00, 0x04, 0x00, bytes)

static void refusals(void)
{
    refuse_rw("one byte left in RW", BYTES(0x02), 1);
    refuse_rw("Length one over in RW", BYTES(0x02, 0x06, 0x0F, 0x01, 0x00), 1);
    refuse_rw("Length below the least in RW", BYTES(0x02, 0x04, 0x0F, 0x01, 0x00), 2);
    refuse_rw("12h in RW", COEFFICIENT, 3);
    refuse_rw("03h of 1 byte", BYTES(0x03, 0x05, 0x0F, 0x01, 0x00), 4);
    refuse_rw("09h, step 0", BYTES(0x09, 0x09, 0x01, 0x08, 0x00, 0x00, 0xF8, 0x06, 0x00), 5);
    refuse_rw("247 bytes after 10 in RW", SPACE(247), 7);
    refuse_ro("one byte left in RO", BYTES(0x12), 1);
    refuse_ro("Length one over in RO", BYTES(0x12, 0x08, 0x0F, 0x08, 0x00, 0x00, 0x00), 1);
    refuse_ro("Length below the least in RO", BYTES(0x12, 0x06, 0x0F, 0x08, 0x00, 0x00, 0x00), 2);
    refuse_ro("02h in RO", HOST, 3);
    refuse_ro("12h of 7 bytes", BYTES(0x12, 0x07, 0x0F, 0x07, 0x00, 0x00, 0x00), 4);
    refuse_ro("12h, step 4", BYTES(0x12, 0x07, 0x0F, 0x08, 0x00, 0x00, 0x04), 5);
    refuse_ro("247 bytes after 10 in RO", SPACE(247), 7);

    refuse("host side after media side", (map){4, HOST, NONE}, STATE(0, 1, 3, 0, 10, 0), 6, 3);
    pass("media side after media side", (map){4, MEDIA, NONE}, STATE(0, 1, 3, 0, 10, 0), PAST(5, 0, 1, 4, 0, 11, 0));
    refuse("6 before 7", (map){4, HOST, NONE}, STATE(0, 1, 3, 0, 256, 0), 6, 3);
    refuse("7, media side", (map){4, MEDIA, NONE}, STATE(0, 1, 3, 0, 256, 0), 7, 3);
    refuse("3 before 6, in RO", (map){4, NONE, HOST}, STATE(1, 1, 3, 5, 10, 7), 3, 8);
    refuse("a 17th RW entry", (map){4, HOST, NONE}, STATE(0, 0, 16, 0, 10, 0), 16, 16);
    refuse("a 17th RO entry", (map){4, NONE, COEFFICIENT}, STATE(1, 0, 16, 5, 10, 7), 16, 21);
    refuse("16 before 1, in RW", (map){4, BYTES(0x02), NONE}, STATE(0, 0, 16, 0, 10, 0), 16, 16);
    refuse("16 before 1, in RO", (map){4, NONE, BYTES(0x02)}, STATE(1, 0, 16, 5, 10, 7), 16, 21);
    pass("the first RO entry after 16", (map){4, NONE, COEFFICIENT}, STATE(0, 0, 16, 0, 16, 0),
         PAST(7, 1, 0, 1, 16, 24, 16));

    map m = {4, BYTES(0x02, 0x05, 0x0F, 0x01, 0x00, 0x02, 0x00), COEFFICIENT};
    pass("pass reads one RW entry", m, STATE(0, 0, 3, 0, 10, 0), PAST(5, 0, 0, 4, 0, 11, 0));
    resume("the next RW entry is refused", m, STATE(0, 0, 3, 0, 10, 0), REFUSED(2, 4));
    m = (map){4, HOST, BYTES(0x12, 0x07, 0x0F, 0x08, 0x00, 0x00, 0x00, 0x12)};
    pass("pass reads no RO entry", m, STATE(0, 0, 3, 0, 10, 0), PAST(5, 0, 0, 4, 0, 11, 0));
    resume("the second RO entry is refused", m, STATE(0, 0, 3, 0, 10, 0), REFUSED(1, 5));
    pass("pass reads one RO entry", m, STATE(1, 0, 3, 5, 10, 7), PAST(7, 1, 0, 4, 5, 18, 7));
    resume("the next RO entry is refused", m, STATE(1, 0, 3, 5, 10, 7), REFUSED(1, 9));
}

/* 9 is asked of the count and of both lengths lent, whatever the state is. */
static void refused_with_9(void)
{
    static const uint8_t zeros[121];
    static const vcs_state states[] = {{0}, {0, 0, 3, 0, 10, 0}, {1, 0, 3, 5, 10, 7}, {1, 1, 16, 5, 300, 7}};
    for (size_t i = 0; i < sizeof states / sizeof states[0]; i++) {
        refuse("count 0", (map){0, HOST, COEFFICIENT}, states[i], 9, 0);
        refuse("count 16", (map){16, HOST, COEFFICIENT}, states[i], 9, 0);
        refuse("count 2^32 + 4", (map){((size_t)1 << 32) + 4, NONE, NONE}, states[i], 9, 0);
        refuse("RW of 121 bytes", (map){4, zeros, 121, COEFFICIENT}, states[i], 9, 0);
        refuse("RO of 121 bytes", (map){4, HOST, zeros, 121}, states[i], 9, 0);
        refuse("RO of 121 bytes alone", (map){4, NONE, zeros, 121}, states[i], 9, 0);
    }
    refuse("RW of 120 bytes", (map){4, zeros, 120, NONE}, STATE(0, 0, 3, 0, 10, 0), 2, 3);
    refuse("RO of 120 bytes", (map){4, NONE, zeros, 120}, STATE(1, 0, 3, 5, 10, 7), 2, 8);
    pass("RW of 120 bytes in RO", (map){4, zeros, 120, NONE}, STATE(1, 0, 3, 5, 10, 7), NO_MORE);
    resume("RW of 120 bytes in RO", (map){4, zeros, 120, NONE}, STATE(1, 0, 3, 5, 10, 7), NUMBERS(0, 0, 5, 3, 7, 10));
}

/* States that no load leaves are taken as they stand. */
static void any_states(void)
{
    map none = {4, NONE, NONE}, rw = {4, SPACE(0), NONE}, ro = {4, NONE, SPACE(0)};
    pass("string 2", (map){4, NONE, COEFFICIENT}, STATE(2, 0, 3, 5, 10, 7), PAST(7, 1, 0, 4, 5, 18, 7));
    pass("string 255", ro, STATE(255, 0, 3, 5, 10, 7), PAST(4, 1, 0, 4, 5, 10, 7));
    refuse("string 255, 02h", (map){4, NONE, HOST}, STATE(255, 0, 3, 5, 10, 7), 3, 8);
    pass("string 2, no byte", rw, STATE(2, 0, 3, 5, 10, 7), NO_MORE);
    resume("string 255, no byte", rw, STATE(255, 0, 3, 5, 10, 7), NUMBERS(0, 0, 5, 3, 7, 10));
    pass("media 255", rw, STATE(0, 255, 3, 0, 10, 0), PAST(4, 0, 1, 4, 0, 10, 0));
    pass("media 2 into RO", ro, STATE(0, 2, 3, 0, 10, 0), PAST(4, 1, 1, 1, 3, 10, 10));
    refuse("media 255", (map){4, HOST, NONE}, STATE(0, 255, 3, 0, 10, 0), 6, 3);
    refuse("media 2", (map){4, HOST, NONE}, STATE(0, 2, 3, 0, 10, 0), 6, 3);

    pass("15 RW entries", rw, STATE(0, 0, 15, 0, 10, 0), PAST(4, 0, 0, 16, 0, 10, 0));
    pass("15 RO entries", ro, STATE(1, 0, 15, 5, 10, 7), PAST(4, 1, 0, 16, 5, 10, 7));
    refuse("17 RW entries", rw, STATE(0, 0, 17, 0, 10, 0), 16, 17);
    refuse("255 RW entries", rw, STATE(0, 0, 255, 0, 10, 0), 16, 255);
    refuse("255 RO entries after 255", ro, STATE(1, 0, 255, 255, 10, 7), 16, 510);
    pass("255 entries before RO", ro, STATE(0, 0, 255, 0, 10, 0), PAST(4, 1, 0, 1, 255, 10, 10));
    resume("255 entries before RO", ro, STATE(0, 0, 255, 0, 10, 0), NUMBERS(0, 0, 255, 1, 10, 10));
    refuse("the first RO entry after 255", (map){4, NONE, HOST}, STATE(0, 0, 255, 9, 10, 0), 3, 255);
    pass("255 before an RW entry", rw, STATE(0, 0, 3, 255, 10, 0), PAST(4, 0, 0, 4, 255, 10, 0));
    refuse("255 before an RW entry", (map){4, COEFFICIENT, NONE}, STATE(0, 0, 3, 255, 10, 0), 3, 258);
    pass("3 entries, not 255, before RO", ro, STATE(0, 0, 3, 255, 10, 0), PAST(4, 1, 0, 1, 3, 10, 10));
    resume("3 entries, not 255, before RO", ro, STATE(0, 0, 3, 255, 10, 0), NUMBERS(0, 0, 3, 1, 10, 10));

    pass("sum 256 and 0", rw, STATE(0, 0, 3, 0, 256, 0), PAST(4, 0, 0, 4, 0, 256, 0));
    pass("sum 0 and 255", (map){4, NONE, SPACE(255)}, STATE(1, 0, 3, 5, 0, 7), PAST(4, 1, 0, 4, 5, 255, 7));
    pass("sum 1 and 255", (map){4, SPACE(255), NONE}, STATE(0, 0, 3, 0, 1, 0), PAST(4, 0, 0, 4, 0, 256, 0));
    refuse("sum 2 and 255", (map){4, SPACE(255), NONE}, STATE(0, 0, 3, 0, 2, 0), 7, 3);
    refuse("sum 256 and 1", (map){4, NONE, SPACE(1)}, STATE(1, 0, 3, 5, 256, 7), 7, 8);
    refuse("sum 257 and 0", rw, STATE(0, 0, 3, 0, 257, 0), 7, 3);
    refuse("sum 65535 and 0", ro, STATE(1, 0, 3, 5, 65535, 7), 7, 8);
    refuse("sum 65535 and 1", (map){4, SPACE(1), NONE}, STATE(0, 0, 3, 0, 65535, 0), 7, 3);
    refuse("sum 65535 and 255", (map){4, SPACE(255), NONE}, STATE(0, 0, 3, 0, 65535, 0), 7, 3);
    resume("sum 65535, no byte", none, STATE(0, 0, 3, 0, 65535, 0), NUMBERS(0, 0, 3, 0, 65535, 65535));

    pass("staged 65535 in RW", rw, STATE(0, 0, 3, 0, 10, 65535), PAST(4, 0, 0, 4, 0, 10, 65535));
    resume("staged 65535 in RW", rw, STATE(0, 0, 3, 0, 10, 65535), NUMBERS(0, 0, 4, 0, 10, 10));
    pass("staged 65535 in RO", ro, STATE(1, 0, 3, 5, 10, 65535), PAST(4, 1, 0, 4, 5, 10, 65535));
    resume("staged 65535 in RO", ro, STATE(1, 0, 3, 5, 10, 65535), NUMBERS(0, 0, 5, 4, 65535, 10));
    pass("the largest state, no byte", none, STATE(255, 255, 255, 255, 65535, 65535), NO_MORE);
    resume("the largest state, no byte", none, STATE(255, 255, 255, 255, 65535, 65535),
           NUMBERS(0, 0, 255, 255, 65535, 65535));
    refuse("the largest state", ro, STATE(255, 255, 255, 255, 65535, 65535), 16, 510);
}

int main(void)
{
    loads();
    entries();
    places();
    owners();
    searches();
    addresses();
    owners_at();
    owners_past();
    owners_in_order();
    ends();
    round_trips();
    settings();
    fresh_banks();
    selects();
    writes();
    reads();
    publishes();
    byte_writes();
    byte_reads();
    applies();
    numbers();
    performs();
    weights();
    takes();
    full_strings();
    limits();
    limit_order();
    spaces();
    passes();
    refusals();
    refused_with_9();
    any_states();
    printf("interface: %d checks\n", checks);
    return 0;
}
