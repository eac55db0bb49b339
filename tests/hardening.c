/* Calls every export with any arguments and watches what is lent.

   Each lent buffer stands in a page between two pages that can't be touched: at the page's start, at its end or anywhere in
   it. The page's other bytes are canaries. After a call both strings and all canaries are as they were, and so is every byte
   of the bank but those that an accepted call of its kind may change; a call that touches a byte outside the three pages is
   stopped. Refusals 9, 8, 16 and 1 to 7 come exactly when they must, and a refused answer has no other number. Most maps
   are accepted or nearly so: every export and every kind of perform must accept some calls and refuse some, every refusal
   must occur, and every ID that write takes must have an accepted write and each refusal that its entry can have. In either
   string 16 entries must be accepted, and a 17th refused: a good one, one byte, and one that is refused even alone, with each
   number that this can have; take must take one.
   Owner must have looked at the entries up to the one whose space covers the byte, by the MemoryLengths in the strings. Fields
   and gaps must occur in either string, also behind an entry with MemoryLength 0.
   Place must give the page and byte that Table 4-1 gives to its offset, and owner by address must answer as owner does at the
   offset of the address, or refuse it. Fields, gaps and refusals must occur at and beside the ends of every page of every set.
   A load made entry by entry must end as the load does. Pass and resume are called where it was broken off, and with any
   state. Pass must answer by the entry's bytes and the state alone, resume as pass after pass does, and the same from behind
   an entry as from before it. Both must occur in either string and between them, with each refusal.

   gcc -std=c11 -Wall -Wextra -Werror -O2 -I include tests/hardening.c target/staticlib/libvcs.a -o target/hardening
   target/hardening [calls [seed]] */
#define _DEFAULT_SOURCE
#include <signal.h>
#include <stdio.h>
#include <stdlib.h>
#include <string.h>
#include <sys/mman.h>

#include "vcs.h"

enum { PAGE = 4096, LONGEST = 120, LARGEST = VCS_SET_SIZE };

/* The exports, perform by kind; the first seven are numbered as perform's kinds. */
enum {
    SELECT, WRITE, READ, BYTE_WRITE, BYTE_READ, PUBLISH, APPLY, PERFORM, LOAD = PERFORM + 7, ENTRY, PLACE, OWNER, OWNER_AT,
    FRESH, WEIGHT, TAKE, PASS, RESUME, EXPORTS
};
static const char *const NAMES[EXPORTS] = {
    "select", "write", "read", "byte write", "byte read", "publish", "apply", "perform select", "perform write",
    "perform read", "perform byte write", "perform byte read", "perform publish", "perform apply", "load", "entry", "place",
    "owner", "owner at", "fresh", "weight", "take", "pass", "resume",
};

/* What a refusal names, by its number, and whether count, strings and bank alone decide it; 0 stands for an accepted call,
   and no call gives 15. */
enum { NO_REFUSAL, NOTHING, AN_ENTRY, A_LANE };
static const struct {
    int names;
    int by_lent;
} REFUSALS[] = {
    [0] = {NOTHING, 0},  [1] = {AN_ENTRY, 1}, [2] = {AN_ENTRY, 1}, [3] = {AN_ENTRY, 1}, [4] = {AN_ENTRY, 1},
    [5] = {AN_ENTRY, 1}, [6] = {AN_ENTRY, 1}, [7] = {AN_ENTRY, 1}, [8] = {NOTHING, 1},  [9] = {NOTHING, 1},
    [10] = {NOTHING, 0}, [11] = {NOTHING, 0}, [12] = {NOTHING, 0}, [13] = {A_LANE, 0},  [14] = {A_LANE, 0},
    [16] = {AN_ENTRY, 1},
};
enum { NUMBERS = sizeof REFUSALS / sizeof REFUSALS[0] };

static size_t seed = 1, calls = 1000000, made, accepted[EXPORTS], refused[EXPORTS], refusals[NUMBERS];

/* Accepted writes, and refused maps by their number, each by the ID of the entry that is named. */
static size_t written[256], stopped[256][NUMBERS];

/* By string: accepted maps with 16 entries in it; 17th entries of one byte, those with more, by the refusal that the entry
   has alone, and those that were taken. */
static size_t full[2], strays[2], seventeenths[2][NUMBERS], seventeenths_taken[2];

/* Accepted owner calls: by the string of the entry that covers the byte, by gap, and by whether entries before it have
   MemoryLength 0. */
static size_t searched[2][2][2];

/* Where a byte of a set stands in Table 4-1. By set and by this: accepted places; accepted owner calls by address, also by
   gap. */
enum { ON_PAGE, PAGE_END, OVERFLOW_START, ON_OVERFLOW, TABLE_END, PAST_TABLE, STANDS };
static const char *const STAND_NAMES[STANDS] = {
    "before the page's last byte", "in the page's last byte", "in the overflow page's first byte", "in the overflow page",
    "in the overflow page's last byte", "past the table",
};
static size_t placed[3][STANDS], told[3][2][STANDS];

/* What an address is that a set refuses with 10: its own but past its length, page 0 and byte 0, another set's, directly
   beside its own, or any other. By set. */
enum { PAST_LENGTH, ZERO, OF_ANOTHER, BESIDE, ELSEWHERE, AWAYS };
static const char *const AWAY_NAMES[AWAYS] = {
    "past its length", "page 0 and byte 0", "of another set", "beside its own", "elsewhere",
};
static size_t away[3][AWAYS];

/* Where a load in pieces stands: in the RW string, at its end, or in the RO string. By this, and by refusal (0: none): passes
   and resumes; the ends that pass told; the passes that left a number of the state above 1 as 1. */
enum { IN_RW, BETWEEN, IN_RO, PLACES };
static size_t passes[PLACES][NUMBERS], resumes[PLACES][NUMBERS], ends[PLACES], flags[2];

/* ---- Random numbers: splitmix64 ---- */

static uint64_t state;

static uint64_t next(void)
{
    uint64_t z = state += 0x9E3779B97F4A7C15u;
    z = (z ^ z >> 30) * 0xBF58476D1CE4E5B9u;
    z = (z ^ z >> 27) * 0x94D049BB133111EBu;
    return z ^ z >> 31;
}

static size_t below(size_t limit)
{
    return next() % limit;
}

static int once_in(size_t times)
{
    return below(times) == 0;
}

#define PICK(type, ...) (((const type[]){__VA_ARGS__})[below(sizeof((const type[]){__VA_ARGS__}) / sizeof(type))])

/* A number: mostly below the limit, else at it, above it, or any. */
static size_t number(size_t limit)
{
    switch (below(48)) {
    case 0:
        return limit;
    case 1:
        return limit + 1 + below(3);
    case 2:
        return PICK(size_t, 255, 256, 257, VCS_BANK_SIZE - 1, VCS_BANK_SIZE, 65536, (size_t)1 << 32, ((size_t)1 << 32) + 1,
                    (size_t)1 << 61, SIZE_MAX / 2, SIZE_MAX / 2 + 1, SIZE_MAX - 1, SIZE_MAX);
    case 3:
        return next() >> below(64);
    default:
        return limit == 0 ? 0 : below(limit);
    }
}

static int64_t value(void)
{
    switch (below(8)) {
    case 0:
        return PICK(int64_t, INT64_MIN, INT64_MIN + 1, -((int64_t)1 << 32), -129, -128, -1, 127, 128, 255, 256,
                    (int64_t)1 << 32, ((int64_t)1 << 32) + 1, INT64_MAX);
    case 1:
        return (int64_t)below(400) - 140;
    case 2:
        return (int64_t)next();
    default:
        return (int64_t)below(once_in(2) ? 2 : 16);
    }
}

/* ---- Lent buffers ---- */

/* `kept` is what the page must hold. */
typedef struct {
    uint8_t *page;
    uint8_t kept[PAGE];
    uint8_t *lent;
    size_t length;
} buffer;

enum { RW, RO, BANK, BUFFERS };
static buffer buffers[BUFFERS];

static void fail(const char *name, const char *what)
{
    printf("hardening: seed %zu, call %zu, %s: %s\n", seed, made, name, what);
    exit(1);
}

/* A call has touched a page that it can't touch. */
static void touched(int number)
{
    signal(number, SIG_DFL);
    fail("the call", "it touches a byte that isn't lent");
}

static void make_pages(void)
{
    signal(SIGSEGV, touched);
    for (int i = 0; i < BUFFERS; i++) {
        uint8_t *pages = mmap(NULL, 3 * PAGE, PROT_NONE, MAP_PRIVATE | MAP_ANONYMOUS, -1, 0);
        if (pages == MAP_FAILED || mprotect(pages + PAGE, PAGE, PROT_READ | PROT_WRITE) != 0) {
            fail("start", "no pages");
        }
        buffers[i].page = pages + PAGE;
    }
}

/* Lends a buffer, its bytes and canaries random. One of no bytes is NULL or a place in the page or just outside. */
static void lend(buffer *b, size_t length)
{
    for (size_t i = 0; i < PAGE; i += 8) {
        uint64_t word = next();
        memcpy(b->page + i, &word, 8);
    }
    size_t room = PAGE - length;
    b->lent = length == 0 && once_in(2) ? NULL : b->page + PICK(size_t, 0, room, below(room + 1));
    b->length = length;
}

/* Keeps the page as it is. */
static void keep(buffer *b)
{
    memcpy(b->kept, b->page, PAGE);
}

/* An accepted call may change these bytes of the bank. */
static void may_change(size_t from, size_t length)
{
    buffer *b = &buffers[BANK];
    if (from > VCS_BANK_SIZE || length > VCS_BANK_SIZE - from) {
        fail("the call", "it is accepted outside the bank");
    }
    size_t at = (size_t)(b->lent - b->page) + from;
    memcpy(b->kept + at, b->page + at, length);
}

/* ---- Maps ---- */

/* The load's answer is what every other call must refuse by, and what arguments aim by. */
static size_t count;
static vcs_loaded map;

#define LENT count, buffers[RW].lent, buffers[RW].length, buffers[RO].lent, buffers[RO].length
#define LENT_BANK buffers[BANK].lent, buffers[BANK].length

/* Least Length without A, and bytes needed, of IDs 00h to 13h. */
static const uint8_t LEAST[] = {3, 3, 4, 4, 6, 4, 4, 7, 6, 8, 8, 4, 4, 8, 6, 4, 4, 4, 6, 3};
static const uint8_t NEEDED[] = {0, 0, 1, 2, 4, 1, 1, 8, 4, 8, 8, 1, 1, 8, 4, 8, 8, 16, 8, 0};

/* Whether an ID has a step: the last byte of its least Length, after Min and Max or (12h) the index. */
static int has_step(uint8_t id)
{
    return id == 0x09 || id == 0x0A || id == 0x0D || id == 0x12;
}

/* Adds an entry that is accepted, if there is room for it in the string and for its MemoryLength in the sum. */
static void add_entry(int string, uint8_t bytes[], size_t *length, size_t *sum, int *media)
{
    size_t a = count <= 8 ? 1 : 2;
    uint8_t id = string == RW ? PICK(uint8_t, 0, 1, 2, 3, 4, 5, 6, 7, 8, 9, 10, 11, 12, 13, 14, 15, 16, 0x13,
                                     4, 7, 8, 9, 10, 13)
                              : PICK(uint8_t, 0x11, 0x12, 0x12, 0, 0x13);
    size_t size = LEAST[id] + a + (once_in(6) ? below(6) : 0);
    size_t memory = NEEDED[id] + (once_in(6) || NEEDED[id] == 0 ? below(8) : 0);
    if (*length + size > LONGEST || *sum + memory > LARGEST) {
        return;
    }
    uint8_t *entry = bytes + *length;
    for (size_t i = 0; i < size; i++) {
        entry[i] = (uint8_t)next();
    }
    entry[0] = id == 0x13 ? (uint8_t)(0x13 + below(0x100 - 0x13)) : id;
    entry[1] = (uint8_t)size;
    if (once_in(2)) {
        memset(entry + 2, 0xFF, a);
    }
    entry[2 + a] = (uint8_t)memory;
    if (NEEDED[id] > 0) {
        int side = once_in(12) || (*media && id >= 2 && id <= 8);
        entry[3 + a] = (uint8_t)((entry[3 + a] & 0xFE) | side);
        *media |= side && string == RW;
    }
    uint8_t *last = entry + LEAST[id] + a - 1;
    if (has_step(id)) {
        *last = (uint8_t)(*last % 4 + (id < 0x0D));
        if (id != 0x12 && !once_in(4)) { /* Min below 0, Max not. */
            last[id == 0x0D ? -1 : -2] |= 0x80;
            last[id == 0x0D ? -2 : -1] &= 0x7F;
        }
    } else if (LEAST[id] >= 6 && !once_in(4)) {
        memset(last - 1, 0xFF, 2);
    }
    *length += size;
    *sum += memory;
}

/* Fills a string to 120 bytes, and mostly the sum too, with an entry that has no fields. */
static void fill_string(uint8_t bytes[], size_t *length, size_t *sum)
{
    size_t a = count <= 8 ? 1 : 2, size = LONGEST - *length, memory = LARGEST - *sum;
    if (size < 3 + a) {
        return;
    }
    memory = once_in(4) ? 0 : memory > 255 ? 255 : memory;
    memset(bytes + *length, 0, size);
    bytes[*length] = PICK(uint8_t, 0x00, 0x13, 0xFF);
    bytes[*length + 1] = (uint8_t)size;
    bytes[*length + 2 + a] = (uint8_t)memory;
    *length += size;
    *sum += memory;
}

/* Changes one number of an entry: Length, MemoryLength, its side, or, more often, its step. */
static void damage_entry(uint8_t entry[])
{
    size_t a = count <= 8 ? 1 : 2;
    switch (below(has_step(entry[0]) ? 8 : 4)) {
    case 0:
        entry[1]--;
        break;
    case 1:
        entry[2 + a]--;
        break;
    case 2:
        entry[2 + a] = 255;
        break;
    case 3:
        entry[3 + a] ^= 1;
        break;
    default:
        entry[LEAST[entry[0]] + a - 1] = PICK(uint8_t, 0, 4, 5, 255);
        break;
    }
}

/* Damages a 17th entry, cuts the string after its first byte or any other, or leaves it. */
static void spoil_entry(uint8_t bytes[], size_t start, size_t *length)
{
    switch (below(6)) {
    case 0:
        *length = start + 1;
        break;
    case 1:
        *length = start + 1 + below(bytes[start + 1]);
        break;
    case 2:
        break;
    default:
        damage_entry(bytes + start);
        break;
    }
}

/* Changes a byte or an entry, cuts the string, or makes it longer or noise: bytes past `planned` are random. */
static void damage_string(uint8_t bytes[], size_t entry, size_t *length, size_t *planned)
{
    switch (below(14)) {
    case 0:
    case 1:
        bytes[below(*length + 1)] = (uint8_t)next();
        break;
    case 2:
        bytes[below(*length + 1)] ^= (uint8_t)(1 << below(8));
        break;
    case 3:
        *length = below(*length + 1);
        break;
    case 4:
        *length = PICK(size_t, 119, 120, 121, 122, 130);
        break;
    case 5:
        *length = below(131);
        *planned = 0;
        break;
    default:
        damage_entry(bytes + entry);
        break;
    }
}

/* Makes a string of 0 to 130 bytes: accepted, or damaged, also by the other string's entries, or past 16 entries. */
static void make_string(int string, size_t *sum, int *media, int damage, int past)
{
    uint8_t bytes[130] = {0};
    size_t length = 0, entries = 0, chosen = 0, seventeenth = 0;
    for (size_t tries = past ? 60 : below(PICK(size_t, 2, 8, 24, 40)); tries > 0; tries--) {
        size_t start = length;
        int other = entries == VCS_ENTRY_LIMIT ? once_in(4) : damage && once_in(24);
        if (past || entries < VCS_ENTRY_LIMIT) {
            add_entry(other ? 1 - string : string, bytes, &length, sum, media);
        }
        if (length > start) {
            chosen = once_in(3) ? start : chosen;
            seventeenth = entries == VCS_ENTRY_LIMIT ? start : seventeenth;
            entries++;
        }
    }
    if (entries < VCS_ENTRY_LIMIT && once_in(8)) {
        fill_string(bytes, &length, sum);
    }
    if (seventeenth > 0) {
        spoil_entry(bytes, seventeenth, &length);
    }
    size_t planned = length;
    if (damage) {
        damage_string(bytes, chosen, &length, &planned);
    }
    buffer *b = &buffers[string];
    lend(b, length);
    if (b->lent != NULL) {
        memcpy(b->lent, bytes, planned < length ? planned : length);
    }
    keep(b);
}

/* Where an entry stands: its string, the entries before it there, and its start. */
typedef struct {
    size_t string, before, start;
} spot;

/* The spot of an entry of the map, of the one that refused it (those before have passed checks 1 and 2), or of the end. */
static spot find(size_t entry)
{
    spot s = {RW, 0, 0};
    for (;; entry--) {
        if (s.string == RW && s.start == buffers[RW].length) {
            s = (spot){RO, 0, 0};
        }
        if (entry == 0) {
            return s;
        }
        s.before++;
        s.start += buffers[s.string].lent[s.start + 1];
    }
}

static uint8_t id_of(size_t entry)
{
    spot s = find(entry);
    return buffers[s.string].lent[s.start];
}

/* An accepted map ends with its strings, neither of which has a 17th entry. */
static void check_accepted(void)
{
    spot end = find(map.rw_count + map.ro_count);
    if (end.string != RO || end.before != map.ro_count || end.start != buffers[RO].length) {
        fail("load", "other counts");
    }
    if (map.rw_count > VCS_ENTRY_LIMIT || map.ro_count > VCS_ENTRY_LIMIT) {
        fail("load", "a 17th entry is accepted");
    }
    full[RW] += map.rw_count == VCS_ENTRY_LIMIT;
    full[RO] += map.ro_count == VCS_ENTRY_LIMIT;
}

/* A refused map is accepted up to the entry that is named, and its number is 16 exactly if that is a 17th. */
static void check_refused(void)
{
    spot s = find(map.at);
    const buffer *rw = &buffers[RW], *ro = &buffers[RO], *own = &buffers[s.string];
    int in_rw = s.string == RW;
    vcs_loaded before = vcs_load(count, rw->lent, in_rw ? s.start : rw->length, ro->lent, in_rw ? 0 : s.start);
    if (before.refusal != 0 || before.rw_count + before.ro_count != map.at) {
        fail("load", "an entry before is refused");
    }
    size_t others = map.at - s.before; /* The RW entries before one of RO. */
    if (s.before > VCS_ENTRY_LIMIT || others > VCS_ENTRY_LIMIT || (map.refusal == 16) != (s.before == VCS_ENTRY_LIMIT)) {
        fail("load", "16 of another entry, or another refusal of a 17th");
    }
    stopped[own->lent[s.start]][map.refusal]++;
    size_t left = own->length - s.start;
    if (map.refusal == 16 && left == 1) {
        strays[s.string]++;
    } else if (map.refusal == 16) {
        const uint8_t *rest = own->lent + s.start;
        vcs_loaded alone = vcs_load(count, rest, in_rw ? left : 0, rest, in_rw ? 0 : left);
        seventeenths[s.string][alone.at == 0 && alone.refusal < NUMBERS ? alone.refusal : 0]++;
    }
}

/* ---- A load in pieces ---- */

/* The bytes of both strings that are not yet read, and what the load keeps. */
typedef struct {
    const uint8_t *rw;
    size_t rw_length;
    const uint8_t *ro;
    size_t ro_length;
    vcs_state kept;
} rest;

/* The load of the map, broken off before some entry or at its end. */
static rest broken;

#define LEFT(r) count, (r).rw, (r).rw_length, (r).ro, (r).ro_length, (r).kept

static int place_of(rest r)
{
    return r.kept.string != 0 ? IN_RO : r.rw_length == 0 ? BETWEEN : IN_RW;
}

static vcs_state into_ro(vcs_state s)
{
    return (vcs_state){1, s.media, 0, s.entries, s.sum, s.sum};
}

/* What is left behind an entry. */
static rest behind(rest r, vcs_passed entry)
{
    if (place_of(r) == IN_RW) {
        r.rw += entry.length;
        r.rw_length -= entry.length;
    } else {
        r.ro += entry.length;
        r.ro_length -= entry.length;
    }
    r.kept = entry.state;
    return r;
}

/* The next entry's bytes alone: ID, Length and what Length tells, or less where the string ends. */
static rest alone(rest r)
{
    int in_rw = place_of(r) == IN_RW;
    const uint8_t *bytes = in_rw ? r.rw : r.ro;
    size_t left = in_rw ? r.rw_length : r.ro_length, told = left < 2 || bytes[1] < 2 ? 2 : bytes[1];
    size_t length = told < left ? told : left;
    return in_rw ? (rest){bytes, length, NULL, 0, r.kept} : (rest){NULL, 0, bytes, length, r.kept};
}

/* What pass must come to, by what the load says of the entry alone: 1 to 5; 9, 16, 6, 7 and the state as their words say. */
static vcs_passed pass_expected(rest r)
{
    int in_rw = place_of(r) == IN_RW;
    vcs_state s = place_of(r) == BETWEEN ? into_ro(r.kept) : r.kept;
    const uint8_t *entry = in_rw ? r.rw : r.ro;
    size_t left = in_rw ? r.rw_length : r.ro_length, at = (size_t)s.before + s.entries, a = count <= 8 ? 1 : 2;
    if (count < 1 || count > 15 || r.rw_length > LONGEST || r.ro_length > LONGEST) {
        return (vcs_passed){.refusal = 9};
    }
    if (left == 0) {
        return (vcs_passed){.end = 1};
    }
    if (s.entries >= VCS_ENTRY_LIMIT) {
        return (vcs_passed){.refusal = 16, .at = at};
    }
    vcs_loaded first = vcs_load(count, entry, in_rw ? left : 0, entry, in_rw ? 0 : left);
    if (first.refusal != 0 && first.at == 0) {
        return (vcs_passed){.refusal = first.refusal, .at = at};
    }
    uint8_t id = entry[0], memory = entry[2 + a];
    int media = id >= 0x02 && id <= 0x12 && entry[3 + a] % 2 == 1;
    if (id >= 0x02 && id <= 0x08 && !media && s.media != 0) {
        return (vcs_passed){.refusal = 6, .at = at};
    }
    if (s.sum + memory > LARGEST) {
        return (vcs_passed){.refusal = 7, .at = at};
    }
    s = (vcs_state){s.string != 0, s.media != 0 || media, (uint8_t)(s.entries + 1), s.before, (uint16_t)(s.sum + memory),
                    s.staged_length};
    return (vcs_passed){.length = entry[1], .state = s};
}

/* What resume must answer: pass after pass, up to a refusal or the end. */
static vcs_loaded resume_expected(rest r)
{
    vcs_passed step = pass_expected(r);
    for (; step.refusal == 0 && step.end == 0; step = pass_expected(r)) {
        r = behind(r, step);
    }
    vcs_state s = place_of(r) == IN_RO ? r.kept : into_ro(r.kept);
    return step.end == 0 ? (vcs_loaded){.refusal = step.refusal, .at = step.at}
                         : (vcs_loaded){0, 0, s.before, s.entries, s.staged_length, s.sum};
}

/* Neither answer has padding. */
static int same_loaded(vcs_loaded one, vcs_loaded other)
{
    return memcmp(&one, &other, sizeof one) == 0;
}

/* The load of the map, entry by entry, ends as the load did; broken off somewhere, often between the strings or before the
   entry that is refused, it is taken up again likewise. */
static void load_in_pieces(void)
{
    rest r = {buffers[RW].lent, buffers[RW].length, buffers[RO].lent, buffers[RO].length, {0}}, between = r;
    vcs_passed step = {0};
    for (size_t breaks = 1; step.refusal == 0 && step.end == 0; breaks++) {
        if (breaks > 2 * VCS_ENTRY_LIMIT + 1) {
            fail("pass", "it goes past more entries than there are");
        }
        broken = once_in(breaks) ? r : broken;
        between = place_of(r) == BETWEEN ? r : between;
        step = vcs_pass(LEFT(r));
        r = step.refusal == 0 && step.end == 0 ? behind(r, step) : r;
    }
    if (step.refusal != map.refusal || step.at != map.at || !same_loaded(vcs_resume(LEFT(r)), map)) {
        fail("pass", "the load in pieces has another end");
    }
    broken = step.refusal != 0 && once_in(2) ? r : once_in(4) ? between : broken;
    if (!same_loaded(vcs_resume(LEFT(broken)), map)) {
        fail("resume", "another answer than the load's");
    }
}

/* Changes a member of a state. */
static void change_state(vcs_state *s)
{
    switch (below(6)) {
    case 0:
        s->string = PICK(uint8_t, 0, 1, 2, 255);
        break;
    case 1:
        s->media = PICK(uint8_t, 0, 1, 2, 255);
        break;
    case 2:
        s->entries = PICK(uint8_t, 0, 15, 16, 17, 255);
        break;
    case 3:
        s->before = PICK(uint8_t, 0, 16, 17, 255);
        break;
    case 4:
        s->sum = PICK(uint16_t, 0, 1, 240, 255, 256, 257, 65279, 65280, 65281, 65535);
        break;
    default:
        s->staged_length = PICK(uint16_t, 0, 256, 257, 65535);
        break;
    }
}

/* What pass and resume are given: the load where it was broken off, often with another state, or with what is left behind
   any byte. In the RO string, `rw` isn't read: it may stand in a page that can't be touched. */
static rest any_rest(void)
{
    rest r = broken;
    if (once_in(16)) {
        size_t rw = below(buffers[RW].length + 1), ro = below(buffers[RO].length + 1);
        r = (rest){rw == 0 ? buffers[RW].lent : buffers[RW].lent + rw, buffers[RW].length - rw,
                   ro == 0 ? buffers[RO].lent : buffers[RO].lent + ro, buffers[RO].length - ro, r.kept};
    }
    for (size_t changes = once_in(2) ? below(4) : 0; changes > 0; changes--) {
        change_state(&r.kept);
    }
    if (once_in(32)) {
        uint64_t word = next();
        memcpy(&r.kept, &word, sizeof r.kept);
    }
    if (r.kept.string != 0 && once_in(2)) {
        r.rw = buffers[RW].page + PAGE;
        r.rw_length = once_in(8) ? LONGEST + 1 : below(LONGEST + 1);
    }
    return r;
}

static void pass(void)
{
    rest r = any_rest();
    vcs_passed answer = vcs_pass(LEFT(r)), expected = pass_expected(r), own = vcs_pass(LEFT(alone(r)));
    if (memcmp(&answer, &expected, sizeof answer) != 0) {
        fail("pass", "another answer");
    }
    if (answer.refusal != 9 && memcmp(&answer, &own, sizeof answer) != 0) {
        fail("pass", "another answer to the entry's bytes alone");
    }
    int place = place_of(r), past = answer.refusal == 0 && answer.end == 0;
    if (past && !same_loaded(vcs_resume(LEFT(r)), vcs_resume(LEFT(behind(r, answer))))) {
        fail("resume", "behind an entry, another answer than before it");
    }
    passes[place][answer.refusal] += past || answer.refusal != 0;
    ends[place] += answer.end;
    flags[0] += past && r.kept.string > 1;
    flags[1] += past && r.kept.media > 1;
    (answer.refusal == 0 ? accepted : refused)[PASS]++;
}

static void resume(void)
{
    rest r = any_rest();
    vcs_loaded answer = vcs_resume(LEFT(r));
    if (!same_loaded(answer, resume_expected(r))) {
        fail("resume", "another answer");
    }
    resumes[place_of(r)][answer.refusal]++;
    (answer.refusal == 0 ? accepted : refused)[RESUME]++;
}

/* ---- Any map ---- */

/* The position after the last step over a string. */
static size_t positions[2];

/* One of the strings once in so many times, else neither. */
static int string_once_in(size_t times)
{
    return once_in(times) ? PICK(int, RW, RO) : -1;
}

/* Another map and bank. Most banks have AppSels, and are clear or have small numbers. */
static void make_map(void)
{
    size_t sum = 0;
    int media = 0, damaged = string_once_in(2), past = string_once_in(6);
    count = once_in(2) ? PICK(size_t, 1, 8, 9, 15) : 1 + below(15);
    make_string(RW, &sum, &media, damaged == RW, past == RW);
    make_string(RO, &sum, &media, damaged == RO, past == RO);
    size_t apps = count;
    count = once_in(24) ? number(16) : count;
    buffer *b = &buffers[BANK];
    lend(b, once_in(12) ? PICK(size_t, 0, 0, 1, VCS_SET_START(2) - 1, VCS_SET_START(2), VCS_APP_SEL_AT(0, 1),
                               VCS_BANK_SIZE - 1, VCS_BANK_SIZE - 1)
                        : PICK(size_t, VCS_BANK_SIZE, VCS_BANK_SIZE + 1, VCS_BANK_SIZE + 216));
    if (b->length >= VCS_BANK_SIZE && !once_in(3)) {
        memset(b->lent, 0, VCS_BANK_SIZE);
        for (size_t i = VCS_APP_SEL_AT(0, 1); i <= VCS_APP_SEL_AT(1, 8); i++) {
            b->lent[i] = (uint8_t)(once_in(16) ? below(17) : 1 + below(apps));
        }
        int clear = once_in(2);
        for (size_t i = 0; i < VCS_SET_START(2) && !clear; i++) {
            b->lent[i] = (uint8_t)below(4);
        }
    }
    keep(b);
    positions[RW] = positions[RO] = 0;
    map = vcs_load(LENT);
    if (map.refusal == 0) {
        check_accepted();
    } else if (map.refusal < NUMBERS && REFUSALS[map.refusal].names == AN_ENTRY) {
        check_refused();
    }
    load_in_pieces();
}

/* ---- Addresses ---- */

/* Table 4-1 of OIF-CMIS-VCS-01.1, by set: the page and the overflow page, each with its first and its last byte. Offsets run
   on from the one to the other. */
static const struct {
    size_t page, first, last;
} TABLE[3][2] = {
    {{0x10, 153, 175}, {0x18, 144, 199}},
    {{0x10, 188, 210}, {0x18, 200, 255}},
    {{0x11, 214, 234}, {0x19, 152, 207}},
};

typedef struct {
    size_t page, byte;
} address;

/* The first offset of a set behind its page (range 0) or behind its overflow page (range 1). */
static size_t end_of(size_t set, int range)
{
    size_t before = range == 0 ? 0 : end_of(set, 0);
    return before + TABLE[set][range].last - TABLE[set][range].first + 1;
}

/* The address of an offset of a set; page 0 and byte 0 if it has none. */
static address address_of(size_t set, size_t offset)
{
    if (offset < end_of(set, 0)) {
        return (address){TABLE[set][0].page, TABLE[set][0].first + offset};
    }
    return offset < end_of(set, 1) ? (address){TABLE[set][1].page, TABLE[set][1].first + offset - end_of(set, 0)}
                                   : (address){0, 0};
}

/* The offset of an address of a set; SIZE_MAX, which no set has, if it isn't one. */
static size_t offset_of(size_t set, address a)
{
    for (int i = 0; set < 3 && i < 2; i++) {
        if (a.page == TABLE[set][i].page && a.byte >= TABLE[set][i].first && a.byte <= TABLE[set][i].last) {
            return end_of(set, i) - (TABLE[set][i].last - a.byte) - 1;
        }
    }
    return SIZE_MAX;
}

static int stand_of(size_t set, size_t offset)
{
    size_t page = end_of(set, 0), table = end_of(set, 1);
    return offset >= table       ? PAST_TABLE
           : offset + 1 == table ? TABLE_END
           : offset > page       ? ON_OVERFLOW
           : offset == page      ? OVERFLOW_START
           : offset + 1 == page  ? PAGE_END
                                 : ON_PAGE;
}

static int away_of(size_t set, address a)
{
    if (offset_of(set, a) != SIZE_MAX) {
        return PAST_LENGTH;
    }
    if (a.page == 0 && a.byte == 0) {
        return ZERO;
    }
    if (offset_of((set + 1) % 3, a) != SIZE_MAX || offset_of((set + 2) % 3, a) != SIZE_MAX) {
        return OF_ANOTHER;
    }
    for (int i = 0; i < 2; i++) {
        if (a.page == TABLE[set][i].page && (a.byte == TABLE[set][i].first - 1 || a.byte == TABLE[set][i].last + 1)) {
            return BESIDE;
        }
    }
    return ELSEWHERE;
}

/* ---- One call ---- */

/* A call's arguments, aimed at what the map has. */
static vcs_call arguments(size_t kind)
{
    size_t rw = map.refusal == 0 ? map.rw_count : 8, ro = map.refusal == 0 ? map.ro_count : 4;
    size_t offsets = map.refusal != 0 ? 60 : once_in(2) ? map.staged_length : map.active_length;
    size_t entry = kind == WRITE ? number(rw) : kind == PUBLISH ? rw + number(ro) : number(rw + ro);
    return (vcs_call){
        .kind = kind, .set = number(once_in(2) ? 2 : 3), .entry = entry, .part = once_in(2) ? 0 : number(2),
        .lane = number(8) + 1, .offset = number(offsets), .app = number(count + 1), .value = value(), .byte = (uint8_t)next(),
        .lanes = (uint8_t)(once_in(2) ? next() & next() & next() : next()),
    };
}

/* What an accepted call of a kind may change. */
static void changes(const vcs_call *c)
{
    if (c->kind == SELECT) {
        may_change(VCS_APP_SEL_AT(c->set, c->lane), 1);
    } else if (c->kind == WRITE) {
        may_change(VCS_SET_START(c->set) + vcs_place(LENT, c->set, c->entry, c->part, c->lane).offset, 1);
    } else if (c->kind == BYTE_WRITE) {
        may_change(VCS_SET_START(c->set) + c->offset, 1);
    } else if (c->kind == PUBLISH) {
        may_change(VCS_SET_START(2) + vcs_place(LENT, 2, c->entry, c->part, c->lane).offset, 1);
    } else if (c->kind == APPLY) {
        may_change(VCS_SET_START(2), map.staged_length);
    }
}

/* The refusal that 9, 8 and the load decide, or 0. */
static size_t refused_by_lent(int needs_bank)
{
    if (count < 1 || count > 15 || buffers[RW].length > LONGEST || buffers[RO].length > LONGEST) {
        return 9;
    }
    return needs_bank && buffers[BANK].length < VCS_BANK_SIZE ? 8 : map.refusal;
}

/* Judges an answer of at most seven numbers: the refusal, what it names, then numbers that a refused answer has not. */
static int judge(size_t export, const void *answer, size_t size)
{
    size_t numbers[7] = {0};
    memcpy(numbers, answer, size);
    size_t refusal = numbers[0], at = numbers[1];
    size_t expected = refused_by_lent(export < LOAD || export == FRESH || export == WEIGHT);
    if (refusal >= NUMBERS || REFUSALS[refusal].names == NO_REFUSAL ||
        (expected != 0 ? refusal != expected : REFUSALS[refusal].by_lent)) {
        fail(NAMES[export], "another refusal");
    }
    int names = REFUSALS[refusal].names;
    if (names == NOTHING ? at != 0 : names == AN_ENTRY ? at != map.at : at < 1 || at > 8) {
        fail(NAMES[export], "another entry or lane");
    }
    for (int i = 2; i < 7 && refusal != 0; i++) {
        if (numbers[i] != 0) {
            fail(NAMES[export], "a refused answer has a number");
        }
    }
    refusals[refusal]++;
    (refusal == 0 ? accepted : refused)[export]++;
    return refusal == 0;
}

#define JUDGE(type, call) judge(export, &(type[1]){call}, sizeof(type))

/* Counts the entries up to the one whose space covers a byte, 0 if none does, and those of MemoryLength 0 among them. */
static size_t search(size_t offset, size_t *empty)
{
    size_t a = count <= 8 ? 1 : 2, entries = 0, sum = 0;
    *empty = 0;
    for (int string = RW; string <= RO; string++) {
        const buffer *b = &buffers[string];
        for (size_t start = 0; start < b->length && sum <= offset; start += b->lent[start + 1], entries++) {
            sum += b->lent[start + 2 + a];
            *empty += b->lent[start + 2 + a] == 0;
        }
    }
    return sum > offset ? entries : 0;
}

/* The entries looked at end with the one that covers the byte, in a gap too; a field is that one's. */
static int owner(const vcs_call *c)
{
    vcs_owned answer = vcs_owner(LENT, c->set, c->offset, c->lane - 1);
    if (!judge(OWNER, &answer, sizeof answer)) {
        return 0;
    }
    size_t empty, entries = search(c->offset, &empty);
    if (entries == 0 || answer.looked_at != entries) {
        fail("owner", "another number of entries looked at");
    }
    if (answer.gap > 1 || answer.entry != (answer.gap ? 0 : entries - 1)) {
        fail("owner", "a field of another entry");
    }
    if (answer.gap ? answer.part != 0 || answer.lane != 0 : answer.lane < 1 || answer.lane > 8) {
        fail("owner", "a gap with a part or a lane, or another lane");
    }
    searched[entries > map.rw_count][answer.gap][empty > 0]++;
    return 1;
}

/* An address for a call: of its offset, at or beside an end of a page, none, or any; also of another set, or with a bit
   more. */
static address any_address(const vcs_call *c)
{
    size_t set = c->set < 3 && !once_in(4) ? c->set : below(3), i = below(2);
    address a = {TABLE[set][i].page, TABLE[set][i].first};
    switch (below(8)) {
    case 0:
        a = (address){0, 0};
        break;
    case 1:
        a = (address){number(0x20), number(256)};
        break;
    case 2:
        a.byte = PICK(size_t, TABLE[set][i].first - 1, TABLE[set][i].last + 1);
        break;
    case 3:
    case 4:
        a.byte = PICK(size_t, TABLE[set][i].first, TABLE[set][i].last, TABLE[set][i].last);
        break;
    default:
        a = address_of(set, c->offset);
        break;
    }
    if (once_in(16)) {
        *(once_in(2) ? &a.page : &a.byte) += PICK(size_t, 256, 65536, (size_t)1 << 32, (size_t)1 << 63);
    }
    return a;
}

/* Owner by address answers as at the address's offset, or as at one that no set has. */
static int owner_at(const vcs_call *c)
{
    address a = any_address(c);
    size_t offset = offset_of(c->set, a), bit = c->lane - 1;
    vcs_owned answer = vcs_owner_at(LENT, c->set, a.page, a.byte, bit), expected = vcs_owner(LENT, c->set, offset, bit);
    int is_accepted = judge(OWNER_AT, &answer, sizeof answer);
    if (memcmp(&answer, &expected, sizeof answer) != 0) {
        fail("owner at", "another answer than by offset");
    }
    if (is_accepted && offset == SIZE_MAX) {
        fail("owner at", "it is accepted at an address that isn't the set's");
    }
    if (is_accepted) {
        told[c->set][answer.gap != 0][stand_of(c->set, offset)]++;
    } else if (answer.refusal == 10 && c->set < 3 && bit < 8) {
        away[c->set][away_of(c->set, a)]++;
    }
    return is_accepted;
}

/* Names a field at the end of a page or overflow page, or directly behind it, if one is there. */
static void aim_at_end(vcs_call *c)
{
    size_t set = below(3), offset = end_of(set, PICK(int, 0, 1, 1)) - PICK(size_t, 0, 1, 1);
    vcs_owned owned = vcs_owner(LENT, set, offset, below(8));
    if (owned.refusal == 0 && owned.gap == 0) {
        c->set = set;
        c->entry = owned.entry;
        c->part = owned.part;
        c->lane = owned.lane;
    }
}

/* Page and byte are those of the offset, and owner there tells the field. */
static int place(vcs_call *c)
{
    if (once_in(2)) {
        aim_at_end(c);
    }
    vcs_placed answer = vcs_place(LENT, c->set, c->entry, c->part, c->lane);
    if (!judge(PLACE, &answer, sizeof answer)) {
        return 0;
    }
    address a = address_of(c->set, answer.offset);
    if (answer.page != a.page || answer.byte != a.byte) {
        fail("place", "another page or byte");
    }
    vcs_owned owned = vcs_owner_at(LENT, c->set, a.page, a.byte, answer.bit);
    int is_told = owned.refusal == 0 && owned.gap == 0 && owned.entry == c->entry && owned.part == c->part &&
                  owned.lane == c->lane;
    if (a.page == 0 ? owned.refusal != 10 : !is_told) {
        fail("owner at", "another field than the one placed there");
    }
    placed[c->set][stand_of(c->set, answer.offset)]++;
    return 1;
}

/* The reader's step has its own answer, and no limit of entries: where the load has refused a 17th, it is often made. */
static void take(void)
{
    int over = map.refusal == 16 && once_in(2);
    spot s = over ? find(map.at) : (spot){below(2), 0, 0};
    size_t string = s.string;
    const buffer *b = &buffers[string];
    size_t position = over ? s.start : once_in(2) ? positions[string] : number(b->length);
    vcs_taken answer = vcs_take(count, b->lent, b->length, position);
    int nine = count < 1 || count > 15 || b->length > LONGEST;
    if (answer.refusal > 9 || (answer.refusal > 2 && answer.refusal < 9) || (answer.refusal == 9) != nine) {
        fail("take", "its refusal");
    }
    if (answer.end != (answer.refusal == 0 && position >= b->length)) {
        fail("take", "its end");
    }
    if (answer.refusal != 0 || answer.end != 0) {
        if (answer.start != 0 || answer.length != 0 || answer.position != position) {
            fail("take", "a number without an entry");
        }
    } else if (answer.start != position || answer.length < 4 || answer.length > b->length - position ||
               answer.position != position + answer.length) {
        fail("take", "an entry outside its string");
    } else {
        seventeenths_taken[string] += over != 0;
    }
    positions[string] = answer.position;
    (answer.refusal == 0 ? accepted : refused)[TAKE]++;
}

/* Perform with a kind that doesn't exist. */
static void perform_none(vcs_call c)
{
    c.kind = 7 + number(0) % (SIZE_MAX - 7);
    size_t expected = refused_by_lent(1);
    if (vcs_perform(LENT, LENT_BANK, c).refusal != (expected == 0 ? 10 : expected)) {
        fail("perform", "a kind that doesn't exist");
    }
}

/* Makes a call of an export, or perform of no kind, and looks at every lent page. */
static void call_one(size_t export)
{
    vcs_call c = arguments(export < PERFORM ? export : export < LOAD ? export - PERFORM : APPLY + 1);
    int is_accepted = 0;
    switch (export) {
    case SELECT: is_accepted = JUDGE(vcs_answer, vcs_select(LENT, LENT_BANK, c.set, c.lane, c.app)); break;
    case WRITE:
        is_accepted = JUDGE(vcs_answer, vcs_write(LENT, LENT_BANK, c.set, c.entry, c.part, c.lane, c.value));
        break;
    case READ: is_accepted = JUDGE(vcs_answer, vcs_read(LENT, LENT_BANK, c.set, c.entry, c.part, c.lane)); break;
    case BYTE_WRITE: is_accepted = JUDGE(vcs_answer, vcs_byte_write(LENT, LENT_BANK, c.set, c.offset, c.byte)); break;
    case BYTE_READ: is_accepted = JUDGE(vcs_answer, vcs_byte_read(LENT, LENT_BANK, c.set, c.offset)); break;
    case PUBLISH:
        is_accepted = JUDGE(vcs_answer, vcs_publish(LENT, LENT_BANK, c.entry, c.part, c.lane, c.value));
        break;
    case APPLY: is_accepted = JUDGE(vcs_answer, vcs_apply(LENT, LENT_BANK, c.set, c.lanes)); break;
    case LOAD: is_accepted = JUDGE(vcs_loaded, vcs_load(LENT)); break;
    case ENTRY: is_accepted = JUDGE(vcs_located, vcs_entry(LENT, c.entry)); break;
    case PLACE: is_accepted = place(&c); break;
    case OWNER: is_accepted = owner(&c); break;
    case OWNER_AT: is_accepted = owner_at(&c); break;
    case FRESH: is_accepted = JUDGE(vcs_loaded, vcs_fresh(LENT, LENT_BANK)); break;
    case WEIGHT: is_accepted = JUDGE(vcs_answer, vcs_weight(LENT, LENT_BANK, c.entry, c.lane)); break;
    case TAKE: take(); break;
    case PASS: pass(); break;
    case RESUME: resume(); break;
    case EXPORTS: perform_none(c); break;
    default: is_accepted = JUDGE(vcs_answer, vcs_perform(LENT, LENT_BANK, c)); break;
    }
    if (is_accepted && export == FRESH) {
        memset(buffers[BANK].kept + (buffers[BANK].lent - buffers[BANK].page), 0, VCS_BANK_SIZE);
    } else if (is_accepted) {
        changes(&c);
        if (export == WRITE) {
            written[id_of(c.entry)]++;
        }
    }
    for (int i = 0; i < BUFFERS; i++) {
        if (memcmp(buffers[i].page, buffers[i].kept, PAGE) != 0) {
            fail(export < EXPORTS ? NAMES[export] : "perform", "it has changed a byte that it must keep");
        }
    }
}

/* ---- What must have occurred ---- */

static void demand_calls(void)
{
    for (size_t i = 0; i < EXPORTS; i++) {
        printf("%-20s%10zu accepted%10zu refused\n", NAMES[i], accepted[i], refused[i]);
        if (accepted[i] == 0 || refused[i] == 0) {
            fail(NAMES[i], "never accepted, or never refused");
        }
    }
    for (size_t i = 1; i < NUMBERS; i++) {
        if (REFUSALS[i].names != NO_REFUSAL && refusals[i] == 0) {
            printf("hardening: refusal %zu has not occurred\n", i);
            exit(1);
        }
    }
}

static void demand_ids(void)
{
    for (uint8_t id = 0x02; id <= 0x10; id++) {
        for (size_t i = 1; i < NUMBERS; i++) {
            int can_fail = i == 5 ? has_step(id) : i == 6 ? id <= 0x08 : REFUSALS[i].names == AN_ENTRY;
            if (written[id] == 0 || (can_fail && stopped[id][i] == 0)) {
                printf("hardening: no write of %02Xh, or no refusal %zu\n", id, i);
                exit(1);
            }
        }
    }
}

static void demand_limit(void)
{
    for (int string = RW; string <= RO; string++) {
        const char *name = string == RW ? "RW" : "RO";
        if (full[string] == 0 || strays[string] == 0 || seventeenths_taken[string] == 0) {
            printf("hardening: no 16 entries in %s, no byte after them, or no 17th taken\n", name);
            exit(1);
        }
        for (size_t i = 0; i <= 5; i++) { /* 6 and 7 need an entry before. */
            if (seventeenths[string][i] == 0) {
                printf("hardening: no 17th entry in %s that has refusal %zu alone\n", name, i);
                exit(1);
            }
        }
    }
}

static void demand_searches(void)
{
    for (int i = 0; i < 8; i++) {
        int string = i / 4, gap = i / 2 % 2, empty = i % 2;
        if (searched[string][gap][empty] == 0) {
            printf("hardening: owner has told no %s in %s with%s MemoryLength 0 before\n", gap ? "gap" : "field",
                   string == RW ? "RW" : "RO", empty ? "" : "out");
            exit(1);
        }
    }
}

static void demand_addresses(void)
{
    for (size_t set = 0; set < 3; set++) {
        for (int i = 0; i < STANDS; i++) {
            int is_told = i == PAST_TABLE || (told[set][0][i] > 0 && told[set][1][i] > 0);
            if (placed[set][i] == 0 || !is_told) {
                printf("hardening: no field placed, or no field or no gap told, in set %zu %s\n", set, STAND_NAMES[i]);
                exit(1);
            }
        }
        for (int i = 0; i < AWAYS; i++) {
            if (away[set][i] == 0) {
                printf("hardening: set %zu has refused no address %s\n", set, AWAY_NAMES[i]);
                exit(1);
            }
        }
    }
}

/* 6 is a refusal of RW entries; the first RO entry isn't a 17th. */
static void demand_pieces(void)
{
    for (int place = IN_RW; place < PLACES; place++) {
        const char *name = place == IN_RW ? "in RW" : place == BETWEEN ? "between the strings" : "in RO";
        for (size_t i = 0; i < NUMBERS; i++) {
            int occurs = i == 0 || i == 9 || (REFUSALS[i].names == AN_ENTRY && (i != 6 || place == IN_RW));
            int passed = occurs && (i != 16 || place != BETWEEN);
            if ((passed && passes[place][i] == 0) || (occurs && resumes[place][i] == 0)) {
                printf("hardening: no pass or no resume %s with refusal %zu\n", name, i);
                exit(1);
            }
        }
        if ((ends[place] == 0) != (place == IN_RW)) {
            fail("pass", "an end in RW, or none elsewhere");
        }
    }
    if (flags[0] == 0 || flags[1] == 0) {
        fail("pass", "no string or no media above 1");
    }
}

int main(int words, char **word)
{
    calls = words > 1 ? strtoull(word[1], NULL, 10) : calls;
    seed = words > 2 ? strtoull(word[2], NULL, 10) : seed;
    state = seed;
    make_pages();
    while (made < calls) {
        make_map();
        /* A refused map gets few calls: all are refused alike. */
        for (size_t more = 1 + below(map.refusal == 0 ? 64 : 8); more > 0 && made < calls; more--) {
            made++;
            call_one(below(EXPORTS + 1));
        }
    }
    demand_calls();
    demand_ids();
    demand_limit();
    demand_searches();
    demand_addresses();
    demand_pieces();
    printf("hardening: %zu calls, seed %zu\n", made, seed);
    return 0;
}
