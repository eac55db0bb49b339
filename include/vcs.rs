// The versatile control set engine: Rust interface of libvcs.a. A program takes this file as a module:
//
//     #[path = "../include/vcs.rs"]
//     mod vcs;
//
// Each call is a function on slices, `vcs::load(count, &rw, &ro)`; below them stand the exports of vcs.h, `vcs_load`.
//
// No call changes a byte of a string. A bank under `BANK_SIZE` bytes is refused with 8. No call changes a byte beyond
// `BANK_SIZE`, and a refused call changes none.
// Every number may have any value: what doesn't exist is refused. In an answer, `refusal` is 0 if the call is accepted,
// otherwise the documents' number (01 and 02); `at` is then the entry that 16 and 1 to 7 name, or the lane that 13
// and 14 name, else 0. All other members are 0 in a refused answer, but for the reader's position.
// Strings are checked entry by entry, RW first; of one entry 16 comes before 1 to 7.
// Numbers of fields are unsigned, but those of 09h, 0Ah, 0Dh, 11h and 12h have a sign. Write takes of 09h, 0Ah and 0Dh a
// number from the entry's Min to its Max. Weight alone multiplies by a step, that of 12h.

/// The most entries of a string; one more is refused with 16.
#[allow(dead_code)]
pub const ENTRY_LIMIT: usize = 16;

/// The bytes of a bank: staged sets 0 and 1 and the active set, 2, then the AppSels of each staged set.
#[allow(dead_code)]
pub const BANK_SIZE: usize = 784;

/// The bytes of a set.
#[allow(dead_code)]
pub const SET_SIZE: usize = 256;

/// The byte of a bank at which a set starts.
#[allow(dead_code)]
pub const fn set_start(set: usize) -> usize {
    SET_SIZE * set
}

/// The byte of a bank that is the AppSel of a lane (1 to 8) of a staged set.
#[allow(dead_code)]
pub const fn app_sel_at(set: usize, lane: usize) -> usize {
    768 + 8 * set + lane - 1
}

/// Both entry counts, staged and active length.
#[repr(C)]
#[derive(Clone, Copy, Debug, Default, PartialEq, Eq)]
pub struct Loaded {
    pub refusal: usize,
    pub at: usize,
    pub rw_count: usize,
    pub ro_count: usize,
    pub staged_length: usize,
    pub active_length: usize,
}

/// What a load keeps after an entry, and all that it keeps: the string that it is in (0 RW, any other number RO), whether
/// a media-side entry of the table has been passed in either string (0 no, any other number yes), the entries passed of
/// that string, the entries before that string, the sum of the MemoryLengths passed and, in the RO string, the staged
/// length. A load begins with all of them 0, `State::default()`. In an answer `string` and `media` are 0 or 1.
#[repr(C)]
#[derive(Clone, Copy, Debug, Default, PartialEq, Eq)]
pub struct State {
    pub string: u8,
    pub media: u8,
    pub entries: u8,
    pub before: u8,
    pub sum: u16,
    pub staged_length: u16,
}

/// What a load that is made entry by entry comes to: past an entry, its length and the state after it; or the end, where
/// no byte is left (`end` is 1, and all others are 0).
#[repr(C)]
#[derive(Clone, Copy, Debug, Default, PartialEq, Eq)]
pub struct Passed {
    pub refusal: usize,
    pub at: usize,
    pub end: usize,
    pub length: usize,
    pub state: State,
}

/// Where an entry stands: in which string (0 RW, 1 RO), its start and length there, and its offset in a set.
#[repr(C)]
#[derive(Clone, Copy, Debug, Default, PartialEq, Eq)]
pub struct Located {
    pub refusal: usize,
    pub at: usize,
    pub string: usize,
    pub start: usize,
    pub length: usize,
    pub offset: usize,
}

/// Where a field stands in a set: the offset of its byte; page and byte, the address that Table 4-1 of OIF-CMIS-VCS-01.1
/// gives to this offset; and the field's lowest bit there, 0 to 7. Offsets run on from a set's page to its overflow page:
///
/// - staged set 0: page 10h, bytes 153 to 175, offsets 0 to 22; page 18h, bytes 144 to 199, offsets 23 to 78
/// - staged set 1: page 10h, bytes 188 to 210, offsets 0 to 22; page 18h, bytes 200 to 255, offsets 23 to 78
/// - active set: page 11h, bytes 214 to 234, offsets 0 to 20; page 19h, bytes 152 to 207, offsets 21 to 76
///
/// An offset past the last of its set has no address: page and byte are 0. No entry is moved to keep it on one page: where a
/// module leaves bytes free before the border, its string has an entry for them (00h), or addresses behind them differ.
#[repr(C)]
#[derive(Clone, Copy, Debug, Default, PartialEq, Eq)]
pub struct Placed {
    pub refusal: usize,
    pub at: usize,
    pub offset: usize,
    pub page: usize,
    pub byte: usize,
    pub bit: usize,
}

/// Whose a bit of a set is: entry, part and lane (1 to 8) of its field. In a gap `gap` is 1 and these are 0. In both cases
/// `looked_at` is the number of entries looked at: the number of the entry whose space covers the byte, plus one.
#[repr(C)]
#[derive(Clone, Copy, Debug, Default, PartialEq, Eq)]
pub struct Owned {
    pub refusal: usize,
    pub at: usize,
    pub gap: usize,
    pub entry: usize,
    pub part: usize,
    pub lane: usize,
    pub looked_at: usize,
}

/// What a call on a bank says: `number` is what read, byte read and weight answer; of the other calls it is 0, and
/// `refusal` 0 means yes.
#[repr(C)]
#[derive(Clone, Copy, Debug, Default, PartialEq, Eq)]
pub struct Answer {
    pub refusal: usize,
    pub at: usize,
    pub number: i64,
}

/// What a reader takes: an entry's start and length, or the end (`end` is 1, and these are 0); and the
/// position after it, which is the one before unless an entry was taken.
#[repr(C)]
#[derive(Clone, Copy, Debug, Default, PartialEq, Eq)]
pub struct Taken {
    pub refusal: usize,
    pub end: usize,
    pub start: usize,
    pub length: usize,
    pub position: usize,
}

/// A call as data. Each kind reads its own arguments and ignores the other members:
/// 0 select (set, lane, app), 1 write (set, entry, part, lane, value), 2 read (set, entry, part, lane),
/// 3 byte write (set, offset, byte), 4 byte read (set, offset), 5 publish (entry, part, lane, value),
/// 6 apply (set, lanes). A kind above 6 doesn't exist: refused with 10, after 9, 8, 16 and 1 to 7.
#[repr(C)]
#[derive(Clone, Copy, Debug, Default, PartialEq, Eq)]
pub struct Call {
    pub kind: usize,
    pub set: usize,
    pub entry: usize,
    pub part: usize,
    pub lane: usize,
    pub offset: usize,
    pub app: usize,
    pub value: i64,
    pub byte: u8,
    pub lanes: u8,
}

/// Functions, each with what it hands on to its export after the count of applications and both strings.
macro_rules! calls {
    ($($(#[$doc:meta])*
    $name:ident($($argument:ident: $type:ty),*) -> $answer:ty = $export:ident($($value:expr),*);)*) => {$(
        $(#[$doc])*
        #[allow(dead_code, clippy::too_many_arguments)]
        #[inline]
        pub fn $name(count: usize, rw: &[u8], ro: &[u8] $(, $argument: $type)*) -> $answer {
            // Each pointer and length is a slice's own. An export takes any number and keeps no pointer.
            unsafe { $export(count, rw.as_ptr(), rw.len(), ro.as_ptr(), ro.len() $(, $value)*) }
        }
    )*};
}

calls! {
    /// The load: the check of both strings. Refusals 9, 16, 1 to 7.
    load() -> Loaded = vcs_load();

    /// Pass: one entry of a load that is made entry by entry. In the RW string, `rw` are the bytes of it that are not yet
    /// read, and `ro` is the RO string; with no byte of the RW string left, the entry is the first of the RO string. In the
    /// RO string, `ro` are the bytes of it that are not yet read, and `rw` isn't read. The bytes of the entry may be all that
    /// is lent: those behind it change nothing. Refusals 9 (of the count, and of what is lent), 16, 1 to 7.
    pass(state: State) -> Passed = vcs_pass(state);

    /// Resume: the load taken up again after an entry, given the state that pass left there and the bytes not yet read, as
    /// above. It answers what the load of the whole strings answers, if these are within 120 bytes; from a state of all 0 it
    /// is the load. A state that no load comes to is taken as it stands. Refusals 9 (of the count, and of what is lent), 16,
    /// 1 to 7.
    resume(state: State) -> Loaded = vcs_resume(state);

    /// The entry call: the entry's own bytes are `length` bytes from `start` of its string. Refusals 9, 16, 1 to 7, 10.
    entry(entry: usize) -> Located = vcs_entry(entry);

    /// The place call: the field of an entry, part and lane (1 to 8) in staged set 0 or 1, or in the active set, 2.
    /// Refusals 9, 16, 1 to 7, 10, 11.
    place(set: usize, entry: usize, part: usize, lane: usize) -> Placed = vcs_place(set, entry, part, lane);

    /// The owner call: bit 0 to 7 of the byte at an offset of a set. Once the strings are accepted it looks through the
    /// entries in order, RW first, up to the one whose space covers the byte; an entry with MemoryLength 0 covers none and
    /// is counted when passed. Refusals 9, 16, 1 to 7, 10.
    owner(set: usize, offset: usize, bit: usize) -> Owned = vcs_owner(set, offset, bit);

    /// The owner call by address: the answer is that of `owner` at the offset which page and byte have in the set. An
    /// address that isn't one of the set's (page 0, byte 0 is none), or whose offset isn't below the set's length, is
    /// refused with 10. Refusals 9, 16, 1 to 7, 10.
    owner_at(set: usize, page: usize, byte: usize, bit: usize) -> Owned = vcs_owner_at(set, page, byte, bit);

    /// Fresh: clears the bank, and answers as the load does. Refusals 9, 8, 16, 1 to 7.
    fresh(bank: &mut [u8]) -> Loaded = vcs_fresh(bank.as_mut_ptr(), bank.len());

    /// Select: stores an app, 0 to count, as AppSel of a lane (1 to 8) of staged set 0 or 1. Refusals 9, 8, 16, 1 to 7,
    /// 10 to 12.
    select(bank: &mut [u8], set: usize, lane: usize, app: usize) -> Answer =
        vcs_select(bank.as_mut_ptr(), bank.len(), set, lane, app);

    /// Write: stores an accepted value in a field of an RW entry in staged set 0 or 1. Refusals 9, 8, 16, 1 to 7,
    /// 10 to 12.
    write(bank: &mut [u8], set: usize, entry: usize, part: usize, lane: usize, value: i64) -> Answer =
        vcs_write(bank.as_mut_ptr(), bank.len(), set, entry, part, lane, value);

    /// Read: the number of a field in set 0, 1 or 2. Refusals 9, 8, 16, 1 to 7, 10, 11.
    read(bank: &[u8], set: usize, entry: usize, part: usize, lane: usize) -> Answer =
        vcs_read(bank.as_ptr(), bank.len(), set, entry, part, lane);

    /// Publish: stores an accepted value in a field of an RO entry in the active set. Refusals 9, 8, 16, 1 to 7,
    /// 10 to 12.
    publish(bank: &mut [u8], entry: usize, part: usize, lane: usize, value: i64) -> Answer =
        vcs_publish(bank.as_mut_ptr(), bank.len(), entry, part, lane, value);

    /// Byte write: stores a byte of staged set 0 or 1, any value, with its gaps 0. Refusals 9, 8, 16, 1 to 7, 10, 11.
    byte_write(bank: &mut [u8], set: usize, offset: usize, byte: u8) -> Answer =
        vcs_byte_write(bank.as_mut_ptr(), bank.len(), set, offset, byte);

    /// Byte read: the byte at an offset of set 0, 1 or 2, with its gaps 0. Refusals 9, 8, 16, 1 to 7, 10.
    byte_read(bank: &[u8], set: usize, offset: usize) -> Answer =
        vcs_byte_read(bank.as_ptr(), bank.len(), set, offset);

    /// Apply: for each chosen lane (bit i - 1 of `lanes` is lane i), copies each RW field whose entry's mask has the
    /// lane's AppSel from staged set 0 or 1 to the active set; all or nothing. An empty mask changes nothing and is
    /// accepted. Refusals 9, 8, 16, 1 to 7, 10, 11, 13, 14.
    apply(bank: &mut [u8], set: usize, lanes: u8) -> Answer = vcs_apply(bank.as_mut_ptr(), bank.len(), set, lanes);

    /// Perform: a call given as data; its answer and refusals are those of its kind.
    perform(bank: &mut [u8], call: Call) -> Answer = vcs_perform(bank.as_mut_ptr(), bank.len(), call);

    /// Weight: the active number of a 12h field, in thousandths. Refusals 9, 8, 16, 1 to 7, 10.
    weight(bank: &[u8], entry: usize, lane: usize) -> Answer = vcs_weight(bank.as_ptr(), bank.len(), entry, lane);
}

/// What a reader takes from one string at any position: the entry that begins there, or the end if no byte is left from
/// it on. From 0 on, each time at the position that the one before gave, it takes the string's entries in order,
/// past the limit too. Refusals 9, 1, 2, never 16.
#[allow(dead_code)]
#[inline]
pub fn take(count: usize, string: &[u8], position: usize) -> Taken {
    // As above.
    unsafe { vcs_take(count, string.as_ptr(), string.len(), position) }
}

// The exports. Strings and banks are lent as a pointer and a length; null with length 0 is an empty string. A bank
// overlaps no string.
#[rustfmt::skip]
#[allow(dead_code)]
unsafe extern "C" {
    pub fn vcs_load(count: usize, rw: *const u8, rw_length: usize, ro: *const u8, ro_length: usize) -> Loaded;
    pub fn vcs_pass(count: usize, rw: *const u8, rw_length: usize, ro: *const u8, ro_length: usize,
                    state: State) -> Passed;
    pub fn vcs_resume(count: usize, rw: *const u8, rw_length: usize, ro: *const u8, ro_length: usize,
                      state: State) -> Loaded;
    pub fn vcs_entry(count: usize, rw: *const u8, rw_length: usize, ro: *const u8, ro_length: usize,
                     entry: usize) -> Located;
    pub fn vcs_place(count: usize, rw: *const u8, rw_length: usize, ro: *const u8, ro_length: usize,
                     set: usize, entry: usize, part: usize, lane: usize) -> Placed;
    pub fn vcs_owner(count: usize, rw: *const u8, rw_length: usize, ro: *const u8, ro_length: usize,
                     set: usize, offset: usize, bit: usize) -> Owned;
    pub fn vcs_owner_at(count: usize, rw: *const u8, rw_length: usize, ro: *const u8, ro_length: usize,
                        set: usize, page: usize, byte: usize, bit: usize) -> Owned;
    pub fn vcs_fresh(count: usize, rw: *const u8, rw_length: usize, ro: *const u8, ro_length: usize,
                     bank: *mut u8, bank_length: usize) -> Loaded;
    pub fn vcs_select(count: usize, rw: *const u8, rw_length: usize, ro: *const u8, ro_length: usize,
                      bank: *mut u8, bank_length: usize, set: usize, lane: usize, app: usize) -> Answer;
    pub fn vcs_write(count: usize, rw: *const u8, rw_length: usize, ro: *const u8, ro_length: usize,
                     bank: *mut u8, bank_length: usize, set: usize, entry: usize, part: usize, lane: usize,
                     value: i64) -> Answer;
    pub fn vcs_read(count: usize, rw: *const u8, rw_length: usize, ro: *const u8, ro_length: usize,
                    bank: *const u8, bank_length: usize, set: usize, entry: usize, part: usize, lane: usize) -> Answer;
    pub fn vcs_publish(count: usize, rw: *const u8, rw_length: usize, ro: *const u8, ro_length: usize,
                       bank: *mut u8, bank_length: usize, entry: usize, part: usize, lane: usize, value: i64) -> Answer;
    pub fn vcs_byte_write(count: usize, rw: *const u8, rw_length: usize, ro: *const u8, ro_length: usize,
                          bank: *mut u8, bank_length: usize, set: usize, offset: usize, byte: u8) -> Answer;
    pub fn vcs_byte_read(count: usize, rw: *const u8, rw_length: usize, ro: *const u8, ro_length: usize,
                         bank: *const u8, bank_length: usize, set: usize, offset: usize) -> Answer;
    pub fn vcs_apply(count: usize, rw: *const u8, rw_length: usize, ro: *const u8, ro_length: usize,
                     bank: *mut u8, bank_length: usize, set: usize, lanes: u8) -> Answer;
    pub fn vcs_perform(count: usize, rw: *const u8, rw_length: usize, ro: *const u8, ro_length: usize,
                       bank: *mut u8, bank_length: usize, call: Call) -> Answer;
    pub fn vcs_weight(count: usize, rw: *const u8, rw_length: usize, ro: *const u8, ro_length: usize,
                      bank: *const u8, bank_length: usize, entry: usize, lane: usize) -> Answer;
    pub fn vcs_take(count: usize, string: *const u8, string_length: usize, position: usize) -> Taken;
}
