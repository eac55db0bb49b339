//! Document 01's bank: where the three sets and the AppSels of the staged ones stand.

pub const BANK_SIZE: usize = 784;
pub const SET_SIZE: usize = 256;

/// The active set.
pub const ACTIVE: usize = 2;

/// The byte at which a set starts.
pub const fn set_start(set: usize) -> usize {
    SET_SIZE * set
}

/// The byte at which the AppSels of a staged set start, lane 1 first.
pub const fn app_sels_start(set: usize) -> usize {
    768 + 8 * set
}
