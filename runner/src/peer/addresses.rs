//! Table 4-1 of OIF-CMIS-VCS-01.1: page and byte of an offset, and back.

/// A set's bytes: how many stand on its page, and the numbers of both pages and of the first byte on each.
struct Place {
    on_page: usize,
    pages: [usize; 2],
    firsts: [usize; 2],
}

/// The bytes of a set on its overflow page.
const OVERFLOW: usize = 56;

static PLACES: [Place; 3] = [
    Place { on_page: 23, pages: [0x10, 0x18], firsts: [153, 144] },
    Place { on_page: 23, pages: [0x10, 0x18], firsts: [188, 200] },
    Place { on_page: 21, pages: [0x11, 0x19], firsts: [214, 152] },
];

/// An offset that no set has.
const NOWHERE: usize = usize::MAX;

/// Page and byte; 0 and 0 past the last.
#[inline(always)]
pub fn address(set: usize, offset: usize) -> (usize, usize) {
    let Some(Place { on_page, pages, firsts }) = PLACES.get(set) else { return (0, 0) };
    if offset < *on_page {
        (pages[0], firsts[0] + offset)
    } else if offset < on_page + OVERFLOW {
        (pages[1], firsts[1] + offset - on_page)
    } else {
        (0, 0)
    }
}

/// The offset of an address of a set, or one that no set has.
#[inline(always)]
pub fn offset(set: usize, page: usize, byte: usize) -> usize {
    let Some(Place { on_page, pages, firsts }) = PLACES.get(set) else { return NOWHERE };
    // A byte before the first is far behind the last.
    let [at, over] = firsts.map(|first| byte.wrapping_sub(first));
    if page == pages[0] && at < *on_page {
        at
    } else if page == pages[1] && over < OVERFLOW {
        on_page + over
    } else {
        NOWHERE
    }
}
