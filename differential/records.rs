//! A plain reader of orders, after MS-RDPBCGR 2.2.9.1.1.3.1.2.4: which order comes next in a walk,
//! where its length stands, and where the walk stands behind it. It paints nothing.

use crate::case::Case;

/// All places of a walk and of a record's report, as `include/nulambiro.h` numbers them.
pub type Walk = [u64; 8];
pub type Record = [u64; 8];

/// The walk at the start of a stream.
pub const START: Walk = [0; 8];
pub const NO_ORDER: Record = [0; 8];

/// Where a length stands, as a report numbers it.
#[derive(Clone, Copy)]
enum Place {
    Nowhere = 0,
    Header = 1,
    OneByte = 2,
    TwoBytes = 3,
}

/// The next order's record, and the walk behind it; no order, and the walk as it is, where none is
/// completed.
pub fn next(case: Case, walk: Walk) -> (Record, Walk) {
    next_order(case, walk).unwrap_or((NO_ORDER, walk))
}

fn next_order(case: Case, walk: Walk) -> Option<(Record, Walk)> {
    let [at, painted, _, later_row, ..] = walk;
    let pixel = case.picture.bytes_per_pixel()?;
    let room = (case.picture.len()? / pixel).checked_sub(painted as usize)?;
    let (&header, rest) = case.stream.get(at as usize..)?.split_first()?;
    let place = place(header)?;
    let (length, length_bytes) = length(header, place, rest)?;
    let (paints, reads) = paints_and_reads(header, length, pixel);
    // An order is completed if all that it reads is there, and there is room for what it paints.
    let bytes = length_bytes + reads;
    if bytes > rest.len() || paints > room {
        return None;
    }
    let background = matches!(header, 0x00..=0x1F | 0xF0);
    let later_row = later_row != 0 || painted >= case.picture.width as u64;
    let behind = [
        at + 1 + bytes as u64,
        painted + paints as u64,
        u64::from(background),
        u64::from(later_row),
        0,
        0,
        0,
        0,
    ];
    let record = [1, u64::from(header), place as u64, 0, 0, 0, 0, 0];
    Some((record, behind))
}

/// Where the length stands after this header; none where that is no order.
fn place(header: u8) -> Option<Place> {
    Some(match header {
        0x00 | 0x20 | 0x40 | 0x60 | 0x80 | 0xC0 | 0xD0 | 0xE0 => Place::OneByte,
        0x01..=0x9F | 0xC1..=0xEF => Place::Header,
        0xF0..=0xF4 | 0xF6..=0xF8 => Place::TwoBytes,
        0xF9 | 0xFA | 0xFD | 0xFE => Place::Nowhere,
        0xA0..=0xBF | 0xF5 | 0xFB | 0xFC | 0xFF => return None,
    })
}

/// The length, and how many bytes behind the header it takes; none where these are missing, or are
/// two zeros.
fn length(header: u8, place: Place, rest: &[u8]) -> Option<(usize, usize)> {
    let masks = matches!(header, 0x40..=0x5F | 0xD0..=0xDF);
    // How many headers the kind has: a byte goes on from there, but one of masks begins at 1.
    let headers = if header < 0xC0 { 32 } else { 16 };
    Some(match place {
        Place::Nowhere => (if header < 0xFD { 8 } else { 1 }, 0),
        Place::Header if masks => (usize::from(header) % headers * 8, 0),
        Place::Header => (usize::from(header) % headers, 0),
        Place::OneByte if masks => (usize::from(*rest.first()?) + 1, 1),
        Place::OneByte => (usize::from(*rest.first()?) + headers, 1),
        Place::TwoBytes => match u16::from_le_bytes([*rest.first()?, *rest.get(1)?]) {
            0 => return None,
            length => (usize::from(length), 2),
        },
    })
}

/// Pixels that an order of this length paints, and bytes that it reads behind the length.
fn paints_and_reads(header: u8, length: usize, pixel: usize) -> (usize, usize) {
    let masks = length.div_ceil(8);
    match header {
        0x40..=0x5F | 0xF2 => (length, masks),
        0x60..=0x7F | 0xF3 | 0xC0..=0xCF | 0xF6 => (length, pixel),
        0x80..=0x9F | 0xF4 => (length, length * pixel),
        0xD0..=0xDF | 0xF7 => (length, pixel + masks),
        0xE0..=0xEF | 0xF8 => (2 * length, 2 * pixel),
        _ => (length, 0),
    }
}
