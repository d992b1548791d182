//! How the orders of a stream were written.

use std::fmt;
use std::iter::FusedIterator;

use crate::ffi_orders;
use crate::report::number;

/// Where the length of an order stands.
///
/// ```
/// use nulambiro::LengthPlace;
///
/// assert_eq!(LengthPlace::OneByte.to_string(), "one byte");
/// ```
#[derive(Clone, Copy, Debug, PartialEq, Eq, Hash)]
pub enum LengthPlace {
    /// Nowhere: F9, FA, FD and FE are orders of one length.
    None,
    /// In the header byte.
    Header,
    /// In the byte after the header.
    OneByte,
    /// In the two bytes after the header.
    TwoBytes,
}

impl LengthPlace {
    /// Reads a place's number.
    fn from_number(place: u64) -> Self {
        match place {
            0 => Self::None,
            1 => Self::Header,
            2 => Self::OneByte,
            3 => Self::TwoBytes,
            other => unreachable!("the library has no place {other}"),
        }
    }
}

impl fmt::Display for LengthPlace {
    fn fmt(&self, f: &mut fmt::Formatter<'_>) -> fmt::Result {
        f.pad(match self {
            Self::None => "none",
            Self::Header => "header",
            Self::OneByte => "one byte",
            Self::TwoBytes => "two bytes",
        })
    }
}

/// How a completed order was written.
#[derive(Clone, Copy, Debug, PartialEq, Eq, Hash)]
#[non_exhaustive]
pub struct OrderRecord {
    /// The order's header byte.
    pub header: u8,
    /// Where its length stands.
    pub place: LengthPlace,
}

impl OrderRecord {
    /// Reads the library's report, if there is an order.
    fn from_numbers([found, header, place, ..]: [u64; 8]) -> Option<Self> {
        (found == 1).then(|| Self {
            header: u8::try_from(header).expect("a header is a byte"),
            place: LengthPlace::from_number(place),
        })
    }
}

/// Returns the record of order `n`, counted from 0, of those that
/// [`decompress_into`](crate::decompress_into) completes with this stream, size and depth in any
/// target that has space.
///
/// `None` exactly if at most `n` orders are completed: [`orders`](crate::Report::orders) is `n` or
/// less. An fg/bg image that a refusal cuts short is not completed, and where depth or sizes are
/// refused no order is.
///
/// No target is needed. A call goes over the orders up to `n`; to look at all of them, take
/// [`order_records`].
///
/// ```
/// use nulambiro::{order_record, LengthPlace};
///
/// // Runs of four pixels and of two, the second with its length in two bytes.
/// let stream = [0x24, 0xF1, 0x02, 0x00];
/// let record = order_record(&stream, 4, 2, 8, 1).expect("there are two orders");
/// assert_eq!((record.header, record.place), (0xF1, LengthPlace::TwoBytes));
/// assert_eq!(order_record(&stream, 4, 2, 8, 2), None);
/// ```
#[must_use]
pub fn order_record(
    src: &[u8],
    width: usize,
    height: usize,
    bpp: usize,
    n: usize,
) -> Option<OrderRecord> {
    OrderRecord::from_numbers(ffi_orders::order_record(src, width, height, bpp, n))
}

/// Returns the records of all orders that [`decompress_into`](crate::decompress_into) completes
/// with this stream, size and depth in any target that has space, one after the other.
///
/// The stream is gone over once, each order in the same time whatever it paints. Number n of the
/// records is that of [`order_record`].
///
/// They show how a sender writes its lengths: one that takes two bytes for lengths which the header
/// has room for wastes them.
///
/// ```
/// use nulambiro::{compress, decompress_into, order_records, LengthPlace};
///
/// let in_two_bytes = |stream: &[u8]| {
///     let records = order_records(stream, 4, 2, 8);
///     records.filter(|record| record.place == LengthPlace::TwoBytes).count()
/// };
/// // Color runs of five pixels and of three; the same picture by the encoder of this library.
/// let sent = [0xF3, 0x05, 0x00, 7, 0xF3, 0x03, 0x00, 9];
/// let ours = compress(&[7, 7, 7, 7, 7, 9, 9, 9], 4, 2, 8)?;
/// assert_eq!(ours, [0x65, 7, 0x63, 9]);
/// assert_eq!((in_two_bytes(&sent), in_two_bytes(&ours)), (2, 0));
///
/// let report = decompress_into(&sent, &mut [0; 8], 4, 2, 8);
/// assert_eq!(order_records(&sent, 4, 2, 8).count(), report.orders);
/// # Ok::<(), nulambiro::CompressError>(())
/// ```
pub fn order_records(src: &[u8], width: usize, height: usize, bpp: usize) -> OrderRecords<'_> {
    OrderRecords {
        src,
        width,
        height,
        bpp,
        walk: [0; 8],
    }
}

/// The records of a stream's orders, see [`order_records`].
#[derive(Clone, Debug)]
#[must_use = "iterators are lazy and do nothing unless consumed"]
pub struct OrderRecords<'a> {
    src: &'a [u8],
    width: usize,
    height: usize,
    bpp: usize,
    /// The library's walk: in its first place, the bytes of the stream before the next order.
    walk: [u64; 8],
}

impl Iterator for OrderRecords<'_> {
    type Item = OrderRecord;

    fn next(&mut self) -> Option<OrderRecord> {
        OrderRecord::from_numbers(ffi_orders::next_order(
            self.src,
            self.width,
            self.height,
            self.bpp,
            &mut self.walk,
        ))
    }

    /// An order has at least its header byte.
    fn size_hint(&self) -> (usize, Option<usize>) {
        (0, Some(self.src.len() - number(self.walk[0])))
    }
}

/// A walk that has found no order stays where it is, and so finds none again.
impl FusedIterator for OrderRecords<'_> {}
