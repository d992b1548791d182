//! Decoding that stops after some orders and goes on.

use std::error::Error;
use std::fmt;

use crate::ffi_pauses;
use crate::picture_len;
use crate::report::{number, Refusal, Report};
use crate::rle::RlePixelFormat;

/// Where decoding stands between two orders: plain numbers, which can be stored, and gone on from
/// by [`Decoder::resume`].
#[derive(Clone, Copy, Debug, PartialEq, Eq, Hash)]
pub struct State {
    /// Bytes of the stream that are read.
    pub bytes: usize,
    /// Pixels that are painted.
    pub pixels: usize,
    /// The foreground, low byte first. Bytes that the depth does not use are 0.
    pub foreground: [u8; 3],
    /// Whether an insert is pending: the last order was a background run.
    pub insert: bool,
    /// Whether no order has begun yet with the first row painted.
    pub first_row: bool,
    /// Orders completed.
    pub orders: usize,
}

impl State {
    /// Returns where every stream of so many bits per pixel starts: nothing is read or painted, and
    /// the foreground is white, or zeros where there is no such depth.
    ///
    /// ```
    /// use nulambiro::State;
    ///
    /// let start = State::start(15);
    /// assert_eq!((start.bytes, start.pixels, start.orders), (0, 0, 0));
    /// assert_eq!(start.foreground, [0xFF, 0x7F, 0]);
    /// assert!(start.first_row && !start.insert);
    /// ```
    #[must_use]
    pub fn start(bpp: usize) -> Self {
        Self::from_numbers(ffi_pauses::start(bpp))
    }

    /// Reads the library's state; the places are those of `include/nulambiro.h`.
    fn from_numbers([bytes, pixels, foreground, insert, first_row, orders, ..]: [u64; 8]) -> Self {
        let [low, middle, high, ..] = foreground.to_le_bytes();
        Self {
            bytes: number(bytes),
            pixels: number(pixels),
            foreground: [low, middle, high],
            insert: insert == 1,
            first_row: first_row == 1,
            orders: number(orders),
        }
    }

    fn numbers(self) -> [u64; 8] {
        let [low, middle, high] = self.foreground;
        [
            self.bytes as u64,
            self.pixels as u64,
            u64::from_le_bytes([low, middle, high, 0, 0, 0, 0, 0]),
            u64::from(self.insert),
            u64::from(self.first_row),
            self.orders as u64,
            0,
            0,
        ]
    }
}

/// How far a call of [`Decoder::decode_some`] came.
#[derive(Clone, Copy, Debug, PartialEq, Eq)]
#[must_use = "a stream that is paused has more orders"]
pub enum Progress {
    /// So many orders as wanted are completed, and the stream goes on behind them.
    Paused,
    /// The stream's end is reached; the picture has this format.
    Ended(RlePixelFormat),
}

/// Why a call of [`Decoder::decode_some`] was refused.
#[derive(Clone, Debug, PartialEq, Eq)]
pub enum ResumeError {
    /// As in decoding without a pause.
    Refused(Refusal),
    /// The state is none of this stream and this picture: its bytes are more than the stream's, its
    /// pixels more than the picture's, its orders more than its pixels, the first row is said to
    /// have ended with less than a row painted, or a byte of the foreground that the depth does not
    /// use is not 0. This is tested after the target's length and before the stream, and no byte of
    /// the target changes.
    BadState,
}

impl From<Refusal> for ResumeError {
    fn from(refusal: Refusal) -> Self {
        Self::Refused(refusal)
    }
}

impl fmt::Display for ResumeError {
    fn fmt(&self, f: &mut fmt::Formatter<'_>) -> fmt::Result {
        match self {
            Self::Refused(refusal) => refusal.fmt(f),
            Self::BadState => write!(
                f,
                "decoding cannot go on from this state: it is none of this stream and this picture"
            ),
        }
    }
}

impl Error for ResumeError {}

/// Decodes a stream some orders at a time. Between two calls the target can be looked at and, past
/// the painted pixels, drawn on.
///
/// Wherever the calls pause, the counts and the painted bytes are in the end those that
/// [`decompress_into`](crate::decompress_into) gives for the stream in one call, and so is a
/// refusal. That is so if each call gets the same stream and a target that has the pixels painted so
/// far: nothing else may write these, since the orders of later rows look at them. Each call does
/// the work of its own orders alone.
///
/// ```
/// use nulambiro::{Decoder, Progress, RlePixelFormat};
///
/// // A row of white, two pixels of 7, and two pixels that invert the row above.
/// let stream = [0x24, 0x62, 7, 0x22];
/// let mut picture = [0; 8];
/// let mut decoder = Decoder::new(4, 2, 8)?;
/// let mut shown = vec![];
/// while decoder.decode_some(&stream, &mut picture, 1)? == Progress::Paused {
///     // A mark where the next pixel comes.
///     picture[decoder.pixels()] = 0x2A;
///     shown.push(picture);
/// }
/// assert_eq!(shown[0], [0xFF, 0xFF, 0xFF, 0xFF, 0x2A, 0, 0, 0]);
/// assert_eq!(shown[1], [0xFF, 0xFF, 0xFF, 0xFF, 7, 7, 0x2A, 0]);
/// assert_eq!(picture, [0xFF, 0xFF, 0xFF, 0xFF, 7, 7, 0, 0]);
/// assert_eq!((decoder.orders(), decoder.pixels()), (3, 8));
/// # Ok::<(), nulambiro::ResumeError>(())
/// ```
#[derive(Clone, Debug)]
pub struct Decoder {
    width: usize,
    height: usize,
    bpp: usize,
    state: State,
    pixels: usize,
    orders: usize,
}

impl Decoder {
    /// Returns a decoder at the start of a stream for a picture of this size and depth.
    ///
    /// # Errors
    ///
    /// The first of [`Refusal::InvalidBpp`], [`Refusal::EmptyImage`] and
    /// [`Refusal::DimensionsTooLarge`] that applies.
    pub fn new(width: usize, height: usize, bpp: usize) -> Result<Self, Refusal> {
        Self::resume(width, height, bpp, State::start(bpp))
    }

    /// Returns a decoder that goes on from a state, for the picture that the state belongs to.
    ///
    /// The state may come from [`state`](Self::state) of this or of another decoder, or have been
    /// stored in between. Going on from one once more repeats what came behind it, if the pixels
    /// that were painted then are in the target.
    ///
    /// ```
    /// use nulambiro::{Decoder, Progress, RlePixelFormat};
    ///
    /// let stream = [0x24, 0x62, 7, 0x22];
    /// let mut picture = [0; 8];
    /// let mut decoder = Decoder::new(4, 2, 8)?;
    /// assert_eq!(decoder.decode_some(&stream, &mut picture, 2)?, Progress::Paused);
    /// let kept = decoder.state();
    /// drop(decoder);
    ///
    /// let mut decoder = Decoder::resume(4, 2, 8, kept)?;
    /// assert_eq!((decoder.orders(), decoder.pixels()), (2, 6));
    /// let progress = decoder.decode_some(&stream, &mut picture, usize::MAX)?;
    /// assert_eq!(progress, Progress::Ended(RlePixelFormat::Rgb8));
    /// assert_eq!(picture, [0xFF, 0xFF, 0xFF, 0xFF, 7, 7, 0, 0]);
    /// # Ok::<(), nulambiro::ResumeError>(())
    /// ```
    ///
    /// # Errors
    ///
    /// As [`new`](Self::new). Whether the state is one to go on from,
    /// [`decode_some`](Self::decode_some) tests: that depends on the stream.
    pub fn resume(width: usize, height: usize, bpp: usize, state: State) -> Result<Self, Refusal> {
        picture_len(width, height, bpp)?;
        Ok(Self {
            width,
            height,
            bpp,
            state,
            pixels: state.pixels,
            orders: state.orders,
        })
    }

    /// Decodes at most `limit` orders of `src` into `dst`, from where the last call has paused.
    ///
    /// Where the stream goes on behind `limit` orders, decoding pauses; with a `limit` of 0 at once.
    /// Where the stream ends with the last one of them, it has ended. Called again after the end or
    /// a refusal, the decoder goes on from its last pause once more, and answers the same.
    ///
    /// The bytes of `dst` behind the pixels painted so far stay, and so do those before the pixels
    /// that this call paints.
    ///
    /// # Errors
    ///
    /// [`Refusal::BufferTooShort`], then [`ResumeError::BadState`], both before anything is
    /// painted; then the refusals that come from the stream, with the pixels before them painted.
    pub fn decode_some(
        &mut self,
        src: &[u8],
        dst: &mut [u8],
        limit: usize,
    ) -> Result<Progress, ResumeError> {
        let (width, height, bpp) = (self.width, self.height, self.bpp);
        let mut state = self.state.numbers();
        let report = ffi_pauses::decompress_some(src, dst, width, height, bpp, limit, &mut state);
        let [format, refusal, _, _, pixels, orders, ..] = report;
        match refusal {
            15 => return Err(ResumeError::BadState),
            // Before the stream: what is painted and completed so far stays so.
            1..=4 => {}
            _ => (self.pixels, self.orders) = (number(pixels), number(orders)),
        }
        if (format, refusal) == (0, 0) {
            self.state = State::from_numbers(state);
            return Ok(Progress::Paused);
        }
        Ok(Progress::Ended(Report::from_numbers(report).outcome?))
    }

    /// Returns where decoding has paused last, or the state that it began with.
    #[must_use]
    pub fn state(&self) -> State {
        self.state
    }

    /// Returns how many pixels are painted, counted from the start of the stream; also those that
    /// the last call painted before it came to the stream's end or to a refusal in it.
    #[must_use]
    pub fn pixels(&self) -> usize {
        self.pixels
    }

    /// Returns how many orders are completed, counted as the pixels are.
    #[must_use]
    pub fn orders(&self) -> usize {
        self.orders
    }
}
