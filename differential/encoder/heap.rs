//! The check that is made under valgrind: every buffer is a heap block of exactly its length, so a
//! byte read or written outside of it is found. Outputs are not initialized first: comparing a byte
//! of the stream that was not written is then an error too.

use crate::library::{encode_in_new_block, refused, written, Report};
use crate::rule;
use crate::subject::Subject;
use nulambiro::compress_bound;

pub fn check(subject: Subject) -> Result<(), String> {
    let pixels: Box<[u8]> = subject.pixels.into();
    let subject = Subject {
        pixels: &pixels,
        ..subject
    };
    let (picture, needed) = (subject.picture, pixels.len());
    let shape = picture.shape();
    let stream = rule::encode(&pixels, shape.width, shape.bytes_per_pixel);
    let bound = compress_bound(picture.width, picture.height, picture.bpp);
    for room in [stream.len(), bound, bound + 61] {
        expect(subject, room, written(stream.len()), &stream)?;
    }
    for room in [0, stream.len() / 2, stream.len() - 1] {
        expect(subject, room, refused(14, 0, 0), &[])?;
    }
    let fewer: Box<[u8]> = pixels[..needed - 1].into();
    let subject = Subject {
        pixels: &fewer,
        ..subject
    };
    expect(subject, bound, refused(4, needed, needed - 1), &[])
}

/// Looks at every place of the report and every byte of the stream: valgrind then sees one that the
/// library did not write.
fn expect(subject: Subject, room: usize, expected: Report, stream: &[u8]) -> Result<(), String> {
    let (report, found) = encode_in_new_block(subject, room);
    if report == expected && found == stream {
        return Ok(());
    }
    Err(format!(
        "output of {room} bytes: wrong report or stream, {report:?}"
    ))
}
