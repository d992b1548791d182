//! Streams of the library decoded by FreeRDP and by rdesktop.

use crate::case::Picture;
use crate::oracle::OLD;
use crate::peers::{Peers, Sizes};
use crate::subject::Subject;
use std::path::PathBuf;
use std::process::{exit, Command};
use std::{env, fs};

/// Pictures that rdesktop decodes at a time, in bytes.
const BATCH: usize = 1 << 26;

pub struct Outside {
    freerdp: Peers,
    rdesktop: Option<Rdesktop>,
}

/// rdesktop as a program: a preloaded library has it decode a file of streams, and write the
/// pictures to another.
struct Rdesktop {
    program: PathBuf,
    preload: PathBuf,
    folder: PathBuf,
    /// The streams as that library reads them, and the pictures that are due.
    streams: Vec<u8>,
    due: Vec<(Picture, Vec<u8>)>,
    bytes: usize,
    decoded: usize,
}

impl Outside {
    /// The script `run` says by `PEERS_LIB`, `RDESKTOP`, `RD_PRELOAD` and `RD_FOLDER` what there
    /// is.
    pub fn from_environment() -> Self {
        let path = |name| env::var_os(name).map(PathBuf::from);
        let rdesktop = (|| {
            Some(Rdesktop {
                program: path("RDESKTOP")?,
                preload: path("RD_PRELOAD")?,
                folder: path("RD_FOLDER")?,
                streams: Vec::new(),
                due: Vec::new(),
                bytes: 0,
                decoded: 0,
            })
        })();
        Self {
            freerdp: Peers::load().unwrap_or_else(|| stop("PEERS_LIB names no library")),
            rdesktop,
        }
    }

    /// Encodes the picture, and ends the program where FreeRDP does not give it back.
    pub fn check(&mut self, subject: Subject) {
        let Subject { pixels, picture } = subject;
        let Picture { width, height, bpp } = picture;
        let stream = nulambiro::compress(pixels, width, height, bpp).expect("a good picture");
        let sizes = Sizes { width, height, bpp };
        // Over old bytes that differ in every bit, so that none of them can pass for a painted one.
        for old in OLD {
            let decoded = self.freerdp.decode_by_freerdp(&stream, sizes, old);
            if decoded.as_deref() != Some(pixels) {
                differs("FreeRDP", subject);
            }
        }
        if let Some(rdesktop) = &mut self.rdesktop {
            rdesktop.take(subject, &stream);
        }
    }

    pub fn finish(&mut self) {
        match &mut self.rdesktop {
            Some(rdesktop) => {
                rdesktop.decode();
                println!("all by FreeRDP, and {} by rdesktop", rdesktop.decoded);
            }
            None => println!("all by FreeRDP; there is no rdesktop"),
        }
    }
}

impl Rdesktop {
    fn take(&mut self, subject: Subject, stream: &[u8]) {
        let shape = subject.picture.shape();
        for number in [
            shape.width,
            shape.height,
            shape.bytes_per_pixel,
            stream.len(),
        ] {
            self.streams.extend((number as u32).to_le_bytes());
        }
        self.streams.extend_from_slice(stream);
        self.due.push((subject.picture, subject.pixels.to_vec()));
        self.bytes += subject.pixels.len();
        if self.bytes >= BATCH {
            self.decode();
        }
    }

    /// Has it decode all streams taken so far, and ends the program at the first other picture.
    fn decode(&mut self) {
        let (from, to) = (self.folder.join("streams"), self.folder.join("pictures"));
        fs::write(&from, &self.streams).unwrap_or_else(|error| stop(&error.to_string()));
        let status = Command::new(&self.program)
            .env("LD_PRELOAD", &self.preload)
            .env("RD_IN", &from)
            .env("RD_OUT", &to)
            .status();
        match status {
            Ok(status) if status.success() => {}
            other => stop(&format!("rdesktop: {other:?}")),
        }
        let pictures = fs::read(&to).unwrap_or_else(|error| stop(&error.to_string()));
        let mut rest = &pictures[..];
        for (picture, due) in self.due.drain(..) {
            // A byte says whether the stream was decoded; the picture follows.
            if rest.first() != Some(&1) || rest.get(1..1 + due.len()) != Some(&due) {
                let pixels = &due;
                differs("rdesktop", Subject { pixels, picture });
            }
            rest = &rest[1 + due.len()..];
            self.decoded += 1;
        }
        self.streams.clear();
        self.bytes = 0;
        for file in [from, to] {
            fs::remove_file(file).unwrap_or_else(|error| stop(&error.to_string()));
        }
    }
}

fn differs(who: &str, subject: Subject) -> ! {
    println!("{who} gives another picture:\n{subject}");
    exit(1);
}

fn stop(message: &str) -> ! {
    eprintln!("encoder: {message}");
    exit(2);
}
