//! Outside codecs, from a shared library that is built over the peers' `peers.c`: FreeRDP's decoder
//! and encoder, and xrdp's encoder. They are not part of this repository; `PEERS` names their
//! folder.

// Each program uses a part.
#![allow(dead_code)]

use std::env;
use std::ffi::{c_char, c_int, c_long, c_void, CString};
use std::mem::transmute_copy;

extern "C" {
    fn dlopen(path: *const c_char, flags: c_int) -> *mut c_void;
    fn dlsym(library: *mut c_void, name: *const c_char) -> *mut c_void;
}

const RTLD_NOW: c_int = 2;

type Start = unsafe extern "C" fn() -> c_int;
type FreerdpDecode =
    unsafe extern "C" fn(*const u8, u32, u32, u32, u32, c_int, *mut u8, usize) -> c_int;
type FreerdpEncode = unsafe extern "C" fn(*const u8, u32, u32, u32, *mut u8, u32) -> c_long;
type XrdpEncode = unsafe extern "C" fn(
    *const u8,
    c_int,
    c_int,
    c_int,
    c_int,
    *mut u8,
    c_int,
    *mut c_int,
) -> c_long;

/// What a codec needs to know beside the bytes.
#[derive(Clone, Copy)]
pub struct Sizes {
    pub width: usize,
    pub height: usize,
    pub bpp: usize,
}

impl Sizes {
    fn numbers(self) -> [u32; 3] {
        [self.width, self.height, self.bpp].map(|number| number as u32)
    }
}

/// Bytes that the encoders may write.
pub const ROOM: usize = 1 << 20;

pub struct Peers {
    freerdp_decode: FreerdpDecode,
    freerdp_encode: FreerdpEncode,
    /// Where its library is there.
    xrdp_encode: Option<XrdpEncode>,
}

impl Peers {
    /// Loads the library that `PEERS_LIB` names, if it names one.
    pub fn load() -> Option<Self> {
        let path = env::var("PEERS_LIB").ok()?;
        let path_of_c = CString::new(path.clone()).expect("a path has no zero byte");
        // SAFETY: the path is a C string.
        let library = unsafe { dlopen(path_of_c.as_ptr(), RTLD_NOW) };
        assert!(!library.is_null(), "PEERS_LIB: {path} does not load");
        let find = |name: &str| {
            let name_of_c = CString::new(name).expect("a name has no zero byte");
            // SAFETY: the library is open, and the name is a C string.
            let found = unsafe { dlsym(library, name_of_c.as_ptr()) };
            assert!(!found.is_null(), "PEERS_LIB: {path} has no {name}");
            found
        };
        // SAFETY: peers.h declares these functions with these types.
        unsafe {
            let [freerdp, xrdp] = ["fr_init", "xr_init"].map(find);
            let start = |function| transmute_copy::<*mut c_void, Start>(&function)() != 0;
            assert!(start(freerdp), "FreeRDP does not start");
            Some(Self {
                freerdp_decode: transmute_copy(&find("fr_decode_raw")),
                freerdp_encode: transmute_copy(&find("fr_compress")),
                xrdp_encode: start(xrdp).then(|| transmute_copy(&find("xr_bitmap_compress"))),
            })
        }
    }

    pub fn has_xrdp(&self) -> bool {
        self.xrdp_encode.is_some()
    }

    /// Decodes by FreeRDP over bytes of this value; `None` where it refuses.
    pub fn decode_by_freerdp(&self, stream: &[u8], sizes: Sizes, old: u8) -> Option<Vec<u8>> {
        let [width, height, bpp] = sizes.numbers();
        let mut picture = vec![0; sizes.width * sizes.height * sizes.bpp.div_ceil(8)];
        // SAFETY: stream and picture are valid for their lengths.
        let decoded = unsafe {
            (self.freerdp_decode)(
                stream.as_ptr(),
                stream.len() as u32,
                width,
                height,
                bpp,
                c_int::from(old),
                picture.as_mut_ptr(),
                picture.len(),
            )
        };
        (decoded != 0).then_some(picture)
    }

    /// Encodes by FreeRDP what [`for_peers`] made; returns the stream's length, `None` where it
    /// refuses.
    pub fn encode_by_freerdp(&self, rows: &[u8], sizes: Sizes, output: &mut [u8]) -> Option<usize> {
        assert!(output.len() >= ROOM);
        let [width, height, bpp] = sizes.numbers();
        let (from, to) = (rows.as_ptr(), output.as_mut_ptr());
        // SAFETY: the rows are those of the picture, and the output has this room.
        let length = unsafe { (self.freerdp_encode)(from, width, height, bpp, to, ROOM as u32) };
        usize::try_from(length).ok()
    }

    /// Encodes by xrdp what [`for_peers`] made; returns the stream's length, `None` where not all
    /// rows are in it.
    pub fn encode_by_xrdp(&self, rows: &[u8], sizes: Sizes, output: &mut [u8]) -> Option<usize> {
        assert!(output.len() >= ROOM);
        let encode = self.xrdp_encode?;
        let [width, height, bpp] = sizes.numbers().map(|number| number as c_int);
        let (from, to) = (rows.as_ptr(), output.as_mut_ptr());
        let mut lines = 0;
        // SAFETY: the rows are those of the picture, and the output has this room.
        let length = unsafe { encode(from, width, height, bpp, 0, to, ROOM as c_int, &mut lines) };
        (lines == height)
            .then(|| usize::try_from(length).ok())
            .flatten()
    }
}

/// A picture as these encoders take it: the last row first, and pixels of three bytes in four.
pub fn for_peers(pixels: &[u8], width: usize, bytes_per_pixel: usize) -> Vec<u8> {
    let mut rows = Vec::with_capacity(pixels.len() / bytes_per_pixel * 4);
    for row in pixels.chunks(width * bytes_per_pixel).rev() {
        for pixel in row.chunks(bytes_per_pixel) {
            rows.extend_from_slice(pixel);
            if bytes_per_pixel == 3 {
                rows.push(0);
            }
        }
    }
    rows
}
