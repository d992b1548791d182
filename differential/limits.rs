//! Sides and depths near every limit, and some that are good if their high bits are lost.

pub const SIDES: [usize; 13] = [
    0,
    1,
    2,
    4,
    8191,
    8192,
    8193,
    1 << 16,
    (1 << 16) + 4,
    1 << 32,
    (1 << 32) + 4,
    usize::MAX - 1,
    usize::MAX,
];

pub const BPPS: [usize; 18] = [
    0,
    1,
    7,
    8,
    9,
    14,
    15,
    16,
    17,
    23,
    24,
    25,
    32,
    264,
    65_544,
    (1 << 32) + 8,
    usize::MAX - 1,
    usize::MAX,
];
