// The inputs of the benchmark: entries for lines 0 to 7, and a full sheet of 4,096 instructions that uses every operation.

/// Lower and upper bound of each line, in tenths.
pub const ENTRIES: [(i32, i32); 8] = [
    (102, 104),
    (42, 46),
    (-13, 21),
    (70, 71),
    (15, 16),
    (-90, 120),
    (-20, 30),
    (-500, 500),
];

/// One block: (x + y) z - c; a quotient, its negation and square; a parted quotient, joined and met; orders and connectives; a pick.
const BLOCK: [(u8, u8); 47] = [
    (0x01, 0), (0x01, 1), (0x04, 0), (0x01, 2), (0x06, 0), (0x02, 0), (0x05, 0), (0x03, 8),
    (0x01, 3), (0x01, 4), (0x07, 0), (0x09, 0), (0x0F, 0), (0x0A, 0), (0x0B, 0), (0x03, 9),
    (0x01, 5), (0x01, 6), (0x08, 0), (0x0D, 0), (0x01, 7), (0x0E, 0), (0x03, 10),
    (0x01, 0), (0x01, 1), (0x0C, 0), (0x03, 11),
    (0x01, 0), (0x01, 1), (0x10, 0), (0x01, 2), (0x01, 3), (0x11, 0), (0x13, 0), (0x15, 0),
    (0x01, 4), (0x01, 5), (0x12, 0), (0x14, 0),
    (0x01, 0), (0x01, 1), (0x16, 0), (0x03, 12),
    (0x01, 0), (0x01, 1), (0x10, 0), (0x17, 0),
];

/// The rest, up to 4,096.
const REST: [(u8, u8); 7] = [(0x01, 0), (0x09, 0), (0x03, 13), (0x01, 1), (0x03, 14), (0x01, 2), (0x03, 15)];

pub fn instructions() -> Vec<(u8, u8)> {
    let mut all = Vec::new();
    for _ in 0..87 {
        all.extend_from_slice(&BLOCK);
    }
    all.extend_from_slice(&REST);
    assert_eq!(all.len(), 4096);
    all
}

/// The entries as padrun reads them, 18 bytes each.
pub fn entry_bytes() -> Vec<u8> {
    let mut bytes = Vec::new();
    for (line, (lower, upper)) in ENTRIES.iter().enumerate() {
        bytes.extend_from_slice(&[line as u8, 0]);
        for p in [lower, upper] {
            bytes.extend_from_slice(&p.to_le_bytes());
            bytes.extend_from_slice(&10u32.to_le_bytes());
        }
    }
    bytes
}

/// The sheet's file: one constant, 1/3, and the instructions.
pub fn sheet_bytes() -> Vec<u8> {
    let mut bytes = Vec::new();
    bytes.extend_from_slice(&1i32.to_le_bytes());
    bytes.extend_from_slice(&3u32.to_le_bytes());
    let all = instructions();
    for (operation, argument) in &all {
        bytes.extend_from_slice(&[*operation, *argument]);
    }
    let far = 12 + 2 * all.len() as u32;
    bytes.extend_from_slice(&(far + 8).to_le_bytes());
    bytes.extend_from_slice(&far.to_le_bytes());
    bytes.extend_from_slice(&1u16.to_le_bytes());
    bytes.extend_from_slice(&(all.len() as u16).to_le_bytes());
    bytes
}
