// The pad from its static library beside plain Rust, on the same sheet: nanoseconds for one working of 4,096 instructions, and for filing and clearing.
mod plain;
mod sheet;

use std::hint::black_box;
use std::time::Instant;

unsafe extern "C" {
    fn pad_ruled(division: u32, entries: *const u8, entries_length: usize, sheet: *const u8, sheet_length: usize, rounds: u32) -> i64;
    fn pad_sliding(entries: *const u8, entries_length: usize, sheet: *const u8, sheet_length: usize, rounds: u32) -> i64;
    fn pad_clear(sheet: *const u8, sheet_length: usize, rounds: u32) -> u32;
}

const ROUNDS: u32 = 400;

/// The least time of several runs, for each round.
fn least(rounds: u32, mut run: impl FnMut() -> i64) -> (f64, i64) {
    let mut best = f64::MAX;
    let mut answer = 0;
    for _ in 0..7 {
        let start = Instant::now();
        answer = black_box(run());
        best = best.min(start.elapsed().as_nanos() as f64 / rounds as f64);
    }
    (best, answer)
}

fn plain_work<S: plain::Scale>(scale: S, sheet: &plain::Sheet) -> i64 {
    let mut pad = plain::Pad::new(scale);
    for (line, (lower, upper)) in sheet::ENTRIES.iter().enumerate() {
        pad.enter(line, (*lower, 10), (*upper, 10));
    }
    let mut ranges = [plain::BLANK; 256];
    let mut verdicts = [plain::Verdict::Void; 64];
    for _ in 0..ROUNDS {
        pad.work(black_box(sheet), &mut ranges, &mut verdicts);
    }
    pad.checksum()
}

fn main() {
    let entries = sheet::entry_bytes();
    let bytes = sheet::sheet_bytes();
    let read = plain::Sheet::read(&bytes);
    let (e, s) = ((entries.as_ptr(), entries.len()), (bytes.as_ptr(), bytes.len()));

    let (pad, one) = least(ROUNDS, || unsafe { pad_ruled(100, e.0, e.1, s.0, s.1, ROUNDS) });
    let (plain, two) = least(ROUNDS, || plain_work(plain::Ruled(100), &read));
    assert_eq!(one, two, "the pad and the plain code differ on the ruled scale");
    println!("ruled pad {pad:.0}");
    println!("ruled plain {plain:.0}");

    let (pad, one) = least(ROUNDS, || unsafe { pad_sliding(e.0, e.1, s.0, s.1, ROUNDS) });
    let (plain, two) = least(ROUNDS, || plain_work(plain::Sliding, &read));
    assert_eq!(one, two, "the pad and the plain code differ on the sliding scale");
    println!("sliding pad {pad:.0}");
    println!("sliding plain {plain:.0}");

    let (clear, cleared) = least(ROUNDS, || unsafe { pad_clear(s.0, s.1, ROUNDS) as i64 });
    assert_eq!(cleared, ROUNDS as i64, "the sheet was not cleared");
    let mut copy = vec![0u8; bytes.len()];
    let (copied, _) = least(ROUNDS, || {
        for _ in 0..ROUNDS {
            copy.copy_from_slice(black_box(&bytes));
            black_box(&copy);
        }
        0
    });
    println!("clear pad {clear:.0}");
    println!("clear copy {copied:.0}");
}
