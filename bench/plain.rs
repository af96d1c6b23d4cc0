// The same rules in plain Rust, with no contracts and no proofs: what a programmer would write at once.

#[derive(Clone, Copy, PartialEq, Debug)]
pub struct Range {
    pub lower: i64,
    pub upper: i64,
}

pub const BLANK: Range = Range { lower: i64::MAX, upper: i64::MIN };

pub trait Scale {
    fn lowest(&self) -> i64;
    fn highest(&self) -> i64;
    fn parts(&self) -> i64;
    /// How many parts of 1 the code counts; none where its place is infinite.
    fn count(&self, code: i64) -> Option<i64>;
    fn fitted(&self, up: bool, count: i128) -> i64;

    fn infinite(&self, up: bool) -> i64 {
        if up { self.highest() } else { self.lowest() }
    }
    fn divided(&self, up: bool, n: i128, d: i128) -> i64 {
        let (n, d) = if d < 0 { (-n, -d) } else { (n, d) };
        let n = if up { n + (d - 1) } else { n };
        self.fitted(up, n.div_euclid(d))
    }
    fn sum(&self, up: bool, a: i64, b: i64) -> i64 {
        match (self.count(a), self.count(b)) {
            (Some(x), Some(y)) => self.fitted(up, x as i128 + y as i128),
            _ => self.infinite(up),
        }
    }
    fn difference(&self, up: bool, a: i64, b: i64) -> i64 {
        match (self.count(a), self.count(b)) {
            (Some(x), Some(y)) => self.fitted(up, x as i128 - y as i128),
            _ => self.infinite(up),
        }
    }
    fn product(&self, up: bool, a: i64, b: i64) -> i64 {
        match (self.count(a), self.count(b)) {
            (Some(x), Some(y)) => self.divided(up, x as i128 * y as i128, self.parts() as i128),
            _ => self.infinite(up),
        }
    }
    fn quotient(&self, up: bool, a: i64, b: i64) -> i64 {
        match (self.count(a), self.count(b)) {
            (Some(x), Some(y)) if y != 0 => self.divided(up, x as i128 * self.parts() as i128, y as i128),
            _ => self.infinite(up),
        }
    }
    fn fraction(&self, up: bool, p: i32, q: u32) -> i64 {
        self.divided(up, p as i128 * self.parts() as i128, q as i128)
    }
}

pub struct Ruled(pub u32);

impl Scale for Ruled {
    fn lowest(&self) -> i64 {
        -2147483647 * self.0 as i64 - 1
    }
    fn highest(&self) -> i64 {
        2147483647 * self.0 as i64 + 1
    }
    fn parts(&self) -> i64 {
        self.0 as i64
    }
    fn count(&self, code: i64) -> Option<i64> {
        if self.lowest() < code && code < self.highest() { Some(code) } else { None }
    }
    fn fitted(&self, up: bool, count: i128) -> i64 {
        let limit = 2147483647 * self.0 as i128;
        let (low, high) = if up { (-limit, limit + 1) } else { (-limit - 1, limit) };
        count.clamp(low, high) as i64
    }
}

pub struct Sliding;

fn sliding_count(code: i64) -> i64 {
    if code < 4096 { code } else { (4096 + code % 4096) << (code / 4096 - 1) }
}

fn sliding_floor(count: i64) -> i64 {
    if count < 8192 {
        return count;
    }
    let block = 63 - count.leading_zeros() as i64 - 12;
    block * 4096 + (count >> block)
}

impl Scale for Sliding {
    fn lowest(&self) -> i64 {
        -81920
    }
    fn highest(&self) -> i64 {
        81920
    }
    fn parts(&self) -> i64 {
        4096
    }
    fn count(&self, code: i64) -> Option<i64> {
        if code <= -81920 || 81920 <= code {
            None
        } else if code < 0 {
            Some(-sliding_count(-code))
        } else {
            Some(sliding_count(code))
        }
    }
    fn fitted(&self, up: bool, count: i128) -> i64 {
        let most = sliding_count(81919) as i128;
        if count > most {
            return if up { 81920 } else { 81919 };
        }
        if count < -most {
            return if up { -81919 } else { -81920 };
        }
        let count = count as i64;
        let outwards = up == (count >= 0);
        let size = count.abs();
        let mut code = sliding_floor(size);
        if outwards && sliding_count(code) < size {
            code += 1;
        }
        if count < 0 { -code } else { code }
    }
}

#[derive(Clone, Copy, PartialEq, Debug)]
pub enum Verdict {
    Certain,
    Impossible,
    Open,
    Void,
}

fn verdict(can_be_true: bool, can_be_false: bool) -> Verdict {
    match (can_be_true, can_be_false) {
        (true, true) => Verdict::Open,
        (true, false) => Verdict::Certain,
        (false, true) => Verdict::Impossible,
        (false, false) => Verdict::Void,
    }
}

fn truths(v: Verdict) -> (bool, bool) {
    match v {
        Verdict::Certain => (true, false),
        Verdict::Impossible => (false, true),
        Verdict::Open => (true, true),
        Verdict::Void => (false, false),
    }
}

pub struct Pad<S> {
    pub scale: S,
    pub lines: [Option<Range>; 32],
    pub flags: [Option<Verdict>; 32],
}

impl<S: Scale> Pad<S> {
    pub fn new(scale: S) -> Pad<S> {
        Pad { scale, lines: [None; 32], flags: [None; 32] }
    }

    fn is_blank(&self, r: Range) -> bool {
        self.scale.highest() <= r.lower || r.upper <= self.scale.lowest() || r.upper < r.lower
    }

    pub fn enter(&mut self, line: usize, lower: (i32, u32), upper: (i32, u32)) {
        let lower = self.scale.fraction(false, lower.0, lower.1);
        let upper = self.scale.fraction(true, upper.0, upper.1);
        self.lines[line] = Some(Range { lower, upper });
    }

    fn sign(&self, code: i64) -> i32 {
        code.signum() as i32
    }

    fn infinite(&self, code: i64) -> bool {
        code <= self.scale.lowest() || self.scale.highest() <= code
    }

    fn utmost(&self, sign: i32) -> i64 {
        match sign {
            1 => self.scale.highest(),
            0 => 0,
            _ => self.scale.lowest(),
        }
    }

    fn product_corner(&self, up: bool, a: i64, b: i64) -> i64 {
        if self.infinite(a) || self.infinite(b) {
            return self.utmost(self.sign(a) * self.sign(b));
        }
        self.scale.product(up, a, b)
    }

    fn product(&self, x: Range, y: Range) -> Range {
        if self.is_blank(x) || self.is_blank(y) {
            return BLANK;
        }
        let end = |up: bool| {
            let all = [
                self.product_corner(up, x.lower, y.lower),
                self.product_corner(up, x.lower, y.upper),
                self.product_corner(up, x.upper, y.lower),
                self.product_corner(up, x.upper, y.upper),
            ];
            if up { *all.iter().max().unwrap() } else { *all.iter().min().unwrap() }
        };
        Range { lower: end(false), upper: end(true) }
    }

    /// One over the divisor's end on a side of 0; the end that touches or crosses 0 counts as coming near it.
    fn quotient_corner(&self, up: bool, positive: bool, a: i64, b: i64) -> i64 {
        let beyond = if positive { b <= 0 } else { b >= 0 };
        if beyond {
            let side = if positive { 1 } else { -1 };
            return self.utmost(self.sign(a) * side);
        }
        if self.infinite(b) {
            return 0;
        }
        if self.infinite(a) {
            return self.utmost(self.sign(a) * self.sign(b));
        }
        self.scale.quotient(up, a, b)
    }

    fn quotient_on(&self, positive: bool, x: Range, y: Range) -> Range {
        let reached = if positive { y.upper > 0 } else { y.lower < 0 };
        if self.is_blank(x) || self.is_blank(y) || !reached {
            return BLANK;
        }
        let end = |up: bool| {
            let all = [
                self.quotient_corner(up, positive, x.lower, y.lower),
                self.quotient_corner(up, positive, x.lower, y.upper),
                self.quotient_corner(up, positive, x.upper, y.lower),
                self.quotient_corner(up, positive, x.upper, y.upper),
            ];
            if up { *all.iter().max().unwrap() } else { *all.iter().min().unwrap() }
        };
        Range { lower: end(false), upper: end(true) }
    }

    fn join(&self, x: Range, y: Range) -> Range {
        if self.is_blank(x) {
            return y;
        }
        if self.is_blank(y) {
            return x;
        }
        Range { lower: x.lower.min(y.lower), upper: x.upper.max(y.upper) }
    }

    fn tidy(&self, r: Range) -> Range {
        if self.is_blank(r) { BLANK } else { r }
    }

    /// Works a sheet that has been cleared.
    pub fn work(&mut self, sheet: &Sheet, ranges: &mut [Range], verdicts: &mut [Verdict]) {
        let (mut r, mut v) = (0usize, 0usize);
        for &[operation, argument] in &sheet.instructions {
            match operation {
                0x01 => {
                    ranges[r] = self.lines[argument as usize].unwrap();
                    r += 1;
                }
                0x02 => {
                    let (p, q) = sheet.constants[argument as usize];
                    ranges[r] = Range { lower: self.scale.fraction(false, p, q), upper: self.scale.fraction(true, p, q) };
                    r += 1;
                }
                0x03 => {
                    r -= 1;
                    self.lines[argument as usize] = Some(ranges[r]);
                }
                0x0F => {
                    ranges[r] = ranges[r - 1];
                    r += 1;
                }
                0x09 => {
                    let y = ranges[r - 1];
                    ranges[r - 1] = if self.is_blank(y) {
                        BLANK
                    } else {
                        Range { lower: self.scale.difference(false, 0, y.upper), upper: self.scale.difference(true, 0, y.lower) }
                    };
                }
                0x0A => {
                    let y = ranges[r - 1];
                    ranges[r - 1] = self.product(y, y);
                }
                0x08 => {
                    let (x, y) = (ranges[r - 2], ranges[r - 1]);
                    ranges[r - 2] = self.quotient_on(false, x, y);
                    ranges[r - 1] = self.quotient_on(true, x, y);
                }
                0x04..=0x0E => {
                    let (x, y) = (ranges[r - 2], ranges[r - 1]);
                    r -= 1;
                    let blank = self.is_blank(x) || self.is_blank(y);
                    ranges[r - 1] = match operation {
                        0x04 if blank => BLANK,
                        0x04 => Range { lower: self.scale.sum(false, x.lower, y.lower), upper: self.scale.sum(true, x.upper, y.upper) },
                        0x05 if blank => BLANK,
                        0x05 => Range { lower: self.scale.difference(false, x.lower, y.upper), upper: self.scale.difference(true, x.upper, y.lower) },
                        0x06 => self.product(x, y),
                        0x07 => {
                            let negative = self.quotient_on(false, x, y);
                            let positive = self.quotient_on(true, x, y);
                            self.join(negative, positive)
                        }
                        0x0B if blank => BLANK,
                        0x0B => Range { lower: x.lower.min(y.lower), upper: x.upper.min(y.upper) },
                        0x0C if blank => BLANK,
                        0x0C => Range { lower: x.lower.max(y.lower), upper: x.upper.max(y.upper) },
                        0x0D => self.join(x, y),
                        _ => self.tidy(Range { lower: x.lower.max(y.lower), upper: x.upper.min(y.upper) }),
                    };
                }
                0x10..=0x12 => {
                    let (x, y) = (ranges[r - 2], ranges[r - 1]);
                    r -= 2;
                    verdicts[v] = if self.is_blank(x) || self.is_blank(y) {
                        Verdict::Void
                    } else {
                        match operation {
                            0x10 => verdict(x.lower < y.upper, y.lower <= x.upper),
                            0x11 => verdict(x.lower <= y.upper, y.lower < x.upper),
                            _ => verdict(x.lower <= y.upper && y.lower <= x.upper, x.lower < y.upper || y.lower < x.upper),
                        }
                    };
                    v += 1;
                }
                0x13 | 0x14 => {
                    let (a, b) = (truths(verdicts[v - 2]), truths(verdicts[v - 1]));
                    v -= 1;
                    let there = |t: (bool, bool)| t.0 || t.1;
                    verdicts[v - 1] = if !there(a) || !there(b) {
                        Verdict::Void
                    } else if operation == 0x13 {
                        verdict(a.0 && b.0, a.1 || b.1)
                    } else {
                        verdict(a.0 || b.0, a.1 && b.1)
                    };
                }
                0x15 => {
                    let (t, f) = truths(verdicts[v - 1]);
                    verdicts[v - 1] = verdict(f, t);
                }
                0x16 => {
                    let (x, y) = (ranges[r - 2], ranges[r - 1]);
                    r -= 1;
                    v -= 1;
                    ranges[r - 1] = match verdicts[v] {
                        Verdict::Certain => x,
                        Verdict::Impossible => y,
                        Verdict::Open => self.join(x, y),
                        Verdict::Void => BLANK,
                    };
                }
                _ => {
                    v -= 1;
                    self.flags[argument as usize] = Some(verdicts[v]);
                }
            }
        }
        ranges.fill(BLANK);
        verdicts.fill(Verdict::Void);
    }

    /// The sum of the codes of all set lines, to compare runs by.
    pub fn checksum(&self) -> i64 {
        let mut all = 0i64;
        for line in self.lines.iter().flatten() {
            all = all.wrapping_mul(31).wrapping_add(line.lower).wrapping_mul(31).wrapping_add(line.upper);
        }
        all
    }
}

pub struct Sheet {
    pub constants: Vec<(i32, u32)>,
    pub instructions: Vec<[u8; 2]>,
}

impl Sheet {
    pub fn read(bytes: &[u8]) -> Sheet {
        let end = bytes.len();
        let word = |at: usize| u32::from_le_bytes(bytes[at..at + 4].try_into().unwrap());
        let half = |at: usize| u16::from_le_bytes(bytes[at..at + 2].try_into().unwrap()) as usize;
        let (k, n) = (half(end - 4), half(end - 2));
        let constants = end - word(end - 12) as usize;
        let instructions = end - word(end - 8) as usize;
        Sheet {
            constants: (0..k).map(|i| (word(constants + 8 * i) as i32, word(constants + 8 * i + 4))).collect(),
            instructions: (0..n).map(|i| [bytes[instructions + 2 * i], bytes[instructions + 2 * i + 1]]).collect(),
        }
    }
}
