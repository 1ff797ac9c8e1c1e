// Writes the list of vectors that the program `test_vectors` replays, and the summary that it must print.
//
//     tools/lists/run.sh vectors
//
// The list is the same at every run: the random part starts from a fixed seed. A line is 36 bytes: a letter, a space, the
// argument's 16 digits, a space, the answer's 16 digits, LF. Digits are lowercase hexadecimal, an f64 is its bits.
//
//     r  root       std's f64::sqrt
//     n  narrowing  std's `as f32`; eight zeros, then the f32's 8 digits
//     s  sine       `sin_cos` below, written from document 01's "Stand-ins"
//     c  cosine     likewise
//     k  counts     `counts` below, in exact integers; an answer n is n + 2^63, a refusal its number (12)
//
// Any NaN as an answer is 7ff8000000000000 (f32 7fc00000). Zeros keep their sign.
use std::collections::BTreeSet;
use std::io::Write;

const SEED: u64 = 0x5249_4654_4b45_5454;
const NAMES: [(u8, &str); 5] = [(b'r', "root"), (b'n', "narrow"), (b's', "sine"), (b'c', "cosine"), (b'k', "counts")];

// ---- the sources of the answers

fn bits(x: f64) -> u64 {
    if x.is_nan() { 0x7ff8_0000_0000_0000 } else { x.to_bits() }
}

fn narrow(x: f64) -> u64 {
    let y = x as f32;
    if y.is_nan() { 0x7fc0_0000 } else { y.to_bits() as u64 }
}

fn factorial(n: u64) -> f64 {
    (1..=n).product::<u64>() as f64
}

// Horner over the quotients sign/first!, -sign/(first - 2)!, .. down to one over last!.
fn horner(z: f64, sign: f64, first: u64, last: u64) -> f64 {
    let (mut sum, mut sign, mut n) = (sign / factorial(first), sign, first);
    while n > last {
        n -= 2;
        sign = -sign;
        sum = sum * z + sign / factorial(n);
    }
    sum
}

fn sin_cos(h: f64) -> (f64, f64) {
    if !(-12000.0..=12000.0).contains(&h) {
        return (f64::NAN, f64::NAN);
    }
    let i = f64::from_bits(0x3fe4_5f30_6dc9_c883);
    let p = f64::from_bits(0x3ff9_21fb_5440_0000);
    let q = f64::from_bits(0x3dd0_b461_1a62_6331);
    let n = (h * i + 0.5).floor();
    let r = (h - n * p) - n * q;
    let z = r * r;
    let s = r + r * (z * horner(z, -1.0, 15, 3));
    let c = 1.0 + z * horner(z, 1.0, 16, 2);
    match n.rem_euclid(4.0) as u8 {
        0 => (s, c),
        1 => (c, -s),
        2 => (-s, -c),
        _ => (-c, s),
    }
}

// The product's magnitude is mantissa × 2^exponent; its nearest whole number, a half going up, with the sign put back.
fn counts(v: f64) -> u64 {
    if !(v >= -80.0 && v <= 80.0) {
        return 12;
    }
    let pattern = (v * 10000.0).to_bits();
    let field = (pattern >> 52 & 0x7ff) as i32;
    let fraction = (pattern & 0xf_ffff_ffff_ffff) as u128;
    let (mantissa, exponent) = if field == 0 { (fraction, -1074) } else { (fraction + (1 << 52), field - 1075) };
    let magnitude = if exponent >= 0 {
        mantissa << exponent
    } else if exponent < -60 {
        0
    } else {
        let unit = 1u128 << -exponent;
        (2 * mantissa + unit) / (2 * unit)
    };
    let n = if pattern >> 63 == 1 { -(magnitude as i128) } else { magnitude as i128 };
    (n + (1i128 << 63)) as u64
}

fn answer(kind: u8, argument: u64) -> u64 {
    let x = f64::from_bits(argument);
    match kind {
        b'r' => bits(x.sqrt()),
        b'n' => narrow(x),
        b's' => bits(sin_cos(x).0),
        b'c' => bits(sin_cos(x).1),
        _ => counts(x),
    }
}

// ---- the list

fn around(x: f64) -> [f64; 3] {
    [x.next_down(), x, x.next_up()]
}

struct List {
    seen: BTreeSet<(u8, u64)>,
    lines: Vec<(u8, u64)>,
    state: u64,
}

impl List {
    // Splitmix64.
    fn random(&mut self) -> u64 {
        self.state = self.state.wrapping_add(0x9e37_79b9_7f4a_7c15);
        let mut z = self.state;
        z = (z ^ z >> 30).wrapping_mul(0xbf58_476d_1ce4_e5b9);
        z = (z ^ z >> 27).wrapping_mul(0x94d0_49bb_1331_11eb);
        z ^ z >> 31
    }

    // A number from -1 to 1.
    fn unit(&mut self) -> f64 {
        (self.random() >> 11) as f64 / (1u64 << 52) as f64 - 1.0
    }

    fn pattern(&mut self, kind: u8, argument: u64) {
        if self.seen.insert((kind, argument)) {
            self.lines.push((kind, argument));
        }
    }

    fn add(&mut self, kind: u8, x: f64) {
        self.pattern(kind, x.to_bits());
    }

    fn add_around(&mut self, kind: u8, x: f64) {
        for y in around(x) {
            self.add(kind, y);
        }
    }

    // One of three, in turn.
    fn rotate(&mut self, kind: u8, turn: i32, three: [f64; 3]) {
        self.add(kind, three[turn.rem_euclid(3) as usize]);
    }

    fn both(&mut self, h: f64) {
        self.add(b's', h);
        self.add(b'c', h);
    }

    // NaNs of several patterns, infinities, zeros, the least and the greatest finite numbers and one.
    fn specials(&mut self, kind: u8) {
        for pattern in [
            0x7ff8_0000_0000_0000,
            0x7ff0_0000_0000_0001,
            0x7fff_ffff_ffff_ffff,
            0x7ff0_0000_0000_0000,
            0,
            1,
            0x7fef_ffff_ffff_ffff,
            0x3ff0_0000_0000_0000,
        ] {
            self.pattern(kind, pattern);
            self.pattern(kind, pattern | 1 << 63);
        }
    }
}

// 2^k, subnormal ones included.
fn power(k: i32) -> f64 {
    if k < -1022 { f64::from_bits(1 << (k + 1074)) } else { f64::from_bits(((k + 1023) as u64) << 52) }
}

// The odd m with m×m = c modulo 2^width, for c = 1 modulo 8, one digit of m at a time.
fn square_root_modulo(c: i128, width: u32) -> u128 {
    let mut m: u128 = 1;
    for k in 3..width {
        if (m * m).wrapping_sub(c as u128) >> k & 1 == 1 {
            m += 1 << (k - 1);
        }
    }
    m % (1 << width)
}

// Numbers whose exact root lies as near to the middle of two f64 as can be: m odd of 54 digits, m×m a small c away
// from a number of 53 digits and zeros.
fn near_halfway(list: &mut List) {
    for j in 1..=24i128 {
        for c in [8 * j - 7, 1 - 8 * j] {
            for width in [54, 55] {
                let (s, whole) = (square_root_modulo(c, width), 1u128 << (width - 1));
                for m in [s % whole, whole - s % whole, s % whole + whole, 2 * whole - s % whole] {
                    let x = (m * m).wrapping_sub(c as u128);
                    if m >> 53 == 1 && x % (1 << width) == 0 && x >> (width + 53) == 0 && x >> (width + 52) == 1 {
                        let scale = (list.random() % 900) as i32 * 2 - 1000;
                        list.add(b'r', (x >> width) as f64 * power(scale + width as i32 % 2));
                    }
                }
            }
        }
    }
}

fn roots(list: &mut List) {
    list.specials(b'r');
    list.add(b'r', 2.0);
    for k in -1074..=1023 {
        list.rotate(b'r', k, [power(k), power(k).next_up(), (power(k) * 2.0).next_down()]);
    }
    for n in [2u64, 3, 5, 10, 255, 257, 65535, 1 << 20, 12345677, 67108863, 67108865, 94906265] {
        list.add_around(b'r', (n * n) as f64);
    }
    near_halfway(list);
    for _ in 0..60 {
        let pattern = list.random();
        list.pattern(b'r', pattern >> 12 >> pattern % 52);
        list.pattern(b'r', pattern >> 2);
    }
    for x in [-1.0, -2.0, -0.25, -1e300, -1e-310] {
        list.add(b'r', x);
    }
}

fn narrowings(list: &mut List) {
    list.specials(b'n');
    for sign in [1.0, -1.0] {
        for x in [1.0 + power(-24), 1.0 + 3.0 * power(-24), f32::MAX as f64, f32::MAX as f64 + power(103), power(128)] {
            list.add_around(b'n', sign * x);
        }
        for x in [power(-150), 3.0 * power(-150), 5.0 * power(-150), power(-126), power(-126) - power(-150), power(-151)] {
            list.add_around(b'n', sign * x);
        }
    }
    for k in -151..=128 {
        let sign = if list.random() % 2 == 0 { 1.0 } else { -1.0 };
        list.rotate(b'n', k, around(sign * power(k)));
        // halfway after an even and after an odd f32 of this exponent
        let unit = power((k - 23).max(-149));
        let steps = (list.random() % (1 << (k + 149).clamp(0, 23))) as f64;
        let even = sign * (power(k) + (steps - steps % 2.0) * unit);
        list.rotate(b'n', k + 1, around(even + sign * unit / 2.0));
        list.rotate(b'n', k + 2, around(even + sign * unit * 1.5));
    }
    for _ in 0..30 {
        let (r, x) = (list.random(), list.unit());
        list.pattern(b'n', r);
        list.add(b'n', x * power((r % 300) as i32 - 160));
    }
}

fn angles(list: &mut List) {
    for x in [0.0, power(-1074), power(-1022), power(-600), power(-30), 1e-9, 0.5, 1.0, 12000.0] {
        for h in around(x) {
            list.both(h);
            list.both(-h);
        }
    }
    for x in [f64::NAN, f64::INFINITY, f64::MAX, 1e10] {
        list.both(x);
        list.both(-x);
    }
    let quarter = std::f64::consts::FRAC_PI_2;
    let mut turns = vec![0, 1, 2, 3, 4, 5, 6, 7, 8, 1024, 4096, 7637, 7638, 7639];
    for _ in 0..15 {
        turns.push((list.random() % 7639) as i32);
    }
    for n in turns {
        for n in [n, -n] {
            for h in around(n as f64 * quarter) {
                list.both(h);
            }
            floor_step(list, n);
        }
    }
    for _ in 0..60 {
        let (x, r) = (list.unit(), list.random());
        list.both(12000.0 * x);
        list.both(x * power((r % 50) as i32 - 36));
    }
}

// The least h at which h×I + 0.5 has the floor n, and the one before: the sum there is n itself, or rounds to it.
fn floor_step(list: &mut List, n: i32) {
    let i = f64::from_bits(0x3fe4_5f30_6dc9_c883);
    let mut h = (n as f64 - 0.5) * std::f64::consts::FRAC_PI_2;
    while h * i + 0.5 < n as f64 {
        h = h.next_up();
    }
    while h * i + 0.5 >= n as f64 {
        h = h.next_down();
    }
    list.both(h);
    list.both(h.next_up());
}

fn whole_numbers(list: &mut List) {
    list.specials(b'k');
    for x in [80.0, 1.0 / 32.0, 0.00005, 0.0001, 79.99995, 0.00015, power(-60), 81.0, 1e17] {
        list.add_around(b'k', x);
        list.add_around(b'k', -x);
    }
    for _ in 0..40 {
        let (r, x) = (list.random(), list.unit());
        let odd = (r % 2560) as f64 - 1279.5;
        list.add_around(b'k', odd / 16.0);
        let half = (r % 1_600_000) as f64 - 799_999.5;
        list.add_around(b'k', half / 10000.0);
        list.add(b'k', 80.0 * x);
        list.add(b'k', x * power((r % 40) as i32 - 32));
    }
}

fn main() {
    let mut list = List { seen: BTreeSet::new(), lines: Vec::new(), state: SEED };
    roots(&mut list);
    narrowings(&mut list);
    angles(&mut list);
    whole_numbers(&mut list);
    // document 01's M8, M9 and M10
    assert_eq!((answer(b'k', 0x3fa0 << 48), answer(b'k', 0xbfa0 << 48)), ((1 << 63) + 313, (1 << 63) - 313));
    assert_eq!(answer(b'r', 0x4000 << 48), 0x3ff6_a09e_667f_3bcd);
    assert_eq!((narrow(1.0 + power(-24)), narrow(1.0 + 3.0 * power(-24))), (0x3f80_0000, 0x3f80_0002));
    let mut out = std::io::stdout().lock();
    for &(kind, argument) in &list.lines {
        writeln!(out, "{} {:016x} {:016x}", kind as char, argument, answer(kind, argument)).unwrap();
    }
    for (kind, name) in NAMES {
        eprintln!("{} {} lines, 0 differ", name, list.lines.iter().filter(|line| line.0 == kind).count());
    }
    eprintln!("broken 0 lines");
}
