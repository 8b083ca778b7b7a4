//! SipHash-2-4, FNV-1a and the sheet seal once more, written from the textbook and on its own:
//! compared with the proved ones on random inputs, and timed against them.
use std::hint::black_box;
use std::process::ExitCode;
use std::time::Instant;

unsafe extern "C" {
    fn keychange_sip_hash(k0: u64, k1: u64, bytes: *const u8, length: usize) -> u64;
    fn keychange_digest(bytes: *const u8, length: usize) -> u64;
    fn keychange_sheet_seal(
        sheet: *const u64,
        words: usize,
        statement: *const u8,
        length: usize,
    ) -> u64;
}

/// The functions under test.
mod ours {
    pub fn sip_hash(k0: u64, k1: u64, bytes: &[u8]) -> u64 {
        unsafe { super::keychange_sip_hash(k0, k1, bytes.as_ptr(), bytes.len()) }
    }

    pub fn fnv(bytes: &[u8]) -> u64 {
        unsafe { super::keychange_digest(bytes.as_ptr(), bytes.len()) }
    }

    pub fn sheet_seal(sheet: &[u64], bytes: &[u8]) -> u64 {
        unsafe {
            super::keychange_sheet_seal(sheet.as_ptr(), sheet.len(), bytes.as_ptr(), bytes.len())
        }
    }
}

/// The same functions, as the textbook has them.
mod textbook {
    fn round(v: &mut [u64; 4]) {
        v[0] = v[0].wrapping_add(v[1]);
        v[1] = v[1].rotate_left(13);
        v[1] ^= v[0];
        v[0] = v[0].rotate_left(32);
        v[2] = v[2].wrapping_add(v[3]);
        v[3] = v[3].rotate_left(16);
        v[3] ^= v[2];
        v[0] = v[0].wrapping_add(v[3]);
        v[3] = v[3].rotate_left(21);
        v[3] ^= v[0];
        v[2] = v[2].wrapping_add(v[1]);
        v[1] = v[1].rotate_left(17);
        v[1] ^= v[2];
        v[2] = v[2].rotate_left(32);
    }

    fn absorb(v: &mut [u64; 4], word: u64) {
        v[3] ^= word;
        round(v);
        round(v);
        v[0] ^= word;
    }

    #[inline(never)]
    pub fn sip_hash(k0: u64, k1: u64, bytes: &[u8]) -> u64 {
        let mut v = [
            k0 ^ u64::from_be_bytes(*b"somepseu"),
            k1 ^ u64::from_be_bytes(*b"dorandom"),
            k0 ^ u64::from_be_bytes(*b"lygenera"),
            k1 ^ u64::from_be_bytes(*b"tedbytes"),
        ];
        let words = bytes.chunks_exact(8);
        let rest = words.remainder();
        for word in words {
            absorb(&mut v, u64::from_le_bytes(word.try_into().unwrap()));
        }
        let mut last = (bytes.len() as u64) << 56;
        for (i, byte) in rest.iter().enumerate() {
            last |= u64::from(*byte) << (8 * i);
        }
        absorb(&mut v, last);
        v[2] ^= 0xff;
        for _ in 0..4 {
            round(&mut v);
        }
        v[0] ^ v[1] ^ v[2] ^ v[3]
    }

    #[inline(never)]
    pub fn fnv(bytes: &[u8]) -> u64 {
        let mut hash = 0xcbf29ce484222325_u64;
        for byte in bytes {
            hash ^= u64::from(*byte);
            hash = hash.wrapping_mul(0x100000001b3);
        }
        hash
    }

    #[inline(never)]
    pub fn sheet_seal(sheet: &[u64], bytes: &[u8]) -> u64 {
        let mut sum = sheet[0];
        for p in 0..24 {
            let weight = u64::from(bytes[p]) + 1;
            sum = sum.wrapping_add(sheet[p + 1].wrapping_mul(weight));
        }
        sum
    }
}

/// Numbers that look random and are the same on every run.
struct Numbers(u64);

impl Numbers {
    fn next(&mut self) -> u64 {
        self.0 = self.0.wrapping_add(0x9e3779b97f4a7c15);
        let mut z = self.0;
        z = (z ^ (z >> 30)).wrapping_mul(0xbf58476d1ce4e5b9);
        z = (z ^ (z >> 27)).wrapping_mul(0x94d049bb133111eb);
        z ^ (z >> 31)
    }

    fn below(&mut self, n: u64) -> usize {
        (self.next() % n) as usize
    }

    fn fill(&mut self, bytes: &mut [u8]) {
        for byte in bytes {
            *byte = self.next() as u8;
        }
    }

    fn sheet(&mut self) -> [u64; 25] {
        std::array::from_fn(|_| self.next())
    }
}

const CASES: usize = 1_000_000;
const LONGEST: usize = 300;
const STATEMENT: usize = 24;
/// No certificate is longer.
const CERTIFICATE: usize = 144;

fn report(name: &str, differ: usize) -> bool {
    println!("{name}: {CASES} random inputs, {differ} differ");
    differ == 0
}

fn agreement() -> bool {
    let mut numbers = Numbers(1);
    let mut bytes = [0; LONGEST];
    let (mut sip, mut fnv, mut sheet) = (0, 0, 0);
    for _ in 0..CASES {
        let length = numbers.below(LONGEST as u64 + 1);
        let (k0, k1) = (numbers.next(), numbers.next());
        let start = numbers.below((LONGEST - length) as u64 + 1);
        let fresh = numbers.below(LONGEST as u64 - 15);
        numbers.fill(&mut bytes[fresh..fresh + 16]);
        let message = &bytes[start..start + length];
        sip += usize::from(ours::sip_hash(k0, k1, message) != textbook::sip_hash(k0, k1, message));
        fnv += usize::from(ours::fnv(message) != textbook::fnv(message));
        let words = numbers.sheet();
        let statement = &bytes[fresh.min(LONGEST - STATEMENT)..][..STATEMENT];
        sheet += usize::from(
            ours::sheet_seal(&words, statement) != textbook::sheet_seal(&words, statement),
        );
    }
    report("SipHash-2-4", sip) & report("FNV-1a", fnv) & report("sheet seal", sheet)
}

fn seconds(turns: usize, mut work: impl FnMut(u64) -> u64) -> f64 {
    let start = Instant::now();
    let mut sum = 0;
    for turn in 0..turns {
        sum ^= work(sum ^ turn as u64);
    }
    black_box(sum);
    start.elapsed().as_secs_f64()
}

/// The best time of each over many short rounds taken in turn, so that what else the machine
/// does falls on both alike.
fn ratio(
    name: &str,
    turns: usize,
    mut ours: impl FnMut(u64) -> u64,
    mut textbook: impl FnMut(u64) -> u64,
) {
    let (mut best_ours, mut best_textbook) = (f64::MAX, f64::MAX);
    for _ in 0..200 {
        best_ours = best_ours.min(seconds(turns, &mut ours));
        best_textbook = best_textbook.min(seconds(turns, &mut textbook));
    }
    let per = 1e9 / turns as f64;
    println!(
        "{name}: ours {:.1} ns, textbook {:.1} ns, ratio {:.3}",
        best_ours * per,
        best_textbook * per,
        best_ours / best_textbook
    );
}

fn times() {
    let mut numbers = Numbers(2);
    let mut bytes = [0; 1024];
    numbers.fill(&mut bytes);
    let sheet = numbers.sheet();
    let statement = &bytes[..STATEMENT];
    for length in [STATEMENT, CERTIFICATE, bytes.len()] {
        let message = &bytes[..length];
        let turns = 400_000 / (length + 16);
        ratio(
            &format!("SipHash-2-4, {length} bytes"),
            turns,
            |k| ours::sip_hash(k, 1, black_box(message)),
            |k| textbook::sip_hash(k, 1, black_box(message)),
        );
        ratio(
            &format!("FNV-1a, {length} bytes"),
            turns,
            |_| ours::fnv(black_box(message)),
            |_| textbook::fnv(black_box(message)),
        );
    }
    ratio(
        "sheet seal",
        20_000,
        |_| ours::sheet_seal(black_box(&sheet), black_box(statement)),
        |_| textbook::sheet_seal(black_box(&sheet), black_box(statement)),
    );
}

fn main() -> ExitCode {
    if !agreement() {
        return ExitCode::FAILURE;
    }
    times();
    ExitCode::SUCCESS
}
