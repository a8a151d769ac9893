//! Names of packages with one hash: the library's filter of packages cannot tell them apart.
use std::sync::OnceLock;

/// The factors and the modulus of `resolution::hash::hash`.
const FACTORS: [u64; 4] = [1_881_427, 1_364_441, 1_534_951, 1_366_551];
const MODULUS: u64 = 4_294_967_291;

/// How many of them there are.
const COUNT: usize = 12_500;

fn word(four: &[u8]) -> u64 {
    four.iter().rev().fold(0, |sum, b| sum * 256 + u64::from(*b))
}

/// What `resolution::hash::hash` makes of a name of 8 to 15 bytes.
fn hash(name: &[u8]) -> u64 {
    let n = name.len();
    let words = [0, 4, n - 8, n - 4].map(|at| word(&name[at..at + 4]));
    (words.iter().zip(FACTORS).map(|(w, f)| w * f).sum::<u64>() + n as u64) % MODULUS
}

/// x to the power of n, below the modulus.
fn power(x: u64, n: u64) -> u64 {
    let squared = x * x % MODULUS;
    match n {
        0 => 1,
        n if n % 2 == 0 => power(squared, n / 2),
        n => power(squared, n / 2) * x % MODULUS,
    }
}

/// The name of twelve printable bytes that begins with these eight and has the hash of `PPPPPPPPPPPP`, if there is one: with the
/// other words the hash decides the last.
fn ending(eight: &[u8]) -> Option<String> {
    let zero = hash(&[eight, &[0; 4]].concat());
    let inverse = power(FACTORS[3], MODULUS - 2);
    let last = (hash(b"PPPPPPPPPPPP") + MODULUS - zero) % MODULUS * inverse % MODULUS;
    let name = [eight, &(last as u32).to_le_bytes()].concat();
    assert_eq!(hash(&name), hash(b"PPPPPPPPPPPP"));
    name.iter().all(u8::is_ascii_graphic).then(|| String::from_utf8(name).unwrap())
}

/// Name `i` of those with one hash.
pub fn alike(i: usize) -> String {
    static NAMES: OnceLock<Vec<String>> = OnceLock::new();
    let digits = |k: usize| (0..8).map(|d| b'!' + (k / 94usize.pow(d) % 94) as u8).collect::<Vec<_>>();
    NAMES.get_or_init(|| (0..).filter_map(|k| ending(&digits(k))).take(COUNT).collect())[i].clone()
}
