//! The inputs: families of byte strings, each a function of a seed and an
//! index.

use plain::gen::{self, Generator, Random, FAMILY};
use std::fs;
use std::path::Path;
use std::sync::OnceLock;

/// How many inputs are compared in one go.
pub const BLOCK: u64 = FAMILY;

/// A family of inputs.
#[derive(Clone, Copy)]
pub struct Family {
    /// Its name.
    pub name: &'static str,
    /// The input of a seed and an index.
    pub make: Generator,
    /// How many there are to compare.
    pub count: u64,
    /// Whether the inputs of a block say the same, up to order.
    pub same: bool,
}

/// All families. `times` multiplies the number of those that are random.
pub fn families(times: u64) -> Vec<Family> {
    let all = |name, make, count| Family { name, make, count, same: false };
    let some = |name, make, count| Family { name, make, count: count * times, same: false };
    let bytes: u64 = files().iter().map(|file| file.len() as u64).sum();
    let mut families = vec![
        all("file_prefix", file_prefix, bytes + files().len() as u64),
        all("file_bit", file_bit, 8 * bytes),
        all("case_prefix", gen::case_prefix, gen::case_prefixes()),
        all("case_bit", gen::case_bit, gen::case_bits()),
        some("every_length", every_length, 14 * LENGTHS),
        some("random_bytes", gen::random_bytes, 10_000),
        some("faulty", gen::faulty, 60_000),
        some("congruent", gen::congruent, 60_000),
        some("dense", gen::dense, 8_000),
        some("dense_kept_small", gen::dense_kept_small, 2_000),
        Family { name: "permuted", make: gen::permuted, count: 40_000 * times, same: true },
    ];
    families.extend(gen::LIMITS.map(|(name, make)| some(name, make, 8_000)));
    families
}

/// The files of `problems`, in the order of their names.
pub fn files() -> &'static [Vec<u8>] {
    static FILES: OnceLock<Vec<Vec<u8>>> = OnceLock::new();
    FILES.get_or_init(|| {
        let folder = Path::new(env!("CARGO_MANIFEST_DIR")).join("../../problems");
        let entries = fs::read_dir(folder).expect("the folder of problems");
        let mut paths: Vec<_> = entries.filter_map(|entry| Some(entry.ok()?.path())).collect();
        paths.retain(|path| path.extension().is_some_and(|extension| extension == "bin"));
        paths.sort();
        paths.iter().map(|path| fs::read(path).expect("a problem's file")).collect()
    })
}

/// Every prefix of every file, whole files too, by index.
pub fn file_prefix(_seed: u64, mut index: u64) -> Vec<u8> {
    for file in files() {
        let here = file.len() as u64 + 1;
        if index < here {
            return file[..index as usize].to_vec();
        }
        index -= here;
    }
    Vec::new()
}

/// Every file with every single bit changed, by index.
pub fn file_bit(_seed: u64, mut index: u64) -> Vec<u8> {
    for file in files() {
        let here = 8 * file.len() as u64;
        if index < here {
            let mut bytes = file.clone();
            bytes[index as usize / 8] ^= 0x80 >> (index % 8);
            return bytes;
        }
        index -= here;
    }
    Vec::new()
}

/// 0 to 700 bytes.
const LENGTHS: u64 = 701;

/// Random bytes of every length in turn. In every second turn the counts are
/// small and the kinds sound, so that more than the header is judged.
pub fn every_length(seed: u64, index: u64) -> Vec<u8> {
    let mut random = Random::new("every_length", seed, index);
    let (length, turn) = ((index % LENGTHS) as usize, index / LENGTHS);
    let mut bytes: Vec<u8> = (0..length).map(|_| random.bits() as u8).collect();
    if turn % 2 == 1 && length >= 12 {
        soften(&mut bytes, &mut random);
    }
    bytes
}

/// Gives random bytes counts that fit their length, where there are any, and
/// each term record a kind that there is.
fn soften(bytes: &mut [u8], random: &mut Random) {
    let terms = ((bytes.len() - 4) / 8).min(64);
    let pairs = ((bytes.len() - 4 - 8 * terms) / 2).min(64);
    bytes[..2].copy_from_slice(&[terms as u8, pairs as u8]);
    for record in bytes[4..4 + 8 * terms].chunks_exact_mut(8) {
        record.fill(0);
        record[0] = random.pick(&[0x10, 0x20, 0x20, 0x40, 0x60]);
        record[6] = random.pick(&[0, 0x10, 0x20]);
    }
}
