// names COUNT: prints names of six letters whose hashes, by the kit's fixed seed, have the same low bits, so that a hashed map with
// them looks at all of them for each. Without such a map they are names like others.
const FACTOR: u64 = 0x9e37_79b9_7f4a_7c15;
const SEED: u64 = 0x243f_6a88_85a3_08d3;
const LENGTH: u64 = 6;
const LOW_BITS: u32 = (1 << 14) - 1;
const LETTERS: &[u8] = b"abcdefghijklmnopqrstuvwxyz";

fn fold(state: u64, factor: u64) -> u64 {
    let product = u128::from(state) * u128::from(factor);
    product as u64 ^ (product >> 64) as u64
}

// The state after one more byte.
fn with_byte(state: u64, byte: u8) -> u64 {
    fold(state ^ u64::from(byte) * 0x01_0101, FACTOR ^ 2)
}

// The hash of 32 bits.
fn hash(state: u64) -> u32 {
    (state ^ (state >> 32)) as u32
}

// Adds the names that begin so, up to `most` in all.
fn add_names(begin: &mut Vec<u8>, state: u64, most: usize, names: &mut Vec<String>) {
    for letter in LETTERS {
        if names.len() == most {
            return;
        }
        let next = with_byte(state, *letter);
        begin.push(*letter);
        if begin.len() < LENGTH as usize {
            add_names(begin, next, most, names);
        } else if hash(next) & LOW_BITS == 0 {
            names.push(String::from_utf8_lossy(begin).into_owned());
        }
        begin.pop();
    }
}

fn main() {
    let most = std::env::args().nth(1).and_then(|word| word.parse().ok()).unwrap_or(0);
    let mut names = Vec::new();
    add_names(&mut Vec::new(), fold(SEED ^ LENGTH, FACTOR ^ 16), most, &mut names);
    println!("{}", names.join("\n"));
}
