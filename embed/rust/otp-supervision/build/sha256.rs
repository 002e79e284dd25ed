//! SHA-256 (FIPS 180-4), so that a build needs no other crate.

/// The first 32 bits behind the point of the square root (degree 2) or the cube root (3) of a prime: the standard's constants.
fn root(prime: u32, degree: u32) -> u32 {
    let square = u128::from(prime) << 64;
    let cube = u128::from(prime) << 96;
    // The greatest number of 36 bits, of which 32 stand behind the point, whose power isn't above the prime.
    let (mut low, mut high) = (0_u128, 1_u128 << 40);
    while high - low > 1 {
        let middle = low + (high - low) / 2;
        let is_below = if degree == 2 { middle * middle <= square } else { middle * middle * middle <= cube };
        if is_below {
            low = middle;
        } else {
            high = middle;
        }
    }
    low as u32
}

fn is_prime(number: u32) -> bool {
    (2..number).all(|part| number % part != 0)
}

/// The sum of some bytes, in hexadecimal digits.
pub fn of(bytes: &[u8]) -> String {
    let primes: Vec<u32> = (2..312).filter(|&number| is_prime(number)).collect();
    let keys: Vec<u32> = primes.iter().map(|&prime| root(prime, 3)).collect();
    let mut sum: Vec<u32> = primes[..8].iter().map(|&prime| root(prime, 2)).collect();
    let mut padded = bytes.to_vec();
    padded.push(0x80);
    while padded.len() % 64 != 56 {
        padded.push(0);
    }
    padded.extend_from_slice(&(bytes.len() as u64 * 8).to_be_bytes());
    for block in padded.chunks(64) {
        add_block(&mut sum, block, &keys);
    }
    sum.iter().map(|word| format!("{word:08x}")).collect()
}

// The letters are the standard's.
#[allow(clippy::many_single_char_names)]
fn add_block(sum: &mut [u32], block: &[u8], keys: &[u32]) {
    let mut words: Vec<u32> =
        block.chunks(4).map(|part| part.iter().fold(0, |word, &byte| word << 8 | u32::from(byte))).collect();
    for at in 16..64 {
        let (early, late) = (words[at - 15], words[at - 2]);
        let first = early.rotate_right(7) ^ early.rotate_right(18) ^ (early >> 3);
        let second = late.rotate_right(17) ^ late.rotate_right(19) ^ (late >> 10);
        words.push(words[at - 16].wrapping_add(first).wrapping_add(words[at - 7]).wrapping_add(second));
    }
    let mut state = sum.to_vec();
    for (key, word) in keys.iter().zip(&words) {
        let (a, b, c) = (state[0], state[1], state[2]);
        let (e, f, g) = (state[4], state[5], state[6]);
        let first = (e.rotate_right(6) ^ e.rotate_right(11) ^ e.rotate_right(25))
            .wrapping_add((e & f) ^ (!e & g))
            .wrapping_add(state[7])
            .wrapping_add(*key)
            .wrapping_add(*word);
        let second =
            (a.rotate_right(2) ^ a.rotate_right(13) ^ a.rotate_right(22)).wrapping_add((a & b) ^ (a & c) ^ (b & c));
        state.rotate_right(1);
        state[4] = state[4].wrapping_add(first);
        state[0] = first.wrapping_add(second);
    }
    for (total, part) in sum.iter_mut().zip(state) {
        *total = total.wrapping_add(part);
    }
}
