//! SHA-256 (FIPS 180-4), so that a line of the vectors need not hold every sample.

/// The first 32 bits behind the point of the cube or square root of a number, worked out with whole numbers.
fn root(number: u128, cube: bool) -> u32 {
    let power = |n: u128| if cube { n * n * n } else { n * n };
    let wanted = if cube { number << 96 } else { number << 64 };
    let mut found = 0u128;
    for bit in (0..36).rev() {
        if power(found | 1 << bit) <= wanted {
            found |= 1 << bit;
        }
    }
    found as u32
}

fn primes(count: usize) -> Vec<u128> {
    (2..).filter(|n| (2..*n).all(|d| n % d != 0)).take(count).collect()
}

pub fn digest(octets: &[u8]) -> [u8; 32] {
    let primes = primes(64);
    let keys: Vec<u32> = primes.iter().map(|&prime| root(prime, true)).collect();
    let mut hash: Vec<u32> = primes[..8].iter().map(|&prime| root(prime, false)).collect();
    let mut padded = [octets, &[0x80]].concat();
    padded.resize((padded.len() + 8).next_multiple_of(64) - 8, 0);
    padded.extend((octets.len() as u64 * 8).to_be_bytes());
    for block in padded.chunks(64) {
        let mut words: Vec<u32> =
            block.chunks(4).map(|four| u32::from_be_bytes(four.try_into().expect("four"))).collect();
        for at in 16..64 {
            let (early, late) = (words[at - 15], words[at - 2]);
            let early = early.rotate_right(7) ^ early.rotate_right(18) ^ early >> 3;
            let late = late.rotate_right(17) ^ late.rotate_right(19) ^ late >> 10;
            words.push(words[at - 16].wrapping_add(early).wrapping_add(words[at - 7]).wrapping_add(late));
        }
        let mut now = hash.clone();
        for (word, key) in words.iter().zip(&keys) {
            let choice = now[4] & now[5] ^ !now[4] & now[6];
            let upper = now[4].rotate_right(6) ^ now[4].rotate_right(11) ^ now[4].rotate_right(25);
            let first = now[7].wrapping_add(upper).wrapping_add(choice).wrapping_add(*key).wrapping_add(*word);
            let majority = now[0] & now[1] ^ now[0] & now[2] ^ now[1] & now[2];
            let lower = now[0].rotate_right(2) ^ now[0].rotate_right(13) ^ now[0].rotate_right(22);
            now.rotate_right(1);
            now[4] = now[4].wrapping_add(first);
            now[0] = first.wrapping_add(lower.wrapping_add(majority));
        }
        hash.iter_mut().zip(&now).for_each(|(sum, word)| *sum = sum.wrapping_add(*word));
    }
    let flat: Vec<u8> = hash.iter().flat_map(|word| word.to_be_bytes()).collect();
    flat.try_into().expect("eight words")
}
