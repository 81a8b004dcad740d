//! Lists of bits, the first sent or the highest power first, and division modulo 2.

pub type Bits = Vec<bool>;

pub fn bits_of(number: u64, count: u32) -> Bits {
    (0..count).rev().map(|power| number >> power & 1 == 1).collect()
}

pub fn number_of(bits: &[bool]) -> u64 {
    bits.iter().fold(0, |number, &bit| number * 2 + u64::from(bit))
}

pub fn lowest_first(mut bits: Bits) -> Bits {
    bits.reverse();
    bits
}

pub fn bits_of_octets(octets: &[u8]) -> Bits {
    octets.iter().flat_map(|&octet| bits_of(u64::from(octet), 8)).collect()
}

pub fn octets_of_bits(bits: &[bool]) -> Vec<u8> {
    bits.chunks(8).map(|eight| number_of(eight) as u8).collect()
}

pub fn complement(bits: &[bool]) -> Bits {
    bits.iter().map(|&bit| !bit).collect()
}

/// The remainder, modulo 2, of a polynomial that is at least as long as its divisor.
pub fn remainder(dividend: &[bool], divisor: &[bool]) -> Bits {
    let mut rest = dividend.to_vec();
    let quotient_length = dividend.len() + 1 - divisor.len();
    for at in 0..quotient_length {
        if rest[at] {
            for (power, &bit) in divisor.iter().enumerate() {
                rest[at + power] ^= bit;
            }
        }
    }
    rest.split_off(quotient_length)
}
