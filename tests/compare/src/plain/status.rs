//! Channel status: the block under assembly and its check character.

use super::bits::{bits_of, lowest_first, number_of, remainder, Bits};
use super::{refuse_if, Refusal};

const BLOCK_BITS: u64 = 192;
/// x^8 + x^4 + x^3 + x^2 + 1, by Appendix 2 of source document 002.
const GENERATOR: [bool; 9] = [true, false, false, false, true, true, true, false, true];

#[derive(Clone, PartialEq)]
pub struct Block {
    pub bits: u64,
    pub octets: [u8; 24],
}

const NOTHING_BEGUN: Block = Block { bits: 0, octets: [0; 24] };

/// What is said of octet 23 of a finished block.
pub enum Character {
    DoesNotFit,
    Fits,
    NoneCarried,
}

impl Character {
    pub fn number(&self) -> u64 {
        match self {
            Character::DoesNotFit => 1,
            Character::Fits => 2,
            Character::NoneCarried => 3,
        }
    }
}

/// A finished block.
pub struct Handed {
    pub octets: [u8; 24],
    pub character: Character,
}

/// The block afterwards, and the finished one if this was its last bit.
pub fn step(block: &Block, ancillary: u64, mark: u64) -> Result<(Block, Option<Handed>), Refusal> {
    refuse_if(mark > 2 || ancillary > 15 || block.bits >= BLOCK_BITS, 14)?;
    let begins = ancillary & 8 != 0;
    let status_bit = ancillary & 4 != 0;
    if mark == 2 {
        return Ok((NOTHING_BEGUN, None));
    }
    if !begins && block.bits == 0 {
        return Ok((block.clone(), None));
    }
    let longer = with_bit(if begins { &NOTHING_BEGUN } else { block }, status_bit);
    if longer.bits < BLOCK_BITS {
        return Ok((longer, None));
    }
    let character = judged(&longer.octets);
    Ok((NOTHING_BEGUN, Some(Handed { octets: longer.octets, character })))
}

/// The steps one by one over the entries `from`, `from + step`, .. until one hands out a block or the runs end: the block
/// afterwards, the finished one, and the entry that comes next.
pub fn run(
    block: &Block,
    ancillary: &[u8],
    marks: &[u8],
    from: u64,
    step_on: u64,
) -> Result<(Block, Option<Handed>, u64), Refusal> {
    refuse_if(ancillary.len() != marks.len() || step_on == 0, 5)?;
    let (mut now, mut at) = (block.clone(), from);
    while at < ancillary.len() as u64 {
        let entry = at as usize;
        let (after, handed) = step(&now, u64::from(ancillary[entry]), u64::from(marks[entry]))?;
        now = after;
        at = at.saturating_add(step_on);
        if handed.is_some() {
            return Ok((now, handed, at));
        }
    }
    Ok((now, None, at))
}

/// The first bit is 0 for consumer use. Only the professional layout has a check character.
fn judged(octets: &[u8; 24]) -> Character {
    let professional = octets[0] & 1 == 1;
    let fits = octets[23] == check_character(&octets[..23]);
    match (professional, fits) {
        (false, _) => Character::NoneCarried,
        (true, true) => Character::Fits,
        (true, false) => Character::DoesNotFit,
    }
}

/// "Bit k goes to octet k/8, bit k mod 8, bit 0 being the lowest; the other bits stay."
fn with_bit(block: &Block, bit: bool) -> Block {
    let mut octets = block.octets;
    let octet = &mut octets[block.bits as usize / 8];
    let worth = 1 << (block.bits % 8);
    *octet = if bit { *octet | worth } else { *octet & !worth };
    Block { bits: block.bits + 1, octets }
}

/// Of octets 0 to 22. A register that starts with ones divides as if the first eight bits were turned over.
pub fn check_character(octets: &[u8]) -> u8 {
    let mut dividend: Bits = octets.iter().flat_map(|&octet| lowest_first(bits_of(u64::from(octet), 8))).collect();
    for bit in &mut dividend[..8] {
        *bit = !*bit;
    }
    dividend.extend([false; 8]);
    number_of(&lowest_first(remainder(&dividend, &GENERATOR))) as u8
}
