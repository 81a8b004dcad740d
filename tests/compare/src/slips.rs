//! Slips over the line: every outage up to 300 cells, senders that give the indication as they like, and spoiled second numbers, held
//! against where the cells really were. What is told must be exact up to 119 cells, and never too long.

use crate::face::{self, Runs};
use crate::random::Random;

const FORMAT: [u32; 3] = [0x56, 12, 0];
const ENTRIES: usize = 12;
const ROOM: usize = 15 * ENTRIES;
const MOST_EXACT: u64 = 119;
const LONGEST: u64 = 300;

/// A cell and its indication.
type Sent = (Vec<u8>, bool);

/// So many cells of a sender that starts with this number and second number; `indicates` is asked where a number is a multiple of 8.
fn sent(number: u32, second: Option<u32>, cells: u64, mut indicates: impl FnMut() -> bool) -> Vec<Sent> {
    let mut state = [0; 7];
    assert_eq!(face::sender_open(FORMAT, number, second.is_some(), second.unwrap_or(0), &mut state), 0);
    (0..cells)
        .map(|_| {
            let indication = state[3].is_multiple_of(8) && indicates();
            let mut cell = vec![0; 48];
            assert_eq!(face::send(&mut state, indication, &[7; ENTRIES], &[0; ENTRIES], &mut cell), 0);
            (cell, indication)
        })
        .collect()
}

/// Of each cell that was taken: its place in what was sent, how many cells the receiver placed up to it, and the cells told before it.
struct Taken {
    place: u64,
    placed: u64,
    told: u64,
}

/// What a receiver and a watch make of the cells that arrive, each with its place in what was sent.
fn taken<'a>(arrivals: impl Iterator<Item = (u64, &'a Sent)>) -> Vec<Taken> {
    let (mut receiver, mut watch) = ([0; 9], [0; 7]);
    assert_eq!(face::receiver_open(FORMAT, &mut receiver), 0);
    let (mut samples, mut ancillary, mut marks) = ([0; ROOM], [0; ROOM], [0; ROOM]);
    let mut all: Vec<Taken> = vec![];
    for (place, (cell, indication)) in arrivals {
        let mut report = [0; 4];
        let runs = Runs { samples: &mut samples, ancillary: &mut ancillary, marks: &mut marks };
        if face::receive(&mut receiver, cell, *indication, runs, &mut report) != 0 {
            continue;
        }
        let mut slip = [0; 2];
        assert_eq!(face::slip(&mut watch, &report, &mut slip), 0);
        if slip[0] == face::slip_told::BEFORE {
            all.last_mut().expect("a cell was taken before").told += u64::from(slip[1]);
        }
        all.push(Taken { place, placed: face::receiver_placed(&receiver).into(), told: 0 });
    }
    all
}

/// Cells that were sent up to this one and are neither placed nor told so far: what the place falls short by.
fn short_by(all: &[Taken]) -> impl Iterator<Item = i64> + '_ {
    let first = all.first().map_or(0, |taken| taken.place);
    all.iter().scan(0, move |told, taken| {
        *told += taken.told;
        Some((taken.place - first + 1) as i64 - (taken.placed + *told) as i64)
    })
}

fn outages() -> bool {
    let mut played = 0;
    for (number, second) in (0..16).flat_map(|number| [(number, 0), (number, 15)]) {
        let cells = sent(number, Some(second), LONGEST + 8, || true);
        for lost in 0..=LONGEST {
            let kept = |place: u64| place < 3 || place >= 3 + lost && place < 8 + lost;
            let all = taken((0..).zip(&cells).filter(|(place, _)| kept(*place)));
            let between = all.iter().zip(&all[1..]).map(|(a, b)| b.place - a.place - 1).max().unwrap_or(0);
            let right = |short: i64| if between <= MOST_EXACT { short == 0 } else { short >= 0 };
            if !short_by(&all).all(right) {
                println!(
                    "an outage of {lost} cells behind number {} with second number {second}: told wrongly",
                    (number + 2) % 16
                );
                return false;
            }
            played += 1;
        }
    }
    println!("slips: {played} outages of 0 to {LONGEST} cells: exact up to {MOST_EXACT}, never too long");
    true
}

fn lines(count: u64, seed: u64) -> bool {
    let (mut cells_taken, mut told) = (0, 0);
    for scenario in 0..count {
        let mut random = Random::for_scenario(seed, scenario);
        let second = (!random.one_in(8)).then(|| random.below(16) as u32);
        let (one_in, lost_in) = (random.pick(&[1, 1, 2, 3, 10]), random.pick(&[4, 10, 30]));
        let cells = sent(random.below(16) as u32, second, 60 + random.below(300), || random.one_in(one_in));
        let mut losing = 0;
        let arrivals = (0..).zip(&cells).filter(|_| {
            losing = if losing > 0 {
                losing - 1
            } else if random.one_in(lost_in) {
                random.pick(&[1, 2, 14, 15, 16, 31, 64, 119, 120, 200])
            } else {
                0
            };
            losing == 0
        });
        let all = taken(arrivals);
        cells_taken += all.len();
        told += all.iter().map(|taken| taken.told).sum::<u64>();
        if !short_by(&all).all(|short| short >= 0) {
            println!("line {scenario} of seed {seed}: a cell is handed out late");
            return false;
        }
    }
    println!("slips: {count} lines of any sender, {cells_taken} cells taken, {told} told: none handed out late");
    true
}

/// Bit 9 to 12 of the sequencing word is the fourth lowest bit of slot 8 to 11, of four octets each.
fn spoiled() -> bool {
    let cells = sent(5, Some(9), 200, || true);
    for (place, slot) in (0..cells.len()).flat_map(|place| (8..12).map(move |slot| (place, slot))) {
        let mut false_one = cells.clone();
        false_one[place].0[4 * slot + 3] ^= 8;
        if taken((0..).zip(&false_one)).iter().any(|taken| taken.told > 0) {
            println!("bit {} of cell {place} spoiled alone: a slip is told", slot + 1);
            return false;
        }
    }
    println!("slips: each of bits 9 to 12 of {} cells spoiled alone: nothing is told", cells.len());
    true
}

/// True where all of it is as docs/LOSSES.md says.
pub fn run(count: u64, seed: u64) -> bool {
    outages() && spoiled() && lines(count, seed)
}
