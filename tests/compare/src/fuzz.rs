//! The comparison: pseudo-random scenarios put to the plain implementation and the library, everything compared.
//!
//! A scenario is one call, or a sequence in which states are carried on. It depends on the seed and its own number
//! alone, so one scenario can be played again without those before it.

mod boxes;
mod cable;
mod circuits;
mod figures;
mod inputs;
mod line;
mod log;
mod management;
mod slips;
mod status;
mod units;

use std::collections::BTreeMap;
use std::path::Path;

use crate::answers::{by_library, by_plain};
use crate::case::{fields, Answer, Case, Kind};
use crate::random::Random;
use crate::vectors::by_program;

/// A case that the two answer differently.
pub struct Difference {
    case: Case,
    plain: Answer,
    other: Answer,
}

pub type Played = Result<(), Box<Difference>>;

/// Puts each case to both and keeps count of what was answered, by kind and refusal.
pub struct Referee<'a> {
    linelist: Option<&'a Path>,
    /// The kind whose cases are written as lines of the vectors.
    written: Option<Kind>,
    calls: usize,
    not_asked: usize,
    answered: BTreeMap<(&'static str, u64), usize>,
}

impl Referee<'_> {
    fn new(linelist: Option<&Path>) -> Referee<'_> {
        Referee { linelist, written: None, calls: 0, not_asked: 0, answered: BTreeMap::new() }
    }

    pub fn call(&mut self, case: Case) -> Result<Answer, Box<Difference>> {
        self.calls += 1;
        let plain = by_plain(&case);
        if self.written == Some(case.kind) {
            println!("{case} => {}", fields(&plain));
        }
        let other = match case.kind {
            Kind::Linelist => self.listed(&case),
            _ => by_library(&case),
        };
        let numbered = !matches!(case.kind, Kind::CheckCharacter | Kind::Linelist | Kind::LinelistLimit);
        let refusal = if numbered { plain[0].number() } else { 0 };
        *self.answered.entry((case.kind.name(), refusal)).or_default() += 1;
        match other {
            None => self.not_asked += 1,
            Some(other) if other != plain => return Err(Box::new(Difference { case, plain, other })),
            Some(_) => {}
        }
        Ok(plain)
    }

    fn listed(&self, case: &Case) -> Option<Answer> {
        self.linelist.map(|program| by_program(program, case.octets(0)).expect("linelist runs"))
    }

    fn report(&self) {
        for (&(kind, refusal), count) in &self.answered {
            println!("  {kind} {refusal}: {count}");
        }
        println!("{} calls, {} of them not asked of the library, no difference", self.calls, self.not_asked);
    }
}

fn play(scenario: u64, seed: u64, referee: &mut Referee) -> Played {
    let mut random = Random::for_scenario(seed, scenario);
    match random.below(112) {
        0..=3 => boxes::open_sender(&mut random, referee),
        4..=6 => boxes::open_receiver(&mut random, referee),
        7..=22 => boxes::one_send(&mut random, referee),
        23..=42 => boxes::one_receive(&mut random, referee),
        43..=46 => line::reading(&mut random, referee),
        47..=55 => log::walk(&mut random, referee),
        56..=60 => status::one_step(&mut random, referee),
        61 if scenario.is_multiple_of(8) => status::sequence(&mut random, referee),
        62 if scenario.is_multiple_of(8) => log::list(&mut random, referee),
        63 => slips::one_step(&mut random, referee),
        64..=66 => cable::import(&mut random, referee),
        67 => cable::export(&mut random, referee),
        68..=70 => management::one_message(&mut random, referee),
        71..=72 => management::one_status(&mut random, referee),
        73..=75 => management::conversation(&mut random, referee),
        76..=79 => units::export(&mut random, referee),
        80..=81 => units::read(&mut random, referee),
        82..=84 => circuits::check(&mut random, referee),
        85 => circuits::plan(&mut random, referee),
        86..=88 => log::anything(&mut random, referee),
        89..=92 => log::salvage(&mut random, referee),
        93..=95 => figures::sheet(&mut random, referee),
        96 => management::one_record(&mut random, referee),
        97 => management::one_packing(&mut random, referee),
        98 => boxes::format(&mut random, referee),
        99 if scenario.is_multiple_of(4) => status::runs(&mut random, referee),
        100 => slips::walk(&mut random, referee),
        101..=102 => log::judge(&mut random, referee),
        103..=105 => log::pieces(&mut random, referee),
        106..=108 => boxes::send_log(&mut random, referee),
        109..=111 => log::receive(&mut random, referee),
        _ => status::check(&mut random, referee),
    }
}

fn show(difference: &Difference, scenario: u64, seed: u64) {
    let Difference { case, plain, other } = difference;
    println!("difference in scenario {scenario} of seed {seed}; again: compare replay {seed} {scenario}");
    println!("as a line for compare vectors:\n{case} => {}", fields(plain));
    println!("the other gives:\n{}", fields(other));
}

/// True where `calls` calls, or somewhat more to end the last scenario, show no difference.
pub fn run(calls: usize, seed: u64, linelist: Option<&Path>) -> bool {
    let mut referee = Referee::new(linelist);
    for scenario in 0.. {
        if referee.calls >= calls {
            break;
        }
        if let Err(difference) = play(scenario, seed, &mut referee) {
            show(&difference, scenario, seed);
            return false;
        }
    }
    println!("fuzz, seed {seed}: calls by kind and refusal");
    referee.report();
    true
}

/// Writes the cases of one kind among so many scenarios, as lines of the vectors.
pub fn write(kind: Kind, scenarios: u64, seed: u64) -> bool {
    let mut referee = Referee::new(None);
    referee.written = Some(kind);
    (0..scenarios).all(|scenario| play(scenario, seed, &mut referee).is_ok())
}

/// Plays one scenario again.
pub fn replay(seed: u64, scenario: u64, linelist: Option<&Path>) -> bool {
    let mut referee = Referee::new(linelist);
    let played = play(scenario, seed, &mut referee);
    match &played {
        Ok(()) => referee.report(),
        Err(difference) => show(difference, scenario, seed),
    }
    played.is_ok()
}
