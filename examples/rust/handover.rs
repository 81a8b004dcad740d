//! A reading handed over: a sender, a line that loses one cell and spoils another, and a receiver. Prints what was
//! handed out with its marks. The examples in C and Python print the same.

use rimesatchel::{Entry, Fit, Mark, Receiver, Refusal, Sender, Setup, Status};

const SETUP: Setup = Setup { format: 0x56, channels: 2, order: 0 };
const CHANNELS: usize = 2;
const TIMES: u64 = 6;
const ENTRIES: usize = 12;
const CELLS: u64 = 4;
const LOST: u64 = 1;
const SPOILED: u64 = 3;

fn on_the_line(cell: u64) -> &'static str {
    match cell {
        LOST => " The line loses it.",
        SPOILED => " The line turns over its first bit.",
        _ => "",
    }
}

fn samples_of(cell: u64) -> Vec<u64> {
    (0..TIMES).flat_map(|time| (0..2).map(move |channel| 1000 * cell + 10 * time + channel)).collect()
}

fn said(entry: &Entry) -> String {
    let mark = match entry.mark {
        Mark::Sound => "sound",
        Mark::Doubtful => "doubtful",
        Mark::Missing => "missing",
    };
    format!("{} {mark}", entry.sample)
}

fn receive(receiver: &mut Receiver, octets: &[u8]) {
    match receiver.receive(octets, false) {
        Err(refusal) => println!("Receiving: {refusal}."),
        Ok(handed) => {
            println!("Received number {}, {} missing before it.", handed.number, handed.missing);
            for time in handed.entries.chunks(CHANNELS) {
                println!("  {}", time.iter().map(said).collect::<Vec<_>>().join(", "));
            }
        }
    }
}

/// What is said of a block of zeros, which a home recorder sends: B in its first entry, and no C bit.
fn consumer_block() -> Result<&'static str, Refusal> {
    let mut status = Status::new();
    let mut finished = status.step(8, Mark::Sound)?;
    for _ in 1..192 {
        finished = status.step(0, Mark::Sound)?;
    }
    Ok(match finished.map(|block| block.fit) {
        None => "neither",
        Some(Fit::DoesNotFit) => "doesn't fit",
        Some(Fit::Fits) => "fits",
        Some(Fit::NoneCarried) => "none carried",
    })
}

fn reading() -> Result<(), Refusal> {
    let mut sender = Sender::open(SETUP)?;
    let mut receiver = Receiver::open(SETUP)?;
    let mut octets = [0; 48];
    for cell in 0..CELLS {
        octets = sender.send(&samples_of(cell), &[0; ENTRIES], false)?;
        println!("Sent number {cell}.{}", on_the_line(cell));
        if cell == SPOILED {
            octets[0] ^= 0x80;
        }
        if cell != LOST {
            receive(&mut receiver, &octets);
        }
    }
    println!("The line delivers the last cell again.");
    receive(&mut receiver, &octets);
    println!("Cells placed since the opening: {}.", receiver.placed());
    println!("A block of consumer use: {}.", consumer_block()?);
    Ok(())
}

fn main() {
    if let Err(refusal) = Sender::open(Setup { channels: 13, ..SETUP }) {
        println!("Opening a sender of 13 channels: {refusal}.");
    }
    if let Err(refusal) = reading() {
        println!("The reading: {refusal}.");
        std::process::exit(1);
    }
}
