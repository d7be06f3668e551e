// Plays scripts by chance, with deaths and cuts, on the proved store beside a store in plain Rust, and compares all that is told.
mod chance;
mod figures;
mod model;
mod play;
mod shelf;
mod tape;

use chance::Chance;
use model::Counts;
use shelf::Shelf;
use std::process::ExitCode;

// What the exported call has to refuse, without touching anything.
fn refusals(shelf: &mut Shelf) -> Result<(), String> {
    let wrong = [
        (65535, 64, 2048, 1, 1),
        (65537, 64, 2048, 1, 1),
        (65536, 63, 2048, 1, 1),
        (65536, 65, 2048, 1, 1),
        (65536, 64, 2047, 1, 1),
        (65536, 64, 2048, 1 << 20, 1),
        (65536, 64, 2048, 1, 1 << 40),
    ];
    for (room, words, cells, lives, turns) in wrong {
        if shelf.play_wrong(room, words, cells, lives, turns) || shelf.log.iter().any(|w| *w != 0) {
            return Err(format!("not refused: room {room}, words {words}, cells {cells}, lives {lives}, turns {turns}"));
        }
    }
    if !shelf.play_wrong(65536, 64, 2048, 1, 1) || shelf.log.iter().all(|w| *w == 0) {
        return Err("what fits is refused".into());
    }
    Ok(())
}

fn plays(seed: u64, many: u64) -> Result<Counts, String> {
    let mut shelf = Shelf::new();
    refusals(&mut shelf)?;
    let mut all = Counts::default();
    for i in 0..many {
        // Each play has a seed of its own, so that one can be played alone.
        let own = seed.wrapping_add(i);
        let counts = play::once(&mut Chance::new(own), &mut shelf).map_err(|why| format!("seed {own}: {why}"))?;
        all.add(&counts);
    }
    Ok(all)
}

fn number(s: Option<String>) -> Option<u64> {
    s?.parse().ok()
}

fn main() -> ExitCode {
    let mut args = std::env::args().skip(1);
    let first = args.next();
    if first.as_deref() == Some("figures") {
        return match figures::print() {
            Ok(()) => ExitCode::SUCCESS,
            Err(why) => {
                println!("WRONG: {why}");
                ExitCode::FAILURE
            }
        };
    }
    let (Some(seed), Some(many)) = (number(first), number(args.next())) else {
        println!("years SEED PLAYS, or years figures");
        return ExitCode::FAILURE;
    };
    match plays(seed, many) {
        Ok(c) => {
            println!("seed {seed}: {} plays, {} requests, {} cuts, {} deaths, none wrong", c.plays, c.requests, c.cuts, c.deaths);
            println!("{} reads and {} writes were told, {} of them with a disk of the store dead", c.reads, c.writes, c.degraded);
            println!("{} reads of sectors that might hold one of several things, {} requests cut, {} refused", c.doubtful, c.unanswered, c.refused);
            ExitCode::SUCCESS
        }
        Err(why) => {
            println!("WRONG: {why}");
            ExitCode::FAILURE
        }
    }
}
