// How often the disks are asked, and how long things take.
//
// The log doesn't tell how often the disks were asked. But the power can be planned to go at the nth thing asked: a request that takes
// a things asked is told if n is larger than a, and only then. So each is played with a cut at 1, 2, 3 and so on.
use crate::chance::Chance;
use crate::play::Script;
use crate::shelf::Shelf;
use crate::tape::{Ask, Event};
use std::collections::BTreeMap;
use std::hint::black_box;

// The smallest disks, so that a play is short.
const SECTORS: u64 = 128;
const SIZE: u64 = 2 * (SECTORS - 64);

// The seed of what is by chance here, and how many are tried.
const SEED: u64 = 2026;
const TRIES: u64 = 4000;

// No request and no coming up takes more.
const MOST: u64 = 256;

// What comes behind the last thing asked.
fn behind(seen: &[Event]) -> Result<&[Event], String> {
    let at = seen.iter().rposition(|e| matches!(e, Event::Asked { .. })).ok_or("nothing was asked")?;
    Ok(&seen[at + 1..])
}

// How often the disks are asked in the turn in which this is done, behind all that `before` has.
fn asks_of(shelf: &mut Shelf, before: &Script, ask: Ask) -> Result<u64, String> {
    for n in 1..=MOST + 1 {
        let mut s = before.clone();
        s.cut(n, n);
        s.ask(0, ask, 77);
        let seen = s.run(shelf)?;
        let first = behind(&seen)?.iter().find(|e| matches!(e, Event::Told { .. } | Event::Cut));
        if matches!(first, Some(Event::Told { .. })) {
            s.judge(&seen)?;
            return Ok(n - 1);
        }
    }
    Err("more than 256 things were asked in a turn".into())
}

// How often they are asked in coming up, behind a cut at the nth thing asked for a write to s. The coming back is counted too: it is one.
fn asks_up(shelf: &mut Shelf, before: &Script, s: u64, n: u64) -> Result<u64, String> {
    for m in 1..=MOST + 1 {
        let mut script = before.clone();
        script.cut(n, n);
        script.cut(n + 1 + m, m);
        script.ask(0, Ask::Write(s), 78);
        script.rest(3);
        let seen = script.run(shelf)?;
        let mut rest = behind(&seen)?.iter().filter(|e| !matches!(e, Event::Died(_))).skip_while(|e| !matches!(e, Event::Cut)).skip(1);
        if matches!(rest.next(), Some(Event::Turned(_))) {
            script.judge(&seen)?;
            return Ok(m - 1);
        }
    }
    Err("more than 256 things were asked in coming up".into())
}

// How many took so many.
type Table = BTreeMap<u64, u64>;

fn show(what: &str, table: &Table) {
    let parts: Vec<String> = table.iter().map(|(asks, many)| format!("{asks} asks: {many} times")).collect();
    println!("{what}: {}", parts.join(", "));
}

// These disks die while a sector is read that is on none of them: the store has not noticed.
fn with_dead(disks: &[u64], other: u64) -> Script {
    let mut s = Script::new(SECTORS);
    s.ask(1, Ask::Write(other), 5);
    for d in disks {
        s.dies(*d, 1);
    }
    s.ask(1, Ask::Read(other), 0);
    s
}

// The sectors whose data is on disk d: reading one takes more asks when it is dead and nobody knows.
fn lies_on(shelf: &mut Shelf, d: u64) -> Result<Vec<u64>, String> {
    let mut found = Vec::new();
    for s in 0..SIZE {
        let mut before = Script::new(SECTORS);
        before.dies(d, 1);
        if asks_of(shelf, &before, Ask::Read(s))? > 1 {
            found.push(s);
        }
    }
    Ok(found)
}

// One more that took so many.
fn tick(table: &mut Table, asks: u64) {
    *table.entry(asks).or_default() += 1;
}

// With all disks alive, each sector.
fn alive(shelf: &mut Shelf) -> Result<(), String> {
    let (mut read, mut write, mut flush, mut size) = (Table::new(), Table::new(), Table::new(), Table::new());
    for s in 0..SIZE {
        let mut before = Script::new(SECTORS);
        before.ask(1, Ask::Write(s), 5);
        tick(&mut read, asks_of(shelf, &before, Ask::Read(s))?);
        tick(&mut write, asks_of(shelf, &before, Ask::Write(s))?);
        tick(&mut flush, asks_of(shelf, &before, Ask::Flush)?);
        tick(&mut size, asks_of(shelf, &before, Ask::Size)?);
    }
    show("a read, all disks alive", &read);
    show("a write, all disks alive", &write);
    show("a flush", &flush);
    show("a size", &size);
    Ok(())
}

// With these sets of disks dead, each sector that is on the first of them. Later: another one that is on it was read before.
fn dead(shelf: &mut Shelf, sets: &[&[u64]]) -> Result<(), String> {
    let (mut first, mut later, mut elsewhere, mut write, mut again) = (Table::new(), Table::new(), Table::new(), Table::new(), Table::new());
    let mut on = Vec::new();
    for d in 0..4 {
        on.push(lies_on(shelf, d)?);
    }
    for set in sets {
        let mine = &on[set[0] as usize];
        let other = (0..SIZE).find(|s| set.iter().all(|d| !on[*d as usize].contains(s))).ok_or("no other sector")?;
        for (i, s) in mine.iter().enumerate() {
            let mut before = with_dead(set, other);
            tick(&mut first, asks_of(shelf, &before, Ask::Read(*s))?);
            tick(&mut write, asks_of(shelf, &before, Ask::Write(*s))?);
            before.ask(1, Ask::Read(mine[(i + 1) % mine.len()]), 0);
            tick(&mut later, asks_of(shelf, &before, Ask::Read(*s))?);
            tick(&mut again, asks_of(shelf, &before, Ask::Write(*s))?);
            tick(&mut elsewhere, asks_of(shelf, &before, Ask::Read(other))?);
        }
    }
    show("  a read of a sector whose disk is dead, the first", &first);
    show("  later ones", &later);
    show("  a read of a sector whose disk is alive", &elsewhere);
    show("  a write to a sector whose disk is dead, the first", &write);
    show("  later ones", &again);
    Ok(())
}

fn counted(shelf: &mut Shelf) -> Result<(), String> {
    alive(shelf)?;
    println!("one disk dead");
    dead(shelf, &[&[0], &[1], &[2], &[3]])?;
    println!("two disks dead");
    dead(shelf, &[&[0, 1], &[0, 2], &[0, 3], &[1, 2], &[1, 3], &[2, 3]])
}

// A script by chance that leaves nothing planned but what comes with the next thing: writes, cuts and deaths.
fn before(c: &mut Chance) -> Script {
    let mut s = Script::new(SECTORS);
    for _ in 0..c.below(8) {
        match c.below(4) {
            0 => s.dies(c.below(4), 1),
            1 => s.cut(1, c.word()),
            _ => {}
        }
        s.ask(1, Ask::Write(c.below(SIZE)), c.word());
        s.ask(1, Ask::Read(c.below(SIZE)), 0);
    }
    for _ in 0..c.below(3) {
        let n = c.below(40);
        s.dies(c.below(4), n);
    }
    s
}

fn most(shelf: &mut Shelf) -> Result<(), String> {
    let (mut turn, mut up) = (Table::new(), Table::new());
    for i in 0..TRIES {
        let mut c = Chance::new(SEED + i);
        let s = before(&mut c);
        let place = c.below(SIZE);
        let ask = if c.below(4) == 0 { Ask::Read(place) } else { Ask::Write(place) };
        *turn.entry(asks_of(shelf, &s, ask)?).or_default() += 1;
        let a = asks_of(shelf, &s, Ask::Write(place))?;
        if a > 0 {
            *up.entry(asks_up(shelf, &s, place, 1 + c.below(a))?).or_default() += 1;
        }
    }
    show("a turn, by chance", &turn);
    show("a coming up, by chance", &up);
    Ok(())
}

#[repr(C)]
struct Moment {
    seconds: i64,
    nanos: i64,
}

unsafe extern "C" {
    fn clock_gettime(clock: i32, at: *mut Moment) -> i32;
}

// The time that this thread has worked, in microseconds.
fn worked() -> f64 {
    let mut at = Moment { seconds: 0, nanos: 0 };
    // Safety: `at` is the C library's `struct timespec` on this machine; 3 is CLOCK_THREAD_CPUTIME_ID.
    unsafe { clock_gettime(3, &mut at) };
    at.seconds as f64 * 1e6 + at.nanos as f64 / 1e3
}

// The shortest of some.
fn shortest(mut f: impl FnMut()) -> f64 {
    (0..25).fold(f64::MAX, |best, _| {
        let start = worked();
        f();
        best.min(worked() - start)
    })
}

const MANY: u64 = 20000;
const LIVES: u64 = 1000;

// Microseconds for each of these, all in one script behind another. What the script before takes is taken off.
fn each(shelf: &mut Shelf, what: &str, before: &Script, mut ask: impl FnMut(u64, &mut Script), many: u64) {
    let mut s = before.clone();
    for i in 0..many {
        ask(i, &mut s);
    }
    let log = 2048 + 12 * s.steps as usize + 2 * s.cuts as usize;
    let mut run = |s: &Script| {
        shortest(|| {
            assert!(shelf.play(SECTORS as usize, log, &s.words, s.cuts + 2, s.steps + 4));
        })
    };
    let (all, none) = (run(&s), run(before));
    println!("{what}: {:.2} microseconds", (all - none) / many as f64);
}

fn timed(shelf: &mut Shelf) -> Result<(), String> {
    let mut whole = Script::new(SECTORS);
    for s in 0..SIZE {
        whole.ask(0, Ask::Write(s), s);
    }
    let on = lies_on(shelf, 0)?;
    let mut one = whole.clone();
    one.dies(0, 1);
    one.ask(0, Ask::Read(on[0]), 0);
    let mut two = one.clone();
    two.dies(1, 1);
    two.ask(0, Ask::Write(0), 1);
    let place = |i: u64| i * 37 % SIZE;
    each(shelf, "nothing asked in a turn", &whole, |_, s| s.rest(1), MANY);
    each(shelf, "a size", &whole, |_, s| s.ask(0, Ask::Size, 0), MANY);
    each(shelf, "a read, all disks alive", &whole, |i, s| s.ask(0, Ask::Read(place(i)), 0), MANY);
    each(shelf, "a read of a sector whose disk is dead", &one, |i, s| s.ask(0, Ask::Read(on[i as usize % on.len()]), 0), MANY);
    each(shelf, "a write, all disks alive", &whole, |i, s| s.ask(0, Ask::Write(place(i)), i), MANY);
    each(shelf, "a write, two disks dead", &two, |i, s| s.ask(0, Ask::Write(place(i)), i), MANY);
    let blink = |i: u64, s: &mut Script| {
        s.cut(1, i);
        s.ask(0, Ask::Read(place(i)), 0);
    };
    each(shelf, "a cut and a coming up, with the room filled", &whole, blink, LIVES);
    let mut room = vec![0u64; 65536];
    let fill = shortest(|| {
        for i in 0..LIVES {
            black_box(&mut room).fill(i);
        }
    });
    println!("the room filled alone: {:.2} microseconds", fill / LIVES as f64);
    Ok(())
}

pub fn print() -> Result<(), String> {
    let mut shelf = Shelf::new();
    counted(&mut shelf)?;
    most(&mut shelf)?;
    timed(&mut shelf)
}
