// A store in plain Rust that doesn't know what happened, only what was seen: for each sector the set of words it may hold.
//
// It is stricter than what is proved: a write that was told lasts, flushed or not. A write under way when the power goes was done or not.
use crate::tape::{Ask, Event, Reply};
use std::collections::{BTreeMap, BTreeSet};

// Told within so many turns.
const PATIENCE: u64 = 8;

// What is under way at a tag. `may`: what a read may read, or what else its sector may hold when a write is told.
struct Way {
    ask: Ask,
    value: u64,
    age: u64,
    may: BTreeSet<u64>,
}

pub struct Model {
    sectors: u64,
    holds: BTreeMap<u64, BTreeSet<u64>>,
    ways: BTreeMap<u64, Way>,
    pub dead: BTreeSet<u64>,
    pub counts: Counts,
}

// What a play went through. `doubtful`: reads of a sector that might have held one of several things. `degraded`: reads and writes told
// while a disk in use was dead.
#[derive(Clone, Copy, Default)]
pub struct Counts {
    pub plays: u64,
    pub requests: u64,
    pub reads: u64,
    pub writes: u64,
    pub refused: u64,
    pub unanswered: u64,
    pub doubtful: u64,
    pub degraded: u64,
    pub cuts: u64,
    pub deaths: u64,
}

impl Counts {
    pub fn add(&mut self, o: &Counts) {
        self.plays += o.plays;
        self.requests += o.requests;
        self.reads += o.reads;
        self.writes += o.writes;
        self.refused += o.refused;
        self.unanswered += o.unanswered;
        self.doubtful += o.doubtful;
        self.degraded += o.degraded;
        self.cuts += o.cuts;
        self.deaths += o.deaths;
    }
}

type Verdict = Result<(), String>;

fn ensure(holds: bool, what: impl FnOnce() -> String) -> Verdict {
    if holds { Ok(()) } else { Err(what()) }
}

impl Model {
    // A store of four disks of so many sectors, all noughts.
    pub fn new(sectors: u64) -> Model {
        Model {
            sectors,
            holds: BTreeMap::new(),
            ways: BTreeMap::new(),
            dead: BTreeSet::new(),
            counts: Counts::default(),
        }
    }

    // How many sectors the store has: of each disk 64 are kept back, and two disks' worth is for mending.
    pub fn size(&self) -> u64 {
        2 * (self.sectors - 64)
    }

    fn hold(&mut self, s: u64) -> &mut BTreeSet<u64> {
        self.holds.entry(s).or_insert_with(|| BTreeSet::from([0]))
    }

    // How many of the disks in use are dead.
    fn weakness(&self) -> usize {
        self.dead.iter().filter(|d| **d < 4).count()
    }

    // Why it is to be turned away, or 0.
    fn why(&self, tag: u64, ask: Ask) -> u64 {
        if tag >= 8 || self.ways.contains_key(&tag) {
            return 1;
        }
        match ask {
            Ask::Add(_) | Ask::Replace(_, _) => 9,
            Ask::Read(s) | Ask::Write(s) if s >= self.size() => 3,
            _ => 0,
        }
    }

    fn asked(&mut self, tag: u64, ask: Ask, value: u64) {
        let mut may = BTreeSet::new();
        if let Ask::Read(s) = ask {
            may = self.hold(s).clone();
            may.extend(self.ways.values().filter(|w| w.ask == Ask::Write(s)).map(|w| w.value));
        }
        if let Ask::Write(s) = ask {
            for w in self.ways.values_mut().filter(|w| w.ask == Ask::Read(s)) {
                w.may.insert(value);
            }
        }
        self.ways.insert(tag, Way { ask, value, age: 0, may });
    }

    fn told(&mut self, tag: u64, ask: Ask, reply: Reply, words: &[u64]) -> Verdict {
        let way = self.ways.remove(&tag).ok_or(format!("tag {tag} is told, and nothing was asked"))?;
        ensure(way.ask == ask, || format!("{:?} was asked and {ask:?} told", way.ask))?;
        ensure(way.age <= PATIENCE, || format!("told after {} turns", way.age))?;
        if self.weakness() > 0 && matches!(ask, Ask::Read(_) | Ask::Write(_)) {
            self.counts.degraded += 1;
        }
        match ask {
            Ask::Read(s) => {
                self.counts.reads += 1;
                ensure(reply == Reply::Bytes, || format!("a read is told {reply:?}"))?;
                ensure(words.iter().all(|w| *w == words[0]), || format!("sector {s} is of several writes"))?;
                ensure(way.may.contains(&words[0]), || format!("sector {s} reads {}, and may be {:?}", words[0], way.may))?;
                if way.may.len() > 1 {
                    self.counts.doubtful += 1;
                }
                if way.may == *self.hold(s) && !self.ways.values().any(|w| w.ask == Ask::Write(s)) {
                    *self.hold(s) = BTreeSet::from([words[0]]);
                }
                Ok(())
            }
            Ask::Write(s) => {
                self.counts.writes += 1;
                ensure(reply == Reply::Done, || format!("a write is told {reply:?}"))?;
                let mut may = way.may;
                may.insert(way.value);
                for w in self.ways.values_mut().filter(|w| w.ask == ask) {
                    w.may.insert(way.value);
                    may.insert(w.value);
                }
                *self.hold(s) = may;
                Ok(())
            }
            Ask::Flush => ensure(reply == Reply::Done, || format!("a flush is told {reply:?}")),
            Ask::Size => ensure(reply == Reply::Many(self.size()), || format!("the size is told {reply:?}")),
            Ask::Add(_) | Ask::Replace(_, _) => Err(format!("{ask:?} is told {reply:?}")),
        }
    }

    fn cut(&mut self) {
        for (_, way) in std::mem::take(&mut self.ways) {
            self.counts.unanswered += 1;
            if let Ask::Write(s) = way.ask {
                let hold = self.hold(s);
                hold.insert(way.value);
                hold.extend(way.may);
            }
        }
    }

    // What comes of an event, or why it can't be.
    pub fn sees(&mut self, e: &Event) -> Verdict {
        match e {
            Event::Turned(q) => {
                ensure(*q > 0, || "no turns are noted".into())?;
                for way in self.ways.values_mut() {
                    way.age += q;
                    ensure(way.age <= PATIENCE, || format!("{:?} waits for {} turns", way.ask, way.age))?;
                }
                Ok(())
            }
            Event::Died(d) => {
                self.counts.deaths += 1;
                ensure(*d < 16 && self.dead.insert(*d), || format!("disk {d} died"))?;
                ensure(self.weakness() <= 2, || "three disks in use are dead".into())
            }
            Event::Cut => {
                self.counts.cuts += 1;
                self.cut();
                Ok(())
            }
            Event::Asked { tag, ask, words } => {
                self.counts.requests += 1;
                let why = self.why(*tag, *ask);
                ensure(why == 0, || format!("tag {tag} {ask:?} is to be refused by {why}"))?;
                self.asked(*tag, *ask, words[0]);
                Ok(())
            }
            Event::Refused { tag, ask, why, .. } => {
                self.counts.requests += 1;
                self.counts.refused += 1;
                let due = self.why(*tag, *ask);
                ensure(due == *why && due > 0, || format!("tag {tag} {ask:?} is refused by {why}, and {due} is right"))
            }
            Event::Told { tag, ask, reply, words } => self.told(*tag, *ask, *reply, words),
        }
    }

    // Nothing is left to be told.
    pub fn ends(&self) -> Verdict {
        ensure(self.ways.is_empty(), || "something was never told".into())
    }
}

#[cfg(test)]
mod tests {
    use super::*;

    fn ask(tag: u64, ask: Ask, w: u64) -> Event {
        Event::Asked { tag, ask, words: vec![w; 64] }
    }

    fn tell(tag: u64, ask: Ask, w: u64) -> Event {
        let reply = if matches!(ask, Ask::Read(_)) { Reply::Bytes } else { Reply::Done };
        Event::Told { tag, ask, words: vec![w; 64], reply }
    }

    // Whether all of it can be.
    fn can_be(events: &[Event]) -> bool {
        let mut model = Model::new(128);
        events.iter().all(|e| model.sees(e).is_ok())
    }

    const W: Ask = Ask::Write(5);
    const R: Ask = Ask::Read(5);

    #[test]
    fn what_was_told_is_read() {
        let before = [ask(0, W, 7), tell(0, W, 7), Event::Cut, ask(0, R, 0)];
        assert!(can_be(&[&before[..], &[tell(0, R, 7)]].concat()));
        assert!(!can_be(&[&before[..], &[tell(0, R, 0)]].concat()));
    }

    #[test]
    fn a_write_that_was_cut_is_done_or_not_and_stays_so() {
        let before = [ask(0, W, 7), Event::Cut, ask(0, R, 0)];
        for w in [0, 7] {
            let once = [&before[..], &[tell(0, R, w), ask(1, R, 0)]].concat();
            assert!(can_be(&[&once[..], &[tell(1, R, w)]].concat()));
            assert!(!can_be(&[&once[..], &[tell(1, R, 7 - w)]].concat()));
        }
        assert!(!can_be(&[&before[..], &[tell(0, R, 8)]].concat()));
    }

    // Of two writes at a time either may be the later one, whichever is told first; a write told before the other was asked isn't.
    #[test]
    fn two_writes_at_a_time() {
        let both = [ask(0, W, 7), ask(1, W, 8), tell(0, W, 7), tell(1, W, 8), ask(2, R, 0)];
        assert!(can_be(&[&both[..], &[tell(2, R, 7)]].concat()));
        assert!(can_be(&[&both[..], &[tell(2, R, 8)]].concat()));
        assert!(!can_be(&[&both[..], &[tell(2, R, 0)]].concat()));
        let one = [ask(0, W, 7), tell(0, W, 7), ask(1, W, 8), tell(1, W, 8), ask(2, R, 0)];
        assert!(!can_be(&[&one[..], &[tell(2, R, 7)]].concat()));
    }

    #[test]
    fn a_read_beside_a_write() {
        for first in [true, false] {
            let (r, w) = (ask(0, R, 0), ask(1, W, 7));
            let both = if first { [r, w] } else { [w, r] };
            for v in [0, 7] {
                assert!(can_be(&[&both[..], &[tell(1, W, 7), tell(0, R, v)]].concat()));
            }
            assert!(!can_be(&[&both[..], &[tell(0, R, 9)]].concat()));
        }
    }

    #[test]
    fn what_is_refused() {
        let why = |tag, ask, why| can_be(&[Event::Refused { tag, ask, words: vec![0; 64], why }]);
        assert!(why(8, R, 1) && why(0, Ask::Read(128), 3) && why(0, Ask::Add(4), 9));
        assert!(!why(0, R, 1) && !why(0, Ask::Read(127), 3) && !why(8, Ask::Read(128), 3));
        assert!(!can_be(&[ask(0, R, 0), ask(0, R, 0)]));
    }

    #[test]
    fn nobody_waits_and_no_third_disk_dies() {
        assert!(can_be(&[ask(0, R, 0), Event::Turned(8), tell(0, R, 0)]));
        assert!(!can_be(&[ask(0, R, 0), Event::Turned(9)]));
        assert!(can_be(&[Event::Died(0), Event::Died(9), Event::Died(3)]));
        assert!(!can_be(&[Event::Died(0), Event::Died(1), Event::Died(3)]));
        assert!(!can_be(&[Event::Died(9), Event::Died(9)]));
    }
}
