// Scripts by chance, played on the proved store and held against the model.
use crate::chance::Chance;
use crate::model::{Counts, Model};
use crate::shelf::Shelf;
use crate::tape::{Ask, Event, Reply, events};

// A request as the script has it.
#[derive(Clone, Copy)]
struct Line {
    tag: u64,
    ask: Ask,
    value: u64,
}

// A script in words, four to a step, and all that it asks.
#[derive(Clone)]
pub struct Script {
    pub sectors: u64,
    pub words: Vec<u64>,
    pub steps: u64,
    pub cuts: u64,
    lines: Vec<Line>,
}

// A tag or a disk that doesn't fit 32 bits.
const MOST: u64 = 4294967295;

impl Script {
    pub fn new(sectors: u64) -> Script {
        Script {
            sectors,
            words: Vec::new(),
            steps: 0,
            cuts: 0,
            lines: Vec::new(),
        }
    }

    fn step(&mut self, words: [u64; 4], turns: u64) {
        self.words.extend(words);
        self.steps += turns;
    }

    pub fn rest(&mut self, n: u64) {
        self.step([0, n, 0, 0], n.max(1));
    }

    pub fn dies(&mut self, d: u64, n: u64) {
        self.step([7, d, n, 0], 1);
    }

    pub fn cut(&mut self, n: u64, seed: u64) {
        self.cuts += 1;
        self.step([8, n, seed, 0], 1);
    }

    pub fn ask(&mut self, tag: u64, ask: Ask, value: u64) {
        let (words, ask, value) = match ask {
            Ask::Read(s) => ([1, tag, s, value], ask, 0),
            Ask::Write(s) => ([2, tag, s, value], ask, value),
            Ask::Flush => ([3, tag, value, value], ask, 0),
            Ask::Size => ([4, tag, value, value], ask, 0),
            Ask::Add(e) => ([5, tag, e, value], Ask::Add(e.min(MOST)), 0),
            Ask::Replace(d, e) => ([6, tag, d, e], Ask::Replace(d.min(MOST), e.min(MOST)), 0),
        };
        self.step(words, 1);
        self.lines.push(Line { tag: tag.min(MOST), ask, value });
    }

    // Plays it; the log is long enough, and there are turns and lives enough, for all of it.
    pub fn run(&self, shelf: &mut Shelf) -> Result<Vec<Event>, String> {
        let log = 2048 + 12 * self.steps + 2 * self.cuts;
        if !shelf.play(self.sectors as usize, log as usize, &self.words, self.cuts + 2, self.steps + 4) {
            return Err("the store refused to play".into());
        }
        events(&shelf.log)
    }

    // All that was asked or refused is what the script has, in its order and to its end.
    fn follows(&self, seen: &[Event]) -> Result<(), String> {
        let mut lines = self.lines.iter();
        for e in seen {
            let (Event::Asked { tag, ask, words } | Event::Refused { tag, ask, words, .. }) = e else {
                continue;
            };
            let line = lines.next().ok_or("more was asked than the script has")?;
            if line.tag != *tag || line.ask != *ask || words.iter().any(|w| *w != line.value) {
                return Err(format!("tag {} {:?} was to be asked, and tag {tag} {ask:?} was", line.tag, line.ask));
            }
        }
        match lines.next() {
            None => Ok(()),
            Some(line) => Err(format!("tag {} {:?} was never asked", line.tag, line.ask)),
        }
    }

    // Holds what was seen against the model.
    pub fn judge(&self, seen: &[Event]) -> Result<Counts, String> {
        let mut model = Model::new(self.sectors);
        for (i, e) in seen.iter().enumerate() {
            model.sees(e).map_err(|why| format!("event {i}: {why}"))?;
        }
        model.ends()?;
        self.follows(seen)?;
        model.counts.plays = 1;
        Ok(model.counts)
    }
}

// The sectors that a play goes to: a few, so that they meet, with the first and the last of each half among them.
fn haunts(c: &mut Chance, sectors: u64) -> Vec<u64> {
    let half = sectors - 64;
    let mut all = vec![0, half - 1, half, 2 * half - 1];
    for _ in 0..1 + c.below(6) {
        let s = c.below(half);
        all.extend([s, s + half]);
    }
    let many = 1 + c.below(all.len() as u64) as usize;
    (0..many).map(|_| c.of(&all)).collect()
}

// A script by chance.
pub fn script(c: &mut Chance) -> Script {
    let sectors = if c.below(50) == 0 { 256 + c.below(1024) } else { 128 + c.below(48) };
    let mut s = Script::new(sectors);
    let places = haunts(c, sectors);
    let size = 2 * (sectors - 64);
    let cuts = c.of(&[0, 2, 5, 10]);
    let deaths = c.of(&[0, 1, 3, 6]);
    for _ in 0..40 + c.below(160) {
        let tag = if c.below(40) == 0 { c.of(&[8, 9, MOST, 1 << 40]) } else { c.below(8) };
        let place = if c.below(30) == 0 { c.of(&[size, size + 1, 1 << 32, u64::MAX]) } else { c.of(&places) };
        let (disk, other, value) = (c.below(20), c.below(20), c.word());
        match c.below(100) {
            0..35 => s.ask(tag, Ask::Write(place), if c.below(20) == 0 { 0 } else { value }),
            35..72 => s.ask(tag, Ask::Read(place), value),
            72..77 => s.ask(tag, Ask::Flush, value),
            77..82 => s.ask(tag, Ask::Size, value),
            82..84 => s.ask(tag, Ask::Add(if disk == 0 { value } else { disk }), value),
            84..86 => s.ask(tag, Ask::Replace(disk, other), value),
            86..89 => s.rest(c.below(4)),
            89..93 if c.below(10) < cuts => {
                let near = c.of(&[4, 20, 60, 200]);
                s.cut(c.below(near), value);
                // Again while it comes up, or soon behind.
                for _ in 0..c.of(&[0, 0, 1, 3]) {
                    let near = c.of(&[30, 80]);
                    s.cut(c.below(near), c.word());
                }
            }
            _ if c.below(15) < deaths => {
                let d = if c.below(4) == 0 { disk } else { c.below(4) };
                let near = c.of(&[1, 16, 60, 300]);
                s.dies(d, c.below(near));
            }
            _ => s.rest(1),
        }
    }
    for tag in 0..2 {
        for p in &places {
            s.ask(tag, Ask::Read(*p), 0);
        }
    }
    s
}

// One play by chance, and what it went through. What was seen is changed at one place then, which the model has to notice.
pub fn once(c: &mut Chance, shelf: &mut Shelf) -> Result<Counts, String> {
    let s = script(c);
    let mut seen = s.run(shelf)?;
    let counts = s.judge(&seen)?;
    let told: Vec<usize> = (0..seen.len()).filter(|i| matches!(seen[*i], Event::Told { .. })).collect();
    if !told.is_empty() {
        let at = c.of(&told);
        if let Event::Told { words, reply, .. } = &mut seen[at] {
            match reply {
                Reply::Bytes => words[c.below(64) as usize] ^= 1 << c.below(64),
                _ => *reply = Reply::No(7),
            }
        }
        if s.judge(&seen).is_ok() {
            return Err("a wrong answer was not noticed".into());
        }
    }
    Ok(counts)
}
