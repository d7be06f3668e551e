// The log's words, read into events. An event's last word is its head, so they are read from the end.
#[derive(Clone, Copy, Debug, PartialEq, Eq)]
pub enum Ask {
    Read(u64),
    Write(u64),
    Flush,
    Size,
    Add(u64),
    Replace(u64, u64),
}

#[derive(Clone, Copy, Debug, PartialEq, Eq)]
pub enum Reply {
    Done,
    Bytes,
    Many(u64),
    No(u64),
}

#[derive(Clone, Debug, PartialEq, Eq)]
pub enum Event {
    Turned(u64),
    Died(u64),
    Cut,
    Asked { tag: u64, ask: Ask, words: Vec<u64> },
    Refused { tag: u64, ask: Ask, words: Vec<u64>, why: u64 },
    Told { tag: u64, ask: Ask, words: Vec<u64>, reply: Reply },
}

// Takes words from the end.
struct Tape<'a>(&'a [u64]);

impl Tape<'_> {
    fn word(&mut self) -> Result<u64, String> {
        let (last, rest) = self.0.split_last().ok_or("the log begins in the midst of an event")?;
        self.0 = rest;
        Ok(*last)
    }

    // What was asked, and the 64 words before it.
    fn body(&mut self, q: u64) -> Result<(Ask, Vec<u64>), String> {
        let x = self.word()?;
        let ask = match q % 8 {
            0 => Ask::Read(x),
            1 => Ask::Write(x),
            2 => Ask::Flush,
            3 => Ask::Size,
            4 => Ask::Add(x),
            5 => Ask::Replace(x % (1 << 32), x >> 32),
            k => return Err(format!("kind {k} in the log")),
        };
        if q / 8 % 2 == 0 {
            return Ok((ask, vec![self.word()?; 64]));
        }
        let mut words = Vec::new();
        for _ in 0..64 {
            words.push(self.word()?);
        }
        words.reverse();
        Ok((ask, words))
    }

    fn event(&mut self) -> Result<Event, String> {
        let head = self.word()?;
        let q = head / 8;
        Ok(match head % 8 {
            0 => Event::Turned(q),
            1 => Event::Died(q),
            2 => Event::Cut,
            3 => {
                let (ask, words) = self.body(q)?;
                Event::Asked { tag: q / 16, ask, words }
            }
            4 => {
                let why = self.word()?;
                let (ask, words) = self.body(q)?;
                Event::Refused { tag: q / 16, ask, words, why }
            }
            5 => {
                let y = self.word()?;
                let reply = match q / 16 % 4 {
                    0 => Reply::Done,
                    1 => Reply::Bytes,
                    2 => Reply::Many(y),
                    _ => Reply::No(y),
                };
                let (ask, words) = self.body(q)?;
                Event::Told { tag: q / 64, ask, words, reply }
            }
            k => return Err(format!("a head of kind {k} in the log")),
        })
    }
}

// All events, the first one first. A head is never 0, so the log ends with its last word that isn't.
pub fn events(log: &[u64]) -> Result<Vec<Event>, String> {
    let end = log.iter().rposition(|w| *w != 0).map_or(0, |i| i + 1);
    let mut tape = Tape(&log[..end]);
    let mut found = Vec::new();
    while !tape.0.is_empty() {
        found.push(tape.event()?);
    }
    found.reverse();
    Ok(found)
}
