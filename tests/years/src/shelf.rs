// The proved store on sixteen disks in memory, as the exported call has it.
#[repr(C)]
#[derive(Clone, Copy)]
struct Cell {
    shown: [u64; 64],
    lasting: [u64; 64],
    slot: usize,
    listed: usize,
}

const BLANK: Cell = Cell {
    shown: [0; 64],
    lasting: [0; 64],
    slot: 0,
    listed: 0,
};

pub const DISKS: usize = 16;

unsafe extern "C" {
    fn store_years(
        cells: *mut Cell,
        cells_len: usize,
        log: *mut u64,
        log_len: usize,
        script: *const u64,
        script_len: usize,
        room: *mut u64,
        room_len: usize,
        words: *mut u64,
        words_len: usize,
        lives: u64,
        turns: u64,
    ) -> bool;
}

// What is lent to it, kept from one play to the next.
pub struct Shelf {
    cells: Vec<Cell>,
    room: Vec<u64>,
    words: Vec<u64>,
    pub log: Vec<u64>,
}

impl Shelf {
    pub fn new() -> Shelf {
        Shelf {
            cells: Vec::new(),
            room: vec![0; 65536],
            words: vec![0; 64],
            log: Vec::new(),
        }
    }

    // Plays a script on disks of so many sectors. What was seen stands in the log then. False where it is refused.
    pub fn play(&mut self, sectors: usize, log: usize, script: &[u64], lives: u64, turns: u64) -> bool {
        self.cells.resize(DISKS * sectors, BLANK);
        self.log.clear();
        self.log.resize(log, 0);
        self.run(script, lives, turns)
    }

    // The same with a room or words of another length, which is to be refused.
    pub fn play_wrong(&mut self, room: usize, words: usize, cells: usize, lives: u64, turns: u64) -> bool {
        self.cells.resize(cells, BLANK);
        self.room.resize(room, 0);
        self.words.resize(words, 0);
        self.log.clear();
        self.log.resize(4096, 0);
        let done = self.run(&[1, 0, 0, 0], lives, turns);
        self.room.resize(65536, 0);
        self.words.resize(64, 0);
        done
    }

    fn run(&mut self, script: &[u64], lives: u64, turns: u64) -> bool {
        // Safety: each pointer and length is a vector's own, and no two of them overlap.
        unsafe {
            store_years(
                self.cells.as_mut_ptr(),
                self.cells.len(),
                self.log.as_mut_ptr(),
                self.log.len(),
                script.as_ptr(),
                script.len(),
                self.room.as_mut_ptr(),
                self.room.len(),
                self.words.as_mut_ptr(),
                self.words.len(),
                lives,
                turns,
            )
        }
    }
}
