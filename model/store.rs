//! The proved store over real bytes, through the door of the tests, and its answers as numbers.

#[rustfmt::skip]
extern "C" {
    fn door_open(
        sheet: *const u8, size: usize, fates: *mut u8, pages: usize, rows: *mut u64, numbers: usize, floor: u64, told: *mut u64, count: usize,
    );
    fn door_call(
        sheet: *mut u8, size: usize, fates: *mut u8, pages: usize, rows: *mut u64, numbers: usize, end: u64, floor: u64, undecided: u64,
        kind: u64, file: u64, time: u64, action: u64, value: *const u8, length: usize, told: *mut u64, count: usize,
    );
    fn door_move(
        sheet: *const u8, size: usize, fates: *const u8, pages: usize, rows: *mut u64, numbers: usize, end: u64, floor: u64, undecided: u64,
        fresh: *mut u8, fresh_size: usize, told: *mut u64, count: usize,
    );
    fn door_highest_start(sheet: *const u8, size: usize, files: u64) -> u64;
}

pub const PAGE: usize = 64;
const ROW: usize = 6;
const UNTOUCHED: u8 = 0x77;

/// What a call tells: which answer, its five values, and the state's three numbers.
pub type Told = [u64; 9];

/// Which answer it is.
pub const REFUSED: u64 = 0;
pub const OPENED: u64 = 1;
pub const STORED: u64 = 3;
pub const VALUE: u64 = 4;
pub const NOTHING: u64 = 5;
pub const FATE: u64 = 6;
pub const MOVED: u64 = 7;

/// A call by its number.
#[derive(Clone, Copy, PartialEq)]
pub enum Kind {
    Begin,
    Write,
    Read,
    Test,
    Commit,
    Abort,
}

impl Kind {
    pub fn word(self) -> &'static str {
        ["begin", "write", "read", "test", "commit", "abort"][self as usize]
    }
}

pub struct Store {
    pub sheet: Vec<u8>,
    fates: Vec<u8>,
    rows: Vec<u64>,
    state: [u64; 3],
}

// Each of these lends the library exactly the memory of its slices.
impl Store {
    pub fn on(sheet: Vec<u8>, files: u64) -> Store {
        let fates = vec![UNTOUCHED; sheet.len() / PAGE];
        Store { sheet, fates, rows: vec![u64::MAX; ROW * files as usize], state: [0; 3] }
    }

    fn tell(&mut self, told: Told) -> Told {
        self.state.copy_from_slice(&told[6..]);
        told
    }

    pub fn open(&mut self, floor: u64) -> Told {
        let mut told = [0; 9];
        let (fates, rows) = (&mut self.fates, &mut self.rows);
        let (sheet, size) = (self.sheet.as_ptr(), self.sheet.len());
        unsafe {
            door_open(
                sheet,
                size,
                fates.as_mut_ptr(),
                fates.len(),
                rows.as_mut_ptr(),
                rows.len(),
                floor,
                told.as_mut_ptr(),
                told.len(),
            );
        }
        self.tell(told)
    }

    #[rustfmt::skip]
    pub fn call(&mut self, kind: Kind, file: u64, time: u64, action: u64, value: &[u8]) -> Told {
        let mut told = [0; 9];
        let (sheet, fates, rows, [end, floor, undecided]) = (&mut self.sheet, &mut self.fates, &mut self.rows, self.state);
        unsafe {
            door_call(
                sheet.as_mut_ptr(), sheet.len(), fates.as_mut_ptr(), fates.len(), rows.as_mut_ptr(), rows.len(), end, floor, undecided,
                kind as u64, file, time, action, value.as_ptr(), value.len(), told.as_mut_ptr(), told.len(),
            );
        }
        self.tell(told)
    }

    #[rustfmt::skip]
    pub fn move_to(&mut self, fresh: &mut [u8]) -> Told {
        let mut told = [0; 9];
        let (sheet, fates, rows, [end, floor, undecided]) = (&self.sheet, &self.fates, &mut self.rows, self.state);
        unsafe {
            door_move(
                sheet.as_ptr(), sheet.len(), fates.as_ptr(), fates.len(), rows.as_mut_ptr(), rows.len(), end, floor, undecided,
                fresh.as_mut_ptr(), fresh.len(), told.as_mut_ptr(), told.len(),
            );
        }
        self.tell(told)
    }

    pub fn highest_start(&self, files: u64) -> u64 {
        unsafe { door_highest_start(self.sheet.as_ptr(), self.sheet.len(), files) }
    }

    /// The value of the image at a place.
    pub fn value(&self, place: u64, length: u64) -> &[u8] {
        let from = PAGE * (place as usize - 1) + 24;
        &self.sheet[from..from + length as usize]
    }

    /// The supply is cut: of the page at a place so many bytes are stored.
    pub fn cut(&mut self, place: u64, bytes: usize) {
        let from = PAGE * (place as usize - 1);
        self.sheet[from + bytes..from + PAGE].fill(0);
    }
}
