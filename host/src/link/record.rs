//! A link of ours as the list of numbers that crates/bridge_link takes and hands back: the ring of send times, the lengths
//! of what waits, a number for each field, and what the last call answered.
pub const SIZE: usize = 74;

const TIMES: usize = 0;
pub const PLACE: usize = 48;
pub const WAITING: usize = 49;
pub const SETTINGS: usize = 50;
pub const K: usize = 50;
const T1: usize = 53;
const FIRST: usize = 56;
pub const HELD: usize = 57;
pub const SENT: usize = 58;
pub const RECEIVED: usize = 59;
pub const UNCONFIRMED: usize = 60;
const T1_OF_U: usize = 61;
const T2_DUE: usize = 63;
const T3_DUE: usize = 65;
const TESTS: usize = 67;
pub const CLOSED: usize = 68;
pub const REASON: usize = 69;
pub const CLOCK: usize = 70;
pub const WRITTEN: usize = 71;
pub const FULL: usize = 72;
pub const CAME: usize = 73;

pub const MAX_CLOCK: u64 = (1 << 48) - 1;

#[derive(Clone, Copy)]
pub struct Cells(pub [u64; SIZE]);

/// The deadlines by the branches of the Rust's `select!`.
const T3_BRANCH: u32 = 2;
const T2_BRANCH: u32 = 3;
const T1_OF_U_BRANCH: u32 = 4;

impl Cells {
    pub fn at(&self, place: usize) -> u64 {
        self.0[place]
    }

    pub fn number(&self, place: usize) -> u16 {
        self.0[place] as u16
    }

    pub fn is_open(&self) -> bool {
        self.0[CLOSED] == 0
    }

    fn deadline(&self, place: usize) -> Option<u64> {
        (self.0[place] == 1).then(|| self.0[place + 1])
    }

    fn t1_of_i(&self) -> Option<u64> {
        let oldest = self.0[TIMES + self.0[FIRST] as usize];
        (self.0[HELD] > 0).then(|| oldest + self.0[T1])
    }

    /// t1 of U frames, t1 of I frames, t2, t3.
    fn deadlines(&self) -> [Option<u64>; 4] {
        let [u, t2, t3] = [T1_OF_U, T2_DUE, T3_DUE].map(|place| self.deadline(place));
        [u, self.t1_of_i(), t2, t3]
    }

    fn due(&self, now: u64) -> [bool; 4] {
        self.deadlines().map(|deadline| deadline.is_some_and(|at| at <= now))
    }

    /// How many deadlines are due.
    pub fn count_due(&self, now: u64) -> usize {
        self.due(now).iter().filter(|&&due| due).count()
    }

    pub fn next_deadline(&self) -> Option<u64> {
        self.deadlines().into_iter().flatten().min()
    }

    /// The branch that the Rust has to poll first to look at what is due in document 01's order.
    pub fn first_branch(&self, now: u64) -> u32 {
        let [u, i, _, t3] = self.due(now);
        if u || i {
            T1_OF_U_BRANCH
        } else if t3 && self.0[TESTS] > 2 {
            T3_BRANCH
        } else {
            T2_BRANCH
        }
    }
}
