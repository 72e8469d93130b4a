//! The planner for Rust: a safe wrapper of the static library's C functions (include/hulmeide.h).

use std::fmt;
use std::mem::{size_of, MaybeUninit};

// ---- Version, sizes and numbers, as include/hulmeide.h has them: tests/limits.py compares the two.

/// The version of the header that this wrapper is for: major * 10000 + minor * 100 + patch.
pub const VERSION: u32 = 11100;

/// A line has at most this many bytes, its line feed not counted.
pub const LINE_BYTES: usize = 144;

/// A number in a line has at most this many digits, zeros in front of it among them: such zeros change nothing.
pub const MAX_DIGITS: usize = 6;

/// So many bytes must be free in the output from the place on, for every line but those of the next two: for changes, for `need`, and for a line
/// that breaks its form or is too long.
pub const FREE_BYTES: usize = 1024;

/// So many must be free for `plan`, `last` and `check`, whose answers have a line for each load, and for every portion of a plan.
pub const RUN_BYTES: usize = 2048;

/// So many must be free for `save` and for `save1`. An output of this length is enough for every line.
pub const SAVE_BYTES: usize = 4096;

/// The cells that the line program lends. What the plan of a planner needs is [`Planner::cells_needed`].
pub const LINE_PROGRAM_CELLS: usize = 16384;

// The largest cabinet. Power and budget are in watts. A load and a load rule have a kind, 0 to the greatest, and a rule serves only the loads
// of its kind.
pub const MAX_LOADS: usize = 128;
pub const MAX_RULES: usize = 32;
pub const MAX_STATES: usize = 8;
pub const MAX_STAGES: usize = 8;
pub const MAX_POWER: usize = 500;
pub const MAX_WORTH: usize = 1000;
pub const MAX_BUDGET: usize = 500;
pub const MAX_KIND: usize = 3;

/// The loads of one word of a set of loads.
pub const WORD_LOADS: usize = 64;

/// The greatest worth that [`Planner::need`] may be asked for: no set of loads is worth more.
pub const MAX_NEED: usize = MAX_LOADS * MAX_WORTH;

// A page of the handheld: rows of ASCII bytes, one after the other.
pub const PAGE_ROWS: usize = 8;
pub const ROW_BYTES: usize = 20;
pub const PAGE_BYTES: usize = PAGE_ROWS * ROW_BYTES;

/// A portion may be asked to fill 1 to this many cells.
pub const MAX_PORTION: usize = 16384;

const PLANNER_BYTES: usize = 1480;
const NOT_A_RUN: u32 = 255;

/// Why a line, numbers that were to be judged, a drawing, a portion or a changeover were refused. A refusal leaves the planner as it was, but that
/// [`Refusal::NoneFits`] of a plan stores its outcome, and that of a portion, which is the answer, starts the filling over.
#[derive(Clone, Copy, Debug, PartialEq, Eq)]
pub enum Refusal {
    TurnedAway = 1,
    LongLine = 2,
    BadForm = 3,
    NoLoads = 4,
    OutOfRange = 5,
    Full = 6,
    SameRule = 7,
    FewCells = 8,
    NoneFits = 9,
    NotAllowed = 10,
    HasChildren = 11,
    NoPlan = 12,
    NotAPage = 13,
    KindsInUse = 14,
    TooPoor = 15,
    NotCarried = 16,
    ShortList = 17,
}

// ---- The planner, laid out as the header has it.

/// A load rule with its kind, or a row rule, which has none and holds 0 there.
#[repr(C)]
#[derive(Clone)]
struct Rule {
    from: u8,
    label: u8,
    to: u8,
    kind: u8,
}

#[repr(C)]
#[derive(Clone)]
struct Rules {
    items: [Rule; MAX_RULES],
    count: usize,
}

#[repr(C)]
#[derive(Clone)]
struct Book {
    states: u8,
    stages: u8,
    starts: u8,
    ends: u8,
    load_rules: Rules,
    row_rules: Rules,
}

#[repr(C)]
#[derive(Clone)]
struct Load {
    parent: u8,
    kind: u8,
    power: u16,
    worth: u16,
}

#[repr(C)]
#[derive(Clone)]
struct Loads {
    items: [Load; MAX_LOADS],
    count: usize,
}

/// A set of loads: load k is bit k - 1 of `low`, or, above [`WORD_LOADS`], bit k - 1 - [`WORD_LOADS`] of `high`.
#[repr(C)]
#[derive(Clone)]
struct LoadSet {
    low: u64,
    high: u64,
}

#[repr(C)]
#[derive(Clone)]
struct Run {
    states: [u8; MAX_LOADS],
    load_rules: [u8; MAX_LOADS],
    row_rules: [u8; MAX_LOADS],
    set: LoadSet,
}

#[repr(C)]
#[derive(Clone)]
struct Outcome {
    status: u8,
    run: Run,
}

/// The planner's tables, the outcome of its latest plan, and the count of cells that portions have filled. They are changed by lines and portions
/// alone.
#[repr(C)]
#[derive(Clone)]
pub struct Planner {
    book: Book,
    loads: Loads,
    budget: u16,
    outcome: Outcome,
    filled: u32,
}

const _: () = assert!(size_of::<Planner>() == PLANNER_BYTES);

/// What a line was answered: how many bytes were written, and the refusal, if it was one.
#[derive(Clone, Copy, Debug, PartialEq, Eq)]
pub struct Answer {
    pub count: usize,
    pub refusal: Option<Refusal>,
}

/// What a portion of a plan came to.
#[derive(Clone, Copy, Debug, PartialEq, Eq)]
pub enum Portion {
    /// So many cells were filled, one at least. The next portion goes on.
    Filled(usize),
    /// Every cell was filled before: the answer of `plan` was written, which may be [`Refusal::NoneFits`]. The next portion begins anew.
    Answered(Answer),
}

/// A step of a changeover: the number of a load, and its new mark, 0 off or 1 on.
#[repr(C)]
#[derive(Clone, Copy, Debug, Default, PartialEq, Eq)]
pub struct Step {
    pub load: u8,
    pub mark: u8,
}

const _: () = assert!(size_of::<Step>() == 2);

#[repr(C)]
struct Reply {
    number: u32,
    count: usize,
}

#[repr(C)]
struct PortionReply {
    number: u32,
    filled: u32,
    count: usize,
}

#[repr(C)]
struct Steps {
    number: u32,
    count: usize,
}

#[repr(C)]
struct Part {
    start: usize,
    count: usize,
}

extern "C" {
    fn hulmeide_version() -> u32;
    fn hulmeide_fresh(planner: *mut Planner);
    fn hulmeide_call(
        planner: *mut Planner,
        line: *const u8,
        line_length: usize,
        out: *mut u8,
        out_length: usize,
        place: usize,
        work: *mut u32,
        work_length: usize,
    ) -> Reply;
    fn hulmeide_portion(
        planner: *mut Planner,
        most: usize,
        out: *mut u8,
        out_length: usize,
        place: usize,
        work: *mut u32,
        work_length: usize,
    ) -> PortionReply;
    fn hulmeide_judge(planner: *const Planner, run: *const u32, run_length: usize) -> u32;
    fn hulmeide_draw(planner: *const Planner, load: usize, page: *mut u8, page_length: usize) -> u32;
    fn hulmeide_stretch(glass: *const u8, glass_length: usize, drawn: *const u8, drawn_length: usize) -> Part;
    fn hulmeide_stretch_row(glass: *const u8, glass_length: usize, drawn: *const u8, drawn_length: usize) -> usize;
    fn hulmeide_changeover(
        planner: *const Planner,
        old_set: *const u8,
        old_length: usize,
        new_set: *const u8,
        new_length: usize,
        list: *mut Step,
        list_length: usize,
    ) -> Steps;
}

impl Refusal {
    const ALL: [Refusal; 17] = [
        Refusal::TurnedAway,
        Refusal::LongLine,
        Refusal::BadForm,
        Refusal::NoLoads,
        Refusal::OutOfRange,
        Refusal::Full,
        Refusal::SameRule,
        Refusal::FewCells,
        Refusal::NoneFits,
        Refusal::NotAllowed,
        Refusal::HasChildren,
        Refusal::NoPlan,
        Refusal::NotAPage,
        Refusal::KindsInUse,
        Refusal::TooPoor,
        Refusal::NotCarried,
        Refusal::ShortList,
    ];

    /// Its number, 1 to 17. That of a line is printed as `no,N`, but for 1; that of a drawing or a changeover is only returned.
    pub fn number(self) -> u32 {
        self as u32
    }

    /// What it means, in a few words.
    pub fn meaning(self) -> &'static str {
        match self {
            Refusal::TurnedAway => "too few free bytes of output, or a planner that breaks a limit",
            Refusal::LongLine => "a line too long",
            Refusal::BadForm => "no command, or a field of the wrong form",
            Refusal::NoLoads => "no loads",
            Refusal::OutOfRange => "a value out of its range, a wrong count of them, or a load that is not there",
            Refusal::Full => "no place for another load or rule",
            Refusal::SameRule => "the same rule is in the book already",
            Refusal::FewCells => "too few cells of work",
            Refusal::NoneFits => "no allowed set fits the budget",
            Refusal::NotAllowed => "the set is not allowed",
            Refusal::HasChildren => "the load has children",
            Refusal::NoPlan => "no current plan",
            Refusal::NotAPage => "a page of another length",
            Refusal::KindsInUse => "a load or a load rule has a kind other than 0",
            Refusal::TooPoor => "the plan at the budget in force is worth less",
            Refusal::NotCarried => "a set over the budget, or with a load on below one that is off",
            Refusal::ShortList => "fewer places in the list than steps",
        }
    }

    /// The refusal with a number; none for 0.
    fn of(number: u32) -> Option<Refusal> {
        let refusal = Refusal::ALL.into_iter().find(|refusal| refusal.number() == number);
        assert!(number == 0 || refusal.is_some(), "the library gave the number {number}, which its header does not have");
        refusal
    }
}

impl fmt::Display for Refusal {
    fn fmt(&self, f: &mut fmt::Formatter) -> fmt::Result {
        write!(f, "{} ({})", self.meaning(), self.number())
    }
}

/// The version of the archive.
pub fn version() -> u32 {
    // SAFETY: the function takes nothing and touches nothing.
    unsafe { hulmeide_version() }
}

/// What of a page just drawn the glass does not show yet: its rows from the first that differs to the last. It is empty where none does, and
/// where either is not of [`PAGE_BYTES`] bytes.
pub fn stretch<'d>(glass: &[u8], drawn: &'d [u8]) -> &'d [u8] {
    // SAFETY: each pointer is to as many bytes as the length beside it says, and is never null. They are only read.
    let part = unsafe { hulmeide_stretch(glass.as_ptr(), glass.len(), drawn.as_ptr(), drawn.len()) };
    &drawn[part.start..part.start + part.count]
}

/// The row at which that stretch begins, from 1 to [`PAGE_ROWS`], or 0 where it is empty.
pub fn stretch_row(glass: &[u8], drawn: &[u8]) -> usize {
    // SAFETY: as in `stretch`.
    unsafe { hulmeide_stretch_row(glass.as_ptr(), glass.len(), drawn.as_ptr(), drawn.len()) }
}

impl Planner {
    /// A fresh planner: no book, no rules, no loads, budget 0, no current plan, and no cell filled. Panics where the archive is of another version than this
    /// wrapper.
    pub fn new() -> Planner {
        assert_eq!(version(), VERSION, "the archive's version and the wrapper's");
        let mut planner = MaybeUninit::uninit();
        // SAFETY: the pointer is to room for a whole planner that nobody else holds, and the library writes every field of it.
        unsafe {
            hulmeide_fresh(planner.as_mut_ptr());
            planner.assume_init()
        }
    }

    /// The cells that a plan needs as the planner stands, whole or by portions, and [`Planner::need`] too: loads x (states + stages) x (budget + 1).
    pub fn cells_needed(&self) -> usize {
        let ways = usize::from(self.book.states) + usize::from(self.book.stages);
        self.loads.count * ways * (usize::from(self.budget) + 1)
    }

    /// Handles one line, given without its line feed. The answer is written to `out` from `place` on.
    pub fn call(&mut self, line: &[u8], out: &mut [u8], place: usize, work: &mut [u32]) -> Answer {
        // SAFETY: each pointer is to as many elements as the length beside it says, and is never null; the planner, the output and the
        // work are borrowed alone, so they do not overlap. The library holds on to none of them. Any content is allowed.
        let reply = unsafe {
            hulmeide_call(
                self,
                line.as_ptr(),
                line.len(),
                out.as_mut_ptr(),
                out.len(),
                place,
                work.as_mut_ptr(),
                work.len(),
            )
        };
        Answer { count: reply.count, refusal: Refusal::of(reply.number) }
    }

    /// Fills the next cells of a plan in the work, at most `most` of them, or, where every cell is filled, writes the plan's answer to `out` from
    /// `place` on. The answer is not stored: [`Planner::last`] and [`Planner::draw`] show what the line `plan` found. An accepted change starts the
    /// filling over. It is refused with [`Refusal::TurnedAway`], [`Refusal::NoLoads`], [`Refusal::OutOfRange`] where `most` is not 1 to
    /// [`MAX_PORTION`], and [`Refusal::FewCells`], and changes and writes nothing then.
    ///
    /// Each portion but the first of a filling is to get the work as the last one left it, so lend `plan` and [`Planner::need`] other work; else
    /// figures and answer may be anything.
    pub fn portion(&mut self, most: usize, out: &mut [u8], place: usize, work: &mut [u32]) -> Result<Portion, Refusal> {
        // SAFETY: as in `call`.
        let reply = unsafe { hulmeide_portion(self, most, out.as_mut_ptr(), out.len(), place, work.as_mut_ptr(), work.len()) };
        match Refusal::of(reply.number) {
            _ if reply.filled > 0 => Ok(Portion::Filled(reply.filled as usize)),
            refusal @ (None | Some(Refusal::NoneFits)) => Ok(Portion::Answered(Answer { count: reply.count, refusal })),
            Some(refusal) => Err(refusal),
        }
    }

    /// The lines that rebuild the tables, each with its line feed, as `save` writes them, with every kind. It changes nothing, and is never
    /// refused: lines alone changed the tables, and the output is long enough.
    pub fn save<'a>(&mut self, out: &'a mut [u8; SAVE_BYTES]) -> &'a [u8] {
        let answer = self.call(b"save", out, 0, &mut []);
        &out[..answer.count]
    }

    /// The same lines without kinds, as `save1` writes them for a planner before 1.8. It changes nothing, and is refused with
    /// [`Refusal::KindsInUse`] where some load or some load rule has a kind other than 0.
    pub fn save1<'a>(&mut self, out: &'a mut [u8; SAVE_BYTES]) -> Result<&'a [u8], Refusal> {
        let answer = self.call(b"save1", out, 0, &mut []);
        answer.refusal.map_or(Ok(&out[..answer.count]), Err)
    }

    /// The latest plan, its lines each with its line feed, as `last` shows it: without planning anew. It changes nothing. It is refused with
    /// [`Refusal::NoneFits`] where the plan was, and with [`Refusal::NoPlan`] where a change was accepted since, or no plan was shown or refused so
    /// at all.
    pub fn last<'a>(&mut self, out: &'a mut [u8; RUN_BYTES]) -> Result<&'a [u8], Refusal> {
        let answer = self.call(b"last", out, 0, &mut []);
        answer.refusal.map_or(Ok(&out[..answer.count]), Err)
    }

    /// How little supply would do: the least budget, at most the one in force, whose plan has this worth or more. It changes nothing. It is refused
    /// with [`Refusal::NoneFits`] where no allowed set fits the budget in force, with [`Refusal::TooPoor`] where the plan there is worth less, and
    /// with [`Refusal::OutOfRange`] for a worth above [`MAX_NEED`], however great.
    pub fn need(&mut self, worth: usize, work: &mut [u32]) -> Result<usize, Refusal> {
        let mut out = [0; FREE_BYTES];
        let line = format!("need,{}", worth.min(MAX_NEED + 1));
        let answer = self.call(line.as_bytes(), &mut out, 0, work);
        let digits = out[..answer.count].iter().filter(|byte| byte.is_ascii_digit());
        let budget = digits.fold(0, |number, digit| 10 * number + usize::from(digit - b'0'));
        answer.refusal.map_or(Ok(budget), Err)
    }

    /// Takes out a load, as `drop` does. It is refused where there is no such load, or where it has children. The numbers above its own fall
    /// by one: what is kept by the number of a load has to follow.
    pub fn drop_load(&mut self, load: u8) -> Result<(), Refusal> {
        let answer = self.call(format!("drop,{load}").as_bytes(), &mut [0; FREE_BYTES], 0, &mut []);
        answer.refusal.map_or(Ok(()), Err)
    }

    /// Are these numbers, three for each load, a run?
    pub fn judge(&self, run: &[u32]) -> Result<bool, Refusal> {
        // SAFETY: as in `call`. The planner and the numbers are only read.
        let number = unsafe { hulmeide_judge(self, run.as_ptr(), run.len()) };
        if number == NOT_A_RUN {
            return Ok(false);
        }
        Refusal::of(number).map_or(Ok(true), Err)
    }

    /// Draws the latest plan on a page, with the loads from `load` on. It is refused where the page is not of [`PAGE_BYTES`] bytes, where there
    /// is no such load, and where no plan is current, and leaves the page as it was then.
    pub fn draw(&self, load: usize, page: &mut [u8]) -> Result<(), Refusal> {
        // SAFETY: as in `call`. The planner is only read.
        let number = unsafe { hulmeide_draw(self, load, page.as_mut_ptr(), page.len()) };
        Refusal::of(number).map_or(Ok(()), Err)
    }

    /// The steps from an old set of loads to a new one, each written as for `check`, a byte `0` or `1` for each load: first the loads that go off,
    /// highest number first, then those that go on, lowest first. They are written to the start of the list, and the rest of it stays. After every
    /// step the set that is on draws at most the budget, and each load that is on but load 1 has its parent on. It is refused with
    /// [`Refusal::NoLoads`], with [`Refusal::OutOfRange`] where a set is not so written, with [`Refusal::NotCarried`] where one, old or new, draws
    /// more than the budget in force or has a load on below one that is off, and with [`Refusal::ShortList`] where the list has fewer places than
    /// there are steps; nothing is written then. One of [`MAX_LOADS`] places is long enough.
    ///
    /// Where a lower budget is to come into force, ask a clone that still has the greater one: it carries both sets.
    pub fn changeover<'a>(&self, old: &[u8], new: &[u8], list: &'a mut [Step]) -> Result<&'a [Step], Refusal> {
        // SAFETY: as in `call`. The planner and the two sets are only read, and the list is borrowed alone, so it overlaps none of them.
        let steps = unsafe {
            hulmeide_changeover(
                self,
                old.as_ptr(),
                old.len(),
                new.as_ptr(),
                new.len(),
                list.as_mut_ptr(),
                list.len(),
            )
        };
        Refusal::of(steps.number).map_or(Ok(&list[..steps.count]), Err)
    }
}

impl Default for Planner {
    fn default() -> Planner {
        Planner::new()
    }
}
