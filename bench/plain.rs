//! A plan in plain Rust, as one writes it from the paper: every cell of every branch and row, in cache order, every split tried.
//! Loads are numbered from 0 here. A cell is 0 where no run fits, and otherwise worth * EMPTY + EMPTY - power of the best run: greatest worth,
//! then least power.

use hulmeide::{MAX_LOADS, MAX_RULES, WORD_LOADS};

/// The cell of the empty set. It is more than any power that fits a budget.
const EMPTY: u32 = 512;

#[repr(C)]
#[derive(Clone, Copy)]
pub struct Transition {
    from: u8,
    label: u8,
    to: u8,
    kind: u8,
}

#[repr(C)]
pub struct TransitionList {
    items: [Transition; MAX_RULES],
    count: usize,
}

#[repr(C)]
#[derive(Clone, Copy)]
pub struct Load {
    parent: u8,
    kind: u8,
    power: u16,
    worth: u16,
}

#[repr(C)]
pub struct LoadList {
    items: [Load; MAX_LOADS],
    count: usize,
}

#[repr(C)]
pub struct Book {
    states: u8,
    stages: u8,
    starts: u8,
    ends: u8,
    load_rules: TransitionList,
    row_rules: TransitionList,
}

#[repr(C)]
pub struct Tables {
    book: Book,
    loads: LoadList,
    budget: u16,
}

#[repr(C)]
pub struct LoadSet {
    low: u64,
    high: u64,
}

#[repr(C)]
pub struct Run {
    states: [u8; MAX_LOADS],
    load_rules: [u8; MAX_LOADS],
    row_rules: [u8; MAX_LOADS],
    set: LoadSet,
}

#[repr(C)]
pub struct Outcome {
    found: bool,
    run: Run,
}

impl TransitionList {
    fn rules(&self) -> &[Transition] {
        &self.items[..self.count]
    }
}

impl LoadSet {
    fn add(&mut self, k: usize) {
        let word = if k < WORD_LOADS { &mut self.low } else { &mut self.high };
        *word |= 1 << (k % WORD_LOADS);
    }
}

impl Tables {
    fn loads(&self) -> &[Load] {
        &self.loads.items[..self.loads.count]
    }

    fn width(&self) -> usize {
        self.budget as usize + 1
    }

    fn states(&self) -> usize {
        self.book.states as usize
    }

    fn across(&self) -> usize {
        self.states() + self.book.stages as usize
    }

    /// Where the cells of load k and state or stage x begin, stages after states.
    fn place(&self, k: usize, x: usize) -> usize {
        ((self.loads.count - 1 - k) * self.across() + x) * self.width()
    }

    fn branch_place(&self, k: usize, state: u8) -> usize {
        self.place(k, state as usize - 1)
    }

    fn row_place(&self, k: usize, stage: u8) -> usize {
        self.place(k, self.states() + stage as usize - 1)
    }

    fn ends_at(&self, stage: u8) -> bool {
        self.book.ends >> (stage - 1) & 1 == 1
    }

    /// The first load after load k whose parent has this number, which counts from 1.
    fn first_after(&self, k: usize, parent: usize) -> Option<usize> {
        (k + 1..self.loads.count).find(|&j| self.loads()[j].parent as usize == parent)
    }

    fn first_child(&self, k: usize) -> Option<usize> {
        self.first_after(k, k + 1)
    }

    fn next_sibling(&self, k: usize) -> Option<usize> {
        self.first_after(k, self.loads()[k].parent as usize)
    }

    /// The power and the cell of load k with this mark, without what is below it.
    fn own(&self, k: usize, mark: u8) -> (usize, u32) {
        let load = self.loads()[k];
        if mark == 1 { (load.power as usize, load.worth as u32 * EMPTY + EMPTY - load.power as u32) } else { (0, EMPTY) }
    }
}

/// The cell of two parts of the tree together.
fn joined(x: u32, y: u32) -> u32 {
    if x == 0 || y == 0 { 0 } else { x + y - EMPTY }
}

/// Raises each cell to what stands beside it, joined with `own`.
fn raise(out: &mut [u32], cells: &[u32], own: u32) {
    for (o, &cell) in out.iter_mut().zip(cells) {
        *o = (*o).max(joined(own, cell));
    }
}

/// The branch of load k by one load rule.
fn raise_branch(t: &Tables, work: &mut [u32], k: usize, rule: Transition) {
    let (power, own) = t.own(k, rule.label);
    if power >= t.width() {
        return;
    }
    let (below, here) = work.split_at_mut(t.branch_place(k, rule.from));
    let out = &mut here[power..t.width()];
    match t.first_child(k) {
        Some(child) => {
            let at = t.row_place(child, rule.to);
            raise(out, &below[at..at + t.width()], own);
        }
        None if t.ends_at(rule.to) => out.iter_mut().for_each(|o| *o = (*o).max(own)),
        None => {}
    }
}

/// The row from load k onward by one row rule. Every allowance of the branch is tried with every allowance.
fn raise_row(t: &Tables, work: &mut [u32], k: usize, rule: Transition) {
    let width = t.width();
    let (below, here) = work.split_at_mut(t.row_place(k, rule.from));
    let out = &mut here[..width];
    let branch = &below[t.branch_place(k, rule.label)..][..width];
    match t.next_sibling(k) {
        Some(next) => {
            let later = &below[t.row_place(next, rule.to)..][..width];
            for (c, &own) in branch.iter().enumerate() {
                if own != 0 {
                    raise(&mut out[c..], later, own);
                }
            }
        }
        None if t.ends_at(rule.to) => raise(out, branch, EMPTY),
        None => {}
    }
}

fn fill(t: &Tables, work: &mut [u32]) {
    work.fill(0);
    for k in (0..t.loads.count).rev() {
        for &rule in t.book.load_rules.rules() {
            if rule.kind == t.loads()[k].kind {
                raise_branch(t, work, k, rule);
            }
        }
        for &rule in t.book.row_rules.rules() {
            raise_row(t, work, k, rule);
        }
    }
}

/// What the row from load k onward reaches at this stage with an allowance.
fn row_value(t: &Tables, work: &[u32], k: Option<usize>, stage: u8, allowance: usize) -> u32 {
    match k {
        Some(k) => work[t.row_place(k, stage) + allowance],
        None if t.ends_at(stage) => EMPTY,
        None => 0,
    }
}

/// Load k takes the lowest load rule that still reaches the best; its row gets what is left.
fn choose_branch(t: &Tables, work: &[u32], run: &mut Run, k: usize, state: u8, allowance: usize) {
    let goal = work[t.branch_place(k, state) + allowance];
    let child = t.first_child(k);
    for (j, rule) in t.book.load_rules.rules().iter().enumerate() {
        let (power, own) = t.own(k, rule.label);
        if rule.from != state || rule.kind != t.loads()[k].kind || power > allowance {
            continue;
        }
        if joined(own, row_value(t, work, child, rule.to, allowance - power)) == goal {
            run.states[k] = state;
            run.load_rules[k] = j as u8 + 1;
            if rule.label == 1 {
                run.set.add(k);
            }
            choose_row(t, work, run, child, rule.to, allowance - power);
            return;
        }
    }
}

/// The lowest row rule that still reaches the best for the row from load k onward, and the smallest share for its branch.
fn row_choice(t: &Tables, work: &[u32], k: usize, stage: u8, allowance: usize) -> Option<(usize, Transition, usize)> {
    let goal = work[t.row_place(k, stage) + allowance];
    let next = t.next_sibling(k);
    for (j, &rule) in t.book.row_rules.rules().iter().enumerate() {
        if rule.from != stage {
            continue;
        }
        let branch = &work[t.branch_place(k, rule.label)..][..=allowance];
        let reaches = |&c: &usize| joined(branch[c], row_value(t, work, next, rule.to, allowance - c)) == goal;
        if let Some(share) = (0..=allowance).find(reaches) {
            return Some((j, rule, share));
        }
    }
    None
}

/// Each child in turn takes its row rule and its share of the allowance.
fn choose_row(t: &Tables, work: &[u32], run: &mut Run, first: Option<usize>, stage: u8, allowance: usize) {
    let (mut child, mut stage, mut allowance) = (first, stage, allowance);
    while let Some(k) = child {
        let Some((j, rule, share)) = row_choice(t, work, k, stage, allowance) else { return };
        run.row_rules[k] = j as u8 + 1;
        choose_branch(t, work, run, k, rule.label, share);
        stage = rule.to;
        allowance -= share;
        child = t.next_sibling(k);
    }
}

fn plan(t: &Tables, work: &mut [u32]) -> Outcome {
    fill(t, work);
    let set = LoadSet { low: 0, high: 0 };
    let mut run = Run { states: [0; MAX_LOADS], load_rules: [0; MAX_LOADS], row_rules: [0; MAX_LOADS], set };
    let (mut best, mut root) = (0, 0);
    for state in 1..=t.book.states {
        let cell = work[t.branch_place(0, state) + t.budget as usize];
        if t.book.starts >> (state - 1) & 1 == 1 && cell > best {
            (best, root) = (cell, state);
        }
    }
    if best != 0 {
        choose_branch(t, work, &mut run, 0, root, t.budget as usize);
    }
    work.fill(0);
    Outcome { found: best != 0, run }
}

/// # Safety
/// The tables keep the paper's limits, and the work has the cells of a plan.
#[no_mangle]
pub unsafe extern "C" fn plain_rust_plan(t: *const Tables, work: *mut u32, cells: usize, out: *mut Outcome) {
    let work = unsafe { std::slice::from_raw_parts_mut(work, cells) };
    unsafe { *out = plan(&*t, work) };
}
