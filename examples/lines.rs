//! The line program again, in Rust over the safe wrapper: lines from standard input, answers to standard output.

use hulmeide::{stretch, stretch_row, Planner, Portion, Refusal, Step};
use hulmeide::{LINE_BYTES, LINE_PROGRAM_CELLS, MAX_LOADS, MAX_NEED, PAGE_BYTES, ROW_BYTES, RUN_BYTES, SAVE_BYTES};
use std::io::{self, BufRead, Write};

/// Of a line that is too long one byte more is kept than a line may have.
const KEPT_BYTES: usize = LINE_BYTES + 1;

/// The cells that a portion of a plan fills at most.
const PORTION_CELLS: usize = 1000;

/// Takes the next line off the input, without its line feed, and keeps of it what the planner is to see. False at the end of the input. A
/// read that was interrupted is tried again.
fn next_line(input: &mut impl BufRead, line: &mut Vec<u8>) -> io::Result<bool> {
    line.clear();
    let mut begun = false;
    loop {
        let bytes = match input.fill_buf() {
            Err(error) if error.kind() == io::ErrorKind::Interrupted => continue,
            read => read?,
        };
        if bytes.is_empty() {
            return Ok(begun);
        }
        begun = true;
        let feed = bytes.iter().position(|byte| *byte == b'\n');
        let part = &bytes[..feed.unwrap_or(bytes.len())];
        let room = KEPT_BYTES - line.len();
        line.extend_from_slice(&part[..part.len().min(room)]);
        let used = part.len() + usize::from(feed.is_some());
        input.consume(used);
        if feed.is_some() {
            return Ok(true);
        }
    }
}

/// The numbers of the run that an answer shows: three of each line "load,mark,state,load rule,row rule".
fn shown_run(text: &str) -> Vec<u32> {
    let rows = text.lines().skip(1);
    rows.flat_map(|row| row.split(',').skip(2)).map(|number| number.parse().expect("a number")).collect()
}

/// Is what an answer shows a run? An answer without one passes.
fn judged(planner: &Planner, text: &str) -> bool {
    let shows = text.starts_with("plan") || text.starts_with("yes");
    !shows || planner.judge(&shown_run(text)) == Ok(true)
}

/// Do the lines of a save, with kinds or without, make another planner that saves the same? An answer that is no save passes.
fn rebuilds(line: &[u8], text: &str) -> bool {
    if !text.starts_with("clear") {
        return true;
    }
    let mut other = Planner::new();
    let mut out = [0; SAVE_BYTES];
    let taken = text.lines().all(|line| other.call(line.as_bytes(), &mut out, 0, &mut []).refusal.is_none());
    let again = if line == b"save1" { other.save1(&mut out) } else { Ok(other.save(&mut out)) };
    taken && again == Ok(text.as_bytes())
}

/// Does `drop_load` drop as a line did, on the planner as it was before? A line that is no drop passes.
fn drops_alike(mut before: Planner, line: &[u8], refusal: Option<Refusal>) -> bool {
    let Some(number) = line.strip_prefix(b"drop,") else { return true };
    if matches!(refusal, Some(Refusal::BadForm | Refusal::LongLine)) {
        return true;
    }
    let load: u32 = std::str::from_utf8(number).expect("digits").parse().expect("a number");
    u8::try_from(load).map_or(Some(Refusal::OutOfRange), |load| before.drop_load(load).err()) == refusal
}

/// Does a line that is not refused before work in a plan's cells?
fn searches(line: &[u8], refusal: Option<Refusal>) -> bool {
    let told_before = matches!(refusal, Some(Refusal::BadForm | Refusal::LongLine | Refusal::OutOfRange));
    line == b"plan" || line.starts_with(b"need,") && !told_before
}

/// Does `need` answer as a line did? A line that is no need passes.
fn needs_alike(planner: &mut Planner, line: &[u8], text: &str, work: &mut [u32]) -> bool {
    let Some(number) = line.strip_prefix(b"need,") else { return true };
    if text == "no,2\n" || text == "no,3\n" {
        return true;
    }
    let worth = std::str::from_utf8(number).expect("digits").parse().expect("a number");
    let answer = planner.need(worth, work);
    text == answer.map_or_else(|refusal| format!("no,{}\n", refusal.number()), |budget| format!("need,{budget}\n"))
}

/// Is the power of a plan the least budget for its worth, and is there none for more? A line that shows no new plan passes.
fn needs_its_power(planner: &mut Planner, line: &[u8], text: &str, work: &mut [u32]) -> bool {
    let fields: Vec<&str> = text.lines().next().unwrap_or("").split(',').collect();
    let (b"plan", ["plan", worth, power, _]) = (line, &fields[..]) else { return true };
    let worth: usize = worth.parse().expect("a number");
    let more = if worth < MAX_NEED { Refusal::TooPoor } else { Refusal::OutOfRange };
    planner.need(worth, work) == Ok(power.parse().expect("a number")) && planner.need(worth + 1, work) == Err(more)
}

/// Is a plan by portions, in cells of its own, answered as a line was? A line that is no plan passes, and so does one with too few cells. A portion
/// changes neither the latest plan nor the tables: those are compared after the line.
fn portions_alike(planner: &mut Planner, line: &[u8], text: &str) -> bool {
    let cells = planner.cells_needed();
    let mut out = [0; RUN_BYTES];
    let mut own = vec![0; LINE_PROGRAM_CELLS];
    if line != b"plan" || cells > own.len() {
        return true;
    }
    let mut filled = 0;
    loop {
        match planner.portion(PORTION_CELLS, &mut out, 0, &mut own) {
            Ok(Portion::Filled(more)) => filled += more,
            Ok(Portion::Answered(answer)) => return filled == cells && text.as_bytes() == &out[..answer.count],
            Err(refusal) => return text == format!("no,{}\n", refusal.number()),
        }
    }
}

/// The latest plan after a line, if one is current then, that before it being this: `plan` stores its answer, a refusal for want of a set too,
/// an accepted change wipes it, and any other line leaves it.
fn latest_after(latest: Option<String>, line: &[u8], text: &str) -> Option<String> {
    match text {
        "ok\n" => None,
        _ if line == b"plan" && (text == "no,9\n" || text.starts_with("plan,")) => Some(text.to_string()),
        _ => latest,
    }
}

/// Does `last` show this plan, or refuse as it did, or say that none is current? The planner stays as it is.
fn shows(planner: &mut Planner, latest: &Option<String>) -> bool {
    match (planner.last(&mut [0; RUN_BYTES]), latest) {
        (Ok(shown), Some(text)) => shown == text.as_bytes(),
        (Err(refusal), Some(text)) => refusal == Refusal::NoneFits && text == "no,9\n",
        (shown, None) => shown == Err(Refusal::NoPlan),
    }
}

/// How the page begins that shows this plan from load 1 on: row 1, and load 1 with its mark. That of a refused one is blank but for row 1.
fn beginning(latest: &str) -> String {
    let fields: Vec<&str> = latest.lines().next().unwrap_or("").split(',').collect();
    let mark = if latest.contains("\n1,1,") { "on " } else { "off" };
    match fields[..] {
        ["plan", worth, power, _] => format!("worth {worth:0>6} {power:0>3}W   001 {mark} "),
        _ => format!("{:1$}", "no plan", PAGE_BYTES),
    }
}

/// Is a page drawn exactly where a plan is current, so that it begins as that plan has it, and does its stretch, which begins and ends with a row
/// that differs, make the glass that page?
fn draws(planner: &Planner, latest: &Option<String>, glass: &mut [u8; PAGE_BYTES]) -> bool {
    let mut page = [0; PAGE_BYTES];
    assert_eq!(planner.draw(1, &mut page[1..]), Err(Refusal::NotAPage));
    let drawn = planner.draw(1, &mut page);
    let Some(text) = latest else {
        return matches!(drawn, Err(Refusal::NoPlan | Refusal::OutOfRange)) && page == [0; PAGE_BYTES];
    };
    let changed = stretch(glass, &page);
    let start = ROW_BYTES * stretch_row(glass, &page).saturating_sub(1);
    let differs = |at: usize| changed[at..at + ROW_BYTES] != glass[start + at..start + at + ROW_BYTES];
    let shortest = changed.is_empty() || differs(0) && differs(changed.len() - ROW_BYTES);
    glass[start..start + changed.len()].copy_from_slice(changed);
    drawn == Ok(()) && shortest && *glass == page && page.starts_with(beginning(text).as_bytes())
}

/// The marks of the loads that an answer shows, a byte `0` or `1` each: the second field of each line "load,mark,state,load rule,row rule".
fn shown_marks(text: &str) -> Vec<u8> {
    text.lines().skip(1).map(|row| row.split(',').nth(1).expect("a mark").as_bytes()[0]).collect()
}

/// From all loads off to those of a plan and back: does each of its loads go on once, the lowest number first, and off in the other order, and do two
/// equal sets have no step? Or is each of these refused, where the plan has a load on below one that is off? A list that is one place short and sets
/// that are not one byte for each load are refused in any case. An answer that shows no plan passes.
fn switches_over(planner: &Planner, text: &str) -> bool {
    let marks = shown_marks(text);
    if !text.starts_with("plan") || marks.is_empty() {
        return true;
    }
    let off = vec![b'0'; marks.len()];
    let loads = (1..).zip(&marks).filter(|(_, mark)| **mark == b'1').map(|(load, _)| load);
    let mut expected: Vec<Step> = loads.map(|load| Step { load, mark: 1 }).collect();
    let mut list = [Step::default(); MAX_LOADS];
    let refusal = planner.changeover(&off, &marks, &mut list).err();
    let refused_or = |steps: &[Step], found: Result<&[Step], Refusal>| found == refusal.map_or(Ok(steps), Err);
    let onward = refused_or(&expected, planner.changeover(&off, &marks, &mut list));
    let short = expected.is_empty()
        || planner.changeover(&off, &marks, &mut list[1..expected.len()]) == Err(refusal.unwrap_or(Refusal::ShortList));
    let stays = refused_or(&[], planner.changeover(&marks, &marks, &mut []));
    let misshapen = planner.changeover(&off[1..], &marks, &mut list) == Err(Refusal::OutOfRange);
    expected.reverse();
    expected.iter_mut().for_each(|step| step.mark = 0);
    let back = refused_or(&expected, planner.changeover(&marks, &off, &mut list));
    matches!(refusal, None | Some(Refusal::NotCarried)) && onward && short && stays && misshapen && back
}

/// The refusal that an answer prints, if it prints one.
fn printed_refusal(text: &str) -> Option<u32> {
    text.strip_prefix("no,").map(|number| number.trim_end().parse().expect("a number"))
}

fn main() -> io::Result<()> {
    let mut planner = Planner::new();
    let mut out = [0; SAVE_BYTES];
    let mut work = vec![0; LINE_PROGRAM_CELLS];
    let mut input = io::stdin().lock();
    let mut output = io::stdout().lock();
    let mut line = Vec::with_capacity(KEPT_BYTES);
    let mut latest = None;
    let mut glass = [0; PAGE_BYTES];
    while next_line(&mut input, &mut line)? {
        let before = planner.clone();
        let answer = planner.call(&line, &mut out, 0, &mut work);
        let text = std::str::from_utf8(&out[..answer.count]).expect("answers are plain text");
        assert_eq!(answer.refusal.map(Refusal::number), printed_refusal(text));
        let few_cells = searches(&line, answer.refusal) && planner.cells_needed() > work.len();
        assert_eq!(answer.refusal == Some(Refusal::FewCells), few_cells);
        assert!(judged(&planner, text), "the planner showed what is no run");
        assert!(rebuilds(&line, text), "the planner showed a save that does not rebuild it");
        assert!(drops_alike(before, &line, answer.refusal), "the wrapper drops otherwise than the line");
        assert!(needs_alike(&mut planner, &line, text, &mut work), "the wrapper needs another budget than the line");
        assert!(needs_its_power(&mut planner, &line, text, &mut work), "a plan's power is not the least budget for its worth");
        assert!(portions_alike(&mut planner, &line, text), "a plan by portions is another one");
        latest = latest_after(latest, &line, text);
        assert!(shows(&mut planner, &latest), "the wrapper shows another plan than the latest");
        assert!(draws(&planner, &latest, &mut glass), "the wrapper draws another page than the latest plan's");
        assert!(switches_over(&planner, text), "the wrapper switches over otherwise than from load to load");
        // These two try again by themselves what was interrupted.
        output.write_all(text.as_bytes())?;
        output.flush()?;
    }
    Ok(())
}
