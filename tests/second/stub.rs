//! The library's interface, answered by the second implementation: to test the comparison itself (C4).
//! The environment variable OATMIST_BUG switches one bug on, and the comparison must then fail.

#[allow(dead_code)]
mod plain;
#[allow(dead_code)]
mod plain_columns;
#[allow(dead_code)]
mod plain_rows;
mod stub_columns;
mod stub_rows;

use std::cell::RefCell;

fn bug(name: &str) -> bool {
    std::env::var("OATMIST_BUG").is_ok_and(|chosen| chosen == name)
}

type Verdict = Result<plain::Sheet, plain::Refusal>;

thread_local! {
    /// The last sheet that was asked about, and its verdict: the comparison asks much about one sheet.
    static LAST: RefCell<(Vec<u8>, Option<Verdict>)> = const { RefCell::new((Vec::new(), None)) };
}

/// The honest verdict, with the restated steps in it.
fn honest(sheet: &[u8]) -> Verdict {
    LAST.with_borrow_mut(|(bytes, kept)| {
        if kept.is_none() || bytes != sheet {
            let told = plain::verdict(sheet);
            if let Ok(read) = &told {
                read.restated_steps();
            }
            (*bytes, *kept) = (sheet.to_vec(), Some(told));
        }
        kept.clone().unwrap()
    })
}

/// The verdict.
fn verdict(sheet: &[u8]) -> Verdict {
    honest(sheet).map_err(|(number, index)| {
        let late = bug("index-off-by-one") && number == 12;
        (number, index + usize::from(late))
    })
}

/// Copies as many of the values as there is room for; 0 is to be returned.
fn answered(values: &[u64], out: &mut [u64]) -> u64 {
    let mut count = values.len().min(out.len());
    if bug("short-answer-left") && out.len() < values.len() {
        count = 0;
    }
    out[..count].copy_from_slice(&values[..count]);
    if bug("long-answer-cleared") {
        out[count..].fill(0);
    }
    u64::from(bug("answered-with-one"))
}

/// What is to be returned for a refusal; the answer stays as it is.
fn refused((number, index): plain::Refusal, sheet: usize, answer: &mut [u64]) -> u64 {
    if bug("refused-answer-cleared") {
        answer.fill(0);
    }
    if bug("index-in-answer") && !answer.is_empty() && index > 0 {
        answer[0] = index as u64;
    }
    let (mut index, mut sheet) = (index as u64, sheet as u64);
    if bug("index-left-out") {
        index = 0;
    }
    if bug("second-told-as-first") {
        sheet = 0;
    }
    if bug("index-and-sheet-change-places") {
        return number | index << 8 | sheet << 16;
    }
    number | sheet << 8 | index << 16
}

/// A refusal for an output that is too short.
fn too_short(answer: &mut [u64]) -> u64 {
    if bug("short-output-tells-nothing-written") && !answer.is_empty() {
        answer[0] = 0;
    }
    refused((13, 0), 0, answer)
}

#[no_mangle]
pub extern "C" fn oatmist_check(sheet: &[u8], answer: &mut [u64]) -> u64 {
    match verdict(sheet) {
        Ok(sheet) => {
            let mut values = [sheet.n, sheet.m, sheet.t, sheet.s].map(|value| value as u64);
            if bug("steps-for-offset") {
                values[3] = sheet.steps.len() as u64;
            }
            answered(&values, answer)
        }
        Err((8, index)) if bug("refusal-one-less") => refused((7, index), 0, answer),
        Err(refusal) => refused(refusal, 0, answer),
    }
}

/// The end sets where only the initial sets are closed.
fn ends_closed_at_start(sheet: &plain::Sheet) -> Vec<plain::Set> {
    let mut held = plain::start(&sheet.components);
    for step in &sheet.steps {
        let before = held.clone();
        for &action in step {
            for (j, component) in sheet.components.iter().enumerate() {
                if component.alphabet[action] {
                    held[j] = plain::targets(component, &before[j], action);
                }
            }
        }
    }
    held
}

#[no_mangle]
pub extern "C" fn oatmist_end_sets(sheet: &[u8], out: &mut [u64]) -> u64 {
    let mut ends = [0; 16];
    if bug("ends-not-cleared") {
        let count = out.len().min(16);
        ends[..count].copy_from_slice(&out[..count]);
    }
    let sheet = match verdict(sheet) {
        Ok(sheet) => sheet,
        Err(refusal) => {
            if bug("refused-ends-cleared") {
                out.fill(0);
            }
            return refused(refusal, 0, out);
        }
    };
    let sets = if bug("closure-at-start") {
        ends_closed_at_start(&sheet)
    } else {
        sheet.ends
    };
    for (j, set) in sets.iter().enumerate() {
        ends[j] = plain::members(set).iter().fold(0, |bits, state| bits | 1 << state);
    }
    answered(&ends, out)
}

#[no_mangle]
pub extern "C" fn oatmist_process(sheet: &[u8], answer: &mut [u64]) -> u64 {
    match verdict(sheet) {
        Ok(sheet) => {
            let value = match sheet.process() {
                None => 0,
                Some(index) if bug("process-index") => index as u64,
                Some(index) => 1 + index as u64,
            };
            answered(&[value], answer)
        }
        Err(refusal) => refused(refusal, 0, answer),
    }
}

/// Each action moved one step earlier at most, empty steps removed.
fn moved_once(sheet: &plain::Sheet) -> Vec<Vec<usize>> {
    let mut steps = sheet.steps.clone();
    for index in 1..steps.len() {
        for action in steps[index].clone() {
            let alone = |other: &usize| !plain::share(&sheet.components, *other, action);
            if sheet.steps[index - 1].iter().all(alone) && steps[index - 1].iter().all(alone) {
                steps[index].retain(|&other| other != action);
                steps[index - 1].push(action);
            }
        }
    }
    steps.retain(|step| !step.is_empty());
    steps
}

/// The restated sheet, or a wrong one.
fn restated(bytes: &[u8], sheet: &plain::Sheet) -> Vec<u8> {
    if bug("copies-the-sheet") {
        return bytes.to_vec();
    }
    let mut out = sheet.restated();
    if bug("moves-once") {
        out = sheet.tables.clone();
        for step in moved_once(sheet) {
            out.extend(
                step.iter()
                    .fold(0u64, |bits, action| bits | 1 << action)
                    .to_le_bytes(),
            );
        }
        out.extend(&bytes[bytes.len() - 10..]);
    }
    out
}

#[no_mangle]
pub extern "C" fn oatmist_restate(sheet: &[u8], out: &mut [u8], answer: &mut [u64]) -> u64 {
    if bug("13-before-looking") && out.len() < sheet.len() {
        return too_short(answer);
    }
    let read = match verdict(sheet) {
        Ok(read) => read,
        Err(refusal) => {
            if bug("refused-call-writes") && !out.is_empty() {
                out[0] = !out[0];
            }
            return refused(refusal, 0, answer);
        }
    };
    let restated = restated(sheet, &read);
    let spare = if bug("one-byte-spare") { 1 } else { 0 };
    if out.len() < restated.len() + spare {
        if bug("short-buffer-filled") {
            let length = out.len();
            out.copy_from_slice(&restated[..length]);
        }
        return too_short(answer);
    }
    out[..restated.len()].copy_from_slice(&restated);
    if bug("byte-behind-end") && out.len() > restated.len() {
        out[restated.len()] = 0;
    }
    if bug("rest-cleared") {
        out[restated.len()..].fill(0);
    }
    answered(&[restated.len() as u64], answer)
}

/// Whether a bug takes the upper neighbour of an exact half; nothing where there is no such bug.
fn upper(below: u64, actions: u64) -> Option<bool> {
    if bug("figure-halves-up") {
        return Some(true);
    }
    if bug("figure-halves-down") {
        return Some(false);
    }
    if bug("figure-halves-to-odd") {
        return Some(below % 2 == 0);
    }
    if bug("figure-of-the-evenness-of-actions") {
        return Some(actions % 2 == 1);
    }
    None
}

/// Ten times the actions for each restated step, rounded down.
fn rounded_down(sheet: &plain::Sheet) -> u64 {
    let (actions, steps) = sheet.work();
    if steps == 0 { 0 } else { 10 * actions / steps }
}

/// The figure, or a wrong one.
fn figure(sheet: &plain::Sheet) -> u64 {
    let (actions, below) = (sheet.work().0, rounded_down(sheet));
    if bug("figure-of-steps-as-given") {
        return plain::figure_of(actions, sheet.steps.len() as u64);
    }
    if bug("figure-rounded-down") {
        return below;
    }
    match upper(below, actions) {
        Some(upper) if sheet.is_half() => below + u64::from(upper),
        _ => sheet.figure(),
    }
}

#[no_mangle]
pub extern "C" fn oatmist_figure(sheet: &[u8], answer: &mut [u64]) -> u64 {
    match verdict(sheet) {
        Ok(sheet) => answered(&[figure(&sheet)], answer),
        Err(refusal) => refused(refusal, 0, answer),
    }
}

#[no_mangle]
pub extern "C" fn oatmist_stuck(sheet: &[u8], answer: &mut [u64]) -> u64 {
    match verdict(sheet) {
        Ok(mut sheet) => {
            if bug("stuck-at-start") {
                sheet.ends = plain::start(&sheet.components);
            }
            answered(&[u64::from(sheet.stuck())], answer)
        }
        Err(refusal) => refused(refusal, 0, answer),
    }
}

/// The text with the upper neighbour for F where that is an exact half.
fn halves_up(bytes: &[u8], text: String) -> String {
    let Some(sheet) = honest(bytes).ok().filter(plain::Sheet::is_half) else {
        return text;
    };
    let mut words: Vec<String> = text.splitn(5, ' ').map(String::from).collect();
    words[3] = (rounded_down(&sheet) + 1).to_string();
    words.join(" ")
}

#[no_mangle]
pub extern "C" fn oatmist_report(sheet: &[u8], out: &mut [u8], answer: &mut [u64]) -> u64 {
    let mut text = plain::report(sheet);
    if bug("report-without-last-feed") {
        text.pop();
    }
    if bug("report-halves-up") {
        text = halves_up(sheet, text);
    }
    let spare = if bug("report-needs-spare") { 1 } else { 0 };
    if out.len() < text.len() + spare {
        if bug("report-cut-short") {
            let length = out.len();
            out.copy_from_slice(&text.as_bytes()[..length]);
        }
        if bug("short-report-told-as-1") {
            return 1;
        }
        return too_short(answer);
    }
    out[..text.len()].copy_from_slice(text.as_bytes());
    if bug("report-ends-in-zero") && out.len() > text.len() {
        out[text.len()] = 0;
    }
    if bug("refused-sheet-not-reported") && text.starts_with("refused") {
        return refused(plain::verdict(sheet).err().unwrap(), 0, answer);
    }
    answered(&[text.len() as u64], answer)
}

/// The refusal of a pair.
fn pair_refused(refusal: plain::PairRefusal, answer: &mut [u64]) -> u64 {
    refused((refusal.number, refusal.index), refusal.which, answer)
}

/// The flat list of a sheet, or as the bug has it only its actions.
fn work(sheet: &[u8]) -> Vec<usize> {
    let mut list = plain::flat(&plain::verdict(sheet).unwrap().steps);
    list.sort();
    list
}

#[no_mangle]
pub extern "C" fn oatmist_same_work(first: &[u8], second: &[u8], answer: &mut [u64]) -> u64 {
    let (mut one, mut two) = (first, second);
    if bug("second-refused-first") && plain::verdict(second).is_err() {
        (one, two) = (second, first);
    }
    match plain::same_work(one, two) {
        Ok(mut same) => {
            if bug("work-of-same-actions") {
                same = work(first) == work(second);
            }
            if bug("work-of-same-bytes") {
                same = first == second;
            }
            if bug("two-values-of-a-pair") {
                return answered(&[u64::from(same), 0], answer);
            }
            answered(&[u64::from(same)], answer)
        }
        Err(refusal) => pair_refused(refusal, answer),
    }
}

#[no_mangle]
pub extern "C" fn oatmist_winner(first: &[u8], second: &[u8], answer: &mut [u64]) -> u64 {
    match plain::leaner(first, second) {
        Ok((which, _)) => {
            let swapped = plain::leaner(second, first).unwrap().0;
            let tie = swapped == which;
            answered(&[if bug("tie-to-second") && tie { 1 } else { which as u64 }], answer)
        }
        Err(refusal) => pair_refused(refusal, answer),
    }
}

#[no_mangle]
pub extern "C" fn oatmist_leaner<'a>(first: &'a [u8], second: &'a [u8], part: &mut &'a [u8]) {
    match plain::leaner(first, second) {
        Ok((which, section)) => {
            *part = section;
            if bug("part-with-trailer") {
                let sheet = [first, second][which];
                *part = &sheet[sheet.len() - 10 - section.len()..];
            }
            if bug("part-of-copy") {
                *part = section.to_vec().leak();
            }
        }
        Err(_) if bug("part-kept") => {}
        Err(_) => *part = &first[..0],
    }
}

#[no_mangle]
pub extern "C" fn oatmist_version() -> u64 {
    let version = plain::version();
    if bug("version-of-one-before") {
        return version - 1;
    }
    version
}
