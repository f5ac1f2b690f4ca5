//! An execution from columns, in the stub: the second implementation, or with one bug of OATMIST_BUG (V1 to V4, R13, R18, R19, O9).

use crate::plain::{self, Component, Refusal, Sheet};
use crate::plain_columns::{self, Columns, MOST};
use crate::{answered, bug, refused, too_short};

/// The sheet without its steps.
fn bare(sheet: &[u8]) -> Vec<u8> {
    let trailer = sheet.len() - 10;
    let s = sheet[trailer + 4] as usize + 256 * sheet[trailer + 5] as usize;
    [&sheet[..s], &sheet[trailer..]].concat()
}

/// The sheet as it is judged: with a bug, a fault of its steps is not seen.
fn accepted(sheet: &[u8], columns: &[u8]) -> Result<Sheet, Refusal> {
    let told = plain::verdict(sheet);
    let Err((number @ 9..=12, index)) = told else {
        return told;
    };
    let without = plain::verdict(&bare(sheet))?;
    if bug("columns-steps-of-the-sheet-not-judged") {
        return Ok(without);
    }
    if bug("columns-18-before-the-sheet") {
        plain_columns::read(&without.components, columns)?;
    }
    if bug("columns-19-before-the-sheet") {
        plain_columns::columns_over(&without, columns)?;
    }
    Err((
        number,
        if bug("columns-sheet-refused-at-no-step") {
            0
        } else {
            index
        },
    ))
}

// ---------------------------------------------------------------------------------------------
// R18

/// The columns that fill these bytes, or some that do not.
fn cut(bytes: &[u8], n: usize) -> Option<Columns> {
    let mut bytes = bytes.to_vec();
    if bug("columns-ignore-a-last-byte") && plain_columns::cut(&bytes, n).is_none() {
        bytes.pop();
    }
    if bug("columns-empty-last-column-without-count") && plain_columns::cut(&bytes, n).is_none() {
        bytes.extend([0, 0]);
    }
    if bug("columns-bytes-left-over") && plain_columns::cut(&bytes, n).is_none() {
        return (0..bytes.len()).find_map(|length| plain_columns::cut(&bytes[..length], n));
    }
    if bug("columns-count-of-one-byte") {
        return cut_by(&bytes, n, |low, _| low);
    }
    if bug("columns-count-high-byte-first") {
        return cut_by(&bytes, n, |low, high| 256 * low + high);
    }
    if bug("columns-count-behind-the-bytes-capped") {
        return cut_by(&bytes, n, |low, high| low + 256 * high);
    }
    plain_columns::cut(&bytes, n)
}

/// The bytes cut by counts of another sort; one that points behind the bytes takes what is there.
fn cut_by(bytes: &[u8], n: usize, count: fn(usize, usize) -> usize) -> Option<Columns> {
    let mut left = bytes.iter().map(|&byte| byte as usize);
    let mut columns = Vec::new();
    for _ in 0..n {
        let count = count(left.next()?, left.next()?);
        columns.push(left.by_ref().take(count).collect());
    }
    left.next().is_none().then_some(columns)
}

/// The label as it is taken for the component; nothing where it is refused.
fn label(component: &Component, label: usize) -> Option<usize> {
    let label = if bug("columns-label-by-its-low-bits") {
        label % 64
    } else {
        label
    };
    let own = label < 64 && component.alphabet[label];
    (own || bug("columns-label-of-another-alphabet") && label < 64).then_some(label)
}

/// The labels of a column; nothing where one is refused.
fn column(component: &Component, labels: &[usize]) -> Option<Vec<usize>> {
    let skipped = |label: usize| bug("columns-internal-label-skipped") && label == 255;
    let left = labels.iter().filter(|&&label| !skipped(label));
    left.map(|&given| label(component, given)).collect()
}

/// How many labels are counted together.
fn counted(sheet: &Sheet, columns: &Columns) -> usize {
    let count = plain_columns::labels(columns);
    if bug("columns-1025-labels-pass") && count == MOST + 1 {
        return MOST;
    }
    if bug("columns-labels-not-counted") {
        return 0;
    }
    if bug("columns-1024-labels-refused") && count == MOST {
        return MOST + 1;
    }
    if bug("columns-events-counted-for-labels") {
        // A shared action once, by the first component that has it.
        let first = |j: usize, action: usize| !sheet.components[..j].iter().any(|component| component.alphabet[action]);
        let own = |j: usize| columns[j].iter().filter(|&&action| first(j, action)).count();
        return (0..columns.len()).map(own).sum();
    }
    count
}

/// The columns, or the refusal that is told.
fn read(sheet: &Sheet, bytes: &[u8]) -> Result<Columns, Refusal> {
    let given = cut(bytes, sheet.n).ok_or((18, 0))?;
    let both = sheet.components.iter().zip(&given);
    let columns: Columns = both
        .map(|(component, labels)| column(component, labels))
        .collect::<Option<_>>()
        .ok_or((18, 0))?;
    if counted(sheet, &columns) > MOST {
        return Err((18, 0));
    }
    if bug("columns-empty-ones-told-as-19") && plain_columns::labels(&columns) == 0 {
        return Err((19, 0));
    }
    Ok(columns)
}

// ---------------------------------------------------------------------------------------------
// R19

/// Takes the action from the head of each column that it heads.
fn take(columns: &mut Columns, action: usize) {
    for column in columns.iter_mut().filter(|column| column.first() == Some(&action)) {
        column.remove(0);
    }
}

/// A list of actions that the columns give, one head after another, and what is left of them. An action is taken when it heads every
/// column that it belongs to.
fn listed(components: &[Component], columns: &Columns) -> (Vec<usize>, Columns) {
    let (mut left, mut list) = (columns.clone(), Vec::new());
    let one_is_enough = bug("columns-head-of-one-is-enough");
    let ready = |left: &Columns, action: usize| {
        let mut own = components
            .iter()
            .zip(left)
            .filter(|(component, _)| component.alphabet[action]);
        one_is_enough || own.all(|(_, column)| column.first() == Some(&action))
    };
    let next = |left: &Columns| {
        left.iter()
            .filter_map(|column| column.first().copied())
            .find(|&head| ready(left, head))
    };
    while let Some(action) = next(&left) {
        take(&mut left, action);
        list.push(action);
    }
    (list, left)
}

/// The steps of a list: each action behind the last one of its components; or as a bug has it.
fn steps(sheet: &Sheet, list: &[usize]) -> Vec<Vec<usize>> {
    let mut steps: Vec<Vec<usize>> = Vec::new();
    let mut last = vec![0; sheet.n];
    for &action in list {
        let own: Vec<usize> = (0..sheet.n).filter(|&j| sheet.components[j].alphabet[action]).collect();
        let mut level = own.iter().map(|&j| last[j]).max().unwrap_or(0);
        if bug("columns-level-of-the-first-component") {
            level = last[own[0]];
        }
        if bug("columns-one-action-a-step") {
            level = steps.len();
        }
        if bug("columns-into-the-last-step-or-behind-it") {
            level = level.max(steps.len().saturating_sub(1));
        }
        own.iter().for_each(|&j| last[j] = level + 1);
        steps.resize(steps.len().max(level + 1), vec![]);
        steps[level].push(action);
    }
    steps.iter_mut().for_each(|step| step.sort());
    if bug("columns-behind-the-steps-of-the-sheet") {
        steps = plain::normal_form(&sheet.components, &[sheet.steps.clone(), steps].concat());
    }
    steps
}

/// Whether the steps can be executed.
fn executed(sheet: &Sheet, steps: &[Vec<usize>]) -> Result<(), Refusal> {
    let mut steps = steps.to_vec();
    if bug("columns-executed-from-the-end-of-the-sheet") {
        steps = [sheet.steps.clone(), steps].concat();
    }
    match plain::verdict(&plain::sheet_of(&sheet.tables, sheet.n, sheet.m, &steps)) {
        Ok(_) => Ok(()),
        Err(_) if bug("columns-not-executed") => Ok(()),
        Err((12, index)) if bug("columns-told-as-12") => Err((12, index)),
        Err((_, index)) if bug("columns-19-at-a-step") => Err((19, index)),
        Err(_) => Err((19, 0)),
    }
}

/// The sheet, or the refusal that is told.
fn joined(sheet: &Sheet, columns: &Columns) -> Result<Vec<u8>, Refusal> {
    let (list, left) = listed(&sheet.components, columns);
    if plain_columns::labels(&left) > 0 && !bug("columns-labels-left-over-accepted") {
        return Err((19, 0));
    }
    let steps = steps(sheet, &list);
    executed(sheet, &steps)?;
    Ok(plain::sheet_of(&sheet.tables, sheet.n, sheet.m, &steps))
}

// ---------------------------------------------------------------------------------------------
// O9, R13

/// How many bytes are told as written, or the refusal.
fn written(sheet: &[u8], columns: &[u8], out: &mut [u8]) -> Result<usize, Refusal> {
    let read_sheet = accepted(sheet, columns)?;
    if bug("columns-13-before-18") && out.len() < read_sheet.s + 10 {
        return Err((13, 0));
    }
    if bug("columns-19-before-18") {
        let cut = plain_columns::cut(columns, read_sheet.n);
        if cut.is_some_and(|columns| plain_columns::uneven(&read_sheet.components, &columns)) {
            return Err((19, 0));
        }
    }
    let columns = read(&read_sheet, columns)?;
    if bug("columns-13-before-19") && out.len() < read_sheet.s + 10 {
        return Err((13, 0));
    }
    let made = joined(&read_sheet, &columns)?;
    if bug("columns-no-longer-than-the-sheet") && sheet.len() < made.len() {
        return Err((13, 0));
    }
    if bug("columns-need-a-spare-byte") && out.len() == made.len() {
        return Err((13, 0));
    }
    if bug("columns-short-output-filled") && out.len() < made.len() {
        out.copy_from_slice(&made[..out.len()]);
    }
    let size = plain::write_into(&made, out)?;
    if bug("columns-rest-cleared") {
        out[size..].fill(0);
    }
    Ok(size)
}

#[no_mangle]
pub extern "C" fn oatmist_columns(sheet: &[u8], columns: &[u8], out: &mut [u8], answer: &mut [u64]) -> u64 {
    let told = written(sheet, columns, out);
    if bug("columns-refused-writes") && told.is_err() && !out.is_empty() {
        out[0] = !out[0];
    }
    match told {
        Ok(size) => answered(&[size as u64], answer),
        Err((13, 0)) => too_short(answer),
        Err(refusal) => refused(refusal, 0, answer),
    }
}
