//! An execution from columns, a second time: request 3 of document 02 as literally as it stands there. What comes before what is read
//! off the columns, and every event gets the first step behind all that come before it. Whether these steps can be executed is asked of
//! the sheet that has them, as of any other sheet. Nothing here is clever, and it shares no text with the desk. The rules are V1 to V5,
//! R18, R19 and O9 of docs/RULES.md.

use crate::plain::{self, Component, Refusal, Sheet};

/// V1: for each component its own actions, in order.
pub type Columns = Vec<Vec<usize>>;

/// R18: the most labels that columns may have together.
pub const MOST: usize = 1_024;

// ---------------------------------------------------------------------------------------------
// V1, V2: columns, and their bytes

/// V1: the columns of a list of actions: it is cut down to each alphabet.
pub fn columns_of(components: &[Component], list: &[usize]) -> Columns {
    let own = |component: &Component| list.iter().copied().filter(|&a| component.alphabet[a]).collect();
    components.iter().map(own).collect()
}

/// How many labels the columns have together.
pub fn labels(columns: &Columns) -> usize {
    columns.iter().map(|column| column.len()).sum()
}

/// V2: the columns in bytes.
pub fn encode(columns: &Columns) -> Vec<u8> {
    let mut bytes = Vec::new();
    for column in columns {
        bytes.extend([(column.len() % 256) as u8, (column.len() / 256) as u8]);
        bytes.extend(column.iter().map(|&label| label as u8));
    }
    bytes
}

/// V2: the bytes cut into n columns by the counts that stand in them; nothing where the columns do not fill the bytes exactly.
pub fn cut(bytes: &[u8], n: usize) -> Option<Columns> {
    let mut left = bytes.iter().map(|&byte| byte as usize);
    let mut columns = Vec::new();
    for _ in 0..n {
        let count = left.next()? + 256 * left.next()?;
        let column: Vec<usize> = left.by_ref().take(count).collect();
        if column.len() < count {
            return None;
        }
        columns.push(column);
    }
    left.next().is_none().then_some(columns)
}

// ---------------------------------------------------------------------------------------------
// R18: columns that are none

/// Whether some label is not in the alphabet of its component.
pub fn outside(components: &[Component], columns: &Columns) -> bool {
    let strange = |component: &Component, label: usize| label >= 64 || !component.alphabet[label];
    let mut both = components.iter().zip(columns);
    both.any(|(component, column)| column.iter().any(|&label| strange(component, label)))
}

/// R18: the columns, or the refusal.
pub fn read(components: &[Component], bytes: &[u8]) -> Result<Columns, Refusal> {
    match cut(bytes, components.len()) {
        Some(columns) if labels(&columns) <= MOST && !outside(components, &columns) => Ok(columns),
        _ => Err((18, 0)),
    }
}

// ---------------------------------------------------------------------------------------------
// R19: columns that no accepted sheet has

/// Why no accepted sheet has the columns.
#[derive(Clone, Copy, Debug, PartialEq)]
pub enum Why {
    /// A shared action stands more often in one column than in another.
    Uneven,
    /// Components wait for each other.
    Circle,
    /// What the columns ask for cannot be executed.
    NotEnabled,
}

/// How often the action stands in the column.
fn times(column: &[usize], action: usize) -> usize {
    column.iter().filter(|&&label| label == action).count()
}

/// Whether some action does not stand equally often in all columns whose alphabets have it.
pub fn uneven(components: &[Component], columns: &Columns) -> bool {
    (0..64).any(|action| {
        let mut own = components
            .iter()
            .zip(columns)
            .filter(|(component, _)| component.alphabet[action]);
        let Some((_, first)) = own.next() else {
            return false;
        };
        own.any(|(_, column)| times(column, action) != times(first, action))
    })
}

/// An event: an action, and how often it stood in the column before.
type Event = (usize, usize);

fn events(column: &[usize]) -> Vec<Event> {
    let event = |i: usize| (column[i], times(&column[..i], column[i]));
    (0..column.len()).map(event).collect()
}

/// The step of each event, from 0: behind the step of the event just before it, in each column. Steps are raised until this holds
/// everywhere. Where one is as large as the number of labels, they are raised in a circle, and there are none.
pub fn levels(columns: &Columns) -> Option<Vec<Vec<usize>>> {
    let columns_of_events: Vec<Vec<Event>> = columns.iter().map(|column| events(column)).collect();
    let most = labels(columns);
    let mut levels = vec![vec![0; most]; 64];
    loop {
        let mut raised = false;
        for column in &columns_of_events {
            for two in column.windows(2) {
                let [(a, i), (b, j)] = [two[0], two[1]];
                if levels[b][j] <= levels[a][i] {
                    levels[b][j] = levels[a][i] + 1;
                    raised = true;
                    if levels[b][j] == most {
                        return None;
                    }
                }
            }
        }
        if !raised {
            return Some(levels);
        }
    }
}

/// The steps by the levels: an action stands in a step once, however many columns have it.
pub fn steps(columns: &Columns, levels: &[Vec<usize>]) -> Vec<Vec<usize>> {
    let mut steps = vec![vec![]; labels(columns)];
    for (action, occurrence) in columns.iter().flat_map(|column| events(column)) {
        let step: &mut Vec<usize> = &mut steps[levels[action][occurrence]];
        if !step.contains(&action) {
            step.push(action);
        }
    }
    steps.retain(|step| !step.is_empty());
    for step in &mut steps {
        step.sort();
    }
    steps
}

/// V3, V4, R19: the restated sheet over the tables of this one that has these columns, or why there is none.
pub fn joined(sheet: &Sheet, columns: &Columns) -> Result<Vec<u8>, Why> {
    if uneven(&sheet.components, columns) {
        return Err(Why::Uneven);
    }
    let levels = levels(columns).ok_or(Why::Circle)?;
    let made = plain::sheet_of(&sheet.tables, sheet.n, sheet.m, &steps(columns, &levels));
    match plain::verdict(&made) {
        Ok(_) => Ok(made),
        Err((12, _)) => Err(Why::NotEnabled),
        Err(other) => panic!("the steps from columns are refused by {other:?}"),
    }
}

/// V3, O9: the restated sheet over the tables of an accepted one, or the refusal: 18, then 19.
pub fn columns_over(sheet: &Sheet, bytes: &[u8]) -> Result<Vec<u8>, Refusal> {
    let columns = read(&sheet.components, bytes)?;
    joined(sheet, &columns).map_err(|_| (19, 0))
}

/// V3, O9: the restated sheet, or the refusal: those of the sheet, then 18, then 19.
pub fn columns(sheet: &[u8], bytes: &[u8]) -> Result<Vec<u8>, Refusal> {
    columns_over(&plain::verdict(sheet)?, bytes)
}

/// V3, R13: the sheet written into lent bytes: how many were written, or the refusal, 13 last.
pub fn columns_into(sheet: &[u8], bytes: &[u8], out: &mut [u8]) -> Result<usize, Refusal> {
    plain::write_into(&columns(sheet, bytes)?, out)
}
