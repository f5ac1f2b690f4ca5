//! C4: in which groups the machine runs the components of a sheet (docs/ARCHITECTURE.md, the way through the machine), so that the comparison
//! can tell that sheets of several groups were among those compared. No answer depends on it.

use crate::sheets::{Draft, Record, Runner};

/// The largest table has 5,312 places: MORE than these.
const PLACES: usize = 5_248;
/// A sheet counts only where so many places more would make the same groups: then it does not rest on the exact number.
const MORE: usize = 64;

/// What is to be known of a sheet that is accepted or refused by 12.
#[derive(Default)]
pub struct Grouped {
    pub groups: usize,
    /// Whether a group has components at both sides of one that comes later.
    pub hole: bool,
    /// The steps that are run: those before the first to which 10 or 11 applies.
    pub steps: usize,
    /// For each of several groups, the first step that one of its components cannot do, or the number of the steps.
    pub found: Vec<usize>,
}

/// The groups of a sheet to which 1 to 9 do not apply; none where they rest on the exact number of places.
pub fn grouped(bytes: &[u8]) -> Grouped {
    let draft = read(bytes);
    let groups = groups(&draft, PLACES);
    if groups != self::groups(&draft, PLACES + MORE) {
        return Grouped::default();
    }
    Grouped {
        groups: groups.len(),
        hole: groups.iter().enumerate().any(|(k, group)| {
            groups[k + 1..]
                .iter()
                .flatten()
                .any(|j| group[0] < *j && *j < group[group.len() - 1])
        }),
        steps: draft.steps.len(),
        // One group alone need not be run: what it finds is the answer.
        found: if groups.len() > 1 {
            groups.iter().map(|group| first_failing(&draft, group)).collect()
        } else {
            Vec::new()
        },
    }
}

/// The parts of the sheet, with the steps before the first to which 10 or 11 applies.
fn read(bytes: &[u8]) -> Draft {
    let number = |at: usize, count: usize| (0..count).fold(0u64, |sum, i| sum | u64::from(bytes[at + i]) << (8 * i));
    let end = bytes.len() - 10;
    let (t, s) = (number(end + 2, 2) as usize, number(end + 4, 2) as usize);
    let mut draft = Draft::empty(bytes[end + 7] as usize);
    for at in (0..t).step_by(16) {
        draft.records.push(Record {
            count: bytes[at],
            filler: [0; 3],
            initial: number(at + 4, 4) as u32,
            alphabet: number(at + 8, 8),
        });
    }
    draft.transitions = bytes[t..s].chunks(4).map(|c| [c[0], c[1], c[2], c[3]]).collect();
    let actions = u64::MAX >> (64 - draft.m);
    for at in (s..end).step_by(8) {
        let step = number(at, 8);
        let clash = draft.records.iter().any(|record| (record.alphabet & step).count_ones() > 1);
        if step == 0 || step & !actions != 0 || clash {
            break;
        }
        draft.steps.push(step);
    }
    draft
}

/// Behind an index of one place for each component and action, a component takes one row for each of its actions that a step has, and a row has
/// a place for each state and one more. A group takes the components in order, and leaves out those for which there is no room any more.
fn groups(draft: &Draft, places: usize) -> Vec<Vec<usize>> {
    let used = draft.steps.iter().fold(0, |all, step| all | step);
    let need = |j: usize| {
        let record = &draft.records[j];
        (record.alphabet & used).count_ones() as usize * (record.count as usize + 1)
    };
    let n = draft.records.len();
    let mut left: Vec<usize> = (0..n).filter(|&j| need(j) > 0).collect();
    let mut groups = Vec::new();
    while !left.is_empty() {
        let mut room = places - n * draft.m as usize;
        let (group, later) = left.into_iter().partition(|&j| {
            let fits = need(j) <= room;
            room -= if fits { need(j) } else { 0 };
            fits
        });
        groups.push(group);
        left = later;
    }
    groups
}

/// The first step that a component of the group cannot do, or the number of steps. A component without actions hinders none.
fn first_failing(draft: &Draft, group: &[usize]) -> usize {
    let mut own = draft.clone();
    for (j, record) in own.records.iter_mut().enumerate() {
        if !group.contains(&j) {
            record.alphabet = 0;
        }
    }
    let mut runner = Runner::new(&own);
    for (index, &step) in own.steps.iter().enumerate() {
        if !runner.runs(&crate::sheets::elements(step)) {
            return index;
        }
    }
    own.steps.len()
}
