//! The lines of the benchmark about columns (V1 to V4, R18, R19): what each is made of.

use crate::plain_columns;
use crate::random_columns::{self, close_ring, ring, Draft};
use crate::sheet_lines::{largest, MIDDLE, SMALL};
use crate::sheets::{self, case_of, flat, Cut, Dice, Size};
use crate::tables::{Input, Line};

/// A ring of 16 components, the action of each with the next one in turn: 512 events, so that there are 1,024 labels. The last 16 may
/// wait for each other.
fn ring_of_16(waits: bool) -> Draft {
    let list: Vec<usize> = (0..496).map(|k| k % 16).collect();
    let mut draft = Draft::of(ring(16), &list);
    close_ring(&mut draft, waits);
    draft
}

/// A component of one state that does its one action 1,024 times.
fn one_component() -> Draft {
    let mut sheet = sheets::smallest();
    sheet.transitions.push([0, 0, 0, 0]);
    Draft::of(sheet, &[0; 1_024])
}

/// The largest tables, of which all states are held, without steps: 1,024 labels, where an action has so many components.
fn largest_tables(participants: usize) -> Draft {
    let mut sheet = largest(participants, Cut::Single);
    let list = flat(&std::mem::take(&mut sheet.steps));
    Draft::of(sheet, &list[..1_024 / participants])
}

/// The same beside 1,024 steps of the sheet itself.
fn largest_sheet(participants: usize) -> Draft {
    let columns = largest_tables(participants).columns;
    Draft {
        sheet: largest(participants, Cut::Single),
        columns,
    }
}

/// Columns of executions of a number of actions from and to.
fn right(seed: u64, size: Size, actions: (usize, usize), count: usize) -> Vec<Draft> {
    let mut dice = Dice::new(seed);
    (0..count)
        .map(|_| random_columns::right(&mut dice, size, actions))
        .collect()
}

/// Columns of the generator, beside sheets of up to 1,000 bytes, that are refused by one of the numbers.
fn refused(numbers: std::ops::RangeInclusive<u64>, count: usize) -> Vec<Input> {
    let mut dice = Dice::new(31);
    let is_refused = |(sheet, columns): &random_columns::Input| {
        let told = plain_columns::columns(sheet, columns).err();
        sheet.len() + columns.len() <= 1_000 && told.is_some_and(|(number, _)| numbers.contains(&number))
    };
    (0..)
        .map(|k| case_of(random_columns::KINDS, &mut dice, k).bytes)
        .filter(is_refused)
        .take(count)
        .map(Input::from)
        .collect()
}

fn cases() -> Vec<(&'static str, Vec<Draft>)> {
    let pair = |own: &[&[usize]]| Draft::of(sheets::pair_system(own), &[0, 1, 2, 0]);
    vec![
        (
            "smallest sheet, an empty column",
            vec![Draft::of(sheets::smallest(), &[])],
        ),
        ("Pair, 5 labels, no steps of its own", vec![pair(&[])]),
        (
            "Pair, 5 labels, 4 steps of its own",
            vec![pair(&[&[0], &[1], &[2], &[0]])],
        ),
        ("small: n 2-4, 5-20 actions", right(1, SMALL, (5, 20), 64)),
        ("middle: n 5-9, 50-150 actions", right(2, MIDDLE, (50, 150), 32)),
        ("ring of 16, 512 events, 1,024 labels", vec![ring_of_16(false)]),
        (
            "the same, refused by 19: a circle in the last labels",
            vec![ring_of_16(true)],
        ),
        ("1,024 labels in one component, 1 state", vec![one_component()]),
        (
            "largest tables, 1,024 labels, action in 1 component",
            vec![largest_tables(1)],
        ),
        (
            "largest tables, 1,024 labels, action in 2 components",
            vec![largest_tables(2)],
        ),
        (
            "largest tables, 1,024 labels, action in all 16",
            vec![largest_tables(16)],
        ),
        ("worst: the same with 1,024 steps of its own", vec![largest_sheet(16)]),
    ]
}

/// The lines of the table of columns.
pub fn lines() -> Vec<Line<Input>> {
    let made = |draft: Draft| Input::from(draft.bytes());
    let accepted = |(name, drafts): (&str, Vec<Draft>)| (name.to_string(), drafts.into_iter().map(made).collect());
    let mut lines: Vec<Line<Input>> = cases().into_iter().map(accepted).collect();
    for (name, numbers) in [
        ("refused by 10 to 12, small", 10..=12),
        ("refused by 18, small", 18..=18),
        ("refused by 19, small", 19..=19),
    ] {
        lines.push((name.to_string(), refused(numbers, 64)));
    }
    lines
}
