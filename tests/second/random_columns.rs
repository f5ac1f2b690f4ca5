//! C4: random columns beside their sheets, the same ones for the same seed: those of executions of every size and at every limit, wrong
//! ones a change or two away, and bytes of any sort (V1, V2, V4, R18, R19, O9). Most come with what is meant to be answered.

use crate::sheets::{self, any_cut, any_order, elements, flat, pair_system, smallest, system, until};
use crate::sheets::{Dice, Kind, Made, Meant, Record, Runner, Size};
use crate::sheets::{FULL, LARGE, LIVE, MEDIUM, SMALL, TINY, WIDE};

/// A sheet and columns, in bytes.
pub type Input = (Vec<u8>, Vec<u8>);

/// The most labels together.
const MOST: usize = 1_024;

// ---------------------------------------------------------------------------------------------
// Columns in the making

#[derive(Clone)]
pub struct Draft {
    pub sheet: sheets::Draft,
    /// The labels of each component.
    pub columns: Vec<Vec<u8>>,
}

impl Draft {
    /// V1: the columns of a list of actions.
    pub fn of(sheet: sheets::Draft, list: &[usize]) -> Draft {
        let own = |record: &Record| {
            let has = |action: &&usize| record.alphabet >> **action & 1 == 1;
            list.iter().filter(has).map(|&action| action as u8).collect()
        };
        let columns = sheet.records.iter().map(own).collect();
        Draft { sheet, columns }
    }

    pub fn bytes(&self) -> Input {
        (self.sheet.bytes(), encoded(&self.columns))
    }

    fn labels(&self) -> usize {
        self.columns.concat().len()
    }

    /// The actions that stand in several alphabets, each with a component that has it.
    fn shared(&self) -> Vec<(usize, usize)> {
        let of = |j: usize| {
            elements(self.sheet.records[j].alphabet)
                .into_iter()
                .map(move |action| (j, action))
        };
        let all = (0..self.columns.len()).flat_map(of);
        all.filter(|&(_, action)| participants(&self.sheet, action) > 1)
            .collect()
    }
}

/// V2: the columns in bytes.
fn encoded(columns: &[Vec<u8>]) -> Vec<u8> {
    let mut bytes = Vec::new();
    for column in columns {
        bytes.extend((column.len() as u16).to_le_bytes());
        bytes.extend(column);
    }
    bytes
}

/// How many components have the action.
fn participants(sheet: &sheets::Draft, action: usize) -> usize {
    sheet
        .records
        .iter()
        .filter(|record| record.alphabet >> action & 1 == 1)
        .count()
}

/// The front of a list whose columns have at most so many labels.
fn front(sheet: &sheets::Draft, mut list: Vec<usize>, most: usize) -> Vec<usize> {
    let mut labels = 0;
    let fits = |action: &&usize| {
        labels += participants(sheet, **action);
        labels <= most
    };
    list.truncate(list.iter().take_while(fits).count());
    list
}

/// V4: steps that the sheet has itself: none, the list in other steps or in another order, or another execution.
fn own_steps(dice: &mut Dice, sheet: &mut sheets::Draft, list: &[usize]) {
    let cut = any_cut(dice);
    sheet.steps = sheets::recut(dice, sheet, &list[..list.len().min(MOST)], cut);
    match dice.below(4) {
        0 => sheet.steps.clear(),
        1 => {}
        2 => sheet.steps = sheets::reordered(dice, sheet),
        _ => {
            let (most, order) = (dice.from_to(0, 20), any_order(dice));
            sheet.steps = sheets::execution(dice, sheet, most, cut, order);
        }
    }
}

// ---------------------------------------------------------------------------------------------
// V3: columns of executions

/// Columns of a list that can be executed, or of its front where it has too many labels.
fn listed(dice: &mut Dice, mut sheet: sheets::Draft, list: Vec<usize>, most: usize) -> Draft {
    let list = front(&sheet, list, most);
    own_steps(dice, &mut sheet, &list);
    Draft::of(sheet, &list)
}

/// Columns of an execution of at most so many actions, and labels.
fn drawn(dice: &mut Dice, size: Size, actions: usize, labels: usize) -> Draft {
    let sheet = sheets::sized(dice, size, actions);
    let list = flat(&sheet.steps);
    listed(dice, sheet, list, labels)
}

/// Columns of an execution.
pub fn right(dice: &mut Dice, size: Size, actions: (usize, usize)) -> Draft {
    let actions = dice.from_to(actions.0, actions.1);
    drawn(dice, size, actions, MOST)
}

/// Columns of an execution, mostly of moderate size.
fn base(dice: &mut Dice) -> Draft {
    let size = dice.pick(&[TINY, TINY, SMALL, SMALL, LIVE, LIVE, MEDIUM, WIDE]);
    right(dice, size, (0, 40))
}

/// Columns of an execution that have exactly so many labels.
fn exactly(dice: &mut Dice, size: Size, labels: usize) -> Draft {
    until(dice, |dice| {
        let draft = drawn(dice, size, labels, labels);
        (draft.labels() == labels).then_some(draft)
    })
}

/// Sizes of systems in which nothing gets stuck.
fn any_live(dice: &mut Dice) -> Size {
    dice.pick(&[LIVE, LIVE, WIDE])
}

/// One component that has every action.
const ALONE: Size = Size { n: (1, 1), ..LIVE };

/// V3: 1,024 labels in one column, each a step, over tables as large as there may be: a sheet of 16,650 bytes.
fn longest(dice: &mut Dice) -> Draft {
    let size = Size {
        transitions: (2048, 2048),
        states: (8, 32),
        m: (16, 64),
        alone: 100,
        ..WIDE
    };
    until(dice, |dice| {
        let sheet = system(dice, size);
        let j = dice.below(16);
        let mut own = elements(sheet.records[j].alphabet);
        own.retain(|&action| participants(&sheet, action) == 1);
        if own.is_empty() || sheet.transitions.len() < 2048 {
            return None;
        }
        let list = (0..MOST).map(|_| dice.pick(&own)).collect();
        Some(listed(dice, sheet, list, MOST))
    })
}

/// A ring of components of one state, in which everything loops: j shares action j with the next one, and has action n + j alone.
pub fn ring(n: usize) -> sheets::Draft {
    let mut sheet = sheets::Draft::empty(2 * n);
    for j in 0..n {
        let own = [j, (j + n - 1) % n, n + j];
        sheet.records.push(Record {
            count: 1,
            filler: [0; 3],
            initial: 1,
            alphabet: own.iter().fold(0, |set, a| set | 1 << a),
        });
        sheet
            .transitions
            .extend(own.map(|action| [j as u8, 0, action as u8, 0]));
    }
    sheet.transitions.sort();
    sheet
}

/// R19: puts behind every column of a ring its own action and then that of the one before: each component waits for the next, all
/// around. Where component 0 has them the other way round, nothing waits.
pub fn close_ring(draft: &mut Draft, waits: bool) {
    let n = draft.columns.len();
    for (j, column) in draft.columns.iter_mut().enumerate() {
        let mut two = [j, (j + n - 1) % n];
        if j == 0 && !waits {
            two.reverse();
        }
        column.extend(two.map(|action| action as u8));
    }
}

/// A ring closed behind some columns, and more labels of single components behind that.
fn ring_drawn(dice: &mut Dice, waits: bool) -> Draft {
    let n = dice.pick(&[2, 3, 4, 8, 16]);
    let (mut sheet, most) = (ring(n), dice.pick(&[0, 8, 64, 700, 700]));
    let (cut, order) = (any_cut(dice), any_order(dice));
    sheet.steps = sheets::execution(dice, &sheet, most, cut, order);
    let list = flat(&sheet.steps);
    let mut draft = listed(dice, sheet, list, 900);
    close_ring(&mut draft, waits);
    for j in (0..n).filter(|_| dice.percent(30)) {
        draft.columns[j].push((n + j) as u8);
    }
    draft
}

fn accepted(draft: &Draft) -> Made<Input> {
    (draft.bytes(), Meant::Accepted)
}

fn refused(draft: &Draft, number: u64) -> Made<Input> {
    (draft.bytes(), Meant::Refused(number, 0))
}

fn open(draft: &Draft) -> Made<Input> {
    (draft.bytes(), Meant::Open)
}

fn make_empty(dice: &mut Dice) -> Made<Input> {
    let mut draft = base(dice);
    draft.columns.iter_mut().for_each(Vec::clear);
    accepted(&draft)
}

/// Over Pair: any execution.
fn make_pair(dice: &mut Dice) -> Made<Input> {
    let mut sheet = pair_system(&[]);
    let (most, cut, order) = (dice.from_to(0, 20), any_cut(dice), any_order(dice));
    sheet.steps = sheets::execution(dice, &sheet, most, cut, order);
    let list = flat(&sheet.steps);
    accepted(&listed(dice, sheet, list, MOST))
}

// ---------------------------------------------------------------------------------------------
// R18, R19: a change in the columns

/// A change of columns in the making; whether it could be made.
type Change = fn(&mut Dice, &mut Draft) -> bool;

/// Columns of moderate size with these faults, one after another, for which they are refused by the number.
fn faulty(dice: &mut Dice, number: u64, faults: &[Change]) -> Made<Input> {
    until(dice, |dice| {
        let mut draft = base(dice);
        let made = faults.iter().all(|fault| fault(dice, &mut draft));
        made.then(|| refused(&draft, number))
    })
}

/// R18: a label that its component does not have, among the others or in the place of one.
fn label_outside(dice: &mut Dice, draft: &mut Draft) -> bool {
    let j = dice.below(draft.columns.len());
    let (m, alphabet) = (draft.sheet.m as usize, draft.sheet.records[j].alphabet);
    let strange: Vec<usize> = (0..64).filter(|action| alphabet >> action & 1 == 0).collect();
    let others: Vec<usize> = strange.iter().copied().filter(|&action| action < m).collect();
    let label = match dice.below(5) {
        0 => 255,
        // Its low six bits are an action of the alphabet.
        1 => dice.pick(&[64, 128, 192]) + dice.pick(&elements(alphabet)),
        2 => dice.from_to(64, 254),
        3 if !strange.is_empty() => dice.pick(&strange),
        _ if !others.is_empty() => dice.pick(&others),
        _ => return false,
    };
    let column = &mut draft.columns[j];
    let place = dice.from_to(0, column.len());
    if place < column.len() && dice.percent(50) {
        column[place] = label as u8;
    } else {
        column.insert(place, label as u8);
    }
    true
}

/// R19: a shared action once more, or once less, in one column alone.
fn uneven(dice: &mut Dice, draft: &mut Draft) -> bool {
    let shared = draft.shared();
    if shared.is_empty() {
        return false;
    }
    let (j, action) = dice.pick(&shared);
    let column = &mut draft.columns[j];
    let places: Vec<usize> = (0..column.len()).filter(|&i| column[i] as usize == action).collect();
    match dice.below(3) {
        0 if !places.is_empty() => drop(column.remove(dice.pick(&places))),
        1 if !places.is_empty() => column.insert(dice.pick(&places), action as u8),
        _ => column.insert(dice.from_to(0, column.len()), action as u8),
    }
    draft.labels() <= MOST
}

/// R19: an action that is not enabled at the end, in every column that it belongs to.
fn not_enabled(dice: &mut Dice) -> Made<Input> {
    until(dice, |dice| {
        let size = dice.pick(&[TINY, SMALL, SMALL, MEDIUM]);
        let most = dice.pick(&[0, 5, 40, 300]);
        let sheet = sheets::sized(dice, size, most);
        let mut list = front(&sheet, flat(&sheet.steps), MOST - 16);
        let mut runner = Runner::new(&sheet);
        if !runner.runs(&list) {
            return None;
        }
        let disabled: Vec<usize> = (0..sheet.m as usize)
            .filter(|&action| !runner.enabled(action))
            .collect();
        if disabled.is_empty() {
            return None;
        }
        list.push(dice.pick(&disabled));
        Some(refused(&Draft::of(sheet, &list), 19))
    })
}

/// Two neighbours in one column change places: often nobody can have that, sometimes somebody can.
fn swapped(dice: &mut Dice, draft: &mut Draft) -> bool {
    let j = dice.below(draft.columns.len());
    let column = &mut draft.columns[j];
    if column.len() < 2 {
        return false;
    }
    let i = dice.below(column.len() - 1);
    column.swap(i, i + 1);
    column[i] != column[i + 1]
}

/// A label of one column more or less: whatever it is.
fn one_label(dice: &mut Dice, draft: &mut Draft) -> bool {
    let j = dice.below(draft.columns.len());
    let own = elements(draft.sheet.records[j].alphabet);
    let column = &mut draft.columns[j];
    let place = dice.from_to(0, column.len());
    if place < column.len() && dice.percent(50) {
        column.remove(place);
    } else {
        column.insert(place, dice.pick(&own) as u8);
    }
    true
}

/// Every column in any order.
fn shuffled(dice: &mut Dice, draft: &mut Draft) -> bool {
    draft.columns.iter_mut().for_each(|column| dice.shuffle(column));
    true
}

fn make_changed(dice: &mut Dice) -> Made<Input> {
    let change = dice.pick(&[swapped, swapped, one_label, shuffled] as &[Change]);
    until(dice, |dice| {
        let mut draft = base(dice);
        change(dice, &mut draft).then(|| open(&draft))
    })
}

/// An action put into a list that could be executed, at any place.
fn make_inserted(dice: &mut Dice) -> Made<Input> {
    let size = dice.pick(&[TINY, SMALL, SMALL, MEDIUM]);
    let most = dice.from_to(0, 40);
    let sheet = sheets::sized(dice, size, most);
    let mut list = flat(&sheet.steps);
    list.insert(dice.from_to(0, list.len()), dice.below(sheet.m as usize));
    open(&Draft::of(sheet, &list))
}

// ---------------------------------------------------------------------------------------------
// R18: bytes that the columns do not fill, or too many labels

/// Any part of the front: a byte less, an empty column less, the last column less, any part, or nothing at all.
fn make_cut(dice: &mut Dice) -> Made<Input> {
    let draft = base(dice);
    let (sheet, mut columns) = draft.bytes();
    let last = 2 + draft.columns[draft.columns.len() - 1].len();
    let (all, any) = (columns.len(), dice.from_to(1, columns.len()));
    columns.truncate(all - dice.pick(&[1, 2, last, any, all]));
    ((sheet, columns), Meant::Refused(18, 0))
}

/// Bytes behind the last column: one, another empty column, or any.
fn make_longer(dice: &mut Dice) -> Made<Input> {
    let (sheet, mut columns) = base(dice).bytes();
    let more = dice.pick(&[1, 2, 2, 7]);
    columns.extend(if dice.percent(70) {
        vec![0; more]
    } else {
        dice.bytes(more)
    });
    ((sheet, columns), Meant::Refused(18, 0))
}

/// A count that says too much or too little, of any column.
fn make_count_off(dice: &mut Dice) -> Made<Input> {
    let draft = base(dice);
    let (sheet, mut columns) = draft.bytes();
    let j = dice.below(draft.columns.len());
    let (at, count) = (encoded(&draft.columns[..j]).len(), draft.columns[j].len());
    let behind = columns.len() - at - 2;
    let other = dice.pick(&[
        count + 1,
        count.saturating_sub(1),
        count + 256,
        count << 8,
        behind,
        behind + 1,
        65_535,
        65_536 - at.min(3),
    ]);
    columns[at..at + 2].copy_from_slice(&(other as u16).to_le_bytes());
    ((sheet, columns), Meant::Open)
}

/// More labels than there may be, all of an execution: one more, or many.
fn make_too_many(dice: &mut Dice) -> Made<Input> {
    let size = any_live(dice);
    let mut draft = exactly(dice, size, MOST + 1);
    if dice.percent(20) {
        let again = draft.columns.clone();
        for (column, again) in draft.columns.iter_mut().zip(again) {
            column.extend(again.repeat(dice.from_to(1, 9)));
        }
    }
    refused(&draft, 18)
}

// ---------------------------------------------------------------------------------------------
// O9: sheets that are refused, and any fault

/// Columns beside a sheet that is refused, by each number as often: empty ones, none, any bytes.
fn make_refused_sheet(dice: &mut Dice) -> Made<Input> {
    let wanted = dice.from_to(1, 12) as u64;
    until(dice, |dice| {
        let at = dice.below(10_000);
        let case = sheets::few_rows(dice, at);
        if !matches!(case.meant, Meant::Refused(number, _) if number == wanted) {
            return None;
        }
        let n = case.bytes.iter().rev().nth(3).copied().unwrap_or(0) as usize;
        let length = dice.pick(&[2 * n, 2 * n, 2 * n, 0, 9]);
        let columns = if dice.percent(80) {
            vec![0; length]
        } else {
            dice.bytes(length)
        };
        Some(((case.bytes, columns), case.meant))
    })
}

/// V4, O9: the steps of the sheet itself have a fault, with columns that are right, or not.
fn make_own_steps(dice: &mut Dice) -> Made<Input> {
    let mut draft = base(dice);
    let place = dice.from_to(0, draft.sheet.steps.len());
    draft.sheet.steps.insert(place, 0);
    match dice.below(4) {
        0 => drop(label_outside(dice, &mut draft)),
        1 => drop(uneven(dice, &mut draft)),
        _ => {}
    }
    (draft.bytes(), Meant::Refused(10, place))
}

fn make_byte_flips(dice: &mut Dice) -> Made<Input> {
    let (sheet, mut columns) = base(dice).bytes();
    for _ in 0..dice.from_to(1, 3) {
        let at = dice.below(columns.len());
        columns[at] = dice.pick(&[0, 1, 2, 3, 4, 63, 64, 254, 255]);
    }
    ((sheet, columns), Meant::Open)
}

/// Random bytes; some have small counts and labels.
fn make_noise(dice: &mut Dice) -> Made<Input> {
    let size = dice.pick(&[TINY, SMALL, LIVE]);
    let sheet = system(dice, size).bytes();
    let length = dice.pick(&[0, 1, 2, 3, 4, 5, 6, 7, 8, 12, 100]);
    let mut columns = dice.bytes(length);
    if dice.percent(80) {
        for byte in &mut columns {
            *byte = dice.pick(&[0, 0, 0, 0, 1, 1, 2, 3]);
        }
    }
    ((sheet, columns), Meant::Open)
}

/// Every kind with its weight: how many of them come in one round.
#[rustfmt::skip]
pub const KINDS: &[Kind<Input>] = &[
    ("columns, smallest", 1, |_| accepted(&Draft::of(smallest(), &[]))),
    ("columns, tiny", 8, |dice| accepted(&right(dice, TINY, (0, 8)))),
    ("columns, small", 8, |dice| accepted(&right(dice, SMALL, (0, 30)))),
    ("columns, medium", 4, |dice| accepted(&right(dice, MEDIUM, (0, 150)))),
    ("columns, large", 1, |dice| accepted(&right(dice, LARGE, (0, 400)))),
    ("columns, full tables", 1, |dice| accepted(&right(dice, FULL, (0, 400)))),
    ("columns, live", 5, |dice| accepted(&right(dice, LIVE, (1, 300)))),
    ("columns, wide", 2, |dice| accepted(&right(dice, WIDE, (100, 1024)))),
    ("columns, 64 actions", 2, |dice| accepted(&right(dice, Size { m: (64, 64), ..WIDE }, (50, 200)))),
    ("columns, one action in all", 2, |dice| accepted(&right(dice, Size { n: (16, 16), m: (1, 1), ..LIVE }, (1, 64)))),
    ("columns, pair", 4, make_pair),
    ("columns, empty", 4, make_empty),
    ("columns, 1,024 labels", 2, |dice| { let size = any_live(dice); accepted(&exactly(dice, size, MOST)) }),
    ("columns, one component", 1, |dice| accepted(&exactly(dice, ALONE, MOST))),
    ("columns, longest", 1, |dice| accepted(&longest(dice))),
    ("columns, almost a circle", 3, |dice| accepted(&ring_drawn(dice, false))),
    ("columns, 1,025 labels", 2, make_too_many),
    ("columns, label", 12, |dice| faulty(dice, 18, &[label_outside])),
    ("columns, cut", 6, make_cut),
    ("columns, longer", 5, make_longer),
    ("columns, count off", 8, make_count_off),
    ("columns, uneven", 10, |dice| faulty(dice, 19, &[uneven])),
    ("columns, circle", 6, |dice| refused(&ring_drawn(dice, true), 19)),
    ("columns, not enabled", 8, not_enabled),
    ("columns, 18 and 19", 4, |dice| faulty(dice, 18, &[uneven, label_outside])),
    ("columns, changed", 10, make_changed),
    ("columns, inserted", 6, make_inserted),
    ("columns, refused sheet", 20, make_refused_sheet),
    ("columns, own steps", 5, make_own_steps),
    ("columns, byte flips", 6, make_byte_flips),
    ("columns, noise", 6, make_noise),
];
