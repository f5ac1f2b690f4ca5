//! C4: random products, the same ones for the same seed: right ones of every size and at every limit, wrong ones a change or two
//! away from a right one, and bytes of any sort (B1, B2, B5, R15, R16, R17, O8). Most come with what is meant to be answered.

use crate::sheets::{until, Dice, Kind, Made, Meant};

const IDLE: u8 = 255;

// ---------------------------------------------------------------------------------------------
// A product in the making

#[derive(Clone)]
pub struct Component {
    pub states: u8,
    pub initial: u8,
    /// Source and target of each.
    pub transitions: Vec<[u8; 2]>,
}

/// The parts of a product. Its counts fit the parts.
#[derive(Clone)]
pub struct Draft {
    pub components: Vec<Component>,
    pub rows: Vec<Vec<u8>>,
}

impl Draft {
    pub fn bytes(&self) -> Vec<u8> {
        let mut out = vec![self.components.len() as u8, self.rows.len() as u8];
        for component in &self.components {
            out.extend([
                component.states,
                component.initial,
                component.transitions.len() as u8,
            ]);
            out.extend(component.transitions.as_flattened());
        }
        out.extend(self.rows.concat());
        out
    }

    /// Whether no row is idle throughout and none stands twice.
    fn rows_right(&self) -> bool {
        let idle = |row: &Vec<u8>| row.iter().all(|&number| number == IDLE);
        let twice = |g: usize| self.rows[..g].contains(&self.rows[g]);
        !self.rows.iter().any(idle) && !(0..self.rows.len()).any(twice)
    }

    /// Whether the component takes part in some row.
    fn takes_part(&self, j: usize) -> bool {
        self.rows.iter().any(|row| row[j] != IDLE)
    }

    /// Whether neither 16 nor 17 holds.
    fn is_right(&self) -> bool {
        self.rows_right() && (0..self.components.len()).all(|j| self.takes_part(j))
    }
}

// ---------------------------------------------------------------------------------------------
// Right products

/// Limits from which a product is drawn, each from and to.
#[derive(Clone, Copy)]
pub struct Size {
    pub components: Range,
    pub rows: Range,
    pub states: Range,
    pub transitions: Range,
    /// Percent of components that idle in a row.
    pub idle: Range,
}

type Range = (usize, usize);

const fn size(components: Range, rows: Range, states: Range, transitions: Range, idle: Range) -> Size {
    Size {
        components,
        rows,
        states,
        transitions,
        idle,
    }
}

pub const TINY: Size = size((1, 3), (1, 4), (1, 3), (1, 5), (0, 60));
pub const SMALL: Size = size((1, 5), (1, 12), (1, 5), (1, 12), (0, 80));
pub const MEDIUM: Size = size((2, 10), (4, 40), (1, 12), (3, 60), (0, 85));
pub const LARGE: Size = size((6, 16), (20, 64), (4, 32), (20, 255), (0, 90));
pub const FULL: Size = size((16, 16), (64, 64), (32, 32), (255, 255), (0, 90));
const ALONE: Size = size((1, 1), (1, 64), (1, 32), (64, 255), (0, 0));

fn draw(dice: &mut Dice, (low, high): Range) -> usize {
    dice.from_to(low, high)
}

fn component(dice: &mut Dice, size: Size) -> Component {
    let states = draw(dice, size.states);
    let state = |dice: &mut Dice| dice.below(states) as u8;
    Component {
        states: states as u8,
        initial: state(dice),
        transitions: (0..draw(dice, size.transitions))
            .map(|_| [state(dice), state(dice)])
            .collect(),
    }
}

/// Any number of one of the component's transitions, or idle where it has none.
fn number(dice: &mut Dice, component: &Component) -> u8 {
    match component.transitions.len() {
        0 => IDLE,
        count => dice.below(count) as u8,
    }
}

fn row(dice: &mut Dice, components: &[Component], idle: usize) -> Vec<u8> {
    let entry = |component| {
        if dice.percent(idle) {
            IDLE
        } else {
            number(dice, component)
        }
    };
    components.iter().map(entry).collect()
}

/// A product with rows drawn at random; nothing where one of them is idle throughout, or stands twice.
fn drawn(dice: &mut Dice, size: Size) -> Option<Draft> {
    let components: Vec<Component> = (0..draw(dice, size.components))
        .map(|_| component(dice, size))
        .collect();
    let idle = draw(dice, size.idle);
    let rows = (0..draw(dice, size.rows))
        .map(|_| row(dice, &components, idle))
        .collect();
    let mut draft = Draft { components, rows };
    for j in 0..draft.components.len() {
        if !draft.takes_part(j) {
            let g = dice.below(draft.rows.len());
            draft.rows[g][j] = number(dice, &draft.components[j]);
        }
    }
    Some(draft).filter(Draft::is_right)
}

/// A product that is not refused.
pub fn right(dice: &mut Dice, size: Size) -> Draft {
    until(dice, |dice| drawn(dice, size))
}

/// Sizes of moderate products.
const MODERATE: [Size; 10] = [TINY, TINY, TINY, SMALL, SMALL, SMALL, MEDIUM, MEDIUM, LARGE, ALONE];

/// A product that is not refused, mostly of moderate size.
fn base(dice: &mut Dice) -> Draft {
    let size = if dice.percent(5) { FULL } else { dice.pick(&MODERATE) };
    right(dice, size)
}

fn accepted(draft: &Draft) -> Made {
    (draft.bytes(), Meant::Accepted)
}

fn refused(draft: &Draft, number: u64) -> Made {
    (draft.bytes(), Meant::Refused(number, 0))
}

/// One component, one state, one transition, one row.
pub fn smallest() -> Draft {
    let only = Component {
        states: 1,
        initial: 0,
        transitions: vec![[0, 0]],
    };
    Draft {
        components: vec![only],
        rows: vec![vec![0]],
    }
}

/// The running example of 002: five transitions in a component of four states, three in one of three, seven rows.
pub fn running_example() -> Draft {
    let first = Component {
        states: 4,
        initial: 0,
        transitions: vec![[0, 1], [0, 2], [1, 3], [2, 3], [3, 0]],
    };
    let second = Component {
        states: 3,
        initial: 0,
        transitions: vec![[0, 1], [1, 2], [2, 0]],
    };
    let rows = [
        [0, IDLE],
        [1, IDLE],
        [2, 1],
        [3, 1],
        [4, IDLE],
        [IDLE, 0],
        [IDLE, 2],
    ];
    Draft {
        components: vec![first, second],
        rows: rows.map(|row| row.to_vec()).to_vec(),
    }
}

/// A change of a product in the making; whether it could be made.
type Change = fn(&mut Dice, &mut Draft) -> bool;

/// A right product of the size, changed; drawn again where the change could not be made.
fn changed(dice: &mut Dice, size: Size, change: Change) -> Draft {
    until(dice, |dice| {
        let mut draft = right(dice, size);
        change(dice, &mut draft).then_some(draft)
    })
}

/// The same, where the changed product is right too.
fn changed_right(dice: &mut Dice, size: Size, change: Change) -> Made {
    until(dice, |dice| {
        let draft = changed(dice, size, change);
        draft.is_right().then(|| accepted(&draft))
    })
}

/// Component 15 goes from state 31 to state 31 by its transition 254, in row 63.
fn last_of_each(_: &mut Dice, draft: &mut Draft) -> bool {
    draft.components[15].initial = 31;
    draft.components[15].transitions[254] = [31, 31];
    draft.rows[63][15] = 254;
    true
}

/// Components of 255 transitions: the last of them, and idle, stand in the rows.
fn number_254(dice: &mut Dice, draft: &mut Draft) -> bool {
    for row in &mut draft.rows {
        let j = dice.below(row.len());
        row[j] = dice.pick(&[254, IDLE]);
    }
    true
}

/// Rows that differ in component j alone.
pub fn differ_at(draft: &mut Draft, j: usize) {
    let first: Vec<u8> = vec![0; draft.components.len()];
    for (g, row) in draft.rows.iter_mut().enumerate() {
        row.copy_from_slice(&first);
        row[j] = g as u8;
    }
}

/// Rows that differ in one component alone: the last, the first or any.
fn one_differs(dice: &mut Dice, draft: &mut Draft) -> bool {
    let last = draft.components.len() - 1;
    let j = dice.pick(&[0, last, last, last / 2]);
    differ_at(draft, j);
    true
}

/// A transition once more, under another number, and a row once more, with that number.
fn twins(dice: &mut Dice, draft: &mut Draft) -> bool {
    let (g, j) = (dice.below(draft.rows.len()), dice.below(draft.components.len()));
    let (mut row, transitions) = (draft.rows[g].clone(), &mut draft.components[j].transitions);
    if row[j] == IDLE || draft.rows.len() == 64 || transitions.len() == 255 {
        return false;
    }
    transitions.push(transitions[row[j] as usize]);
    row[j] = transitions.len() as u8 - 1;
    draft.rows.insert(dice.from_to(0, draft.rows.len()), row);
    true
}

/// Rows in which one component moves, and no other.
fn single(dice: &mut Dice, draft: &mut Draft) -> bool {
    for row in &mut draft.rows {
        let j = dice.below(row.len());
        row.fill(IDLE);
        row[j] = number(dice, &draft.components[j]);
    }
    true
}

/// Other transitions and rows, such that all rows can be fired one after another.
fn walk(dice: &mut Dice, draft: &mut Draft) -> bool {
    let n = draft.components.len();
    let mut at: Vec<u8> = draft
        .components
        .iter()
        .map(|component| component.initial)
        .collect();
    for component in &mut draft.components {
        component.transitions.clear();
    }
    for (g, row) in draft.rows.iter_mut().enumerate() {
        row.fill(IDLE);
        for j in [g % n, dice.below(n)] {
            if row[j] == IDLE {
                let component = &mut draft.components[j];
                row[j] = component.transitions.len() as u8;
                let next = dice.below(component.states as usize) as u8;
                component.transitions.push([at[j], next]);
                at[j] = next;
            }
        }
    }
    true
}

// ---------------------------------------------------------------------------------------------
// R15: a count, a state or a number out of range, or a length that does not fit

fn no_components(dice: &mut Dice) -> Made {
    let draft = Draft {
        components: vec![],
        rows: vec![vec![]; dice.from_to(0, 66)],
    };
    refused(&draft, 15)
}

fn no_rows(dice: &mut Dice) -> Made {
    let mut draft = base(dice);
    draft.rows.clear();
    refused(&draft, 15)
}

fn states_out(dice: &mut Dice, draft: &mut Draft) -> bool {
    let j = dice.below(draft.components.len());
    draft.components[j].states = dice.pick(&[0, 33, 33, 64, 255]);
    true
}

/// A number at its limit, or above it.
fn at_or_above(dice: &mut Dice, limit: usize) -> u8 {
    if dice.percent(70) {
        limit as u8
    } else {
        dice.from_to(limit, 255) as u8
    }
}

fn initial_out(dice: &mut Dice, draft: &mut Draft) -> bool {
    let j = dice.below(draft.components.len());
    let component = &mut draft.components[j];
    component.initial = at_or_above(dice, component.states as usize);
    true
}

/// A source or a target, of a transition that a row names or of any other.
fn transition_out(dice: &mut Dice, draft: &mut Draft) -> bool {
    let j = dice.below(draft.components.len());
    let component = &mut draft.components[j];
    if component.transitions.is_empty() {
        return false;
    }
    let k = dice.below(component.transitions.len());
    component.transitions[k][dice.below(2)] = at_or_above(dice, component.states as usize);
    true
}

/// A number that is the transition count of its component, or larger, and not idle.
fn number_out(dice: &mut Dice, draft: &mut Draft) -> bool {
    let (g, j) = (dice.below(draft.rows.len()), dice.below(draft.components.len()));
    let count = draft.components[j].transitions.len();
    if count == 255 {
        return false;
    }
    let any = dice.from_to(count, 254);
    draft.rows[g][j] = dice.pick(&[count, count, any, 254]) as u8;
    true
}

const OUT: [Change; 4] = [states_out, initial_out, transition_out, number_out];

fn out_of_range(dice: &mut Dice, draft: &mut Draft) -> bool {
    dice.pick(&OUT)(dice, draft)
}

/// Any part of the front.
fn make_cut(dice: &mut Dice) -> Made {
    let mut bytes = base(dice).bytes();
    let away = match dice.below(3) {
        0 => 1,
        1 => bytes[0] as usize,
        _ => dice.from_to(1, bytes.len()),
    };
    bytes.truncate(bytes.len() - away);
    (bytes, Meant::Refused(15, 0))
}

/// Bytes behind the last row: one, or a row, or any.
fn make_longer(dice: &mut Dice) -> Made {
    let mut bytes = base(dice).bytes();
    let more = match dice.below(3) {
        0 => 1,
        1 => bytes[0] as usize,
        _ => dice.from_to(1, 40),
    };
    let behind = if dice.percent(50) {
        vec![IDLE; more]
    } else {
        dice.bytes(more)
    };
    bytes.extend(behind);
    (bytes, Meant::Refused(15, 0))
}

// ---------------------------------------------------------------------------------------------
// R16, R17: rows and components

fn idle_row(dice: &mut Dice, draft: &mut Draft) -> bool {
    let g = dice.below(draft.rows.len());
    draft.rows[g].fill(IDLE);
    true
}

/// A row once more: in the place of another one, or between others.
fn repeated_row(dice: &mut Dice, draft: &mut Draft) -> bool {
    let m = draft.rows.len();
    let (g, place) = (dice.below(m), dice.below(m));
    let again = draft.rows[g].clone();
    if place != g && dice.percent(50) {
        draft.rows[place] = again;
    } else if m < 64 {
        draft.rows.insert(place, again);
    }
    !draft.rows_right()
}

fn bad_row(dice: &mut Dice, draft: &mut Draft) -> bool {
    dice.pick(&[idle_row, repeated_row, repeated_row] as &[Change])(dice, draft)
}

/// One component more, which idles in every row; it may have no transitions.
fn component_added(dice: &mut Dice, draft: &mut Draft) -> bool {
    if draft.components.len() == 16 {
        return false;
    }
    let place = dice.from_to(0, draft.components.len());
    let transitions = dice.pick(&[(0, 0), (1, 4), (255, 255)]);
    let added = component(dice, Size { transitions, ..SMALL });
    draft.components.insert(place, added);
    for row in &mut draft.rows {
        row.insert(place, IDLE);
    }
    true
}

/// A component idles in every row from now on.
fn component_idle(dice: &mut Dice, draft: &mut Draft) -> bool {
    let j = dice.below(draft.components.len());
    for row in &mut draft.rows {
        row[j] = IDLE;
    }
    draft.rows_right()
}

fn idle_component(dice: &mut Dice, draft: &mut Draft) -> bool {
    dice.pick(&[component_added, component_idle] as &[Change])(dice, draft)
}

// ---------------------------------------------------------------------------------------------
// O8: two faults, and any fault

/// A product of moderate size with these faults, one after another, for which it is refused by the number.
fn faulty(dice: &mut Dice, number: u64, faults: &[Change]) -> Made {
    until(dice, |dice| {
        let mut draft = base(dice);
        let made = faults.iter().all(|fault| fault(dice, &mut draft));
        made.then(|| refused(&draft, number))
    })
}

/// A count that is one off, where it stands: of components, of rows, or of the first component's transitions.
fn make_count_off(dice: &mut Dice) -> Made {
    let mut bytes = base(dice).bytes();
    let at = dice.pick(&[0, 1, 4]);
    bytes[at] = bytes[at].wrapping_add(dice.pick(&[1, 255]));
    (bytes, Meant::Open)
}

fn make_byte_flips(dice: &mut Dice) -> Made {
    let mut bytes = base(dice).bytes();
    for _ in 0..dice.from_to(1, 3) {
        // Often among the rows.
        let from = if dice.percent(40) { bytes.len() / 2 } else { 0 };
        let at = dice.from_to(from, bytes.len() - 1);
        bytes[at] = dice.pick(&[0, 1, 2, 3, 16, 17, 31, 32, 33, 63, 64, 65, 254, 255]);
    }
    (bytes, Meant::Open)
}

/// Some bytes out of the middle, or once more.
fn make_moved(dice: &mut Dice) -> Made {
    let mut bytes = base(dice).bytes();
    let from = dice.below(bytes.len());
    let to = (from + dice.pick(&[1, 2, 3, 5])).min(bytes.len());
    let again = bytes[from..to].to_vec();
    bytes.splice(from..to, if dice.percent(50) { vec![] } else { again.repeat(2) });
    (bytes, Meant::Open)
}

/// Random bytes; some begin with small counts and have small numbers.
fn make_noise(dice: &mut Dice) -> Made {
    let length = dice.pick(&[0, 1, 2, 3, 8, 9, 10, 12, 20, 100]);
    let mut bytes = dice.bytes(length);
    if dice.percent(70) {
        for byte in &mut bytes {
            *byte = dice.pick(&[0, 0, 1, 1, 1, 2, 2, 3, 255]);
        }
    }
    (bytes, Meant::Open)
}

/// Every kind with its weight: how many of them come in one round.
#[rustfmt::skip]
pub const KINDS: &[Kind] = &[
    ("product, smallest", 1, |_| accepted(&smallest())),
    ("product, tiny", 8, |dice| accepted(&right(dice, TINY))),
    ("product, small", 8, |dice| accepted(&right(dice, SMALL))),
    ("product, medium", 5, |dice| accepted(&right(dice, MEDIUM))),
    ("product, large", 2, |dice| accepted(&right(dice, LARGE))),
    ("product, full", 1, |dice| accepted(&right(dice, FULL))),
    ("product, one component", 2, |dice| accepted(&right(dice, ALONE))),
    ("product, one row", 2, |dice| accepted(&right(dice, Size { components: (1, 16), rows: (1, 1), ..SMALL }))),
    ("product, last of each", 1, |dice| changed_right(dice, FULL, last_of_each)),
    ("product, number 254", 2, |dice| changed_right(dice, Size { components: (2, 5), transitions: (255, 255), ..SMALL }, number_254)),
    ("product, rows that differ once", 2, |dice| changed_right(dice, Size { transitions: (64, 255), ..LARGE }, one_differs)),
    ("product, twins", 4, |dice| changed_right(dice, SMALL, twins)),
    ("product, single", 4, |dice| changed_right(dice, Size { rows: (4, 12), ..SMALL }, single)),
    ("product, walk", 5, |dice| changed_right(dice, Size { rows: (12, 40), ..MEDIUM }, walk)),
    ("product, no components", 2, no_components),
    ("product, 17 components", 2, |dice| refused(&right(dice, Size { components: (17, 18), ..SMALL }), 15)),
    ("product, no rows", 2, no_rows),
    ("product, 65 rows", 2, |dice| refused(&right(dice, Size { rows: (65, 66), ..LARGE }), 15)),
    ("product, state count", 3, |dice| faulty(dice, 15, &[states_out])),
    ("product, initial state", 3, |dice| faulty(dice, 15, &[initial_out])),
    ("product, transition", 4, |dice| faulty(dice, 15, &[transition_out])),
    ("product, number", 4, |dice| faulty(dice, 15, &[number_out])),
    ("product, cut", 5, make_cut),
    ("product, longer", 4, make_longer),
    ("product, idle row", 6, |dice| faulty(dice, 16, &[idle_row])),
    ("product, repeated row", 10, |dice| faulty(dice, 16, &[repeated_row])),
    ("product, idle component", 10, |dice| faulty(dice, 17, &[idle_component])),
    ("product, 15 and 16", 4, |dice| faulty(dice, 15, &[bad_row, out_of_range])),
    ("product, 15 and 17", 3, |dice| faulty(dice, 15, &[idle_component, out_of_range])),
    ("product, 16 and 17", 5, |dice| faulty(dice, 16, &[idle_component, bad_row])),
    ("product, count off", 3, make_count_off),
    ("product, byte flips", 8, make_byte_flips),
    ("product, moved", 3, make_moved),
    ("product, noise", 4, make_noise),
];

/// The worst product to read and to write: 16 components of 255 transitions each, and 64 rows that differ in the last alone.
pub fn worst() -> Draft {
    let mut draft = right(&mut Dice::new(16), FULL);
    differ_at(&mut draft, 15);
    draft
}
