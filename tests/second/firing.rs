//! What is promised of the sheet that a product becomes, looked at in the sheet itself: its tables (B7 to B9), that it is accepted
//! and has no steps (B10), that lists of rows are fired exactly as the actions are executed, with the same global states (B3), and
//! that rows are independent exactly where the actions are (B4). The sheet is read as the second implementation reads it.

use crate::plain;
use crate::plain_rows::{self, Global, Product};
use crate::sheets::Dice;

/// Counts a check, with the text of what it is about.
pub type Check<'a> = &'a mut dyn FnMut(bool, &str);

/// Rows of a list that is fired, at most.
const LONGEST: usize = 24;

/// What is promised of the sheet, but for whole lists: those that `any_list` draws are compared by the callers.
pub fn promises(check: Check, dice: &mut Dice, product: &Product, sheet: &[u8]) {
    let Ok(read) = plain::verdict(sheet) else {
        return check(false, "the sheet is not accepted");
    };
    check(read.steps.is_empty(), "the sheet has steps");
    check(
        (read.n, read.m) == (product.components.len(), product.rows.len()),
        "n and m are not the counts of components and rows",
    );
    for j in 0..read.n.min(product.components.len()) {
        check(
            same_component(product, &read, j),
            "a component's table is another one",
        );
    }
    if read.n == product.components.len() && read.m == product.rows.len() {
        independence(check, product, &read);
        walk(check, dice, product, &read);
    }
}

/// B7 to B9: the states, the initial state, the alphabet and the transitions of a component.
fn same_component(product: &Product, read: &plain::Sheet, j: usize) -> bool {
    let (given, found) = (&product.components[j], &read.components[j]);
    let own = plain_rows::alphabet(product, j);
    let mut due: Vec<(usize, usize, usize)> = own
        .iter()
        .map(|&g| {
            let (source, target) = given.transitions[product.rows[g][j]];
            (source, g, target)
        })
        .collect();
    due.sort();
    found.states == given.states
        && plain::members(&found.initial) == [given.initial]
        && plain::members(&found.alphabet) == own
        && found.transitions == due
}

/// B4: rows are independent where the actions share no component, and only there.
fn independence(check: Check, product: &Product, read: &plain::Sheet) {
    for g in 0..read.m {
        for h in 0..=g {
            let same = product.independent(g, h) != plain::share(&read.components, g, h);
            check(
                same,
                "two rows are independent and the actions are not, or the other way round",
            );
        }
    }
}

/// M2: where an action may take each component from a global state; the machine's next states are all choices of these.
fn choices(read: &plain::Sheet, global: &[usize], action: usize) -> Vec<Vec<usize>> {
    let mut all = Vec::new();
    for (component, &state) in read.components.iter().zip(global) {
        let own = |&&(source, label, _): &&(usize, usize, usize)| source == state && label == action;
        all.push(if component.alphabet[action] {
            component.transitions.iter().filter(own).map(|t| t.2).collect()
        } else {
            vec![state]
        });
    }
    all
}

/// B3: whether the action leads to this global state alone, or to none.
fn leads(read: &plain::Sheet, global: &[usize], action: usize, next: &Option<Global>) -> bool {
    let found = choices(read, global, action);
    match next {
        Some(next) => found.iter().zip(next).all(|(states, state)| states == &[*state]),
        None => found.iter().any(|states| states.is_empty()),
    }
}

/// B3: fires rows at random, and looks in every state at all rows: which can be fired, and to which state.
fn walk(check: Check, dice: &mut Dice, product: &Product, read: &plain::Sheet) {
    let mut global = product.start();
    for _ in 0..LONGEST {
        let mut able = Vec::new();
        for g in 0..read.m {
            let next = product.fired(&global, g);
            check(
                leads(read, &global, g, &next),
                "a row and its action do not lead to the same global state",
            );
            able.extend(next);
        }
        if able.is_empty() {
            return;
        }
        global = able.swap_remove(dice.below(able.len()));
    }
}

/// The rows that can be fired in a global state.
fn able(product: &Product, global: &[usize]) -> Vec<usize> {
    (0..product.rows.len())
        .filter(|&g| product.fired(global, g).is_some())
        .collect()
}

/// A list of rows: mostly such as can be fired, sometimes any.
pub fn any_list(dice: &mut Dice, product: &Product) -> Vec<usize> {
    let mut list = Vec::new();
    let mut global = product.start();
    for _ in 0..dice.from_to(0, LONGEST) {
        let able = able(product, &global);
        let g = if dice.percent(4) {
            dice.below(product.rows.len())
        } else if able.is_empty() {
            break;
        } else {
            dice.pick(&able)
        };
        list.push(g);
        global = product.fired(&global, g).unwrap_or(global);
    }
    list
}

/// B3: the global state after a list of rows, or the index of the first that cannot be fired.
pub fn fired_list(product: &Product, list: &[usize]) -> Result<Global, usize> {
    let mut global = product.start();
    for (index, &g) in list.iter().enumerate() {
        global = product.fired(&global, g).ok_or(index)?;
    }
    Ok(global)
}

/// The sheet with steps of one action each put in: it had none.
pub fn with_steps(sheet: &[u8], list: &[usize]) -> Vec<u8> {
    let (front, trailer) = sheet.split_at(sheet.len() - 10);
    let steps: Vec<u8> = list
        .iter()
        .flat_map(|&action| plain::set_bytes(&[action]))
        .collect();
    [front, &steps, trailer].concat()
}
