//! The proved library against the second implementation on products given by rows (B5, B6, R13, R15, R16, R17, O8): the answer,
//! every byte of the output, and, in what the library itself wrote, all that is promised of the sheet (B3, B4, B7 to B10).

use crate::firing;
use crate::plain;
use crate::plain_rows::{self, Component, Product, IDLE};
use crate::sheets::Dice;
use crate::tally::Tally;
use crate::{
    buffer_lengths, compare_values, compare_written, fitted, lent_answer, lent_sheet, note, told, written_by,
};
use crate::{class_name, oatmist_end_sets, oatmist_rows, output_names, verdict_name, Classes};

/// B6, R13, R15 to R17, O8: the call on one product, with outputs of several lengths; the texts of what differs.
pub fn compare(tally: &mut Tally, dice: &mut Dice, classes: &mut Classes, bytes: &[u8]) -> Vec<String> {
    let mut differences = Vec::new();
    let lent = lent_sheet(dice, bytes);
    let before = lent.whole.clone();
    let read = plain_rows::read(bytes);
    count(classes, bytes, &read);
    let asked = plain_rows::rows(bytes).map_err(|(number, index)| told(number, index, 0));
    for length in buffer_lengths(dice, bytes.len(), asked.as_ref().ok().map(Vec::len)) {
        let written = fitted(&asked, length);
        classes.count_output("product", &written, length);
        compare_written(tally, dice, &mut differences, "rows", length, written, |out, answer| unsafe {
            oatmist_rows(lent.read(), out, answer)
        });
    }
    note(tally, &mut differences, lent.whole == before, || {
        "the product itself changed".into()
    });
    let sheet = written_by(|out, answer| unsafe { oatmist_rows(bytes, out, answer) });
    if let (Ok(product), Ok(sheet)) = (&read, sheet) {
        compare_promises(tally, dice, &mut differences, product, &sheet);
        compare_fronts(tally, dice, &mut differences, lent.read());
    }
    differences
}

/// R15: the front of a right product, in whose place in memory the rest follows: nothing behind the end is read.
fn compare_fronts(tally: &mut Tally, dice: &mut Dice, differences: &mut Vec<String>, product: &[u8]) {
    for length in [product.len() - 1, dice.below(product.len())] {
        let (front, due) = (&product[..length], Err(told(15, 0, 0)));
        compare_written(tally, dice, differences, "rows of a front", 4_362, due, |out, answer| unsafe {
            oatmist_rows(front, out, answer)
        });
    }
}

/// B3, B4, B7 to B10: what is promised of the sheet that the library wrote; a list of rows is fired as the library executes it.
fn compare_promises(
    tally: &mut Tally,
    dice: &mut Dice,
    differences: &mut Vec<String>,
    product: &Product,
    sheet: &[u8],
) {
    let mut check = |holds, text: &str| note(tally, differences, holds, || format!("rows: {text}"));
    firing::promises(&mut check, dice, product, sheet);
    let list = firing::any_list(dice, product);
    let due = match firing::fired_list(product, &list) {
        Ok(global) => {
            let mut ends: Vec<u64> = global.iter().map(|&state| 1 << state).collect();
            ends.resize(16, 0);
            (0, ends)
        }
        Err(index) => (told(12, index, 0), vec![]),
    };
    let steps = firing::with_steps(sheet, &list);
    let name = format!("end sets after the rows {list:?}");
    let answer = lent_answer(dice, 16);
    compare_values(tally, differences, &name, &due, answer, |answer| unsafe {
        oatmist_end_sets(&steps, answer)
    });
}

// ---------------------------------------------------------------------------------------------
// What was seen: R13, R15 to R17, and each printed limit at both sides

/// A class of products: the refusal, 0 for none, a name, and whether a product whose length fits is of this class.
type Class = (u64, &'static str, fn(&Product) -> bool);

fn any_component(product: &Product, holds: impl Fn(&Component) -> bool) -> bool {
    product.components.iter().any(holds)
}

/// Whether this holds for some component's column and its transition count.
fn any_column(product: &Product, holds: impl Fn(&[usize], usize) -> bool) -> bool {
    (0..product.components.len()).any(|j| {
        let column: Vec<usize> = product.rows.iter().map(|row| row[j]).collect();
        holds(&column, product.components[j].transitions.len())
    })
}

/// The rows that are equal to an earlier one, and how far behind the last such one they stand.
fn repeats(product: &Product) -> Vec<usize> {
    let rows = &product.rows;
    let before = |g: usize| (0..g).rev().find(|&h| rows[h] == rows[g]);
    (0..rows.len()).filter_map(|g| before(g).map(|h| g - h)).collect()
}

/// Whether the sources of a component's transitions, row after row, do not rise.
fn sources_fall(product: &Product) -> bool {
    (0..product.components.len()).any(|j| {
        let own = plain_rows::alphabet(product, j);
        let source = |g: &usize| product.components[j].transitions[product.rows[*g][j]].0;
        !own.is_sorted_by_key(source)
    })
}

/// Whether all rows are the same but for the last component.
fn last_differs(product: &Product) -> bool {
    let front = |row: &Vec<usize>| row[..row.len() - 1].to_vec();
    product.components.len() > 1
        && product.rows.len() > 1
        && product
            .rows
            .iter()
            .all(|row| front(row) == front(&product.rows[0]))
}

/// A state that is just no state of its component.
fn at_count(component: &Component, of: fn(&(usize, usize)) -> usize) -> bool {
    component
        .transitions
        .iter()
        .any(|ends| of(ends) == component.states)
}

#[rustfmt::skip]
const CLASSES: &[Class] = &[
    (0, "1 component", |p| p.components.len() == 1),
    (0, "2 to 15 components", |p| (2..16).contains(&p.components.len())),
    (0, "16 components", |p| p.components.len() == 16),
    (0, "1 row", |p| p.rows.len() == 1),
    (0, "2 to 63 rows", |p| (2..64).contains(&p.rows.len())),
    (0, "64 rows", |p| p.rows.len() == 64),
    (0, "a component of 1 state", |p| any_component(p, |c| c.states == 1)),
    (0, "a component of 32 states", |p| any_component(p, |c| c.states == 32)),
    (0, "initial state 31", |p| any_component(p, |c| c.initial == 31)),
    (0, "a component of 1 transition", |p| any_component(p, |c| c.transitions.len() == 1)),
    (0, "a component of 255 transitions", |p| any_component(p, |c| c.transitions.len() == 255)),
    (0, "number 254 and idle in one component", |p| any_column(p, |column, _| column.contains(&254) && column.contains(&IDLE))),
    (0, "component 15 moves in row 63", |p| p.rows.get(63).and_then(|row| row.get(15)).is_some_and(|&number| number != IDLE)),
    (0, "rows that differ in the last component alone", last_differs),
    (0, "two rows that do the same", plain_rows::same_effect),
    (0, "sources that do not rise with the rows", sources_fall),
    (15, "no components", |p| p.components.is_empty()),
    (15, "17 components", |p| p.components.len() == 17),
    (15, "no rows", |p| p.rows.is_empty()),
    (15, "65 rows", |p| p.rows.len() == 65),
    (15, "no states", |p| any_component(p, |c| c.states == 0)),
    (15, "33 states", |p| any_component(p, |c| c.states == 33)),
    (15, "an initial state that is the state count", |p| any_component(p, |c| c.initial == c.states)),
    (15, "a source that is the state count", |p| any_component(p, |c| at_count(c, |ends| ends.0))),
    (15, "a target that is the state count", |p| any_component(p, |c| at_count(c, |ends| ends.1))),
    (15, "only in transitions that no row names", |p| !plain_rows::out_of_range(&plain_rows::named_only(p))),
    (15, "a number that is the transition count", |p| any_column(p, |column, count| count < IDLE && column.contains(&count))),
    (15, "number 254 without such a transition", |p| any_column(p, |column, count| count < IDLE && column.contains(&254))),
    (15, "where 16 holds too", plain_rows::bad_row),
    (15, "where 17 holds too", plain_rows::idle_component),
    (16, "an idle row", |p| p.rows.iter().any(|row| plain_rows::idle_row(row))),
    (16, "a row as the one before it", |p| repeats(p).contains(&1)),
    (16, "rows as others farther before alone", |p| repeats(p).iter().all(|&far| far > 1) && !repeats(p).is_empty()),
    (16, "where 17 holds too", plain_rows::idle_component),
    (17, "a component without transitions", |p| any_column(p, |_, count| count == 0)),
    (17, "components with transitions", |p| !any_column(p, |_, count| count == 0)),
];

/// Classes of 15 for a length that does not fit: how many bytes too many or too few.
const LENGTHS: [&str; 3] = [
    "product, refused by 15, a byte too long",
    "product, refused by 15, a byte too short",
    "product, refused by 15, another length that does not fit",
];

pub fn class_names() -> Vec<String> {
    let mut names: Vec<String> = [0, 15, 16, 17].map(|number| verdict_name("product", number)).to_vec();
    names.extend(CLASSES.iter().map(|class| class_name("product", class.0, class.1)));
    names.extend(LENGTHS.map(String::from));
    names.extend(output_names("product"));
    names
}

/// What a product is, by the second implementation.
fn count(classes: &mut Classes, bytes: &[u8], read: &Result<Product, plain::Refusal>) {
    let number = read.as_ref().err().map_or(0, |refusal| refusal.0);
    classes.add(&verdict_name("product", number));
    match plain_rows::cut(bytes) {
        Some(product) => {
            for (_, name, holds) in CLASSES.iter().filter(|class| class.0 == number) {
                if holds(&product) {
                    classes.add(&class_name("product", number, name));
                }
            }
        }
        None => classes.add(LENGTHS[length_class(bytes)]),
    }
}

fn length_class(bytes: &[u8]) -> usize {
    let longer = [bytes, &[0]].concat();
    if bytes
        .split_last()
        .is_some_and(|(_, front)| plain_rows::cut(front).is_some())
    {
        0
    } else if plain_rows::cut(&longer).is_some() {
        1
    } else {
        2
    }
}
