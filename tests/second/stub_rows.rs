//! Products given by rows, in the stub: the second implementation, or with one bug of OATMIST_BUG (B5 to B10, R13, R15 to R17, O8).

use crate::plain;
use crate::plain_rows::{self, Product, IDLE};
use crate::{answered, bug, refused};

/// The product as 15 looks at it: with a bug, some fault is not seen.
fn judged(product: &Product) -> Product {
    let mut judged = product.clone();
    if bug("rows-read-named-transitions-only") {
        judged = plain_rows::named_only(product);
    }
    for component in &mut judged.components {
        if bug("rows-33-states-pass") && component.states == 33 {
            component.states = 32;
        }
        if bug("rows-initial-state-at-the-count-passes") && component.initial == component.states {
            component.initial = 0;
        }
    }
    judged
}

/// The product, or nothing where 15 is told.
fn cut(bytes: &[u8]) -> Option<Product> {
    let longer = bug("rows-ignore-a-last-byte") && plain_rows::cut(bytes).is_none();
    let mut product = plain_rows::cut(&bytes[..bytes.len() - usize::from(longer && !bytes.is_empty())])?;
    if bug("rows-number-at-the-count-idles") {
        for row in &mut product.rows {
            for (number, component) in row.iter_mut().zip(&product.components) {
                *number = if *number == component.transitions.len() {
                    IDLE
                } else {
                    *number
                };
            }
        }
    }
    let none = product
        .components
        .iter()
        .any(|component| component.transitions.is_empty());
    if bug("rows-without-transitions-told-as-15") && none {
        return None;
    }
    let early = bug("rows-16-before-15") && plain_rows::bad_row(&product);
    (early || !plain_rows::out_of_range(&judged(&product))).then_some(product)
}

/// Whether 16 is told.
fn bad_row(product: &Product) -> bool {
    let all = &product.rows;
    if bug("rows-repeat-the-row-before-only") {
        return (0..all.len()).any(|g| plain_rows::idle_row(&all[g]) || g > 0 && all[g] == all[g - 1]);
    }
    if bug("rows-repeat-by-what-they-do") && plain_rows::same_effect(product) {
        return true;
    }
    if bug("rows-repeat-but-for-the-last-number") {
        let front = |row: &[usize]| row[..row.len() - 1].to_vec();
        return (0..all.len())
            .any(|g| plain_rows::idle_row(&all[g]) || all[..g].iter().any(|row| front(row) == front(&all[g])));
    }
    if bug("rows-idle-throughout-pass") {
        return (0..all.len()).any(|g| all[..g].contains(&all[g]));
    }
    plain_rows::bad_row(product)
}

/// The product, or the refusal that is told.
fn read(bytes: &[u8]) -> Result<Product, plain::Refusal> {
    let product = cut(bytes).ok_or((15, 0))?;
    if bug("rows-17-before-16") && plain_rows::idle_component(&product) {
        return Err((17, 0));
    }
    if bad_row(&product) {
        return Err((16, 0));
    }
    if plain_rows::idle_component(&product) && !bug("rows-idle-component-passes") {
        return Err((17, 0));
    }
    Ok(product)
}

/// An idle component gets the action, with a loop at every state: the same lists are fired.
fn give_to_idle(product: &Product, records: &mut [[u8; 16]], transitions: &mut Vec<[u8; 4]>) {
    for (g, row) in product.rows.iter().enumerate() {
        for j in (0..row.len()).filter(|&j| row[j] == IDLE) {
            records[j][8 + g / 8] |= 1 << (g % 8);
            transitions.extend((0..records[j][0]).map(|state| [j as u8, state, g as u8, state]));
        }
    }
    transitions.sort();
}

/// The sheet, or a wrong one.
fn sheet(product: &Product) -> Vec<u8> {
    let (n, m) = (product.components.len(), product.rows.len());
    let sheet = plain_rows::sheet(product);
    let mut records = sheet[..16 * n].as_chunks::<16>().0.to_vec();
    let mut transitions = sheet[16 * n..sheet.len() - 10].as_chunks::<4>().0.to_vec();
    if bug("rows-transitions-in-row-order") {
        transitions.sort_by_key(|t| t[2]);
    }
    if bug("rows-idle-gets-the-action") {
        give_to_idle(product, &mut records, &mut transitions);
    }
    for (record, component) in records.iter_mut().zip(&product.components) {
        if bug("rows-initial-as-a-number") {
            record[4..8].copy_from_slice(&[component.initial as u8, 0, 0, 0]);
        }
        if bug("rows-action-63-lost") {
            record[15] &= 0x7f;
        }
    }
    let tables = [records.concat(), transitions.concat()].concat();
    plain::sheet_of(&tables, n, m, &[])
}

/// How many bytes are told as written, or the refusal.
fn written(bytes: &[u8], out: &mut [u8]) -> Result<usize, plain::Refusal> {
    if bug("rows-13-before-15") && out.len() < 26 {
        return Err((13, 0));
    }
    let sheet = sheet(&read(bytes)?);
    if bug("rows-one-byte-spare") && out.len() == sheet.len() {
        return Err((13, 0));
    }
    let size = plain::write_into(&sheet, out)?;
    if bug("rows-rest-cleared") {
        out[size..].fill(0);
    }
    Ok(size)
}

#[no_mangle]
pub extern "C" fn oatmist_rows(product: &[u8], out: &mut [u8], answer: &mut [u64]) -> u64 {
    let told = written(product, out);
    if bug("rows-refused-writes") && told.is_err() && !out.is_empty() {
        out[0] = !out[0];
    }
    match told {
        Ok(size) => answered(&[size as u64], answer),
        Err(refusal) => refused(refusal, 0, answer),
    }
}
