//! Products given by rows, a second time: request 1 of document 02 as literally as it stands there, with products and their
//! firing as 002 has them. Nothing here is clever, and it shares no text with the desk. The rules are B1 to B10, R15, R16, R17
//! and O8 of docs/RULES.md.

use crate::plain;

/// The number in a row of a component that idles in it.
pub const IDLE: usize = 255;

/// B1: a transition system: its states are the numbers below `states`, and a transition has a source and a target.
#[derive(Clone, Debug, PartialEq)]
pub struct Component {
    pub states: usize,
    pub initial: usize,
    pub transitions: Vec<(usize, usize)>,
}

/// B2: a product: components, and rows with one number for each of them.
#[derive(Clone, Debug, PartialEq)]
pub struct Product {
    pub components: Vec<Component>,
    pub rows: Vec<Vec<usize>>,
}

/// A global state: one local state for each component.
pub type Global = Vec<usize>;

// ---------------------------------------------------------------------------------------------
// B3, B4: firing and independence, as in 002

impl Product {
    /// The initial states.
    pub fn start(&self) -> Global {
        self.components
            .iter()
            .map(|component| component.initial)
            .collect()
    }

    /// B3: the global state after a row, or nothing where it cannot be fired: every transition that it names must leave the
    /// state of its component, and goes to its target; who idles stays.
    pub fn fired(&self, global: &[usize], row: usize) -> Option<Global> {
        let mut next = global.to_vec();
        for (j, component) in self.components.iter().enumerate() {
            let number = self.rows[row][j];
            if number == IDLE {
                continue;
            }
            let (source, target) = component.transitions[number];
            if source != global[j] {
                return None;
            }
            next[j] = target;
        }
        Some(next)
    }

    /// B4: whether no component takes part in both rows.
    pub fn independent(&self, one: usize, two: usize) -> bool {
        let both = |j: usize| self.rows[one][j] != IDLE && self.rows[two][j] != IDLE;
        !(0..self.components.len()).any(both)
    }
}

// ---------------------------------------------------------------------------------------------
// B5, R15 to R17, O8: from bytes to a product

/// State count, initial state, transition count, and the transitions; nothing where the bytes end before.
fn cut_component(left: &mut impl Iterator<Item = usize>) -> Option<Component> {
    let (states, initial, count) = (left.next()?, left.next()?, left.next()?);
    let mut transitions = Vec::new();
    for _ in 0..count {
        transitions.push((left.next()?, left.next()?));
    }
    Some(Component {
        states,
        initial,
        transitions,
    })
}

/// B5: the bytes cut by the counts that stand in them, whatever these are; nothing where the length does not fit.
pub fn cut(bytes: &[u8]) -> Option<Product> {
    let mut left = bytes.iter().map(|&byte| byte as usize);
    let (n, m) = (left.next()?, left.next()?);
    let mut components = Vec::new();
    for _ in 0..n {
        components.push(cut_component(&mut left)?);
    }
    let mut rows = Vec::new();
    for _ in 0..m {
        let row: Vec<usize> = left.by_ref().take(n).collect();
        if row.len() < n {
            return None;
        }
        rows.push(row);
    }
    match left.next() {
        None => Some(Product { components, rows }),
        Some(_) => None,
    }
}

/// Whether a state or the state count of the component is out of range.
pub fn component_out(component: &Component) -> bool {
    let states = component.states;
    states < 1
        || states > 32
        || component.initial >= states
        || component
            .transitions
            .iter()
            .any(|&(source, target)| source >= states || target >= states)
}

/// Whether a row has a number that its component has no transition for.
pub fn row_out(components: &[Component], row: &[usize]) -> bool {
    let out =
        |(&number, component): (&usize, &Component)| number != IDLE && number >= component.transitions.len();
    row.iter().zip(components).any(out)
}

/// R15, of a product whose length fits: a count, a state or a number is out of range.
pub fn out_of_range(product: &Product) -> bool {
    let (n, m) = (product.components.len(), product.rows.len());
    n < 1
        || n > 16
        || m < 1
        || m > 64
        || product.components.iter().any(component_out)
        || product.rows.iter().any(|row| row_out(&product.components, row))
}

/// Whether the row is idle throughout.
pub fn idle_row(row: &[usize]) -> bool {
    row.iter().all(|&number| number == IDLE)
}

/// R16: whether some row is idle throughout, or has the numbers of an earlier row.
pub fn bad_row(product: &Product) -> bool {
    let rows = &product.rows;
    (0..rows.len()).any(|g| idle_row(&rows[g]) || rows[..g].contains(&rows[g]))
}

/// R17: whether some component idles in every row.
pub fn idle_component(product: &Product) -> bool {
    (0..product.components.len()).any(|j| product.rows.iter().all(|row| row[j] == IDLE))
}

/// O8: the product, or the refusal that it gets, 15 before 16 before 17.
pub fn read(bytes: &[u8]) -> Result<Product, plain::Refusal> {
    let product = match cut(bytes) {
        Some(product) if !out_of_range(&product) => product,
        _ => return Err((15, 0)),
    };
    if bad_row(&product) {
        return Err((16, 0));
    }
    if idle_component(&product) {
        return Err((17, 0));
    }
    Ok(product)
}

// ---------------------------------------------------------------------------------------------
// R15, R16: readings that are wrong, for the classes of products and for wrong libraries

/// What a row does: the transition of each component that takes part.
fn effect(product: &Product, row: &[usize]) -> Vec<Option<(usize, usize)>> {
    let entry = |(&number, component): (&usize, &Component)| component.transitions.get(number).copied();
    row.iter().zip(&product.components).map(entry).collect()
}

/// Whether two rows do the same, be it by other numbers. That is no refusal: R16 is about the numbers.
pub fn same_effect(product: &Product) -> bool {
    let effects: Vec<_> = product.rows.iter().map(|row| effect(product, row)).collect();
    (0..effects.len()).any(|g| effects[..g].contains(&effects[g]))
}

/// The product with a loop in the place of each transition that no row names. R15 is about these too.
pub fn named_only(product: &Product) -> Product {
    let mut named = product.clone();
    for (j, component) in named.components.iter_mut().enumerate() {
        for (k, transition) in component.transitions.iter_mut().enumerate() {
            if !product.rows.iter().any(|row| row[j] == k) {
                *transition = (component.initial, component.initial);
            }
        }
    }
    named
}

// ---------------------------------------------------------------------------------------------
// B6 to B10: from a product to a sheet

/// B7: the rows in which the component does not idle: its alphabet.
pub fn alphabet(product: &Product, j: usize) -> Vec<usize> {
    (0..product.rows.len())
        .filter(|&g| product.rows[g][j] != IDLE)
        .collect()
}

/// B8: the record of a component.
fn record(product: &Product, j: usize) -> Vec<u8> {
    let component = &product.components[j];
    let mut bytes = vec![component.states as u8, 0, 0, 0];
    bytes.extend(&plain::set_bytes(&[component.initial])[..4]);
    bytes.extend(plain::set_bytes(&alphabet(product, j)));
    bytes
}

/// B9: for each row and each component that does not idle in it one transition, sorted as a sheet has them.
fn transitions(product: &Product) -> Vec<[u8; 4]> {
    let mut all = Vec::new();
    for (g, row) in product.rows.iter().enumerate() {
        for (j, &number) in row.iter().enumerate() {
            if number != IDLE {
                let (source, target) = product.components[j].transitions[number];
                all.push([j as u8, source as u8, g as u8, target as u8]);
            }
        }
    }
    all.sort();
    all
}

/// B10: the sheet that a product becomes; it has no steps.
pub fn sheet(product: &Product) -> Vec<u8> {
    let (n, m) = (product.components.len(), product.rows.len());
    let mut tables: Vec<u8> = (0..n).flat_map(|j| record(product, j)).collect();
    tables.extend(transitions(product).concat());
    plain::sheet_of(&tables, n, m, &[])
}

/// B6: the sheet, or the refusal of the product.
pub fn rows(bytes: &[u8]) -> Result<Vec<u8>, plain::Refusal> {
    Ok(sheet(&read(bytes)?))
}

/// B6, R13: the sheet written into lent bytes: how many were written, or the refusal, 13 last.
pub fn rows_into(bytes: &[u8], out: &mut [u8]) -> Result<usize, plain::Refusal> {
    plain::write_into(&rows(bytes)?, out)
}
