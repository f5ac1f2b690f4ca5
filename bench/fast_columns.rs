//! An execution from columns as plain Rust: what one writes by hand for speed, without proofs (V1 to V4). Safe Rust, nothing on the heap.
//! Each column is executed by itself, since no component sees what the others do; then the columns are taken off step by step, each step
//! a set: all actions that head every column of theirs.

use crate::fast::{run, sections, value_told, write, Machine, Records, Refusal, Sections};

/// The most labels together.
const MOST: usize = 1_024;

/// The columns of a sheet.
struct Columns<'a> {
    /// The labels of each component.
    of: [&'a [u8]; 16],
    /// How many there are together.
    labels: usize,
    /// The actions that they are.
    used: u64,
}

/// The columns of n components; nothing where they do not fill the bytes, are too long, or have a label outside an alphabet.
#[inline(always)]
fn read<'a>(records: &Records, n: usize, bytes: &'a [u8]) -> Option<Columns<'a>> {
    let labels = bytes.len().checked_sub(2 * n).filter(|&labels| labels <= MOST)?;
    let mut columns = Columns {
        of: [&[]; 16],
        labels,
        used: 0,
    };
    let mut rest = bytes;
    for (column, alphabet) in columns.of[..n].iter_mut().zip(records.alphabets) {
        let &[low, high, ref tail @ ..] = rest else {
            return None;
        };
        (*column, rest) = tail.split_at_checked(u16::from_le_bytes([low, high]) as usize)?;
        let add = |(used, all): (u64, u8), &label: &u8| (used | 1 << (label & 63), all | label);
        let (used, all) = column.iter().fold((0, 0), add);
        if all >> 6 != 0 || used & !alphabet != 0 {
            return None;
        }
        columns.used |= used;
    }
    rest.is_empty().then_some(columns)
}

/// Whether each component can do what its own column says.
#[inline(always)]
fn executed<const N: usize, const H: usize, const K: usize>(
    machine: &mut Machine<N, H, K>,
    columns: &[&[u8]],
) -> bool {
    for (j, column) in columns.iter().enumerate() {
        let mut held = machine.start[j];
        for &label in *column {
            held = machine.fired(j, label as usize & 63, held);
            if held == 0 {
                return false;
            }
        }
    }
    true
}

/// The columns while they are taken off.
struct Heads<'a, const N: usize> {
    /// What is left of each.
    left: [&'a [u8]; N],
    /// For each action the components whose columns it heads.
    headed: [u16; 64],
    /// The actions that head every column of theirs.
    ready: u64,
}

impl<const N: usize> Heads<'_, N> {
    /// Notes the head of a column, if there is one.
    #[inline(always)]
    fn note(&mut self, j: usize, participants: &[u16; 64]) {
        if let Some(&label) = self.left[j].first() {
            let action = label as usize & 63;
            self.headed[action] |= 1 << j;
            if self.headed[action] == participants[action] {
                self.ready |= 1 << action;
            }
        }
    }

    /// Takes an action off all its columns; how many these are.
    #[inline(always)]
    fn take(&mut self, action: usize, participants: &[u16; 64]) -> u32 {
        let mut own = participants[action];
        self.headed[action] = 0;
        while own != 0 {
            let j = own.trailing_zeros() as usize % N;
            own &= own - 1;
            self.left[j] = &self.left[j][1..];
            self.note(j, participants);
        }
        participants[action].count_ones()
    }
}

/// The steps, and how many there are; nothing where labels are left over.
#[inline(always)]
fn steps<const N: usize, const P: usize>(
    columns: [&[u8]; N],
    labels: usize,
    participants: &[u16; 64],
) -> Option<([u64; P], usize)> {
    let mut heads = Heads {
        left: columns,
        headed: [0; 64],
        ready: 0,
    };
    for j in 0..N {
        heads.note(j, participants);
    }
    let (mut steps, mut count, mut taken) = ([0; P], 0, 0);
    while heads.ready != 0 {
        let mut step = std::mem::take(&mut heads.ready);
        steps[count % P] = step;
        count += 1;
        while step != 0 {
            let action = step.trailing_zeros() as usize & 63;
            step &= step - 1;
            taken += heads.take(action, participants);
        }
    }
    (taken as usize == labels).then_some((steps, count))
}

/// What is written for an accepted sheet and these columns, which have at most P labels.
#[inline(always)]
fn join<const N: usize, const P: usize>(
    sheet: &[u8],
    read: &Sections,
    columns: &Columns,
    participants: &[u16; 64],
    out: &mut [u8],
) -> Result<usize, Refusal> {
    let own: [&[u8]; N] = *columns.of.first_chunk().unwrap();
    let (steps, count) = steps::<N, P>(own, columns.labels, participants).ok_or((19, 0))?;
    write(sheet, read, &steps[..count], out)
}

/// A sheet up to refusal 6, its columns if they are right, and the actions of both.
struct Given<'a> {
    sheet: &'a [u8],
    read: &'a Sections<'a>,
    records: &'a Records,
    columns: Option<&'a Columns<'a>>,
    used: u64,
}

/// Refusals 7 to 19 and 13, with room for N components, H pairs of a component and a label, and K entries of rows.
#[inline(never)]
fn written_over<const N: usize, const H: usize, const K: usize>(
    given: &Given,
    out: &mut [u8],
) -> Result<usize, Refusal> {
    let &Given { sheet, read, records, columns, used } = given;
    run::<N, H, K, _>(read, records, used, &mut [0; 64], |_, machine, participants| {
        let columns = columns.ok_or((18, 0))?;
        if !executed(machine, &columns.of[..read.n]) {
            return Err((19, 0));
        }
        if columns.labels <= 64 {
            join::<N, 64>(sheet, read, columns, participants, out)
        } else {
            join::<N, MOST>(sheet, read, columns, participants, out)
        }
    })
}

#[inline(always)]
fn written(sheet: &[u8], bytes: &[u8], out: &mut [u8]) -> Result<usize, Refusal> {
    let sections = sections(sheet)?;
    let mut records = Records::NONE;
    records.read(&sections)?;
    if sections.has_no_steps() && bytes.len() == 2 * sections.n {
        // Nothing is to be run, if the columns are empty.
        sections.check_transitions(&records, 0)?;
        let empty = bytes.iter().all(|&byte| byte == 0);
        return if empty { write(sheet, &sections, &[], out) } else { Err((18, 0)) };
    }
    let columns = read(&records, sections.n, bytes);
    let used = sections.used() | columns.as_ref().map_or(0, |columns| columns.used);
    let entries = records.entries(sections.n, used);
    let given = Given {
        sheet,
        read: &sections,
        records: &records,
        columns: columns.as_ref(),
        used,
    };
    if sections.is_small() && entries <= 192 {
        written_over::<4, 64, 192>(&given, out)
    } else if sections.is_middle() && entries <= 640 {
        written_over::<16, 528, 640>(&given, out)
    } else if entries <= 4_096 {
        written_over::<16, 1_040, 4_096>(&given, out)
    } else {
        written_over::<16, 1_040, 35_458>(&given, out)
    }
}

/// The restated sheet that has these columns. 0, and `answer` gets the bytes written; or the refusal, and all is as it came.
#[inline(never)]
pub fn columns(sheet: &[u8], bytes: &[u8], out: &mut [u8], answer: &mut [u64]) -> u64 {
    value_told(written(sheet, bytes, out), answer)
}
