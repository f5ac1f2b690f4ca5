//! The proved library against the second implementation on columns (V1 to V4, R13, R18, R19, O9): the answer, every byte of the output,
//! and, in what the library itself wrote, that its columns are the given ones and that it is restated. On two sheets, that columns are
//! the same exactly where the sheets are related (V5).

use crate::plain::{self, Refusal, Sheet};
use crate::plain_columns::{self, Columns, Why};
use crate::sheets::Dice;
use crate::tally::Tally;
use crate::{buffer_lengths, compare_written, fitted, lent_sheet, note, restated_by, s_of, told, written_by};
use crate::{class_name, oatmist_columns, output_names, verdict_name, Classes};

/// V3, V4, R13, R18, R19, O9: the call on a sheet with columns, with outputs of several lengths; the texts of what differs.
pub fn compare(tally: &mut Tally, dice: &mut Dice, classes: &mut Classes, sheet: &[u8], columns: &[u8]) -> Vec<String> {
    let mut differences = Vec::new();
    let lent = [lent_sheet(dice, sheet), lent_sheet(dice, columns)];
    let before = lent.each_ref().map(|part| part.whole.clone());
    let verdict = plain::verdict(sheet);
    let asked = match &verdict {
        Ok(read) => plain_columns::columns_over(read, columns),
        Err(refusal) => Err(*refusal),
    };
    count(classes, sheet, &verdict, columns, &asked);
    let asked = asked.map_err(|(number, index)| told(number, index, 0));
    for length in buffer_lengths(dice, sheet.len(), asked.as_ref().ok().map(Vec::len)) {
        let written = fitted(&asked, length);
        classes.count_output("columns", &written, length);
        compare_written(
            tally,
            dice,
            &mut differences,
            "columns",
            length,
            written,
            |out, answer| unsafe { oatmist_columns(lent[0].read(), lent[1].read(), out, answer) },
        );
    }
    if let (Ok(read), Ok(_)) = (&verdict, &asked) {
        compare_promises(tally, &mut differences, read, lent[0].read(), columns);
        compare_fronts(tally, dice, &mut differences, lent[0].read(), lent[1].read());
    }
    note(tally, &mut differences, lent.map(|part| part.whole) == before, || {
        "the sheet or the columns themselves changed".into()
    });
    differences
}

/// The sheet that the library writes for these columns, or what it returned.
fn joined_by(sheet: &[u8], columns: &[u8]) -> Result<Vec<u8>, u64> {
    written_by(|out, answer| unsafe { oatmist_columns(sheet, columns, out, answer) })
}

/// V3: what the library wrote has these columns and the tables of the sheet, and restating changes nothing in it.
fn compare_promises(tally: &mut Tally, differences: &mut Vec<String>, read: &Sheet, sheet: &[u8], columns: &[u8]) {
    let made = joined_by(sheet, columns);
    let restated = made.as_ref().map_or(Err(1), |made| restated_by(made));
    note(tally, differences, restated == made, || {
        "columns: what was written is not restated".into()
    });
    let same = made.is_ok_and(|made| {
        plain::verdict(&made).is_ok_and(|again| again.tables == read.tables && bytes_of(&again) == columns)
    });
    note(tally, differences, same, || {
        "columns: what was written has other columns or tables".into()
    });
}

/// V2: the columns of an accepted sheet, in bytes.
fn bytes_of(sheet: &Sheet) -> Vec<u8> {
    let list = plain::flat(&sheet.steps);
    plain_columns::encode(&plain_columns::columns_of(&sheet.components, &list))
}

/// R18: the front of right columns, in whose place in memory the rest follows: nothing behind the end is read.
fn compare_fronts(tally: &mut Tally, dice: &mut Dice, differences: &mut Vec<String>, sheet: &[u8], columns: &[u8]) {
    for length in [columns.len() - 1, dice.below(columns.len())] {
        let (front, due) = (&columns[..length], Err(told(18, 0, 0)));
        compare_written(
            tally,
            dice,
            differences,
            "a front of columns",
            16_650,
            due,
            |out, answer| unsafe { oatmist_columns(sheet, front, out, answer) },
        );
    }
}

/// V3, V4, V5: two accepted sheets over the same tables. The columns of the second, given with the first, become the second restated,
/// unless they have too many labels; and both have the same columns exactly where they are related.
pub fn compare_pair(tally: &mut Tally, differences: &mut Vec<String>, first: &[u8], second: &[u8], related: bool) {
    let (Ok(one), Ok(two)) = (plain::verdict(first), plain::verdict(second)) else {
        return note(tally, differences, false, || {
            "columns: a sheet of the pair is refused".into()
        });
    };
    let columns = bytes_of(&two);
    note(tally, differences, (bytes_of(&one) == columns) == related, || {
        format!("related: {related}, and the columns otherwise")
    });
    let due = if columns.len() - 2 * two.n > plain_columns::MOST {
        Err(told(18, 0, 0))
    } else {
        restated_by(second)
    };
    note(tally, differences, joined_by(first, &columns) == due, || {
        "the columns of the second do not become the second restated".into()
    });
}

// ---------------------------------------------------------------------------------------------
// What was seen: each refusal, each reason for it, and each printed limit at both sides

/// Columns beside an accepted sheet.
struct Seen<'a> {
    sheet: &'a Sheet,
    /// How many bytes the sheet has.
    length: usize,
    bytes: &'a [u8],
    /// The columns, where they fill the bytes.
    columns: Option<Columns>,
    /// The restated sheet, where it is due.
    made: Option<Sheet>,
}

impl Seen<'_> {
    /// Whether the columns fill the bytes, and this holds of some of them.
    fn some(&self, holds: impl Fn(&[usize]) -> bool) -> bool {
        self.columns
            .as_ref()
            .is_some_and(|columns| columns.iter().any(|column| holds(column)))
    }

    /// Whether the columns fill the bytes and are outside their alphabets, but not if this label is left out of them.
    fn only(&self, is_strange: impl Fn(usize) -> bool) -> bool {
        let Some(mut columns) = self.columns.clone() else {
            return false;
        };
        let before = plain_columns::outside(&self.sheet.components, &columns);
        columns
            .iter_mut()
            .for_each(|column| column.retain(|&label| !is_strange(label)));
        before && !plain_columns::outside(&self.sheet.components, &columns)
    }

    /// Whether the labels are right but for their two high bits.
    fn right_by_low_bits(&self) -> bool {
        let Some(mut columns) = self.columns.clone() else {
            return false;
        };
        columns.iter_mut().flatten().for_each(|label| *label %= 64);
        self.only(|label| (64..255).contains(&label)) && !plain_columns::outside(&self.sheet.components, &columns)
    }

    fn labels(&self) -> usize {
        self.columns.as_ref().map_or(0, plain_columns::labels)
    }

    /// Why no accepted sheet has the columns.
    fn why(&self) -> Option<Why> {
        plain_columns::joined(self.sheet, self.columns.as_ref()?).err()
    }

    /// How many labels can be merged before nobody goes on: as far as each action comes next in all its columns. None where these labels
    /// cannot be executed.
    fn merged(&self) -> usize {
        let Some(columns) = &self.columns else {
            return 0;
        };
        let components = &self.sheet.components;
        let mut at = vec![0; columns.len()];
        let ready = |at: &[usize], action: usize| {
            (0..columns.len()).all(|j| !components[j].alphabet[action] || columns[j].get(at[j]) == Some(&action))
        };
        while let Some(action) = (0..self.sheet.m).find(|&action| ready(&at, action)) {
            (0..columns.len()).for_each(|j| at[j] += usize::from(components[j].alphabet[action]));
        }
        let front = columns
            .iter()
            .zip(&at)
            .map(|(column, &end)| column[..end].to_vec())
            .collect();
        plain_columns::joined(self.sheet, &front).map_or(0, |_| plain_columns::labels(&front))
    }

    /// How many bytes of these columns are missing; fewer than none where there are too many.
    fn missing(&self) -> i64 {
        let mut at = 0;
        for _ in 0..self.sheet.n {
            let byte = |i: usize| self.bytes.get(i).map_or(0, |&byte| byte as usize);
            at += 2 + byte(at) + 256 * byte(at + 1);
        }
        at as i64 - self.bytes.len() as i64
    }

    /// Whether 19 would hold if the strange labels were not there.
    fn also_19(&self) -> bool {
        let Some(mut columns) = self.columns.clone() else {
            return false;
        };
        for (column, component) in columns.iter_mut().zip(&self.sheet.components) {
            column.retain(|&label| label < 64 && component.alphabet[label]);
        }
        plain_columns::uneven(&self.sheet.components, &columns)
    }
}

/// A class of columns: the refusal, 0 for none, a name, and whether these are of this class.
type Class = (u64, &'static str, fn(&Seen) -> bool);

#[rustfmt::skip]
const CLASSES: &[Class] = &[
    (0, "all empty", |s| s.labels() == 0),
    (0, "some of them empty, some not", |s| s.labels() > 0 && s.some(|column| column.is_empty())),
    (0, "1024 labels", |s| s.labels() == 1_024),
    (0, "1024 labels in one", |s| s.some(|column| column.len() == 1_024)),
    (0, "256 to 1023 labels in one", |s| s.some(|column| (256..1_024).contains(&column.len()))),
    (0, "label 63", |s| s.some(|column| column.contains(&63))),
    (0, "16 components", |s| s.sheet.n == 16),
    (0, "steps of several actions", |s| s.made.as_ref().is_some_and(|made| made.steps.iter().any(|step| step.len() > 1))),
    (0, "1024 steps", |s| s.made.as_ref().is_some_and(|made| made.steps.len() == 1_024)),
    (0, "a sheet of 16650 bytes", |s| s.made.as_ref().is_some_and(|made| made.s + 8 * made.steps.len() + 10 == 16_650)),
    (0, "a sheet longer than the given one", |s| s.made.as_ref().is_some_and(|made| made.s + 8 * made.steps.len() + 10 > s.length)),
    (0, "the sheet has no steps of its own", |s| s.sheet.steps.is_empty()),
    (0, "the sheet's own steps have these columns", |s| s.labels() > 0 && bytes_of(s.sheet) == s.bytes),
    (0, "the sheet's own steps have others", |s| !s.sheet.steps.is_empty() && bytes_of(s.sheet) != s.bytes),
    (18, "no bytes", |s| s.bytes.is_empty()),
    (18, "a byte too few", |s| s.missing() == 1),
    (18, "the last empty column missing", |s| s.missing() == 2 && plain_columns::cut(&[s.bytes, &[0, 0]].concat(), s.sheet.n).is_some()),
    (18, "a byte too many", |s| s.missing() == -1),
    (18, "an empty column too many", |s| s.missing() == -2 && s.bytes.ends_with(&[0, 0])),
    (18, "a count far behind the bytes", |s| s.missing() > 60_000),
    (18, "label 255 alone", |s| s.only(|label| label == 255)),
    (18, "labels 64 to 254 alone", |s| s.only(|label| (64..255).contains(&label))),
    (18, "labels 64 to 254 that are right but for their two high bits", |s| s.right_by_low_bits()),
    (18, "labels below 64 that are no action alone", |s| s.only(|label| (s.sheet.m..64).contains(&label))),
    (18, "actions of other alphabets alone", |s| s.only(|label| label < s.sheet.m) && !s.only(|label| label >= s.sheet.m)),
    (18, "1025 labels, nothing else", |s| s.labels() == 1_025 && !plain_columns::outside(&s.sheet.components, s.columns.as_ref().unwrap())),
    (18, "where 19 would hold too", |s| s.also_19()),
    (19, "a shared action more often in one column", |s| s.why() == Some(Why::Uneven)),
    (19, "a circle", |s| s.why() == Some(Why::Circle)),
    (19, "a circle behind 100 labels and more", |s| s.why() == Some(Why::Circle) && s.merged() >= 100),
    (19, "a list that cannot be executed", |s| s.why() == Some(Why::NotEnabled)),
];

/// The class of a sheet that is refused by this number.
fn refused_name(number: u64) -> String {
    format!("columns, sheet refused by {number}")
}

/// Classes of a sheet whose steps are at fault.
const RIGHT: &str = "columns, sheet refused by 10 to 12 with right columns";
const WRONG: &str = "columns, sheet refused by 10 to 12 where 18 or 19 would hold too";

pub fn class_names() -> Vec<String> {
    let mut names: Vec<String> = [0, 18, 19].map(|number| verdict_name("columns", number)).to_vec();
    names.extend(CLASSES.iter().map(|class| class_name("columns", class.0, class.1)));
    names.extend((1..=12).map(refused_name));
    names.extend([RIGHT, WRONG].map(String::from));
    names.extend(output_names("columns"));
    names
}

/// What a sheet with columns is, by the second implementation.
fn count(
    classes: &mut Classes,
    bytes: &[u8],
    verdict: &Result<Sheet, Refusal>,
    columns: &[u8],
    asked: &Result<Vec<u8>, Refusal>,
) {
    let sheet = match verdict {
        Ok(sheet) => sheet,
        Err((number, _)) => return count_refused(classes, *number, bytes, columns),
    };
    let number = asked.as_ref().err().map_or(0, |refusal| refusal.0);
    classes.add(&verdict_name("columns", number));
    let seen = Seen {
        sheet,
        length: bytes.len(),
        bytes: columns,
        columns: plain_columns::cut(columns, sheet.n),
        made: asked.as_ref().ok().and_then(|made| plain::verdict(made).ok()),
    };
    for (_, name, holds) in CLASSES.iter().filter(|class| class.0 == number) {
        if holds(&seen) {
            classes.add(&class_name("columns", number, name));
        }
    }
}

/// A sheet that is refused; where its steps are at fault, whether the columns would be right without them.
fn count_refused(classes: &mut Classes, number: u64, bytes: &[u8], columns: &[u8]) {
    classes.add(&refused_name(number));
    if number >= 10 {
        let bare = [&bytes[..s_of(bytes)], &bytes[bytes.len() - 10..]].concat();
        let right = plain_columns::columns(&bare, columns).is_ok();
        classes.add(if right { RIGHT } else { WRONG });
    }
}
