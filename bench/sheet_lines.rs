//! The lines of the benchmark about sheets: what each is made of.

use crate::plain;
use crate::sheets::{self, Cut, Dice, Draft, Order, Record, Size};
use crate::tables::Line;

/// A component of which all states are initial.
fn all_held(count: usize, alphabet: u64) -> Record {
    Record {
        count: count as u8,
        filler: [0; 3],
        initial: (u64::MAX >> (64 - count)) as u32,
        alphabet,
    }
}

/// For every action and component that has it, each state goes to another one, and no two to the
/// same: from all states all are held again.
fn permuted(draft: &mut Draft) {
    for (j, record) in draft.records.iter().enumerate() {
        let count = record.count as usize;
        for action in sheets::elements(record.alphabet) {
            for source in 0..count {
                let target = (source + action + 1) % count;
                draft.transitions.push([j as u8, source as u8, action as u8, target as u8]);
            }
        }
    }
    draft.transitions.sort();
}

/// 16 components with 4 actions each, all of 32 states held, 2,048 transitions, 1,024 actions. An
/// action has 1 component, 2 neighbours, or all 16.
pub fn largest(participants: usize, cut: Cut) -> Draft {
    let m = 64 / participants;
    let mut draft = Draft::empty(m);
    for j in 0..16 {
        let mut alphabet = 0u64;
        for action in 0..m {
            let first = match participants {
                1 => action / 4,
                2 => action / 2,
                _ => 0,
            };
            if (0..participants).any(|k| (first + k) % 16 == j) {
                alphabet |= 1 << action;
            }
        }
        draft.records.push(all_held(32, alphabet));
    }
    permuted(&mut draft);
    draft.steps = sheets::execution(&mut Dice::new(7), &draft, 1024, cut, Order::Any);
    assert!(draft.transitions.len() == 2048 && draft.actions() == 1024);
    draft
}

/// One state initial and held all along: the same tables, firing as cheap as it gets.
fn largest_one_held() -> Draft {
    let mut draft = largest(2, Cut::Single);
    for record in &mut draft.records {
        record.initial = 1;
    }
    draft
}

/// Components of which the states form one internal chain, or a ring; `steps` times the one action
/// of each component, whose transitions start in every state.
fn internal(n: usize, count: usize, ring: bool, steps: usize) -> Draft {
    let mut draft = Draft::empty(n);
    for j in 0..n {
        let mut record = all_held(count, 1 << j);
        record.initial = 1;
        draft.records.push(record);
    }
    permuted(&mut draft);
    for j in 0..n {
        for q in 0..count {
            if ring || q + 1 < count {
                draft.transitions.push([j as u8, q as u8, 255, ((q + 1) % count) as u8]);
            }
        }
    }
    draft.transitions.sort();
    draft.transitions.dedup();
    draft.steps = vec![u64::MAX >> (64 - n); steps];
    draft
}

/// Components of one state that have the 64 actions by turns; the same step again and again, whose actions loop.
fn repeated(n: usize, step: u64, count: usize) -> Draft {
    let mut draft = Draft::empty(64);
    for j in 0..n {
        let alphabet = (0..64).filter(|action| action % n == j).fold(0, |set, action| set | 1 << action);
        draft.records.push(all_held(1, alphabet));
    }
    for action in sheets::elements(step) {
        draft.transitions.push([(action % n) as u8, 0, action as u8, 0]);
    }
    draft.transitions.sort();
    draft.steps = vec![step; count];
    draft
}

/// Random systems within the limits, every state able to do every action, with executions of a
/// number of actions from and to.
fn random(seed: u64, size: Size, actions: (usize, usize), count: usize) -> Vec<Vec<u8>> {
    let mut dice = Dice::new(seed);
    let mut made = Vec::new();
    while made.len() < count {
        let mut draft = sheets::system(&mut dice, size);
        let most = dice.from_to(actions.0, actions.1);
        let (cut, order) = (sheets::any_cut(&mut dice), sheets::any_order(&mut dice));
        draft.steps = sheets::execution(&mut dice, &draft, most, cut, order);
        if draft.actions() >= actions.0 {
            made.push(draft.bytes());
        }
    }
    made
}

pub const SMALL: Size = Size {
    n: (2, 4),
    m: (3, 8),
    states: (2, 6),
    transitions: (8, 50),
    live: true,
    alone: 60,
    internal: 10,
};

pub const MIDDLE: Size = Size {
    n: (5, 9),
    m: (10, 24),
    states: (4, 12),
    transitions: (100, 500),
    live: true,
    alone: 60,
    internal: 10,
};

/// Refused sheets of the second implementation's generator, by number, up to a length.
fn refused(numbers: std::ops::RangeInclusive<u64>, length: usize, count: usize) -> Vec<Vec<u8>> {
    let mut dice = Dice::new(31);
    let mut made = Vec::new();
    for number in 0.. {
        let bytes = sheets::case(&mut dice, number).bytes;
        if bytes.len() > length {
            continue;
        }
        if let Err((refusal, _)) = plain::verdict(&bytes) {
            if numbers.contains(&refusal) {
                made.push(bytes);
                if made.len() == count {
                    break;
                }
            }
        }
    }
    made
}

/// The largest sheet with a fault as late as it can be.
fn late_fault(number: u64) -> Vec<u8> {
    let mut draft = largest(2, Cut::Single);
    match number {
        // The last transition's target is no state.
        7 => draft.transitions[2047][3] = 32,
        8 => draft.transitions.swap(2046, 2047),
        // Two actions of component 0.
        11 => {
            draft.steps.truncate(1023);
            draft.steps[1022] = 3;
        }
        // An action that component 15 has no transitions for, once, at the end.
        _ => {
            let action = 63 - draft.records[15].alphabet.leading_zeros() as usize;
            draft.transitions.retain(|t| t[0] != 15 || t[2] as usize != action);
            let other = draft.steps.iter().find(|&&step| step != 1 << action).copied();
            for step in &mut draft.steps {
                if *step == 1 << action {
                    *step = other.unwrap();
                }
            }
            draft.steps[1023] = 1 << action;
        }
    }
    let bytes = draft.bytes();
    assert_eq!(plain::verdict(&bytes).err().map(|refusal| refusal.0), Some(number));
    bytes
}

/// One component of 32 states, all held, with 64 actions that every state can do: 2,048 transitions. The last action again and again,
/// whose transitions stand behind all others of their states.
fn last_of_many() -> Draft {
    let mut draft = Draft::empty(64);
    draft.records.push(all_held(32, u64::MAX));
    permuted(&mut draft);
    draft.steps = vec![1 << 63; 1024];
    draft
}

/// One component of 32 states, all held, with 2 actions by which every state leads to every state: 2,048 transitions, 1,024 steps.
fn many_targets() -> Draft {
    let mut draft = Draft::empty(2);
    draft.records.push(all_held(32, 3));
    let pairs = (0..32).flat_map(|source| [0, 1].map(|action| (source, action)));
    draft.transitions = pairs.flat_map(|(source, action)| (0..32).map(move |target| [0, source, action, target])).collect();
    draft.steps = vec![2; 1024];
    draft
}

/// 64 actions in each of 16 components whose 32 states form an internal ring, so that all are held all along; of each action a state or two
/// can do it: 2,048 transitions. Every pair of a component and an action is fired, 1,024 steps.
fn rings_of_all() -> Draft {
    let mut draft = Draft::empty(64);
    for j in 0..16 {
        let mut record = all_held(32, u64::MAX);
        record.initial = 1;
        draft.records.push(record);
        for q in 0..32 {
            draft.transitions.push([j, q, 255, (q + 1) % 32]);
            draft.transitions.push([j, q, q, (q + 7) % 32]);
            draft.transitions.push([j, (q + 5) % 32, q, (q + 9) % 32]);
            draft.transitions.push([j, q, q + 32, (q + 9) % 32]);
        }
    }
    draft.transitions.sort();
    draft.steps = (0..1024).map(|k| 1 << (29 * k % 64)).collect();
    draft
}

/// Components that share 4 actions, each of which leads every state to the next one: after each action another set is held, as large as the
/// one before, and no action is done from the same set as the last time. 1,024 steps.
fn turning(n: u8, initial: u32) -> Draft {
    let mut draft = Draft::empty(4);
    for j in 0..n {
        let mut record = all_held(32, 15);
        record.initial = initial;
        draft.records.push(record);
        let pairs = (0..32).flat_map(|source| (0..4).map(move |action| (source, action)));
        draft.transitions.extend(pairs.map(|(source, action)| [j, source, action, (source + 1) % 32]));
    }
    draft.steps = (0..1024).map(|k| 1 << (k % 4)).collect();
    draft
}

/// 19 of 32 states, in no order that comes back before 32 turns.
const IRREGULAR: u32 = 0x5b3a_91e7;

fn cases() -> Vec<(&'static str, Vec<Vec<u8>>)> {
    vec![
        ("smallest sheet, 26 bytes", vec![sheets::smallest().bytes()]),
        (
            "Pair of the paper, 94 bytes",
            vec![sheets::pair_system(&[&[0], &[1], &[2], &[0]]).bytes()],
        ),
        ("small: n 2-4, 5-20 actions", random(1, SMALL, (5, 20), 64)),
        ("middle: n 5-9, 50-150 actions", random(2, MIDDLE, (50, 150), 32)),
        ("largest, action in 1 component, steps of 16", vec![largest(1, Cut::Maximal).bytes()]),
        ("largest, action in 1 component, single steps", vec![largest(1, Cut::Single).bytes()]),
        ("largest, action in 2 components, steps of 8", vec![largest(2, Cut::Maximal).bytes()]),
        ("largest, action in 2 components, single steps", vec![largest(2, Cut::Single).bytes()]),
        ("largest, action in all 16, single steps", vec![largest(16, Cut::Single).bytes()]),
        ("largest tables, 1 state held, single steps", vec![largest_one_held().bytes()]),
        ("last of 64 labels, 1 component, all 32 held", vec![last_of_many().bytes()]),
        ("32 targets a state, 1 component, all 32 held", vec![many_targets().bytes()]),
        ("64 actions in all 16 components, internal rings", vec![rings_of_all().bytes()]),
        ("held sets that turn, 1 component", vec![turning(1, IRREGULAR).bytes()]),
        ("held sets that turn, 16 components", vec![turning(16, IRREGULAR).bytes()]),
        ("internal chains of 32, n 16, no steps", vec![internal(16, 32, false, 0).bytes()]),
        ("internal rings of 32, n 16, no steps", vec![internal(16, 32, true, 0).bytes()]),
        ("internal rings of 32, n 16, 64 steps of 16", vec![internal(16, 32, true, 64).bytes()]),
        ("1,024 steps of action 63 alone, n 4, 1 state", vec![repeated(4, 1 << 63, 1024).bytes()]),
        ("64 steps of actions 48 to 63, n 16, 1 state", vec![repeated(16, 0xffff << 48, 64).bytes()]),
        ("refused by 1 to 4, small", refused(1..=4, 1_000, 64)),
        ("refused by 5 to 9, small", refused(5..=9, 1_000, 64)),
        ("refused by 10 to 12, small", refused(10..=12, 1_000, 64)),
        ("largest refused by 7, last transition", vec![late_fault(7)]),
        ("largest refused by 8, last transition", vec![late_fault(8)]),
        ("largest refused by 11, last step", vec![late_fault(11)]),
        ("largest refused by 12, last step", vec![late_fault(12)]),
    ]
}

/// The lines of figures among those above: typical ones, large ones, and the worst.
const FIGURED: [&str; 9] = [
    "smallest sheet, 26 bytes",
    "Pair of the paper, 94 bytes",
    "small: n 2-4, 5-20 actions",
    "middle: n 5-9, 50-150 actions",
    "largest, action in 2 components, steps of 8",
    "largest, action in all 16, single steps",
    "1,024 steps of action 63 alone, n 4, 1 state",
    "64 steps of actions 48 to 63, n 16, 1 state",
    "refused by 10 to 12, small",
];

/// The lines of the table of figures; the first has an exact half.
pub fn figure_lines() -> Vec<Line> {
    let mut half = internal(2, 1, false, 3);
    half.steps.push(1);
    let mut made = vec![("7 actions in 4 steps, an exact half".to_string(), vec![half.bytes()])];
    let figured = cases().into_iter().filter(|(name, _)| FIGURED.contains(name));
    made.extend(figured.map(|(name, given)| (name.to_string(), given)));
    assert_eq!(made.len(), 1 + FIGURED.len());
    made
}

/// Small tables with more and more actions.
fn by_actions(actions: usize) -> Draft {
    let mut draft = Draft::empty(8);
    for j in 0..4 {
        draft.records.push(all_held(4, 3 << (2 * j)));
    }
    permuted(&mut draft);
    draft.steps = sheets::execution(&mut Dice::new(5), &draft, actions, Cut::Single, Order::Any);
    draft
}

/// 16 components of 32 states with so many transitions for each state, no steps.
fn by_transitions(each: usize) -> Draft {
    let mut draft = Draft::empty(64);
    for j in 0..16 {
        draft.records.push(all_held(32, 15 << (4 * j)));
    }
    permuted(&mut draft);
    draft.transitions.retain(|t| (t[2] as usize % 4) < each);
    draft
}

/// One component with 63 actions, each of which leads every state to the next one. Three states are held, others after each action, and no
/// action is done from the same set as the last time: 63 turns bring no set back. Single steps, each action so many times.
fn by_table(states: u8, times: usize) -> Draft {
    let mut draft = Draft::empty(63);
    let mut record = all_held(states as usize, u64::MAX >> 1);
    record.initial = 0b1011;
    draft.records.push(record);
    let pairs = (0..states).flat_map(|source| (0..63).map(move |action| (source, action)));
    draft.transitions = pairs.map(|(source, action)| [0, source, action, (source + 1) % states]).collect();
    draft.steps = (0..63 * times).map(|k| 1 << (k % 63)).collect();
    draft
}

fn growth() -> Vec<(&'static str, Vec<(usize, Vec<u8>)>)> {
    vec![
        (
            "actions (n 4, 4 states, 32 transitions, single steps)",
            [0, 16, 64, 256, 1024].map(|k| (k, by_actions(k).bytes())).to_vec(),
        ),
        (
            "transitions (n 16, 32 states, no steps)",
            [0, 1, 2, 4].map(|k| (512 * k, by_transitions(k).bytes())).to_vec(),
        ),
        (
            "transitions (n 1, 4 to 32 states, 3 held that turn, 63 actions, each done once)",
            [4, 8, 16, 32].map(|k| (63 * k as usize, by_table(k, 1).bytes())).to_vec(),
        ),
        (
            "transitions (n 1, 4 to 32 states, 3 held that turn, 63 actions, each done 16 times)",
            [4, 8, 16, 32].map(|k| (63 * k as usize, by_table(k, 16).bytes())).to_vec(),
        ),
        (
            "held states (n 1, 32 states, held sets that turn, 1,024 steps)",
            [1, 2, 4, 8, 16, 31].map(|k| (k, turning(1, (1 << k) - 1).bytes())).to_vec(),
        ),
        (
            "components (32 states each in a ring of internal transitions, no steps)",
            [1, 2, 4, 8, 16].map(|k| (k, internal(k, 32, true, 0).bytes())).to_vec(),
        ),
        (
            "states a component (n 16, internal rings, 16 steps of 16 actions)",
            [1, 4, 8, 16, 32].map(|k| (k, internal(16, k, true, 16).bytes())).to_vec(),
        ),
    ]
}

/// The tables of sheets, each with its lines.
pub fn tables() -> Vec<(&'static str, Vec<Line>)> {
    let named = cases().into_iter().map(|(name, given)| (name.to_string(), given));
    let mut made = vec![("Sheets", named.collect())];
    for (name, sizes) in growth() {
        let lines = sizes.into_iter().map(|(size, sheet)| (size.to_string(), vec![sheet]));
        made.push((name, lines.collect()));
    }
    made
}
