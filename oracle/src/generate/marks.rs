//! Marks on the rules of a program: which of them are muted.

use crate::atoms::AtomSet;
use crate::labels::Labelled;
use crate::limits::ATOMS;
use crate::random::Random;
use crate::relations::spoiler;
use crate::rules::{held, unmuted, Program, Rule};

#[derive(Clone, Copy, PartialEq, Eq, Debug)]
pub enum Marks {
    None,
    One,
    /// Any share of the rules.
    Some,
    All,
    /// Some of the rules that support their heads before.
    Supporting,
    /// Some of the rules that are valid before; each of their heads keeps one.
    Spare,
    /// All rules of some heads.
    Heads,
}

pub const MARKS: [Marks; 7] = [
    Marks::None,
    Marks::One,
    Marks::Some,
    Marks::All,
    Marks::Supporting,
    Marks::Spare,
    Marks::Heads,
];

/// The program with these of its rules muted, and no others.
pub fn marked(random: &mut Random, mut program: Program, marks: Marks) -> Program {
    let chosen = chosen(random, &program, marks);
    for (slot, holds) in (0..).zip(&mut program) {
        if let Some(page) = holds {
            page.muted = chosen.contains(&slot);
        }
    }
    program
}

/// The program with rules muted in any of these ways. It may have no room for them.
pub fn some_marked(random: &mut Random, program: Program) -> Program {
    let marks = *random.pick(&MARKS[1..]);
    marked(random, program, marks)
}

/// The same; every second program has no muted rule.
pub fn any_marked(random: &mut Random, program: Program) -> Program {
    if random.percent(50) {
        marked(random, program, Marks::None)
    } else {
        some_marked(random, program)
    }
}

/// The program with no rule muted.
pub fn all_unmuted(program: &Program) -> Program {
    let mut program = program.clone();
    for page in program.iter_mut().flatten() {
        page.muted = false;
    }
    program
}

/// The program as if its muted rules were not held.
pub fn without_muted(program: &Program) -> Program {
    let rest = program.iter().cloned();
    rest.map(|holds| holds.filter(|page| !page.muted)).collect()
}

/// A held rule with its slot.
type Held<'a> = (u32, &'a Rule);

/// The slots of the rules that are to be muted.
fn chosen(random: &mut Random, program: &Program, marks: Marks) -> Vec<u32> {
    let all: Vec<Held> = held(program).collect();
    let some = match marks {
        Marks::None => Vec::new(),
        Marks::One => random.sample(&all, 1),
        Marks::Some => share(random, &all, 5, 95),
        Marks::All => all,
        Marks::Supporting => share(random, &supporting(program), 20, 80),
        Marks::Spare => spare(random, program),
        Marks::Heads => {
            let atoms: Vec<u32> = (0..ATOMS as u32).collect();
            let heads = share(random, &atoms, 10, 60);
            let so = |(_, rule): &Held| heads.contains(&rule.head);
            all.into_iter().filter(so).collect()
        }
    };
    some.into_iter().map(|(slot, _)| slot).collect()
}

/// About as many of a hundred as a number between these two says.
fn share<T: Copy>(random: &mut Random, all: &[T], least: usize, most: usize) -> Vec<T> {
    let percent = random.between(least, most);
    let some = all.iter().copied();
    some.filter(|_| random.percent(percent)).collect()
}

/// The rules that support their heads; none where the program has no labels.
fn supporting(program: &Program) -> Vec<Held<'_>> {
    let Some(labelled) = Labelled::found(program.clone()) else {
        return Vec::new();
    };
    held(program)
        .filter(|&(slot, rule)| labelled.supports(slot, rule.head))
        .collect()
}

/// For each head all but one of its valid rules, and some of these.
fn spare<'a>(random: &mut Random, program: &'a Program) -> Vec<Held<'a>> {
    let Some(labelled) = Labelled::found(program.clone()) else {
        return Vec::new();
    };
    let valid = unmuted(program).filter(|(_, rule)| spoiler(&labelled, rule).is_none());
    let mut valid: Vec<Held> = valid.collect();
    random.shuffle(&mut valid);
    let mut kept = AtomSet::empty();
    valid.retain(|(_, rule)| !kept.insert(rule.head));
    share(random, &valid, 40, 100)
}
