//! Random programs without a loop through a negation, of several flavours. No rule is muted; marks.rs mutes some.
//!
//! Each atom is put in a layer; a rule's positive entries come from its head's layer or below,
//! its negative entries from below. So there is no loop through a negation, and every program
//! without one can come out, since its atoms can be put in such layers.

use crate::limits::{ATOMS, ENTRIES, SLOTS};
use crate::random::Random;
use crate::rules::{holds, Page, Program, Rule};

#[derive(Clone, Copy, PartialEq, Eq, Debug)]
pub enum Flavour {
    /// A handful of rules over a handful of atoms.
    Few,
    /// Many rules over few atoms, with many positive loops.
    Dense,
    /// A chain whose slots go the way of the derivation.
    ChainUp,
    /// A chain whose slots go against it.
    ChainDown,
    /// A chain whose slots are shuffled.
    ChainShuffled,
    /// Many layers, each negating the one below.
    Strata,
    /// Several layers, each with a chain of its own, whose slots go against it or are shuffled.
    LayeredChains,
    /// All slots but one or two held.
    NearFull,
    /// All slots held.
    Full,
    /// Rules removed and fewer added, so that free slots lie between held ones as a rule.
    Churned,
}

pub const FLAVOURS: [Flavour; 10] = [
    Flavour::Few,
    Flavour::Dense,
    Flavour::ChainUp,
    Flavour::ChainDown,
    Flavour::ChainShuffled,
    Flavour::Strata,
    Flavour::LayeredChains,
    Flavour::NearFull,
    Flavour::Full,
    Flavour::Churned,
];

/// A random program of that flavour, as many slots long as a table.
pub fn program(random: &mut Random, flavour: Flavour) -> Program {
    match flavour {
        Flavour::Few => small(random, 6, 10, SLOTS),
        Flavour::Dense => {
            let layers = Layers::random(random, (20, 60), 4);
            let rules = random.between(150, 250);
            filled(
                random,
                &layers,
                Shape {
                    positives: 6,
                    negatives: 2,
                    facts: 6,
                },
                rules,
            )
        }
        Flavour::ChainUp => chain(random, |_, _| ()),
        Flavour::ChainDown => chain(random, |_, rules| rules.reverse()),
        Flavour::ChainShuffled => chain(random, |random, rules| random.shuffle(rules)),
        Flavour::Strata => strata(random),
        Flavour::LayeredChains => layered_chains(random),
        Flavour::NearFull => {
            let rules = random.between(SLOTS - 2, SLOTS - 1);
            crowded(random, rules)
        }
        Flavour::Full => crowded(random, SLOTS),
        Flavour::Churned => churned(random),
    }
}

/// A small program of at most that many atoms and rules, in that many slots.
pub fn small(random: &mut Random, atoms: usize, rules: usize, slots: usize) -> Program {
    let layer_count = random.between(1, 4);
    let layers = Layers::random(random, (1, atoms), layer_count);
    let mut program: Program = vec![None; slots];
    for _ in 0..random.between(0, rules.min(slots)) {
        let rule = layers.rule(
            random,
            Shape {
                positives: 3,
                negatives: 2,
                facts: 15,
            },
        );
        add_new(&mut program, rule);
    }
    program
}

/// A small program whose rules are drawn from all atoms alike, so that it may have a loop
/// through a negation.
pub fn unlayered(random: &mut Random, atoms: usize, rules: usize) -> Program {
    let numbers: Vec<u32> = (0..atoms as u32).collect();
    let mut program: Program = vec![None; rules];
    for _ in 0..random.between(1, rules) {
        let head = *random.pick(&numbers);
        let positives = some_of(random, &numbers, 2);
        let negatives = some_of(random, &numbers, 2);
        add_new(&mut program, Rule::of(head, &positives, &negatives));
    }
    program
}

/// At most that many different atoms of the list.
fn some_of(random: &mut Random, atoms: &[u32], most: usize) -> Vec<u32> {
    let count = random.between(0, most);
    random.sample(atoms, count)
}

/// Puts the rule in the lowest free slot, unless there is none or the same rule is held.
fn add_new(program: &mut Program, rule: Rule) {
    if holds(program, &rule) {
        return;
    }
    if let Some(slot) = program.iter().position(Option::is_none) {
        program[slot] = Some(Page::unmuted(rule));
    }
}

/// The rules, each in a slot of its own.
fn in_slots(rules: Vec<Rule>) -> Program {
    let pages = rules.into_iter().map(Page::unmuted);
    pages.map(Some).collect()
}

/// How many entries a random rule has at most, and how many rules in a hundred are facts.
#[derive(Clone, Copy)]
struct Shape {
    positives: usize,
    negatives: usize,
    facts: usize,
}

/// The atoms of a program, layer by layer, lowest first.
struct Layers {
    atoms: Vec<Vec<u32>>,
}

impl Layers {
    /// Between so many atoms, spread over at most that many layers.
    fn random(random: &mut Random, atoms: (usize, usize), layers: usize) -> Layers {
        let all: Vec<u32> = (0..ATOMS as u32).collect();
        let count = random.between(atoms.0, atoms.1);
        let mut spread = vec![Vec::new(); layers];
        for atom in random.sample(&all, count) {
            spread[random.below(layers)].push(atom);
        }
        spread.retain(|layer| !layer.is_empty());
        Layers { atoms: spread }
    }

    fn rule(&self, random: &mut Random, shape: Shape) -> Rule {
        let layer = random.below(self.atoms.len());
        let head = *random.pick(&self.atoms[layer]);
        if random.percent(shape.facts) {
            return Rule::of(head, &[], &[]);
        }
        let negatives = some_of(random, &self.atoms[..layer].concat(), shape.negatives);
        let room = shape.positives.min(ENTRIES - negatives.len());
        let positives = some_of(random, &self.atoms[..=layer].concat(), room);
        Rule::of(head, &positives, &negatives)
    }
}

/// A program with that many rules, or a few less where the atoms give too few different ones.
fn filled(random: &mut Random, layers: &Layers, shape: Shape, rules: usize) -> Program {
    let mut program: Program = vec![None; SLOTS];
    let mut held = 0;
    for _ in 0..8 * rules {
        if held == rules {
            break;
        }
        add_new(&mut program, layers.rule(random, shape));
        held = program.iter().flatten().count();
    }
    program
}

/// That many rules over many atoms, in the first slots.
pub fn crowded(random: &mut Random, rules: usize) -> Program {
    let layer_count = random.between(2, 30);
    let layers = Layers::random(random, (80, ATOMS), layer_count);
    let shape = Shape {
        positives: random.between(1, 5),
        negatives: 3,
        facts: random.between(5, 30),
    };
    filled(random, &layers, shape, rules)
}

/// A fact and a chain of rules on top of it, put in slots as the order says, with a few
/// free slots in front now and then.
fn chain(random: &mut Random, order: fn(&mut Random, &mut Vec<Rule>)) -> Program {
    let all: Vec<u32> = (0..ATOMS as u32).collect();
    let length = random.between(1, SLOTS);
    let mut atoms = random.sample(&all, length);
    if random.percent(50) {
        atoms.sort_unstable();
    }
    let mut rules = vec![Rule::of(atoms[0], &[], &[])];
    for pair in atoms.windows(2) {
        rules.push(Rule::of(pair[1], &pair[..1], &[]));
    }
    order(random, &mut rules);
    let in_front = random.below(SLOTS - length + 1);
    let mut program: Program = vec![None; in_front];
    program.extend(in_slots(rules));
    program.resize(SLOTS, None);
    program
}

/// A ladder in which each atom negates the one below, with some rungs doubled.
fn strata(random: &mut Random) -> Program {
    let all: Vec<u32> = (0..ATOMS as u32).collect();
    let height = random.between(2, ATOMS);
    let ladder = random.sample(&all, height);
    let mut rules = Vec::new();
    for (place, &head) in ladder.iter().enumerate().skip(1) {
        let below = &ladder[..place];
        let mut negatives = vec![ladder[place - 1]];
        if random.percent(20) {
            negatives = random.sample(below, 3);
        }
        let positives = if random.percent(20) {
            some_of(random, below, 2)
        } else {
            Vec::new()
        };
        rules.push(Rule::of(head, &positives, &negatives));
    }
    if random.percent(50) {
        random.shuffle(&mut rules);
    }
    let mut program = in_slots(rules);
    program.resize(SLOTS, None);
    program
}

/// Layers on top of one another, with free slots between, in front or behind.
fn layered_chains(random: &mut Random) -> Program {
    let all: Vec<u32> = (0..ATOMS as u32).collect();
    let mut atoms = random.sample(&all, ATOMS);
    let layers = random.between(2, 10);
    let mut program: Program = vec![None; SLOTS];
    let mut below: Vec<u32> = Vec::new();
    for _ in 0..layers {
        // Two rules for each atom of each chain, and one besides, fit in the slots.
        let length = random.between(1, 120 / layers);
        let layer = atoms.split_off(atoms.len() - length - 1);
        for rule in layer_rules(random, &layer, &below) {
            add_new(&mut program, rule);
        }
        below = layer;
    }
    if random.percent(30) {
        program.reverse();
    } else {
        random.shuffle(&mut program);
    }
    program
}

/// The rules of a layer on top of another one, or on nothing. Its first atom needs itself and so is never in. The
/// others are a chain, which starts where the first atom of the layer below is not in; now and then where another one
/// is not, and then as a rule nothing of this layer is in. Some have a second rule: a shorter way, or one that closes a
/// loop.
fn layer_rules(random: &mut Random, layer: &[u32], below: &[u32]) -> Vec<Rule> {
    let never = layer[0];
    let chain = &layer[1..];
    let lowest = &below[..below.len().min(1)];
    let start = if random.percent(20) {
        random.sample(below, 1)
    } else {
        lowest.to_vec()
    };
    let mut rules = vec![
        Rule::of(never, &[never], &random.sample(below, 1)),
        Rule::of(chain[0], &[], &start),
    ];
    for pair in chain.windows(2) {
        let also = if random.percent(10) { lowest } else { &[] };
        rules.push(Rule::of(pair[1], &pair[..1], also));
        if random.percent(25) {
            let count = random.between(1, 2);
            rules.push(Rule::of(pair[1], &random.sample(chain, count), &[]));
        }
    }
    rules
}

/// A program from which rules were removed and to which fewer were added afterwards.
fn churned(random: &mut Random) -> Program {
    let layer_count = random.between(2, 12);
    let layers = Layers::random(random, (15, 120), layer_count);
    let shape = Shape {
        positives: 3,
        negatives: 2,
        facts: 15,
    };
    let rules = random.between(20, 200);
    let mut program = filled(random, &layers, shape, rules);
    let mut removed = 0;
    for slot_holds in program.iter_mut().filter(|slot_holds| slot_holds.is_some()) {
        if random.percent(30) {
            *slot_holds = None;
            removed += 1;
        }
    }
    for _ in 0..random.between(0, removed / 2) {
        add_new(&mut program, layers.rule(random, shape));
    }
    program
}
