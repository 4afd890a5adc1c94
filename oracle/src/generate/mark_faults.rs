//! Tables with a fault about which rules are muted.

use crate::generate::faults::{any_of, closing_rule, with_page, Fault};
use crate::generate::marks::all_unmuted;
use crate::labels::Labelled;
use crate::random::Random;
use crate::relations::spoiler;
use crate::rules::{held, muted, unmuted, Page};
use crate::table::{RawTable, FREE, HELD, MUTED};

/// States that no slot of a sound table has, among them some that end in the byte of one that there is.
const STATES: [u16; 10] = [3, 4, 128, 255, 256, 257, 258, 512, 32_768, 65_535];

/// The table with that fault; `None` where it has no room for it, or where the fault is about something else.
pub(super) fn faulty(random: &mut Random, labelled: Labelled, fault: Fault) -> Option<RawTable> {
    match fault {
        Fault::SameMuted => same_muted(random, labelled),
        Fault::MutedLoop => {
            let rule = closing_rule(random, &labelled)?;
            with_page(random, &labelled, Page::muted(rule))
        }
        Fault::MutedStale => muted_stale(random, &labelled),
        Fault::UnmutedStale => unmuted_stale(random, &labelled),
        Fault::MutedCounted => Some(muted_counted(random, &labelled)),
        Fault::OtherState => {
            let slots = held(&labelled.program).map(|(slot, _)| slot);
            let slot = any_of(random, slots.collect())?;
            Some(with_state(&labelled, slot, *random.pick(&STATES)))
        }
        Fault::HeldFree => held_free(random, &labelled),
        _ => None,
    }
}

fn with_state(labelled: &Labelled, slot: u32, state: u16) -> RawTable {
    let mut table = RawTable::keeping(labelled);
    table.rules[slot as usize].state = state;
    table
}

/// What the slots would keep if no rule were muted; but those of muted rules keep nothing, half of the time.
fn muted_counted(random: &mut Random, labelled: &Labelled) -> RawTable {
    let table = RawTable::keeping(labelled);
    let mut kept = RawTable::keeping(&Labelled::of(all_unmuted(&labelled.program))).kept;
    if random.percent(50) {
        for (slot, _) in muted(&labelled.program) {
            kept[slot as usize] = table.kept[slot as usize];
        }
    }
    RawTable { kept, ..table }
}

fn same_muted(random: &mut Random, mut labelled: Labelled) -> Option<RawTable> {
    let (slot, rule) = any_of(random, held(&labelled.program).collect())?;
    let page = Page::muted(rule.clone());
    if random.percent(50) {
        labelled.program[slot as usize] = Some(page.clone());
    }
    with_page(random, &labelled, page)
}

/// Of a rule that supports its head for the most part: then what is kept cannot fit.
fn muted_stale(random: &mut Random, labelled: &Labelled) -> Option<RawTable> {
    let any = random.percent(20);
    let rules = unmuted(&labelled.program);
    let rules = rules.filter(|&(slot, rule)| any || labelled.supports(slot, rule.head));
    let (slot, _) = any_of(random, rules.collect())?;
    Some(with_state(labelled, slot, MUTED))
}

/// Of a rule that no entry spoils for the most part.
fn unmuted_stale(random: &mut Random, labelled: &Labelled) -> Option<RawTable> {
    let any = random.percent(20);
    let rules = muted(&labelled.program);
    let rules = rules.filter(|(_, rule)| any || spoiler(labelled, rule).is_none());
    let (slot, _) = any_of(random, rules.collect())?;
    Some(with_state(labelled, slot, HELD))
}

fn held_free(random: &mut Random, labelled: &Labelled) -> Option<RawTable> {
    let mut table = RawTable::keeping(labelled);
    let free = table.rules.iter_mut().filter(|raw| raw.state == FREE);
    any_of(random, free.collect())?.state = *random.pick(&[HELD, MUTED]);
    Some(table)
}
