//! Which cards are shown where not all have room, and what stands for the others.
//!
//! Shown first is what is near the question, or near the end of a long path: a chain shows its beginning and its end.
//! Cards that are left out and hang together, or stand side by side, have one card that says how many they are.

use crate::cards::{bold, line, Card, Link, Look, Of, ABOVE, EARLIER};
use crate::shown::figures;

/// How many cards there are from each one down.
fn weights(cards: &[Card]) -> Vec<usize> {
    let mut weights = vec![1; cards.len()];
    for (place, card) in cards.iter().enumerate().rev() {
        if let Some((from, _)) = card.from {
            weights[from] += weights[place];
        }
    }
    weights
}

/// Of each card the one below it that has most below itself, the first of several.
fn heaviest(cards: &[Card]) -> Vec<Option<usize>> {
    let weights = weights(cards);
    let mut heaviest: Vec<Option<usize>> = vec![None; cards.len()];
    for (place, card) in cards.iter().enumerate().rev() {
        if let Some((from, _)) = card.from {
            if heaviest[from].is_none_or(|other| weights[other] <= weights[place]) {
                heaviest[from] = Some(place);
            }
        }
    }
    heaviest
}

/// How many cards are below each one on its path, which goes on with the heaviest.
fn ahead(heaviest: &[Option<usize>]) -> Vec<usize> {
    let mut ahead = vec![0; heaviest.len()];
    for (place, next) in heaviest.iter().enumerate().rev() {
        if let Some(next) = next {
            ahead[place] = ahead[*next] + 1;
        }
    }
    ahead
}

/// How far each card is from what a reader looks for first: on a path from its nearer end, and on a path that branches
/// off one more than where it does.
fn distances(cards: &[Card]) -> Vec<usize> {
    let heaviest = heaviest(cards);
    let ahead = ahead(&heaviest);
    let mut start = vec![(0, 0); cards.len()];
    let mut distances = vec![0; cards.len()];
    for (place, card) in cards.iter().enumerate() {
        if let Some((from, _)) = card.from {
            start[place] = if heaviest[from] == Some(place) {
                (start[from].0, start[from].1 + 1)
            } else {
                (distances[from] + 1, 0)
            };
        }
        let (base, behind) = start[place];
        distances[place] = base + ahead[place].min(behind);
    }
    distances
}

/// The places of the cards in the order in which they are shown. The first card is the first of them.
pub fn order(cards: &[Card]) -> Vec<usize> {
    let distances = distances(cards);
    let mut order: Vec<usize> = (0..cards.len()).collect();
    order.sort_by_key(|&place| distances[place]);
    order
}

/// The card before each one that hangs from the same, if there is one.
fn siblings(cards: &[Card]) -> Vec<Option<usize>> {
    let mut last = vec![None; cards.len()];
    let before = |card: &Card, place: usize, last: &mut Vec<Option<usize>>| {
        let (from, _) = card.from?;
        last[from].replace(place)
    };
    let places = cards.iter().enumerate();
    places
        .map(|(place, card)| before(card, place, &mut last))
        .collect()
}

/// The first card of the group that each card left out belongs to; a card that is shown is its own.
fn groups(cards: &[Card], shown: &[bool]) -> Vec<usize> {
    let siblings = siblings(cards);
    let mut groups: Vec<usize> = Vec::new();
    for (place, card) in cards.iter().enumerate() {
        let from = card.from.map(|(from, _)| from);
        let joined = [from, siblings[place]].into_iter().flatten();
        let group = joined.filter(|&other| !shown[place] && !shown[other]);
        groups.push(group.map(|other| groups[other]).next().unwrap_or(place));
    }
    groups
}

/// Whether each card is shown, where the first so many of the order are, and one that would be left out alone: the card
/// in its stead would need as much room.
fn shown(cards: &[Card], order: &[usize], most: usize) -> Vec<bool> {
    let mut shown = vec![false; cards.len()];
    order[..most].iter().for_each(|&place| shown[place] = true);
    let groups = groups(cards, &shown);
    let mut sizes = vec![0; cards.len()];
    groups.iter().for_each(|&group| sizes[group] += 1);
    groups.iter().map(|&group| sizes[group] == 1).collect()
}

/// What the card of a group says: how many cards it stands for, why, and where they can be seen.
fn says(cards: &[Card], members: &[usize], why: &str) -> Vec<String> {
    let many = figures(members.len());
    let mut lines = match counted(cards, members) {
        (_, 0) => vec![format!("{many} cards of atoms left out")],
        (0, _) => vec![format!("{many} cards of rules left out")],
        (atoms, rules) => vec![
            format!("{many} cards left out"),
            format!("{} of rules, {} of atoms", figures(rules), figures(atoms)),
        ],
    };
    lines.extend(slots(cards, members));
    lines.push(why.to_string());
    lines.push(seen(cards, members));
    lines
}

/// The slots of all rules that are left out, if they are several and follow one another.
fn slots(cards: &[Card], members: &[usize]) -> Option<String> {
    let slot = |place: &usize| match cards[*place].of {
        Of::Rule(slot) => Some(slot as usize),
        _ => None,
    };
    let mut slots: Vec<usize> = members.iter().filter_map(slot).collect();
    slots.sort_unstable();
    let (first, last) = (*slots.first()?, *slots.last()?);
    let gapless = first < last && last - first + 1 == slots.len();
    gapless.then(|| format!("the rules in slots {first} to {last}"))
}

/// How the cards of a group can be seen: in the picture of the atom that all others of them hang below, or of the one
/// that all of them do. Where that is the atom of this picture, it is no help.
fn seen(cards: &[Card], members: &[usize]) -> String {
    let from = |place: usize| cards[place].from.map(|(from, _)| from);
    let beside = |&&place: &&usize| from(place) == from(members[0]);
    let alone = members.iter().filter(beside).count() == 1;
    let start = if alone {
        Some(members[0])
    } else {
        from(members[0])
    };
    let mut up = std::iter::successors(start, |&place| from(place));
    let atom = up.find_map(|place| match &cards[place].of {
        Of::Atom(asked) => Some((place, asked)),
        _ => None,
    });
    match atom {
        Some((place, asked)) if place > 0 => format!("to go on, ask for {asked}"),
        _ => "all are in the tree as JSON (--json)".to_string(),
    }
}

/// How many of the cards are of atoms, and how many of rules.
fn counted(cards: &[Card], members: &[usize]) -> (usize, usize) {
    let rule = |place: &&usize| matches!(cards[**place].of, Of::Rule(_));
    let rules = members.iter().filter(rule).count();
    (members.len() - rules, rules)
}

/// The card that stands for a group.
fn left_out(cards: &[Card], members: &[usize], from: Option<(usize, Link)>, why: &str) -> Card {
    let (atoms, rules) = counted(cards, members);
    let mut lines = says(cards, members, why).into_iter();
    let first = lines.next().map(bold);
    let link = |link| match link {
        Link::HasMuted => Link::HasRule,
        link => link,
    };
    Card {
        look: Look::LeftOut,
        of: Of::LeftOut { atoms, rules },
        lines: first.into_iter().chain(lines.map(line)).collect(),
        from: from.map(|(from, how)| (from, link(how))),
        row: members.iter().map(|&at| cards[at].row).min().unwrap_or(0),
        told: None,
    }
}

/// What a card says whose branches hang from another one, where those are not all shown.
fn cut(cards: &[Card], text: &str, told: usize, shown: &[bool]) -> Option<&'static str> {
    let places = 0..cards.len();
    let branches = places.filter(|&place| cards[place].from.is_some_and(|(from, _)| from == told));
    let (seen, unseen): (Vec<usize>, Vec<usize>) = branches.partition(|&place| shown[place]);
    match text {
        ABOVE if !shown[told] => Some("left out above: it waits for itself"),
        EARLIER if seen.is_empty() => Some("its branches are left out"),
        EARLIER if !unseen.is_empty() => Some("its branches are left out in part"),
        _ => None,
    }
}

/// A shown card.
fn kept(cards: &[Card], card: &Card, from: Option<(usize, Link)>, shown: &[bool]) -> Card {
    let mut kept = Card {
        from,
        ..card.clone()
    };
    if let (Some(told), Some(line)) = (card.told, kept.lines.last_mut()) {
        if let Some(text) = cut(cards, &line.text, told, shown) {
            line.text = text.to_string();
        }
    }
    kept
}

/// The first so many cards of the order, and a card for each group of the others, which says why they are left out.
pub fn folded(cards: &[Card], order: &[usize], most: usize, why: &str) -> Vec<Card> {
    let shown = shown(cards, order, most);
    let groups = groups(cards, &shown);
    let mut places: Vec<usize> = Vec::new();
    let mut found = Vec::new();
    for (place, card) in cards.iter().enumerate() {
        let from = card.from.map(|(from, link)| (places[from], link));
        let group = groups[place];
        if group != place {
            places.push(places[group]);
            continue;
        }
        places.push(found.len());
        if shown[place] {
            found.push(kept(cards, card, from, &shown));
        } else {
            let members: Vec<usize> = (place..cards.len())
                .filter(|&other| groups[other] == place)
                .collect();
            found.push(left_out(cards, &members, from, why));
        }
    }
    found
}
