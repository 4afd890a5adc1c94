//! Nothing in a picture overlaps or sticks out, none is too large, what is left out is counted, and the pictures of the
//! repository are the ones that the program makes.

use crate::cards::{Card, Drawing, Link, Look, Of};
use crate::layout::{line_width, taller, Area, Picture, Placed, Wire};
use crate::layout::{HIGHEST, LINE, PAD, SAMPLE, WIDEST};
use crate::read_tests::rules;
use crate::sheet::Names;
use crate::{drawn, sheet, svg};
use yeqontur::{Checklist, Table};

macro_rules! example {
    ($name:literal) => {
        include_str!(concat!("../../../../../examples/", $name))
    };
}

fn named(text: &str) -> Names {
    sheet::names(text).expect("names")
}

fn muted(mut table: Table, slots: impl IntoIterator<Item = u32>) -> Table {
    for slot in slots {
        table.mute(slot).expect("a rule");
    }
    table
}

fn drawing(table: &Table, atom: u32, names: &str) -> Drawing {
    Drawing::new(&table.why(atom).expect("an atom"), table, &named(names))
}

fn text(table: &Table, atom: u32, names: &str) -> String {
    drawn(&table.why(atom).expect("an atom"), table, &named(names))
}

/// A checklist with these files sent and skipped, and the names of its atoms.
fn checklist(files: u32, sent: &[u32], skipped: &[u32]) -> (Checklist, Names) {
    let mut checklist = Checklist::open(files).expect("a checklist");
    sent.iter()
        .for_each(|&file| checklist.sent(file).expect("a file"));
    skipped
        .iter()
        .for_each(|&file| checklist.skipped(file).expect("a file"));
    let name = |atom| Some((atom, checklist.name(atom)?));
    let names = (0..256).filter_map(name).collect();
    (checklist, names)
}

fn checklist_text(files: u32, sent: &[u32], skipped: &[u32]) -> String {
    let (checklist, names) = checklist(files, sent, skipped);
    drawn(&checklist.why(), checklist.table(), &names)
}

fn all_files() -> Vec<u32> {
    (1..=60).collect()
}

/// The two that the program of the story shows, after its scan and at its end, and some of large trees.
#[test]
fn the_pictures_of_the_repository_are_made_by_the_program() {
    let five_rules = rules(example!("pictures/five_rules.sheet"));
    let branches = rules(example!("pictures/branches.sheet"));
    let few = rules(example!("pictures/names.sheet"));
    for (made, kept) in [
        (
            checklist_text(5, &[1, 2, 3, 5], &[4]),
            example!("complete.svg"),
        ),
        (
            checklist_text(5, &[1, 2, 3, 4, 5], &[]),
            example!("complete_in.svg"),
        ),
        (
            checklist_text(60, &all_files(), &[]),
            example!("pictures/sixty_files.svg"),
        ),
        (
            text(&five_rules, 1, example!("pictures/five_rules.names")),
            example!("pictures/five_rules.svg"),
        ),
        (text(&branches, 0, ""), example!("pictures/branches.svg")),
        (
            text(&few, 1, example!("pictures/scripts.names")),
            example!("pictures/scripts.svg"),
        ),
    ] {
        let title = made.lines().nth(1);
        assert!(made == kept, "{title:?}");
    }
}

#[test]
fn needs_and_blocked_by_differ_in_line_and_word() {
    let text = text(&rules("A 1 : 2\nA 1 : ! 3\nA 3 :\n"), 1, "");
    for sign in [
        ">needs<",
        ">blocked by<",
        "stroke-dasharray=\"7 5\"",
        "stroke-width=\"5\"",
    ] {
        assert!(text.contains(sign), "{sign}");
    }
}

/// The cards that hang from the first one.
fn below(drawing: &Drawing) -> Vec<(Link, &Card)> {
    let hung = |card: &Card| card.from.filter(|(from, _)| *from == 0);
    let cards = drawing.cards.iter();
    cards
        .filter_map(|card| Some((hung(card)?.1, card)))
        .collect()
}

/// The lines marked as what stops a rule, in the first rule below an out atom.
fn marked(sheet: &str, atom: u32) -> Vec<(String, Option<Link>)> {
    let drawing = drawing(&rules(sheet), atom, "");
    let (_, rule) = below(&drawing)[0];
    let marked = rule.lines.iter().filter(|line| line.bold);
    marked.map(|l| (l.text.clone(), l.stops)).collect()
}

#[test]
fn of_an_atom_in_both_lists_the_entry_that_stops_is_marked() {
    let rule = "A 3 :\nA 1 : 3 7 ! 5 7\n";
    let needs = ("atom 7 (out)".to_string(), Some(Link::Needs));
    assert_eq!(marked(rule, 1), [needs]);
    let blocked = ("not atom 7 (in)".to_string(), Some(Link::BlockedBy));
    assert_eq!(marked(&format!("{rule}A 7 :\n"), 1), [blocked]);
}

/// Slot 1 would be valid and slot 2 spoiled: of neither it is told so.
#[test]
fn a_muted_rule_is_drawn_as_muted() {
    let table = rules("A 1 : 4\nA 1 : 2\nA 1 : 2 3 ! 5\nA 1 :\nA 2 :\nA 5 :\n");
    let drawing = drawing(&muted(table, [1, 2, 3]), 1, "");
    let told = |(link, card): &(Link, &Card)| {
        let lines: Vec<&str> = card.lines.iter().map(|line| line.text.as_str()).collect();
        format!("{link:?} {:?}: {}", card.look, lines.join(", "))
    };
    let found: Vec<String> = below(&drawing).iter().map(told).collect();
    let expected = [
        "HasRule Rule: the rule in slot 0 asks for, atom 4 (out)",
        "HasMuted Muted: the rule in slot 1 is muted, it asks for, atom 2 (in)",
        "HasMuted Muted: the rule in slot 2 is muted, it asks for, atom 2 (in), atom 3 (out), not atom 5 (in)",
        "HasMuted Muted: the rule in slot 3 is muted, a fact",
    ];
    assert_eq!(found, expected);
}

#[test]
fn muted_differs_in_line_and_word_and_has_a_legend() {
    let table = rules("A 1 : 2\nA 2 :\n");
    let signs = [
        ">the rule in slot 1 is muted<",
        ">muted (it gives nothing)<",
        "stroke-dasharray=\"2 4\"",
    ];
    let plain = text(&table, 1, "");
    assert!(!signs.iter().any(|sign| plain.contains(sign)), "{plain}");
    let text = text(&muted(table, [1]), 1, "");
    assert!(signs.iter().all(|sign| text.contains(sign)), "{text}");
}

/// The atom has another rule, which gives it; only that one is drawn.
#[test]
fn an_in_atom_shows_its_supporting_rule_alone() {
    let text = text(&muted(rules("A 1 :\nA 1 : 2\nA 2 :\n"), [0]), 1, "");
    assert!(text.contains(">in, depth 2, by slot 1<"), "{text}");
    assert!(!text.contains("muted"), "{text}");
}

/// Tables of every kind of tree, from a seed; some of their rules are muted. Of the positives of a rule there are at
/// least so many, but in one of 16.
fn table(mut seed: u32, atoms: u32, rules: u32, least: u32) -> Table {
    let mut below = |bound: u32| {
        seed = seed.wrapping_mul(1_664_525).wrapping_add(1_013_904_223);
        (seed >> 16) % bound
    };
    let mut table = Table::new();
    for _ in 0..rules {
        let least = if below(16) == 0 { 0 } else { least };
        let positives = least + below(4 - least);
        let positives: Vec<u32> = (0..positives).map(|_| below(atoms)).collect();
        let negatives: Vec<u32> = (0..below(3)).map(|_| below(atoms)).collect();
        let added = table.add(below(atoms), &positives, &negatives);
        if let (Ok(slot), 0) = (added, below(4)) {
            table.mute(slot).expect("a rule");
        }
    }
    table
}

fn overlap(a: Area, b: Area) -> bool {
    a.x < b.right() && b.x < a.right() && a.y < b.bottom() && b.y < a.bottom()
}

fn line(x: (f64, f64), y: (f64, f64)) -> Area {
    Area {
        x: x.0.min(x.1),
        y: y.0.min(y.1),
        width: (x.1 - x.0).abs(),
        height: (y.1 - y.0).abs(),
    }
}

/// The parts of a link, three or five.
fn parts(wire: &Wire) -> Vec<Area> {
    let ((x, y), turn, (to, lower)) = (wire.from, wire.turn, wire.to);
    let mut corners = vec![(x, y)];
    if let Some((gutter, height)) = wire.gutter {
        corners.extend([(x, height), (gutter, height), (gutter, turn)]);
    } else {
        corners.push((x, turn));
    }
    corners.extend([(to, turn), (to, lower)]);
    let pairs = corners.windows(2);
    pairs
        .map(|pair| line((pair[0].0, pair[1].0), (pair[0].1, pair[1].1)))
        .collect()
}

fn boxes(picture: &Picture) -> Vec<Area> {
    let notes = picture.rows.iter().chain(&picture.headline);
    let notes = notes.map(|note| note.area);
    let legend = picture.legend.iter().map(|(_, note)| Area {
        x: note.area.x - SAMPLE,
        width: note.area.width + SAMPLE,
        ..note.area
    });
    let cards = picture.cards.iter().map(|placed| placed.area);
    notes.chain(legend).chain(cards).collect()
}

fn nothing_overlaps(picture: &Picture) {
    let plates = picture.wires.iter().filter_map(svg::plate);
    let boxes = boxes(picture);
    let all: Vec<Area> = boxes
        .iter()
        .copied()
        .chain(plates.map(|(_, area)| area))
        .collect();
    for (place, &a) in all.iter().enumerate() {
        assert!(
            a.x >= 0.0 && a.y >= 0.0 && a.right() <= picture.width && a.bottom() <= picture.height
        );
        assert!(all[place + 1..].iter().all(|&b| !overlap(a, b)));
    }
    for wire in &picture.wires {
        let parts = parts(wire);
        assert!(parts
            .iter()
            .all(|&part| boxes.iter().all(|&b| !overlap(part, b))));
    }
}

/// Every line stands inside its card, with the space around it.
fn text_fits(Placed { card, area }: &Placed) {
    let wide = card.lines.iter().map(line_width).fold(0.0, f64::max);
    let high = card.lines.iter().map(|line| LINE + taller(&line.text));
    assert!(wide <= 360.01 && wide + 2.0 * PAD <= area.width + 0.01);
    assert!(high.sum::<f64>() + PAD <= area.height + 0.01);
}

/// How many cards a card stands for.
fn left_out(card: &Card) -> usize {
    match card.of {
        Of::LeftOut { atoms, rules } => atoms + rules,
        _ => 0,
    }
}

/// What is shown and what is said to be left out are all cards of the drawing. The first card is shown.
fn nothing_is_lost(drawing: &Drawing, picture: &Picture) {
    let cards = || picture.cards.iter().map(|placed| &placed.card);
    let shown = cards().filter(|card| card.look != Look::LeftOut).count();
    let hidden: usize = cards().map(left_out).sum();
    assert_eq!(shown + hidden, drawing.cards.len());
    let folded = cards().filter(|card| card.look == Look::LeftOut);
    for card in folded {
        let lines: Vec<&str> = card.lines.iter().map(|line| line.text.as_str()).collect();
        let told = lines.join(" ").replace(',', "");
        assert!(
            told.starts_with(&format!("{} cards ", left_out(card))),
            "{told}"
        );
        assert!(
            left_out(card) > 1 && told.contains("the whole would be "),
            "{told}"
        );
    }
    let first = &picture.cards[0].card;
    assert_eq!(
        (first.look, &first.of),
        (drawing.cards[0].look, &drawing.cards[0].of)
    );
}

/// The number that stands in a text behind these words.
fn number_behind(told: &str, words: &str) -> Option<usize> {
    let (_, rest) = told.split_once(words)?;
    let figures: String = rest.chars().take_while(char::is_ascii_digit).collect();
    figures.parse().ok()
}

/// How many cards hang below that of an atom whose branches are told there.
fn below_atom(drawing: &Drawing, atom: usize) -> usize {
    let (alone, named) = (format!("atom {atom}"), format!("atom {atom}, "));
    let is_it = |card: &Card| match &card.of {
        Of::Atom(asked) => card.told.is_none() && (*asked == alone || asked.starts_with(&named)),
        _ => false,
    };
    let mut below = vec![false; drawing.cards.len()];
    for (place, card) in drawing.cards.iter().enumerate() {
        let from = card.from.is_some_and(|(from, _)| below[from]);
        below[place] = from || is_it(card);
    }
    below.iter().filter(|&&below| below).count()
}

/// A card that stands for others names slots only if they are exactly those of the rules left out, and an atom only if
/// it is another one than that of the picture, with as many cards below it.
fn what_is_left_out_is_told_rightly(drawing: &Drawing, picture: &Picture) {
    let cards = || picture.cards.iter().map(|placed| &placed.card);
    let shown: Vec<&Of> = cards().map(|card| &card.of).collect();
    for card in cards().filter(|card| card.look == Look::LeftOut) {
        let lines: Vec<&str> = card.lines.iter().map(|line| line.text.as_str()).collect();
        let told = lines.join(" ");
        if let Some(first) = number_behind(&told, "the rules in slots ") {
            let last = number_behind(&told, &format!("slots {first} to ")).expect("a last slot");
            let rules = matches!(card.of, Of::LeftOut { rules, .. } if rules == last - first + 1);
            let hidden = (first..=last).all(|slot| !shown.contains(&&Of::Rule(slot as u32)));
            assert!(rules && hidden, "{told}");
        }
        let Some(atom) = number_behind(&told, "to go on, ask for atom ") else {
            assert!(
                told.ends_with("all are in the tree as JSON (--json)"),
                "{told}"
            );
            continue;
        };
        let this = number_behind(&format!("{:?}", drawing.cards[0].of), "atom ");
        assert!(
            this != Some(atom) && below_atom(drawing, atom) >= left_out(card),
            "{told}"
        );
    }
}

/// Whether the text is XML as far as this program writes it: known marks, each text closed, and no letter that XML does
/// not have.
fn well_formed(text: &str) {
    let marks = [
        "svg ", "/svg>", "title>", "/title>", "rect ", "path ", "text ", "/text>",
    ];
    for part in text.split('<').skip(1) {
        assert!(marks.iter().any(|mark| part.starts_with(mark)), "<{part}");
        assert_eq!(part.split('>').count(), 2, "<{part}");
    }
    assert_eq!(
        text.matches("<text ").count(),
        text.matches("</text>").count()
    );
    let known = ["amp;", "lt;", "gt;"];
    let mut ands = text.split('&').skip(1);
    assert!(ands.all(|part| known.iter().any(|name| part.starts_with(name))));
    let none = |letter: char| matches!(letter, '\u{FFFE}' | '\u{FFFF}') || letter.is_control();
    assert!(!text.contains(|letter| letter != '\n' && none(letter)));
}

/// Where the first atom is in, every shown card stands beside its depth.
fn rows_are_depths(drawing: &Drawing, picture: &Picture) {
    let shown = |placed: &&Placed| placed.card.look != Look::LeftOut && drawing.depth > 0;
    for Placed { card, area } in picture.cards.iter().filter(shown) {
        let mut rows = picture.rows.iter();
        let row = rows.find(|row| row.area.y > area.y).expect("a row");
        assert_eq!(row.text, format!("depth {}", drawing.depth - card.row));
        assert!(row.area.y < area.bottom());
    }
}

fn is_good(drawing: &Drawing) -> Picture {
    let picture = Picture::of(drawing);
    rows_are_depths(drawing, &picture);
    nothing_overlaps(&picture);
    nothing_is_lost(drawing, &picture);
    what_is_left_out_is_told_rightly(drawing, &picture);
    picture.cards.iter().for_each(text_fits);
    well_formed(&svg::written(&picture));
    assert!(picture.width <= WIDEST && picture.height <= HIGHEST);
    picture
}

fn left_out_in(picture: &Picture) -> usize {
    picture
        .cards
        .iter()
        .map(|placed| left_out(&placed.card))
        .sum()
}

#[test]
fn pictures_of_every_kind_are_good() {
    let names = "1 x\n2 a rather long name of an atom\n3 WWWWW\n4 <&>\"'";
    let mut muted = 0;
    for seed in 0..150 {
        let table = table(seed, 9, 24, 0);
        for atom in 0..10 {
            let picture = is_good(&drawing(&table, atom, names));
            let mut cards = picture.cards.iter();
            muted += usize::from(cards.any(|placed| placed.card.look == Look::Muted));
            assert_eq!(left_out_in(&picture), 0);
        }
    }
    assert!(muted > 100, "{muted} pictures with a muted rule");
}

/// Trees of up to 256 rules, most of them too large to be shown whole.
#[test]
fn large_pictures_of_every_kind_are_good() {
    let mut folded = 0;
    for seed in 0..30 {
        let table = table(seed, 10 + seed * 2, 256, 1);
        let atoms = (0..60).filter(|atom| atom % 3 == seed % 3);
        for atom in atoms {
            let names = [
                example!("pictures/long.names"),
                example!("pictures/scripts.names"),
                "",
            ];
            let names = names[(seed % 3) as usize];
            folded += usize::from(left_out_in(&is_good(&drawing(&table, atom, names))) > 0);
        }
    }
    assert!(folded > 20, "{folded} pictures with cards left out");
}

#[test]
fn the_picture_of_a_checklist_is_good() {
    let all = all_files();
    for (files, sent, skipped, hidden) in [
        (1, &all[..0], &[][..], false),
        (2, &all[..2], &[], false),
        (9, &all[..9], &[9], false),
        (9, &all[..9], &[], false),
        (60, &all[..0], &[], true),
        (60, &all[..0], &[1], true),
        (60, &all, &[], true),
        (60, &all, &[3], true),
        (60, &all, &[58], false),
    ] {
        let (checklist, names) = checklist(files, sent, skipped);
        let drawing = Drawing::new(&checklist.why(), checklist.table(), &names);
        let picture = is_good(&drawing);
        assert_eq!(left_out_in(&picture) > 0, hidden, "{files} {skipped:?}");
    }
}

/// The largest first cards that there are: an in atom says each of its negatives, and the fold's card names another.
#[test]
fn names_of_any_length_are_drawn() {
    let blocked = "A 1 : ! 2 3 4 5 6 7 8 9";
    let chain = "A 1 : 2 ! 3 4 5 6 7 8 9\nA 2 : 10 ! 3 4 5 6 7 8 9\nA 10 : 11\nA 11 :";
    let spoiled = "A 1 : 2 3 4 5 6 7 8 9\nA 2 : 10\nA 10 : 1";
    for letters in [
        "W",
        "i",
        "x y ",
        "\u{FDFD}",
        "\u{1242B}",
        "a\u{301}",
        "\u{947}",
        "\u{4E2D}",
    ] {
        let name = letters.repeat(5_000);
        let names: String = (1..12).map(|atom| format!("{atom} {name}\n")).collect();
        for sheet in [blocked, chain, spoiled] {
            is_good(&drawing(&rules(sheet), 1, &names));
        }
    }
}

/// The texts of the cards, in reading order.
fn said(picture: &Picture) -> Vec<String> {
    let lines = |placed: &Placed| {
        let lines = placed.card.lines.iter().map(|line| line.text.as_str());
        lines.collect::<Vec<&str>>().join(", ")
    };
    picture.cards.iter().map(lines).collect()
}

fn place(said: &[String], text: &str) -> usize {
    let found = said.iter().position(|told| told.starts_with(text));
    found.unwrap_or_else(|| panic!("{text} in {said:?}"))
}

#[test]
fn a_chain_shows_its_beginning_and_its_end() {
    let table = rules(example!("pictures/chain.sheet"));
    let picture = is_good(&drawing(&table, 249, ""));
    let said = said(&picture);
    assert_eq!(said[0], "atom 249, in, depth 250, by slot 249");
    assert_eq!(
        said[said.len() - 1],
        "atom 0, in, depth 1, by slot 0, a fact"
    );
    let left_out = place(
        &said,
        &format!("{} cards of atoms left out, ", 251 - said.len()),
    );
    assert!(
        said[left_out].contains("the whole would be 27,"),
        "{said:?}"
    );
    let next = 249 - left_out;
    assert!(said[left_out].ends_with(&format!("to go on, ask for atom {next}")));
    assert!(
        (10..15).contains(&left_out),
        "{left_out} before, {} cards",
        said.len()
    );
    let rows: Vec<&str> = picture.rows.iter().map(|row| row.text.as_str()).collect();
    assert_eq!(
        rows.len(),
        said.len() - 1,
        "each row but that of the cards left out has its depth"
    );
    assert_eq!((rows[0], rows[rows.len() - 1]), ("depth 250", "depth 1"));
}

#[test]
fn a_chain_that_is_out_shows_what_it_lacks() {
    let table = muted(rules(example!("pictures/chain.sheet")), [0]);
    let picture = is_good(&drawing(&table, 249, ""));
    let said = said(&picture);
    assert_eq!(said[0], "atom 249, out");
    assert_eq!(said[said.len() - 1], "the rule in slot 0 is muted, a fact");
    assert!(left_out_in(&picture) > 400);
    assert!(picture.rows.is_empty());
}

#[test]
fn of_many_rules_the_first_are_shown_and_the_slots_of_the_others() {
    let picture = is_good(&drawing(&rules(example!("pictures/one_head.sheet")), 0, ""));
    let said = said(&picture);
    let shown = said
        .iter()
        .filter(|told| told.starts_with("the rule in slot "))
        .count();
    assert!(shown > 60, "{shown}");
    let hidden = 256 - shown;
    let told = format!(
        "{} cards left out, {hidden} of rules, {hidden} of atoms, ",
        2 * hidden
    );
    let last = &said[place(&said, &told)];
    assert!(
        last.contains(&format!(", the rules in slots {shown} to 255, ")),
        "{last}"
    );
    let legend: Vec<&str> = picture
        .legend
        .iter()
        .map(|(_, note)| note.text.as_str())
        .collect();
    assert_eq!(
        legend,
        [
            "needs (it is out)",
            "cards left out (too large to show all)"
        ]
    );
}

/// Eight branches do not fit side by side, but one below the other; each row still is a depth.
#[test]
fn branches_stand_in_bands() {
    let picture = is_good(&drawing(&rules(example!("pictures/branches.sheet")), 0, ""));
    assert_eq!(left_out_in(&picture), 0);
    let rows: Vec<&str> = picture.rows.iter().map(|row| row.text.as_str()).collect();
    let band = ["depth 3", "depth 2", "depth 1"];
    assert_eq!(rows[0], "depth 4");
    assert!(rows[1..].chunks(3).all(|found| found == band), "{rows:?}");
    assert!(picture.wires.iter().any(|wire| wire.gutter.is_some()));
}

/// Atom 239 is the last that is shown of the chain's beginning, atom 11 the first of its end; of atom 1 in the last
/// table some rules are shown and others left out. Each has a second card.
#[test]
fn a_second_card_says_whether_the_branches_are_shown() {
    let chain = example!("pictures/chain.sheet");
    let second = |atom: u32| format!("{chain}A 250 : {atom}\nA 251 : 249 250\n");
    let many: String = (3..253).map(|atom| format!("A 1 : {atom}\n")).collect();
    let many = format!("A 0 : 1\nA 0 : 2\nA 2 : 1\n{many}");
    for (sheet, atom, told) in [
        (
            second(239),
            251,
            "atom 239, in, depth 240, by slot 239, its branches are left out",
        ),
        (
            second(11),
            251,
            "atom 11, in, depth 12, by slot 11, its branches are shown already",
        ),
        (many, 0, "atom 1, out, its branches are left out in part"),
    ] {
        let picture = is_good(&drawing(&rules(&sheet), atom, ""));
        let said = said(&picture);
        assert!(said.iter().any(|card| card == told), "{told}: {said:?}");
    }
}

/// The branches of atom 100 are told below atom 249, and are left out; where the atom stands again, its card says so.
#[test]
fn branches_that_are_left_out_are_not_said_to_be_shown() {
    let chain = example!("pictures/chain.sheet");
    let table = rules(&format!("{chain}A 250 : 100\nA 251 : 249 250\n"));
    let said = said(&is_good(&drawing(&table, 251, "")));
    let again = &said[place(&said, "atom 250, ") + 1];
    assert_eq!(
        again,
        "atom 100, in, depth 101, by slot 100, its branches are left out"
    );
}

#[test]
fn names_of_the_stress_set_are_drawn_whole() {
    let table = rules(example!("pictures/names.sheet"));
    for names in [
        example!("pictures/long.names"),
        example!("pictures/scripts.names"),
        example!("pictures/more_scripts.names"),
    ] {
        let picture = is_good(&drawing(&table, 1, names));
        assert_eq!(left_out_in(&picture), 0);
        let whole: String = said(&picture).concat().replace([' ', ','], "");
        let shown = named(names).into_values().filter(|name| {
            let name = name.replace([' ', ',', '\u{202E}'], "");
            whole.contains(&name)
        });
        assert_eq!(shown.count(), 13);
    }
}

/// The last of the rules that are left out is muted, and counts as one of them.
#[test]
fn muted_rules_are_left_out_like_others() {
    let table = muted(rules(example!("pictures/one_head.sheet")), [3, 254, 255]);
    let said = said(&is_good(&drawing(&table, 0, "")));
    place(&said, "the rule in slot 3 is muted, it asks for, atom 4");
    let last = said.iter().find(|told| told.contains(" cards left out, "));
    assert!(
        last.is_some_and(|told| told.contains(" to 255, ")),
        "{last:?}"
    );
}

/// The rules of two atoms in turn: those of one are left out, and their slots do not follow one another.
#[test]
fn slots_with_others_between_them_are_not_told() {
    let mut sheet = String::new();
    for rule in 0..128 {
        sheet += &format!("A 0 : {}\nA 1 : {}\n", rule + 2, rule + 2);
    }
    let picture = is_good(&drawing(&rules(&sheet), 0, ""));
    assert!(left_out_in(&picture) > 20);
    assert!(said(&picture)
        .iter()
        .all(|told| !told.contains("the rules in slots")));
}

#[test]
fn a_name_of_which_nothing_is_seen_is_not_used() {
    let table = rules("A 1 :");
    for name in [
        &"\u{3164}".repeat(200),
        "\u{202E}\u{2028}",
        "\u{200B}\u{AD}",
        "\u{3164}",
        "\u{2800} \u{2060}",
        "\u{FEFF}\u{200F}",
    ] {
        let names = Names::from([(1, name.to_string())]);
        let text = drawn(&table.why(1).expect("an atom"), &table, &names);
        assert!(text.contains("<title>Why atom 1 is in</title>"), "{text}");
    }
}
