//! Where everything stands. Each card has a column of its own, as wide as what hangs below it, and each row is as high
//! as its highest card, so that nothing overlaps. Links run down a column and along the space between rows. A picture
//! that would be too large leaves cards out (fold.rs).

use crate::bands::{Bands, Spot, COLUMN_GAP, GUTTER};
use crate::cards::{Card, Drawing, Line, Link, Look};
use crate::fold;
use crate::measure::{tall, width};
use crate::shown::figures;
use crate::wrap::{wrapped, Room};

/// Text sizes, of the headline, of cards, and of the words beside them.
pub const LARGE: f64 = 18.0;
pub const SIZE: f64 = 14.0;
pub const SMALL: f64 = 12.0;
pub const LINE: f64 = 20.0;
/// How much higher the line of a tall script is, half above the letters and half below.
pub const TALLER: f64 = 8.0;
pub const PAD: f64 = 12.0;
pub const MARGIN: f64 = 24.0;
/// How far a line that goes on with the one above it is moved to the right.
pub const INDENT: f64 = 14.0;
/// How long a legend's line is, with the space behind it.
pub const SAMPLE: f64 = 44.0;
/// No picture is larger.
pub const WIDEST: f64 = 2000.0;
pub const HIGHEST: f64 = 3000.0;
/// How wide the text of a card may be; and where this alone shows every card, even less.
const LIMITS: [f64; 3] = [360.0, 280.0, 216.0];
const NARROW: f64 = 140.0;
const HEADLINE: f64 = 960.0;
const HEADLINE_LINE: f64 = 26.0;
const ROW_GAP: f64 = 50.0;

#[derive(Clone, Copy, PartialEq, Debug)]
pub struct Area {
    pub x: f64,
    pub y: f64,
    pub width: f64,
    pub height: f64,
}

impl Area {
    pub fn middle(&self) -> f64 {
        self.x + self.width / 2.0
    }

    pub fn right(&self) -> f64 {
        self.x + self.width
    }

    pub fn bottom(&self) -> f64 {
        self.y + self.height
    }
}

pub struct Placed {
    pub card: Card,
    pub area: Area,
}

/// A link from the middle of a card's lower edge, along the turn's height, to the middle of another's upper edge. If
/// the other is in a lower band, it first goes along a height of its own to a gutter, and down to the turn.
pub struct Wire {
    pub link: Link,
    pub from: (f64, f64),
    pub gutter: Option<(f64, f64)>,
    pub turn: f64,
    pub to: (f64, f64),
}

/// Words outside the cards.
pub struct Note {
    pub text: String,
    pub area: Area,
}

/// What the legend explains.
#[derive(Clone, Copy, PartialEq, Eq, Debug)]
pub enum Sample {
    Line(Link),
    LeftOut,
}

pub struct Picture {
    pub width: f64,
    pub height: f64,
    pub title: String,
    pub headline: Vec<Note>,
    pub rows: Vec<Note>,
    pub cards: Vec<Placed>,
    pub wires: Vec<Wire>,
    pub legend: Vec<(Sample, Note)>,
}

pub fn line_width(line: &Line) -> f64 {
    let indent = if line.goes_on { INDENT } else { 0.0 };
    indent + width(&line.text, SIZE, line.bold)
}

/// The line as lines that are not wider than the limit.
fn parted(line: &Line, limit: f64) -> Vec<Line> {
    let room = Room {
        size: SIZE,
        bold: line.bold,
        first: limit,
        others: limit - INDENT,
    };
    let texts = wrapped(&line.text, room).into_iter().enumerate();
    texts
        .map(|(place, text)| Line {
            text,
            goes_on: place > 0,
            ..line.clone()
        })
        .collect()
}

/// How much higher than others the line is.
pub fn taller(text: &str) -> f64 {
    if tall(text) {
        TALLER
    } else {
        0.0
    }
}

fn card_size(card: &Card) -> (f64, f64) {
    let widest = card.lines.iter().map(line_width).fold(0.0, f64::max);
    let heights = card.lines.iter().map(|line| LINE + taller(&line.text));
    (widest + 2.0 * PAD, heights.sum::<f64>() + 2.0 * PAD - 4.0)
}

/// Where each row starts and ends, below the headline. A row without cards takes no room.
fn rows(spots: &[Spot], sizes: &[(f64, f64)], mut bottom: f64) -> Vec<(f64, f64)> {
    let last = spots.iter().map(|spot| spot.row).max().unwrap_or(0);
    let mut heights = vec![0.0_f64; last + 1];
    let all = spots.iter().zip(sizes);
    all.for_each(|(spot, size)| heights[spot.row] = heights[spot.row].max(size.1));
    let mut rows = Vec::new();
    for height in heights {
        let gap = if rows.is_empty() { MARGIN } else { ROW_GAP };
        let top = bottom + if height > 0.0 { gap } else { 0.0 };
        bottom = top + height;
        rows.push((top, bottom));
    }
    rows
}

/// Where each card is, with the first one's column starting here.
fn areas(spots: &[Spot], sizes: &[(f64, f64)], rows: &[(f64, f64)], start: f64) -> Vec<Area> {
    let all = spots.iter().zip(sizes);
    all.map(|(spot, &(width, height))| Area {
        x: start + spot.middle - width / 2.0,
        y: rows[spot.row].0,
        width,
        height,
    })
    .collect()
}

fn wires(cards: &[Card], spots: &[Spot], areas: &[Area], rows: &[(f64, f64)]) -> Vec<Wire> {
    let turn = |row: usize| rows[row].1 + ROW_GAP / 2.0;
    let start = areas[0].middle() - spots[0].middle;
    let hung = cards.iter().zip(spots).zip(areas);
    hung.filter_map(|((card, spot), area)| {
        let (from, link) = card.from?;
        let gutter = spot.gutter.map(|x| (start + x, turn(spots[from].row)));
        Some(Wire {
            link,
            from: (areas[from].middle(), areas[from].bottom()),
            gutter,
            turn: turn(spot.above),
            to: (area.middle(), area.y),
        })
    })
    .collect()
}

fn note(text: String, size: f64, x: f64, y: f64) -> Note {
    let area = Area {
        x,
        y,
        width: width(&text, size, size == LARGE),
        height: LINE,
    };
    Note { text, area }
}

fn headline(text: &str) -> Vec<Note> {
    let room = Room {
        size: LARGE,
        bold: true,
        first: HEADLINE,
        others: HEADLINE,
    };
    let height = HEADLINE_LINE + taller(text);
    let lines = wrapped(text, room).into_iter().enumerate();
    lines
        .map(|(place, line)| {
            let y = MARGIN + place as f64 * height;
            note(line, LARGE, MARGIN, y)
        })
        .collect()
}

fn has(cards: &[Card], sample: Sample) -> bool {
    cards.iter().any(|card| match sample {
        Sample::Line(link) => card.from.is_some_and(|(_, found)| found == link),
        Sample::LeftOut => card.look == Look::LeftOut,
    })
}

/// What the picture has, side by side as far as there is room to the right.
fn legend(cards: &[Card], mut top: f64, right: f64) -> Vec<(Sample, Note)> {
    let mut found: Vec<(Sample, Note)> = Vec::new();
    for (sample, text) in [
        (Sample::Line(Link::RestsOn), "rests on"),
        (Sample::Line(Link::Needs), "needs (it is out)"),
        (Sample::Line(Link::BlockedBy), "blocked by (it is in)"),
        (Sample::Line(Link::HasMuted), "muted (it gives nothing)"),
        (Sample::LeftOut, "cards left out (too large to show all)"),
    ] {
        if has(cards, sample) {
            let end = found.last();
            let mut x = end.map_or(MARGIN, |(_, note)| note.area.right() + COLUMN_GAP);
            if x > MARGIN && x + SAMPLE + width(text, SMALL, false) > right {
                (x, top) = (MARGIN, top + LINE);
            }
            found.push((sample, note(text.to_string(), SMALL, x + SAMPLE, top)));
        }
    }
    found
}

fn depth_note(depth: usize, top: f64) -> Note {
    note(format!("depth {depth}"), SMALL, MARGIN, top + PAD)
}

/// The depths at the left of the rows, for an atom that is in. A row of cards left out has none: they have many.
fn depths(depth: usize, cards: &[Card], spots: &[Spot], rows: &[(f64, f64)]) -> Vec<Note> {
    if depth == 0 {
        return Vec::new();
    }
    let shown = |row: usize| {
        let mut all = cards.iter().zip(spots);
        all.find(|(card, spot)| spot.row == row && card.look != Look::LeftOut)
    };
    let rows = rows.iter().enumerate();
    rows.filter_map(|(row, (top, _))| {
        let (card, _) = shown(row)?;
        Some(depth_note(depth - card.row, *top))
    })
    .collect()
}

fn rightmost<'a>(notes: impl Iterator<Item = &'a Note>) -> f64 {
    notes.map(|note| note.area.right()).fold(0.0, f64::max)
}

fn lowest<'a>(notes: impl Iterator<Item = &'a Note>) -> f64 {
    notes.map(|note| note.area.bottom()).fold(0.0, f64::max)
}

/// Where the cards begin, behind the depths, of which the first is the widest.
fn left(depth: usize) -> f64 {
    let depths = (depth > 0).then(|| depth_note(depth, 0.0).area.right());
    depths.unwrap_or(0.0) + MARGIN
}

/// A way to draw: how wide the text of a card may be, and whether cards side by side may stand in bands.
#[derive(Clone, Copy)]
struct Way {
    limit: f64,
    bands: bool,
}

/// The ways in the order in which they are tried, in one row or in bands.
fn ways(bands: bool) -> impl Iterator<Item = Way> {
    LIMITS.into_iter().map(move |limit| Way { limit, bands })
}

impl Picture {
    /// The picture of these cards of the drawing, whose text is not wider than the limit.
    fn placed(drawing: &Drawing, mut cards: Vec<Card>, Way { limit, bands }: Way) -> Picture {
        for card in &mut cards {
            let lines = card.lines.iter();
            card.lines = lines.flat_map(|line| parted(line, limit)).collect();
        }
        let sizes: Vec<(f64, f64)> = cards.iter().map(card_size).collect();
        let widths: Vec<f64> = sizes.iter().map(|size| size.0).collect();
        let left = left(drawing.depth);
        let room = if bands {
            WIDEST - left - MARGIN - GUTTER
        } else {
            f64::INFINITY
        };
        let (spots, column) = Bands::arranged(&cards, &widths, drawing.depth, room);
        Picture::drawn(drawing, cards, &spots, &sizes, (left, column))
    }

    /// The picture of these cards at their spots, in a column that starts here and is so wide.
    fn drawn(
        drawing: &Drawing,
        cards: Vec<Card>,
        spots: &[Spot],
        sizes: &[(f64, f64)],
        (left, column): (f64, f64),
    ) -> Picture {
        let headline = headline(&drawing.headline);
        let rows = rows(spots, sizes, lowest(headline.iter()));
        let right = rightmost(headline.iter()).max(left + column);
        let bottom = rows.last().map_or(0.0, |(_, end)| *end);
        let legend = legend(&cards, bottom + MARGIN, right);
        let right = right.max(rightmost(legend.iter().map(|(_, note)| note)));
        let areas = areas(spots, sizes, &rows, (left + right - column) / 2.0);
        Picture {
            width: right + MARGIN,
            height: bottom.max(lowest(legend.iter().map(|(_, note)| note))) + MARGIN,
            title: drawing.headline.clone(),
            headline,
            rows: depths(drawing.depth, &cards, spots, &rows),
            wires: wires(&cards, spots, &areas, &rows),
            cards: cards
                .into_iter()
                .zip(areas)
                .map(|(card, area)| Placed { card, area })
                .collect(),
            legend,
        }
    }

    fn fits(&self) -> bool {
        self.width <= WIDEST && self.height <= HIGHEST
    }

    /// Why this picture, of all cards, is not shown.
    fn too_large(&self) -> String {
        let (wide, high) = (self.width.ceil() as usize, self.height.ceil() as usize);
        let (wide, high) = (figures(wide), figures(high));
        match (self.width > WIDEST, self.height > HIGHEST) {
            (true, true) => {
                format!("the whole would be {wide} pixels wide and {high} high")
            }
            (true, false) => format!("the whole would be {wide} pixels wide"),
            _ => format!("the whole would be {high} pixels high"),
        }
    }

    /// The picture of every card in the first way in which it fits. Bands come last: one row is clearer.
    fn whole(drawing: &Drawing) -> Option<Picture> {
        let narrow = Way {
            limit: NARROW,
            bands: false,
        };
        let ways = ways(false).chain([narrow]).chain(ways(true));
        let mut pictures = ways.map(|way| Picture::placed(drawing, drawing.cards.clone(), way));
        pictures.find(Picture::fits)
    }

    /// As many cards as have room, and how many; none if not even the first has.
    fn folded(drawing: &Drawing, order: &[usize], way: Way) -> (usize, Picture) {
        let why = Picture::placed(drawing, drawing.cards.clone(), way).too_large();
        let shown = |most: usize| {
            let cards = fold::folded(&drawing.cards, order, most, &why);
            Picture::placed(drawing, cards, way)
        };
        let (mut fits, mut too_many) = (0, order.len());
        while fits + 1 < too_many {
            let most = (fits + too_many) / 2;
            if shown(most).fits() {
                fits = most;
            } else {
                too_many = most;
            }
        }
        (fits, shown(fits.max(1)))
    }

    /// The picture of every card, or else the one that shows most; a later way only if it shows far more.
    pub fn of(drawing: &Drawing) -> Picture {
        if let Some(whole) = Picture::whole(drawing) {
            return whole;
        }
        let order = fold::order(&drawing.cards);
        let folded = ways(false).chain(ways(true));
        let folded = folded.map(|way| Picture::folded(drawing, &order, way));
        let better = |best: (usize, Picture), next: (usize, Picture)| {
            if next.0 > best.0 + best.0 / 4 {
                next
            } else {
                best
            }
        };
        let (_, picture) = folded.reduce(better).expect("there are ways");
        picture
    }
}
