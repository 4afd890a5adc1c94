//! Which column and which row each card has. The cards below another stand side by side. Where that would be too wide
//! they stand in several bands, each below the one before it; links to the lower bands run down a gutter at the left.

use crate::cards::Card;

pub const COLUMN_GAP: f64 = 28.0;
pub const GUTTER: f64 = 28.0;

/// Cards side by side, with all that is below them: which, how wide, and over how many rows.
struct Band {
    cards: Vec<usize>,
    width: f64,
    rows: usize,
}

/// Where a card stands.
#[derive(Clone, Copy, Default)]
pub struct Spot {
    /// Where its column starts, and the middle of the card itself.
    pub left: f64,
    pub middle: f64,
    pub row: usize,
    /// The row above its band, where the link to the card leaves its height.
    pub above: usize,
    /// The gutter that the link runs down, if the card is in a lower band.
    pub gutter: Option<f64>,
}

pub struct Bands<'a> {
    cards: &'a [Card],
    widths: &'a [f64],
    /// Whether the rows are depths.
    depths: bool,
    bands: Vec<Vec<Band>>,
    /// How wide the column of each card is, and over how many rows it goes.
    columns: Vec<f64>,
    rows: Vec<usize>,
    spots: Vec<Spot>,
}

/// The places of the cards that hang from each one.
fn below(cards: &[Card]) -> Vec<Vec<usize>> {
    let mut below = vec![Vec::new(); cards.len()];
    for (place, card) in cards.iter().enumerate() {
        if let Some((from, _)) = card.from {
            below[from].push(place);
        }
    }
    below
}

impl Bands<'_> {
    /// The spots of the cards, the first one's column at 0, and how wide that is. The bands below the first card, or
    /// below any where the rows are not depths, are at most as wide as there is room, if they can be.
    pub fn arranged(cards: &[Card], widths: &[f64], depth: usize, room: f64) -> (Vec<Spot>, f64) {
        let mut bands = Bands {
            cards,
            widths,
            depths: depth > 0,
            bands: cards.iter().map(|_| Vec::new()).collect(),
            columns: vec![0.0; cards.len()],
            rows: vec![0; cards.len()],
            spots: vec![Spot::default(); cards.len()],
        };
        for (place, below) in below(cards).iter().enumerate().rev() {
            let free = place == 0 || depth == 0;
            bands.measure(place, below, if free { room } else { f64::INFINITY });
        }
        (0..cards.len()).for_each(|place| bands.spread(place));
        (bands.spots, bands.columns[0])
    }

    /// How many rows lower than it could be the card is, since its row is its depth.
    fn gap(&self, place: usize) -> usize {
        match self.cards[place].from {
            Some((from, _)) if self.depths => self.cards[place].row - self.cards[from].row - 1,
            _ => 0,
        }
    }

    fn measure(&mut self, place: usize, below: &[usize], room: f64) {
        let mut bands: Vec<Band> = Vec::new();
        for &card in below {
            let (width, rows) = (self.columns[card], self.gap(card) + self.rows[card]);
            match bands.last_mut() {
                Some(band) if band.width + COLUMN_GAP + width <= room => {
                    band.width += COLUMN_GAP + width;
                    band.rows = band.rows.max(rows);
                    band.cards.push(card);
                }
                _ => bands.push(Band {
                    cards: vec![card],
                    width,
                    rows,
                }),
            }
        }
        let widest = bands.iter().map(|band| band.width).fold(0.0, f64::max);
        let gutter = if bands.len() > 1 { GUTTER } else { 0.0 };
        self.columns[place] = self.widths[place].max(widest + gutter);
        self.rows[place] = 1 + bands.iter().map(|band| band.rows).sum::<usize>();
        self.bands[place] = bands;
    }

    /// Gives the cards below this one their spots.
    fn spread(&mut self, place: usize) {
        let bands = std::mem::take(&mut self.bands[place]);
        let column = self.columns[place];
        let Spot { left, row, .. } = self.spots[place];
        let gutter = if bands.len() > 1 { GUTTER } else { 0.0 };
        let middle = left + (column + gutter) / 2.0;
        self.spots[place].middle = middle.min(left + column - self.widths[place] / 2.0);
        let mut above = row;
        for (number, band) in bands.iter().enumerate() {
            let start = match bands.len() {
                1 => middle - band.width / 2.0,
                _ => left + gutter,
            };
            let gutter = (number > 0).then_some(left + GUTTER / 2.0);
            self.spread_band(band, start, above, gutter);
            above += band.rows;
        }
    }

    fn spread_band(&mut self, band: &Band, mut left: f64, above: usize, gutter: Option<f64>) {
        for &card in &band.cards {
            self.spots[card] = Spot {
                left,
                middle: 0.0,
                row: above + 1 + self.gap(card),
                above,
                gutter,
            };
            left += self.columns[card] + COLUMN_GAP;
        }
    }
}
