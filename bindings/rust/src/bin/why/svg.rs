//! The picture as SVG. What stops a rule is told by colour, by the kind of line, and in words; a muted rule is pale,
//! and its lines are dotted. A card that stands for others is yellow, and its edge is dots.

use crate::cards::{Link, Look};
use crate::layout::{taller, Area, Note, Picture, Placed, Sample, Wire};
use crate::layout::{INDENT, LARGE, LINE, PAD, SAMPLE, SIZE, SMALL};
use crate::measure::width;

const DARK: &str = "#1f2328";
const PALE: &str = "#57606a";
const LEFT_OUT: &str = r##"rx="12" fill="#fdf8e4" stroke="#8a7420" stroke-width="1.5" stroke-dasharray="1 5" stroke-linecap="round""##;

fn escaped(text: &str) -> String {
    let mut out = String::new();
    for letter in text.chars() {
        match letter {
            '&' => out.push_str("&amp;"),
            '<' => out.push_str("&lt;"),
            '>' => out.push_str("&gt;"),
            '\u{FFFE}' | '\u{FFFF}' => out.push('\u{FFFD}'),
            _ if letter.is_control() => out.push(' '),
            _ => out.push(letter),
        }
    }
    out
}

fn colour(link: Link) -> &'static str {
    match link {
        Link::RestsOn => "#1b7f4b",
        Link::HasRule | Link::HasMuted => "#8a8f98",
        Link::Needs => "#b45309",
        Link::BlockedBy => "#b3261e",
    }
}

/// A line of a link: where it goes, as a path.
fn stroke(link: Link, path: &str) -> String {
    let colour = colour(link);
    let kind = match link {
        Link::RestsOn => r#"stroke-width="2""#,
        Link::HasRule => r#"stroke-width="1.5""#,
        Link::HasMuted => r#"stroke-width="1.5" stroke-dasharray="2 4""#,
        Link::Needs => r#"stroke-width="2.5" stroke-dasharray="7 5""#,
        Link::BlockedBy => r#"stroke-width="5""#,
    };
    format!("<path d=\"{path}\" fill=\"none\" stroke=\"{colour}\" {kind}/>\n")
}

/// What ends a link: a full arrow, an open arrow, or a bar.
fn end(link: Link, (x, y): (f64, f64)) -> String {
    let (path, fill) = match link {
        Link::RestsOn => (format!("M{:.1} {:.1}h10l-5 8z", x - 5.0, y - 9.0), true),
        Link::Needs => (format!("M{:.1} {:.1}l7 9l7 -9", x - 7.0, y - 10.0), false),
        Link::BlockedBy => (format!("M{:.1} {:.1}h28v5h-28z", x - 14.0, y - 6.0), true),
        Link::HasRule | Link::HasMuted => return String::new(),
    };
    let colour = colour(link);
    let fill = if fill { colour } else { "none" };
    format!("<path d=\"{path}\" fill=\"{fill}\" stroke=\"{colour}\" stroke-width=\"2\"/>\n")
}

fn text(words: &str, (x, y): (f64, f64), size: f64, style: &str) -> String {
    let words = escaped(words);
    format!("<text x=\"{x:.1}\" y=\"{y:.1}\" font-size=\"{size}\" {style}>{words}</text>\n")
}

fn style(bold: bool, fill: &str) -> String {
    let weight = if bold { "bold" } else { "normal" };
    format!("font-weight=\"{weight}\" fill=\"{fill}\"")
}

/// Words that stand in the middle of their line's height.
fn noted(note: &Note, size: f64, fill: &str) -> String {
    let at = (note.area.x, note.area.y + LINE / 2.0 + size * 0.36);
    text(&note.text, at, size, &style(size == LARGE, fill))
}

fn rectangle(area: Area, look: &str) -> String {
    let Area {
        x,
        y,
        width,
        height,
    } = area;
    format!(
        "<rect x=\"{x:.1}\" y=\"{y:.1}\" width=\"{width:.1}\" height=\"{height:.1}\" {look}/>\n"
    )
}

/// The words of a link and the plate that they stand on, in the middle of the space between rows.
pub fn plate(wire: &Wire) -> Option<(&'static str, Area)> {
    let words = match wire.link {
        Link::Needs => "needs",
        Link::BlockedBy => "blocked by",
        Link::RestsOn | Link::HasRule | Link::HasMuted => return None,
    };
    let wide = width(words, SMALL, true) + 16.0;
    let area = Area {
        x: wire.to.0 - wide / 2.0,
        y: wire.turn - LINE / 2.0 - 3.0,
        width: wide,
        height: LINE,
    };
    Some((words, area))
}

fn wire(wire: &Wire) -> String {
    let ((x, y), turn, (to, lower)) = (wire.from, wire.turn, wire.to);
    let gutter = wire.gutter.map(|(x, y)| format!("V{y:.1}H{x:.1}"));
    let gutter = gutter.unwrap_or_default();
    let path = format!("M{x:.1} {y:.1}{gutter}V{turn:.1}H{to:.1}V{lower:.1}");
    stroke(wire.link, &path) + &end(wire.link, wire.to)
}

/// The plate of a link, over the lines of all links.
fn plated(wire: &Wire) -> Option<String> {
    let (words, area) = plate(wire)?;
    let colour = colour(wire.link);
    let look = format!("rx=\"10\" fill=\"#ffffff\" stroke=\"{colour}\"");
    let style = style(true, colour) + " text-anchor=\"middle\"";
    let at = (area.middle(), area.y + 14.0);
    Some(rectangle(area, &look) + &text(words, at, SMALL, &style))
}

fn look(look: Look) -> &'static str {
    match look {
        Look::In => r##"rx="8" fill="#e6f4ec" stroke="#1b7f4b" stroke-width="2""##,
        Look::Out => {
            r##"rx="8" fill="#f3f4f6" stroke="#57606a" stroke-width="1.5" stroke-dasharray="3 3""##
        }
        Look::Rule => r##"fill="#ffffff" stroke="#8a8f98""##,
        Look::Muted => {
            r##"fill="#ffffff" stroke="#8a8f98" stroke-width="1.5" stroke-dasharray="2 4""##
        }
        Look::LeftOut => LEFT_OUT,
    }
}

fn card(Placed { card, area }: &Placed) -> String {
    let plain = if card.look == Look::Muted { PALE } else { DARK };
    let mut out = rectangle(*area, look(card.look));
    let mut y = area.y + PAD + 12.0;
    for line in &card.lines {
        let style = style(line.bold, line.stops.map_or(plain, colour));
        let x = area.x + PAD + if line.goes_on { INDENT } else { 0.0 };
        let taller = taller(&line.text);
        out += &text(&line.text, (x, y + taller / 2.0), SIZE, &style);
        y += LINE + taller;
    }
    out
}

/// What a word of the legend explains, before it.
fn sample(sample: Sample, note: &Note) -> String {
    let (x, y) = (note.area.x - SAMPLE, note.area.y + LINE / 2.0);
    match sample {
        Sample::Line(link) => stroke(link, &format!("M{x:.1} {y:.1}h34")),
        Sample::LeftOut => {
            let area = Area {
                x,
                y: y - 7.0,
                width: 34.0,
                height: 14.0,
            };
            rectangle(area, &LEFT_OUT.replace("rx=\"12\"", "rx=\"5\""))
        }
    }
}

pub fn written(picture: &Picture) -> String {
    let (w, h) = (picture.width.ceil(), picture.height.ceil());
    let mut out = format!(
        "<svg xmlns=\"http://www.w3.org/2000/svg\" width=\"{w}\" height=\"{h}\" viewBox=\"0 0 {w} {h}\" role=\"img\" \
         font-family=\"Verdana, DejaVu Sans, Arial, sans-serif\">\n<title>{}</title>\n\
         <rect width=\"{w}\" height=\"{h}\" rx=\"10\" fill=\"#ffffff\"/>\n",
        escaped(&picture.title)
    );
    let headline = picture.headline.iter();
    out.extend(headline.map(|note| noted(note, LARGE, DARK)));
    out.extend(picture.rows.iter().map(|note| noted(note, SMALL, PALE)));
    out.extend(picture.wires.iter().map(wire));
    out.extend(picture.wires.iter().filter_map(plated));
    out.extend(picture.cards.iter().map(card));
    let legend = picture.legend.iter();
    out.extend(legend.map(|(what, note)| sample(*what, note) + &noted(note, SMALL, PALE)));
    out + "</svg>\n"
}
