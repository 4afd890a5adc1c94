//! Text is never wider than it is measured, is parted where a reader would, and is whole when it is put together.

use crate::measure::{clusters, tall, width};
use crate::shown::{figures, shown};
use crate::wrap::{wrapped, Room};

/// Letters, and how many times their size they are wide in a font that has them: the widest of those measured, but for
/// `:`, `(` and `%` what is known of Verdana, and for the emoji what is known of coloured fonts.
#[test]
fn no_letter_is_wider_than_it_is_measured() {
    for (letters, wide) in [
        ("W", 0.989),
        ("m", 0.974),
        ("i", 0.278),
        (":", 0.454),
        ("(", 0.454),
        ("|", 0.551),
        ("%", 1.076),
        ("\u{E9}", 0.615),
        ("\u{1C4}", 1.421),
        ("\u{428}", 1.069),
        ("\u{5E9}", 0.73),
        ("\u{604}", 2.79),
        ("\u{635}", 1.31),
        ("\u{905}", 0.76),
        ("\u{B94}", 2.24),
        ("\u{BCC}", 2.73),
        ("\u{D10}", 2.05),
        ("\u{102A}", 2.49),
        ("\u{1788}", 1.35),
        ("\u{17D8}", 2.54),
        ("\u{2E3B}", 2.84),
        ("\u{4E2D}", 1.0),
        ("\u{AC00}", 0.97),
        ("\u{FDFD}", 7.88),
        ("\u{12219}", 4.03),
        ("\u{1242B}", 4.64),
        ("\u{1F600}", 1.37),
    ] {
        let measured = width(letters, 1.0, false);
        assert!(measured >= wide, "{letters}: {measured}");
        assert!(measured <= 2.0 * wide + 0.1, "{letters}: {measured}");
    }
}

#[test]
fn bold_letters_and_larger_ones_are_wider() {
    assert!(width("%", 1.0, true) >= 1.272);
    assert!(width("(W)", 1.0, true) >= 2.0 * 0.5435 + 1.128);
    assert_eq!(width("abc", 28.0, false), 2.0 * width("abc", 14.0, false));
}

#[test]
fn marks_take_no_room_on_a_letter() {
    assert_eq!(width("e\u{301}", 1.0, false), width("e", 1.0, false));
    let khmer = width("\u{1780}", 1.0, false);
    assert_eq!(width("\u{1780}\u{17B7}", 1.0, false), khmer);
    let ka = width("\u{915}", 1.0, false);
    assert!((0.5..0.6).contains(&(width("\u{915}\u{947}", 1.0, false) - ka)));
    // Without a letter the mark stands on a circle of dots, and a second one may.
    assert!(width("\u{947}", 1.0, false) > 0.7);
    assert!(width("\u{915}\u{947}\u{947}", 1.0, false) > ka + 0.7);
    assert!(width("\u{B70}\u{B44}", 1.0, false) > 1.5);
}

#[test]
fn what_belongs_together_is_one_part() {
    for (word, parts) in [
        ("abc", vec!["a", "b", "c"]),
        ("e\u{301}a", vec!["e\u{301}", "a"]),
        (
            "\u{915}\u{94D}\u{937}\u{93F}x",
            vec!["\u{915}\u{94D}\u{937}\u{93F}", "x"],
        ),
        (
            "\u{1F469}\u{200D}\u{1F467}\u{1F44D}\u{1F3FD}",
            vec!["\u{1F469}\u{200D}\u{1F467}", "\u{1F44D}\u{1F3FD}"],
        ),
        (
            "\u{1F1EA}\u{1F1FA}\u{1F1FA}\u{1F1F3}\u{1F1EA}",
            vec!["\u{1F1EA}\u{1F1FA}", "\u{1F1FA}\u{1F1F3}", "\u{1F1EA}"],
        ),
        (
            "\u{1112}\u{1161}\u{11AB}\u{AE00}",
            vec!["\u{1112}\u{1161}\u{11AB}", "\u{AE00}"],
        ),
        (
            "\u{4E2D}\u{3002}\u{6587}",
            vec!["\u{4E2D}\u{3002}", "\u{6587}"],
        ),
        ("\u{301}a", vec!["\u{301}", "a"]),
        ("", vec![]),
    ] {
        assert_eq!(clusters(word), parts, "{word}");
    }
}

fn room(limit: f64) -> Room {
    Room {
        size: 14.0,
        bold: true,
        first: limit,
        others: limit - 14.0,
    }
}

#[test]
fn lines_end_at_blanks_where_they_can() {
    let lines = wrapped("one two three four five six", room(120.0));
    assert_eq!(lines, ["one two", "three four", "five six"]);
    let lines = wrapped("not /srv/archive/2026_deposits", room(150.0));
    assert_eq!(lines, ["not /srv/", "archive/2026_", "deposits"]);
    assert_eq!(wrapped("abcabcabc", room(50.0)), ["abca", "bca", "bc"]);
    assert_eq!(wrapped("", room(50.0)), [""]);
}

/// Whatever the text, each line fits, and nothing is lost but blanks at the end of a line.
#[test]
fn every_line_fits_and_no_letter_is_lost() {
    let long = "W".repeat(300);
    let marks = "a".to_string() + &"\u{301}".repeat(500);
    let signs = "\u{947}".repeat(300);
    for text in [
        "the rule in slot 255 asks for",
        "a  b   c    d     e      f       g",
        " starts with a blank",
        "\u{627}\u{644}\u{645}\u{62C}\u{644}\u{62F} \u{643}\u{627}\u{645}\u{644}",
        "\u{FDFD}\u{FDFD}\u{FDFD}",
        &long,
        &marks,
        &signs,
    ] {
        for limit in [216.0, 280.0, 360.0] {
            let room = room(limit);
            let lines = wrapped(text, room);
            let widths = lines.iter().map(|line| width(line, room.size, room.bold));
            let limits = [room.first]
                .into_iter()
                .chain([room.others].into_iter().cycle());
            assert!(
                widths.zip(limits).all(|(wide, most)| wide <= most),
                "{text}"
            );
            assert_eq!(lines.concat().replace(' ', ""), text.replace(' ', ""));
        }
    }
}

#[test]
fn a_name_holds_nothing_that_turns_or_breaks_the_words_behind_it() {
    assert_eq!(shown("plain <&>\"'"), "plain <&>\"'");
    assert_eq!(shown("a\u{0}b\tc\u{7F}\u{85}d"), "a b c  d");
    assert_eq!(shown("a\u{202E}b\u{2066}c\u{2069}"), "abc");
    assert_eq!(shown("a\u{2028}b\u{FFFE}\u{FFFF}"), "a b\u{FFFD}\u{FFFD}");
}

#[test]
fn of_a_very_long_name_it_is_told_how_much_is_left_out() {
    let name = "x".repeat(1000);
    let told = shown(&name);
    let kept = told.matches('x').count();
    assert!(told.contains(&format!(" ... ({} letters left out) ... ", 1000 - kept)));
    assert!(told.starts_with("xxx") && told.ends_with("xxx") && kept > 100);
    let most = "x".repeat(240);
    assert_eq!(shown(&most), most);
    let wide = shown(&"\u{FDFD}".repeat(50));
    assert!(wide.contains("letters left out"), "{wide}");
    assert!(width(&wide, 1.0, false) <= 160.0);
}

#[test]
fn large_numbers_have_commas() {
    let numbers = [0, 999, 1_000, 54_996, 331_190, 1_000_000];
    let told = ["0", "999", "1,000", "54,996", "331,190", "1,000,000"];
    assert_eq!(numbers.map(figures), told);
}

/// More would reach far into the lines above and below, also with something unseen between them.
#[test]
fn marks_that_pile_up_are_four_at_most() {
    let marks = |count| format!("e{}f", "\u{301}".repeat(count));
    assert_eq!(shown(&marks(4)), marks(4));
    assert_eq!(shown(&marks(8)), marks(4));
    for pile in [
        "\u{301}",
        "\u{2DE0}",
        "\u{1E130}",
        "\u{301}\u{FE0F}",
        "\u{301}\u{200D}",
        "\u{8E4}",
    ] {
        let kept = shown(&format!("e{}", pile.repeat(40)));
        let first = pile.chars().next().expect("a mark");
        assert_eq!(kept.matches(first).count(), 4, "{kept}");
    }
    assert!(tall(&marks(2)) && tall("e\u{301}\u{200D}\u{301}") && !tall(&marks(1)));
}

/// Vietnamese and Greek taken apart, Hebrew with vowels and accents, Arabic, Burmese, Tibetan, Hindi, Thai.
#[test]
fn no_usual_name_loses_a_mark() {
    for name in [
        "o\u{302}\u{323}i e\u{302}\u{301}",
        "\u{3B1}\u{304}\u{314}\u{301}\u{345}",
        "\u{5E9}\u{5B4}\u{5BC}\u{5BD}\u{5C1}\u{5D9}",
        "\u{5DC}\u{5B8}\u{591}\u{34F}\u{5B4}\u{5DD}",
        "\u{645}\u{651}\u{64E}\u{670}",
        "\u{101C}\u{103B}\u{103E}\u{102D}\u{102F}\u{1037}\u{101D}\u{103E}\u{1000}\u{103A}",
        "\u{F40}\u{FB5}\u{FA8}\u{F71}\u{F72}",
        "\u{F56}\u{FB7}\u{FB2}\u{F71}\u{F74}\u{F83}",
        "\u{915}\u{93C}\u{941}\u{902}\u{951}",
        "\u{E19}\u{E49}\u{E33}",
    ] {
        assert_eq!(shown(name), name);
    }
}

#[test]
fn lines_of_tall_scripts_are_known() {
    assert!(tall("\u{F66}\u{F90}") && tall("x \u{1000}") && tall("\u{1242B}"));
    assert!(!tall("W\u{4E2D}\u{5E9}\u{628}\u{AC00}"));
}
