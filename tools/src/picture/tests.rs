//! The picture's marks, colours and words, and that no line runs through a label: the lines and
//! the room of each label are read back from the drawing.

use super::*;
use crate::{listing, text};

const TEXT: &str =
    "task 2 3 5 fan\ntask 2 8 10\narrival 1 2 a&b\narrival 3 1 2\narrival 99 1\nrun 10\n";
const LISTING: &str =
    "slot who\n0 P1\na 1 2 4\n1 P1\n2 S4\nr 3 1 14\n3 S4\n4 P2\n5 P1\n6 P1\n7 P2\n8 -\n9 -\n";

fn drawn(text: &str, told: &str) -> Result<String, String> {
    draw(&text::read(text).unwrap(), &listing::read(told).unwrap())
}

/// The value of an attribute of an element.
fn value<'a>(element: &'a str, name: &str) -> &'a str {
    let start = format!(" {name}=\"");
    let from = element.find(&start).unwrap() + start.len();
    element[from..].split('"').next().unwrap()
}

fn number(element: &str, name: &str) -> f64 {
    value(element, name).parse().unwrap()
}

/// A stretch of a line, from left to right or down.
type Stretch = (f64, f64, f64, f64);

fn stretch((x1, y1): (f64, f64), (x2, y2): (f64, f64)) -> Stretch {
    (x1.min(x2), y1.min(y2), x1.max(x2), y1.max(y2))
}

/// The stretches of a path of `M`, `L`, `H` and `V`.
fn stretches_of(path: &str) -> Vec<Stretch> {
    let mut all = Vec::new();
    let mut at = (0.0, 0.0);
    let mut words: Vec<String> = Vec::new();
    for c in path.chars() {
        if c.is_ascii_alphabetic() {
            words.push(String::new());
        }
        words.last_mut().unwrap().push(c);
    }
    for word in words {
        let (command, numbers) = word.split_at(1);
        let numbers: Vec<f64> = numbers.split(' ').map(|n| n.parse().unwrap()).collect();
        let to = match (command, &numbers[..]) {
            ("M" | "L", &[x, y]) => (x, y),
            ("H", &[x]) => (x, at.1),
            ("V", &[y]) => (at.0, y),
            _ => panic!("{word}"),
        };
        if command != "M" {
            all.push(stretch(at, to));
        }
        at = to;
    }
    all
}

/// Every stretch of a line and every side of a box.
fn lines(svg: &str) -> Vec<Stretch> {
    let mut all = Vec::new();
    for element in svg.lines() {
        if element.starts_with("<line") {
            let [x1, y1, x2, y2] = ["x1", "y1", "x2", "y2"].map(|n| number(element, n));
            all.push(stretch((x1, y1), (x2, y2)));
        } else if element.starts_with("<path") {
            all.extend(stretches_of(value(element, "d")));
        } else if element.starts_with("<rect") && value(element, "class") != "page" {
            let [x, y, w, h] = ["x", "y", "width", "height"].map(|n| number(element, n));
            all.push((x, y, x + w, y + h));
        }
    }
    all
}

/// What each label covers, and its words: a letter reaches some 9 up and 3 down.
fn labels(svg: &str) -> Vec<(Stretch, String)> {
    let mut all = Vec::new();
    for element in svg.lines().filter(|e| e.starts_with("<text")) {
        let words = element
            .split('>')
            .nth(1)
            .unwrap()
            .trim_end_matches("</text");
        let words = words.replace("&amp;", "&");
        let class = value(element, "class");
        let wide = match class {
            "who" => width(&words),
            _ => small_width(&words),
        };
        let (x, y) = (number(element, "x"), number(element, "y"));
        let left = match class {
            "axis" => x - wide / 2.0,
            _ if class.contains("who") => x - wide,
            _ => x,
        };
        all.push(((left, y - 9.0, left + wide, y + 3.0), words));
    }
    all
}

fn touch(a: Stretch, b: Stretch) -> bool {
    a.0 <= b.2 && b.0 <= a.2 && a.1 <= b.3 && b.1 <= a.3
}

/// A label that is crossed by a line or by another label, or does not lie on the page.
fn unreadable(svg: &str) -> Option<String> {
    let (lines, labels) = (lines(svg), labels(svg));
    let page = svg.lines().next().unwrap();
    let (wide, high) = (number(page, "width"), number(page, "height"));
    let bad = labels.iter().enumerate().find(|(index, (room, _))| {
        let mut others = labels[..*index].iter().map(|(other, _)| other);
        let inside = room.0 >= 0.0 && room.2 <= wide && room.1 >= 0.0 && room.3 <= high;
        !inside || others.any(|&o| touch(*room, o)) || lines.iter().any(|&l| touch(*room, l))
    });
    bad.map(|(_, (room, words))| format!("'{words}' at {room:?}"))
}

fn assert_readable(svg: &str) {
    assert_eq!(unreadable(svg), None, "{svg}");
}

#[test]
fn a_box_for_each_slot_of_work() {
    let svg = drawn(TEXT, LISTING).unwrap();
    assert_eq!(svg.matches(r#"<rect class="task""#).count(), 6);
    assert_eq!(svg.matches(r#"<rect class="job0""#).count(), 2);
    assert!(svg.contains(">fan P1</text>") && svg.contains(">P2</text>"));
    assert!(svg.contains(">a&amp;b 2 \u{2192} 4</text>"));
    assert!(svg.contains(">job 1 by 2: refused 14 (too late)</text>"));
}

#[test]
fn boxes_stand_where_the_slots_are() {
    let svg = drawn(TEXT, LISTING).unwrap();
    let boxes = |class: &str| -> Vec<f64> {
        let start = format!("<rect class=\"{class}\"");
        let found = svg.lines().filter(|e| e.starts_with(&start));
        found.map(|e| number(e, "x")).collect()
    };
    // The label 'fan P1' is wider than the least, and a slot takes 24.
    let x = |slot: f64| MARGIN + width("fan P1") + 12.0 + 24.0 * slot + 1.0;
    assert_eq!(boxes("task"), [0.0, 1.0, 5.0, 6.0, 4.0, 7.0].map(x));
    assert_eq!(boxes("job0"), [2.0, 3.0].map(x));
}

#[test]
fn marks_releases_deadlines_and_jobs() {
    let svg = drawn(TEXT, LISTING).unwrap();
    // Releases 0, 5 and 0; deadlines 3, 8 and 8; a job's arrival and promise; the legend's two.
    assert_eq!(svg.matches(r#"class="arrow""#).count(), 3 + 3 + 2 + 2);
    // One refused and the legend's; one accepted and the legend's.
    assert_eq!(svg.matches(r#"class="refused""#).count(), 2);
    assert_eq!(svg.matches(r#"class="span span"#).count(), 2);
    // The window's start at 10, above and below the refusal's label, and the legend's.
    assert_eq!(svg.matches(r#"class="window""#).count(), 3);
}

#[test]
fn the_legend_explains_every_mark_and_word() {
    let svg = drawn(TEXT, LISTING).unwrap();
    for words in [
        "release, arrival",
        "deadline, promise",
        "window's start",
        "job: work \u{2192} promise",
        "refused: number (reason)",
        "by: latest finish asked",
    ] {
        assert!(svg.contains(&format!(">{words}</text>")), "{words}");
    }
}

/// A table that leaves slots free, and as many jobs as asked, each with a promise or a refusal.
fn crowded(jobs: &[(u32, Result<u32, u32>)], slots: u32) -> String {
    let mut text = String::from("task 1 7 7 keyboard\n");
    let mut told = String::from("slot who\n");
    for (slot, outcome) in jobs {
        text += &format!("arrival {slot} 3 60 long-name{slot}\n");
        told += &match outcome {
            Ok(promise) => format!("a {slot} 3 {promise}\n"),
            Err(number) => format!("r {slot} 3 {number}\n"),
        };
    }
    text += &format!("run {slots}\n");
    for slot in 0..slots {
        told += &format!("{slot} -\n");
    }
    drawn(&text, &told).unwrap()
}

/// The colours of the accepted, in their order; the last is the legend's.
fn colours(svg: &str) -> Vec<&str> {
    let found = svg.lines().filter(|e| e.starts_with("<circle"));
    let mut found: Vec<&str> = found.map(|e| value(e, "class")).collect();
    found.pop();
    found
}

#[test]
fn jobs_that_wait_together_differ_in_colour() {
    // Eight wait at once; the ninth comes when the first has left.
    let mut jobs: Vec<_> = (0..8).map(|n| (n, Ok(10 + 2 * n))).collect();
    jobs.push((9, Err(11)));
    jobs.push((10, Ok(40)));
    let svg = crowded(&jobs, 50);
    let colours = colours(&svg);
    assert_eq!(colours.len(), 9);
    for wait in colours.windows(8) {
        let different: std::collections::BTreeSet<_> = wait.iter().collect();
        assert_eq!(different.len(), 8, "{wait:?}");
    }
    for colour in 0..JOB_COLOURS {
        assert_eq!(STYLE.matches(&format!(".job{colour} ")).count(), 2);
        assert_eq!(STYLE.matches(&format!(".span{colour} ")).count(), 2);
    }
    let fills = STYLE.split("@media").next().unwrap().lines();
    let fills = fills.filter(|l| l.contains(".job") || l.contains(".task"));
    let fills = fills.map(|l| l.split("fill: ").nth(1).unwrap().split(';').next());
    let fills: std::collections::BTreeSet<_> = fills.collect();
    assert_eq!(fills.len(), JOB_COLOURS + 1, "a colour stands twice");
}

#[test]
fn no_line_runs_through_a_label() {
    assert_readable(&drawn(TEXT, LISTING).unwrap());
    let mut seed: u32 = 1;
    let mut draw = |below: u32| {
        seed = seed.wrapping_mul(1_664_525).wrapping_add(1_013_904_223);
        (seed >> 8) % below
    };
    for _ in 0..300 {
        let slots = 1 + draw(120);
        let mut asked: Vec<u32> = (0..draw(12)).map(|_| draw(slots)).collect();
        asked.sort_unstable();
        let job = |slot| match draw(3) {
            0 => (slot, Err(1 + draw(21))),
            _ => (slot, Ok(slot + 1 + draw(60))),
        };
        let jobs: Vec<_> = asked.into_iter().map(job).collect();
        assert_readable(&crowded(&jobs, slots));
    }
}

#[test]
fn a_line_through_a_label_would_be_noticed() {
    let svg = drawn(TEXT, LISTING).unwrap();
    for (room, words) in labels(&svg) {
        let (x, y) = (room.0 + 1.0, room.1 - 5.0);
        let line = format!(
            "<line class=\"grid\" x1=\"{x}\" y1=\"{y}\" x2=\"{x}\" y2=\"{}\"/>",
            room.3
        );
        let told = unreadable(&svg.replace("</svg>", &format!("{line}\n</svg>")));
        assert!(told.is_some(), "{words}");
    }
}

#[test]
fn the_drawn_example_is_readable() {
    assert_readable(include_str!("../../../docs/schedule.svg"));
}

#[test]
fn a_promise_outside_the_picture_has_an_arrow_head() {
    let inside = crowded(&[(1, Ok(8))], 9);
    let outside = crowded(&[(1, Ok(80))], 9);
    let span = |svg: &str| -> String {
        let mut spans = svg.lines().filter(|e| e.contains("class=\"span "));
        value(spans.next().unwrap(), "d").to_string()
    };
    assert_eq!(stretches_of(&span(&inside)).len(), 2);
    assert_eq!(stretches_of(&span(&outside)).len(), 3);
}

#[test]
fn another_listing_is_refused() {
    assert!(drawn(TEXT, "slot who\n0 P1\n").is_err());
    let other = LISTING.replace("4 P2", "4 P3");
    assert!(drawn(TEXT, &other).unwrap_err().contains("tasks"));
    let other = LISTING.replace("a 1 2 4", "a 1 3 4");
    assert!(drawn(TEXT, &other).unwrap_err().contains("arrivals"));
}

#[test]
fn nothing_run_is_drawn() {
    assert_readable(&drawn("task 1 1 1\nrun 0\n", "slot who\n").unwrap());
}

#[test]
fn the_axis_is_readable() {
    assert_eq!([24.0, 9.6, 1.0].map(axis_step), [2, 5, 50]);
}
