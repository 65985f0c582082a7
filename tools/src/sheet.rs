//! The sheet that a picture is drawn on: where slots lie, the marks, and the labels with the room
//! that they take, which no line of the background runs through.

use std::fmt::{Arguments, Write};

/// How high a slot of work is, and an arrow on a row.
pub const BOX: f64 = 18.0;
pub const ARROW: f64 = 30.0;
/// Half a cross, and half the bar at the end of a span.
const CROSS: f64 = 3.5;
const BAR: f64 = 4.0;
/// From a label's base line up and down to where nothing of it is.
const ABOVE: f64 = 11.0;
const BELOW: f64 = 4.0;
/// What a letter takes, rather too much than too little.
const LETTER: f64 = 7.0;
const SMALL_LETTER: f64 = 6.4;

pub fn width(text: &str) -> f64 {
    LETTER * text.chars().count() as f64
}

pub fn small_width(text: &str) -> f64 {
    SMALL_LETTER * text.chars().count() as f64
}

fn escaped(text: &str) -> String {
    let text = text.replace('&', "&amp;");
    text.replace('<', "&lt;").replace('>', "&gt;")
}

/// The room of a label.
#[derive(Clone, Copy, Debug)]
pub struct Room {
    pub left: f64,
    pub right: f64,
    pub top: f64,
    pub bottom: f64,
}

impl Room {
    /// Of a small label that starts here on its base line.
    pub fn of_small((x, y): (f64, f64), words: &str) -> Self {
        Room {
            left: x - 2.0,
            right: x + small_width(words) + 2.0,
            top: y - ABOVE,
            bottom: y + BELOW,
        }
    }
}

pub struct Sheet {
    pub slots: u64,
    pub left: f64,
    pub unit: f64,
    pub body: String,
}

impl Sheet {
    pub fn x(&self, slot: u64) -> f64 {
        self.left + self.unit * slot.min(self.slots) as f64
    }

    fn put(&mut self, element: Arguments) {
        // Writing to a string cannot fail.
        let _ = writeln!(self.body, "{element}");
    }

    pub fn line(&mut self, class: &str, from: (f64, f64), to: (f64, f64)) {
        let ((x1, y1), (x2, y2)) = (from, to);
        self.put(format_args!(
            r#"<line class="{class}" x1="{x1:.1}" y1="{y1:.1}" x2="{x2:.1}" y2="{y2:.1}"/>"#
        ));
    }

    /// A line of the background from top to base, with a gap at each label in its way.
    pub fn upright(&mut self, class: &str, x: f64, (top, base): (f64, f64), labels: &[Room]) {
        let mut crossed: Vec<&Room> = labels.iter().collect();
        crossed.retain(|room| room.left <= x && x <= room.right);
        crossed.sort_by(|a, b| a.top.total_cmp(&b.top));
        let mut from = top;
        for room in crossed {
            if room.top > from {
                self.line(class, (x, from), (x, room.top));
            }
            from = from.max(room.bottom);
        }
        if base > from {
            self.line(class, (x, from), (x, base));
        }
    }

    pub fn text(&mut self, class: &str, at: (f64, f64), words: &str) {
        let ((x, y), words) = (at, escaped(words));
        self.put(format_args!(
            r#"<text class="{class}" x="{x:.1}" y="{y:.1}">{words}</text>"#
        ));
    }

    /// A slot of work on the row whose base is given.
    pub fn worked(&mut self, class: &str, slot: u64, base: f64) {
        let gap = if self.unit >= 6.0 { 1.0 } else { 0.0 };
        let (x, y, wide) = (self.x(slot) + gap, base - BOX, self.unit - 2.0 * gap);
        self.put(format_args!(
            r#"<rect class="{class}" x="{x:.1}" y="{y:.1}" width="{wide:.1}" height="{BOX}" rx="2"/>"#
        ));
    }

    /// An arrow up from the base: a release or an arrival.
    pub fn up(&mut self, x: f64, base: f64, tall: f64) {
        let (top, head) = (base - tall, base - tall + 5.0);
        let (a, b) = (x - 3.0, x + 3.0);
        self.put(format_args!(
            r#"<path class="arrow" d="M{x:.1} {base:.1}V{top:.1}M{a:.1} {head:.1}L{x:.1} {top:.1}L{b:.1} {head:.1}"/>"#
        ));
    }

    /// An arrow down to the base: a deadline or a promise.
    pub fn down(&mut self, x: f64, base: f64, tall: f64) {
        let (top, head) = (base - tall, base - 5.0);
        let (a, b) = (x - 3.0, x + 3.0);
        self.put(format_args!(
            r#"<path class="arrow" d="M{x:.1} {top:.1}V{base:.1}M{a:.1} {head:.1}L{x:.1} {base:.1}L{b:.1} {head:.1}"/>"#
        ));
    }

    /// A refused arrival.
    pub fn cross(&mut self, x: f64, y: f64) {
        let (a, b, c, d) = (x - CROSS, x + CROSS, y - CROSS, y + CROSS);
        self.put(format_args!(
            r#"<path class="refused" d="M{a:.1} {c:.1}L{b:.1} {d:.1}M{a:.1} {d:.1}L{b:.1} {c:.1}"/>"#
        ));
    }

    /// An accepted arrival: a dot, and a line to its promise, with a bar there or, where the
    /// promise lies outside the picture, an arrow head.
    pub fn span(&mut self, colour: usize, (x, end): (f64, f64), y: f64, inside: bool) {
        self.put(format_args!(
            r#"<circle class="job{colour}" cx="{x:.1}" cy="{y:.1}" r="{CROSS}"/>"#
        ));
        let (a, b) = (y - BAR, y + BAR);
        let head = end - 5.0;
        let mark = if inside {
            format!("M{end:.1} {a:.1}V{b:.1}")
        } else {
            format!("M{head:.1} {a:.1}L{end:.1} {y:.1}L{head:.1} {b:.1}")
        };
        self.put(format_args!(
            r#"<path class="span span{colour}" d="M{x:.1} {y:.1}H{end:.1}{mark}"/>"#
        ));
    }

    /// The label and the base line of a row.
    pub fn row(&mut self, label: &str, base: f64) {
        let (from, to) = (self.x(0), self.x(self.slots));
        self.text("who", (from - 12.0, base - 5.0), label);
        self.line("base", (from, base), (to, base));
    }
}

#[cfg(test)]
mod tests {
    use super::*;

    fn upright(labels: &[Room]) -> String {
        let mut sheet = Sheet {
            slots: 1,
            left: 0.0,
            unit: 1.0,
            body: String::new(),
        };
        sheet.upright("grid", 5.0, (0.0, 100.0), labels);
        let ends = sheet.body.lines().map(|line| {
            let words: Vec<&str> = line.split('"').collect();
            assert_eq!((words[3], words[7]), ("5.0", "5.0"));
            format!("{}-{}", words[5], words[9])
        });
        ends.collect::<Vec<_>>().join(" ")
    }

    #[test]
    fn a_line_of_the_background_leaves_labels_out() {
        let room = |left, right, top, bottom| Room {
            left,
            right,
            top,
            bottom,
        };
        assert_eq!(upright(&[]), "0.0-100.0");
        assert_eq!(upright(&[room(6.0, 9.0, 10.0, 20.0)]), "0.0-100.0");
        assert_eq!(
            upright(&[room(0.0, 9.0, 10.0, 20.0)]),
            "0.0-10.0 20.0-100.0"
        );
        let two = [room(0.0, 9.0, 50.0, 60.0), room(5.0, 9.0, 10.0, 20.0)];
        assert_eq!(upright(&two), "0.0-10.0 20.0-50.0 60.0-100.0");
        let over = [room(0.0, 9.0, 10.0, 60.0), room(0.0, 9.0, 20.0, 30.0)];
        assert_eq!(upright(&over), "0.0-10.0 60.0-100.0");
        assert_eq!(upright(&[room(0.0, 9.0, -5.0, 200.0)]), "");
    }

    #[test]
    fn words_are_escaped() {
        assert_eq!(escaped("a<b>&c"), "a&lt;b&gt;&amp;c");
    }
}
