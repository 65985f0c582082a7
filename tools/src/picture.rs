//! The timeline of a run as SVG: a row a task and one for the jobs, a box for each slot of work,
//! arrows up for releases and arrivals and down for deadlines and promises; below them each
//! arrival with its promise or refusal, the axis of slots, and what the marks mean. Colours follow
//! the reader's scheme.

use crate::listing::{Asked, Listing, Outcome, Who};
use crate::sheet::{small_width, width, Room, Sheet, ARROW};
use crate::text::{Task, Text};
use crate::{lanes, refusals};

const MARGIN: f64 = 18.0;
const ROW: f64 = 42.0;
const LANE: f64 = 28.0;
/// From an arrival's mark to its label, to the right and up.
const ASIDE: f64 = 7.0;
const UP: f64 = 9.0;
/// The least room for a line of the legend, and the height of one.
const LEGEND: f64 = 480.0;
const LEGEND_LINE: f64 = 24.0;
/// As many as jobs can wait. They leave in the order in which they came, so those that wait
/// together follow each other and have different colours.
const JOB_COLOURS: usize = 8;

const STYLE: &str = "\
  text { font: 12px system-ui, 'DejaVu Sans', sans-serif; fill: #24292f; }
  .small { font-size: 11px; fill: #57606a; }
  .who { text-anchor: end; }
  .axis { text-anchor: middle; font-size: 11px; fill: #57606a; }
  .page { fill: #ffffff; }
  .grid { stroke: #eaeef2; }
  .base { stroke: #8c959f; }
  .window { stroke: #8c959f; stroke-dasharray: 3 3; }
  .arrow { stroke: #24292f; stroke-width: 1.3; fill: none; }
  .task { fill: #4c82b8; }
  .job0 { fill: #d9772b; } .span0 { stroke: #d9772b; }
  .job1 { fill: #8a63b8; } .span1 { stroke: #8a63b8; }
  .job2 { fill: #2f9a86; } .span2 { stroke: #2f9a86; }
  .job3 { fill: #c2517f; } .span3 { stroke: #c2517f; }
  .job4 { fill: #a08a1f; } .span4 { stroke: #a08a1f; }
  .job5 { fill: #7a4a2a; } .span5 { stroke: #7a4a2a; }
  .job6 { fill: #5f9e3a; } .span6 { stroke: #5f9e3a; }
  .job7 { fill: #5a6a7a; } .span7 { stroke: #5a6a7a; }
  .span { stroke-width: 2; fill: none; }
  .refused { stroke: #c0392b; stroke-width: 1.6; fill: none; }
  @media (prefers-color-scheme: dark) {
    text { fill: #e6edf3; }
    .small, .axis { fill: #9da7b3; }
    .page { fill: #0d1117; }
    .grid { stroke: #1f2630; }
    .base, .window { stroke: #6e7681; }
    .arrow { stroke: #e6edf3; }
    .task { fill: #6ca6de; }
    .job0 { fill: #f0924a; } .span0 { stroke: #f0924a; }
    .job1 { fill: #b08ae0; } .span1 { stroke: #b08ae0; }
    .job2 { fill: #46bfa8; } .span2 { stroke: #46bfa8; }
    .job3 { fill: #e879a6; } .span3 { stroke: #e879a6; }
    .job4 { fill: #d0b63c; } .span4 { stroke: #d0b63c; }
    .job5 { fill: #b98a63; } .span5 { stroke: #b98a63; }
    .job6 { fill: #8acb5e; } .span6 { stroke: #8acb5e; }
    .job7 { fill: #9fb0c2; } .span7 { stroke: #9fb0c2; }
    .refused { stroke: #ff7b6b; }
  }
";

fn greatest_divisor(a: u64, b: u64) -> u64 {
    if b == 0 {
        a
    } else {
        greatest_divisor(b, a % b)
    }
}

fn window(tasks: &[Task]) -> u64 {
    let periods = tasks.iter().map(|task| u64::from(task.period));
    periods.fold(1, |w, p| (w / greatest_divisor(w, p)).saturating_mul(p))
}

fn task_label(number: usize, task: &Task) -> String {
    match &task.name {
        Some(name) => format!("{name} P{number}"),
        None => format!("P{number}"),
    }
}

/// An accepted arrival; its colour goes by its turn among the accepted.
struct Job {
    promise: u64,
    colour: usize,
}

/// A mark that the legend explains.
#[derive(Clone, Copy)]
enum Mark {
    Up,
    Down,
    Window,
    Span,
    Cross,
    None,
}

/// What the picture says of an arrival.
struct Note<'a> {
    asked: &'a Asked,
    words: String,
    job: Option<Job>,
}

impl Note<'_> {
    /// Where its words start, if its mark is at this height.
    fn words_at(&self, sheet: &Sheet, y: f64) -> (f64, f64) {
        (sheet.x(self.asked.slot) + ASIDE, y - UP)
    }
}

fn notes<'a>(text: &Text, listing: &'a Listing) -> Vec<Note<'a>> {
    let mut accepted = 0;
    let mut notes = Vec::new();
    for (asked, arrival) in listing.asked.iter().zip(&text.arrivals) {
        let name = arrival.name.as_deref().unwrap_or("job");
        let wish = arrival.latest.map(|latest| format!(" by {latest}"));
        let (work, wish) = (asked.work, wish.unwrap_or_default());
        let (words, job) = match asked.outcome {
            Outcome::Refused(number) => {
                let told = refusals::told(number);
                (format!("{name} {work}{wish}: refused {told}"), None)
            }
            Outcome::Promise(promise) => {
                let colour = accepted % JOB_COLOURS;
                accepted += 1;
                let job = Job { promise, colour };
                (format!("{name} {work}{wish} \u{2192} {promise}"), Some(job))
            }
        };
        notes.push(Note { asked, words, job });
    }
    notes
}

/// Says where the listing is not one of this text.
fn matches(text: &Text, listing: &Listing) -> Result<(), String> {
    let differs = |what: &str| Err(format!("the listing is not of this text: {what} differ"));
    if listing.slots.len() != text.slots as usize {
        return differs("the slots run");
    }
    let known = |who: &Who| !matches!(who, Who::Task(number) if *number > text.tasks.len());
    if !listing.slots.iter().all(known) || text.tasks.iter().any(|task| task.period == 0) {
        return differs("the tasks");
    }
    let shown = text.arrivals.iter().filter(|a| a.slot < text.slots);
    let shown = shown.map(|a| (u64::from(a.slot), u64::from(a.work)));
    if !shown.eq(listing.asked.iter().map(|a| (a.slot, a.work))) {
        return differs("the arrivals");
    }
    Ok(())
}

/// The step between numbers on the axis: 1, 2 or 5 times a power of ten, wide enough to read.
fn axis_step(unit: f64) -> u64 {
    let steps = (0..).flat_map(|power| [1, 2, 5].map(|n| n * 10u64.pow(power)));
    let mut wide_enough = steps.skip_while(|&step| step as f64 * unit < 26.0);
    wide_enough.next().unwrap_or(1)
}

fn draw_task(sheet: &mut Sheet, number: usize, task: &Task, listing: &Listing, base: f64) {
    sheet.row(&task_label(number, task), base);
    for (slot, who) in (0..).zip(&listing.slots) {
        if *who == Who::Task(number) {
            sheet.worked("task", slot, base);
        }
    }
    for release in (0..=sheet.slots).step_by(task.period.into()) {
        if release < sheet.slots {
            sheet.up(sheet.x(release), base, ARROW);
        }
        let deadline = release + u64::from(task.deadline);
        if deadline <= sheet.slots {
            sheet.down(sheet.x(deadline), base, ARROW);
        }
    }
}

fn draw_jobs(sheet: &mut Sheet, notes: &[Note], listing: &Listing, base: f64) {
    sheet.row("jobs", base);
    let jobs: Vec<&Job> = notes.iter().filter_map(|note| note.job.as_ref()).collect();
    for (slot, who) in (0..).zip(&listing.slots) {
        let Who::Job(promise) = who else { continue };
        let colour = jobs.iter().find(|job| job.promise == *promise);
        let class = format!("job{}", colour.map_or(0, |job| job.colour));
        sheet.worked(&class, slot, base);
    }
    for note in notes {
        if let Some(job) = &note.job {
            sheet.up(sheet.x(note.asked.slot), base, ARROW);
            if job.promise <= sheet.slots {
                sheet.down(sheet.x(job.promise), base, ARROW);
            }
        }
    }
}

/// One arrival in its lane: a line from the arrival to the promise, or a cross.
fn draw_note(sheet: &mut Sheet, note: &Note, y: f64) {
    let x = sheet.x(note.asked.slot);
    sheet.text("small", note.words_at(sheet, y), &note.words);
    match &note.job {
        None => sheet.cross(x, y),
        Some(job) => {
            let ends = (x, sheet.x(job.promise));
            sheet.span(job.colour, ends, y, job.promise <= sheet.slots);
        }
    }
}

fn note_lanes(sheet: &Sheet, notes: &[Note]) -> Vec<usize> {
    let stretch = |note: &Note| {
        let start = sheet.x(note.asked.slot);
        let end = note.job.as_ref().map_or(start, |job| sheet.x(job.promise));
        let words_end = start + ASIDE + small_width(&note.words);
        (start - 5.0, end.max(words_end) + 8.0)
    };
    let stretches: Vec<(f64, f64)> = notes.iter().map(stretch).collect();
    lanes::assign(&stretches)
}

/// The lines that slots are read off by, each with its number, and the starts of windows.
fn draw_axis(sheet: &mut Sheet, window: u64, reach: (f64, f64), labels: &[Room]) {
    let base = reach.1;
    for slot in (0..=sheet.slots).step_by(axis_step(sheet.unit) as usize) {
        let x = sheet.x(slot);
        if slot == 0 || !slot.is_multiple_of(window) {
            sheet.upright("grid", x, reach, labels);
        }
        sheet.text("axis", (x, base + 16.0), &slot.to_string());
    }
    for start in (0..=sheet.slots).step_by(window as usize).skip(1) {
        sheet.upright("window", sheet.x(start), reach, labels);
    }
    sheet.text("small who", (sheet.left - 12.0, base + 16.0), "slot");
}

/// What the marks and words mean, in as few lines as fit; gives the right end and the last base.
fn draw_legend(sheet: &mut Sheet, first: f64) -> (f64, f64) {
    let (mut x, mut base, mut widest) = (sheet.left, first, 0.0_f64);
    let limit = sheet.x(sheet.slots).max(sheet.left + LEGEND);
    let tall = ARROW / 2.0;
    for (mark, words) in [
        (Mark::Up, "release, arrival"),
        (Mark::Down, "deadline, promise"),
        (Mark::Window, "window's start"),
        (Mark::Span, "job: work \u{2192} promise"),
        (Mark::Cross, "refused: number (reason)"),
        (Mark::None, "by: latest finish asked"),
    ] {
        let aside = match mark {
            Mark::Span => 30.0,
            Mark::None => 0.0,
            Mark::Cross => 10.0,
            _ => 8.0,
        };
        if x + aside + small_width(words) > limit {
            (x, base) = (sheet.left, base + LEGEND_LINE);
        }
        let middle = base - 4.0;
        match mark {
            Mark::Up => sheet.up(x, base, tall),
            Mark::Down => sheet.down(x, base, tall),
            Mark::Window => sheet.line("window", (x, base - tall), (x, base)),
            Mark::Span => sheet.span(0, (x, x + 22.0), middle, true),
            Mark::Cross => sheet.cross(x, middle),
            Mark::None => {}
        }
        sheet.text("small", (x + aside, base), words);
        x += aside + small_width(words);
        widest = widest.max(x);
        x += 20.0;
    }
    (widest, base)
}

/// The picture of a run, or why the listing is none of this text.
pub fn draw(text: &Text, listing: &Listing) -> Result<String, String> {
    matches(text, listing)?;
    let notes = notes(text, listing);
    let labels = (1..).zip(&text.tasks).map(|(n, task)| task_label(n, task));
    let widest = labels.map(|label| width(&label)).fold(40.0, f64::max);
    let slots = u64::from(text.slots);
    let mut sheet = Sheet {
        slots,
        left: MARGIN + widest + 12.0,
        unit: (960.0 / slots.max(1) as f64).clamp(1.0, 24.0),
        body: String::new(),
    };
    let lanes = note_lanes(&sheet, &notes);
    let jobs = MARGIN + ROW * (text.tasks.len() + 1) as f64;
    let lanes_used = lanes.iter().max().map_or(0, |lane| lane + 1);
    let base = jobs + LANE * lanes_used as f64 + 14.0;

    let height = |lane: &usize| jobs + LANE * (lane + 1) as f64;
    let rooms: Vec<Room> = (notes.iter().zip(&lanes))
        .map(|(note, lane)| Room::of_small(note.words_at(&sheet, height(lane)), &note.words))
        .collect();

    draw_axis(&mut sheet, window(&text.tasks), (MARGIN, base), &rooms);
    for (row, task) in text.tasks.iter().enumerate() {
        let base = MARGIN + ROW * (row + 1) as f64;
        draw_task(&mut sheet, row + 1, task, listing, base);
    }
    draw_jobs(&mut sheet, &notes, listing, jobs);
    for (note, lane) in notes.iter().zip(&lanes) {
        draw_note(&mut sheet, note, height(lane));
    }
    let (legend_right, legend_base) = draw_legend(&mut sheet, base + 44.0);

    let ends = rooms.iter().map(|room| room.right).chain([legend_right]);
    let wide = ends.fold(sheet.x(slots), f64::max) + MARGIN;
    let high = legend_base + MARGIN;
    let body = sheet.body;
    Ok(format!(
        "<svg xmlns=\"http://www.w3.org/2000/svg\" viewBox=\"0 0 {wide:.0} {high:.0}\" \
         width=\"{wide:.0}\" height=\"{high:.0}\">\n\
         <title>Who has each slot</title>\n<style>\n{STYLE}</style>\n\
         <rect class=\"page\" width=\"100%\" height=\"100%\" rx=\"6\"/>\n{body}</svg>\n"
    ))
}

#[cfg(test)]
mod tests;
