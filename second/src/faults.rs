//! Named faults. A comparison that is any good has to notice each of them; without a name the
//! program is sound. What a fault does is here, as far as it is more than a comparison; the other
//! modules ask at the spot where it bites.

use std::collections::VecDeque;

#[derive(Clone, Copy, Debug, PartialEq, Eq)]
pub enum Fault {
    None,
    /// A wrong length is told before an unknown tag.
    Order,
    /// A cut body is told before an unknown tag and a wrong length.
    CutFirst,
    /// The high byte of a length is not looked at.
    LengthHigh,
    /// Slots of arrivals may fall.
    SlotsFall,
    /// Bytes after tag 3 are not looked at.
    AfterEnd,
    /// A seventeenth task is told before wrong order.
    SeventeenthFirst,
    /// 4,097 bytes are not too long.
    LongInput,
    /// 100,001 slots are not too long.
    LongRun,
    /// Of several tasks that break their limits the last is told.
    LastBad,
    /// The window is the product of the periods.
    Window,
    /// 1,025 places are not too many.
    ManyPlaces,
    /// Of several times with too much work the last is told.
    LastOverload,
    /// Work released at a window's start comes in a slot late.
    ReleaseLate,
    /// Work released at a window's start never comes in.
    ReleaseLost,
    /// Of two tasks with the same deadline the highest number runs.
    TieTask,
    /// When the oldest job finishes the next leaves with it.
    JobLost,
    /// When the oldest job finishes the newest takes its place, and the rest do not move up.
    MoveUp,
    /// A slot given to a job is also counted as idle.
    Tally,
    /// The tallies live on past a window's start.
    TallyKeep,
    /// A deadline equal to a place is counted as above it.
    DeadlineEqual,
    /// The moving entry of the place that stands for now is copied from the static vector.
    CopyD,
    /// The promise is one slot late.
    PromiseLate,
    /// Of the whole windows that a promise skips one is forgotten.
    WindowSkip,
    /// A promise equal to the latest finish is refused.
    LatestEqual,
    /// Only seven jobs may wait.
    SevenJobs,
}

/// How many of the names, from the first, the boot call's answer shows.
pub const AT_BOOT: usize = 12;

pub const NAMES: [(&str, Fault); 25] = [
    ("order", Fault::Order),
    ("cut-first", Fault::CutFirst),
    ("length-high", Fault::LengthHigh),
    ("slots-fall", Fault::SlotsFall),
    ("after-end", Fault::AfterEnd),
    ("seventeenth-first", Fault::SeventeenthFirst),
    ("long-input", Fault::LongInput),
    ("long-run", Fault::LongRun),
    ("last-bad", Fault::LastBad),
    ("window", Fault::Window),
    ("many-places", Fault::ManyPlaces),
    ("last-overload", Fault::LastOverload),
    ("release-late", Fault::ReleaseLate),
    ("release-lost", Fault::ReleaseLost),
    ("tie-task", Fault::TieTask),
    ("job-lost", Fault::JobLost),
    ("move-up", Fault::MoveUp),
    ("tally", Fault::Tally),
    ("tally-keep", Fault::TallyKeep),
    ("deadline-equal", Fault::DeadlineEqual),
    ("copy-d", Fault::CopyD),
    ("promise-late", Fault::PromiseLate),
    ("window-skip", Fault::WindowSkip),
    ("latest-equal", Fault::LatestEqual),
    ("seven-jobs", Fault::SevenJobs),
];

impl Fault {
    pub fn named(name: &str) -> Option<Fault> {
        NAMES.iter().find(|(n, _)| *n == name).map(|(_, f)| *f)
    }

    /// A limit, and one more with the fault that lets it pass.
    pub fn limit(self, fault: Fault, most: usize) -> usize {
        most + usize::from(self == fault)
    }

    /// The first, or with the fault that tells the last, the last.
    pub fn first<T>(self, fault: Fault, mut all: impl Iterator<Item = T>) -> Option<T> {
        if self == fault {
            all.last()
        } else {
            all.next()
        }
    }

    pub fn promise(self, earliest_end: u64) -> u64 {
        earliest_end + u64::from(self == Fault::PromiseLate)
    }

    /// The whole windows that a promise skips.
    pub fn skipped(self, windows: u64) -> u64 {
        windows.saturating_sub(u64::from(self == Fault::WindowSkip))
    }

    /// Where a task stands among those with the same deadline; the lowest runs. The job is 0.
    pub fn rank(self, number: usize) -> usize {
        match (self, number) {
            (Fault::TieTask, 1..) => 17 - number,
            _ => number,
        }
    }

    /// The work that a release brings in.
    pub fn released(self, work: u64, offset: u64) -> u64 {
        match self {
            Fault::ReleaseLate | Fault::ReleaseLost if offset == 0 => 0,
            _ => work,
        }
    }

    /// Whether work released at the window's start comes in at this offset.
    pub fn comes_late(self, offset: u64) -> bool {
        self == Fault::ReleaseLate && offset == 1
    }

    /// The oldest job has finished.
    pub fn leave<T>(self, jobs: &mut VecDeque<T>) {
        if self == Fault::MoveUp {
            jobs.swap_remove_back(0);
        } else {
            jobs.pop_front();
        }
        if self == Fault::JobLost {
            jobs.pop_front();
        }
    }

    /// Work due at a place is moved to the next place, at the last one to the window's end.
    pub fn move_due(self, due: &mut [u64], places: &[u64]) {
        if self != Fault::DeadlineEqual {
            return;
        }
        let mut above = due.len() - 1;
        for &place in places.iter().rev() {
            let place = place as usize;
            if place != above {
                due[above] += std::mem::take(&mut due[place]);
            }
            above = place;
        }
    }

    pub fn copy_place(self, moving: &mut [u64], here: usize, fixed: impl Fn() -> Vec<u64>) {
        if self == Fault::CopyD {
            moving[here] = fixed()[here];
        }
    }

    /// What a slot given to a job adds to the idle tally.
    pub fn idle_of_a_job_slot(self) -> u64 {
        u64::from(self == Fault::Tally)
    }

    pub fn too_late(self, promise: u64, latest: u64) -> bool {
        promise > latest || (self == Fault::LatestEqual && promise == latest)
    }
}
