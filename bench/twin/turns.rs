//! What a domain does between two looks at the words by which the domains stop each other.

use crate::commands::Attempt;
use crate::heap::{
    ARMED, BARRIER, CHANGED, COLOURS, Domain, ENDED, LIVE_BLOCKS, LIVE_WORDS, PLAN, WANT,
};
use crate::replies::Reply;
use crate::script::Command;
use crate::words::Value;

/// A collection that a domain asks for, as a bit of the want word.
#[derive(Clone, Copy)]
pub enum Want {
    Minor = 1,
    Cycle = 2,
    Finish = 4,
    Full = 8,
}

/// A kind of phase, as a number of the plan word.
#[derive(Clone, Copy, PartialEq, Eq)]
enum Kind {
    Run,
    Promote,
    Reset,
    Roots,
    Mark,
    Rounds,
    Decide,
    Queued,
    Clean,
    Lasts,
    Sweep,
    Answer,
}

const KINDS: [Kind; 12] = [
    Kind::Run,
    Kind::Promote,
    Kind::Reset,
    Kind::Roots,
    Kind::Mark,
    Kind::Rounds,
    Kind::Decide,
    Kind::Queued,
    Kind::Clean,
    Kind::Lasts,
    Kind::Sweep,
    Kind::Answer,
];

/// How many blocks a domain scans in a poll, or how many places it sweeps.
const SLICE: u32 = 256;

/// How far domain 0 has brought a cycle of the major heap.
#[derive(Clone, Copy, Default)]
struct Progress {
    /// Whether finalisers are decided.
    is_cut: bool,
    /// Whether the cycle began in this pause.
    is_whole: bool,
    /// Whether it goes on beside running domains.
    is_armed: bool,
    /// Whether garbage of the last one may be left.
    is_unswept: bool,
}

#[derive(PartialEq, Eq)]
pub enum Turned {
    Did,
    Nowhere,
    Ended,
}

pub struct Run<'h> {
    dom: Domain<'h>,
    commands: Vec<Command>,
    pub next: usize,
    pub replies: Vec<Reply>,
    ended: bool,
    /// The phase that it has arrived from, where it hasn't gone on yet.
    left: Option<Kind>,
    /// How often it had arrived when it asked for a pause.
    asked: Option<u64>,
    /// Whether an allocation that is refused once more is answered `full`.
    collected: bool,
    progress: Progress,
    /// How many finalisers run before a `full_major` is answered.
    due: usize,
}

impl<'h> Run<'h> {
    pub fn new(dom: Domain<'h>, commands: Vec<Command>) -> Run<'h> {
        Run {
            dom,
            next: 0,
            replies: Vec::with_capacity(2 * commands.len()),
            commands,
            ended: false,
            left: None,
            asked: None,
            collected: false,
            progress: Progress::default(),
            due: 0,
        }
    }

    fn made(&mut self, reply: Reply) {
        self.replies.push(reply);
        self.next += 1;
        self.asked = None;
        self.collected = false;
        self.due = 0;
    }

    fn ask(&mut self, want: Want) {
        self.dom.heap.or(WANT, want as u64);
        self.asked = Some(self.dom.arrivals);
    }

    /// Marks or sweeps beside the other domains, and tells whether there is nothing more to be marked.
    fn work_beside(&mut self) -> bool {
        if self.dom.heap.is_armed() {
            return self.dom.slice(SLICE);
        }
        self.dom.sweep_slice(SLICE);
        false
    }

    fn try_command(&mut self, command: Command) {
        let is_spent = matches!(command, Command::Poll) && self.work_beside();
        let served = self.asked.is_some_and(|at| at < self.dom.arrivals);
        match self.dom.attempt(command, served) {
            Attempt::Made(reply) => self.made(reply),
            Attempt::Needs(want) => self.ask(want),
            Attempt::NoRoom if self.collected => {
                self.dom.heap.load(WANT);
                self.made(Reply::Full);
            }
            Attempt::NoRoom => self.ask(Want::Full),
        }
        if is_spent {
            self.dom.heap.or(WANT, Want::Finish as u64);
        }
    }

    fn end_trace(&mut self) {
        self.dom.heap.add(ENDED, 1);
        self.dom.registers = [Value::Nothing; 16];
        self.dom.finalisers.finals.clear();
        self.dom.finalisers.lasts.clear();
        self.ended = true;
        self.collected = false;
    }

    fn turn_running(&mut self) -> Turned {
        let heap = self.dom.heap;
        if heap.load(WANT) != 0 {
            self.dom.arrive();
            self.left = Some(Kind::Run);
            self.collected = false;
        } else if self.ended {
            if heap.load(ENDED) < u64::from(heap.sizes.domains) {
                return Turned::Nowhere;
            }
            return Turned::Ended;
        } else if let Some(reply) = self.dom.run_finaliser() {
            self.replies.push(reply);
            self.due = self.dom.finalisers.queue.len();
        } else if let Some(command) = self.commands.get(self.next).copied() {
            self.try_command(command);
        } else {
            self.end_trace();
        }
        Turned::Did
    }

    /// Answers the domain's `full_major` if that comes next.
    fn answer(&mut self) {
        let heap = self.dom.heap;
        let blocks = heap.load(LIVE_BLOCKS);
        let answers =
            self.due == 0 && matches!(self.commands.get(self.next), Some(Command::FullMajor));
        if answers {
            let words = heap.load(LIVE_WORDS);
            self.made(Reply::Live { blocks, words });
            self.due = self.dom.finalisers.queue.len();
        } else {
            let kept = u64::from(heap.sizes.pools - heap.sizes.reserve());
            self.collected = self.asked.is_some() && kept <= blocks;
        }
        self.dom.return_pools();
        self.dom.arrive();
    }

    /// Names the next kind of phase, and keeps how far the cycle has come then.
    fn lead(&mut self, last: Kind) -> Kind {
        let next = self.dom.next_kind(last, self.progress);
        let progress = &mut self.progress;
        match (last, next) {
            (Kind::Sweep, Kind::Roots | Kind::Run) => progress.is_unswept = false,
            (Kind::Roots, Kind::Run) => progress.is_armed = true,
            (Kind::Lasts, Kind::Run) => progress.is_unswept = true,
            (Kind::Decide, _) => progress.is_cut = true,
            _ => (),
        }
        match (last, next) {
            (_, Kind::Roots) => {
                progress.is_whole = true;
                progress.is_cut = false;
            }
            (Kind::Reset, Kind::Mark) => {
                progress.is_whole = false;
                progress.is_cut = false;
            }
            (Kind::Lasts, _) => progress.is_armed = false,
            _ => (),
        }
        next
    }

    /// Leaves the odd phase behind a phase. Domain 0 names the next one.
    fn leave_odd(&mut self, last: Kind) -> Kind {
        let heap = self.dom.heap;
        let next = if self.dom.number == 0 {
            self.lead(last)
        } else {
            last
        };
        if self.dom.number == 0 {
            if next == Kind::Run {
                heap.store(WANT, 0);
            }
            heap.store(PLAN, next as u64);
            if next == Kind::Mark {
                heap.store(CHANGED, 0);
            }
        }
        self.dom.arrive();
        next
    }

    /// Goes on from the phase that the domain has arrived from.
    fn pass(&mut self, last: Kind) -> Turned {
        let heap = self.dom.heap;
        if heap.load(BARRIER) < self.dom.arrivals * u64::from(heap.sizes.domains) {
            return Turned::Nowhere;
        }
        let kind = if self.dom.arrivals % 2 == 1 {
            self.leave_odd(last)
        } else {
            let kind = KINDS[heap.load(PLAN) as usize];
            match kind {
                Kind::Run => {
                    self.left = None;
                    return self.turn_running();
                }
                Kind::Answer => self.answer(),
                _ => self.dom.share(kind),
            }
            kind
        };
        self.left = Some(kind);
        Turned::Did
    }

    pub fn turn(&mut self) -> Turned {
        match self.left {
            Some(last) => self.pass(last),
            None => self.turn_running(),
        }
    }
}

impl Domain<'_> {
    fn arrive(&mut self) {
        self.heap.add(BARRIER, 1);
        self.arrivals += 1;
        self.pending.clear();
    }

    /// Does the domain's share of a phase, and arrives.
    fn share(&mut self, kind: Kind) {
        match kind {
            Kind::Promote => self.promote(),
            Kind::Reset => self.reset(),
            Kind::Roots => self.mark_roots(),
            Kind::Mark => self.mark_round(),
            Kind::Rounds => self.follow_ephemerons(),
            Kind::Decide => self.decide(),
            Kind::Queued => self.mark_queued(),
            Kind::Clean => self.clean_ephemerons(),
            Kind::Lasts => {
                self.decide_last();
                self.sweep_anew();
            }
            Kind::Sweep => {
                self.sweep();
                self.count();
                self.return_pools();
            }
            Kind::Run | Kind::Answer => unreachable!("no share"),
        }
        self.arrive();
    }

    fn next_kind(&mut self, last: Kind, progress: Progress) -> Kind {
        let heap = self.heap;
        match last {
            Kind::Run => {
                self.set_cursor_back();
                Kind::Promote
            }
            Kind::Promote => Kind::Reset,
            Kind::Reset => self.after_reset(progress),
            Kind::Roots => self.after_roots(),
            Kind::Mark | Kind::Rounds | Kind::Queued if heap.load(CHANGED) != 0 => Kind::Mark,
            Kind::Mark => Kind::Rounds,
            Kind::Rounds if progress.is_cut => Kind::Clean,
            Kind::Rounds => Kind::Decide,
            Kind::Decide => Kind::Queued,
            Kind::Queued => Kind::Clean,
            Kind::Clean => Kind::Lasts,
            Kind::Lasts => self.after_lasts(),
            Kind::Sweep => self.after_sweep(progress),
            Kind::Answer => self.before_run(false),
        }
    }

    fn is_wanted(&self, want: Want) -> bool {
        self.heap.load(WANT) & want as u64 != 0
    }

    /// The domains run next. Says whether a cycle goes on beside them.
    fn before_run(&mut self, is_armed: bool) -> Kind {
        self.heap.store(ARMED, u64::from(is_armed));
        self.write_list();
        Kind::Run
    }

    /// Whether a cycle begins, where so many pools are free.
    fn begins(&self, free: u32) -> bool {
        self.is_wanted(Want::Cycle)
            || self.is_wanted(Want::Full)
            || 2 * free < self.heap.sizes.pools
    }

    fn clear_counts(&self) {
        self.heap.store(LIVE_BLOCKS, 0);
        self.heap.store(LIVE_WORDS, 0);
    }

    fn after_reset(&mut self, progress: Progress) -> Kind {
        let free = self.write_list();
        let finishes = self.is_wanted(Want::Finish) || self.is_wanted(Want::Full);
        match (progress.is_armed, finishes, self.begins(free)) {
            (true, true, _) => Kind::Mark,
            (false, _, true) if progress.is_unswept => {
                self.clear_counts();
                Kind::Sweep
            }
            (false, _, true) => Kind::Roots,
            _ => Kind::Run,
        }
    }

    fn after_roots(&mut self) -> Kind {
        if self.is_wanted(Want::Full) {
            Kind::Mark
        } else {
            self.before_run(true)
        }
    }

    fn after_lasts(&mut self) -> Kind {
        let heap = self.heap;
        heap.store(COLOURS, heap.colours().rotated().word());
        if self.is_wanted(Want::Full) {
            self.clear_counts();
            Kind::Sweep
        } else {
            self.before_run(false)
        }
    }

    fn after_sweep(&mut self, progress: Progress) -> Kind {
        if progress.is_unswept {
            let free = self.write_list();
            if self.begins(free) {
                Kind::Roots
            } else {
                Kind::Run
            }
        } else if progress.is_whole {
            Kind::Answer
        } else {
            Kind::Roots
        }
    }
}
