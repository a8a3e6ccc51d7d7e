//! Each domain in a thread, the first in the caller's.

use crate::heap::{Domain, Heap};
use crate::script::Command;
use crate::turns::{Run, Turned};
use std::hint;
use std::sync::atomic::AtomicU64;
use std::sync::atomic::Ordering::SeqCst;
use std::sync::{Condvar, Mutex};
use std::thread;

/// How often a domain that can't go on spins before it sleeps.
const SPINS: u32 = 7;

/// Waits for a condition that changes without a lock. Waiters announce themselves, then look, then wait.
struct Events {
    waiters: AtomicU64,
    epoch: Mutex<u64>,
    changed: Condvar,
}

impl Events {
    fn announce(&self) -> u64 {
        self.waiters.fetch_add(1, SeqCst);
        *self.epoch.lock().unwrap()
    }

    fn withdraw(&self) {
        self.waiters.fetch_sub(1, SeqCst);
    }

    fn wait(&self, announced: u64) {
        let epoch = self.epoch.lock().unwrap();
        let same = |epoch: &mut u64| *epoch == announced;
        drop(self.changed.wait_while(epoch, same).unwrap());
    }

    fn notify_all(&self) {
        if self.waiters.load(SeqCst) != 0 {
            *self.epoch.lock().unwrap() += 1;
            self.changed.notify_all();
        }
    }
}

fn turn_to_end(run: &mut Run<'_>, events: &Events) {
    let mut spins = 0;
    loop {
        let announced = (spins == SPINS).then(|| events.announce());
        let next = run.next;
        let turned = run.turn();
        match (&turned, announced) {
            (Turned::Nowhere, Some(epoch)) => events.wait(epoch),
            (Turned::Nowhere, None) => {
                for _ in 0..1 << spins {
                    hint::spin_loop();
                }
                spins += 1;
            }
            (Turned::Did, _) => {
                if run.next == next {
                    events.notify_all();
                }
                spins = 0;
            }
            (Turned::Ended, _) => (),
        }
        if announced.is_some() {
            events.withdraw();
        }
        if turned == Turned::Ended {
            return;
        }
    }
}

/// Runs the sections to the end of all.
pub fn drive(heap: &Heap, sections: Vec<Vec<Command>>) -> Vec<Run<'_>> {
    let events = Events {
        waiters: AtomicU64::new(0),
        epoch: Mutex::new(0),
        changed: Condvar::new(),
    };
    let mut runs: Vec<Run<'_>> = (0..)
        .zip(sections)
        .map(|(number, commands)| Run::new(Domain::new(heap, number, &commands), commands))
        .collect();
    thread::scope(|scope| {
        if let [first, others @ ..] = &mut runs[..] {
            for run in others {
                scope.spawn(|| turn_to_end(run, &events));
            }
            turn_to_end(first, &events);
        }
    });
    runs
}
