//! Two threads, a seat each: one shares a block and hangs weak notes on it; the other reads them, and is told by a
//! finaliser when the block is gone.
use camlheap::{Command, Config, Refused, Reply, Seat, start};
use std::sync::atomic::{AtomicBool, Ordering};
use std::thread;

const SHARED: u8 = 0;
const BLOCK: u8 = 1;
const NOTE: u8 = 2;

fn owner(mut seat: Seat, is_watched: &AtomicBool) -> Result<(), Refused> {
    seat.perform(Command::Alloc { dst: BLOCK, tag: 0, fields: 1 })?;
    seat.perform(Command::PutInt { dst: NOTE, value: 42 })?;
    seat.perform(Command::Store { block: BLOCK, index: 0, item: NOTE })?;
    seat.perform(Command::Store { block: SHARED, index: 0, item: BLOCK })?;
    while !is_watched.load(Ordering::SeqCst) {
        seat.turn();
    }
    // Nothing leads to the block any more, once the shared field and this register let it go.
    seat.perform(Command::Store { block: SHARED, index: 0, item: NOTE })?;
    seat.perform(Command::Forget { dst: BLOCK })?;
    seat.perform(Command::FullMajor)?;
    seat.finish()
}

fn watcher(mut seat: Seat, is_watched: &AtomicBool) -> Result<(), Refused> {
    let found = loop {
        if let Reply::Block(label) = seat.perform(Command::Load { dst: BLOCK, block: SHARED, index: 0 })? {
            break label;
        }
    };
    println!("block {}:{} holds {:?}", found.domain, found.serial, seat.perform(Command::Load { dst: NOTE, block: BLOCK, index: 0 })?);
    seat.perform(Command::FinaliseLast { item: BLOCK, number: 1 })?;
    seat.perform(Command::Forget { dst: BLOCK })?;
    is_watched.store(true, Ordering::SeqCst);
    loop {
        seat.perform(Command::Poll)?;
        if let [Reply::Last { number }] = seat.ran()[..] {
            println!("finaliser {number}: it is gone");
            return seat.finish();
        }
    }
}

fn main() -> Result<(), Refused> {
    let mut seats = start(Config { domains: 2, minor_words: 4096, pools: 128, finals: 4, ephes: 4 })?.into_iter();
    let (Some(first), Some(second)) = (seats.next(), seats.next()) else { unreachable!() };
    let is_watched = AtomicBool::new(false);
    thread::scope(|scope| {
        let owning = scope.spawn(|| owner(first, &is_watched));
        let watching = scope.spawn(|| watcher(second, &is_watched));
        owning.join().expect("the owner ends")?;
        watching.join().expect("the watcher ends")
    })
}
