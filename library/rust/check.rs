//! Tries the wrapper: each call once, and each refusal that a program can come to. Ends with 0 where all is as it should be.
use camlheap::{Command, Config, Label, Refused, Reply, Seat, Why, start};
use std::sync::{Arc, Mutex};
use std::thread;

const CONFIG: Config = Config { domains: 1, minor_words: 4096, pools: 64, finals: 1, ephes: 1 };

fn starts() {
    assert_eq!(start(Config { domains: 9, ..CONFIG }).err(), Some(Refused::Outside(1)));
    assert_eq!(start(Config { minor_words: 5000, ..CONFIG }).err(), Some(Refused::Outside(2)));
    assert_eq!(start(Config { pools: 1, ..CONFIG }).err(), Some(Refused::Outside(3)));
}

fn performs() -> Result<(), Refused> {
    let mut seat = start(CONFIG)?.remove(0);
    let block = Reply::Block(Label { domain: 0, serial: 1 });
    assert_eq!(seat.perform(Command::Alloc { dst: 1, tag: 0, fields: 2 })?, block);
    assert_eq!(seat.show(1)?, block);
    assert_eq!(seat.show(16), Err(Refused::NoRegister));
    assert_eq!(seat.perform(Command::PutInt { dst: 2, value: 7 })?, Reply::Done);
    assert_eq!(seat.perform(Command::Store { block: 1, index: 0, item: 2 })?, Reply::Done);
    assert_eq!(seat.perform(Command::Load { dst: 3, block: 1, index: 0 })?, Reply::Int(7));
    assert_eq!(seat.perform(Command::Load { dst: 3, block: 1, index: 9 })?, Reply::BadIndex);
    assert_eq!(seat.perform(Command::Copy { dst: 16, src: 0 }), Err(Refused::Unfit));
    assert_eq!(seat.perform(Command::FinaliseLast { item: 1, number: 1 << 31 }), Err(Refused::Unfit));
    assert_eq!(seat.perform(Command::Finalise { item: 1, number: 3, dst: 4 })?, Reply::Done);
    assert_eq!(seat.perform(Command::FinaliseLast { item: 1, number: 4 }), Err(Refused::NoFinaliser));
    assert_eq!(seat.stats().finals, 1);
    assert_eq!(seat.perform(Command::Forget { dst: 1 })?, Reply::Done);
    assert!(matches!(seat.perform(Command::FullMajor)?, Reply::Live { .. }));
    assert_eq!(seat.perform(Command::Poll)?, Reply::Done);
    assert_eq!(seat.ran(), [Reply::Fin { number: 3, label: Label { domain: 0, serial: 1 } }]);
    assert_eq!(seat.show(4)?, block);
    assert_eq!(seat.stats().labels, 1);
    seat.finish()
}

// While one rests the other collects alone.
fn rests() -> Result<(), Refused> {
    let mut seats = start(Config { domains: 2, pools: 128, ..CONFIG })?;
    let (mut first, mut second) = (seats.remove(0), seats.remove(0));
    first.perform(Command::Alloc { dst: 1, tag: 0, fields: 2 })?;
    let resting = first.rest();
    assert!(matches!(second.perform(Command::FullMajor)?, Reply::Live { .. }));
    assert_eq!(second.perform(Command::Minor)?, Reply::Done);
    let mut first = resting.resume();
    assert_eq!(first.show(1)?, Reply::Block(Label { domain: 0, serial: 1 }));
    let other = std::thread::spawn(move || second.finish());
    first.finish()?;
    other.join().expect("the other thread ends")
}

// A block is asked for while a field leads to it, and when none does.
fn asks() -> Result<(), Refused> {
    let mut seat = start(CONFIG)?.remove(0);
    let block = Label { domain: 0, serial: 2 };
    seat.perform(Command::Alloc { dst: 1, tag: 0, fields: 2 })?;
    seat.perform(Command::Alloc { dst: 2, tag: 0, fields: 1 })?;
    seat.perform(Command::Store { block: 1, index: 1, item: 2 })?;
    assert_eq!(seat.why(block, 9)?, Why::Way { register: 2, fields: vec![] });
    seat.perform(Command::Forget { dst: 2 })?;
    assert_eq!(seat.why(block, 9)?, Why::Way { register: 1, fields: vec![1] });
    assert_eq!(seat.why(block, 2), Err(Refused::MoreBlocks));
    seat.perform(Command::Forget { dst: 1 })?;
    assert_eq!(seat.why(block, 9)?, Why::Nothing);
    seat.finish()
}

// Many keys are bound, found, bound anew and taken out.
fn maps() -> Result<(), Refused> {
    const KEYS: u16 = 100;
    let mut seat = start(Config { ephes: 1000, ..CONFIG })?.remove(0);
    assert!(matches!(seat.make_map(7)?, Reply::Block(_)));
    seat.perform(Command::Alloc { dst: 6, tag: 0, fields: KEYS })?;
    for key in 0..KEYS {
        seat.perform(Command::Alloc { dst: 1, tag: 0, fields: 1 })?;
        seat.perform(Command::Store { block: 6, index: key, item: 1 })?;
        seat.perform(Command::PutInt { dst: 2, value: key.into() })?;
        assert_eq!(seat.map(7).insert(1, 2)?, Reply::Done);
    }
    seat.perform(Command::FullMajor)?;
    for key in 0..KEYS {
        seat.perform(Command::Load { dst: 1, block: 6, index: key })?;
        let mut map = seat.map(7);
        assert_eq!(map.get(3, 1)?, Reply::Int(key.into()));
        assert_eq!(map.remove(1)?, Reply::Done);
        assert_eq!((map.remove(1)?, map.get(3, 1)?), (Reply::Empty, Reply::Empty));
        assert_eq!(map.insert(1, 6)?, Reply::Done);
        assert!(matches!(map.get(3, 1)?, Reply::Block(_)));
    }
    let mut map = seat.map(7);
    assert_eq!((map.get(3, 2)?, map.insert(2, 1)?, map.remove(2)?), (Reply::BadType, Reply::BadType, Reply::BadType));
    assert_eq!((map.get(8, 1), seat.map(8).get(3, 1)), (Err(Refused::NoRegister), Err(Refused::NoRegister)));
    assert_eq!((seat.map(5).insert(1, 6), seat.map(5).get(3, 1)?), (Err(Refused::NotNow), Reply::Empty));
    seat.finish()
}

// A map with few keys that live never fills up, however many die.
fn sweeps() -> Result<(), Refused> {
    let mut seat = start(Config { ephes: 200, ..CONFIG })?.remove(0);
    seat.make_map(7)?;
    for value in 0..2000 {
        seat.perform(Command::Alloc { dst: 1, tag: 0, fields: 1 })?;
        seat.perform(Command::PutInt { dst: 2, value })?;
        assert_eq!(seat.map(7).insert(1, 2)?, Reply::Done);
    }
    seat.perform(Command::FullMajor)?;
    assert_eq!(seat.map(7).count()?, Reply::Int(1));
    assert!(matches!(seat.map(7).sweep()?, Reply::Int(_)));
    seat.perform(Command::Forget { dst: 1 })?;
    seat.perform(Command::FullMajor)?;
    assert_eq!(seat.map(7).clean()?, Reply::Yes);
    assert_eq!(seat.map(6).count()?, Reply::BadType);
    seat.finish()
}

// What a key is bound to goes with it, and not before.
fn binds_weakly() -> Result<(), Refused> {
    let mut seat = start(Config { ephes: 8, ..CONFIG })?.remove(0);
    seat.make_map(7)?;
    seat.perform(Command::Alloc { dst: 1, tag: 0, fields: 1 })?;
    seat.perform(Command::Alloc { dst: 2, tag: 0, fields: 1 })?;
    seat.perform(Command::FinaliseLast { item: 2, number: 9 })?;
    assert_eq!(seat.map(7).insert(1, 2)?, Reply::Done);
    for register in [2, 1] {
        seat.perform(Command::Poll)?;
        assert_eq!(seat.ran(), []);
        seat.perform(Command::Forget { dst: register })?;
        seat.perform(Command::FullMajor)?;
    }
    seat.perform(Command::Poll)?;
    assert_eq!(seat.ran(), [Reply::Last { number: 9 }]);
    seat.finish()
}

// A seat in which finaliser 9 waits, and one of register 2 that is called.
fn with_finalisers(told: &Arc<Mutex<Vec<Reply>>>) -> Result<Seat, Refused> {
    let mut seat = start(Config { ephes: 8, finals: 4, ..CONFIG })?.remove(0);
    seat.make_map(7)?;
    seat.perform(Command::Alloc { dst: 3, tag: 0, fields: 1 })?;
    seat.perform(Command::Alloc { dst: 1, tag: 0, fields: 1 })?;
    seat.perform(Command::FinaliseLast { item: 1, number: 9 })?;
    seat.finalise_last(1, |_| panic!("a panic that the check asks for"))?;
    let told = Arc::clone(told);
    assert_eq!(seat.finalise_last(1, move |ran| told.lock().unwrap().push(ran))?, Reply::Done);
    assert_eq!(seat.finalise_last(4, |_| unreachable!())?, Reply::BadType);
    seat.perform(Command::Forget { dst: 1 })?;
    seat.perform(Command::FullMajor)?;
    Ok(seat)
}

// Whatever the seat does between, what ran is told, and called.
fn tells_each_once() -> Result<(), Refused> {
    let acts: [fn(Seat) -> Seat; 4] = [
        |seat| seat,
        |mut seat| {
            (0..10).for_each(|_| assert!(!seat.turn()));
            seat
        },
        |mut seat| {
            assert_eq!(seat.map(7).insert(3, 3), Ok(Reply::Done));
            seat
        },
        |seat| seat.rest().resume(),
    ];
    for act in acts {
        let called = Arc::new(Mutex::new(Vec::new()));
        let mut seat = act(with_finalisers(&called)?);
        for _ in 0..4 {
            seat.perform(Command::Poll)?;
        }
        assert_eq!(seat.ran(), [Reply::Last { number: 9 }]);
        assert_eq!(seat.ran(), []);
        assert!(matches!(called.lock().unwrap()[..], [Reply::Last { .. }]));
        seat.finish()?;
    }
    Ok(())
}

// What runs at a seat's end is called too.
fn tells_at_the_end() -> Result<(), Refused> {
    let called = Arc::new(Mutex::new(Vec::new()));
    with_finalisers(&called)?.finish()?;
    assert_eq!(called.lock().unwrap().len(), 1);
    Ok(())
}

// The others go on and end, however a seat was left.
fn goes_on_without_it() -> Result<(), Refused> {
    let leaves: [fn(Seat); 4] = [drop, |seat| drop(seat.rest()), |mut seat| {
        thread::spawn(move || seat.perform(Command::Alloc { dst: 1, tag: 0, fields: 1 }).map(|_| drop(seat))).join().unwrap().unwrap()
    }, |seat| {
        let panics = thread::spawn(move || {
            let _seat = seat;
            panic!("a panic that the check asks for")
        });
        assert!(panics.join().is_err());
    }];
    for leave in leaves {
        let mut seats = start(Config { domains: 3, pools: 128, ..CONFIG })?;
        let (mut seat, other) = (seats.remove(2), seats.remove(1));
        leave(seats.remove(0));
        thread::scope(|scope| {
            scope.spawn(move || other.finish());
            assert!(matches!(seat.perform(Command::FullMajor), Ok(Reply::Live { .. })));
            seat.finish()
        })?;
    }
    Ok(())
}

fn main() -> Result<(), Refused> {
    starts();
    maps()?;
    sweeps()?;
    binds_weakly()?;
    tells_each_once()?;
    tells_at_the_end()?;
    goes_on_without_it()?;
    asks()?;
    rests()?;
    performs()
}
