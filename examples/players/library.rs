//! Plays scripts on this heap through the library for Rust, a thread for each domain: `library_rust can`, `library_rust run --domains N`.
use camlheap::{Command, Config, Label, Refused, Reply, Seat, start};
use std::io::Read;
use std::sync::atomic::{AtomicUsize, Ordering};
use std::thread;

/// A point that all domains come to. One that waits takes turns, since others may want a collection.
struct Meeting {
    domains: usize,
    come: AtomicUsize,
}

impl Meeting {
    fn wait(&self, seat: &mut Seat) {
        let until = (self.come.fetch_add(1, Ordering::SeqCst) / self.domains + 1) * self.domains;
        while self.come.load(Ordering::SeqCst) < until {
            seat.turn();
            thread::yield_now();
        }
    }
}

/// The command of a line.
fn command(line: &str) -> Command {
    let mut words = line.split(' ');
    let word = words.next().expect("a word");
    let n: Vec<i64> = words.map(|it| it.parse().expect("a number")).collect();
    let r = |at: usize| n[at] as u8;
    let i = |at: usize| n[at] as u16;
    match word {
        "int" => Command::PutInt { dst: r(0), value: n[1] },
        "move" => Command::Copy { dst: r(0), src: r(1) },
        "drop" => Command::Forget { dst: r(0) },
        "alloc" => Command::Alloc { dst: r(0), tag: r(1), fields: i(2) },
        "allocmaj" => Command::AllocMajor { dst: r(0), tag: r(1), fields: i(2) },
        "raw" => Command::Raw { dst: r(0), tag: r(1), fields: i(2) },
        "load" => Command::Load { dst: r(0), block: r(1), index: i(2) },
        "store" => Command::Store { block: r(0), index: i(1), item: r(2) },
        "cas" => Command::Cas { block: r(0), index: i(1), expected: r(2), item: r(3) },
        "ephe" => Command::Ephe { dst: r(0), keys: i(1) },
        "set_key" => Command::SetKey { ephe: r(0), index: i(1), item: r(2) },
        "unset_key" => Command::UnsetKey { ephe: r(0), index: i(1) },
        "get_key" => Command::GetKey { dst: r(0), ephe: r(1), index: i(2) },
        "check_key" => Command::CheckKey { ephe: r(0), index: i(1) },
        "set_data" => Command::SetData { ephe: r(0), item: r(1) },
        "unset_data" => Command::UnsetData { ephe: r(0) },
        "get_data" => Command::GetData { dst: r(0), ephe: r(1) },
        "check_data" => Command::CheckData { ephe: r(0) },
        "poll" => Command::Poll,
        "minor" => Command::Minor,
        "major" => Command::Major,
        "full_major" => Command::FullMajor,
        "finalise" => Command::Finalise { item: r(0), number: n[1] as u32, dst: r(2) },
        "finalise_last" => Command::FinaliseLast { item: r(0), number: n[1] as u32 },
        _ => panic!("no such command: {line}"),
    }
}

fn shown(reply: &Reply) -> String {
    let of = |Label { domain, serial }: &Label| format!("{domain}:{serial}");
    match reply {
        Reply::Done => "ok".into(),
        Reply::Int(value) => format!("int {value}"),
        Reply::Block(label) => format!("blk {}", of(label)),
        Reply::BadType => "type".into(),
        Reply::BadIndex => "bounds".into(),
        Reply::Empty => "none".into(),
        Reply::Yes => "yes".into(),
        Reply::No => "no".into(),
        Reply::Full => "full".into(),
        Reply::Live { blocks, words } => format!("live {blocks} {words}"),
        Reply::Fin { number, label } => format!("fin {number} {}", of(label)),
        Reply::Last { number } => format!("last {number}"),
    }
}

/// Makes the commands of a section, and then has all run that is to run before the domain ends.
fn play(number: usize, mut seat: Seat, commands: &[Command], meeting: &Meeting) -> Result<Vec<String>, Refused> {
    let mut lines = Vec::new();
    for command in commands {
        let reply = seat.perform(*command)?;
        lines.extend(seat.ran().iter().map(shown));
        lines.push(shown(&reply));
    }
    meeting.wait(&mut seat);
    // Behind a complete collection no other goes on.
    if number == 0 {
        seat.perform(Command::FullMajor)?;
    }
    meeting.wait(&mut seat);
    let mut ran = seat.ran();
    while !ran.is_empty() {
        lines.extend(ran.iter().map(shown));
        seat.perform(Command::Poll)?;
        ran = seat.ran();
    }
    meeting.wait(&mut seat);
    seat.finish()?;
    Ok(lines)
}

fn sections(text: &str, domains: usize) -> Vec<Vec<Command>> {
    let mut found = vec![Vec::new(); domains];
    let mut here = 0;
    for line in text.lines().skip(1) {
        match line.strip_prefix("domain ") {
            Some(number) => here = number.parse().expect("a number"),
            None => found[here].push(command(line)),
        }
    }
    found
}

fn main() -> Result<(), Refused> {
    let words: Vec<String> = std::env::args().collect();
    if words[1] == "can" {
        println!("name this heap, in Rust\nversions 1 2\ndomains 8");
        return Ok(());
    }
    let domains: usize = words[3].parse().expect("a number of domains");
    let mut text = String::new();
    std::io::stdin().read_to_string(&mut text).expect("a script");
    let sections = sections(&text, domains);
    let most = sections.iter().map(Vec::len).max().unwrap_or(0).max(16) as u32;
    let seats = start(Config { domains: domains as u32, minor_words: 4096, pools: 512, finals: most, ephes: most })?;
    let meeting = Meeting { domains, come: AtomicUsize::new(0) };
    let lines = thread::scope(|scope| {
        let meeting = &meeting;
        let running: Vec<_> =
            seats.into_iter().zip(&sections).enumerate().map(|(d, (seat, own))| scope.spawn(move || play(d, seat, own, meeting))).collect();
        running.into_iter().map(|it| it.join().expect("a thread ends")).collect::<Result<Vec<_>, _>>()
    })?;
    for (number, own) in lines.iter().enumerate() {
        println!("domain {number}");
        own.iter().for_each(|line| println!("{line}"));
    }
    Ok(())
}
