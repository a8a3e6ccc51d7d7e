//! Random scripts. They use few registers, numbers and fields, so that domains meet.

/// Numbers that look random, the same for each seed.
pub struct Dice(u64);

impl Dice {
    pub fn new(seed: u64) -> Dice {
        Dice(seed.wrapping_mul(0x9E37_79B9_7F4A_7C15) | 1)
    }

    /// A number below this one.
    pub fn below(&mut self, end: usize) -> usize {
        self.0 ^= self.0 << 13;
        self.0 ^= self.0 >> 7;
        self.0 ^= self.0 << 17;
        (self.0 >> 33) as usize % end
    }

    fn one_of<T: Copy>(&mut self, of: &[T]) -> T {
        of[self.below(of.len())]
    }
}

/// What scripts are made of.
pub struct Kind {
    version: u32,
    words: &'static [&'static str],
    counts: &'static [usize],
    /// How many commands each of so many domains has.
    pub lengths: &'static [usize],
}

/// All commands of version 2.
pub const WHOLE: Kind = Kind {
    version: 2,
    words: &[
        "int",
        "int",
        "int",
        "move",
        "drop",
        "drop",
        "alloc",
        "alloc",
        "alloc",
        "allocmaj",
        "raw",
        "raw",
        "raw",
        "load",
        "load",
        "load",
        "load",
        "store",
        "store",
        "store",
        "store",
        "store",
        "cas",
        "cas",
        "cas",
        "cas",
        "cas",
        "cas",
        "ephe",
        "set_key",
        "get_key",
        "check_key",
        "set_data",
        "get_data",
        "finalise",
        "finalise_last",
        "poll",
        "minor",
        "major",
        "full_major",
    ],
    counts: &[1, 1, 2, 2, 3, 126, 127, 1022],
    lengths: &[60, 24, 12, 8, 6, 5, 4, 4],
};

/// The same with so many commands for each of so many domains.
#[allow(dead_code)]
pub const fn of_length(lengths: &'static [usize]) -> Kind {
    Kind { lengths, ..WHOLE }
}

/// What OCaml 5 can play with a reply that the definition allows: its `Gc.full_major` is more than one collection.
pub const OF_OCAML: Kind = Kind {
    version: 1,
    words: &[
        "int",
        "move",
        "drop",
        "drop",
        "drop",
        "alloc",
        "alloc",
        "alloc",
        "load",
        "load",
        "load",
        "store",
        "store",
        "store",
        "ephe",
        "ephe",
        "set_key",
        "set_key",
        "get_key",
        "check_key",
        "set_data",
        "get_data",
        "finalise",
        "finalise",
        "finalise_last",
        "finalise_last",
        "poll",
        "minor",
        "minor",
        "major",
        "major",
    ],
    counts: &[1, 1, 2, 2, 3, 126],
    lengths: &[60, 25, 14],
};

/// A command.
pub fn command(dice: &mut Dice, kind: &Kind) -> String {
    let word = dice.one_of(kind.words);
    let register = |dice: &mut Dice| dice.below(5);
    let index = |dice: &mut Dice| dice.one_of(&[0, 0, 0, 1, 1, 2, 1021]);
    let (a, b, c) = (register(dice), register(dice), register(dice));
    match word {
        "int" => format!("int {a} {}", dice.below(3)),
        "move" => format!("move {a} {b}"),
        "drop" => format!("drop {a}"),
        "alloc" | "allocmaj" => format!(
            "{word} {} {} {}",
            1 + dice.below(4),
            dice.below(3),
            dice.one_of(kind.counts)
        ),
        "raw" => format!(
            "raw {} {} {}",
            1 + dice.below(4),
            251 + dice.below(5),
            dice.one_of(kind.counts)
        ),
        "load" => format!("load {a} {b} {}", index(dice)),
        "store" => format!("store {a} {} {b}", index(dice)),
        "cas" => format!("cas {} {} {b} {c}", dice.one_of(&[0, 0, a]), index(dice)),
        "ephe" => format!("ephe {a} {}", 1 + dice.below(2)),
        "set_key" => format!("set_key {a} {} {b}", dice.below(2)),
        "get_key" => format!("get_key {a} {b} {}", dice.below(2)),
        "check_key" => format!("check_key {a} {}", dice.below(2)),
        "set_data" => format!("set_data {a} {b}"),
        "get_data" => format!("get_data {a} {b}"),
        "finalise" => format!("finalise {a} {} {b}", dice.below(9)),
        "finalise_last" => format!("finalise_last {a} {}", dice.below(9)),
        _ => word.to_owned(),
    }
}

/// A script, and for how many domains it is.
pub fn script(dice: &mut Dice, kind: &Kind) -> (String, usize) {
    let domains = 1 + dice.below(kind.lengths.len());
    (script_for(dice, kind, domains), domains)
}

/// A script for so many domains.
pub fn script_for(dice: &mut Dice, kind: &Kind, domains: usize) -> String {
    let mut lines = vec![format!("heap {}", kind.version)];
    for domain in 0..domains {
        lines.push(format!("domain {domain}"));
        lines.extend((0..kind.lengths[domains - 1]).map(|_| command(dice, kind)));
    }
    lines.join("\n") + "\n"
}
