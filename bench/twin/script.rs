//! Reading a script.

const MOST_COMMANDS: usize = 200_000;

#[derive(Clone, Copy)]
#[rustfmt::skip]
pub enum Command {
    Int { dst: u8, value: i64 },
    Move { dst: u8, src: u8 },
    Drop { dst: u8 },
    Alloc { dst: u8, tag: u8, fields: u16 },
    AllocMaj { dst: u8, tag: u8, fields: u16 },
    Load { dst: u8, src: u8, index: u16 },
    Store { block: u8, index: u16, item: u8 },
    Raw { dst: u8, tag: u8, fields: u16 },
    Cas { block: u8, index: u16, expected: u8, item: u8 },
    Ephe { dst: u8, keys: u16 },
    SetKey { ephe: u8, index: u16, item: u8 },
    UnsetKey { ephe: u8, index: u16 },
    GetKey { dst: u8, ephe: u8, index: u16 },
    CheckKey { ephe: u8, index: u16 },
    SetData { ephe: u8, item: u8 },
    UnsetData { ephe: u8 },
    GetData { dst: u8, ephe: u8 },
    CheckData { ephe: u8 },
    Finalise { item: u8, number: u32, dst: u8 },
    FinaliseLast { item: u8, number: u32 },
    Poll,
    Minor,
    Major,
    FullMajor,
}

/// The least and the greatest number of a kind.
type Range = (i64, i64);
const REGISTER: Range = (0, 15);
const TAG: Range = (0, 245);
const RAW_TAG: Range = (251, 255);
const FIELDS: Range = (1, 1022);
/// The fields of a script of version 1.
const FEW_FIELDS: Range = (1, 126);
const KEYS: Range = (1, 8);
const INDEX: Range = (0, 1023);
const FINALISER: Range = (0, 65_535);
const INTEGER: Range = (-1 << 62, (1 << 62) - 1);

/// A command's word, its numbers, and how it is made of them.
type Form = (&'static str, &'static [Range], fn([i64; 4]) -> Command);

#[rustfmt::skip]
const FORMS: [Form; 24] = [
    ("int", &[REGISTER, INTEGER], |[a, b, _, _]| Command::Int { dst: a as u8, value: b }),
    ("move", &[REGISTER, REGISTER], |[a, b, _, _]| Command::Move { dst: a as u8, src: b as u8 }),
    ("drop", &[REGISTER], |[a, _, _, _]| Command::Drop { dst: a as u8 }),
    ("alloc", &[REGISTER, TAG, FIELDS], |[a, b, c, _]| Command::Alloc { dst: a as u8, tag: b as u8, fields: c as u16 }),
    ("allocmaj", &[REGISTER, TAG, FIELDS], |[a, b, c, _]| Command::AllocMaj { dst: a as u8, tag: b as u8, fields: c as u16 }),
    ("load", &[REGISTER, REGISTER, INDEX], |[a, b, c, _]| Command::Load { dst: a as u8, src: b as u8, index: c as u16 }),
    ("store", &[REGISTER, INDEX, REGISTER], |[a, b, c, _]| Command::Store { block: a as u8, index: b as u16, item: c as u8 }),
    ("ephe", &[REGISTER, KEYS], |[a, b, _, _]| Command::Ephe { dst: a as u8, keys: b as u16 }),
    ("set_key", &[REGISTER, INDEX, REGISTER], |[a, b, c, _]| Command::SetKey { ephe: a as u8, index: b as u16, item: c as u8 }),
    ("unset_key", &[REGISTER, INDEX], |[a, b, _, _]| Command::UnsetKey { ephe: a as u8, index: b as u16 }),
    ("get_key", &[REGISTER, REGISTER, INDEX], |[a, b, c, _]| Command::GetKey { dst: a as u8, ephe: b as u8, index: c as u16 }),
    ("check_key", &[REGISTER, INDEX], |[a, b, _, _]| Command::CheckKey { ephe: a as u8, index: b as u16 }),
    ("set_data", &[REGISTER, REGISTER], |[a, b, _, _]| Command::SetData { ephe: a as u8, item: b as u8 }),
    ("unset_data", &[REGISTER], |[a, _, _, _]| Command::UnsetData { ephe: a as u8 }),
    ("get_data", &[REGISTER, REGISTER], |[a, b, _, _]| Command::GetData { dst: a as u8, ephe: b as u8 }),
    ("check_data", &[REGISTER], |[a, _, _, _]| Command::CheckData { ephe: a as u8 }),
    ("finalise", &[REGISTER, FINALISER, REGISTER], |[a, b, c, _]| Command::Finalise { item: a as u8, number: b as u32, dst: c as u8 }),
    ("finalise_last", &[REGISTER, FINALISER], |[a, b, _, _]| Command::FinaliseLast { item: a as u8, number: b as u32 }),
    ("poll", &[], |_| Command::Poll),
    ("minor", &[], |_| Command::Minor),
    ("major", &[], |_| Command::Major),
    ("full_major", &[], |_| Command::FullMajor),
    ("raw", &[REGISTER, RAW_TAG, FIELDS], |[a, b, c, _]| Command::Raw { dst: a as u8, tag: b as u8, fields: c as u16 }),
    ("cas", &[REGISTER, INDEX, REGISTER, REGISTER], |[a, b, c, d]| Command::Cas { block: a as u8, index: b as u16, expected: c as u8, item: d as u8 }),
];
/// The words that a script of version 1 has: all but the last two.
const FIRST_FORMS: usize = FORMS.len() - 2;

/// Why a line is refused.
enum Fault {
    Syntax,
    Order,
    Range(usize),
    TooMany,
}

/// The number that digits write, the greatest one where it is too large.
pub fn natural(digits: &[u8]) -> Option<u64> {
    if digits.is_empty() || digits.len() > 1 && digits[0] == b'0' {
        return None;
    }
    digits.iter().try_fold(0u64, |sum, byte| {
        let digit = byte.is_ascii_digit().then(|| u64::from(byte - b'0'))?;
        Some(sum.saturating_mul(10).saturating_add(digit))
    })
}

fn number(text: &[u8]) -> Option<i64> {
    let clipped = |magnitude: u64| magnitude.min(i64::MAX as u64) as i64;
    match text.strip_prefix(b"-") {
        Some(digits) => Some(-clipped(natural(digits).filter(|n| *n != 0)?)),
        None => Some(clipped(natural(text)?)),
    }
}

/// So many numbers and no more.
fn numbers<'a>(mut texts: impl Iterator<Item = &'a [u8]>, count: usize) -> Option<[i64; 4]> {
    let mut found = [0; 4];
    for place in &mut found[..count] {
        *place = number(texts.next()?)?;
    }
    texts.next().is_none().then_some(found)
}

struct Script {
    version: u8,
    domains: usize,
    sections: Vec<Vec<Command>>,
    commands: usize,
}

impl Script {
    fn take_heading(&mut self, number: i64) -> Result<(), Fault> {
        if !(0..self.domains as i64).contains(&number) {
            return Err(Fault::Range(1));
        }
        if number != self.sections.len() as i64 {
            return Err(Fault::Order);
        }
        self.sections.push(Vec::new());
        Ok(())
    }

    fn take_line(&mut self, line: &[u8]) -> Result<(), Fault> {
        let mut texts = line.split(|byte| *byte == b' ');
        let word = texts.next().unwrap_or(b"");
        if word == b"domain" {
            let [number, ..] = numbers(texts, 1).ok_or(Fault::Syntax)?;
            return self.take_heading(number);
        }
        let forms = if self.version == 1 {
            &FORMS[..FIRST_FORMS]
        } else {
            &FORMS
        };
        let form = forms.iter().find(|form| form.0.as_bytes() == word);
        let (_, ranges, make) = form.ok_or(Fault::Syntax)?;
        let numbers = numbers(texts, ranges.len()).ok_or(Fault::Syntax)?;
        let section = self.sections.last_mut().ok_or(Fault::Order)?;
        if self.commands == MOST_COMMANDS {
            return Err(Fault::TooMany);
        }
        for (place, range) in ranges.iter().enumerate() {
            let few = self.version == 1 && *range == FIELDS;
            let (least, greatest) = if few { FEW_FIELDS } else { *range };
            if !(least..=greatest).contains(&numbers[place]) {
                return Err(Fault::Range(place + 1));
            }
        }
        section.push(make(numbers));
        self.commands += 1;
        Ok(())
    }
}

fn message(line: usize, fault: Fault) -> String {
    match fault {
        Fault::Syntax => format!("script line {line}: syntax"),
        Fault::Order => format!("script line {line}: section order"),
        Fault::Range(which) => format!("script line {line}: number {which} out of range"),
        Fault::TooMany => format!("script line {line}: too many commands"),
    }
}

/// The sections of a script, one for each domain, or what is wrong with it.
pub fn read(bytes: &[u8], domains: u32) -> Result<Vec<Vec<Command>>, String> {
    let mut lines = bytes.split_inclusive(|byte| *byte == b'\n');
    let version = match lines.next() {
        Some(b"heap 1\n") => 1,
        Some(b"heap 2\n") => 2,
        _ => return Err(message(1, Fault::Syntax)),
    };
    let mut script = Script {
        version,
        domains: domains as usize,
        sections: Vec::new(),
        commands: 0,
    };
    for (before, line) in lines.enumerate() {
        let taken = match line.strip_suffix(b"\n") {
            Some(line) => script.take_line(line),
            None => Err(Fault::Syntax),
        };
        taken.map_err(|fault| message(before + 2, fault))?;
    }
    script.sections.resize_with(domains as usize, Vec::new);
    Ok(script.sections)
}
