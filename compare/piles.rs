//! Reads actions on piles of banks from standard input, one to a line, and writes the replies to standard output.
//! Written from docs/PILES.md, docs/BANKS.md and docs/REFUSALS.md alone, to be compared with the program `piles`.
//!
//! Build: rustc --edition 2021 -O piles.rs

use std::fmt;
use std::io::{self, BufWriter, Read, Write};

/// Bytes of the input that count.
const INPUT_LIMIT: u64 = 1_048_576;
/// The longest row that an action may ask for.
const LONGEST_ROW: u64 = 5000;
/// The most cells a bank has, and the furthest end of a window.
const MOST_CELLS: u64 = 4048;
/// The most cells a hold-back holds.
const MOST_HELD: usize = 8;

enum Refusal {
    NoSuchCell,
    LengthNotAdmitted,
    WindowBeyondLimit,
}

impl fmt::Display for Refusal {
    fn fmt(&self, f: &mut fmt::Formatter) -> fmt::Result {
        f.write_str(match self {
            Refusal::NoSuchCell => "refused 6: no such cell",
            Refusal::LengthNotAdmitted => "refused 8: length not admitted",
            Refusal::WindowBeyondLimit => "refused 12: window beyond its limit",
        })
    }
}

/// A cell's number and its value.
type Entry = (u64, u16);

/// A bank, with all the layers below it.
enum Bank {
    /// The word bank: its cells are the words of the row.
    Words(Vec<u16>),
    /// Shows up to `length` cells of the bank below, from `first` on.
    Window { first: u64, length: u64, below: Box<Bank> },
    /// The bank below with the held cells replaced. `held` is in the order in which they came.
    HoldBack { held: Vec<Entry>, below: Box<Bank> },
}

impl Bank {
    /// The word bank over a row, if a row of that length is admitted.
    fn words(row: Vec<u16>) -> Result<Bank, Refusal> {
        match row.len() as u64 {
            1..=MOST_CELLS => Ok(Bank::Words(row)),
            _ => Err(Refusal::LengthNotAdmitted),
        }
    }

    /// This bank with a layer laid on it, which holds nothing yet.
    fn under(self, layer: Layer) -> Result<Bank, Refusal> {
        let below = Box::new(self);
        match layer {
            Layer::HoldBack => Ok(Bank::HoldBack { held: Vec::new(), below }),
            Layer::Window { first, length } => match first.checked_add(length) {
                Some(0..=MOST_CELLS) => Ok(Bank::Window { first, length, below }),
                _ => Err(Refusal::WindowBeyondLimit),
            },
        }
    }

    fn size(&self) -> u64 {
        match self {
            Bank::Words(row) => row.len() as u64,
            Bank::Window { first, length, below } => below.size().saturating_sub(*first).min(*length),
            Bank::HoldBack { below, .. } => below.size(),
        }
    }

    fn read(&self, cell: u64) -> Result<u16, Refusal> {
        if cell >= self.size() {
            return Err(Refusal::NoSuchCell);
        }
        match self {
            Bank::Words(row) => row.get(cell as usize).copied().ok_or(Refusal::NoSuchCell),
            Bank::Window { first, below, .. } => below.read(first + cell),
            Bank::HoldBack { held, below } => match held.iter().find(|entry| entry.0 == cell) {
                Some(entry) => Ok(entry.1),
                None => below.read(cell),
            },
        }
    }

    fn write(&mut self, cell: u64, value: u16) -> Result<(), Refusal> {
        if cell >= self.size() {
            return Err(Refusal::NoSuchCell);
        }
        match self {
            Bank::Words(row) => *row.get_mut(cell as usize).ok_or(Refusal::NoSuchCell)? = value,
            Bank::Window { first, below, .. } => below.write(*first + cell, value)?,
            Bank::HoldBack { held, below } => {
                if let Some(entry) = held.iter_mut().find(|entry| entry.0 == cell) {
                    entry.1 = value;
                } else {
                    if held.len() == MOST_HELD {
                        send(held, below);
                    }
                    held.push((cell, value));
                }
            }
        }
        Ok(())
    }

    /// What this layer itself holds back.
    fn held(&self) -> &[Entry] {
        match self {
            Bank::HoldBack { held, .. } => held,
            _ => &[],
        }
    }

    /// Sends down what this layer itself holds back.
    fn settle(&mut self) {
        if let Bank::HoldBack { held, below } = self {
            send(held, below);
        }
    }

    /// Takes the layers off from the top down, and shows what each hold-back sends and what has become of the row.
    fn take_apart(self, out: &mut impl Write) -> io::Result<()> {
        let mut top = self;
        loop {
            top = match top {
                Bank::Words(row) => return write_listing(out, "row", &changes(&row)),
                Bank::Window { below, .. } => *below,
                Bank::HoldBack { mut held, mut below } => {
                    write_listing(out, "sends", &held)?;
                    send(&mut held, &mut below);
                    *below
                }
            }
        }
    }
}

/// Writes what is held to the bank below, in order, and holds nothing.
fn send(held: &mut Vec<Entry>, below: &mut Bank) {
    for (cell, value) in held.drain(..) {
        // Never declined: a held cell is a cell below too, and no bank changes its size.
        let _ = below.write(cell, value);
    }
}

/// What word number `i` of a row is made with.
fn made_with(i: u64) -> u16 {
    (i * 7 + 3) as u16
}

/// The words of a row that differ from what it was made with.
fn changes(row: &[u16]) -> Vec<Entry> {
    (0..).zip(row.iter().copied()).filter(|&(i, word)| word != made_with(i)).collect()
}

/// A layer still to be laid on a bank.
enum Layer {
    Window { first: u64, length: u64 },
    HoldBack,
}

/// What a line asks.
enum Action {
    /// A new pile over a row of `length` words, with its layers from the bottom up.
    Pile { length: u64, layers: Vec<Layer> },
    /// A call on the top layer of the pile.
    Call(Call),
    /// That the pile be taken apart.
    End,
}

enum Call {
    Size,
    Read { cell: u64 },
    Write { cell: u64, value: u16 },
    Held,
    Settle,
}

/// The action that a line is, if it is one.
fn parse_action(line: &[u8]) -> Option<Action> {
    let mut parts = line.split(|&byte| byte == b' ');
    let letter = parts.next()?;
    let numbers: Vec<u64> = parts.map(parse_number).collect::<Option<_>>()?;
    match (letter, numbers.as_slice()) {
        (b"p", &[kind, length @ 0..=LONGEST_ROW, f1, n1, f2, n2]) => {
            let lower = Layer::Window { first: f1, length: n1 };
            let upper = Layer::Window { first: f2, length: n2 };
            let layers = match kind {
                0 => vec![],
                1 => vec![lower],
                2 => vec![Layer::HoldBack],
                3 => vec![Layer::HoldBack, lower],
                4 => vec![lower, Layer::HoldBack],
                5 => vec![Layer::HoldBack, Layer::HoldBack],
                6 => vec![lower, Layer::HoldBack, upper],
                _ => return None,
            };
            Some(Action::Pile { length, layers })
        }
        (b"n", []) => Some(Action::Call(Call::Size)),
        (b"r", &[cell]) => Some(Action::Call(Call::Read { cell })),
        (b"w", &[cell, value]) => {
            let value = u16::try_from(value).ok()?;
            Some(Action::Call(Call::Write { cell, value }))
        }
        (b"h", []) => Some(Action::Call(Call::Held)),
        (b"s", []) => Some(Action::Call(Call::Settle)),
        (b"e", []) => Some(Action::End),
        _ => None,
    }
}

/// A number: 1 to 20 digits, and below 2^64.
fn parse_number(digits: &[u8]) -> Option<u64> {
    if digits.is_empty() || digits.len() > 20 {
        return None;
    }
    digits.iter().try_fold(0u64, |number, byte| match byte {
        b'0'..=b'9' => number.checked_mul(10)?.checked_add(u64::from(byte - b'0')),
        _ => None,
    })
}

fn build_pile(length: u64, layers: Vec<Layer>) -> Result<Bank, Refusal> {
    let bank = Bank::words((0..length).map(made_with).collect())?;
    layers.into_iter().try_fold(bank, Bank::under)
}

/// Carries out one line on the pile that stands, if one does, and writes what comes of it.
fn answer(line: &[u8], pile: &mut Option<Bank>, out: &mut impl Write) -> io::Result<()> {
    match parse_action(line) {
        None => writeln!(out, "not an action"),
        Some(Action::Pile { length, layers }) => {
            if let Some(old) = pile.take() {
                old.take_apart(out)?;
            }
            match build_pile(length, layers) {
                Ok(top) => {
                    *pile = Some(top);
                    writeln!(out, "pile")
                }
                Err(refusal) => writeln!(out, "{refusal}"),
            }
        }
        Some(Action::Call(call)) => match pile {
            Some(top) => answer_call(call, top, out),
            None => writeln!(out, "no pile"),
        },
        Some(Action::End) => match pile.take() {
            Some(top) => top.take_apart(out),
            None => writeln!(out, "no pile"),
        },
    }
}

fn answer_call(call: Call, top: &mut Bank, out: &mut impl Write) -> io::Result<()> {
    match call {
        Call::Size => writeln!(out, "size {}", top.size()),
        Call::Read { cell } => match top.read(cell) {
            Ok(value) => writeln!(out, "{value}"),
            Err(refusal) => writeln!(out, "{refusal}"),
        },
        Call::Write { cell, value } => match top.write(cell, value) {
            Ok(()) => writeln!(out, "ok"),
            Err(refusal) => writeln!(out, "{refusal}"),
        },
        Call::Held => write_listing(out, "held", top.held()),
        Call::Settle => {
            top.settle();
            writeln!(out, "settled")
        }
    }
}

fn write_listing(out: &mut impl Write, word: &str, entries: &[Entry]) -> io::Result<()> {
    write!(out, "{word}")?;
    for (cell, value) in entries {
        write!(out, " {cell}={value}")?;
    }
    writeln!(out)
}

fn main() -> io::Result<()> {
    let mut input = Vec::new();
    io::stdin().lock().take(INPUT_LIMIT).read_to_end(&mut input)?;
    let mut out = BufWriter::new(io::stdout().lock());
    let mut pile = None;
    for line in input.split_inclusive(|&byte| byte == b'\n') {
        answer(line.strip_suffix(b"\n").unwrap_or(line), &mut pile, &mut out)?;
    }
    if let Some(rest) = pile {
        rest.take_apart(&mut out)?;
    }
    out.flush()
}
