//! The script: records in, one line out for each.

use crate::channel::Line;
use crate::coins::Seeded;
use crate::park::{Acted, Answer, Park, Refusal};

/// Splits the input into records. A record ends at CR LF or at the end of the
/// input; a CR LF at the very end begins no further record.
pub fn records(input: &[u8]) -> Vec<&[u8]> {
    let mut found = Vec::new();
    let mut rest = input;
    while !rest.is_empty() {
        match rest.windows(2).position(|pair| pair == b"\r\n") {
            Some(end) => {
                found.push(&rest[..end]);
                rest = &rest[end + 2..];
            }
            None => {
                found.push(rest);
                rest = &[];
            }
        }
    }
    found
}

/// A record that is well formed.
#[derive(Clone, Copy, Debug, PartialEq, Eq)]
enum Order {
    Open { n: u32, places: usize, seed: u64 },
    Call(u32),
    Step(u32),
    Crash(u32),
    Deliver(u32),
}

/// 1 to 20 decimal digits with a value of at most `most`.
fn number(field: &[u8], most: u64) -> Option<u64> {
    if field.is_empty() || field.len() > 20 || !field.iter().all(u8::is_ascii_digit) {
        return None;
    }
    let value = field.iter().fold(0u128, |value, digit| value * 10 + (digit - b'0') as u128);
    (value <= most as u128).then_some(value as u64)
}

fn parse(record: &[u8]) -> Option<Order> {
    if record.len() > 80 || record.contains(&b'"') {
        return None;
    }
    let fields: Vec<&[u8]> = record.split(|byte| *byte == b',').collect();
    let small = |field| number(field, u32::MAX as u64).map(|value| value as u32);
    match fields.as_slice() {
        [b"O", n, places, seed] => Some(Order::Open {
            n: small(n)?,
            places: number(places, 1024)? as usize,
            seed: number(seed, u64::MAX)?,
        }),
        [b"C", name] => small(name).map(Order::Call),
        [b"S", name] => small(name).map(Order::Step),
        [b"X", name] => small(name).map(Order::Crash),
        [b"D", pick] => small(pick).map(Order::Deliver),
        _ => None,
    }
}

/// A line of the output: the letter, the refusal or 0, the controller acted
/// on or 0, and its answer or a dash.
#[derive(Clone, Copy, Debug, PartialEq, Eq)]
pub struct Output {
    pub letter: char,
    pub refusal: u8,
    pub controller: u8,
    pub answer: char,
}

impl Output {
    fn bare(letter: char, refusal: u8) -> Output {
        Output { letter, refusal, controller: 0, answer: '-' }
    }

    fn of(letter: char, result: Result<Acted, Refusal>) -> Output {
        match result {
            Err(refusal) => Output::bare(letter, refusal as u8),
            Ok(acted) => Output {
                letter,
                refusal: 0,
                controller: acted.controller,
                answer: match acted.answer {
                    Some(Answer::Yes) => 'y',
                    Some(Answer::No) => 'n',
                    Some(Answer::Undecided) => 'u',
                    None => '-',
                },
            },
        }
    }

    pub fn text(&self) -> String {
        let Output { letter, refusal, controller, answer } = self;
        format!("{letter},{refusal},{controller},{answer}\r\n")
    }
}

/// A run of a script. It has a park once an opening was accepted.
#[derive(Default)]
pub struct Session {
    pub park: Option<Park<Line, Seeded>>,
}

impl Session {
    pub fn record(&mut self, record: &[u8]) -> Output {
        let bad = Output::bare('?', Refusal::Line as u8);
        let Some(order) = parse(record) else {
            return bad;
        };
        match (order, &mut self.park) {
            (Order::Open { n, places, seed }, None) => {
                // Memory is enough for 15 controllers; the vehicle is 0.
                match Park::open(n, 15 * 1024, 0, Line::new(places), Seeded(seed)) {
                    Ok(park) => {
                        self.park = Some(park);
                        Output::bare('O', 0)
                    }
                    Err(refusal) => Output::bare('O', refusal as u8),
                }
            }
            (Order::Open { .. }, Some(_)) | (_, None) => bad,
            (Order::Call(p), Some(park)) => Output::of('C', park.call(p)),
            (Order::Step(p), Some(park)) => Output::of('S', park.step(p)),
            (Order::Crash(p), Some(park)) => Output::of('X', park.crash(p)),
            (Order::Deliver(pick), Some(park)) => Output::of('D', park.deliver(pick)),
        }
    }
}

pub fn run(input: &[u8]) -> Vec<u8> {
    let mut session = Session::default();
    records(input)
        .into_iter()
        .flat_map(|record| session.record(record).text().into_bytes())
        .collect()
}
