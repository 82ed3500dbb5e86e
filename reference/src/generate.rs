//! Random scripts, each determined by its seed. Some are valid, some damaged.

use crate::coins::{Coins, Seeded};
use crate::script::{records, Session};

/// A small generator of pseudo-random numbers (xorshift, multiplied).
pub struct Dice(u64);

impl Dice {
    pub fn new(seed: u64) -> Dice {
        let mut dice = Dice(seed.wrapping_mul(0xD6E8_FEB8_6659_FD93) ^ 0x5851_F42D_4C95_7F2D);
        dice.0 |= (dice.0 == 0) as u64;
        for _ in 0..8 {
            dice.any();
        }
        dice
    }

    pub fn any(&mut self) -> u64 {
        self.0 ^= self.0 >> 12;
        self.0 ^= self.0 << 25;
        self.0 ^= self.0 >> 27;
        self.0.wrapping_mul(0x2545_F491_4F6C_DD1D) >> 7 ^ self.0 << 40
    }

    pub fn between(&mut self, low: u64, high: u64) -> u64 {
        low + (self.any() >> 8) % (high - low + 1)
    }

    pub fn percent(&mut self, chance: u64) -> bool {
        self.between(0, 99) < chance
    }

    pub fn of<T: Clone>(&mut self, list: &[T]) -> T {
        list[self.between(0, list.len() as u64 - 1) as usize].clone()
    }

    /// One part of a text that is split at a mark.
    fn part(&mut self, text: &str, mark: char) -> String {
        self.of(&text.split(mark).collect::<Vec<_>>()).to_string()
    }

    pub fn shuffle<T>(&mut self, list: &mut [T]) {
        for last in (1..list.len()).rev() {
            list.swap(last, self.between(0, last as u64) as usize);
        }
    }
}

/// Numbers at the edges of what a field may hold, as text.
const EDGES: &str = "0 1 15 16 255 256 257 1023 1024 1025 65535 65536 2147483647 2147483648 \
    4294967295 4294967296 4294967297 18446744073709551615 18446744073709551616 \
    99999999999999999999 100000000000000000000 340282366920938463463374607431768211457";

/// Inputs that are short and odd.
const ODD: &str = "|\r\n|\r\n\r\n|\r|\n|\n\r|\r\r\n|\r\n\n|\r\n\r|\0|,|,,,|O|O,|O,1,0,0|\
    O,1,0,0\r|O,1,0,0\n|O,1,0,0\n\r\nC,1\r\n|O,1,0,0\r\n\r\n|\u{FEFF}O,1,0,0\r\n|\
    O,1,0,0\nC,1\nS,1\n|O,1,0,0\rC,1\rS,1\r|\"O\",\"1\",\"0\",\"0\"\r\n|\"O,1\r\n,0,0\"\r\nC,1";

struct Writer {
    dice: Dice,
    out: Vec<u8>,
    /// Plays along, so that acts can be chosen that lead somewhere.
    session: Session,
    /// Chance in a thousand that a record is damaged.
    damage: u64,
    /// Chance in a hundred of a crash, where one might come.
    deadly: u64,
    /// How many more records to write.
    left: u64,
}

pub fn script(seed: u64) -> Vec<u8> {
    let mut dice = Dice::new(seed);
    let left = match dice.between(0, 99) {
        0..=39 => dice.between(0, 60),
        40..=84 => dice.between(40, 300),
        85..=97 => dice.between(200, 900),
        _ => dice.between(900, 5000),
    };
    let mut w = Writer {
        damage: dice.of(&[0, 0, 0, 5, 20, 150, 600]),
        deadly: dice.of(&[0, 0, 1, 5, 20]),
        dice,
        out: Vec::new(),
        session: Session::default(),
        left,
    };
    match w.dice.between(0, 99) {
        0..=29 => w.orderly(),
        30..=66 => w.mixed(),
        67..=76 => w.duel(),
        77..=79 => w.tie(),
        80..=87 => w.openings(),
        88..=93 => w.chaos(),
        94..=96 => w.noise(),
        _ => {
            w.out = w.dice.part(ODD, '|').into_bytes();
            return w.out;
        }
    }
    // The last CR LF, or only its LF, may be missing.
    match w.dice.between(0, 19) {
        0..=3 => w.out.truncate(w.out.len().saturating_sub(2)),
        4 => w.out.truncate(w.out.len().saturating_sub(1)),
        _ => {}
    }
    w.out
}

impl Writer {
    /// Writes a record, damaged by chance, and plays it.
    fn put(&mut self, record: String) {
        let mut bytes = record.into_bytes();
        if self.dice.between(0, 999) < self.damage {
            bytes = damaged(&mut self.dice, bytes);
        }
        bytes.extend(b"\r\n");
        for record in records(&bytes) {
            self.session.record(record);
        }
        self.out.extend(bytes);
        self.left = self.left.saturating_sub(1);
    }

    fn act(&mut self, letter: char, number: u64) {
        self.put(format!("{letter},{number}"));
    }

    /// Picks of all sizes; they must not matter here.
    fn deliver(&mut self) {
        let shift = self.dice.between(32, 63);
        let pick = self.dice.any() >> shift;
        self.act('D', pick);
    }

    fn waiting(&self) -> usize {
        use crate::channel::Channel;
        self.session.park.as_ref().map_or(0, |park| park.channel.waiting())
    }

    /// Whether a step of p would be accepted, places aside.
    fn ready(&self, p: u64) -> bool {
        let Some(park) = &self.session.park else { return false };
        p as usize <= park.count()
            && !park.controllers[&(p as u8)].down
            && park.ready(p as u8).is_some()
    }

    /// Whether everyone is down or has an answer.
    fn over(&self) -> bool {
        self.session.park.as_ref().is_some_and(|park| {
            park.controllers.iter().all(|(p, it)| it.down || park.answer(*p).is_some())
        })
    }

    /// Opens; a damaged opening is tried again a few times.
    fn open(&mut self, n: u64, places: u64, seed: u64) -> bool {
        (0..5).any(|_| {
            self.put(format!("O,{n},{places},{seed}"));
            self.session.park.is_some()
        })
    }

    fn seed(&mut self) -> u64 {
        match self.dice.between(0, 9) {
            0 => self.dice.between(0, 9),
            1 => u64::MAX - self.dice.between(0, 9),
            _ => self.dice.any(),
        }
    }

    fn size(&mut self) -> u64 {
        match self.dice.between(0, 9) {
            0..=4 => self.dice.between(1, 4),
            5..=7 => self.dice.between(3, 8),
            _ => self.dice.between(1, 15),
        }
    }

    fn drain(&mut self) {
        while self.waiting() > 0 && self.left > 0 {
            self.deliver();
        }
    }

    /// Everyone ready steps, in the order given.
    fn step_all(&mut self, names: &[u64]) {
        for &p in names {
            if self.ready(p) && self.left > 0 {
                self.act('S', p);
            }
        }
    }

    /// Some call, then deliveries and steps alternate until all have answers.
    fn orderly(&mut self) {
        let n = self.size();
        let seed = self.seed();
        if !self.open(n, 1024, seed) {
            return;
        }
        self.left = self.left.max(n * 40);
        let mut names: Vec<u64> = (1..=n).collect();
        let all = self.dice.percent(40);
        let eager = self.dice.percent(50);
        let hasty = self.dice.of(&[0, 0, 5, 30]);
        self.dice.shuffle(&mut names);
        let callers = if all { n } else { self.dice.between(1, n) };
        if all && (n > 8 || self.dice.percent(20)) {
            self.left = 6500;
        }
        for &p in &names[..callers as usize] {
            self.act('C', p);
            while !eager && self.waiting() > 0 && self.dice.percent(80) {
                self.deliver();
            }
        }
        while self.left > 0 {
            while self.waiting() > 0 && self.left > 0 && !self.dice.percent(hasty) {
                self.deliver();
            }
            if self.dice.percent(50) {
                self.dice.shuffle(&mut names);
            }
            for &p in &names {
                if self.dice.percent(self.deadly / 2) {
                    self.act('X', p);
                }
            }
            self.step_all(&names);
            if self.waiting() == 0 && !names.iter().any(|p| self.ready(*p)) {
                break;
            }
        }
        for _ in 0..self.dice.between(0, 4) {
            self.any_act(n);
        }
    }

    /// Any act; mostly one that can be accepted.
    fn any_act(&mut self, n: u64) {
        let name = match self.dice.between(0, 29) {
            0 => 0,
            1 => self.dice.between(n, n + 3),
            2 => self.dice.of(&[16, 256 + n, 1 << 16, (1 << 32) - 1]),
            _ => self.dice.between(1, n),
        };
        let lowest = if self.waiting() > 0 { 0 } else { 56 };
        match self.dice.between(lowest, 99) {
            0..=59 => self.deliver(),
            60..=70 => self.act('C', name),
            71..=73 if self.dice.percent(self.deadly) => self.act('X', name),
            71..=92 => {
                let ready: Vec<u64> = (1..=n).filter(|p| self.ready(*p)).collect();
                let p = if ready.is_empty() { name } else { self.dice.of(&ready) };
                self.act('S', p);
            }
            93..=97 => self.act('S', name),
            98 => self.put("O,3,9,1".into()),
            _ => self.any_record(),
        }
    }

    /// Calls, deliveries, steps and crashes in any order. With few places they
    /// run out.
    fn mixed(&mut self) {
        let n = self.size();
        let many = self.dice.between(n - 1, 1024);
        let places = self.dice.of(&[n - 1, n, n + 1, 2 * n, many, many, many]);
        let seed = self.seed();
        if !self.open(n, places, seed) {
            return;
        }
        while self.left > 0 {
            self.any_act(n);
            if self.over() {
                self.left = self.left.min(15);
            }
        }
    }

    /// Two callers and one relay, stepped in the order that keeps the callers
    /// apart, so that a selector takes many rounds.
    fn duel(&mut self) {
        let mut seed = self.dice.any();
        while self.dice.percent(90) && Seeded(seed).group(2, 1) == Seeded(seed).group(3, 1) {
            seed = self.dice.any();
        }
        let slip = self.dice.of(&[0, 0, 1, 5, 20]);
        if !self.open(3, 64, seed) {
            return;
        }
        self.left = 400;
        // The one whose group differs from this round's coin opens phase 1
        // first and phase 2 last.
        let mut first = if Seeded(seed).coin(1, 1) == Seeded(seed).group(2, 1) { 3 } else { 2 };
        self.act('C', first);
        self.act('C', 5 - first);
        while self.left > 0 {
            self.drain();
            if let (Some(park), true) = (&self.session.park, self.ready(2)) {
                let race = park.ready(2).unwrap();
                let (k, r) = (race.spot.selector, race.spot.round);
                first = 5 - first;
                if race.spot.phase == 2 {
                    // The leader goes on with its group, the other with the coin.
                    let coin = park.coins.coin(k, r);
                    let next = park.coins.coin(k, (r + 1).min(16));
                    let group = if r == 1 { (first == 2) == race.own_group } else { !coin };
                    first = if group != next { first } else { 5 - first };
                }
            }
            if self.dice.percent(slip) {
                first = 5 - first;
            }
            if !self.ready(2) && !self.ready(3) {
                break;
            }
            self.step_all(&[first, 5 - first]);
        }
    }

    /// Two callers with equal groups in every selector: all 16 are used.
    fn tie(&mut self) {
        let equal =
            |seed: u64| (1..=16).all(|k| Seeded(seed).group(1, k) == Seeded(seed).group(2, k));
        let seed = std::iter::repeat_with(|| self.dice.any()).find(|seed| equal(*seed)).unwrap();
        let n = self.dice.between(2, 4);
        if !self.open(n, 1024, seed) {
            return;
        }
        self.left = 900;
        self.act('C', 1);
        self.act('C', 2);
        while self.left > 0 && (self.waiting() > 0 || self.ready(1) || self.ready(2)) {
            self.drain();
            self.step_all(&[1, 2]);
        }
    }

    /// Letters before any opening, refused openings, then an accepted one.
    fn openings(&mut self) {
        for _ in 0..self.dice.between(1, 8) {
            if self.dice.percent(20) {
                self.any_record();
            }
            let n = self.dice.of(&[0, 0, 1, 2, 3, 8, 14, 15, 16, 17, 255, 257, 65537]);
            let n = if self.dice.percent(3) { u32::MAX as u64 } else { n };
            let places = match self.dice.between(0, 3) {
                0 => n.saturating_sub(2).min(1024),
                1 => n.saturating_sub(1).min(1024),
                2 => self.dice.between(0, 14),
                _ => self.dice.of(&[0, 1023, 1024, 1025]),
            };
            let seed = self.seed();
            self.put(format!("O,{n},{places},{seed}"));
        }
        let n = self.dice.between(1, 4);
        self.left = self.left.min(120);
        while self.left > 0 {
            self.any_act(n);
        }
    }

    /// A record with any letter, any fields.
    fn any_record(&mut self) {
        let letter = self.dice.of(&['O', 'C', 'S', 'X', 'D', 'Q']);
        let fields = match (letter, self.dice.between(0, 9)) {
            (_, 0) => self.dice.between(0, 4),
            ('O', _) => 3,
            _ => 1,
        };
        let mut record = letter.to_string();
        for _ in 0..fields {
            let field = match self.dice.between(0, 3) {
                0 => self.dice.part(EDGES, ' '),
                _ => self.dice.between(0, 16).to_string(),
            };
            record += &format!(",{field}");
        }
        self.put(record);
    }

    fn chaos(&mut self) {
        if self.dice.percent(70) {
            let (n, places) = (self.dice.between(1, 15), self.dice.between(0, 60));
            self.put(format!("O,{n},{places},7"));
        }
        while self.left > 0 {
            self.any_record();
        }
    }

    /// Bytes drawn from a few, or from all, between records.
    fn noise(&mut self) {
        let all = self.dice.percent(30);
        while self.left > 0 {
            let any = self.dice.any() as u8;
            let few = self.dice.of(b"OCSXDD1111230,,,,,\r\n\r\n\"");
            match self.dice.between(0, 9) {
                0..=3 => self.put("O,2,2,1".into()),
                4..=5 => self.out.extend(b"\r\n"),
                _ => self.out.push(if all { any } else { few }),
            }
            self.left = self.left.saturating_sub(1);
        }
    }
}

/// One damage to a record. A few of these leave it valid, at an edge.
fn damaged(dice: &mut Dice, record: Vec<u8>) -> Vec<u8> {
    let text = String::from_utf8(record).unwrap();
    let mut fields: Vec<String> = text.split(',').map(String::from).collect();
    let which = dice.between(0, fields.len() as u64 - 1) as usize;
    let last = fields.len() - 1;
    let spot = dice.between(0, text.len() as u64) as usize;
    let pad = |field: &str, width: usize| format!("{field:0>width$}");
    let inserted = |byte: u8| {
        let mut bytes = text.clone().into_bytes();
        bytes.insert(spot, byte);
        bytes
    };
    match dice.between(0, 24) {
        0 => return text.to_lowercase().into_bytes(),
        1 => fields[which] = format!("\"{}\"", fields[which]),
        2 => return format!("\"{text}\"").into_bytes(),
        3 => return inserted(b' '),
        4 => drop(fields.remove(which)),
        5 => fields.push("1".into()),
        6 => fields[which].clear(),
        7 => fields[last] = pad(&fields[last], 20),
        8 => fields[last] = pad(&fields[last], 21),
        9 | 10 => fields[which] = dice.part(EDGES, ' '),
        11 => {
            let total = dice.of(&[63, 64, 65, 79, 80, 81, 82, 200, 3000]);
            let width = fields[last].len() + total - total.min(text.len());
            fields[last] = pad(&fields[last], width);
        }
        12 => return inserted(b'\r'),
        13 => return inserted(b'\n'),
        14 => return inserted(0),
        15 => return inserted(dice.between(128, 255) as u8),
        16 => return Vec::new(),
        17 => fields[0] = dice.of(&["A", "Z", "?", "CC", "", "0", "c", "OO", " C"]).into(),
        18 => fields[last] = dice.of(&["+1", "-1", "1.0", "0x1", "1e0", "one", "1_0"]).into(),
        19 => return [b"\xEF\xBB\xBF", text.as_bytes()].concat(),
        20 => return text[..spot].into(),
        21 => return inserted(b','),
        22 => return text.replace(',', dice.of(&[";", "\t", ", ", ",,"])).into_bytes(),
        23 => return format!("{text}\r").into_bytes(),
        _ => fields[1..].iter_mut().for_each(|field| *field = pad(field, 20)),
    }
    fields.join(",").into_bytes()
}
