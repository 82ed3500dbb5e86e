//! Compares a program with this implementation, script by script.

use crate::generate;
use crate::park::Course;
use crate::script::{records, Session};
use std::collections::BTreeMap;
use std::fmt::Display;
use std::io::Write;
use std::process::{Command, Stdio};
use std::sync::Mutex;

/// What happened in all scripts so far.
#[derive(Default)]
struct Tally {
    scripts: u64,
    lines: u64,
    longest: u64,
    /// How often each thing was seen, under a title.
    seen: BTreeMap<&'static str, BTreeMap<String, u64>>,
    different: u64,
    first: Option<(u64, String)>,
}

impl Tally {
    fn see(&mut self, title: &'static str, what: impl Display) {
        let key = format!("{what:>2}");
        *self.seen.entry(title).or_default().entry(key).or_default() += 1;
    }

    /// Runs a script here, counts what it shows and gives its output.
    fn run(&mut self, input: &[u8]) -> Vec<u8> {
        let mut session = Session::default();
        let mut output = Vec::new();
        let before = self.lines;
        for record in records(input) {
            let line = session.record(record);
            self.lines += 1;
            self.see("letters", line.letter);
            self.see("refusals (0 is accepted)", line.refusal);
            self.see("letters with refusals", format!("{}{}", line.letter, line.refusal));
            self.see("answers shown", line.answer);
            if line.letter == 'S' && line.answer != '-' {
                self.see("answers given by steps", line.answer);
            }
            if let (Some(park), 0) = (&session.park, line.refusal) {
                if line.letter == 'O' {
                    self.see("openings by controllers", park.count());
                } else if let ('C' | 'S', Course::Racing(race)) =
                    (line.letter, &park.controllers[&line.controller].course)
                {
                    self.see("phases by selector", race.spot.selector);
                    self.see("phases by round", race.spot.round);
                }
            }
            output.extend(line.text().into_bytes());
        }
        if let Some(park) = &session.park {
            let all = 1..=park.count() as u8;
            if all.clone().all(|p| park.answer(p).is_some()) {
                self.see("runs in which all called and hold answers", park.count());
            }
        }
        self.scripts += 1;
        self.longest = self.longest.max(self.lines - before);
        output
    }

    fn differs(&mut self, seed: u64, how: String) {
        self.different += 1;
        if self.first.as_ref().is_none_or(|(first, _)| seed < *first) {
            self.first = Some((seed, how));
        }
    }

    fn print(&self) {
        println!("scripts: {}", self.scripts);
        println!("lines: {} (longest script {})", self.lines, self.longest);
        for (title, counts) in &self.seen {
            let cells: Vec<String> =
                counts.iter().map(|(what, count)| format!("{}: {count}", what.trim())).collect();
            println!("{title}: {}", cells.join(", "));
        }
    }
}

/// The program's output for an input, or why there is none.
fn ask(program: &str, input: &[u8]) -> Result<Vec<u8>, String> {
    let mut child = Command::new(program)
        .stdin(Stdio::piped())
        .stdout(Stdio::piped())
        .stderr(Stdio::piped())
        .spawn()
        .map_err(|error| format!("{program} does not start: {error}"))?;
    let mut stdin = child.stdin.take().unwrap();
    // Written beside reading, so that neither side can block the other. An
    // error here means that the program has stopped reading.
    let output = std::thread::scope(|scope| {
        scope.spawn(move || {
            let _ = stdin.write_all(input);
        });
        child.wait_with_output()
    })
    .map_err(|error| error.to_string())?;
    if !output.status.success() {
        let said = String::from_utf8_lossy(&output.stderr);
        return Err(format!("{}; it says: {}", output.status, said.trim()));
    }
    Ok(output.stdout)
}

/// The first line that differs, described.
fn difference(input: &[u8], ours: &[u8], theirs: &[u8]) -> String {
    let ours: Vec<&[u8]> = ours.split_inclusive(|byte| *byte == b'\n').collect();
    let theirs: Vec<&[u8]> = theirs.split_inclusive(|byte| *byte == b'\n').collect();
    let same = ours.iter().zip(&theirs).take_while(|(a, b)| a == b).count();
    let show = |lines: &[&[u8]]| match lines.get(same) {
        Some(bytes) => format!("\"{}\"", bytes.escape_ascii()),
        None => "(missing)".to_string(),
    };
    format!(
        "line {}\n  record:    {}\n  reference: {}\n  program:   {}",
        same + 1,
        show(&records(input)),
        show(&ours),
        show(&theirs),
    )
}

/// Runs `count` seeds from `first` on 2 threads; without a program it only
/// counts. Gives true if nothing differed.
pub fn compare(program: Option<&str>, count: u64, first: u64) -> bool {
    let tally = Mutex::new(Tally::default());
    let part = |offset: u64| {
        for number in (offset..count).step_by(2) {
            let seed = first.wrapping_add(number);
            let input = generate::script(seed);
            let ours = tally.lock().unwrap().run(&input);
            let Some(program) = program else { continue };
            match ask(program, &input) {
                Ok(theirs) if theirs == ours => {}
                Ok(theirs) => {
                    let how = difference(&input, &ours, &theirs);
                    tally.lock().unwrap().differs(seed, how);
                }
                Err(why) => tally.lock().unwrap().differs(seed, why),
            }
        }
    };
    std::thread::scope(|scope| {
        scope.spawn(|| part(1));
        part(0);
    });
    let tally = tally.into_inner().unwrap();
    tally.print();
    if program.is_some() {
        println!("scripts that differ: {}", tally.different);
    }
    if let Some((seed, how)) = &tally.first {
        println!("first difference: seed {seed}, {how}");
    }
    tally.different == 0
}
