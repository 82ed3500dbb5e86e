//! Makes the host calls that no script can make, and writes one line for each
//! with its result.

use reference::channel::{Bag, Channel, Line, Mark};
use reference::coins::Seeded;
use reference::park::{Acted, Answer, Held, Loaded, Park, Refusal, Stage};
use reference::words::{Group, Kind, Message, Spot, Word};

const FILLING: Word = Word { group: Some(true), name: Some(9) };

fn main() {
    openings();
    pages();
    count_places();
    post_and_fetch();
    deliver_malformed();
    receive_messages();
    collect_answers();
}

// What fills the memory of a channel.
fn blank_message() -> Message {
    let word = Word { group: None, name: None };
    Message { kind: Kind::Phase, sender: 0, receiver: 0, spot: Spot::new(0, 0, 0), word }
}

/// Sender, receiver, selector, round, phase and name.
fn message(kind: Kind, fields: [u8; 6]) -> Message {
    let [sender, receiver, selector, round, phase, name] = fields;
    let word = Word { group: Some(false), name: Some(name) };
    Message { kind, sender, receiver, spot: Spot::new(selector, round, phase), word }
}

fn group_text(group: Group) -> &'static str {
    match group {
        Some(false) => "group 0",
        Some(true) => "group 1",
        None => "no group",
    }
}

fn message_text(m: Message) -> String {
    let kind = match m.kind {
        Kind::Phase => "PHASE",
        Kind::Echo => "ECHO",
    };
    let name = m.word.name.map_or("no name".to_string(), |name| format!("name {name}"));
    let Spot { selector, round, phase } = m.spot;
    let group = group_text(m.word.group);
    format!(
        "{kind} from {} to {} in {selector} {round} {phase}, {group}, {name}",
        m.sender, m.receiver
    )
}

fn stage_text(stage: Stage) -> &'static str {
    match stage {
        Stage::None => "not given",
        Stage::Held => "held",
        Stage::Loaded => "loaded",
        Stage::Dispatched => "dispatched",
        Stage::HandedBack => "handed back",
    }
}

/// A host with a park: the park's own cells, then those that it leaves alone.
struct Host<C> {
    park: Park<C, Seeded>,
    cells: usize,
}

fn host<C: Channel>(n: u32, vehicle: u32, cells: usize, channel: C) -> Host<C> {
    Host { park: Park::open(n, cells, vehicle, channel, Seeded(43)).unwrap(), cells }
}

impl<C: Channel> Host<C> {
    /// All cells: what a park of n does not use is as it was filled.
    fn memory(&self) -> Vec<Option<Word>> {
        let own = 1024 * self.park.count();
        (0..self.cells)
            .map(|place| if place < own { self.park.cell(place) } else { Some(FILLING) })
            .collect()
    }

    fn act(&mut self, text: &str, act: impl Fn(&mut Park<C, Seeded>) -> Result<Acted, Refusal>) {
        match act(&mut self.park) {
            Err(refusal) => println!("{text}: refused {}", refusal as u8),
            Ok(_) if text.starts_with("crash") => println!("{text}: accepted"),
            Ok(acted) if text.starts_with("deliver") => {
                println!("{text}: accepted, delivered to {}", acted.controller)
            }
            Ok(Acted { answer: None, .. }) => println!("{text}: accepted, no answer"),
            Ok(Acted { answer: Some(Answer::Yes), .. }) => println!("{text}: accepted, answer y"),
            Ok(Acted { answer: Some(Answer::No), .. }) => println!("{text}: accepted, answer n"),
            Ok(Acted { answer: Some(Answer::Undecided), .. }) => {
                println!("{text}: accepted, answer u")
            }
        }
    }

    fn call(&mut self, p: u32) {
        self.act(&format!("call {p}"), |park| park.call(p));
    }

    fn step(&mut self, p: u32) {
        self.act(&format!("step {p}"), |park| park.step(p));
    }

    fn crash(&mut self, p: u32) {
        self.act(&format!("crash {p}"), |park| park.crash(p));
    }

    fn deliver(&mut self, pick: u32) {
        self.act(&format!("deliver with pick {pick}"), |park| park.deliver(pick));
    }

    fn post(&mut self, m: Message) {
        let done = if self.park.channel.send(m) { "accepted" } else { "refused" };
        println!("post {}: {done}", message_text(m));
    }

    fn fetch(&mut self, pick: u32) {
        match self.park.channel.fetch(pick) {
            Some((m, Mark::Gone)) => println!("fetch with pick {pick}: {}, gone", message_text(m)),
            Some((m, Mark::Copied)) => {
                println!("fetch with pick {pick}: {}, copied", message_text(m))
            }
            None => println!("fetch with pick {pick}: nothing waits"),
        }
    }

    fn receive(&mut self, p: u32, kind: Kind, fields: [u8; 6]) {
        let m = message(kind, fields);
        let text = format!("receive at {p} {}", message_text(m));
        match self.park.receive(p, m) {
            Ok(_) => println!("{text}: accepted"),
            Err(refusal) => println!("{text}: refused {}", refusal as u8),
        }
    }

    fn receive_both(&mut self, p: u32, fields: [u8; 6]) {
        self.receive(p, Kind::Phase, fields);
        self.receive(p, Kind::Echo, fields);
    }

    fn show_cells(&self, first: usize) {
        show_cells(&self.memory(), first);
    }

    fn show_stage(&self) {
        println!("stage: {}", stage_text(self.park.stage));
    }

    /// The permit, if collecting gives it.
    fn collect(&mut self, p: u32) -> Option<Held> {
        match self.park.collect(p) {
            Err(refusal) => println!("collect {p}: refused {}", refusal as u8),
            Ok((Answer::No, _)) => println!("collect {p}: no"),
            Ok((Answer::Undecided, _)) => println!("collect {p}: undecided"),
            Ok((Answer::Yes, permit)) => {
                println!("collect {p}: yes with a permit, {}", stage_text(self.park.stage));
                return permit;
            }
        }
        None
    }

    fn load(&mut self, permit: Held) -> Result<Loaded, Held> {
        let tried = self.park.load(permit);
        let stage = stage_text(self.park.stage);
        match tried {
            Ok(loaded) => {
                println!("load: accepted, {stage}");
                Ok(loaded)
            }
            Err((refusal, permit)) => {
                println!("load: refused {}, {stage}", refusal as u8);
                Err(permit)
            }
        }
    }

    fn dispatch(&mut self, permit: Loaded) -> Result<(), Loaded> {
        let tried = self.park.dispatch(permit);
        let stage = stage_text(self.park.stage);
        match tried {
            Ok(()) => {
                println!("dispatch: accepted, {stage}");
                Ok(())
            }
            Err((refusal, permit)) => {
                println!("dispatch: refused {}, {stage}", refusal as u8);
                Err(permit)
            }
        }
    }

    fn hand_back(&mut self, permit: Held) -> Result<(), Held> {
        let tried = self.park.hand_back(permit);
        let stage = stage_text(self.park.stage);
        match tried {
            Ok(()) => {
                println!("hand back: accepted, {stage}");
                Ok(())
            }
            Err((refusal, permit)) => {
                println!("hand back: refused {}, {stage}", refusal as u8);
                Err(permit)
            }
        }
    }

    /// Collects, and spends the permit if one is given.
    fn collect_and_spend(&mut self, p: u32, hands_back: bool) {
        if let Some(permit) = self.collect(p) {
            if hands_back {
                self.hand_back(permit).unwrap();
            } else {
                let loaded = self.load(permit).unwrap();
                self.dispatch(loaded).unwrap();
            }
        }
        self.show_stage();
    }
}

fn show_cells(memory: &[Option<Word>], first: usize) {
    print!("cells that hold a word:");
    for place in (0..memory.len().min(first)).filter(|place| memory[*place].is_some()) {
        print!(" {place}");
    }
    let filled = memory.iter().filter(|cell| **cell == Some(FILLING)).count();
    println!("; {filled} of {} as filled", memory.len());
}

fn show_back(channel: &impl Channel, memory: &[Option<Word>]) {
    print!("back: {} places, {} waiting, ", channel.places(), channel.waiting());
    show_cells(memory, 0);
}

fn openings() {
    for (n, cells, places, waiting) in [
        (0, 3072, 2, 0),
        (16, 16384, 15, 0),
        (u32::MAX, 3072, 2, 0),
        (3, 3071, 2, 0),
        (3, 3072, 2, 0),
        (3, 3072, 1, 0),
        (3, 3072, 2, 1),
        (16, 0, 0, 0),
        (0, 0, 1, 1),
        (3, 3071, 1, 0),
        (3, 3071, 2, 2),
        (3, 3072, 1, 1),
        (3, 3080, 4, 0),
        (1, 1024, 0, 0),
        (15, 15359, 14, 0),
        (15, 15360, 13, 0),
        (15, 15360, 14, 0),
    ] {
        print!("open {n} controllers, {cells} cells, {places} places, {waiting} waiting: ");
        let mut line = Line::new(places);
        for _ in 0..waiting {
            assert!(line.send(blank_message()));
        }
        match Park::open(n, cells, 7, line.clone(), Seeded(43)) {
            Ok(park) => {
                println!("accepted");
                let host = Host { park, cells };
                show_back(&host.park.channel, &host.memory());
            }
            // A refused opening gives everything back as it was.
            Err(refusal) => {
                println!("refused {}", refusal as u8);
                show_back(&line, &vec![Some(FILLING); cells]);
            }
        }
    }
}

fn pages() {
    let mut host = host(3, 7, 3080, Line::new(20));
    let acts: [fn(&mut Host<Line>); 12] = [
        |h| h.call(2),
        |h| h.deliver(0),
        |h| h.deliver(0),
        |h| h.deliver(0),
        |h| h.step(2),
        |h| h.call(3),
        |h| h.deliver(0),
        |h| h.deliver(0),
        |h| h.deliver(0),
        |h| h.deliver(0),
        |h| h.crash(1),
        |h| h.deliver(0),
    ];
    host.show_cells(3072);
    for act in acts {
        act(&mut host);
        host.show_cells(3072);
    }
    show_back(&host.park.channel, &host.memory());
}

fn count_places() {
    for size in [65534, 65535, 65536] {
        let (bag, line) = (Bag::new(size).places(), Line::new(size).places());
        println!("memory for {size} messages: {bag} places in a bag, {line} in a line");
    }
}

fn post_and_fetch() {
    println!("a bag of 3 places");
    fill_and_empty(host(3, 7, 3072, Bag::new(3)));
    println!("a line of 3 places");
    fill_and_empty(host(3, 7, 3072, Line::new(3)));
}

fn fill_and_empty<C: Channel>(mut host: Host<C>) {
    host.fetch(0);
    for round in 1..=4 {
        host.post(message(Kind::Echo, [2, 1, 1, round, 1, 2]));
    }
    for pick in [0x8000_0000, 0x8000_0001, 0x8000_0001, 3, 1, 0xFFFF_FFFF, 0] {
        host.fetch(pick);
    }
}

const MALFORMED: [[u8; 6]; 16] = [
    [0, 1, 1, 1, 1, 2],
    [4, 1, 1, 1, 1, 2],
    [255, 1, 1, 1, 1, 2],
    [2, 0, 1, 1, 1, 2],
    [2, 4, 1, 1, 1, 2],
    [2, 255, 1, 1, 1, 2],
    [1, 1, 1, 1, 1, 2],
    [2, 1, 0, 1, 1, 2],
    [2, 1, 17, 1, 1, 2],
    [2, 1, 1, 0, 1, 2],
    [2, 1, 1, 17, 1, 2],
    [2, 1, 1, 1, 0, 2],
    [2, 1, 1, 1, 3, 2],
    [2, 1, 1, 1, 1, 0],
    [2, 1, 1, 1, 1, 4],
    [2, 1, 1, 1, 1, 255],
];

fn deliver_malformed() {
    let mut host = host(3, 7, 3072, Line::new(3));
    println!("all controllers are up");
    deliver_each(&mut host);
    host.crash(1);
    deliver_each(&mut host);
}

fn deliver_each(host: &mut Host<Line>) {
    for fields in MALFORMED {
        post_and_deliver(host, Kind::Phase, fields);
        post_and_deliver(host, Kind::Echo, fields);
    }
    host.show_cells(3072);
    post_and_deliver(host, Kind::Echo, [2, 1, 16, 16, 2, 3]);
    post_and_deliver(host, Kind::Phase, [2, 1, 16, 16, 2, 3]);
    host.show_cells(3072);
}

fn post_and_deliver(host: &mut Host<Line>, kind: Kind, fields: [u8; 6]) {
    host.post(message(kind, fields));
    host.deliver(0);
    host.fetch(0);
}

const GOOD: [u8; 6] = [2, 1, 1, 1, 1, 2];
const BAD: [u8; 6] = [2, 1, 1, 1, 1, 4];
const TO_2: [u8; 6] = [1, 2, 1, 1, 1, 1];
const TO_3: [u8; 6] = [2, 3, 1, 1, 1, 2];

fn receive_messages() {
    let mut host = host(3, 7, 3072, Line::new(2));
    host.crash(3);
    for p in [0, 4, u32::MAX, 3] {
        host.receive_both(p, GOOD);
        host.receive_both(p, BAD);
    }
    for fields in MALFORMED {
        host.receive_both(1, fields);
    }
    host.receive_both(1, TO_2);
    host.receive_both(1, TO_3);
    host.show_cells(3072);
    host.fetch(0);
    receive_when_full(&mut host);
    receive_well_formed(&mut host);
}

fn receive_when_full(host: &mut Host<Line>) {
    host.post(message(Kind::Echo, GOOD));
    host.post(message(Kind::Echo, GOOD));
    for p in [0, 4, 3, 1] {
        host.receive_both(p, BAD);
        host.receive_both(p, TO_2);
        host.receive_both(p, GOOD);
    }
    host.show_cells(3072);
    for _ in 0..3 {
        host.fetch(0);
    }
}

fn receive_well_formed(host: &mut Host<Line>) {
    host.receive(1, Kind::Phase, GOOD);
    host.fetch(0);
    host.receive(1, Kind::Phase, [2, 1, 1, 1, 1, 3]);
    host.fetch(0);
    host.show_cells(3072);
    host.call(1);
    host.step(1);
    host.receive(1, Kind::Echo, GOOD);
    host.fetch(0);
    host.fetch(0);
    host.step(1);
    for _ in 0..3 {
        host.fetch(0);
    }
}

fn collect_answers() {
    let mut host = host(2, 7, 2048, Line::new(4));
    for p in [0, 3, u32::MAX, 1, 2] {
        host.collect_and_spend(p, false);
    }
    let acts: [fn(&mut Host<Line>); 14] = [
        |h| h.call(1),
        |h| h.deliver(0),
        |h| h.deliver(0),
        |h| h.step(1),
        |h| h.deliver(0),
        |h| h.deliver(0),
        |h| h.step(1),
        |h| h.call(2),
        |h| h.deliver(0),
        |h| h.deliver(0),
        |h| h.step(2),
        |h| h.deliver(0),
        |h| h.deliver(0),
        |h| h.step(2),
    ];
    for act in acts {
        act(&mut host);
        host.collect_and_spend(2, false);
    }
    for p in [2, 1, 1, 2] {
        host.collect_and_spend(p, false);
    }
    host.crash(1);
    host.crash(2);
    for p in [1, 2, 3] {
        host.collect_and_spend(p, false);
    }
    hand_one_back();
}

fn hand_one_back() {
    let mut host = host(1, 7, 1024, Line::new(0));
    let acts: [fn(&mut Host<Line>); 3] = [|h| h.call(1), |h| h.step(1), |h| h.step(1)];
    for act in acts {
        host.collect_and_spend(1, true);
        act(&mut host);
    }
    for _ in 0..3 {
        host.collect_and_spend(1, true);
    }
    host.crash(1);
    host.collect_and_spend(1, true);
}
