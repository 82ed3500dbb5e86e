//! The park: its controllers, its acts and its refusals.

use crate::channel::Channel;
use crate::coins::Coins;
use crate::words::{reading, Group, Kind, Message, Name, Spot, Word, LAST};
use std::collections::{BTreeMap, HashMap};

#[derive(Clone, Copy, Debug, PartialEq, Eq)]
pub enum Answer {
    Yes,
    No,
    Undecided,
}

/// If two apply, the smaller number is given.
#[derive(Clone, Copy, Debug, PartialEq, Eq)]
pub enum Refusal {
    Count = 1,
    Memory = 2,
    Places = 3,
    Name = 4,
    Down = 5,
    Called = 6,
    NotReady = 7,
    NoPlace = 8,
    Nothing = 9,
    Leftover = 10,
    Message = 11,
    NoAnswer = 12,
    Taken = 13,
    Permit = 14,
    Line = 15,
}

/// A caller on its way: the phase it is in, its group in this selector, and
/// the words heard in this phase, by controller.
#[derive(Clone, Debug, PartialEq, Eq)]
pub struct Race {
    pub spot: Spot,
    pub own_group: bool,
    pub heard: BTreeMap<u8, Word>,
}

#[derive(Clone, Debug, Default, PartialEq, Eq)]
pub enum Course {
    #[default]
    NotCalled,
    Racing(Race),
    Answered(Answer),
}

/// A page maps a spot to its word; a spot not in the map is an empty cell.
pub type Page = HashMap<Spot, Word>;

#[derive(Clone, Debug, Default, PartialEq, Eq)]
pub struct Controller {
    pub down: bool,
    pub kept: Page,
    pub said: Page,
    pub course: Course,
}

#[derive(Clone, Copy, Debug, PartialEq, Eq)]
pub enum Stage {
    None,
    Held,
    Loaded,
    Dispatched,
    HandedBack,
}

/// A permit that can be loaded or handed back.
#[derive(Debug, PartialEq, Eq)]
#[must_use]
pub struct Held {
    vehicle: u32,
}

/// A permit that can only be dispatched.
#[derive(Debug, PartialEq, Eq)]
#[must_use]
pub struct Loaded {
    vehicle: u32,
}

/// An accepted act: the controller acted on and its answer after the act.
#[derive(Clone, Copy, Debug, PartialEq, Eq)]
pub struct Acted {
    pub controller: u8,
    pub answer: Option<Answer>,
}

/// What the end of phase 2 leads to.
#[derive(Clone, Copy, Debug, PartialEq, Eq)]
pub enum Verdict {
    /// The selector's result, a pair.
    Result(bool, bool),
    /// On to the next round with this group.
    GoOn(bool),
}

/// What a step leads to.
enum Next {
    Answer(Answer),
    Open(Spot, Word),
}

#[derive(Clone, Debug, PartialEq, Eq)]
pub struct Park<C, K> {
    pub vehicle: u32,
    pub majority: usize,
    pub stage: Stage,
    pub controllers: BTreeMap<u8, Controller>,
    pub channel: C,
    pub coins: K,
}

pub fn majority(n: usize) -> usize {
    n / 2 + 1
}

/// The first rule that fits, after phase 2 with these heard words.
pub fn after_phase_two(
    me: u8,
    own_group: bool,
    round: u8,
    coin: bool,
    groups: &[Group],
    names: &[Name],
) -> Verdict {
    // A name was heard.
    if let Some(smallest) = names.iter().copied().flatten().min() {
        return if smallest != me {
            Verdict::Result(false, false)
        } else if names.iter().all(|name| *name == Some(me)) {
            Verdict::Result(true, true)
        } else {
            Verdict::GoOn(own_group)
        };
    }
    // All heard groups are the same 0 or 1.
    if let Some(group) = reading(groups) {
        return Verdict::Result(group == own_group, false);
    }
    // A 0 or 1 was heard: the smallest.
    if let Some(group) = groups.iter().copied().flatten().min() {
        return Verdict::GoOn(group);
    }
    // All are blank: the coin counts only from round 2 on.
    Verdict::GoOn(if round == 1 { own_group } else { coin })
}

impl<C: Channel, K: Coins> Park<C, K> {
    /// Opens a park. `cells` is how many cells of memory the host lends.
    pub fn open(
        n: u32,
        cells: usize,
        vehicle: u32,
        channel: C,
        coins: K,
    ) -> Result<Park<C, K>, Refusal> {
        if n == 0 || n > 15 {
            return Err(Refusal::Count);
        }
        let n = n as usize;
        if cells < 1024 * n {
            return Err(Refusal::Memory);
        }
        if channel.places() < n - 1 {
            return Err(Refusal::Places);
        }
        if channel.waiting() > 0 {
            return Err(Refusal::Leftover);
        }
        Ok(Park {
            vehicle,
            majority: majority(n),
            stage: Stage::None,
            controllers: (1..=n as u8).map(|p| (p, Controller::default())).collect(),
            channel,
            coins,
        })
    }

    pub fn count(&self) -> usize {
        self.controllers.len()
    }

    /// The cell at a place of the host's memory: 1,024 cells a controller,
    /// the kept page first, then the said page.
    pub fn cell(&self, place: usize) -> Option<Word> {
        let controller = self.controllers.get(&((place / 1024 + 1) as u8))?;
        let page = if place % 1024 < 512 { &controller.kept } else { &controller.said };
        page.get(&Spot::at(place % 512)).copied()
    }

    pub fn answer(&self, p: u8) -> Option<Answer> {
        match self.controllers[&p].course {
            Course::Answered(answer) => Some(answer),
            _ => None,
        }
    }

    /// The race of a caller that is ready: up or not, its heard set is a
    /// majority and it holds no answer.
    pub fn ready(&self, p: u8) -> Option<&Race> {
        match &self.controllers[&p].course {
            Course::Racing(race) if race.heard.len() >= self.majority => Some(race),
            _ => None,
        }
    }

    pub fn call(&mut self, p: u32) -> Result<Acted, Refusal> {
        let me = self.named_and_up(p)?;
        if self.controllers[&me].course != Course::NotCalled {
            return Err(Refusal::Called);
        }
        self.places_for_a_phase()?;
        let (spot, word) = self.start_of_selector(me, 1);
        self.open_phase(me, spot, word);
        Ok(self.acted(me))
    }

    pub fn step(&mut self, p: u32) -> Result<Acted, Refusal> {
        let me = self.named_and_up(p)?;
        let race = self.ready(me).ok_or(Refusal::NotReady)?;
        match self.next(me, race) {
            // An answer sends nothing and so needs no place.
            Next::Answer(answer) => {
                self.controllers.get_mut(&me).unwrap().course = Course::Answered(answer);
            }
            Next::Open(spot, word) => {
                self.places_for_a_phase()?;
                self.open_phase(me, spot, word);
            }
        }
        Ok(self.acted(me))
    }

    pub fn deliver(&mut self, pick: u32) -> Result<Acted, Refusal> {
        let (message, _) = self.channel.fetch(pick).ok_or(Refusal::Nothing)?;
        // A bad message is found before the receiver is found to be down.
        self.well_formed(&message)?;
        if !self.controllers[&message.receiver].down {
            self.take(message);
        }
        Ok(self.acted(message.receiver))
    }

    /// Hands one message to one controller.
    pub fn receive(&mut self, p: u32, message: Message) -> Result<Acted, Refusal> {
        let me = self.named_and_up(p)?;
        if message.kind == Kind::Phase && self.channel.free() == 0 {
            return Err(Refusal::NoPlace);
        }
        self.well_formed(&message)?;
        if message.receiver != me {
            return Err(Refusal::Message);
        }
        self.take(message);
        Ok(self.acted(me))
    }

    pub fn crash(&mut self, p: u32) -> Result<Acted, Refusal> {
        let me = self.named_and_up(p)?;
        self.controllers.get_mut(&me).unwrap().down = true;
        Ok(self.acted(me))
    }

    /// Tells the answer; the first collecting of a yes also gives a permit.
    pub fn collect(&mut self, p: u32) -> Result<(Answer, Option<Held>), Refusal> {
        let me = self.named_and_up(p)?;
        let answer = self.answer(me).ok_or(Refusal::NoAnswer)?;
        if answer != Answer::Yes {
            return Ok((answer, None));
        }
        if self.stage != Stage::None {
            return Err(Refusal::Taken);
        }
        self.stage = Stage::Held;
        let vehicle = self.vehicle;
        Ok((answer, Some(Held { vehicle })))
    }

    /// A refused permit comes back, here and below.
    pub fn load(&mut self, permit: Held) -> Result<Loaded, (Refusal, Held)> {
        if permit.vehicle != self.vehicle || self.stage != Stage::Held {
            return Err((Refusal::Permit, permit));
        }
        self.stage = Stage::Loaded;
        Ok(Loaded { vehicle: permit.vehicle })
    }

    pub fn dispatch(&mut self, permit: Loaded) -> Result<(), (Refusal, Loaded)> {
        if permit.vehicle != self.vehicle || self.stage != Stage::Loaded {
            return Err((Refusal::Permit, permit));
        }
        self.stage = Stage::Dispatched;
        Ok(())
    }

    pub fn hand_back(&mut self, permit: Held) -> Result<(), (Refusal, Held)> {
        if permit.vehicle != self.vehicle || self.stage != Stage::Held {
            return Err((Refusal::Permit, permit));
        }
        self.stage = Stage::HandedBack;
        Ok(())
    }

    fn acted(&self, me: u8) -> Acted {
        Acted { controller: me, answer: self.answer(me) }
    }

    fn named_and_up(&self, p: u32) -> Result<u8, Refusal> {
        if p == 0 || p as usize > self.count() {
            return Err(Refusal::Name);
        }
        let me = p as u8;
        if self.controllers[&me].down {
            return Err(Refusal::Down);
        }
        Ok(me)
    }

    fn places_for_a_phase(&self) -> Result<(), Refusal> {
        if self.channel.free() < self.count() - 1 {
            return Err(Refusal::NoPlace);
        }
        Ok(())
    }

    fn well_formed(&self, message: &Message) -> Result<(), Refusal> {
        let known = 1..=self.count() as u8;
        let good = known.contains(&message.sender)
            && known.contains(&message.receiver)
            && message.sender != message.receiver
            && message.spot.within_limits()
            && message.word.name.is_none_or(|name| known.contains(&name));
        good.then_some(()).ok_or(Refusal::Message)
    }

    /// Round 1, phase 1, with the caller's group in that selector and its name.
    fn start_of_selector(&self, me: u8, selector: u8) -> (Spot, Word) {
        let word = Word { group: Some(self.coins.group(me, selector)), name: Some(me) };
        (Spot::new(selector, 1, 1), word)
    }

    fn open_phase(&mut self, me: u8, spot: Spot, word: Word) {
        let own_group = self.coins.group(me, spot.selector);
        let controller = self.controllers.get_mut(&me).unwrap();
        controller.said.insert(spot, word);
        // The first word is kept, also against one's own.
        let kept = *controller.kept.entry(spot).or_insert(word);
        controller.course =
            Course::Racing(Race { spot, own_group, heard: BTreeMap::from([(me, kept)]) });
        for other in 1..=self.count() as u8 {
            if other != me {
                self.send(Kind::Phase, me, other, spot, word);
            }
        }
    }

    /// One message for a controller that is up.
    fn take(&mut self, message: Message) {
        let Message { sender, spot, .. } = message;
        let me = message.receiver;
        let majority = self.majority;
        let controller = self.controllers.get_mut(&me).unwrap();
        match (message.kind, &mut controller.course) {
            (Kind::Phase, _) => {
                let kept = *controller.kept.entry(spot).or_insert(message.word);
                self.send(Kind::Echo, me, sender, spot, kept);
            }
            // Counts only while waiting in that very phase, once a sender.
            (Kind::Echo, Course::Racing(race))
                if race.spot == spot && race.heard.len() < majority =>
            {
                race.heard.entry(sender).or_insert(message.word);
            }
            (Kind::Echo, _) => {}
        }
    }

    fn send(&mut self, kind: Kind, sender: u8, receiver: u8, spot: Spot, word: Word) {
        let sent = self.channel.send(Message { kind, sender, receiver, spot, word });
        assert!(sent, "a place was free");
    }

    /// Where a step of a ready caller leads.
    fn next(&self, me: u8, race: &Race) -> Next {
        let Spot { selector, round, phase } = race.spot;
        let groups: Vec<Group> = race.heard.values().map(|word| word.group).collect();
        let names: Vec<Name> = race.heard.values().map(|word| word.name).collect();
        if phase == 1 {
            let word = Word { group: reading(&groups), name: reading(&names) };
            return Next::Open(Spot::new(selector, round, 2), word);
        }
        let coin = self.coins.coin(selector, round);
        match after_phase_two(me, race.own_group, round, coin, &groups, &names) {
            Verdict::GoOn(_) if round == LAST => Next::Answer(Answer::Undecided),
            Verdict::GoOn(group) => {
                let word = Word { group: Some(group), name: None };
                Next::Open(Spot::new(selector, round + 1, 1), word)
            }
            Verdict::Result(true, true) => Next::Answer(Answer::Yes),
            Verdict::Result(false, _) => Next::Answer(Answer::No),
            Verdict::Result(true, false) if selector == LAST => Next::Answer(Answer::Undecided),
            Verdict::Result(true, false) => {
                let (spot, word) = self.start_of_selector(me, selector + 1);
                Next::Open(spot, word)
            }
        }
    }
}
