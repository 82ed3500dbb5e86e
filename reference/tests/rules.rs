//! The rules, case by case. Each test is called by what it says.

use reference::channel::{Bag, Channel, Line, Mark};
use reference::coins::{BitList, Coins, Seeded};
use reference::generate::Dice;
use reference::park::{
    after_phase_two, majority, Answer, Controller, Course, Park, Refusal, Stage, Verdict,
};
use reference::script::{records, run};
use reference::words::{reading, Group, Kind, Message, Name, Spot, Word};

const ZERO: Group = Some(false);
const ONE: Group = Some(true);
const BLANK: Word = Word { group: None, name: None };

fn word(group: Group, name: Name) -> Word {
    Word { group, name }
}

fn message(kind: Kind, sender: u8, receiver: u8, spot: Spot, word: Word) -> Message {
    Message { kind, sender, receiver, spot, word }
}

fn echo(sender: u8, receiver: u8, spot: Spot, word: Word) -> Message {
    message(Kind::Echo, sender, receiver, spot, word)
}

fn phase(sender: u8, receiver: u8, spot: Spot, word: Word) -> Message {
    message(Kind::Phase, sender, receiver, spot, word)
}

/// A park with plenty of memory and coins that are all 0.
fn park(n: u32, places: usize) -> Park<Line, BitList> {
    Park::open(n, 15 * 1024, 7, Line::new(places), BitList([0; 64])).unwrap()
}

/// Asserts that an act is refused with this number and changes nothing.
fn refused<C, K, T: std::fmt::Debug>(
    park: &mut Park<C, K>,
    refusal: Refusal,
    act: impl Fn(&mut Park<C, K>) -> Result<T, Refusal>,
) where
    Park<C, K>: Clone + PartialEq + std::fmt::Debug,
{
    let before = park.clone();
    assert_eq!(act(park).unwrap_err(), refusal);
    assert_eq!(*park, before);
}

/// A park of one whose controller holds a yes.
fn yes() -> Park<Line, BitList> {
    let mut park = park(1, 0);
    park.call(1).unwrap();
    park.step(1).unwrap();
    assert_eq!(park.step(1).unwrap().answer, Some(Answer::Yes));
    park
}

#[test]
fn majorities() {
    assert_eq!([1, 2, 14, 15].map(majority), [1, 2, 8, 8]);
    assert_eq!(park(14, 13).majority, 8);
}

#[test]
fn the_last_cell_of_a_page_is_511_and_each_cell_has_one_spot() {
    assert_eq!(Spot::new(16, 16, 2).index(), 511);
    assert!((0..512).all(|index| Spot::at(index).index() == index));
    assert!((0..512).all(|index| Spot::at(index).within_limits()));
}

#[test]
fn the_reading_is_the_common_entry_or_blank() {
    assert_eq!(reading(&[ZERO, ZERO]), ZERO);
    assert_eq!(reading(&[ZERO, None]), None);
    assert_eq!(reading(&[ZERO, ONE]), None);
    assert_eq!(reading(&[Some(3), Some(3)]), Some(3));
    assert_eq!(reading::<&str>(&[]), None);
}

#[test]
fn after_phase_two_a_heard_name_decides_first() {
    let heard =
        |me, groups: &[Group], names: &[Name]| after_phase_two(me, true, 1, false, groups, names);
    let (no, yes) = (Verdict::Result(false, false), Verdict::Result(true, true));
    assert_eq!(heard(2, &[ONE, None], &[Some(1), None]), no);
    assert_eq!(heard(1, &[ONE, ONE], &[Some(1), Some(1)]), yes);
    assert_eq!(heard(1, &[ZERO, None], &[Some(1), None]), Verdict::GoOn(true));
    assert_eq!(heard(1, &[ZERO, ZERO], &[Some(1), Some(2)]), Verdict::GoOn(true));
    assert_eq!(heard(2, &[ONE, ONE], &[Some(1), Some(2)]), no);
}

#[test]
fn after_phase_two_without_names_the_groups_decide_then_the_coin() {
    let heard = |own, round, coin, groups: &[Group]| {
        after_phase_two(1, own, round, coin, groups, &vec![None; groups.len()])
    };
    assert_eq!(heard(false, 1, true, &[ZERO, ZERO]), Verdict::Result(true, false));
    assert_eq!(heard(true, 1, true, &[ZERO, ZERO]), Verdict::Result(false, false));
    assert_eq!(heard(false, 1, false, &[ONE, None]), Verdict::GoOn(true));
    assert_eq!(heard(true, 2, true, &[ONE, ZERO, None]), Verdict::GoOn(false));
    assert_eq!(heard(false, 1, true, &[None, None]), Verdict::GoOn(false));
    assert_eq!(heard(false, 2, true, &[None, None]), Verdict::GoOn(true));
}

#[test]
fn coins_are_read_from_the_bits_and_from_the_seed() {
    assert!(!Seeded(0).draw(0));
    // The largest seed: the sum wraps to one less than the first constant.
    assert_eq!(Seeded(u64::MAX).draw(0), 0x9E3779B97F4A7C14u64.count_ones() % 2 == 1);
    let mut bits = [0; 64];
    bits[2] = 0b0000_0010; // draw 17: group of controller 2 in selector 2
    bits[63] = 0b1000_0000; // draw 511: coin of selector 16, round 16
    let list = BitList(bits);
    let ones: Vec<u32> = (0..512).filter(|d| list.draw(*d)).collect();
    assert_eq!(ones, [17, 511]);
    assert!(list.group(2, 2) && list.coin(16, 16) && !list.coin(2, 2));
}

#[test]
fn line_gives_the_oldest_and_refuses_when_full() {
    let mut line = Line::new(2);
    let at = |round| echo(1, 2, Spot::new(1, round, 1), BLANK);
    assert!(line.send(at(1)) && line.send(at(2)) && !line.send(at(3)));
    assert_eq!((line.places(), line.waiting(), line.free()), (2, 2, 0));
    assert_eq!(line.fetch(u32::MAX), Some((at(1), Mark::Gone)));
    assert_eq!(line.fetch(1), Some((at(2), Mark::Gone)));
    assert_eq!(line.fetch(0), None);
    assert_eq!(Line::new(70_000).places(), 65_535);
}

#[test]
fn bag_gives_by_position_copies_if_a_place_is_free_and_moves_the_last() {
    let mut bag = Bag::new(4);
    let at = |round| echo(1, 2, Spot::new(1, round, 1), BLANK);
    assert_eq!(bag.fetch(0), None);
    for round in 1..=4 {
        assert!(bag.send(at(round)));
    }
    assert!(!bag.send(at(5)));
    // 2^31 is 0 mod 4; no place is free, so it leaves and the last moves there.
    assert_eq!(bag.fetch(1 << 31), Some((at(1), Mark::Gone)));
    // 2^31 + 1 is 0 mod 3; a place is free now.
    assert_eq!(bag.fetch((1 << 31) + 1), Some((at(4), Mark::Copied)));
    assert_eq!(bag.fetch(3), Some((at(4), Mark::Gone)));
    assert_eq!(bag.fetch(1), Some((at(2), Mark::Gone)));
    assert_eq!(bag.fetch(i32::MAX as u32), Some((at(3), Mark::Gone)));
    assert_eq!(Bag::new(65_536).places(), 65_535);
}

#[test]
fn openings_are_refused_with_the_smallest_number() {
    let open = |n, cells, places, waits: bool| {
        let mut line = Line::new(places);
        assert!(!waits || line.send(echo(1, 2, Spot::new(1, 1, 1), BLANK)));
        Park::open(n, cells, 0, line, Seeded(0)).map(|park| park.count())
    };
    assert_eq!(open(0, 0, 0, false), Err(Refusal::Count));
    assert_eq!(open(16, 99_999, 99, true), Err(Refusal::Count));
    assert_eq!(open(u32::MAX, 99_999, 99, false), Err(Refusal::Count));
    assert_eq!(open(3, 3_071, 1, true), Err(Refusal::Memory));
    assert_eq!(open(3, 3_072, 1, true), Err(Refusal::Places));
    assert_eq!(open(3, 3_072, 2, true), Err(Refusal::Leftover));
    assert_eq!(open(3, 3_072, 2, false), Ok(3));
    assert_eq!(open(15, 15_360, 14, false), Ok(15));
    assert_eq!(open(1, 1_024, 0, false), Ok(1));
}

#[test]
fn the_first_word_is_kept_and_echoed_also_against_ones_own() {
    let spot = Spot::new(1, 1, 1);
    let mut park = park(3, 9);
    park.receive(2, phase(1, 2, spot, BLANK)).unwrap();
    park.receive(2, phase(3, 2, spot, word(ONE, Some(3)))).unwrap();
    park.call(2).unwrap();
    assert_eq!(park.channel.fetch(0).unwrap().0, echo(2, 1, spot, BLANK));
    assert_eq!(park.channel.fetch(0).unwrap().0, echo(2, 3, spot, BLANK));
    let said = word(ZERO, Some(2));
    assert_eq!(park.channel.fetch(0).unwrap().0, phase(2, 1, spot, said));
    assert_eq!(park.channel.fetch(0).unwrap().0, phase(2, 3, spot, said));
    // Controller 2's cells begin at 1,024; the said page is 512 further on.
    assert_eq!((park.cell(1_024), park.cell(1_536)), (Some(BLANK), Some(said)));
    assert_eq!((0..9_999).filter(|place| park.cell(*place).is_some()).count(), 2);
    let Course::Racing(race) = &park.controllers[&2].course else { panic!() };
    assert_eq!(race.heard.clone().into_iter().collect::<Vec<_>>(), [(2, BLANK)]);
}

#[test]
fn an_echo_counts_once_a_sender_and_only_while_waiting_in_its_phase() {
    let mut park = park(5, 99);
    let here = Spot::new(1, 1, 1);
    let heard = |park: &Park<Line, BitList>| match &park.controllers[&1].course {
        Course::Racing(race) => race.heard.keys().copied().collect(),
        _ => vec![],
    };
    park.receive(1, echo(2, 1, here, BLANK)).unwrap();
    assert!(heard(&park).is_empty());
    park.call(1).unwrap();
    for spot in [Spot::new(2, 1, 1), Spot::new(1, 2, 1), Spot::new(1, 1, 2)] {
        park.receive(1, echo(2, 1, spot, BLANK)).unwrap();
    }
    assert_eq!(heard(&park), [1]);
    park.receive(1, echo(4, 1, here, BLANK)).unwrap();
    park.receive(1, echo(4, 1, here, word(ONE, Some(4)))).unwrap();
    assert_eq!(heard(&park), [1, 4]);
    refused(&mut park, Refusal::NotReady, |park| park.step(1));
    park.receive(1, echo(3, 1, here, BLANK)).unwrap();
    park.receive(1, echo(5, 1, here, BLANK)).unwrap();
    assert_eq!(heard(&park), [1, 3, 4]);
    park.step(1).unwrap();
    assert_eq!(heard(&park), [1]);
    assert_eq!(park.controllers[&1].said[&Spot::new(1, 1, 2)], BLANK);
}

#[test]
fn refusals_of_acts_come_smallest_first_and_change_nothing() {
    let mut park = park(3, 2);
    for name in [0, 4, 257, u32::MAX] {
        refused(&mut park, Refusal::Name, |park| park.call(name));
        refused(&mut park, Refusal::Name, |park| park.step(name));
        refused(&mut park, Refusal::Name, |park| park.crash(name));
        refused(&mut park, Refusal::Name, |park| park.collect(name));
    }
    refused(&mut park, Refusal::Nothing, |park| park.deliver(5));
    refused(&mut park, Refusal::NotReady, |park| park.step(1));
    refused(&mut park, Refusal::NoAnswer, |park| park.collect(1));
    park.call(1).unwrap();
    refused(&mut park, Refusal::Called, |park| park.call(1));
    refused(&mut park, Refusal::NoPlace, |park| park.call(2));
    refused(&mut park, Refusal::NotReady, |park| park.step(1));
    park.receive(1, echo(2, 1, Spot::new(1, 1, 1), BLANK)).unwrap();
    refused(&mut park, Refusal::NoPlace, |park| park.step(1));
    park.crash(1).unwrap();
    refused(&mut park, Refusal::Down, |park| park.call(1));
    refused(&mut park, Refusal::Down, |park| park.step(1));
    refused(&mut park, Refusal::Down, |park| park.crash(1));
    refused(&mut park, Refusal::Down, |park| park.collect(1));
}

#[test]
fn a_step_to_an_answer_needs_no_place() {
    let mut park = park(2, 1);
    park.call(1).unwrap();
    for _ in 0..2 {
        park.deliver(0).unwrap();
        park.deliver(0).unwrap();
        if park.ready(1).unwrap().spot.phase == 1 {
            park.step(1).unwrap();
        }
    }
    park.call(2).unwrap();
    assert_eq!(park.channel.free(), 0);
    assert_eq!(park.step(1).unwrap().answer, Some(Answer::Yes));
    refused(&mut park, Refusal::NotReady, |park| park.step(1));
    refused(&mut park, Refusal::Called, |park| park.call(1));
}

#[test]
fn a_delivery_to_one_that_is_down_is_accepted_and_dropped() {
    let mut park = park(2, 1);
    park.call(1).unwrap();
    park.crash(2).unwrap();
    assert_eq!(park.deliver(0).unwrap().controller, 2);
    assert!(park.controllers[&2].kept.is_empty());
    assert_eq!(park.channel.waiting(), 0);
}

/// All kinds of messages that must not be, for 3 controllers, to controller 2.
fn malformed() -> Vec<Message> {
    let fine = phase(1, 2, Spot::new(16, 16, 2), word(ONE, Some(3)));
    let spots = [(0, 1, 1), (17, 1, 1), (1, 0, 1), (1, 17, 1), (1, 1, 0), (1, 1, 3)];
    let mut list: Vec<Message> =
        spots.iter().map(|(k, r, x)| Message { spot: Spot::new(*k, *r, *x), ..fine }).collect();
    list.extend([0, 2, 4].map(|sender| Message { sender, ..fine }));
    list.extend([0, 4].map(|name| Message { word: word(ONE, Some(name)), ..fine }));
    list
}

#[test]
fn a_malformed_message_is_fetched_and_refused_before_one_that_is_down() {
    let mut park = park(3, 4);
    park.crash(2).unwrap();
    let before = park.clone();
    let astray = [0, 4].map(|to| phase(1, to, Spot::new(1, 1, 1), BLANK));
    for bad in malformed().into_iter().chain(astray) {
        assert!(park.channel.send(bad));
        assert_eq!(park.deliver(0), Err(Refusal::Message));
        assert_eq!(park, before);
    }
}

#[test]
fn a_malformed_message_that_was_copied_still_waits() {
    let mut park = Park::open(3, 3_072, 0, Bag::new(2), Seeded(0)).unwrap();
    assert!(park.channel.send(malformed()[0]));
    refused(&mut park, Refusal::Message, |park| park.deliver(1 << 31));
    assert_eq!(park.deliver(0), Err(Refusal::Message));
    assert_eq!(park.deliver(0), Err(Refusal::Nothing));
}

#[test]
fn receiving_is_refused_smallest_first() {
    let mut park = park(3, 2);
    let fine = phase(1, 2, Spot::new(1, 1, 1), BLANK);
    for bad in malformed() {
        refused(&mut park, Refusal::Message, |park| park.receive(2, bad));
    }
    refused(&mut park, Refusal::Message, |park| park.receive(3, fine));
    park.call(3).unwrap();
    refused(&mut park, Refusal::NoPlace, |park| park.receive(2, fine));
    refused(&mut park, Refusal::NoPlace, |park| park.receive(2, malformed()[0]));
    let bad_echo = Message { kind: Kind::Echo, ..malformed()[0] };
    refused(&mut park, Refusal::Message, |park| park.receive(2, bad_echo));
    park.crash(2).unwrap();
    refused(&mut park, Refusal::Down, |park| park.receive(2, malformed()[0]));
    refused(&mut park, Refusal::Name, |park| park.receive(4, malformed()[0]));
}

#[test]
fn a_permit_is_given_once_then_loaded_and_dispatched_or_handed_back() {
    let (mut one, mut two) = (yes(), yes());
    let (answer, permit) = one.collect(1).unwrap();
    assert_eq!((answer, one.stage), (Answer::Yes, Stage::Held));
    refused(&mut one, Refusal::Taken, |park| park.collect(1));
    let mut other = yes();
    other.vehicle = 8;
    let (_, strange) = other.collect(1).unwrap();
    let (refusal, strange) = one.load(strange.unwrap()).unwrap_err();
    assert_eq!(refusal, Refusal::Permit);
    let (_, strange) = one.hand_back(strange).unwrap_err();
    let loaded = one.load(permit.unwrap()).unwrap();
    let (_, loaded) = other.dispatch(loaded).unwrap_err();
    other.hand_back(strange).unwrap();
    assert_eq!(other.stage, Stage::HandedBack);
    refused(&mut other, Refusal::Taken, |park| park.collect(1));
    // Same number, but the stage of this park is none, then held.
    let (_, loaded) = two.dispatch(loaded).unwrap_err();
    let (_, held) = two.collect(1).unwrap();
    let (_, loaded) = two.dispatch(loaded).unwrap_err();
    // This park is loaded: a held permit does not fit.
    let (_, held) = one.hand_back(held.unwrap()).unwrap_err();
    one.dispatch(loaded).unwrap();
    assert_eq!(one.stage, Stage::Dispatched);
    // A permit of another park with the same number and stage is accepted.
    let mut three = yes();
    let (_, spare) = three.collect(1).unwrap();
    three.hand_back(held).unwrap();
    two.hand_back(spare.unwrap()).unwrap();
}

#[test]
fn a_yes_that_crashed_gives_no_permit_and_a_no_can_be_collected_again() {
    let mut gone = yes();
    gone.crash(1).unwrap();
    assert_eq!(gone.answer(1), Some(Answer::Yes));
    refused(&mut gone, Refusal::Down, |park| park.collect(1));
    let mut park = park(2, 9);
    park.call(2).unwrap();
    for x in [1, 2] {
        park.receive(2, echo(1, 2, Spot::new(1, 1, x), word(ZERO, Some(1)))).unwrap();
        park.step(2).unwrap();
    }
    assert_eq!(park.collect(2).unwrap(), (Answer::No, None));
    assert_eq!(park.collect(2).unwrap(), (Answer::No, None));
}

#[test]
fn undecided_comes_only_after_round_16_or_selector_16() {
    // Echoes decide: blanks lead through the rounds, groups through the selectors.
    for (group, spot) in [(None, Spot::new(1, 16, 2)), (ZERO, Spot::new(16, 1, 2))] {
        let mut park = park(2, 99);
        park.call(1).unwrap();
        while let Course::Racing(race) = &park.controllers[&1].course {
            let here = race.spot;
            park.receive(1, echo(2, 1, here, word(group, None))).unwrap();
            let answer = park.step(1).unwrap().answer;
            assert_eq!(answer.is_some(), here == spot);
        }
        assert_eq!(park.answer(1), Some(Answer::Undecided));
        assert_eq!(park.collect(1).unwrap(), (Answer::Undecided, None));
        let later = Spot::new(1, 2, 1);
        let said = park.controllers[&1].said.get(&later);
        assert!(said.is_none_or(|word| word.name.is_none()));
        let start = park.controllers[&1].said.get(&Spot::new(2, 1, 1));
        assert!(start.is_none_or(|word| word.name == Some(1)));
    }
}

#[test]
fn in_any_run_at_most_one_yes_and_never_all_no() {
    let mut winners = 0;
    for seed in 0..3_000 {
        let mut dice = Dice::new(seed);
        let n = dice.between(1, 6) as u32;
        let mut park = Park::open(n, 9_999, 0, Bag::new(200), Seeded(dice.any())).unwrap();
        let crashes = dice.percent(30);
        for _ in 0..dice.between(100, 1_500) {
            let p = dice.between(1, n as u64) as u32;
            let pick = (dice.any() >> if dice.percent(10) { 32 } else { 33 }) as u32;
            let _ = match dice.between(0, 19) {
                0 => park.call(p),
                1..=7 => park.step(p),
                8 if crashes && dice.percent(5) => park.crash(p),
                _ => park.deliver(pick),
            };
        }
        let callers = park.controllers.values().filter(|it| it.course != Course::NotCalled);
        let has = |it: &&Controller, answer| it.course == Course::Answered(answer);
        assert!(callers.clone().filter(|it| has(it, Answer::Yes)).count() <= 1, "seed {seed}");
        let all_no = callers.clone().all(|it| has(&it, Answer::No));
        assert!(!all_no || callers.count() == 0, "seed {seed}");
        winners += (1..=n as u8).any(|p| park.answer(p) == Some(Answer::Yes)) as u32;
    }
    assert!(winners > 1_000, "{winners} of 3,000 runs with a yes");
}

#[test]
fn the_stated_example() {
    let output = run(b"O,1,0,0\r\nC,1\r\nS,1\r\nS,1\r\nS,1");
    assert_eq!(output, b"O,0,0,-\r\nC,0,1,-\r\nS,0,1,-\r\nS,0,1,y\r\nS,7,0,-\r\n");
}

#[test]
fn records_end_at_cr_lf_or_at_the_end() {
    assert!(records(b"").is_empty() && run(b"").is_empty());
    assert_eq!(records(b"\r\n"), [b""]);
    assert_eq!(records(b"a\r\n\r\n"), [&b"a"[..], b""]);
    assert_eq!(records(b"\ra\n\r\r\nb\r"), [&b"\ra\n\r"[..], b"b\r"]);
    assert_eq!(run(b"\r\n"), b"?,15,0,-\r\n");
}

/// The output for a record after an accepted opening of 3.
fn after_opening(record: &[u8]) -> String {
    let output = run(&[b"O,3,4,5\r\n", record].concat());
    String::from_utf8(output[9..].to_vec()).unwrap()
}

#[test]
fn records_that_break_the_form_are_refused_with_15() {
    let records = "c,1|C|C,|C,1,|C,1,1|,1| C,1|C ,1|C, 1|C,1 |\"C\",1|C,\"1\"|C,+1|C,-1|C,1.0|C,a|\
        Q,1|CC,1|C,1\r|C,1\n|\nC,1|C,1\0|C,\u{B9}|\u{FEFF}C,1|C;1|O,3,4,5|\r\n|D|D,|D,4294967296|\
        C,000000000000000000001|C,4294967296|D,18446744073709551616|X,99999999999999999999";
    for record in records.split('|') {
        assert_eq!(after_opening(record.as_bytes()), "?,15,0,-\r\n", "{record:?}");
    }
    for width in [78, 79] {
        assert_eq!(after_opening(format!("C,{:0>width$}", 1).as_bytes()), "?,15,0,-\r\n");
    }
    assert_eq!(after_opening(b"C,00000000000000000001"), "C,0,1,-\r\n");
    assert_eq!(after_opening(b"C,4294967295"), "C,4,0,-\r\n");
    assert_eq!(after_opening(b"D,4294967295"), "D,9,0,-\r\n");
}

#[test]
fn openings_in_a_script_may_be_tried_until_one_is_accepted() {
    let output = run(b"D,0\r\nO,1,1025,0\r\nO,1,0,18446744073709551616\r\nO,4294967296,0,0\r\n\
        O,0,0,0\r\nO,4294967295,0,0\r\nO,16,0,0\r\nO,3,1,0\r\nC,1\r\n\
        O,3,1024,18446744073709551615\r\nO,0,0,0\r\nC,1\r\n");
    let expected = "?,15,0,-\r\n".repeat(4)
        + &"O,1,0,-\r\n".repeat(3)
        + "O,3,0,-\r\n?,15,0,-\r\nO,0,0,-\r\n?,15,0,-\r\nC,0,1,-\r\n";
    assert_eq!(String::from_utf8(output).unwrap(), expected);
}

#[test]
fn lines_of_deliveries_and_crashes_show_the_answer_held() {
    let output = run(b"O,2,9,0\r\nC,1\r\nD,1\r\nD,1\r\nS,1\r\nD,1\r\nD,1\r\nS,1\r\nC,2\r\nD,0\r\n\
        X,1\r\nD,0\r\nS,2\r\nD,0\r\nX,1\r\n");
    let expected = "O,0,0,- C,0,1,- D,0,2,- D,0,1,- S,0,1,- D,0,2,- D,0,1,- S,0,1,y C,0,2,- \
        D,0,1,y X,0,1,y D,0,2,- S,0,2,- D,0,1,y X,5,0,- ";
    assert_eq!(String::from_utf8(output).unwrap().replace("\r\n", " "), expected);
}

#[test]
fn the_examples_give_what_is_stored_beside_them() {
    let folder = concat!(env!("CARGO_MANIFEST_DIR"), "/../examples");
    let mut seen = 0;
    for entry in std::fs::read_dir(folder).unwrap() {
        let path = entry.unwrap().path();
        if path.extension().is_some_and(|end| end == "csv") {
            let expected = std::fs::read(path.with_extension("expected")).unwrap();
            assert!(run(&std::fs::read(&path).unwrap()) == expected, "{}", path.display());
            seen += 1;
        }
    }
    assert!(seen >= 7);
}
