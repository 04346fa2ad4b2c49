//! Compares the product's receiver with the reference where places of a header
//! are marked (document 02, Ask 3): single receiving calls with every count of
//! marks and of altered bytes, number 19 and its place in the order of
//! refusals, and whole runs in which each PDU comes with its own marks. What a
//! call has to answer is told from how it was made, what a run has to log from
//! the writing calls.

#[allow(dead_code)]
mod attempt;
#[allow(dead_code)]
mod calls;
mod drives;
mod lent;
mod noise;
mod product;
#[allow(dead_code)]
mod receptions;
#[allow(dead_code)]
mod samples;
#[allow(dead_code)]
mod spoiling;
mod told;

use attempt::{Class, Known, Outcomes};
use drives::{Seen, STYLES};
use noise::Noise;
use receptions::{some_line, spoil, spoilable, Reception, NUMBERS_MARKED};
use referee::erasures::{BOUND, MOST_MARKS};
use referee::modes::TABLE;
use referee::refusal::{self, MarksCause, ReceiverCause};
use samples::Wish;

/// The three causes of 19.
const CAUSES: [MarksCause; 3] = [
    MarksCause::MoreThanEight,
    MarksCause::Over95,
    MarksCause::Repeated,
];

/// Makes a call that is right, and compares with what it has to answer.
fn take(class: &mut Class, reception: &Reception) {
    let wanted = reception.wanted();
    let loan = reception.loan(&mut class.rng, wanted.words.len());
    class.receive(reception.receiver, loan, &Known::Taken(wanted));
}

/// Makes a call that has been spoiled; the number it is refused with, 0 if it
/// is not.
fn refuse(class: &mut Class, reception: &Reception, known: &Known) -> u32 {
    let words = class.rng.below(50);
    let loan = reception.loan(&mut class.rng, words);
    class
        .receive(reception.receiver, loan, known)
        .answer
        .refusal
}

/// Right calls of all modes and streams, altered within the bound of their
/// marks.
fn right(total: &mut Outcomes) {
    let mut class = Class::new("right, with marks", 0x3AEC_0001);
    for case in 0..25_000 {
        let wish = Wish {
            line: Some(TABLE[case % TABLE.len()]),
            ..Wish::default()
        };
        let mut reception = Reception::new(&mut class.rng, &wish);
        reception.noise = Noise::within_bound(&mut class.rng);
        take(&mut class, &reception);
    }
    class.report(total);
    assert_eq!(class.outcomes.taken, class.outcomes.calls);
}

/// Every count of marks with none to six other bytes altered: accepted up to
/// the bound, refused with 4 just beyond it, and what comes of it farther on.
fn counts(total: &mut Outcomes) {
    let mut class = Class::new("counts of marks", 0x3AEC_0002);
    for marks in 0..=MOST_MARKS {
        // By other bytes altered: accepted, refused with 4, with another number.
        let mut outcomes = [[0; 3]; 7];
        for case in 0..7 * 300 {
            let altered = case % 7;
            let wish = Wish {
                line: Some(TABLE[case % TABLE.len()]),
                length: Some(class.rng.within(96, 400)),
                ..Wish::default()
            };
            let mut reception = Reception::new(&mut class.rng, &wish);
            reception.noise = Noise::marked(&mut class.rng, marks, altered);
            let number = count_of(&mut class, &reception, 2 * altered + marks);
            let outcome = match number {
                0 => 0,
                refusal::BEYOND_MENDING => 1,
                _ => 2,
            };
            outcomes[altered][outcome] += 1;
        }
        let [accepted, refused, others] = [0, 1, 2].map(|by| outcomes.map(|counted| counted[by]));
        println!(
            "{marks} marks, 0 to 6 other bytes altered: accepted {accepted:?}, refused with 4 \
             {refused:?}, with another number {others:?}"
        );
    }
    class.report(total);
}

/// Makes a call for which twice the other altered bytes plus the marks is this;
/// the number it is refused with, 0 if it is not.
fn count_of(class: &mut Class, reception: &Reception, sum: usize) -> u32 {
    match sum {
        0..=BOUND => {
            take(class, reception);
            0
        }
        9 => refuse(class, reception, &Known::Number(refusal::BEYOND_MENDING)),
        _ => refuse(class, reception, &Known::Nothing),
    }
}

/// Number 19 alone, in each of its reasons, and with lists that are just right.
fn lists(total: &mut Outcomes) {
    let mut class = Class::new("lists of marks", 0x3AEC_0003);
    for case in 0..9_000 {
        let wish = Wish {
            line: Some(TABLE[case % TABLE.len()]),
            length: Some(class.rng.within(96, 300)),
            ..Wish::default()
        };
        let mut reception = Reception::new(&mut class.rng, &wish);
        let cause = CAUSES[case % 3];
        reception.noise.spoil(&mut class.rng, cause);
        let known = Known::Only(ReceiverCause::Marks(cause));
        refuse(&mut class, &reception, &known);
        reception.noise = Noise::marked(&mut class.rng, case % 9, 0);
        take(&mut class, &reception);
    }
    class.report(total);
}

/// Refusals 5 to 13 of a header that was corrected with marks: it is left
/// altered as it came.
fn pdus(total: &mut Outcomes) {
    let mut class = Class::new("refused PDUs, with marks", 0x3AEC_0004);
    for number in 5..=13 {
        for _ in 0..1_200 {
            let line = some_line(&mut class.rng, &[number]);
            let mut reception = spoilable(&mut class.rng, line);
            reception.noise = Noise::within_bound(&mut class.rng);
            spoil(&mut class.rng, &mut reception, number);
            refuse(&mut class, &reception, &Known::Number(number));
        }
    }
    class.report(total);
}

/// Every set of refusals at once: the first in the order 1, 2, 3, 19, 4, 5 to
/// 13 is answered.
fn several_at_once(total: &mut Outcomes) {
    let mut class = Class::new("several refusals at once, with marks", 0x3AEC_0005);
    // Those directly before and behind 19, with both.
    let mut after_3 = 0;
    let mut before_4 = 0;
    for set in 1u32..1 << NUMBERS_MARKED.len() {
        let numbers: Vec<u32> = (0..NUMBERS_MARKED.len())
            .filter(|index| (set >> index) & 1 != 0)
            .map(|index| NUMBERS_MARKED[index])
            .collect();
        for _ in 0..3 {
            check_several(&mut class, &numbers);
        }
        after_3 += 3 * u64::from(numbers.starts_with(&[refusal::LENGTH, refusal::MARKS]));
        before_4 += 3 * u64::from(numbers.starts_with(&[refusal::MARKS, refusal::BEYOND_MENDING]));
    }
    class.report(total);
    println!("3 answered where 19 applies too: {after_3}; 19 where 4 applies too: {before_4}");
    assert!(after_3 >= 1_000 && before_4 >= 1_000);
}

/// Compares on a call with these refusals, in the order in which they are
/// checked.
fn check_several(class: &mut Class, numbers: &[u32]) {
    let line = some_line(&mut class.rng, numbers);
    let mut reception = spoilable(&mut class.rng, line);
    reception.noise = Noise::within_bound(&mut class.rng);
    for &number in numbers.iter().rev() {
        spoil(&mut class.rng, &mut reception, number);
    }
    refuse(class, &reception, &Known::Number(numbers[0]));
}

/// The classes all together: at least 100,000 calls, each refusal at least
/// 1,000 times.
#[test]
fn receiving_with_marks() {
    let mut total = Outcomes::default();
    for class in [right, counts, lists, pdus, several_at_once] {
        class(&mut total);
    }
    println!("in all {} calls, {} accepted", total.calls, total.taken);
    for number in NUMBERS_MARKED {
        let calls = total.refused_with(number);
        println!("refused with {number}: {calls}");
        assert!(calls >= 1_000, "{number}");
    }
    for cause in CAUSES {
        let calls = total.alone[&ReceiverCause::Marks(cause)];
        println!("refused with 19 for {cause:?} alone: {calls}");
        assert!(calls >= 1_000);
    }
    println!("accepted by mode and stream: {:?}", total.lines);
    assert_eq!(total.lines.len(), TABLE.len());
    assert!(total.calls >= 100_000);
}

/// Whole runs over all modes and streams, each PDU with its own marks.
#[test]
fn runs_with_marks() {
    let mut class = Class::new("runs with marks", 0x3AEC_0006);
    let mut seen = Seen::default();
    for case in 0..6_000 {
        let line = TABLE[case % TABLE.len()];
        let style = STYLES[case / TABLE.len() % STYLES.len()];
        let list = drives::List::random(&mut class.rng, line, style, 0);
        let run = drives::some_run(&mut class.rng, list.pdus.len());
        let range = usize::from(line.sequences);
        let lost = drives::some_lost(&mut class.rng, run.len(), range);
        drives::run_with_marks(&mut class, &mut seen, &list, run, &lost);
    }
    // What stands before and behind the lost ones seems to belong together.
    for case in 0..300 {
        let line = TABLE[case % TABLE.len()];
        let another = case % 20 < TABLE.len();
        let (list, in_a_row) = drives::trap(&mut class.rng, line, another, 0);
        let count = list.pdus.len();
        let mut lost = vec![false; count];
        lost[1..=in_a_row].fill(true);
        drives::run_with_marks(&mut class, &mut seen, &list, 0..count, &lost);
    }
    class.report(&mut Outcomes::default());
    report_runs(&seen);
    seen.sums.report("runs with marks");
    assert!(seen.sums.with_missing >= 1_000);
    assert_eq!(seen.lines.len(), TABLE.len());
    // Each count of marks with each count of other bytes within the bound.
    let pairs = (0..=MOST_MARKS).flat_map(|marks| {
        let most = (BOUND - marks) / 2;
        (0..=most).map(move |altered| (marks, altered))
    });
    assert_eq!(
        seen.marked.keys().copied().collect::<Vec<_>>(),
        pairs.collect::<Vec<_>>()
    );
    assert!(seen.marked.values().all(|&pdus| pdus >= 200));
    assert!((0..=8).all(|altered| seen.altered[&altered] >= 1_000));
    assert!(NUMBERS_MARKED
        .iter()
        .all(|number| seen.refused[number] >= 200));
    assert!(seen.begun_inside >= 300 && seen.another_packet >= 100);
    // Nothing but marks of lost PDUs and pieces whose beginning is missing.
    let notes: Vec<u32> = class.outcomes.notes.keys().copied().collect();
    assert_eq!(notes, [3, 6]);
}

fn report_runs(seen: &Seen) {
    println!(
        "{} runs by mode and stream {:?}, {} of them empty, {} begun inside a packet",
        seen.drives, seen.lines, seen.empty_runs, seen.begun_inside
    );
    println!(
        "{} PDUs received, by altered bytes {:?}, {} lost, in a row {:?}",
        seen.received, seen.altered, seen.lost, seen.in_a_row
    );
    println!(
        "received by marks and other bytes altered {:?}",
        seen.marked
    );
    println!(
        "{} packets, {} of them logged; refused calls by number {:?}",
        seen.packets, seen.logged, seen.refused
    );
}
