//! Random lists on the second simulator alone. After each call 01's promises hold of the lines that
//! can still change, and at the end of all lines; the entry promise is watched for all flows of a
//! small plan and for one of a larger. Now and then the book's words are judged: they form a state,
//! and that state's words are the same.

use second::book::Book;
use second::bursts::{Bursts, Kept};
use second::compare::sets::list;
use second::promises::{Limits, check, check_live, check_reasons, check_set, check_trial};
use second::random::{Random, plan};
use second::state::{judge, words};

/// A list of so many calls: offers of the sonar and of the generator, some of them to a flow that isn't
/// there, sets and steps, half of which tell reasons, and a few of many cycles.
fn run(random: &mut Random, mut book: Book, calls: usize, kept: &mut Kept) {
    let flows = book.plan.flows.len();
    let watched = random.index(flows);
    let limits = Limits::of(&book.plan, |f| flows < 12 || f == watched);
    let offers = random.pick(&[5, 50, 90]);
    let room = book.plan.delivery_words();
    let (mut delivered, mut bursts) = (Vec::new(), Bursts::default());
    for _ in 0..calls {
        if random.percent(5) {
            let (before, set) = (book.clone(), list(random, flows));
            let answer = book.offer_set(&set);
            check_set(&before, &set, answer, &book);
        } else if random.percent(10) {
            let (before, flow) = (book.clone(), random.index(flows + 1) as u32);
            let answer = book.offer_trial(flow);
            check_trial(&before, flow, answer, &book);
        } else if random.percent(offers) {
            let flow = random.index(flows + 1) as u32;
            assert_eq!(book.offer(flow).is_ok(), (flow as usize) < flows);
        } else if random.percent(10) {
            let cycles = random.from(0, 20) as u32;
            delivered.extend(book.steps(2 * room, cycles).unwrap());
        } else if random.percent(50) {
            let (before, mut plain) = (book.clone(), book.clone());
            let (exits, reasons) = book.step_reasons(room, flows).unwrap();
            check_reasons(&before, &reasons, &book);
            assert_eq!(plain.step(room).unwrap(), exits);
            assert!(plain == book, "a step with reasons, and without");
            delivered.extend(exits);
        } else {
            delivered.extend(book.step(room).unwrap());
        }
        check_live(&book, &limits);
        bursts.watch(&book, &limits, kept);
        if random.percent(2) {
            let words = words(&book);
            let again = judge(&words).expect("the book's words form a state");
            assert_eq!(second::state::words(&again), words);
        }
    }
    check(&book, &limits, &delivered);
}

#[test]
fn every_size() {
    let (mut random, mut kept) = (Random::new(2), Kept::default());
    for sx in 1..=16 {
        for sy in 1..=16 {
            let flows = random.pick(&[1, 3, 10, 60]);
            let book = Book::new(plan(&mut random, sx, sy, flows));
            run(&mut random, book, 300, &mut kept);
        }
    }
    assert!(kept.own >= 100, "{kept:?}");
}

/// Few flows on a small torus, where the paths of packets cross most.
#[test]
fn crowded_small_plans() {
    let (mut random, mut kept) = (Random::new(3), Kept::default());
    for _ in 0..400 {
        let (sx, sy) = (random.from(1, 4), random.from(1, 4));
        let flows = random.from(1, 6) as usize;
        let book = Book::new(plan(&mut random, sx, sy, flows));
        run(&mut random, book, 400, &mut kept);
    }
    assert!(kept.own >= 100, "{kept:?}");
}
