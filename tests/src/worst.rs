//! Over all lists of offers of a small plan, the most deflections of each flow's packets, and the longest wait of the
//! last of some packets that a flow f with a window is offered at once: a lone packet, or U9's burst. Only packets that
//! enter hinder others, so the lists that are tried offer a packet in the cycle in which it enters; only the packets of f
//! whose wait is measured are offered early.

use crate::book::{Book, Place};
use crate::plan::Plan;
use std::collections::{HashMap, HashSet};

/// The flows offered before each step, from reset on, and the wait of f's last packet.
#[derive(Clone, Debug)]
pub struct Worst {
    pub wait: i64,
    pub offers: Vec<Vec<u32>>,
}

/// What of a book decides its future: buckets, how many wait, and each placed packet's flow and D.
type Key = (Vec<(i64, i64)>, Vec<usize>, Vec<(Place, usize, i64)>);

fn key(book: &Book) -> Key {
    let buckets = book.buckets.iter().map(|bucket| (bucket.tokens, bucket.count)).collect();
    let waiting = book.waiting.iter().map(|lines| lines.len()).collect();
    let packet = |&line: &usize| {
        let line = &book.lines[line];
        (line.place.unwrap(), line.flow, line.d)
    };
    let mut packets: Vec<_> = book.placed.iter().map(packet).collect();
    packets.sort();
    (buckets, waiting, packets)
}

/// The book after one cycle in which these flows are offered a packet and enter, and besides them
/// only a packet that waited before. None where one of them can't enter.
fn cycle(book: &Book, entering: &[u32]) -> Option<Book> {
    if entering.iter().any(|&flow| book.buckets[flow as usize].tokens == 0) {
        return None;
    }
    let mut next = book.clone();
    for &flow in entering {
        next.offer(flow).unwrap();
    }
    next.step(next.plan.delivery_words()).unwrap();
    let entered = |&flow: &u32| next.entered[flow as usize] > book.entered[flow as usize];
    if !entering.iter().all(entered) {
        return None;
    }
    next.forget_exits();
    Some(next)
}

/// All sets of flows.
fn sets(flows: usize) -> Vec<Vec<u32>> {
    let member = |set: u32, flow: &u32| set >> flow & 1 == 1;
    (0..1u32 << flows)
        .map(|set| (0..flows as u32).filter(|flow| member(set, flow)).collect())
        .collect()
}

struct Search {
    f: usize,
    sets: Vec<Vec<u32>>,
    /// For a book in which packets of f wait: the most cycles until all have entered, and what is offered in
    /// this cycle so that it takes as many.
    longest: HashMap<Key, (i64, Vec<u32>)>,
}

impl Search {
    /// Among so many flows.
    fn new(f: usize, flows: usize) -> Search {
        let without_f = |set: &Vec<u32>| !set.contains(&(f as u32));
        let sets = sets(flows).into_iter().filter(without_f).collect();
        Search { f, sets, longest: HashMap::new() }
    }

    /// The most cycles until f's waiting packets have all entered, from this book on.
    fn cycles(&mut self, book: &Book) -> i64 {
        if book.waiting[self.f].is_empty() {
            return 0;
        }
        let key = key(book);
        if let Some((cycles, _)) = self.longest.get(&key) {
            return *cycles;
        }
        let mut longest = (0, Vec::new());
        for set in 0..self.sets.len() {
            let Some(next) = cycle(book, &self.sets[set]) else {
                continue;
            };
            let cycles = 1 + self.cycles(&next);
            if cycles > longest.0 {
                longest = (cycles, self.sets[set].clone());
            }
        }
        self.longest.insert(key, longest.clone());
        longest.0
    }
}

/// A book that a list reaches, the number of the book before it, and the flows that entered between them.
struct Reached {
    book: Book,
    before: usize,
    entered: Vec<u32>,
}

/// All lists of a plan: every book that one reaches, by breadth, one for each key; and for each flow what is known of
/// its waits.
pub struct Lists {
    books: Vec<Reached>,
    searches: Vec<Search>,
}

impl Lists {
    pub fn of(plan: &Plan) -> Lists {
        let flows = plan.flows.len();
        let sets = sets(flows);
        let start = Book::new(plan.clone());
        let mut seen = HashSet::from([key(&start)]);
        let mut books = vec![Reached { book: start, before: 0, entered: Vec::new() }];
        let mut at = 0;
        while at < books.len() {
            for set in &sets {
                if let Some(book) = cycle(&books[at].book, set)
                    && seen.insert(key(&book))
                {
                    books.push(Reached { book, before: at, entered: set.clone() });
                }
            }
            at += 1;
        }
        Lists { books, searches: (0..flows).map(|f| Search::new(f, flows)).collect() }
    }

    /// How many books they reach.
    pub fn books(&self) -> usize {
        self.books.len()
    }

    /// The most deflections of a packet of each flow.
    pub fn most_deflections(&self) -> Vec<i64> {
        let mut most = vec![0; self.searches.len()];
        for Reached { book, .. } in &self.books {
            for line in book.placed.iter().map(|&line| &book.lines[line]) {
                most[line.flow] = line.d.max(most[line.flow]);
            }
        }
        most
    }

    /// The longest wait of the last of so many packets that are offered to flow f at once, where none waits and it
    /// has at least so many tokens; and a list with it.
    pub fn longest_wait(&mut self, f: usize, packets: usize, tokens: i64) -> Worst {
        let mut worst = Worst { wait: -1, offers: Vec::new() };
        for (at, Reached { book, .. }) in self.books.iter().enumerate() {
            if book.buckets[f].tokens < tokens {
                continue;
            }
            let mut offered = book.clone();
            let burst = vec![f as u32; packets];
            offered.offer_set(&burst).unwrap();
            let wait = self.searches[f].cycles(&offered) - 1;
            if wait > worst.wait {
                worst = Worst { wait, offers: self.list(f, at, burst, offered) };
            }
        }
        worst
    }

    /// The offers of the list that leads to this book, then these of f and those that keep them waiting longest.
    fn list(&self, f: usize, mut at: usize, burst: Vec<u32>, offered: Book) -> Vec<Vec<u32>> {
        let mut offers = Vec::new();
        while at > 0 {
            offers.push(self.books[at].entered.clone());
            at = self.books[at].before;
        }
        offers.reverse();
        let (mut book, mut first) = (offered, burst);
        while !book.waiting[f].is_empty() {
            let set = &self.searches[f].longest[&key(&book)].1;
            book = cycle(&book, set).unwrap();
            offers.push([&first[..], set].concat());
            first = Vec::new();
        }
        offers
    }
}

/// The longest wait of a lone packet of flow f over all lists from reset, and a list with it.
pub fn worst_wait(plan: &Plan, f: usize) -> Worst {
    Lists::of(plan).longest_wait(f, 1, 0)
}
