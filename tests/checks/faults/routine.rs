//! Faults that any call may have, made from the table of its refusals and memories.

use super::simulator::{Fault, OneCall, in_call};
use second::lent::{Call, Lent, Part};
use second::plan::refuse;
use second::recent::Record;
use second::table::{self, Due, Row};
use second::with_memory;
use std::rc::Rc;

/// A fault, by the positions of refusals and of written memories in a call's row.
#[derive(Clone, Copy)]
enum Routine {
    /// Another number in place of a refusal's, or 0.
    Number(usize, u64),
    /// The place of a refusal one further.
    Further(usize),
    /// Place 0 for a refusal's, where it isn't 0.
    NoPlace(usize),
    /// The second refusal in place of the first, where both are due.
    Before(usize, usize),
    /// A refusal where it is nearly due.
    Early(usize),
    /// No refusal where it is just due: it is accepted, and nothing is done.
    Late(usize),
    /// No refusal where a memory is a place too short: it is done, as far as there is room.
    Done(usize),
    /// A memory changed where the call is refused.
    Touched(usize, Part, Touch),
    /// A memory changed that is only read.
    Changed(Part, Touch),
    /// A place changed behind what an accepted call writes.
    Past(usize),
    /// The last place that an accepted call writes left as it was.
    Left(usize),
    /// One more answered where the call is accepted.
    More,
}

use Routine::*;

#[derive(Clone, Copy, Debug)]
enum Touch {
    First,
    Last,
    All,
}

const TOUCHES: [Touch; 3] = [Touch::First, Touch::Last, Touch::All];

/// The faults of all calls.
pub fn faults() -> Vec<Fault> {
    Call::ALL.into_iter().flat_map(|call| of_row(Rc::new(table::row(call)))).collect()
}

fn of_row(row: Rc<Row>) -> Vec<Fault> {
    let planted = |routine: Routine| {
        let (name, part) = (routine.name(&row), routine.part(&row));
        let row = row.clone();
        in_call(row.call, name, &[part], move |lent| routine.answer(&row, lent))
    };
    routines(&row).into_iter().map(planted).collect()
}

/// All that the row has.
fn routines(row: &Row) -> Vec<Routine> {
    let mut routines = vec![More];
    for (at, no) in row.refusals.iter().enumerate() {
        let others = row.numbers().into_iter().filter(|&other| other != no.number);
        routines.extend(others.chain([0]).map(|other| Number(at, other)));
        routines.push(Further(at));
        if [6, 7, 14].contains(&no.number) {
            routines.push(NoPlace(at));
        }
        routines.extend((at + 1..row.refusals.len()).map(|later| Before(at, later)));
        if no.is_limit() {
            routines.extend([Early(at), Late(at)]);
        }
        if let Due::Room(..) = no.due {
            routines.push(Done(at));
        }
        let touched =
            |written: &table::Written| TOUCHES.map(|touch| Touched(at, written.part, touch));
        routines.extend(row.writes.iter().flat_map(touched));
    }
    routines.extend(row.reads().flat_map(|part| TOUCHES.map(|touch| Changed(part, touch))));
    for (at, written) in row.writes.iter().enumerate() {
        routines.push(Past(at));
        if written.last {
            routines.push(Left(at));
        }
    }
    routines.retain(|routine| routine.can_show(row));
    routines
}

impl Routine {
    /// Is it told apart from the right call anywhere?
    fn can_show(self, row: &Row) -> bool {
        let refusals = &row.refusals;
        match self {
            // The window returns no places.
            Further(_) | NoPlace(_) => !matches!(row.call, Call::Window(_)),
            // Equal numbers tell nothing, what isn't lent isn't either, and a search is made where nothing else is due.
            Before(first, later) => {
                let (first_no, later) = (&refusals[first], &refusals[later]);
                let is_told = first > 0 || !later.is_behind;
                first_no.number != later.number && is_told && !matches!(later.due, Due::Search)
            }
            // Eight words are no whole state, and a trailer is no plan.
            Done(at) => at > 0,
            _ => true,
        }
    }

    fn part(self, row: &Row) -> Part {
        match self {
            Touched(_, part, _) | Changed(part, _) => part,
            Past(at) | Left(at) => row.writes[at].part,
            _ => Part::Answer,
        }
    }

    fn name(self, row: &Row) -> String {
        let no = |at: usize| format!("{} ({at})", row.refusals[at].number);
        let part = self.part(row).name();
        match self {
            Number(at, other) => format!("{other} where {} is due", no(at)),
            Further(at) => format!("a place one further for {}", no(at)),
            NoPlace(at) => format!("place 0 for {}", no(at)),
            Before(first, later) => format!("{} before {}", no(later), no(first)),
            Early(at) => format!("{} at its limit", no(at)),
            Late(at) => format!("accepted just past the limit of {}", no(at)),
            Done(at) => format!("done with a place too few for {}", no(at)),
            Touched(at, _, touch) => format!("{part} changed ({touch:?}) where {} is due", no(at)),
            Changed(_, touch) => format!("{part} changed ({touch:?}) that is only read"),
            Past(_) => format!("{part} written a place too far"),
            Left(_) => format!("the last place of {part} left"),
            More => "one more answered".into(),
        }
    }

    /// The call with this fault.
    fn answer(self, row: &Row, lent: &mut Lent) -> u64 {
        let no = |at: usize| &row.refusals[at];
        let tells = |lent: &Lent, at: usize| {
            lent.call.returned(refuse(no(at).number, (no(at).place)(lent)))
        };
        let is_at_limit = |lent: &Lent, at: usize| {
            let earlier = row.refusals[..at].iter().any(|no| no.is_due(lent));
            no(at).margin(lent) == Some(0) && !earlier
        };
        match self {
            Early(at) if is_at_limit(lent, at) => return tells(lent, at),
            Done(at) => return done(row, at, lent),
            _ => {}
        }
        let before = lent.copied();
        let answer = lent.right();
        let is_accepted = lent.call.number(answer) == 0;
        let is_due = |lent: &Lent, at: usize| {
            let first = row.first_due(lent).is_none_or(|first| first == at);
            no(at).number == lent.call.number(answer) && first
        };
        match self {
            Number(at, 0) if is_due(lent, at) => return 0,
            Number(at, other) if is_due(lent, at) => {
                return lent.call.returned(refuse(other, answer as u32 as usize));
            }
            Further(at) if is_due(lent, at) => return answer + 1,
            NoPlace(at) if is_due(lent, at) => return answer >> 32 << 32,
            Before(first, later) if is_due(lent, first) && no(later).is_due(lent) => {
                return tells(lent, later);
            }
            Late(at) if is_due(lent, at) && no(at).margin(lent) == Some(-1) => return 0,
            Touched(at, part, touch) if is_due(lent, at) => touch.change(lent, part),
            Changed(part, touch) if is_accepted => touch.change(lent, part),
            Past(at) if is_accepted => flip(lent, row.writes[at].part, row.end(at, lent, answer)),
            Left(at) if is_accepted && row.end(at, lent, answer) > 0 => {
                let last = row.end(at, lent, answer) - 1;
                with_memory!(row.writes[at].part, memory in &mut lent, old in &before => {
                    memory[last] = old[last]
                });
            }
            More if is_accepted => return answer + 1,
            _ => {}
        }
        answer
    }
}

/// The call, done with a place more of the memory that is a place too short for a refusal. What doesn't fit is
/// lost.
fn done(row: &Row, at: usize, lent: &mut Lent) -> u64 {
    let no = &row.refusals[at];
    if let Due::Room(part, _) = no.due
        && no.margin(lent) == Some(-1)
    {
        let mut longer = lent.copied();
        with_memory!(part, memory in &mut longer => memory.push(Default::default()));
        let answer = longer.lent().right();
        if lent.call.number(answer) == 0 {
            for &part in lent.call.takes() {
                with_memory!(part, memory in &mut lent, done in &longer => {
                    memory.copy_from_slice(&done[..memory.len()])
                });
            }
            return answer;
        }
    }
    lent.right()
}

impl Touch {
    fn change(self, lent: &mut Lent, part: Part) {
        match self {
            Touch::First => flip(lent, part, 0),
            Touch::Last => flip(lent, part, lent.places(part).wrapping_sub(1)),
            Touch::All => {
                with_memory!(part, memory in &mut lent => memory.fill(Default::default()))
            }
        }
    }
}

/// Changes a place of a memory, if there is one.
fn flip(lent: &mut Lent, part: Part, at: usize) {
    with_memory!(part, memory in &mut lent => if let Some(place) = memory.get_mut(at) {
        place.flip();
    });
}

trait Flip {
    fn flip(&mut self);
}

impl Flip for u8 {
    fn flip(&mut self) {
        *self ^= 1;
    }
}

impl Flip for u32 {
    fn flip(&mut self) {
        *self ^= 1;
    }
}

impl Flip for Record {
    fn flip(&mut self) {
        self.held ^= 1;
    }
}
