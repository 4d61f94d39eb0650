//! Kimboryu from Rust: the engine of a bufferless torus network and the bounds of its flows, proved
//! in Rattle and linked from `target/staticlib/libhost.a`.
//!
//! A host reads a [`Plan`], asks the bounds of its flows, resets it into a [`State`], and then
//! offers packets, one by one or several at once, and steps; a step may tell each flow's [`Reason`],
//! and a [`Recent`] for each flow holds its last deliveries. Every answer is the archive's:
//! [`Answer::Done`] with a value, or [`Answer::Refused`] with a number of docs/REFUSALS.md and a place.
//! A refused call changes nothing.
//!
//! ```
//! # fn main() -> Result<(), hrt::Refusal> {
//! // Two flows on 4 by 4: (1,0) to (2,0) and (0,0) to (3,0), one packet every 10 cycles each.
//! let flow = |xs, xd| hrt::Flow { xs, ys: 0, xd, yd: 0, period: 10, burst: 1 };
//! let file = hrt::State::fresh(4, 4, &[flow(1, 2), flow(0, 3)])?.write(b"a note")?;
//!
//! let plan = hrt::Plan::read(file)?;
//! assert_eq!(plan.notes(), b"a note");
//! assert_eq!(plan.window(0), hrt::Answer::Done(3));
//! assert_eq!(plan.flight(0), hrt::Answer::Done(3));
//!
//! let mut state = plan.reset()?;
//! let mut recent = vec![hrt::Recent::default(); state.flows()];
//! state.offer(0).done()?;
//! let mut left = 0;
//! while left == 0 {
//!     for packet in state.step()? {
//!         assert_eq!((packet.flow, packet.serial, packet.flight()), (0, 1, 3));
//!         left += 1;
//!     }
//!     state.recent(&mut recent, 4).done()?;
//! }
//! assert_eq!((recent[0].held, recent[0].longest, recent[0].most), (1, 3, 0));
//! # Ok(()) }
//! ```
//!
//! A state is words that the host owns; the calls keep nothing between them, so states of different
//! runs may be used from different threads at once. [`calls`] has include/hrt.h's functions one by
//! one, for a host that keeps its memory itself; [`limits`] has the sizes of what is lent to them.

mod answer;
pub mod calls;
pub mod limits;
mod plan;
mod reason;
mod recent;
mod state;

pub use answer::{Answer, Refusal};
pub use plan::Plan;
pub use reason::Reason;
pub use recent::Recent;
pub use state::{Delivery, Flow, Packet, State};
