//! The second simulator's own checks: 01's cases, U1's records, U4's sets, U5's periods, U6's offers, U7's reasons,
//! U8's turning rows, U9's bursts and those to file, many steps in one call, random runs, and the plans that refute a
//! slip.

mod bursts;
mod cases;
mod filing;
mod periods;
mod reasons;
mod recent;
mod runs;
mod sets;
mod small;
mod steps;
mod trial;
mod turning;
mod worst;
