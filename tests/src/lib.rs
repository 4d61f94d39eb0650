//! A second simulator of the torus engine and a second reckoning of its bounds, written from 01's text by the packet
//! book's lines, and of U1's records, U3's regulator, U4's sets, U5's periods, U6's offers, U7's reasons, U8's turning
//! rows and U9's bursts from 02's; many steps in one call are its single steps. And the comparison of another engine
//! with it.

#[cfg(any(feature = "bounds", feature = "engine"))]
pub mod archive;
pub mod book;
pub mod bursts;
pub mod calls;
pub mod compare;
pub mod desk;
pub mod lent;
pub mod offers;
pub mod plan;
pub mod promises;
pub mod random;
pub mod reasons;
pub mod recent;
pub mod slips;
pub mod state;
pub mod steps;
pub mod table;
pub mod turning;
pub mod window;
pub mod worst;
