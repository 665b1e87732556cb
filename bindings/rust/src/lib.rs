//! A fitter for sketches: points, lines and arcs, with equations between them. What it fits is proved to be what its definitions say, to
//! the last bit; this crate is a safe face of the proved archive, with no dependencies.
//!
//! A [`Job`] is built of points, lines, equations and measures; a [`Fitter`] answers it with a [`Reply`]. Lengths in equations are in
//! units of the job's size ([`Job::in_size`]); docs/FORMAT.md says what each kind means and which side is plus.
//!
//! ```
#![doc = include_str!("../examples/mouth.rs")]
//! ```
//!
//! A job is checked when it is run, not when it is built: one that is refused has a [`Status`] that says why, and a fit that failed a
//! [`Reason`]. The same job gives the same reply, to the last bit, on every machine.

#![deny(missing_docs)]

mod call;
mod job;
mod reply;
mod status;

pub use call::{AREA, Fitter, REPLY, run_in};
pub use job::{Axis, Contact, Equation, EquationId, Job, LineId, Measure, MeasureId, PointId, Radius, Side, State};
pub use reply::{Failed, Fitted, Group, Malformed, Reason, Reply};
pub use status::Status;
