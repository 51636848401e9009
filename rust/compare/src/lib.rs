//! The proved library beside the independent model: the same inputs to both, and what they give
//! compared byte for byte (binary `compare`; [`chip`] has the part on virtual chips), timed
//! (`speed`; on ever longer inputs `scale`), or called for their instructions to be counted
//! (`calls`). In [`port`] it is the port, libdock.a, that is held against the model (binary
//! `port`); `port-cost` is for what that takes.

#![forbid(unsafe_code)]
#![warn(missing_docs)]

pub mod address_bytes;
pub mod check;
pub mod chip;
pub mod difference;
pub mod group;
pub mod job_case;
pub mod memory;
pub mod options;
pub mod pointer_byte;
pub mod port;
pub mod random;
pub mod reference;
pub mod row;
pub mod rows;
pub mod run;
pub mod scale;
pub mod script;
pub mod sections;
pub mod side;
pub mod steer;
pub mod table;
pub mod tally;
pub mod timing;
pub mod trace_case;
