//! What the test programs share. Each of them uses a part of it.
#![allow(
    clippy::missing_errors_doc,
    clippy::missing_panics_doc,
    clippy::must_use_candidate,
    clippy::return_self_not_must_use,
    reason = "tests alone use it, and where it panics they are to fail"
)]

pub mod beginnings;
pub mod cut;
pub mod ending_scripts;
pub mod fields;
pub mod figures;
pub mod leaves;
pub mod made_scripts;
pub mod native;
pub mod old_queue;
pub mod program;
pub mod queue;
pub mod random;
pub mod recorder;
pub mod script;
pub mod stored;
pub mod values;
pub mod workloads;
