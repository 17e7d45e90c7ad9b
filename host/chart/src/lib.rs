//! Reports of figures over many scripts, change request 6, as a bar chart in plain SVG.
//!
//! A [`Report`] is read from what the program of the figures prints. [`draw`] makes a picture of
//! several reports of the same scripts, each under a label, as the threshold that it was made with.
//!
//! ```
//! use chart::{draw, Report};
//!
//! let report: Report = "\
//! script thread node depth cas dcas dcss hand failed put take list empty whole rest
//! 1 1 2 1 1 0 0 0 0 1 0 0 0 4 0
//! 0 0 2 1 1 0 0 0 0 1 0 0 0 4 0
//! "
//! .parse()?;
//! let picture = draw(&[(String::from("1"), report)])?;
//! assert!(picture.contains("<title>script 1, threshold 1: 2 READ node</title>"));
//! # Ok::<(), Box<dyn std::error::Error>>(())
//! ```

#![deny(missing_docs)]
#![forbid(unsafe_code)]

mod axis;
mod drawing;
mod report;
mod svg;

pub use drawing::{draw, NotDrawable};
pub use report::{Figures, NotAReport, Report, KINDS};
