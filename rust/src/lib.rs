//! Wu's colour quantizer, proved.
//!
//! Colours are counted into a [`Table`] over a [`Grid`], batch by batch; tables of many workers are merged; and a
//! table is [cut](Table::cut) down to at most 256 colours, or [slowly](Table::cut_slowly), where there is no room for a
//! work table. The [`Cut`] has a palette, the count of each colour and a [`ColourMap`], which maps frames to indices or
//! paints them. Two tables are [compared](Table::compare) bin by bin, and what is damaged in one is
//! [cleared](Table::rescue). A cut depends on the colours and their weights only: in any order, any batches and any
//! merge tree, as long as nothing is refused, they give the same palette in the same order.
//! A [`NarrowTable`] is a table of 24 bytes a bin in place of 40, for totals up to 16,843,008: two 4K frames, pixel by
//! pixel. It gives the same cuts.
//! A [`Recorder`] counts frames that were sampled at an interval, and refuses a batch that was sampled at another.
//! Frames that are stored as [PPM files](ppm) are [loaded](Table::load_ppm) as they are.
//! The module [`terminal`] has a palette in the fixed colours of a terminal.
//!
//! The work is done by code in Rattle, a language in which every function is proved to meet its contract: that it
//! follows the written rules, whatever it is given. It is linked as a static library, and this crate only lends it
//! slices. Bad input is [`Refused`] by number with nothing changed, and none makes a call panic. The rules are those of
//! the crate quantette 0.6.0, module `quantize/wu`, for colours of three `u8` components; over a million runs beside
//! its own text gave the same answers.
//!
//! # Where to read on
//!
//! - [The guide](pages::guide): the first steps, from C too, and how a release is installed.
//! - [Choosing](pages::choosing): which grid, what comes back inexactly, how a table is saved.
//! - [The rules](pages::rules): what is computed and refused, to the bit.
//! - [From quantette](pages::from_quantette), call by call; [sampled frames](pages::intervals) and
//!   [a damaged table](pages::rescue) by example.
//!
//! # Rounding
//!
//! A cut works in `f64` and counts on the processor rounding to nearest, which no call can test. Rust programs have it:
//! they begin so, and the language takes it as given everywhere, so that changing it is undefined behaviour in any of
//! their code. Only where C code of the same thread calls `fesetround` does it have to set the mode back before it
//! returns.
//!
//! # From pixels to indices
//!
//! ```
//! use seluvava::{Grid, Table};
//!
//! let screen = vec![[0, 0, 0], [255, 255, 255], [255, 255, 255], [255, 255, 255]];
//!
//! let mut table = Table::new(Grid::rgb());
//! table.load(&screen)?;
//! let cut = table.cut(256)?;
//! assert_eq!(cut.palette(), [[255, 255, 255], [0, 0, 0]]);
//! assert_eq!(cut.counts(), [3, 1]);
//! assert_eq!(cut.colour_map().map(&screen)?, [1, 0, 0, 0]);
//! # Ok::<(), seluvava::Refused>(())
//! ```
//!
//! # Many workers
//!
//! ```
//! use seluvava::{Grid, Refused, Table};
//! use std::thread;
//!
//! let screens = vec![vec![[10, 20, 30]; 100], vec![[200, 100, 0]; 50], vec![[10, 20, 30]; 7]];
//!
//! let tables: Vec<Table> = thread::scope(|scope| {
//!     let workers: Vec<_> = screens
//!         .iter()
//!         .map(|screen| {
//!             scope.spawn(|| {
//!                 let mut table = Table::new(Grid::rgb());
//!                 table.load(screen)?;
//!                 Ok(table)
//!             })
//!         })
//!         .collect();
//!     workers.into_iter().map(|worker| worker.join().expect("a worker")).collect::<Result<_, Refused>>()
//! })?;
//!
//! let mut mosaic = Table::new(Grid::rgb());
//! for table in &tables {
//!     mosaic.merge(table)?;
//! }
//! assert_eq!(mosaic.cut(16)?.counts(), [50, 107]);
//! # Ok::<(), Refused>(())
//! ```
#![deny(unsafe_code, unsafe_op_in_unsafe_fn)]
#![warn(missing_docs)]

mod colour_map;
mod comparison;
mod cut;
mod grid;
mod narrow;
pub mod ppm;
mod recorder;
mod refused;
mod rescue;
#[allow(unsafe_code)]
mod sys;
mod table;
pub mod terminal;

pub use colour_map::ColourMap;
pub use comparison::{BinDifference, Comparison};
pub use cut::{ColourBox, Cut, WorkTable};
pub use grid::Grid;
pub use narrow::NarrowTable;
pub use recorder::Recorder;
pub use refused::{Lent, Refused};
pub use rescue::{ClearedBin, Reason, Rescue};
pub use table::Table;

/// The version of the proved code that is linked, as one number: 10,000·a + 100·b + c for version a.b.c.
///
/// It is the version of this crate, whose build refuses an archive of another.
///
/// ```
/// let [major, minor, patch] = [10_000, 100, 1].map(|unit| seluvava::version() / unit % 100);
/// assert_eq!(format!("{major}.{minor}.{patch}"), env!("CARGO_PKG_VERSION"));
/// ```
#[must_use]
pub fn version() -> u32 {
    sys::version()
}

/// The pages of the project, for `cargo doc` to show. Their examples are compiled and run with the others.
#[cfg(any(doc, doctest))]
pub mod pages {
    #[doc = include_str!("../../docs/GUIDE.md")]
    pub mod guide {}

    #[doc = include_str!("../../docs/CHOOSING.md")]
    pub mod choosing {}

    #[doc = include_str!("../../docs/RULES.md")]
    pub mod rules {}

    #[doc = include_str!("../../docs/FROM_QUANTETTE.md")]
    pub mod from_quantette {}

    #[doc = include_str!("../../docs/INTERVALS.md")]
    pub mod intervals {}

    #[doc = include_str!("../../docs/RESCUE.md")]
    pub mod rescue {}
}
