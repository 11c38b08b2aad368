//! What the original leans on, in as few lines as its text needs; or, by the feature `real-crates`, the crates.
pub mod palette;
pub mod quantette;

#[cfg(not(feature = "real-crates"))]
pub mod bytemuck;
#[cfg(not(feature = "real-crates"))]
pub mod num_traits;
#[cfg(not(feature = "real-crates"))]
pub mod ordered_float;

#[cfg(feature = "real-crates")]
pub use {::num_traits, ::ordered_float};

/// The crate, and for its derive the built-in one that the stand-in has too.
#[cfg(feature = "real-crates")]
pub mod bytemuck {
    pub use ::bytemuck::{Zeroable, zeroed_box};
    pub use core::prelude::v1::Debug as Zeroable;
}
