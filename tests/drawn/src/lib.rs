//! Weeks drawn by chance, and the faults that are put into them on purpose.

mod chance;
pub mod faults;
pub mod weeks;

pub use chance::Chance;
