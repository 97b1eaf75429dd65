//! Time.

use super::rt::HostRuntime;
use ::std::io;
use ::std::time;

pub use ::std::time::Duration;

/// A point in time of a clock that doesn't go back.
#[derive(Clone, Copy, Debug, PartialEq, Eq, PartialOrd, Ord)]
pub struct Instant(time::Instant);

impl Instant {
    /// The time of the call.
    pub fn now(_: &HostRuntime) -> io::Result<Instant> {
        Ok(Instant(time::Instant::now()))
    }

    /// The time since an earlier point; 0 if that is later.
    pub fn duration_since(self, earlier: Instant) -> Duration {
        self.0.saturating_duration_since(earlier.0)
    }
}
