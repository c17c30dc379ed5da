//! The one stand-in that upstream's files need: the tick type that they take from hv_hal.
pub type Ticks = u64;
