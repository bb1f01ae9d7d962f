//! The messages that frames carry. Of ironsight's messages those of a shot are ported:
//! [`shot`] has nine, the request for club points, and what the port adds.
pub mod shot;
