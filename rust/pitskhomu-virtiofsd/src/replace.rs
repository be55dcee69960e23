//! The daemon is replaced while its guest runs: a new process takes over from the one that serves
//! (`replace` of pitskhomu-vhost-user). Here is what a daemon has and says of itself.
mod control;
mod record;

pub use control::{connect, control};
pub use record::Record;
