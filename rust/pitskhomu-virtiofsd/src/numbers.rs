//! Numbers for the operator, which the queues' threads count. `report` has the texts, and `ask`
//! those who ask for them: SIGUSR1, and the socket of --metrics.
mod ask;
mod report;
mod socket;

pub use ask::{on_signal, Asked};
pub use pitskhomu_vhost_user::numbers::{begin, Numbers, COLUMNS, OPCODES, SUM, UNIT};
pub use socket::{MetricsSocket, SocketId};
