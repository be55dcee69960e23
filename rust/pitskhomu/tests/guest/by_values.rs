//! Serves a chain by its request as a value, with the methods of a file system.
use super::{Guest, Way};
use pitskhomu::*;

/// Serves the next chain, if there is one.
pub fn serve(guest: &mut Guest, file_system: &dyn FileSystem) -> Result<Option<Served>, Status> {
    let Guest { worker, queue, device, memory, way, .. } = guest;
    let request = match worker.take(queue, device, memory)? {
        Some(request) => request,
        None => return Ok(None),
    };
    let sent = if *way == Way::Owned {
        request.into_owned()?.answer_by(file_system)
    } else {
        request.answer_by(file_system)
    };
    assert!(sent.is_ok(), "{sent:?}");
    assert_eq!(worker.finish(device, memory), Ok(true));
    let cancelled = worker.cancelled();
    if let Some(cancelled) = cancelled {
        file_system.cancelled(&cancelled);
    }
    worker.push(queue, memory).map(Some)
}
