//! The threads of a device, and the messages of the front-end that uses it.
use crate::device::{Core, QueueWorker, ServedFs};
use crate::error::Error;
use crate::front_end::FrontEnd;
use crate::iommu;
use crate::replace::{wait_for_front_end, Control, Old, Turn, Turns};
use log::{debug, info, warn};
use std::io::{self, ErrorKind};
use std::os::fd::{AsRawFd, OwnedFd};
use std::os::unix::net::{UnixListener, UnixStream};
use std::sync::mpsc::{channel, Sender};
use std::sync::{Arc, Mutex, PoisonError};
use std::thread;
use vhost::vhost_user::{BackendReqHandler, Error as MessageError};

/// A front-end's connection, whose messages a thread handles.
type Connection<F> = BackendReqHandler<Mutex<FrontEnd<F>>>;

/// Starts the thread that ends sessions, and the threads of all queues, and returns when each is
/// there. Each queue's thread calls `begin` first.
///
/// # Errors
/// `Thread`: one can't start, or `begin` has failed.
pub fn start_threads<F: ServedFs>(
    core: &Arc<Core<F>>,
    begin: fn() -> io::Result<()>,
) -> Result<(), Error> {
    let failed = |what: String, error| Error::Thread { what, error };
    core.start().map_err(|error| failed("the session's thread".into(), error))?;
    let (ready, is_ready) = channel();
    for (index, ring) in core.rings.iter().enumerate() {
        for number in 1..=ring.threads {
            let what = || format!("thread {number} of {} of queue {index}", ring.threads);
            start_thread(core.clone(), index, begin, ready.clone())
                .map_err(|error| failed(what(), error))?;
        }
    }
    drop(ready);
    for (index, begun) in is_ready {
        begun.map_err(|error| failed(format!("a thread of queue {index}"), error))?;
    }
    Ok(())
}

fn start_thread<F: ServedFs>(
    core: Arc<Core<F>>,
    index: usize,
    begin: fn() -> io::Result<()>,
    ready: Sender<(usize, io::Result<()>)>,
) -> io::Result<()> {
    let mut worker = QueueWorker::new(core.clone(), index);
    thread::Builder::new().name(format!("queue {index}")).spawn(move || {
        let begun = begin();
        let is_served = begun.is_ok();
        let _ = ready.send((index, begun));
        drop(ready);
        if is_served {
            core.rings[index].run(&mut worker);
        }
    })?;
    Ok(())
}

/// Why a front-end isn't served any more.
#[derive(Debug, Clone, Copy, PartialEq, Eq)]
pub enum End {
    /// It has disconnected.
    Disconnected,
    /// Another process serves it, or waits for it.
    Replaced,
}

/// Serves a front-end that connects to this socket, until it disconnects, or another process serves
/// it. If this process `takes_over`, the socket is a connection to the process that serves.
///
/// # Errors
/// `FrontEnd`, `Control`, `TakeOver`; `Device` for a descriptor that can't be made.
pub fn run<F: ServedFs>(
    core: &Arc<Core<F>>,
    tag: Option<String>,
    (mut socket, takes_over): (OwnedFd, bool),
    mut control: Control,
) -> Result<End, Error> {
    let front_end = FrontEnd::new(core.clone(), tag).map_err(Error::Device)?;
    let front_end = Arc::new(Mutex::new(front_end));
    let old = if takes_over { call(&mut socket, &mut control)? } else { None };
    let stream = match old {
        Some(_) => Some(socket.into()),
        None => accept(socket.into(), &mut control)?,
    };
    let Some(stream) = stream else { return Ok(End::Replaced) };
    let mut connection = BackendReqHandler::from_stream(stream, front_end.clone());
    let socket = connection.as_raw_fd();
    let connected = front_end.lock().unwrap_or_else(PoisonError::into_inner).connect(socket);
    connected.map_err(Error::Device)?;
    let mut turns = Turns::new(&front_end, control, socket, old).map_err(Error::Control)?;
    let ended = answer(&mut connection, core, &mut turns);
    if !turns.serves() {
        return ended.and(Err(Error::TakeOver(io::Error::other("it has left"))));
    }
    core.wait_for_calls();
    info!("Client disconnected, shutting down");
    ended
}

/// Says to the process that this one takes over from that it is ready. If no front-end is connected
/// yet, this one has taken over, and the socket is the one where a front-end will connect.
fn call(socket: &mut OwnedFd, control: &mut Control) -> Result<Option<Old>, Error> {
    let old = Old::say_ready(socket.as_raw_fd(), control).map_err(Error::TakeOver)?;
    let Some(listener) = old.first(control).map_err(Error::TakeOver)? else { return Ok(Some(old)) };
    info!("the socket is taken over from another daemon");
    *socket = listener;
    Ok(None)
}

/// Waits for the front-end. A second one can't connect. `None` if another process waits there.
fn accept(listener: UnixListener, control: &mut Control) -> Result<Option<UnixStream>, Error> {
    info!("Waiting for vhost-user socket connection...");
    control.process.serves();
    let turn = wait_for_front_end(listener.as_raw_fd(), control).map_err(Error::Control)?;
    if turn == Turn::Replaced {
        info!("another daemon waits for the connection");
        return Ok(None);
    }
    loop {
        match listener.accept() {
            Ok((stream, _)) => {
                info!("Client connected, servicing requests");
                return Ok(Some(stream)); // and the listener is closed
            }
            // It has left already, or a signal came.
            Err(e) if matches!(e.kind(), ErrorKind::ConnectionAborted | ErrorKind::Interrupted) => {
            }
            Err(e) => return Err(Error::FrontEnd(e.into())),
        }
    }
}

/// Answers the front-end's messages until it disconnects, or another process serves it.
fn answer<F: ServedFs>(
    connection: &mut Connection<F>,
    core: &Core<F>,
    turns: &mut Turns<'_, F>,
) -> Result<End, Error> {
    loop {
        match turns.next() {
            Ok(Turn::Message) => {}
            Ok(Turn::Replaced) => return Ok(End::Replaced),
            Err(e) if turns.serves() => return Err(Error::Control(e)),
            Err(e) => return Err(Error::TakeOver(e)),
        }
        if !handle_message(connection, core)? {
            return Ok(End::Disconnected);
        }
    }
}

/// Handles the next message. `false` if the front-end has disconnected.
///
/// # Errors
/// `FrontEnd`: its connection is of no further use.
fn handle_message<F: ServedFs>(
    connection: &mut Connection<F>,
    core: &Core<F>,
) -> Result<bool, Error> {
    let memory = core.memory();
    match iommu::answer_next(connection.as_raw_fd(), memory.iommu(), || core.memory()) {
        Ok(iommu::Outcome::Answered) => return Ok(true),
        Ok(iommu::Outcome::Others) => {}
        Err(e) => return Err(Error::FrontEnd(e.into())),
    }
    drop(memory); // a message may remove it
    match connection.handle_request() {
        Ok(()) => Ok(true),
        Err(MessageError::ReqHandlerError(e)) => {
            warn!("the front-end is refused: {e}");
            Ok(true)
        }
        Err(MessageError::Disconnected | MessageError::PartialMessage) => Ok(false),
        Err(MessageError::SocketBroken(e)) => {
            debug!("the front-end's socket: {e}");
            Ok(false)
        }
        Err(e) => Err(Error::FrontEnd(e.to_string().into())),
    }
}
