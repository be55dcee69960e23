//! A guest may change its request at any time, so the worker loads each byte of it once: what was
//! decoded is what is answered.
mod guest;

use guest::recorder::Recorder;
use guest::*;
use pitskhomu::*;
use std::cell::RefCell;

/// Notes how often each byte of the request was asked for.
struct Noting<'m> {
    memory: &'m Memory,
    loads: RefCell<Vec<u32>>,
}

impl GuestMemory for Noting<'_> {
    fn get_slice(&self, at: usize, len: usize) -> Option<GuestSlice<'_>> {
        let mut loads = self.loads.borrow_mut();
        for byte in at..at + len {
            let offset = (byte - self.memory.host).wrapping_sub(REQUEST as usize);
            loads.get_mut(offset).into_iter().for_each(|count| *count += 1);
        }
        self.memory.get_slice(at, len)
    }
}

/// Makes a request's call by its methods, unless it is asked by its bytes first.
struct Bytes {
    files: Recorder,
    asks: bool,
}

impl FileSystem for Bytes {
    fn reply_by_bytes(&self, exchange: &mut Exchange<'_>) -> Option<u64> {
        assert_eq!(exchange.unique(), UNIQUE);
        let mut header = [0; 40];
        assert!(!self.asks || exchange.load(0, &mut header) == 40);
        None
    }
    fn lookup(&self, context: &Context, parent: Node, name: &CStr) -> Answer<Entry> {
        self.files.lookup(context, parent, name)
    }
    fn getattr(
        &self,
        context: &Context,
        node: Node,
        handle: Option<Handle>,
    ) -> Answer<(Attributes, std::time::Duration)> {
        self.files.getattr(context, node, handle)
    }
    fn write(
        &self,
        context: &Context,
        node: Node,
        write: WriteFile,
        data: &mut WriteData<'_>,
    ) -> Answer<()> {
        self.files.write(context, node, write, data)
    }
}

/// Requests of the header and less than 80 bytes, which are loaded first, and of more.
fn requests() -> Vec<Vec<u8>> {
    let (name, value) = ([b'n'; 200], [b'v'; 300]);
    let names = args().q(7).bytes(&name).bytes(b"\0").bytes(&name).bytes(b"\0");
    let forgets = (0..30).fold(args().d(30).d(0), |list, node| list.q(node + 5).q(1));
    let write = args().q(3).q(0).d(500).d(0).q(0).d(0).d(0).bytes(&[b'd'; 500]);
    vec![
        request(1, 1, b"hello\0"),
        request(1, 1, &args().bytes(&name).bytes(b"\0").0),
        request(3, 1, &[0; 16]),
        request(12, 1, &names.0),
        request(16, 5, &write.0),
        request(21, 5, &args().d(300).d(0).bytes(b"user.a\0").bytes(&value).0),
        request(42, 0, &forgets.0),
    ]
}

fn serve(guest: &mut Guest, file_system: &dyn FileSystem, request: &[u8]) -> Vec<u32> {
    guest.offer_request(request, 160);
    let Guest { worker, queue, device, memory, way, .. } = guest;
    let noting = Noting { memory, loads: RefCell::new(vec![0; request.len()]) };
    if *way == Way::Methods {
        assert!(worker.serve(queue, device, file_system, &noting).unwrap().is_some());
    } else {
        let asked = worker.take(queue, device, &noting).unwrap().expect("a chain is available");
        let sent = match way {
            Way::Owned => asked.into_owned().unwrap().answer_by(file_system),
            _ => asked.answer_by(file_system),
        };
        assert!(sent.is_ok() && worker.finish(device, &noting) == Ok(true));
        worker.push(queue, &noting).unwrap();
    }
    noting.loads.into_inner()
}

#[test]
fn each_byte_of_a_request_is_loaded_once() {
    for way in WAYS {
        for request in requests() {
            let mut guest = Guest::by(way);
            let loads = serve(&mut guest, &Recorder::default(), &request);
            assert_eq!(loads, vec![1; request.len()], "{way:?} {}", request[4]);
        }
    }
}

/// By its bytes first: what was loaded before is loaded by nobody again.
#[test]
fn a_request_by_its_bytes_is_loaded_once() {
    for asks in [false, true] {
        for request in requests() {
            let (mut guest, files) = (Guest::new(), Recorder::default());
            let loads = serve(&mut guest, &Bytes { files, asks }, &request);
            assert!(loads.iter().all(|&count| count <= 1), "{} {loads:?}", request[4]);
            assert!(loads[..40].iter().all(|&count| count == 1), "{}", request[4]);
        }
    }
}
