//! Answers that come later, two at a time: each wakes a thread, but two quick writes to one event
//! are mostly one wake.
use super::*;
use std::sync::Mutex;

/// So many rounds, unless `PITSKHOMU_SEQUENCES` says another number.
const ROUNDS: u64 = 20;

/// The chains whose answers have come, for both threads.
#[derive(Default)]
struct Answers(Mutex<u32>);

impl Answers {
    fn next(&self) -> Option<u32> {
        let mut left = self.0.lock().unwrap();
        let next = *left;
        *left = next.checked_sub(1)?;
        Some(next)
    }
}

/// Takes up chains whose answers have come. The first of two is undone until the test ends that.
struct Late {
    came: Arc<Answers>,
    taken: Sender<()>,
    ends: Arc<Mutex<Receiver<()>>>,
    must_undo: bool,
}

impl Server<Ring> for Late {
    fn resumes(&mut self, _: &mut Ring) -> bool {
        let next = self.came.next();
        self.must_undo = next == Some(2);
        if next.is_some() {
            self.taken.send(()).unwrap();
        }
        next.is_some()
    }

    fn has_answered(&mut self, _: &Ring) -> bool {
        *self.came.0.lock().unwrap() > 0
    }

    fn pop(&mut self, _: &mut Ring) -> Result<Popped, Status> {
        Ok(Popped::Idle)
    }

    fn answer(&mut self) -> bool {
        true
    }

    fn push(&mut self, _: &mut Ring) -> bool {
        self.must_undo
    }

    fn undo(&mut self) {
        let _ = self.ends.lock().unwrap().recv_timeout(SOON);
    }

    fn interrupt(&mut self) {}

    fn set_notification(&mut self, _: &mut Ring, _: bool) -> Result<bool, Status> {
        Ok(true)
    }

    fn available_index(&mut self, ring: &Ring) -> Option<u16> {
        Some(ring.available)
    }

    fn refuse(&mut self, _: &mut Ring, _: Status) {}
}

/// While one thread undoes the first answer, another one takes up the second.
#[test]
fn an_answer_waits_for_no_other() {
    let rounds = std::env::var("PITSKHOMU_SEQUENCES").ok().and_then(|text| text.parse().ok());
    let (looping, came) = (Arc::new(ring(0, 0)), Arc::new(Answers::default()));
    let ((taken, hears), (end, ends)) = (channel(), channel());
    let ends = Arc::new(Mutex::new(ends));
    for _ in 0..2 {
        let (threads, came) = (looping.clone(), came.clone());
        let (taken, ends) = (taken.clone(), ends.clone());
        let mut late = Late { came, taken, ends, must_undo: false };
        thread::spawn(move || threads.run(&mut late)); // it ends with the process
    }
    for round in 0..rounds.unwrap_or(ROUNDS) {
        until(&looping, |state| state.turns.sleeping() == 2);
        thread::sleep(Duration::from_millis(10)); // both wait for an event
        *came.0.lock().unwrap() = 2;
        looping.look();
        looping.look();
        for _ in 0..2 {
            let took = hears.recv_timeout(SOON / 4);
            assert_eq!(took, Ok(()), "round {round}: an answer waits, and a thread sleeps");
        }
        end.send(()).unwrap();
        until(&looping, |state| state.turns.sleeping() == 2);
    }
}
