//! A controller with a thread of its own, to which I/O threads send their copies; each waits until its copy is
//! complete.

use dma330::{Controller, Error, Events, Outcome, Segment, Step, TransferResult};
use std::collections::HashMap;
use std::sync::mpsc::{channel, Receiver, Sender, TryRecvError};
use std::thread;

const CHANNELS: u8 = 4;
const SIZE: u32 = 0x4000;
const STEPS_OF_A_TURN: u32 = 64;

/// A copy that a thread requests, and the sender through which the owner reports how it ended.
struct Request {
    channel: u8,
    src: Segment,
    dst: Segment,
    done: Sender<Result<Outcome, Error>>,
}

/// The thread that owns the controller.
struct Owner {
    controller: Controller,
    waiting: HashMap<(u8, u32), Sender<Result<Outcome, Error>>>,
}

impl Owner {
    fn take(&mut self, request: Request) {
        let Request { channel, src, dst, done } = request;
        let submitted = self.controller.submit(channel, &[src], &[dst], Events::default());
        match submitted.and_then(|cookie| self.controller.issue(channel).map(|_| cookie)) {
            Ok(cookie) => {
                self.waiting.insert((channel, cookie), done);
            }
            // a thread that no longer waits needs no answer
            Err(error) => done.send(Err(error)).unwrap_or_default(),
        }
    }

    // Takes some steps of each channel, and answers the threads whose copies have finished.
    fn turn(&mut self) -> Result<(), Error> {
        for channel in 0..CHANNELS {
            if let Some(Step::Finished { cookie, outcome }) = self.controller.step(channel, STEPS_OF_A_TURN)?.last {
                if let Some(done) = self.waiting.remove(&(channel, cookie)) {
                    done.send(Ok(outcome)).unwrap_or_default();
                }
            }
        }
        // all finished copies are answered, so the history is no longer needed
        if self.waiting.is_empty() {
            self.controller.checkpoint()?;
        }
        Ok(())
    }

    // Serves requests until all senders are gone and all requested copies are finished.
    fn serve(mut self, requests: &Receiver<Request>) -> Result<Controller, Error> {
        loop {
            match requests.try_recv() {
                Ok(request) => self.take(request),
                Err(TryRecvError::Disconnected) if self.waiting.is_empty() => return Ok(self.controller),
                // nothing to step: sleep until a request comes
                Err(TryRecvError::Empty) if self.waiting.is_empty() => match requests.recv() {
                    Ok(request) => self.take(request),
                    Err(_) => return Ok(self.controller),
                },
                Err(_) => {}
            }
            self.turn()?;
        }
    }
}

// Requests three copies upward in the channel's region, a kibibyte each, and returns their number.
fn copy_upward(channel_number: u8, requests: &Sender<Request>) -> usize {
    let region = u32::from(channel_number) * 0x1000;
    let mut copied = 0;
    for n in 0..3 {
        let (done, finished) = channel();
        let src = Segment::new(region + n * 0x400, 0x400);
        let dst = Segment::new(region + (n + 1) * 0x400, 0x400);
        requests.send(Request { channel: channel_number, src, dst, done }).expect("the owner listens");
        let outcome = finished.recv().expect("the owner answers").expect("the copy was accepted");
        assert_eq!(outcome, Outcome { result: TransferResult::NoError, residue: 0 });
        copied += 1;
    }
    copied
}

// Returns the bytes with which a channel's region begins, and which fill it at the end.
fn pattern(channel: u8) -> Vec<u8> {
    (0..0x400u32).map(|n| (n % 251) as u8 ^ channel).collect()
}

// Opens the controller on the thread that owns it, serves all requests, and checks the memory.
fn serve_all(requests: &Receiver<Request>) -> Result<(), Error> {
    let mut controller = Controller::open(SIZE, CHANNELS)?;
    for channel in 0..CHANNELS {
        controller.write(u32::from(channel) * 0x1000, &pattern(channel))?;
    }
    let mut controller = Owner { controller, waiting: HashMap::new() }.serve(requests)?;
    for channel in 0..CHANNELS {
        let mut bytes = vec![0; 0x1000];
        controller.read(u32::from(channel) * 0x1000, &mut bytes)?;
        assert_eq!(bytes, pattern(channel).repeat(4));
    }
    Ok(())
}

fn main() {
    let (sender, requests) = channel();
    let copied: usize = thread::scope(|scope| {
        let owner = scope.spawn(move || serve_all(&requests));
        let clients: Vec<_> = (0..CHANNELS)
            .map(|number| {
                let sender = sender.clone();
                scope.spawn(move || copy_upward(number, &sender))
            })
            .collect();
        drop(sender);
        let copied = clients.into_iter().map(|client| client.join().expect("a client ends")).sum();
        owner.join().expect("the owner ends").expect("no call failed");
        copied
    });
    println!("{copied} copies of {CHANNELS} threads by one controller");
}
