//! Threads share a controller behind a lock, and move one from thread to thread.

use dma330::{Controller, Error, Events, Outcome, Segment, Status, TransferResult};
use std::sync::{Barrier, Mutex, MutexGuard};
use std::thread;

const CHANNELS: u8 = 4;
const REGION: u32 = 0x1000;
const COPY: u32 = 0x400;
const STEPS_OF_A_TURN: u32 = 2;
const ROUNDS: u32 = 1000;

// Returns the bytes with which a channel's region begins, and which fill it at the end.
fn pattern(channel: u8) -> Vec<u8> {
    (0..COPY).map(|n| (n % 251) as u8 ^ channel).collect()
}

fn opened() -> Result<Controller, Error> {
    let mut controller = Controller::open(u32::from(CHANNELS) * REGION, CHANNELS)?;
    for channel in 0..CHANNELS {
        controller.write(u32::from(channel) * REGION, &pattern(channel))?;
    }
    Ok(controller)
}

fn locked(shared: &Mutex<Controller>) -> MutexGuard<'_, Controller> {
    shared.lock().expect("no thread panicked")
}

// Steps a channel until its copy is complete, two steps each time that it has the lock. Returns whether the copy
// completed.
fn step_through(shared: &Mutex<Controller>, channel: u8, cookie: u32) -> Result<bool, Error> {
    for _ in 0..ROUNDS {
        locked(shared).step(channel, STEPS_OF_A_TURN)?;
        if locked(shared).status(channel, cookie) == Status::Complete {
            return Ok(true);
        }
    }
    Ok(false)
}

// Makes three copies upward in the channel's region, and takes the lock anew for each call.
fn copy_upward(shared: &Mutex<Controller>, channel: u8) -> Result<Vec<Option<Outcome>>, Error> {
    let mut outcomes = Vec::new();
    for n in 0..3 {
        let src = Segment::new(u32::from(channel) * REGION + n * COPY, COPY);
        let dst = Segment::new(src.addr + COPY, COPY);
        let cookie = locked(shared).submit(channel, &[src], &[dst], Events::default())?;
        locked(shared).issue(channel)?;
        assert!(step_through(shared, channel, cookie)?, "the copy doesn't end");
        outcomes.push(locked(shared).result(channel, cookie));
    }
    Ok(outcomes)
}

// Returns whether each region is full of its pattern.
fn all_is_copied(controller: &mut Controller) -> Result<bool, Error> {
    let mut bytes = vec![0; REGION as usize];
    for channel in 0..CHANNELS {
        controller.read(u32::from(channel) * REGION, &mut bytes)?;
        if bytes != pattern(channel).repeat(4) {
            return Ok(false);
        }
    }
    Ok(true)
}

#[test]
fn threads_share_a_controller_behind_a_lock() {
    let shared = Mutex::new(opened().expect("memory is available"));
    let all_begin = Barrier::new(usize::from(CHANNELS));
    let copied = Some(Outcome { result: TransferResult::NoError, residue: 0 });
    thread::scope(|scope| {
        let start = |channel| {
            let (shared, all_begin) = (&shared, &all_begin);
            scope.spawn(move || {
                all_begin.wait();
                copy_upward(shared, channel)
            })
        };
        let threads: Vec<_> = (0..CHANNELS).map(start).collect();
        for thread in threads {
            assert_eq!(thread.join().expect("a thread ends"), Ok(vec![copied; 3]));
        }
    });
    let mut controller = shared.into_inner().expect("no thread panicked");
    // another thread reads it last, and closes it
    let asked = thread::spawn(move || all_is_copied(&mut controller)).join().expect("a thread ends");
    assert_eq!(asked, Ok(true));
}
