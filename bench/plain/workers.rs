//! Steps through an engine behind a `Mutex`, by one to eight threads, each on a channel of its own, and steps of an
//! engine alone.

use std::process::ExitCode;
use std::sync::{Mutex, PoisonError};
use std::thread;
use std::time::{Duration, Instant};

use crate::engine::Engine;
use crate::history::Turn;
use crate::mem::Segment;
use crate::transfer::Transfer;

const LONG: u32 = 0x10_0000;
// each channel copies from its first MiB to its second
const CHANNEL: u32 = 0x20_0000;
const MEMORY: u32 = 0x100_0000;
// the clock of the processor time of all threads (Linux, clock_gettime(2))
const PROCESS_CPU: i32 = 2;

#[repr(C)]
struct Timespec {
    seconds: i64,
    nanoseconds: i64,
}

#[allow(unsafe_code)] // the standard library has no clock of the processor time
unsafe extern "C" {
    fn clock_gettime(clock: i32, time: *mut Timespec) -> i32;
}

/// The time of the clock and of the processor.
struct Watch(Instant, Duration);

impl Watch {
    #[allow(unsafe_code)]
    fn processors() -> Option<Duration> {
        let mut time = Timespec { seconds: 0, nanoseconds: 0 };
        // SAFETY: the pointer is to a value of the layout that 64-bit Linux writes.
        let status = unsafe { clock_gettime(PROCESS_CPU, &mut time) };
        (status == 0).then(|| Duration::new(time.seconds as u64, time.nanoseconds as u32))
    }

    fn start() -> Option<Watch> {
        Some(Watch(Instant::now(), Watch::processors()?))
    }

    /// What passed by the clock and by the processor.
    fn stop(self) -> Option<[Duration; 2]> {
        Some([self.0.elapsed(), Watch::processors()? - self.1])
    }
}

/// The number of steps, of copies that ended, and how long they took.
type Measured = (u64, u64, [Duration; 2]);

/// An engine with `count` copies of `len` bytes issued on each of its channels.
fn loaded(channels: u8, len: u32, count: u32) -> Option<Engine> {
    let mut engine = Engine::new(MEMORY, channels).ok()?;
    for ch in 0..channels {
        let addr = u32::from(ch) * CHANNEL;
        for _ in 0..count {
            let (src, dst) = (Segment { addr, len }, Segment { addr: addr + LONG, len });
            engine.submit(ch, Transfer::new(&[src], &[dst], None, None).ok()?).ok()?;
        }
        engine.issue(ch).ok()?;
    }
    Some(engine)
}

/// Steps a channel `turns` times, each time under the lock. Returns how many copies ended.
fn work(engine: &Mutex<Engine>, ch: u8, turns: u64) -> u64 {
    let mut finished = 0;
    for _ in 0..turns {
        let turn = engine.lock().unwrap_or_else(PoisonError::into_inner).step(ch);
        finished += u64::from(matches!(turn, Ok(Turn::Finished { .. })));
    }
    finished
}

/// Lets each worker step the copies of its channel.
fn timed(workers: u8, len: u32, turns: u64, count: u32) -> Option<Measured> {
    let each = count.checked_div(u32::from(workers))?;
    let engine = Mutex::new(loaded(workers, len, each)?);
    let watch = Watch::start()?;
    let finished = thread::scope(|scope| {
        let run = |ch| scope.spawn({ let engine = &engine; move || work(engine, ch, turns * u64::from(each)) });
        let threads: Vec<_> = (0..workers).map(run).collect();
        threads.into_iter().map(|it| it.join().unwrap_or(0)).sum()
    });
    let took = watch.stop()?;
    Some((engine.into_inner().ok()?.steps(), finished, took))
}

/// Steps the copies of an engine's channel.
fn timed_alone(len: u32, turns: u64, count: u32) -> Option<Measured> {
    let mut engine = loaded(1, len, count)?;
    let (mut finished, watch) = (0, Watch::start()?);
    for _ in 0..turns * u64::from(count) {
        finished += u64::from(matches!(engine.step(0), Ok(Turn::Finished { .. })));
    }
    let took = watch.stop()?;
    Some((engine.steps(), finished, took))
}

/// `workers N long|short COUNT`: prints how long N workers take for COUNT copies, or an engine alone if N is 0.
pub fn workers(words: &[String]) -> ExitCode {
    let [workers, length, count] = words else {
        return ExitCode::FAILURE;
    };
    let (len, turns) = if length == "long" { (LONG, 20_518) } else { (4, 9) };
    let (Ok(workers), Ok(count)) = (workers.parse(), count.parse()) else {
        return ExitCode::FAILURE;
    };
    let measured = if workers == 0 { timed_alone(len, turns, count) } else { timed(workers, len, turns, count) };
    match measured {
        Some((steps, finished, [took, busy])) => {
            println!("steps {steps} finished {finished} took {}ns busy {}ns", took.as_nanos(), busy.as_nanos());
            ExitCode::SUCCESS
        }
        None => ExitCode::FAILURE,
    }
}
