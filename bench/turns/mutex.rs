// Ten million times one thread takes a lock round a counter.
use std::hint::black_box;
use std::process::ExitCode;
use std::sync::Mutex;

const TURNS: u64 = 10_000_000;

fn main() -> ExitCode {
    let lock = black_box(Mutex::new(0_u64));
    for _ in 0..TURNS {
        let mut count = lock.lock().unwrap();
        *count = count.wrapping_add(1);
    }
    if lock.into_inner().ok() == Some(TURNS) {
        return ExitCode::SUCCESS;
    }
    ExitCode::FAILURE
}
