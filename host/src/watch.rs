//! Watches calls that are made in this process, where one that never ends could not be stopped: it then tells the bytes, and
//! ends the process.

use crate::format::write_bytes;
use std::process;
use std::sync::{Arc, Mutex, MutexGuard, PoisonError};
use std::thread;
use std::time::{Duration, Instant};

/// The call that is made now: since when, and on which bytes.
type Call = Option<(Instant, Vec<u8>)>;

pub struct Watch(Arc<Mutex<Call>>);

impl Watch {
    /// Calls that take longer than the limit are told.
    pub fn start(limit: Duration) -> Watch {
        let watch = Watch(Arc::default());
        let call = Arc::clone(&watch.0);
        thread::spawn(move || loop {
            thread::sleep(limit / 10);
            if let Some((since, bytes)) = &*held(&call) {
                if since.elapsed() > limit {
                    eprintln!("no answer within {} s, bytes (hexadecimal):\n{}", limit.as_secs(), write_bytes(bytes));
                    process::exit(1);
                }
            }
        });
        watch
    }

    pub fn begin(&self, bytes: &[u8]) {
        *held(&self.0) = Some((Instant::now(), bytes.to_vec()));
    }

    pub fn end(&self) {
        *held(&self.0) = None;
    }
}

fn held(call: &Mutex<Call>) -> MutexGuard<'_, Call> {
    call.lock().unwrap_or_else(PoisonError::into_inner)
}
