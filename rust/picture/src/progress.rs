//! Tells on standard error how far long work has come: nothing in the first two seconds, then a line every two seconds.
use std::io::Write;
use std::sync::mpsc::{channel, RecvTimeoutError, Sender};
use std::sync::{Arc, Mutex};
use std::thread::JoinHandle;
use std::time::{Duration, Instant};

const PAUSE: Duration = Duration::from_secs(2);

pub struct Progress {
    doing: Arc<Mutex<String>>,
    telling: Option<(Sender<()>, JoinHandle<()>)>,
}

impl Progress {
    /// Begins to tell, until it is dropped.
    pub fn told() -> Progress {
        let doing = Arc::new(Mutex::new(String::new()));
        let seen = Arc::clone(&doing);
        let (done, wait) = channel();
        let begun = Instant::now();
        let thread = std::thread::spawn(move || {
            while wait.recv_timeout(PAUSE) == Err(RecvTimeoutError::Timeout) {
                let doing = seen.lock().map(|doing| doing.clone()).unwrap_or_default();
                let _ = writeln!(std::io::stderr(), "picture: {} s: {doing} ..", begun.elapsed().as_secs());
            }
        });
        Progress { doing, telling: Some((done, thread)) }
    }

    /// Tells nothing.
    pub fn quiet() -> Progress {
        Progress { doing: Arc::default(), telling: None }
    }

    /// What is being done now.
    pub fn at(&self, doing: impl Into<String>) {
        if let (Some(_), Ok(mut told)) = (&self.telling, self.doing.lock()) {
            *told = doing.into();
        }
    }
}

impl Drop for Progress {
    fn drop(&mut self) {
        if let Some((done, thread)) = self.telling.take() {
            drop(done);
            let _ = thread.join();
        }
    }
}
