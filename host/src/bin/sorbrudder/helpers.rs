//! Threads that help with the work on files: lists are read in batches, worked on by whoever is free, and passed on in their order. So what
//! comes of them is the same however many threads there are.

use crate::failure::Failure;
use crate::input::{Batch, Source};
use std::collections::VecDeque;
use std::path::Path;
use std::sync::mpsc::{Receiver, SyncSender, TryRecvError, TrySendError, sync_channel};
use std::sync::{Arc, Mutex, PoisonError};
use std::thread::{Builder, Scope};

/// What is done with lists.
pub trait Task: Sync {
    /// What a thread keeps from batch to batch: buffers.
    type State;
    /// What comes of a batch.
    type Done: Send + 'static;

    fn state(&self) -> Self::State;

    fn work(&self, state: &mut Self::State, file: &Path, batch: &Batch) -> Self::Done;
}

/// Something that is handed to a helper, which lends it what it keeps.
type Job<'t, S> = Box<dyn FnOnce(&mut Option<S>) + Send + 't>;

/// The way to the threads that help.
pub struct Helpers<'t, T: Task> {
    task: &'t T,
    to: Option<SyncSender<Job<'t, T::State>>>,
    /// How many batches of a file may be under way.
    depth: usize,
}

impl<T: Task> Clone for Helpers<'_, T> {
    fn clone(&self) -> Self {
        Self {
            task: self.task,
            to: self.to.clone(),
            depth: self.depth,
        }
    }
}

/// What comes of something that was handed over, or will.
pub enum Due<D> {
    Here(D),
    There(Receiver<D>),
}

fn lost() -> Failure {
    Failure::Io("the work on lists ended before its end".to_string())
}

impl<D> Due<D> {
    /// Whether it has come.
    fn is_here(&mut self) -> Result<bool, Failure> {
        let Self::There(back) = self else {
            return Ok(true);
        };
        match back.try_recv() {
            Ok(done) => *self = Self::Here(done),
            Err(TryRecvError::Empty) => return Ok(false),
            Err(TryRecvError::Disconnected) => return Err(lost()),
        }
        Ok(true)
    }

    /// Waits for it.
    pub fn done(self) -> Result<D, Failure> {
        match self {
            Self::Here(done) => Ok(done),
            Self::There(back) => back.recv().map_err(|_| lost()),
        }
    }
}

impl<'t, T: Task> Helpers<'t, T> {
    /// Begins so many threads that the files' own and they are as many as are asked for. They end when nobody can hand them anything any
    /// more.
    pub fn begin<'s>(scope: &'s Scope<'s, '_>, jobs: usize, task: &'t T) -> Result<Self, Failure>
    where
        't: 's,
    {
        let depth = 3 * jobs + 2;
        if jobs < 2 {
            let to = None;
            return Ok(Self { task, to, depth });
        }
        // Enough waits that no helper is idle while a file's thread reads, writes, or works on a batch itself.
        let (to, from) = sync_channel::<Job<'t, T::State>>(2 * jobs);
        let from = Arc::new(Mutex::new(from));
        for _ in 1..jobs {
            let from = Arc::clone(&from);
            let help = move || help(&from);
            let thread = Builder::new().spawn_scoped(scope, help);
            thread.map_err(|why| Failure::Io(format!("no thread: {why}")))?;
        }
        let to = Some(to);
        Ok(Self { task, to, depth })
    }

    /// Works on all lists of a source, and passes on what comes of each batch, in order. Where the source fails, what was read before is
    /// passed on first.
    pub fn each(
        &self,
        input: &mut impl Source,
        mut take: impl FnMut(T::Done) -> Result<(), Failure>,
    ) -> Result<(), Failure> {
        let file: Arc<Path> = input.path().into();
        let mut state = None;
        let mut due = VecDeque::new();
        loop {
            let mut batch = Batch::default();
            let read = input.fill(&mut batch);
            let is_last = !matches!(read, Ok(true));
            if !batch.is_empty() {
                due.push_back(self.hand(&file, batch, &mut state));
            }
            while let Some(mut first) = due.pop_front() {
                if !(is_last || due.len() >= self.depth || first.is_here()?) {
                    due.push_front(first);
                    break;
                }
                take(first.done()?)?;
            }
            if is_last {
                return read.map(|_| ());
            }
        }
    }

    /// Hands a batch to a helper; where none is free, it is worked on here.
    fn hand(&self, file: &Arc<Path>, batch: Batch, state: &mut Option<T::State>) -> Due<T::Done> {
        let (task, file) = (self.task, Arc::clone(file));
        self.lend(state, move |state| {
            let state = state.get_or_insert_with(|| task.state());
            task.work(state, &file, &batch)
        })
    }

    /// Has a helper do something that needs nothing of the task's; where none is free, it is done here.
    pub fn share<D: Send + 't>(&self, work: impl FnOnce() -> D + Send + 't) -> Due<D> {
        self.lend(&mut None, move |_| work())
    }

    fn lend<D: Send + 't>(
        &self,
        state: &mut Option<T::State>,
        work: impl FnOnce(&mut Option<T::State>) -> D + Send + 't,
    ) -> Due<D> {
        let (back, due) = sync_channel(1);
        // Who waited for it may have failed otherwise meanwhile.
        let job: Job<'t, T::State> = Box::new(move |state| _ = back.send(work(state)));
        let job = match &self.to {
            None => job,
            Some(to) => match to.try_send(job) {
                Ok(()) => return Due::There(due),
                Err(TrySendError::Full(job) | TrySendError::Disconnected(job)) => job,
            },
        };
        job(state);
        Due::There(due)
    }
}

/// Works on what is handed over, until there is nobody who could.
fn help<S>(from: &Mutex<Receiver<Job<'_, S>>>) {
    let mut state = None;
    loop {
        let job = from.lock().unwrap_or_else(PoisonError::into_inner).recv();
        let Ok(job) = job else {
            return;
        };
        job(&mut state);
    }
}
