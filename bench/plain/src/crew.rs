//! Workers that take tasks from one list.

use std::mem;
use std::sync::{Condvar, Mutex, MutexGuard};

struct List<T> {
    tasks: Vec<T>,
    /// How many tasks are taken and not done.
    running: usize,
    is_over: bool,
}

/// The list of tasks of a leader, the thread that has them done, and of its helpers.
pub struct Crew<T> {
    list: Mutex<List<T>>,
    /// For helpers: tasks came, or the crew is over.
    called: Condvar,
    /// For the leader: no task is running.
    done: Condvar,
}

impl<T> Crew<T> {
    pub fn new() -> Self {
        let list = Mutex::new(List { tasks: Vec::new(), running: 0, is_over: false });
        Crew { list, called: Condvar::new(), done: Condvar::new() }
    }

    fn list(&self) -> MutexGuard<'_, List<T>> {
        self.list.lock().expect("no worker panicked")
    }

    /// Takes and does tasks as long as there are any. Answers the list without tasks.
    fn do_all(&self, run: &impl Fn(T)) -> MutexGuard<'_, List<T>> {
        let mut list = self.list();
        while let Some(task) = list.tasks.pop() {
            list.running += 1;
            mem::drop(list);
            run(task);
            list = self.list();
            list.running -= 1;
        }
        if list.running == 0 {
            self.done.notify_one();
        }
        list
    }

    /// Does tasks until the crew is over.
    pub fn help(&self, run: impl Fn(T)) {
        loop {
            let list = self.do_all(&run);
            if list.is_over {
                return;
            }
            let wait = self.called.wait_while(list, |list| list.tasks.is_empty() && !list.is_over);
            mem::drop(wait.expect("no worker panicked"));
        }
    }

    /// Has tasks done, the last one first. The leader does its own work before it helps with them.
    pub fn work(&self, tasks: Vec<T>, own: impl FnOnce(), run: impl Fn(T)) {
        self.list().tasks = tasks;
        self.called.notify_all();
        own();
        let list = self.do_all(&run);
        mem::drop(self.done.wait_while(list, |list| list.running > 0).expect("no worker panicked"));
    }

    /// Sends the helpers home.
    pub fn end(&self) {
        self.list().is_over = true;
        self.called.notify_all();
    }
}
