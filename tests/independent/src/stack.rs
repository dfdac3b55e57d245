//! Work on threads whose stacks are small.

use std::thread;

/// Does it on a stack of that many bytes.
pub fn on_stack(bytes: usize, work: impl FnOnce() + Send) {
    on_stacks(bytes, [work]);
}

/// Does all of it at once, each part on such a stack.
pub fn on_stacks<Work: FnOnce() + Send>(bytes: usize, parts: impl IntoIterator<Item = Work>) {
    thread::scope(|scope| {
        for work in parts {
            let thread = thread::Builder::new().stack_size(bytes);
            thread.spawn_scoped(scope, work).expect("a thread");
        }
    });
}
