// Appended by tests/oracle.
pub use equations::harness::{Rig, Run, Sweep};
pub use solver::harness as bare;

/// What the second copy of the solver counts and says; the unmodified one never calls `iteration`,
/// `attempt`, `exchange` or `say`.
pub mod counters {
    use std::cell::{Cell, RefCell};

    use job::Reason;

    thread_local! {
        static ITERATIONS: Cell<usize> = const { Cell::new(0) };
        static TRIES: Cell<usize> = const { Cell::new(0) };
        static SAID: Cell<Reason> = const { Cell::new(Reason::NothingFree) };
        /// What each try of the last iteration said last.
        static ROUND: RefCell<Vec<Reason>> = const { RefCell::new(Vec::new()) };
        /// A bit for each column.
        static EXCHANGES: Cell<u128> = const { Cell::new(0) };
    }

    pub fn iteration() {
        ITERATIONS.set(ITERATIONS.get() + 1);
        ROUND.take();
    }

    /// Every try says something after this, which takes the place of what was said before it.
    pub fn attempt() {
        TRIES.set(TRIES.get() + 1);
        ROUND.with_borrow_mut(|round| round.push(SAID.get()));
    }

    /// Why a fit fails, or an elimination has no answer, if nothing else is said.
    pub fn say(reason: Reason) {
        SAID.set(reason);
        ROUND.with_borrow_mut(|round| {
            if let Some(last) = round.last_mut() {
                *last = reason;
            }
        });
    }

    /// Two rows trade places in a column.
    pub fn exchange(column: usize) {
        EXCHANGES.set(EXCHANGES.get() | 1 << column);
    }

    pub fn reset() {
        ITERATIONS.set(0);
        TRIES.set(0);
        SAID.set(Reason::NothingFree);
        ROUND.take();
        EXCHANGES.set(0);
    }

    /// Iterations and tries since the last reset.
    pub fn read() -> (usize, usize) {
        (ITERATIONS.get(), TRIES.get())
    }

    /// What was said last since the last reset; nothing free, if nothing was.
    pub fn said() -> Reason {
        SAID.get()
    }

    /// What each try of the last iteration said last.
    pub fn round() -> Vec<Reason> {
        ROUND.with_borrow(Vec::clone)
    }

    /// The columns in which rows traded places since the last reset, rising.
    pub fn exchanges() -> Vec<usize> {
        (0..128).filter(|column| EXCHANGES.get() >> column & 1 == 1).collect()
    }
}
