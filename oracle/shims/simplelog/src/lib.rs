//! Stand-in for `simplelog`. With the real crate and no logger set the log
//! macros evaluate nothing; here too, save that a few messages, known by their
//! format literal, put their ARGUMENTS (not the formatted text: that would lose
//! bits) on a thread-local trace while the trace is on.
//!
//! The arguments of every other message are never evaluated. This matters: the
//! message ">>>> Max flow change" indexes `network.links[..]`, which would
//! panic in a network without links.

pub mod trace {
    use std::cell::{Cell, RefCell};

    #[derive(Debug, Clone, PartialEq)]
    pub enum Event {
        /// 000's `fix_bad_valve` set this link to XPressure
        Freed { link: usize },
        /// 000 grounded the node of this id
        Grounded { node: String },
        /// a trial went through update and damping
        Stepped {
            iteration: usize,
            rel_change: f64,
            status_changed: bool,
            damping: f64,
        },
        /// 000's last message before `Ok`
        Converged {
            iteration: usize,
            error: f64,
            supply: f64,
            demand: f64,
        },
        /// a status changed by the flow update
        Status {
            link: String,
            from: String,
            to: String,
        },
        /// from the driver's hook, not from 000: refusal 7
        NotFinite { place: usize },
        /// from the driver's hook, only when it was asked for
        State {
            heads: Vec<f64>,
            flows: Vec<f64>,
            drawn: Vec<f64>,
        },
    }

    thread_local! {
        static ON: Cell<bool> = const { Cell::new(false) };
        static EVENTS: RefCell<Vec<Event>> = const { RefCell::new(Vec::new()) };
    }

    /// Empties the trace and turns it on.
    pub fn start() {
        EVENTS.with(|e| e.borrow_mut().clear());
        ON.with(|o| o.set(true));
    }

    /// Turns the trace off and hands over what it holds.
    pub fn take() -> Vec<Event> {
        ON.with(|o| o.set(false));
        EVENTS.with(|e| std::mem::take(&mut *e.borrow_mut()))
    }

    #[inline]
    pub fn on() -> bool {
        ON.with(|o| o.get())
    }

    pub fn push(event: Event) {
        EVENTS.with(|e| e.borrow_mut().push(event));
    }
}

#[macro_export]
macro_rules! debug {
    // the second argument is added by a substitution, see solver/build.rs
    ("Fixing bad valve for node index: {}", $node:expr, $link:expr $(,)?) => {
        if $crate::trace::on() {
            $crate::trace::push($crate::trace::Event::Freed { link: $link });
        }
    };
    (">> Iteration {}: Relative change: {:.6}, Status changed: {}, damping factor: {:.3}",
        $iteration:expr, $rel:expr, $changed:expr, $damping:expr $(,)?) => {
        if $crate::trace::on() {
            $crate::trace::push($crate::trace::Event::Stepped {
                iteration: $iteration,
                rel_change: $rel,
                status_changed: $changed,
                damping: $damping,
            });
        }
    };
    ("Converged in {} iterations: Error = {:.4}, Supply = {:.4}, Demand = {:.4}",
        $iteration:expr, $error:expr, $supply:expr, $demand:expr $(,)?) => {
        if $crate::trace::on() {
            $crate::trace::push($crate::trace::Event::Converged {
                iteration: $iteration,
                error: $error,
                supply: $supply,
                demand: $demand,
            });
        }
    };
    ("<yellow>Status changed for link {} from {:?} to {:?}</>",
        $id:expr, $from:expr, $to:expr $(,)?) => {
        if $crate::trace::on() {
            $crate::trace::push($crate::trace::Event::Status {
                link: $id.to_string(),
                from: format!("{:?}", $from),
                to: format!("{:?}", $to),
            });
        }
    };
    ($($t:tt)*) => { if false { let _ = ::std::format_args!($($t)*); } };
}

#[macro_export]
macro_rules! warn {
    ("Grounding node '{}' with virtual reservoir (elevation 0) to fix singular matrix",
        $id:expr $(,)?) => {
        if $crate::trace::on() {
            $crate::trace::push($crate::trace::Event::Grounded { node: $id.to_string() });
        }
    };
    ($($t:tt)*) => { if false { let _ = ::std::format_args!($($t)*); } };
}

#[macro_export]
macro_rules! error {
    ($($t:tt)*) => { if false { let _ = ::std::format_args!($($t)*); } };
}
