//! Calls in parts, by a pool of the program's own; and how each call of the library is made.

/// Makes a call of the library: `call!(cvl_count | cvl_count_on: arguments)`, which runs in parts where the thread
/// has a pool, and `call!(cvl_exact_sum: arguments)` of what is not cut.
///
/// The pointers among the arguments are those of slices, each followed by the length of its slice, and of single values that the
/// function owns. The rest of what a caller owes is Rust's: a room is a `&mut` slice, so that nobody else reads or writes it.
macro_rules! call {
    ($plain:ident: $($argument:expr),+) => {
        $crate::fault::told(unsafe { cvl_sys::$plain($($argument),+) })
    };
    ($plain:ident | $in_parts:ident: $($argument:expr),+) => {{
        #[cfg(feature = "std")]
        let status = $crate::pool::in_use::with_current(|pool| match pool {
            None => unsafe { cvl_sys::$plain($($argument),+) },
            Some(pool) => pool.after(unsafe { cvl_sys::$in_parts(pool.given(), $($argument),+) }),
        });
        #[cfg(not(feature = "std"))]
        let status = unsafe { cvl_sys::$plain($($argument),+) };
        $crate::fault::told(status)
    }};
}
pub(crate) use call;

#[cfg(feature = "std")]
pub use in_use::{with_pool, Pool};

#[cfg(feature = "std")]
pub(crate) mod in_use {
    use std::any::Any;
    use std::cell::Cell;
    use std::ffi::c_void;
    use std::panic::{catch_unwind, resume_unwind, AssertUnwindSafe};
    use std::ptr;

    use cvl_sys::{CvlPart, CvlPool, CvlStatus};

    /// Who runs the parts of long calls: threads of the program's own.
    ///
    /// A call takes some steps, and each step has parts, which write different places and never wait for one another.
    /// A pool can do no harm: a part that runs twice does its work once. If `run` leaves a part out or panics, the call
    /// is fault 100 NoResources with its room as it was, or the calling thread runs the part itself. After a panic the
    /// call then panics with the same payload, which is the only panic of a call.
    ///
    /// ```
    /// struct InTurn;
    ///
    /// impl cvl::Pool for InTurn {
    ///     fn parts(&self) -> usize {
    ///         4
    ///     }
    ///
    ///     fn run(&self, parts: usize, part: &(dyn Fn(usize) + Sync)) {
    ///         (0..parts).for_each(part);
    ///     }
    /// }
    ///
    /// assert_eq!(cvl::with_pool(&InTurn, || cvl::add_ruz(&[1; 1_000_000]))?, 1_000_000);
    /// # Ok::<(), cvl::Fault>(())
    /// ```
    pub trait Pool {
        /// Into how many parts a long vector is cut: 0 are one, and more than 64 are 64. A call may have fewer.
        fn parts(&self) -> usize;

        /// Calls `part(k)` once for each `k` below `parts`, in any order, by any threads, several at once or one after another.
        fn run(&self, parts: usize, part: &(dyn Fn(usize) + Sync));
    }

    /// Does some work, in which each long call that this thread makes is run in parts by the pool.
    ///
    /// What the calls give, and their faults, are the same. Calls of other threads, and those within the pool's `run`, do not see
    /// this pool.
    pub fn with_pool<T>(pool: &dyn Pool, work: impl FnOnce() -> T) -> T {
        let state = State { pool, panicked: Cell::new(None) };
        let in_use = InUse {
            given: CvlPool { parts: pool.parts(), run: run_parts, state: (&state as *const State<'_> as *mut State<'_>).cast() },
            panicked: &state.panicked,
        };
        let _restored = Current::replaced((&in_use as *const InUse<'_>).cast());
        work()
    }

    /// What the library is given of a pool.
    struct State<'a> {
        pool: &'a dyn Pool,
        panicked: Cell<Option<Box<dyn Any + Send>>>,
    }

    /// A pool that this thread's calls run on.
    pub(crate) struct InUse<'a> {
        given: CvlPool,
        panicked: &'a Cell<Option<Box<dyn Any + Send>>>,
    }

    impl InUse<'_> {
        pub(crate) fn given(&self) -> &CvlPool {
            &self.given
        }

        /// The status of a call that was made in parts. Where its pool panicked, that goes on, now that the library has returned.
        pub(crate) fn after(&self, status: CvlStatus) -> CvlStatus {
            match self.panicked.take() {
                None => status,
                Some(payload) => resume_unwind(payload),
            }
        }
    }

    thread_local! {
        static CURRENT: Cell<*const InUse<'static>> = const { Cell::new(ptr::null()) };
    }

    /// The pool in use from now until this is dropped; then the one of before is again.
    struct Current {
        before: *const InUse<'static>,
    }

    impl Current {
        fn replaced(now: *const InUse<'static>) -> Current {
            Current { before: CURRENT.with(|current| current.replace(now)) }
        }
    }

    impl Drop for Current {
        fn drop(&mut self) {
            CURRENT.with(|current| current.set(self.before));
        }
    }

    /// Does something with the pool of this thread's calls.
    pub(crate) fn with_current<T>(call: impl FnOnce(Option<&InUse<'_>>) -> T) -> T {
        // What is there stands in a frame of `with_pool` on this thread, below this one.
        call(CURRENT.with(|current| unsafe { current.get().as_ref() }))
    }

    /// One step's parts, as the library gives them.
    #[derive(Clone, Copy)]
    struct Parts {
        part: CvlPart,
        work: *mut c_void,
        count: usize,
    }

    // The library's parts are for any threads, several at once, and each looks whether it was run before.
    unsafe impl Sync for Parts {}

    impl Parts {
        fn run(&self, k: usize) {
            if k < self.count {
                // The library waits for this: a pool has the closure that calls this for no longer than its `run` takes.
                unsafe { (self.part)(self.work, k) }
            }
        }
    }

    /// What the library calls for each step. No panic leaves it; after one the pool runs nothing more of the call.
    unsafe extern "C" fn run_parts(state: *mut c_void, part: CvlPart, work: *mut c_void, count: usize) {
        // It stands in the frame of `with_pool` in which the call is made.
        let state = &*(state as *const State<'_>);
        let panicked = state.panicked.take();
        if panicked.is_some() {
            state.panicked.set(panicked);
            return;
        }
        let parts = Parts { part, work, count };
        let _restored = Current::replaced(ptr::null());
        let run = || state.pool.run(count, &|k| parts.run(k));
        if let Err(payload) = catch_unwind(AssertUnwindSafe(run)) {
            state.panicked.set(Some(payload));
        }
    }
}
