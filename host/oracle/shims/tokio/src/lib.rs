//! Tokio as it is, but that `select!` takes the branch that it polls first from `select_order` and not from tokio's
//! random numbers: every order here is one that tokio could have drawn. It leans on an inner rule of the macro in
//! tokio 1.24, which Cargo.lock pins.
pub use real::*;

#[doc(hidden)]
pub mod __real {
    pub use real::*;
}

pub mod select_order {
    use std::cell::Cell;

    thread_local! { static FIRST: Cell<u32> = const { Cell::new(0) } }

    /// The branch that every later `select!` of this thread polls first, counted from 0; the others follow in order.
    pub fn set_first(branch: u32) {
        FIRST.with(|first| first.set(branch));
    }

    #[doc(hidden)]
    pub fn first(branches: u32) -> u32 {
        FIRST.with(|first| first.get() % branches)
    }
}

#[macro_export]
macro_rules! select {
    ($($branches:tt)*) => {
        $crate::__real::select!(
            @{ start={ $crate::select_order::first(BRANCHES) }; () } $($branches)*
        )
    };
}
