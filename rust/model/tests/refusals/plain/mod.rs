//! The plain engine's calls, on arbitrary states of it.

mod calls;
mod facts;
mod lent;
