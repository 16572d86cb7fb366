//! The plain engine's calls against its model.
//!
//! - [`beside`]: a call made by the model and by an implementation
//! - [`states`]: states of any kind, sound or damaged
//! - [`histories`]: lists of calls that start with a format
//! - [`largest`]: the largest device, and [`sizes`]: devices of all sizes
//! - [`arguments`]: calls on arbitrary states, with arguments and lengths of all
//!   kinds
//! - [`refusals`]: every refusal, alone and beside others

pub mod arguments;
pub mod beside;
pub mod histories;
pub mod largest;
pub mod refusals;
pub mod sizes;
pub mod states;
