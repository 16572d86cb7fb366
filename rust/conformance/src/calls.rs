//! The calls on a whole state, as implementations make them.

use hedjosur_model::ops::{Collected, Flushed, Lookup, Refusal};
use hedjosur_model::script::Listed;
use hedjosur_model::testing::Told;

/// An implementation of the calls. State and spare area are lent as they are to
/// the static library, answers and refusals are the model's.
pub trait Calls {
    /// The lengths of state and spare area, where the numbers are inside limits.
    fn lengths(&self, numbers: [u32; 4]) -> Option<[usize; 2]>;
    /// Formats a device.
    fn format(&self, state: &mut [u8], area: &mut [u32], numbers: [u32; 4]) -> Result<(), Refusal>;
    /// Flushes a batch.
    fn flush(
        &self,
        state: &mut [u8],
        area: &mut [u32],
        batch: &[u32],
        plan: &mut [u32],
    ) -> Result<Flushed, Refusal>;
    /// Looks a logical page up.
    fn lookup(&self, state: &[u8], area: &[u32], logical_page: u32) -> Result<Lookup, Refusal>;
    /// Discards a logical page.
    fn discard(&self, state: &mut [u8], area: &[u32], logical_page: u32) -> Result<(), Refusal>;
    /// Collects.
    fn collect(
        &self,
        state: &mut [u8],
        area: &mut [u32],
        plan: &mut [u32],
        erased: &mut [u32],
    ) -> Result<Collected, Refusal>;
    /// Compacts a group; answers its records left.
    fn compact(&self, state: &mut [u8], group: u32) -> Result<usize, Refusal>;
    /// Whether two states agree.
    fn agree(&self, one: (&[u8], &[u32]), other: (&[u8], &[u32])) -> Result<bool, Refusal>;
    /// Lists a group; its records stand at the front of `out`, too.
    fn list(&self, state: &[u8], group: u32, out: &mut [u8]) -> Result<Vec<Listed>, Refusal>;
    /// Tells why a logical page is found where it is; the entries stand at the front of
    /// `out`, too.
    fn why(&self, state: &[u8], logical_page: u32, out: &mut [u8]) -> Result<Vec<Told>, Refusal>;
}

/// An implementation of the plain engine's calls, which are lent no spare area.
pub trait PlainCalls {
    /// The length of the state, where the numbers are inside limits.
    fn length(&self, numbers: [u32; 4]) -> Option<usize>;
    /// Formats a device.
    fn format(&self, state: &mut [u8], numbers: [u32; 4]) -> Result<(), Refusal>;
    /// Flushes a batch.
    fn flush(&self, state: &mut [u8], batch: &[u32], plan: &mut [u32]) -> Result<Flushed, Refusal>;
    /// Looks a logical page up; answers its page, if it is written.
    fn lookup(&self, state: &[u8], logical_page: u32) -> Result<Option<u32>, Refusal>;
    /// Discards a logical page.
    fn discard(&self, state: &mut [u8], logical_page: u32) -> Result<(), Refusal>;
    /// Collects.
    fn collect(
        &self,
        state: &mut [u8],
        plan: &mut [u32],
        erased: &mut [u32],
    ) -> Result<Collected, Refusal>;
}
