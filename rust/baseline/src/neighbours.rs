//! How far neighbours in a list keep to a rule.

/// How many neighbours are compared at once.
const AT_ONCE: usize = 8;

/// For how many neighbours, from the left, a rule holds.
#[inline]
pub fn holding(list: &[u32], holds: impl Fn(u32, u32) -> bool) -> usize {
    let next = list.get(1..).unwrap_or_default();
    let (parts, _) = list.as_chunks::<AT_ONCE>();
    let (next_parts, _) = next.as_chunks::<AT_ONCE>();
    let whole = parts.iter().zip(next_parts).take_while(|(part, next)| {
        // All are looked at, so that they are compared together.
        (0..AT_ONCE).fold(true, |all, at| all & holds(part[at], next[at]))
    });
    let whole = AT_ONCE * whole.count();
    let rest = list[whole..].iter().zip(&next[whole..]);
    whole + rest.take_while(|(&one, &next)| holds(one, next)).count()
}
