//! Refusals.

use hedjosur_model::ops::{self, Refusal, ENTRY_BYTES, WHY_BYTES, WHY_ENTRIES};
use hedjosur_model::state::Lent;
use hedjosur_model::testing::World;

/// A refusal, the logical page of the call, the bytes lent, and what is done to the
/// world before.
type Spoiled = (Refusal, u32, usize, fn(&mut World));

/// The bytes of the buffer.
const BYTES: usize = 6144;

#[test]
fn the_buffer_has_512_entries_of_12_bytes() {
    let lengths = (WHY_ENTRIES, ENTRY_BYTES, WHY_BYTES);
    assert_eq!(lengths, (512, 12, BYTES));
}

/// The refusals alone, then two at a time.
#[test]
fn refusals() {
    let spoiled: [Spoiled; 14] = [
        (Refusal::BadNumbers, 0, BYTES, |world| {
            world.lent = Lent::Short;
        }),
        (Refusal::BadNumbers, 0, BYTES, |world| {
            world.state_mut().numbers[0] = 2;
        }),
        (Refusal::BadLength, 0, BYTES, |world| {
            world.state_mut().counts.push(0);
        }),
        (Refusal::BadLength, 0, BYTES, |world| {
            world.state_mut().marks.truncate(496);
        }),
        (Refusal::BadLength, 0, BYTES, |world| {
            world.state_mut().groups.truncate(1);
        }),
        (Refusal::BadLength, 0, 0, |_| {}),
        (Refusal::BadLength, 0, BYTES - 1, |_| {}),
        (Refusal::BadLength, 0, BYTES + 12, |_| {}),
        (Refusal::OutOfRange, 500, BYTES, |_| {}),
        (Refusal::NotSound, 255, BYTES, |world| world.make_unsound(0)),
        // 1 before 2, 2 before 4, 4 before 3; a discarded page is refused like others.
        (Refusal::BadNumbers, 0, 12, |world| {
            world.state_mut().numbers[3] = 16;
        }),
        (Refusal::BadLength, 500, 12, |_| {}),
        (Refusal::OutOfRange, 500, BYTES, |world| {
            world.make_unsound(1);
        }),
        (Refusal::NotSound, 255, BYTES, |world| {
            world.discard(255).expect("an accepted discard");
            world.make_unsound(0);
        }),
    ];
    for (refusal, logical_page, bytes, spoil) in spoiled {
        let mut world = two_groups();
        spoil(&mut world);
        let mut out = vec![0xA5; bytes];
        let answer = ops::why(&world.lent, logical_page, &mut out);
        assert_eq!(answer, Err(refusal));
        assert_eq!(out, vec![0xA5; bytes]);
        if bytes == BYTES {
            let entries = ops::reasons(&world.lent, logical_page);
            assert_eq!(entries, Err(refusal));
        }
    }
}

/// Only the logical page's own group has to be sound, not the other one and not the
/// counts.
#[test]
fn the_rest_may_be_unsound() {
    let mut world = two_groups();
    world.make_unsound(0);
    world.state_mut().counts[0] = 65;
    let listed = vec![[0, 0, 0, 0, 1, 0, 0, 0, 3, 0, 0, 0]];
    assert_eq!(world.why(256), Ok(listed));
    assert_eq!(world.why(255), Err(Refusal::NotSound));
}

/// M 17, B 64, N 500, g 1, with 255 and 256 written.
fn two_groups() -> World {
    World::flushed([17, 64, 500, 1], &[&[255, 256]])
}
