//! `./why` runs the model; what it says of a level is what the wrapper says of the
//! exported function's entry, word for word.

use hedjosur::WHY_LEN;
use hedjosur_layout::encode_state;
use hedjosur_model::state::Lent;
use hedjosur_model::testing::{full_device, rounds, sound_state};
use hedjosur_picture::why::Why;

#[test]
fn levels_are_told_in_the_same_words() {
    let mut lines = 0;
    rounds(300, &mut lines, |random, _, lines| {
        let device = full_device(random.between(3, 7), 256, random.below(3));
        let state = sound_state(random, &device);
        let bytes = encode_state(&state, || 0).expect("a sound state has a layout");
        let (lent, area) = (Lent::Held(state), vec![u32::MAX; device.spare_length()]);
        let library = hedjosur::Device {
            state: bytes,
            spare: (),
        };
        for _ in 0..20 {
            let logical_page = random.below(device.logical_pages);
            let why = Why::ask(&lent, &area, logical_page).expect("a sound state");
            let said: Vec<_> = why.levels.iter().map(|level| why.level(level)).collect();
            let mut buffer = [0; WHY_LEN];
            let told = library
                .why(logical_page, &mut buffer)
                .expect("a sound state");
            let told: Vec<_> = told.map(|reason| reason.to_string()).collect();
            assert_eq!(said, told);
            *lines += told.len();
        }
    });
    println!("{lines} levels told in words");
    assert!(lines > 6000);
}
