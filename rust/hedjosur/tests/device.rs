//! Document 01's script, every refusal, and buffers of all kinds, through the
//! wrapper.

use hedjosur::{
    Collected, Device, Flushed, Lookup, Numbers, Reason, Record, Refusal, LISTING_LEN, WHY_LEN,
};

/// The listing that document 01 gives for its script, with a head line.
const LISTING: &str = include_str!("../../model/data/listing.txt");

/// The device of document 01's script.
const SCRIPT: Numbers = Numbers {
    blocks: 9,
    block_pages: 64,
    logical_pages: 256,
    error_bound: 1,
};

/// The smallest device.
const SMALLEST: Numbers = Numbers {
    blocks: 3,
    block_pages: 4,
    logical_pages: 4,
    error_bound: 0,
};

/// A newly formatted device in buffers of its own.
fn formatted(numbers: Numbers) -> Device<Vec<u8>, Vec<u32>> {
    let mut device = Device {
        state: vec![0xA5; numbers.state_len().expect("a device")],
        spare: vec![7; numbers.spare_len().expect("a device")],
    };
    device.format(numbers).expect("an accepted format");
    device
}

fn found(page: u32, predicted: u32, levels: u32) -> Result<Lookup, Refusal> {
    Ok(Lookup::Found {
        page,
        predicted,
        levels,
    })
}

/// Document 01's script before its last flush.
fn script() -> Device<Vec<u8>, Vec<u32>> {
    let mut device = formatted(SCRIPT);
    let ascending = |from, to| Vec::from_iter(from..=to);
    for (batch, first_page) in [
        (ascending(0, 63), 0),
        (ascending(200, 255), 64),
        (ascending(16, 31), 128),
        (vec![75, 78, 82], 192),
        (vec![72, 73, 80], 256),
    ] {
        let count = batch.len() as u32;
        let flushed = Flushed { first_page, count };
        assert_eq!(device.flush(&batch, &mut [0; 64]), Ok(flushed));
    }
    device
}

#[test]
fn the_script_of_document_01() {
    let mut device = script();
    assert_eq!(device.lookup(50), found(50, 50, 2));
    assert_eq!(device.lookup(78), found(193, 193, 2));
    assert_eq!(device.lookup(82), found(194, 194, 2));
    let batch = Vec::from_iter(32..=90);
    assert!(device.flush(&batch, &mut [0; 64]).is_ok());
    assert_eq!(device.lookup(78), found(366, 366, 1));
    assert_eq!(device.compact(0), Ok(4));
    let mut buffer = [0; LISTING_LEN];
    let listing = device.list(0, &mut buffer).expect("a listing");
    assert_eq!(listing.len(), 4);
    let lines: Vec<String> = listing.map(|record| record.to_string()).collect();
    assert!(lines.iter().map(String::as_str).eq(LISTING.lines().skip(1)));
}

#[test]
fn reads_are_counted_from_the_answer() {
    for (lookup, page, levels, reads) in [
        (found(194, 193, 2), Some(194), 2, 2),
        (found(193, 193, 3), Some(193), 3, 1),
        (Ok(Lookup::NotWritten { levels: 4 }), None, 4, 0),
    ] {
        let lookup = lookup.expect("an answer");
        assert_eq!(lookup.page(), page);
        assert_eq!(lookup.levels(), levels);
        assert_eq!(lookup.reads(), reads);
    }
}

/// Until it is written again, whatever is called between; and one that was never
/// written.
#[test]
fn a_discarded_page() {
    let mut device = formatted(SMALLEST);
    let (mut plan, mut erased) = ([9; 4], [9; 3]);
    let discarded = Lookup::NotWritten { levels: 0 };
    for batch in [[0, 1], [1, 2]] {
        device.flush(&batch, &mut plan).expect("an accepted flush");
    }
    plan.fill(9);
    assert_eq!(device.discard(4), Err(Refusal::OutOfRange));
    let before = device.clone();
    for logical_page in [1, 3, 1] {
        assert_eq!(device.discard(logical_page), Ok(()));
        assert_eq!(device.lookup(logical_page), Ok(discarded));
    }
    assert_eq!(device.spare, before.spare);
    assert_eq!((discarded.page(), discarded.reads()), (None, 0));
    // Two bits of the marks' one byte, which stands between counts and group.
    let marked = Vec::from_iter((0..5659).filter(|&at| device.state[at] != before.state[at]));
    assert_eq!((marked, device.state[22]), (vec![22], 0b1010));

    assert_eq!(device.flush(&[0], &mut plan), Err(Refusal::NoFreeBlock));
    let moved = Collected {
        first_page: 8,
        count: 2,
        erased: 2,
    };
    assert_eq!(device.collect(&mut plan, &mut erased), Ok(moved));
    assert_eq!((plan, erased), ([0, 5, 9, 9], [0, 1, 9]));
    assert_eq!(device.lookup(1), Ok(discarded));
    let flushed = device.flush(&[1], &mut plan).expect("an accepted flush");
    assert_eq!(flushed.first_page, 0);
    assert_eq!(device.lookup(1), found(0, 0, 1));
    assert_eq!(device.lookup(3), Ok(discarded));
}

/// The first call that is refused for each reason, with what a person reads.
#[test]
fn every_refusal() {
    let mut device = formatted(SMALLEST);
    let (mut plan, mut erased) = ([9; 4], [9; 3]);
    let too_many = Numbers {
        logical_pages: 5,
        ..SMALLEST
    };
    let mut met = Vec::new();
    let mut refused = |refusal: Result<(), Refusal>, number: u32, message: &str| {
        let refusal = refusal.expect_err("refused");
        met.push(refusal);
        assert_eq!(refusal.number(), number);
        assert_eq!(refusal.to_string(), format!("refused {number}: {message}"));
    };
    let before = device.clone();
    refused(
        device.format(too_many),
        1,
        "the device numbers are missing or outside their limits",
    );
    refused(
        device.flush(&[0], &mut plan[..3]).map(drop),
        2,
        "a lent slice has a length that doesn't fit the device numbers",
    );
    refused(
        device.lookup(4).map(drop),
        4,
        "there is no such logical page or group",
    );
    refused(
        device.flush(&[], &mut plan).map(drop),
        5,
        "the batch is empty or longer than a block",
    );
    refused(
        device.collect(&mut plan, &mut erased).map(drop),
        8,
        "a collection would free no block",
    );
    assert_eq!((&device, plan, erased), (&before, [9; 4], [9; 3]));

    for _ in 0..2 {
        device.flush(&[0], &mut plan).expect("an accepted flush");
    }
    refused(
        device.flush(&[0], &mut plan).map(drop),
        6,
        "too few blocks are free",
    );
    device.spare.fill(3);
    refused(
        device.lookup(0).map(drop),
        7,
        "the spare area doesn't name the logical page",
    );
    device.state[22..].fill(0xFF);
    refused(
        device.lookup(0).map(drop),
        3,
        "the table's bytes are damaged (not sound)",
    );
    met.sort();
    assert_eq!(met, Refusal::ALL);
}

/// A refusal goes where errors go.
#[test]
fn a_refusal_is_an_error() {
    let looked_up =
        || -> Result<Lookup, Box<dyn std::error::Error>> { Ok(formatted(SMALLEST).lookup(4)?) };
    let error = looked_up().expect_err("refused");
    assert_eq!(error.downcast_ref(), Some(&Refusal::OutOfRange));
}

/// The same calls on owned arrays, borrowed slices and buffers that are only read.
#[test]
fn buffers_of_all_kinds() {
    let mut arrays = Device {
        state: [1; 5659],
        spare: [1; 12],
    };
    let (mut state, mut spare) = (vec![2; 5659], vec![2; 12]);
    let mut borrowed = Device {
        state: &mut state[..],
        spare: &mut spare[..],
    };
    let (mut plan, mut erased) = ([0; 4], [0; 3]);
    for batch in [[0, 1, 2], [1, 2, 3]] {
        if batch[0] == 0 {
            assert_eq!(arrays.format(SMALLEST), Ok(()));
            assert_eq!(borrowed.format(SMALLEST), Ok(()));
        }
        assert!(arrays.flush(&batch, &mut plan).is_ok());
        assert!(borrowed.flush(&batch, &mut plan).is_ok());
    }
    assert_eq!(arrays.agree(&borrowed), Ok(true));
    let moved = Collected {
        first_page: 8,
        count: 4,
        erased: 2,
    };
    assert_eq!(borrowed.collect(&mut plan, &mut erased), Ok(moved));
    assert_eq!((plan, erased), ([0, 4, 5, 6], [0, 1, 0]));
    assert_eq!(arrays.agree(&borrowed), Ok(false));
    let read_only = Device {
        state: &state[..],
        spare: &spare[..],
    };
    assert_eq!(read_only.lookup(3), found(11, 11, 1));
    // A discard only reads the spare area.
    let mut discarding = Device {
        state: state.clone(),
        spare: &spare[..],
    };
    assert_eq!(discarding.discard(3), Ok(()));
    assert_eq!(discarding.lookup(3), Ok(Lookup::NotWritten { levels: 0 }));
    // Neither compaction nor a listing nor telling why needs the spare area.
    let mut buffer = [0; LISTING_LEN];
    let mut without_spare = Device { state, spare: () };
    assert_eq!(without_spare.compact(0), Ok(1));
    let listing = without_spare.list(0, &mut buffer).expect("a listing");
    assert_eq!(listing.map(|record| record.word).collect::<Vec<_>>(), [2]);
    let mut buffer = [0; WHY_LEN];
    let mut why = without_spare.why(3, &mut buffer).expect("reasons");
    assert!(why.next().is_some_and(Reason::is_member));
}

/// The lines that support staff reads of a logical page.
fn lines<S: AsRef<[u8]>, P>(device: &Device<S, P>, logical_page: u32) -> Vec<String> {
    let mut buffer = [0; WHY_LEN];
    let why = device.why(logical_page, &mut buffer).expect("reasons");
    why.map(|reason| reason.to_string()).collect()
}

/// Every reason, in the script and where records are accurate.
#[test]
fn telling_why() {
    let device = script();
    for (logical_page, told) in [
        (
            78,
            [
                "level 0: record 72..80, approximate: 78 is not owned by it, \
                 but by the approximate record from 75",
                "level 1: record 75..82, approximate: 78 is a member, page 193 is predicted",
            ],
        ),
        (
            76,
            [
                "level 0: record 72..80, approximate: 76 is not owned by it, nor by any other",
                "level 1: record 75..82, approximate: 76 is not owned by it, nor by any other",
            ],
        ),
        (
            50,
            [
                "level 0: no record covers 50",
                "level 1: record 0..63, stride 1: 50 is a member, page 50 is predicted",
            ],
        ),
        (
            100,
            [
                "level 0: no record covers 100",
                "level 1: no record covers 100",
            ],
        ),
    ] {
        assert_eq!(lines(&device, logical_page), told);
    }

    let mut device = formatted(SCRIPT);
    for batch in [&[100, 102, 104, 106][..], &[103]] {
        assert!(device.flush(batch, &mut [0; 64]).is_ok());
    }
    let told = ["level 0: record 103, single: 103 is a member, page 64 is predicted"];
    assert_eq!(lines(&device, 103), told);
    let told = [
        "level 0: no record covers 105",
        "level 1: record 100..106, stride 2: 105 is off the stride",
    ];
    assert_eq!(lines(&device, 105), told);
}

/// Whatever its record, also one that no sound group has: 31 isn't a multiple of the
/// stride, and there are no offsets above 255.
#[test]
fn a_reason_in_words() {
    let record = Record {
        level: 2,
        start: 16,
        span: 31,
        word: 4,
        intercept: 120,
    };
    let reason = Reason::OffTheStride { record, offset: 21 };
    let line = "level 2: record 16..47, stride 2: 21 is off the stride";
    assert_eq!(reason.to_string(), line);
    let record = Record {
        level: u16::MAX,
        start: 200,
        span: 100,
        word: u16::MAX,
        intercept: i32::MIN,
    };
    let reason = Reason::Member {
        record,
        offset: 255,
    };
    let line = "level 65535: record 200..255, approximate: 255 is a member, \
                page -2147451008 is predicted";
    assert_eq!(reason.to_string(), line);
}

/// As many reasons as a lookup looks at levels, and the last is a member, with the
/// predicted page, exactly where the lookup finds the page.
#[test]
fn telling_why_beside_lookup() {
    let mut device = script();
    assert!(device.discard(78).is_ok());
    for logical_page in 0..256 {
        let mut buffer = [0; WHY_LEN];
        let why = device.why(logical_page, &mut buffer).expect("reasons");
        let lookup = device.lookup(logical_page).expect("an answer");
        assert_eq!(why.len(), lookup.levels() as usize);
        let (mut levels, mut member) = (0, None);
        for reason in why {
            assert_eq!((reason.level(), member), (levels, None));
            assert_eq!(u32::from(reason.offset()), logical_page);
            let record = reason.record().filter(|_| reason.is_member());
            member = record.map(|record| record.predict(reason.offset()));
            levels += 1;
        }
        let predicted = match lookup {
            Lookup::Found { predicted, .. } => Some(i64::from(predicted)),
            Lookup::NotWritten { .. } => None,
        };
        assert_eq!(member, predicted, "{logical_page}");
    }
    // Where the spare area names nobody, the record is told all the same.
    device.spare.fill(0xFFFF_FFFF);
    assert_eq!(device.lookup(50), Err(Refusal::NotNamed));
    assert_eq!(lines(&device, 50), lines(&script(), 50));
}

/// Three approximate records, one a level, in the second group: an offset is told of,
/// not the logical page, and an owner may start at 0.
#[test]
fn telling_why_in_another_group() {
    let mut device = formatted(Numbers {
        blocks: 200,
        block_pages: 4,
        logical_pages: 272,
        error_bound: 1,
    });
    for batch in [&[0, 1, 4, 5][..], &[3, 4, 8], &[2, 6, 7]] {
        let batch = Vec::from_iter(batch.iter().map(|offset| 256 + offset));
        assert!(device.flush(&batch, &mut [0; 4]).is_ok());
    }
    let mut buffer = [0; WHY_LEN];
    let why = device.why(256 + 5, &mut buffer).expect("reasons");
    assert_eq!(
        Vec::from_iter(why.map(|reason| (reason.offset(), reason.owner()))),
        [(5, Some(0)), (5, Some(0)), (5, None)]
    );
    assert_eq!(
        lines(&device, 256 + 5),
        [
            "level 0: record 2..7, approximate: 5 is not owned by it, \
             but by the approximate record from 0",
            "level 1: record 3..8, approximate: 5 is not owned by it, \
             but by the approximate record from 0",
            "level 2: record 0..5, approximate: 5 is a member, page 3 is predicted",
        ]
    );
    // Nothing is written in the first one.
    assert_eq!(lines(&device, 5), [""; 0]);
}

/// Reasons are written from the buffer's start on, its later bytes stay, and nothing is
/// written for a discarded page.
#[test]
fn the_buffer_of_telling_why() {
    let mut device = script();
    let mut buffer = [0xA5; WHY_LEN];
    let record = Record {
        level: 0,
        start: 72,
        span: 8,
        word: 79,
        intercept: 245,
    };
    let reason = Reason::NotOwned {
        record,
        offset: 78,
        owner: Some(75),
    };
    let before = device.clone();
    let first = device.why(78, &mut buffer).map(|mut why| why.next());
    assert_eq!(first, Ok(Some(reason)));
    assert_eq!(buffer[..12], [72, 8, 79, 0, 245, 0, 0, 0, 2, 1, 75, 0]);
    assert_eq!(buffer[12..24], [75, 7, 89, 0, 179, 0, 0, 0, 3, 0, 0, 0]);
    assert_eq!(buffer[24..], [0xA5; WHY_LEN - 24]);
    assert_eq!(device, before);

    buffer.fill(0xA5);
    for logical_page in [78, 76] {
        assert!(device.discard(logical_page).is_ok());
        let count = device.why(logical_page, &mut buffer).map(Iterator::count);
        assert_eq!((count, buffer), (Ok(0), [0xA5; WHY_LEN]));
    }
    assert!(device.flush(&[78], &mut [0; 64]).is_ok());
    let told = ["level 0: record 78, single: 78 is a member, page 320 is predicted"];
    assert_eq!(lines(&device, 78), told);
}

/// In their order: each call is refused for all reasons behind its own, too.
#[test]
fn the_refusals_of_telling_why() {
    let two_groups = Numbers {
        blocks: 12,
        logical_pages: 300,
        ..SCRIPT
    };
    let mut device = formatted(two_groups);
    let mut plan = [0; 64];
    assert!(device.flush(&[0, 256], &mut plan).is_ok());
    assert!(device.discard(299).is_ok());
    // The second group's number of records is none that a group may have.
    let group = device.state.len() - 5636;
    device.state[group..].fill(0xFF);
    let told = |state: &[u8], logical_page, length| {
        let mut buffer = vec![0xA5; length];
        let device = Device { state, spare: () };
        let count = device.why(logical_page, &mut buffer).map(Iterator::count);
        if count.is_err() {
            assert_eq!(buffer, vec![0xA5; length]);
        }
        count
    };
    let state = &device.state[..];
    assert_eq!(told(&state[..15], 300, 0), Err(Refusal::BadNumbers));
    assert_eq!(told(&[0; 5702], 300, 0), Err(Refusal::BadNumbers));
    for length in [0, 12, LISTING_LEN, WHY_LEN - 1, WHY_LEN + 1] {
        assert_eq!(told(state, 300, length), Err(Refusal::BadLength));
    }
    let short = &state[..state.len() - 1];
    assert_eq!(told(short, 300, WHY_LEN), Err(Refusal::BadLength));
    for logical_page in [300, u32::MAX] {
        assert_eq!(told(state, logical_page, WHY_LEN), Err(Refusal::OutOfRange));
    }
    // A discarded page's group is looked at, too.
    for logical_page in [256, 299] {
        assert_eq!(told(state, logical_page, WHY_LEN), Err(Refusal::NotSound));
    }
    // The other group is sound.
    assert_eq!(told(state, 0, WHY_LEN), Ok(1));
}
