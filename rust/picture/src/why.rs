//! Why a lookup of a logical page ends where it does, in words: what each level says, the
//! spare entries read at the predicted page, and what comes of it.

use std::fmt::{self, Display, Formatter};

use hedjosur_model::device::{group_of, offset_of, Device};
use hedjosur_model::levels::Group;
use hedjosur_model::ops::{self, Reason, Refusal, WhyEntry};
use hedjosur_model::record::{Kind, Record};
use hedjosur_model::spare::{self, NOBODY};
use hedjosur_model::state::Lent;

use crate::words::{self, counted};

/// What is told of a logical page. It is displayed as lines for a person.
#[derive(Clone, Debug)]
pub struct Why<'a> {
    /// The device.
    pub device: Device,
    /// The logical page asked for.
    pub logical_page: u32,
    /// Its group.
    pub group: &'a Group,
    /// What is told of each level that a lookup looks at.
    pub levels: Vec<WhyEntry<'a>>,
    /// What comes of it.
    pub outcome: Outcome,
    area: &'a [u32],
}

/// What a lookup makes of the last level that it looks at.
#[derive(Clone, Copy, Debug, PartialEq, Eq)]
pub enum Outcome {
    /// The logical page is discarded: no level is looked at.
    Discarded,
    /// No record has it.
    NotWritten,
    /// The page that its record predicts doesn't exist: refused 7.
    NoSuchPage(i64),
    /// The spare entries of the predicted page are read.
    Read {
        /// The predicted page.
        predicted: u32,
        /// The page that is answered; none where no entry names the logical page, which
        /// is refused 7.
        page: Option<u32>,
    },
}

/// A spare entry of a page.
#[derive(Clone, Copy, Debug, PartialEq, Eq)]
pub struct SpareEntry {
    /// Its number, from 0; the one of number g is the middle one.
    pub number: u32,
    /// The page that it is about; none where that lies outside the device.
    pub about: Option<u32>,
    /// The logical page that it names; none is nobody.
    pub names: Option<u32>,
}

impl<'a> Why<'a> {
    /// Asks why, of a state with its spare area. It refuses as a lookup does, but for 7,
    /// which is an outcome.
    pub fn ask(lent: &'a Lent, area: &'a [u32], logical_page: u32) -> Result<Why<'a>, Refusal> {
        let page = match ops::lookup(lent, area, logical_page) {
            Ok(found) => found.page(),
            Err(Refusal::NotNamed) => None,
            Err(refusal) => return Err(refusal),
        };
        let (device, state) = lent.open()?;
        let levels = ops::reasons(lent, logical_page)?;
        let outcome = match levels
            .last()
            .and_then(|level| predicted(level, logical_page))
        {
            _ if state.marks[logical_page as usize] => Outcome::Discarded,
            None => Outcome::NotWritten,
            Some(predicted) => match spare::existing(&device, predicted) {
                None => Outcome::NoSuchPage(predicted),
                Some(predicted) => Outcome::Read { predicted, page },
            },
        };
        Ok(Why {
            device,
            logical_page,
            group: &state.groups[group_of(logical_page)],
            levels,
            outcome,
            area,
        })
    }

    /// The offset of the logical page in its group.
    pub fn offset(&self) -> u8 {
        offset_of(self.logical_page)
    }

    /// The spare entries of a page, in order. 'An entry for a page that doesn't exist
    /// names nobody.'
    pub fn spare_entries(&self, page: u32) -> Vec<SpareEntry> {
        let first = i64::from(page) - i64::from(self.device.bound);
        (0..)
            .zip(spare::entries(&self.device, self.area, page))
            .map(|(number, &named)| {
                let about = spare::existing(&self.device, first + i64::from(number));
                SpareEntry {
                    number,
                    about,
                    names: about.and(somebody(named)),
                }
            })
            .collect()
    }

    /// What is written on a page, by its middle entry; none is nothing.
    pub fn held_by(&self, page: u32) -> Option<u32> {
        somebody(spare::middle(&self.device, self.area, page))
    }

    /// The spare entries that the lookup reads.
    pub fn entries_read(&self) -> Vec<SpareEntry> {
        match self.outcome {
            Outcome::Read { predicted, .. } => self.spare_entries(predicted),
            _ => Vec::new(),
        }
    }

    /// Whether an entry of those read is the one that decides: it is about the page that
    /// is answered.
    pub fn decides(&self, entry: &SpareEntry) -> bool {
        match self.outcome {
            Outcome::Read { page, .. } => page.is_some() && page == entry.about,
            _ => false,
        }
    }

    /// What is asked, in words.
    pub fn question(&self) -> String {
        let (offset, group) = (self.offset(), group_of(self.logical_page));
        format!(
            "why {}: offset {offset} of group {group}",
            self.logical_page
        )
    }

    /// What a level says, in words.
    pub fn level(&self, level: &WhyEntry) -> String {
        let reason = self.reason(level);
        match level.record {
            Some(record) => format!("level {}: record {}: {reason}", level.level, range(record)),
            None => format!("level {}: {reason}", level.level),
        }
    }

    /// The reason that a level gives, in words.
    pub fn reason(&self, level: &WhyEntry) -> String {
        let offset = self.offset();
        match (level.reason, predicted(level, self.logical_page)) {
            (Reason::NoneCovers, _) => format!("no record covers {offset}"),
            (Reason::OffTheStride, _) => format!("{offset} is off the stride"),
            (Reason::NotOwned { owner: None }, _) => {
                format!("{offset} is not owned by it, nor by any other")
            }
            (Reason::NotOwned { owner: Some(start) }, _) => {
                format!("{offset} is not owned by it, but by the approximate record from {start}")
            }
            (Reason::Member, page) => {
                let page = page.expect("a sound record predicts");
                format!("{offset} is a member, page {page} is predicted")
            }
        }
    }

    /// What the lookup answers, in words.
    pub fn answer(&self) -> String {
        let asked = self.logical_page;
        match self.outcome {
            Outcome::Discarded => "discarded: no level is looked at".to_string(),
            Outcome::NotWritten => {
                let levels = counted(self.levels.len(), "level");
                let why = match self.levels.is_empty() {
                    true => ": the group has no record",
                    false => "",
                };
                format!("not written, {levels} looked at{why}")
            }
            Outcome::NoSuchPage(predicted) => {
                format!("refused 7: page {predicted} is predicted and doesn't exist")
            }
            Outcome::Read {
                predicted,
                page: None,
            } => format!("refused 7: no entry of page {predicted} names {asked}"),
            Outcome::Read {
                predicted,
                page: Some(page),
            } => {
                let deciding = self
                    .entries_read()
                    .into_iter()
                    .find(|one| self.decides(one));
                let number = deciding.expect("an entry about the page").number;
                match page == predicted {
                    true => format!("page {page}, one read"),
                    false => format!(
                        "page {page}, two reads: page {predicted} was predicted, \
                         its entry {number} names {asked}"
                    ),
                }
            }
        }
    }
}

/// The logical page that an entry names, if any.
fn somebody(named: u32) -> Option<u32> {
    (named != NOBODY).then_some(named)
}

/// The page that the record of a level predicts for a logical page, where it has it as a
/// member.
fn predicted(level: &WhyEntry, logical_page: u32) -> Option<i64> {
    let record = level.record.filter(|_| level.reason == Reason::Member)?;
    record.predicted(offset_of(logical_page))
}

/// A record by the offsets that it covers and its kind.
pub fn range(record: &Record) -> String {
    let (start, last) = (record.start, record.last());
    match record.kind() {
        Some(Kind::Single) => format!("{start}, single"),
        Some(kind) => format!("{start}..{last}, {}", words::kind(kind)),
        None => format!("{start}..{last}, no kind"),
    }
}

impl Display for Why<'_> {
    fn fmt(&self, out: &mut Formatter) -> fmt::Result {
        writeln!(out, "{}", self.question())?;
        for level in &self.levels {
            writeln!(out, "{}", self.level(level))?;
        }
        if let Outcome::Read { predicted, .. } = self.outcome {
            for entry in self.spare_entries(predicted) {
                let decides = match self.decides(&entry) {
                    true => ": it decides",
                    false => "",
                };
                writeln!(
                    out,
                    "entry {} of page {predicted} {entry}{decides}",
                    entry.number
                )?;
            }
        }
        writeln!(out, "{}", self.answer())
    }
}

impl Display for SpareEntry {
    fn fmt(&self, out: &mut Formatter) -> fmt::Result {
        match self.about {
            Some(page) => write!(out, "(for page {page}) names ")?,
            None => write!(out, "(for no page) names ")?,
        }
        match self.names {
            Some(logical_page) => write!(out, "{logical_page}"),
            None => write!(out, "nobody"),
        }
    }
}

#[cfg(test)]
mod tests {
    use hedjosur_model::testing::{small_device, Random, World};

    use super::*;

    /// What is told of a logical page.
    fn told(world: &World, logical_page: u32) -> String {
        let why = Why::ask(&world.lent, &world.area, logical_page);
        why.expect("an accepted call").to_string()
    }

    #[test]
    fn a_discarded_page() {
        let mut world = World::flushed([4, 4, 6, 0], &[&[0, 1, 2, 3]]);
        world.discard(2).expect("an accepted discard");
        assert_eq!(
            told(&world, 2),
            "why 2: offset 2 of group 0\ndiscarded: no level is looked at\n"
        );
    }

    #[test]
    fn refusal_7() {
        let mut world = World::flushed([4, 4, 6, 1], &[&[0, 1, 2, 3]]);
        world.area.fill(5);
        assert_eq!(
            told(&world, 0),
            "why 0: offset 0 of group 0\n\
             level 0: record 0..3, stride 1: 0 is a member, page 0 is predicted\n\
             entry 0 of page 0 (for no page) names nobody\n\
             entry 1 of page 0 (for page 0) names 5\n\
             entry 2 of page 0 (for page 1) names 5\n\
             refused 7: no entry of page 0 names 0\n"
        );
        world.state_mut().groups[0].levels[0][0].intercept = -9;
        assert_eq!(
            told(&world, 0),
            "why 0: offset 0 of group 0\n\
             level 0: record 0..3, stride 1: 0 is a member, page -9 is predicted\n\
             refused 7: page -9 is predicted and doesn't exist\n"
        );
    }

    /// The middle entry decides before a lower one, a lower one before a higher one.
    #[test]
    fn which_entry_decides() {
        let mut world = World::flushed([4, 4, 6, 1], &[&[0, 1, 2, 3]]);
        let decide = |world: &World| {
            let why = Why::ask(&world.lent, &world.area, 1).expect("an accepted call");
            let read = why.entries_read();
            let deciding = read.iter().filter(|entry| why.decides(entry));
            deciding.map(|entry| entry.number).collect::<Vec<u32>>()
        };
        world.area[3..6].fill(1);
        assert_eq!(decide(&world), [1]);
        world.area[4] = 5;
        assert_eq!(decide(&world), [0]);
        world.area[3] = NOBODY;
        assert_eq!(decide(&world), [2]);
        world.area[5] = NOBODY;
        assert_eq!(decide(&world), []);
    }

    #[test]
    fn other_refusals_are_the_lookups() {
        let mut world = World::flushed([4, 4, 6, 0], &[]);
        let ask = |world: &World, page| Why::ask(&world.lent, &world.area, page).err();
        assert_eq!(ask(&world, 6), Some(Refusal::OutOfRange));
        world.make_unsound(0);
        assert_eq!(ask(&world, 5), Some(Refusal::NotSound));
        world.area.pop();
        assert_eq!(ask(&world, 5), Some(Refusal::BadLength));
        world.lent = Lent::Short;
        assert_eq!(ask(&world, 5), Some(Refusal::BadNumbers));
    }

    /// On random devices the last line says what the lookup answers, and there are as many
    /// lines of levels as it looks at, and of entries as a page has.
    #[test]
    fn the_answer_is_the_lookups() {
        let mut random = Random::new(20);
        for _ in 0..200 {
            let device = small_device(&mut random);
            let world = World::lived_in(&mut random, &device);
            for logical_page in 0..device.logical_pages {
                let found = world.lookup(logical_page).expect("an accepted lookup");
                let words = told(&world, logical_page);
                let lines: Vec<&str> = words.lines().collect();
                let count = |start| lines.iter().filter(|line| line.starts_with(start)).count();
                let reads = match (found.page(), found.reads()) {
                    (Some(page), 1) => format!("page {page}, one read"),
                    (Some(page), _) => format!("page {page}, two reads: page "),
                    (None, _) if count("level") > 0 => "not written, ".to_string(),
                    (None, _) => String::new(),
                };
                let last = lines.last().expect("a line");
                assert!(last.starts_with(&reads), "{words}");
                let levels = match found {
                    ops::Lookup::Found { levels, .. } => levels,
                    ops::Lookup::NotWritten { levels } => levels,
                };
                assert_eq!(count("level"), levels, "{words}");
                let entries = match found.page() {
                    Some(_) => device.entries_per_page(),
                    None => 0,
                };
                assert_eq!(count("entry"), entries, "{words}");
                assert_eq!(words.matches(": it decides").count(), entries.min(1));
            }
        }
    }
}
