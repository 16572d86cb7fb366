//! What records meet on their way into the table.

use hedjosur_model::learn::learn;
use hedjosur_model::levels::{Group, GROUP_RECORDS};
use hedjosur_model::record::Record;
use hedjosur_model::spare;
use hedjosur_model::testing::World;

use crate::history::History;

impl History<'_> {
    /// Watches the records of an accepted flush or collection on their way into
    /// the table, and ends with the table the call left.
    pub fn watch(&mut self, before: &World, first: u32, count: u32) {
        let device = self.device;
        let sorted: Vec<u32> = (first..first + count)
            .map(|page| spare::middle(&device, &self.world.area, page))
            .collect();
        let learned = learn(device.bound, first, &sorted);
        for one in learned.iter().filter(|one| one.record.is_approximate()) {
            self.watch_edges(one.group, &one.record, first, &sorted);
        }
        let (_, state) = before.lent.open().expect("a state");
        for (number, group) in state.groups.iter().enumerate() {
            let mut group = group.clone();
            let batch = learned.iter().filter(|one| one.group == number);
            if group.size() + batch.clone().count() > GROUP_RECORDS {
                self.events.compaction_for_room += 1;
                group.compact();
            }
            for one in batch {
                self.watch_insertion(&group, &one.record);
                group.insert(one.record.clone());
            }
            let (_, after) = self.world.lent.open().expect("a state");
            assert_eq!(group, after.groups[number]);
        }
    }

    /// A prediction that is moved to the edge of what was written: on the first
    /// or last page, for another page less than g away from it.
    fn watch_edges(&mut self, group: usize, record: &Record, first: u32, sorted: &[u32]) {
        let last = first as i64 + sorted.len() as i64 - 1;
        for offset in record.members() {
            let logical_page = 256 * group as u32 + u32::from(offset);
            let place = sorted.binary_search(&logical_page).expect("in the batch");
            let page = i64::from(first) + place as i64;
            let predicted = record.predicted(offset).expect("a tabled word");
            let at_edge = predicted == i64::from(first) || predicted == last;
            let near = (page - predicted).abs() < i64::from(self.device.bound);
            if at_edge && near && page != predicted {
                self.events.edge_prediction += 1;
            }
        }
    }

    /// What will happen when `new` is inserted into `group`.
    fn watch_insertion(&mut self, group: &Group, new: &Record) {
        let members = new.members();
        let moved: Vec<Record> = group
            .levels
            .first()
            .into_iter()
            .flatten()
            .filter_map(|record| record.without(&members))
            .filter(|shrunk| shrunk.meets(new))
            .collect();
        if moved.len() >= 2 {
            self.events.second_victim += 1;
            let below = group.levels.get(1).into_iter().flatten();
            let exact = below.filter(|record| !record.is_approximate());
            if exact.into_iter().any(|record| record.meets(&moved[0])) {
                self.events.second_victim_under_a_new_level += 1;
            }
        }
        if new.is_approximate() {
            let goes =
                |record: &Record| record.is_approximate() && record.without(&members).is_none();
            for level in group.levels.iter().skip(1) {
                self.events.owner_gone_deep_down += level.iter().filter(|r| goes(r)).count();
                self.events.vanished_level += usize::from(level.iter().all(goes));
            }
        }
    }
}
