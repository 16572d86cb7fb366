//! What a collection has to do, told by the book.

use hedjosur_model::book::Event;

use crate::history::History;

impl History<'_> {
    /// The source pages and the erased blocks of a collection, None where there is
    /// nothing to gain. A block is used if one of its pages carries a write, and a
    /// page is valid if it carries its logical page's last event.
    pub fn expected_collection(&self) -> Option<[Vec<u32>; 2]> {
        let device = self.device;
        let used = |&block: &u32| {
            let mut pages = device.pages_of_block(block);
            pages.any(|page| self.book.carried(page).is_some())
        };
        let mut blocks: Vec<(Vec<(u32, u32)>, u32)> = (0..device.blocks)
            .filter(used)
            .map(|block| (self.last_events_of(block), block))
            .collect();
        blocks.sort_by_key(|(valid, block)| (valid.len(), *block));
        let (mut moved, mut erased) = (Vec::new(), Vec::new());
        for (valid, block) in blocks {
            if moved.len() + valid.len() > device.block_pages as usize {
                break;
            }
            moved.extend(valid);
            erased.push(block);
        }
        moved.sort_unstable();
        let sources = moved.iter().map(|&(_, page)| page).collect();
        let gains = erased.len() > usize::from(!moved.is_empty());
        gains.then_some([sources, erased])
    }

    /// The logical pages whose last event a block's pages carry, each with its
    /// page.
    fn last_events_of(&self, block: u32) -> Vec<(u32, u32)> {
        let pages = self.device.pages_of_block(block);
        pages
            .filter_map(|page| {
                let carried = Some(Event::Write(self.book.carried(page)?));
                let mut logical_pages = 0..self.device.logical_pages;
                let written = logical_pages.find(|&one| self.book.last_event(one) == carried)?;
                Some((written, page))
            })
            .collect()
    }
}
