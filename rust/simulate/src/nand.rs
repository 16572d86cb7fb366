//! A NAND chip in memory, which keeps the rules of flash: a block is erased
//! whole, a page is programmed once after that, the pages of a block ascending.

/// What a page carries: a logical page and how often that had been written.
pub type Content = (u32, u32);

/// The chip. It panics where a driver breaks a rule.
#[derive(Clone, Debug)]
pub struct Nand {
    block_pages: u32,
    pages: Vec<Option<Content>>,
    /// For each block the place in it from which on pages may be programmed, or
    /// nothing where it was never erased.
    next: Vec<Option<u32>>,
}

impl Nand {
    /// A chip of so many blocks of so many pages, none erased.
    pub fn new(blocks: u32, block_pages: u32) -> Nand {
        Nand {
            block_pages,
            pages: vec![None; (blocks * block_pages) as usize],
            next: vec![None; blocks as usize],
        }
    }

    /// Erases a block.
    pub fn erase(&mut self, block: u32) {
        let first = (block * self.block_pages) as usize;
        self.pages[first..first + self.block_pages as usize].fill(None);
        self.next[block as usize] = Some(0);
    }

    /// Programs a page.
    pub fn program(&mut self, page: u32, content: Content) {
        let (block, place) = (page / self.block_pages, page % self.block_pages);
        let next = &mut self.next[block as usize];
        let from = next.unwrap_or_else(|| panic!("block {block} was never erased"));
        assert!(
            from <= place,
            "page {page} is programmed twice or out of order"
        );
        *next = Some(place + 1);
        self.pages[page as usize] = Some(content);
    }

    /// Reads a page.
    pub fn read(&self, page: u32) -> Option<Content> {
        self.pages[page as usize]
    }
}

#[cfg(test)]
mod tests {
    use super::Nand;

    fn erased() -> Nand {
        let mut nand = Nand::new(3, 4);
        (0..3).for_each(|block| nand.erase(block));
        nand
    }

    #[test]
    fn a_page_carries_what_was_programmed_until_its_block_is_erased() {
        let mut nand = erased();
        nand.program(5, (9, 1));
        nand.program(7, (8, 1));
        assert_eq!(
            [4, 5, 7].map(|p| nand.read(p)),
            [None, Some((9, 1)), Some((8, 1))]
        );
        nand.erase(1);
        assert_eq!(nand.read(5), None);
        nand.program(4, (7, 2));
        assert_eq!(nand.read(4), Some((7, 2)));
    }

    #[test]
    #[should_panic(expected = "never erased")]
    fn a_block_is_erased_before_it_is_programmed() {
        Nand::new(3, 4).program(0, (0, 1));
    }

    #[test]
    #[should_panic(expected = "twice or out of order")]
    fn a_page_is_programmed_once() {
        let mut nand = erased();
        nand.program(1, (0, 1));
        nand.program(1, (0, 2));
    }

    #[test]
    #[should_panic(expected = "twice or out of order")]
    fn the_pages_of_a_block_ascend() {
        let mut nand = erased();
        nand.program(2, (0, 1));
        nand.program(1, (0, 2));
    }
}
