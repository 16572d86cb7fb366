//! A driver in full: a hallway gateway that packs the temperature reports of some
//! flats into pages on raw flash and finds them again. The chip is one in memory;
//! what a driver of your own needs is `Gateway`.
//!
//! `cargo run --release --manifest-path rust/Cargo.toml -p hedjosur --example gateway`

#![forbid(unsafe_code)]

use hedjosur::{Device, Numbers, Refusal, WHY_LEN};

const NUMBERS: Numbers = Numbers {
    blocks: 17,
    block_pages: 16,
    logical_pages: 128,
    error_bound: 1,
};
const STATE: usize = NUMBERS.state_len().expect("numbers inside their limits");
const SPARE: usize = NUMBERS.spare_len().expect("numbers inside their limits");
/// The numbers in a page's spare area: 2g + 1.
const NAMES: usize = 2 * NUMBERS.error_bound as usize + 1;

const BLOCK_PAGES: usize = NUMBERS.block_pages as usize;
/// A page holds seven reports of nine bytes.
const REPORTS: usize = 7;
const REPORT: usize = 9;
type Page = [u8; REPORTS * REPORT];

/// The driver: a chip, and the table with its two buffers.
struct Gateway {
    chip: Chip,
    device: Device<[u8; STATE], [u32; SPARE]>,
}

impl Gateway {
    /// Formats the table and erases every block.
    fn open(mut chip: Chip) -> Result<Gateway, Refusal> {
        let (state, spare) = ([0; STATE], [0; SPARE]);
        let mut device = Device { state, spare };
        device.format(NUMBERS)?;
        (0..NUMBERS.blocks).for_each(|block| chip.erase(block));
        Ok(Gateway { chip, device })
    }

    /// Writes a batch: logical pages and what goes on them, in the order of arrival.
    fn write(&mut self, batch: &[u32], data: &[Page]) -> Result<(), Refusal> {
        let mut plan = [0; BLOCK_PAGES];
        let mut flushed = self.device.flush(batch, &mut plan);
        if flushed == Err(Refusal::NoFreeBlock) {
            self.collect()?; // Once is enough, always.
            flushed = self.device.flush(batch, &mut plan);
        }
        let flushed = flushed?;
        for (page, arrival) in (flushed.first_page..).zip(&plan[..flushed.count as usize]) {
            let names = names(&self.device.spare, page);
            self.chip.program(page, data[*arrival as usize], names);
        }
        Ok(())
    }

    /// Reads a logical page, `None` where it was never written, or was discarded.
    fn read(&self, logical_page: u32) -> Result<Option<Page>, Refusal> {
        let page = self.device.lookup(logical_page)?.page();
        Ok(page.map(|page| self.chip.read(page)))
    }

    /// Discards a logical page: nothing is read there until it is written again.
    fn discard(&mut self, logical_page: u32) -> Result<(), Refusal> {
        self.device.discard(logical_page)
    }

    /// Says, for support staff, why a read finds what it finds: a line for each level.
    fn explain(&self, logical_page: u32) -> Result<(), Refusal> {
        for reason in self.device.why(logical_page, &mut [0; WHY_LEN])? {
            println!("logical page {logical_page}: {reason}");
        }
        Ok(())
    }

    /// Frees blocks: copies pages by the plan, ascending, then erases what is listed.
    fn collect(&mut self) -> Result<(), Refusal> {
        let (mut plan, mut erased) = ([0; BLOCK_PAGES], [0; NUMBERS.blocks as usize]);
        let collected = self.device.collect(&mut plan, &mut erased)?;
        for (page, from) in (collected.first_page..).zip(&plan[..collected.count as usize]) {
            let data = self.chip.read(*from);
            let names = names(&self.device.spare, page);
            self.chip.program(page, data, names);
        }
        for block in &erased[..collected.erased as usize] {
            self.chip.erase(*block);
        }
        Ok(())
    }
}

/// The numbers that go into a page's spare area.
fn names(spare: &[u32], page: u32) -> &[u32] {
    &spare[page as usize * NAMES..][..NAMES]
}

/// A NAND chip in memory: a block is erased whole, a page is programmed once after
/// that, the pages of a block ascending. It stops a driver that breaks these rules.
struct Chip {
    pages: Vec<Page>,
    spare: Vec<[u32; NAMES]>,
    /// For each block how many of its pages were programmed; none before an erase.
    programmed: Vec<Option<usize>>,
    erases: u32,
}

impl Chip {
    fn new() -> Chip {
        let (blocks, pages) = (NUMBERS.blocks as usize, SPARE / NAMES);
        Chip {
            pages: vec![[0; REPORTS * REPORT]; pages],
            spare: vec![[0; NAMES]; pages],
            programmed: vec![None; blocks],
            erases: 0,
        }
    }

    fn erase(&mut self, block: u32) {
        let first = block as usize * BLOCK_PAGES;
        self.pages[first..][..BLOCK_PAGES].fill([0xFF; REPORTS * REPORT]);
        self.spare[first..][..BLOCK_PAGES].fill([0xFFFF_FFFF; NAMES]);
        self.programmed[block as usize] = Some(0);
        self.erases += 1;
    }

    fn program(&mut self, page: u32, data: Page, names: &[u32]) {
        let (block, place) = (page as usize / BLOCK_PAGES, page as usize % BLOCK_PAGES);
        let programmed = self.programmed[block].expect("erased before it is programmed");
        assert_eq!(programmed, place, "each page once, ascending");
        self.programmed[block] = Some(place + 1);
        self.pages[page as usize] = data;
        self.spare[page as usize].copy_from_slice(names);
    }

    fn read(&self, page: u32) -> Page {
        self.pages[page as usize]
    }
}

/// A report: its flat, the hour since the start, a temperature in hundredths of a
/// degree, how far the valve is open.
fn report(flat: u32, hour: u32) -> [u8; REPORT] {
    let temperature = 1700 + 37 * (flat + hour) % 600;
    let mut bytes = [0; REPORT];
    bytes[..2].copy_from_slice(&(flat as u16).to_le_bytes());
    bytes[2..6].copy_from_slice(&hour.to_le_bytes());
    bytes[6..8].copy_from_slice(&(temperature as u16).to_le_bytes());
    bytes[8] = (flat * 31 + hour) as u8;
    bytes
}

/// Eight flats report each hour for 100 days, each time in another order. A flat has
/// 16 logical pages, which it fills over and over. Then the people of one flat move
/// out, and the billing office drops its readings. In the end each logical page is read
/// and compared with what was last written to it; of that flat there is nothing to read.
pub fn main() -> Result<(), Refusal> {
    const FLATS: u32 = 8;
    const MOVED_OUT: u32 = 5;
    const RING: u32 = NUMBERS.logical_pages / FLATS;
    let mut gateway = Gateway::open(Chip::new())?;
    let mut written = vec![None; NUMBERS.logical_pages as usize];
    let (mut batch, mut data) = (Vec::new(), Vec::new());
    for hour in (REPORTS as u32 - 1..100 * 24).step_by(REPORTS) {
        for turn in 0..FLATS {
            // This flat's seven reports since its last page fill another one.
            let flat = (turn * 5 + hour) % FLATS;
            let mut page = [0; REPORTS * REPORT];
            let hours = hour + 1 - REPORTS as u32..=hour;
            for (at, hour) in page.chunks_exact_mut(REPORT).zip(hours) {
                at.copy_from_slice(&report(flat, hour));
            }
            let logical_page = flat * RING + hour / REPORTS as u32 % RING;
            written[logical_page as usize] = Some(page);
            batch.push(logical_page);
            data.push(page);
            if batch.len() == BLOCK_PAGES {
                gateway.write(&batch, &data)?;
                batch.clear();
                data.clear();
            }
        }
    }
    if !batch.is_empty() {
        gateway.write(&batch, &data)?;
    }

    for logical_page in MOVED_OUT * RING..(MOVED_OUT + 1) * RING {
        gateway.discard(logical_page)?;
        written[logical_page as usize] = None;
    }

    for (logical_page, wanted) in (0..).zip(&written) {
        assert_eq!(gateway.read(logical_page)?, *wanted, "page {logical_page}");
    }
    // The chip's spare area is what the table's mirror of it says.
    assert_eq!(gateway.chip.spare.as_flattened(), gateway.device.spare);
    // What support staff reads of the second flat's second page.
    gateway.explain(RING + 1)?;
    // A call that can't be done is refused and changes nothing.
    match gateway.read(NUMBERS.logical_pages) {
        Err(refusal) => println!("logical page {}: {refusal}", NUMBERS.logical_pages),
        Ok(_) => unreachable!("there is no such page"),
    }
    let collected = gateway.chip.erases - NUMBERS.blocks;
    println!("all pages read back; collections erased {collected} blocks");
    Ok(())
}
