//! A driver with the plain engine: the recorder in the cellar, which keeps the last
//! twelve months of each flat of a street on raw flash, a page for a flat's month. The
//! chip is one in memory; what a driver of your own needs is `Recorder`.
//!
//! `cargo run --release --manifest-path rust/Cargo.toml -p hedjosur --example recorder`

#![forbid(unsafe_code)]

use hedjosur::{Numbers, Plain, Refusal};

const FLATS: u32 = 128;
const MONTHS: u32 = 12;
const NUMBERS: Numbers = Numbers {
    blocks: 52,
    block_pages: 64,
    logical_pages: FLATS * MONTHS,
    error_bound: 0,
};
const STATE: usize = NUMBERS.plain_state_len().expect("inside their limits");
const BLOCKS: usize = NUMBERS.blocks as usize;
const BLOCK_PAGES: usize = NUMBERS.block_pages as usize;

/// What a page holds, here a single number: the heat that a flat took in a month.
type Page = u32;

/// The driver: the table with its one buffer, and a chip. A page holds nothing from the
/// erase of its block until it is programmed.
struct Recorder {
    table: Plain<[u8; STATE]>,
    chip: Vec<Option<Page>>,
    erases: u32,
}

impl Recorder {
    /// Formats the table and erases every block.
    fn open() -> Result<Recorder, Refusal> {
        let mut recorder = Recorder {
            table: Plain { state: [0; STATE] },
            chip: vec![Some(0); BLOCKS * BLOCK_PAGES],
            erases: 0,
        };
        recorder.table.format(NUMBERS)?;
        (0..NUMBERS.blocks).for_each(|block| recorder.erase(block));
        Ok(recorder)
    }

    /// Writes a batch: logical pages and what goes on them, in the order of arrival.
    fn write(&mut self, batch: &[u32], data: &[Page]) -> Result<(), Refusal> {
        let mut plan = [0; BLOCK_PAGES];
        let mut flushed = self.table.flush(batch, &mut plan);
        if flushed == Err(Refusal::NoFreeBlock) {
            self.collect()?; // Once is enough, always.
            flushed = self.table.flush(batch, &mut plan);
        }
        let flushed = flushed?;
        for (page, arrival) in (flushed.first_page..).zip(&plan[..flushed.count as usize]) {
            self.program(page, data[*arrival as usize]);
        }
        Ok(())
    }

    /// Reads a logical page, `None` where it was never written, or was discarded.
    fn read(&self, logical_page: u32) -> Result<Option<Page>, Refusal> {
        let page = self.table.lookup(logical_page)?;
        Ok(page.and_then(|page| self.chip[page as usize]))
    }

    /// Frees blocks: copies pages by the plan, ascending, then erases what is listed.
    fn collect(&mut self) -> Result<(), Refusal> {
        let (mut plan, mut erased) = ([0; BLOCK_PAGES], [0; BLOCKS]);
        let collected = self.table.collect(&mut plan, &mut erased)?;
        for (page, from) in (collected.first_page..).zip(&plan[..collected.count as usize]) {
            let data = self.chip[*from as usize].expect("a programmed page");
            self.program(page, data);
        }
        let erased = &erased[..collected.erased as usize];
        erased.iter().for_each(|block| self.erase(*block));
        Ok(())
    }

    fn program(&mut self, page: u32, data: Page) {
        let before = self.chip[page as usize].replace(data);
        assert_eq!(before, None, "each page once after an erase");
    }

    fn erase(&mut self, block: u32) {
        self.chip[block as usize * BLOCK_PAGES..][..BLOCK_PAGES].fill(None);
        self.erases += 1;
    }
}

/// Ten years of a street, and a line on each. Each month all flats report, in another
/// order. In the sixth year the people of one flat move out, and the billing office drops
/// its readings. In the end each page is read and compared with what was reported.
pub fn ten_years() -> Result<String, Refusal> {
    const MOVED_OUT: u32 = 77;
    let reported = |flat, month| 1000 * month + flat;
    let mut recorder = Recorder::open()?;
    let mut said = String::new();
    for month in 0..10 * MONTHS {
        if month == 5 * MONTHS {
            for logical_page in MOVED_OUT * MONTHS..(MOVED_OUT + 1) * MONTHS {
                recorder.table.discard(logical_page)?;
            }
        }
        let mut flats = Vec::from_iter((0..FLATS).map(|turn| turn * (2 * month + 1) % FLATS));
        flats.retain(|flat| *flat != MOVED_OUT || month < 5 * MONTHS);
        for flats in flats.chunks(BLOCK_PAGES) {
            let batch = Vec::from_iter(flats.iter().map(|flat| flat * MONTHS + month % MONTHS));
            let data = Vec::from_iter(flats.iter().map(|flat| reported(*flat, month)));
            recorder.write(&batch, &data)?;
        }
        if month % MONTHS == MONTHS - 1 {
            let (year, blocks) = (month / MONTHS + 1, recorder.erases - NUMBERS.blocks);
            said += &format!("year {year}: collections have erased {blocks} blocks\n");
        }
    }
    for logical_page in 0..NUMBERS.logical_pages {
        let (flat, month) = (logical_page / MONTHS, 9 * MONTHS + logical_page % MONTHS);
        let wanted = (flat != MOVED_OUT).then(|| reported(flat, month));
        assert_eq!(recorder.read(logical_page)?, wanted, "page {logical_page}");
    }
    Ok(said + &format!("all pages read back, and nothing of flat {MOVED_OUT}\n"))
}

/// Prints it.
pub fn main() -> Result<(), Refusal> {
    ten_years().map(|said| print!("{said}"))
}
