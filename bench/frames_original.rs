//! Makes the passes of crates/bench_steps/src/frames by the original's `gimli`, and prints the same lines. `bench/frames --original` builds it.

use gimli::{
    BaseAddresses, CfaRule, CieOrFde, CommonInformationEntry, EhFrame, EhFrameOffset, EndianSlice,
    FrameDescriptionEntry, LittleEndian, PartialFrameDescriptionEntry, Result, UnwindContext, UnwindSection,
};
use std::hint::black_box;
use std::io::Read;
use std::time::{Duration, Instant};

type Slice<'a> = EndianSlice<'a, LittleEndian>;

const START: u64 = 1 << 32;

#[derive(Clone, Copy, Default)]
struct Tally {
    count: u64,
    sum: u64,
}

impl Tally {
    fn count(&mut self, part: u64) {
        self.count += 1;
        self.sum = self.sum.wrapping_add(part);
    }
}

fn list_entries(section: &EhFrame<Slice>, bases: &BaseAddresses) -> Result<Tally> {
    let mut tally = Tally::default();
    let mut entries = section.entries(bases);
    while let Some(entry) = entries.next()? {
        match &entry {
            CieOrFde::Cie(cie) => tally.count(cie.offset() as u64),
            CieOrFde::Fde(_) => tally.count(1),
        }
    }
    Ok(tally)
}

struct LastCie<'a> {
    offset: EhFrameOffset,
    cie: CommonInformationEntry<Slice<'a>>,
}

fn whole_fde<'a>(
    partial: &PartialFrameDescriptionEntry<EhFrame<Slice<'a>>, Slice<'a>>,
    last: &mut Option<LastCie<'a>>,
) -> Result<FrameDescriptionEntry<Slice<'a>>> {
    partial.parse(|section, bases, offset| match last {
        Some(last) if last.offset == offset => Ok(last.cie.clone()),
        _ => {
            let cie = section.cie_from_offset(bases, offset)?;
            *last = Some(LastCie { offset, cie: cie.clone() });
            Ok(cie)
        }
    })
}

fn list_fdes(section: &EhFrame<Slice>, bases: &BaseAddresses) -> Result<Tally> {
    let mut tally = Tally::default();
    let mut last = None;
    let mut entries = section.entries(bases);
    while let Some(entry) = entries.next()? {
        if let CieOrFde::Fde(partial) = entry {
            let fde = whole_fde(&partial, &mut last)?;
            tally.count((fde.offset() as u64).wrapping_add(fde.initial_address()).wrapping_add(fde.len()));
        }
    }
    Ok(tally)
}

fn keep_fdes<'a>(section: &EhFrame<Slice<'a>>, bases: &BaseAddresses) -> Result<Vec<FrameDescriptionEntry<Slice<'a>>>> {
    let mut fdes = Vec::new();
    let mut last = None;
    let mut entries = section.entries(bases);
    while let Some(entry) = entries.next()? {
        if let CieOrFde::Fde(partial) = entry {
            fdes.push(whole_fde(&partial, &mut last)?);
        }
    }
    Ok(fdes)
}

fn list_rows(
    section: &EhFrame<Slice>,
    bases: &BaseAddresses,
    fdes: &[FrameDescriptionEntry<Slice>],
    context: &mut UnwindContext<usize>,
) -> Result<Tally> {
    let mut tally = Tally::default();
    for fde in fdes {
        let mut table = fde.rows(section, bases, context)?;
        while let Some(row) = table.next_row()? {
            let offset = match row.cfa() {
                CfaRule::RegisterAndOffset { offset, .. } => *offset as u64,
                CfaRule::Expression(_) => 1,
            };
            tally.count(row.start_address().wrapping_add(row.end_address()).wrapping_add(offset));
        }
    }
    Ok(tally)
}

fn main() {
    let mut bytes = Vec::new();
    std::io::stdin().read_to_end(&mut bytes).unwrap();
    let rounds: u32 = std::env::args().nth(2).unwrap().parse().unwrap();
    let section = EhFrame::new(black_box(&bytes), LittleEndian);
    let bases = BaseAddresses::default().set_eh_frame(START);
    let mut context = UnwindContext::new();
    let kept = keep_fdes(&section, &bases).unwrap();
    let mut least = [Duration::MAX; 3];
    let mut tallies = [Tally::default(); 3];
    for _ in 0..rounds {
        let start = Instant::now();
        tallies[0] = list_entries(black_box(&section), black_box(&bases)).unwrap();
        least[0] = least[0].min(start.elapsed());
        let start = Instant::now();
        tallies[1] = list_fdes(black_box(&section), black_box(&bases)).unwrap();
        least[1] = least[1].min(start.elapsed());
        let start = Instant::now();
        tallies[2] = list_rows(black_box(&section), black_box(&bases), &kept, &mut context).unwrap();
        least[2] = least[2].min(start.elapsed());
    }
    for ((name, tally), least) in ["entries", "FDEs", "rows"].iter().zip(tallies).zip(least) {
        println!("{} {name} {} ns, sum {:#x}", tally.count, least.as_nanos(), tally.sum);
    }
}
