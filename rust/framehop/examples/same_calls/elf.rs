//! The sections of an ELF file of 64 bits.

use framehop::ModuleSectionInfo;
use std::collections::HashMap;
use std::ops::Range;

/// The addresses and the bytes of sections, by their names.
pub struct Sections(pub HashMap<Vec<u8>, (Range<u64>, Vec<u8>)>);

fn number(bytes: &[u8], at: usize, size: usize) -> Option<u64> {
    let bytes = bytes.get(at..at.checked_add(size)?)?;
    Some(bytes.iter().rev().fold(0, |number, byte| number << 8 | u64::from(*byte)))
}

impl Sections {
    /// Those of a file, or `None` if it isn't such a file.
    pub fn of(file: &[u8]) -> Option<Sections> {
        if !file.starts_with(b"\x7fELF\x02\x01") {
            return None;
        }
        let headers = number(file, 40, 8)? as usize;
        let field = |section: u64, at: usize, size| number(file, headers + 64 * section as usize + at, size);
        let names = field(number(file, 62, 2)?, 24, 8)?;
        let mut found = HashMap::new();
        for section in 0..number(file, 60, 2)? {
            let name = file.get((names + field(section, 0, 4)?) as usize..)?.split(|byte| *byte == 0).next()?;
            let (start, offset, size) = (field(section, 16, 8)?, field(section, 24, 8)?, field(section, 32, 8)?);
            let has_no_bytes = field(section, 4, 4)? == 8;
            if let Some(bytes) = file.get(offset as usize..(offset + size) as usize).filter(|_| start != 0 && !has_no_bytes) {
                found.insert(name.to_vec(), (start..start + size, bytes.to_vec()));
            }
        }
        Some(Sections(found))
    }

    /// The addresses of the code.
    pub fn code(&self) -> Option<Range<u64>> {
        self.0.get(&b".text"[..]).map(|it| it.0.clone())
    }
}

impl ModuleSectionInfo<Vec<u8>> for &mut Sections {
    fn base_svma(&self) -> u64 {
        0
    }

    fn section_svma_range(&mut self, name: &[u8]) -> Option<Range<u64>> {
        self.0.get(name).map(|it| it.0.clone())
    }

    fn section_data(&mut self, name: &[u8]) -> Option<Vec<u8>> {
        self.0.get(name).map(|it| it.1.clone())
    }
}
