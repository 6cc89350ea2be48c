//! The files that are mapped in a process: their sections as modules, and their functions.

use framehop::{Module, ModuleSectionInfo};
use std::fs;
use std::ops::{Deref, Range};
use std::sync::Arc;

/// A stretch of addresses at which a file is mapped.
#[derive(Clone, PartialEq)]
pub struct Mapping {
    pub path: String,
    pub addresses: Range<u64>,
    /// The place in the file of what is mapped first.
    pub offset: u64,
}

/// The files that are mapped in a process.
pub fn mapped(process: u32) -> std::io::Result<Vec<Mapping>> {
    let mut found: Vec<Mapping> = Vec::new();
    for line in fs::read_to_string(format!("/proc/{process}/maps"))?.lines() {
        let words: Vec<&str> = line.splitn(6, ' ').collect();
        let &[addresses, _, offset, _, _, path] = &words[..] else { continue };
        let Some((start, end)) = addresses.split_once('-') else { continue };
        let number = |text| u64::from_str_radix(text, 16).unwrap_or(0);
        let path = path.trim_start();
        match found.last_mut() {
            Some(last) if last.path == path => last.addresses.end = number(end),
            _ if path.starts_with('/') => {
                found.push(Mapping { path: path.to_string(), addresses: number(start)..number(end), offset: number(offset) });
            }
            _ => (),
        }
    }
    Ok(found)
}

/// Bytes of a file, which is let go with the last of them.
#[derive(Clone)]
pub struct Bytes {
    file: Arc<[u8]>,
    place: Range<usize>,
}

impl Deref for Bytes {
    type Target = [u8];

    fn deref(&self) -> &[u8] {
        &self.file[self.place.clone()]
    }
}

impl Bytes {
    fn number(&self, at: u64, size: usize) -> Option<u64> {
        let bytes = self.get(at as usize..(at as usize).checked_add(size)?)?;
        Some(bytes.iter().rev().fold(0, |number, byte| number << 8 | u64::from(*byte)))
    }

    fn part(&self, at: u64, size: u64) -> Option<Bytes> {
        let place = self.place.start.checked_add(at as usize)?;
        let place = place..place.checked_add(size as usize)?;
        (place.end <= self.place.end).then(|| Bytes { file: self.file.clone(), place })
    }

    fn text(&self, at: u64) -> Option<&str> {
        let text = self.get(at as usize..)?.split(|it| *it == 0).next()?;
        str::from_utf8(text).ok()
    }
}

#[derive(Clone)]
struct Section {
    name: String,
    kind: u64,
    link: u64,
    addresses: Range<u64>,
    bytes: Option<Bytes>,
}

/// An ELF file of 64 bits.
pub struct File {
    sections: Vec<Section>,
    segments: Vec<(u64, u64)>,
    functions: Vec<(Range<u64>, String)>,
}

/// The sections of a file, as a module asks for them.
struct Sections<'a>(&'a [Section]);

impl Sections<'_> {
    fn named(&self, name: &[u8]) -> Option<&Section> {
        self.0.iter().find(|it| it.name.as_bytes() == name)
    }
}

impl ModuleSectionInfo<Bytes> for Sections<'_> {
    fn base_svma(&self) -> u64 {
        0
    }

    fn section_svma_range(&mut self, name: &[u8]) -> Option<Range<u64>> {
        self.named(name).map(|it| it.addresses.clone())
    }

    fn section_data(&mut self, name: &[u8]) -> Option<Bytes> {
        self.named(name)?.bytes.clone()
    }
}

const SYMBOLS: u64 = 2;
const NO_BYTES: u64 = 8;
const DYNAMIC_SYMBOLS: u64 = 11;
const PAGE: u64 = 4096;

impl File {
    /// Reads a file, or gives `None` if it isn't such a file.
    pub fn read(path: &str) -> Option<File> {
        let file: Arc<[u8]> = fs::read(path).ok()?.into();
        let whole = Bytes { place: 0..file.len(), file };
        if !whole.starts_with(b"\x7fELF\x02\x01") {
            return None;
        }
        let mut file = File { sections: sections_of(&whole)?, segments: segments_of(&whole)?, functions: Vec::new() };
        for kind in [DYNAMIC_SYMBOLS, SYMBOLS] {
            for table in file.sections.iter().filter(|it| it.kind == kind) {
                let names = file.sections.get(table.link as usize).and_then(|it| it.bytes.clone());
                let of_table = table.bytes.as_ref().zip(names).map(|(table, names)| functions_of(table, &names));
                file.functions.extend(of_table.into_iter().flatten());
            }
        }
        file.functions.sort_by_key(|it| it.0.start);
        Some(file)
    }

    /// What is added to the file's addresses where it is mapped.
    pub fn bias(&self, mapping: &Mapping) -> Option<u64> {
        let (_, address) = self.segments.iter().find(|it| it.0 / PAGE == mapping.offset / PAGE)?;
        Some(mapping.addresses.start.wrapping_sub(address / PAGE * PAGE))
    }

    /// The module of the file where it is mapped.
    pub fn module(&self, mapping: &Mapping) -> Option<Module<Bytes>> {
        Some(Module::new(mapping.path.clone(), mapping.addresses.clone(), self.bias(mapping)?, Sections(&self.sections)))
    }

    /// The function at an address that the file states.
    pub fn function_at(&self, address: u64) -> Option<&str> {
        let after = self.functions.partition_point(|it| it.0.start <= address);
        self.functions[..after].last().filter(|it| it.0.contains(&address)).map(|it| it.1.as_str())
    }
}

fn sections_of(file: &Bytes) -> Option<Vec<Section>> {
    let headers = file.number(40, 8)?;
    let field = |section: u64, at: u64, size| file.number(headers + 64 * section + at, size);
    let name_section = file.number(62, 2)?;
    let names = file.part(field(name_section, 24, 8)?, field(name_section, 32, 8)?)?;
    let section = |number| {
        let (start, place, size) = (field(number, 16, 8)?, field(number, 24, 8)?, field(number, 32, 8)?);
        let kind = field(number, 4, 4)?;
        Some(Section {
            name: names.text(field(number, 0, 4)?)?.to_string(),
            kind,
            link: field(number, 40, 4)?,
            addresses: start..start.checked_add(size)?,
            bytes: file.part(place, size).filter(|_| kind != NO_BYTES),
        })
    };
    (0..file.number(60, 2)?).map(section).collect()
}

/// The places in the file of what is loaded, with their addresses.
fn segments_of(file: &Bytes) -> Option<Vec<(u64, u64)>> {
    let headers = file.number(32, 8)?;
    let numbers = (0..file.number(56, 2)?).map(|it| headers + 56 * it);
    let loaded = numbers.filter(|it| file.number(*it, 4) == Some(1));
    loaded.map(|it| Some((file.number(it + 8, 8)?, file.number(it + 16, 8)?))).collect()
}

fn functions_of(table: &Bytes, names: &Bytes) -> Vec<(Range<u64>, String)> {
    let symbol = |at: u64| {
        let (kind, section) = (table.number(at + 4, 1)? & 15, table.number(at + 6, 2)?);
        let (start, size) = (table.number(at + 8, 8)?, table.number(at + 16, 8)?);
        let is_function = (kind == 2 || kind == 10) && section != 0;
        is_function.then_some((start..start.checked_add(size)?, names.text(table.number(at, 4)?)?.to_string()))
    };
    (0..table.len() as u64 / 24).filter_map(|it| symbol(24 * it)).collect()
}
