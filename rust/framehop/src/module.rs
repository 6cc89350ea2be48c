//! Modules and their sections.

use crate::layout::{MappedFile, Section};
use crate::modules::Loaded;
use std::ops::{Deref, Range};
use std::sync::Arc;
use std::sync::atomic::{AtomicU64, Ordering};

/// Where a module's sections come from. Addresses are those that the file states. Each call that takes `&mut self` is made at most once
/// with a name, so that data may be moved out.
pub trait ModuleSectionInfo<D> {
    /// The address that the file states for what is mapped at the module's base: of ELF files 0, of Mach-O files that of `__TEXT`, of PE
    /// files that of the image.
    fn base_svma(&self) -> u64;

    /// The addresses of a section.
    fn section_svma_range(&mut self, name: &[u8]) -> Option<Range<u64>>;

    /// The bytes of a section.
    fn section_data(&mut self, name: &[u8]) -> Option<D>;

    /// The addresses of a segment.
    fn segment_svma_range(&mut self, _name: &[u8]) -> Option<Range<u64>> {
        None
    }

    /// The bytes of a segment.
    fn segment_data(&mut self, _name: &[u8]) -> Option<D> {
        None
    }
}

/// A module's sections, given one by one. Addresses are those that the file states.
#[derive(Clone, Debug, Default, PartialEq, Eq)]
pub struct ExplicitModuleSectionInfo<D> {
    /// The address that the file states for what is mapped at the module's base.
    pub base_svma: u64,
    /// The addresses of `__text` or `.text`.
    pub text_svma: Option<Range<u64>>,
    /// The bytes of `__text` or `.text`, not needed with `text_segment`.
    pub text: Option<D>,
    /// The addresses of `__stubs`.
    pub stubs_svma: Option<Range<u64>>,
    /// The addresses of `__stub_helper`.
    pub stub_helper_svma: Option<Range<u64>>,
    /// The addresses of `__got` or `.got`.
    pub got_svma: Option<Range<u64>>,
    /// The bytes of `__unwind_info`.
    pub unwind_info: Option<D>,
    /// The addresses of `__eh_frame` or `.eh_frame`.
    pub eh_frame_svma: Option<Range<u64>>,
    /// The bytes of `__eh_frame` or `.eh_frame`.
    pub eh_frame: Option<D>,
    /// The addresses of `.eh_frame_hdr`.
    pub eh_frame_hdr_svma: Option<Range<u64>>,
    /// The bytes of `.eh_frame_hdr`.
    pub eh_frame_hdr: Option<D>,
    /// The bytes of `.debug_frame`.
    pub debug_frame: Option<D>,
    /// The addresses of the segment `__TEXT`.
    pub text_segment_svma: Option<Range<u64>>,
    /// The bytes of the segment `__TEXT`.
    pub text_segment: Option<D>,
}

impl<D: Deref<Target = [u8]>> ModuleSectionInfo<D> for ExplicitModuleSectionInfo<D> {
    fn base_svma(&self) -> u64 {
        self.base_svma
    }

    fn section_svma_range(&mut self, name: &[u8]) -> Option<Range<u64>> {
        let range = match name {
            b"__text" | b".text" => &self.text_svma,
            b"__stubs" => &self.stubs_svma,
            b"__stub_helper" => &self.stub_helper_svma,
            b"__eh_frame" | b".eh_frame" => &self.eh_frame_svma,
            b"__eh_frame_hdr" | b".eh_frame_hdr" => &self.eh_frame_hdr_svma,
            b"__got" | b".got" => &self.got_svma,
            _ => return None,
        };
        range.clone()
    }

    fn section_data(&mut self, name: &[u8]) -> Option<D> {
        match name {
            b"__text" | b".text" => self.text.take(),
            b"__unwind_info" => self.unwind_info.take(),
            b"__eh_frame" | b".eh_frame" => self.eh_frame.take(),
            b"__eh_frame_hdr" | b".eh_frame_hdr" => self.eh_frame_hdr.take(),
            b"__debug_frame" | b".debug_frame" => self.debug_frame.take(),
            _ => None,
        }
    }

    fn segment_svma_range(&mut self, name: &[u8]) -> Option<Range<u64>> {
        self.text_segment_svma.clone().filter(|_| name == b"__TEXT")
    }

    fn segment_data(&mut self, name: &[u8]) -> Option<D> {
        if name == b"__TEXT" { self.text_segment.take() } else { None }
    }
}

/// What was asked of a section or a segment.
struct Part<D> {
    name: &'static str,
    is_segment: bool,
    range: Option<Range<u64>>,
    data: Option<D>,
}

/// A module as sessions load it. Its sections are lent to them.
pub(crate) struct LentModule<D> {
    number: u64,
    avma_range: Range<u64>,
    base_avma: u64,
    base_svma: u64,
    parts: Vec<Part<D>>,
}

impl<D> LentModule<D> {
    pub(crate) fn start(&self) -> u64 {
        self.avma_range.start
    }

    pub(crate) fn end(&self) -> u64 {
        self.avma_range.end
    }

    pub(crate) fn loaded(&self) -> Loaded {
        Loaded { start: self.start(), number: self.number }
    }
}

impl<D: Deref<Target = [u8]>> LentModule<D> {
    /// The sections, whose bytes stay as long as the module is borrowed.
    pub(crate) fn sections(&self) -> Vec<Section> {
        self.parts.iter().map(|it| Section::new(it.name, it.data.as_deref(), &it.range, it.is_segment)).collect()
    }

    /// The module with its sections.
    pub(crate) fn with_sections(&self, sections: &[Section]) -> MappedFile {
        MappedFile {
            start: self.avma_range.start,
            end: self.avma_range.end,
            base: self.base_avma,
            base_svma: self.base_svma,
            sections: sections.as_ptr(),
            section_count: sections.len(),
            options: [0; 4],
        }
    }
}

/// A module that is loaded in the profiled process. Its sections are used where they are, and let go with the last clone of the module
/// and the last unwinder that has it. It goes to another thread if these may:
///
/// ```compile_fail,E0277
/// fn goes_to_threads<T: Send>() {}
/// goes_to_threads::<framehop::Module<std::rc::Rc<[u8]>>>();
/// ```
pub struct Module<D> {
    name: String,
    pub(crate) lent: Arc<LentModule<D>>,
}

impl<D> Clone for Module<D> {
    fn clone(&self) -> Self {
        Module { name: self.name.clone(), lent: self.lent.clone() }
    }
}

impl<D: Deref<Target = [u8]>> Module<D> {
    /// A module of this name, which covers these addresses, with its base at an address.
    pub fn new(name: String, avma_range: Range<u64>, base_avma: u64, mut section_info: impl ModuleSectionInfo<D>) -> Self {
        static NEXT_NUMBER: AtomicU64 = AtomicU64::new(0);

        let number = NEXT_NUMBER.fetch_add(1, Ordering::Relaxed);
        let base_svma = section_info.base_svma();
        let parts = Asked { info: &mut section_info, parts: Vec::new() }.all();
        Module { name, lent: Arc::new(LentModule { number, avma_range, base_avma, base_svma, parts }) }
    }

    /// The addresses that it covers.
    pub fn avma_range(&self) -> Range<u64> {
        self.lent.avma_range.clone()
    }

    /// The address of its base.
    pub fn base_avma(&self) -> u64 {
        self.lent.base_avma
    }

    /// Its name.
    pub fn name(&self) -> &str {
        &self.name
    }
}

/// What was asked of a module's sections so far.
struct Asked<'a, D, I> {
    info: &'a mut I,
    parts: Vec<Part<D>>,
}

impl<D, I: ModuleSectionInfo<D>> Asked<'_, D, I> {
    fn put(&mut self, name: &'static str, is_segment: bool, range: Option<Range<u64>>, data: Option<D>) -> bool {
        let is_there = range.is_some() || data.is_some();
        if is_there {
            self.parts.push(Part { name, is_segment, range, data });
        }
        is_there
    }

    fn range(&mut self, name: &'static str) -> bool {
        let range = self.info.section_svma_range(name.as_bytes());
        self.put(name, false, range, None)
    }

    fn data(&mut self, name: &'static str) -> bool {
        let data = self.info.section_data(name.as_bytes());
        self.put(name, false, None, data)
    }

    // Both or neither.
    fn data_with_range(&mut self, name: &'static str) {
        if let Some(range) = self.info.section_svma_range(name.as_bytes())
            && let Some(data) = self.info.section_data(name.as_bytes())
        {
            self.put(name, false, Some(range), Some(data));
        }
    }

    fn text_segment(&mut self) -> bool {
        let data = self.info.segment_data(b"__TEXT");
        let range = self.info.segment_svma_range(b"__TEXT");
        data.is_some() && range.is_some() && self.put("__TEXT", true, range, data)
    }

    // Asks for what a module's format uses. The first of the formats is taken that has its data.
    fn all(mut self) -> Vec<Part<D>> {
        if self.data("__unwind_info") {
            self.data("__eh_frame");
            self.range("__stubs");
            self.range("__stub_helper");
            self.bases();
            if !self.text_segment() {
                self.data("__text");
            }
        } else if self.data(".pdata") {
            for name in [".rdata", ".xdata", ".text"] {
                self.data_with_range(name);
            }
        } else if self.data(".eh_frame") || self.data("__eh_frame") {
            let _ = self.data(".eh_frame_hdr") || self.data("__eh_frame_hdr");
            self.bases();
        } else if self.data(".debug_frame") {
            self.bases();
        }
        self.parts
    }

    // The ranges whose starts pointers count from.
    fn bases(&mut self) {
        for (name, other) in [("__text", ".text"), ("__eh_frame", ".eh_frame"), ("__eh_frame_hdr", ".eh_frame_hdr"), ("__got", ".got")] {
            let _ = self.range(name) || self.range(other);
        }
    }
}
