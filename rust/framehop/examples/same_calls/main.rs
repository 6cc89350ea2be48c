//! What users of framehop do: unwinders are cloned, modules are added and removed, caches are shared, walks are cut, threads have caches
//! of their own. It compiles over this crate and over framehop 0.16.0, and prints the same over both.
//!
//!     cargo run --example same_calls [FILE..]
//!
//! Each FILE is an ELF file, by whose call frame information steps and walks are made from random registers.

mod by_calls;
mod by_files;
mod by_histories;
mod elf;

fn main() {
    by_calls::print();
    by_histories::print();
    for path in std::env::args().skip(1) {
        by_files::print(&path);
    }
}
