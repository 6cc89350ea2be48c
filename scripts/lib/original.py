"""The original, beside which benches are timed."""

import contextlib
import os
import pathlib
import shutil
import tempfile

from lib.tools import TOP, give_up, run

HELP = """a folder with the original's packages, FOLDER/framehop and FOLDER/gimli, in which cargo finds the packages that they need: the
same work is timed by bench/*_original.rs, which is built in a new folder there that is then removed"""
PEER = """a program that times walks by the original instead of bench/walks_original.rs: it is called as PROGRAM DOCUMENT ROUNDS, and
prints `jobs N frames N`, and `module NAME ns`, `warm ns/frame`, `fresh-less-making ns/frame` and `fresh ns/frame`, each with `median A
least B`"""
MANIFEST = """
[package]
name = "original"
version = "0.0.0"
edition = "2021"

[workspace]

[dependencies]
{dependencies}

[profile.release]
lto = "fat"
codegen-units = 1
"""
FRAMEHOP = 'framehop = { path = "../framehop" }'
GIMLI = 'gimli = { path = "../gimli", default-features = false, features = ["read", "std"] }'
ARRAYVEC = 'arrayvec = { version = "0.7", default-features = false }'


def add_argument(parser, runs_documents=False):
    """Adds the option that names the original, and for benches that run documents the one that names another program for these."""
    parser.add_argument("--original", type=pathlib.Path, metavar="FOLDER", help=HELP)
    if runs_documents:
        parser.add_argument("--peer", metavar="PROGRAM", help=PEER)


@contextlib.contextmanager
def built(folder, source, dependency, parts=()):
    """The program of bench/SOURCE.rs over a package, with files of framehop's own sources beside it; or None without a folder."""
    if folder is None:
        yield None
        return
    for package in ("framehop", "gimli"):
        if not (folder / package / "Cargo.toml").is_file():
            give_up(f"{folder} has no package {package}")
    with tempfile.TemporaryDirectory(prefix="original-", dir=folder) as name:
        here = pathlib.Path(name)
        for part in parts:
            target = here / "src" / part
            target.parent.mkdir(parents=True, exist_ok=True)
            shutil.copy(folder / "framehop/src" / part, target)
        (here / "src").mkdir(exist_ok=True)
        shutil.copy(TOP / "bench" / f"{source}.rs", here / "src/main.rs")
        (here / "Cargo.toml").write_text(MANIFEST.format(dependencies=dependency))
        command = ["cargo", "build", "--quiet", "--offline", "--release", "--target-dir", "target"]
        run(*command, folder=here, env={**os.environ, "RUSTFLAGS": "-A warnings"})
        yield here / "target/release/original"
