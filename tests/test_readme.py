"""Looks whether the pages are true where a test can tell: README.md and those of docs/.

- Their transcripts are what the built program answers: sessions, whose typed lines begin with `> `,
  and shell commands, which begin with `$ `.
- Their links lead to files, and to headings where they name one. Where the text of a link is a
  name, the file has that name in it.
- The files and names that they cite stand in the repository: paths, crates, functions, definitions.
- docs/REFUSED.md names edits and tests that stand. docs/layers.svg is the drawing of crates.txt,
  where no crate stands on one of a later heading.
"""
import functools
import pathlib
import re
import subprocess

import layers
import support
from support import PROGRAM, TOP

PAGES = [TOP / "README.md"] + sorted((TOP / "docs").glob("*.md"))
# names that pages cite and that stand in no file here: of the toolchain, of other programs, of the
# protocol and of texts
FOREIGN = {"rt", "clap", "lru", "itoa", "arrayvec", "indexmap", "thiserror", "rand_xoshiro"}
FOREIGN |= {"atomic_table", "timeout"}
# what stands in every crate, or for a name
PATTERNS = {"specs/", "proofs/", "src/", "must-fail/", "crates/crate/must-fail/name.edit"}
PATH = re.compile(r"[\w.*{},-]+(/[\w.*{},-]+)+|\w+\.(md|py|sh|rt|antt|svg|c|txt)|[a-z_.]+/")
NAME = re.compile(r"[A-Za-z]\w*_\w+(::\w+)*|\w+::\w+(::\w+)*|[A-Z][a-z]+[A-Z]\w+")
BLOCK = re.compile(r"^```\n(.*?)\n```$", re.MULTILINE | re.DOTALL)
SOURCES = {".rt", ".antt", ".py", ".sh", ".edit"}
SCRIPTS = {"hive", "build", "crates.txt", "run"}
NO_SOURCES = {"out", ".git", "__pycache__"}


def read(file: pathlib.Path) -> str:
    return file.read_text(encoding="utf-8")


def prose(page: pathlib.Path) -> str:
    """A page without its blocks of code."""
    return re.sub(r"^```.*?^```$", "", read(page), flags=re.MULTILINE | re.DOTALL)


def anchors(page: pathlib.Path) -> set[str]:
    """What the headings of a page are called in links."""
    headings = re.findall(r"^#+ (.*)$", read(page), re.MULTILINE)
    plain = [re.sub(r"[^\w\- ]", "", heading.lower()) for heading in headings]
    return {heading.replace(" ", "-") for heading in plain}


@functools.cache
def words_of_sources() -> set[str]:
    """Every word of the sources, definitions and scripts, and every name of a file or folder."""
    words = set()
    for file in TOP.rglob("*"):
        relative = file.relative_to(TOP)
        if NO_SOURCES & set(relative.parts):
            continue
        words.update(re.findall(r"\w+", str(relative)))
        if file.is_file() and (file.suffix in SOURCES or file.name in SCRIPTS):
            words.update(re.findall(r"\w+", read(file)))
    return words


def is_path(text: str) -> bool:
    return bool(PATH.fullmatch(text)) and not text.startswith(".")


def stands(page: pathlib.Path, text: str) -> bool:
    """Whether a path that a page cites is one from the top, the page, or crates/ or docs/."""
    path = text.rstrip("/")
    roots = [TOP, TOP / "crates", TOP / "docs", TOP / "crates/hive_model/specs", page.parent]
    if any(list(root.glob(path)) for root in roots):
        return True
    return "/" not in path and any((TOP / "crates").glob(f"*/specs/{path}"))


def is_test(crate: str, name: str) -> bool:
    """Whether a crate has a test of this name."""
    sources = (TOP / "crates" / crate / "src").rglob("*.rt")
    return any(re.search(rf"#\[test\]\nfn {name}\(", read(source)) for source in sources)


class Pages(support.Case):
    def check_session(self, page: pathlib.Path, block: list[str]) -> None:
        typed = [line[2:] for line in block if line.startswith("> ")]
        shown = [line for line in block if not line.startswith("> ")]
        _, written = support.run(["uhp"], support.text_of(typed))
        self.assertEqual(written, support.text_of(shown), f"a session of {page.name}")

    def check_commands(self, page: pathlib.Path, block: list[str]) -> None:
        """That each command of a block writes what stands up to the next one."""
        for part in re.split(r"^\$ ", "\n".join(block), flags=re.MULTILINE)[1:]:
            command, _, shown = part.partition("\n")
            done = subprocess.run(
                ["bash", "-c", command.replace("./hive", PROGRAM)],
                cwd=TOP,
                stdout=subprocess.PIPE,
                stderr=subprocess.DEVNULL,
                text=True,
                timeout=120,
            )
            written = done.stdout.replace(PROGRAM, "./hive").rstrip("\n")
            self.assertEqual(written, shown.rstrip("\n"), f"{page.name}: {command}")

    def test_transcripts(self) -> None:
        ran = []
        for page in PAGES:
            for block in (text.split("\n") for text in BLOCK.findall(read(page))):
                if any(line.startswith("> ") for line in block):
                    self.check_session(page, block)
                elif block[0].startswith("$ "):
                    self.check_commands(page, block)
                else:
                    continue
                ran.append(page.name)
        self.assertIn("README.md", ran, "transcripts in README.md")

    def check_link(self, page: pathlib.Path, text: str, target: str) -> None:
        path, _, anchor = target.partition("#")
        file = (page.parent / path).resolve() if path else page
        what = f"{page.name}: {target}"
        self.assertTrue(file.exists() and file.is_relative_to(TOP), f"{what} is there")
        if anchor:
            self.assertTrue(anchor in anchors(file), f"{what} has that heading")
        if text.startswith("`") and file.suffix in (".rt", ".antt"):
            source = read(file)
            for name in re.findall(r"\w+", text):
                is_there = re.search(rf"\b{name}\b", source)
                self.assertTrue(is_there, f"{page.name}: {name} stands in {path}")

    def test_links(self) -> None:
        for page in PAGES:
            for text, target in re.findall(r"\[([^\]]*)\]\(([^)]+)\)", prose(page)):
                if not target.startswith("http"):
                    self.check_link(page, text, target)

    def test_citations(self) -> None:
        """Each path and name in backticks stands somewhere."""
        for page in PAGES:
            for text in re.findall(r"`([^`\n]+)`", prose(page)):
                if is_path(text) and "/out" not in text and text not in PATTERNS:
                    self.assertTrue(stands(page, text), f"{page.name}: {text} is there")
                elif NAME.fullmatch(text):
                    for name in set(text.split("::")) - FOREIGN:
                        is_there = name in words_of_sources()
                        self.assertTrue(is_there, f"{page.name}: {text} stands somewhere")

    def test_wrong_bodies(self) -> None:
        """The edits and tests of docs/REFUSED.md stand in the crates that it names."""
        lines = read(TOP / "docs/REFUSED.md").split("\n")
        rows = [line.split("|") for line in lines if line.startswith("| ")]
        for _, body, refused, _ in rows[1:]:
            named = re.findall(r"`(\w+): (\w+)`", refused)
            is_refused = bool(named) or "the clauses " in refused
            self.assertTrue(is_refused, f"something refuses what {body.strip()}")
            for crate, name in named:
                edit = TOP / "crates" / crate / "must-fail" / f"{name}.edit"
                self.assertTrue(edit.is_file() or is_test(crate, name), f"{crate}: {name}")

    def test_crates(self) -> None:
        """PROVED.md and ARCHITECTURE.md name every crate of crates.txt, whose layers are drawn."""
        bands, below = layers.read_crates()
        for name in ("PROVED.md", "ARCHITECTURE.md"):
            text = read(TOP / "docs" / name)
            for crate in below:
                self.assertTrue(f"`{crate}`" in text, f"{name} names {crate}")
        self.assertEqual(layers.upward(bands, below), [])
        is_drawn = read(layers.DRAWING) == layers.draw()
        self.assertTrue(is_drawn, "docs/layers.svg is that of crates.txt")
        page = read(layers.PAGE)
        self.assertEqual(layers.with_table(page), page, "each row is the first sentence of a crate")
