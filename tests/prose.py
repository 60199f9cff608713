#!/usr/bin/env python3
"""The texts themselves: how long their sentences are, which words they use, and whether what they name is there. Of the
crates' sources it looks at the words of the comments.

Alone, `tests/prose.py [TREE]` prints what it finds; the names are looked up in TREE, which is this tree if left out.
"""

import os
import pathlib
import re
import sys

ROOT = pathlib.Path(__file__).resolve().parent.parent
MOST_WORDS = 25

# A word that has a shorter or plainer one, and that one.
AVOIDED = (
    (r"answers|answered|answering", "returns"),
    (r"(?:to|would|could|can|may|might|must|will|never|always|which|that|they) answer", "return"),
    (r"tells?|told|telling", "reports, prints"),
    (r"elders?|older|oldest", "earlier, earliest"),
    (r"younger|newer|newest", "later, latest"),
    (r"lent|lend|lends|lending", "borrowed"),
    (r"behind", "after"),
    (r"stands?|stood|standing", "is, is still valid"),
    (r"refutes?|refuted", "conflicts with"),
)

# Uses of these words that are meant: what a definition is called, or another sense of the word.
EXCEPTIONS = (
    "answers of goals",       # the files `Answers.antt`
    "stands for", "stand for", "stood for",
    "stands past", "stand past",      # `StandsPast`
    "stands alone", "stand alone",
)

# Names of the language, of its guides, of other programs, and of what a check leaves.
OUTSIDE = {"Wait", "SHORTER_PROOFS.md", "START-HERE.md", "TERMS.md", "WHAT", "crates/*/out", "jq"}

# What a path has in the place of a name.
ANY = re.compile(r"\b(?:NAME|CRATE|MODULE|FUNCTION)\b")

FENCE = re.compile(r"^\s*```")
ITEM = re.compile(r"^\s*(?:[-*]|\d+\.)\s+")
COMMENT = re.compile(r"\s*(?://[/!]?|--)\s?(.*)")
SPAN = re.compile(r"(`+)(.+?)\1")
LINK = re.compile(r"\]\(([^)\s]+)\)")
LIST_OF_NAMES = re.compile(r"NAME(?:,? (?:and |or )?NAME)+")
WORD = re.compile(r"[A-Za-z_][A-Za-z0-9_]*")


def pages(tree):
    names = ("README.md", "CONTRIBUTING.md", "CHANGELOG.md", "examples/README.md", "tests/README.md")
    return [tree / name for name in names] + sorted((tree / "docs").glob("*.md"))


def sources_of(crate):
    return sorted(source for part in ("src", "specs", "proofs") for ending in ("rt", "antt")
                  for source in (crate / part).glob("**/*." + ending))


def blocks(page):
    """The texts of a page with their first lines: paragraphs, items of lists, headings and cells of tables, no code."""
    text, start, fenced, blank, code = [], 0, False, True, False
    for number, line in enumerate(page.read_text().splitlines() + [""], 1):
        fence = FENCE.match(line)
        code = not fenced and line.startswith("    ") and (blank or code)
        ends = not line.strip() or fence or fenced or code or line[0] in "|#" or ITEM.match(line)
        if text and ends:
            yield start, " ".join(text)
            text = []
        blank = not line.strip()
        if fence:
            fenced = not fenced
        elif fenced or code or blank:
            continue
        elif line.startswith("|"):
            for cell in re.split(r"(?<!\\)\|", line.strip().strip("|")):
                if set(cell.strip()) - set("-: "):
                    yield number, cell.strip()
        elif line.startswith("#"):
            yield number, line.lstrip("# ")
        else:
            if not text:
                start = number
            text.append(ITEM.sub("", line).strip())


def comments(source):
    """The comments of a source with their first lines. Lines that follow one another are one text."""
    text, start = [], 0
    for number, line in enumerate(source.read_text().splitlines() + [""], 1):
        comment = COMMENT.match(line)
        if comment:
            start = start if text else number
            text.append(comment[1].strip())
        elif text:
            yield start, " ".join(text)
            text = []


def sentences(text):
    """A name in backticks is one word, and so is a list of them."""
    plain = LINK.sub("]", SPAN.sub("NAME", text))
    plain = LIST_OF_NAMES.sub("NAME", plain)
    return re.split(r"(?<=[.!?;])[)\"*]*\s+|(?<=[.!?][)\"*])\s+", plain)


def words_in(sentence):
    return [word for word in sentence.split() if re.search(r"[A-Za-z0-9]", word)]


def long_sentences(page):
    for number, text in blocks(page):
        for sentence in sentences(text):
            count = len(words_in(sentence))
            if count > MOST_WORDS:
                yield number, "%d words: %s" % (count, sentence)


def avoided_words(texts):
    for number, text in texts:
        plain = " ".join(SPAN.sub("NAME", text).split())
        for phrase in EXCEPTIONS:
            plain = re.sub(r"\b%s\b" % phrase, "", plain, flags=re.I)
        for word, better in AVOIDED:
            for met in re.finditer(r"\b(?:%s)\b" % word, plain, re.I):
                around = plain[max(0, met.start() - 30):met.end() + 30]
                yield number, "'%s' for '%s': .. %s .." % (met[0], better, around)


class Sources:
    """The words of the sources, file by file; a file's own path counts among them."""

    PLACES = ("crates/*/src/*.rt", "crates/*/specs/*.antt", "crates/*/proofs/*.antt", "crates/*/must-fail/*.edit",
              "crates.txt", "Makefile", "docs/*.json", "docs/ordtx.*", "bench/*", "tests/*", "tests/cases/*", "examples/*")

    def __init__(self, tree):
        self.files = []
        for place in self.PLACES:
            for file in tree.glob(place):
                if file.is_dir() or file.name in ("prose.py", "README.md"):
                    continue
                words = set(WORD.findall(str(file.relative_to(tree))))
                if file.suffix in (".rt", ".antt", ".py", ".c", ".txt", "") or "schema" in file.name:
                    words.update(WORD.findall(file.read_text(errors="replace")))
                self.files.append(words)
        self.all = set().union(*self.files)
        self.ends = "\n".join(self.paths(tree)) + "\n"

    @staticmethod
    def paths(tree):
        """Each file and folder, with a slash before it."""
        for folder, below, files in os.walk(tree):
            below[:] = [name for name in below if name not in ("out", ".git", "bin")]
            for name in below + files:
                yield "/" + os.path.relpath(os.path.join(folder, name), tree)

    def has_path(self, path):
        """Whether some path ends so, a suffix left out or not."""
        end = re.escape(ANY.sub("*", path.strip("/"))).replace(r"\*", "[^/\n]*")
        return re.search(r"/%s(?:\.antt|\.rt|\.py)?\n" % end, self.ends) is not None

    def has_together(self, parts):
        if not all(part in self.all for part in parts):
            return False
        return len(parts) == 1 or any(words.issuperset(parts) for words in self.files)

    def has(self, name):
        if name in OUTSIDE:
            return True
        if "/" in name:
            return self.has_path(name)
        if name.startswith("..."):
            return any(word.endswith(name.strip(".")) for word in self.all)
        parts = name.split("::")
        return self.has_together(parts) or self.has_path(name)


IDENTIFIER = re.compile(r"(?:\.\.\.)?[A-Za-z_][A-Za-z0-9_]*(?:::[A-Za-z_][A-Za-z0-9_]*)*")
PATH = re.compile(r"[A-Za-z0-9_.*-]+(?:/[A-Za-z0-9_.*-]+)+/?")
FILE = re.compile(r"[A-Za-z0-9_*-]+\.(?:rt|antt|py|md|json|txt|c|edit)")
MARKED = re.compile(r"_|::|[a-z][A-Z]")


def names_in(text):
    """The names in backticks; of a span of several words those that can be nothing but names."""
    for span in SPAN.finditer(text):
        tokens = span[2].split()
        for token in tokens:
            token = token.strip(",;()[]")
            alone = len(tokens) == 1
            if PATH.fullmatch(token) or (alone and FILE.fullmatch(token)):
                yield token
            elif IDENTIFIER.fullmatch(token) and (alone or MARKED.search(token)):
                yield token


def missing_names(page, sources):
    for number, text in blocks(page):
        for name in names_in(text):
            if not sources.has(name):
                yield number, "nothing is named %s" % name


def heading_link(heading):
    return re.sub(r"[^a-z0-9 _-]", "", heading.lower()).replace(" ", "-")


def broken_links(page):
    text = page.read_text()
    for link in LINK.findall(text):
        file, _, place = link.partition("#")
        if "://" in link:
            continue
        target = (page.parent / file) if file else page
        headings = [heading_link(line.lstrip("# ")) for line in target.read_text().splitlines()
                    if line.startswith("#")] if target.is_file() else []
        if not target.exists() or (place and place not in headings):
            yield 1, "a link leads nowhere: %s" % link


def findings(tree=ROOT):
    """For each page its name and a list of what is wrong with it."""
    sources = Sources(tree)
    for page in pages(ROOT):
        found = [*long_sentences(page), *avoided_words(blocks(page)), *missing_names(page, sources), *broken_links(page)]
        name = page.relative_to(ROOT)
        yield name, ["%s:%d: %s" % (name, number, what) for number, what in sorted(found)]
    for crate in sorted((ROOT / "crates").iterdir()):
        found = [(source.relative_to(ROOT), *avoided) for source in sources_of(crate)
                 for avoided in avoided_words(comments(source))]
        yield crate.relative_to(ROOT), ["%s:%d: %s" % where for where in found]


def try_all(program):
    for page, found in findings():
        for line in found:
            print(line)
        program.compare("the text of %s" % page, [], (len(found),), (0,))


def main():
    count = 0
    for _, found in findings(pathlib.Path(sys.argv[1]) if len(sys.argv) > 1 else ROOT):
        for line in found:
            print(line)
        count += len(found)
    sys.exit(count > 0)


if __name__ == "__main__":
    main()
