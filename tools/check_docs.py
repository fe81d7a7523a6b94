#!/usr/bin/env python3
"""Looks over the documents: prints one line a finding, with its file and line. Status 1 where there is one.

    python3 tools/check_docs.py [FOLDER]

FOLDER is a clone of the repository, this one where it is left out. Of the files that git tracks:
- no line of a page is over 120 characters, outside tables, code, comments and pictures, nor is a comment in code
  (pages under docs/history are as they were);
- each relative link of a page leads to a file, and to a heading that is there; each `path` in backticks is one, but
  for those under docs/history;
- no file speaks of papers that are not in the repository;
- what stands in double quotes in a comment of crates/*/specs is in docs/FORMAT.md or docs/RULES.md, word for word,
  but for line breaks, marks of the page and `..`, which stands for what is left out;
- the rows on docs/BENCHMARKS.md are rows of docs/data/bench.md;
- the pictures are those that tools/architecture.py draws.
"""

import fnmatch
import pathlib
import re
import subprocess
import sys

ROOT = pathlib.Path(sys.argv[1] if len(sys.argv) > 1 else pathlib.Path(__file__).parent.parent).resolve()
MOST = 120

# Paths of the source, of files that a reader makes, and of past landings.
ELSEWHERE = {
    "binary.rs",
    "src/type_coercion/binary.rs",
    "src/interval_arithmetic.rs",
    "src--src--type_coercion--binary.rs.txt",
}
# What is quoted in specs/ from elsewhere: comments of the Rust source, by file.
QUOTED_ELSEWHERE = {
    "Dict with View type is redundant, use value type instead",
}
# Words that only a reader of other papers would understand. Between two of them there may be the end of a line and the
# mark of a comment.
BETWEEN = r"(?:[ \t]+|[ \t]*\n[\s/#*>-]*)"
PAPERS = [r"DESIGN\.md"] + [
    first + BETWEEN + second
    for first, second in (
        (r"\bdocument", r"0[12]"),
        (r"\bdemand", r"[0-9]"),
        (r"\bthe", r"papers?\b"),
        (r"\bthe", r"mission\b"),
        (r"\brequest", r"2\."),
        (r"\bissue", r"[0-9]"),
    )
]
# Words of a path that stand for any name.
STANDS_FOR = r"^(NAME|CRATE|FILE|FUNCTION|WORDS|F)(?=$|\.)"
PATH_ENDS = (".rs", ".rt", ".antt", ".md", ".py", ".sh", ".edit", ".h", ".svg", ".toml", ".txt", ".bin")
CODE = {".rs": "//", ".rt": "//", ".antt": "--", ".py": "#", ".sh": "#"}

found = []


def tell(path, number, words):
    found.append(f"{path}:{number}: {words}")


def tracked():
    listed = subprocess.run(["git", "ls-files", "-z"], cwd=ROOT, capture_output=True, check=True).stdout
    return [name for name in listed.decode().split("\0") if name and (ROOT / name).is_file()]


def text_of(name):
    try:
        return (ROOT / name).read_text(encoding="utf-8")
    except UnicodeDecodeError:
        return None


def lines_outside_code(text):
    """The lines of a page with their numbers, without fenced code."""
    fenced = False
    for number, line in enumerate(text.split("\n"), 1):
        if re.match(r"\s*(```|~~~)", line):
            fenced = not fenced
        elif not fenced:
            yield number, line


def long_lines(name, text):
    within = False
    for number, line in lines_outside_code(text):
        within = within or line.lstrip().startswith("<!--")
        skipped = within or re.match(r"\s*(\||!\[|<img|<picture|<source|\[[^]]*\]: )", line)
        if len(line) > MOST and not skipped:
            tell(name, number, f"{len(line)} characters")
        within = within and "-->" not in line


def long_comments(name, text):
    mark = CODE[pathlib.PurePath(name).suffix]
    for number, line in enumerate(text.split("\n"), 1):
        if len(line) > MOST and line.lstrip().startswith(mark):
            tell(name, number, f"a comment of {len(line)} characters")


def anchors(name):
    """The anchors of a page's headings."""
    seen = {}
    for _, line in lines_outside_code(text_of(name) or ""):
        heading = re.match(r"#{1,6}\s+(.*?)\s*#*$", line)
        if heading:
            words = re.sub(r"\[([^]]*)\]\([^)]*\)", r"\1", heading.group(1)).lower()
            slug = re.sub(r"[^\w\- ]", "", words).replace(" ", "-")
            seen[slug] = seen.get(slug, -1) + 1
            if seen[slug]:
                seen[f"{slug}-{seen[slug]}"] = 0
        seen.update((a, 0) for a in re.findall(r'<a (?:id|name)="([^"]+)"', line))
    return seen


def links(name, text, files):
    folder = pathlib.PurePosixPath(name).parent
    for number, line in lines_outside_code(text):
        plain = re.sub(r"`[^`]*`", "", line)
        inline = re.findall(r"\]\(<?([^)>\s]+)>?(?:\s+\"[^\"]*\")?\)", plain)
        for target in inline + re.findall(r"^\[[^]]+\]:\s*(\S+)", plain):
            if re.match(r"[a-z]+:", target):
                continue
            path, _, anchor = target.partition("#")
            parts = []
            for part in (folder / path).parts if path else pathlib.PurePosixPath(name).parts:
                parts = parts[:-1] if part == ".." else parts + [part]
            whole = "/".join(parts)
            if whole not in files and not any(f.startswith(whole + "/") for f in files):
                tell(name, number, f"a link to {target}, which is not there")
            elif anchor and whole.endswith(".md") and anchor not in anchors(whole):
                tell(name, number, f"a link to {target}: there is no such heading")


def is_there(span, name, files):
    span = "/".join(re.sub(STANDS_FOR, "*", part) for part in span.rstrip("/").split("/"))
    options = re.match(r"(.*)\{([^}]*)\}(.*)$", span)
    if options:
        return all(is_there(options.group(1) + o + options.group(3), name, files) for o in options.group(2).split(","))
    if span.startswith("../"):
        folder = pathlib.PurePosixPath(name).parent
        while span.startswith("../"):
            span, folder = span[3:], folder.parent
        span = str(folder / span)
    patterns = (span, span + "/*", "*/" + span, "*/" + span + "/*")
    return any(fnmatch.fnmatchcase(f, pattern) for f in files for pattern in patterns)


def paths(name, text, files):
    tops = {f.split("/")[0] for f in files}
    for number, line in lines_outside_code(text):
        for span in re.findall(r"`([^`]+)`", line):
            if not re.fullmatch(r"[\w.*{},/\-]+", span) or span in ELSEWHERE or span.startswith("."):
                continue
            parts = span.split("/")
            looks = len(parts) > 1 and parts[0] in tops or span.endswith(PATH_ENDS) and not span.startswith("*")
            if looks and not {"target", "out"} & set(parts) and not is_there(span, name, files):
                tell(name, number, f"`{span}` is not there")


def papers(name, text):
    for pattern in PAPERS:
        for word in re.finditer(pattern, text, re.IGNORECASE):
            tell(name, text.count("\n", 0, word.start()) + 1, f"'{plain(word.group())}': the repository stands alone")


def plain(text):
    """Words with one space between them, without the marks of a page."""
    return re.sub(r"\s+", " ", re.sub(r"[`*]|(?m:^\s*(?:[-+>]|\d+\.)\s)", "", text)).strip()


def quotations(name, text, pages):
    comment, first = [], 0
    for number, line in enumerate(text.split("\n") + [""], 1):
        mark = re.search(r"(?:^|\s)--\s?(.*)$", line)
        if mark:
            first = first or number
            comment.append(mark.group(1))
        if not mark or line.strip() and not line.lstrip().startswith("--"):
            for quoted in re.findall(r'"([^"]+)"', " ".join(comment)):
                check_quotation(name, first, quoted, pages)
            comment, first = [], 0


def check_quotation(name, number, quoted, pages):
    if quoted in QUOTED_ELSEWHERE:
        return
    for page in pages:
        at = 0
        for piece in re.split(r"\s*\.\.(?!\.)\s*|\s*…\s*", plain(quoted)):
            piece = piece.strip(" .;,:")
            other = piece[:1].swapcase() + piece[1:]
            places = [p for p in (page.find(piece, at), page.find(other, at)) if p >= 0]
            at = min(places) + len(piece) if places and at >= 0 else -1
            if at < 0:
                break
        if at >= 0:
            return
    tell(name, number, f'"{quoted}" stands neither in docs/FORMAT.md nor in docs/RULES.md')


def rows(files):
    if not {"docs/BENCHMARKS.md", "docs/data/bench.md"} <= files:
        return
    page, table = text_of("docs/BENCHMARKS.md"), text_of("docs/data/bench.md")

    def cells(line):
        return tuple(cell.strip() for cell in line.strip("|").split("|"))[:6]

    stored = {cells(line) for line in table.split("\n") if line.startswith("|")}
    within = False
    for number, line in enumerate(page.split("\n"), 1):
        within = line.startswith("| Class | Question |") or within and line.startswith("|")
        if within and not line.startswith("|--") and cells(line) not in stored:
            tell("docs/BENCHMARKS.md", number, "this row is none of docs/data/bench.md")


def pictures(files):
    if "tools/architecture.py" not in files:
        return
    run = subprocess.run([sys.executable, ROOT / "tools/architecture.py", "--check"], capture_output=True, text=True)
    for line in (run.stdout + run.stderr).strip().split("\n") if run.returncode else []:
        found.append(line)


def main():
    files = set(tracked())
    pages = [plain(text_of(name)) for name in ("docs/FORMAT.md", "docs/RULES.md") if name in files]
    for name in sorted(files):
        text = text_of(name)
        if text is None:
            continue
        papers(name, text)
        if name.endswith(".md"):
            if not name.startswith("docs/history/"):
                long_lines(name, text)
                paths(name, text, files)
            links(name, text, files)
        elif pathlib.PurePath(name).suffix in CODE:
            long_comments(name, text)
        if fnmatch.fnmatchcase(name, "crates/*/specs/*.antt"):
            quotations(name, text, pages)
    rows(files)
    pictures(files)
    print("\n".join(found) if found else "the documents are in order")
    return 1 if found else 0


if __name__ == "__main__":
    sys.exit(main())
