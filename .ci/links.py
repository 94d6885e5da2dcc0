#!/usr/bin/env python3
"""Fails where a link of a document leads nowhere: its file isn't there, or has no such heading or anchor. The documents are all *.md of the
repository, and the pages of the reference (tools/docs.py), which are made anew. Links to other hosts are passed over. It fails, too, where
a document of the repository is larger than it may be, or all of them together are."""

import pathlib
import re
import subprocess
import sys

ROOT = pathlib.Path(__file__).resolve().parent.parent
LINK = re.compile(r"\]\(([^()\s]*(?:\([^()\s]*\))?[^()\s]*)\)")
FENCE = re.compile(r"^```.*?^```$", re.M | re.S)
CODE = re.compile(r"`[^`\n]*`")
# The most that a document may have, in KB of 1,024 bytes, and what all may have together. A version of CHANGELOG.md has at most 2.
SIZES = {
    "README.md": 8, "docs/guide.md": 30, "docs/using.md": 32, "docs/formats.md": 30, "docs/theory.md": 25, "docs/trust.md": 20,
    "docs/words.md": 12, "docs/contributing.md": 18, "docs/DECISIONS.md": 20, "docs/speed.md": 10,
}
SIZE, SIZE_OF_VERSION = 200, 2


def slug(heading):
    """The anchor of a heading, as pages that show Markdown make it."""
    words = re.sub(r"\[([^]]*)\]\([^)]*\)", r"\1", heading).lower()
    return re.sub(r"[^\w\- ]", "", words).replace(" ", "-")


def anchors(text):
    """The anchors of a document: its own, and those of its headings, of which a later one of the same words has a number."""
    found, times = set(re.findall(r'<a id="([^"]*)">', text)), {}
    for heading in re.findall(r"^#+ +(.*?) *$", FENCE.sub("", text), re.M):
        name = slug(heading)
        times[name] = times.get(name, -1) + 1
        found.add(f"{name}-{times[name]}" if times[name] else name)
    return found


def kept():
    """The documents of the repository."""
    tracked = subprocess.run(["git", "ls-files", "-co", "--exclude-standard", "*.md"], cwd=ROOT, check=True, capture_output=True, text=True).stdout
    return [path for path in (ROOT / name for name in tracked.split("\n") if name) if path.exists()]


def documents():
    return kept() + sorted((ROOT / "out" / "docs").glob("*.md"))


def too_large():
    """What is larger than it may be, a line each. A document that has no size of its own counts for all of them."""
    sizes = {str(path.relative_to(ROOT)): path.stat().st_size for path in kept()}
    versions = (ROOT / "CHANGELOG.md").read_text(encoding="utf-8").split("\n## ")[1:]
    parts = [(name, sizes.get(name, 0), most) for name, most in SIZES.items()]
    parts += [(f"CHANGELOG.md, {text.splitlines()[0]}", len(text.encode()), SIZE_OF_VERSION) for text in versions]
    parts.append(("all documents", sum(sizes.values()), SIZE))
    print(f"documents: {sum(sizes.values())} bytes in {len(sizes)}")
    return [f"{name} has {size} bytes, and may have {most * 1024}" for name, size, most in parts if size > most * 1024]


def main():
    subprocess.run([sys.executable, str(ROOT / "tools" / "docs.py"), "--check"], check=True)
    texts = {path: path.read_text(encoding="utf-8") for path in documents()}
    known = {path: anchors(text) for path, text in texts.items()}
    large = too_large()
    print("".join(line + "\n" for line in large), end="")
    count, failed = 0, int(bool(large))
    for path, text in texts.items():
        for target in LINK.findall(CODE.sub("", FENCE.sub("", text))):
            name, _, anchor = target.partition("#")
            if "://" in target or target.startswith("mailto:"):
                continue
            place = (path.parent / name).resolve() if name else path
            count += 1
            if not place.exists() or (anchor and place.suffix == ".md" and anchor not in known.get(place, ())):
                print(f"{path.relative_to(ROOT)}: {target} leads nowhere")
                failed = 1
    print(f"links: {count} of {len(texts)} documents")
    return failed


if __name__ == "__main__":
    sys.exit(main())
