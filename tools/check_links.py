#!/usr/bin/env python3
"""Checks the links of the documents.

    tools/check_links.py

Each relative link of README.md, CONTRIBUTING.md and docs/*.md has to name a file or a folder of the repository, and
each anchor a heading of the document that it names. Links to other hosts are not followed. The last line is
'N links resolve, M do not'; the status is 1 if one does not.
"""
import glob
import os
import re
import sys

TOP = os.path.realpath(os.path.join(os.path.dirname(os.path.abspath(__file__)), ".."))
FENCE = re.compile(r"^ {0,3}(```|~~~)")
HEADING = re.compile(r"^ {0,3}#{1,6}\s+(.*?)\s*#*\s*$")
NAMED = re.compile(r"<a\s+(?:name|id)=\"([^\"]+)\"")
INLINE = re.compile(r"\]\(\s*<?([^\s)>]+)>?(?:\s+\"[^\"]*\")?\s*\)")
REFERENCE = re.compile(r"^ {0,3}\[[^\]]+\]:\s*<?([^\s>]+)>?")
ELSEWHERE = re.compile(r"^[a-z][a-z0-9+.-]*:", re.I)


def lines_of(path):
    """The lines of a document with their numbers, without those of code blocks."""
    inside = None
    with open(path, encoding="utf-8") as file:
        for number, line in enumerate(file, 1):
            fence = FENCE.match(line)
            if fence and inside in (None, fence[1]):
                inside = None if inside else fence[1]
            elif inside is None:
                yield number, line.rstrip("\n")


def slug(heading):
    """The anchor that a heading is given: its text in lowercase, with dashes for spaces and without other marks."""
    text = re.sub(r"\[([^\]]*)\]\([^)]*\)", r"\1", heading)
    return re.sub(r"[^\w\- ]", "", text.lower()).replace(" ", "-")


def anchors(path):
    """The anchors of a document. The second heading of one text has a number behind it."""
    found = set()
    for _, line in lines_of(path):
        found.update(NAMED.findall(line))
        heading = HEADING.match(line)
        if heading:
            first = name = slug(heading[1])
            count = 0
            while name in found:
                count += 1
                name = f"{first}-{count}"
            found.add(name)
    return found


def links(path):
    """The links of a document: the number of their line, and where they lead."""
    for number, line in lines_of(path):
        text = re.sub(r"(`+).*?\1", "code", line)
        for target in INLINE.findall(text) + REFERENCE.findall(text):
            if not ELSEWHERE.match(target):
                yield number, target


def fault(document, target):
    """What is wrong with a link of a document, or nothing."""
    place, _, anchor = target.partition("#")
    path = os.path.normpath(os.path.join(os.path.dirname(document), place)) if place else document
    if os.path.relpath(path, TOP).startswith(".."):
        return "it leads out of the repository"
    if not os.path.exists(path):
        return "there is no such file"
    if anchor and not path.endswith(".md"):
        return "its anchor names a line of a file that is no document"
    if anchor and anchor not in anchors(path):
        return "there is no such heading"
    return None


def main():
    named = [os.path.join(TOP, name) for name in ("README.md", "CONTRIBUTING.md")]
    documents = [path for path in named if os.path.exists(path)]
    documents += sorted(glob.glob(os.path.join(TOP, "docs", "*.md")))
    good = bad = 0
    for document in documents:
        for number, target in links(document):
            wrong = fault(document, target)
            if wrong is None:
                good += 1
                continue
            bad += 1
            print(f"{os.path.relpath(document, TOP)}:{number}: {target}: {wrong}")
    print(f"{good} links resolve, {bad} do not")
    return 1 if bad or not good else 0


if __name__ == "__main__":
    sys.exit(main())
