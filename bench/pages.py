#!/usr/bin/env python3
"""Says which files, commands and outputs of the pages below stand in no case. A fenced block is either a file, which stands in a case word for
word, or begins with `$ dec`: then each command is that of a case, and so is the text printed. Status 1 where something is missing."""
import re
import sys
from pathlib import Path

TOP = Path(__file__).resolve().parent.parent
PAGES = {"TUTORIAL": "tutorial", "COOKBOOK": "cookbook", "PORTING": "porting", "ERRORS": "errors", "LANGUAGE": "language", "COMMANDS": "commands", "FORMATS": "formats"}


def indented(text):
    return "".join(f"  {line}\n" if line else "\n" for line in text.splitlines())


def missing(block, cases):
    """What the block shows and no case has."""
    if not block.startswith("$ dec "):
        return [] if indented(block) in cases or block.strip() in cases else [block]
    lost = []
    for part in re.split(r"(?m)^\$ dec ", block)[1:]:
        command, _, text = part.partition("\n")
        words = f"words {command.partition(' >')[0]}\n"
        prints = f"prints: {text}" if text.count("\n") == 1 else f"prints\n{indented(text)}"
        lost += [line for line in (words, prints) if line not in cases and (line is words or text)]
    return lost


def main():
    failed = False
    for page, name in PAGES.items():
        cases = (TOP / f"crates/cases/data/{name}.cases").read_text()
        blocks = re.findall(r"(?ms)^```\n(.*?)^```$", (TOP / f"docs/{page}.md").read_text())
        lost = [text for block in blocks for text in missing(block, cases)]
        print(f"docs/{page}.md: {len(blocks)} blocks, {len(lost)} without a case")
        for text in lost:
            print(text)
        failed = failed or bool(lost)
    return int(failed)


if __name__ == "__main__":
    sys.exit(main())
