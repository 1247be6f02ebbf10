#!/usr/bin/env python3
"""names.py: says which names in the pages no file of the repository has, and ends with status 1 where there is one.

A name stands between backticks, and is a path, or one word of several parts, as `arc_rank`, `forty-nine`, `PathGrammar`.
Not looked for is what was (docs/CHANGES.md, docs/PORT.md, docs/DESIGN-PASS.md, docs/LOOK-BACK.md, a part on what is former), what is the Rust's alone
(docs/DIFFERENCES.md, which the oracle's tests hold to it, and files such as `prim_graph.rs`), what a build makes, and
a path with a part in capitals, which stands for any.
"""
import glob
import os
import re
import subprocess
import sys

FORMER = {f"docs/{it}.md" for it in ("CHANGES", "DESIGN-PASS", "DIFFERENCES", "LOOK-BACK", "PORT")}
PAGES = ["README.md", "CONTRIBUTING.md", "oracle/README.md", *sorted(set(glob.glob("docs/*.md")) - FORMER)]
WORD = re.compile(r"[A-Za-z_][\w'-]*")
PATH = re.compile(r"(?:[\w.-]+/)+[\w.-]*|[\w-]+\.(?:antt|rt|rs|md|calls|snapshot|text|h)")


def main():
    files = subprocess.run(["git", "ls-files"], capture_output=True, text=True, check=True).stdout.split("\n")
    files = [it for it in files if it and os.path.isfile(it)]
    words = {part for it in files for part in re.split(r"[/.]", it)}
    for it in files:
        if not it.endswith(".md"):
            with open(it, encoding="utf-8", errors="replace") as text:
                words.update(WORD.findall(text.read()))
    ends = {"/" + "/".join(parts[i:j]) for it in files for parts in [it.split("/")] for i in range(len(parts)) for j in range(i + 1, len(parts) + 1)}
    lost = 0
    for page in PAGES:
        with open(page, encoding="utf-8") as text:
            lines = text.read().split("\n")
        is_code = is_former = False
        for number, line in enumerate(lines, 1):
            if line.startswith("```"):
                is_code = not is_code
            if line.startswith("#"):
                is_former = "former" in line
            for name in [] if is_code or is_former else re.findall(r"`([^`]+)`", line):
                if re.search(r"\.\.|\btarget/|\bout/|(^|/)[A-Z]{2,}(/|$)|^\w+\.rs$", name):
                    continue
                if PATH.fullmatch(name):
                    is_there = "/" + name.strip("/") in ends or any(end.startswith("/" + name.strip("/") + ".") for end in ends)
                elif WORD.fullmatch(name) and re.search("\\w[_-]\\w|[a-z][A-Z]", name):
                    is_there = name in words
                else:
                    continue
                if not is_there:
                    print(f"{page}:{number}: {name}")
                    lost += 1
    return 1 if lost else 0


if __name__ == "__main__":
    sys.exit(main())
