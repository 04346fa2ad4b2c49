#!/usr/bin/env python3
"""Gives the crates that are named as a library of the toolchain another name: log is packet_log, csv is log_csv.

usage: tools/rename_crates.py      at the top of the repository, with everything committed

It moves the folders, and rewrites crates.txt, paths in crates/ and the paths of files in the pages and scripts.
"""

import os
import re
import subprocess

NAMES = {"log": "packet_log", "csv": "log_csv"}


def text_files():
    said = subprocess.run(["git", "ls-files"], stdout=subprocess.PIPE, text=True, check=True).stdout.split("\n")
    return [p for p in said if p and p not in ("docs/PORT.md", "tools/rename_crates.py") and os.path.isfile(p)]


def in_crates(text):
    for old, new in NAMES.items():
        text = re.sub(rf"(?<![\w.])Rattle\.{old}(?=\.)", f"Rattle.{new}", text)
        text = re.sub(rf"(?<![\w:.]){old}::", f"{new}::", text)
        text = re.sub(rf"(?m)^(\s*(?:pub )?use ){old};", rf"\1{new};", text)
    return text


def in_pages(text):
    for old, new in NAMES.items():
        text = re.sub(rf"(?<![\w./-])(crates/)?{old}/(specs|src|proofs|must-fail)/", lambda m: (m[1] or "") + new + "/" + m[2] + "/", text)
        text = re.sub(rf"\bcrates/{old}\b(?!/)", f"crates/{new}", text)
        text = re.sub(rf"(?<![\w.:]){old}::", f"{new}::", text)
    return text


def in_list(text):
    out = []
    for line in text.split("\n"):
        if not line.startswith("#"):
            for old, new in NAMES.items():
                line = re.sub(rf"(?<![\w]){old}(?![\w])", new, line)
        out.append(line)
    return "\n".join(out)


def main():
    for old, new in NAMES.items():
        if os.path.isdir(f"crates/{old}"):
            subprocess.run(["git", "mv", f"crates/{old}", f"crates/{new}"], check=True)
    for path in text_files():
        try:
            with open(path, encoding="utf-8", newline="") as f:
                old = f.read()
        except UnicodeDecodeError:
            continue
        if path == "crates.txt":
            new = in_list(old)
        elif path.startswith("crates/") and path.endswith((".rt", ".antt", ".edit")):
            new = in_crates(old)
        elif path.endswith((".md", ".sh", ".awk")) or path.startswith("scripts/"):
            new = in_pages(old)
        else:
            continue
        if new != old:
            with open(path, "w", encoding="utf-8", newline="") as f:
                f.write(new)


if __name__ == "__main__":
    main()
