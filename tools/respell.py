#!/usr/bin/env python3
"""Turns this repository's own definitions and lemmas to the spelling of today's Rattle: words in snake case, in specs/, in proofs/ and in the ghost text of src/.

usage: python3 tools/respell.py    at the top of the repository, once, after the kit's port.py

A name's parts, which dashes join, are turned one by one (`length-fillTo` is `length-fill_to`); names of types, modules, functions of src/ and the
toolchain's own stay. In the edits of must-fail/ the names turn too; the rest of an edit is brought over by hand. The crate lru is lru_cache from here on, since
the kit has a library lru.
"""

import os
import re

# names whose dash joined two words of one name
WHOLE = {
    "data-block": "data_block",
    "K1-page": "K1_page",
    "jitter-examples": "jitter_examples",
    "make-up-examples": "make_up_examples",
    "K8-putOff": "K8_put_off",
    "K1-jitter": "K1_jitter",
    "K1-oneCore": "K1_one_core",
    "code-placing": "code_placing",
    "data-placing": "data_placing",
    "code-place": "code_place",
    "data-place": "data_place",
    "word-6-else": "word_6_else",
    "words-9-to-11": "words_9_to_11",
    "words-9-to-11-else": "words_9_to_11_else",
    "words-13-14-none": "words_13_14_none",
    "words-13-14-scratchpad": "words_13_14_scratchpad",
    "words-13-14-cache": "words_13_14_cache",
    "words-15-to-19": "words_15_to_19",
    "task-core": "task_core",
    "task-period": "task_period",
    "task-deadline": "task_deadline",
    "task-traces": "task_traces",
    "task-spare": "task_spare",
    "trace-sum": "trace_sum",
    "trace-length": "trace_length",
    "length-sum": "length_sum",
    "fetch-word": "fetch_word",
    "work-word": "work_word",
}
WHOLE |= {f"word-{i}": f"word_{i}" for i in (0, 1, 2, 3, 4, 5, 6, 7, 8, 12)}

NAME = re.compile(r"[A-Za-z_γ][A-Za-z0-9_'′ℕγ]*(?:-[A-Za-z0-9_'′ℕγ]+)*")


def part(p):
    if not re.search(r"^[a-zγ][a-z0-9_'γ]*[A-Z]", p) or re.search(r"_[A-Z]", p):
        return p
    s = re.sub(r"([a-z0-9'])([A-Z])", r"\1_\2", p)
    return s.lower()


def word(m):
    w = m.group(0)
    if w in WHOLE:
        return WHOLE[w]
    return "-".join(part(p) for p in w.split("-"))


def rename_lru():
    os.rename("crates/lru", "crates/lru_cache")
    with open("crates.txt", encoding="utf-8") as it:
        old = it.read()
    with open("crates.txt", "w", encoding="utf-8") as it:
        it.write("\n".join(l if l.startswith("#") else re.sub(r"\blru\b", "lru_cache", l) for l in old.split("\n")))


def main():
    rename_lru()
    for folder, dirs, files in os.walk("crates"):
        dirs[:] = [d for d in dirs if d != "out"]
        for f in files:
            if f.endswith((".antt", ".rt", ".edit")):
                p = os.path.join(folder, f)
                with open(p, encoding="utf-8") as it:
                    old = it.read()
                new = re.sub(r"\bRattle\.lru\.", "Rattle.lru_cache.", NAME.sub(word, old))
                new = re.sub(r"\blru::", "lru_cache::", new)
                if new != old:
                    with open(p, "w", encoding="utf-8") as it:
                        it.write(new)


main()
