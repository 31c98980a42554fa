#!/usr/bin/env python3
"""Gives words of prose in comments their hyphens back, which tools/respell.py took where a lemma is called so. usage: tools/reprose.py"""
import os
import re

for folder, dirs, files in os.walk("crates"):
    dirs[:] = [d for d in dirs if d != "out"]
    for f in files:
        if f.endswith((".rt", ".antt")):
            p = os.path.join(folder, f)
            with open(p, encoding="utf-8") as g:
                t = g.read()
            mark = "//" if f.endswith(".rt") else "--"
            new = "\n".join(
                re.sub(r"\b(happens_before|well_formed)\b", lambda m: m.group(0).replace("_", "-"), line)
                if line.lstrip().startswith(mark)
                else line
                for line in t.split("\n")
            )
            if new != t:
                with open(p, "w", encoding="utf-8") as g:
                    g.write(new)
