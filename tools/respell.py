#!/usr/bin/env python3
"""Brings this repository's own words to today's spelling: definitions, laws, fields and labels in snake case.

Run once, at the top, right after the kit's own port script and before any edit by hand. A word is respelled where a file of
specs/ or proofs/ declares it: `camelCase` and `dashed-name` become snake case. Words of the library, types, modules, names of
src/ and what Rattle makes of a function's goals keep theirs. A law that would fall together with a definition gets `_lem`.

tools/respell.py          respells below crates/ and writes tools/respelled.txt, a line 'OLD NEW' a word
"""
import os
import re
import subprocess

DECLARED = re.compile(r"^\s*(?:abbrev |unfoldable |irreducible )*(?:pub )?(?:abbrev )?(?:record |data |ruleset )?([^\s:(){}]+)(?: [({][^=]*)? [:=](?: |$)")
WORD = re.compile(r"[^\s(){}\[\];,.`\"]+")
OURS = re.compile(r"crates/\w+/(specs|proofs)/\w+\.antt$")


def files(ending):
    for folder, dirs, names in os.walk("crates"):
        dirs[:] = [d for d in dirs if d != "out"]
        for name in sorted(names):
            if name.endswith(ending):
                yield os.path.join(folder, name)


def read(path):
    with open(path, encoding="utf-8") as f:
        return f.read()


def code(line):
    """The line without its comment."""
    return re.split(r"(?:^|\s)(?:--|//)(?:\s|$)", line)[0]


def declared(text):
    for line in text.split("\n"):
        if line.lstrip().startswith(("--", "use ", "module ", "pub mod", "mod ", "|")):
            continue
        it = DECLARED.match(line)
        if it:
            yield it.group(1)


def snake(word):
    new = re.sub(r"(?<=[a-z0-9])([A-Z])(?=[a-z])", lambda m: "_" + m.group(1).lower(), word)
    new = re.sub(r"(?<=[a-z0-9])([A-Z])(?![a-z])", lambda m: "_" + m.group(1).lower(), new)
    new = re.sub(r"(?<=[^\W_→←])-(?=[^\W_→←])", "_", new)
    return new.replace("′", "'")


def main():
    own = {}
    crates = {line.split(":")[0].split()[0] for line in read("crates.txt").split("\n") if ":" in line}
    library = set()
    for path in files(".antt"):
        text = read(path)
        for line in text.split("\n"):
            it = re.match(r"\s*use ([^\s{]+?)\.?\{([^}]*)\}", line)
            if it and not (it.group(1).startswith("Rattle.") and it.group(1).split(".")[1] in crates):
                library |= {w.strip().split(" as ")[0] for w in it.group(2).split(",")}
        if OURS.match(path):
            for word in declared(text):
                own.setdefault(word, set()).add(path)
    turn = {}
    for word in own:
        if word[0].isupper() or word.startswith("◌") or word[0] in "<>":
            continue
        new = snake(word)
        if new != word and word not in library:
            turn[word] = new
    # a law that would have a definition's name gets _lem; so does a word whose new spelling another word has
    for word in [w for w in turn if "-" not in w and turn[w] in own and turn[w] not in library]:
        turn[turn[word]] = turn[word] + "_lem"
        print("law:", turn[word], "->", turn[turn[word]])
    had = (set(own) | library) - set(turn)
    merged = {}
    for word, new in turn.items():
        merged.setdefault(new, []).append(word)
    for new, words in sorted(merged.items()):
        first = None if new in had else min(words, key=lambda w: ("-" in w, w))
        for word in words:
            if word != first:
                turn[word] = new + "_lem"
                print("law:", word, "->", turn[word])
                if turn[word] in had or turn[word] in merged:
                    raise SystemExit("two words fall together: " + turn[word])

    def turned(text):
        return WORD.sub(lambda m: turn.get(m.group(0), m.group(0)), text)
    for path in files(".antt"):
        text = read(path)
        out = "\n".join(turned(l) if not l.lstrip().startswith("--") else re.sub(r"`[^`]+`", lambda m: turned(m.group(0)), l) for l in text.split("\n"))
        if out != text:
            with open(path, "w", encoding="utf-8") as f:
                f.write(out)
    for path in files(".rt"):
        text = read(path)
        out = []
        inside = False
        for l in text.split("\n"):
            starts = re.match(r"\s*(ghost |requires|ensures|decreases|invariant)", l)
            if starts or inside:
                out.append(turned(l))
                inside = l.count("{") > l.count("}") if starts else not l.strip().startswith("}")
            elif l.lstrip().startswith("//"):
                out.append(re.sub(r"`[^`]+`", lambda m: turned(m.group(0)), l))
            else:
                out.append(l)
        out = "\n".join(out)
        if out != text:
            with open(path, "w", encoding="utf-8") as f:
                f.write(out)
    for path in files(".edit"):
        text = read(path)
        out = "\n".join(turned(l) if l.startswith(("old:", "new:")) else l for l in text.split("\n"))
        if out != text:
            with open(path, "w", encoding="utf-8") as f:
                f.write(out)
    with open("tools/respelled.txt", "w", encoding="utf-8") as f:
        f.writelines(f"{word} {new}\n" for word, new in sorted(turn.items()))
    print(len(turn), "words respelled")


if __name__ == "__main__":
    main()
