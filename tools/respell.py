#!/usr/bin/env python3
"""Brings the repository's own definitions and lemmas to snake case, once, after the toolchain's own script has run: python3 tools/respell.py

A word in camel case that begins with a small letter, as 'recordAt', becomes 'record_at', in .antt, .rt and .edit files; functions of src/ are in
snake case already. The few names of specs/ that had a dash get an underscore. Lemmas that would fall together with a definition get '_lem'.
A second run changes nothing."""

import pathlib
import re

WORD = re.compile(r"(?<![A-Za-z0-9_'])[a-z][a-z0-9]*(?:_[a-z0-9]+)*(?:[A-Z][a-z0-9]*)+(?:_[a-z0-9]+)*(?![A-Za-z0-9_])")
# Names of specs/ in which a dash joined plain words.
DASHED = {
    "a-stage": "a_stage",
    "a-variable": "a_variable",
    "af-round": "af_round",
    "ar-round": "ar_round",
    "eg-round": "eg_round",
    "eu-round": "eu_round",
    "goal-is": "goal_is",
    "side-is": "side_is",
    "line-is": "line_is",
    "length-is": "length_is",
    "image-from": "image_from",
    "image-inside": "image_inside",
    "table-from": "table_from",
    "table-inside": "table_inside",
    "in-set": "in_set",
    "no-entry": "no_entry",
    "no-ours": "no_ours",
    "not-both": "not_both",
}
# A lemma, the file that has it, and what a file must name to mean that lemma.
LEMMAS = {
    "any_below": ("logic/proofs/Booleans", "Rattle.logic.proofs.Booleans"),
    "each_next": ("logic/proofs/Successors", "Rattle.logic.proofs.Successors"),
    "some_next": ("logic/proofs/Successors", "Rattle.logic.proofs.Successors"),
    "no_code": ("rules/proofs/Heads", "Rattle.rules.proofs.Heads"),
}
SIGNS = r"[^\s(){}.;,@\"«»:\[\]`]"


def whole(word):
    return re.compile(rf"(?<!{SIGNS}){re.escape(word)}(?!{SIGNS})")


def snake(match):
    return re.sub(r"[A-Z]", lambda m: "_" + m.group(0).lower(), match.group(0))


def imports(text, module, word):
    return any(word in re.split(r"[{},\s]+", m.group(1)) for m in re.finditer(rf"{re.escape(module)}\.\{{([^}}]*)\}}", text))


def turned(path, text):
    if path.suffix == ".antt":
        for word, (home, module) in LEMMAS.items():
            if str(path).endswith(home + ".antt") or imports(text, module, word):
                # A name of a generated proof or of a function of src/ stays: behind a dot, or before a dash.
                pattern = re.compile(rf"(?<!{SIGNS})(?<!\.){word}(?!{SIGNS})(?! as )")
                text = pattern.sub(word + "_lem", text)
        for word, new in DASHED.items():
            text = whole(word).sub(new, text)
    return WORD.sub(snake, text)


def main():
    top = pathlib.Path(__file__).resolve().parent.parent
    files = [path for path in sorted(top.glob("crates/**/*")) if path.suffix in (".antt", ".rt", ".edit") and "out" not in path.parts]
    texts = {path: path.read_text(encoding="utf-8") for path in files}
    # Once is enough: a definition in its new spelling would be taken for a lemma.
    if not any(WORD.search(text) for path, text in texts.items() if path.suffix == ".antt"):
        print("respell: nothing to do")
        return
    changed = {path: new for path, old in texts.items() if (new := turned(path, old)) != old}
    for path, text in changed.items():
        path.write_text(text, encoding="utf-8")
    print(f"respell: {len(changed)} files")


main()
