#!/usr/bin/env python3
"""answers_alone.py CRATE..: takes out of the Answers.antt of each crate what the check finds alone.

All answers of a crate are taken away, `rt check` names the goals that it does not find, and the others' answers go, with the definitions of their files that
nothing uses then; an answer that another cites stays. Then the crate is checked, and a file whose function is not proved is put back. What lies below a crate
must be proved. `rt tidy` drops the imports that are left over.
"""
import pathlib
import re
import subprocess
import sys

top = pathlib.Path(__file__).resolve().parent.parent
GOAL = re.compile(r"^pub (\S+) : goal\.", re.M)


def check(crate):
    done = subprocess.run(["rt", "check"], cwd=crate, capture_output=True, text=True)
    return done.stdout + done.stderr


def asked_for(said):
    """by function, the goals that the check did not find"""
    asked = {}
    for place, goals in re.findall(r"expected answers in \./proofs/(.*)/Answers\.antt; `search` did not prove (.*)", said):
        asked.setdefault(place, set()).update(re.findall(r"`([^`]+)`", goals))
    return asked


def paragraphs(text):
    """a file's declarations: a paragraph ends at a blank line before a line at the margin"""
    return re.split(r"\n(?=\n\S)", text)


def name_of(paragraph):
    for line in paragraph.strip("\n").splitlines():
        if line.startswith(("--", "use ", "module ")):
            continue
        m = re.match(r"(?:unfoldable |abbrev )?(?:pub )?(?:data |record )?([^\s:]+)\s", line)
        return m and m.group(1)
    return None


def uses(text, name):
    told = "\n".join(line for line in text.splitlines() if not re.match(r"\s*--|use ", line))
    return re.search(r"(?<![\w\-])" + re.escape(name) + r"(?![\w\-])", told) is not None


def without(text, asked):
    """the file without the answers that nobody asks for"""
    kept = paragraphs(text)
    while True:
        for i, one in enumerate(kept):
            name = name_of(one)
            if name is None or re.search(r"^(use|module) ", one, re.M):
                continue
            goal = GOAL.search(one)
            if goal and any(g == name or g.startswith(name + "-") for g in asked):
                continue
            if not uses("\n".join(kept[:i] + kept[i + 1:]), name):
                del kept[i]
                break
        else:
            return "\n".join(kept).rstrip("\n") + "\n"


def main():
    for name in sys.argv[1:]:
        crate = top / "crates" / name
        old = {p: p.read_text(encoding="utf-8") for p in crate.glob("proofs/**/Answers.antt")}
        for p in old:
            p.unlink()
        said = check(crate)
        asked = asked_for(said)
        new = {}
        for p, text in old.items():
            new[p] = text
            if asked or "logic=proved" in said:
                left = without(text, asked.get(str(p.parent.relative_to(crate / "proofs")), ()))
                new[p] = left if GOAL.search(left) else None
            if new[p] is not None:
                p.write_text(new[p], encoding="utf-8")
        said = check(crate)
        if "logic=not-proved" in said:
            for p, text in old.items():
                place = str(p.parent.relative_to(crate / "proofs"))
                if new[p] != text and (place in asked_for(said) or f"./proofs/{place}/Answers.antt" in said):
                    p.write_text(text, encoding="utf-8")
                    new[p] = text
            said = check(crate)
        gone = sum(len(GOAL.findall(text)) - len(GOAL.findall(new[p] or "")) for p, text in old.items())
        verdict = re.findall(r"logic=\S+", said)
        print(f"{name}: {gone} of {sum(len(GOAL.findall(t)) for t in old.values())} answers taken out, {verdict[-1] if verdict else 'no verdict'}", flush=True)


if __name__ == "__main__":
    main()
