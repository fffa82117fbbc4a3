#!/usr/bin/env python3
"""Rules that a look at the text can hold. Prints what breaks one, and fails if anything does."""
import pathlib
import re
import subprocess
import sys

import layers
import same_laws

# public only so that the crates above can call them; docs/ARCHITECTURE.md says so
INTERNAL = {"integers", "coefficients", "scaling_values", "scaling_blocks", "block_tool_work", "list_places", "bits", "bits_written", "diagonal", "scaling_lists_put", "transform_1d", "vectors", "lines", "tiles", "tiles_32", "tiles_quarter", "wide_parts", "tiles_wide", "lines_wide", "stages", "stages_wide", "transform_blocks", "block_work", "level_work", "edited_steps", "edit_values", "edit_tables", "edit_blocks", "text", "feed_format", "feed_lines", "feed_state", "feed_block", "feed_records", "scale_trace_block", "scaling_lists_codes", "scaling_lists_taken", "planes"}

# each function calls one entry point and cites its definition, so that entry point's edits stand for it too; c_api_c has the same functions as exports
WRAPPERS = {"c_api", "c_api_c"}

# what the programs share, no part of the library: it reads and writes, of which no contract can speak but for what a reader's bytes become
SUPPORT = {"streams", "cases", "feed_program"}

# how many statements stand under two names, as tests/same_laws.py counts them: it only goes down
SAME_LAWS = 0

# what is written of the proof of one function
PROOFS = {"Invariants.antt", "Answers.antt", "Proof.antt"}

# a path into the proofs of a crate; some definitions of std, as SFits and paste, stand in its proofs/
OWN_PROOFS = re.compile(r"\bRattle\.(?!std\.)\w+\.proofs\.")

# in halves, so that the rule does not find itself
MARKS = re.compile(r"\b(" + "|".join(("TO" "DO", "FIX" "ME", "X" "XX")) + r")\b")

found = []


def only_laws(text, line):
    """Whether each name that a `ghost use` brings stands nowhere but in a law that an impl proves, `ghost name = { law };`: no clause says it then."""
    names = re.search(r"\{(.*)\}", line)
    body = re.sub(r"^\s*ghost (use .*|\w+ = \{ \w+ \};)$", "", text, flags=re.M)
    return bool(names) and not any(re.search(rf"(?<![\w'-]){re.escape(name.strip())}(?![\w'-])", body) for name in names[1].split(","))


def say(rule, where):
    found.append(f"lint: {rule}: {where}")


def tracked():
    names = subprocess.run(["git", "ls-files", "-co", "--exclude-standard"], capture_output=True, text=True, check=True)
    return [pathlib.Path(n) for n in names.stdout.split("\n") if n and pathlib.Path(n).is_file()]


def heads(text):
    """Each public function of a Rattle file, with the words that begin its clauses."""
    text = re.sub(r"//[^\n]*", "", text)
    clause = re.compile(r"\b(requires|ensures|ghost)\b\*?(?:\s+\w+)?(?:\s*:)?\s*\{|\{")
    for fn in re.finditer(r"\bpub (?:extern \"C\" )?fn (\w+)", text):
        at, words = fn.end(), []
        while True:
            brace = clause.search(text, at)
            if not brace or not brace.group(1):
                break
            words.append(brace.group(1))
            depth, at = 1, brace.end()
            while depth and at < len(text):
                depth += {"{": 1, "}": -1}.get(text[at], 0)
                at += 1
        yield fn.group(1), words


def brought(text, listed):
    """The names that `pub use` brings from other crates, each with its crate."""
    for crate, rest in re.findall(r"^pub use (\w+)::([^;]*);", text, flags=re.M):
        if crate in listed:
            yield from ((crate, name) for name in re.findall(r"\w+(?=\s*(?:,|\}|$))", rest))


def asks(crate, name):
    """Whether a crate's public function of this name has a `requires`."""
    sources = (pathlib.Path("crates") / crate / "src").rglob("*.rt")
    return any(name == fn and "requires" in words for source in sources for fn, words in heads(source.read_text()))


def instance_edits(crate, name):
    """The edits of a generic function that are named for one of its widths."""
    if crate != "list_blocks":
        return 0
    width = f"{name}_i" if name.startswith("dequantize") else f"dequantize_{name}_i"
    return len(list(pathlib.Path("crates/list_blocks/must-fail").glob(f"{width}*.edit")))


def crate_rules():
    listed = set()
    for line in pathlib.Path("crates.txt").read_text().split("\n"):
        line = line.split("#")[0].strip()
        if line:
            listed.add(line.split(":")[0].split()[0])
    for folder in sorted(p for p in pathlib.Path("crates").iterdir() if p.is_dir()):
        if folder.name not in listed:
            say("a crate folder that crates.txt does not list", folder)
        edits = [e.name for e in (folder / "must-fail").glob("*.edit")] if (folder / "must-fail").exists() else []
        if not (folder / "src" / "lib.rt").exists() or folder.name in SUPPORT:
            continue
        for source in sorted((folder / "src").rglob("*.rt")):
            # a path would not say which of the two it means
            if source.stem in listed:
                say("a module named like a crate", source)
            for crate, name in brought(source.read_text(), listed):
                if folder.name not in INTERNAL and asks(crate, name):
                    say("an entry point with a requires, from another crate", f"{source}: {crate}::{name}")
            for name, words in heads(source.read_text()):
                if "ensures" not in words:
                    say("a public function that states no result", f"{source}: {name}")
                if "requires" in words and folder.name not in INTERNAL:
                    say("an entry point with a requires", f"{source}: {name}")
                if folder.name not in INTERNAL | WRAPPERS and sum(e.startswith(name + "-") for e in edits) + instance_edits(folder.name, name) < 2:
                    say("an entry point with fewer than two must-fail edits", f"{source}: {name}")


def edit_rules():
    """An edit's old text is once in its file, else the gate's last part says so after an hour."""
    for edit in sorted(pathlib.Path("crates").glob("*/must-fail/*.edit")):
        texts, file = {}, None
        for line in edit.read_text().split("\n"):
            if line.startswith("file: "):
                file = edit.parent.parent / line[6:]
                texts.setdefault(file, file.read_text() if file.is_file() else "")
            elif line.startswith("old: "):
                old = line[5:]
                if texts.get(file, "").count(old) != 1:
                    say("an edit whose old text is not once in its file", f"{edit}: {old.strip()}")
            elif line.startswith("new:") and file in texts:
                texts[file] = texts[file].replace(old, line[4:].removeprefix(" "))


def text_rules(files):
    for path in files:
        try:
            text = path.read_text()
        except UnicodeDecodeError:
            continue
        for number, line in enumerate(text.split("\n"), 1):
            where = f"{path}:{number}"
            if re.search(r"(^|[^A-Za-z0-9_.])/(work|farm|tmp|root|home|opt|Users)/[A-Za-z]", line):
                say("a path of one machine", where)
            if MARKS.search(line):
                say("a left-over mark", where)
            if "specs" in path.parts and path.suffix == ".antt" and OWN_PROOFS.search(line):
                say("proofs cited inside specs/", where)
            if path.suffix == ".rt" and re.match(r"\s*ghost use ", line) and OWN_PROOFS.search(line) and not only_laws(text, line):
                say("a clause that cites proofs", where)
            if path.name in PROOFS and re.search(r" as (reads|lts|\S+-reads)$", line):
                say("a line that the check printed, left in a finished proof", where)
        if path.name in PROOFS and "proofs" in path.parts and not text.startswith("-- `"):
            say("a proof that does not begin with its function", path)


def page_rules():
    """What the pages say of the crates is what crates.txt says."""
    crates = layers.crates()
    programs = [name for name in crates if layers.program(name)]
    order = [name for name in crates if name not in programs] + programs
    named = [re.findall(r"`(\w+)`", row) for row in re.findall(r"(?m)^\| (`.*?) \|", pathlib.Path("README.md").read_text())]
    if sorted(order) != sorted(sum(named, [])):
        say("a crate that README's table has not once", sorted(set(order) ^ set(sum(named, []))))
    elif [row[0] for row in named] != sorted((row[0] for row in named), key=order.index) or any(row != sorted(row, key=order.index) for row in named):
        say("README's table is not in the order of crates.txt, libraries first", "README.md")

    seen = set()
    for item in re.findall(r"(?m)^\d+\. ((?:`\w+`(?:, )?)+):", pathlib.Path("docs/ARCHITECTURE.md").read_text()):
        for name in re.findall(r"`(\w+)`", item):
            if name in crates and not set(crates[name][0]) <= seen:
                say("a crate of ARCHITECTURE's list that builds on one below it", f"{name}: {sorted(set(crates[name][0]) - seen)}")
            seen.add(name)
    if set(order) - set(programs) - SUPPORT != seen:
        say("ARCHITECTURE's list has not every library once", sorted((set(order) - set(programs) - SUPPORT) ^ seen))

    if not layers.PICTURE.exists() or layers.PICTURE.read_text() != layers.svg():
        say("a picture that is not what tests/layers.py makes of crates.txt", layers.PICTURE)


def need_rules():
    """A crate names each that crates.txt says it builds on: `rt` walks these lines from crate to crate, so that a needless one costs time in every run."""
    for name, (needs, _) in layers.crates().items():
        folder = pathlib.Path("crates") / name
        texts = [file.read_text() for part in ("src", "specs", "proofs") for file in sorted((folder / part).rglob("*")) if file.suffix in (".rt", ".antt")]
        text = re.sub(r"(?m)(//|--).*", "", "\n".join(texts))
        for need in needs:
            if not re.search(rf"Rattle\.{need}\.|(?<![\w:.]){need}::", text):
                say("a crate of crates.txt's line that no file names", f"{name}: {need}")


def law_rules():
    stand = same_laws.repeated()
    if len(stand) > SAME_LAWS:
        say(f"more than {SAME_LAWS} statements stand under two names; tests/same_laws.py lists them", len(stand))
    elif len(stand) < SAME_LAWS:
        print(f"lint: {len(stand)} statements stand under two names: SAME_LAWS can go down to that")


crate_rules()
edit_rules()
page_rules()
need_rules()
law_rules()
text_rules(tracked())
for line in found:
    print(line)
print(f"lint: {len(found)} found")
sys.exit(1 if found else 0)
