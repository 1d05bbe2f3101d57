#!/usr/bin/env python3
"""Writes docs/DEFINITIONS.md from the files of specs/: each file's head comment, which lists its words, and the comment
above each further word that a clause of src/ cites. With --check it writes nothing, and ends with 1 where the page is
stale. Run it from any folder."""
import os
import re
import sys

TOP = os.path.dirname(os.path.dirname(os.path.realpath(__file__)))
PAGE = f"{TOP}/docs/DEFINITIONS.md"
WORD = re.compile(r"^(?:(?:abbrev |unfoldable )?pub (?:record |data )?|  (?:(?:abbrev |unfoldable )pub |pub (?:record |data )))([A-Za-z][A-Za-z0-9_]*)\b")
HEAD = """# Definitions

What the clauses of the crates cite, with its module below `crates/NAME/specs`. Contracts see an unsigned number as a natural
number, a signed one as an integer, and a text as the list of its UTF-8 bytes. Words that stand in no table are the standard
library's. `docs/definitions.py` writes this page.
"""


def lines_of(path):
    with open(path, encoding="utf-8") as it:
        return it.read().split("\n")


def crates():
    """The crates in the order of crates.txt, those that others stand on first."""
    below = {}
    for line in lines_of(f"{TOP}/crates.txt"):
        line = line.split("#")[0]
        if ":" in line:
            name, rest = line.split(":", 1)
            below[name.split()[0]] = rest.split()
    done = []

    def visit(name):
        if name in below and name not in done:
            for it in below[name]:
                visit(it)
            done.append(name)

    for name in below:
        visit(name)
    return done


def modules(crate):
    folder = f"{TOP}/crates/{crate}/specs"
    names = sorted(os.listdir(folder)) if os.path.isdir(folder) else []
    return [it[:-5] for it in names if it.endswith(".antt") and it != "Lib.antt"]


# Words whose definition has no comment of its own, where the comment before it is of another.
OWN = {
    ("value_trees", "is_byte"): "a number below 256",
    ("record_bytes", "records_in_batch"): "the records, where the whole bytes are a batch",
    ("scope_desk", "is_numbered"): "the transaction has this number",
    ("name_queues", "is_change"): "it is a versionchange event",
    ("name_queues", "posted"): "the mail with one event more",
    ("name_queues", "is_sent"): "the event was sent, and isn't taken",
    ("name_queues", "is_taken"): "the event was taken, and isn't handled",
    ("name_queues", "has_conns"): "there is a connection",
    ("name_queues", "is_box"): "the box is this client's",
    ("name_queues", "with_event"): "the box with one event more",
    ("desk_steps", "is_created_stage"): "it was only created",
    ("desk_steps", "is_committed"): "it committed",
    ("desk_steps", "created_more"): "it created one more",
    ("item_changes", "new_index"): "the definition of an index",
    ("request_lists", "is_read_only_mode"): "the mode is that one",
    ("request_lists", "is_upgrade_mode"): "the mode is that one",
    ("request_lists", "after_commit"): "the front is committing",
    ("request_lists", "after_abort"): "the front has aborted, without an error",
    ("request_lists", "refusal_of_commit"): "the name by which `commit` is refused",
    ("request_lists", "refusal_of_abort"): "the name by which `abort` is refused",
    ("script_runs", "threw"): "the line `throw` as a note",
    ("script_handlers", "opens"): "a request with its handlers, which opens a cursor",
    ("client_machine", "is_tx"): "it has this number",
    ("client_machine", "started_if"): "started, if it has this number",
    ("client_machine", "end_line"): "the line of an end",
    ("client_machine", "end_block"): "the block for an end",
    ("client_machine", "with_tasks"): "the client with these tasks",
    ("client_machine", "has_thrown"): "the run ended by a throw",
    ("legal_sessions", "has_of"): "a database's name and version",
}
USE = re.compile(r"ghost use Rattle\.(\w+)\.specs\.(\w+)(?:\.\{([^}]*)\}|\.(\w+)| as (\w+))?;")


def imports(text):
    """Where the words of a file's clauses come from: each word, or each name of a module, with its crate and module."""
    words, names = {}, {}
    for crate, module, listed, word, name in USE.findall(text):
        if name:
            names.setdefault(name, set()).add((crate, module))
        for it in (listed or word).split(","):
            if it.strip():
                words.setdefault(it.split()[-1], set()).add((crate, module, it.split()[0]))
    return words, names


def clauses(text):
    """The public clauses of a file: those of public functions, of the methods of public traits, and what goes on over lines in a type."""
    is_public = is_trait = False
    depth, clause = 0, ""
    for line in text.split("\n"):
        if not clause:
            if line.startswith("}"):
                is_trait = False
            if re.match(r"\s*pub (fn|struct|enum|trait)\b", line):
                is_public = True
                is_trait = is_trait or line.startswith("pub trait")
            elif re.match(r"\s*(fn|pub\(crate\) fn|struct|enum|trait)\b", line):
                is_public = is_trait
            if is_public and re.match(r"\s*[→×]", line):
                yield line
            if not (is_public and re.match(r"\s*(ensures|requires)\b", line)):
                continue
        clause += line + "\n"
        depth += line.count("{") - line.count("}")
        if depth <= 0:
            yield clause
            depth, clause = 0, ""


def cited():
    """The words that the public clauses of all crates cite, each with its crate and module; and all names in these clauses."""
    found, spelled = set(), set()
    for folder, _, names in os.walk(f"{TOP}/crates"):
        for name in names:
            if "/src" in folder and "/out" not in folder and name.endswith(".rt") and not name.endswith("tests.rt"):
                text = "\n".join(lines_of(f"{folder}/{name}"))
                words, modules_named = imports(text)
                for clause in clauses(text):
                    for before, word in re.findall(r"(?:\b(\w+)\.)?([A-Za-z][A-Za-z0-9_]*)", clause):
                        found |= {(*place, word) for place in modules_named.get(before, ())}
                        found |= words.get(word, set())
                        spelled.add(word)
                    found |= set(re.findall(r"Rattle\.(\w+)\.specs\.(\w+)\.(\w+)", clause))
    return found, spelled


def read(path, crate):
    """The prose of the file's head, the rows that it lists, and the comment above each public word."""
    lines = lines_of(path)
    prose, rows, at = [], [], 0
    while at < len(lines) and lines[at].startswith("--"):
        line = lines[at][2:]
        listed = re.match(r" {5}(\S.*?) {2,}(\S.*)$", line)
        if listed:
            rows.append([listed.group(1), listed.group(2)])
        elif rows and line.startswith("       "):
            rows[-1][1] += " " + line.strip()
        elif line.strip():
            prose.append(line.strip())
        at += 1
    comments, above, last = {}, [], ""
    for line in lines[at:]:
        word = WORD.match(line)
        if line.lstrip().startswith("-- ") and not line.lstrip().startswith("-- ----"):
            above.append(line.strip()[3:])
        elif word:
            # (a definition with no comment of its own goes with the one before it, but for those of OWN)
            last = " ".join(above) or last
            comments.setdefault(word.group(1), last if above else OWN.get((crate, word.group(1)), last))
            above = []
        else:
            above = []
    return " ".join(prose), rows, comments


def sentence(text):
    text = text.strip().rstrip(".:;")
    return text[:1].upper() + text[1:] + "." if text else ""


def page():
    out, missing = [HEAD], []
    uses, names_said = cited()
    for crate in crates():
        rows = []
        for name in modules(crate):
            prose, listed, comments = read(f"{TOP}/crates/{crate}/specs/{name}.antt", crate)
            named = set()
            for words, meaning in listed:
                named |= set(re.findall(r"[A-Za-z][A-Za-z0-9_]*", words))
                spelled = ", ".join(f"`{it.split()[0]}`" for it in words.split(",") if it.strip())
                rows.append(f"| {spelled} | `{name}` | {sentence(meaning)} |")
            for word, comment in comments.items():
                # (a word is listed as well where a clause has a name that is spelled so)
                if word not in named and ((crate, name, word) in uses or word in names_said):
                    rows.append(f"| `{word}` | `{name}` | {sentence(comment or prose)} |")
                    if not comment and (crate, name, word) in uses:
                        missing.append(f"crates/{crate}/specs/{name}.antt: `{word}` is cited by a clause, and no comment says what it is")
        if rows:
            out.append(f"\n## `{crate}`\n\n| Word | Module | What it says |\n|---|---|---|\n" + "\n".join(rows) + "\n")
    return "".join(out), missing


def main():
    text, missing = page()
    for it in missing:
        print(it)
    if "--check" in sys.argv[1:]:
        stale = not os.path.exists(PAGE) or "\n".join(lines_of(PAGE)) != text
        if stale:
            print("docs/DEFINITIONS.md is stale: run docs/definitions.py")
        return 1 if stale or missing else 0
    with open(PAGE, "w", encoding="utf-8") as it:
        it.write(text)
    return 1 if missing else 0


sys.exit(main())
