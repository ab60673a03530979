#!/usr/bin/env python3
"""Brings the names of the definitions and lemmas to one spelling: words in snake case, types and modules in camel case.

usage: python3 tools/respell.py        at the top of the repository, once, after the toolchain's own script and before any edit by hand
       python3 tools/respell.py names  prints the table of names, and changes nothing

It goes through specs/, proofs/, the clauses and `ghost use` lines of src/, and the texts of must-fail edits. A name that a file
imports from outside the repository, the functions of src/ and the names that the toolchain makes keep their spelling.
"""

import os
import re
import sys

TOKEN = re.compile(r"[A-Za-z_◌][\w'◌-]*")
LOWER = re.compile(r"^[a-z][A-Za-z0-9]*(?:[-_][A-Za-z0-9]+)*'*$")
DECLARED = re.compile(r"^(?:(?:pub|abbrev|unfoldable|irreducible)\s+)*([a-z][\w'-]*)(?:\s[^:=]*)? :(?: |$)")
INNER = re.compile(r"^\s+(?:(?:pub|abbrev|unfoldable)\s+)*([a-z][\w'-]*(?:,? [a-z][\w'-]*)*) : ")
LET = re.compile(r"\blet ([a-z][\w'-]*)\b")
BOUND = re.compile(r"[({]([a-z][\w'-]*(?: [a-z][\w'-]*)*) : ")
LAMBDA = re.compile(r"λ ((?:[a-z_][\w'-]* ?)+)\.")
IMPORT = re.compile(r"^(?:ghost )?use ([\w.'◌-]+?)\.\{([^}]*)\}")
# Names that would fall together with another, and what they are called.
APART = {
    "address-in": "address_in_lem",
    "answer-accepted": "answer_accepted_lem",
    "answer-by": "answer_by_lem",
    "answer-in": "answer_in_lem",
    "at-most": "at_most_lem",
    "bare-bytes": "bare_bytes_lem",
    "blocks-in": "blocks_in_lem",
    "book-bytes": "book_bytes_lem",
    "call-accepted": "call_accepted_lem",
    "call-in": "call_in_lem",
    "command-in": "command_in_lem",
    "configuration-in": "configuration_in_lem",
    "diagnosis-bytes": "diagnosis_bytes_lem",
    "diagnosis-in": "diagnosis_in_lem",
    "download-by": "download_by_lem",
    "download-to": "download_to_lem",
    "ends-well": "ends_well_lem",
    "entry-at": "entry_at_lem",
    "extension-verdict": "extension_verdict_lem",
    "first-sent": "first_sent_lem",
    "found-at": "found_at_lem",
    "found-by": "found_by_lem",
    "from-printer": "from_printer_lem",
    "good-fields": "good_fields_lem",
    "good-pair": "good_pair_lem",
    "good-units": "good_units_lem",
    "got-confirmation": "got_confirmation_lem",
    "got-negative": "got_negative_lem",
    "got-outcome": "got_outcome_lem",
    "header-bytes": "header_bytes_lem",
    "input-offsets": "input_offsets_lem",
    "is-nothing": "is_nothing_lem",
    "is-poll": "is_poll_lem",
    "kind-number": "kind_number_lem",
    "kind-of": "kind_of_lem",
    "more-polls": "more_polls_lem",
    "negative-for": "negative_for_lem",
    "next-by": "next_by_lem",
    "ones-in": "ones_in_lem",
    "opening-heard": "opening_heard_lem",
    "opening-write": "opening_write_lem",
    "output-offsets": "output_offsets_lem",
    "parameters-in": "parameters_in_lem",
    "requests-at": "requests_at_lem",
    "reserved-by": "reserved_by_lem",
    "right-way": "right_way_lem",
    "route-by": "route_by_lem",
    "settings-in": "settings_in_lem",
    "short-confirmation": "short_confirmation_lem",
    "slave-diag": "slave_diag_lem",
    "special-in": "special_in_lem",
    "special-length": "special_length_lem",
    "start-byte": "start_byte_lem",
    "switched-on": "switched_on_lem",
    "template-by": "template_by_lem",
    "templates-in": "templates_in_lem",
    "verdict-at": "verdict_at_lem",
    "verdict-by": "verdict_by_lem",
    "with-destination": "with_destination_lem",
    "with-source": "with_source_lem",
    "fromOne": "counts_from_one",
    "goesOn": "keeps_going",
    "sameBit": "bits_agree",
    "sameBytes": "bytes_agree",
    "stepFrom": "stepped_from",
}


def files(root, ends):
    for folder, dirs, names in os.walk(os.path.join(root, "crates")):
        dirs[:] = sorted(d for d in dirs if d != "out")
        for name in sorted(names):
            if name.endswith(ends):
                yield os.path.join(folder, name)


def is_old(name):
    return bool(LOWER.match(name)) and ("-" in name or any(c.isupper() for c in name))


def spelled(name):
    if name in APART:
        return APART[name]
    text = re.sub(r"([a-z0-9])([A-Z])", r"\1_\2", name)
    text = re.sub(r"([A-Z])([A-Z][a-z])", r"\1_\2", text)
    return text.replace("-", "_").lower()


def read(path):
    with open(path, encoding="utf-8") as f:
        return f.read()


def bare(text):
    return "\n".join(line.split("-- ")[0] if not line.lstrip().startswith("--") else "" for line in text.split("\n"))


def own_names(root):
    found = set()
    for path in files(root, ".antt"):
        goals = set(re.findall(r"(?m)^(?:abbrev )?([\w'-]+) : tie\.(?:Need|invariant|decreases)", read(path)))
        for line in bare(read(path)).split("\n"):
            m = DECLARED.match(line)
            if m and m.group(1) not in goals and not (path.endswith("Proof.antt") and m.group(1).endswith(("-spec", "_spec"))):
                found.add(m.group(1))
            m = INNER.match(line)
            if m:
                found.update(re.split(r",? ", m.group(1)))
            found.update(LET.findall(line))
            for pattern in (BOUND, LAMBDA):
                for names in pattern.findall(line):
                    found.update(names.split())
    return {name for name in found if is_old(name)}


def outside(text):
    names = set()
    for line in text.split("\n"):
        m = IMPORT.match(line)
        if m and not (m.group(1).startswith("Rattle.") and not m.group(1).startswith("Rattle.std")):
            names.update(n.strip().split(" as ")[-1] for n in m.group(2).split(","))
    return names


def turned(text, table, kept=frozenset()):
    def one(m):
        name = m.group(0)
        if name in kept or name not in table:
            return name
        before = text[: m.start()]
        if before.endswith(("tie.", "goal.")):
            return name
        return table[name]

    return TOKEN.sub(one, text)


def in_source(text, table):
    """The clauses and ghost items of a source file."""
    lines, out, depth = text.split("\n"), [], 0
    for line in lines:
        code = line.split("//")[0]
        if depth or re.match(r"\s*(ghost |requires|ensures|decreases)", code):
            out.append(turned(code, table) + line[len(code):])
            depth += code.count("{") - code.count("}")
            depth = max(depth, 0)
        else:
            out.append(line)
    return "\n".join(out)


def in_edit(text, table):
    return "\n".join(turned(line, table) if line.startswith(("old:", "new:")) else line for line in text.split("\n"))


def main(argv):
    root = "."
    table = {name: spelled(name) for name in own_names(root)}
    if argv == ["names"]:
        for name in sorted(table):
            print(name, table[name])
        return
    for path in files(root, (".antt", ".rt", ".edit")):
        text = read(path)
        if path.endswith(".rt"):
            new = in_source(text, table)
        elif path.endswith(".edit"):
            new = in_edit(text, table)
        else:
            new = turned(text, table, outside(text))
        if new != text:
            with open(path, "w", encoding="utf-8") as f:
                f.write(new)


if __name__ == "__main__":
    main(sys.argv[1:])
