#!/usr/bin/env python3
"""Brings the repository's own definitions, lemmas, fields and local names to snake case: a-b and aB become a_b. Run once, at the top.

Kept: names of the kit's libraries, types and modules (they begin with a capital), functions of src/, strings, inputs and outputs. In proof files
of a function only names that specs/, lemma files or the file itself declare are turned: what Rattle makes has names of its own. A capital name
with a dash loses it: At-held becomes AtHeld. `respell.py --check` writes nothing, and lists names that would fall together.
"""

import collections
import glob
import re
import sys

TOKEN = re.compile(r"--[^\n]*|\"(?:[^\"\\]|\\.)*\"|«[^»]*»|[^\s(){}.;,@\"«»\[\]\\]+")
USE = re.compile(r"(?m)^ *(?:pub )?(?:ghost )?use (\S+?)(?:\.\{([^}]*)\}|(?: as (\S+))?);?$")
DASH = re.compile(r"[\w']-[\w≤≡→]")
CAMEL = re.compile(r"[a-z][a-z0-9_]*[A-Z][\w']*$")
HEAD = r"(?:abbrev |unfoldable |pub |ruleset |record |data |mutual )*"


# Where a lemma would have its definition's name, or a field its definition's.
APART = {
    "batch-ticked": "batch_ticked_is",
    "batch-under": "batch_under_is",
    "later-status": "later_status_is",
    "list-status": "list_status_is",
    "condition-within": "entry_within",
    "named-job": "named_job_is",
    "deleting-row": "deleting_row_is",
    "one-fact-less": "one_fact_less_measured",
    "one-fact-less-row": "one_fact_less_row_is",
    "trailer-row": "trailer_row_is",
    "first-depth": "first_depth_is",
    "carried-sets": "carried_sets_are",
    "leaf-answer": "leaf_answer_is",
    "condition-size": "condition_size_is",
    "leaf-size": "leaf_size_is",
    "job-size": "job_size_is",
    "in-range": "range_held",
    "in-time": "time_held",
    "trailer-bytes": "trailer_bytes_are",
    "bit-and": "bit_of_and",
    "shown-plan": "shown_plan_is",
    "row-seconds": "row_seconds_are",
    "text-room": "text_room_fits",
    "facts-in-range": "facts_range_held",
    "read-goal": "read_goal_is",
    "read-jobs": "read_jobs_are",
    "validated-from": "validated_from_sound",
    "validated-table": "validated_table_sound",
    "second-tree": "second_tree_is",
    "joint-status": "joint_status_is",
    "told-to": "told_to_is",
    "both-fit": "both_fit_when",
    "places-in": "places_in_is",
    "readings-of": "readings_here",
    "actions-of": "actions_here",
    "jobs-of": "jobs_here",
    "due-of": "due_at_job",
    "entry-of": "entry_here",
    "same_bytes": "same_bytes_equal",
}


def wanted(name):
    if name in APART:
        return APART[name]
    if DASH.search(name) and not name.startswith("-"):
        if re.fullmatch(r"[A-Z][A-Z0-9-]+", name):
            return name.replace("-", "_")
        if name[0].isupper():
            return re.sub(r"-(\w)", lambda m: m.group(1).upper(), name)
        name = re.sub(r"(?<=[\w'])-(?=[\w≤≡→])", "_", name)
    if CAMEL.match(name):
        name = re.sub(r"(?<=[a-z0-9'])([A-Z])", lambda m: "_" + m.group(1).lower(), name)
    return name


def read(path):
    with open(path, encoding="utf-8") as f:
        return f.read()


crates = {p.split("/")[1] for p in glob.glob("crates/*/src")}
lemmas = sorted(p for p in glob.glob("crates/*/specs/**/*.antt", recursive=True) + glob.glob("crates/*/proofs/*.antt"))
proofs = sorted(p for p in glob.glob("crates/*/proofs/*/**/*.antt", recursive=True))
sources = sorted(glob.glob("crates/*/src/**/*.rt", recursive=True))
edits = sorted(glob.glob("crates/*/must-fail/*.edit") + glob.glob("tests/edits/*/*.edit") + glob.glob("tests/right/*/*.edit"))


def own(module):
    parts = module.split(".")
    return parts[0] == "Rattle" and len(parts) > 2 and parts[1] in crates and (parts[2] == "specs" or len(parts) == 4)


def imports(text):
    """The names that a file takes from the kit or from what Rattle makes, and the aliases of such modules."""
    names, aliases = set(), set()
    for m in USE.finditer(text):
        module, listed, alias = m.groups()
        if own(module):
            continue
        for each in (listed or "").split(","):
            names.add(each.strip().split(" as ")[-1])
            names.add(each.strip().split(" as ")[0])
        if alias:
            aliases.add(alias)
        elif listed is None:
            names.add(module.split(".")[-1])
    return names, aliases


def declared(text):
    out = set()
    for m in re.finditer(r"(?m)^ *[({]?" + HEAD + r"([^\s(){}.;,@\"]+)(?: :|  *[({]| =)", text):
        out.add(m.group(1))
    return out


all_declared = set()
for path in lemmas:
    all_declared |= declared(read(path))


def spans_of_use(text):
    return [(m.start(), m.end(), own(m.group(1))) for m in USE.finditer(text)]


def turn(text, known, of_function):
    """The text with its names turned, and which name became which."""
    kit, aliases = imports(text)
    here = known
    if of_function:
        answers = set(re.findall(r"(?m)^(\S+) : tie\.", text)) | set(re.findall(r"(?m)^" + HEAD + r"(\S+-spec) :", text))
        local = {m for m in re.findall(r"(?m)^ *" + HEAD + r"([^\s(){}.;,@\"]+) :", text)} - answers
        here = {n for n in known if n not in answers} | local
    uses = spans_of_use(text)
    out, at, became = [], 0, collections.defaultdict(set)
    for m in TOKEN.finditer(text):
        t = m.group()
        new = t
        if t.startswith("--"):
            new = re.sub(r"`([^`\s]+)`", lambda k: "`" + (wanted(k.group(1)) if k.group(1) in here else k.group(1)) + "`", t)
        elif t[0] not in "\"«" and wanted(t) != t:
            use = next((u for u in uses if u[0] <= m.start() < u[1]), None)
            field = m.start() > 0 and text[m.start() - 1] == "."
            path = re.search(r"([^\s(){};,@\"]+)\.$", text[max(0, m.start() - 120) : m.start()]) if field else None
            if use:
                turned = use[2] and (t in known or text[: m.start()].endswith(" as "))
            elif path and path.group(1).split(".")[0] in aliases | {"tie", "goal"}:
                turned = False
            elif field:
                turned = t in here
            elif t in kit:
                turned = False
            else:
                turned = t in here or not of_function
            if turned:
                new = wanted(t)
        out.append(text[at : m.start()])
        out.append(new)
        at = m.end()
        if t[0] not in "\"«" and not t.startswith("--"):
            became[new].add(t)
    out.append(text[at:])
    return "".join(out), {k: v for k, v in became.items() if len(v) > 1}


def turn_source(text, known):
    """Names in the clauses of a source, and in backticks of its comments."""
    def one(m):
        t = m.group()
        if t.startswith("//"):
            return re.sub(r"`([^`\s]+)`", lambda k: "`" + (wanted(k.group(1)) if k.group(1) in known else k.group(1)) + "`", t)
        if t[0] == '"':
            return t
        return wanted(t) if t in known and (not t[0].isupper() or t.isupper()) else t
    return re.sub(r"//[^\n]*|b?\"(?:[^\"\\]|\\.)*\"|[^\W\d][\w'-]*(?<!-)", one, text)


def main():
    check = "--check" in sys.argv
    turnable = {n for n in all_declared if wanted(n) != n}
    for path in lemmas + proofs:
        text = read(path)
        new, fell = turn(text, turnable, path in proofs)
        for k, v in sorted(fell.items()):
            print(f"{path}: {k} stands for {', '.join(sorted(v))}")
        if new != text and not check:
            with open(path, "w", encoding="utf-8") as f:
                f.write(new)
    for path in sources + edits:
        text = read(path)
        new = turn_source(text, turnable)
        if path in sources:
            for was in sorted(turnable):
                if re.search(r"(?<![\w'-])" + re.escape(was) + r"(?![\w'-])", text) and re.search(r"(?m)[(,] *(?:mut )?" + re.escape(wanted(was)) + r": ", text):
                    print(f"{path}: {was} would be as a parameter is")
        if new != text and not check:
            with open(path, "w", encoding="utf-8") as f:
                f.write(new)


main()
