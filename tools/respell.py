#!/usr/bin/env python3
"""Respells the repository's own definitions, lemmas, fields and constructors in snake case. Run once, at the top, after port.py.

It gathers the names that specs/ and proofs/ declare, and writes each in snake case wherever it stands as a whole word: in specs/, proofs/,
src/, must-fail/ and, within backquotes, in the pages. A name that a file takes from another library than the repository's stays in that file.
With --list it writes the table of names only, and each file in which two names would fall together.
"""
import os
import re
import subprocess
import sys
from collections import defaultdict

WORD = re.compile(r"[A-Za-z_](?:[A-Za-z0-9_']|-(?=[A-Za-z0-9]))*")
DECLARED = re.compile(
    r"^\s*(?:(?:abbrev|unfoldable|pub|data|record|ruleset)\s+)*([A-Za-z][A-Za-z0-9_'-]*)\s*(?:\{[^}]*\}\s*)*(?:\([^)]*\)\s*)*(?::\s|:$|=\s)"
)
# Names that would fall together with another in a file where both stand, and the few whose word is no word.
CHOSEN = {
    # a lemma whose function has the same words
    "all_are": "all_are_lem",
    "from_bits": "from_bits_lem",
    "runs_of": "runs_of_lem",
    "read_count": "read_count_lem",
    "one_by_one": "one_by_one_lem",
    "first-left": "first_left_lem",
    "over-the-line": "over_the_line_lem",
    "phase-fits": "phase_fits_lem",
    "warp-by": "warp_by_lem",
    "share-by": "share_by_lem",
    "count-holds": "count_holds_lem",
    "last-after": "last_after_lem",
    "by-lists": "by_lists_lem",
    "wander-second": "wander_second_lem",
    "row-bits": "row_bits_lem",
    "ends-fit": "ends_fit_lem",
    "in-range": "in_range_lem",
    "quiet-in-range": "quiet_in_range_lem",
    "digits-most": "digits_most_lem",
    "good-word": "good_word_lem",
    # a demand or a promise whose operation's definition has the same words
    "judge-quiet": "judge_quiet_says",
    "log-clear": "log_clear_says",
    "log-event": "log_event_says",
    "log-list": "log_list_says",
    "read-capture": "read_capture_says",
    "read-plan": "read_plan_says",
    "read-times": "read_times_says",
    "send-plan": "send_plan_says",
    "survey-lines": "survey_lines_says",
    "warp-by-lengths": "warp_by_lengths_says",
    "well-formed": "well_formed_says",
    "well-formed-lent": "well_formed_lent_says",
    "write-capture": "write_capture_says",
    "write-time": "write_time_says",
    "row-settings-fit": "row_settings_fit_says",
}
# Names that are given in a `use` line or bound in a file, and declared nowhere.
BOUND = {
    "countAdds": "count_adds",
    "countedOf": "counted_of",
    "currentRead": "current_read",
    "flagOf": "flag_of",
    "freshState": "fresh_state",
    "isBetween": "is_between",
    "isLater": "is_later",
    "isPickable": "is_pickable",
    "isTimed": "is_timed",
    "judgedSettings": "judged_settings",
    "linesSay": "lines_say",
    "longerRun": "longer_run",
    "lowerOf": "lower_of",
    "nextState": "next_state",
    "placeTaken": "place_taken",
    "reportsOf": "reports_of",
    "settlingCount": "settling_count",
    "timesSays": "times_says",
    "warpingByLengths": "warping_by_lengths",
    "wordSays": "word_says",
    "cycleLengths": "cycle_lengths",
    "runLevel": "run_level",
    "brokenCount'": "broken_count'",
}


def snake(name):
    name = re.sub(r"([a-z0-9])([A-Z])", r"\1_\2", name)
    return name.replace("-", "_").lower()


def files(ending, *folders):
    for crate in sorted(os.listdir("crates")):
        for folder in folders:
            for root, _, names in os.walk(os.path.join("crates", crate, folder)):
                for name in sorted(names):
                    if name.endswith(ending):
                        yield os.path.join(root, name)


def read(path):
    with open(path, encoding="utf-8") as file:
        return file.read()


def is_answer(line):
    return re.search(r":\s+(tie|goal)\.", line) or re.match(r"^pub [A-Za-z0-9_'-]+[-_]spec : ", line)


def declared():
    names = defaultdict(set)
    for path in files(".antt", "specs", "proofs"):
        at_proof = path.endswith(("/Proof.antt", "/Answers.antt", "/Invariants.antt"))
        for line in read(path).split("\n"):
            if line.lstrip().startswith("--"):
                continue
            found = DECLARED.match(line)
            if found and not is_answer(line) and not (at_proof and line.startswith("  ")):
                if "=" in line and ":" not in line.split("=")[0] and not line.lstrip().startswith(("pub ruleset", "ruleset")):
                    continue
                names[found.group(1)].add(path)
    return names


def foreign(text):
    """The names that a file takes from other libraries."""
    taken = set()
    for found in re.finditer(r"^\s*(?:ghost |pub )*use ([^\s{;]+?)\.\{([^}]*)\}", text, re.M):
        if not re.match(r"Rattle\.(?!std\b|core\b|io\b|libc\b|bytes\b)", found.group(1)):
            for item in found.group(2).split(","):
                taken.update(WORD.findall(item))
    return taken


def table():
    names = declared()
    made = dict(BOUND)
    for name in names:
        new = CHOSEN.get(name)
        if new is None and (re.match(r"[a-z]", name) or re.match(r"(?:Q|[A-Z][0-9]+)-", name)):
            new = snake(name)
        if new and new != name:
            made[name] = new
    return made


# In a path of facts, what stands before the first of these was named by the check.
OWN_FROM = {"invariant", "ensures", "requires", "given"}


def turn_code(text, made, skip):
    def one(found):
        name = found.group(0)
        return made.get(name, name) if name not in skip else name

    def piece(code):
        out, last = [], 0
        for found in WORD.finditer(code):
            before = code[: found.start()]
            path = re.search(r"(?:^|[^A-Za-z0-9_'.-])((?:c|w|came|tie|goal)\.(?:[A-Za-z0-9_'-]+\.)*)$", before)
            if path:
                parts = path.group(1).rstrip(".").split(".")
                if parts[0] in ("tie", "goal") or not OWN_FROM & set(parts[1:]):
                    continue
            out.append(code[last : found.start()])
            out.append(one(found))
            last = found.end()
        out.append(code[last:])
        return "".join(out)

    lines = []
    for line in text.split("\n"):
        mark = re.search(r"(^|\s)--(\s|$)|(^|\s)//", line)
        if mark:
            code, comment = line[: mark.start()], line[mark.start() :]
            comment = re.sub(r"`([^`]*)`", lambda q: "`" + WORD.sub(one, q.group(1)) + "`", comment)
            lines.append(piece(code) + comment)
        else:
            lines.append(piece(line))
    return "\n".join(lines)


def together(made):
    for path in list(files(".antt", "specs", "proofs")) + list(files(".rt", "src")):
        text = "\n".join(l for l in read(path).split("\n") if not re.match(r"^\s*(--|//)", l))
        words = set(WORD.findall(text))
        skip = foreign(text)
        seen = defaultdict(set)
        for word in words:
            seen[made.get(word, word) if word not in skip else word].add(word)
        for new, olds in sorted(seen.items()):
            if len(olds) > 1:
                print(path, new, sorted(olds))


def main():
    made = table()
    if "--list" in sys.argv:
        together(made)
        print(len(made), "names")
        return
    for path in list(files(".antt", "specs", "proofs")) + list(files(".rt", "src")):
        text = read(path)
        new = turn_code(text, made, foreign(text))
        if new != text:
            with open(path, "w", encoding="utf-8") as file:
                file.write(new)
    for path in files(".edit", "must-fail"):
        out = []
        for line in read(path).split("\n"):
            if line.startswith(("old: ", "new: ")):
                line = line[:5] + turn_code(line[5:], made, set())
            out.append(line)
        with open(path, "w", encoding="utf-8") as file:
            file.write("\n".join(out))
    pages = subprocess.run(["git", "ls-files", "*.md"], capture_output=True, text=True, check=True).stdout.split()
    for path in pages:
        text = read(path)
        new = re.sub(r"`([^`\n]*)`", lambda q: "`" + WORD.sub(lambda w: made.get(w.group(0), w.group(0)), q.group(1)) + "`", text)
        if new != text:
            with open(path, "w", encoding="utf-8") as file:
                file.write(new)


if __name__ == "__main__":
    main()
