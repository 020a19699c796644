#!/usr/bin/env python3
"""Lists the places in crates/*/src that an older form of the language may have left.

    python3 tools/places.py [COMMIT]

Without COMMIT it reads the work tree. Each line of its answer is a point, a kind of place and how many there are; the places follow.
A place is one to look at, and no verdict.
"""
import collections
import re
import subprocess
import sys


def files(commit):
    if commit:
        names = subprocess.run(["git", "ls-tree", "-r", "--name-only", commit], capture_output=True, text=True, check=True).stdout.split()
    else:
        names = subprocess.run(["git", "ls-files"], capture_output=True, text=True, check=True).stdout.split()
    for name in names:
        if re.fullmatch(r"crates/\w+/src/.*\.rt", name):
            if commit:
                yield name, subprocess.run(["git", "show", f"{commit}:{name}"], capture_output=True, text=True, check=True).stdout
            else:
                yield name, open(name).read()


# point, kind, and what stands in a line that is such a place
LINES = [
    (1, "own enums", r"^\s*(pub(\(crate\))? )?enum \w+"),
    (1, "an Option that says a refusal", r"Option<Refusal>"),
    (1, "a flag beside a value, as a field or a parameter", r"\w+: bool\b"),
    (1, "a flag that says whether a change was made", r"&mut .*-> bool"),
    (1, "a number for a kind", r"fn \w+\((class|status|kind|verdict): \w+\) -> (u8|u32|usize)"),
    (1, "a number that stands for nothing", r"None => 0\b|map_or\(0,"),
    (1, "an Option or a Result taken apart and put together again", r"(\bNone => None\b|\bNone => Err\(|Err\(_\) => (return )?Err|Some\(\w+\) => Err\(|Err\(\w+\) => (return )?Err\()"),
    (3, "a loop over numbers", r"for \w+ in .*\.\."),
    (3, "a loop that is no `for`", r"\b(while|loop)\b.*\{$"),
    (3, "a number counted up by one", r"\+= 1;"),
    (3, "a search by hand", r"\.enumerate\(\)"),
    (4, "letters and cases by hand", r"fn (letter|from_letter)\("),
    (4, "equality or order by hand", r"fn (or_worse|is_related_to|falls_below|comes_before|lot_row_follows|is_of|is_entry|has_no_numbers)\("),
    (4, "a struct copied and then written field by field", r"let mut \w+ = (self\.)?(\w+\.)?standing;|: last\.unit|critical: row\.critical"),
    (4, "printing by hand", r"fn (print_\w+|status_name)\("),
    (6, "a count beside a buffer", r"^\s*count: usize,"),
    (6, "input gathered by hand", r"extend_from_slice"),
    (7, "a choice that is passed as a flag or made by a function of its own", r"fn (later|taken_unless|left_by|unsound_at)\b"),
    (7, "all classes, one after another", r"JudgedClass::Total\)(,|;|$| as)"),
]

INTS = re.compile(r"\b(u8|u16|u32|u64|usize)\b")


def functions(text):
    """The functions of a file: name, head with clauses, body."""
    for found in re.finditer(r"^( *)(?:pub(?:\(crate\))? )?fn (\w+)([^;{]*(?:\n *(?:requires|ensures)[^\n]*)*)\n?(?: |\1)\{\n(.*?)^\1\}", text, re.S | re.M):
        yield found.group(2), found.group(3), found.group(4)


def print_twins(kind, alike):
    twins = [places for places in alike.values() if len(places) > 1]
    print(f"2: {kind}: {sum(map(len, twins))} in {len(twins)} groups")
    for places in twins:
        print("    " + "; ".join(places))


def main():
    commit = sys.argv[1] if len(sys.argv) > 1 else None
    tree = list(files(commit))
    for point, kind, pattern in LINES:
        hits = [(name, number, line.strip()) for name, text in tree for number, line in enumerate(text.split("\n"), 1)
                if re.search(pattern, line) and not line.strip().startswith("//")]
        print(f"{point}: {kind}: {len(hits)}")
        for name, number, line in hits:
            print(f"    {name}:{number}: {line}")
    # bodies that are alike but for widths, numbers and names of their own
    shapes = collections.defaultdict(list)
    for name, text in tree:
        for function, head, body in functions(text):
            shape = re.sub(r"\b\d[\d_]*\b", "0", INTS.sub("int", re.sub(r"\s+", " ", re.sub(r"//.*", "", body))))
            shape = re.sub(r"\b[A-Z]\w*::[A-Z]\w*\b", "Case", re.sub(r"'.'|\"[^\"]*\"", "lit", shape))
            shape = re.sub(r"\b(?!if|else|for|in|match|let|return|self|mut)[a-z_]\w*\b", "x", shape)
            if len(shape) > 60:
                shapes[shape].append(f"{name}: {function}")
    print_twins("bodies of one shape", shapes)
    names = collections.defaultdict(list)
    for name, text in tree:
        for found in re.finditer(r"^(?:pub(?:\(crate\))? )?(?:struct|enum) (\w+)[^{;]*\{(.*?)^\}", text, re.S | re.M):
            fields = re.sub(r"\b(u8|u16|u32|u64|usize)\b", "int", re.sub(r"//.*|pub(\(crate\))? |\s+", "", found.group(2)))
            names[fields].append(f"{name}: {found.group(1)}")
    print_twins("types of the same fields", names)
    # facts that stand in three or more contracts
    clauses = collections.defaultdict(list)
    together = collections.defaultdict(list)
    for name, text in tree:
        for function, head, body in functions(text):
            for clause in set(re.findall(r"(?:requires|ensures) ?\w* (\{.*\})$", head, re.M)):
                clauses[clause].append(f"{name}: {function}")
            for part in set(re.findall(r"\((?:[\w.]+ )*(?:self\.(?:now|old|new)\.\w+)[^()]*(?:\([^()]*\)[^()]*)*\)", head)):
                clauses["part " + part].append(f"{name}: {function}")
            kept = sorted(set(re.findall(r"\b\w+: [&\w:<>\[\]']+(?: ?<[^<>]*>)?", re.split(r"\n *(?:requires|ensures)", head)[0])))
            for i, first in enumerate(kept):
                for second in kept[i + 1:]:
                    together[(first, second)].append(f"{name}: {function}")
    many = {c: p for c, p in clauses.items() if len(p) >= 3}
    print(f"5: facts in three or more contracts: {len(many)}")
    for clause, places in sorted(many.items(), key=lambda x: -len(x[1])):
        print(f"    {len(places)} times: {clause[:150]}")
    pairs = {c: p for c, p in together.items() if len(p) >= 3}
    print(f"5: pairs of parameters in three or more functions: {len(pairs)}")
    for pair, places in sorted(pairs.items(), key=lambda x: -len(x[1])):
        print(f"    {len(places)} times: {', '.join(pair)}: " + "; ".join(places))


main()
