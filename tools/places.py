#!/usr/bin/env python3
"""Lists the places in crates/*/src that docs/DESIGN-PASS.md counts: `python3 tools/places.py POINT [TREE]`, one line for each, and their number last."""
import pathlib
import re
import sys

# For each point: what is looked for, and the pattern of a line (or of a function's text, where it has (?s)).
POINTS = {
    "1": [
        ("an enum", r"^\s*(?:pub(?:\(crate\))? )?enum \w+"),
        ("an Option or Result packed again", r"^\s*(?:None|Some\(\w+\)|Ok\(\w*(?:\(\))?\)|Err\(\w+\)) => (?:return )?(?:Ok|Err|Some|None|first|second|\w+|\{\})\b.*"),
        ("a number for a kind or a refusal", r"\brefused\(\d+,|pub (?:number|bound): u32,|=> 1[0-5],$|^\s*return 16;|bound == 0|match (?:refusal\.number|field|operand) \{|fn (?:verdict|probe_\w+)\(.*-> u32"),
    ],
    "3": [
        ("a counter", r"^\s*(?:while .*(?:<|>|is_empty).*\{|\w+ [+-]= 1;)"),
        ("a range that indexes", r"^\s*for \w+ in .*\.\..*\{"),
    ],
    "4": [
        ("a conversion, a text or a test of kinds", r"fn (?:number|from_number|kind_of|letter_of|letter|sign|sentence|word|named|base_words|layer_words|order_words|name|secrecy_of|level_of|is_digit|refusal|capped|of|verb_of|option_of|takes_time|same|words)\b.*"),
        ("data without equality", r"#\[derive\((?!.*PartialEq).*\)\]"),
        ("a test of one variant", r"let \w+::\w+ = .* else|if let \w+::\w+ = "),
    ],
    "6": [
        ("a fixed buffer", r"^\s*(?:pub(?:\(crate\))? )?\w+: \[\w+; \w+\],"),
        ("a count beside it", r"^\s*(?:pub(?:\(crate\))? )?count: usize,"),
    ],
    "7": [
        ("a function chosen by a kind", r"^\s*(?:enum|pub enum) (?:Stretch|Slot|Base)\b|match self(?:\.base)? \{"),
    ],
    "8": [],
}


def sources(tree):
    return sorted(p for p in pathlib.Path(tree).glob("crates/*/src/**/*.rt") if "tests" not in p.name and "tests" not in p.parts)


def clauses(tree):
    """Point 5: what a `requires` asks, where three or more functions of a crate ask it; and parameters that three or more functions share."""
    facts, groups = {}, {}
    for path in sources(tree):
        text = path.read_text(encoding="utf-8")
        crate = path.parts[path.parts.index("crates") + 1]
        for m in re.finditer(r"requires (?:\w+ )?\{(.*)\}", text):
            for fact in re.split(r" × ", m.group(1)):
                fact = fact.replace("(", "").replace(")", "").replace(".now", "").replace(".old", "").strip()
                word = re.sub(r"\b(?:at|point|place|scalar|cell|from|head|number|array|index|depth|width)\b", "_", fact)
                facts.setdefault((crate, word), []).append(path.name)
        for m in re.finditer(r"fn (\w+)(?:<.*?>)?\(([^)]*)\)", text, re.S):
            names = [n.split(":")[0].replace("mut ", "").strip() for n in m.group(2).split(",") if ":" in n]
            if len(names) >= 4:
                for pair in zip(names, names[1:]):
                    groups.setdefault((crate, pair), []).append(m.group(1))
    for (crate, fact), where in sorted(facts.items()):
        if len(where) >= 3:
            yield f"{crate}: {len(where)} contracts ask {fact}"
    for (crate, pair), where in sorted(groups.items()):
        if len(where) >= 3:
            yield f"{crate}: {', '.join(pair)} travel together in {', '.join(where)}"


def shapes(tree):
    """Point 2: functions whose texts are the same but for names, numbers and kinds."""
    seen = {}
    for path in sources(tree):
        text = path.read_text(encoding="utf-8")
        for m in re.finditer(r"^( *)(?:pub(?:\(crate\))? )?fn (\w+)(?:<.*?>)?\(.*?^\1\}", text, re.S | re.M):
            code = m.group(0)[m.group(0).find("\n" + m.group(1) + "{"):] if "\n" + m.group(1) + "{" in m.group(0) else m.group(0)
            shape = re.sub(r"\s+", "", re.sub(r"b?\"[^\"]*\"|b'.'|\w+", "_", code))
            if len(shape) > 24:
                seen.setdefault(shape, []).append(f"{path.parts[path.parts.index('crates') + 1]}/{path.name} {m.group(2)}")
    for where in seen.values():
        if len(where) > 1:
            yield "alike: " + ", ".join(where)


def proofs(tree):
    """Point 8: how many answers and lemmas the proofs have."""
    for crate in sorted(pathlib.Path(tree).glob("crates/*/proofs")):
        text = "\n".join(p.read_text(encoding="utf-8") for p in sorted(crate.glob("**/*.antt")))
        answers = len(re.findall(r"^(?:abbrev )?pub \S+ : goal\.", text, re.M))
        yield f"{crate.parent.name}: {answers} answers, {len(text.splitlines())} lines"


def main():
    point, tree = sys.argv[1], (sys.argv[2] if len(sys.argv) > 2 else ".")
    rows = []
    if point == "2":
        rows = list(shapes(tree))
    elif point == "5":
        rows = list(clauses(tree))
    elif point == "8":
        rows = list(proofs(tree))
    else:
        for path in sources(tree):
            for n, line in enumerate(path.read_text(encoding="utf-8").splitlines(), 1):
                for what, pattern in POINTS[point]:
                    if re.search(pattern, line):
                        rows.append(f"{path.relative_to(tree)}:{n}: {what}: {line.strip()}")
    print("\n".join(rows))
    print(len(rows))


main()
