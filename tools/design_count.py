#!/usr/bin/env python3
"""Counts the places of src/ that a rewrite in today's forms looks at, and lists them: tools/design_count.py [POINT] [-l] [ROOT]

1  enums of the shape of Option or Result, and numbers or flags that stand for no value
2  functions and types that differ from another only in names, numbers, types or constants
3  loops that count an index by hand
4  equality, order and conversion written by hand
5  two parameters that stand beside one another in ten or more functions, and facts that stand in the contracts of three or more
6  buffers with a length beside them, parallel arrays, arenas of indices
7  switches on which step to run
"""
import glob
import os
import re
import sys
from collections import defaultdict

words = [it for it in sys.argv[1:] if it != "-l"]
points = [int(it) for it in words if it.isdigit()] or list(range(1, 8))
root = next((it for it in words if not it.isdigit()), ".")
shows = "-l" in sys.argv

ITEM = re.compile(r"^(?P<indent> *)(pub(\(crate\))? )?(const )?fn (?P<name>\w+)(?P<rest>.*?)\n(?P=indent)\}", re.S | re.M)
TYPE = re.compile(r"^(pub )?(?P<kind>enum|struct) (?P<name>\w+)(?P<generic><[^>]*>)? \{(?P<body>.*?)^\}", re.S | re.M)


def sources():
    for file in sorted(glob.glob(f"{root}/crates/*/src/*.rt")):
        with open(file, encoding="utf-8") as it:
            text = it.read()
        yield file.split("/crates/")[1].split("/")[0], text


def bare(text):
    return re.sub(r"//[^\n]*", "", text)


def functions():
    for crate, text in sources():
        for found in ITEM.finditer(bare(text)):
            whole = found.group(0)
            head, mark, body = whole.partition(f"\n{found['indent']}{{")
            if not mark:
                head, mark, body = whole.partition("{\n")
            yield crate, found["name"], head, body, text[: 0]


def types():
    for crate, text in sources():
        for found in TYPE.finditer(bare(text)):
            yield crate, found["kind"], found["name"], found["body"]


def variants(body):
    return re.findall(r"^    (\w+)(\([^)]*\)|\s*\{[^}]*\})?(?: = \w+)?,", body, re.M)


NONE = "Fault Faulty Bad Missing Nothing Outside Unknown Full Other Nowhere Long Again Falling Absent End Nowhere Unjoined None Malformed Vain".split()


def point1():
    for crate, kind, name, body in types():
        if kind != "enum":
            continue
        all_of = variants(body)
        held = [v for v, data in all_of if data]
        refusals = [v for v, data in all_of if "Refusal" in data and v in ("Refused", "Fault", "Faulty")]
        empty = [v for v, data in all_of if not data and v in NONE]
        failed = [v for v, data in all_of if data and v in ("Open", "Missed", "Missing", "Bad")]
        unit = {v for v, data in all_of if not data}
        whole = unit & {"Sound", "All", "Accepted", "Whole", "Skipped"}
        if refusals or (empty and held) or (failed and held) or (whole and held):
            yield f"{crate} enum {name}"
    for crate, text in sources():
        for found in re.finditer(r"^ *//.*\b(or|and) 0\b.*$|^ *//.*\b0 (stands for|where there is|for none|without|past)\b.*$|^ *//.*\bone more than the\b.*$", text, re.M):
            yield f"{crate} number for none: {found.group(0).strip()[:90]}"
        for found in re.finditer(r"^    (pub )?(\w+): bool,\n(.*\n)*?\}", text, re.M):
            if re.search(r"^    (pub )?(ok|copied|made|found|known|some|has_\w+): bool,", found.group(0), re.M):
                yield f"{crate} flag with a value beside it: {found.group(2)}"


def shape(text):
    text = re.sub(r'b?"[^"]*"|b?\'[^\']*\'', "LIT", text)
    text = re.sub(r"\b0[xb]?[\d_]+\w*|\b\d[\d_]*\w*", "LIT", text)
    text = re.sub(r"\b[A-Z]\w*\b", "TYPE", text)
    text = re.sub(r"\b(u8|u16|u32|u64|usize|i32|bool)\b", "TYPE", text)
    text = re.sub(r"\b\w+(::\w+)+\b", "PATH", text)
    text = re.sub(r"\b([a-z_]\w*)(?=\()", "CALL", text)
    return re.sub(r"\s+", " ", text)


def point2():
    kinds = defaultdict(list)
    for crate, name, head, body, _ in functions():
        if body.count("\n") < 3 or name in ("main",):
            continue
        inner = re.sub(r"\b(requires|ensures)\b.*", "", head)
        parameters = re.search(r"\((.*)\)", inner, re.S)
        kinds[shape(body) + "|" + shape(re.sub(r"\w+:", "", parameters.group(1) if parameters else ""))].append(f"{crate}::{name}")
    for names in sorted(kinds.values()):
        if len(names) > 1:
            for name in names:
                yield f"{name}, as {', '.join(it for it in names if it != name)}"


def point3():
    for crate, text in sources():
        for found in re.finditer(r"^( *)(?:'\w+: )?(while [^\n]*|loop) \{\n(.*?)\n\1\}", bare(text), re.S | re.M):
            steps = re.findall(r"^ *(\w+) [+-]= 1;", found.group(3), re.M)
            others = re.findall(r"^ *(\w+) (?:[+-])?= (?!1;)", found.group(3), re.M)
            condition = found.group(2)
            counted = [it for it in steps if re.search(rf"\b{it}\b", condition)]
            if condition == "loop":
                counted = [it for it in steps if re.search(rf"<=? {it} \{{|{it} <=? ", found.group(3))]
            if counted and counted[0] not in others:
                yield f"{crate}: {condition} (counts {counted[0]})"


def point4():
    for crate, name, head, body, _ in functions():
        lines = [it.strip() for it in body.strip().rstrip("}").strip().split("\n")]
        if len(lines) == 1 and re.fullmatch(r"\(?[\w.\[\]]+\)? as \w+", lines[0]):
            yield f"{crate}::{name}, a cast"
        if lines and re.match(r"match \w+ \{", lines[0]):
            arms = re.findall(r"=> ([^{\n]+),", body)
            bool_arms = [it for it in arms if it in ("true", "false")]
            number_arms = [it for it in arms if re.fullmatch(r"\d+", it)]
            if len(arms) > 1 and len(bool_arms) == len(arms):
                yield f"{crate}::{name}, a match for a test"
            if len(arms) > 1 and len(number_arms) == len(arms):
                yield f"{crate}::{name}, numbers of variants"
            if len(arms) > 2 and re.search(r"^\s*\d+ => \w+::\w+,", body, re.M):
                yield f"{crate}::{name}, variants of numbers"


def point5():
    groups = defaultdict(set)
    for crate, name, head, body, _ in functions():
        found = re.search(r"\((.*?)\)(?: ->|\n|$)", re.sub(r"\n\s*(requires|ensures).*", "", head, flags=re.S), re.S)
        inside = re.sub(r"&'a ", "&", found.group(1)) if found else ""
        names = [re.sub(r"\s+", " ", it).strip() for it in inside.split(",")]
        names = [it for it in names if ":" in it]
        for i in range(len(names) - 1):
            groups[(names[i], names[i + 1])].add(f"{crate}::{name}")
    for pair, users in sorted(groups.items(), key=lambda it: -len(it[1])):
        if len(users) >= 10:
            yield f"{pair[0]}, {pair[1]}: {len(users)} functions"
    facts = defaultdict(set)
    for crate, name, head, body, _ in functions():
        for clause in re.findall(r"requires(?: \w+)? \{ (.*) \}", head):
            for fact in re.split(r" × ", clause):
                facts[re.sub(r"^\((.*)\)$", r"\1", fact.strip())].add(f"{crate}::{name}")
    for fact, users in sorted(facts.items(), key=lambda it: -len(it[1])):
        if len(users) >= 3 and len(fact) < 120:
            yield f"fact {fact}: {len(users)} functions"


def point6():
    for crate, kind, name, body in types():
        if kind == "struct" and re.search(r"\[\w+; \w+\]", body) and re.search(r"\b(len|start|count|used): (usize|u8)", body):
            yield f"{crate} struct {name}: an array with a length beside it"
    for crate, name, head, body, _ in functions():
        if re.search(r"\bout: &mut \[u8\],\s*used: usize", head):
            yield f"{crate}::{name}: a buffer with how much of it is used"
        if re.search(r"values: &(mut )?(\'a )?\[u8\],\s*rows: &(mut )?\[u16\]", head):
            yield f"{crate}::{name}: the parallel arrays of the rule table"


def point7():
    for crate, kind, name, body in types():
        if kind == "enum" and name in ("Step", "Operation", "Turn", "Item"):
            yield f"{crate} enum {name}"


for n in points:
    places = list(globals()[f"point{n}"]())
    print(f"point {n}: {len(places)}")
    if shows:
        for it in places:
            print(f"  {it}")
