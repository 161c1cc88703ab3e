#!/usr/bin/env python3
"""Holds include/bac.h against crates/bac_c: the same calls with the same parameters, the same members, the same version, the same numbers of statuses, a text
for each number of an enum. A call may take a const node only where its contract says that it leaves the node as it was.

header.py TOP [LIB]: TOP of the repository; of LIB, an archive, each call has to be there, and no other name that begins with bac_.
"""
import re
import subprocess
import sys
from pathlib import Path

top = Path(sys.argv[1])
header = re.sub(r"/\*.*?\*/", " ", (top / "include/bac.h").read_text(), flags=re.S)
code = "\n".join(p.read_text() for p in sorted((top / "crates/bac_c/src").glob("*.rt")))
code = re.sub(r"//[^\n]*", "", code)

NAMES = {"Handle": "bac_node", "Settings": "bac_settings", "Target": "bac_target", "Reference": "bac_reference", "End": "bac_ending", "Performed": "bac_act",
         "Refused": "bac_refused"}
# enums of C are as wide as the numbers of the library
ENUMS = {"bac_status": "uint32_t", "bac_how": "uint32_t", "bac_flaw": "uint32_t"}
SAME = "handle.new.parked.device ≡ handle.old.parked.device"
NUMBERS = {"u8": "uint8_t", "u16": "uint16_t", "u32": "uint32_t", "u64": "uint64_t", "i64": "int64_t", "usize": "size_t", "bool": "bool"}


def c_types(rust):
    """The types of C that a parameter of that type is."""
    if rust == "Global":
        return []
    if rust in ("&[u8]", "&mut [u8]"):
        return [("const " if rust == "&[u8]" else "") + "uint8_t *", "size_t"]
    if rust in ("&[u8; 6]", "&mut [u8; 6]"):
        return [("const " if rust == "&[u8; 6]" else "") + "uint8_t [6]"]
    if rust.startswith("&"):
        const = "" if rust.startswith("&mut ") else "const "
        name = rust.removeprefix("&").removeprefix("mut ")
        return [const + NAMES.get(name, NUMBERS.get(name, name)) + " *"]
    return [NUMBERS[rust]]


def exports():
    calls = {}
    for name, params, result, clauses in re.findall(r'pub extern "C" fn (\w+)\((.*?)\)(?: -> (\w+))?\s(.*?)\n\{', code, flags=re.S):
        if re.search(r"ensures \w+ \{ " + re.escape(SAME) + r" \}", clauses):
            params = params.replace("handle: &mut Handle", "handle: &Handle")
        listed = [p for p in re.split(r",\s*(?![^\[]*\])", params.strip().rstrip(",")) if p]
        types = [t for p in listed for t in c_types(p.split(":", 1)[1].strip())]
        calls[name] = (NUMBERS.get(result, "void"), types)
    return calls


def prototypes():
    calls = {}
    for result, name, params in re.findall(r"^(bac_status|void|bool|uint64_t|uint32_t|size_t) (bac_\w+)\(([^)]*)\);", header, flags=re.M):
        types = []
        for p in re.split(r",\s*", " ".join(params.split())) if params != "void" else []:
            array = "[6]" in p
            p = p.replace("[6]", "")
            kind = re.sub(r"\w+$", "", p).strip()
            kind = kind.replace(" *", "*").replace("*", " *")
            types.append(kind + " [6]" if array else kind)
        calls[name] = (ENUMS.get(result, result), types)
    return calls


def rust_structs():
    structs = {}
    for name, body in re.findall(r"#\[repr\(C\)\]\s*(?:#\[[^\n]*\]\s*)*pub struct (\w+) \{(.*?)\n\}", code, flags=re.S):
        if name in NAMES and name != "Handle":
            members = re.findall(r"pub (\w+): ([^,\n]+),", body)
            structs[NAMES[name]] = [(m, re.sub(r"\[u8; (\d)\]", r"uint8_t[\1]", t) if t[0] == "[" else NUMBERS[t]) for m, t in members]
    return structs


def c_structs():
    structs = {}
    for body, name in re.findall(r"typedef struct \w+ \{(.*?)\} (\w+);", header, flags=re.S):
        members = re.findall(r"(\w+) (\w+)(\[\d\])?;", body)
        structs[name] = [(m.rstrip("_"), ENUMS.get(t, t) + a) for t, m, a in members]
    structs.pop("bac_node", None)
    return structs


def rust_statuses():
    body = re.search(r"pub enum Fault \{(.*?)\n\}", code, flags=re.S).group(1)
    return {re.sub(r"(?<!^)(?=[A-Z])", "_", n).upper(): int(v) for n, v in re.findall(r"(\w+) = (\d+),", body)} | {"OK": 0}


def c_statuses():
    return members("bac_status")


def members(enum):
    """The members of an enum of the header, and their numbers."""
    body = re.search(r"typedef enum " + enum + r" \{(.*?)\} " + enum + ";", header, flags=re.S).group(1)
    return {n: int(v) for n, v in re.findall(r"BAC_(\w+) = (\d+)", body)}


def texts(function):
    """How many numbers a function of the header has a text for."""
    body = re.search(r"static inline const char \*" + function + r"\(.*?texts\[\] = \{(.*?)\};", header, flags=re.S).group(1)
    return len(re.findall(r'"[^"]+"', body))


def versions():
    """The versions of the code and of the header."""
    ours = re.search(r"const VERSION: u32 = ([\d_]+);", code).group(1)
    theirs = re.search(r"#define BAC_VERSION (\d+)", header).group(1)
    return int(ours.replace("_", "")), int(theirs)


def rust_flaws():
    """The numbers of the flaws: those that bac_c gives to those of bac_store, and its own of a plain start, where the same flaw has the same number."""
    found = re.findall(r"DescriptionFlaw::(\w+) => (\d+),", code)
    named = {"TooManyObjects": "TOO_MANY"}
    body = re.search(r"pub enum Flaw \{(.*?)\n\}", code, flags=re.S).group(1)
    flaws = {"FLAW_NONE": 0}
    for n, v in found + re.findall(r"(\w+) = (\d+),", body):
        name = "FLAW_" + named.get(n, re.sub(r"(?<!^)(?=[A-Z])", "_", n).upper())
        if n != "NoMemory" and flaws.setdefault(name, int(v)) != int(v):
            flaws[name + "_TWICE"] = int(v)
    return flaws


wrong = 0
for function, enum in (("bac_text", "bac_status"), ("bac_how_text", "bac_how"), ("bac_flaw_text", "bac_flaw")):
    if texts(function) != len(members(enum)):
        wrong += 1
        print(f"{function}: {texts(function)} texts for {len(members(enum))} numbers")
if versions()[0] != versions()[1]:
    wrong += 1
    print("version: code {}, header {}".format(*versions()))
PAIRS = [("calls", exports(), prototypes()), ("structs", rust_structs(), c_structs()), ("statuses", rust_statuses(), c_statuses()),
         ("flaws", rust_flaws(), members("bac_flaw"))]
for what, ours, theirs in PAIRS:
    for name in sorted(ours.keys() | theirs.keys()):
        if ours.get(name) != theirs.get(name):
            wrong += 1
            print(f"{what}: {name}\n  code   {ours.get(name)}\n  header {theirs.get(name)}")
if len(sys.argv) > 2:
    listed = subprocess.run(["nm", "--defined-only", "--extern-only", sys.argv[2]], capture_output=True, text=True, check=True).stdout
    there = set(re.findall(r" T (bac_\w+)$", listed, flags=re.M))
    if there != set(exports()):
        wrong += 1
        print("archive:", sorted(there ^ set(exports())))
print(f"{len(exports())} calls, {len(rust_structs())} structs, {len(rust_statuses())} statuses: {wrong} wrong")
sys.exit(wrong != 0)
