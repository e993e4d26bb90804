#!/usr/bin/env python3
"""Holds the declarations that are written by hand to the proved sources: every exported function against the library's that
it hands on to, clause by clause; every exported function and every struct of crates/*/src against its prototype in include/*.h and its declaration in rust/src/raw.rs, name by name and type by type;
the refusals that the headers name with each function against those that the vectors have of it; and that every function
has its own on the struct of include/zompelgors_pyramid.h, which tests/pyramid.c calls.

A slice lent to read, &[u16], is a pointer to const and a length for C, a *const u16 and a usize for Rust; one lent to
write, &mut [u16], is the same without const, and *mut. Struct names are spelt zg_refusal for ZgRefusal in C.

tests/interface.py        says what differs, and fails if anything does
tests/interface.py ROOT   the same of another folder
"""
import re
import sys
from pathlib import Path

ROOT = Path(sys.argv[1] if len(sys.argv) > 1 else Path(__file__).parent.parent).resolve()
# of the sources, and of C
NUMBERS = {"u8": "uint8_t", "u16": "uint16_t", "u32": "uint32_t", "u64": "uint64_t", "i32": "int32_t", "f64": "double"}
# of the crate that exports a header's functions, and of the library that it calls
HEADERS = {"zompelgors_c": "zompelgors.h", "zompelgors_regions_c": "zompelgors_regions.h"}
LIBRARIES = {name: name.removesuffix("_c") for name in HEADERS}
# the word of a function's cases in tests/vectors, where it isn't its name
WORDS = {"marks_of": "marks", "read_by_levels": "bylevels", "mark_cells": "mark"}
# what a function is refused with, though no vector on file has it: as zg_check
NOT_ON_FILE = {"zg_decimation": {"3"}}


def without_comments(text):
    return re.sub(r"/\*.*?\*/|//[^\n]*", " ", text, flags=re.S)


def read(path):
    return (ROOT / path).read_text()


def parts(text):
    """The parts between commas, white space made one space."""
    return [" ".join(part.split()) for part in text.split(",") if part.strip()]


# ---- the sources: {name: (crate, [(field, type)], what is returned)}, {name: [(field, type)]}


def exported():
    found = {}
    for path in sorted((ROOT / "crates").glob("*/src/*.rt")):
        text = without_comments(path.read_text())
        for name, given, back in re.findall(r'pub extern "C" fn (\w+)\((.*?)\)\s*->\s*(\w+)', text, re.S):
            found[name] = (path.parent.parent.name, [tuple(p.split(": ")) for p in parts(given)], back)
        marked = len(re.findall(r"#\[unsafe\(no_mangle\)\]", text))
        if marked != len(re.findall(r'#\[unsafe\(no_mangle\)\]\s*pub extern "C" fn \w+\(.*?\)\s*->\s*\w+', text, re.S)):
            sys.exit(f"{path}: an exported function isn't understood")
    return found


def stated(path, start):
    """{name: (all between a function's name and its body, the body)} of the functions of a source that begin so."""
    found = re.findall(rf"^{re.escape(start)} (\w+)(.*?)\n?\{{\n(.*?)^\}}", without_comments(read(path)), re.S | re.M)
    flat = lambda words: re.sub(r",? \)", ")", " ".join(words.split())).replace("( ", "(")
    return {name: (flat(head), flat(body)) for name, head, body in found}


def export_differences():
    """An exported function states what the library's function of its name states, and hands on to it."""
    for crate, library in LIBRARIES.items():
        of_crate, of_library = stated(f"crates/{crate}/src/lib.rt", 'pub extern "C" fn'), stated(f"crates/{library}/src/lib.rt", "pub fn")
        for name in sorted(set(of_crate) ^ {name for name in of_library if name.startswith("zg_")}):
            yield f"crates/{crate} and crates/{library} differ in {name}"
        for name, (head, body) in of_crate.items():
            if head != of_library.get(name, (head, ""))[0]:
                yield f"crates/{crate}: {name} states something else than crates/{library} does"
            given = ", ".join(field for field, _ in functions[name][1])
            if body != f"{library}::{name}({given})":
                yield f"crates/{crate}: {name} isn't the call of the library's function alone"


def laid_out():
    found = {}
    for path in sorted((ROOT / "crates").glob("*/src/*.rt")):
        for name, fields in re.findall(r"#\[repr\(C\)\]\s*(?:#\[derive\([^)]*\)\]\s*)?pub struct (\w+) \{(.*?)\}", without_comments(path.read_text()), re.S):
            laid = [tuple(p.removeprefix("pub ").split(": ")) for p in parts(fields)]
            if found.setdefault(name, laid) != laid:
                sys.exit(f"{path}: {name} is laid out otherwise than in another crate")
    return found


# ---- what C must say


def c_name(struct):
    return "zg_" + re.sub(r"(?<!^)([A-Z])", r"_\1", struct.removeprefix("Zg")).lower()


def c_type(kind):
    return NUMBERS.get(kind) or c_name(kind)


def c_given(given):
    due = []
    for name, kind in given:
        slice_of = re.fullmatch(r"&(mut )?\[(\w+)\]", kind)
        if slice_of:
            due += [("" if slice_of[1] else "const ") + f"{NUMBERS[slice_of[2]]} *{name}", f"size_t {name}_len"]
        else:
            due.append(f"{NUMBERS[kind]} {name}")
    return due or ["void"]


def c_prototypes(header):
    text = without_comments(read(f"include/{header}"))
    found = re.findall(r"^((?:const )?\w+ \*?)(zg_\w+)\(([^()]*)\)[^;{]*;", text, re.M)
    return {name: (back.strip(), [p.replace("* ", "*") for p in parts(given)]) for back, name, given in found if name != "zg_refusal_text"}


def c_structs(header):
    """{name: [(field, type)]} of typedef struct { .. } name."""
    found = {}
    for body, name in re.findall(r"typedef struct \{(.*?)\} (\w+);", without_comments(read(f"include/{header}")), re.S):
        fields = []
        for line in filter(None, (" ".join(line.split()) for line in body.split(";"))):
            kind, _, names = line.partition(" ")
            fields += [(field, kind) for field in parts(names)]
        found[name] = fields
    return found


# ---- what Rust must say


def rust_given(given):
    due = []
    for name, kind in given:
        slice_of = re.fullmatch(r"&(mut )?\[(\w+)\]", kind)
        if slice_of:
            due += [f"{name}: *{'mut' if slice_of[1] else 'const'} {slice_of[2]}", f"{name}_len: usize"]
        else:
            due.append(f"{name}: {kind}")
    return due


def rust_functions(text):
    """{name: (what is given, what is returned, the feature that it needs)}."""
    inside = re.search(r'extern "C" \{(.*)^\}', text, re.S | re.M)[1]
    found = {}
    for feature, name, given, back in re.findall(r'(?:#\[cfg\(feature = "(\w+)"\)\]\s*)?pub fn (\w+)\((.*?)\) -> (\w+);', inside, re.S):
        found[name] = (parts(given), back, feature)
    return found


def rust_structs(text):
    found = {}
    for name, fields in re.findall(r"pub struct (Zg\w+) \{(.*?)\}", text, re.S):
        found[name] = [tuple(p.removeprefix("pub ").split(": ")) for p in parts(fields)]
    for name, fields in re.findall(r"^    (Zg\w+) \{ (.*?) \}$", text, re.M):
        found[name] = [("refusal", "ZgRefusal")] + [tuple(p.split(": ")) for p in parts(fields)]
    return found


# ---- differences


def differ(where, name, due, said):
    """One line for each place where two lists differ."""
    if len(due) != len(said):
        yield f"{where}: {name} has {len(said)} parts and not {len(due)}"
    for number, (a, b) in enumerate(zip(due, said), 1):
        if a != b:
            yield f"{where}: {name}, part {number}: '{b}' and not '{a}'"


def c_differences(functions, structs):
    told = {}
    for crate, header in HEADERS.items():
        prototypes = c_prototypes(header)
        due = {name for name, (of, _, _) in functions.items() if of == crate}
        for name in sorted(due ^ set(prototypes)):
            yield f"include/{header} and crates/{crate} differ in {name}"
        for name in sorted(due & set(prototypes)):
            _, given, back = functions[name]
            yield from differ(f"include/{header}", name, [c_type(back)] + c_given(given), [prototypes[name][0]] + prototypes[name][1])
        told.update(c_structs(header))
    for name in sorted(set(map(c_name, structs)) ^ set(told)):
        yield f"include/*.h and crates/ differ in the struct {name}"
    for name, fields in structs.items():
        yield from differ("include", c_name(name), [(field, c_type(kind)) for field, kind in fields], told.get(c_name(name), []))


def rust_differences(functions, structs):
    text = without_comments(read("rust/src/raw.rs"))
    said = rust_functions(text)
    for name in sorted(set(said) ^ set(functions)):
        yield f"rust/src/raw.rs and crates/ differ in {name}"
    for name in sorted(set(said) & set(functions)):
        crate, given, back = functions[name]
        feature = LIBRARIES[crate].removeprefix("zompelgors").removeprefix("_")
        yield from differ("rust/src/raw.rs", name, [feature, back] + rust_given(given), [said[name][2], said[name][1]] + said[name][0])
    told = rust_structs(text)
    for name in sorted(set(told) ^ set(structs)):
        yield f"rust/src/raw.rs and crates/ differ in the struct {name}"
    for name, fields in structs.items():
        yield from differ("rust/src/raw.rs", name, fields, told.get(name, []))


def seen_in_vectors():
    """{word: {number}} of all cases on file."""
    seen = {}
    for cases in (ROOT / "tests" / "vectors").glob("*.cases"):
        for case, answer in zip(cases.read_text().split("\n"), cases.with_suffix(".answers").read_text().split("\n")):
            if case:
                seen.setdefault(case.split(" ", 1)[0], set()).add(answer.split(" ", 1)[0])
    return seen


def comment_differences(functions):
    """The numbers that a comment names after 'Refused' are those that the vectors have of the function."""
    enum = re.search(r"enum zg_number \{(.*?)\};", read("include/zompelgors.h"), re.S)[1]
    names = dict(re.findall(r"^    ZG_E_(\w+) = (\d+)", enum, re.M))
    seen = seen_in_vectors()
    for header in HEADERS.values():
        for comment, name in re.findall(r"/\*((?:(?!\*/).)*)\*/\n\w+ (zg_\w+)\(", read(f"include/{header}"), re.S):
            if name not in functions or name == "zg_version":
                continue
            refused = re.search(r"^ \* Refused (.*?)(?=^ \* After |\Z)", comment, re.S | re.M)
            told = {names[word] for word in re.findall(r"\b[A-Z_]{4,}\b", refused[1] if refused else "") if word in names}
            word = name.removeprefix("zg_")
            came = seen.get(WORDS.get(word, word), set()) - {"0"} | NOT_ON_FILE.get(name, set())
            for number in sorted(told ^ came, key=int):
                which = "names, and no vector has" if number in told else "doesn't name, and a vector has"
                yield f"include/{header}: the comment of {name} {which}, number {number}"
            after = re.search(r"^ \* After a check.*?: (.*?)\Z", comment, re.S | re.M)
            if not after and name not in ("zg_take", "zg_import"):
                yield f"include/{header}: the comment of {name} doesn't say what can come after a check"
            later = {names[word] for word in re.findall(r"\b[A-Z_]{4,}\b", after[1] if after else "") if word in names}
            for number in sorted(later - told, key=int):
                yield f"include/{header}: the comment of {name} has number {number} after a check, but not before"


def struct_differences(functions):
    """Every function but zg_version is handed on to by one of zompelgors_pyramid.h, and that one is tried."""
    bodies = dict(re.findall(r"^ZG_MUST_LOOK static inline \w+ (zg_\w+)\(.*?\n\{(.*?)^\}", read("include/zompelgors_pyramid.h"), re.S | re.M))
    tried = read("tests/pyramid.c")
    for name in sorted(set(functions) - {"zg_version"}):
        on_struct = name.replace("zg_", "zg_pyramid_", 1)
        if f"{name}(" not in bodies.get(on_struct, ""):
            yield f"include/zompelgors_pyramid.h: no {on_struct} that hands on to {name}"
        elif not re.search(rf"= {on_struct}\(", tried):
            yield f"tests/pyramid.c doesn't call {on_struct}"


if __name__ == "__main__":
    functions, structs = exported(), laid_out()
    found = [*export_differences(), *c_differences(functions, structs), *rust_differences(functions, structs), *comment_differences(functions), *struct_differences(functions)]
    print("\n".join(found + [f"{len(functions)} functions and {len(structs)} structs in C and in Rust, refusals of {len(functions) - 1}: {len(found)} differences"]))
    sys.exit(1 if found else 0)
