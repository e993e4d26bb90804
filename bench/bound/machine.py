"""The machine code of an archive: its functions as blocks, with what each block runs on to and what it calls.

Trusted: objdump's decoding, and that a jump through a table goes to one of the entries of the table that the nearest
address loaded before it names (up to where the next table begins: the index is an enum's byte, and no test of its range
is in the code). What can't be read so stops everything: a jump of another kind, an instruction that repeats itself or
leaves the program, a function that runs off its end, a block that nothing reaches."""
import bisect
import hashlib
import os
import platform
import re
import shutil
import subprocess
from pathlib import Path


class Fail(Exception):
    """What stops the tool, told by name."""


# The C library's functions that the archive calls; they are counted apart.
EXTERNAL = {"memset", "memcpy"}

# What may lie between functions' blocks and is never run.
PADDING = {"nop", "nopw", "nopl", "data16", "cs", "xchg", "int3"}
REPEATING = ("rep", "loop", "sys", "int", "lcall", "ljmp", "iret", "xbegin", "ud2", "hlt")
CONDITIONAL = re.compile(r"j[a-z]+$")


class Block:
    """Instructions that are run one after the other: their number, the blocks that may come next (none where the
    function returns), and the function called at the end."""

    def __init__(self, address, instructions, successors, call):
        self.address, self.instructions, self.successors, self.call = address, instructions, successors, call
        self.size = len(instructions)


class Function:
    def __init__(self, name, archive):
        self.name, self.archive = name, archive
        self.lines, self.relocations = [], {}  # (address, mnemonic, operands); address -> symbol

    def block_of(self, address):
        starts = self.starts
        return starts[bisect.bisect_right(starts, address) - 1]


def objdump(*arguments):
    """What objdump for x86-64 prints."""
    own = "objdump" if platform.machine() == "x86_64" else None
    names = [os.environ.get("OBJDUMP"), "x86_64-linux-gnu-objdump", own]
    command = next((name for name in names if name and shutil.which(name)), None)
    if not command:
        raise Fail("no objdump for x86-64 (Debian: binutils, or binutils-x86-64-linux-gnu)")
    run = subprocess.run([command, *arguments], capture_output=True, text=True, check=False)
    if run.returncode:
        raise Fail(run.stderr.strip())
    return run.stdout.splitlines()


def jump_tables(archive):
    """For each section of constants that holds jump tables, the places in code that its entries name."""
    found, section = {}, ""
    for line in objdump("-r", archive):
        head = re.match(r"RELOCATION RECORDS FOR \[(.*)\]:", line)
        if head:
            section = head[1]
        entry = re.match(r"([0-9a-f]{16}) (R_\S+)\s+(\S+)$", line)
        if not entry or not section.startswith(".rodata"):
            continue
        to = re.match(r"\.text\.(.*)\+0x([0-9a-f]+)$", entry[3])
        listed = found.setdefault(section, [])
        if entry[2] != "R_X86_64_PC32" or not to or int(entry[1], 16) != 4 * len(listed):
            raise Fail(f"{section}: an entry of a jump table that is of another kind: {line}")
        listed.append((to[1], int(to[2], 16)))
    return found


def disassembled(archive):
    """The functions with their instructions and relocations, blocks not yet found."""
    functions, f = {}, None
    for line in objdump("-d", "-r", "-w", "--no-show-raw-insn", archive):
        head = re.match(r"Disassembly of section \.text\.(.*):", line)
        if head:
            if head[1] in functions:
                raise Fail(f"{archive} has {head[1]} twice")
            f = functions[head[1]] = Function(head[1], archive)
            continue
        line, _, symbol = line.partition("R_X86_64")
        if symbol:
            line = re.sub(r"\s+[0-9a-f]+:\s*$", "", line)
        part = re.match(r"\s+([0-9a-f]+):\s+(\S+)\s*(.*)$", line)
        if part:
            f.lines.append((int(part[1], 16), part[2], part[3].strip()))
        if symbol:
            f.relocations[f.lines[-1][0]] = symbol.split()[1]
    return functions


def callee(symbol):
    named = re.match(r"(?:\.text\.)?(.*)-0x4$", symbol)
    if not named:
        raise Fail(f"a call of {symbol}")
    return named[1]


def table_targets(f, k, tables):
    """Where the indirect jump that is the k-th instruction may go."""
    before = [f.relocations.get(address, "") for address, _, _ in f.lines[max(0, k - 12) : k]]
    named = next((s for s in reversed(before) if s.startswith(".rodata.") and ".cst" not in s), None)
    if not named:
        raise Fail(f"{f.name}: a jump at {f.lines[k][0]:x} with no table in sight")
    offset = re.compile(r"(.*?)([-+]0x[0-9a-f]+)$")
    section, base = offset.match(named)[1], int(offset.match(named)[2], 16) + 4
    parts = [offset.match(s) for s in f.relocations.values()]
    begins = sorted({int(p[2], 16) + 4 for p in parts if p and p[1] == section})
    end = next((x for x in begins if x > base), 4 * len(tables[section]))
    entries = [(to, at - (4 * x - base)) for x, (to, at) in enumerate(tables[section]) if base <= 4 * x < end]
    addresses = {address for address, _, _ in f.lines}
    if not entries or base % 4 or any(to != f.name or at not in addresses for to, at in entries):
        raise Fail(f"{f.name}: the table of the jump at {f.lines[k][0]:x} can't be read")
    return sorted({at for _, at in entries})


def leads_to(f, k, tables):
    """Of the k-th instruction: None where the next one follows, else (successors, function called)."""
    address, mnemonic, operands = f.lines[k]
    after = [f.lines[k + 1][0]] if k + 1 < len(f.lines) else []
    symbol = f.relocations.get(address)
    if mnemonic == "jmp" and operands.startswith("*"):
        return table_targets(f, k, tables), None
    if mnemonic == "jmp" and symbol:
        return [], callee(symbol)
    if CONDITIONAL.match(mnemonic):
        if symbol:
            raise Fail(f"{f.name}: a conditional jump out of it at {address:x}")
        target = [int(operands.split()[0], 16)]
        return (target if mnemonic == "jmp" else target + after), None
    if mnemonic == "call":
        named = symbol and callee(symbol) or re.search(r"<(.*?)>", operands)[1]
        return after, named
    if mnemonic in ("ret", "retq"):
        return [], None
    if mnemonic.startswith(REPEATING):
        raise Fail(f"{f.name}: {mnemonic} at {address:x}")
    return None


def find_blocks(f, tables):
    """Cuts the function into blocks, and drops padding."""
    ends = {f.lines[k][0]: found for k in range(len(f.lines)) if (found := leads_to(f, k, tables)) is not None}
    place = {address: k for k, (address, _, _) in enumerate(f.lines)}
    first = f.lines[0][0]
    starts = {first} | {s for successors, _ in ends.values() for s in successors}
    starts |= {f.lines[k + 1][0] for k, line in enumerate(f.lines[:-1]) if line[0] in ends}
    if not starts <= set(place):
        raise Fail(f"{f.name}: a jump into the middle of an instruction")
    order = sorted(starts)
    blocks = {}
    for start, end in zip(order, order[1:] + [None]):
        lines = f.lines[place[start] : place[end] if end is not None else len(f.lines)]
        successors, call = ends.get(lines[-1][0], (None if end is None else [end], None))
        blocks[start] = Block(start, lines, successors, call)
    reached, todo = set(), [first]
    while todo:
        b = todo.pop()
        if blocks[b].successors is None:
            raise Fail(f"{f.name} runs off its end")
        todo += [s for s in blocks[b].successors if s not in reached]
        reached.add(b)
    for b in blocks:
        if b not in reached and not all(mnemonic in PADDING for _, mnemonic, _ in blocks[b].instructions):
            raise Fail(f"{f.name}: nothing reaches the block at {b:x}")
    f.blocks = {b: blocks[b] for b in order if b in reached}
    f.starts, f.entry = list(f.blocks), first
    f.before = {b: [p for p in f.blocks if b in f.blocks[p].successors] for b in f.blocks}


def code_of(f):
    """A sum of all instructions, relocations and jumps: any change of the machine code changes it."""
    jumps = [(b, block.successors, block.call) for b, block in f.blocks.items()]
    return hashlib.sha256(repr((f.lines, sorted(f.relocations.items()), jumps)).encode()).hexdigest()[:16]


def functions(archives):
    """All functions of the archives by name. What two archives both have is another function in the second:
    NAME@ARCHIVE there."""
    found = {}
    for archive in archives:
        tables = jump_tables(archive)
        here = disassembled(archive)
        suffix = "@" + Path(archive).stem.removeprefix("libzompelgors").strip("_")
        renamed = {name: name + suffix if name in found else name for name in here}
        for name, f in here.items():
            find_blocks(f, tables)
            f.code = code_of(f)
            f.symbol = name
            f.name = renamed[name]
            for block in f.blocks.values():
                block.call = renamed.get(block.call, block.call)
            found[f.name] = f
    return found
