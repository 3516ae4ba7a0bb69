"""Reads libwospinzo.a through nm, readelf and objdump: its names, its sections, and each function's frame and calls."""
import re
import subprocess
from pathlib import Path

TOP = Path(__file__).resolve().parent.parent.parent
ARCHIVE = TOP / "target" / "staticlib" / "libwospinzo.a"
HEADER = TOP / "include" / "wospinzo.h"


def tool(*words):
    return subprocess.run(words, capture_output=True, text=True, check=True).stdout


def declared():
    """The entries that the header declares, in its order."""
    return re.findall(r"(?m)^uint(?:32|64)_t (wospinzo_\w+)\(", HEADER.read_text())


def symbols(archive=ARCHIVE):
    """(exported, imported): the global names that the archive defines, and those that it leaves to the host."""
    exported, imported = set(), set()
    for line in tool("nm", "--format=posix", str(archive)).splitlines():
        words = line.split()
        if len(words) >= 2 and words[1] in "TDBRVWC":
            exported.add(words[0])
        elif len(words) >= 2 and words[1] == "U":
            imported.add(words[0])
    return exported, imported


def sections(archive=ARCHIVE):
    """(name, flags, size) of each section: flags as readelf has them, W for one that is written."""
    found = []
    for line in tool("readelf", "--wide", "--section-headers", str(archive)).splitlines():
        m = re.match(r"\s*\[\s*\d+\]\s+(\S*)\s+(?:PROGBITS|NOBITS|RELA|STRTAB|SYMTAB|NOTE|LLVM_ADDRSIG|\S+)\s+[0-9a-f]{16} [0-9a-f]+ ([0-9a-f]+) \S+\s+([A-Za-z]*)\s", line)
        if m:
            found.append((m[1], m[3], int(m[2], 16)))
    return found


def function_of(symbol):
    """The function that a relocation means: a local one is named by its section."""
    return re.sub(r"^\.text\.", "", symbol)


def instructions(archive=ARCHIVE):
    """Each function's instructions: (word, operands, the symbol of its relocation or None)."""
    found, code = {}, []
    for line in tool("objdump", "--disassemble", "--reloc", "--demangle=none", "--no-show-raw-insn", "-M", "intel", str(archive)).splitlines():
        head = re.match(r"[0-9a-f]+ <(.+)>:$", line)
        relocation = re.match(r"\s+[0-9a-f]+: R_X86_64_\S+\s+(\S+?)(?:[-+]0x[0-9a-f]+)?$", line)
        step = re.match(r"\s+[0-9a-f]+:\s+(?:(?:bnd|notrack|data16|rex\.\w+|cs) )*(\S+)\s*(.*)$", line)
        if head:
            code = found.setdefault(head[1], [])
        elif relocation:
            code[-1] = code[-1][:2] + (relocation[1],)
        elif step:
            code.append((step[1], step[2].strip(), None))
    return found


class Function:
    """frame: the bytes that it takes on the stack, its pushes and what it subtracts from rsp. calls: the functions that it
    calls or jumps to, itself too. unnamed: the instructions by which it may reach a function that they do not name."""

    def __init__(self, name):
        self.name, self.frame, self.calls, self.unnamed = name, 0, [], []


def names_register(operands, register):
    """Whether operands name a register of 64 bits, or a part of it."""
    core = register[1:]
    parts = rf"{register}[dwb]?" if core[0].isdigit() else rf"[re]?{core}|{core.rstrip('x')}[lh]|{core}l"
    return bool(re.search(rf"\b(?:{parts})\b", operands))


def is_switch(code, at):
    """Whether a jump goes by a table of distances to the table itself, as a switch does: the distance is loaded, the table's
    place is added and the sum jumped to. Between the last two, moves and sums may stand that do not name the register."""
    jump, register, _ = code[at]
    if jump != "jmp" or not re.match(r"r\w+$", register):
        return False
    before = at - 1
    while before > 0 and code[before][0] in ("mov", "movabs", "movzx", "lea") and not names_register(code[before][1], register):
        before -= 1
    if before < 1:
        return False
    (load, from_table, _), (add, summands, _) = code[before - 1:before + 1]
    entry = re.match(r"(r\w+),DWORD PTR \[(r\w+)\+r\w+\*4(?:\+0x0)?\]$", from_table)
    return bool((load, add) == ("movsxd", "add") and entry and entry[1] == register and summands == f"{register},{entry[2]}")


def functions(archive=ARCHIVE):
    """Each function by name. A jump within a function is no call, but one to its first instruction counts as a call of it."""
    listing, found = instructions(archive), {}
    for name, code in listing.items():
        f = found[name] = Function(name)
        for at, (word, operands, symbol) in enumerate(code):
            place = re.match(r"[0-9a-f]+ <(.+?)(\+0x[0-9a-f]+)?>$", operands)
            leads_on = re.match(r"call|j|loop", word)
            if not leads_on and symbol and (symbol.startswith(".text") or symbol in listing):
                f.unnamed.append(f"{word} {operands} takes the address of {function_of(symbol)}")
            if word == "push":
                f.frame += 8
            elif word == "sub" and operands.startswith("rsp,"):
                f.frame += int(operands.split(",")[1], 0)
            elif leads_on and place and symbol:
                f.calls.append(function_of(symbol))
            elif leads_on and place:
                if word == "call" or place[1] != name or not place[2]:
                    f.calls.append(place[1])
            elif leads_on and not is_switch(code, at):
                f.unnamed.append(f"{word} {operands}")
    return found


def addresses_held(archive=ARCHIVE):
    """(section, symbol) of each address of code in data that is not in the table of a switch of that very function."""
    held, section = [], ""
    code = set(instructions(archive))
    for line in tool("readelf", "--wide", "--relocs", str(archive)).splitlines():
        head = re.match(r"Relocation section '\.rela(\S*)'", line)
        entry = re.match(r"[0-9a-f]{16}\s+[0-9a-f]{16}\s+R_X86_64_\S+\s+[0-9a-f]{16}\s+(\S+)", line)
        if head:
            section = head[1]
        elif entry and not section.startswith(".text") and (entry[1].startswith(".text") or entry[1] in code):
            if section != f".rodata.{function_of(entry[1])}":
                held.append((section, entry[1]))
    return held


def stack(found, start):
    """The chain of calls from a function that takes most stack, 8 bytes for each return address: (bytes, names). A name that
    the archive does not define ends a chain. For functions of which none calls itself, directly or through others."""
    below = [stack(found, callee) for callee in found[start].calls if callee in found]
    most, chain = max(((size + 8, chain) for size, chain in below), default=(0, ()))
    return most + found[start].frame, (start,) + chain
