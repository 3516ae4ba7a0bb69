"""Graphs of calls, {function: the functions that it calls}: of the sources, and what is looked for in any of them."""
import functools
import json
import re
import subprocess
import tempfile
from pathlib import Path


def cycle(graph):
    """The functions of one cycle of calls, in their order, or None: a function that calls itself is a cycle of one."""
    finished = set()

    def search(name, path):
        if name in path:
            return path[path.index(name):]
        if name not in finished:
            for callee in sorted(graph.get(name, ())):
                found = search(callee, path + [name])
                if found:
                    return found
            finished.add(name)
        return None

    return next((found for found in (search(name, []) for name in sorted(graph)) if found), None)


def deepest(graph, start):
    """The longest chain of calls from a function, the first by name of several, in a graph without a cycle. A function that
    the graph does not define ends a chain and is no part of it."""

    @functools.cache
    def chain(name):
        below = (chain(callee) for callee in sorted(graph[name]) if callee in graph)
        return (name,) + max(below, key=len, default=())

    return chain(start)


def reached(graph, start):
    """The functions that a function calls, directly or through others."""
    found, ahead = set(), list(graph[start])
    while ahead:
        name = ahead.pop()
        if name not in found:
            found.add(name)
            ahead += graph.get(name, ())
    return found


def listed(root):
    """The crates of crates.txt: (name, line, the libraries that it names) of each."""
    for line in (root / "crates.txt").read_text().splitlines():
        head, colon, needs = line.partition("#")[0].partition(":")
        if colon:
            yield head.split()[0], line, needs.split()


def lines_of(root, crates):
    """The lines of crates.txt for these crates."""
    return "".join(f"{line}\n" for name, line, needs in listed(root) if name in crates)


def crates_held(root, names):
    """The crates of the repository that these ones hold, by crates.txt: themselves and what they need."""
    needs, held, ahead = {name: needs for name, line, needs in listed(root)}, set(), list(names)
    while ahead:
        name = ahead.pop()
        if name in needs and name not in held:
            held.add(name)
            ahead += needs[name]
    return held


def spelled(name):
    """A type or a trait as the kit spells it in the name of an impl: without its lifetimes, each word with a capital."""
    words = re.findall(r"\w+", re.sub(r"'\w+", "", name))
    return "".join(word[0].upper() + word[1:] for word in words) or "Unit"


def owner_of(line):
    """The type whose functions a block holds that begins with this line, or the impl as the kit names it: the type and then the
    trait; None for another line."""
    block = re.match(r"impl(?:<[^>]*>)? (.+?)(?: for (.+?))?(?: where .*)? \{", line)
    if not block:
        return None
    return spelled(block[1].partition("<")[0]) if block[2] is None else spelled(block[2]) + spelled(block[1])


def functions_written(root, crate):
    """The functions of a crate by the text of its sources. Those that a trait only declares are left out."""
    found = set()
    for file in sorted((root / "crates" / crate / "src").glob("**/*.rt")):
        inside = [crate] + [part for part in file.relative_to(root / "crates" / crate / "src").with_suffix("").parts if part not in ("lib", "main")]
        owner = []
        for line in file.read_text().splitlines():
            block = owner_of(line)
            function = re.match(r"\s*(?:pub )?(?:extern \"C\" )?fn (\w+)", line)
            if block:
                owner = [block]
            elif re.match(r"(pub )?trait ", line):
                owner = None
            elif line.startswith("}"):
                owner = []
            elif function and owner is not None:
                found.add("::".join(inside + owner + [function[1]]))
    return found


def impls_derived(root, crate):
    """The impls that derives write, as the kit names them."""
    found, ahead = set(), []
    for file in sorted((root / "crates" / crate / "src").glob("**/*.rt")):
        for line in file.read_text().splitlines():
            derive, of = re.match(r"\s*#\[derive\((.*)\)\]", line), re.match(r"\s*(?:pub )?(?:struct|enum) (\w+)", line)
            if derive:
                ahead = [word.strip() for word in derive[1].split(",")]
            elif of:
                found |= {of[1] + word for word in ahead}
                ahead = []
    return found


def is_part(name, derived):
    """Whether a function is one that nobody wrote by itself: a closure, which is a part of the function in which it stands, what
    hands a function on by its name, or a function of a derive."""
    return "+" in name or "::fn::" in name or bool(derived & set(name.split("::")))


def impls_written(root, crate):
    """The impls of traits by the text of a crate's sources. What one does not write it takes over from its trait."""
    return {owner_of(line) for file in sorted((root / "crates" / crate / "src").glob("**/*.rt"))
            for line in file.read_text().splitlines() if " for " in line and owner_of(line)}


@functools.cache
def kit():
    """The folder of the kit."""
    return Path(subprocess.run(["rt", "doc"], capture_output=True, text=True, check=True).stdout.strip()).parent


def is_of_kit(name):
    """Whether a function is of a library of the kit."""
    return (kit() / "rlibs" / f"{name.split('::')[0]}.rlib").exists()


@functools.cache
def lowered(file):
    """The functions of a library as it was built, by the file of those that are linked: ({function: its body}, {(impl, number of a
    method): the function that it is}, the functions that need no impl to be known)."""
    bodies, methods, whole = {}, {}, set()
    for name, function in json.loads(file.read_text()):
        bodies[name] = function["body"]
        if not function["generics"]["bounds"] and not name.endswith("+decl"):
            whole.add(name)
        of = (function["generics"]["method_of"] or {}).get("Impl")
        if of:
            methods[tuple(of)] = name
    return bodies, methods, whole


def callees(body):
    """What a function of a library calls: for each call a function, or a method of an impl, with the impls that it is given; None for
    a call that names none, and for each function that is used as a value."""
    found = []

    def read(part):
        if isinstance(part, dict):
            for word, inside in part.items():
                if word == "Call":
                    kind, callee = next(iter(inside[0].items()))
                    if kind in ("Fn", "Method"):
                        found.append(callee)
                        inside = inside[1:]
                    elif kind != "Prim":
                        found.append(None)
                elif word in ("CallV", "Fn", "Method", "VtMethod", "Impl"):
                    found.append(None)
                read(inside)
        elif isinstance(part, list):
            for inside in part:
                read(inside)

    read(body)
    return found


def given(impl, impls):
    """An impl as a function names it, where it has been given these; None for one that is not known."""
    if "Given" in impl:
        return impls[impl["Given"]] if impl["Given"] < len(impls) else None
    name, types, below = impl["Impl"]
    return {"Impl": [name, [], [given(it, impls) for it in below]]}


def instance(name, impls):
    """The name of a function where it has been given these impls."""
    shown = ", ".join(instance(it["Impl"][0], it["Impl"][2]) if it else "_" for it in impls)
    return f"{name}<{shown}>" if shown else name


def base(name):
    """The name of a function without the impls that it has been given."""
    return name.partition("<")[0]


def compiled(name):
    """The name of a function by its name in a compiled file, where the types and impls that it was made for stand behind it."""
    return name.partition("::<")[0]


def based(graph):
    """The same graph with the functions' own names."""
    merged = {}
    for name, found in graph.items():
        merged.setdefault(base(name), set()).update(map(base, found))
    return merged


def instances(starts, file_of):
    """The calls of functions of libraries and of all that they reach, each with the impls that it is given, so that a call of a
    method through a bound has the name of that method: (graph, how many calls name no function and how many functions are used
    as values). A method of an impl that is not known is left to whoever knows it."""
    graph, others, seen, ahead = {}, 0, set(), [(name, []) for name in starts]
    while ahead:
        name, impls = ahead.pop()
        here = instance(name, impls)
        if here in seen:
            continue
        seen.add(here)
        reached = graph.setdefault(here, set())
        for callee in callees(lowered(file_of(name))[0][name]):
            if callee is None:
                others += 1
                continue
            passed = [given(it, impls) for it in callee[-1]["dicts"]]
            target = callee[0]
            if len(callee) == 3:
                known = given(callee[0], impls)
                if known is None:
                    continue
                impl, types, below = known["Impl"]
                target, passed = lowered(file_of(impl))[1][impl, callee[1]], below + passed
            reached.add(instance(target, passed))
            ahead.append((target, passed))
    return graph, others


def read_text(root, crate):
    """The same of a crate that is not built as a library, by the texts that the check makes of its functions. Nothing is proved."""
    graph, others = {}, {}
    with tempfile.TemporaryDirectory() as folder:
        done = subprocess.run(["rt", "check", "--generated", folder], cwd=root / "crates" / crate, capture_output=True, text=True)
        if not re.search(r"(?m)^generated=[1-9]\d*$", done.stdout):
            raise SystemExit(f"calls: rt check --generated failed in crates/{crate}\n{(done.stdout + done.stderr)[-2000:]}\n0 passed, 1 failed")
        proofs = Path(folder) / f"Rattle-{crate}-proofs"
        for code in sorted(proofs.glob("**/Code/**/*.antt")):
            # Of a function FUNCTION/Code/Mir.antt and FUNCTION/Lts.antt, of some that call one another +CYCLE/Code/+FUNCTION.antt and
            # +CYCLE/Lts-FUNCTION.antt. The first has the calls by names of its own, the second the full names.
            above, _, below = code.relative_to(proofs).with_suffix("").as_posix().partition("/Code/")
            function = above if below == "Mir" else below.lstrip("+")
            name = "::".join([crate] + function.split("/"))
            text = code.read_text()
            text = text[text.index("\nabbrev "):]
            graph[name] = set(re.findall(r'Syntax\.fn₀?\s+"([^"]+)"', (proofs / above / ("Lts.antt" if below == "Mir" else f"Lts-{function}.antt")).read_text()))
            named = re.findall(r"Syntax\.call\s+\(?([^\s()]+)\.name(?![\w-])", text)
            mentions = re.findall(r"(?:Symbol|Key)'*\d*\.(?:name|symbol)(?![\w-])", text)
            words = re.findall(r"Syntax\.(?:call|call_v|fn|fn₀|fn_addr|vtable|method|forked|awaited)(?![\w-])", text)
            others[name] = len(words) - len(named) + len(mentions) - len(named) + abs(len(set(named)) - len(graph[name]))
            # The methods of an impl that a call is given are its own to call.
            impls = re.findall(r'Syntax\.impl\s+((?:\(List\.◌∷◌\s+"[^"]+"\s+)+)List\.\[\]', text)
            others[name] += len(re.findall(r"Syntax\.impl(?![\w-])", text)) - len(impls)
            graph[name] |= {method for methods in impls for method in re.findall(r'"([^"]+)"', methods)}
    return graph, sum(others.values())


def sources(root, crate):
    """The calls of a crate and of what it needs, as the kit's front end reads the sources, where each call has the full name
    of the function called: (graph, how many calls name no function and how many functions are used as values, in all). Of the
    repository's libraries it has every function, of the kit's those that are reached."""
    graph, others = read_text(root, crate)
    below = crates_held(root, [crate]) - {crate}

    def file_of(name):
        library = name.split("::")[0]
        folder = root / "crates" / library / "out" / "rlib" if library in below else kit() / "rlibs"
        return folder / f"{library}.rlib" / "toolchain" / "mir.json"

    starts = {name for library in below for name in lowered(file_of(library))[2]} | {name for found in graph.values() for name in found}
    found = instances(sorted(starts - set(graph)), file_of)
    return {**found[0], **graph}, found[1] + others
