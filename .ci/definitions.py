"""DEFINITIONS begins with the definitions that the promises lead to, and what WRONG_BODIES names is there."""

import re
from functools import cache
from pathlib import Path

TOP = [Path("crates/explorer_cli/src", name) for name in ("top_call.rt", "laws.rt", "worker_laws.rt", "crew_laws.rt")]


@cache
def text_of(file):
    return file.read_text(encoding="utf-8")


@cache
def imports(file):
    """What a file imports: the module and the name there of each name, and the modules that it names whole."""
    names, modules = {}, {}
    line = r"^(?:ghost )?use Rattle\.([\w.]+?)(?:\.\{(.*)\}| as (\S+?));?$"
    for module, listed, whole in re.findall(line, text_of(file), re.M):
        if whole:
            modules[whole] = module
        for one in filter(None, listed.split(", ")):
            name, _, here = one.partition(" as ")
            names[here or name] = module, name
    return names, modules


@cache
def stated(file):
    """The text of each definition in a file of specs; and for each name the definition that has it, its own or its type's."""
    lines, homes, name, record, mutual = {}, {}, None, False, False
    for line in text_of(file).splitlines():
        if not line or line.lstrip().startswith("--") or line.startswith(("use ", "infix")):
            continue
        if line[0] != " ":
            mutual, record = line.endswith("mutual"), line.startswith("pub record ")
        begun = re.match(r"(?:  )?(?:abbrev |unfoldable )?pub (?:record |data )?(\S+)", line)
        built = re.match(r" +(\S+) : ", line)
        if begun and (line[0] != " " or mutual):
            name = begun[1]
            homes[name] = name
        elif built and not record:
            homes.setdefault(built[1], name)
        lines.setdefault(name, []).append(line)
    return {name: "\n".join(lines[name]) for name in lines}, homes


def file_below(crate, folder, path, ending):
    """The file of a module below a folder of its crate; what it declares is named behind it."""
    names = path.split(".")
    for end in range(len(names), 0, -1):
        file = Path("crates", crate, folder, *names[:end]).with_suffix(ending)
        if file.is_file():
            return file
    return None


def spec_of(module):
    """The file of specs that is a module; none for one of the kit, or one that the kit makes of a type in code."""
    crate, _, path = module.partition(".specs.")
    return file_below(crate, "specs", path, ".antt") if path and not path.startswith("declared.") else None


def type_of(module):
    crate, _, path = module.partition(".specs.declared.")
    return file_below(crate, "src", path, ".rt") if path else None


def clauses_of(file):
    """What the contracts in a file of code say."""
    within, found = False, []
    for line in text_of(file).splitlines():
        within = line.lstrip().startswith(("ensures ", "requires ")) or within and not line.startswith("{")
        if within and not line.lstrip().startswith("//"):
            found.append(line)
    return "\n".join(found)


def cited(text, file):
    """The module and the name of each definition that a text in a file cites; no module where it is one of the file."""
    names, modules = imports(file)
    homes = stated(file)[1] if file.suffix == ".antt" else {}
    for front, dot, name in re.findall(r"([^\s(){}\[\],;.]*)(\.?)([^\s(){}\[\],;.]*)", text):
        if front in modules and dot:
            yield modules[front], name
        for one in (front, f"◌{front}◌"):
            if one in names:
                yield names[one]
            elif one in homes:
                yield None, homes[one]


def reached():
    """Where the clauses of the top call and of the laws above it lead: the definitions, each with its file; the files in which
    the types are declared; and all files of specs that are imported on the way."""
    led, types, todo = set(), set(), []

    def follow(text, file):
        for module, name in cited(text, file):
            home = spec_of(module) if module else file
            if module:
                types.add(type_of(module))
            one = home and (home, stated(home)[1].get(name, name))
            if one and one not in led:
                led.add(one)
                todo.append(one)

    for file in TOP:
        follow(clauses_of(file), file)
    while todo:
        file, name = todo.pop()
        follow(stated(file)[0].get(name, ""), file)
    files = {file for file, _ in led}
    todo = list(files)
    while todo:
        names, modules = imports(todo.pop())
        modules = {*modules.values(), *(module for module, _ in names.values())}
        for file in {spec_of(module) for module in modules} - files - {None}:
            files.add(file)
            todo.append(file)
    return led, types - {None}, files


def definitions():
    """DEFINITIONS begins with the files that the promises lead to, and tells of each name whether one leads to it."""
    led, types, files = reached()
    listed, declared, others, wrong, table, file = [], set(), set(), [], None, None
    for line in text_of(Path("docs/DEFINITIONS.md")).splitlines():
        row = re.match(r"\| (.*?) \| (.*) \|$", line)
        if not line.startswith("|"):
            table, file = None, None
        elif not row:
            continue
        elif not table:
            table = row[1]
        elif table == "Rule":
            wrong += [name for name in re.findall(r"`(\S+)`", row[2]) if name not in {name for _, name in led}]
        elif table == "Types":
            declared.add(Path("crates", row[2].strip("`")))
        elif table == "Files":
            folder, *names = re.findall(r"`(\S+)`", row[1])
            others |= {Path("crates", folder, name + ".antt") for name in names}
        elif table == "Name" and row[1].startswith("**"):
            file = Path("crates", row[1].strip("*`"))
            listed.append(file)
        elif table == "Name":
            homes = [file] if file else [Path("crates", one) for one in re.findall(r"`(\S+\.antt)`", row[2])]
            for name, mark in re.findall(r"`(\S+)`( °)?", row[1]):
                both = name, f"◌{name}◌"
                found = [(one, stated(one)[1][x]) for one in homes if one.is_file() for x in both if x in stated(one)[1]]
                if not found or file and (mark == "") != (found[0] in led):
                    wrong.append(f"{name} of {file or homes}")
    missing, more = sorted(map(str, files - set(listed))), sorted(map(str, set(listed) - files))
    yield f"DEFINITIONS has each file that the promises lead to {missing or ''}".strip(), not missing
    yield f"DEFINITIONS has no other one in its first part {more or ''}".strip(), not more and len(listed) == len(set(listed))
    gone = sorted(str(one) for one in others if not one.is_file() or one in files)
    yield f"no promise leads to the files in the second part of DEFINITIONS {gone or ''}".strip(), bool(others) and not gone
    odd = sorted(map(str, declared ^ types))
    yield f"DEFINITIONS has just the files that declare the types to which the promises lead {odd or ''}".strip(), not odd
    yield f"each name in DEFINITIONS stands in its file, marked where no promise leads to it {wrong or ''}".strip(), not wrong


def wrong_bodies():
    """The edits that WRONG_BODIES names are there."""
    named = re.findall(r"`(\w+)/(\w+\.edit)`", text_of(Path("docs/WRONG_BODIES.md")))
    gone = [f"{crate}/{edit}" for crate, edit in named if not [*Path("crates", crate).glob(f"*/{edit}")]]
    yield f"the edits that WRONG_BODIES names are there {gone or ''}".strip(), bool(named) and not gone
