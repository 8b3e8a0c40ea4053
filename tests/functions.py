"""Which functions of a crate an edit changes, by the names that a check gives them. The sources stand in the layout of `rt fmt`."""
import difflib
import os
import re

FUNCTION = re.compile(r"^( *)(?:pub(?:\([^)]*\))? )?(?:const )?(?:unsafe )?fn (\w+)")
BLOCK = re.compile(r"^(?:pub(?:\([^)]*\))? )?(?:unsafe )?(impl|trait)\b(.*)")
CONSTANT = re.compile(r"^ *(?:pub(?:\([^)]*\))? )?const (\w+):")
CALL = re.compile(r"\b(\w+)\(")


class Function:
    """A function: its module, the name of the block it stands in, what a trait is of there (the parameters in an impl's name) and whether the block is
    of a type alone, its own name, and whose names it calls."""

    def __init__(self, module, block, of, name, text, is_of_type):
        self.module, self.block, self.of, self.own, self.is_of_type = module, block, of, name, is_of_type
        self.name = "::".join(it for it in (module, block, name) if it)
        self.text, self.calls = text, set(CALL.findall(text)) - {name}

    def is_named(self, said):
        """Whether a check's name is this function's, or that of a closure in it. A method has the path of its type, wherever its impl stands; an
        impl's name may go on with the trait's parameters."""
        crate = self.module.partition("::")[0]
        more = "" if self.is_of_type else r"\w*"
        path = rf"{crate}::(?:\w+::)*(?:fn::)?{re.escape(self.block)}{more}" if self.block else rf"{self.module}(?:::fn)?"
        return bool(re.fullmatch(rf"{path}::{self.own}(?:::.*)?", said))

    @property
    def path(self):
        """How `--only` names it: the end of its name, or its path below the crate."""
        return f"{self.block}{self.of}::{self.own}" if self.block else self.name.partition("::")[2]


def module_of(crate, path):
    """The module of a file src/a/b.rt."""
    parts = path[len("src/"):-len(".rt")].split("/")
    return "::".join([crate, *([] if parts in (["lib"], ["main"]) else parts)])


def without_parameters(header):
    """A header without what stands in angle brackets."""
    while (shorter := re.sub(r"<[^<>]*>", "", header.replace("->", ""))) != header:
        header = shorter
    return header


def block_name(kind, header):
    """The name of an impl's or a trait's functions: the type and the trait, without parameters."""
    header = without_parameters(header.partition("{")[0].partition(" where")[0]).strip()
    if kind == "trait":
        return re.match(r"\w+", header)[0]
    trait, _, of = header.rpartition(" for ")
    last = lambda path: re.findall(r"\w+", path.rpartition("::")[2])[-1] if re.findall(r"\w+", path) else ""
    return last(of) + (last(trait) if trait else "")


def trait_parameters(header):
    """What stands between the angle brackets of an impl's trait, as an impl's name has it: the last name of each path."""
    trait = header.rpartition(" for ")[0]
    inside = re.match(r"[^<]*(?:<[^<>]*> )?[\w:]*<(.*)>$", trait.strip())
    return "".join(path.rpartition("::")[2] for path in re.findall(r"[\w:]+", inside[1])) if inside else ""


def end_of(lines, start, indent):
    """The last line of an item that begins here: of its body, or of its clauses where it has none."""
    has_body = False
    for number in range(start, len(lines)):
        line = lines[number]
        if line.lstrip().startswith("//"):
            continue
        if not has_body and (line.endswith((";", "{}")) or number == start and line.endswith("}")):
            return number
        if has_body and line == f"{indent}}}":
            return number
        has_body = has_body or line.endswith("{")
    return len(lines) - 1


def functions_of(crate, path, text):
    """Each function of a file with its first and last line; those of tests and of functions within functions aren't told apart."""
    lines, block, of, block_end, is_of_type, found = text.split("\n"), "", "", -1, False, []
    number = 0
    while number < len(lines):
        header = BLOCK.match(lines[number])
        if header:
            whole = " ".join(lines[number:end_of_header(lines, number) + 1])
            of = trait_parameters(BLOCK.match(whole)[2])
            block, block_end = block_name(header[1], BLOCK.match(whole)[2]), end_of(lines, number, "")
            is_of_type = header[1] == "impl" and " for " not in whole
        function = FUNCTION.match(lines[number])
        if function:
            end = end_of(lines, number, function[1])
            inside = block if function[1] and number <= block_end else ""
            found.append((number, end, Function(module_of(crate, path), inside, of if inside else "", function[2], "\n".join(lines[number:end + 1]), is_of_type)))
            number = end
        number += 1
    return found


def end_of_header(lines, start):
    for number in range(start, len(lines)):
        if "{" in lines[number]:
            return number
    return start


def lines_of(folder, path):
    with open(os.path.join(folder, path), encoding="utf-8") as file:
        return file.read().split("\n")


def changes_of(folder, path, text):
    """What an edit changes in a file: of each run of lines that it replaces the first and the last, and the lines in their place."""
    old, new = lines_of(folder, path), text.split("\n")
    runs = difflib.SequenceMatcher(None, old, new, autojunk=False).get_opcodes()
    return [(first, end - 1, new[start:last]) for kind, first, end, start, last in runs if kind != "equal"]


def with_changes(folder, path, changes):
    """The text of a file with these changes, which are of different lines."""
    lines = lines_of(folder, path)
    for first, last, new in sorted(changes, key=lambda it: it[0], reverse=True):
        lines[first:last + 1] = new
    return "\n".join(lines)


def sources_of(folder):
    """The paths of a crate's sources, below its folder."""
    return sorted(os.path.relpath(f"{at}/{name}", folder) for at, _, names in os.walk(f"{folder}/src") for name in names if name.endswith(".rt"))


def readers_of(folder, crate, name):
    """The functions of a crate in whose text a constant is named."""
    found = [it for path in sources_of(folder) for it in functions_of(crate, path, "\n".join(lines_of(folder, path)))]
    return [it for _, _, it in found if re.search(rf"\b{name}\b", it.text)]


def functions_changed(folder, crate, changes):
    """The functions whose text an edit changes, or that read a constant which it changes; none where it changes anything else."""
    found = {}
    for path, changed in changes.items():
        if path.startswith("proofs/"):
            continue  # names in a function's proof file, which follow its text
        if not path.startswith("src/"):
            return None
        lines = lines_of(folder, path)
        functions = functions_of(crate, path, "\n".join(lines))
        for first, last, _ in changed:
            constant = CONSTANT.match(lines[first]) if first == last else None
            inside = [it for start, end, it in functions if start <= first and last <= end]
            inside = readers_of(folder, crate, constant[1]) if constant and not inside else inside
            if not inside:
                return None
            found.update({it.name: it for it in inside})
    return list(found.values()) or None


def callees_of(folder, crate):
    """Of each function of a crate by its name, which functions of the crate it calls, as far as the names in its text show; and which ones it leads to."""
    found = {it.name: it for path in sources_of(folder) for _, _, it in functions_of(crate, path, "\n".join(lines_of(folder, path)))}
    named = {}
    for it in found.values():
        named.setdefault(it.own, set()).add(it.name)
    direct = {name: set().union(*(named.get(call, ()) for call in it.calls)) for name, it in found.items()}
    return direct, {name: led_to(name, direct) for name in direct}


def led_to(name, direct):
    """What a function calls, and what that calls, and so on."""
    found, left = set(), [name]
    while left:
        more = direct[left.pop()] - found
        found |= more
        left += more
    return found
