"""What an edit changes: the texts of files, and the functions in which these stand."""
import pathlib
import re

LINE = re.compile(r"^(file|old|new): ?(.*)", re.MULTILINE)
# The heads of items, as the toolchain lays files out: a method stands four columns in.
FUNCTION = re.compile(r"^(|    )(?:pub(?:\(.*?\))? )?(?:const |unsafe )*fn (\w+)", re.MULTILINE)
# Says of the function below it that it is proved together with others, which call it.
CYCLE = re.compile(r"^ *#\[cycle\(\w+\)\]$", re.MULTILINE)
ITEM = re.compile(r"(?:pub(?:\(.*?\))? )?(?:unsafe )?(impl|struct|enum|const|static|type|trait|mod|use|union)\b(.*)")


def without_parameters(text):
    """A head without what stands in angle brackets."""
    kept, depth = [], 0
    for it in text.replace("->", ""):
        depth += (it == "<") - (it == ">")
        if not depth and it != ">":
            kept.append(it)
    return "".join(kept)


def name_of_impl(head):
    """How a check names an impl: by its type, or the type's name and the trait's. None where that has further words."""
    of, _, target = without_parameters(head.partition("{")[0]).partition(" for ")
    words = [it.partition(" where")[0].strip().rpartition("::")[2] for it in (target, of)]
    # Types of the language have a capital there, too.
    words = [it[:1].upper() + it[1:] for it in words]
    has_words = target and "<" in head.partition(" for ")[0].removeprefix(parameters_of(head))
    return None if has_words or not all(re.fullmatch(r"\w*", it) for it in words) else "".join(words)


def parameters_of(head):
    """An impl's own parameters, with their brackets, at the front of its head."""
    depth = 0
    for at, it in enumerate(head):
        depth += (it == "<") - (it == ">" and head[at - 1] != "-")
        if not depth:
            return head[: at + 1] if it == ">" else ""
    return ""


def function_at(text, place):
    """The function in whose text this place of a file stands, by its path in the file's module, or none."""
    within, found = None, None
    lines = text[: text.find("\n", place)].split("\n")
    for number, line in enumerate(lines):
        if head := ITEM.match(line):
            within, found = None, None
            if head[1] == "impl":
                rest = " ".join(it.strip() for it in [head[2], *lines[number + 1 : number + 9]])
                within = name_of_impl(rest)
        elif head := FUNCTION.match(line):
            if not head[1]:
                within, found = None, head[2]
            elif within:
                found = f"{within}::{head[2]}"
            elif found is None or "::" in found:
                found = None
    return found


def module_of(path):
    """The module that a file of src/ is, by its path below the crate."""
    parts = pathlib.PurePath(path).with_suffix("").parts[1:]
    return "::".join(parts[:-1] if parts[-1] in ("lib", "main", "mod") else parts)


def path_of(file, name):
    """A function's path below the crate."""
    return "::".join(it for it in (module_of(file), name) if it)


def bodies_in(file, text):
    """The text of each function of a file of src/ behind its name, by the function's path below the crate."""
    heads = [*FUNCTION.finditer(text)]
    ends = [*(it.start() for it in heads[1:]), len(text)]
    found = [(function_at(text, it.end()), text[it.end() : end]) for it, end in zip(heads, ends)]
    return {path_of(file, name): body for name, body in found if name}


def bodies_of(crate):
    """The text of each function of a crate, by its path below the crate."""
    files = sorted(crate.glob("src/**/*.rt"))
    return {path: body for it in files for path, body in bodies_in(it.relative_to(crate), it.read_text()).items()}


def in_cycles(crate):
    """The functions of a crate that are proved together with others, by their paths below the crate."""
    found = set()
    for it in sorted(crate.glob("src/**/*.rt")):
        text = it.read_text()
        heads = [FUNCTION.search(text, at.end()) for at in CYCLE.finditer(text)]
        names = [function_at(text, head.end()) for head in heads if head]
        found.update(path_of(it.relative_to(crate), name) for name in names if name)
    return found


def pairs_of(edit):
    """What an edit changes: the file, the old text and the new one, of each place."""
    path, old = "", ""
    for kind, words in LINE.findall(edit.read_text(errors="replace")):
        if kind == "file":
            path = words
        elif kind == "old":
            old = words
        else:
            yield path, old, words


def functions_of(edit, crate):
    """The functions that an edit changes, by their paths below the crate; none where it changes anything else."""
    texts, found = {}, []
    for path, old, new in pairs_of(edit):
        if not path.startswith("src/"):
            return []
        text = texts.get(path) or (crate / path).read_text()
        place = text.find(old)
        name = function_at(text, place + len(old) - len(old.lstrip()))
        if place < 0 or not name:
            return []
        found.append(path_of(path, name))
        texts[path] = text.replace(old, new)
    return [*dict.fromkeys(found)]


def applied(edit, crate, texts):
    """These texts of a crate's files with an edit's changes, or none where an old text doesn't stand once in them."""
    texts = {**texts}
    for path, old, new in pairs_of(edit):
        text = texts.get(path) or (crate / path).read_text()
        if text.count(old) != 1:
            return None
        texts[path] = text.replace(old, new)
    return texts
