"""Edits of a crate that one check tries, and what the check says of each.

A function's proof rests on the contracts alone of those that it calls, so a check that is asked for several functions
judges each as one does that is asked for it alone. Edits are tried together where each changes functions of its own,
none of which names another, and whose modules no proof names but their own.
"""
import dataclasses
import re

import edited

# One check goes through its functions one after the other, so more would keep other processors idle.
MOST = 12
# A line that says where a fault stands, one that says so of a function's own proof, which may be a hole, and one that
# says what became of a function.
PLACE = re.compile(r"(?:note: )?(?:\./)?(\S+?):(\d+):\d+: ")
OF_A_PROOF = re.compile(r"(?:\./)?proofs/\S*/Proof\.antt:")
VERDICT = re.compile(r"fn (\w+)::(\S+): (.*)")
# What is said of a function that is well, or of one that isn't tried.
WELL = ("proved", "no holes", "depends on a hole")
REFUSED = ("not proved", "no proof")
LAST = "logic=not-proved"


def folder_of(function):
    return f"proofs/{function.replace('::', '/')}/"


def is_within(name, functions):
    """Whether a function that a check names is one of these, or a closure in one."""
    return any(f"{name.replace('fn::', '')}::".startswith(f"{it}::") for it in functions)


def is_refused(crate, functions, said):
    """Whether a check refused one of these functions, or a closure in it, and nothing else."""
    told = [it.groups()[1:] for it in map(VERDICT.match, said.split("\n")) if it and it[1] == crate]
    is_well = all(is_within(name, functions) or it.startswith(WELL) for name, it in told)
    return is_well and any(is_within(name, functions) and it.startswith(REFUSED) for name, it in told)


@dataclasses.dataclass
class Group:
    """Edits that are tried together, by name with the functions that each changes, and the texts of all their files."""

    functions: dict
    texts: dict

    def all_functions(self):
        return [it for functions in self.functions.values() for it in functions]

    def owner(self, name):
        """The edit to one of whose functions this one belongs, or none."""
        return next((edit for edit, functions in self.functions.items() if is_within(name, functions)), None)

    def owner_of_place(self, path, line):
        """The edit to one of whose functions a line of a file belongs, or none."""
        for edit, functions in self.functions.items():
            if any(path.startswith(folder_of(it)) for it in functions):
                return edit
        if path not in self.texts:
            return None
        lines = self.texts[path].split("\n")
        # The place of a whole function is its first attribute.
        while line < len(lines) and lines[line - 1].lstrip().startswith("#["):
            line += 1
        name = edited.function_at("\n".join(lines[:line]), sum(len(it) + 1 for it in lines[: line - 1]))
        return self.owner(edited.path_of(path, name)) if name else None

    def parts(self, crate, said):
        """What a check said of each edit, as a check of this edit alone says it; nothing where that isn't certain."""
        parts = {it: [] for it in self.functions}
        for line in said.split("\n"):
            if verdict := VERDICT.match(line):
                owner = self.owner(verdict[2]) if verdict[1] == crate else None
                if not owner and not verdict[3].startswith(WELL):
                    return {}
            elif place := PLACE.match(line):
                owner = self.owner_of_place(place[1], int(place[2]))
                if not owner and not OF_A_PROOF.match(line):
                    return {}
            else:
                continue
            if owner:
                parts[owner].append(line)
        found = {it: "\n".join([*lines, LAST]) for it, lines in parts.items()}
        return {it: text for it, text in found.items() if is_refused(crate, self.functions[it], text)}


def is_free(function, proofs):
    """Whether no proof but the function's own names its modules."""
    named = f".proofs.{function.replace('::', '.')}."
    return not any(named in text for file, text in proofs.items() if not file.startswith(folder_of(function)))


def are_apart(functions, others, words):
    """Whether none of some functions is one of others, and none names another. The words of their bodies are given."""
    pairs = [pair for it in functions for other in others for pair in ((it, other), (other, it))]
    return all(one != other and one.rpartition("::")[2] not in words[other] for one, other in pairs)


def groups(crate, edits):
    """Parts edits of a crate, given by their files, into those that can be tried together; all others stay out."""
    words = {it: {*re.findall(r"\w+", body)} for it, body in edited.bodies_of(crate).items()}
    proofs = {str(it.relative_to(crate)): it.read_text() for it in crate.glob("proofs/**/*.antt")}
    found = []
    for edit in edits:
        functions = edited.functions_of(edit, crate)
        if not functions or not all(is_free(it, proofs) for it in functions):
            continue
        has_room = lambda it: len(it.functions) < MOST and are_apart(functions, it.all_functions(), words)
        texts_in = lambda it: edited.applied(edit, crate, it.texts) if has_room(it) else None
        group = next((it for it in found if texts_in(it) is not None), None)
        if not group:
            group = Group({}, {})
            found.append(group)
        group.texts, group.functions[edit.name] = edited.applied(edit, crate, group.texts), functions
    return [it for it in found if len(it.functions) > 1]
