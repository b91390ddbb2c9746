"""The words that clauses cite, and where docs/definitions/ tells each of them: in a paragraph of a list, which begins
with an anchor that other pages link to."""
import collections
import re

from checks import ROOT

PAGES = ROOT / "docs" / "definitions"
# A word that a source takes from definitions, where it isn't a type of the code.
IMPORT = re.compile(r"^\s*ghost use Rattle\.((?:def|xg)_\w+)\.specs\.(?!declared\.)[\w.]+\.\{([^}]*)\};", re.M)
# A whole file of definitions that has a name in a source.
ALIAS = re.compile(r"^\s*ghost use Rattle\.((?:def|xg)_\w+)\.specs\.(?!declared\.)\w+ as (\w+);", re.M)
CALL = re.compile(r"^```rust\n(.*?)^```$", re.M | re.S)
CLAUSE = re.compile(r"^\s+(?:requires|ensures)\b.*?(?=^\s+(?:requires|ensures)\b|\Z)", re.M | re.S)
FENCE = re.compile(r"^```.*?^```$", re.M | re.S)
ANCHOR = re.compile(r'<a id="([\w-]+)"></a>')
# The line with which a paragraph of a list begins.
FRONT = re.compile(rf"^- {ANCHOR.pattern}\n  ", re.M)
CODE = re.compile(r"`([^`]*)`")

# Where a word is defined, and by which name.
Word = collections.namedtuple("Word", "crate name")
# A paragraph of a list: its page, its anchor, the crates of its section, and what it says.
Entry = collections.namedtuple("Entry", "page anchor crates text")


def anchor_of(heading):
    """The name by which a heading can be linked to."""
    return re.sub(r"[^\w -]", "", heading).lower().replace(" ", "-")


def imported_words(crate):
    """What the sources of a crate take from definitions, by the names that its clauses have. A file of definitions with
    a name of its own stands there with a point, and is no word."""
    words = {}
    for source in sorted((ROOT / "crates" / crate / "src").glob("**/*.rt")):
        text = source.read_text()
        words.update({f"{alias}.": Word(home, None) for home, alias in ALIAS.findall(text)})
        for home, names in IMPORT.findall(text):
            for name in names.split(","):
                own, _, other = name.strip().partition(" as ")
                words[other or own] = Word(home, own)
    return words


def clauses_of(source):
    """What the clauses of a call say, without their names."""
    return [clause.split("{", 1)[-1] for clause in CLAUSE.findall(source)]


def words_of_clauses(source, words):
    """Those of these words that the clauses of a call cite, by the names there, in the order in which they come: not
    members of something, and not what a clause or the call gives a name of its own."""
    arguments = set(re.findall(r"\b(\w+):", CLAUSE.split(source)[0]))
    cited = {}
    for clause in clauses_of(source):
        bound = {name for names in re.findall(r"λ ([^.]*)\.", clause) for name in names.split()}
        for name, member in re.findall(r"(?<![.\w])([A-Za-z_]\w*)(?:\.(\w+))?", clause):
            if name in bound | arguments:
                continue
            if name in words:
                cited[name] = words[name]
            elif member and f"{name}." in words:
                cited[f"{name}.{member}"] = Word(words[f"{name}."].crate, member)
    return cited


def pages():
    return {page.name: page.read_text() for page in sorted(PAGES.glob("*.md"))}


def with_anchors(text):
    """The page with an anchor before each paragraph of a list that tells a word: its first one there, or where another
    paragraph has that name, the same with a number."""
    lines, times = FRONT.sub("- ", text).split("\n"), collections.Counter()
    for k, line in enumerate(lines):
        if line.startswith("- "):
            name = first_word("\n".join(lines[k:]))
            times[name] += name is not None
            number = f"-{times[name]}" if times[name] > 1 else ""
            lines[k] = f'- <a id="{name}{number}"></a>\n  {line[2:]}' if name else line
    return "\n".join(lines)


def first_word(text):
    """The first word in code type of the paragraph with which a text begins."""
    found = re.search(r"`([A-Za-z]\w*)", re.split(r"\n(?=- |#|\n)", text)[0])
    return found and found[1].lower()


def entries(texts):
    """The paragraphs of these pages."""
    found = []
    for page, text in texts.items():
        crates = ()
        for block in re.split(r"\n(?=- |#|\n|\|)", FENCE.sub("", text)):
            section = re.match(r"\n*## ([^:\n]*):", block)
            if section:
                crates = tuple(re.findall(r"\b(?:def|xg)_\w+", section[1]))
            anchor = re.match(rf"- {ANCHOR.pattern}", block)
            if anchor:
                found.append(Entry(page, anchor[1], crates, block))
    return found


def tells(entry, name):
    """Whether a paragraph has the word in code type."""
    return any(name in re.findall(r"\w+", code) for code in CODE.findall(entry.text))


def entry_of(word, found):
    """The paragraph that tells a word: one of its crate's section that has it first between its marks."""
    own = [it for it in found if word.crate in it.crates and tells(it, word.name)]
    first = [it for it in own if re.search(rf"`{word.name}\b", it.text)]
    return next(iter([*first, *own]), None)
