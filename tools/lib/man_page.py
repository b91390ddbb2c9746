"""Pages of the manual, in the language of `man`: of a tool by its own help, of a program by its page in docs/."""
import re

# The columns that are left for a line that isn't filled, on a screen of 80.
WIDTH = 68
BULLET = r"\(bu"


def escaped(text):
    for one, other in (("\\", r"\e"), ("-", r"\-"), ("'", r"\(aq"), ("^", r"\(ha"), ("~", r"\(ti"), ("`", r"\(ga")):
        text = text.replace(one, other)
    return re.sub(r"^(?=\.)", r"\\&", text, flags=re.M)


def inline(text):
    """A piece of a text with its marks: code is bold, and a link is its own text."""
    text = re.sub(r"\[([^]]*)\]\([^)]*\)", r"\1", text.replace("\\|", "|"))
    pieces = re.split(r"`([^`]*)`|\*\*([^*]*)\*\*", text)
    bold = lambda it: rf"\fB{escaped(it)}\fR"
    return "".join(bold(it) if k % 3 and it else escaped(it or "") for k, it in enumerate(pieces))


def filled(lines):
    return [inline(" ".join(it.strip() for it in lines))]


def as_it_is(lines):
    """Lines that are laid out already, where the screen has room for them."""
    lines = [it.rstrip() for it in lines]
    if max(map(len, lines)) > WIDTH:
        return [".PP", ".RS 4", escaped(" ".join(it.strip() for it in lines)), ".RE"]
    return [".PP", ".RS 4", ".nf", *map(escaped, lines), ".fi", ".RE"]


def item(word, lines):
    return [".TP", rf"\fB{escaped(word)}\fR", *lines]


def head(name, version, about):
    return [
        r".\" Made by tools/manual; change what it is made from.",
        f'.TH {name.upper()} 1 "" "xg_solve {version}" "xg_solve"',
        ".nh",
        ".ad l",
        ".SH NAME",
        rf"{name} \- {inline(about)}",
    ]


def see_also(names):
    others = [rf"\fB{escaped(it)}\fR(1)," for it in names]
    return [".SH SEE ALSO", *others, "and the pages in share/doc/xg_solve below the prefix."]


def paragraphs(text):
    return [it.split("\n") for it in re.split(r"\n{2,}", text.strip("\n"))]


def laid_out(lines):
    """A paragraph of a tool's text. Where words stand over to the left, each is an item."""
    column = next((len(it) - len(it.lstrip()) for it in lines if it.startswith("  ")), 0)
    if not column:
        return [".PP", *filled(lines)]
    items = []
    for line in lines:
        if line[:column].strip():
            items.append([line[:column].strip(), []])
        if not items or line[column - 2 : column].strip():
            return as_it_is(lines)
        line = line[column:]
        items[-1][1].append(line)
    return [it for word, told in items for it in item(word, filled(told))]


def first_sentence(text):
    """The first sentence of a text, without its point, or what stands before a colon in it."""
    return " ".join(re.match(r"(.*?)[.:](?=\s|$)", text, re.S)[1].split())


def page_of_tool(name, told, version, program):
    """The page of a tool, by what it says of itself."""
    about = first_sentence(told.text)
    lines = head(name, version, about[0].lower() + about[1:])
    lines.append(".SH SYNOPSIS")
    for words in told.usage.split("\n"):
        lines += [rf"\fB{escaped(name)}\fR {escaped(words.strip().removeprefix(name).strip())}", ".br"]
    lines += [".SH DESCRIPTION", *[it for part in paragraphs(told.text) for it in laid_out(part)]]
    for title, items in told.sections.items():
        lines.append(f".SH {title.removeprefix('positional ').upper()}")
        lines += [it for word, meaning in items for it in item(word, filled([meaning]))]
    return "\n".join([*lines, *see_also([program])]) + "\n"


def cells(row):
    return [it.strip() for it in re.split(r"(?<!\\)\|", row.strip().strip("|"))]


def table(rows):
    """Each row as an item: its first cell, and then the other ones, by their heads where there are several."""
    heads, lines = cells(rows[0]), []
    for row in rows[2:]:
        first, *rest = cells(row)
        told = rest if len(rest) == 1 else [f"{name}: {it}." for name, it in zip(heads[1:], rest) if it]
        lines += [".TP", inline(first), *filled(told)]
    return lines


def part_of_page(lines):
    """A part of a page in Markdown, between two blank lines."""
    if lines[0].startswith("#"):
        return [f".SH {inline(lines[0].lstrip('# ').upper())}"]
    if lines[0].startswith("|"):
        return table(lines)
    if lines[0].startswith("    "):
        return as_it_is([it[4:] for it in lines])
    if lines[0].startswith("- "):
        items = re.split(r"^- ", "\n".join(lines), flags=re.M)[1:]
        return [it for text in items for it in (rf".IP {BULLET} 2", *filled(text.split("\n")))]
    return [".PP", *filled(lines)]


def words_of(page):
    """The words that a page's first table has, each with what stands behind them there."""
    rows = next(it for it in paragraphs(page) if it[0].startswith("|"))[2:]
    return [re.match(r"`([^`]*)`(.*)", cells(it)[0]).groups() for it in rows]


def page_of_program(name, about, page, version, others):
    """The page of a program, by its page in docs/."""
    lines = [*head(name, version, about), ".SH SYNOPSIS"]
    for words, rest in words_of(page):
        options = " [OPTION]..." if "option" in rest else ""
        lines += [rf"\fB{escaped(name)} {escaped(words)}\fR{escaped(options)}", ".br"]
    parts = [it for it in paragraphs(page) if not it[0].startswith("# ")]
    lines += [it for part in parts for it in part_of_page(part)]
    return "\n".join([*lines, *see_also(others)]) + "\n"
