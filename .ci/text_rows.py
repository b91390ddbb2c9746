"""Rows of texts and certificates, and what the program, the other checker and the tools say of them.

A text has a game, the settings of its rounds, and what is written of them in both versions. A certificate is told by
the number of its text, a version and the lines that become others; with a last line before the first one, the lines are
put in before that one. It has its answer and, where `upgrade` changes it, what is written."""
from named_games import file_of
from tool_calls import in_version, tool

VERSIONS = (1, 2)


def expect_texts(checks, files, texts):
    for row in texts:
        what = row["what"]
        files.game.write_bytes(file_of(row["file"]))
        both = {number: row[f"version {number}"].encode() for number in VERSIONS}
        told = files.play("solve", row["rounds"], row["every"], row["scale"])
        checks.expect(f"{what}: solve", told, 0, both[2], b"")
        for number, data in both.items():
            where = f"{what}: version {number}"
            files.comes_back(where, data)
            for other in VERSIONS:
                checks.that(f"{where}, as {other}", in_version(other, data) == both[other], in_version(other, data))
        same_tables(checks, files, what, both)


def same_tables(checks, files, what, both):
    """The tools say the same of a text in both versions."""
    for words in (["plan_table"], ["plan_table", "--profile"]):
        told = [tool(*words, files.game, stdin=data) for data in both.values()]
        checks.that(f"{what}: {' '.join(words)}", told[0] == told[1], f"{told}")
    status, said = ((0, b"") if b"\ntrace " in both[2] else (1, b"rounds"))
    for name in ("report", "bracket_plot"):
        words = [files.game] if name == "report" else ["--game", files.game]
        for number, data in both.items():
            told = tool(name, *words, stdin=data)
            holds = told[0] == status and (told[2].strip().endswith(said) if status else told[2] == said)
            checks.that(f"{what}: {name} of version {number}", holds, f"{told[0]} {told[2]}")


def changed(texts, row):
    """The bytes of a certificate."""
    lines = texts[row["text"] - 1][f"version {row['version']}"].split("\n")
    if "lines" in row:
        first, last = row["lines"]
        lines[first - 1 : last] = row["become"]
    return "\n".join(lines).encode()


def expect_certificates(checks, files, texts, certificates):
    counts = {"accepted": 0, "refused": 0}
    for row in certificates:
        what, answer, data = row["what"], row["answer"], changed(texts, row)
        files.game.write_bytes(file_of(texts[row["text"] - 1]["file"]))
        files.check_text(what, data, answer)
        counts[answer.split()[0]] += 1
        if answer.startswith("accepted"):
            upgraded(files, what, data, answer, row["upgraded"].encode() if "upgraded" in row else data)
    return counts


def upgraded(files, what, data, answer, wanted):
    """An accepted certificate is upgraded to this text, which is accepted alike and upgraded to itself."""
    for which, given in (("", data), (", again", wanted)):
        files.certificate.write_bytes(given)
        told = files.call("upgrade", files.certificate)
        files.checks.expect(f"{what}: its upgrade{which}", told, 0, wanted, b"")
    files.check_text(f"{what}: its upgrade, checked", wanted, answer)
