"""What is wrong in a certificate, in words: its first fault, where it stands and what mends it."""
import cert_faults
from places import Told, visible

ANEW = "make it anew: bin/xg_solve solve GAME > NEW.xgcert, or tools/certify GAME PROFILE > NEW.xgcert"
FETCH = "fetch the file again: it was cut"
# What a file that begins so is, and what mends it.
BEGINNINGS = [
    (b"\xef\xbb\xbf", "a byte order mark stands before the first word", "tail -c +4 CERT > PLAIN takes it away"),
    (b"\xff\xfe", "the file is UTF-16", "iconv -f UTF-16 -t UTF-8 CERT > PLAIN"),
    (b"\xfe\xff", "the file is UTF-16", "iconv -f UTF-16 -t UTF-8 CERT > PLAIN"),
    (b"XGPLUS", "this is the text of plus, which is no certificate",
     "who doubts it calls plus again; solve prints certificates"),
    (b"EFG", "this is a game file, and no certificate", "the certificate comes second: check GAME CERT"),
    (b"\x1f\x8b", "the file is packed by gzip", "gunzip < CERT > PLAIN"),
    (b"usage: ", "this is the usage line of a call that failed", ANEW),
]
MENDS = {
    26: 'take away what follows the line "end"',
    27: "take the game file that the certificate was made of, or " + ANEW,
}


def first_fault(data, form):
    """What is wrong first in a certificate of a game of this form, or None."""
    try:
        cert_faults.Tests(form, cert_faults.Certificate(data), data).run()
    except cert_faults.Fault as fault:
        return words_of(data, fault)
    return None


def too_long():
    said = f"the certificate has more than {cert_faults.MOST_BYTES:,} bytes"
    return Told("refused 21 CertLong", None, said, mend="evaluate less often: a greater --every has fewer lines trace")


def words_of(data, fault):
    line, number = str(fault), int(str(fault).split()[1])
    for beginning, said, mend in BEGINNINGS:
        if data.startswith(beginning) and number in (22, 25):
            return Told(line, fault.at, said, "the word XGCERT", mend)
    if data[fault.at - 1 : fault.at] == b"\r" or b"\r" in cert_field(data, fault.at)[-1:]:
        return Told(line, fault.at, "a carriage return stands before the line feed",
                    fault.wanted or "a line feed alone",
                    "tr -d '\\r' < CERT > PLAIN")
    if number == 25:
        said = "the certificate is empty" if not data else "the certificate ends before its end"
        return Told(line, fault.at, said, fault.wanted, FETCH if data else ANEW)
    said = fault.why or found_words(data, fault, number)
    return Told(line, fault.at, said, fault.wanted, MENDS.get(number, ANEW))


def cert_field(data, at):
    return cert_faults.FIELD.match(data, at)[0]


def found_words(data, fault, number):
    field, behind = cert_field(data, fault.at), data[fault.at : fault.at + 1]
    if number == 26:
        return "bytes stand behind the last line"
    if number == 24:
        return f'the version "{visible(field)}" is neither 1 nor 2'
    if field:
        said = "has another form, or another range" if number == 23 else "can't stand here"
        return f'"{visible(field[:40])}" {said}'
    if number == 23:
        return "an empty field stands for a number"
    return f"{cert_faults.NAMES.get(behind, 'another byte')} can't stand here"
