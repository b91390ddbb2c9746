"""Streams that fail: standard output that does is status 4, and standard error changes no status and nothing that is
written."""
import os

from checks import WRITE_FAULT


def expect_streams(checks, call, quiet, talking, text, refused):
    """Of words that write this text with status 0, the first ones with nothing on standard error; and of words that
    come to another status with a line."""
    with open("/dev/full", "wb") as full:
        checks.expect("a full output", call(quiet, stdout=full), 4, None, WRITE_FAULT)
        checks.expect("a full standard error", call(talking, stderr=full), 0, text, None)
        checks.expect("both are full", call(talking, stdout=full, stderr=full), 4, None, None)
        for what, given, status in refused:
            checks.expect(f"{what}, with a full standard error", call(given, stderr=full), status, b"", None)
    out, err = (lambda: os.close(1)), (lambda: os.close(2))
    checks.expect("a closed output", call(quiet, stdout=None, preexec_fn=out), 4, None, WRITE_FAULT)
    checks.expect("a closed standard error", call(talking, stderr=None, preexec_fn=err), 0, text, None)
    reader, writer = os.pipe()
    os.close(reader)
    checks.expect("an output that nobody reads", call(quiet, stdout=writer), 4, None, WRITE_FAULT)
    checks.expect("a standard error that nobody reads", call(talking, stderr=writer), 0, text, None)
    os.close(writer)
