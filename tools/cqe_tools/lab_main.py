"""The command cqe-lab: a page on this machine that shows what a policy does, question by question."""

import argparse
import signal
import sys
import threading
from pathlib import Path

from .checking import Unusable, program
from .lab import Lab
from .lab_examples import Files
from .lab_pages import Pages

DONE, WRONG = 0, 2
SIGNALS = (signal.SIGINT, signal.SIGTERM, signal.SIGHUP)

ABOUT = """Opens a page at 127.0.0.1 on which you ask as each user of a policy, list for whom a question holds, and add
secrets as the operator, and see the reply, the truth, and why the reply gives no secret away. It works on copies in a
temporary directory, which goes at its end, and is for trying, not for serving. Without files it offers the examples.
Open the address that it prints in a browser; Control-C ends it."""


def main(arguments):
    given = options().parse_args(arguments)
    if (given.policy is None) != (given.facts is None):
        options().error("a policy has its facts behind it")
    try:
        path = program(Path(sys.argv[0]).resolve().parent)
        serve(path, files_of(given))
    except Unusable as why:
        print(f"cqe-lab: {why}", file=sys.stderr)
        return WRONG
    return DONE


def options():
    parser = argparse.ArgumentParser(prog="cqe-lab", description=ABOUT,
                                     formatter_class=argparse.RawDescriptionHelpFormatter, allow_abbrev=False)
    parser.add_argument("policy", metavar="P", nargs="?", help="a policy file of your own")
    parser.add_argument("facts", metavar="F", nargs="?", help="its facts file")
    return parser


def files_of(given):
    """The files of the command line; None where there are none."""
    if given.policy is None:
        return None
    try:
        return Files(f"{Path(given.policy).name} with {Path(given.facts).name}", Path(given.policy).read_bytes(),
                     Path(given.facts).read_bytes())
    except (OSError, ValueError) as error:
        raise Unusable(f"a file can't be read: {error}") from error


def serve(path, given):
    """Serves the page until a signal comes, and takes everything away."""
    ended = threading.Event()
    for number in SIGNALS:
        signal.signal(number, lambda *_: ended.set())
    lab = Lab(path)
    try:
        with Pages(lab, given) as pages:
            threading.Thread(target=pages.serve_forever, daemon=True).start()
            print(pages.address)
            print("Open this address in a browser on this machine. Control-C ends the lab.", flush=True)
            ended.wait()
            pages.shutdown()
    finally:
        lab.end()
