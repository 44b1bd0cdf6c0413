"""What stands around the program: files, directories, addresses, streams.

It is looked at behind a run, so it may have changed since.
"""

import difflib
import errno
import os
import re
import socket
import stat

from .places import Finding, quoted
from .words import Words

UNWRITTEN = ("look for a full disk (df) or a reader that ended (a pipe to head); asking again is safe, and the same "
             "questions get the same history's replies")
ADDRESS = re.compile(r"(\[[^\]]*\]|[^:\[\]]*):([0-9]+)")


def missing(said, name):
    """The meaning of `cqe: missing NAME`."""
    directory = os.path.dirname(name) or "."
    if os.path.exists(name):
        why = "It is there now."
        advice = "start it again"
    elif os.path.islink(name):
        why, advice = f"It is a link to {quoted(os.readlink(name))}, and that isn't there.", "mend the link"
    elif not os.path.isdir(directory):
        why, advice = (f"The directory {quoted(directory)} isn't there either.",
                       "write the path as it is seen from where the program starts")
    else:
        close = difflib.get_close_matches(os.path.basename(name), listed(directory), 3, 0.5)
        why = (f"In {quoted(directory)} there is {', '.join(map(quoted, close))}." if close else f"{quoted(directory)} "
               f"has no file of a similar name.")
        advice = (f"write the name of the policy or of the facts file as it stands there (the program started in "
                  f"{os.getcwd()})")
    return Finding(said, f"The file {quoted(name)} isn't there. {why}", None, advice)


def listed(directory):
    try:
        return os.listdir(directory)
    except OSError:
        return []


def shelf(said, context):
    """The meaning of `cqe: shelf fault`."""
    found = [fault for fault in (file_fault("policy", context.policy_name), file_fault("facts", context.facts_name),
                                 *directory_faults(context)) if fault]
    found += journal_faults(context) if not found else []
    meaning = "A file couldn't be opened: the policy, the facts, or a journal in the directory of the journals."
    if found:
        return Finding(said, f"{meaning} {found[0][0]}", None, found[0][1], tuple(why for why, _ in found[1:10]))
    return Finding(said, meaning, None, "look at --journals: the directory has to be there (mkdir DIR), and the "
                   "program's account must read and write in it; a journal is a regular file, on which no other "
                   "process works; and see how many files may be open (ulimit -n)")


def file_fault(what, name):
    """Why a named file can't be read, and what to do."""
    if name is None:
        return None
    if os.path.isdir(name):
        return f"The {what} {quoted(name)} is a directory.", f"name the file itself behind --{what}"
    if os.path.exists(name) and not os.access(name, os.R_OK):
        return (f"The {what} {quoted(name)} may not be read by this account.",
                f"chmod u+r {name}, or start as the account that owns it")
    return None


def directory_faults(context):
    """What is wrong with each directory of journals, and what to do."""
    if context.to is None:
        return [directory_fault(context.journals, "journals", f"mkdir {context.journals}, then cqe init with the same "
                                "files")]
    return [directory_fault(context.journals, "journals", "name the directory of the old journals behind --journals"),
            directory_fault(context.to, "to", f"mkdir {context.to}")]


def directory_fault(name, option, missing):
    """What is wrong with the directory behind an option, and what to do, also where it is missing."""
    if name is None:
        return None
    if not os.path.lexists(name):
        return f"The directory {quoted(name)} isn't there.", missing
    if not os.path.isdir(name):
        return f"{quoted(name)} is no directory.", f"name the directory of the journals behind --{option}"
    if not os.access(name, os.R_OK | os.W_OK | os.X_OK):
        return (f"In the directory {quoted(name)} this account may not read and write.",
                f"chmod u+rwx {name}, or start as the account that owns it")
    return None


def journal_faults(context):
    """What is wrong with the journals of a directory, and what to do."""
    names = sorted(listed(context.journals)) if context.journals else []
    paths = [os.path.join(context.journals, name) for name in names if name.endswith(".log")]
    held = holders()
    return [fault for fault in (journal_fault(path, held) for path in paths) if fault]


def journal_fault(path, held):
    """Why a journal can't be opened, and what to do; None where it can."""
    try:
        found = os.stat(path)
    except OSError as error:
        return (f"{quoted(path)} can't be looked at: {error.strerror}.",
                "put the journal back, or remove the link that leads nowhere")
    if not stat.S_ISREG(found.st_mode):
        return (f"{quoted(path)} is no regular file.",
                "a journal is a regular file: put it back, or remove what stands in its place")
    if not os.access(path, os.R_OK | os.W_OK):
        return (f"{quoted(path)} may not be read and written by this account.",
                f"chmod u+rw {path}, or start as the account that owns it")
    if found.st_ino in held:
        return (f"{quoted(path)} is locked by the process {held[found.st_ino]}.",
                "let one program at a time work on a directory of journals: end the other one, or wait for its end")
    return None


def holders():
    """The processes that hold a lock on a whole file, by the file's inode; nothing where the system doesn't say."""
    try:
        with open("/proc/locks", encoding="ascii", errors="replace") as file:
            rows = [line.split() for line in file]
    except OSError:
        return {}
    return {int(row[5].rsplit(":", 1)[1]): row[4] for row in rows
            if len(row) == 8 and row[1] == "FLOCK" and row[5].rsplit(":", 1)[-1].isdigit()}


def links(said, address):
    """The meaning of `cqe: links fault`."""
    meaning = "The server or the standby couldn't listen at its address, or it couldn't take in a client."
    general = ("an address is HOST:PORT, as 127.0.0.1:7007; see what listens there (ss -ltnp); for clients, how many "
               "files may be open (ulimit -n)")
    if address is None:
        return Finding(said, meaning, None, general)
    why, advice = address_fault(address) or tried(address) or (
        f"The address {address} is free by now: somebody else had it, or clients couldn't be taken in.", general)
    return Finding(said, f"{meaning} {why}", None, advice)


def address_fault(address):
    """Why a text is no address, and what to do; None where it has the form of one."""
    match = ADDRESS.fullmatch(address)
    if match is None:
        if "://" in address:
            return f"{quoted(address)} is a URL.", "write host and port alone, as 127.0.0.1:7007"
        if address.count(":") > 1 and not address.startswith("["):
            return f"{quoted(address)} is an IPv6 address without brackets.", "write it as [::1]:7007"
        if re.search(r":[^:\]]*\Z", address) is None or address.endswith("]"):
            return f"{quoted(address)} has no port.", f"write a port behind it, as {address}:7007"
        return f"{quoted(address)} has no port of decimal digits behind the colon.", "write it as 127.0.0.1:7007"
    host, port = match[1], int(match[2])
    if port > 65535:
        return f"The port {port} of {quoted(address)} is above 65535.", "write a port from 1 to 65535"
    if host == "":
        return (f"{quoted(address)} has no host before the colon.", f"write 127.0.0.1:{port} for this machine alone, "
                f"or 0.0.0.0:{port} for all its addresses")
    return None


def tried(address):
    """Why nobody can listen at an address now, and what to do; None where one can."""
    host, port = address.rsplit(":", 1)
    try:
        found = socket.getaddrinfo(host.strip("[]"), int(port), type=socket.SOCK_STREAM, flags=socket.AI_PASSIVE)
    except OSError as error:
        return (f"The host {quoted(host)} has no address: {error.strerror}.",
                "write an address of this machine, as 127.0.0.1")
    fault = None
    for family, sort, protocol, _, name in found:
        with socket.socket(family, sort, protocol) as listener:
            listener.setsockopt(socket.SOL_SOCKET, socket.SO_REUSEADDR, 1)
            try:
                listener.bind(name)
                listener.listen(1)
                return None
            except OSError as error:
                fault = error
    return bind_fault(address, port, fault) if fault else None


def bind_fault(address, port, error):
    if error.errno == errno.EADDRINUSE:
        return (f"The port {port} is in use: another program listens at {address}.",
                f"end that program (ss -ltnp 'sport = :{port}' shows it), or take another port; two servers on one "
                f"directory of journals are never right")
    if error.errno == errno.EACCES:
        return f"This account may not listen at the port {port}.", "take a port from 1024 on, as 7007"
    if error.errno == errno.EADDRNOTAVAIL:
        return (f"This machine hasn't the address of {address}.", "take an address of this machine (ip address), as "
                "127.0.0.1")
    return f"Listening at {address} fails: {error.strerror}.", "take another address or port"


def read_fault(said, context):
    if context.words and context.words[0] == "check":
        return Finding(said, "Standard input couldn't be read; nothing was checked.", None,
                       "give the dossier as a file, as  cqe check .. < DOSSIER : a directory or a closed input can't be "
                       "read")
    return Finding(said, "Standard input couldn't be read; nothing was answered.", None,
                   "give the script as a file, as  cqe batch .. < SCRIPT : a directory or a closed input can't be read")


def write_fault(said, context):
    return Finding(said, "Standard output couldn't be written; a beginning of the replies was. Of a batch the asks up to "
                   "the next restart may be in their journals; nothing behind that was asked.", None, UNWRITTEN)


def not_handed_on(why):
    """What is to be said where cqe-explain itself couldn't write a reply of the program."""
    return Finding(f"cqe-explain: standard output: {why}", "The replies couldn't be written; a beginning of them was. "
                   "The program itself ended well: it answered all, and the answers are in the journals where there "
                   "are any.", None, UNWRITTEN)


def disk_fault(said, context):
    advice = ("look at the disk (df, dmesg, ulimit -f); then start the machine again or mount the disk anew before the "
              "program, because after a failed sync it may show bytes that never reached the disk")
    if context.words and context.words[0] == "init":
        advice += "; remove the journal that init couldn't make, which has no record, and call init again"
    if context.words and context.words[0] == "migrate":
        advice += "; call migrate again with another directory behind --to, and leave that of this call alone"
    meaning = ("A write or a sync of a journal failed: in batch and serve its user got error 40 from then on, and init "
               "and migrate stopped there.")
    standby = standby_of(context.words)
    if standby is not None:
        meaning += f" Or the standby at {standby} didn't answer for a record in time, which its user wasn't told."
        advice = (f"see whether the standby runs and is reached at {standby}, and then start this program again; "
                  f"{advice}")
    return Finding(said, meaning, None, advice)


def standby_of(words):
    """The address of the standby that words name; None where they name none."""
    return Words(words).values.get("standby") if words and words[0] in ("batch", "serve") else None


def memory(said, context):
    return Finding(said, "Memory was wanting; what was written by then is a right beginning.", None,
                   "give the program more memory (ulimit -v, MemoryMax of its unit), and start it again; init is "
                   "called again too")
