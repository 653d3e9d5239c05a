"""Why a file is refused: the sentences of the program's --explain, and those of scripts."""
import os
import re
import shlex
import stat
from typing import Dict, List, Optional

FOLDER_IN_USE = ("A run is under way in this folder.",
                 "Wait for it, or name another folder (`--folder`).")


def told(text: str, names: Optional[Dict[str, str]] = None) -> List[str]:
    """The sentences that the program has written to standard error; `names` has for a file's name
    the one that is printed in its place."""
    for name, shown_as in (names or {}).items():
        if name != shown_as:
            text = re.sub(r"(?<![\w/.-])%s(?![\w/-])" % re.escape(name), lambda _: shown_as, text)
    lines = [line for line in text.split("\n") if line.strip()]
    return [line[2:] if line.startswith("c ") else line for line in lines]


def of_foreign_proof(text: str, path: str) -> List[str]:
    """Why a solver's proof cannot be lifted: the line of the program, and the sentences that
    explain it, without what differs from leaf to leaf."""
    line, *sentences = told(text, {path: "{lrat}"}) or ["nothing printed"]
    sentences = [sentence for sentence in sentences if not sentence.startswith("The line ")]
    place = re.compile(r"^\{lrat\}, (line|step) \d+: ")
    return ["c " + line] + [place.sub("", sentence) for sentence in sentences]


def shown(path: str) -> str:
    return "standard input" if path == "-" else path


def unreadable(path: str) -> str:
    """Why a file cannot be read. A pipe is not opened: `open` waits for a writer."""
    try:
        if stat.S_ISFIFO(os.stat(path).st_mode):
            return "%s is a pipe that cannot be read." % path
        with open(path, "rb") as file:
            file.read(1)
    except FileNotFoundError:
        return "There is no file %s." % path
    except IsADirectoryError:
        return "%s is a folder." % path
    except OSError as why:
        return "%s cannot be read: %s." % (path, why.strerror)
    return "%s cannot be read to its end." % path


def unwritable(path: str, source: Optional[str] = None, what: str = "proof") -> Optional[str]:
    """Why a file cannot be written; None if nothing is known against it. what: what goes there."""
    place = os.path.realpath(path)
    above = os.path.dirname(place)
    if not os.path.isdir(above):
        make = "`mkdir -p %s`" % shlex.quote(above)
        return "There is no folder %s for the %s: %s." % (above, what, make)
    if os.path.isdir(place):
        return "%s is a folder: name a file for the %s." % (path, what)
    if source and os.path.exists(place) and os.path.exists(source):
        if os.path.samefile(place, source):
            return "%s is the formula itself: name another file for the %s." % (path, what)
    right = os.access(place if os.path.exists(place) else above, os.W_OK)
    return None if right else "%s cannot be written: Permission denied." % path
