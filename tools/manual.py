"""The man pages and the completions. Those of `satcluster` are made of the tables of words that the
program itself reads: RULES in each of crates/command_line/src/commands, and what they name;
parsing.rt has their order. Those of scripts are made of what their parsers know.

`tools/pages.py --man` writes them to share/, and `--check` compares them.
"""
import argparse
import ast
import re
from pathlib import Path
from typing import Any, Dict, Iterator, List, NamedTuple

import conquer
from leaf_jobs import published

ROOT = Path(__file__).resolve().parent.parent
SOURCES = ROOT / "crates" / "command_line" / "src"
CONSTANT = re.compile(r"(?:const|static) (\w+): [^=]+ =\s+(.*?);\n", re.S)
COMMAND = re.compile(r"(\w+)::rules\(\),")
STATUS = re.compile(r"after_help: (\"[^\"]*\"),")
IMPORT = re.compile(r"use crate::commands::(\w+)::(\w+|\{.*?\});", re.S)
TOKEN = re.compile(r'''"(?:[^"\\]|\\.)*"|'.'|[\w:]+(?:!?\(| \{)?|&?[\[\](){},]''')
MADE = "tools/pages.py --man makes this of the tables of words in crates/command_line/src."
MADE_OF_SCRIPT = "tools/pages.py --man makes this of what the script's parser knows."
TOOLS = (
    ("satcluster solver [WORDS] [FILE [PROOF]]",
     "is satcluster itself as a SAT solver that other programs call. A link to satcluster that is"
     " named cadical, kissat, minisat or satcluster-solver is one too: docs/CLIENTS.md."),
    ("satcluster-solver [WORDS] [FILE [PROOF]]",
     "stands where another program expects a SAT solver, and takes the words of CaDiCaL, Kissat and"
     " MiniSat: docs/CLIENTS.md."),
    ("satcluster-conquer [WORDS] INPUT [PROOF]",
     "splits INPUT, has leaves searched on all cores or on many machines, and joins one proof:"
     " satcluster-conquer(1)."),
    ("satcluster-publish [WORDS] INPUT PROOF TO",
     "makes a folder by which a referee can check PROOF: satcluster-publish(1)."),
    ("satcluster-maxsat [--timeout S] [--certificate DIR] F.wcnf",
     "finds the least cost of a MaxSAT formula; satcluster-maxsat-check F.wcnf DIR checks the"
     " certificate: docs/SESSIONS.md."),
    ("satcluster-mus [--out DIR] F.cnf",
     "finds a minimal unsatisfiable subset of the clauses, and checks that it is one."),
    ("satcluster-backbone [--certificate DIR] F.cnf",
     "finds the literals that every model has, and checks that they are these."),
)


class Word(NamedTuple):
    """A file by its place, or an option: `--name` or `-n`, perhaps with a value behind it."""

    text: str
    value: str
    is_needed: bool
    is_many: bool
    help: str

    @property
    def is_option(self) -> bool:
        return self.text.startswith("-")

    @property
    def usage(self) -> str:
        word = (self.text + " " + self.value).strip()
        return (word if self.is_needed else "[%s]" % word) + (".." if self.is_many else "")


# Words of every command, which the program takes out before it looks at the others.
EXPLAIN = Word("--explain", "", False, False,
               "Tell on standard error, in words, what a c line means, and what to do")
NO_EXPLAIN = Word("--no-explain", "", False, False,
                  "Do not tell that, where standard error is a terminal")


class Command(NamedTuple):
    name: str
    about: str
    status: str
    words: List[Word]

    @property
    def options(self) -> List[Word]:
        return [word for word in self.words if word.is_option]

    @property
    def usage(self) -> str:
        files = [word for word in self.words if not word.is_option]
        return " ".join([self.name] + [word.usage for word in self.options + files])


class Script(NamedTuple):
    """A script that reads its words by `argparse`."""

    name: str
    about: str  # a line
    usage: str
    text: str  # paragraphs
    words: List[Word]


class Program(NamedTuple):
    version: str
    kits: str
    about: str
    examples: List[str]
    status: str
    commands: List[Command]


class Module:
    """A file of constants, and those that it takes from files beside it."""

    def __init__(self, path: Path) -> None:
        text = path.read_text(encoding="utf-8")
        self.texts: Dict[str, str] = dict(CONSTANT.findall(text))
        self.homes = {name: home for home, names in IMPORT.findall(text)
                      for name in re.findall(r"\w+", names)}

    def constant(self, path: str) -> Any:
        """What a path names; the path itself if it is no constant of text, as `true`."""
        home, _, name = path.rpartition("::")
        if name in self.texts:
            return self.value(TOKEN.findall(self.texts[name]))
        file = SOURCES / "commands" / ((home or self.homes.get(name, "")) + ".rt")
        return Module(file).constant(name) if file.is_file() else path

    def value(self, tokens: List[str]) -> Any:
        token = tokens.pop(0)
        if token[0] in "\"'":
            return ast.literal_eval(token)
        if token == "&[":
            return list(self.values(tokens, "]"))
        if token.endswith("("):
            texts = list(self.values(tokens, ")"))
            return "".join(texts) if token == "concat!(" else texts
        if token.endswith("{"):
            fields = list(self.values(tokens, "}"))
            return dict(zip(fields[::2], fields[1::2]), kind=token.rstrip(" {").split("::")[-1])
        return self.constant(token)

    def values(self, tokens: List[str], end: str) -> Iterator[Any]:
        """The values up to a bracket; of a field its name, and then its value."""
        while tokens[0] != end:
            if tokens[0] == ",":
                tokens.pop(0)
            elif tokens[0].endswith(":"):
                yield tokens.pop(0)[:-1]
            else:
                yield self.value(tokens)
        tokens.pop(0)


def word_of(fields: Dict[str, Any]) -> Word:
    kind, name = fields["kind"], fields["name"]
    if kind in ("File", "Files"):
        text, value = name, ""
    elif kind == "Flag":
        text, value = "-" + fields["letter"], ""
    else:
        text, value = "--" + name, {"LongFlag": "", "NamedFile": "FILE", "Number": "N"}[kind]
    need = fields.get("need")
    usual = "; else " + need[0] if isinstance(need, list) else ""
    is_needed = kind == "Files" or need == "Need::Required" or fields.get("required") == "true"
    return Word(text, value, is_needed, kind == "Files", fields["help"] + usual)


def command(name: str) -> Command:
    rules = Module(SOURCES / "commands" / (name + ".rt")).constant("RULES")
    return Command(rules["name"], rules["about"], rules["after_help"],
                   [word_of(word) for word in rules["words"]])


def program() -> Program:
    path = SOURCES / "parser.rt"
    module, text = Module(path), path.read_text(encoding="utf-8")
    version, _, kits = module.constant("VERSION").partition(" ")
    about, *examples = module.constant("ABOUT").split("\n")
    status = STATUS.search(text)
    assert status, path
    return Program(version, kits.strip("()"), about, [line for line in examples if line],
                   ast.literal_eval(status.group(1)),
                   [command(name) for name in COMMAND.findall(text)])


def script(name: str, about: str, text: str, parser: argparse.ArgumentParser) -> Script:
    usage = (parser.usage or "").replace("tools/conquer.py", name)
    return Script(name, about, usage, text, [word_of_action(action) for action in parser._actions])


def word_of_action(action: argparse.Action) -> Word:
    text = action.option_strings[-1] if action.option_strings else action.dest
    return Word(text, str(action.metavar or "") if action.option_strings else "",
                action.required, False, action.help or "")


def scripts() -> List[Script]:
    text = (conquer.__doc__ or "").split("\n\n", 2)[2]
    return [
        script("satcluster-conquer", "decide a formula on all cores or on many machines", text,
               conquer.parser()),
        script("satcluster-publish", "make a folder by which a referee can check a proof",
               published.ABOUT, published.parser()),
    ]


def roff(text: str) -> str:
    return text.replace("\\", "\\e").replace("-", "\\-").replace("'", "\\(aq")


def man(p: Program) -> Iterator[str]:
    yield '.\\" ' + MADE
    yield '.TH SATCLUSTER 1 "" "satcluster %s"' % p.version
    yield ".SH NAME\nsatcluster \\- " + roff(p.about[0].lower() + p.about[1:])
    yield ".SH SYNOPSIS\n.B satcluster\nCOMMAND [WORDS] INPUT .."
    yield ".SH EXAMPLES\n.nf"
    yield from (roff(line.strip()) for line in p.examples)
    yield ".fi\n.SH COMMANDS"
    for command in p.commands:
        yield ".SS %s\n%s.\n.PP\n.B %s" % (command.name, roff(command.about), roff(command.usage))
        for word in command.words:
            yield ".TP\n.B %s\n%s" % (roff((word.text + " " + word.value).strip()), roff(word.help))
        yield ".PP\n" + roff(command.status)
    yield ".SS help, \\-\\-help, \\-\\-version\nHelp, also behind a command, or the version."
    yield ".PP\n%s\n.SS \\-\\-explain, \\-\\-no\\-explain\nWords of every command. %s. %s" % (
        roff(p.status), roff(EXPLAIN.help),
        "If standard error is a terminal that is told without a word, except by the second.")
    yield ".SH TOOLS"
    yield from (".TP\n.B %s\n%s" % (roff(line), roff(text)) for line, text in TOOLS)
    yield ".SH SEE ALSO\nshare/doc/satcluster: README.md, and docs/COMMANDS.md on each line."


def man_of_script(s: Script) -> Iterator[str]:
    yield '.\\" ' + MADE_OF_SCRIPT
    yield '.TH %s 1 "" "satcluster %s"' % (s.name.upper(), program().version)
    yield ".SH NAME\n%s \\- %s" % (roff(s.name), roff(s.about))
    files = [word for word in s.words if not word.is_option]
    yield ".SH SYNOPSIS\n.nf"
    yield from (roff(line.strip()) for line in s.usage.split("\n"))
    yield ".fi\n.SH DESCRIPTION"
    for paragraph in s.text.strip().split("\n\n"):
        yield ".PP\n" + roff(paragraph).replace("`", "")
    yield ".SH WORDS"
    for word in files + [word for word in s.words if word.is_option]:
        yield ".TP\n.B %s\n%s" % (roff((word.text + " " + word.value).strip()), roff(word.help))
    yield ".SH SEE ALSO\nsatcluster(1); share/doc/satcluster/docs/CLUSTER.md."


def bash_of_script(s: Script) -> Iterator[str]:
    function = "_" + s.name.replace("-", "_")
    words = " ".join(word.text for word in s.words if word.is_option)
    yield "# " + MADE_OF_SCRIPT
    yield "%s() {\n    local words=\n    case $2 in -*) words='%s' ;; esac" % (function, words)
    yield "    COMPREPLY=($(compgen -W \"$words\" -- \"$2\"))\n}"
    yield "complete -o default -F %s %s" % (function, s.name)


def zsh_of_script(s: Script) -> Iterator[str]:
    yield "#compdef %s\n# %s" % (s.name, MADE_OF_SCRIPT)
    options = " ".join(zsh_option(word) for word in s.words if word.is_option)
    yield "_arguments %s '*:file:_files'" % options


def fish_of_script(s: Script) -> Iterator[str]:
    yield "# " + MADE_OF_SCRIPT
    for word in s.words:
        if word.is_option:
            yield fish_option(s.name, "", word)


def bash(p: Program) -> Iterator[str]:
    yield "# " + MADE
    yield "_satcluster() {\n    local words=\n    case $COMP_CWORD,${COMP_WORDS[1]},$2 in"
    yield "        1,*) words='%s --help --version' ;;" % " ".join(c.name for c in p.commands)
    for c in p.commands:
        words = [w.text for w in c.options + [EXPLAIN, NO_EXPLAIN]] + ["--help"]
        yield "        *,%s,-*) words='%s' ;;" % (c.name, " ".join(words))
    yield "    esac\n    COMPREPLY=($(compgen -W \"$words\" -- \"$2\"))\n}"
    yield "complete -o default -F _satcluster satcluster"


PATHS = ("FILE", "PATH", "DIR", "FOLDER")  # words of options that name files


def zsh_quoted(text: str) -> str:
    return text.replace("'", "'\\''")


def zsh_option(w: Word) -> str:
    behind = ":%s:%s" % (w.value, "_files" * (w.value in PATHS)) if w.value else ""
    return "'%s[%s]%s'" % (w.text, zsh_quoted(re.sub(r"([\[\]:])", r"\\\1", w.help)), behind)


def zsh(p: Program) -> Iterator[str]:
    yield "#compdef satcluster\n# " + MADE
    yield "local -a commands=("
    yield from ("    '%s:%s'" % (c.name, zsh_quoted(c.about)) for c in p.commands)
    yield ")\nif ((CURRENT == 2)); then\n    _describe command commands"
    yield "    compadd -- --help --version\n    return\nfi"
    yield "local command=$words[2]\nshift words\n((CURRENT--))\ncase $command in"
    for c in p.commands:
        words = " ".join(map(zsh_option, c.options + [EXPLAIN, NO_EXPLAIN]))
        yield "    %s) _arguments %s '*:file:_files' ;;" % (c.name, words)
    yield "esac"


def fish_quoted(text: str) -> str:
    return "'%s'" % text.replace("\\", "\\\\").replace("'", "\\'")


def fish_option(name: str, condition: str, w: Word) -> str:
    option = "-l " + w.text[2:] if w.text.startswith("--") else "-s " + w.text[1:]
    behind = (" -r" if w.value in PATHS else " -x") if w.value else ""
    return "complete -c %s%s %s%s -d %s" % (name, condition, option, behind, fish_quoted(w.help))


def fish(p: Program) -> Iterator[str]:
    yield "# " + MADE
    for c in p.commands:
        yield "complete -c satcluster -n __fish_use_subcommand -f -a %s -d %s" % (
            c.name, fish_quoted(c.about))
        condition = " -n '__fish_seen_subcommand_from %s'" % c.name
        yield from (fish_option("satcluster", condition, w)
                    for w in c.options + [EXPLAIN, NO_EXPLAIN])


def files() -> Dict[Path, str]:
    """What is written, by its path."""
    made, share = program(), ROOT / "share"
    texts = {
        "man/man1/satcluster.1": man(made),
        "bash-completion/completions/satcluster": bash(made),
        "zsh/site-functions/_satcluster": zsh(made),
        "fish/vendor_completions.d/satcluster.fish": fish(made),
    }
    for each in scripts():
        texts["man/man1/%s.1" % each.name] = man_of_script(each)
        texts["bash-completion/completions/" + each.name] = bash_of_script(each)
        texts["zsh/site-functions/_" + each.name] = zsh_of_script(each)
        texts["fish/vendor_completions.d/%s.fish" % each.name] = fish_of_script(each)
    return {share / path: "\n".join(lines) + "\n" for path, lines in texts.items()}
