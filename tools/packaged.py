"""What tools/install and tools/release put on a machine: the files, by their paths below a prefix."""
import os
import pathlib
import re
import shutil
import subprocess
import sys
import tempfile
import textwrap

import linked

top = pathlib.Path(__file__).resolve().parent.parent

PROGRAM = top / "crates/tvdlg/out/tvdlg"
SCRIPTS = ("tvplay", "tvask")
DOCUMENTS = ("docs/PROGRAM.md", "docs/LANGUAGE.md", "docs/FAULTS.md", "docs/WARNINGS.md", "docs/LIBRARY.md", "CHANGELOG.md")
SECTION = ".tvdlg.build"

NO_LICENCE = """\
This package was made from the repository of tvdlg.

No licence has been given for it yet. Whoever wants to use it, change it or pass it on has to ask its owner.
"""


class Packed(dict):
    """Files: for each path its bytes and whether they can be run."""

    def put(self, path, content, runs=False):
        self[path] = (content.encode() if isinstance(content, str) else content, runs)


def printed(*command):
    """What a command prints, on both streams. Help of the program has status 2."""
    ran = subprocess.run(command, stdin=subprocess.DEVNULL, stdout=subprocess.PIPE, stderr=subprocess.STDOUT, check=False)
    return ran.stdout.decode()


def needs(*tools):
    """Stops where a tool isn't installed."""
    for tool in tools:
        if shutil.which(tool) is None:
            sys.exit(f"{pathlib.Path(sys.argv[0]).name}: {tool} is missing")


def git(*words):
    return subprocess.run(["git", *words], cwd=top, capture_output=True, text=True, check=False).stdout.strip()


def version_of(program):
    told = printed(program, "--version").split()
    if len(told) != 2 or told[0] != "tvdlg":
        sys.exit(f"{pathlib.Path(sys.argv[0]).name}: {program} is no tvdlg")
    return told[1]


def build_text(gate):
    """From what the program was built: the commit, the toolchain, and the last line of the gate's log, where there is one."""
    changed = " with changes" if git("status", "--porcelain", "--untracked-files=no") else ""
    lines = [f"commit {git('rev-parse', 'HEAD') or 'unknown'}{changed}"]
    if shutil.which("rt"):
        lines.append(f"toolchain {printed('rt', 'version').strip()}")
    if gate:
        lines.append(f"gate {pathlib.Path(gate).read_text(encoding='utf-8').rstrip().splitlines()[-1]}")
    return "".join(f"{line}\n" for line in lines)


def stripped(program, build):
    """The program without symbols, and with a section that says from what it was built."""
    needs("strip", "objcopy")
    with tempfile.TemporaryDirectory() as room:
        copy, note = pathlib.Path(room) / "tvdlg", pathlib.Path(room) / "BUILD"
        shutil.copy(program, copy)
        note.write_text(build, encoding="utf-8")
        subprocess.run(["strip", "--strip-all", copy], check=True)
        subprocess.run(["objcopy", f"--add-section={SECTION}={note}", copy], check=True)
        return copy.read_bytes()


def commands_of(program):
    """The commands that the program's help lists, each with what it does."""
    listed = re.search(r"^Commands:\n((?:  .*\n)+)", printed(program, "--help"), re.M).group(1)
    return {name: told for name, told in re.findall(r"^  (\w+) +(.*)$", listed, re.M) if name != "help"}


def narrow(line):
    """The line in lines that fit a page, each but the first below the last column of words."""
    column = re.match(r" *(?:\S+(?: \S+){0,3}  +)?", line).end()
    return textwrap.wrap(line, 72, subsequent_indent=" " * column) or [""]


def verbatim(text):
    """A text as it stands, for a manual page."""
    lines = [part for line in text.rstrip().splitlines() for part in narrow(line.rstrip())]
    lines = [line.replace("\\", "\\e").replace("-", "\\-") for line in lines]
    return ".nf\n" + "".join(f"\\&{line}\n" if line[:1] in (".", "'") else f"{line}\n" for line in lines) + ".fi\n"


def manual(name, version, summary, parts):
    """A manual page whose sections are texts of help, as they stand."""
    page = f'.TH {name.upper()} 1 "" "tvdlg {version}"\n.SH NAME\n{name} \\- {summary}\n'
    return page + "".join(f".SH {head}\n{verbatim(text)}" for head, text in parts)


def head_of(script):
    """The comment at the head of a script of tools/, behind its first line."""
    text = (top / "tools" / script).read_text(encoding="utf-8")
    return "".join(line[2:] or "\n" for line in re.match(r"#!.*\n((?:#.*\n)*)", text).group(1).splitlines(True)).replace("tools/", "")


def program_manual(program, version):
    parts = [("DESCRIPTION", printed(program, "--help"))]
    parts += [(f'"TVDLG {name.upper()}"', printed(program, name, "--help")) for name in commands_of(program)]
    return manual("tvdlg", version, "check, explain and run descriptions of text\\-mode dialogs", parts)


def completion(program):
    """For bash: the commands, the options of each, and files."""
    rows = ""
    for name in commands_of(program):
        options = sorted(set(re.findall(r"(?<![\w-])--[a-z][a-z-]*", printed(program, name, "--help"))))
        rows += f"    {name}) words='{' '.join(options)}' ;;\n"
    commands = " ".join(commands_of(program))
    return f"""\
# Completes words of tvdlg: commands, options and files.
_tvdlg() {{
  local word=${{COMP_WORDS[COMP_CWORD]}} words
  if [ "$COMP_CWORD" = 1 ]; then
    COMPREPLY=($(compgen -W '{commands} help --help --version' -- "$word"))
    return
  fi
  case ${{COMP_WORDS[1]}} in
{rows}    *) words='' ;;
  esac
  case $word in
    -*) COMPREPLY=($(compgen -W "$words" -- "$word")) ;;
    *) COMPREPLY=() ;;
  esac
}}
complete -o bashdefault -o default -F _tvdlg tvdlg
complete -o bashdefault -o default tvplay
"""


def put_library(files):
    """The library, its header and modules, where it is built."""
    if not linked.ARCHIVE.exists():
        print(f"without the library, since there is no {linked.ARCHIVE.relative_to(top)}")
        return
    with tempfile.TemporaryDirectory() as room:
        linked.linked(linked.ARCHIVE, room)
        linked.copy_bindings(room)
        places = {"libtvd.a": "lib", linked.SONAME: "lib", "tvd.h": "include", "tvd.py": "share/tvdlg/python"}
        places |= {name: "lib/tvdlg/pascal" for name in ("tvd.pas", "libtvd.o")}
        for name, place in places.items():
            files.put(f"{place}/{name}", (pathlib.Path(room) / name).read_bytes())
    # what `-ltvd` finds
    files.put("lib/libtvd.so", f"INPUT({linked.SONAME})\n")


def document(name):
    """A document for a package: its links lead to what is packed, and of all others only the words stay."""
    def packed_link(found):
        words, target, part = found[1], found[2], found[3] or ""
        path = os.path.normpath(pathlib.Path(name).parent / target)
        if path in DOCUMENTS:
            return f"[{words}]({pathlib.Path(path).name}{part})"
        return f"[{words}]({path}{part})" if path.startswith("examples/") else words
    text = (top / name).read_text(encoding="utf-8")
    return re.sub(r"\[([^\]`]+)\]\(([^)#\s]+)(#[^)\s]*)?\)", packed_link, text)


def packed(program, gate=None):
    """All files of a built program, and of the library."""
    files, version, build = Packed(), version_of(program), build_text(gate)
    files.put("bin/tvdlg", stripped(program, build), runs=True)
    for name in SCRIPTS:
        files.put(f"bin/{name}", (top / "tools" / name).read_bytes(), runs=True)
    files.put("share/man/man1/tvdlg.1", program_manual(program, version))
    play = printed(top / "tools/tvplay", "--help")
    files.put("share/man/man1/tvplay.1", manual("tvplay", version, "play a description in a terminal", [("DESCRIPTION", play)]))
    files.put("share/man/man1/tvask.1", manual("tvask", version, "stand in for dialog(1)", [("DESCRIPTION", head_of("tvask"))]))
    files.put("share/bash-completion/completions/tvdlg", completion(program))
    for name in DOCUMENTS:
        files.put(f"share/doc/tvdlg/{pathlib.Path(name).name}", document(name))
    for path in sorted((top / "examples").iterdir()):
        files.put(f"share/doc/tvdlg/examples/{path.name}", path.read_bytes())
    put_library(files)
    files.put("share/doc/tvdlg/BUILD", build)
    files.put("share/doc/tvdlg/copyright", NO_LICENCE)
    return files


def write(files, folder):
    """Writes the files below a folder."""
    for path, (content, runs) in files.items():
        place = pathlib.Path(folder) / path
        place.parent.mkdir(parents=True, exist_ok=True)
        place.unlink(missing_ok=True)
        place.write_bytes(content)
        os.chmod(place, 0o755 if runs else 0o644)
