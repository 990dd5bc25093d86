"""What a check of a crate with wrong text says of the function or the law that must fail, for the tools that try such text."""
import atexit
import collections
import os
import pathlib
import re
import shutil
import subprocess
import tempfile
import threading

import crates

HEAD = re.compile(r"^( *)(?:#\[[^\]]*\]\s*)*(?:pub(?:\([^)]*\))?\s+)?(?:extern\s+\"C\"\s+)?fn\s+(\w+)", re.M)
TOLD = re.compile(r"^(?:note: )?(?:\./)?((?:src|specs|proofs)/\S+?):(\d+):(\d+): (.*)$")
NOT_PROVED = re.compile(r"it is not proved that |`search` found no proof \(`invariant_of-")  # what a note at a place of src/ begins with; the second of a ghost field
THROUGH = "was not admitted"  # what it cites is not proved: no fact of its own
GONE = [  # the proof names what the edit took away
    "that can be named from here",
    "has no field `",
    "` is not in scope",
    "` names nothing here",
    "names no implicit argument",
    "explicit arguments? more than",
    "proves only a path",
]
LIMIT = "antt ran out of |outgrew the memory limit|stopped at the step limit"  # it gave no verdict
MISSED = [  # a step of the proof does not meet its goal: no fact, though another of the function's may be
    "no occurrence of the path's",
    "`: no part of the (goal|hypothesis)",
    "is checked against `.*which is not a",
]

Told = collections.namedtuple("Told", "path line text block")  # block: with the lines that belong to it


def read(path):
    return path.read_text(encoding="utf-8", errors="surrogateescape")


def impls(text):
    """The impl blocks of a file: where each begins and ends, and how its functions are told from those of others: as the folders of their proofs are named,
    `Recipe` of methods, `U32FromVerdict` of a conversion, else the type and the trait."""
    for block in re.finditer(r"^impl\b(?:<[^{}]*?>)?\s+([^{]*?)\s*\{$", text, re.M):
        trait, _, target = block[1].rpartition(" for ")
        name, source = re.fullmatch(r"(?:\w+::)*(\w*)(?:<(.*)>)?", trait).groups()
        target, source = (re.sub(r"\W.*", "", (it or "").lstrip("&")) for it in (target, source))
        own = target[:1].upper() + target[1:] + name + source[:1].upper() + source[1:]
        yield block.start(), text.find("\n}", block.start()), own


def qualified(text, head):
    """The name of a function, with that of its impl block where it stands in one."""
    return ".".join([own for start, end, own in impls(text) if start <= head.start() <= end] + [head[2]])


def function_at(text, at):
    """The name of the function whose text is at that place, or nothing; of a place between a block's functions, that of its first."""
    heads = [head for head in HEAD.finditer(text) if head.start() <= at]
    if heads and 0 <= at <= text.find(f"\n{heads[-1][1]}}}", heads[-1].start()):
        return qualified(text, heads[-1])
    for start, end, own in impls(text):
        if start <= at <= end and (head := HEAD.search(text, start, end)):
            return f"{own}.{head[2]}"
    return None


def module_of(file):
    module = pathlib.PurePath(file).with_suffix("").parts[1:]
    return () if module == ("lib",) else module


def told_of(text):
    """What a check tells at places of the crate's files."""
    found = []
    for line in text.splitlines():
        if at := TOLD.match(line):
            found.append(Told(at[1], int(at[2]), at[4], [line]))
        elif line.startswith(" ") and found and found[-1].block:
            found[-1].block.append(line)
        else:
            found.append(Told("", 0, "", []))  # what follows belongs to nothing
    return [told for told in found if told.block]


def concerns(aim, crate, told):
    """Whether it is told of the function or the law. An edit moves no line."""
    if aim[0] == "law":
        return told.path == aim[1] and told.text.startswith(f"error: `{aim[2]}`:")
    if told.path.startswith("proofs/"):
        place = pathlib.PurePath(told.path).parent.parts[1:]  # a method has its block's folder between
        return place == (*aim[1:-1], *aim[-1].split("."))
    if not told.path.startswith("src/") or module_of(told.path) != aim[1:-1] or not NOT_PROVED.match(told.text):
        return False
    text = read(crate / told.path)
    return function_at(text, sum(len(line) + 1 for line in text.split("\n")[: told.line - 1])) == aim[-1]


def says(patterns, told):
    return re.search("|".join(patterns), "\n".join(told.block), re.S)


def said(told):
    return f"{told.path}:{told.line}: {told.text}"


def own_fact(every, takes_steps=False):
    """Of what is told of one function or law: whether a fact of its own fails, and the words. `takes_steps`: a step of the proof that does not meet its
    goal counts as one."""
    own = [told for told in every if THROUGH not in told.text and (told.path.startswith("src/") or "error: " in told.text)]
    gone = [told for told in own if says(GONE, told)]
    facts = [told for told in own if not says([*(() if takes_steps else MISSED), LIMIT], told)]
    if own and (gone or not facts):
        return False, f"only its proof no longer fits, or a limit was met: {said((gone or own)[0])}"
    return (True, said(facts[0])) if facts else (False, "no fact of its own fails")


def link_or_copy(one, other):
    """A second name for what a check kept: it replaces such a file, and changes none."""
    try:
        return os.link(one, other) if one.endswith(".oantt") else shutil.copy2(one, other)
    except OSError:
        return shutil.copy2(one, other)


BEGUN, ONE_BY_ONE = {}, threading.Lock()


def begun(folder):
    """A folder with what a check of the crate as it stands has proved: what an earlier check kept, or else one that is made here and removed at the end."""
    with ONE_BY_ONE:
        own = BEGUN.setdefault(folder, [threading.Lock(), None])
    with own[0]:
        if not own[1] and (folder / "out/incremental").is_dir():
            own[1] = folder / "out/incremental"
        if not own[1]:
            room = tempfile.mkdtemp(prefix="gromavelush-begun-")
            atexit.register(shutil.rmtree, room, ignore_errors=True)
            rattle_check(folder.name, folder, room, max(1, len(os.sched_getaffinity(0)) // 2))
            own[1] = room
    return own[1]


def rattle_check(name, at, kept, jobs):
    """What a check of the crate `name` says whose files stand in the folder `at`, over what `kept` holds."""
    known = crates.listed()
    root = "src/main.rt" if crates.is_program(name) else "src/lib.rt"
    words = [str(crates.kit() / "bin/rattle"), "check", "--crate-name", name, root, *crates.words_over(known, known[name][1]), "--jobs", str(jobs)]
    words += ["--links", f"{name}=", "--incremental", str(kept)] + ["--crate-type", "staticlib"] * crates.is_static(known, name)
    return subprocess.run(words, cwd=at, stdin=subprocess.DEVNULL, stdout=subprocess.PIPE, stderr=subprocess.STDOUT, errors="replace").stdout


def checked(folder, texts):
    """All that a check of the crate says with these texts of its files."""
    with tempfile.TemporaryDirectory() as room:
        to = pathlib.Path(room, folder.name)
        for part in crates.PARTS:
            if (folder / part).is_dir():
                shutil.copytree(folder / part, to / part)
        for file, text in texts.items():
            (to / file).write_text(text, encoding="utf-8", errors="surrogateescape")
        shutil.copytree(begun(folder), to / "kept", symlinks=True, copy_function=link_or_copy)
        return rattle_check(folder.name, to, to / "kept", 1)
