#!/usr/bin/env python3
"""check.py: holds the documents to the repository. Each file, folder, crate, function and type that a document names between backticks
is there, and where a document says in which file, in that one; docs/DEFINITIONS.md names each file of definitions that a contract rests
on; the comments of functions begin with what these do; and the proofs of the C libraries' doors are what c/tools/walks.py writes. It
prints a line for each thing that isn't so, and ends with status 1 where there is one. CHANGELOG.md, which speaks of names that are
gone, isn't looked at."""
import glob
import os
import re
import shutil
import subprocess
import sys
import tempfile

TOP = os.path.dirname(os.path.dirname(os.path.realpath(__file__)))
DOCUMENTS = ["README.md", "bench/README.md", *sorted(os.path.relpath(it, TOP) for it in glob.glob(glob.escape(TOP) + "/docs/*.md"))]
COMMENTS = {".rt": "//", ".antt": "--"}
# Words between backticks that are no names of this repository: of other programs, of libraries, of C and of Rust.
FOREIGN = re.compile(r"(rfb|sra)[A-Z]\w*|rfb\w*\.h|\w+_t|lib\w+|x\w*vnc\w*|gvnc\w+|vncsnapshot|vncev|indexmap|[iu](8|16|32|64|size)"
                     r"|[PC]C|main|ssh|stunnel\w*|rattle-kit-\w+")

# A function with its comment's first word, its attributes between.
COMMENTED = re.compile(r"^[ \t]*///[ \t]*(\S*)[^\n]*\n(?:[ \t]*(?:///|#\[)[^\n]*\n)*[ \t]*(?:pub(?:\([a-z]+\))? )?(?:const |unsafe |extern \"C\" )*fn (\w+)", re.M)


def text_of(path):
    with open(os.path.join(TOP, path), encoding="utf-8", errors="replace") as it:
        return it.read()


def words_in(path):
    """The words of a file, but for those that only comments have."""
    text, mark = text_of(path), COMMENTS.get(os.path.splitext(path)[1])
    text = re.sub(mark + ".*", "", text) if mark else text
    return {part for word in re.findall(r"[A-Za-z_][\w-]*", text) for part in (word, *word.split("-"))}


def pattern_of(name):
    """A name as a pattern: a star, a <part>, and what an underscore at an end leaves open stand for anything."""
    name = re.sub(r"^_(?=\w)", "*_", re.sub(r"(?<=\w)_$", "_*", name))
    return re.compile(r"\w*".join(map(re.escape, re.split(r"\*|<\w+>", name))))


def files_of(name, paths):
    """The paths that a document may mean: the name as it stands, or as a path's end."""
    wanted = re.compile("(.*/)?" + pattern_of(name.rstrip("/")).pattern)
    return [path for path in paths if wanted.fullmatch(path)]


def unknown(document, paths, words):
    """What a document names that is not there, or not in the file that it says."""
    text = re.sub(r"^```.*?^```", "", text_of(document), flags=re.S | re.M)
    everywhere = set().union(*words.values()) | {word for path in paths for word in re.findall(r"\w+", path)}
    for name in re.findall(r"`([^`\n]+)`", text):
        parts = re.findall(r"[A-Za-z_*<][\w*<>-]*", name)
        if re.search(r"\s|^[-/.$\d]|=|://", name) or FOREIGN.fullmatch(name):
            continue
        if re.search(r"\w/|\.[a-z]+$", name):
            if not files_of(name, paths) and not re.match(r"(crates/\w+/out|bench/build)/", name):
                yield f"`{name}`, which is not there"
        elif any(not FOREIGN.fullmatch(part) and not any(map(pattern_of(part).fullmatch, everywhere)) for part in parts):
            yield f"`{name}`, which is not there"
        elif "::" in name and not any(set(parts) <= its for its in words.values()):
            yield f"`{name}`, which no file has together"
    for path, names in re.findall(r"`([\w/]+\.(?:antt|rt))`: ((?:`\w+`(?:, )?)+)", text):
        for name in re.findall(r"\w+", names):
            if not any(name in words.get(it, ()) for it in files_of(path, paths)):
                yield f"`{name}` in `{path}`, where it is not"


def cited(text, handed_on):
    """The files of definitions that a text cites, as crate and name, each where it stands."""
    for it in re.findall(r"use Rattle\.(\w+)\.specs\.(\w+)", text):
        yield handed_on.get(it, it)


def definitions(files):
    """What docs/DEFINITIONS.md lacks of the files that contracts rest on, but for kinds that it leaves out, and what it has too much."""
    found = [re.fullmatch(r"crates/(\w+)/specs/(\w+)\.antt", path) for path in files]
    specs = {it.groups(): text_of(it[0]) for it in found if it}
    handed_on = {(crate, it[1]): it for crate, name in specs if name == "Lib" for it in re.findall(r"pub use Rattle\.(\w+)\.specs\.(\w+)", specs[crate, name])}
    left = [it for path in files if re.match(r"crates/\w+/src/.*\.rt$", path) for it in cited(text_of(path), handed_on)]
    wanted = set()
    while left:
        it = left.pop()
        if it in specs and it not in wanted and not it[1].endswith(("Lemmas", "Examples")):
            wanted.add(it)
            left += cited(specs[it], handed_on)
    named, crate = set(), ""
    for name in re.findall(r"`([^`\n]+)`", text_of("docs/DEFINITIONS.md")):
        it = re.fullmatch(r"(?:(?:crates/)?(\w+)/specs/)?(\w+)\.antt", name)
        if it:
            crate = it[1] or crate
            named.add((crate, it[2]))
        elif os.path.isdir(f"{TOP}/crates/{name}"):
            crate = name
    yield from (f"docs/DEFINITIONS.md has no {name}.antt of {crate}, on which a contract rests" for crate, name in sorted(wanted - named))
    yield from (f"docs/DEFINITIONS.md has {name}.antt of {crate}, which is not there" for crate, name in sorted(named - set(specs)) if name != "Examples")


def comments(files):
    """The functions whose comments don't begin with a verb in the third person, as "Returns"."""
    for path in files:
        if re.match(r"crates/\w+/src/.*\.rt$", path):
            yield from (f"{path}: the comment of {name} begins with `{word}`, no verb in the third person" for word, name in COMMENTED.findall(text_of(path))
                        if not re.fullmatch(r"[A-Z][a-z]+s,?", word) or word in ("Its", "This", "Is"))


def doors():
    """The proofs of a C library that aren't what the generator writes."""
    for name in ("vnc_screen", "vnc_server"):
        with tempfile.TemporaryDirectory() as room:
            shutil.copytree(f"{TOP}/crates/{name}", f"{room}/{name}", ignore=shutil.ignore_patterns("out"))
            for made in glob.glob(f"{glob.escape(room)}/{name}/proofs/*/Proof.antt"):
                if "Made by c/tools/walks.py" in text_of(made):
                    os.remove(made)  # (one that isn't made again is missed)
            subprocess.run([sys.executable, f"{TOP}/c/tools/walks.py", f"{room}/{name}"], check=True, stdout=subprocess.DEVNULL)
            ran = subprocess.run(["diff", "-rq", "-x", "out", f"{TOP}/crates/{name}", f"{room}/{name}"], capture_output=True, text=True)
            if ran.returncode > 1:
                yield f"diff: {ran.stderr.strip()}"
            yield from (f"c/tools/walks.py: {it}" for it in ran.stdout.replace(room, "made").replace(TOP + "/", "").splitlines())


def main():
    listed = subprocess.run(["git", "ls-files"], cwd=TOP, capture_output=True, text=True, check=True).stdout.split("\n")
    files = [path for path in listed if os.path.isfile(os.path.join(TOP, path))]
    paths = files + sorted({"/".join(path.split("/")[:n]) for path in files for n in range(1, path.count("/") + 1)})
    words = {path: words_in(path) for path in files if not path.endswith(".md") and "/data/" not in path}
    wrong = [f"{document} names {it}" for document in DOCUMENTS for it in dict.fromkeys(unknown(document, paths, words))]
    wrong += [*definitions(files), *comments(files), *doors()]
    print("\n".join([*wrong, f"the documents: {len(DOCUMENTS)} looked at, {len(wrong)} things that aren't so"]))
    return 1 if wrong else 0


if __name__ == "__main__":
    sys.exit(main())
