#!/usr/bin/env python3
"""manpage.py HEADER VERSION DATE: prints a page of section 3, of a header's own comments and declarations.
manpage.py --names HEADER: prints the functions that it declares, one a line."""
import os
import re
import sys

# a name for a value
VALUE = r"#define VNC_\w+ \S+$"
PAGES = ("rfb_compat", "vnc_screen", "vnc_server", "vnc_types")


def escaped(text):
    """A text as roff has it."""
    return re.sub(r"^([.'])", r"\\&\1", text.replace("\\", "\\e").replace("-", "\\-"), flags=re.M)


def bold(text):
    return f"\\fB{escaped(text)}\\fR"


def prose(lines):
    """A comment's lines as paragraphs. A line that begins with a word or two apart from the others is labelled with these."""
    labelled = False
    for line in lines:
        label = re.match(r" {0,4}(\S+(?: \S+)*?) {2,}(\S.*)", line)
        if not line:
            labelled = False
            yield ".PP"
        elif label:
            labelled = True
            yield from (".TP", bold(label[1]), escaped(label[2]))
        else:
            if labelled and not line.startswith("     "):
                labelled = False
                yield ".PP"
            yield escaped(line.strip())


def lines_of(comment):
    """The lines of a comment, without what makes them one."""
    lines = [re.sub(r"^ \*( |$)", "", line).rstrip() for line in comment.strip()[2:-2].rstrip().split("\n")]
    return [lines[0].strip(), *lines[1:]]


def parts_of(text):
    """What a header says, in order: pairs of a kind (comment, block, call or gap) and its text."""
    lines = text.split("\n")
    while lines:
        taken = [lines.pop(0)]

        def take(ends):
            while lines and not ends(taken[-1]):
                taken.append(lines.pop(0))
            return "\n".join(taken)

        line = taken[0]
        if line.startswith("#") and not re.match(VALUE, line):
            take(lambda it: not it.endswith("\\"))
            yield "gap", ""
        elif line.startswith(("VNC_LAYOUT(", "_Static_assert(")):
            yield "gap", ""
        elif line.startswith("/*"):
            yield "comment", take(lambda it: "*/" in it)
        elif re.match(VALUE, line):
            yield "call", line
        elif not line or line in ('extern "C" {', "}"):
            yield "gap", ""
        elif line.startswith("static inline "):
            yield "call", take(lambda it: it == "}").split("\n{")[0].removeprefix("static inline ") + ";"
        elif re.match(r"(typedef )?(struct|enum|union)\b[^}]*\{", line) and "}" not in line:
            yield "block", take(lambda it: it.startswith("}"))
        else:
            yield "call", take(lambda it: re.search(r";\s*(/\*.*\*/)?$", it))


def noted(members):
    """The members of a block, each with its comment: the one above it, or behind it."""
    text = "\n".join(members)
    for above, code, behind in re.findall(r"(?:/\*((?:(?!\*/).)*)\*/\s*\n\s*)?([^\n/]+[^\s/])[^\S\n]*(?:/\*(.*?)\*/)?(?:\n|$)", text, re.S):
        yield code.strip(), re.sub(r"\s*\n\s*\*?\s*", " ", above or behind).strip()


def declarations(text):
    before = "gap"
    for kind, it in parts_of(text):
        code, _, note = re.sub(r"\s+", " ", it).partition("/*")
        if before == "call" != kind:
            yield ".in -4"
        if kind == "call":
            yield from (".br", ".ti -4") if before == "call" else (".PP", ".in +4", ".ti -4")
            yield bold(code.strip()) + ("  " + escaped(note.replace("*/", "").strip()) if note else "")
        elif kind == "comment":
            first, *others = lines_of(it)
            heading = re.fullmatch(r"---- (.*) ----", first)
            yield ".SS " + escaped(heading[1]) if heading else ".PP"
            yield from prose(others if heading else [first, *others])
        elif kind == "block":
            first, *members, last = it.split("\n")
            yield from (".PP", bold(first.strip()), ".RS 4")
            for code, note in noted(members):
                yield from (".TP", bold(code), escaped(note)) if note else (".PP", bold(code))
            yield from (".RE", ".PP", bold(last.strip()))
        before = kind


def names(text):
    """The functions that a header declares."""
    return [found[1] for kind, it in parts_of(text) if kind == "call" for found in re.finditer(r"^(?!typedef)[^()]*?(\w+)\([^()]*\);", it)]


def page(path, version, day):
    name = os.path.basename(path).removesuffix(".h")
    head, _, rest = text_of(path).partition("*/")
    about = lines_of(head + "*/")
    about[0] = about[0].removeprefix(name + ".h: ")
    use = {"vnc_types": "", "rfb_compat": "$(pkg-config --variable=sources rfb_compat) "}.get(name, "")
    yield f'.TH {name.upper()} 3 "{day}" "libvnc-server {version}" "C library"'
    yield from (".nh", ".ad l", ".SH NAME")
    yield f"{name} \\- " + escaped(re.split(r"\.(?= |$)", " ".join(about))[0])
    yield from (".SH SYNOPSIS", bold(f"#include <{name}.h>"))
    if name != "vnc_types":
        yield from (".PP", bold(f"cc program.c {use}$(pkg-config --cflags --libs {name})"))
    yield ".SH DESCRIPTION"
    yield from prose(about)
    yield ".SH DECLARATIONS"
    yield from declarations(rest)
    yield ".SH SEE ALSO"
    yield ", ".join(f"\\fB{it}\\fR(3)" for it in PAGES if it != name)


def text_of(path):
    with open(path, encoding="utf-8") as it:
        return it.read()


if __name__ == "__main__":
    print("\n".join(names(text_of(sys.argv[2])) if sys.argv[1] == "--names" else page(*sys.argv[1:])))
