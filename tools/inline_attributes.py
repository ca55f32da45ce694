"""Gives a module that was made without proof the inline attributes of the sources, for tools/build.sh --unproved.

    python3 tools/inline_attributes.py IN.ll OUT.ll

What `rt try` hands to the compiler has no inline attributes, keeps a frame pointer and blanks its stack, all of which a proved
build does not. So counts of instructions would be those of another program.
"""
import glob
import os
import re
import sys

TOP = os.path.join(os.path.dirname(os.path.abspath(__file__)), "..")
ATTRIBUTES = {
    "#[inline(always)]": "alwaysinline",
    "#[inline]": "inlinehint",
    "#[inline(never)]": "noinline",
}
FUNCTION = re.compile(r"(\s*)(?:pub(?:\(\w+\))?\s+)?(?:unsafe\s+)?fn\s+(\w+)")
IMPLEMENTATION = re.compile(r"impl(?:<[^>]*>)?\s+(?:[\w:<>]+\s+for\s+)?(\w+)")


def functions_of(path):
    """The functions of a file that have an inline attribute, each by its name in the module."""
    crate, file = path.split("/crates/")[1].split("/src/")
    module = file[:-3].replace("/", "::")
    place = crate if module == "lib" else f"{crate}::{module}"
    type_name, attribute = None, None
    for line in open(path):
        if found := IMPLEMENTATION.match(line):
            type_name = found[1]
        elif line.startswith("}"):
            type_name = None
        attribute = ATTRIBUTES.get(line.strip(), attribute)
        if found := FUNCTION.match(line):
            if attribute:
                inside = f"::{type_name}" if found[1] and type_name else ""
                yield f"{place}{inside}::{found[2]}", attribute
            attribute = None


def as_proved(line, attributes):
    """A line of the module with what a proved build has, or nothing where it lacks the line."""
    if "call void @llvm.memset" in line and "i8 -86" in line:
        return ""
    if line.startswith("define ") and (name := re.search(r'@"([^"]+)"\(', line)):
        attribute = attributes.get(name[1]) or attributes.get(re.sub(r"::<.*$", "", name[1]))
        return re.sub(r"\) (#\d+)", rf") {attribute} \1", line, count=1) if attribute else line
    if line.startswith("attributes #"):
        line = re.sub(
            r' sanitize_address| "frame-pointer"="all"| "probe-stack"="[^"]*"| "stack-probe-size"="\d+"',
            "",
            line,
        )
        return line.replace("{ }", '{ "frame-pointer"="none" }')
    return line


def main():
    source, target = sys.argv[1:]
    attributes = {}
    for path in glob.glob(os.path.abspath(TOP) + "/crates/*/src/**/*.rt", recursive=True):
        attributes.update(functions_of(path))
    with open(source) as lines, open(target, "w") as out:
        out.writelines(as_proved(line, attributes) for line in lines)


if __name__ == "__main__":
    main()
