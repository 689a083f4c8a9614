"""Compares the numbers of jsonptr.h with those of the proved calls and of the Python module."""
import os
import re
import sys

HERE = os.path.dirname(os.path.abspath(__file__))
TOP = os.path.dirname(os.path.dirname(HERE))


def text_of(path):
    """Returns the text of a file, by its path from the top of the repository."""
    with open(f"{TOP}/{path}", encoding="utf-8") as file:
        return file.read()


def defined():
    """Returns the numbers that jsonptr.h defines, by their names without the prefix."""
    rows = re.findall(r"^#define JSONPTR_(\w+) +(\d+)u?(?: |$)", text_of("tools/c/jsonptr.h"), re.M)
    return {re.sub("^TYPE_", "", name): int(number) for name, number in rows}


def of_calls():
    """Returns the numbers of the proved calls."""
    constants = {}
    for module, prefix in (("error_numbers", ""), ("node", ""), ("text_format", "FORMAT_")):
        source = text_of(f"crates/jsonptr_c_calls/src/{module}.rt")
        rows = re.findall(r"^pub const (\w+): u32 = (\d+);", source, re.M)
        constants.update({prefix + name: int(number) for name, number in rows})
    return constants


def of_module():
    """Returns the statuses of the Python module."""
    row = re.search(r"^(OK,[^=]*)= range\((\d+)\)", text_of("tools/c/jsonptr.py"), re.M)
    return dict(zip(re.findall(r"\w+", row[1]), range(int(row[2]))))


def main():
    header = defined()
    outside = {"COMPACT", "PRETTY", "EXACT_NUMBERS", "REFORMAT", "FORMAT_JSON", "MEMBER_NONE", "KIND_NONE", "VERSION_MAJOR", "VERSION_MINOR", "VERSION_PATCH"}
    errors = []
    if {name: number for name, number in header.items() if name not in outside} != of_calls():
        errors.append(f"jsonptr.h and the calls differ: {sorted(set(header.items()) ^ set(of_calls().items()))}")
    errors += [f"{name} of the Python module is {number}" for name, number in of_module().items() if header.get(name) != number]
    if errors:
        sys.exit("\n".join(errors))
    print(f"numbers: {len(header)} of jsonptr.h")


if __name__ == "__main__":
    main()
