"""Checks `./vendor`: it puts the library into an empty folder where the example runs, and it changes nothing else. Also makes
the program of the page of edits (`docs/EDITING.md`), as the page says, and runs it.

An update is checked on copies of an earlier repository, which is made of this one: with the old name of a crate, and with
other files. Each copy is updated once as its record says, and once without records, as one of the release 0.3.0.
"""
import contextlib
import importlib.util
import io
import os
import re
import shutil
import subprocess
import sys
import tempfile
from importlib.machinery import SourceFileLoader

from crate_names import EXTRAS, crate_of, renamed

TOP = os.path.dirname(os.path.dirname(os.path.abspath(__file__)))
PAGE = f"{TOP}/docs/EDITING.md"
BLOCK = re.compile(r"^```(\w+)\n(.*?)^```$", re.MULTILINE | re.DOTALL)
# The earlier repository has this crate by its old name, and these files.
OLD, NEW = "jsonptr_diff", "jsonptr_patch_diff"
EARLIER = {
    "jsonptr_grammar/src/earlier.rt": "// It is gone.\n",
    "jsonptr_syntax/src/lib.rt": "//! It was shorter.\n",
    "jsonptr_diff/specs/Lib.antt": "-- It was another one.\n",
}
OWN_LINE = "app: jsonptr jsonptr_diff jsonptr_edit_in_text  serde_json # mine\n"
OWN_SOURCE = "use jsonptr_diff::diff;\nuse jsonptr_edit_in_text::assign_in_text_with;\n"


def vendor(*arguments, status=0, top=TOP):
    """Runs `./vendor` of a repository, and checks its exit status. Returns what it printed."""
    run = subprocess.run([f"{top}/vendor", *arguments], capture_output=True, encoding="utf-8")
    if run.returncode != status:
        sys.exit(f"check_vendor: ./vendor {arguments} ended with status {run.returncode}:\n{run.stdout}{run.stderr}")
    return run.stdout + run.stderr


def contents(folder):
    """Returns the bytes of each file below a folder, without build results."""
    found = {}
    for path, folders, files in os.walk(folder):
        folders[:] = [name for name in folders if name != "out"]
        for name in files:
            with open(os.path.join(path, name), "rb") as file:
                found[os.path.join(path, name)] = file.read()
    return found


def read(path):
    """Returns the text of a file."""
    with open(path, encoding="utf-8") as file:
        return file.read()


def write(path, text):
    """Writes a file, and the folders above it."""
    os.makedirs(os.path.dirname(path), exist_ok=True)
    with open(path, "w", encoding="utf-8") as file:
        file.write(text)


def check(holds, message):
    """Ends the program with a message if a condition does not hold."""
    if not holds:
        sys.exit(f"check_vendor: {message}")


def check_example(folder):
    """Runs the example as `./vendor` made it, without a proof."""
    run = subprocess.run(["rt", "try"], cwd=f"{folder}/crates/app", capture_output=True, encoding="utf-8")
    with open(f"{TOP}/crates/jsonptr_example/stdout", encoding="utf-8") as file:
        expected = file.read()
    check(run.returncode == 0 and expected in run.stdout, f"rt try in crates/app:\n{run.stdout}{run.stderr}")


def check_extras(folder):
    """Adds the extras, and checks that each crate that they use is there and that nothing else changed."""
    before = contents(folder)
    vendor(folder, *EXTRAS)
    after, lines = contents(folder), f"{folder}/crates.txt"
    check(after[lines].startswith(before.pop(lines)), "an extra changed lines of crates.txt")
    check(before.items() <= after.items(), "an extra changed a file that was there")
    with open(lines, encoding="utf-8") as file:
        crates = dict(line.split(":") for line in file.read().splitlines())
    check({*map(crate_of, EXTRAS)} <= set(crates), f"an extra is not in {crates}")
    ours = {it for used in crates.values() for it in used.split() if os.path.isdir(f"{TOP}/crates/{it}")}
    check(ours <= set(crates), f"{ours - set(crates)} are not in crates.txt")
    for name in crates:
        check(os.path.isdir(f"{folder}/crates/{name}/src"), f"crates/{name} is missing")
        for left_out in ("must-fail", "mutants"):
            check(not os.path.exists(f"{folder}/crates/{name}/{left_out}"), f"crates/{name} has {left_out}")


def check_links(folder):
    """Checks that each link of a copied page leads to a file."""
    for path, content in contents(folder).items():
        for target in re.findall(r"\]\(([^)#\s]+)", content.decode()) if path.endswith(".md") else []:
            there = re.match(r"\w+:", target) or os.path.exists(os.path.join(os.path.dirname(path), target))
            check(there, f"{path} has a link to {target}, which is not there")


def check_lines(folder):
    """Checks the line of `app`, and the line that `./vendor` prints for a crate that the user makes."""
    with open(f"{folder}/crates.txt", encoding="utf-8") as file:
        line = next(it for it in file.read().splitlines() if it.startswith("app:"))
    check(line == "app: jsonptr jsonptr_patch_diff serde_json anyhow", f"the line of app is {line}")
    with tempfile.TemporaryDirectory() as other:
        check(f"    {line}\n" in vendor(other, "patch_diff"), "./vendor prints another line for a first crate")


def check_old_calls():
    """Checks that calls and crates of the last release are named in a crate of the user's, each with the new one."""
    with tempfile.TemporaryDirectory() as temporary:
        folder = os.path.realpath(temporary)
        vendor(folder, "--example")
        source, lines = f"{folder}/crates/app/src/old.rt", f"{folder}/crates.txt"
        write(source, "use jsonptr_edit_in_text::{apply_raw_in_place, assign_in_text, locate_in_text};\n")
        write(f"{folder}/crates/app/specs/Old.antt", "open import Rattle.jsonptr_in_text.specs.InText\n")
        write(lines, read(lines).replace("app: jsonptr", "app: jsonptr jsonptr_paths"))
        written = vendor(folder, "text_edit")
        number = [it.split(":")[0] for it in read(lines).splitlines()].index("app") + 1
        for row in (
            f"{source}:1: apply_raw_in_place is gone: use edit_text of jsonptr_text_edit",
            f"{source}:1: locate_in_text is gone: use locate of jsonptr_text_edit",
            f"{source}:1: jsonptr_edit_in_text is jsonptr_text_step now",
            f"{folder}/crates/app/specs/Old.antt:1: jsonptr_in_text is jsonptr_text_resolve now",
            f"{lines}:{number}: jsonptr_paths is jsonptr_text_paths now",
        ):
            check(f"{row}\n" in written, f"./vendor does not say '{row}':\n{written}")
        check(written.count(" is gone") == 2 and written.count(" now\n") == 3, f"./vendor names something else:\n{written}")


def check_names():
    """Checks that each crate that was renamed is a crate here, and that an old extra is answered with the new name."""
    crates = [it.split(":")[0] for it in read(f"{TOP}/crates.txt").splitlines()]
    for old, new in renamed(crates).items():
        check({*new} <= {*crates}, f"{old} is not {new}, which are no crates")
    with tempfile.TemporaryDirectory() as folder:
        said = vendor(folder, "in_text", status=2)
        check("the extra in_text is called text_resolve now. Nothing changed.\n" in said, f"of in_text it says {said}")
        check(not os.listdir(folder), "an old extra changed something")


def check_refusals(folder):
    """Checks that nothing changes if a crate that is there differs, or if the folder is in this repository."""
    with open(f"{folder}/crates/jsonptr_syntax/src/lib.rt", "a", encoding="utf-8") as file:
        file.write("// changed\n")
    before = contents(folder)
    vendor(folder, "--example", status=1)
    check(contents(folder) == before, "a folder that differs was changed")
    for inside in [TOP, f"{TOP}/crates", f"{TOP}/vendored", f"{folder}/../{os.path.relpath(TOP, os.path.dirname(folder))}"]:
        vendor(inside, status=1)
        check(not os.path.exists(f"{TOP}/vendored"), "a folder in this repository was made")
    vendor(folder, "unknown", status=2)
    check("FOLDER is missing" in vendor(status=2), "./vendor alone does not say what is missing")


def earlier_repository(folder):
    """Makes an earlier repository of this one, in an empty folder."""
    for name in ("vendor", "LICENSE", "crates.txt", "tools/crate_names.py"):
        os.makedirs(os.path.dirname(f"{folder}/{name}"), exist_ok=True)
        shutil.copy(f"{TOP}/{name}", f"{folder}/{name}")
    for name in os.listdir(f"{TOP}/crates"):
        left_out = shutil.ignore_patterns("out", "mutants", "must-fail")
        shutil.copytree(f"{TOP}/crates/{name}", f"{folder}/crates/{name}", ignore=left_out)
    os.rename(f"{folder}/crates/{NEW}", f"{folder}/crates/{OLD}")
    for name in ("crates.txt", "tools/crate_names.py"):
        text = re.sub(rf"\b{NEW}\b", OLD, read(f"{folder}/{name}"))
        write(f"{folder}/{name}", text.replace('"patch_diff"', '"diff"').replace(f'"{OLD}": ["{OLD}"],', ""))
    for name, text in EARLIER.items():
        write(f"{folder}/crates/{name}", text)


def earlier_copy(earlier, folder):
    """Makes a copy of an earlier repository, with a crate of the user's and with what `rt` builds. Returns its contents."""
    vendor(folder, "diff", "--example", top=earlier)
    lines = read(f"{folder}/crates.txt").splitlines(True)
    write(f"{folder}/crates.txt", "# Ours\n" + "".join(it for it in lines if not it.startswith("app:")) + OWN_LINE)
    write(f"{folder}/crates/app/src/main.rt", OWN_SOURCE)
    for name in ("jsonptr", OLD):
        write(f"{folder}/crates/{name}/out/built", name)
    return contents(folder)


def check_changed(folder):
    """Checks that changes of a copy are named, each with its diff, and that nothing is updated then."""
    copied = contents(folder)
    base, syntax, own = (f"{folder}/crates/{it}" for it in ("jsonptr_base/src/lib.rt", "jsonptr_syntax/src/lib.rt", f"{OLD}/mine.rt"))
    write(base, f"{read(base)}// changed\n")
    write(syntax, "//! It was mine.\n")
    write(own, "")
    os.remove(f"{folder}/crates/jsonptr_walk/src/lib.rt")
    before = contents(folder)
    written = vendor(folder, "--update", status=1)
    check(contents(folder) == before, "an update changed something, although a copy was changed")
    for said in (
        f"{base} was changed\n",
        f"{syntax} was changed: below beside the new file, as the copied one is not here\n",
        f"{own} is not a file of the library\n",
        f"{folder}/crates/jsonptr_walk lacks 1 of the files that were copied\n",
        "--- a/crates/jsonptr_base/src/lib.rt\n+++ b/crates/jsonptr_base/src/lib.rt\n",
        "\n+// changed\n",
        "\n+//! It was mine.\n",
    ):
        check(said in written, f"of changes it does not say '{said}':\n{written}")
    check("\n-" not in written.split("+++ b/")[1].split("\n--- a/")[0], f"the diff has more than the change:\n{written}")
    os.remove(own)
    for path, content in copied.items():
        with open(path, "wb") as file:
            file.write(content)


def check_updated(folder, written):
    """Checks a copy that was updated, beside one that is made anew, and what the update said."""
    lines = read(f"{folder}/crates.txt")
    with tempfile.TemporaryDirectory() as other:
        vendor(other, "patch_diff", "text_edit", "--example")
        for path in (f"{folder}/crates/{OLD}", f"{folder}/crates/jsonptr/out/built"):
            check(os.path.exists(path) == path.endswith("built"), f"{path} is there, or is not there")
        made, updated = ({os.path.relpath(it, top): text for it, text in contents(top).items()} for top in (other, folder))
        differs = {it for it in {*made, *updated} if made.get(it) != updated.get(it)}
        check(differs == {"crates.txt", "crates/app/src/main.rt"}, f"a copy that was updated differs in {differs}")
        rows = {*read(f"{other}/crates.txt").splitlines()}
    line = OWN_LINE.replace(OLD, NEW).replace("jsonptr_edit_in_text", "jsonptr_text_step")
    check({*lines.splitlines(True)} - {f"{it}\n" for it in rows} == {"# Ours\n", line}, f"an update makes the lines\n{lines}")
    check(read(f"{folder}/crates/app/src/main.rt") == OWN_SOURCE, "an update changed a source")
    for said in (
        f"Removed from {folder}/crates: {OLD}.\n",
        f"In the line of app, {OLD} is {NEW} now.\n",
        f"{folder}/crates/app/src/main.rt:1: {OLD} is {NEW} now\n",
        f"{folder}/crates/app/src/main.rt:2: assign_in_text_with is gone: use edit_text of jsonptr_text_edit\n",
        f"To use jsonptr_text_edit in app, add it to its line in {folder}/crates.txt.\n",
    ):
        check(said in written, f"an update does not say '{said}':\n{written}")


def loaded_vendor():
    """Returns `./vendor` as a module."""
    spec = importlib.util.spec_from_loader("vendor", SourceFileLoader("vendor", f"{TOP}/vendor"))
    module = importlib.util.module_from_spec(spec)
    spec.loader.exec_module(module)
    return module


def check_failing(folder):
    """Checks that an update of a copy of the folder changes nothing if a move fails: some of them, one after the other."""
    module, rename = loaded_vendor(), os.rename
    crates = module.crates_of(read(f"{TOP}/crates.txt"))
    with tempfile.TemporaryDirectory() as temporary:
        copy = shutil.copytree(folder, f"{temporary}/copy")
        before, made = contents(copy), []

        def failing(old, new):
            made.append(new)
            if len(made) == last:
                raise OSError(f"move {last}")
            rename(old, new)

        for last in range(1, 1000, 9):
            planned = module.Update(module.Target(copy), crates, [])
            made.clear()
            os.rename = failing
            try:
                planned.write()
                break
            except OSError:
                check(contents(copy) == before, f"an update whose move {last} fails changed something")
            finally:
                os.rename = rename
        check(last > 9, "an update moves less than ten folders")


def check_without_records(folder):
    """Updates a copy that has no records, with the marks of its files as those of a release. Returns what was said."""
    module = loaded_vendor()
    rows = []
    for name in os.listdir(f"{folder}/crates"):
        files = module.files_of(f"{folder}/crates/{name}")
        files.pop(module.RECORD, None)
        rows.append(" ".join([name, *module.marks_of(module.sums_of(files)).values()]))
        if name != "app":
            os.remove(f"{folder}/crates/{name}/{module.RECORD}")
    vendor(folder, "--update", status=1)
    with tempfile.TemporaryDirectory() as other:
        module.RELEASED = f"{other}/released"
        write(module.RELEASED, "\n".join(rows))
        with contextlib.redirect_stdout(io.StringIO()) as written:
            module.update(module.Target(folder), module.crates_of(read(f"{TOP}/crates.txt")), ["jsonptr"])
    return written.getvalue()


def check_update():
    """Checks the update of copies of an earlier repository."""
    with tempfile.TemporaryDirectory() as temporary:
        earlier, folder = os.path.realpath(f"{temporary}/earlier"), os.path.realpath(f"{temporary}/folder")
        earlier_repository(earlier)
        earlier_copy(earlier, folder)
        vendor(f"{temporary}/none", "--update", status=1)
        check_changed(folder)
        check_failing(folder)
        check_updated(folder, vendor(folder, "--update"))
        updated = contents(folder)
        check("Nothing changed.\n" in vendor(folder, "--update"), "a second update does not say that nothing changed")
        check(contents(folder) == updated, "a second update changed something")
        shutil.rmtree(folder)
        earlier_copy(earlier, folder)
        check_updated(folder, check_without_records(folder))


def check_page():
    """Makes the program of the page of edits from the first block of each kind, and checks what it prints."""
    with open(PAGE, encoding="utf-8") as file:
        first = dict(reversed(BLOCK.findall(file.read())))
    command, (line, written) = first["sh"].split(), first["console"].split("\n", 1)
    with tempfile.TemporaryDirectory() as folder:
        vendor(folder, *command[2:])
        with open(f"{folder}/crates.txt", encoding="utf-8") as file:
            check(file.read().endswith(f"\n{first['text']}"), f"the line of app is not {first['text']}")
        app = f"{folder}/crates/app"
        for name, kind in (("src/main.rt", "rust"), ("settings.json", "json")):
            with open(f"{app}/{name}", "w", encoding="utf-8") as file:
                file.write(first[kind])
        words = line.removeprefix("$ ").split()
        run = subprocess.run(words, cwd=app, stdin=subprocess.DEVNULL, capture_output=True, encoding="utf-8")
        check(run.returncode == 0 and written in run.stdout, f"{line} of EDITING:\n{run.stdout}{run.stderr}")


def main():
    check_names()
    check_old_calls()
    check_update()
    check_page()
    with tempfile.TemporaryDirectory() as temporary:
        folder = os.path.realpath(temporary)
        vendor(folder, "patch_diff", "--example")
        check_example(folder)
        check_lines(folder)
        made = contents(folder)
        vendor(folder, "--example")
        check(contents(folder) == made, "a second run changed something")
        check_extras(folder)
        check_links(folder)
        check_refusals(folder)
    print("check_vendor: the example, and the program of EDITING, run from an empty folder, and what is there stays unchanged")
    print("check_vendor: copies of an earlier version are updated, and not if one was changed")


if __name__ == "__main__":
    main()
