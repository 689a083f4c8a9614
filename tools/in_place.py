"""Runs `jptr --in-place` on a system that stops, fails or is changed at each call, and beside other writers.

It needs Linux and `strace`, which makes a call of the program wait, fail or end it; without `strace` it says so. The cases on
owners and groups need to run as root, and a user `nobody`.
"""
import json
import os
import pwd
import re
import shutil
import stat
import subprocess
import sys
import tempfile
import threading
import time
from concurrent.futures import ThreadPoolExecutor

from harness import CheckFailed, program

PROGRAM = program("jptr")
SECONDS = 60
OLD, NEW = '{"name": "a", "sizes": [1.0]}\n', '{"name": "b", "sizes": [1.0]}\n'
SET = ("set", "/name", '"b"')
CALLS = ("openat", "write", "fchown", "fchmod", "fsync", "statx,newfstatat,fstat,stat", "rename,renameat,renameat2")
# A patch that makes the same change, and what `--inverse` writes for it.
PATCH = '[{"op":"replace","path":"/name","value":"b"}]\n'
UNDO = '[{"op":"replace","path":"/name","value":"a"}]\n'
CHANGED = "it was changed by somebody else, so nothing is written"
BUSY = "another edit is at work"
WRITERS, APPENDS = 2, 200


def expect(what, got, wanted):
    """Fails if a value is not the expected one."""
    if got != wanted:
        raise CheckFailed(f"{what}: {got!r} instead of {wanted!r}")


def text_of(path):
    """Returns the text of a file."""
    with open(path, encoding="utf-8") as file:
        return file.read()


def file_in(folder, text=OLD, name="f.json"):
    """Writes a file, and returns its path."""
    path = os.path.join(folder, name)
    with open(path, "w", encoding="utf-8") as file:
        file.write(text)
    return path


def run(path, *injected, words=SET, trace="all", **options):
    """Edits a file in place, with the calls that `strace` tampers with."""
    traced = ["strace", "-f", "-o", "/dev/null", "-e", f"trace={trace}"] if injected else []
    tampered = [word for call in injected for word in ("-e", f"inject={call}")]
    return subprocess.run([*traced, *tampered, PROGRAM, *words, path, "--in-place"], capture_output=True, text=True,
                          timeout=SECONDS, **options)


def open_of_new_file():
    """Returns which of the calls of `openat` makes the new file: those before it open libraries and the file itself."""
    with tempfile.TemporaryDirectory() as folder:
        path, log = file_in(folder), os.path.join(folder, "calls")
        subprocess.run(["strace", "-o", log, "-e", "trace=openat", PROGRAM, *SET, path, "--in-place"], check=True, timeout=SECONDS)
        return 1 + next(number for number, call in enumerate(text_of(log).splitlines()) if "f.json.jptr-" in call)


def failures():
    """Calls that fail: nothing is written, the error has the reason of the system, and no other file is left."""
    for call, reason in [("write:error=ENOSPC:when=1", "No space left on device"), ("fsync:error=EIO:when=1", "Input/output error"),
                         ("fchmod:error=EPERM", "Operation not permitted"), ("rename:error=EXDEV", "cross-device"),
                         (f"openat:error=EMFILE:when={open_of_new_file()}", "Too many open files")]:
        with tempfile.TemporaryDirectory() as folder:
            path = file_in(folder)
            done = run(path, call)
            expect(f"{call}: status", done.returncode, 5)
            expect(f"{call}: text", text_of(path), OLD)
            expect(f"{call}: files", os.listdir(folder), ["f.json"])
            if reason.lower() not in done.stderr.lower():
                raise CheckFailed(f"{call}: {done.stderr!r} lacks {reason!r}")


def synced_late():
    """A folder that cannot be synced: the file is changed, which is no error, and a warning says so."""
    with tempfile.TemporaryDirectory() as folder:
        path = file_in(folder)
        done = run(path, "fsync:error=EINVAL:when=2")
        expect("folder not synced: status", done.returncode, 0)
        expect("folder not synced: text", text_of(path), NEW)
        if "could not be synced" not in done.stderr:
            raise CheckFailed(f"folder not synced: no warning: {done.stderr!r}")


def killed():
    """The program is killed at each of its calls: the file has the old text or the new one."""
    texts = set()
    for call in CALLS:
        for number in range(1, 12):
            with tempfile.TemporaryDirectory() as folder:
                path = file_in(folder)
                done = run(path, f"{call}:signal=KILL:when={number}", trace=call)
                texts.add(text_of(path))
                left = set(os.listdir(folder)) - {"f.json"}
                if any(not name.startswith("f.json.jptr-") for name in left):
                    raise CheckFailed(f"killed at {call} {number}: {left}")
                if done.returncode == 0:
                    break
    expect("texts after a kill", sorted(texts), [OLD, NEW])


def with_inverse(folder, old):
    """Writes a document, a patch and, if `old` is a text, a file for its inverse. Returns the paths of the first and the last, and
    the words of the command."""
    undo = os.path.join(folder, "u.json")
    if old is not None:
        file_in(folder, old, "u.json")
    return file_in(folder), undo, ("patch", file_in(folder, PATCH, "p.json"), "--inverse", undo)


def killed_with_inverse():
    """The program is killed at each of its calls: if the document is the new one, the inverse is in its file."""
    seen = set()
    for old in (None, "{}\n"):
        for call in (*CALLS, "link,linkat", "unlink,unlinkat"):
            for number in range(1, 24):
                with tempfile.TemporaryDirectory() as folder:
                    path, undo, words = with_inverse(folder, old)
                    done = run(path, f"{call}:signal=KILL:when={number}", words=words, trace=call)
                    kept = text_of(undo) if os.path.exists(undo) else None
                    seen.add((text_of(path), kept))
                    if done.returncode == 0:
                        break
    expect("texts after a kill", seen, {(OLD, None), (OLD, ""), (OLD, "{}\n"), (OLD, UNDO), (NEW, UNDO)})


def failures_with_inverse():
    """Calls that fail: document and inverse are what they were, and no other file is left."""
    for old in (None, "{}\n"):
        for call in ["write:error=ENOSPC:when=1", "write:error=ENOSPC:when=2", "fsync:error=EIO:when=1", "fsync:error=EIO:when=3",
                     "rename:error=EXDEV:when=1", "rename:error=EXDEV:when=2", "link:error=EPERM"]:
            if old is None and call.startswith("link"):
                continue
            with tempfile.TemporaryDirectory() as folder:
                path, undo, words = with_inverse(folder, old)
                done = run(path, call, words=words)
                expect(f"{call}: status", done.returncode, 5)
                expect(f"{call}: text", text_of(path), OLD)
                expect(f"{call}: files", sorted(os.listdir(folder)), ["f.json", "p.json"] + ["u.json"] * (old is not None))
                if old is not None:
                    expect(f"{call}: inverse", text_of(undo), old)


def changed_meanwhile():
    """Somebody else writes to the file while the program works: nothing is written."""
    # A text of the same length, whose time of modification is set back.
    blank = f"[{' ' * (len(OLD) - 3)}]\n"
    for other in ("write", "replace", "set back", "remove"):
        with tempfile.TemporaryDirectory() as folder:
            path = file_in(folder)
            before = os.stat(path)
            edit = ["strace", "-f", "-o", "/dev/null", "-e", "trace=fsync", "-e", "inject=fsync:delay_enter=700000:when=1",
                    PROGRAM, *SET, path, "--in-place"]
            with subprocess.Popen(edit, stdout=subprocess.PIPE, stderr=subprocess.PIPE, text=True) as process:
                while len(os.listdir(folder)) < 2 and process.poll() is None:
                    time.sleep(0.01)
                if other == "write":
                    file_in(folder, "[]\n")
                elif other == "replace":
                    os.rename(file_in(folder, "[]\n", "other"), path)
                elif other == "set back":
                    file_in(folder, blank)
                    os.utime(path, ns=(before.st_atime_ns, before.st_mtime_ns))
                else:
                    os.remove(path)
                errors = process.communicate(timeout=SECONDS)[1]
            expect(f"{other} meanwhile: status", process.returncode, 5)
            if other == "remove":
                expect("removed meanwhile: files", os.listdir(folder), [])
            else:
                expect(f"{other} meanwhile: text", text_of(path), blank if other == "set back" else "[]\n")
                if CHANGED not in errors:
                    raise CheckFailed(f"{other} meanwhile: {errors!r}")
                expect(f"{other} meanwhile: files", os.listdir(folder), ["f.json"])


def append_all(path, counts, number):
    """Appends numbers to the array of a file, and tries again where another edit was at work."""
    done = 0
    while done < APPENDS:
        edit = run(path, words=("set", "/-", str(number)))
        if edit.returncode == 0:
            done += 1
        elif edit.returncode != 5 or (CHANGED not in edit.stderr and BUSY not in edit.stderr):
            raise CheckFailed(f"append: status {edit.returncode}: {edit.stderr!r}")
    counts[number] = done


def two_writers():
    """Two programs append to one file: no element is lost."""
    with tempfile.TemporaryDirectory() as folder:
        path, counts = file_in(folder, "[]\n"), {}
        threads = [threading.Thread(target=append_all, args=(path, counts, number)) for number in range(WRITERS)]
        for thread in threads:
            thread.start()
        for thread in threads:
            thread.join()
        elements = json.loads(text_of(path))
        expect("appends", {number: elements.count(number) for number in range(WRITERS)},
               {number: APPENDS for number in range(WRITERS)})
        expect("appends: files", os.listdir(folder), ["f.json"])


def rights_of(path):
    """Returns the owner, the group and the mode of a file."""
    status = os.stat(path)
    return status.st_uid, status.st_gid, stat.S_IMODE(status.st_mode)


def link_swapped():
    """The owner of the folder swaps the temporary file for a link while root edits: the target of the link is untouched."""
    nobody = pwd.getpwnam("nobody")
    with tempfile.TemporaryDirectory() as folder:
        victim = file_in(folder, "secret\n", "victim")
        os.chmod(victim, 0o600)
        inner = os.path.join(folder, "inner")
        os.mkdir(inner)
        path = file_in(inner)
        for name in (inner, path):
            os.chown(name, nobody.pw_uid, nobody.pw_gid)
        before = rights_of(victim)
        edit = ["strace", "-f", "-o", "/dev/null", "-e", "trace=fchown,chown,fchownat", "-e",
                "inject=fchown,chown,fchownat:delay_enter=700000:when=1", PROGRAM, *SET, path, "--in-place"]
        with subprocess.Popen(edit, stdout=subprocess.PIPE, stderr=subprocess.PIPE) as process:
            temporary = path + ".jptr-0"
            while not os.path.exists(temporary) and process.poll() is None:
                time.sleep(0.01)
            os.rename(temporary, temporary + ".moved")
            os.symlink(victim, temporary)
            process.communicate(timeout=SECONDS)
        expect("rights of a file behind a link", rights_of(victim), before)
        expect("text of a file behind a link", text_of(victim), "secret\n")


def owner_and_group():
    """Who edits the file of another user keeps its group, if it is one of their own; else the group gets no rights."""
    nobody, games = pwd.getpwnam("nobody"), 60
    for groups, mode, wanted in [([games], 0o2664, 0o2664), ([], 0o2664, 0o604)]:
        with tempfile.TemporaryDirectory() as folder:
            os.chmod(folder, 0o777)
            path = file_in(folder)
            os.chown(path, 0, games)
            os.chmod(path, mode)
            done = run(path, user=nobody.pw_uid, group=nobody.pw_gid, extra_groups=groups)
            expect(f"groups {groups}: status", (done.returncode, done.stderr), (0, ""))
            group = games if groups else nobody.pw_gid
            expect(f"groups {groups}: rights", rights_of(path), (nobody.pw_uid, group, wanted))
    with tempfile.TemporaryDirectory() as folder:
        path = file_in(folder)
        os.chown(path, nobody.pw_uid, games)
        os.chmod(path, 0o640)
        expect("root: status", run(path).returncode, 0)
        expect("root: rights", rights_of(path), (nobody.pw_uid, games, 0o640))


def closed_folder():
    """A folder that cannot be read, and so not be synced: the file is changed."""
    nobody = pwd.getpwnam("nobody")
    with tempfile.TemporaryDirectory() as folder:
        path = file_in(folder)
        os.chown(path, nobody.pw_uid, nobody.pw_gid)
        os.chown(folder, nobody.pw_uid, nobody.pw_gid)
        os.chmod(folder, 0o300)
        done = run(path, user=nobody.pw_uid, group=nobody.pw_gid, extra_groups=[])
        expect("closed folder: status", done.returncode, 0)
        expect("closed folder: text", text_of(path), NEW)
        if not re.search("synced: .*[Pp]ermission denied", done.stderr):
            raise CheckFailed(f"closed folder: {done.stderr!r}")


def names():
    """A name with control characters is escaped in an error."""
    with tempfile.TemporaryDirectory() as folder:
        path = file_in(folder, "x\n", "a\x1b[31m\nb.json")
        done = run(path)
        expect("control characters: status", done.returncode, 3)
        # A line of the error, that of the text, and a caret.
        if "\x1b" in done.stderr or done.stderr.split("\n")[1:] != ["x", "^", ""]:
            raise CheckFailed(f"control characters: {done.stderr!r}")


def main():
    if shutil.which("strace") is None:
        subprocess.run(["apt-get", "install", "-y", "strace"], capture_output=True, check=False)
    checks = [two_writers, names]
    if shutil.which("strace") is not None:
        checks += [failures, synced_late, killed, killed_with_inverse, failures_with_inverse, changed_meanwhile]
    else:
        print("in_place: skipped the calls that fail: strace is missing")
    if os.geteuid() == 0:
        checks += [owner_and_group, closed_folder]
        checks += [link_swapped] if shutil.which("strace") is not None else []
    else:
        print("in_place: skipped owners and groups, which need root")
    errors = []
    with ThreadPoolExecutor(os.cpu_count()) as pool:
        for check, future in [(check, pool.submit(check)) for check in checks]:
            try:
                future.result()
            except (CheckFailed, subprocess.TimeoutExpired, OSError) as error:
                errors.append(f"in_place: {check.__name__}: {error}")
    if errors:
        sys.exit("\n".join(errors))
    print(f"in_place: {len(checks)} checks, {WRITERS * APPENDS} edits by {WRITERS} writers")


if __name__ == "__main__":
    main()
