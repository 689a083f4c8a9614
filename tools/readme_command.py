"""Runs the README's first commands in a fresh clone, as a reader types them: those that install the release and use it, and
the first one from the sources."""
import os
import re
import subprocess
import sys
import tempfile
import time

TOP = os.path.dirname(os.path.dirname(os.path.abspath(__file__)))
PREFIX = "/tmp/jsonptr"
WANTED = "1"


def block(heading):
    """Returns the first block of commands below the heading of the README."""
    with open(f"{TOP}/README.md", encoding="utf-8") as file:
        return re.search(rf"^## {heading}$.*?^```sh\n(.*?)^```$", file.read(), re.MULTILINE | re.DOTALL)[1]


def run(script, folder):
    """Runs the commands in the clone, with a folder instead of the README's prefix, and compares the last line of output."""
    start = time.monotonic()
    command = ["sh", "-ec", script.replace(PREFIX, f"{folder}/prefix")]
    done = subprocess.run(command, cwd=f"{folder}/clone", stdin=subprocess.DEVNULL, capture_output=True, text=True)
    if done.returncode or done.stdout.splitlines()[-1:] != [WANTED]:
        sys.exit(f"readme_command: {script}\nstatus {done.returncode}, output {done.stdout!r}\n{done.stderr}")
    print(f"readme_command: `{script.splitlines()[-1]}` prints {WANTED}, after {time.monotonic() - start:.1f} seconds")


def main():
    with tempfile.TemporaryDirectory() as folder:
        subprocess.run(["git", "clone", "--quiet", TOP, f"{folder}/clone"], check=True)
        run(block("Get it"), folder)
        run(block("From the sources").splitlines()[0], folder)


if __name__ == "__main__":
    main()
