"""Python's jsonpatch, for rivals.py: patch.py jsonpatch patch FILE ROUNDS PATCH_FILE"""
import json
import sys
import time

import jsonpatch


def job(text, patch):
    """Returns the text of the patched document."""
    return json.dumps(jsonpatch.JsonPatch.from_string(patch).apply(json.loads(text), in_place=True), separators=(",", ":"))


def main():
    _, _, _, path, rounds, patch_path = sys.argv
    with open(path, encoding="utf-8") as file, open(patch_path, encoding="utf-8") as patch_file:
        text, patch = file.read(), patch_file.read()
    if rounds == "0":
        sys.stdout.write(job(text, patch))
        return
    times = []
    # No round begins after a second.
    while len(times) < int(rounds) and sum(times) < 1_000_000_000:
        start = time.process_time_ns()
        job(text, patch)
        times.append(time.process_time_ns() - start)
    print(min(times))


if __name__ == "__main__":
    main()
