#!/usr/bin/env python3
"""Runs the Python library on a cluster of Dask: a scheduler and workers that are processes on the loopback.

    /usr/bin/python3 tools/cluster.py FOLDER [--lines N]

FOLDER is what `tools/c/build FOLDER` made. It installs Debian's `python3-distributed` if that is missing, which needs the
rights for it. A file of lines is cut at the ends of lines into blocks; each worker resolves and changes the documents of its
blocks. What comes back has to be what one process makes, byte for byte, by one worker and by three, also with a worker killed
in the middle. The example of docs/C.md is the function that runs on the workers.
"""
import argparse
import importlib.util
import os
import re
import signal
import subprocess
import sys
import tempfile
import time

TOP = os.path.dirname(os.path.dirname(os.path.abspath(__file__)))
GUIDE = f"{TOP}/docs/C.md"
WORKERS = 3
BLOCKS = 60


def example():
    """Returns the code of the guide's example."""
    with open(GUIDE, encoding="utf-8") as file:
        blocks = re.findall(r"^```python\n(.*?)^```$", file.read(), re.MULTILINE | re.DOTALL)
    return next(it for it in blocks if "distributed" in it)


def write_module(folder):
    """Writes the example without its last part, which connects to a scheduler, as a module that workers import."""
    with open(f"{folder}/changes.py", "w", encoding="utf-8") as file:
        file.write(example().partition("\nif __name__")[0])


def write_lines(path, count):
    """Writes a file of documents, one a line."""
    with open(path, "w", encoding="utf-8") as file:
        for number in range(count):
            name = "é" * (number % 7)
            file.write(f'{{"id": {number}, "user": {{"name": "{name}", "password": "x{number}"}}, "price": {number}.50}}\n')


class Cluster:
    """A scheduler and workers, each a process with one thread."""

    def __init__(self, folder, count):
        path = os.pathsep.join([f"{folder}/python", folder_of_module(), *filter(None, [os.environ.get("PYTHONPATH")])])
        self.environment = {**os.environ, "PYTHONPATH": path, "DASK_DISTRIBUTED__SCHEDULER__ALLOWED_FAILURES": "10"}
        self.place = f"{folder_of_module()}/scheduler.json"
        if os.path.exists(self.place):
            os.remove(self.place)
        words = ["--host", "127.0.0.1", "--port", "0", "--no-dashboard", "--scheduler-file", self.place]
        self.scheduler = self.start("distributed.cli.dask_scheduler", words)
        words = ["--nworkers", "1", "--nthreads", "1", "--no-nanny", "--no-dashboard", "--scheduler-file", self.place]
        self.workers = [self.start("distributed.cli.dask_worker", [*words, "--local-directory", folder_of_module()]) for _ in range(count)]

    def start(self, module, words):
        """Starts a process of Dask."""
        return subprocess.Popen([sys.executable, "-m", module, *words], env=self.environment,
                                stdout=subprocess.DEVNULL, stderr=subprocess.DEVNULL)

    def stop(self):
        """Ends all processes."""
        for it in [*self.workers, self.scheduler]:
            it.kill()
            it.wait()


def folder_of_module():
    """Returns the folder with the module that workers import."""
    return os.environ["CLUSTER_FOLDER"]


def run(folder, blocks, count, kill):
    """Changes the blocks on so many workers. Returns the results and the seconds, from when all workers are there."""
    import changes
    import dask.bag
    from distributed import Client

    cluster = Cluster(folder, count)
    try:
        with Client(scheduler_file=cluster.place, timeout=60) as client:
            client.wait_for_workers(count, timeout=60)
            bag = dask.bag.from_sequence(blocks, npartitions=len(blocks)).map(changes.changed)
            start = time.monotonic()
            future = client.compute(bag)
            if kill:
                while client.processing() and sum(map(len, client.has_what().values())) < len(blocks) // 4:
                    time.sleep(0.01)
                cluster.workers[0].send_signal(signal.SIGKILL)
            found = future.result(timeout=600)
            return found, time.monotonic() - start
    finally:
        cluster.stop()


def install():
    """Installs Dask if it is missing."""
    if importlib.util.find_spec("distributed") is None:
        subprocess.run(["apt-get", "install", "-y", "-q", "python3-distributed"], check=True, stdout=subprocess.DEVNULL)


def main():
    parser = argparse.ArgumentParser(description=__doc__, formatter_class=argparse.RawDescriptionHelpFormatter)
    parser.add_argument("folder")
    parser.add_argument("--lines", type=int, default=600_000)
    words = parser.parse_args()
    folder = os.path.abspath(words.folder)
    install()
    with tempfile.TemporaryDirectory() as at:
        os.environ["CLUSTER_FOLDER"] = at
        write_module(at)
        sys.path[:0] = [at, f"{folder}/python"]
        import changes

        path = f"{at}/log.jsonl"
        write_lines(path, words.lines)
        blocks = list(changes.blocks(path, os.path.getsize(path) // BLOCKS))
        start = time.monotonic()
        wanted = [changes.changed(it) for it in blocks]
        alone = time.monotonic() - start
        times = {}
        for name, count, kill in [("one worker", 1, False), (f"{WORKERS} workers", WORKERS, False), (f"{WORKERS} workers, one killed", WORKERS, True)]:
            found, times[name] = run(folder, blocks, count, kill)
            if found != wanted:
                sys.exit(f"cluster: {name}: another result than that of one process")
    told = ", ".join(f"{name} {seconds:.1f} s" for name, seconds in times.items())
    print(f"cluster: {words.lines} lines in {len(blocks)} blocks: one process {alone:.1f} s, {told}; the same bytes")
    if times[f"{WORKERS} workers"] * 1.5 > times["one worker"]:
        sys.exit("cluster: the time does not fall with the workers")


if __name__ == "__main__":
    main()
