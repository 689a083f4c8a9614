"""The libraries and programs that rivals.py times, and how they are compiled."""
import os
import re
import shutil
import subprocess
from typing import NamedTuple

HERE = os.path.dirname(os.path.abspath(__file__))
TOP = os.path.dirname(os.path.dirname(HERE))
SOURCES = f"{HERE}/rivals"
CXX = [os.environ.get("CXX", "c++"), "-std=c++17", "-O3", "-march=x86-64-v2"]
CC = [os.environ.get("CC", "cc"), "-O3", "-march=x86-64-v2"]


class Way(NamedTuple):
    """A library or a program that does a job: its name in a table, and its command before the words of the job.

    The command is `None` if ours is not built.
    """

    name: str
    command: list


def version_of(package):
    """Returns the version of an installed package of Debian, without what Debian adds to it, or `None`."""
    ran = subprocess.run(["dpkg-query", "-W", "-f=${db:Status-Status} ${Version}", package], capture_output=True, encoding="utf-8")
    status, _, version = ran.stdout.partition(" ")
    return re.sub(r"^\d+:|[-+].*", "", version) if ran.returncode == 0 and status == "installed" else None


def versions_of(*packages):
    """Returns the versions of packages, or `None` if one is not installed."""
    found = [version_of(it) for it in packages]
    return found if all(found) else None


def first_line(*command):
    """Returns the first line that a command prints, or nothing if it is not there."""
    if not shutil.which(command[0]):
        return ""
    return subprocess.run(command, stdout=subprocess.PIPE, encoding="utf-8", check=True).stdout.partition("\n")[0]


def machine():
    """Returns what the times depend on besides the packages: the processor and the compilers."""
    with open("/proc/cpuinfo", encoding="utf-8") as file:
        models = re.findall(r"^model name\s*: (.*)", file.read(), re.MULTILINE)
    compilers = [first_line(CXX[0], "--version"), first_line("rustc", "--version"), first_line("go", "version")]
    return f"{len(models)} processors, {models[0]}; " + "; ".join(filter(None, compilers))


# ---- Compiling. Each returns the path of a program. ----


def compile_cpp(source, words, work):
    """Compiles a program in C++ for the processors that ours is built for."""
    program = f"{work}/{os.path.splitext(source)[0]}"
    subprocess.run([*CXX, f"{SOURCES}/{source}", *words, "-o", program], check=True)
    return program


def compile_cjson(cjson, work):
    """Compiles cJSON with the part that Debian's library leaves out, and the program over it."""
    objects = []
    for name in ("cJSON", "cJSON_Utils"):
        objects.append(f"{work}/{name}.o")
        subprocess.run([*CC, "-c", f"{cjson}/{name}.c", "-o", objects[-1]], check=True)
    return compile_cpp("cjson.cpp", [f"-I{cjson}", *objects], work)


def compile_rust(work):
    """Compiles the program in Rust over Debian's crates."""
    # Cargo looks at the times of files, which `copy` makes new.
    shutil.copytree(f"{SOURCES}/rust", f"{work}/rust", dirs_exist_ok=True, copy_function=shutil.copy)
    debian = ['source.crates-io.replace-with="debian"', 'source.debian.directory="/usr/share/cargo/registry"']
    options = [word for it in debian for word in ("--config", it)]
    subprocess.run(["cargo", "build", "--quiet", "--offline", "--release", *options], cwd=f"{work}/rust", check=True)
    return f"{work}/rust/target/release/rust_rivals"


def compile_go(work):
    """Compiles the program in Go over Debian's packages."""
    environment = {**os.environ, "GO111MODULE": "off", "GOPATH": "/usr/share/gocode", "GOCACHE": f"{work}/go"}
    subprocess.run(["go", "build", "-o", f"{work}/go_patch", f"{SOURCES}/patch.go"], env=environment, check=True)
    return f"{work}/go_patch"


def compile_ours(words, work):
    """Compiles the program over the library for C. Returns `None` if the library is not built."""
    if words.c:
        return compile_cpp("ours.cpp", [f"-I{words.c}/include", f"{words.c}/lib/libjsonptr.a"], work)
    archive = f"{words.crates}/jsonptr_c/out/libjsonptr_c.a"
    if not os.path.exists(archive):
        return None
    # What tools/c/build adds to the archive.
    kit = os.path.dirname(first_line("rt", "doc"))
    subprocess.run([*CC, "-c", f"{TOP}/tools/c/guard.c", "-o", f"{work}/guard.o"], check=True)
    return compile_cpp("ours.cpp", [f"-I{TOP}/tools/c", f"{work}/guard.o", archive, f"{kit}/c/liblibc_c.a"], work)


# ---- All ways ----


class Ways:
    """The ways to do the jobs, by their short names. What a way needs is compiled when a job first asks for it."""

    def __init__(self, words, work):
        self.words, self.work, self.found = words, work, {}

    def of(self, ours, *others):
        """Returns ours, and those of the others that are installed."""
        return [self.way(ours) or Way("ours", None), *filter(None, map(self.way, others))]

    def way(self, key):
        """Returns a way, or `None` if it is not installed, or, of ours, not built."""
        if key not in self.found:
            for group, keys in GROUPS.items():
                if key in keys:
                    self.found |= dict.fromkeys(keys) | dict(group(self.words, self.work))
        return self.found[key]


def ours_in_c(words, work):
    """Yields the library for C."""
    if program := compile_ours(words, work):
        yield "ours", Way("ours", [program, "jsonptr"])
        yield "ours_in_text", Way("ours, keeping the layout", [program, "in_text"])


def ours_built(words, _work):
    """Yields `jptr`, and the program that program.py builds."""
    jptr = words.jptr or f"{words.crates}/jptr/out/jptr"
    if os.path.exists(jptr):
        yield "jptr", Way("`jptr`", [os.path.abspath(jptr)])
    if os.path.exists(words.timed):
        yield "timed", Way("ours", [os.path.abspath(words.timed)])


def in_cpp(_words, work):
    """Yields the libraries in C++."""
    if found := versions_of("libsimdjson-dev", "rapidjson-dev", "nlohmann-json3-dev"):
        program = compile_cpp("libraries.cpp", ["-DRAPIDJSON_SSE42", "-lsimdjson"], work)
        simdjson, rapidjson, nlohmann = found
        kernel = first_line(program, "dom", "kernel", "-", "0")
        narrow = ["/usr/bin/env", "SIMDJSON_FORCE_IMPLEMENTATION=westmere", program, "dom"]
        yield "dom", Way(f"simdjson {simdjson} DOM ({kernel})", [program, "dom"])
        yield "dom_narrow", Way("simdjson DOM, vectors of 16 bytes as ours", narrow)
        yield "on_demand", Way("simdjson on demand (does not check what it skips)", [program, "on_demand"])
        yield "rapidjson", Way(f"RapidJSON {rapidjson}", [program, "rapidjson"])
        yield "rapidjson_unchecked", Way("RapidJSON by default (checks no UTF-8, rounds floats)", [program, "rapidjson_unchecked"])
        yield "nlohmann", Way(f"nlohmann {nlohmann}", [program, "nlohmann"])


def in_c(words, work):
    """Yields cJSON."""
    if words.cjson:
        version = os.path.basename(os.path.abspath(words.cjson)).removeprefix("cjson-")
        yield "cjson", Way(f"cJSON {version}", [compile_cjson(words.cjson, work), "cjson"])


def in_rust(_words, work):
    """Yields the crates of Rust."""
    crates = versions_of("librust-serde-json-dev", "librust-toml-edit-dev")
    if crates and shutil.which("cargo"):
        program = compile_rust(work)
        for name, version in zip(("serde_json", "toml_edit"), crates):
            yield name, Way(f"{name} {version}", [program, name])


def in_go(_words, work):
    """Yields the package of Go."""
    version = version_of("golang-github-evanphx-json-patch-dev")
    if version and shutil.which("go"):
        yield "evanphx", Way(f"evanphx/json-patch {version}", [compile_go(work), "evanphx"])


def installed(_words, _work):
    """Yields what is not compiled."""
    if version := version_of("python3-jsonpatch"):
        yield "jsonpatch", Way(f"Python's jsonpatch {version}", ["/usr/bin/python3", f"{SOURCES}/patch.py", "jsonpatch"])
    for name in ("jq", "gojq"):
        if version := version_of(name):
            yield name, Way(f"{name} {version}", [f"/usr/bin/{name}", "-c"])


GROUPS = {
    ours_in_c: ["ours", "ours_in_text"], ours_built: ["jptr", "timed"],
    in_cpp: ["dom", "dom_narrow", "on_demand", "rapidjson", "rapidjson_unchecked", "nlohmann"], in_c: ["cjson"],
    in_rust: ["serde_json", "toml_edit"], in_go: ["evanphx"], installed: ["jsonpatch", "jq", "gojq"],
}
