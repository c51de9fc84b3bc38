"""Builds programs over the Rust crate wast, by rustc, of the sources in the folder that WAST_REGISTRY names, or
/usr/share/cargo/registry if it isn't set: Debian packages librust-wast-dev, librust-bumpalo-dev, librust-leb128fmt-dev,
librust-memchr-dev, librust-unicode-width-dev and librust-wasm-encoder-dev."""
import glob
import os
import shutil
import subprocess

REGISTRY = os.environ.get("WAST_REGISTRY", "/usr/share/cargo/registry")
# each library with what it is built on, the lowest first
LIBRARIES = {
    "bumpalo": ([], []),
    "leb128fmt": (["std"], []),
    "memchr": (["std", "alloc"], []),
    "unicode-width": (["cjk"], []),
    "wasm-encoder": (["std"], ["leb128fmt"]),
    "wast": (["wasm-module"], ["bumpalo", "leb128fmt", "memchr", "unicode-width", "wasm-encoder"]),
}


def source(name):
    """The folder with the sources of a library, or None."""
    found = sorted(glob.glob(os.path.join(REGISTRY, name + "-[0-9]*")))
    return found[-1] if found else None


def rustc(words, folder, given=()):
    environment = dict(os.environ, CARGO_PKG_VERSION="0", **dict(given))
    words = ["rustc", "--edition", "2021", "-C", "opt-level=3", "-L", folder, *words]
    return subprocess.run(words, env=environment, stderr=subprocess.PIPE).returncode == 0


def extern(name, folder):
    """With its path, since rustc brings libraries of its own of the same names."""
    name = name.replace("-", "_")
    return "%s=%s" % (name, os.path.join(folder, "lib%s.rlib" % name))


def program(folder, path, given=()):
    """The program of the source file, built in the folder, or None; and the crate's release, or why there is none. What is
    given are environment variables for the compiler."""
    if not shutil.which("rustc"):
        return None, "no rustc"
    for name, (features, below) in LIBRARIES.items():
        if not source(name):
            return None, "no " + name
        words = ["--crate-name", name.replace("-", "_"), "--crate-type", "rlib", "--cap-lints", "allow", "--out-dir", folder]
        words += [it for feature in features for it in ("--cfg", 'feature="%s"' % feature)]
        words += [it for low in below for it in ("--extern", extern(low, folder))]
        if not rustc([*words, os.path.join(source(name), "src", "lib.rs")], folder):
            return None, name + " isn't built"
    made = os.path.join(folder, "peer")
    if not rustc(["--extern", extern("wast", folder), "-o", made, path], folder, given):
        return None, os.path.basename(path) + " isn't built"
    return made, os.path.basename(source("wast"))
