"""The files of `./run --dist`, made from the tested programs: their names, their contents, and equal bytes twice."""
import contextlib
import functools
import hashlib
import importlib
import io
import json
import os
import re
import subprocess
import sys
import tarfile
import tempfile

from harness.first_words import FORMS, KIT, NUMBER, text_of
from harness.inputs import read
from harness.parts import Skipped, part
from harness.programs import TOP, is_unproved, program
from harness.prover import crates, run

PROGRAMS = sorted(FORMS)
SECONDS = 1_700_000_000
# The files of a release, as docs/INSTALL.md lists them, and those of the tarball and of the package below their prefix.
LISTED = re.compile(r"^\| (`[^|]*`) \| [^|]* \|$", re.M)
SHARED = [
    *(f"bin/{name}" for name in PROGRAMS),
    *(f"share/bash-completion/completions/{name}" for name in PROGRAMS),
    *(f"share/doc/seamountcup/{name}" for name in ("CHANGELOG.md", "LICENSE", "PROVED.json", "README.md")),
    "share/doc/seamountcup/docs/HOSTING.md", "share/doc/seamountcup/licenses/clap/LICENSE-MIT",
    "lib/systemd/system/mud_serve.service", "libexec/seamountcup/launch",
]
PAGES = [*(f"man1/{name}.1" for name in PROGRAMS), "man7/seamountcup.7"]


@functools.cache
def dist():
    """Returns the module that makes a release."""
    sys.path.insert(0, f"{TOP}/packaging")
    return importlib.import_module("dist")


def release(**changed):
    """Returns a release of the tested programs."""
    number, kit = NUMBER.search(text_of("CHANGELOG.md"))[1], KIT.search(text_of("README.md"))[0]
    how = {"number": number, "is_proved": not is_unproved(), "commit": "0" * 40, "seconds": SECONDS, "kit": kit}
    return dist().Release(**{**how, **changed})


def make(folder, **changed):
    """Makes the files of such a release in a folder, and returns the release."""
    if dist().missing() or not os.path.isdir(f"{TOP}/.git"):
        raise Skipped(f"it wants a clone, and {', '.join(dist().NEEDED)}")
    made, names = release(**changed), crates().with_below(*crates().programs())
    paths = {name: program(name) for name in PROGRAMS}
    dist().make_files(made, folder, paths, names, run().licenses_of(crates(), names))
    return made


@contextlib.contextmanager
def unpacked():
    """A release, the folder of its files, and that of the contents of its tarball and its package."""
    with tempfile.TemporaryDirectory() as folder:
        made = make(f"{folder}/dist")
        name = f"seamountcup-{made.version()}-linux-x86_64"
        with tarfile.open(f"{folder}/dist/{name}.tar.gz") as tar:
            tar.extractall(folder, filter="fully_trusted")
        os.rename(f"{folder}/{name}", f"{folder}/tarball")
        package = f"{folder}/dist/seamountcup_{made.debian_version()}_amd64.deb"
        subprocess.run(["dpkg-deb", "--raw-extract", package, f"{folder}/package"], check=True)
        yield made, folder


def files_of(folder):
    """Returns the files below a folder, by their paths from there."""
    return {os.path.relpath(f"{above}/{name}", folder) for above, _, names in os.walk(folder) for name in names}


# ---- contents


def listed(made):
    """Returns the files of a release by docs/INSTALL.md."""
    table = text_of("docs/INSTALL.md").partition("\n## ")[0]
    names = re.findall(r"`([^`]+)`", " ".join(LISTED.findall(table)))
    debian = {"_VERSION": f"_{made.debian_version()}", "-VERSION": f"-{made.version()}"}
    return {functools.reduce(lambda name, pair: name.replace(*pair), debian.items(), name) for name in names}


def count_files(count, made, folder):
    """Tests the files of a release, their sums, and the contents of the two archives."""
    given = files_of(f"{folder}/dist")
    count("packages: the files", given == listed(made), f"{given ^ listed(made)}")
    unproved = {name for name in given if name.startswith("seamountcup") and "unproved" in name}
    count("packages: unproved by name", len(unproved) == 2 * is_unproved(), unproved)
    summed = subprocess.run(["sha256sum", "--check", "SHA256SUMS"], cwd=f"{folder}/dist", capture_output=True)
    count("packages: sums", (summed.returncode, summed.stdout.count(b": OK\n")) == (0, len(given) - 1), summed)
    tarball, package = files_of(f"{folder}/tarball"), files_of(f"{folder}/package/usr")
    lacking = [name for name in [*SHARED, *(f"share/man/{page}" for page in PAGES)] if name not in tarball]
    count("packages: the tarball", not lacking, f"it lacks {lacking}")
    lacking = [name for name in [*SHARED, *(f"share/man/{page}.gz" for page in PAGES)] if name not in package]
    count("packages: the package", not lacking, f"it lacks {lacking}")
    for where, prefix in (("tarball", "/usr/local"), ("package/usr", "/usr")):
        unit = read(f"{folder}/{where}/lib/systemd/system/mud_serve.service").decode()
        named = re.findall(r"(/usr\S*?)/(?:bin|libexec)/", unit)
        count(f"packages: the unit in {where}", named == [prefix] * 2, named)


def named_below(names):
    """Returns these crates and all below them, by crates.txt."""
    named = dict(re.findall(r"^(\w+):(.*)$", text_of("crates.txt"), re.M))
    found = set()
    while names:
        found |= {*names}
        names = [low for name in names for low in named[name].split() if low in named and low not in found]
    return found


def count_programs(count, made, folder):
    """Tests the programs: each names its version, has no symbols, and has its sum in PROVED.json."""
    proved = json.loads(read(f"{folder}/dist/PROVED.json"))
    count("packages: proved or not", proved["proved"] is made.is_proved is (not is_unproved()), proved["proved"])
    trees = proved["git_trees_of_proved_crates"]
    git = subprocess.run(["git", "-C", TOP, "ls-tree", "-d", "HEAD", "crates/"], capture_output=True, text=True).stdout
    found = {line.split("/")[1]: line.split()[2] for line in git.splitlines()}
    right = {name: found[name] for name in named_below(PROGRAMS)} if made.is_proved else {}
    count("packages: the proved crates", trees == right, f"{trees} and not {right}")
    for name in PROGRAMS:
        for where in ("tarball", "package/usr"):
            path = f"{folder}/{where}/bin/{name}"
            said = subprocess.run([path, "--version"], capture_output=True, text=True).stdout
            state = "unproved" if is_unproved() else f"proved with {made.kit}"
            count(f"packages: {name} in {where}", said == f"{name} {made.number}, {state}\n", said)
            right = proved["sha256_of_programs"][name]
            count(f"packages: sum of {name} in {where}", hashlib.sha256(read(path)).hexdigest() == right)
        sections = subprocess.run(["readelf", "--sections", "--wide", path], capture_output=True, text=True).stdout
        count(f"packages: {name} without symbols", ".symtab" not in sections and ".debug" not in sections)


def count_archives(count, made, folder):
    """Tests that nothing in the archives says who made them, and when."""
    with tarfile.open(f"{folder}/dist/seamountcup-{made.version()}-linux-x86_64.tar.gz") as tar:
        kinds = {(it.uid, it.gid, it.uname, it.gname, it.mtime) for it in tar}
        modes = {oct(it.mode) for it in tar}
        names = [it.name for it in tar]
    count("packages: who owns the tarball's files", kinds == {(0, 0, "root", "root", SECONDS)}, kinds)
    count("packages: modes", modes == {"0o755", "0o644"}, modes)
    count("packages: order", names == sorted(names))
    package = f"{folder}/dist/seamountcup_{made.debian_version()}_amd64.deb"
    told = subprocess.run(["dpkg-deb", "--contents", package], capture_output=True, text=True).stdout
    owners = {line.split()[1] for line in told.splitlines()}
    count("packages: who owns the package's files", owners == {"root/root"}, owners)
    fields = subprocess.run(["dpkg-deb", "--field", package], capture_output=True, text=True).stdout
    wanted = ("Package: seamountcup\n", f"Version: {made.debian_version()}\n", "Architecture: amd64\n", "libc6 (>= 2.")
    count("packages: fields", all(one in fields for one in wanted), fields)
    files = read(f"{folder}/package/DEBIAN/conffiles").decode()
    count("packages: conffiles", files == "/etc/seamountcup/serve.toml\n", files)


def count_refused(count):
    """Tests that a program with another version is not released."""
    for what, changed in (("proved", {"is_proved": is_unproved()}), ("a number", {"number": "9.9.9"})):
        said = io.StringIO()
        with tempfile.TemporaryDirectory() as folder:
            try:
                make(f"{folder}/dist", **changed)
                said.write("it is released")
            except SystemExit as error:
                said.write(str(error))
            left = os.path.exists(f"{folder}/dist")
        count(f"packages: another {what}", "to --version, and not" in said.getvalue() and not left, said.getvalue())


def count_twice(count, folder):
    """Tests that another folder, time and place give equal bytes."""
    old_mask, old_zone = os.umask(0o077), os.environ.get("TZ")
    os.environ["TZ"] = "Asia/Tokyo"
    try:
        make(f"{folder}/again and elsewhere/dist")
    finally:
        os.umask(old_mask)
        os.environ.pop("TZ") if old_zone is None else os.environ.update(TZ=old_zone)
    for name in sorted(files_of(f"{folder}/dist")):
        same = read(f"{folder}/dist/{name}") == read(f"{folder}/again and elsewhere/dist/{name}")
        count(f"packages: {name.split('_')[0]} twice", same, f"{name} differs")


@part("packages", "what `./run --dist` makes of these programs: files, sums, owners, times, and the same bytes twice")
def packages(count):
    with unpacked() as (made, folder):
        count_files(count, made, folder)
        count_programs(count, made, folder)
        count_archives(count, made, folder)
        count_twice(count, folder)
    count_refused(count)


# ---- from nothing, twice


def cloned(folder):
    """Returns the result of `./run --unproved --dist` in a clone: its status, its output, and its files."""
    ran = subprocess.run(["./run", "--unproved", "--dist"], cwd=folder, capture_output=True, text=True)
    return ran.returncode, ran.stderr, {name: read(f"{folder}/dist/{name}") for name in files_of(f"{folder}/dist")}


@part("packages-twice", "two clones of one commit, built without proofs in two folders, give the same bytes", True)
def packages_twice(count):
    with tempfile.TemporaryDirectory() as folder:
        folders = [f"{folder}/one", f"{folder}/another clone"]
        for clone in folders:
            subprocess.run(["git", "clone", "--quiet", TOP, clone], check=True)
        (status, said, files), (_, _, others) = map(cloned, folders)
        count("both are made", status == 0 and len(files) == len(others) > 0, said)
        for name in sorted(files):
            count(f"{name} twice", files[name] == others.get(name))
        with open(f"{folder}/one/README.md", "a") as file:
            file.write("\n")
        status, said, _ = cloned(folders[0])
        count("changes are refused", status == 1 and "README.md" in said, said)
