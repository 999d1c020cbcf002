"""Makes the files that hosts install, in dist/: a tarball, a package for Debian, a Containerfile that uses that
package, PROVED.json, which says what was proved of the programs, and SHA256SUMS. `./run --dist` passes the programs to
it. One commit always gives equal bytes.

It needs git, and strip and readelf of binutils; dpkg-deb for the package.
"""
import gzip
import hashlib
import json
import os
import re
import shutil
import subprocess
import sys
import tarfile
import tempfile
from dataclasses import dataclass
from datetime import datetime, timezone
from email.utils import format_datetime

import completions
import manual
from command_lines import read_program
from templates import filled

HERE = os.path.dirname(os.path.realpath(__file__))
TOP = os.path.dirname(HERE)
NEEDED = ("git", "strip", "readelf", "dpkg-deb")
SUMMARY = "text world for many players, with a guide whose answers can be checked"
# The address has no owner: there is none to write to.
MAINTAINER = "The Seamountcup maintainers <maintainers@seamountcup.invalid>"
NUMBER = re.compile(r"^## (\d+\.\d+\.\d+)", re.MULTILINE)
LIBC = re.compile(r"GLIBC_(\d+)\.(\d+)")
# The files for readers, as in the repository.
READ = ["README.md", "CHANGELOG.md", "LICENSE", "docs", "examples"]
EXECUTABLE, PLAIN = 0o755, 0o644


def fail(why):
    sys.exit(f"run: {why}")


def git(*words):
    """Returns git's output for these words, without the last line end."""
    return subprocess.run(["git", "-C", TOP, *words], capture_output=True, text=True, check=True).stdout.rstrip("\n")


@dataclass
class Release:
    """A release: its number, whether its programs are proved, its commit and the time of that, and the kit."""

    number: str
    is_proved: bool
    commit: str
    seconds: int
    kit: str

    def version(self):
        """Returns the version in the names of files: it says if nothing is proved."""
        return self.number if self.is_proved else f"{self.number}-unproved"

    def debian_version(self):
        """Returns the version of the package; of two with one number, that of the proved one is greater."""
        return self.number if self.is_proved else f"{self.number}~unproved"

    def time(self):
        """Returns the time of the commit."""
        return datetime.fromtimestamp(self.seconds, timezone.utc)

    def says(self, name):
        """Returns the answer of the program with this name to `--version`."""
        return f"{name} {self.number}, {f'proved with {self.kit}' if self.is_proved else 'unproved'}\n"


def missing():
    """Returns the commands that a release needs and that are not on the path."""
    return [name for name in NEEDED if not shutil.which(name)]


def release_of(is_proved, kit):
    """Returns the release of the checkout, which must have no changes."""
    if missing():
        fail(f"a release wants {', '.join(missing())}, which is not on the path")
    if changed := git("status", "--porcelain"):
        fail(f"a release is made of a commit, and these are not committed:\n{changed}")
    with open(f"{TOP}/CHANGELOG.md", encoding="utf-8") as file:
        number = NUMBER.search(file.read())[1]
    return Release(number, is_proved, git("rev-parse", "HEAD"), int(git("show", "-s", "--format=%ct")), kit)


# ---- files


def write(path, text, mode=PLAIN):
    """Writes a file, and creates the folders above it."""
    os.makedirs(os.path.dirname(path), exist_ok=True)
    with open(path, "wb") as file:
        file.write(text if isinstance(text, bytes) else text.encode())
    os.chmod(path, mode)


def read(path):
    with open(path, "rb") as file:
        return file.read()


def template(name, **values):
    """Returns a text of this folder with its placeholders filled."""
    return filled(read(f"{HERE}/{name}").decode(), **values)


def sum_of(path):
    return hashlib.sha256(read(path)).hexdigest()


def files_below(folder):
    """Returns the paths of all files below a folder, relative to it, sorted."""
    walk = ((os.path.relpath(above, folder), names) for above, _, names in os.walk(folder))
    return sorted(os.path.normpath(f"{above}/{name}") for above, names in walk for name in names)


# ---- what both hold


def put_programs(paths, folder):
    """Copies the programs without debugging data. Those that are one file stay one, with several names."""
    os.makedirs(folder)
    first = {}
    for name, path in sorted(paths.items()):
        if (same := first.setdefault(sum_of(path), name)) != name:
            os.link(f"{folder}/{same}", f"{folder}/{name}")
            continue
        subprocess.run(["strip", "--strip-all", "-o", f"{folder}/{name}", path], check=True)
        os.chmod(f"{folder}/{name}", EXECUTABLE)


def check_versions(release, folder, names):
    """Checks that each program says what it is: no unproved program is released as proved, and none of another
    version."""
    for name in names:
        said = subprocess.run([f"{folder}/{name}", "--version"], capture_output=True, text=True, check=False).stdout
        if said != release.says(name):
            fail(f"{name} says {said!r} to --version, and not {release.says(name)!r}")


def proved_text(release, folder, crates):
    """Returns the text of PROVED.json: for the name of each proved crate git's tree of its sources."""
    trees = {name: git("rev-parse", f"HEAD:crates/{name}") for name in sorted(crates)} if release.is_proved else {}
    programs = {name: sum_of(f"{folder}/{name}") for name in sorted(os.listdir(folder))}
    told = {"version": release.version(), "commit": release.commit, "kit": release.kit, "proved": release.is_proved}
    return json.dumps({**told, "git_trees_of_proved_crates": trees, "sha256_of_programs": programs}, indent=2) + "\n"


def put_read(folder, licenses):
    """Copies the files for readers, and the licences of the kit's crates in the programs."""
    for name in READ:
        if os.path.isdir(f"{TOP}/{name}"):
            shutil.copytree(f"{TOP}/{name}", f"{folder}/{name}")
        else:
            write(f"{folder}/{name}", read(f"{TOP}/{name}"))
    for crate, paths in licenses.items():
        for path in paths:
            write(f"{folder}/licenses/{crate}/{os.path.basename(path)}", read(path))


def put_all(release, folder, prefix, programs, proved, licenses):
    """Copies everything that the tarball and the package share below the folder of the prefix."""
    shutil.copytree(programs, f"{folder}/bin", copy_function=name_again)
    write(f"{folder}/libexec/seamountcup/launch", read(f"{HERE}/launch"), EXECUTABLE)
    unit = template("mud_serve.service", PREFIX=prefix)
    write(f"{folder}/lib/systemd/system/mud_serve.service", unit)
    lines = {name: read_program(name, f"{programs}/{name}") for name in os.listdir(programs)}
    for name, program in lines.items():
        write(f"{folder}/share/bash-completion/completions/{name}", completions.bash(program))
        write(f"{folder}/share/zsh/site-functions/_{name}", completions.zsh(program))
    for name, text in manual.pages(lines, release.time(), prefix).items():
        write(f"{folder}/share/man/man{name[-1]}/{name}", text)
    put_read(f"{folder}/share/doc/seamountcup", licenses)
    write(f"{folder}/share/doc/seamountcup/PROVED.json", proved)


def name_again(source, target):
    """Gives a file a second name, so that names of one file stay so."""
    os.link(source, target)


# ---- the tarball


def entry_of(release, info):
    """Returns an entry of a tarball that names no author, place and time."""
    info.uid = info.gid = 0
    info.uname = info.gname = "root"
    info.mtime = release.seconds
    return info


def make_tarball(release, room, name):
    """Packs the folder of this name in a room, and returns the file's bytes."""
    packed = f"{room}/{name}.tar"
    with tarfile.open(packed, "w", format=tarfile.GNU_FORMAT) as tar:
        for path in [".", *files_below(f"{room}/{name}")]:
            whole = os.path.normpath(f"{room}/{name}/{path}")
            info = entry_of(release, tar.gettarinfo(whole, os.path.normpath(f"{name}/{path}")))
            info.mode = EXECUTABLE if info.isdir() or info.mode & 0o100 else PLAIN
            with open(whole, "rb") if info.isreg() else open(os.devnull, "rb") as file:
                tar.addfile(info, file)
    return gzip.compress(read(packed), mtime=0)


# ---- the package


def least_libc(programs):
    """Returns the oldest version of the C library that the programs can use."""
    found = []
    for name in os.listdir(programs):
        words = ["readelf", "--version-info", "--wide", f"{programs}/{name}"]
        said = subprocess.run(words, capture_output=True, text=True, check=True).stdout
        found += [(int(major), int(minor)) for major, minor in LIBC.findall(said)]
    return "{}.{}".format(*max(found))


def put_control(release, folder, programs):
    """Writes the files of a package for dpkg; its other files are in the folder already."""
    size = sum(os.stat(f"{folder}/{path}").st_size for path in files_below(folder))
    how = {"VERSION": release.debian_version(), "SIZE": str(-(-size // 1024)), "LIBC": least_libc(programs)}
    sums = "".join(f"{hashlib.md5(read(f'{folder}/{path}')).hexdigest()}  {path}\n" for path in files_below(folder)
                   if not path.startswith("etc/"))
    write(f"{folder}/DEBIAN/control", template("debian/control", SUMMARY=SUMMARY, MAINTAINER=MAINTAINER, **how))
    write(f"{folder}/DEBIAN/conffiles", "/etc/seamountcup/serve.toml\n")
    write(f"{folder}/DEBIAN/md5sums", sums)
    for name in ("postinst", "prerm", "postrm"):
        write(f"{folder}/DEBIAN/{name}", read(f"{HERE}/debian/{name}"), EXECUTABLE)


def as_debian(release, folder):
    """Moves and packs files as Debian wants them."""
    zsh = f"{folder}/usr/share/zsh"
    os.rename(f"{zsh}/site-functions", f"{zsh}/vendor-completions")
    docs = f"{folder}/usr/share/doc/seamountcup"
    how = {"MAINTAINER": MAINTAINER, "DATE": format_datetime(release.time())}
    changes = template("debian/changelog", VERSION=release.debian_version(), **how)
    write(f"{docs}/changelog.gz", gzip.compress(changes.encode(), mtime=0))
    write(f"{docs}/copyright", template("debian/copyright", YEAR=str(release.time().year)))
    for path in files_below(f"{folder}/usr/share/man"):
        whole = f"{folder}/usr/share/man/{path}"
        write(f"{whole}.gz", gzip.compress(read(whole), mtime=0))
        os.remove(whole)
    write(f"{folder}/etc/seamountcup/serve.toml", template("serve.toml"))


def make_package(release, folder, programs, path):
    """Makes the package of a folder that has `usr` already."""
    as_debian(release, folder)
    put_control(release, folder, programs)
    for above, folders, files in os.walk(folder):
        for name in [*folders, *files]:
            whole = f"{above}/{name}"
            os.chmod(whole, EXECUTABLE if os.path.isdir(whole) or os.stat(whole).st_mode & 0o100 else PLAIN)
            os.utime(whole, (release.seconds, release.seconds))
    os.chmod(folder, EXECUTABLE)
    how = {"env": {**os.environ, "SOURCE_DATE_EPOCH": str(release.seconds)}, "stdout": subprocess.DEVNULL}
    subprocess.run(["dpkg-deb", "--root-owner-group", "-Zxz", "--build", folder, path], check=True, **how)


# ---- all of it


def make_both(release, room, out, programs, proved, licenses):
    """Makes the tarball and the package, in a room, from the programs of a folder."""
    name = f"seamountcup-{release.version()}-linux-x86_64"
    put_all(release, f"{room}/{name}", "/usr/local", programs, proved, licenses)
    write(f"{room}/{name}/etc/seamountcup/serve.toml", template("serve.toml"))
    write(f"{out}/{name}.tar.gz", make_tarball(release, room, name))
    put_all(release, f"{room}/package/usr", "/usr", programs, proved, licenses)
    package = f"seamountcup_{release.debian_version()}_amd64.deb"
    make_package(release, f"{room}/package", programs, f"{out}/{package}")


def make_files(release, out, paths, crates, licenses):
    """Makes all files of a release, in a new folder, from the programs at these paths. `crates` are their crates, and
    `licenses` the files of the licences of the kit's crates among them, by crate."""
    with tempfile.TemporaryDirectory(prefix="dist-") as room:
        programs = f"{room}/programs"
        put_programs(paths, programs)
        check_versions(release, programs, paths)
        proved = proved_text(release, programs, crates)
        write(f"{out}/PROVED.json", proved)
        make_both(release, room, out, programs, proved, licenses)
    for name in ("Containerfile", "container.toml"):
        write(f"{out}/{name}", template(name))
    sums = [f"{sum_of(f'{out}/{name}')}  {name}\n" for name in sorted(os.listdir(out))]
    write(f"{out}/SHA256SUMS", "".join(sums))


def make(release, paths, crates, licenses):
    """Makes dist/ of the checkout, and returns the paths of its files, from the top."""
    if release_of(release.is_proved, release.kit) != release:
        fail("another commit was checked out meanwhile")
    out = f"{TOP}/dist"
    shutil.rmtree(out, ignore_errors=True)
    make_files(release, out, paths, crates, licenses)
    return [f"dist/{name}" for name in sorted(os.listdir(out))]
