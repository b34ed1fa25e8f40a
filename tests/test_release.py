"""A release, made twice in different folders: the same bytes, and used as somebody without the kit does.

The archive is unpacked and used with nothing in PATH but its programs and Debian's. The package is installed into an empty root and removed
again. With --whole that goes on in a clean Debian, in which apt-get installs the package, everything is used once more, and apt-get removes
it (that needs root, debootstrap, a mirror of Debian's, and some minutes).
"""

import os
import re
import shutil
import zipfile
from pathlib import Path
from typing import Callable, NamedTuple

import pytest

from tools import CRATES, ROOT, Completed, Word, library, needs, once, output_of, program, run, succeed, write_program

VERSION = (ROOT / "VERSION").read_text(encoding="utf-8").strip()
NAME = f"toarmuts-{VERSION}-linux-x86_64"
PACKAGE = f"toarmuts_{VERSION}_amd64.deb"
# While the first number is 0, the soname has the second too.
SONAME = "libtoarmuts.so." + (VERSION.rpartition(".")[0] if VERSION.startswith("0.") else VERSION.partition(".")[0])
PROGRAMS = ("mote", "mote_picture", "scenario", "network")
LIBRARIES = ("toarmuts", "modules_c")
COMMANDS = ("mote", "mote-picture", "network", "network-picture", "scenario", "contiki")
FLAGS = "-std=c11 -Wall -Wextra -Werror"
PKG_CONFIG = "pkg-config --cflags --libs"
BLINK = "4 synch 129 - -> timer-set 0 10\n"
# The root of a system, in which an environment may stand.
Inside = Callable[..., Completed]

pytestmark = needs("help2man", "dpkg-deb", "gcc", "make", "aarch64-linux-gnu-gcc", "arm-none-eabi-gcc", "pkg-config")
as_root = pytest.mark.skipif(os.geteuid() != 0, reason="only root can try the package in another root")


# ---- How it is made ----

def is_new(name: str) -> bool:
    """Whether a program is of these sources: as ./prove has marked it, or newer than each source, as those are that `rt ci` built, which
    may leave no mark."""
    if run(ROOT / "prove", "--is-current", name).returncode == 0:
        return True
    parts = [str(path) for part in ("src", "specs", "proofs") for path in CRATES.glob(f"*/{part}")]
    return run("find", ROOT / "crates.txt", *parts, "-newer", program(name), "-print", "-quit").stdout == b""


def copy_tree(place: Path, *current: str) -> Path:
    """A copy of this tree for scripts/release, in which a stand-in for ./prove answers that these are current. So scripts/release
    itself takes nothing but what ./prove has marked."""
    place.mkdir(parents=True)
    listed = succeed("git", "ls-files", "-z", "--", ".", ":!crates", ":!tests", cwd=ROOT).stdout
    packed = succeed("tar", "--null", "-T", "-", "-cf", "-", stdin=listed, cwd=ROOT).stdout
    succeed("tar", "-x", "-C", place, stdin=packed)
    for name in (".git", "crates"):
        (place / name).symlink_to(ROOT / name)
    write_program(place / "prove", f'#!/bin/bash\n[[ "$1" == --is-current && " {" ".join(current)} " == *" $2 "* ]]\n')
    return place


@pytest.fixture(scope="module")
def proofs(shared: Path) -> None:
    for name in LIBRARIES:
        library(name)
    old = [name for name in PROGRAMS if not is_new(name)]
    if old and os.environ.get("TOARMUTS_TESTS_PROVE"):
        once(shared / "release-proofs", lambda _: succeed(ROOT / "prove", *old, timeout=10_800))
    elif old:
        pytest.fail(f"these programs aren't of the sources as they are: ./prove {' '.join(old)}", pytrace=False)


@pytest.fixture(scope="module")
def releases(proofs: None, page_file: Path, shared: Path) -> Path:
    """A folder with two releases, `first` and `second`, made in different places, and the archive of the first, unpacked."""
    def make(room: Path) -> None:
        shutil.rmtree(room, ignore_errors=True)
        one, two = (copy_tree(room / name, *PROGRAMS, *LIBRARIES) for name in ("one", "another place/two"))
        made = run(one / "scripts/release", room / "first", timeout=3600)
        if b"these Debian packages are missing" in made.stderr:
            pytest.skip(made.stderr.decode().strip())
        assert made.returncode == 0, output_of(made)
        succeed("bash", "-c", 'umask 077; "$0" "$1"', two / "scripts/release", room / "second",
                settings={"TZ": "Asia/Tokyo", "LC_ALL": "C"}, timeout=3600)
        succeed("tar", "-xzf", room / "first" / f"{NAME}.tar.gz", "-C", room)
    return once(shared / "release", make)


@pytest.fixture(scope="module")
def there(releases: Path) -> Path:
    return releases / NAME


def test_unproved_program_is_refused(proofs: None, tmp_path: Path) -> None:
    tree = copy_tree(tmp_path / "unproved", *(name for name in (*PROGRAMS, *LIBRARIES) if name != "mote"))
    ran = run(tree / "scripts/release", tmp_path / "none")
    assert ran.returncode == 1 and not (tmp_path / "none").exists()
    assert ran.stderr == b"release: mote isn't proved, or older than its sources: ./prove mote\n"


def test_same_bytes(releases: Path) -> None:
    succeed("diff", "-r", releases / "first", releases / "second")
    succeed("sha256sum", "--check", "--quiet", "SHA256SUMS", cwd=releases / "first")


def test_sums(there: Path) -> None:
    succeed("sha256sum", "--check", "--quiet", "SHA256SUMS", cwd=there)


def test_version(there: Path) -> None:
    assert list((there / "share/toarmuts/python").glob(f"toarmuts-{VERSION}-*.whl")) and (there / f"lib/libtoarmuts.so.{VERSION}").exists()
    succeed(ROOT / "scripts/version", "--check")
    assert f"\n## {VERSION}\n" in (ROOT / "CHANGELOG.md").read_text(encoding="utf-8")


def test_facts(there: Path) -> None:
    """The facts name what was proved, of which commit and by which kit, and what others wrote has its notices."""
    facts = there / "share/doc/toarmuts"
    build = (facts / "BUILD").read_text(encoding="utf-8")
    commit = succeed("git", "rev-parse", "HEAD", cwd=ROOT).stdout.decode().strip()
    assert re.findall(r"^commit *([0-9a-f]*)", build, re.M) == [commit]
    assert re.search(rf"^proved *{' '.join(PROGRAMS + LIBRARIES)}$", build, re.M)
    assert f"kit      {succeed('rt', 'version').stdout.decode().strip()}\n" in build
    assert "License: BSD-3-Clause\n" in (facts / "copyright").read_text(encoding="utf-8")
    assert (facts / "notices/clap/LICENSE-MIT").stat().st_size > 0 and not (facts / "notices/anyhow").exists()


def test_no_folder_is_named(releases: Path, there: Path, tmp_path: Path) -> None:
    for wheel in (there / "share/toarmuts/python").glob("*.whl"):
        zipfile.ZipFile(wheel).extractall(tmp_path)
    ran = run("grep", "-rlF", "-e", ROOT, "-e", releases, there, tmp_path)
    assert (ran.returncode, ran.stdout) == (1, b"")


# ---- How it is used ----

class System(NamedTuple):
    """The folder of a release, and how a command is run there."""

    prefix: Path
    run: Inside

    def shell(self, command: str) -> str:
        """What a line of the shell in the user's folder prints. Its examples are in $examples."""
        ran = self.run("bash", "-c", f"cd; examples={self.prefix}/share/doc/toarmuts/examples; {command}")
        assert ran.returncode == 0, f"{command}\n{output_of(ran)}"
        return ran.stdout.decode()


def alone(there: Path, home: Path) -> Inside:
    """Runs a command where there are the unpacked archive and Debian's programs, but no kit and no clone."""
    settings = {"PATH": f"{there}/bin:/usr/bin:/bin", "HOME": str(home), "LC_ALL": "C.UTF-8", "PKG_CONFIG_PATH": f"{there}/lib/pkgconfig",
                "LD_LIBRARY_PATH": f"{there}/lib", "MANPATH": f"{there}/share/man"}

    def inside(*words: Word) -> Completed:
        return run("env", "-i", *(f"{name}={value}" for name, value in settings.items()), *words)
    return inside


@pytest.fixture
def archive(there: Path, tmp_path: Path) -> System:
    return System(there, alone(there, tmp_path))


# How a release is used: lines of the shell that succeed, each with what is among what it prints.
USES: dict[str, list[tuple[str, str]]] = {
    "programs": [
        *((f"{command} --version", f"{command.replace('-', '_')} {VERSION}\n") for command in COMMANDS),
        ("mote hello <$examples/hello.script | cmp - $examples/hello.transcript", ""),
        ("mote-picture relay <$examples/relay.transcript | cmp - $examples/relay.svg", ""),
        ("scenario $examples/linked_blocks.scenario", ""),
    ],
    "networks": [
        ("network $examples/networks/three.net | cmp - $examples/networks/three.transcript", ""),
        ("network <$examples/networks/three.net | cmp - $examples/networks/three.transcript", ""),
        ("three=$examples/networks/three; network-picture $three.net <$three.transcript | cmp - $three.svg", ""),
        ("network $examples/networks/three.net | network-picture --pcap | wc -c", "94\n"),
    ],
    "compiler": [
        (f"gcc {FLAGS} $examples/c/blink.c $({PKG_CONFIG} toarmuts) -o blink && ldd blink", f"{SONAME} =>"),
        ("./blink", BLINK),
        (f"gcc {FLAGS} $examples/c/blink.c $(pkg-config --cflags toarmuts) $(pkg-config --variable=libdir toarmuts)/libtoarmuts.a -o whole"
         " && ./whole", BLINK),
        (f"gcc {FLAGS} $examples/c/readings.c $({PKG_CONFIG} toarmuts-modules) -o readings && ./readings", "21 degrees\n"),
        ("hello=$examples/contiki/hello-world; contiki $hello.c <$hello.script | cmp - $hello.transcript", ""),
    ],
    "python": [
        ("/usr/bin/python3 -m venv environment", ""),
        ("environment/bin/pip install --quiet --no-index $examples/../../../toarmuts/python/*.whl", ""),
        ("environment/bin/python $examples/python/blink.py", ""),
        ("environment/bin/python -c 'import toarmuts.picture as it; assert it.program()'", ""),
    ],
}


def use(system: System, what: str) -> None:
    for command, wanted in USES[what]:
        assert wanted in system.shell(command), command


@pytest.mark.parametrize("what", ["programs", "networks", "compiler", pytest.param("python", marks=pytest.mark.skipif(
    run("/usr/bin/python3", "-c", "import venv, ensurepip").returncode != 0, reason="not here: python3-venv"))])
def test_use(archive: System, what: str) -> None:
    """The archive's programs, libraries for C, and wheel."""
    use(archive, what)


@needs("qemu-aarch64")
def test_modules_for_aarch64(archive: System) -> None:
    folder = f"{archive.prefix}/lib/toarmuts/aarch64/pkgconfig"
    compiled = f"aarch64-linux-gnu-gcc -std=c11 -static $examples/c/readings.c $(PKG_CONFIG_PATH={folder} {PKG_CONFIG} toarmuts-modules)"
    assert "21 degrees\n" in archive.shell(f"{compiled} -o there && qemu-aarch64 ./there")


@needs("qemu-system-arm")
@pytest.mark.parametrize("core", ["cortex-m0", "cortex-m3", "cortex-m4", "cortex-m4f"])
def test_modules_for_cortex_m(archive: System, core: str) -> None:
    """The example for Cortex-M by its Makefile, over what the release has for the core."""
    made = archive.shell(f"cp -R $examples/cortex_m {core} && make -s -C {core} run CORE={core} modules=none")
    assert made.splitlines()[-1] == "21 degrees, 480 bytes lower"


@needs("man")
@pytest.mark.parametrize("command", COMMANDS)
def test_manual(archive: System, command: str) -> None:
    ran = archive.run("man", "--warnings", "-l", f"{archive.prefix}/share/man/man1/{command}.1.gz")
    assert ran.stderr == b"" and len(ran.stdout.split(b"\n")) >= 10, output_of(ran)


COMPLETION = Path("/usr/share/bash-completion/bash_completion")
COMPLETED = """. {completion}; . "$1"; shift
COMP_WORDS=("$@") COMP_CWORD=$(($# - 1)) COMP_LINE="$*" COMP_POINT=${{#COMP_LINE}}
_toarmuts "$1" "${{@: -1}}" "${{@: -2:1}}"; echo "${{COMPREPLY[*]}}"
"""


@pytest.mark.skipif(not COMPLETION.exists(), reason="not here: bash-completion")
@pytest.mark.parametrize(("words", "wanted"), [("mote --m", "--mmem"), ("mote --quiet r", "relay"),
                                               ("network --o", "--only"), ("contiki --he", "--header --heap --help")])
def test_completion(archive: System, words: str, wanted: str) -> None:
    file = f"{archive.prefix}/share/bash-completion/completions/{words.split()[0]}"
    ran = archive.run("bash", "-c", COMPLETED.format(completion=COMPLETION), "bash", file, *words.split())
    assert ran.stdout.decode() == wanted + "\n", output_of(ran)


# ---- The package ----

@needs("lintian")
def test_lintian(releases: Path) -> None:
    succeed("lintian", "--allow-root", "--fail-on", "error", releases / "first" / PACKAGE)


@as_root
def test_package(releases: Path, there: Path, tmp_path: Path) -> None:
    """In an empty root the package has all that the archive has, and removed it leaves nothing."""
    for folder in ("info", "updates"):
        (tmp_path / "var/lib/dpkg" / folder).mkdir(parents=True)
    (tmp_path / "var/lib/dpkg/status").touch()
    dpkg = ("dpkg", f"--root={tmp_path}")
    succeed(*dpkg, "--force-depends", "--force-script-chrootless", "--install", releases / "first" / PACKAGE)
    for folder in ("bin", "lib", "include", "share"):
        for path in (path for path in (there / folder).rglob("*") if path.is_symlink() or not path.is_dir()):
            succeed("diff", "-q", "--no-dereference", path, tmp_path / "usr" / path.relative_to(there))
    succeed(*dpkg, "--purge", "toarmuts")
    assert [path for path in tmp_path.rglob("*") if "var" not in path.relative_to(tmp_path).parts[:1]] == []


@as_root
@needs("debootstrap")
@pytest.mark.whole
def test_clean_debian(releases: Path, tmp_path: Path) -> None:
    """In a clean Debian apt-get installs the package, everything is used, and apt-get removes it."""
    clean = tmp_path / "clean"
    settings = ("env", "-i", "PATH=/usr/bin:/bin:/usr/sbin:/sbin", "HOME=/home", "LC_ALL=C.UTF-8", "DEBIAN_FRONTEND=noninteractive")

    def inside(*words: Word) -> Completed:
        return run("chroot", clean, *settings, *words, timeout=3600)

    def files() -> list[str]:
        passed_over = [word for folder in ("proc", "var", "tmp", "home") for word in ("!", "-path", f"./{folder}/*")]
        return sorted(succeed("find", ".", "-xdev", *passed_over, cwd=clean).stdout.decode().splitlines())

    def install(*words: str) -> None:
        ran = inside("apt-get", "install", "-y", "--no-install-recommends", *words)
        assert ran.returncode == 0, output_of(ran)
    succeed("debootstrap", "--variant=minbase", "bookworm", clean, timeout=3600)
    install("gcc", "libc6-dev", "pkg-config", "python3-venv")
    before = files()
    shutil.copy(releases / "first" / PACKAGE, clean / "tmp")
    install(f"/tmp/{PACKAGE}")
    for what in USES:
        use(System(Path("/usr"), inside), what)
    assert inside("apt-get", "purge", "-y", "toarmuts").returncode == 0
    assert files() == before
