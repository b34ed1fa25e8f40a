"""What rt passes to rattle for a check, of which a build takes all but two options; and a build, which says what rattle is called with."""

import os

RATTLE = "rattle"
KIT = os.path.dirname(os.path.dirname(os.path.realpath(__file__)))


class Crate:
    name = "tool"
    folder = os.getcwd()
    said = {"name": "tool"}
    has_c = False
    rlib = f"{folder}/out/rlib/tool.rlib"

    def stamp(self):
        return "stamp"

    def is_built(self):
        return os.environ["BUILT"] == "1"

    def below(self):
        return [Lower()]

    def words(self, flags, keeps):
        return ["--crate-name", self.name, "--logic-built", "LOGIC", *flags, f"keeps={keeps}"]

    def call(self, *words):
        os.mkdir(self.rlib)
        print(*words)
        return int(os.environ["STATUS"])


class Lower:
    name = "lower"
    rlib = f"{os.getcwd()}/../lower/out/rlib/lower.rlib"


def files_of(folder):
    return sorted(f"{folder}/src/{name}" for name in os.listdir(f"{folder}/src"))


def crates_below(root):
    return [Crate()]


def help_of(verb):
    return os.environ["HELP"]
