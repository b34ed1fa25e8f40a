"""The installed rules beside those of the repository and the limits of the library. tests/test_calls.py compares them with all else."""
import json

from common import ROOT

import toarmuts
from toarmuts.rules import PLACE


def test_the_installed_rules_are_those_of_the_repository():
    assert json.loads(PLACE.read_text()) == json.loads((ROOT / "interface/rules.json").read_text())


def test_limits_are_those_of_the_library():
    """One more than each limit is refused."""
    library = toarmuts.library.library()
    usual = toarmuts.Options().configuration()
    assert library.run(usual, b"hello\n" * 16, b"")[0] == 0 and library.run(usual, b"hello\n" * 17, b"")[0] == 18
    for words, status in ((b"calls 128 wait", 0), (b"calls 129 wait", 17),
                          (b"calls print " + b"00" * 64, 0), (b"calls print " + b"00" * 65, 17),
                          (b"calls post 4 140 x" + b"00" * 127, 0), (b"calls post 4 140 x" + b"00" * 128, 17)):
        assert library.run(usual, words, b"")[0] == status, words[:20]
    for line, status in ((b"serial " + b"00" * 256, 0), (b"serial " + b"00" * 257, 2),
                         (b"frame " + b"00" * 127, 0), (b"frame " + b"00" * 128, 2)):
        assert library.run(usual, b"", line + b"\n")[0] == status
