"""Finds where definitions and code ask which call they have, and have one case for all other calls: the prover finds no call that is
forgotten there."""
import re
from typing import Iterator

SIGNATURE = re.compile(r"^( *)(?:pub |abbrev |unfoldable )*(\w+) : ", re.M)
# A pattern that takes every call.
ANY = re.compile(r"_|[a-z]\w*")
# What says no for all but these calls.
ONLY = re.compile(r"\bmatches!\([^;]*?, *Call::|\blet (?:\w+\()?Call::")
# What does one call at once and passes each other one on whole, to where it is asked again.
PASSED_ON = re.compile(r"\bif let Call::\w+ = (\w+) \{[^{}]*\}(?: else \{)?\s*(?:self\.)?\w+\((?:[^()]*, )?\1\);?\s*\}")
# What puts one call where another one is.
PUT_ANEW = re.compile(r"\bif !matches!\((\w+), (Call::\w+)\) \{\s*\*\1 = \2;\s*\}")
COMMENT_OR_LITERAL = re.compile(r"//.*|\"(?:\\.|[^\"\\])*\"|'(?:\\.|[^'\\])'")


def parts(text: str, between: str) -> list[str]:
    """The parts of a text between the positions of this character outside of all brackets."""
    found, depth = [""], 0
    for letter in text:
        depth += (letter in "([{") - (letter in ")]}")
        if depth == 0 and letter == between:
            found.append("")
        else:
            found[-1] += letter
    return found


def behind_brace(text: str, begin: int) -> int:
    """The position after the brace that closes one before this position."""
    depth, at = 1, begin
    while depth > 0:
        depth += (text[at] == "{") - (text[at] == "}")
        at += 1
    return at


def in_definitions(text: str) -> Iterator[str]:
    """The functions with an equation for some call, each as often as it has one for all others."""
    for indent, name in SIGNATURE.findall(text):
        equations = re.findall(rf"^{indent}{name} (.*?) =(?: |$)", text, re.M)
        for arguments in zip(*(parts(equation, " ") for equation in equations)):
            if any(re.search(r"\bCall\.", argument) for argument in arguments):
                yield from (name for argument in arguments if ANY.fullmatch(argument))


def arms_of(body: str) -> Iterator[tuple[str, str]]:
    while "=>" in body:
        pattern, _, rest = body.partition("=>")
        rest = rest.lstrip()
        end = behind_brace(rest, 1) if rest.startswith("{") else len(parts(rest, ",")[0])
        yield pattern.strip(" \n,|"), rest[:end].strip()
        body = rest[end:]


def in_code(text: str) -> Iterator[str]:
    """What takes some call by itself, and all others alike. That an arm is unreachable is proved, so no call is forgotten there."""
    text = PUT_ANEW.sub("", PASSED_ON.sub("", COMMENT_OR_LITERAL.sub("", text)))
    for match in re.finditer(r"\bmatch [^;{]*\{", text):
        arms = list(arms_of(text[match.end():behind_brace(text, match.end()) - 1]))
        if any(pattern.startswith("Call::") for pattern, _ in arms):
            yield from (pattern for pattern, does in arms if ANY.fullmatch(pattern) and does != "unreachable!()")
    yield from ONLY.findall(text)
