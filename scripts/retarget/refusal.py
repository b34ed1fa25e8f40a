"""Why a module, or a product, can't be retargeted."""
from __future__ import annotations


class Refused(Exception):
    """The module has a form that isn't on the closed list, or it isn't the module of the proved product. The text says which."""
