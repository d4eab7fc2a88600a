"""Finite structures of Sage, by what they can do: nothing of Sage is imported.

A structure is iterated by `list`, in Sage's own order, and element I of the algebra is its I-th. A lattice or a
semilattice has `meet` or `join`; a ring has `zero` and is multiplied and added; a
group or a semigroup is multiplied.
"""

from __future__ import annotations

from typing import Any, Callable, Dict

from ..algebra import Algebra
from ..faults import InputFault


def two(method: Callable[..., Any]) -> Callable[[Any, Any], Any]:
    """A method as a function of two arguments."""
    return lambda x, y: method(x, y)


def functions_of(structure: Any) -> Dict[str, Callable[..., Any]]:
    """The operations of a structure as functions on its elements."""
    lattice = {name: two(getattr(structure, name)) for name in ("meet", "join") if hasattr(structure, name)}
    if lattice:
        return lattice
    functions: Dict[str, Callable[..., Any]] = {}
    if hasattr(structure, "zero") and hasattr(structure, "one"):
        functions["plus"] = lambda x, y: x + y
        functions["minus"] = lambda x: -x
        functions["zero"] = lambda: structure.zero()
    functions["times"] = lambda x, y: x * y
    if hasattr(structure, "one"):
        functions["one"] = lambda: structure.one()
    if "plus" not in functions and hasattr(structure, "is_abelian"):
        functions["inverse"] = lambda x: x**-1
    return functions


def read_sage(structure: Any, name: str = "A") -> Algebra:
    """The algebra of a structure; `InputFault` where it is infinite or has no such operations."""
    is_finite = getattr(structure, "is_finite", None)
    if is_finite is not None and not is_finite():
        raise InputFault("the structure is infinite")
    try:
        return Algebra.from_functions(name, list(structure), functions_of(structure))
    except TypeError as error:
        raise InputFault(f"the structure has no such operations: {error}") from error
