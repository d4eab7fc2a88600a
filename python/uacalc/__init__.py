"""UACalc from Python: finite algebras, questions to the verified calculator, and checks of its certificates.

    from uacalc import Algebra, Calculator

    lattice = Algebra.from_tables("L", {"meet": [[0, 0], [0, 1]], "join": [[0, 1], [1, 1]]})
    answer = Calculator().cond(lattice, "majority")
    print(answer.term)

docs/PYTHON.md of the repository has the whole. The standard library suffices, from Python 3.9 on.
"""

from .algebra import Algebra, Operation
from .answers import (
    Central,
    Chain,
    Clash,
    Exceeds,
    Fails,
    Holds,
    Homomorphism,
    Invalid,
    Listing,
    No,
    NoChain,
    NotCentral,
    Series,
    Valid,
    Yes,
)
from .calculator import Calculator
from .certificates import Certificate, CertificateFault
from .checking import check
from .commands import Command
from .faults import (
    CommandError,
    InputFault,
    Place,
    ProgramError,
    ReplyFault,
    ScriptFault,
    TimeLimit,
    UacalcError,
    Undecided,
)
from .lattices import CongruenceLattice, TypedCover, Types
from .partitions import Partition
from .replies import Replies
from .script import Script
from .terms import Application, Element, Step, Steps, Term, Variable

__version__ = "0.9.0"

__all__ = [
    "Algebra",
    "Application",
    "Calculator",
    "Central",
    "Certificate",
    "CertificateFault",
    "Chain",
    "Clash",
    "Command",
    "CommandError",
    "CongruenceLattice",
    "Element",
    "Exceeds",
    "Fails",
    "Holds",
    "Homomorphism",
    "InputFault",
    "Invalid",
    "Listing",
    "No",
    "NoChain",
    "NotCentral",
    "Operation",
    "Partition",
    "Place",
    "ProgramError",
    "Replies",
    "ReplyFault",
    "Script",
    "ScriptFault",
    "Series",
    "Step",
    "Steps",
    "Term",
    "TimeLimit",
    "TypedCover",
    "Types",
    "UacalcError",
    "Undecided",
    "Valid",
    "Variable",
    "Yes",
    "check",
]
