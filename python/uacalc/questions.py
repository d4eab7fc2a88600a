"""The questions: a method for each form of a command, over one `ask` that answers it."""

from __future__ import annotations

from typing import Any, Iterable, Sequence, Tuple, Union

from .algebra import Algebra, Entry
from .answers import (
    Central,
    Chain,
    Clash,
    Exceeds,
    Fails,
    Holds,
    Homomorphism,
    Listing,
    Membership,
    NoChain,
    NotCentral,
    Series,
    Verdict,
)
from .certificates import Certificate
from .lattices import CongruenceLattice, Types
from .membership import of_clone, of_condition
from .partitions import Partition
from .terms import Term
from .tokens import Text

Elements = Sequence[Entry]
PartitionLike = Union[Partition, str, Iterable[Iterable[int]]]
TermLike = Union[Term, str]
Identities = Union[str, Iterable[Tuple[Sequence[str], str]]]
Certified = Union[Certificate, Exceeds]


class Questions:
    """The methods of a calculator.

    Elements are numbers, or their names where the algebra has them. A vector of a power is a list of elements. A partition
    is a `Partition`, a text `|0 1|2|`, or a list of blocks; a term is a `Term` or a text `meet(x0, x1)`.

    Every method raises `InputFault` where a value is no operand, and `CommandError` where the program finds that an
    operand does not fit. An answer `Exceeds` says that more than the budget was found; it is neither yes nor no.
    """

    def ask(self, word: str, *values: Any, cert: bool = False) -> Any:
        """The answer to one question."""
        raise NotImplementedError

    def close(
        self, algebra: Algebra, width: int, vectors: Iterable[Elements], least: bool = False
    ) -> Union[Listing, Exceeds]:
        """The subalgebra of the power of this width that vectors generate.

        With `least` ranks go by the least height of a term, and are the same for every number of workers. `CommandError`:
        `range` for a width of 0 or an element that is none, `shape` for a vector of another length, `wide`.
        """
        return self.ask("close", algebra, width, vectors, "least" if least else None)

    def size(self, algebra: Algebra, width: int, vectors: Iterable[Elements]) -> Union[int, Exceeds]:
        """The number of members of that subalgebra."""
        return self.ask("close", algebra, width, vectors, "count")

    def member(self, algebra: Algebra, width: int, vectors: Iterable[Elements], target: Elements) -> Membership:
        """Whether the target is in that subalgebra: `Yes` with steps to it, or `No` with all members."""
        return self.ask("member", algebra, width, vectors, target)

    def free(self, algebra: Algebra, generators: int, least: bool = False) -> Union[Listing, Exceeds]:
        """The free algebra with 0 to 8 generators in the variety of the algebra, as its term operations.

        A row has the values of a term at all assignments, in lexicographic order. `CommandError`: `range`, `wide`.
        """
        return self.ask("free", algebra, generators, "least" if least else None)

    def free_size(self, algebra: Algebra, generators: int) -> Union[int, Exceeds]:
        """The number of elements of that free algebra."""
        return self.ask("free", algebra, generators, "count")

    def sub(self, algebra: Algebra, elements: Elements) -> Tuple[int, ...]:
        """The elements that these generate, ascending."""
        return self.ask("sub", algebra, elements)

    def ones(self, algebra: Algebra) -> Tuple[Tuple[int, ...], ...]:
        """For each element what it generates."""
        return self.ask("ones", algebra)

    def hom(
        self, algebra: Algebra, other: Algebra, elements: Elements, images: Elements
    ) -> Union[Homomorphism, Clash, Exceeds]:
        """The homomorphism from what elements generate that takes each to its image, or two terms that show that none does.

        `CommandError`: `signature` where the algebras have different operations, `shape` for another number of images.
        """
        return self.ask("hom", algebra, other, elements, images)

    def eval(self, algebra: Algebra, term: TermLike, elements: Elements) -> int:
        """The value of a term where x0, x1, .. are these elements."""
        return self.ask("eval", algebra, term, elements)

    def holds(self, algebra: Algebra, left: TermLike, right: TermLike) -> Union[Holds, Fails]:
        """Whether an identity in x0 to x7 holds, or the first assignment at which it fails."""
        return self.ask("holds", algebra, left, right)

    def cg(self, algebra: Algebra, pairs: Iterable[Elements]) -> Partition:
        """The congruence that pairs of elements generate."""
        return self.ask("cg", algebra, pairs)

    def con(self, algebra: Algebra) -> Union[CongruenceLattice, Exceeds]:
        """All congruences, with the covers and the join irreducible ones."""
        return self.ask("con", algebra)

    def types(self, algebra: Algebra) -> Union[Types, Exceeds]:
        """The type, 1 to 5, of each cover, by the criterion of docs/LANGUAGE.md."""
        return self.ask("types", algebra)

    def typed_con(self, algebra: Algebra) -> Union[CongruenceLattice, Exceeds]:
        """All congruences, with the types of the covers: `con` and `types` in one."""
        lattice = self.con(algebra)
        types = self.types(algebra) if isinstance(lattice, CongruenceLattice) else lattice
        return lattice.with_types(types) if isinstance(lattice, CongruenceLattice) and isinstance(types, Types) else lattice

    def central(
        self, algebra: Algebra, alpha: PartitionLike, beta: PartitionLike, delta: PartitionLike
    ) -> Union[Central, NotCentral, Exceeds]:
        """Whether alpha centralizes beta modulo delta, or a matrix that shows that it does not.

        `CommandError`: `congruence` where a partition is none. R. Freese, R. McKenzie, *Commutator Theory for Congruence
        Modular Varieties*, chapter 3.
        """
        return self.ask("central", algebra, alpha, beta, delta)

    def comm(self, algebra: Algebra, alpha: PartitionLike, beta: PartitionLike) -> Union[Partition, Exceeds]:
        """The commutator of two congruences: the least one modulo which the first centralizes the second."""
        return self.ask("comm", algebra, alpha, beta)

    def series(self, algebra: Algebra, kind: str) -> Union[Series, Exceeds]:
        """The `derived` or the `lower` central series, from the full congruence down."""
        return self.ask("series", algebra, kind)

    def cond(self, algebra: Algebra, name: str) -> Membership:
        """Whether there is a `maltsev`, `majority`, `minority` or `pixley` term: `Yes` with its steps."""
        return self.ask("cond", algebra, name)

    def nu(self, algebra: Algebra, places: int) -> Membership:
        """Whether there is a near-unanimity term of 3 to 16 places.

        K. A. Baker, A. F. Pixley, *Polynomial interpolation and the Chinese remainder theorem for algebraic systems*, 1975.
        """
        return self.ask("nu", algebra, places)

    def condition(self, algebra: Algebra, places: int, identities: Identities) -> Membership:
        """Whether a term of 1 to 16 places satisfies identities of one's own, as `(x y y) = x (x x y) = y`."""
        return self.ask("condition", algebra, places, identities)

    def clone(self, algebra: Algebra, arity: int, values: Elements, polynomial: bool = False) -> Membership:
        """Whether an operation of 0 to 8 arguments is one of terms, or of polynomials.

        The values are those at all arguments, in lexicographic order. S. Burris, H. P. Sankappanavar, *A Course in
        Universal Algebra*, chapter II.
        """
        return self.ask("clone", algebra, arity, "polynomial" if polynomial else "term", ("total", values))

    def interpolate(self, algebra: Algebra, arity: int, points: Iterable[Elements], polynomial: bool = False) -> Membership:
        """Whether some operation of terms, or of polynomials, has given values at given arguments.

        Each point is the arguments and the value after them; the arguments differ.
        """
        return self.ask("clone", algebra, arity, "polynomial" if polynomial else "term", ("partial", list(points)))

    def jonsson(self, algebra: Algebra) -> Union[Chain, NoChain, Exceeds]:
        """A least chain of Jónsson terms, or that there is none.

        B. Jónsson, *Algebras whose congruence lattices are distributive*, 1967.
        """
        return self.ask("jonsson", algebra)

    def hm(self, algebra: Algebra) -> Union[Chain, NoChain, Exceeds]:
        """A least chain of Hagemann-Mitschke terms, or that there is none.

        J. Hagemann, A. Mitschke, *On n-permutable congruences*, 1973.
        """
        return self.ask("hm", algebra)

    def day(self, algebra: Algebra) -> Union[Chain, NoChain, Exceeds]:
        """A least chain of Day terms, or that there is none.

        A. Day, *A characterization of modularity for congruence lattices of algebras*, 1969.
        """
        return self.ask("day", algebra)

    def product(self, first: Algebra, second: Algebra, name: str = "P") -> Algebra:
        """The direct product; the pair of x and y has the number x times the size of the second and y.

        `CommandError`: `signature`; `size` beyond 1,000 elements or 16,777,216 values.
        """
        return self.ask("make", name, ("product", first, second))

    def quotient(self, algebra: Algebra, congruence: PartitionLike, name: str = "Q") -> Algebra:
        """The quotient by a congruence, whose blocks are numbered by their least members."""
        return self.ask("make", name, ("quotient", algebra, congruence))

    def subalgebra(self, algebra: Algebra, elements: Elements, name: str = "S") -> Algebra:
        """The subalgebra that elements generate, its members numbered in their order.

        `CommandError`: `size` where it is empty.
        """
        return self.ask("make", name, ("sub", algebra, elements))

    def reduct(self, algebra: Algebra, operations: Sequence[str], name: str = "R") -> Algebra:
        """The same elements with these operations alone, in this order."""
        return self.ask("make", name, ("reduct", algebra, operations))

    def check(self, algebra: Algebra, certificate: Union[Certificate, Text]) -> Verdict:
        """What the program says of a certificate; `Certificate.check` checks it without the program."""
        text = certificate.decode() if isinstance(certificate, bytes) else certificate
        return self.ask("check", algebra, text)

    def certify_close(self, algebra: Algebra, width: int, vectors: Iterable[Elements]) -> Certified:
        """A certificate, of kind `listing`, of what vectors generate."""
        return self.ask("close", algebra, width, vectors, cert=True)

    def certify_member(self, algebra: Algebra, width: int, vectors: Iterable[Elements], target: Elements) -> Certified:
        """A certificate that the target is generated, or that it is not."""
        return self.ask("member", algebra, width, vectors, target, cert=True)

    def certify_cond(self, algebra: Algebra, name: str) -> Certified:
        """A certificate that there is such a term, or that there is none."""
        return self.ask("cond", algebra, name, cert=True)

    def certify_nu(self, algebra: Algebra, places: int) -> Certified:
        """A certificate that there is a near-unanimity term of so many places, or that there is none."""
        return self.ask("nu", algebra, places, cert=True)

    def certify_jonsson(self, algebra: Algebra) -> Certified:
        """A certificate of a chain of Jónsson terms, or that there is none."""
        return self.ask("jonsson", algebra, cert=True)

    def certify_hm(self, algebra: Algebra) -> Certified:
        """A certificate of a chain of Hagemann-Mitschke terms, or that there is none."""
        return self.ask("hm", algebra, cert=True)

    def certify_condition(self, algebra: Algebra, places: int, identities: Identities) -> Certified:
        """A certificate that a term satisfies identities of one's own, or that none does, by `cert member`.

        The generators are what stands at each place, by identity and then by assignment, and the target is the vector of
        the right sides; what ties the certificate to the condition is that these are its `gens` and `target`.
        """
        return self.certify_member(algebra, *of_condition(algebra, places, identities))

    def certify_clone(self, algebra: Algebra, arity: int, values: Elements, polynomial: bool = False) -> Certified:
        """A certificate that an operation is one of terms, or of polynomials, or that it is not, by `cert member`.

        The generators are the projections, and for polynomials the constants after them; the target is the values.
        """
        return self.certify_member(algebra, *of_clone(algebra, arity, values, polynomial))

