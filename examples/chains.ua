# Least chains of terms. Lattices have Jonsson chains of length 2, and no Hagemann-Mitschke chain.
algebra L size 2
op meet 2 = 0 0 0 1
op join 2 = 0 1 1 1
end
algebra I size 2
op imp 2 = 1 1 0 1
end
algebra Z2 size 2
op plus 2 = 0 1 1 0
end
algebra M size 2
op meet 2 = 0 0 0 1
end
jonsson L
hm L
# Implication algebras: their congruences permute threefold and not twofold.
hm I
jonsson I
# Groups have a Maltsev term, which is a chain of length 2; their congruences form modular lattices.
hm Z2
day Z2
jonsson Z2
# Semilattices have no chain of any of these kinds.
jonsson M
hm M
day M
