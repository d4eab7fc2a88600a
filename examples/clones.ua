# Is an operation a term operation of others, or a polynomial operation?
algebra N size 2
op nand 2 = 1 1 1 0
end
# Exclusive or, from nand
member N 4 [0 0 1 1] [0 1 0 1] = [0 1 1 0]
# The affine operations on two elements: conjunction is none of them, and all of two variables are listed.
algebra F size 2
op plus 2 = 0 1 1 0
op one 0 = 1
end
member F 4 [0 0 1 1] [0 1 0 1] = [0 0 0 1]
# Majority is a term of conjunction and disjunction.
algebra L size 2
op and 2 = 0 0 0 1
op or 2 = 0 1 1 1
end
member L 8 [0 0 0 0 1 1 1 1] [0 0 1 1 0 0 1 1] [0 1 0 1 0 1 0 1] = [0 0 0 1 0 1 1 1]
# Negation is not monotone, and is none.
member L 2 [0 1] = [1 0]
# The same is asked by the values alone. Exclusive or of three, from the group of two elements:
algebra Z2 size 2
op plus 2 = 0 1 1 0
end
clone Z2 3 term total [0 1 1 0 1 0 0 1]
# Negation is no term operation of it, but a polynomial operation: 1 + x.
clone Z2 1 term total [1 0]
clone Z2 1 polynomial total [1 0]
# Conjunction is neither: all polynomial operations of a group of two elements are affine.
clone Z2 2 polynomial total [0 0 0 1]
# Is a term operation of a lattice 0 at (0,1) and 1 at (1,0)? The first variable is; but none has it the other way round
# at (0,0) and (1,1).
clone L 2 term partial [0 1 0] [1 0 1]
clone L 2 term partial [0 0 1] [1 1 0]
# In a chain of three with relative pseudocomplements the greatest element is a term in one variable, but in none.
# Negation is no term, but a polynomial: x implies 0.
algebra H size 3
op implies 2 =
  2 2 2
  0 2 2
  0 1 2
end
clone H 1 term total [2 2 2]
clone H 0 term total [2]
clone H 1 term total [2 0 0]
clone H 1 polynomial total [2 0 0]
