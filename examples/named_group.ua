# The symmetric group on three letters: e, two rotations r and s, and three reflections f, g and h.

version 2

algebra S3 size 6 names (e r s f g h)
op mul 2 =
  e r s f g h
  r s e h f g
  s e r g h f
  f g h e r s
  g h f s e r
  h f g r s e
op inv 1 = e s r f g h
op one 0 = e
end

# A rotation and a reflection do not commute.
eval S3 mul(x0, x1) [r f]
eval S3 mul(x1, x0) [r f]

# The subgroup that a rotation generates, and one that a reflection generates. A number may stand for an element too.
close S3 1 [r] least
close S3 1 [3] least

# Two reflections generate the whole group; one does not.
member S3 1 [f] [g] = [r]
member S3 1 [f] = [r]

# The pairs of elements with the same image in the quotient by the rotations.
close S3 2 [e r] [r e] [f f] count
cg S3 [e r]
con S3
