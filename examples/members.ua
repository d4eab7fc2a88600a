# The symmetric group on three letters: 0, 1, 2 are the rotations, and 3, 4, 5 the reflections.
algebra S3 size 6
op mul 2 =
  0 1 2 3 4 5
  1 2 0 5 3 4
  2 0 1 4 5 3
  3 4 5 0 1 2
  4 5 3 2 0 1
  5 3 4 1 2 0
end
# Two reflections generate the rotation 1; the steps say how.
member S3 1 [3] [4] = [1]
# A rotation generates no reflection; the subgroup that it generates is listed.
member S3 1 [1] = [3]
# A generator is its own step.
member S3 1 [1] [3] = [3]
# The pairs [1 2] and [3 3] generate the graph of an automorphism: it takes 4 to 5, and not to itself.
member S3 2 [1 2] [3 3] = [4 5]
member S3 2 [1 2] [3 3] = [4 4]
