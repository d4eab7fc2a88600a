# With a budget of 6 (beyond.args): what is beyond it.
algebra Z2 size 2
op plus 2 = 0 1 1 0
end
# The four unit vectors generate 16 members. More than 6 of them is all that is said, and 7 are listed.
close Z2 4 [1 0 0 0] [0 1 0 0] [0 0 1 0] [0 0 0 1]
# A target that is found among the first 7 members is told with its steps.
member Z2 4 [1 0 0 0] [0 1 0 0] [0 0 1 0] [0 0 0 1] = [1 1 0 0]
# This one is a member too, but is not found within the budget.
member Z2 4 [1 0 0 0] [0 1 0 0] [0 0 1 0] [0 0 0 1] = [1 1 1 1]
# This one is no member of the 8, and the answer is of the same kind.
member Z2 4 [1 1 0 0] [0 1 1 0] [0 0 1 1] = [1 0 0 0]
# Within the budget the answer is yes or no.
member Z2 4 [1 1 0 0] [0 1 1 0] = [1 0 0 0]
