-- The identity at a number, as identity of formulas.py.
print((function(x) return x end)(7))
