-- The sum of the numbers up to the argument, as recursive_sum of formulas.py.
local function sum(n)
  if n == 0 then return 0 else return n + sum(n - 1) end
end

print(sum(tonumber(arg[1])))
