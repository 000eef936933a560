-- A fold whose step applies a function twice, as higher_order of formulas.py.
local function twice(f)
  return function(x) return f(f(x)) end
end

local function fold(f, a, n)
  if n == 0 then return a else return fold(f, f(a, n), n - 1) end
end

local function step(a, n)
  return twice(function(x) return n + x end)(a)
end

print(fold(step, 0, tonumber(arg[1])))
