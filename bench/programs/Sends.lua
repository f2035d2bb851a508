local Sends = {}
Sends.__index = Sends

function Sends:fibonacci(n)
  if n < 2 then
    return n
  end
  return self:fibonacci(n - 1) + self:fibonacci(n - 2)
end

local result
for _ = 1, tonumber(arg[1]) do
  result = setmetatable({}, Sends):fibonacci(27)
end
print(result)
