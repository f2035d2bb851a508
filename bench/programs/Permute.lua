local Permute = {}
Permute.__index = Permute

function Permute.new()
  return setmetatable({ elements = { 1, 2, 3, 4, 5, 6 }, count = 0 }, Permute)
end

function Permute:run()
  self:permute(6)
  return self.count
end

function Permute:permute(n)
  self.count = self.count + 1
  if n == 0 then
    return
  end
  self:permute(n - 1)
  for i = 1, n do
    self:exchange(n, i)
    self:permute(n - 1)
    self:exchange(n, i)
  end
end

function Permute:exchange(i, j)
  local elements = self.elements
  local kept = elements[i]
  elements[i] = elements[j]
  elements[j] = kept
end

local result
for _ = 1, tonumber(arg[1]) do
  result = Permute.new():run()
end
print(result)
