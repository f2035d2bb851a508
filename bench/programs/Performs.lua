local Counter = {}
Counter.__index = Counter

function Counter:add(amount)
  self.count = self.count + amount
end

function Counter:take(amount)
  self.count = self.count - amount
end

local unpack = table.unpack or unpack

local function run()
  local counter = setmetatable({ count = 0 }, Counter)
  local names = { "add", "take", "add" }
  for i = 1, 200000 do
    counter[names[i % 3 + 1]](counter, unpack({ i }))
  end
  return counter.count
end

local result
for _ = 1, tonumber(arg[1]) do
  result = run()
end
print(result)
