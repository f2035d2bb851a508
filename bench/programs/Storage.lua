local Random = {}
Random.__index = Random

function Random.new()
  return setmetatable({ seed = 74755 }, Random)
end

function Random:next()
  self.seed = (self.seed * 1309 + 13849) % 65536
  return self.seed
end

local Storage = {}
Storage.__index = Storage

function Storage.new()
  return setmetatable({ random = Random.new(), count = 0 }, Storage)
end

function Storage:run()
  self:tree_of(7)
  return self.count
end

function Storage:tree_of(depth)
  self.count = self.count + 1
  local branches = {}
  if depth == 1 then
    for i = 1, self.random:next() % 10 + 1 do
      branches[i] = false
    end
    return branches
  end
  for i = 1, 4 do
    branches[i] = self:tree_of(depth - 1)
  end
  return branches
end

local result
for _ = 1, tonumber(arg[1]) do
  result = Storage.new():run()
end
print(result)
