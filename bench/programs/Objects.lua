local function subclass(superclass)
  local class = setmetatable({}, { __index = superclass })
  class.__index = class
  return class
end

local function new(class, side)
  local object = setmetatable({}, class)
  object:init(side)
  return object
end

local Square = subclass(nil)
function Square:init(side)
  self.side = side
end
function Square:area()
  return self.side * self.side
end

local Disk = subclass(Square)
function Disk:area()
  return Square.area(self) * 355 // 113
end

local function doubled(superclass)
  local class = subclass(superclass)
  function class:init(side)
    superclass.init(self, side)
    self.times = 2
  end
  function class:area()
    return superclass.area(self) * self.times
  end
  return class
end

local DoubledSquare = subclass(doubled(Square))
local DoubledDisk = subclass(doubled(Disk))

local function run()
  local sum = 0
  for i = 1, 20000 do
    sum = sum + new(Square, i):area() + new(Disk, i):area()
    sum = sum + new(DoubledSquare, i):area() + new(DoubledDisk, i):area()
  end
  return sum
end

local result
for _ = 1, tonumber(arg[1]) do
  result = run()
end
print(result)
