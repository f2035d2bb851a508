local Towers = {}
Towers.__index = Towers

function Towers.new()
  return setmetatable({ piles = {}, moves = 0 }, Towers)
end

function Towers:run()
  self:build(13)
  self:move(13, 1, 2)
  return self.moves
end

function Towers:build(disks)
  if disks == 0 then
    return
  end
  self:push({ size = disks, below = nil }, 1)
  self:build(disks - 1)
end

function Towers:push(disk, pile)
  local top = self.piles[pile]
  if not (top == nil or disk.size < top.size) then
    error("a larger disk on a smaller one")
  end
  disk.below = top
  self.piles[pile] = disk
end

function Towers:pop_from(pile)
  local top = self.piles[pile]
  self.piles[pile] = top.below
  top.below = nil
  return top
end

function Towers:move_top(pile, other)
  self:push(self:pop_from(pile), other)
  self.moves = self.moves + 1
end

function Towers:move(disks, pile, other)
  if disks == 1 then
    self:move_top(pile, other)
    return
  end
  local third = 6 - pile - other
  self:move(disks - 1, pile, third)
  self:move_top(pile, other)
  self:move(disks - 1, third, other)
end

local result
for _ = 1, tonumber(arg[1]) do
  result = Towers.new():run()
end
print(result)
