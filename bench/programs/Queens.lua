local Board = {}
Board.__index = Board

local function filled(size, value)
  local array = {}
  for i = 1, size do
    array[i] = value
  end
  return array
end

function Board.new()
  return setmetatable({
    rows = filled(8, true),
    rising = filled(16, true),
    falling = filled(16, true),
    row_of_column = filled(8, 0),
  }, Board)
end

function Board:place_from(column)
  for row = 1, 8 do
    if self:is_free(row, column) then
      self.row_of_column[column] = row
      self:set(row, column, false)
      if column == 8 then
        return true
      end
      if self:place_from(column + 1) then
        return true
      end
      self:set(row, column, true)
    end
  end
  return false
end

function Board:is_free(row, column)
  return self.rows[row] and self.rising[column + row] and self.falling[column - row + 8]
end

function Board:set(row, column, is_free)
  self.rows[row] = is_free
  self.rising[column + row] = is_free
  self.falling[column - row + 8] = is_free
end

local result = true
for _ = 1, tonumber(arg[1]) * 10 do
  result = Board.new():place_from(1) and result
end
print(result)
