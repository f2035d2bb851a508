local Element = {}
Element.__index = Element

function Element.new(value, following)
  return setmetatable({ value = value, next = following }, Element)
end

function Element:length()
  return self.next == nil and 1 or 1 + self.next:length()
end

local List = {}
List.__index = List

function List:run()
  return self:tail(self:list_of(15), self:list_of(10), self:list_of(6)):length()
end

function List:list_of(length)
  if length == 0 then
    return nil
  end
  return Element.new(length, self:list_of(length - 1))
end

function List:tail(x, y, z)
  if not self:is_shorter(y, x) then
    return z
  end
  return self:tail(self:tail(x.next, y, z), self:tail(y.next, z, x), self:tail(z.next, x, y))
end

function List:is_shorter(one, other)
  local short, long = one, other
  while long ~= nil do
    if short == nil then
      return true
    end
    short = short.next
    long = long.next
  end
  return false
end

local result
for _ = 1, tonumber(arg[1]) do
  result = setmetatable({}, List):run()
end
print(result)
