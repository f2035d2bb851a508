local function subclass(superclass)
  local class = setmetatable({}, { __index = superclass })
  class.__index = class
  return class
end

local Vector = subclass(nil)

function Vector.new()
  return setmetatable({ items = {}, first = 1, last = 0 }, Vector)
end

function Vector:is_empty()
  return self.last < self.first
end

function Vector:at(i)
  return self.items[self.first + i - 1]
end

function Vector:add(item)
  self.last = self.last + 1
  self.items[self.last] = item
end

function Vector:take_first()
  self.first = self.first + 1
  return self.items[self.first - 1]
end

function Vector:remove(item)
  local kept = self.first - 1
  for i = self.first, self.last do
    if self.items[i] ~= item then
      kept = kept + 1
      self.items[kept] = self.items[i]
    end
  end
  self.last = kept
end

function Vector:each(action)
  for i = self.first, self.last do
    action(self.items[i])
  end
end

local Variable = subclass(nil)

function Variable.new(value)
  return setmetatable({
    value = value,
    constraints = Vector.new(),
    determined_by = nil,
    mark = 0,
    strength = 7,
    stays = true,
  }, Variable)
end

function Variable:add(constraint)
  self.constraints:add(constraint)
end

function Variable:remove(constraint)
  self.constraints:remove(constraint)
  if self.determined_by == constraint then
    self.determined_by = nil
  end
end

function Variable:each_consumer(action)
  self.constraints:each(function(each)
    if each ~= self.determined_by and each:is_satisfied() then
      action(each)
    end
  end)
end

local Constraint = subclass(nil)

function Constraint:is_input()
  return false
end

function Constraint:add()
  self:register()
  self.planner:incrementally_add(self)
end

function Constraint:destroy()
  if self:is_satisfied() then
    self.planner:incrementally_remove(self)
  else
    self:unregister()
  end
end

function Constraint:satisfy_for(mark)
  self:choose(mark)
  if not self:is_satisfied() then
    if self.strength == 1 then
      error("a required constraint can't be satisfied")
    end
    return nil
  end
  self:mark_inputs(mark)
  local variable = self:output()
  local overridden = variable.determined_by
  if overridden ~= nil then
    overridden:release()
  end
  variable.determined_by = self
  if not self.planner:propagate(self, mark) then
    error("the constraints form a circle")
  end
  variable.mark = mark
  return overridden
end

local UnaryConstraint = subclass(Constraint)

function UnaryConstraint.new(class, planner, variable, strength)
  return setmetatable({ planner = planner, strength = strength, variable = variable, satisfied = false }, class)
end

function UnaryConstraint:output()
  return self.variable
end

function UnaryConstraint:is_satisfied()
  return self.satisfied
end

function UnaryConstraint:register()
  self.variable:add(self)
end

function UnaryConstraint:unregister()
  self.variable:remove(self)
end

function UnaryConstraint:release()
  self.satisfied = false
end

function UnaryConstraint:choose(mark)
  self.satisfied = self.variable.mark ~= mark and self.strength < self.variable.strength
end

function UnaryConstraint:mark_inputs() end

function UnaryConstraint:are_inputs_known()
  return true
end

function UnaryConstraint:recalculate()
  self.variable.strength = self.strength
  self.variable.stays = not self:is_input()
end

local StayConstraint = subclass(UnaryConstraint)
local EditConstraint = subclass(UnaryConstraint)

function EditConstraint:is_input()
  return true
end

function EditConstraint:execute() end

local BinaryConstraint = subclass(Constraint)

function BinaryConstraint.new(class, planner, first, second, strength)
  return setmetatable({
    planner = planner,
    strength = strength,
    first = first,
    second = second,
    goes_forward = nil,
  }, class)
end

function BinaryConstraint:is_satisfied()
  return self.goes_forward ~= nil
end

function BinaryConstraint:input()
  return self.goes_forward and self.first or self.second
end

function BinaryConstraint:output()
  return self.goes_forward and self.second or self.first
end

function BinaryConstraint:register()
  self.first:add(self)
  self.second:add(self)
end

function BinaryConstraint:unregister()
  self.first:remove(self)
  self.second:remove(self)
  self:release()
end

function BinaryConstraint:release()
  self.goes_forward = nil
end

function BinaryConstraint:choose(mark)
  if self.first.mark == mark then
    self.goes_forward = self:determines(self.second, mark, true)
  elseif self.second.mark == mark then
    self.goes_forward = self:determines(self.first, mark, false)
  elseif self.first.strength > self.second.strength then
    self.goes_forward = self:determines(self.first, mark, false)
  else
    self.goes_forward = self:determines(self.second, mark, true)
  end
end

function BinaryConstraint:determines(variable, mark, direction)
  if variable.mark ~= mark and self.strength < variable.strength then
    return direction
  end
  return nil
end

function BinaryConstraint:mark_inputs(mark)
  self:input().mark = mark
end

function BinaryConstraint:are_inputs_known(mark)
  return self:is_known(self:input(), mark)
end

function BinaryConstraint:is_known(variable, mark)
  return variable.mark == mark or variable.stays or variable.determined_by == nil
end

function BinaryConstraint:recalculate()
  local source = self:input()
  local target = self:output()
  target.strength = self.strength > source.strength and self.strength or source.strength
  target.stays = self:inputs_stay()
  if target.stays then
    self:execute()
  end
end

function BinaryConstraint:inputs_stay()
  return self:input().stays
end

local EqualityConstraint = subclass(BinaryConstraint)

function EqualityConstraint:execute()
  self:output().value = self:input().value
end

local ScaleConstraint = subclass(BinaryConstraint)

function ScaleConstraint.new(class, planner, first, scale, offset, second, strength)
  local constraint = BinaryConstraint.new(class, planner, first, second, strength)
  constraint.scale = scale
  constraint.offset = offset
  return constraint
end

function ScaleConstraint:register()
  BinaryConstraint.register(self)
  self.scale:add(self)
  self.offset:add(self)
end

function ScaleConstraint:unregister()
  BinaryConstraint.unregister(self)
  self.scale:remove(self)
  self.offset:remove(self)
end

function ScaleConstraint:mark_inputs(mark)
  BinaryConstraint.mark_inputs(self, mark)
  self.scale.mark = mark
  self.offset.mark = mark
end

function ScaleConstraint:are_inputs_known(mark)
  return self:is_known(self:input(), mark) and self:is_known(self.scale, mark) and self:is_known(self.offset, mark)
end

function ScaleConstraint:inputs_stay()
  return self:input().stays and self.scale.stays and self.offset.stays
end

function ScaleConstraint:execute()
  if self.goes_forward then
    self.second.value = self.first.value * self.scale.value + self.offset.value
  else
    self.first.value = (self.second.value - self.offset.value) // self.scale.value
  end
end

local Planner = subclass(nil)

function Planner:new_mark()
  self.last_mark = self.last_mark + 1
  return self.last_mark
end

function Planner:incrementally_add(constraint)
  local mark = self:new_mark()
  local overridden = constraint:satisfy_for(mark)
  while overridden ~= nil do
    overridden = overridden:satisfy_for(mark)
  end
end

function Planner:incrementally_remove(constraint)
  local output = constraint:output()
  constraint:release()
  constraint:unregister()
  local unsatisfied = self:unsatisfied_below(output)
  for strength = 1, 7 do
    unsatisfied:each(function(each)
      if each.strength == strength then
        self:incrementally_add(each)
      end
    end)
  end
end

function Planner:propagate(constraint, mark)
  local todo = Vector.new()
  todo:add(constraint)
  while not todo:is_empty() do
    local following = todo:take_first()
    local output = following:output()
    if output.mark == mark then
      self:incrementally_remove(constraint)
      return false
    end
    following:recalculate()
    output:each_consumer(function(each) todo:add(each) end)
  end
  return true
end

function Planner:unsatisfied_below(output)
  output.determined_by = nil
  output.strength = 7
  output.stays = true
  local unsatisfied = Vector.new()
  local todo = Vector.new()
  todo:add(output)
  while not todo:is_empty() do
    local variable = todo:take_first()
    variable.constraints:each(function(each)
      if not each:is_satisfied() then
        unsatisfied:add(each)
      end
    end)
    variable:each_consumer(function(each)
      each:recalculate()
      todo:add(each:output())
    end)
  end
  return unsatisfied
end

function Planner:plan_for(edit)
  local mark = self:new_mark()
  local sources = Vector.new()
  if edit:is_satisfied() then
    sources:add(edit)
  end
  local plan = Vector.new()
  while not sources:is_empty() do
    local following = sources:take_first()
    local output = following:output()
    if output.mark ~= mark and following:are_inputs_known(mark) then
      plan:add(following)
      output.mark = mark
      output:each_consumer(function(each) sources:add(each) end)
    end
  end
  return plan
end

local function execute(constraint)
  constraint:execute()
end

local Chain = subclass(Planner)

function Chain.new(size)
  local chain = setmetatable({ last_mark = 0, first = Variable.new(0) }, Chain)
  chain.last = chain.first
  for _ = 1, size do
    chain:add_link()
  end
  StayConstraint:new(chain, chain.last, 4):add()
  return chain
end

function Chain:add_link()
  local following = Variable.new(0)
  EqualityConstraint:new(self, self.last, following, 1):add()
  self.last = following
end

function Chain:is_right()
  local edit = EditConstraint:new(self, self.first, 3)
  edit:add()
  local plan = self:plan_for(edit)
  for number = 1, 100 do
    self.first.value = number
    plan:each(execute)
    if self.last.value ~= number then
      return false
    end
  end
  edit:destroy()
  return true
end

local Projection = subclass(Planner)

function Projection.new(size)
  local projection = setmetatable({
    last_mark = 0,
    scale = Variable.new(10),
    offset = Variable.new(1000),
    sources = Vector.new(),
    targets = Vector.new(),
    size = size,
  }, Projection)
  for number = 1, size do
    projection:add(number)
  end
  return projection
end

function Projection:add(number)
  local source = Variable.new(number)
  local target = Variable.new(number)
  self.sources:add(source)
  self.targets:add(target)
  StayConstraint:new(self, source, 5):add()
  ScaleConstraint:new(self, source, self.scale, self.offset, target, 1):add()
end

function Projection:is_right()
  local size = self.size
  self:change(self.sources:at(size), 17)
  if self.targets:at(size).value ~= 1170 then
    return false
  end
  self:change(self.targets:at(size), 1050)
  if self.sources:at(size).value ~= 5 then
    return false
  end
  self:change(self.scale, 5)
  for i = 1, size - 1 do
    if self.targets:at(i).value ~= i * 5 + 1000 then
      return false
    end
  end
  self:change(self.offset, 2000)
  for i = 1, size - 1 do
    if self.targets:at(i).value ~= i * 5 + 2000 then
      return false
    end
  end
  return true
end

function Projection:change(variable, value)
  local edit = EditConstraint:new(self, variable, 3)
  edit:add()
  local plan = self:plan_for(edit)
  for _ = 1, 10 do
    variable.value = value
    plan:each(execute)
  end
  edit:destroy()
end

local result = true
for _ = 1, tonumber(arg[1]) do
  result = Chain.new(100):is_right() and Projection.new(100):is_right() and result
end
print(result)
