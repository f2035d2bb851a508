local function subclass(superclass)
  local class = setmetatable({}, { __index = superclass })
  class.__index = class
  return class
end

local function packet_for(link, task, kind)
  return { link = link, task = task, kind = kind, datum = 0, data = { 0, 0, 0, 0 } }
end

-- Packets in a list by their links.
local Queue = subclass(nil)

function Queue.new()
  return setmetatable({ first = nil }, Queue)
end

function Queue:add(packet)
  packet.link = nil
  if self.first == nil then
    self.first = packet
    return
  end
  local last = self.first
  while last.link ~= nil do
    last = last.link
  end
  last.link = packet
end

-- What a task does with a packet, or with nil, answers the task that goes on.
local Task = subclass(nil)

function Task.new(class, scheduler, number, priority, packets, is_waiting, following)
  local task = setmetatable({
    scheduler = scheduler,
    number = number,
    priority = priority,
    next = following,
    is_holding = false,
    is_waiting = is_waiting,
    is_pending = packets ~= nil,
    input = Queue.new(),
  }, class)
  task.input.first = packets
  return task
end

function Task:is_still()
  return self.is_holding or (not self.is_pending and self.is_waiting)
end

function Task:go_on()
  if not (self.is_pending and self.is_waiting and not self.is_holding) then
    return self:take(nil)
  end
  local packet = self.input.first
  self.input.first = packet.link
  self.is_pending = self.input.first ~= nil
  self.is_waiting = false
  return self:take(packet)
end

function Task:add(packet, other)
  local was_empty = self.input.first == nil
  self.input:add(packet)
  if not was_empty then
    return other
  end
  self.is_pending = true
  return self.priority > other.priority and self or other
end

local Idler = subclass(Task)

function Idler.new(scheduler)
  local idler = Task.new(Idler, scheduler, 1, 0, nil, false, nil)
  idler.control = 1
  idler.count = 10000
  return idler
end

function Idler:take()
  self.count = self.count - 1
  if self.count == 0 then
    return self.scheduler:hold()
  end
  local was_even = self.control & 1 == 0
  self.control = self.control // 2
  if was_even then
    return self.scheduler:release(5)
  end
  self.control = self.control ~ 53256
  return self.scheduler:release(6)
end

local Worker = subclass(Task)

function Worker.new(scheduler, packets, following)
  local worker = Task.new(Worker, scheduler, 2, 1000, packets, true, following)
  worker.handler = 3
  worker.count = 0
  return worker
end

function Worker:take(packet)
  if packet == nil then
    return self.scheduler:wait()
  end
  self.handler = 7 - self.handler
  packet.task = self.handler
  packet.datum = 0
  for i = 1, 4 do
    self.count = self.count + 1
    if self.count > 26 then
      self.count = 1
    end
    packet.data[i] = 64 + self.count
  end
  return self.scheduler:queue(packet)
end

local Handler = subclass(Task)

function Handler.new(scheduler, number, priority, packets, following)
  local handler = Task.new(Handler, scheduler, number, priority, packets, true, following)
  handler.works = Queue.new()
  handler.devices = Queue.new()
  return handler
end

function Handler:take(packet)
  if packet ~= nil then
    (packet.kind == 1 and self.works or self.devices):add(packet)
  end
  local work = self.works.first
  if work == nil then
    return self.scheduler:wait()
  end
  local count = work.datum
  if count == 4 then
    self.works.first = work.link
    return self.scheduler:queue(work)
  end
  local device = self.devices.first
  if device == nil then
    return self.scheduler:wait()
  end
  self.devices.first = device.link
  device.datum = work.data[count + 1]
  work.datum = count + 1
  return self.scheduler:queue(device)
end

local Device = subclass(Task)

function Device.new(scheduler, number, priority, following)
  return Task.new(Device, scheduler, number, priority, nil, true, following)
end

function Device:take(packet)
  if packet ~= nil then
    self.kept = packet
    return self.scheduler:hold()
  end
  if self.kept == nil then
    return self.scheduler:wait()
  end
  local old = self.kept
  self.kept = nil
  return self.scheduler:queue(old)
end

local Scheduler = subclass(nil)

function Scheduler.new()
  return setmetatable({ tasks = {}, current = nil, queued = 0, held = 0 }, Scheduler)
end

function Scheduler:run()
  self:add(Idler.new(self))
  self:add(Worker.new(self, self:packets(2, 2, 1), self.current))
  self:add(Handler.new(self, 3, 2000, self:packets(3, 5, 0), self.current))
  self:add(Handler.new(self, 4, 3000, self:packets(3, 6, 0), self.current))
  self:add(Device.new(self, 5, 4000, self.current))
  self:add(Device.new(self, 6, 5000, self.current))
  while self.current ~= nil do
    if self.current:is_still() then
      self.current = self.current.next
    else
      self.current = self.current:go_on()
    end
  end
end

function Scheduler:add(task)
  self.tasks[task.number] = task
  self.current = task
end

function Scheduler:packets(count, task, kind)
  local packets = nil
  for _ = 1, count do
    packets = packet_for(packets, task, kind)
  end
  return packets
end

function Scheduler:hold()
  self.held = self.held + 1
  self.current.is_holding = true
  return self.current.next
end

function Scheduler:wait()
  self.current.is_waiting = true
  return self.current
end

function Scheduler:release(number)
  local task = self.tasks[number]
  task.is_holding = false
  return task.priority > self.current.priority and task or self.current
end

function Scheduler:queue(packet)
  local task = self.tasks[packet.task]
  self.queued = self.queued + 1
  packet.link = nil
  packet.task = self.current.number
  return task:add(packet, self.current)
end

local scheduler
for _ = 1, tonumber(arg[1]) do
  scheduler = Scheduler.new()
  scheduler:run()
end
print(scheduler.queued)
print(scheduler.held)
