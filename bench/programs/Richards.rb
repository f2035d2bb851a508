class Packet
  attr_accessor :link, :task, :datum
  attr_reader :kind, :data

  def initialize(link, task, kind)
    @link = link
    @task = task
    @kind = kind
    @datum = 0
    @data = [0, 0, 0, 0]
  end
end

# Packets in a list by their links.
class PacketQueue
  attr_accessor :first

  def add(packet)
    packet.link = nil
    return @first = packet if @first.nil?
    last = @first
    last = last.link until last.link.nil?
    last.link = packet
  end
end

# What a task does with a packet, or with nil, answers the task that goes on.
class Task
  attr_reader :number, :priority, :next
  attr_writer :is_holding, :is_waiting

  def initialize(scheduler, number, priority, packets, is_waiting, following)
    @scheduler = scheduler
    @number = number
    @priority = priority
    @next = following
    @is_holding = false
    @is_waiting = is_waiting
    @is_pending = !packets.nil?
    @input = PacketQueue.new
    @input.first = packets
  end

  def still?
    @is_holding || (!@is_pending && @is_waiting)
  end

  def go_on
    return take(nil) unless @is_pending && @is_waiting && !@is_holding
    packet = @input.first
    @input.first = packet.link
    @is_pending = !@input.first.nil?
    @is_waiting = false
    take(packet)
  end

  def add(packet, other)
    was_empty = @input.first.nil?
    @input.add(packet)
    return other unless was_empty
    @is_pending = true
    @priority > other.priority ? self : other
  end
end

class Idler < Task
  def initialize(scheduler)
    super(scheduler, 1, 0, nil, false, nil)
    @control = 1
    @count = 10_000
  end

  def take(_packet)
    @count -= 1
    return @scheduler.hold if @count == 0
    was_even = @control & 1 == 0
    @control /= 2
    return @scheduler.release(5) if was_even
    @control ^= 53_256
    @scheduler.release(6)
  end
end

class Worker < Task
  def initialize(scheduler, packets, following)
    super(scheduler, 2, 1000, packets, true, following)
    @handler = 3
    @count = 0
  end

  def take(packet)
    return @scheduler.wait if packet.nil?
    @handler = 7 - @handler
    packet.task = @handler
    packet.datum = 0
    4.times do |i|
      @count += 1
      @count = 1 if @count > 26
      packet.data[i] = 64 + @count
    end
    @scheduler.queue(packet)
  end
end

class Handler < Task
  def initialize(scheduler, number, priority, packets, following)
    super(scheduler, number, priority, packets, true, following)
    @works = PacketQueue.new
    @devices = PacketQueue.new
  end

  def take(packet)
    (packet.kind == 1 ? @works : @devices).add(packet) unless packet.nil?
    work = @works.first
    return @scheduler.wait if work.nil?
    count = work.datum
    if count == 4
      @works.first = work.link
      return @scheduler.queue(work)
    end
    device = @devices.first
    return @scheduler.wait if device.nil?
    @devices.first = device.link
    device.datum = work.data[count]
    work.datum = count + 1
    @scheduler.queue(device)
  end
end

class Device < Task
  def initialize(scheduler, number, priority, following)
    super(scheduler, number, priority, nil, true, following)
    @kept = nil
  end

  def take(packet)
    unless packet.nil?
      @kept = packet
      return @scheduler.hold
    end
    return @scheduler.wait if @kept.nil?
    old = @kept
    @kept = nil
    @scheduler.queue(old)
  end
end

class Scheduler
  attr_reader :queued, :held

  def initialize
    @tasks = Array.new(7)
    @current = nil
    @queued = 0
    @held = 0
  end

  def run
    add(Idler.new(self))
    add(Worker.new(self, packets(2, 2, 1), @current))
    add(Handler.new(self, 3, 2000, packets(3, 5, 0), @current))
    add(Handler.new(self, 4, 3000, packets(3, 6, 0), @current))
    add(Device.new(self, 5, 4000, @current))
    add(Device.new(self, 6, 5000, @current))
    @current = @current.still? ? @current.next : @current.go_on until @current.nil?
  end

  def add(task)
    @tasks[task.number] = task
    @current = task
  end

  def packets(count, task, kind)
    packets = nil
    count.times { packets = Packet.new(packets, task, kind) }
    packets
  end

  def hold
    @held += 1
    @current.is_holding = true
    @current.next
  end

  def wait
    @current.is_waiting = true
    @current
  end

  def release(number)
    task = @tasks[number]
    task.is_holding = false
    task.priority > @current.priority ? task : @current
  end

  def queue(packet)
    task = @tasks[packet.task]
    @queued += 1
    packet.link = nil
    packet.task = @current.number
    task.add(packet, @current)
  end
end

scheduler = nil
ARGV[0].to_i.times do
  scheduler = Scheduler.new
  scheduler.run
end
puts scheduler.queued
puts scheduler.held
