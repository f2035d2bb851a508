import sys


class Packet:
    def __init__(self, link, task, kind):
        self.link = link
        self.task = task
        self.kind = kind
        self.datum = 0
        self.data = [0, 0, 0, 0]


class Queue:
    """Packets in a list by their links."""

    def __init__(self):
        self.first = None

    def add(self, packet):
        packet.link = None
        if self.first is None:
            self.first = packet
            return
        last = self.first
        while last.link is not None:
            last = last.link
        last.link = packet


class Task:
    """What a task does with a packet, or with None, answers the task that goes on."""

    def __init__(self, scheduler, number, priority, packets, is_waiting, next_):
        self.scheduler = scheduler
        self.number = number
        self.priority = priority
        self.next = next_
        self.is_holding = False
        self.is_waiting = is_waiting
        self.is_pending = packets is not None
        self.input = Queue()
        self.input.first = packets

    def is_still(self):
        return self.is_holding or (not self.is_pending and self.is_waiting)

    def go_on(self):
        if not (self.is_pending and self.is_waiting and not self.is_holding):
            return self.take(None)
        packet = self.input.first
        self.input.first = packet.link
        self.is_pending = self.input.first is not None
        self.is_waiting = False
        return self.take(packet)

    def add(self, packet, other):
        was_empty = self.input.first is None
        self.input.add(packet)
        if not was_empty:
            return other
        self.is_pending = True
        return self if self.priority > other.priority else other


class Idler(Task):
    def __init__(self, scheduler):
        super().__init__(scheduler, 1, 0, None, False, None)
        self.control = 1
        self.count = 10000

    def take(self, packet):
        self.count -= 1
        if self.count == 0:
            return self.scheduler.hold()
        was_even = self.control & 1 == 0
        self.control //= 2
        if was_even:
            return self.scheduler.release(5)
        self.control ^= 53256
        return self.scheduler.release(6)


class Worker(Task):
    def __init__(self, scheduler, packets, next_):
        super().__init__(scheduler, 2, 1000, packets, True, next_)
        self.handler = 3
        self.count = 0

    def take(self, packet):
        if packet is None:
            return self.scheduler.wait()
        self.handler = 7 - self.handler
        packet.task = self.handler
        packet.datum = 0
        for i in range(4):
            self.count += 1
            if self.count > 26:
                self.count = 1
            packet.data[i] = 64 + self.count
        return self.scheduler.queue(packet)


class Handler(Task):
    def __init__(self, scheduler, number, priority, packets, next_):
        super().__init__(scheduler, number, priority, packets, True, next_)
        self.works = Queue()
        self.devices = Queue()

    def take(self, packet):
        if packet is not None:
            (self.works if packet.kind == 1 else self.devices).add(packet)
        work = self.works.first
        if work is None:
            return self.scheduler.wait()
        count = work.datum
        if count == 4:
            self.works.first = work.link
            return self.scheduler.queue(work)
        device = self.devices.first
        if device is None:
            return self.scheduler.wait()
        self.devices.first = device.link
        device.datum = work.data[count]
        work.datum = count + 1
        return self.scheduler.queue(device)


class Device(Task):
    def __init__(self, scheduler, number, priority, next_):
        super().__init__(scheduler, number, priority, None, True, next_)
        self.kept = None

    def take(self, packet):
        if packet is not None:
            self.kept = packet
            return self.scheduler.hold()
        if self.kept is None:
            return self.scheduler.wait()
        old = self.kept
        self.kept = None
        return self.scheduler.queue(old)


class Scheduler:
    def __init__(self):
        self.tasks = [None] * 7
        self.current = None
        self.queued = 0
        self.held = 0

    def run(self):
        self.add(Idler(self))
        self.add(Worker(self, self.packets(2, 2, 1), self.current))
        self.add(Handler(self, 3, 2000, self.packets(3, 5, 0), self.current))
        self.add(Handler(self, 4, 3000, self.packets(3, 6, 0), self.current))
        self.add(Device(self, 5, 4000, self.current))
        self.add(Device(self, 6, 5000, self.current))
        while self.current is not None:
            self.current = self.current.next if self.current.is_still() else self.current.go_on()

    def add(self, task):
        self.tasks[task.number] = task
        self.current = task

    def packets(self, count, task, kind):
        packets = None
        for _ in range(count):
            packets = Packet(packets, task, kind)
        return packets

    def hold(self):
        self.held += 1
        self.current.is_holding = True
        return self.current.next

    def wait(self):
        self.current.is_waiting = True
        return self.current

    def release(self, number):
        task = self.tasks[number]
        task.is_holding = False
        return task if task.priority > self.current.priority else self.current

    def queue(self, packet):
        task = self.tasks[packet.task]
        self.queued += 1
        packet.link = None
        packet.task = self.current.number
        return task.add(packet, self.current)


for _ in range(int(sys.argv[1])):
    scheduler = Scheduler()
    scheduler.run()
print(scheduler.queued)
print(scheduler.held)
