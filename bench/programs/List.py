import sys


class Element:
    def __init__(self, value, next_):
        self.value = value
        self.next = next_

    def length(self):
        return 1 if self.next is None else 1 + self.next.length()


class List:
    def run(self):
        return self.tail(self.list_of(15), self.list_of(10), self.list_of(6)).length()

    def list_of(self, length):
        if length == 0:
            return None
        return Element(length, self.list_of(length - 1))

    def tail(self, x, y, z):
        if not self.is_shorter(y, x):
            return z
        return self.tail(self.tail(x.next, y, z), self.tail(y.next, z, x), self.tail(z.next, x, y))

    def is_shorter(self, one, other):
        short = one
        long = other
        while long is not None:
            if short is None:
                return True
            short = short.next
            long = long.next
        return False


for _ in range(int(sys.argv[1])):
    result = List().run()
print(result)
