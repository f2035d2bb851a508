import sys


class Counter:
    def __init__(self):
        self.count = 0

    def add(self, amount):
        self.count += amount

    def take(self, amount):
        self.count -= amount


def run():
    counter = Counter()
    names = ['add', 'take', 'add']
    for i in range(1, 200001):
        getattr(counter, names[i % 3])(*[i])
    return counter.count


for _ in range(int(sys.argv[1])):
    result = run()
print(result)
