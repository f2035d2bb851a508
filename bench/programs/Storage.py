import sys


class Random:
    def __init__(self):
        self.seed = 74755

    def next(self):
        self.seed = (self.seed * 1309 + 13849) & 65535
        return self.seed


class Storage:
    def __init__(self):
        self.random = Random()
        self.count = 0

    def run(self):
        self.tree_of(7)
        return self.count

    def tree_of(self, depth):
        self.count += 1
        if depth == 1:
            return [None] * (self.random.next() % 10 + 1)
        branches = [None] * 4
        for i in range(4):
            branches[i] = self.tree_of(depth - 1)
        return branches


for _ in range(int(sys.argv[1])):
    result = Storage().run()
print(result)
