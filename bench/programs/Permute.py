import sys


class Permute:
    def __init__(self):
        self.elements = [None, 1, 2, 3, 4, 5, 6]
        self.count = 0

    def run(self):
        self.permute(6)
        return self.count

    def permute(self, n):
        self.count += 1
        if n == 0:
            return
        self.permute(n - 1)
        for i in range(1, n + 1):
            self.exchange(n, i)
            self.permute(n - 1)
            self.exchange(n, i)

    def exchange(self, i, j):
        elements = self.elements
        kept = elements[i]
        elements[i] = elements[j]
        elements[j] = kept


for _ in range(int(sys.argv[1])):
    result = Permute().run()
print(result)
