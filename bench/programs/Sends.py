import sys


class Sends:
    def fibonacci(self, n):
        if n < 2:
            return n
        return self.fibonacci(n - 1) + self.fibonacci(n - 2)


for _ in range(int(sys.argv[1])):
    result = Sends().fibonacci(27)
print(result)
