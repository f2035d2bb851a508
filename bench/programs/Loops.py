import sys


def run():
    total = 0
    for i in range(1, 3000001):
        total = (total + i) % 65521
    return total


for _ in range(int(sys.argv[1])):
    result = run()
print(result)
