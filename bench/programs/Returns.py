import sys


def place_in(numbers, test):
    for place, number in enumerate(numbers, 1):
        if test(number):
            return place
    return 0


def sum_in(numbers):
    total = 0
    for i in range(len(numbers)):
        numbers[i] = i + 1
    for i in range(1, 10001):
        total += place_in(numbers, lambda n: n * n >= i % 1600)
    return total


for _ in range(int(sys.argv[1])):
    result = sum_in([None] * 40)
print(result)
