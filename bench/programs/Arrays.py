import sys


def turn_round(numbers):
    low = 0
    high = len(numbers) - 1
    while low < high:
        kept = numbers[low]
        numbers[low] = numbers[high]
        numbers[high] = kept
        low += 1
        high -= 1


def sum_in(numbers):
    total = 0
    for round_ in range(1, 101):
        for i in range(len(numbers)):
            numbers[i] = (i + 1) * round_
        turn_round(numbers)
        for each in numbers:
            total += each
    return total


for _ in range(int(sys.argv[1])):
    result = sum_in([None] * 1000)
print(result)
