import sys


def bytes_of(text):
    total = 0
    for character in text:
        total += ord(character)
    return total


def run():
    total = 0
    last = ''
    for i in range(1, 20001):
        text = 'item ' + str(i) + ';'
        if text < last:
            total += 1
        total += bytes_of(text[5:-1])
        last = text
    return total


for _ in range(int(sys.argv[1])):
    result = run()
print(result)
