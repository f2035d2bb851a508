import sys


class Square:
    def __init__(self, side):
        self.side = side

    def area(self):
        return self.side * self.side


class Disk(Square):
    def area(self):
        return super().area() * 355 // 113


class Doubled:
    def __init__(self, side):
        super().__init__(side)
        self.times = 2

    def area(self):
        return super().area() * self.times


class DoubledSquare(Doubled, Square):
    pass


class DoubledDisk(Doubled, Disk):
    pass


def run():
    total = 0
    for i in range(1, 20001):
        total += Square(i).area() + Disk(i).area()
        total += DoubledSquare(i).area() + DoubledDisk(i).area()
    return total


for _ in range(int(sys.argv[1])):
    result = run()
print(result)
