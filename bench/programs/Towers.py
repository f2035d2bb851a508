import sys


class Disk:
    def __init__(self, size, below):
        self.size = size
        self.below = below


class Towers:
    def __init__(self):
        self.piles = [None] * 4
        self.moves = 0

    def run(self):
        self.build(13)
        self.move(13, 1, 2)
        return self.moves

    def build(self, disks):
        if disks == 0:
            return
        self.push(Disk(disks, None), 1)
        self.build(disks - 1)

    def push(self, disk, pile):
        top = self.piles[pile]
        if not (top is None or disk.size < top.size):
            raise ValueError('a larger disk on a smaller one')
        disk.below = top
        self.piles[pile] = disk

    def pop_from(self, pile):
        top = self.piles[pile]
        self.piles[pile] = top.below
        top.below = None
        return top

    def move_top(self, pile, other):
        self.push(self.pop_from(pile), other)
        self.moves += 1

    def move(self, disks, pile, other):
        if disks == 1:
            self.move_top(pile, other)
            return
        third = 6 - pile - other
        self.move(disks - 1, pile, third)
        self.move_top(pile, other)
        self.move(disks - 1, third, other)


for _ in range(int(sys.argv[1])):
    result = Towers().run()
print(result)
