import sys


class Board:
    def __init__(self):
        self.rows = [True] * 9
        self.rising = [True] * 17
        self.falling = [True] * 17
        self.row_of_column = [0] * 9

    def place_from(self, column):
        for row in range(1, 9):
            if self.is_free(row, column):
                self.row_of_column[column] = row
                self.set(row, column, False)
                if column == 8:
                    return True
                if self.place_from(column + 1):
                    return True
                self.set(row, column, True)
        return False

    def is_free(self, row, column):
        return self.rows[row] and self.rising[column + row] and self.falling[column - row + 8]

    def set(self, row, column, is_free):
        self.rows[row] = is_free
        self.rising[column + row] = is_free
        self.falling[column - row + 8] = is_free


result = True
for _ in range(int(sys.argv[1]) * 10):
    result = result & Board().place_from(1)
print('true' if result else 'false')
