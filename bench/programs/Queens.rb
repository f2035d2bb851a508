class Board
  def initialize
    @rows = Array.new(9, true)
    @rising = Array.new(17, true)
    @falling = Array.new(17, true)
    @row_of_column = Array.new(9, 0)
  end

  def place_from(column)
    1.upto(8) do |row|
      if free?(row, column)
        @row_of_column[column] = row
        set(row, column, false)
        return true if column == 8
        return true if place_from(column + 1)
        set(row, column, true)
      end
    end
    false
  end

  def free?(row, column)
    @rows[row] && @rising[column + row] && @falling[column - row + 8]
  end

  def set(row, column, is_free)
    @rows[row] = is_free
    @rising[column + row] = is_free
    @falling[column - row + 8] = is_free
  end
end

result = true
(ARGV[0].to_i * 10).times { result &= Board.new.place_from(1) }
puts result
