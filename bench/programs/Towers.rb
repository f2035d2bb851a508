class Disk
  attr_accessor :size, :below

  def initialize(size, below)
    @size = size
    @below = below
  end
end

class Towers
  def initialize
    @piles = Array.new(4)
    @moves = 0
  end

  def run
    build(13)
    move(13, 1, 2)
    @moves
  end

  def build(disks)
    return if disks == 0
    push(Disk.new(disks, nil), 1)
    build(disks - 1)
  end

  def push(disk, pile)
    top = @piles[pile]
    raise 'a larger disk on a smaller one' unless top.nil? || disk.size < top.size
    disk.below = top
    @piles[pile] = disk
  end

  def pop_from(pile)
    top = @piles[pile]
    @piles[pile] = top.below
    top.below = nil
    top
  end

  def move_top(pile, other)
    push(pop_from(pile), other)
    @moves += 1
  end

  def move(disks, pile, other)
    return move_top(pile, other) if disks == 1
    third = 6 - pile - other
    move(disks - 1, pile, third)
    move_top(pile, other)
    move(disks - 1, third, other)
  end
end

result = nil
ARGV[0].to_i.times { result = Towers.new.run }
puts result
