class Numbers
  def initialize
    @seed = 74755
  end

  def next
    @seed = (@seed * 1309 + 13849) & 65535
  end
end

class Storage
  def initialize
    @random = Numbers.new
    @count = 0
  end

  def run
    tree_of(7)
    @count
  end

  def tree_of(depth)
    @count += 1
    return Array.new(@random.next % 10 + 1) if depth == 1
    branches = Array.new(4)
    4.times { |i| branches[i] = tree_of(depth - 1) }
    branches
  end
end

result = nil
ARGV[0].to_i.times { result = Storage.new.run }
puts result
