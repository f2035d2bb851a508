class Square
  attr_reader :side

  def initialize(side)
    @side = side
  end

  def area
    side * side
  end
end

class Disk < Square
  def area
    super * 355 / 113
  end
end

module Doubled
  attr_reader :times

  def initialize(side)
    super
    @times = 2
  end

  def area
    super * times
  end
end

class DoubledSquare < Square
  include Doubled
end

class DoubledDisk < Disk
  include Doubled
end

def run
  sum = 0
  1.upto(20_000) do |i|
    sum += Square.new(i).area + Disk.new(i).area
    sum += DoubledSquare.new(i).area + DoubledDisk.new(i).area
  end
  sum
end

result = nil
ARGV[0].to_i.times { result = run }
puts result
