class Counter
  attr_accessor :count

  def initialize
    @count = 0
  end

  def add(amount)
    self.count += amount
  end

  def take(amount)
    self.count -= amount
  end
end

def run
  counter = Counter.new
  names = %i[add take add]
  1.upto(200_000) { |i| counter.public_send(names[i % 3], *[i]) }
  counter.count
end

result = nil
ARGV[0].to_i.times { result = run }
puts result
