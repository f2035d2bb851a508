class Element
  attr_reader :value, :next

  def initialize(value, following)
    @value = value
    @next = following
  end

  def length
    @next.nil? ? 1 : 1 + @next.length
  end
end

class List
  def run
    tail(list_of(15), list_of(10), list_of(6)).length
  end

  def list_of(length)
    return nil if length == 0
    Element.new(length, list_of(length - 1))
  end

  def tail(x, y, z)
    return z unless shorter?(y, x)
    tail(tail(x.next, y, z), tail(y.next, z, x), tail(z.next, x, y))
  end

  def shorter?(one, other)
    short = one
    long = other
    until long.nil?
      return true if short.nil?
      short = short.next
      long = long.next
    end
    false
  end
end

result = nil
ARGV[0].to_i.times { result = List.new.run }
puts result
