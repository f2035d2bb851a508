class Permute
  def initialize
    @elements = [nil, 1, 2, 3, 4, 5, 6]
    @count = 0
  end

  def run
    permute(6)
    @count
  end

  def permute(n)
    @count += 1
    return if n == 0
    permute(n - 1)
    1.upto(n) do |i|
      exchange(n, i)
      permute(n - 1)
      exchange(n, i)
    end
  end

  def exchange(i, j)
    kept = @elements[i]
    @elements[i] = @elements[j]
    @elements[j] = kept
  end
end

result = nil
ARGV[0].to_i.times { result = Permute.new.run }
puts result
