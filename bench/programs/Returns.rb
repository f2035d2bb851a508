def place_in(numbers)
  1.upto(numbers.size) { |i| return i if yield numbers[i - 1] }
  0
end

def sum_in(numbers)
  sum = 0
  1.upto(numbers.size) { |i| numbers[i - 1] = i }
  1.upto(10_000) { |i| sum += place_in(numbers) { |n| n * n >= i % 1600 } }
  sum
end

result = nil
ARGV[0].to_i.times { result = sum_in(Array.new(40)) }
puts result
