def turn_round(numbers)
  low = 0
  high = numbers.size - 1
  while low < high
    kept = numbers[low]
    numbers[low] = numbers[high]
    numbers[high] = kept
    low += 1
    high -= 1
  end
end

def sum_in(numbers)
  sum = 0
  1.upto(100) do |round|
    numbers.size.times { |i| numbers[i] = (i + 1) * round }
    turn_round(numbers)
    numbers.each { |each| sum += each }
  end
  sum
end

result = nil
ARGV[0].to_i.times { result = sum_in(Array.new(1000)) }
puts result
