def run
  sum = 0
  1.upto(3_000_000) { |i| sum = (sum + i) % 65521 }
  sum
end

result = nil
ARGV[0].to_i.times { result = run }
puts result
