def bytes_of(text)
  sum = 0
  text.each_byte { |byte| sum += byte }
  sum
end

def run
  sum = 0
  last = ''
  1.upto(20_000) do |i|
    text = 'item ' + i.to_s + ';'
    sum += 1 if text < last
    sum += bytes_of(text[5..-2])
    last = text
  end
  sum
end

result = nil
ARGV[0].to_i.times { result = run }
puts result
