class Sends
  def fibonacci(n)
    return n if n < 2
    fibonacci(n - 1) + fibonacci(n - 2)
  end
end

result = nil
ARGV[0].to_i.times { result = Sends.new.fibonacci(27) }
puts result
