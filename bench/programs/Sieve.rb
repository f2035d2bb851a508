class Sieve
  def run
    primes_up_to(5000)
  end

  def primes_up_to(last)
    is_prime = Array.new(last + 1, true)
    count = 0
    2.upto(last) do |number|
      if is_prime[number]
        count += 1
        strike_multiples(number, is_prime)
      end
    end
    count
  end

  def strike_multiples(prime, is_prime)
    multiple = prime + prime
    while multiple < is_prime.size
      is_prime[multiple] = false
      multiple += prime
    end
  end
end

result = nil
ARGV[0].to_i.times { result = Sieve.new.run }
puts result
