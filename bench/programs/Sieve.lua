local Sieve = {}
Sieve.__index = Sieve

function Sieve:run()
  return self:primes_up_to(5000)
end

function Sieve:primes_up_to(last)
  local is_prime, count = {}, 0
  for number = 1, last do
    is_prime[number] = true
  end
  for number = 2, last do
    if is_prime[number] then
      count = count + 1
      self:strike_multiples(number, is_prime)
    end
  end
  return count
end

function Sieve:strike_multiples(prime, is_prime)
  local multiple = prime + prime
  while multiple <= #is_prime do
    is_prime[multiple] = false
    multiple = multiple + prime
  end
end

local result
for _ = 1, tonumber(arg[1]) do
  result = setmetatable({}, Sieve):run()
end
print(result)
