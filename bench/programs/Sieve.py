import sys


class Sieve:
    def run(self):
        return self.primes_up_to(5000)

    def primes_up_to(self, last):
        is_prime = [True] * (last + 1)
        count = 0
        for number in range(2, last + 1):
            if is_prime[number]:
                count += 1
                self.strike_multiples(number, is_prime)
        return count

    def strike_multiples(self, prime, is_prime):
        multiple = prime + prime
        while multiple < len(is_prime):
            is_prime[multiple] = False
            multiple += prime


for _ in range(int(sys.argv[1])):
    result = Sieve().run()
print(result)
