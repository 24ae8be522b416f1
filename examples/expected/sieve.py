primes = [n for n in range(2, 100) if all(n % d for d in range(2, n))]
for prime in primes[:20]:
    print(prime)
