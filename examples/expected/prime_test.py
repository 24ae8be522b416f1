primes = [n for n in range(2, 200) if all(n % d for d in range(2, n))]
for prime in primes[:30]:
    print(prime)
