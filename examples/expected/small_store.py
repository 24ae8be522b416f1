powers = [pow(3, time, 10007) for time in range(20000)]
sums = [sum(powers[time:time + 3]) for time in range(19998)]
for total in [it for it in sums if it % 500 == 0][:20]:
    print(total)
