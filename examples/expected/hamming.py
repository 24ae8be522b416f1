products = sorted(2 ** i * 3 ** j * 5 ** k for i in range(9) for j in range(9) for k in range(9))
for product in products[:40]:
    print(product)
