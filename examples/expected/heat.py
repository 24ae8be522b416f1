heat = [0] * 5 + [4096] + [0] * 30  # one cold place in front of the rod
for time in range(12):
    print("[%", *heat[1:10], "%]")
    inner = [(left + 2 * here + right) // 4 for left, here, right in zip(heat, heat[1:], heat[2:])]
    heat = [0] + inner + [0]
