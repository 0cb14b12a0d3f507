# Builds a graph of 200 towns with 800 roads, and finds the shortest ways from 3 of them; makes JSON of the result and reads it again.
# Debian: python3
cat > roads.py <<'PYTHON'
import heapq, json

def shortest(roads, start):
    far, queue = {start: 0}, [(0, start)]
    while queue:
        passed, town = heapq.heappop(queue)
        if passed > far[town]:
            continue
        for other, length in roads[town].items():
            if passed + length < far.get(other, 1 << 30):
                far[other] = passed + length
                heapq.heappush(queue, (far[other], other))
    return far

towns = [f"town {number}" for number in range(200)]
roads = {town: {towns[(number * 271 + road * road * 67) % 200]: number * road % 97 + 1 for road in range(1, 5)} for number, town in enumerate(towns)}
ways = {start: shortest(roads, start) for start in towns[:3]}
print(sum(map(len, json.loads(json.dumps(ways)).values())))
PYTHON
traced python3 -B -S roads.py
