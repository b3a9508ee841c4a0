"""Four topologies at the limits (many ties, metrics to 1,000, a grid, a line), and the processor time of a run over them."""
import os
import resource
import subprocess

NODES, LINKS = 1024, 8192
SHAPES = ("ties", "metrics", "grid", "line")
ENDS = "0412000c0a0000010a000201"  # from the first node to the one in the middle


def drawn(n):
    a = (n ^ 61) ^ (n >> 16)
    b = a * 9 & 0xFFFFFFFF
    c = (b ^ (b >> 4)) * 0x27D4EB2D & 0xFFFFFFFF
    return c ^ (c >> 15)


def far_end(shape, start, n):
    """The ends of a link with this number, and its metric."""
    some = 1 + drawn(n + 77) % 1000
    if shape == "grid":
        row, column = divmod(start, 32)
        row, column = ((row + 1, column), (row + 31, column), (row, column + 1), (row, column + 31))[n % 4]
        return start, row % 32 * 32 + column % 32, 1 + some % 10
    if shape == "line":
        low = start % (NODES - 1)
        return (low, low + 1, some) if n % 8 < 4 else (low + 1, low, some)
    other = drawn(n) % NODES
    return start, (start + 1) % NODES if n % 8 == 0 or other == start else other, 1 if shape == "ties" else some


def write_topology(folder, shape):
    node = lambda place: "10.0.%d.%d" % (place + 1 >> 8, place + 1 & 255)
    rows = ["topology 1"] + ["node " + node(place) for place in range(NODES)]
    for n in range(LINKS):
        start, end, metric = far_end(shape, n // 8, n)
        rows.append("link %s %s 64.0.%d.%d 128.0.%d.%d 1 %d 1000 00000000" % (node(start), node(end), n >> 8, n & 255, n >> 8, n & 255, metric))
    with open(os.path.join(folder, "limits.txt"), "w") as out:
        out.write("\n".join(rows) + "\n")


def run(folder, words, given):
    """Processor seconds of a run, its status, and what it wrote."""
    before = resource.getrusage(resource.RUSAGE_CHILDREN)
    done = subprocess.run(words, input=given, capture_output=True, cwd=folder)
    after = resource.getrusage(resource.RUSAGE_CHILDREN)
    return after.ru_utime + after.ru_stime - before.ru_utime - before.ru_stime, done.returncode, done.stdout
