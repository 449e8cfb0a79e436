# Writes the thresholds by whole numbers alone:
#   python3 crates/gamma/thresholds.py > crates/gamma/src/numbers.rt
import struct


def of_bits(b):
    return struct.unpack("<d", struct.pack("<Q", b))[0]


# Whether k^q <= 255^q * t^p for the t of these bits.
def reaches(p, q, k, b):
    n, d = of_bits(b).as_integer_ratio()
    return k**q * d**p <= 255**q * n**p


# The least f64 from 0 to 1 that reaches k.
def threshold(p, q, k):
    low, high = 0, 0x3FF0000000000000
    while high - low > 1:
        mid = (low + high) // 2
        low, high = (low, mid) if reaches(p, q, k, mid) else (mid, high)
    return of_bits(high)


print("// The thresholds of the gammas 0.8, 0.9 and 1.1, written by thresholds.py: for k from 1 to 255 the least f64 whose value is k.")
print("pub const THRESHOLDS: [[f64; 255]; 3] = [")
for p, q in [(4, 5), (9, 10), (11, 10)]:
    row = [repr(threshold(p, q, k)) for k in range(1, 256)]
    print("    [")
    for number in row:
        print(f"        {number},")
    print("    ],")
print("];")
