# Writes the numbers of the colour tables, by whole numbers alone, from the rules of document 01:
#   python3 crates/colour_tables/tables.py > crates/colour_tables/src/numbers.rt
# and then `rt fmt` in crates/colour_tables, which lays the rows out.
from fractions import Fraction


# The largest r whose lower side (2r-1)^p * a <= b holds.
def level(p, a, b):
    r = 0
    while (2 * r + 1) ** p * a <= b:
        r += 1
    return r


def red(v):
    return level(10, 255**7, 510**10 * v**7)


def green(v):
    return level(10, 255**9, 510**10 * v**9)


def red_above(f, v):
    return level(20, (255 - f) ** 23, 510**20 * max(v - f, 0) ** 23)


def green_above(f, v):
    return level(10, (255 - f) ** 11, 510**10 * max(v - f, 0) ** 11)


# Of the fractions with a denominator of at most m, the least that is not below x.
def least_fraction(m, x):
    return min(Fraction(-((-x.numerator * d) // x.denominator), d) for d in range(1, m + 1))


# Where blue becomes 1, 2, ..: numerator and denominator of r / g, each at most m, g not below least. A 0 / 1 stands in front.
def thresholds(scale, least, m):
    pairs = [(0, 1)]
    k = 1
    while (2 * k - 1) ** 10 * 10**10 * least <= scale**10 * m:
        x = least_fraction(m, Fraction((2 * k - 1) ** 10 * 10**10, scale**10))
        pairs.append((x.numerator, x.denominator))
        k += 1
    return pairs


def rows(numbers, indent):
    for i in range(0, len(numbers), 16):
        print(indent + ", ".join(str(n) for n in numbers[i : i + 16]) + ",")


def table(comment, name, numbers):
    print(f"\n// {comment}\npub const {name}: [u8; {len(numbers)}] = [")
    rows(numbers, "    ")
    print("];")


def ratios(comment, name, pairs):
    print(f"\n// {comment}\npub const {name}: [[u16; 2]; {len(pairs)}] = [")
    for n, d in pairs:
        print(f"    [{n}, {d}],")
    print("];")


def floors(comment, name, rule):
    print(f"\n// {comment}\npub const {name}: [[u8; 256]; 38] = [")
    for f in range(3, 41):
        print("    [")
        rows([rule(f, v) for v in range(256)], "        ")
        print("    ],")
    print("];")


print("// The numbers of the colour tables, written by tables.py.")
table("The default red of each byte.", "RED", [red(v) for v in range(256)])
table("The default green of each byte.", "GREEN", [green(v) for v in range(256)])
floors("The suppressed red of each byte, for each floor from 3 to 40.", "RED_ABOVE", red_above)
floors("The suppressed green of each byte, for each floor from 3 to 40.", "GREEN_ABOVE", green_above)
ratios("Numerator and denominator of the red to green ratio at which the default blue reaches 0, 1, 2 and so on.", "BLUE", thresholds(1224, 1, 255))
ratios("The same for the suppressed blue, each side of the ratio with 8 more.", "BLUE_ABOVE", thresholds(918, 8, 263))
