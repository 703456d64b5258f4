"""The lines of the program plant_cases, each of them one call in decimal numbers, written to standard output."""

FREE = None
FULL = (900, 60, 40, 10)  # 950 of 1000 minutes


def line(*numbers):
    print(*numbers)


def unit(pic=FREE):
    line(0, 0, 0) if pic is FREE else line(0, 1, pic)


def test(component, ending, tc, readings, count=None):
    count = len(readings) if count is None else count
    line(1, component, ending, tc, count, 4 * len(readings), *readings)


def complete(component, power):
    """A complete test of four quarters with that result, in whole kW."""
    test(component, 0, 4, [power // 4] * 4 if power % 4 == 0 else [power, 0, 0, 0])


def summed(component, tc, energy, ending=0, count=None):
    """A test whose readings sum to the energy: a result of 4,000 times the energy over its divisor, in W."""
    count = tc if count is None else count
    test(component, ending, tc, [energy // count + int(place < energy % count) for place in range(count)])


def availability(component, hd, hmp, hif, hed):
    line(2, component, hd, hmp, hif, hed)


def offer(kind, report=0, ppr=0, e1=0, e2=0, cap=0, hours=(720, 120, 4)):
    line(3, kind, report, ppr, e1, e2, cap, *hours)


def efficient(*units):
    line(4, *(number for unit in units for number in unit))
