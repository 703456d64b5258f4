"""Worked examples of Level Plant whose W are no whole kW."""
from lines import availability, complete, offer, summed, test, unit


def results_with_a_fraction():
    """Results that are no whole kW, by each ending and divisor."""
    unit()
    summed(0, 6, 7)  # 28,000 / 6: 4,666 W
    summed(0, 7, 8)  # 32,000 / 7: 4,571 W
    summed(0, 5, 6)  # 24,000 / 5: 4,800 W
    summed(0, 96, 1)  # 41 W
    summed(0, 96, 23)  # 958 W
    summed(0, 96, 24)  # 1,000 W
    summed(0, 96, 71999998)  # 2,999,999,916 W
    summed(0, 9, 11, 1, 8)  # 44,000 over the count: 5,500 W
    summed(0, 9, 11, 2, 8)  # over TC: 4,888 W
    unit()
    summed(0, 9, 11, 2, 5)
    summed(0, 9, 11, 2, 5)  # the second trip, over TC: 4,888 W
    for tc, count in ((7, 6), (11, 9), (13, 11), (22, 18), (96, 77)):  # over TC, over the least count, over TC
        unit()
        summed(0, tc, 10 * tc + 1)
        summed(0, tc, 10 * count + 1, 1, count)
        summed(0, tc, 10 * count + 1, 2, count)


def caps_about_a_fraction():
    """PIC is in kW: it takes all above it, and no fraction below it."""
    for pic in (0, 1, 3, 4, 5, 6, 4665, 4666, 4667, 3000000):
        unit(pic)
        summed(0, 6, 7)  # 4,666 W
        summed(1, 9, 11, 1, 8)  # 5,500 W
        summed(2, 9, 11, 2, 8)  # 4,888 W
        availability(0, 9, 0, 1, 0)
        offer(1, report=1)
        offer(3, e1=4000000000)
    for pic in (2999998, 2999999, 3000000):
        unit(pic)
        test(0, 0, 96, [750000] * 95 + [749999])  # 2,999,999,958 W
        summed(1, 96, 71999976)  # 2,999,999,000 W
        summed(2, 96, 71999975)  # 2,999,998,958 W
        availability(0, 1, 0, 0, 0)
        offer(1, report=1)


def coefficients_of_a_fraction():
    """Kind 1: PP times c in W, and only then in kW."""
    for tc, energy, minutes in (
        (6, 7, (9, 0, 1, 0)),  # 4,666 W, 4,199 W: 4 kW, and 3 kW if PP were 4 kW
        (5, 6, (5, 0, 1, 0)),  # 4,800 W, 4,000 W: just 4 kW
        (5, 6, (4, 0, 1, 0)),  # 3,840 W: 3 kW, and 4 kW if rounded up or to the nearest
        (6, 7, (6, 0, 1, 0)),  # 3,999 W: 3 kW
        (7, 8, (7, 0, 1, 0)),  # 4,571 W, 3,999 W
        (7, 15, (7, 0, 8, 0)),  # 8,571 W, 3,999 W
        (96, 23, (1, 0, 0, 0)),  # 958 W: 0 kW
        (96, 24, (1, 0, 0, 0)),  # 1,000 W: 1 kW
        (96, 25, (1, 0, 1, 0)),  # 1,041 W, 520 W: 0 kW
        (5, 6, (900, 60, 40, 10)),  # 4,560 W
        (6, 7, (0, 0, 1, 0)),
        (96, 71999999, (1, 0, 0, 0)),  # 2,999,999,958 W
        (96, 71999999, (1052639, 0, 1, 0)),
        (96, 71999999, (1, 0, 1052639, 0)),  # 2,849 W
        (96, 72000000, (351, 0, 1052289, 0)),  # 1,000,341 W
    ):
        unit()
        summed(0, tc, energy)
        availability(0, *minutes)
        offer(1, report=1)


def offers_of_a_fraction():
    """A plant of PP 4,666 W and c 0.9: PP·c is 4,199 W."""
    unit()
    summed(0, 6, 7)
    availability(0, 9, 0, 1, 0)
    for ppr in (0, 1, 3, 4, 5, 6, 4665, 4666, 4667, 3000000):  # PPR 4 is 4,000 W and decides, PPR 5 does not
        offer(2, report=1, ppr=ppr)
    for kind, hours in ((3, 720), (7, 720), (4, 4), (6, 4), (5, 120)):
        below = 4199 * hours // 1000  # the energy just below PP·c
        for e1 in (3 * hours + 1, 4 * hours - 1, 4 * hours, below, below + 1, 5 * hours, 4000000000):
            offer(kind, e1=e1)
    for kind in range(3, 8):  # an energy with a fraction by each kind's own hours
        for hours in ((7, 9, 11), (9, 11, 7), (11, 7, 9)):
            offer(kind, e1=29, hours=hours)
    unit()  # c is 1: PP decides with its fraction
    summed(0, 6, 7)
    availability(0, 1, 0, 0, 0)
    for kind, hours in ((1, 1), (2, 1), (3, 720), (4, 4), (5, 120), (6, 4), (7, 720)):
        offer(kind, report=1, ppr=5, e1=14 * hours // 3)
        offer(kind, report=1, ppr=5, e1=14 * hours // 3 + 1)
    unit()  # the greatest: PP 3,000,000,000 W over all 1,052,640 minutes
    test(0, 0, 96, [750000] * 96)
    for minutes in ((1052640, 0, 0, 0), (1052639, 0, 1, 0)):
        availability(0, *minutes)
        for kind in range(1, 8):
            offer(kind, report=1, ppr=3000000, e1=4000000000, hours=(1, 1, 1))


def fractions_with_storage():
    """Two fractions of a kW add up to one: in kW at each step they would be lost."""
    most = 4000000000
    unit()
    for component in (0, 1, 2):
        complete(component, 9000)
        if component:
            availability(component, 1, 0, 0, 0)
    for e1, e2, cap in (
        (5, 7, most),  # 1,250 and 1,750 W: 3 kW
        (5, most, 7),  # CAP in place of E2
        (4, 7, most),  # 1,000 and 1,750 W: 2 kW
        (5, 6, 7),  # 1,250 and 1,500 W
        (5, 7, 6),
        (7, 9, 11),  # 1,750 and 2,250 W: 4 kW
        (1, 3, 3),
        (1, 2, 2),
        (0, 4, 3),
        (3, 0, 0),
    ):
        offer(8, e1=e1, e2=e2, cap=cap)
    for e1, e2, cap in ((9, 12, most), (9, most, 12), (9, 13, most), (8, 13, 13)):
        offer(8, e1=e1, e2=e2, cap=cap, hours=(720, 120, 7))  # 9/7 and 12/7 kW are 1,285 and 1,714 W: 2 kW
    for pp in ((6, 5), (6, 4), (4, 3), (5, 4), (96, 71), (96, 73)):  # PP 3,333, 2,666, 3,000, 3,200, 2,958, 3,041 W
        summed(0, *pp)
        offer(8, e1=5, e2=7, cap=most)  # 3,000 W
        offer(8, e1=5, e2=8, cap=most)  # 3,250 W
    unit()  # PP1·c1 is 1,800 W, PP2·c2 is 1,200 W
    complete(0, 9)
    complete(1, 2)
    availability(1, 9, 0, 1, 0)
    summed(2, 12, 4)  # 1,333 W
    availability(2, 901, 0, 100, 0)  # 1,199 W: 2 kW
    offer(8, e1=most, e2=most, cap=most)
    availability(2, 903, 0, 100, 0)  # 1,200 W: 3 kW
    offer(8, e1=most, e2=most, cap=most)
    offer(8, e1=5, e2=most, cap=most)  # 1,250 and 1,200 W
    offer(8, e1=8, e2=3, cap=most)  # 1,800 and 750 W
    summed(0, 6, 4)  # PP is 2,666 W
    offer(8, e1=most, e2=most, cap=most)
    unit(2)  # PIC 2 takes the fraction of PP1, 2,666 W, and leaves that of PP2, 1,333 W
    summed(0, 6, 7)
    summed(1, 6, 4)
    summed(2, 6, 2)
    availability(1, 467, 0, 533, 0)  # 934 W
    availability(2, 4, 0, 1, 0)  # 1,066 W: 2 kW
    offer(8, e1=most, e2=most, cap=most)
    unit()  # the greatest
    for component in (0, 1, 2):
        test(component, 0, 96, [750000] * 96)
        if component:
            availability(component, 1052640, 0, 0, 0)
    offer(8, e1=most, e2=most, cap=most, hours=(1, 1, 1))
    offer(8, e1=most, e2=1, cap=most, hours=(1, 1, 24))
    offer(8, e1=35999999, e2=35999999, cap=most, hours=(1, 1, 24))  # twice 1,499,999,958 W


def watts():
    results_with_a_fraction()
    caps_about_a_fraction()
    coefficients_of_a_fraction()
    offers_of_a_fraction()
    fractions_with_storage()
