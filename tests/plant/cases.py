#!/usr/bin/env python3
"""Writes the worked examples of Level Plant, crates/plant_cases/stdin, to standard output.

A line is one call, in decimal numbers: 0 unit, 1 test, 2 availability, 3 firm offer, 4 efficient offers. A result is answered in W, an offer in kW;
those whose W are no whole kW are in watts.py."""
import sys

sys.dont_write_bytecode = True
from lines import FULL, availability, complete, efficient, offer, test, unit
from watts import watts


def tests():
    unit()
    test(0, 0, 4, [2500] * 4)  # complete: 4,000·S / TC
    test(0, 0, 4, [0, 0, 0, 3])  # 3,000 W
    test(0, 0, 96, [750000] * 96)  # 3,000,000,000 W
    test(0, 0, 96, [750000] * 95 + [749999])
    test(0, 0, 4, [0] * 4)  # a result of 0 is a result
    for ending in (1, 2):  # first tests: counts 3 and 4 of TC 5
        for count in (3, 4):
            unit()
            test(0, ending, 5, [1000] * count)
    for ending in (1, 2):  # exactly 80 %, one less, one more
        for tc, count in ((10, 7), (10, 8), (10, 9), (96, 76), (96, 77), (96, 95), (4, 3)):
            unit()
            test(0, ending, tc, [1001] * count)
    unit()  # ending 1 is divided by the count, ending 2 by TC
    test(0, 1, 10, [1000] * 9)
    test(0, 2, 10, [1000] * 9)


def second_trips():
    unit()
    test(0, 2, 10, [900] * 5)  # void
    test(0, 2, 10, [1000] * 5)  # second trip: 4,000·S / TC
    test(0, 2, 10, [1100] * 5)  # void again, the result stays
    test(0, 2, 12, [1100] * 5)
    unit()
    test(0, 2, 10, [900] * 5)
    test(0, 1, 10, [900] * 5)  # void ending 1 changes nothing
    test(0, 2, 10, [900] * 5)
    unit()
    test(0, 2, 10, [900] * 5)
    test(0, 1, 10, [900] * 8)  # any result clears the memory
    test(0, 2, 10, [900] * 5)
    unit()
    test(0, 2, 10, [900] * 5)
    test(0, 0, 10, [900] * 10)
    test(0, 2, 10, [900] * 5)
    unit()
    test(0, 2, 10, [900] * 5)
    test(0, 2, 10, [900] * 8)
    test(0, 2, 10, [900] * 5)
    unit()
    test(0, 2, 10, [900] * 5)
    test(0, 2, 10, [900] * 5, 4)  # refused tests leave the memory
    test(0, 0, 10, [900] * 9)
    test(0, 2, 10, [900] * 5)
    unit()
    test(0, 2, 10, [900] * 5)
    test(1, 2, 10, [900] * 5)  # the memory is each component's
    test(2, 2, 10, [900] * 5)
    test(1, 2, 10, [901] * 5)
    unit()
    test(0, 2, 10, [])
    test(0, 2, 10, [])  # count 0 as second trip: a result of 0
    unit()
    test(0, 0, 4, [2500] * 4)
    test(0, 1, 4, [9999] * 3)  # a void test leaves the earlier result
    test(0, 2, 4, [9999] * 3)
    test(0, 2, 4, [9999] * 3)


def caps():
    for pic in (0, 1, 5000, 10000, 10001, 3000000):
        unit(pic)
        for component in (0, 1, 2):
            test(component, 0, 4, [2500] * 4)
        test(0, 1, 5, [2500] * 4)
        test(0, 2, 5, [2500] * 4)
        test(1, 2, 5, [2500] * 3)
        test(1, 2, 5, [4000] * 3)
    unit(3000000)
    test(0, 0, 96, [750000] * 96)
    unit(2999999)
    test(0, 0, 96, [750000] * 96)


def refused_tests():
    unit()
    test(0, 3, 4, [1] * 4)  # 3: ending
    test(0, 4000000000, 4, [1] * 4)
    test(0, 0, 3, [1] * 3)  # 3: TC
    test(0, 0, 97, [1] * 96)
    test(0, 0, 0, [])
    test(0, 1, 96, [1] * 97)  # 3: count
    test(0, 0, 4, [1] * 4, 5)  # 3: lent length
    test(0, 0, 4, [1] * 5, 4)
    test(0, 0, 4, [], 4)
    test(0, 0, 4, [1] * 4, 1000000000)
    test(0, 0, 4, [750001, 0, 0, 0])  # 3: a reading, each place
    test(0, 0, 4, [0, 0, 0, 750001])
    test(0, 0, 4, [0, 4000000000, 0, 0])
    test(0, 1, 96, [750001])  # also in a void test
    test(0, 0, 4, [1] * 3)  # 8
    test(0, 0, 4, [1] * 5)
    test(0, 1, 4, [1] * 4)
    test(0, 1, 4, [1] * 5)
    test(0, 2, 4, [1] * 4)
    test(0, 2, 4, [1] * 5)
    test(0, 0, 4, [750001, 0, 0])  # 3 before 8
    test(0, 0, 4, [750000] * 4)


def availabilities():
    unit()
    availability(0, 0, 0, 0, 0)  # 9: nothing at all
    availability(0, 1052640, 0, 1, 0)  # 9: too many in all
    availability(0, 1052639, 1, 1, 0)
    availability(0, 500000, 500000, 52641, 0)
    availability(0, 900, 60, 40, 961)  # 9: more degraded than there are
    availability(0, 0, 0, 1, 1)
    availability(0, 1052640, 0, 0, 0)
    availability(0, 500000, 500000, 52640, 0)
    availability(0, 0, 1052640, 0, 1052640)
    availability(0, 0, 0, 1052640, 0)
    availability(0, 0, 0, 1, 0)
    availability(0, 900, 60, 40, 960)
    for place in range(4):  # 3 before 9
        for figure in (1052641, 4000000000):
            figures = [0] * 4
            figures[place] = figure
            availability(0, *figures)


def coefficients():
    """Kind 1: power times c, one product and one division."""
    for power, minutes in (
        (10000, FULL),
        (10000, (900, 60, 40, 960)),
        (3, (1, 1, 1, 0)),
        (1, (2, 0, 1, 0)),
        (2, (2, 0, 1, 0)),
        (3000000, (1052640, 0, 0, 0)),
        (3000000, (1052639, 0, 1, 0)),
        (3000000, (0, 1052640, 0, 1)),
        (2999999, (1, 0, 1052639, 0)),
        (2999999, (0, 0, 1052640, 0)),
        (4, (333, 333, 334, 1)),
    ):
        unit()
        complete(0, power)
        availability(0, *minutes)
        offer(1, report=1)
    unit()  # a later availability replaces the earlier, a refused one does not
    complete(0, 10000)
    availability(0, *FULL)
    availability(0, 500, 0, 500, 0)
    offer(1, report=1)
    availability(0, 0, 0, 0, 0)
    offer(1, report=1)


def offers():
    """A plant of PP 10,000 and c 0.95: PP·c is 9,500."""
    unit()
    complete(0, 10000)
    availability(0, *FULL)
    for report in (0, 1):
        offer(1, report=report)
        for ppr in (0, 1, 5000, 9999, 10000, 10001, 3000000):  # PPR decides below 10,000, PP from there on
            offer(2, report=report, ppr=ppr)
    for kind, hours in ((3, 720), (7, 720), (4, 4), (6, 4), (5, 120)):  # E1 decides below 9,500 kW, PP·c from there on
        for e1 in (0, hours - 1, hours, 9499 * hours, 9500 * hours - 1, 9500 * hours, 9501 * hours, 4000000000):
            offer(kind, e1=e1)
    for kind in range(3, 8):  # each kind by its own hours
        offer(kind, e1=72000, hours=(744, 24, 1))
        offer(kind, e1=72000, hours=(9, 10, 11))
    unit()  # c is 1: PP·c and PP are one in kind 5
    complete(0, 10000)
    availability(0, 1000, 0, 0, 0)
    for e1 in (9999 * 120, 10000 * 120, 10001 * 120):
        offer(5, e1=e1)


def missing_in_one():
    """Kinds 1 to 7 without a result, without an availability, without both."""
    for has_result, has_availability in ((0, 0), (0, 1), (1, 0), (1, 1)):
        unit()
        if has_result:
            complete(0, 10000)
        if has_availability:
            availability(0, *FULL)
        for kind in range(1, 8):
            offer(kind, report=1, ppr=10000, e1=4000000000)
    unit()  # a void test is no result
    test(0, 2, 5, [2500] * 3)
    availability(0, *FULL)
    offer(1, report=1)


def storage(pp=10000, pp1=5000, c1=FULL, pp2=4000, c2=(500, 0, 500, 0)):
    """A plant with storage: PP1·c1 is 4,750 and PP2·c2 is 2,000."""
    unit()
    for component, power in ((0, pp), (1, pp1), (2, pp2)):
        if power is not None:
            complete(component, power)
    for component, minutes in ((1, c1), (2, c2)):
        if minutes is not None:
            availability(component, *minutes)


def offers_with_storage():
    most = 4000000000
    storage()
    offer(8, e1=most, e2=most, cap=most)  # PP2·c2 and PP1·c1: 6,750
    offer(8, e1=most, e2=7996, cap=most)  # E2: 1,999
    offer(8, e1=most, e2=most, cap=7992)  # CAP: 1,998
    offer(8, e1=most, e2=8003, cap=8003)
    offer(8, e1=most, e2=8004, cap=7999)
    offer(8, e1=18999, e2=most, cap=most)  # E1: 4,749
    offer(8, e1=19000, e2=most, cap=most)
    offer(8, e1=3, e2=3, cap=3)
    offer(8, e1=0, e2=0, cap=0)
    offer(8, e1=most, e2=most, cap=most, hours=(1, 1, 24))
    offer(8, e1=72000, e2=24000, cap=20000, hours=(744, 120, 12))
    for pp in (0, 6749, 6750, 6751):  # PP decides below 6,750
        storage(pp=pp)
        offer(8, e1=most, e2=most, cap=most)
    storage(pp=3000000, pp1=3000000, c1=(1, 0, 0, 0), pp2=3000000, c2=(1, 0, 0, 0))
    offer(8, e1=most, e2=most, cap=most, hours=(720, 120, 1))
    for part in ("pp", "pp1", "pp2", "c1", "c2"):  # each part missing
        storage(**{part: None})
        offer(8, e1=most, e2=most, cap=most)
    storage()  # availability of component 0 plays no part
    availability(0, 1, 0, 999, 0)
    offer(8, e1=most, e2=most, cap=most)
    storage(c1=(0, 0, 1, 0), c2=(0, 0, 1, 0))
    offer(8, e1=most, e2=most, cap=most)
    unit(1500)  # PIC caps each component
    for component in (0, 1, 2):
        complete(component, 1000000)
        if component:
            availability(component, 1, 0, 0, 0)
    offer(8, e1=most, e2=most, cap=most)


def years():
    efficient()
    efficient((0, 0))
    efficient((1, 500), (2, 500))  # a tie takes the first year
    efficient((1, 500), (2, 501))
    efficient((1, 501), (2, 500))
    efficient((2, 500))
    efficient((0, 500))  # 0 and 0: the first year
    for flags in range(8):  # every combination of flags, in each chosen year
        efficient((flags, 300), (1, 1000))
        efficient((flags, 300), (2, 1000))
    efficient((4, 1000), (1, 10), (2, 20))  # forced generation adds to no sum
    efficient((5, 1000), (2, 1001), (4, 5000))
    efficient((6, 1000), (1, 1001), (4, 5000))
    efficient((3, 700), (1, 1), (2, 2))
    efficient((25, 700), (26, 701), (28, 702), (31, 703))  # other bits play no part
    efficient(*((1 + i % 2, 1000 + i) for i in range(48)))
    efficient(*((2 - i % 2, 1000 + i) for i in range(48)))
    efficient(*((1 + i % 7, 3000000) for i in range(48)))
    efficient(*((3, 3000000) for i in range(48)))
    efficient(*((0, 3000000) for i in range(47)), (2, 1))


tests()
second_trips()
caps()
refused_tests()
availabilities()
coefficients()
offers()
missing_in_one()
offers_with_storage()
years()
watts()
