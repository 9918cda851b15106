"""Tests of the binding: the customer's cases on the six-person file, refusals, portions, and a lister of its own on random files."""

import copy
import datetime
import itertools
import os
import pickle
import random
import re
import struct
import subprocess
import sys
import traceback
import unittest
from pathlib import Path

import kin

ROOT = Path(__file__).resolve().parents[2]
SIX_PERSONS = (ROOT / "examples" / "six_persons.klf").read_bytes()

Q = kin.Question(0, 5, 4)
FIRST, SECOND, THIRD = (0, 1, 3, 5), (0, 2, 1, 3, 5), (0, 2, 3, 5)

# The rings of person 2; in four hops there is no second one.
R = kin.Question.back_to(2, 5)
RINGS = [(2, 1, 3, 2), (2, 1, 3, 5, 0, 2), (2, 3, 2), (2, 3, 5, 0, 2)]

# The question and a held listing after its second chain, as version 1.0.0 pickled them.
PICKLED_BEFORE = (
    b"\x80\x04\x95\xbd\x00\x00\x00\x00\x00\x00\x00\x8c\x03kin\x94\x8c\x08Question\x94\x93\x94"
    b"(K\x00K\x05K\x04h\x00\x8c\x07Classes\x94\x93\x94K\x0f\x85\x94R\x94"
    b"h\x00\x8c\x0bDateMeaning\x94\x93\x94K\x01\x85\x94R\x94K\x01J\xdb\xb97\x00t\x94\x81\x94"
    b"\x8c\x08builtins\x94\x8c\x07getattr\x94\x93\x94h\x00\x8c\x0bHeldListing\x94\x93\x94\x8c\nfrom_cells\x94\x86\x94R\x94"
    b"]\x94(K\x00K\x05K\x04K\x0fK\x01K\x01J\xdb\xb97\x00K\x01K\x04K\x00K\x02K\x01K\x03K\x05K\x00K\x00K\x00K\x00e\x85\x94R\x94\x86\x94."
)


def listed(question, file=SIX_PERSONS, **how):
    return list(kin.chains(file, question, **how))


def rings_listed(question, file=SIX_PERSONS, **how):
    return list(kin.rings(file, question, **how))


def link_file(rows, feeds):
    """A link file, made of each person's links as (target, day, feed, kind) and of feeds as (archive, meaning)."""
    row_table = 32 + 4 * len(feeds)
    link_table = row_table + 4 * (len(rows) + 1)
    links = list(itertools.chain(*rows))
    length = link_table + 12 * len(links)
    parts = [struct.pack("<4s7I", b"KLF1", len(rows), len(links), len(feeds), 32, row_table, link_table, length)]
    parts += [struct.pack("<HBx", *feed) for feed in feeds]
    parts += [struct.pack("<I", sum(map(len, rows[:person]))) for person in range(len(rows) + 1)]
    parts += [struct.pack("<IIHBx", *link) for link in links]
    return b"".join(parts)


def everybody_linked(persons):
    """Rows in which everybody is linked to everybody, undated."""
    return [[(target, 0, 0, 1) for target in range(persons) if target != person] for person in range(persons)]


def random_rows(chance, persons, feeds):
    """Rows with most of all links, of any kind, half of them undated and the others within ten days."""

    def link(target):
        day = chance.choice([0, chance.randint(1, 10)])
        return target, day, chance.randrange(feeds), chance.choice([1, 2, 3, 4, 5, 16, 31])

    everybody = range(persons)
    return [[link(target) for target in everybody if target != person and chance.random() < 0.8] for person in everybody]


def random_question(chance, persons):
    ends = chance.sample(range(persons), 2)
    classes = chance.choice([15, chance.randint(1, 15)])
    return kin.Question(*ends, chance.randint(1, 8), classes, chance.randint(1, 2), chance.randint(1, 3), chance.randint(6, 10))


def admitted(link, feeds, question):
    _, day, feed, kind = link
    class_of_kind = {1: 1, 2: 1, 4: 1, 3: 2, 5: 4, 16: 8, 31: 8}[kind]
    if not class_of_kind & question.classes:
        return False
    if day == 0:
        return question.undated
    return feeds[feed][1] == question.meaning and question.first_day <= day <= question.last_day


def by_trying(rows, feeds, question, fewest_passed):
    """Every sequence of different persons is tried between the two ends, and kept if each hop is admitted."""
    hops = {(owner, link[0]) for owner, row in enumerate(rows) for link in row if admitted(link, feeds, question)}
    ends = (question.from_person, question.to_person)
    others = [person for person in range(len(rows)) if person not in ends]
    middles = itertools.chain(*(itertools.permutations(others, passed) for passed in range(fewest_passed, question.hops)))
    tried = [(ends[0], *middle, ends[1]) for middle in middles]
    return sorted(chain for chain in tried if hops.issuperset(zip(chain, chain[1:])))


def chains_by_trying(rows, feeds, question):
    """The chains by their definition: from one end to the other, also at once."""
    return by_trying(rows, feeds, question, 0)


def rings_by_trying(rows, feeds, question):
    """The rings by their definition: both ends are the same person, and one other at least is passed."""
    return by_trying(rows, feeds, question, 1)


class Case(unittest.TestCase):
    def assert_refused(self, number, place, asked):
        with self.assertRaises(kin.Refused) as caught:
            asked()
        self.assertEqual((caught.exception.number, caught.exception.place), (number, place))


class SixPersons(Case):
    def test_listings(self):
        for question, right in (
            (Q, [FIRST, SECOND, THIRD]),
            (Q._replace(hops=3), [FIRST, THIRD]),
            (Q._replace(hops=2), []),
            (Q._replace(classes=1), [FIRST]),
            (Q._replace(classes=kin.Classes.PARENT_CHILD_SIBLING), [FIRST]),
            (Q._replace(meaning=2), []),
            (Q._replace(meaning=kin.DateMeaning.REGISTRATION), []),
            (Q._replace(first_day=700_001), [SECOND, THIRD]),
            (Q._replace(first_day=datetime.date(1917, 7, 16)), [SECOND, THIRD]),
            (Q._replace(last_day=700_400), [FIRST, SECOND, THIRD]),
            (Q._replace(last_day=datetime.date(1918, 8, 19)), [FIRST, SECOND, THIRD]),
            (Q._replace(last_day=700_399), []),
            (Q._replace(last_day=datetime.date(1918, 8, 18)), []),
            (Q._replace(hops=8), [FIRST, SECOND, THIRD]),
            (Q._replace(undated=False), [FIRST]),
            (Q._replace(undated=0), [FIRST]),
            (Q._replace(undated=1), [FIRST, SECOND, THIRD]),
            (Q._replace(first_day=700_001, undated=False), []),
            (Q._replace(first_day=700_001, undated=True), [SECOND, THIRD]),
        ):
            with self.subTest(question):
                self.assertEqual(listed(question), right)

    def test_portions(self):
        self.assertEqual(kin.portion(SIX_PERSONS, Q, 2), ([FIRST, SECOND], False))
        self.assertEqual(kin.portion(SIX_PERSONS, Q, 2, SECOND), ([THIRD], True))
        self.assertEqual(kin.portion(SIX_PERSONS, Q, 3), ([FIRST, SECOND, THIRD], True))
        self.assertEqual(kin.portion(SIX_PERSONS, Q, 1, THIRD), ([], True))

    def test_join(self):
        halves = [(5,), (3, 5), (4, 5), (1, 3, 5), (2, 3, 5)]
        self.assertEqual(kin.join(SIX_PERSONS, Q, 3, 5), (([FIRST, THIRD, SECOND], True), halves))
        self.assertEqual(kin.join(SIX_PERSONS, Q, 2), (([FIRST, THIRD], False), halves))
        self.assert_refused(18, 0, lambda: kin.join(SIX_PERSONS, Q, 3, 4))

    def test_check(self):
        self.assertEqual(kin.check(SIX_PERSONS), (6, 10, 2))
        self.assertEqual(kin.check(bytearray(SIX_PERSONS)), kin.check(memoryview(SIX_PERSONS)))

    def test_fewest_hops(self):
        fewest = [kin.fewest_hops(SIX_PERSONS, Q, person) for person in range(6)]
        self.assertEqual(fewest, [3, 2, 2, 1, 1, 0])
        self.assertIsNone(kin.fewest_hops(SIX_PERSONS, Q._replace(hops=1), 0))
        self.assert_refused(10, 2, lambda: kin.fewest_hops(SIX_PERSONS, Q, 6))

    def test_row_views(self):
        rows = (0, 2, 4, 6, 8, 9, 10)
        for person in range(6):
            right = SIX_PERSONS[68 + 12 * rows[person]:68 + 12 * rows[person + 1]]
            self.assertEqual(kin.row_view(SIX_PERSONS, person), right)
        self.assertEqual(kin.links_in(kin.row_view(SIX_PERSONS, 1)), [(3, 700_100, 0, 1), (4, 700_200, 1, 5)])
        self.assertEqual(kin.links_in(kin.row_view(SIX_PERSONS, 6)), [])
        self.assertEqual(len(kin.row_view(SIX_PERSONS[:187], 0)), 0)

    def test_the_dates_of_links(self):
        dates = [link.date for person in (0, 4) for link in kin.links_in(kin.row_view(SIX_PERSONS, person))]
        self.assertEqual(dates, [datetime.date(1917, 7, 15), None, datetime.date(1918, 11, 27)])
        self.assertEqual(kin.Link(0, kin.LAST_DAY, 0, 1).date, datetime.date(9999, 12, 31))

    def test_a_row_view_is_the_very_part_of_the_file(self):
        file = bytearray(SIX_PERSONS)
        view = kin.row_view(file, 4)
        file[164] = 0
        self.assertEqual(kin.links_in(view)[0].target, 0)


class Questions(Case):
    def test_names_stand_for_the_customer_s_numbers(self):
        of = kin.Classes
        self.assertEqual([of.PARENT_CHILD_SIBLING, of.SPOUSE, of.SAME_PERSON, of.NAMED_TOGETHER, of.ALL], [1, 2, 4, 8, 15])
        self.assertEqual([kin.DateMeaning.EVENT, kin.DateMeaning.REGISTRATION], [1, 2])
        self.assertIs(of.SPOUSE | of.PARENT_CHILD_SIBLING | of.SAME_PERSON | of.NAMED_TOGETHER, of.ALL)

    def test_without_a_word_everything_counts(self):
        self.assertEqual(Q, (0, 5, 4, kin.Classes.ALL, kin.DateMeaning.EVENT, 1, kin.LAST_DAY, True))

    def test_undated_links_are_left_out_everywhere(self):
        late = Q._replace(first_day=700_001, undated=False)
        self.assertEqual(kin.portion(SIX_PERSONS, late), ([], True))
        self.assertEqual(kin.HeldListing(late).move_on(SIX_PERSONS), ([], True))
        self.assertEqual(kin.join(SIX_PERSONS, late).portion, ([], True))
        self.assertIsNone(kin.fewest_hops(SIX_PERSONS, late, 0))
        self.assertEqual(kin.fewest_hops(SIX_PERSONS, late, 2), 2)
        self.assert_refused(17, 0, lambda: listed(Q._replace(undated=False), after=THIRD))

    def test_a_number_for_undated_links_is_asked_as_it_is(self):
        for number in (2, 256, (1 << 32) - 1):
            question = Q._replace(undated=number)
            held = kin.HeldListing(question)
            self.assertEqual((held.cells[7], held.question), (number, question))
            for asked in (
                lambda: listed(question),
                lambda: kin.portion(SIX_PERSONS, question),
                lambda: kin.join(SIX_PERSONS, question),
                lambda: kin.fewest_hops(SIX_PERSONS, question, 0),
                lambda: held.move_on(SIX_PERSONS),
            ):
                self.assert_refused(20, 0, asked)
            self.assertEqual(held.cells, kin.HeldListing(question).cells)

    def test_what_is_neither_a_yes_or_no_nor_a_number_is_not_taken_for_one(self):
        for undated in (None, "no", 1.0, datetime.date(1, 1, 1)):
            self.assertRaises(TypeError, listed, Q._replace(undated=undated))
        self.assertRaises(ValueError, listed, Q._replace(undated=-1))

    def test_a_date_is_taken_where_a_day_is(self):
        by_date = Q._replace(first_day=datetime.date.min, last_day=datetime.date.max)
        self.assertEqual(kin.HeldListing(by_date).cells, kin.HeldListing(Q).cells)
        late = Q._replace(first_day=datetime.date(1917, 7, 16))
        self.assertEqual(kin.portion(SIX_PERSONS, late), ([SECOND, THIRD], True))
        self.assertEqual(kin.join(SIX_PERSONS, late).portion, ([THIRD, SECOND], True))
        self.assertIsNone(kin.fewest_hops(SIX_PERSONS, late._replace(last_day=datetime.date(1918, 8, 18)), 3))
        backwards = Q._replace(first_day=datetime.date(1918, 1, 1), last_day=datetime.date(1917, 12, 31))
        self.assert_refused(15, 0, lambda: listed(backwards))

    def test_a_date_is_taken_nowhere_else(self):
        self.assertRaises(TypeError, listed, Q._replace(to_person=datetime.date(1, 1, 5)))


class Shown(Case):
    def test_what_is_handed_out_shows_what_it_is(self):
        for shown, right in (
            (kin.check(SIX_PERSONS), "Counts(persons=6, links=10, feeds=2)"),
            (kin.links_in(kin.row_view(SIX_PERSONS, 1))[0], "Link(target=3, day=700100, feed=0, kind=1)"),
            (kin.portion(SIX_PERSONS, Q, 1), "Portion(chains=[(0, 1, 3, 5)], ended=False)"),
            (kin.join(SIX_PERSONS, Q._replace(hops=1)), "Joined(portion=Portion(chains=[], ended=True), half_chains=[(5,)])"),
            (kin.ring_portion(SIX_PERSONS, R, 1), "RingPortion(rings=[(2, 1, 3, 2)], ended=False)"),
            (kin.Refused(10, 1), "Refused(number=10, place=1)"),
            (kin.DateMeaning.EVENT, "<DateMeaning.EVENT: 1>"),
            (kin.Classes.ALL, "<Classes.ALL: 15>"),
        ):
            self.assertEqual(repr(shown), right)

    def test_questions_and_held_listings(self):
        held = kin.HeldListing(Q)
        asked = (
            "Question(from_person=0, to_person=5, hops=4, classes=<Classes.ALL: 15>, meaning=<DateMeaning.EVENT: 1>, "
            "first_day=1, last_day=3652059, undated=True)"
        )
        self.assertEqual(repr(Q), asked)
        self.assertEqual(repr(held), f"HeldListing({asked}, after=None)")
        held.move_on(SIX_PERSONS, 2)
        self.assertEqual(repr(held), f"HeldListing({asked}, after=(0, 2, 1, 3, 5))")

    def test_chains_show_how_far_they_have_come(self):
        to_come = kin.chains(SIX_PERSONS, Q)
        self.assertEqual(repr(to_come), f"Chains({Q}, after=None)")
        self.assertEqual((next(to_come), to_come.last), (FIRST, FIRST))
        self.assertEqual(repr(to_come), f"Chains({Q}, after=(0, 1, 3, 5))")
        self.assertEqual(list(kin.chains(SIX_PERSONS, Q, after=to_come.last)), [SECOND, THIRD])
        self.assertEqual((list(to_come), to_come.last), ([SECOND, THIRD], THIRD))

    def test_rings_show_how_far_they_have_come(self):
        to_come = kin.rings(SIX_PERSONS, R, 1)
        self.assertEqual((repr(to_come), to_come.question), (f"Rings({R}, after=None)", R))
        self.assertEqual((next(to_come), to_come.last), (RINGS[0], RINGS[0]))
        self.assertEqual(repr(to_come), f"Rings({R}, after=(2, 1, 3, 2))")
        self.assertEqual(rings_listed(R, after=to_come.last), RINGS[1:])
        self.assertEqual((list(to_come), to_come.last), (RINGS[1:], RINGS[3]))

    def test_cells_that_make_no_sense(self):
        for cells in ([4_000_000_000] * 19, [3] * 19, [0] * 19):
            held = kin.HeldListing.from_cells(cells)
            self.assertEqual(held.question, tuple(cells[:8]))
            self.assertIn("HeldListing(Question(from_person=", repr(held))


class Refusals(Case):
    def test_questions(self):
        for question, number, place in (
            (Q._replace(from_person=6), 10, 0),
            (Q._replace(to_person=6), 10, 1),
            (Q._replace(to_person=0), 11, 0),
            (Q._replace(hops=0), 12, 0),
            (Q._replace(hops=9), 12, 0),
            (Q._replace(classes=0), 13, 0),
            (Q._replace(classes=16), 13, 0),
            (Q._replace(meaning=3), 14, 0),
            (Q._replace(first_day=0), 15, 0),
            (Q._replace(last_day=kin.LAST_DAY + 1), 15, 0),
            (Q._replace(undated=2), 20, 0),
        ):
            with self.subTest(question):
                self.assert_refused(number, place, lambda: listed(question))

    def test_files(self):
        wrong_meaning = SIX_PERSONS[:38] + b"\3" + SIX_PERSONS[39:]
        for file, number, place in ((b"", 1, 0), (SIX_PERSONS[:187], 3, 0), (wrong_meaning, 5, 1)):
            self.assert_refused(number, place, lambda: kin.check(file))
            self.assert_refused(number, place, lambda: listed(Q, file))

    def test_bookmarks(self):
        for bookmark in ((0, 1, 4, 5), (), (0,), tuple(range(9)), tuple(range(10)), tuple(range(99))):
            with self.subTest(bookmark):
                self.assert_refused(17, 0, lambda: kin.portion(SIX_PERSONS, Q, 2, bookmark))
                self.assert_refused(17, 0, lambda: listed(Q, after=bookmark))
        self.assert_refused(17, 0, lambda: kin.portion(SIX_PERSONS, Q._replace(hops=3), 2, SECOND))

    def test_a_refusal_comes_once_and_with_the_first_chain(self):
        refused = kin.chains(b"", Q)
        self.assert_refused(1, 0, lambda: next(refused))
        self.assertEqual((list(refused), refused.last), ([], None))

    def test_no_room(self):
        self.assert_refused(16, 0, lambda: kin.portion(SIX_PERSONS, Q, 0))
        self.assert_refused(16, 0, lambda: listed(Q, room=0))

    def test_meanings_are_the_document_s(self):
        cells = [line.split("|") for line in (ROOT / "docs" / "REFUSALS.md").read_text().splitlines()]
        lines = {int(line[1]): line[2].strip() for line in cells if len(line) > 2 and line[1].strip().isdigit()}
        self.assertEqual(list(lines), list(range(1, 22)))
        for number, meaning in lines.items():
            refused = kin.Refused(number, 7)
            self.assertEqual(refused.meaning, meaning)
            self.assertEqual(str(refused), f"refused {number} at 7: {meaning}")
        self.assertEqual(len(kin.MEANINGS), len(lines))

    def test_numbers_without_a_line(self):
        for number in (0, 22):
            self.assertEqual(str(kin.Refused(number, 0)), f"refused {number} at 0")

    def test_a_refusal_survives_being_put_away(self):
        again = pickle.loads(pickle.dumps(kin.Refused(5, 1)))
        self.assertEqual((again.number, again.place), (5, 1))

    def test_a_traceback_names_it_as_it_is_had(self):
        told = traceback.format_exception_only(kin.Refused, kin.Refused(11, 0))
        self.assertEqual(told, ["kin.Refused: refused 11 at 0: From and To are the same person.\n"])


class Rings(Case):
    def test_listings(self):
        first, second, third, fourth = RINGS
        for question, right in (
            (R, RINGS),
            (R._replace(hops=8), RINGS),
            (R._replace(hops=4), [first, third, fourth]),
            (R._replace(hops=2), [third]),
            (R._replace(hops=1), []),
            (R._replace(undated=False), [first, third]),
            (R._replace(classes=kin.Classes.SPOUSE), []),
            (R._replace(meaning=kin.DateMeaning.REGISTRATION), []),
            (R._replace(first_day=datetime.date(1917, 10, 24)), [third, fourth]),
            (R._replace(last_day=700_299), []),
            (kin.Question.back_to(0, 4), [(0, 1, 3, 5, 0), (0, 2, 3, 5, 0)]),
            (kin.Question.back_to(4, 8), []),
        ):
            with self.subTest(question):
                self.assertEqual(rings_listed(question), right)

    def test_the_question_names_one_person(self):
        self.assertEqual(R, kin.Question(2, 2, 5))
        self.assertIsInstance(R, kin.Question)
        others = {"classes": 3, "meaning": 2, "first_day": 4, "last_day": datetime.date(1, 1, 5), "undated": False}
        self.assertEqual(kin.Question.back_to(2, 5, **others), kin.Question(2, 2, 5, **others))
        self.assertRaises(TypeError, kin.Question.back_to, 2, 5, to_person=3)

    def test_portions(self):
        self.assertEqual(kin.ring_portion(SIX_PERSONS, R, 3), (RINGS[:3], False))
        self.assertEqual(kin.ring_portion(SIX_PERSONS, R, 4), (RINGS, True))
        self.assertEqual(kin.ring_portion(SIX_PERSONS, R, 2, RINGS[1]), (RINGS[2:], True))
        self.assertEqual(kin.ring_portion(SIX_PERSONS, R, 1, after=list(RINGS[3])), ([], True))
        self.assertEqual(kin.ring_portion(memoryview(SIX_PERSONS), R), kin.ring_portion(bytearray(SIX_PERSONS), R))

    def test_every_room_gives_the_same_rings(self):
        rows, feeds = everybody_linked(5), [(1, 1)]
        right = rings_by_trying(rows, feeds, R)
        self.assertEqual(len(right), 4 + 12 + 24 + 24)
        for room in range(1, len(right) + 2):
            self.assertEqual(rings_listed(R, link_file(rows, feeds), room=room), right)

    def test_rings_go_on_after_each_of_them(self):
        file = link_file(everybody_linked(5), [(1, 1)])
        question = kin.Question.back_to(0, 4)
        right = rings_listed(question, file)
        self.assertEqual(len(right), 4 + 12 + 24)
        for place, ring in enumerate(right):
            self.assertEqual(rings_listed(question, file, room=2, after=ring), right[place + 1:])

    def test_questions_that_are_refused(self):
        for question, number, place in (
            (R._replace(from_person=6), 10, 0),
            (R._replace(to_person=6), 10, 1),
            (kin.Question.back_to(6, 5), 10, 0),
            (Q, 21, 0),
            (Q._replace(hops=0), 21, 0),
            (R._replace(hops=0), 12, 0),
            (R._replace(hops=9), 12, 0),
            (R._replace(classes=16), 13, 0),
            (R._replace(meaning=3), 14, 0),
            (R._replace(first_day=0), 15, 0),
            (R._replace(undated=2), 20, 0),
        ):
            with self.subTest(question):
                self.assert_refused(number, place, lambda: rings_listed(question))
                self.assert_refused(number, place, lambda: kin.ring_portion(SIX_PERSONS, question, 0, ()))

    def test_no_room_comes_before_the_bookmark_and_both_behind_the_file(self):
        self.assert_refused(16, 0, lambda: kin.ring_portion(SIX_PERSONS, R, 0, ()))
        self.assert_refused(16, 0, lambda: rings_listed(R, room=0))
        self.assert_refused(3, 0, lambda: kin.ring_portion(SIX_PERSONS[:187], Q, 0, ()))

    def test_bookmarks_that_are_no_ring_of_the_person(self):
        chain, of_another, too_long, through_the_person = (2, 3, 5), (3, 2, 1, 3), (2, 1, 3, 5, 0, 1, 2), (2, 3, 2, 3, 2)
        for bookmark in ((), (2,), chain, FIRST, of_another, too_long, through_the_person, tuple(range(10)), tuple(range(99))):
            with self.subTest(bookmark):
                self.assert_refused(17, 0, lambda: kin.ring_portion(SIX_PERSONS, R, 2, bookmark))
                self.assert_refused(17, 0, lambda: rings_listed(R, after=bookmark))
        self.assert_refused(17, 0, lambda: rings_listed(R._replace(hops=4), after=RINGS[1]))
        self.assert_refused(17, 0, lambda: rings_listed(R._replace(undated=False), after=RINGS[3]))

    def test_a_refusal_comes_once_and_with_the_first_ring(self):
        refused = kin.rings(SIX_PERSONS, Q)
        self.assert_refused(21, 0, lambda: next(refused))
        self.assertEqual((list(refused), refused.last), ([], None))

    def test_chains_take_no_rings(self):
        self.assert_refused(11, 0, lambda: listed(R))
        self.assert_refused(11, 0, lambda: kin.HeldListing(R, RINGS[0]).move_on(SIX_PERSONS))
        self.assert_refused(11, 0, lambda: kin.join(SIX_PERSONS, R))

    def test_numbers_that_the_library_cannot_be_asked(self):
        # At once, and not with the first ring.
        self.assertRaises(ValueError, kin.rings, SIX_PERSONS, kin.Question.back_to(1 << 32, 4))
        for ask in (kin.rings, kin.ring_portion):
            self.assertRaises(ValueError, ask, SIX_PERSONS, R, 1, (2, -1, 2))
        self.assertRaises(TypeError, kin.rings, "KLF1", R)


class Portions(Case):
    def test_every_room_gives_the_same_listing(self):
        rows, feeds = everybody_linked(6), [(1, 1)]
        right = chains_by_trying(rows, feeds, Q)
        self.assertEqual(len(right), 1 + 4 + 12 + 24)
        for room in range(1, len(right) + 2):
            self.assertEqual(listed(Q, link_file(rows, feeds), room=room), right)

    def test_a_listing_goes_on_after_each_of_its_chains(self):
        file = link_file(everybody_linked(5), [(1, 1)])
        question = kin.Question(0, 4, 8)
        right = listed(question, file)
        for place, chain in enumerate(right):
            self.assertEqual(listed(question, file, room=2, after=chain), right[place + 1:])

    def test_held_listing(self):
        held = kin.HeldListing(Q)
        self.assertEqual(held.cells, [*Q, 0, *[0] * 10])
        self.assertEqual((held.question, held.last), (Q, None))
        self.assertEqual(held.move_on(SIX_PERSONS, 2), ([FIRST, SECOND], False))
        self.assertEqual(held.cells, [*Q, 1, 4, *SECOND, 0, 0, 0, 0])
        self.assertEqual((held.question, held.last), (Q, SECOND))
        again = kin.HeldListing.from_cells(held.cells)
        self.assertEqual(again.move_on(SIX_PERSONS), ([THIRD], True))
        after = again.cells
        self.assertEqual(again.move_on(SIX_PERSONS), ([], True))
        self.assert_refused(3, 0, lambda: again.move_on(SIX_PERSONS[:-1]))
        self.assertEqual(again.cells, after)

    def test_a_held_listing_put_away_before_goes_on_where_it_was(self):
        chains = [FIRST, SECOND, THIRD]
        for place, after in enumerate([None, *chains]):
            today = kin.HeldListing(Q, after)
            stored = today.cells[:7] + today.cells[8:]
            for held in (kin.HeldListing.from_cells(stored), kin.HeldListing.from_cells(tuple(stored))):
                self.assertEqual((held.cells, held.question, held.last), (today.cells, Q, after))
                self.assertEqual(held.move_on(SIX_PERSONS), (chains[place:], True))

    def test_what_was_pickled_before(self):
        question, held = pickle.loads(PICKLED_BEFORE)
        self.assertEqual(question, Q)
        self.assertEqual((held.question, held.last), (Q, SECOND))
        self.assertEqual(held.move_on(SIX_PERSONS), ([THIRD], True))

    def test_a_copied_or_pickled_held_listing_moves_on_by_itself(self):
        held = kin.HeldListing(Q)
        held.move_on(SIX_PERSONS, 2)
        for again in (copy.copy(held), copy.deepcopy(held), pickle.loads(pickle.dumps(held))):
            self.assertEqual(again.cells, held.cells)
            self.assertEqual(again.move_on(SIX_PERSONS), ([THIRD], True))
            self.assertEqual(held.last, SECOND)

    def test_a_held_listing_of_another_size(self):
        for size in (0, 7, 8, 17, 20):
            self.assertRaises(ValueError, kin.HeldListing.from_cells, [0] * size)


class OtherArguments(Case):
    def test_numbers_beyond_32_bits(self):
        for person in (-1, 1 << 32, (1 << 32) + 5):
            self.assertRaises(ValueError, listed, Q._replace(to_person=person))
            self.assertRaises(ValueError, kin.portion, SIX_PERSONS, Q, 1, (0, person))
            self.assertRaises(ValueError, kin.row_view, SIX_PERSONS, person)

    def test_what_is_no_file_and_no_number(self):
        for file in (188, "KLF1", None):
            self.assertRaises(TypeError, kin.check, file)
        self.assertRaises(TypeError, kin.fewest_hops, SIX_PERSONS, Q, 1.5)


class Package(Case):
    def test_a_library_that_is_not_there(self):
        elsewhere = {**os.environ, "KIN_LIBRARY": "/nowhere/libkin.so"}
        command = [sys.executable, "-c", "import kin"]
        tried = subprocess.run(command, cwd=Path(__file__).parent, env=elsewhere, capture_output=True, text=True)
        self.assertIn("ImportError: /nowhere/libkin.so cannot be loaded: run bindings/python/build.sh", tried.stderr)

    def test_the_rings_of_the_front_page(self):
        page = (ROOT / "README.md").read_text()
        command, shown = re.search(r"\n    (.*kin\.rings.*)\n\nprints\n\n    (.*)\n", page).groups()
        printed = subprocess.run(command, shell=True, cwd=ROOT, stdout=subprocess.PIPE, check=True, text=True).stdout
        self.assertEqual(printed, shown + "\n")

    def test_the_version_is_the_header_s(self):
        header = (ROOT / "include" / "kin.h").read_text().splitlines()
        self.assertIn(f'#define KIN_VERSION "{kin.__version__}"', header)


class RandomFiles(Case):
    SEED = 20261115

    def test_listings_against_trying_every_sequence(self):
        chance = random.Random(self.SEED)
        chains_seen = {True: 0, False: 0}
        for run in range(400):
            persons, feeds = chance.randint(2, 6), [(3, 1), (8, 2)]
            rows = random_rows(chance, persons, len(feeds))
            file = link_file(rows, feeds)
            question = random_question(chance, persons)
            for question in (question, question._replace(undated=False)):
                right = chains_by_trying(rows, feeds, question)
                chains_seen[question.undated] += len(right)
                with self.subTest(seed=self.SEED, run=run, question=question):
                    self.assertEqual(listed(question, file, room=chance.randint(1, 5)), right)
                    joined, _ = kin.join(file, question)
                    self.assertEqual(joined.chains, sorted(right, key=len))
        self.assertGreater(chains_seen[True], 400)
        self.assertGreater(chains_seen[False], 30)

    def test_rings_against_trying_every_sequence(self):
        chance = random.Random(self.SEED + 21)
        rings_seen = {True: 0, False: 0}
        for run in range(400):
            persons, feeds = chance.randint(2, 6), [(3, 1), (8, 2)]
            rows = random_rows(chance, persons, len(feeds))
            file = link_file(rows, feeds)
            question = random_question(chance, persons)
            question = question._replace(to_person=question.from_person)
            for question in (question, question._replace(undated=False)):
                right = rings_by_trying(rows, feeds, question)
                rings_seen[question.undated] += len(right)
                with self.subTest(seed=self.SEED, run=run, question=question):
                    self.assertEqual(rings_listed(question, file, room=chance.randint(1, 5)), right)
        self.assertGreater(rings_seen[True], 400)
        self.assertGreater(rings_seen[False], 30)


if __name__ == "__main__":
    unittest.main()
