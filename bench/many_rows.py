"""Agencies of many rows, put straight into the tables that `desk init` makes: for bench/ and tests/full_size.

`OnePlace` is the plainest day book that the desk takes, `FullRoutes` a day on which no van takes one trip more, and `Years` that of an agency of 50
vans after years.
"""
import collections
import contextlib
import datetime
import hashlib
import os
import sqlite3
import struct
import subprocess

EPOCH = datetime.date(1970, 1, 1)
CLERK, EXAMINER, DISPATCHER = 1, 2, 4
COMPLETE, GRANT = 0, 1
RESIDENT, VISITOR = 0, 1
BOOKED, CANCELLED, RIDDEN, MISSED_BY_RIDER, MISSED_BY_OPERATOR = range(5)
PICKUP, DROP = 0, 1
EACH_DAY = 127
VEHICLES = 50


def number_of(day):
    """A day as the tables have it: days since 1 January 1970."""
    return (day - EPOCH).days


def day_of(number):
    return EPOCH + datetime.timedelta(days=number)


def digest_of(key):
    return hashlib.sha256(key.encode()).digest()


def put(database, table, rows):
    """Adds rows, all of one length."""
    rows = iter(rows)
    first = next(rows, None)
    if first is not None:
        statement = f"INSERT INTO {table} VALUES ({', '.join('?' * len(first))})"
        database.execute(statement, first)
        database.executemany(statement, rows)


def fill(file, tables, **desk):
    """Puts rows into a new desk's tables, and values into the columns of `desk`, in one transaction.

    It keeps no journal meanwhile, so a file whose filling breaks off is of no use."""
    with contextlib.closing(sqlite3.connect(file, isolation_level=None)) as database:
        for setting in "journal_mode = OFF", "synchronous = OFF", "cache_size = -400000":
            database.execute(f"PRAGMA {setting}").fetchall()
        database.execute("BEGIN")
        for table, rows in tables:
            put(database, table, rows)
        database.execute(f"UPDATE desk SET {', '.join(f'{name} = ?' for name in desk)}", (*desk.values(),))
        database.execute("COMMIT")
        database.execute("PRAGMA journal_mode = WAL").fetchall()


def init(program, file, key):
    """Has the program make its empty tables."""
    subprocess.run([program, "init", file, key], stdout=subprocess.DEVNULL, check=True)


class OnePlace:
    """Trips from the one place to itself, each at its vehicle's turn of 30 on a day, so that all of a day can be driven."""

    A_PLAN = 30
    A_DAY = VEHICLES * A_PLAN
    FIRST_DAY = 20_000

    @classmethod
    def vehicles(cls):
        return ((it, cls.FIRST_DAY, EACH_DAY, 1, 4, 0, 1439, 1439) for it in range(1, VEHICLES + 1))

    @classmethod
    def trips(cls, count, rider_of):
        """So many, the rider of each by its place among them, from 0."""
        for at in range(count):
            day, vehicle = divmod(at // cls.A_PLAN, VEHICLES)
            yield at + 1, rider_of(at), cls.FIRST_DAY + day, 600, 1, 1, -1, 0, 0, 200, 0, 0, vehicle + 1, 540, 555, BOOKED

    @classmethod
    def stops(cls, count):
        for at in range(count):
            plan, turn = divmod(at, cls.A_PLAN)
            for kind in (PICKUP, DROP):
                yield plan % VEHICLES + 1, cls.FIRST_DAY + plan // VEHICLES, 2 * turn + kind, at + 1, kind


class FullRoutes:
    """A day of vehicles whose routes have no minute to spare: each stop takes one, and each trip gets off where it got on."""

    OPENS, SERVICE, RIDE, PROMISED = 480, 1, 30, 15
    WISH = OPENS + 60

    def __init__(self, name, in_a_route, seats, companions):
        """So many trips in each route, seats in a vehicle, and companions of the trip that is asked for."""
        self.name, self.in_a_route, self.seats, self.companions = name, in_a_route, seats, companions

    def closes(self):
        return self.OPENS + 2 * self.in_a_route * self.SERVICE

    def trips(self, day, vehicles):
        """Each at its turn in its vehicle's route."""
        for vehicle in range(1, vehicles + 1):
            for turn in range(self.in_a_route):
                number, pickup = (vehicle - 1) * self.in_a_route + turn + 1, self.OPENS + 2 * turn * self.SERVICE
                yield (number, number, day, pickup + 60, 1, 1, -1, 0, 0, 0, self.SERVICE, self.RIDE, vehicle, pickup,
                       pickup + self.PROMISED, BOOKED)

    def stops(self, day, vehicles):
        for number, *_, vehicle, _, _, _ in self.trips(day, vehicles):
            turn = (number - 1) % self.in_a_route
            for kind in (PICKUP, DROP):
                yield vehicle, day, 2 * turn + kind, number, kind

    def fill(self, file, day, vehicles):
        """Puts the day into a new desk's tables, with one rider more than it has trips; a dispatcher may ask."""
        count = self.in_a_route * vehicles
        fill(file, [
            ("callers", [(2, DISPATCHER, 0, digest_of(DISPATCHERS_KEY))]),
            ("places", [(1, 0, 0, 0)]),
            ("fixed", [(1, 3_960, struct.pack(">4i", 0, 0, 9, 0), 1, EACH_DAY, 0, 1_439)]),
            ("vehicles", ((it, day - 1, EACH_DAY, 1, self.seats, self.OPENS, self.closes(), 1_439) for it in range(1, vehicles + 1))),
            ("riders", ((it, VISITOR, 0) for it in range(1, count + 2))),
            ("trips", self.trips(day, vehicles)),
            ("stops", self.stops(day, vehicles)),
        ], service=self.SERVICE, extra_ride=self.RIDE, last_trip=count)

    def question(self, vehicles, date):
        """The words of one trip more on that day, by a visitor who has none."""
        rider = self.in_a_route * vehicles + 1
        return [DISPATCHERS_KEY, str(rider), str(date), str(self.WISH), "1", "1", "none", "0", str(self.companions)]


# An agency after years.

POLICY = {"base": 175, "transfer": 50, "fare": 350, "service": 2, "extra_ride": 45, "min_missed": 3, "percent": 20, "span_days": 30}
CLERKS_KEY, DISPATCHERS_KEY, EXAMINERS_KEY, RIDERS_KEY = "hello", "radio", "panel", "mine"
# A hundred places stand in ten rows, all within the corridor of one line.
PLACES, IN_A_ROW, EAST, NORTH, WIDTH = 100, 10, 3_000, 1_500, 7_920
FEET_A_MINUTE, MINUTES_AT_LEAST = 5_000, 3
SEATS, CHAIRS, OPENS, CLOSES, SHIFT = 8, 2, 300, 1_380, 1_080
# Trips of a vehicle on a day by its weekday, from Monday; two by two, each pair in a hundred minutes.
TURNS = (20, 20, 20, 20, 20, 8, 6)
FIRST_WISH, A_PAIR, BETWEEN, WINDOW, RIDE, LATEST = 330, 100, 15, 15, 60, 90
# A trip is booked on one of so many days before its own, and so the numbers of a day's trips lie among those of others.
DAYS_BEFORE = 14
# Two riders whose trips are known; the others' trips are many for low numbers and few for high ones.
RIDER, THE_VISITOR, BUSIEST = 1, 2, 3
RIDERS_TRIPS = 100
# A whole number that mixes the bits of another, so that each file of one size has the same rows.
MIX, BITS = 2_654_435_761, 0xFFFF_FFFF

Sizes = collections.namedtuple("Sizes", "trips planned stops marks")


class Years:
    """An agency of 50 vans, so many riders, trips of all days before today from a first day on, and plans of days ahead.

    There are at least so many trips in all: days are whole. The vans drive as much on each day ahead as on a working day."""

    places = PLACES

    def __init__(self, trips, riders, today, ahead):
        self.riders, self.today, self.end = riders, number_of(today), number_of(today) + ahead
        self.first, count = self.today, VEHICLES * TURNS[0] * ahead
        while count < trips:
            self.first -= 1
            count += self.trips_on(self.first)
        self.count, self.apart = count, max(count // RIDERS_TRIPS, 2)

    def turns_on(self, day):
        """How many trips a vehicle has on a day, those that were cancelled too. (Day 4 was a Monday.)"""
        return TURNS[0] if day >= self.today else TURNS[(day - 4) % 7]

    def trips_on(self, day):
        return VEHICLES * self.turns_on(day)

    # Tables.

    def tables(self):
        yield "callers", self.callers()
        yield "places", ((it + 1, *self.point_of(it), 0) for it in range(self.places))
        yield "fixed", [(1, WIDTH, self.line(), 1, EACH_DAY, 0, 1439)]
        yield "vehicles", ((it, self.first, EACH_DAY, 1, SEATS, OPENS, CLOSES, SHIFT) for it in range(1, VEHICLES + 1))
        yield "vehicle_chairs", ((it, self.first, CHAIRS) for it in range(1, VEHICLES + 1))
        yield "travel", self.travel()
        yield "riders", ((it, VISITOR if it == THE_VISITOR else RESIDENT, 0) for it in range(1, self.riders + 1))
        yield "rider_chairs", ((it,) for it in range(1, self.riders + 1) if self.comes_in_wheelchair(it))
        yield "entries", self.entries()
        yield "trips", self.trips()
        yield "stops", self.stops()
        yield "trip_chairs", ((number,) for number, rider, *_ in self.trips() if self.comes_in_wheelchair(rider))

    def callers(self):
        named = (CLERK, CLERKS_KEY, 0), (DISPATCHER, DISPATCHERS_KEY, 0), (EXAMINER, EXAMINERS_KEY, 0), (0, RIDERS_KEY, RIDER)
        for number, (role, key, subject) in enumerate(named, 2):
            yield number, role, subject, digest_of(key)

    @staticmethod
    def point_of(place):
        north, east = divmod(place, IN_A_ROW)
        return east * EAST, north * NORTH

    @staticmethod
    def line():
        middle = NORTH * (PLACES // IN_A_ROW - 1) // 2
        return struct.pack(">iiii", 0, middle, EAST * (IN_A_ROW - 1), middle)

    def travel(self):
        """One table, from the first day on."""
        yield self.first, 0, 0, 0
        points = [self.point_of(it) for it in range(self.places)]
        for one, (east, north) in enumerate(points, 1):
            for other, (east_of, north_of) in enumerate(points, 1):
                if one != other:
                    feet = abs(east - east_of) + abs(north - north_of)
                    yield self.first, one, other, MINUTES_AT_LEAST + feet // FEET_A_MINUTE

    def entries(self):
        """Each resident applied twice, and was granted all trips each time."""
        for rider in range(1, self.riders + 1):
            for place in range(4 if rider != THE_VISITOR else 0):
                day = self.today - 2_000 + 900 * (place // 2) + place % 2
                kind, until, conditions = (GRANT, self.today + 900, "always") if place % 2 else (COMPLETE, -1, "")
                yield rider, place, kind, day, 1, until, -1, conditions, ""

    def comes_in_wheelchair(self, rider):
        """Three of twenty do."""
        return rider % 20 in (3, 4, 5)

    # Trips.

    def turns(self):
        """Each trip by its number: its day and its turn among the trips of that day."""
        number = 0
        for booked in range(self.first - DAYS_BEFORE, self.end):
            for day in range(max(booked + 1, self.first), min(booked + 1 + DAYS_BEFORE, self.end)):
                for at in range(day - booked - 1, self.trips_on(day), DAYS_BEFORE):
                    number += 1
                    yield number, day, at

    def rider_of(self, number):
        """The visitor has the first trip and the last one, and the rider a hundred between them, far apart."""
        if number in (1, self.count):
            return THE_VISITOR
        if number % self.apart == self.apart // 2 and number // self.apart < RIDERS_TRIPS:
            return RIDER
        share = (number * MIX & BITS) / (BITS + 1)
        return BUSIEST + int((self.riders - THE_VISITOR) * share ** 1.5)

    def is_cancelled(self, vehicle, day, pair):
        return (7 * vehicle + day) % 10 == pair

    def status_of(self, number, vehicle, day, pair):
        if self.is_cancelled(vehicle, day, pair):
            return CANCELLED
        if day >= self.today:
            return BOOKED
        return MISSED_BY_RIDER if number % 25 == 0 else MISSED_BY_OPERATOR if number % 99 == 0 else RIDDEN

    def trips(self):
        for number, day, at in self.turns():
            turn, vehicle = divmod(at, VEHICLES)
            pair, second = divmod(turn, 2)
            vehicle += 1
            wish = FIRST_WISH + A_PAIR * pair + BETWEEN * second
            mixed = number * MIX & BITS
            origin, away = mixed % self.places, 1 + mixed // self.places % (self.places - 1)
            latest = wish + LATEST if mixed % 4 == 0 else -1
            yield (number, self.rider_of(number), day, wish, origin + 1, (origin + away) % self.places + 1, latest, 0, mixed // 7 % 2,
                   POLICY["fare"], POLICY["service"], RIDE, vehicle, wish, wish + WINDOW, self.status_of(number, vehicle, day, pair))

    def stops(self):
        """A pair's pickups come before its drops, and a pair that was cancelled has none."""
        for number, day, at in self.turns():
            turn, vehicle = divmod(at, VEHICLES)
            pair, second = divmod(turn, 2)
            vehicle += 1
            cancelled = (7 * vehicle + day) % 10
            if cancelled != pair:
                place = 4 * (pair - (cancelled < pair)) + second
                yield vehicle, day, place, number, PICKUP
                yield vehicle, day, place + 2, number, DROP

    def make(self, program, file, key):
        """A new file with all these rows."""
        init(program, file, key)
        fill(file, self.tables(), last_trip=self.count, **POLICY)
        return file


def sizes_of(file):
    """How many trips, planned trips, stops and marks a file has, and its bytes."""
    with contextlib.closing(sqlite3.connect(file)) as database:
        def count(of):
            return database.execute(f"SELECT count(*) FROM {of}").fetchone()[0]
        sizes = Sizes(count("trips"), count("stops") // 2, count("stops"), count("trip_chairs"))
    return sizes, os.path.getsize(file)
