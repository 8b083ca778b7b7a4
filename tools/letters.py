#!/usr/bin/env python3
"""Writes the table of good and damaged letters that crate lettertable reads.

Run it at the top of the repository:

    python3 tools/letters.py > crates/lettertable/data/letters.txt

It knows nothing but docs/FORMAT.md. Each line of the table is

    F L HEX ANSWER

F faulty controllers that the vault bears, L locks, the bytes of a letter ('-' for none), and
what reading it must answer: 'ok KIND', or 'refused NUMBER PLACE'. Each answer is worked out
twice, from how the letter was damaged and by reading its bytes here, and the two must agree.
"""

BITS = ["kind", "change", "sender", "place", "view", "number", "answer", "digest",
        "office seal", "basis", "certificate", "movers", "seal"]
NAMES = ["", "enrol", "receipt", "order", "summons", "vote", "proposal", "assent", "confirm",
         "result", "move"]
ENROL, RECEIPT, ORDER, SUMMONS, VOTE, PROPOSAL, ASSENT, CONFIRM, RESULT, MOVE = range(1, 11)
COMMON = {0, 1, 2, 12}
OFFICE = 64


def lock(place):
    return 32 + place


def bits(n):
    return {k for k in range(16) if n >> k & 1}


def fits(kind, stand):
    """Whether a set of bits fits a kind."""
    more = stand - COMMON
    if not COMMON <= stand:
        return False
    must, may = {
        ENROL: (set(), set()), RECEIPT: ({3}, set()), ORDER: (set(), {5}),
        SUMMONS: ({5, 8}, set()), VOTE: ({5, 6}, set()), PROPOSAL: ({4, 10}, {5, 11}),
        ASSENT: ({4, 7}, {5}), CONFIRM: ({4, 7}, {5}), RESULT: (set(), {5}),
        MOVE: ({4, 9, 10}, {5}),
    }[kind]
    if kind == MOVE and more == {4}:
        return True
    return must <= more <= must | may


# ---- reading

class Refused(Exception):
    pass


class Reader:
    def __init__(self, f, l, data):
        self.f, self.n, self.l, self.data, self.at = f, 3 * f + 1, l, data, 0

    def field(self, size, test=lambda n: True):
        """A field of so many bytes, and a test of its range."""
        at = self.at
        part = self.data[at:at + size]
        if len(part) < size:
            raise Refused(1, at)
        n = int.from_bytes(part, "little")
        if not test(n):
            raise Refused(3, at)
        self.at = at + size
        return n

    def sender(self, kind):
        if kind in (ENROL, VOTE):
            return self.field(1, lambda n: 32 <= n < 32 + self.l)
        if kind == ORDER:
            return self.field(1, lambda n: n == OFFICE)
        return self.field(1, lambda n: n < self.n)

    def view(self, kind, sender, stand):
        def right(view):
            leads = sender == view % self.n
            if kind == PROPOSAL:
                return leads and (11 in stand) == (view != 0)
            if kind == ASSENT:
                return not leads
            return kind != MOVE or view != 0
        return self.field(1, right)

    def key(self):
        return self.field(4, lambda n: n <= 999999)

    def basis(self, view):
        own = self.field(1, lambda n: n < view)
        seats = self.field(2, lambda n: len(bits(n)) == 2 * self.f and n < 1 << self.n
                           and own % self.n not in bits(n))
        self.field(8)
        for _ in bits(seats):
            self.field(8)

    def certificate(self):
        enrolled = self.field(1, lambda n: n < 1 << self.l)
        voted = self.field(1, lambda n: bits(n) <= bits(enrolled))
        self.field(1, lambda n: bits(n) <= bits(voted))
        flag = self.field(1, lambda n: n == 1 or n == 0 and not voted)
        if flag:
            self.key()
        self.field(8)
        for _ in range(len(bits(enrolled)) + len(bits(voted))):
            self.field(8)

    def letter(self):
        stand = bits(self.field(2))
        if stand & {13, 14, 15} or 0 not in stand:
            raise Refused(2, 0)
        kind = self.field(1, lambda n: 1 <= n <= 10)
        if not fits(kind, stand):
            raise Refused(2, 0)
        self.field(1, lambda n: n != 0)
        sender = self.sender(kind)
        view = None
        for bit in sorted(stand - {0, 1, 2}):
            if bit == 3:
                self.field(1, lambda n: n < self.l)
            elif bit == 4:
                view = self.view(kind, sender, stand)
            elif bit == 5:
                self.key()
            elif bit == 6:
                self.field(1, lambda n: n <= 1)
            elif bit == 9:
                self.basis(view)
            elif bit == 10:
                self.certificate()
            elif bit == 11:
                self.field(2, lambda n: len(bits(n)) == 2 * self.f + 1 and n < 1 << self.n)
            else:
                self.field(8)
        if self.at < len(self.data):
            raise Refused(4, self.at)
        return kind


def read(f, l, data):
    try:
        return "ok %d" % Reader(f, l, data).letter()
    except Refused as refused:
        return "refused %d %d" % refused.args


# ---- making

class Letter:
    """A letter as a list of named fields, for a vault of given sizes."""

    def __init__(self, f, l, kind, change, sender):
        self.f, self.l, self.kind = f, l, kind
        self.fields = []
        self.stand = {0, 1, 2, 12}
        self.put("kind", 1, kind).put("change", 1, change).put("sender", 1, sender)

    def put(self, name, size, n):
        self.fields.append([name, size, n])
        return self

    def bit(self, k, size, n):
        self.stand.add(k)
        return self.put(BITS[k], size, n)

    def place(self, n):
        return self.bit(3, 1, n)

    def view(self, n):
        return self.bit(4, 1, n)

    def number(self, n):
        return self if n is None else self.bit(5, 4, n)

    def answer(self, n):
        return self.bit(6, 1, n)

    def digest(self, n):
        return self.bit(7, 8, n)

    def office_seal(self, n):
        return self.bit(8, 8, n)

    def basis(self, view, seats):
        self.stand.add(9)
        self.put("basis view", 1, view).put("basis seats", 2, seats).put("leader's seal", 8, 0x1EAD)
        for k in sorted(bits(seats)):
            self.put("assent seal %d" % k, 8, 0xA500 + k)
        return self

    def certificate(self, enrolled, voted, ready, number):
        self.stand.add(10)
        self.put("enrolled", 1, enrolled).put("voted", 1, voted).put("ready", 1, ready)
        self.put("flag", 1, 0 if number is None else 1)
        if number is not None:
            self.put("certificate number", 4, number)
        self.put("certificate office seal", 8, 0x0FF1CE)
        for k in sorted(bits(enrolled)):
            self.put("enrol seal %d" % k, 8, 0xE000 + k)
        for k in sorted(bits(voted)):
            self.put("vote seal %d" % k, 8, 0xB000 + k)
        return self

    def movers(self, seats):
        return self.bit(11, 2, seats)

    def sealed(self):
        top = 2 ** 64 - 1 if self.kind == ENROL else 0x5EA1
        return self.put("seal", 8, top)

    def map(self):
        return sum(1 << k for k in self.stand)

    def data(self, map_=None):
        out = (self.map() if map_ is None else map_).to_bytes(2, "little")
        for _, size, n in self.fields:
            out += n.to_bytes(size, "little")
        return out

    def offset(self, name):
        at = 2
        for field, size, _ in self.fields:
            if field == name:
                return at
            at += size
        raise KeyError(name)

    def spans(self):
        """Name, offset and size of each field, the map first."""
        yield "map", 0, 2
        at = 2
        for name, size, _ in self.fields:
            yield name, at, size
            at += size

    def but(self, name, n):
        """The same with another value in one field."""
        other = Letter(self.f, self.l, self.kind, 0, 0)
        other.stand = set(self.stand)
        other.fields = [[field, size, n if field == name else m] for field, size, m in self.fields]
        assert other.fields != self.fields
        return other


def enrol(f, l, place=0, change=7):
    return Letter(f, l, ENROL, change, lock(place)).sealed()


def receipt(f, l, seat=0, place=0):
    return Letter(f, l, RECEIPT, 7, seat).place(place).sealed()


def order(f, l, number=None):
    return Letter(f, l, ORDER, 7, OFFICE).number(number).sealed()


def summons(f, l, seat=0, number=5020):
    return Letter(f, l, SUMMONS, 7, seat).number(number).office_seal(0x0FF1CE).sealed()


def vote(f, l, place=0, number=5020, answer=1):
    return Letter(f, l, VOTE, 7, lock(place)).number(number).answer(answer).sealed()


def proposal(f, l, view, number, certificate, movers=None, seat=None):
    seat = view % (3 * f + 1) if seat is None else seat
    letter = Letter(f, l, PROPOSAL, 7, seat).view(view).number(number).certificate(*certificate)
    return (letter if movers is None else letter.movers(movers)).sealed()


def judged(kind, f, l, seat, view, number):
    return Letter(f, l, kind, 7, seat).view(view).number(number).digest(0xD16E57).sealed()


def result(f, l, seat, number):
    return Letter(f, l, RESULT, 7, seat).number(number).sealed()


def move(f, l, seat, view, number=None, basis=None, certificate=None):
    letter = Letter(f, l, MOVE, 7, seat).view(view)
    if basis is not None:
        letter.number(number).basis(*basis).certificate(*certificate)
    return letter.sealed()


# ---- the table

LINES = []


def say(text):
    LINES.append("# " + text)


def line(f, l, data, answer):
    assert read(f, l, data) == answer, (f, l, data.hex(), answer, read(f, l, data))
    LINES.append("%d %d %s %s" % (f, l, data.hex().upper() or "-", answer))


def good(letter):
    line(letter.f, letter.l, letter.data(), "ok %d" % letter.kind)


def broken(letter, name, n):
    """One field out of range."""
    line(letter.f, letter.l, letter.but(name, n).data(), "refused 3 %d" % letter.offset(name))


# a certificate: maps of the enrolled, voted and ready places, and the number
ALL_READY = (0b011, 0b011, 0b011, 5020)
ONE_REFUSES = (0b111, 0b011, 0b010, 5020)
NOBODY = (0, 0, 0, 5020)
CANCEL = (0b101, 0, 0, None)
EMPTY_CANCEL = (0, 0, 0, None)
LONGEST = (0b11111111, 0b11111111, 0b01111111, 999999)


def good_letters():
    """Every kind, with and without what it may lack; the edges of every range."""
    return [
        enrol(1, 3, 2), enrol(5, 8, 7, 255), enrol(1, 1, 0, 1),
        receipt(1, 3, 3, 2), receipt(5, 8, 15, 7),
        order(1, 3), order(1, 3, 5020), order(1, 3, 0), order(1, 3, 999999), order(1, 3, 123456),
        summons(1, 3, 3), summons(5, 8, 15, 999999),
        vote(1, 3, 2), vote(1, 3, 2, 0, 0), vote(5, 8, 7, 999999),
        proposal(1, 3, 0, 5020, ALL_READY), proposal(1, 3, 0, None, ONE_REFUSES),
        proposal(1, 3, 0, None, NOBODY), proposal(1, 3, 0, None, CANCEL),
        proposal(1, 3, 0, None, EMPTY_CANCEL), proposal(1, 3, 0, 5020, CANCEL),
        proposal(1, 3, 1, 5020, ALL_READY, 0b0111), proposal(1, 3, 6, None, CANCEL, 0b1101),
        proposal(5, 8, 255, 999999, LONGEST, 0b1111111111100000),
        judged(ASSENT, 1, 3, 1, 0, 5020), judged(ASSENT, 1, 3, 3, 2, None),
        judged(ASSENT, 5, 8, 0, 255, 999999),
        judged(CONFIRM, 1, 3, 0, 0, 5020), judged(CONFIRM, 1, 3, 3, 2, None),
        judged(CONFIRM, 5, 8, 15, 255, 999999),
        result(1, 3, 3, 5020), result(1, 3, 0, None), result(5, 8, 15, 0),
        move(1, 3, 2, 1), move(1, 3, 1, 255),
        move(1, 3, 2, 1, 5020, (0, 0b0110), ALL_READY),
        move(1, 3, 2, 6, None, (5, 0b1001), CANCEL),
        move(5, 8, 15, 255, 999999, (254, 0b0000001111111111), LONGEST),
    ]


def put_good():
    say("good letters")
    for letter in good_letters():
        good(letter)
    longest = max(len(letter.data()) for letter in good_letters())
    assert longest == 253, longest


def cut_letters():
    """One of each form that a kind has."""
    return [
        enrol(1, 3, 2), receipt(1, 3, 3, 2), order(1, 3), order(1, 3, 5020), summons(1, 3, 3),
        vote(1, 3, 2), proposal(1, 3, 0, 5020, ALL_READY), proposal(1, 3, 0, None, CANCEL),
        proposal(1, 3, 1, 5020, ONE_REFUSES, 0b0111), judged(ASSENT, 1, 3, 1, 0, 5020),
        judged(ASSENT, 1, 3, 1, 0, None), judged(CONFIRM, 1, 3, 1, 0, 5020),
        judged(CONFIRM, 1, 3, 1, 0, None), result(1, 3, 3, 5020), result(1, 3, 3, None),
        move(1, 3, 2, 1), move(1, 3, 2, 1, 5020, (0, 0b0110), ALL_READY),
        move(1, 3, 2, 6, None, (5, 0b1001), CANCEL),
    ]


def put_cuts():
    for letter in cut_letters():
        say("%s cut short before and inside each field" % NAMES[letter.kind])
        data = letter.data()
        for _, at, size in letter.spans():
            for kept in sorted({0, size // 2, size - 1}):
                line(letter.f, letter.l, data[:at + kept], "refused 1 %d" % at)
    say("a cut inside the seals of a large basis and of a large certificate")
    letter = move(5, 8, 15, 255, 999999, (254, 0b0000001111111111), LONGEST)
    for name in ["leader's seal", "assent seal 0", "assent seal 9", "enrol seal 7", "vote seal 0",
                 "vote seal 7", "seal"]:
        at = letter.offset(name)
        for kept in (0, 3, 7):
            line(5, 8, letter.data()[:at + kept], "refused 1 %d" % at)


def put_left_over():
    say("bytes left over")
    for letter in cut_letters():
        data = letter.data()
        line(letter.f, letter.l, data + b"\0", "refused 4 %d" % len(data))
    data = enrol(1, 3, 2).data()
    line(1, 3, data + data, "refused 4 %d" % len(data))


def put_short():
    say("no byte, one byte, two bytes, three bytes")
    line(1, 3, b"", "refused 1 0")
    for byte in (0x00, 0x07, 0xFF):
        line(1, 3, bytes([byte]), "refused 1 0")
    for data, answer in [("0710", "refused 1 2"), ("0100", "refused 1 2"), ("FF1F", "refused 1 2"),
                         ("0790", "refused 2 0"), ("0720", "refused 2 0"), ("0740", "refused 2 0"),
                         ("0610", "refused 2 0"), ("0000", "refused 2 0"), ("FFFF", "refused 2 0"),
                         ("071001", "refused 1 3"), ("071201", "refused 2 0"),
                         ("071000", "refused 3 2"), ("07100B", "refused 3 2"),
                         ("0712FF", "refused 3 2"), ("07300B", "refused 2 0")]:
        line(1, 3, bytes.fromhex(data), answer)


def put_maps():
    """Each bit turned that the kind does not leave free."""
    for letter in cut_letters():
        say("%s with a bit missing or a further one" % NAMES[letter.kind])
        for k in range(16):
            stand = letter.stand ^ {k}
            if k < 13 and k != 0 and fits(letter.kind, stand):
                continue
            line(letter.f, letter.l, letter.data(sum(1 << b for b in stand)), "refused 2 0")
    say("a move with a number and no basis, a basis and no certificate, a certificate and no basis")
    plain = move(1, 3, 2, 1)
    for more in ({5}, {9}, {10}, {5, 9}, {5, 10}, {9, 10, 11}):
        stand = plain.stand | more
        line(1, 3, plain.data(sum(1 << b for b in stand)), "refused 2 0")


def put_common_ranges():
    say("kind 0, 11 and 255; change 0")
    for letter in cut_letters():
        for kind in (0, 11, 255):
            broken(letter, "kind", kind)
        broken(letter, "change", 0)
    senders = {ENROL: "lock", VOTE: "lock", ORDER: "office"}
    for letter in cut_letters():
        say("%s from a sender that may not send it" % NAMES[letter.kind])
        # seats 0 and 3 and locks 0 and 2 are the edges of a vault of four controllers and three locks
        right = {"lock": {32, 33, 34}, "office": {64}}.get(senders.get(letter.kind), {0, 1, 2, 3})
        for party in sorted({0, 3, 4, 15, 16, 31, 32, 34, 35, 39, 40, 63, 64, 65, 255} - right):
            broken(letter, "sender", party)


def put_field_ranges():
    say("a receipt for a place at L and above")
    for n in (3, 4, 8, 255):
        broken(receipt(1, 3, 3, 2), "place", n)
    broken(receipt(1, 1, 3, 0), "place", 1)
    broken(receipt(5, 8, 3, 7), "place", 8)
    say("numbers above 999,999")
    for letter in [order(1, 3, 5020), summons(1, 3, 3), vote(1, 3, 2),
                   proposal(1, 3, 0, 5020, ALL_READY), judged(ASSENT, 1, 3, 1, 0, 5020),
                   judged(CONFIRM, 1, 3, 1, 0, 5020), result(1, 3, 3, 5020),
                   move(1, 3, 2, 1, 5020, (0, 0b0110), ALL_READY)]:
        for n in (1000000, 2 ** 24, 2 ** 32 - 1):
            broken(letter, "number", n)
    say("answers 2 and 255")
    for n in (2, 255):
        broken(vote(1, 3, 2), "answer", n)


def put_views():
    say("a proposal that is not from the leader of its view")
    plain, moved = proposal(1, 3, 0, 5020, ALL_READY), proposal(1, 3, 5, 5020, ALL_READY, 0b0111)
    for letter, seats in ((plain, (1, 2, 3)), (moved, (0, 2, 3))):
        for seat in seats:
            line(1, 3, letter.but("sender", seat).data(), "refused 3 5")
    broken(moved, "view", 4)
    say("a proposal of view 0 with movers, and of a later view without")
    broken(proposal(1, 3, 4, 5020, ALL_READY, 0b0111), "view", 0)
    for view in (4, 8, 252):
        broken(plain, "view", view)
    say("an assent from the leader of its view")
    for seat, view in ((0, 0), (1, 1), (3, 255), (2, 6)):
        line(1, 3, judged(ASSENT, 1, 3, seat, view, 5020).data(), "refused 3 5")
    line(5, 8, judged(ASSENT, 5, 8, 15, 255, None).data(), "refused 3 5")
    line(2, 8, judged(ASSENT, 2, 8, 2, 9, None).data(), "refused 3 5")
    say("a move to view 0")
    broken(move(1, 3, 2, 1), "view", 0)
    broken(move(1, 3, 2, 1, 5020, (0, 0b0110), ALL_READY), "view", 0)


def put_basis():
    letter = move(1, 3, 2, 6, 5020, (5, 0b1001), ALL_READY)
    say("a basis of the letter's own view or a later one")
    for view in (6, 7, 255):
        broken(letter, "basis view", view)
    broken(move(1, 3, 2, 1, None, (0, 0b0110), CANCEL), "basis view", 1)
    say("a basis with 2f - 1, 2f + 1 or no seats, with a seat at N, with the leader of its view")
    for seats in (0b1000, 0b1101, 0, 0b10001, 0b10100, 1 << 15 | 1, 0b0011, 0b1010):
        broken(letter, "basis seats", seats)
    largest = move(5, 8, 0, 3, None, (2, 0b1111111111 << 3), LONGEST)
    good(largest)
    for seats in (0b111111111 << 3, 0b11111111111 << 3, 0b1111111111 << 2):
        broken(largest, "basis seats", seats)
    small = move(2, 8, 0, 3, None, (2, 0b1111000), LONGEST)
    good(small)
    broken(small, "basis seats", 0b10111000)


def put_certificates():
    for letter in (proposal(1, 3, 0, 5020, ALL_READY), proposal(1, 3, 1, 5020, ALL_READY, 0b0111),
                   move(1, 3, 2, 1, 5020, (0, 0b0110), ALL_READY)):
        say("the certificate of a %s: a place at L, voted and not enrolled, ready and not voted"
            % NAMES[letter.kind])
        for n in (0b1000, 0b1011, 0b10000011):
            broken(letter, "enrolled", n)
        for n in (0b100, 0b111, 0b1011):
            broken(letter, "voted", n)
        for n in (0b100, 0b111, 0b1011):
            broken(letter, "ready", n)
        say("flag 2, flag 255, flag 0 with votes, a number above 999,999")
        for n in (2, 255, 0):
            broken(letter, "flag", n)
        for n in (1000000, 2 ** 32 - 1):
            broken(letter, "certificate number", n)
    cancel = proposal(1, 3, 0, None, CANCEL)
    say("a vote under a cancel")
    line(1, 3, cancel.but("voted", 0b001).data(), "refused 3 %d" % cancel.offset("flag"))
    say("a place at L where there is one lock")
    broken(proposal(1, 1, 0, None, (1, 0, 0, None)), "enrolled", 2)


def put_movers():
    letter = proposal(1, 3, 1, 5020, ALL_READY, 0b0111)
    say("movers of 2f, 2f + 2 and no seats, and one at N")
    for seats in (0b0011, 0b1111, 0, 0b10011, 1 << 15 | 0b11):
        broken(letter, "movers", seats)
    largest = proposal(5, 8, 255, 999999, LONGEST, 0b1111111111100000)
    for seats in (0b1111111111000000, 0b1111111111110000):
        broken(largest, "movers", seats)
    small = proposal(2, 8, 1, None, CANCEL, 0b1111100)
    good(small)
    broken(small, "movers", 0b10111100)


def put_first_of_two():
    say("two faults: the first one is told")
    letter = vote(1, 3, 2)
    line(1, 3, letter.but("change", 0).but("answer", 2).data(), "refused 3 3")
    line(1, 3, letter.but("answer", 2).data() + b"\0", "refused 3 %d" % letter.offset("answer"))
    line(1, 3, letter.but("number", 10 ** 6).data()[:-3], "refused 3 %d" % letter.offset("number"))
    line(1, 3, letter.but("change", 0).data(letter.map() | 8), "refused 2 0")
    line(1, 3, letter.but("kind", 11).data(letter.map() | 8), "refused 3 2")
    line(1, 3, letter.but("kind", 11).data(letter.map() | 1 << 13), "refused 2 0")
    cut = letter.but("sender", 64).data()[:5]
    line(1, 3, cut, "refused 3 4")


def main():
    say("F L HEX ANSWER: written by tools/letters.py from docs/FORMAT.md")
    for part in (put_good, put_short, put_cuts, put_left_over, put_maps, put_common_ranges,
                 put_field_ranges, put_views, put_basis, put_certificates, put_movers,
                 put_first_of_two):
        part()
    print("\n".join(LINES))


if __name__ == "__main__":
    main()
