"""Books and batches that are hard on the program, and an ordinary one to compare them with.

`BATCHES` names them; each is made by a function that answers the book, as rows of a book of version 3, and the bodies.
"""
import json
import random

MOST = 65536
STAMP = "260110120000"
ACQUIRER = "123456"


def with_luhn(digits):
    """The digits and the one that has them pass the Luhn test."""
    total = 0
    for place, digit in enumerate(reversed(digits)):
        value = int(digit) * (2 if place % 2 == 0 else 1)
        total += value - 9 if value > 9 else value
    return digits + str(-total % 10)


def card_number(number):
    return with_luhn("4%014d" % number)


def body(mti, bits, elements):
    bitmap = sum(1 << 64 - bit for bit in bits)
    return mti.encode() + bitmap.to_bytes(8, "big") + "".join(elements).encode()


def message(mti, card, amount, trace, function="100", action=None, original=None, stamp=STAMP):
    """A request, an advice with its action, or a reversal of an original: its message type, trace number and stamp."""
    bits = [2, 3, 4, 7, 11, 12, 24, 32, 41, 49]
    elements = ["%02d%s" % (len(card), card), "000000", "%012d" % amount, stamp[2:], "%06d" % trace, stamp]
    elements += [function, "%02d%s" % (len(ACQUIRER), ACQUIRER)]
    if action is not None:
        bits.append(39)
        elements.append(action)
    elements += ["TERM0001", "978"]
    if original is not None:
        named = "%s%06d%s%02d%s" % (*original, len(ACQUIRER), ACQUIRER)
        bits.append(56)
        elements.append("%02d%s" % (len(named), named))
    return body(mti, bits, elements)


def request(card, amount, trace, mti="1100"):
    return message(mti, card, amount, trace)


def advice(card, amount, trace):
    return message("1120", card, amount, trace, action="000")


def reversal(card, amount, trace, of, stamp=STAMP):
    return message("1420", card, amount, trace, function="400", original=("1100", of, STAMP), stamp=stamp)


def book_of(cards, originals=0):
    """So many cards with an account each, and so many originals that nothing paid for."""
    numbers = sorted(card_number(number) for number in range(cards))
    book = {"accounts": [], "ahead": [], "budgets": [], "cards": [], "days": [], "originals": [], "version": 3}
    for number in numbers:
        book["accounts"].append({"available": 10**9, "currency": "978", "id": number})
        book["cards"].append({"account": number, "approvals": 0, "day_amount": 10**12, "day_count": 999999,
                              "expiry": "2812", "pan": number, "second": None, "status": "active"})
    for number in range(originals):
        book["originals"].append({"account": None, "acquirer": "999999", "action": "116", "amount": 1,
                                  "approval": None, "kind": "request", "paid": "nothing",
                                  "pan": numbers[number % cards], "processing": "000000", "reversed": None,
                                  "stamp": "260110%02d%02d00" % (number // 60 % 24, number % 60), "stay": 0,
                                  "trace": "%06d" % number})
    return book


def ordinary_bodies(cards):
    """Of a hundred bodies 80 are requests, 10 advices, 5 reversals of requests before them and 5 repeats, on all cards."""
    chance = random.Random(1)
    sent, bodies = [], []
    for trace in range(MOST):
        kind = chance.randrange(100)
        card, amount = card_number(chance.randrange(cards)), chance.randrange(1, 10000)
        if kind < 80 or not sent:
            sent.append((card, amount, trace))
            bodies.append(request(card, amount, trace))
        elif kind < 90:
            bodies.append(advice(card, amount, trace))
        elif kind < 95:
            card, amount, of = chance.choice(sent)
            bodies.append(reversal(card, amount, trace, of))
        else:
            card, amount, of = chance.choice(sent)
            bodies.append(request(card, amount, of, "1101"))
    return bodies


def ordinary():
    """Ordinary traffic on 1,000 cards."""
    return book_of(1000), ordinary_bodies(1000)


def one_card():
    """Requests, all on one card."""
    return book_of(1), [request(card_number(0), 1, trace) for trace in range(MOST)]


def bad_bodies():
    """No body is a message: cut, of an unknown type, with an element too many, with a letter in an amount, a byte too long."""
    whole = request(card_number(0), 1, 1)
    faults = [whole[:1], whole[:11], b"1200" + whole[4:], whole[:4] + b"\x7a" + whole[5:],
              whole.replace(b"000000000001", b"00000000000A"), whole[:-1], whole + b"0", b"\xff" * 512]
    return book_of(1000), [faults[number % len(faults)] for number in range(MOST)]


def large_book():
    """Ordinary traffic on a book of 200,000 rows."""
    return book_of(1000, 198000), ordinary_bodies(1000)


def one_identity():
    """All messages share one identity: requests, repeats, advices, and reversals that name it, on two cards."""
    cards = [card_number(0), card_number(1)]
    bodies = []
    for number in range(MOST):
        card = cards[number // 4 % 2]
        bodies.append([request(card, 1, 1), request(card, 1, 1, "1101"), advice(card, 1, 1),
                       reversal(card, 1, 1, 1)][number % 4])
    return book_of(2), bodies


def reversals_ahead():
    """Every reversal stands before its original: all reversals first, then all originals, on 1,000 cards."""
    originals = [(card_number(number % 1000), 1 + number % 100, number) for number in range(MOST // 2)]
    reversals = [reversal(card, amount, MOST + number, of)
                 for number, (card, amount, of) in enumerate(originals)]
    return book_of(1000), reversals + [request(*original) for original in originals]


BATCHES = [ordinary, one_card, bad_bodies, large_book, one_identity, reversals_ahead]


def batch_of(bodies):
    """The bytes of a batch file."""
    framed = b"".join(len(it).to_bytes(2, "big") + it for it in bodies)
    return b"I83B\0\1" + len(bodies).to_bytes(4, "big") + framed


def blocks_of(blocks):
    """The bytes of a block file."""
    text = b"I83M\0\1" + len(blocks).to_bytes(4, "big")
    for bodies in blocks:
        text += len(bodies).to_bytes(4, "big") + batch_of(bodies)[10:]
    return text


def day_of(text):
    """The bodies of a text as `switch pack` takes it."""
    return [bytes.fromhex(it.decode()) for it in text.split(b"\n") if it and not it.startswith(b"#")]


def write(made, book, text):
    """Writes the book's file, and the text that `switch pack` takes."""
    rows, bodies = made
    with open(book, "w") as file:
        json.dump(rows, file, separators=(",", ":"))
    with open(text, "w") as file:
        file.writelines(body.hex() + "\n" for body in bodies)
