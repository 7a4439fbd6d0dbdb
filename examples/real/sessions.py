"""A web application whose session store forgets nobody.

It answers requests as a WSGI application does, by calls and without a network. Visitors come, fill a basket, and never come back. A
session that is too old is not used again; but only the session that a request names is ever looked at, so those of visitors who
stay away are kept for ever, with all that they have seen. The items are used again and again, and the sessions are not.
"""
import random
import sys
from urllib.parse import parse_qs

LIFETIME = 50              # requests for which a session is good


class Item:
    def __init__(self, number):
        self.number, self.title, self.price = number, f"item {number} " * 6, 3 * number % 97 + 1


class Session:
    def __init__(self, key, clock):
        self.key, self.basket, self.seen, self.last = key, [], [], clock


class Store:
    """Sessions by their key."""

    def __init__(self):
        self.sessions = {}
        self.clock = 0

    def of(self, key):
        self.clock += 1
        session = self.sessions.get(key)
        if session is None or self.clock - session.last > LIFETIME:
            session = self.sessions[key] = Session(key, self.clock)
        session.last = self.clock      # here the others that are too old should go
        return session


class Shop:
    def __init__(self):
        self.items = {number: Item(number) for number in range(120)}
        self.store = Store()

    def __call__(self, environ, start_response):
        query = parse_qs(environ["QUERY_STRING"])
        session = self.store.of(environ["HTTP_COOKIE"])
        item = self.items[int(query["item"][0])]
        session.seen.append(item)
        if "buy" in query:
            session.basket.append({"item": item, "count": int(query["buy"][0])})
        total = sum(line["count"] * line["item"].price for line in session.basket)
        start_response("200 OK", [("Content-Type", "text/plain")])
        return [f"{session.key}: {len(session.seen)} seen, {total} to pay\n".encode()]


shop = Shop()


def main(visitors):
    rng, sent = random.Random(1), 0
    for visitor in range(visitors):
        for _ in range(rng.randint(1, 6)):
            item = min(119, int(rng.expovariate(0.05)))
            query = f"item={item}" + (f"&buy={rng.randint(1, 3)}" if rng.random() < 0.5 else "")
            body = shop({"QUERY_STRING": query, "HTTP_COOKIE": f"visitor{visitor}"}, lambda status, headers: None)
            sent += sum(map(len, body))
    print(f"{visitors} visitors, {len(shop.store.sessions)} sessions, {sent} bytes sent")


main(int(sys.argv[1]) if len(sys.argv) > 1 else 1_000)
