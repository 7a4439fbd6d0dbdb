"""A cache with an eviction that is broken.

Pages are made from parts, and the last 64 that were asked for are kept. When a part changes, the pages that were made from it have to
go, so there is a list of them for each part. A page that has to make room is taken out of the cache, but not out of these
lists: those of parts that never change keep all pages that ever were.
"""
import random
import sys
from collections import OrderedDict

MOST = 64


class Part:
    def __init__(self, number):
        self.number, self.version = number, 0


class Page:
    def __init__(self, key, parts):
        self.key, self.parts = key, parts
        self.text = " ".join(f"part {part.number} of version {part.version}" for part in parts) * 4


class Cache:
    def __init__(self):
        self.pages = OrderedDict()
        self.depending = {}    # for each part, the pages that were made from it

    def get(self, key, parts):
        page = self.pages.get(key)
        if page is None:
            page = self.pages[key] = Page(key, parts)
            for part in parts:
                self.depending.setdefault(part.number, []).append(page)
            if len(self.pages) > MOST:
                self.pages.popitem(last=False)      # it should go from `depending` too
        else:
            self.pages.move_to_end(key)
        return page

    def changed(self, part):
        part.version += 1
        for page in self.depending.pop(part.number, []):
            self.pages.pop(page.key, None)


cache = Cache()
parts = [Part(number) for number in range(40)]


def main(requests):
    rng, length = random.Random(2), 0
    for request in range(requests):
        first = min(39, int(rng.expovariate(0.1)))
        key = first, rng.randrange(40), rng.randrange(4)
        length += len(cache.get(key, [parts[first], parts[key[1]]]).text)
        if request % 50 == 49:
            cache.changed(parts[rng.randrange(30, 40)])
    kept = {id(page) for pages in cache.depending.values() for page in pages}
    print(f"{requests} requests, {length} characters; {len(cache.pages)} pages in the cache, {len(kept)} kept")


main(int(sys.argv[1]) if len(sys.argv) > 1 else 3_000)
