"""A search for card pages of its own, written from the sentences of ticket C-24, and the answers of a program held to it.

packs.py PACKS EXAMPLES LISTS: PACKS is packs.c over the static library. The worked examples of the file EXAMPLES (sizes | budget -> refusal, pages, steps,
above) are held to the search too, and then come LISTS random lists.
"""
import random
import subprocess
import sys

PAGE = 4096
MOST = 32
# What is answered to a list that is refused: the refusal, the pages opened, each image's page, the steps, the pages above the bound.
REFUSED = (19, 0, [], 0, 0)


class Search:
    """Pages are lists of images (their places in the list), in the order in which they were opened."""

    def __init__(self, sizes, budget):
        self.sizes = sizes
        self.left = budget
        self.steps = 0
        # The step that met the best packing, 0 for the start.
        self.met = 0
        self.order = sorted(range(len(sizes)), key=lambda image: (-sizes[image], image))
        self.best = self.start()

    def fits(self, image, page):
        return sum(self.sizes[other] for other in page) + self.sizes[image] <= PAGE

    def start(self):
        """The largest first, equals in list order, each on the first page with room."""
        pages = []
        for image in self.order:
            page = next((page for page in pages if self.fits(image, page)), None)
            if page is None:
                pages.append([image])
            else:
                page.append(image)
        return pages

    def place(self, k, pages):
        """Image k of the order, page by page, an open page before one new page; each placement is a step, and a page without room is none."""
        if k == len(self.order):
            if len(pages) < len(self.best):
                self.best = [list(page) for page in pages]
                self.met = self.steps
            return
        image = self.order[k]
        for p in range(len(pages) + 1):
            if self.left == self.steps:
                return
            fresh = p == len(pages)
            if not fresh and not self.fits(image, pages[p]):
                continue
            self.steps += 1
            if fresh:
                pages.append([])
            pages[p].append(image)
            self.place(k + 1, pages)
            pages[p].pop()
            if fresh:
                pages.pop()


def searched(sizes, budget):
    search = Search(sizes, budget)
    search.place(0, [])
    return search


def is_refused(sizes):
    return len(sizes) > MOST or any(size > PAGE for size in sizes)


def answer(sizes, budget):
    """What the ticket says."""
    if is_refused(sizes):
        return REFUSED
    search = searched(sizes, budget)
    page_of = {image: p for p, page in enumerate(search.best) for image in page}
    bound = -(-sum(sizes) // PAGE)
    return 0, len(search.best), [page_of[image] for image in range(len(sizes))], search.steps, len(search.best) - bound


def examples(path):
    """((sizes, budget), answer) of each line; the pages opened are the highest page and one more."""
    with open(path, encoding="utf-8") as f:
        lines = [line for line in f if "->" in line and not line.startswith("#")]
    for line in lines:
        left, right = line.split("->")
        sizes, budget = left.split("|")
        refusal, _, pages, _, steps, _, above = right.split()
        pages = [int(page) for page in pages.split(",")] if pages != "-" else []
        yield ([int(size) for size in sizes.replace("-", "").split()], int(budget)), (int(refusal), max(pages, default=-1) + 1, pages, int(steps), int(above))


def cut_pages(rng):
    """Two or three whole pages cut in three: the start often needs one page more."""
    sizes = []
    for _ in range(rng.randint(2, 3)):
        a, b = sorted((rng.randint(0, PAGE), rng.randint(0, PAGE)))
        sizes += [a, b - a, PAGE - b]
    rng.shuffle(sizes)
    return sizes


def sizes_of(rng):
    """A list of one of several kinds, and now and then one image above a page, or too many images."""
    if rng.random() < 0.1:
        return cut_pages(rng)
    n = rng.choice((rng.randint(0, 10), rng.randint(4, 12), rng.randint(0, MOST), rng.randint(MOST - 4, MOST + 1)))
    if rng.random() < 0.03:
        n = rng.randint(MOST + 1, 40)
    kinds = [
        lambda: rng.randint(0, PAGE),
        lambda: rng.randint(0, 900),
        lambda: rng.randint(1000, 2100),
        lambda: PAGE // rng.randint(1, 5) + rng.randint(-1, 1),
        lambda: rng.choice((0, 1, 2048, 2049, 4095, PAGE)),
        lambda: rng.randrange(1020, 1870, 170),
        lambda: rng.choice((1190, 1360, 1530, 1700)),
        lambda: 0,
    ]
    kind = rng.choice([*kinds, lambda: rng.choice(kinds)()])
    sizes = [min(max(kind(), 0), PAGE) for _ in range(n)]
    if sizes and rng.random() < 0.05:
        sizes[rng.randrange(n)] = rng.choice((PAGE + 1, 5000, 65535, rng.randint(PAGE + 1, 65535)))
    return sizes


def random_lists(count):
    """Half of the lists where the search beats the start have just the steps that it takes, or one less."""
    rng = random.Random(24)
    for _ in range(count):
        sizes = sizes_of(rng)
        budget = rng.choice((0, len(sizes), rng.randint(0, 100), rng.randint(0, 3000)))
        met = 0 if is_refused(sizes) else searched(sizes, budget).met
        yield sizes, met - rng.randint(0, 1) if met and rng.random() < 0.5 else budget


def answers(program, lists):
    """The program's answers; of a refused list the pages are those that are not 0, and else those behind the last must be 0."""
    asked = "".join(" ".join(map(str, [budget, *sizes])) + "\n" for sizes, budget in lists)
    told = subprocess.run([program], input=asked, stdout=subprocess.PIPE, check=True, text=True).stdout.splitlines()
    for (sizes, _), line in zip(lists, told, strict=True):
        refusal, opened, steps, above, *pages = map(int, line.split())
        used = 0 if refusal else len(sizes)
        yield refusal, opened, pages[:used] if not any(pages[used:]) else pages, steps, above


def held(name, lists, due, got):
    """How many are answered as they are due; a line for each of the first ten that are not."""
    wrong = [(asked, d, g) for asked, d, g in zip(lists, due, got, strict=True) if d != g]
    for (sizes, budget), d, g in wrong[:10]:
        print(f"{name}: {' '.join(map(str, sizes)) or '-'} | {budget}: {g}, not {d}")
    return len(lists) - len(wrong)


def main(program, path, count):
    stored = list(examples(path))
    lists = [asked for asked, _ in stored]
    due = [answer(*asked) for asked in lists]
    good = [held("the search", lists, [told for _, told in stored], due), held("example", lists, due, answers(program, lists))]
    drawn = list(random_lists(count))
    due = [answer(*asked) for asked in drawn]
    good.append(held("random list", drawn, due, answers(program, drawn)))
    refused = sum(1 for d in due if d[0])
    beaten = sum(1 for asked, d in zip(drawn, due) if not d[0] and d[1] < len(Search(*asked).start()))
    told = f"({refused} refused, {beaten} where the search beats the start)"
    print(f"card pages: {good[1]} of {len(lists)} examples and {good[2]} of {count} random lists agree {told}")
    return bool(lists) and good == [len(lists), len(lists), count]


if __name__ == "__main__":
    sys.exit(0 if main(sys.argv[1], sys.argv[2], int(sys.argv[3])) else 1)
