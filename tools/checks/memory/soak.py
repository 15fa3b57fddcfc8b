"""Several clients that create, write, run and release at random."""

import random
from typing import Dict, List, NamedTuple, Tuple

from feqyldan import wire
from checks.lockstep import PATIENCE, WrongAnswer
from checks.memory.server import MIB, QUOTA, Program, Server, check_bounds, in_mib, serving

CLIENTS, REQUESTS, SEED = 8, 20_000, 1
LONGEST_SIDE = 512
# The approximate number of images and delays of a client.
HELD = 24
# The server's memory besides samples, in bytes: its own, the current frame and reply, objects, and
# memory that the allocator doesn't return.
BESIDE = 16 * MIB


class Image(NamedTuple):
    """The contents of an image: the same byte everywhere."""

    fmt: int
    width: int
    height: int
    fill: int

    def samples(self) -> bytes:
        return bytes([self.fill]) * self.bytes()

    def bytes(self) -> int:
        return self.width * self.height * wire.sample_bytes(self.fmt)


class Client:
    """A client of the soak, with its objects. Each name has one image, or the images of a delay's
    slots."""

    def __init__(self, server: Server, number: int, rng: random.Random) -> None:
        self.server, self.number, self.rng = server, number, rng
        self.images: Dict[int, List[Image]] = {}
        # The sample bytes of all images, and of the virtual images of this step's run.
        self.live = self.virtual = 0
        server.ask(wire.open_context(number))

    def cell(self, name: int, slot: int) -> wire.Reference:
        return name if len(self.images[name]) == 1 else wire.reference(name, slot)

    def any_cell(self) -> Tuple[int, int]:
        name = self.rng.choice([*self.images])
        return name, self.rng.randrange(len(self.images[name]))

    def step(self) -> None:
        self.virtual = 0
        self.any_request()
        self.live = sum(image.bytes() for images in self.images.values() for image in images)

    def any_request(self) -> None:
        if not self.images or self.rng.random() < 0.5 * (1 - len(self.images) / HELD / 2):
            self.create()
        else:
            steps = (self.write, self.read, self.run, self.age, self.release, self.end)
            self.rng.choices(steps, (30, 10, 5, 5, 25, 0.2))[0]()

    def create(self) -> None:
        fmt = self.rng.choice([*wire.Format])
        width, height = (self.rng.randint(1, LONGEST_SIDE) for _ in range(2))
        name = self.server.create(wire.create_image(self.number, fmt, width, height))
        self.images[name] = [Image(fmt, width, height, 0)]
        if self.rng.random() < 0.3:
            self.compare(name, 0)
        if self.rng.random() < 0.2:
            self.create_delay(name)

    def create_delay(self, exemplar: int) -> None:
        slots = self.rng.randint(2, 4)
        name = self.server.create(wire.create_delay(self.number, exemplar, slots))
        self.images[name] = [self.images[exemplar][0]._replace(fill=0)] * slots
        if self.rng.random() < 0.3:
            self.compare(name, slots - 1)

    def write(self) -> None:
        name, slot = self.any_cell()
        image = self.images[name][slot]._replace(fill=self.rng.randrange(1, 256))
        self.server.ask(wire.write_image(self.number, self.cell(name, slot), image.fmt,
                                         image.width, image.height, image.samples()))
        self.images[name][slot] = image

    def read(self) -> None:
        self.compare(*self.any_cell())

    def compare(self, name: int, slot: int) -> None:
        """Checks that a read returns the bytes that were last written, or 0."""
        image = self.images[name][slot]
        reply = self.server.ask(wire.read_image(self.number, self.cell(name, slot)))
        size = image.fmt, image.width, image.height
        if wire.size_of(reply) != size or reply[13:] != image.samples():
            raise WrongAnswer(f"request {self.server.asked}: image {name} isn't {image}")

    def run(self) -> None:
        """Inverts a U8 image three times, through two virtual images."""
        name, slot = self.any_cell()
        image = self.images[name][slot]
        if image.fmt != wire.U8:
            return
        server, number = self.server, self.number
        output = server.create(wire.create_image(number, wire.U8, image.width, image.height))
        graph = server.create(wire.create_graph(number))
        between = [server.create(wire.create_virtual_image(number, graph)) for _ in range(2)]
        cells = [self.cell(name, slot), *between, output]
        for source, target in zip(cells, cells[1:]):
            server.ask(wire.add_node(number, graph, wire.NOT_BITS, source, None, target))
        self.images[output] = [image._replace(fill=255 - image.fill)]
        self.virtual = 2 * image.bytes()
        server.ask(wire.process_graph(number, graph))
        self.compare(output, 0)
        for gone in (*between, graph):
            server.ask(wire.release(number, gone))

    def age(self) -> None:
        name, _ = self.any_cell()
        images = self.images[name]
        if len(images) > 1:
            self.server.ask(wire.age_delay(self.number, name))
            self.images[name] = [images[-1], *images[:-1]]

    def release(self) -> None:
        name = self.rng.choice([*self.images])
        self.server.ask(wire.release(self.number, name))
        del self.images[name]

    def end(self) -> None:
        """Releases the context with all of its objects, and opens another one."""
        self.server.ask(wire.release_context(self.number))
        self.server.ask(wire.open_context(self.number))
        self.images = {}


def soak(program: Program, requests: int = REQUESTS) -> str:
    """Runs several clients that create, write, run and release at random."""
    rng = random.Random(SEED)
    peak = 0
    with serving(program, QUOTA, PATIENCE * max(1, requests / REQUESTS)) as server:
        clients = [Client(server, number, rng) for number in range(1, CLIENTS + 1)]
        while server.asked < requests:
            client = rng.choice(clients)
            client.step()
            peak = max(peak, sum(each.live for each in clients) + client.virtual)
        return compare_peak(server, peak)


def compare_peak(server: Server, peak: int) -> str:
    """Checks the peak memory of the server. It must also cover the peak of live samples: new images
    are set to 0, so all of them have memory."""
    most = server.memory("VmHWM")
    bound = 2 * peak + BESIDE
    told = (f"at most {in_mib(most)} while {server.asked} requests had at most {in_mib(peak)} of "
            f"samples, for which {in_mib(bound)} are allowed")
    return check_bounds(told, most, bound, peak)
