"""A part of a random stream in which a client creates a graph, runs it and changes it."""

from feqyldan import wire
from feqyldan.wire import SUCCESS
from checks import model
from checks.model.graphs import cells_added_to, cells_of, cells_read, cells_written
from checks.model.state import (
    ADD_NODE, AGE_DELAY, CREATE_GRAPH, CREATE_VIRTUAL_IMAGE, PROCESS_GRAPH, REGISTER_AUTO_AGING,
    RELEASE, REMOVE_NODE, VERIFY_GRAPH, WRITE_IMAGE)
from checks.streams import nodes as random_nodes
from checks.streams.bodies import spoiled
from checks.streams.draw import cell_bytes, long

# The value of a session that has ended.
ENDED = object()


class Session:
    """The requests of a client about one graph: create it, run it, change it and run it again."""

    def __init__(self, stream, client):
        self.stream, self.client, self.draw = stream, client, stream.draw_of(client)
        # The fields of the added nodes by number, and those that made the graph faulty.
        self.name, self.added, self.faulty = None, {}, []

    def ask(self, op, *fields):
        body = spoiled(self.draw, [*fields]) if self.draw.chance(0.15) else b"".join(fields)
        return self.stream.ask(self.client, op, body)

    def graph(self):
        """Returns the graph, or None if it or its context was released."""
        thing = self.draw.live().get(self.name)
        return thing if isinstance(thing, model.Graph) else None

    def nodes(self):
        return [*self.graph().nodes.values()]

    def steps(self):
        """Yields after each request, so that others can come between."""
        if self.stream.ask_any(self.client, CREATE_GRAPH) != SUCCESS:
            return
        self.name = max(self.draw.live())
        begin = [Session.make, *[Session.register] * self.draw.chance(0.2), Session.run]
        steps = [*begin, *[Session.change] * self.draw.pick((0, 1, 2, 4, 7))]
        for step in steps:
            yield
            if self.graph() is None:
                return
            yield from step(self)

    def change(self):
        """Changes the graph. Often removes a node that makes it faulty first."""
        if self.draw.chance(0.6) and any(number in self.graph().nodes for number in self.faulty):
            return self.remove()
        return self.draw.rng.choices([*CHANGES], CHANGES.values())[0](self)

    def make(self):
        draw, rng = self.draw, self.draw.rng
        count = rng.choices((rng.randint(0, 3), rng.randint(4, 10), rng.randint(11, 40)),
                            (4, 6, 2))[0]
        for _ in range(rng.randint(count // 2, count + 1)):
            self.ask(CREATE_VIRTUAL_IMAGE, long(self.name), *draw.declared())
            yield
        if self.graph() is None:
            return
        work = draw.limits.work if draw.chance(0.5) else model.LIMITS.work
        nodes = random_nodes.any_nodes(draw, self.name, count, work)
        faults = self.faults_for(nodes) if draw.chance(0.25) else []
        # Often combined with another fault, to see which of them is reported.
        has_sum = draw.chance(0.3 if faults else 0.06)
        nodes, sums = random_nodes.with_virtual_sum(draw, nodes) if has_sum else (nodes, [])
        nodes, faults = [*nodes, *faults], [*faults, *sums]
        if draw.chance(0.7):
            rng.shuffle(nodes)
        for fields, node in nodes:
            self.add(fields, (fields, node) in faults)
            yield

    def faults_for(self, nodes):
        """Returns nodes, each of which makes the graph faulty by itself."""
        nodes = [node for _, node in nodes]
        found = [random_nodes.node_for(self.draw, self.name, nodes, code)
                 for code in random_nodes.some_faults(self.draw)]
        return [fault for fault in found if fault]

    def add(self, fields, is_faulty):
        if self.ask(ADD_NODE, long(self.name), *fields) == SUCCESS:
            number = wire.node_of(self.stream.replies[-1])
            self.added[number] = fields
            self.faulty += [number] if is_faulty else []

    def run(self):
        if self.draw.chance(0.4):
            self.ask(VERIFY_GRAPH, long(self.name))
            self.ask_about_outputs(0.1)
            yield
        if self.graph() is not None:
            code = self.ask(PROCESS_GRAPH, long(self.name))
            self.ask_about_outputs(0.8 if code == SUCCESS else 0.1)
            yield

    def ask_about_outputs(self, share):
        written = [*cells_written(self.nodes()), *self.draw.slots_of(self.graph().delays)]
        self.stream.ask_about(self.client, [cell_bytes(cell) for cell in written], share)

    def used(self):
        """Returns the names in its nodes."""
        return {cell.name for node in self.nodes() for cell in cells_of(node)}

    def delays(self):
        """Returns the names that its nodes read. If there are none, and sometimes otherwise,
        returns all names."""
        read = {cell.name for cell in cells_read(self.nodes())}
        delays = [name for name, _ in self.draw.objects(model.Delay)]
        those = [] if self.draw.chance(0.15) else [name for name in delays if name in read]
        return those or delays

    def age(self):
        delays = self.delays()
        if delays:
            self.ask(AGE_DELAY, long(self.draw.pick(delays)))
            yield
            yield from self.run_again()

    def register(self):
        """Registers delays for ageing; sometimes one of them twice, or with another graph too, or
        followed by its release."""
        delays, graphs = self.delays(), [name for name, _ in self.draw.objects(model.Graph)]
        count = self.draw.pick((1, 1, 2, 3)) if delays else 0
        for delay in self.draw.rng.choices(delays, k=count):
            self.ask(REGISTER_AUTO_AGING, long(self.name), long(delay))
            if self.draw.chance(0.3):
                self.ask(REGISTER_AUTO_AGING, long(self.draw.pick(graphs)), long(delay))
            yield
        yield from self.run_again()
        if delays and self.graph() is not None and self.draw.chance(0.4):
            self.ask(RELEASE, long(delay))
            for _ in range(3):
                yield
                yield from self.run_again()

    def release_registered(self):
        """Registers a delay that no node uses, and releases it. Its bytes are then free."""
        used = self.used()
        delays = [(name, thing)
                  for name, thing in self.draw.objects(model.Delay) if name not in used]
        if not delays or not self.stream.use_up_quota(self.client):
            return
        name, thing = self.draw.pick(delays)
        self.ask(REGISTER_AUTO_AGING, long(self.name), long(name))
        self.ask(RELEASE, long(name))
        self.stream.ask_for_bytes(self.client, model.object_bytes(thing))
        yield
        yield from self.run_again()

    def write(self):
        """Replaces an image that is read or added to, or its valid rectangle."""
        taken = {*cells_read(self.nodes()), *cells_added_to(self.nodes())}
        images = [(cell, image) for cell, image in self.draw.cells(model.Image) if cell in taken]
        if images:
            cell, image = self.draw.pick(images)
            samples = self.draw.samples(image.fmt, image.width * image.height)
            if self.draw.chance(0.7):
                self.ask(WRITE_IMAGE, cell_bytes(cell), model.description_bytes(image), samples)
            if self.draw.chance(0.5):
                self.stream.confine(self.client, [cell_bytes(cell)], 0.2)
            yield
            yield from self.run_again()

    def release(self):
        """Releases an object in use: its name is gone, but the nodes keep it."""
        used = [name for name in sorted(self.used()) if name in self.draw.live()]
        if used:
            self.ask(RELEASE, long(self.draw.pick(used)))
            yield
            self.stream.ask_create(self.client)
            yield from self.run_again()

    def release_at_quota(self):
        """Releases an object in use. It is charged and counted until no node uses it."""
        used = self.used()
        used = [(name, thing)
                for name, thing in self.draw.objects() if name in used
                and model.object_bytes(thing)]
        if not used or not self.stream.use_up_quota(self.client):
            return
        name, thing = self.draw.pick(used)
        self.ask(RELEASE, long(name))
        self.stream.ask_for_bytes(self.client, model.object_bytes(thing))
        yield
        if self.graph() is None:
            return
        if self.draw.chance(0.5):
            self.ask(RELEASE, long(self.name))
        else:
            for number, node in self.graph().nodes.items():
                if any(cell.name == name for cell in cells_of(node)):
                    self.ask(REMOVE_NODE, long(self.name), long(number))
        self.stream.ask_for_bytes(self.client, model.object_bytes(thing))
        yield

    def remove(self):
        """Removes a node, mostly a faulty one; sometimes it is added again."""
        nodes = self.graph().nodes
        numbers = [number for number in self.faulty if number in nodes] or [*nodes]
        if numbers:
            number = self.draw.pick(numbers)
            self.ask(REMOVE_NODE, long(self.name), long(number))
            yield
            if self.draw.chance(0.3) and number in self.added:
                self.ask(ADD_NODE, long(self.name), *self.added[number])
            yield from self.run_again()

    def add_another(self):
        """Adds a node that fits, or one that makes the graph faulty."""
        wanted = SUCCESS if self.draw.chance(0.6) else self.draw.pick(random_nodes.FAULTS)
        found = random_nodes.node_for(self.draw, self.name, self.nodes(), wanted)
        if found:
            self.add(found[0], wanted != SUCCESS)
            yield
            yield from self.run_again()

    def run_again(self):
        if self.graph() is not None:
            yield from self.run()

    def end(self):
        """Releases the graph; its virtual images outlive it."""
        self.ask(RELEASE, long(self.name))
        yield
        self.stream.ask_create(self.client)
        virtual = [cell for cell, thing in self.draw.cells(model.VirtualImage)
                   if thing.graph == self.name]
        self.stream.ask_about(self.client, [cell_bytes(cell) for cell in virtual], 0.3)


CHANGES = {
    Session.age: 5, Session.register: 5, Session.write: 4, Session.release: 5,
    Session.release_at_quota: 3, Session.release_registered: 3, Session.remove: 7,
    Session.add_another: 6, Session.run: 1, Session.end: 2}
