"""A random stream of several clients under construction: frames, each with the model's reply."""

import random
import struct

from feqyldan import wire
from feqyldan.wire import SUCCESS, U8
from checks import model
from checks.model.functions import GREATEST_SIDE
from checks.model.graphs import cells_written
from checks.model.state import (
    AGE_DELAY, CREATE_DELAY, CREATE_IMAGE, IMMEDIATE, OPEN_CONTEXT, PROCESS_GRAPH, QUERY_IMAGE,
    READ_IMAGE, SET_VALID, WRITE_IMAGE)
from checks.streams import bodies
from checks.streams.bodies import spoiled
from checks.streams.draw import Draw, cell_bytes, long
from checks.streams.requests import (
    BODIES, FEW, GRAPH, NO_GRAPH, QUESTIONS, TAKEN_AT, UNKNOWN, WEIGHTS, WRITTEN_AT)
from checks.streams.session import ENDED, Session


def any_limits(rng, size):
    """Draws limits, mostly the default ones, or few bytes, often the size of a few images."""
    width, height = size
    quota, work = (max(1, width * height * rng.randint(1, most) + rng.choice((0, 0, -1, -1, 1)))
                   for most in (60, 4))
    changes = {}
    if rng.random() < 0.25:
        changes["quota"] = quota
    if rng.random() < 0.55:
        changes["work"] = work
    return model.LIMITS._replace(**changes)


class Stream:
    """A stream under construction. Every request is also given to the model, whose state guides the
    next one."""

    def __init__(self, seed, has_any_limits):
        self.rng = random.Random(seed)
        self.size = self.rng.randint(1, 8), self.rng.randint(1, 8)
        self.limits = any_limits(self.rng, self.size) if has_any_limits else model.LIMITS
        self.clients = model.Clients(self.limits)
        self.frames, self.replies, self.draws, self.sessions = [], [], {}, {}
        # The number of nodes of the graphs that ran.
        self.runs = []

    def draw_of(self, client):
        if client not in self.draws:
            self.draws[client] = Draw(self.rng, self.clients.state_of(client), self.limits,
                                      self.size)
        return self.draws[client]

    def ask(self, client, op, body):
        """Adds a request, and returns the code of the reply."""
        frame = wire.frame(client, op, body)
        self.frames.append(frame)
        self.replies.append(self.clients.reply(frame))
        code = wire.code_of(self.replies[-1])
        if (op, code) == (PROCESS_GRAPH, SUCCESS):
            self.runs.append(len(self.graph_of(client, body).nodes))
        return code

    def graph_of(self, client, name):
        return self.draw_of(client).live()[int.from_bytes(name, "big")]

    def ask_any(self, client, op):
        """Adds a random request of an op, and returns the code. Often reads the result right
        after."""
        draw = self.draw_of(client)
        body = spoiled(draw, BODIES[op](draw))
        taken = [body[at : at + 5] for at in TAKEN_AT.get(body[:1], ())]
        if op == IMMEDIATE and draw.chance(0.25):
            self.confine(client, taken)
        code = self.ask(client, op, body)
        if code == SUCCESS and op == IMMEDIATE and draw.chance(0.2):
            self.ask_about(client, [body[at : at + 5] for at in WRITTEN_AT[op]])
            self.confine(client, taken, 0.3)
            code = self.ask(client, op, body)
        if code == SUCCESS and op in WRITTEN_AT:
            self.ask_about(client, [body[at : at + 5] for at in WRITTEN_AT[op]])
        if code == SUCCESS and op == PROCESS_GRAPH:
            graph = self.graph_of(client, body)
            written = [*cells_written(graph.nodes.values()), *draw.slots_of(graph.delays)]
            self.ask_about(client, [cell_bytes(cell) for cell in written])
        if code == SUCCESS and op == AGE_DELAY:
            names = [int.from_bytes(body, "big")]
            self.ask_about(client, [cell_bytes(cell) for cell in draw.slots_of(names)])
        return code

    def ask_about(self, client, references, share=0.5):
        """Often reads the samples and the rectangles of images, and the contents of other
        objects."""
        draw = self.draw_of(client)
        for kind, ops in QUESTIONS.items():
            cells = [cell for cell, _ in draw.cells(kind) if cell_bytes(cell) in references]
            for op in ops:
                if draw.chance(share):
                    for cell in cells:
                        self.ask(client, op,
                                 cell_bytes(cell) if op in (QUERY_IMAGE, READ_IMAGE)
                                 else long(cell.name))

    def confine(self, client, references, share_of_none=0):
        """Makes the images among the references valid in a part. With a chance of `share_of_none`
        makes all of them valid nowhere."""
        draw = self.draw_of(client)
        is_none = draw.chance(share_of_none)
        for cell, image in draw.cells(model.Image):
            if cell_bytes(cell) in references:
                rectangle = model.EMPTY if is_none else bodies.allowed_rectangle(draw, image)
                self.ask(client, SET_VALID, cell_bytes(cell) + model.rectangle_bytes(rectangle))

    def ask_unknown(self, client):
        draw = self.draw_of(client)
        op = draw.pick([op for op in range(256) if op not in BODIES])
        known = b"".join(BODIES[draw.pick(BODIES)](draw))
        self.ask(client, op, draw.pick((known, draw.rng.randbytes(draw.pick((0, 1, 5, 25, 80))))))

    def ask_something(self, client):
        context = self.clients.state_of(client).context
        if context is None:
            self.ask_any(client,
                         OPEN_CONTEXT if self.rng.random() < 0.4 else self.rng.choice([*BODIES]))
        elif client in self.sessions and self.rng.random() < 0.8:
            self.ask_of_graph(client)
        elif len(self.draw_of(client).objects(NO_GRAPH)) < 18 and self.rng.random() < 0.6:
            self.ask_create(client)
        else:
            self.ask_by_weight(client)

    def ask_of_graph(self, client):
        """Adds the next request of a session, which begins if the client has none."""
        if client not in self.sessions:
            self.sessions[client] = Session(self, client).steps()
        if next(self.sessions[client], ENDED) is ENDED:
            del self.sessions[client]

    def ask_by_weight(self, client):
        op = self.rng.choices([*WEIGHTS], WEIGHTS.values())[0]
        if op is UNKNOWN:
            self.ask_unknown(client)
        elif op is GRAPH:
            self.ask_of_graph(client)
        else:
            self.ask_any(client, op)

    def ask_create(self, client):
        """Adds a random create. Often writes the new images, and makes them valid in a part."""
        op = self.rng.choices([*FEW], FEW.values())[0]
        draw = self.draw_of(client)
        if self.ask_any(client, op) == SUCCESS and op in (CREATE_IMAGE, CREATE_DELAY):
            newest = max(draw.live())
            for cell, image in draw.cells(model.Image):
                if cell.name == newest and draw.chance(0.7):
                    samples = draw.samples(image.fmt, image.width * image.height)
                    self.ask(client, WRITE_IMAGE,
                             cell_bytes(cell) + model.description_bytes(image) + samples)
                if cell.name == newest and draw.chance(0.3):
                    self.confine(client, [cell_bytes(cell)])

    def ask_for_bytes(self, client, count):
        """Creates an image of this many bytes, and returns the code."""
        return self.ask(client, CREATE_IMAGE, struct.pack(">BHH", U8, min(count, GREATEST_SIDE), 1))

    def use_up_quota(self, client):
        """Checks if the client has used up its quota, and otherwise tries to do so with one
        image."""
        left = self.limits.quota - model.charge(self.clients.state_of(client).context)
        is_little = left <= GREATEST_SIDE
        return left == 0 or (is_little and self.ask_for_bytes(client, left) == SUCCESS)

    def ask_about_all(self):
        for client, draw in self.draws.items():
            self.ask_about(client, [cell_bytes(cell) for cell, _ in draw.cells()], 1)
