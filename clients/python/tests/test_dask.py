"""Pictures on a local cluster of two worker processes, one of which is killed in the middle."""

import functools
import multiprocessing
import os
import pickle
import signal
import tempfile
import time
import unittest
from unittest import mock

from program import CORE, SERVED, needs_program, of_a_process, vx
from feqyldan.dask import SERVERS, Job, map_pictures, server_of, shape_of, worker_server_of

try:
    import distributed
except ImportError:
    distributed = None

needs_distributed = unittest.skipUnless(distributed,
                                        "distributed isn't installed (Debian's "
                                        "python3-distributed)")
WIDTH, HEIGHT, PICTURES = 8, 6, 60


def inverse(context, width, height):
    """Returns a graph that inverts the bits, through a virtual image."""
    source, target = context.image(vx.U8, width, height), context.image(vx.U8, width, height)
    graph = context.graph()
    between = graph.virtual_image()
    graph.not_(source, between)
    graph.or_(between, between, target)
    return graph, source, target


def several(context, width, height):
    """Returns a graph with a list of outputs, as a stream takes them."""
    graph, source, target = inverse(context, width, height)
    return graph, source, [target]


def swapped(context, width, height):
    graph, source, target = inverse(context, width, height)
    return graph, target, source


def held_inverse(path, context, width, height):
    """Returns the same as inverse(), but waits with the widest graphs until a file exists at a
    path."""
    while width == WIDTH and not os.path.exists(path):
        time.sleep(0.01)
    return inverse(context, width, height)


def summing(context, width, height):
    """Returns a graph that adds up all pictures."""
    image, sums = context.image(vx.U8, width, height), context.image(vx.S16, width, height)
    graph = context.graph()
    graph.accumulate(image, sums)
    return graph, image, sums


def comparing(context, width, height):
    """Returns a graph that compares each picture with the one before."""
    image = context.image(vx.U8, width, height)
    old, graph = context.delay(image, 2), context.graph()
    graph.absdiff(old[0], old[-1], image)
    graph.register_auto_aging(old)
    return graph, old[0], image


def looping(context, width, height):
    """Returns a graph that can't run."""
    graph, source, target = inverse(context, width, height)
    round_about = graph.virtual_image()
    graph.min(source, round_about, round_about)
    return graph, source, target


def overwriting(context, width, height):
    """Returns a graph that writes its input before it reads it."""
    images = [context.image(vx.U8, width, height) for _ in range(3)]
    graph = context.graph()
    graph.not_(images[0], images[1])
    graph.not_(images[1], images[2])
    return graph, images[1], images[2]


def doubling(context, width, height):
    """Returns a graph of S16 that doubles the samples."""
    image, doubled = (context.image(vx.S16, width, height) for _ in range(2))
    graph = context.graph()
    graph.add(image, image, vx.SATURATE, doubled)
    return graph, image, doubled


def picture(number, width=WIDTH):
    return [[(7 * number + 3 * y + x) % 256 for x in range(width)] for y in range(HEIGHT)]


def inverted(rows):
    return [[255 - sample for sample in row] for row in rows]


def rows_of(output):
    return output.tolist() if hasattr(output, "tolist") else output


def worker_process():
    return os.getpid()


def servers():
    """Returns the processes of this worker's servers."""
    from feqyldan import dask
    return [worker.server._process.pid for worker in dask.SERVERS.values()
            if worker.server._process is not None]


def is_running(process):
    """Returns whether a process exists and is no zombie."""
    try:
        with open(f"/proc/{process}/stat") as file:
            return file.read().rpartition(")")[2].split()[0] != "Z"
    except FileNotFoundError:
        return False


class TestRefusals(unittest.TestCase):
    def test_a_refusal_travels(self):
        refused = vx.InvalidGraph("process graph 3")
        copy = pickle.loads(pickle.dumps(refused))
        self.assertEqual((type(copy), str(copy), copy.request),
                         (type(refused), str(refused), refused.request))


class NoClient:
    """A client that must not be used."""

    def map(self, *_, **__):
        raise AssertionError("something was sent")


class TestMistakes(unittest.TestCase):
    def test_what_is_no_graph_and_no_pictures(self):
        with self.assertRaisesRegex(TypeError, "a function of a context"):
            map_pictures(NoClient(), None, [picture(1)], program="vx_main")
        with self.assertRaisesRegex(TypeError, r"one array of shape \(2, 2\): pass \[picture\]"):
            map_pictures(NoClient(), inverse, memoryview(bytes(4)).cast("B", (2, 2)))
        try:
            import numpy
        except ImportError:
            return
        with self.assertRaisesRegex(TypeError, r"one array of shape \(2, 2\): pass \[picture\]"):
            map_pictures(NoClient(), inverse, numpy.zeros((2, 2), numpy.uint8), program="vx_main")
        with self.assertRaisesRegex(vx.BadPicture, r"\(2, 4, 3\): make a grey one of it"):
            shape_of(numpy.zeros((2, 4, 3), numpy.uint8))
        self.assertEqual(shape_of(numpy.zeros((2, 4, 1), numpy.uint8)), (2, 4))

        class Tensor:
            """An array that NumPy knows by DLPack alone."""

            def __dlpack__(self, stream=None):
                return numpy.zeros((2, 4), numpy.uint8).__dlpack__(stream=stream)

            def __dlpack_device__(self):
                return numpy.zeros((2, 4), numpy.uint8).__dlpack_device__()

        self.assertEqual(shape_of(Tensor()), (2, 4))

    def test_an_iterator_without_a_shape(self):
        """PIL's images are arrays for NumPy, and don't say how many dimensions they have."""
        class Picture:
            __array_interface__ = {}

        with self.assertRaisesRegex(TypeError, "'Picture' object is not iterable"):
            map_pictures(NoClient(), inverse, Picture())

    def test_a_program_that_a_worker_lacks(self):
        with mock.patch("feqyldan.dask.Server", side_effect=vx.ProgramNotFound("no program")):
            with self.assertRaisesRegex(vx.ProgramNotFound,
                                        "^on the worker's machine .+: no program$"):
                server_of(Job("one", inverse, None, None, None))


def send_output(job, pipe):
    pipe.send(rows_of(job.run(picture(1))))


@needs_program
class TestGraphsThatKeepSomething(unittest.TestCase):
    def test_they_need_every_picture(self):
        self.addCleanup(lambda: SERVERS.pop((SERVED, None, None)).server.close())
        for build, kept in ((summing, "sums, by accumulate"), (comparing, "delay 2")):
            job = Job("one", build, SERVED, None, None)
            with self.assertRaisesRegex(ValueError, f"keeps {kept}.* by graph.stream"):
                job.run(picture(1))


@needs_program
class TestLines(unittest.TestCase):
    """The graphs that a job's function builds on a worker."""

    def setUp(self):
        self.addCleanup(lambda: SERVERS.pop((SERVED, None, None)).server.close())

    def job(self, build):
        return Job("one", build, SERVED, None, None)

    def test_a_function_that_keeps_its_objects(self):
        """Two threads would write their pictures to one image. Each context has objects of the same
        names."""
        for at in range(3):
            kept = []

            def build(*given):
                built = inverse(*given)
                kept.append(built[at])
                return (*built[:at], kept[0], *built[at + 1 :])

            job = self.job(build)
            line = worker_server_of(job).take(("one", WIDTH, HEIGHT), build)
            with self.assertRaisesRegex(vx.InvalidScope, "belongs to another context"):
                job.run(picture(1))
            self.assertEqual(rows_of(line.run(picture(1))), inverted(picture(1)))

    def test_an_input_that_the_graph_overwrites(self):
        """The output would be the same for every picture."""
        with self.assertRaisesRegex(ValueError, "and node 1, .*, writes over them"):
            self.job(overwriting).run(picture(1))

    def test_rows_of_wide_samples(self):
        self.assertEqual(rows_of(self.job(doubling).run([[300, -4]])), [[600, -8]])
        with self.assertRaisesRegex(vx.WrongPicture, "S16 must be .* not 40000"):
            self.job(doubling).run([[40000, 1]])


@needs_program
class TestForks(unittest.TestCase):
    def test_a_forked_worker_starts_its_own_server(self):
        job = Job("one", inverse, SERVED, None, None)
        self.addCleanup(lambda: SERVERS.pop((SERVED, None, None)).server.close())
        self.assertEqual(rows_of(job.run(picture(1))), inverted(picture(1)))
        ours, theirs = multiprocessing.Pipe()
        child = multiprocessing.get_context("fork").Process(target=send_output, args=(job, theirs))
        child.start()
        self.addCleanup(child.join)
        self.assertTrue(ours.poll(30))
        self.assertEqual(ours.recv(), inverted(picture(1)))
        self.assertEqual(rows_of(job.run(picture(2))), inverted(picture(2)))


@needs_distributed
@needs_program
class TestCluster(unittest.TestCase):
    def setUp(self):
        self.cluster = distributed.LocalCluster(
            n_workers=2, threads_per_worker=2, processes=True, dashboard_address=None,
            silence_logs=50)
        self.addCleanup(self.cluster.close)
        self.client = distributed.Client(self.cluster)
        self.addCleanup(self.client.close)

    def map(self, graph, pictures, **options):
        return map_pictures(self.client, graph, pictures, program=SERVED, **options)

    def gathers(self, futures, pictures):
        outputs = self.client.gather(futures)
        self.assertEqual([rows_of(output) for output in outputs],
                         [inverted(rows) for rows in pictures])

    def ends(self, processes):
        until = time.monotonic() + 30
        while any(map(is_running, processes)) and time.monotonic() < until:
            time.sleep(0.05)
        self.assertEqual([process for process in processes if is_running(process)], [])

    def test_order_sizes_and_ends(self):
        # Two of the pictures are equal, and the sizes change.
        pictures = [picture(number // 2, 4 + number % 3) for number in range(24)]
        futures = self.map(inverse, pictures)
        self.assertEqual(len({future.key for future in futures}), 24)
        self.gathers(futures, pictures)
        ours = [process for each in self.client.run(servers).values() for process in each]
        self.assertTrue((0 if CORE else 1) <= len(ours) <= 2, ours)
        # Futures of pictures do as well, and so does a graph that is a lambda.
        ahead = self.client.map(picture, range(4))
        self.gathers(self.map(lambda *given: inverse(*given), ahead),
                     [picture(number) for number in range(4)])
        with self.assertRaises(vx.InvalidGraph) as caught:
            self.map(looping, [picture(1)])[0].result()
        self.assertIn("process graph", caught.exception.request)
        self.gathers(self.map(inverse, pictures[:2]), pictures[:2])
        # A worker finds the program by itself, here by FEQYLDAN_PROGRAM.
        self.gathers(map_pictures(self.client, inverse, pictures[:1]), pictures[:1])
        self.client.close()
        self.cluster.close()
        self.ends(ours)

    def test_mistakes_on_a_worker(self):
        with self.assertRaisesRegex(FileNotFoundError, "on the worker's machine"):
            map_pictures(self.client, inverse, [picture(1)], program="/no/such/program")[0].result()
        with self.assertRaisesRegex(TypeError,
                                    "must return a tuple of the graph, its input image and its "
                                    "output image"):
            self.map(lambda *given: inverse(*given)[1:], [picture(1)])[0].result()
        with self.assertRaisesRegex(TypeError, "its input image and its output image"):
            self.map(several, [picture(1)])[0].result()
        with self.assertRaisesRegex(ValueError, "no node of graph 3 reads: are camera and out"):
            self.map(swapped, [picture(1)])[0].result()

    @of_a_process
    def test_a_server_is_killed(self):
        address = next(iter(self.client.run(worker_process)))
        for options, ends in (({}, True), ({"retries": 1}, False)):
            self.gathers(self.map(inverse, [picture(1)], workers=[address]), [picture(1)])
            killed, = self.client.run(servers, workers=[address])[address]
            os.kill(killed, signal.SIGKILL)
            futures = self.map(inverse, [picture(2)], workers=[address], **options)
            if ends:
                with self.assertRaises(vx.ServerEnded) as caught:
                    futures[0].result()
                self.assertEqual(caught.exception.status, -signal.SIGKILL)
            else:
                self.gathers(futures, [picture(2)])
            self.ends([killed])

    @of_a_process
    def test_a_worker_is_killed(self):
        pictures = [picture(number) for number in range(PICTURES)]
        workers = self.client.run(worker_process)
        # A picture for each worker, so that both have a server.
        for address in workers:
            self.gathers(self.map(inverse, pictures[:1], workers=[address]), pictures[:1])
        running = self.client.run(servers)
        victim = next(iter(workers))
        with tempfile.TemporaryDirectory() as folder:
            path = os.path.join(folder, "go")
            # Narrow ones come first, and are done; then each thread waits with one of the widest.
            futures = self.map(functools.partial(held_inverse, path),
                               [[row[: 1 + number % WIDTH] for row in rows]
                                for number, rows in enumerate(pictures)])
            next(iter(distributed.as_completed(futures)))
            os.kill(workers[victim], signal.SIGKILL)
            self.assertFalse(all(future.done() for future in futures))
            with open(path, "w", encoding="utf-8"):
                pass
            distributed.wait(futures)
        self.gathers(futures,
                     [[row[: 1 + number % WIDTH] for row in rows]
                      for number, rows in enumerate(pictures)])
        self.ends(running[victim])
        # A worker that is closed while it starts writes a traceback.
        self.client.wait_for_workers(2, timeout=30)


if __name__ == "__main__":
    unittest.main()
